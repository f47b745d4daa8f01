/* A fixture with parameters of E1.20 and E1.37-1 that few have: orders to reset it and to capture a preset, counts of bad frames, a clock,
 * two scenes, and a lock of its start address. It shows how the firmware learns what a controller asks of it. locked.txt has what it
 * prints: the bytes of the replies are worked out by hand from docs/PARAMETERS.md. docs/C.md reads it part by part. */
#include "asked.h"

/* By ascending PID. The PIN is 1234 at first; the first scene can only be read; RESET_DEVICE takes 01, warm, and FF, cold. */
static const felosumay_parameter PARAMETERS[] = {
    {0, 0, FELOSUMAY_PID_COMMS_STATUS, FELOSUMAY_DS_NOT_DEFINED, FELOSUMAY_CC_GET_CLEAR, 6, FELOSUMAY_UNITS_NONE,
     FELOSUMAY_PREFIX_NONE, 0, {6, {0, 0, 0, 0, 0, 0}}, FELOSUMAY_TEXT("Bad frames"), FELOSUMAY_NO_FIELDS},
    {0, 0, FELOSUMAY_PID_REAL_TIME_CLOCK, FELOSUMAY_DS_NOT_DEFINED, FELOSUMAY_CC_GET_SET, 7, FELOSUMAY_UNITS_NONE,
     FELOSUMAY_PREFIX_NONE, 0, {7, {0x07, 0xD3, 1, 1, 0, 0, 0}}, FELOSUMAY_TEXT("Clock"), FELOSUMAY_NO_FIELDS},
    {0, 9999, FELOSUMAY_PID_LOCK_PIN, FELOSUMAY_DS_PIN, FELOSUMAY_CC_GET_SET, 0, FELOSUMAY_UNITS_NONE, FELOSUMAY_PREFIX_NONE, 0,
     {2, {0x04, 0xD2}}, FELOSUMAY_TEXT("PIN"), FELOSUMAY_NO_FIELDS},
    {0, 1, FELOSUMAY_PID_LOCK_STATE, FELOSUMAY_DS_LOCK, FELOSUMAY_CC_GET_SET, 0, FELOSUMAY_UNITS_NONE, FELOSUMAY_PREFIX_NONE, 0,
     {1, {0}}, FELOSUMAY_TEXT("Lock"), FELOSUMAY_NO_FIELDS},
    {0, 0, FELOSUMAY_PID_LOCK_STATE_DESCRIPTION, FELOSUMAY_DS_NAMES, FELOSUMAY_CC_GET, 0, FELOSUMAY_UNITS_NONE,
     FELOSUMAY_PREFIX_NONE, 0, {0, {0}}, FELOSUMAY_TEXT("Locks"), FELOSUMAY_NO_FIELDS},
    {0, 0, FELOSUMAY_PID_RESET_DEVICE, FELOSUMAY_DS_NOT_DEFINED, FELOSUMAY_CC_SET, 1, FELOSUMAY_UNITS_NONE, FELOSUMAY_PREFIX_NONE,
     0, {1, {0x01}}, FELOSUMAY_TEXT("Reset"), 1, {{0x01, 0x01, 0xFF, 1}}},
    {0, 0, FELOSUMAY_PID_CAPTURE_PRESET, FELOSUMAY_DS_NOT_DEFINED, FELOSUMAY_CC_SET, 8, FELOSUMAY_UNITS_NONE,
     FELOSUMAY_PREFIX_NONE, 0, {8, {0, 1, 0, 0, 0, 0, 0, 0}}, FELOSUMAY_TEXT("Capture"), FELOSUMAY_NO_FIELDS},
    {1, 2, FELOSUMAY_PID_PRESET_STATUS, FELOSUMAY_DS_SCENES, FELOSUMAY_CC_GET_SET, 0, FELOSUMAY_UNITS_NONE, FELOSUMAY_PREFIX_NONE,
     0, {0, {0}}, FELOSUMAY_TEXT("Scenes"), FELOSUMAY_NO_FIELDS},
};

/* The names of the lock states from 1 on. */
static const felosumay_choice NAMES[] = {{0, FELOSUMAY_PID_LOCK_STATE_DESCRIPTION, 1, FELOSUMAY_TEXT("Address locked")}};

static const felosumay_profile PROFILE = {
    /* the root: software, model and category, start address, texts, personalities */
    {0x00000100, 0x0031, 0x0101, 1, FELOSUMAY_TEXT("LED bar"), FELOSUMAY_TEXT("Example"), FELOSUMAY_TEXT("Bar 1"),
     FELOSUMAY_TEXT("1.0"), 1, {{3, FELOSUMAY_TEXT("RGB")}}},
    /* what each sub-device would start as */
    {0x00000100, 0x0032, 0x0101, 1, FELOSUMAY_TEXT("Cell"), FELOSUMAY_TEXT("Example"), FELOSUMAY_TEXT("Cell"),
     FELOSUMAY_TEXT("1.0"), 1, {{0, FELOSUMAY_TEXT("None")}}},
    /* boot software, sub-devices, presets */
    1, 0, 2, FELOSUMAY_TEXT("Boot 1.0"),
    /* how many languages, slots, sensors, self tests and status IDs */
    1, 0, 0, 0, 0,
    {0x656E},
    {{0, 0, 0, {0, {0}}}},
    {{0, 0, 0, 0, 0, 0, 0, 0, {0, {0}}, 0}},
    {{0, {0, {0}}}},
    {{0, {0, {0}}}},
    /* three slots, which nothing describes; its own parameters, and it lacks none */
    3, PARAMETERS, sizeof PARAMETERS / sizeof *PARAMETERS, NULL, 0,
    /* the usual times and workers of slow commands */
    {0, 0, 0, 0},
    {0, 0, 0, 0},
    /* no boot loader, not behind a proxy, and every message of a change waits */
    0, 0, 0,
    /* the name of its lock state, and what that locks */
    NAMES, sizeof NAMES / sizeof *NAMES,
    1, {{FELOSUMAY_PID_DMX_START_ADDRESS, 1}},
    /* one port */
    {0},
    /* no personalities with slots of their own */
    NULL, 0, NULL, 0,
};

/* What the firmware does with an order: it reads its data, which no GET reads, and carries it out once the reply is on the line. */
static void carry_out(const felosumay_responder *fixture, uint16_t pid) {
    uint8_t order[FELOSUMAY_VALUE_BYTES];
    uint64_t count = 0;
    if (felosumay_responder_own_value(fixture, pid, order, &count) != FELOSUMAY_DONE)
        return;
    printf("%s: ", felosumay_parameter_name(pid));
    print_bytes(order, count);
}

/* What the firmware looks at after each request. */
static void look(const felosumay_responder *fixture, const felosumay_stepped *stepped) {
    uint8_t value[FELOSUMAY_VALUE_BYTES];
    uint64_t count = 0;
    uint16_t reason = 0;
    if (stepped->changed != FELOSUMAY_ONE_CHANGED)
        return;
    switch (stepped->changed_parameter) {
    case FELOSUMAY_PID_RESET_DEVICE:
    case FELOSUMAY_PID_CAPTURE_PRESET:
        carry_out(fixture, stepped->changed_parameter);
        break;
    case FELOSUMAY_PID_REAL_TIME_CLOCK:
        if (felosumay_responder_get(fixture, 0, FELOSUMAY_PID_REAL_TIME_CLOCK, NULL, 0, value, &count, &reason) == FELOSUMAY_DONE)
            printf("the clock is set to year %u, hour %u\n", value[0] << 8 | value[1], value[4]);
        break;
    default:
        printf("%s has another value\n", felosumay_parameter_name(stepped->changed_parameter));
    }
}

/* COMMS_STATUS counts frames that are truncated, have another length than they say, or have a wrong checksum: 2 bytes for each count. */
static felosumay_result count_fault(felosumay_responder *fixture, uint8_t fault) {
    uint8_t counts[FELOSUMAY_VALUE_BYTES];
    uint64_t count = 0, at;
    uint16_t reason = 0;
    if (fault == FELOSUMAY_FRAME_SHORT)
        at = 0;
    else if (fault == FELOSUMAY_FRAME_LENGTH)
        at = 2;
    else if (fault == FELOSUMAY_FRAME_CHECKSUM)
        at = 4;
    else
        return FELOSUMAY_DONE;
    felosumay_result status = felosumay_responder_get(fixture, 0, FELOSUMAY_PID_COMMS_STATUS, NULL, 0, counts, &count, &reason);
    if (status != FELOSUMAY_DONE || (counts[at] == 0xFF && counts[at + 1] == 0xFF))
        return status; /* it counts no further than its 2 bytes */
    if (++counts[at + 1] == 0)
        counts[at]++;
    return felosumay_responder_place(fixture, 0, FELOSUMAY_PID_COMMS_STATUS, counts, count);
}

/* What the firmware does with whatever came over the line. */
static void hear(felosumay_responder *fixture, const uint8_t *bytes, uint64_t length) {
    uint8_t reply[FELOSUMAY_FRAME_BYTES];
    felosumay_stepped stepped;
    if (felosumay_responder_step(fixture, bytes, length, reply, &stepped) != FELOSUMAY_DONE)
        return;
    if (stepped.replied)
        print_bytes(reply, stepped.count);
    look(fixture, &stepped);
    count_fault(fixture, felosumay_frame_fault(bytes, length));
}

static void ask(felosumay_collector *bus, felosumay_responder *fixture, uint16_t pid, uint8_t command_class, const uint8_t *load,
                uint64_t length) {
    uint8_t request[FELOSUMAY_FRAME_BYTES];
    hear(fixture, request, make(bus, pid, command_class, load, length, request));
}

/* A lock state is set with the PIN. SETs of what it locks are rejected; the firmware can still change that. */
static void lock(felosumay_collector *bus, felosumay_responder *fixture) {
    const uint8_t first = 1, wrong[3] = {0x04, 0xD3, 1}, on[3] = {0x04, 0xD2, 1}, off[3] = {0x04, 0xD2, 0};
    const uint8_t address[2] = {0x00, 0x07}, menu[2] = {0x00, 0x05}, no_pin[4] = {0x27, 0x10, 0x04, 0xD2};
    ask(bus, fixture, FELOSUMAY_PID_LOCK_STATE, FELOSUMAY_GET, NULL, 0);
    ask(bus, fixture, FELOSUMAY_PID_LOCK_STATE_DESCRIPTION, FELOSUMAY_GET, &first, 1);
    ask(bus, fixture, FELOSUMAY_PID_LOCK_STATE, FELOSUMAY_SET, wrong, 3);
    ask(bus, fixture, FELOSUMAY_PID_LOCK_STATE, FELOSUMAY_SET, on, 3);
    ask(bus, fixture, FELOSUMAY_PID_DMX_START_ADDRESS, FELOSUMAY_SET, address, 2);
    printf("placed: %s\n", felosumay_status_name(felosumay_responder_place(fixture, 0, FELOSUMAY_PID_DMX_START_ADDRESS, menu, 2)));
    ask(bus, fixture, FELOSUMAY_PID_DMX_START_ADDRESS, FELOSUMAY_GET, NULL, 0);
    ask(bus, fixture, FELOSUMAY_PID_LOCK_PIN, FELOSUMAY_SET, no_pin, 4);
    ask(bus, fixture, FELOSUMAY_PID_LOCK_STATE, FELOSUMAY_SET, off, 3);
    ask(bus, fixture, FELOSUMAY_PID_DMX_START_ADDRESS, FELOSUMAY_SET, address, 2);
}

/* Orders have no GET. Each accepted one is reported, even one equal to the last. */
static void order(felosumay_collector *bus, felosumay_responder *fixture) {
    const uint8_t cold = 0xFF, neither = 0x02, scene[8] = {0, 2, 0, 10, 0, 20, 0, 0};
    ask(bus, fixture, FELOSUMAY_PID_RESET_DEVICE, FELOSUMAY_SET, &cold, 1);
    ask(bus, fixture, FELOSUMAY_PID_RESET_DEVICE, FELOSUMAY_SET, &cold, 1);
    ask(bus, fixture, FELOSUMAY_PID_RESET_DEVICE, FELOSUMAY_SET, &neither, 1);
    ask(bus, fixture, FELOSUMAY_PID_RESET_DEVICE, FELOSUMAY_GET, NULL, 0);
    ask(bus, fixture, FELOSUMAY_PID_CAPTURE_PRESET, FELOSUMAY_SET, scene, 8);
}

/* The first scene is the maker's, and can only be read. */
static void scenes(felosumay_collector *bus, felosumay_responder *fixture) {
    const uint8_t first[9] = {0, 1, 0, 1, 0, 1, 0, 1, 0}, second[9] = {0, 2, 0, 10, 0, 20, 0, 0, 0};
    ask(bus, fixture, FELOSUMAY_PID_PRESET_STATUS, FELOSUMAY_GET, first, 2);
    ask(bus, fixture, FELOSUMAY_PID_PRESET_STATUS, FELOSUMAY_SET, first, 9);
    ask(bus, fixture, FELOSUMAY_PID_PRESET_STATUS, FELOSUMAY_GET, second, 2);
    ask(bus, fixture, FELOSUMAY_PID_PRESET_STATUS, FELOSUMAY_SET, second, 9);
    ask(bus, fixture, FELOSUMAY_PID_PRESET_STATUS, FELOSUMAY_GET, second, 2);
}

/* A controller sets the clock, and reads and clears the counts of frames that were truncated, too long and altered. */
static void clock_and_counts(felosumay_collector *bus, felosumay_responder *fixture) {
    const uint8_t noon[7] = {0x07, 0xEA, 11, 27, 12, 0, 0};
    uint8_t request[FELOSUMAY_FRAME_BYTES];
    uint64_t count = make(bus, FELOSUMAY_PID_IDENTIFY_DEVICE, FELOSUMAY_GET, NULL, 0, request);
    ask(bus, fixture, FELOSUMAY_PID_REAL_TIME_CLOCK, FELOSUMAY_SET, noon, 7);
    hear(fixture, request, 20);
    hear(fixture, request, count + 1);
    request[count - 1] ^= 1;
    hear(fixture, request, count);
    hear(fixture, request, count);
    ask(bus, fixture, FELOSUMAY_PID_COMMS_STATUS, FELOSUMAY_GET, NULL, 0);
    ask(bus, fixture, FELOSUMAY_PID_COMMS_STATUS, FELOSUMAY_SET, NULL, 0);
    ask(bus, fixture, FELOSUMAY_PID_COMMS_STATUS, FELOSUMAY_GET, NULL, 0);
}

static felosumay_result play(felosumay_collector *bus, felosumay_responder *fixture) {
    lock(bus, fixture);
    order(bus, fixture);
    scenes(bus, fixture);
    clock_and_counts(bus, fixture);
    return FELOSUMAY_DONE;
}

int main(void) {
    return play_with(&PROFILE, play);
}
