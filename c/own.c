/* A fixture with parameters of its maker's own: an LED wash of 40 slots has a colour temperature, a fan mode and a counter, and neither
 * lamps nor pan and tilt. own.txt has what it prints: the bytes of the replies are worked out by hand from E1.20.
 * docs/C.md reads it part by part. */
#include "asked.h"

enum { COLOUR_TEMPERATURE = 0x8000, FAN_MODE = 0x8001, FLASHES = 0x8002 };

/* By ascending PID. E1.20 has no unit for kelvin. FACTORY_DEFAULTS resets the settings, and leaves the counter. */
static const felosumay_parameter PARAMETERS[] = {
    {2700, 6500, COLOUR_TEMPERATURE, FELOSUMAY_DS_UNSIGNED_WORD, FELOSUMAY_CC_GET_SET, 0, FELOSUMAY_UNITS_NONE,
     FELOSUMAY_PREFIX_NONE, 1, {2, {0x0C, 0x80}}, FELOSUMAY_TEXT("Colour temperature"), FELOSUMAY_NO_FIELDS},
    {0, 2, FAN_MODE, FELOSUMAY_DS_UNSIGNED_BYTE, FELOSUMAY_CC_GET_SET, 0, FELOSUMAY_UNITS_NONE, FELOSUMAY_PREFIX_NONE, 1,
     {1, {0x01}}, FELOSUMAY_TEXT("Fan mode"), FELOSUMAY_NO_FIELDS},
    {0, 4294967295, FLASHES, FELOSUMAY_DS_UNSIGNED_DWORD, FELOSUMAY_CC_GET, 0, FELOSUMAY_UNITS_NONE, FELOSUMAY_PREFIX_NONE, 0,
     {4, {0x00, 0x00, 0x00, 0x00}}, FELOSUMAY_TEXT("Flashes"), FELOSUMAY_NO_FIELDS},
};

/* What an LED wash lacks. */
static const uint16_t WITHOUT[] = {
    FELOSUMAY_PID_LAMP_HOURS,   FELOSUMAY_PID_LAMP_STRIKES, FELOSUMAY_PID_LAMP_STATE,    FELOSUMAY_PID_LAMP_ON_MODE,
    FELOSUMAY_PID_PAN_INVERT,   FELOSUMAY_PID_TILT_INVERT,  FELOSUMAY_PID_PAN_TILT_SWAP,
};

static const felosumay_profile PROFILE = {
    /* the root: software, model and category, start address, texts, personalities */
    {0x00000100, 0x0021, 0x0101, 1, FELOSUMAY_TEXT("LED wash"), FELOSUMAY_TEXT("Example"), FELOSUMAY_TEXT("Wash 1"),
     FELOSUMAY_TEXT("1.0"), 1, {{40, FELOSUMAY_TEXT("Pixels")}}},
    /* what each sub-device would start as */
    {0x00000100, 0x0022, 0x0101, 1, FELOSUMAY_TEXT("Cell"), FELOSUMAY_TEXT("Example"), FELOSUMAY_TEXT("Cell"),
     FELOSUMAY_TEXT("1.0"), 1, {{0, FELOSUMAY_TEXT("None")}}},
    /* boot software, sub-devices, presets */
    1, 0, 0, FELOSUMAY_TEXT("Boot 1.0"),
    /* how many languages, slots, sensors, self tests and status IDs */
    1, 1, 0, 0, 0,
    {0x656E},
    {{0x0001, 0, 0x00, FELOSUMAY_TEXT("Intensity")}},
    {{0, 0, 0, 0, 0, 0, 0, 0, {0, {0}}, 0}},
    {{0, {0, {0}}}},
    {{0, {0, {0}}}},
    /* 39 slots of pixels, which nothing describes; its own parameters, and those that it lacks */
    39, PARAMETERS, sizeof PARAMETERS / sizeof *PARAMETERS, WITHOUT, sizeof WITHOUT / sizeof *WITHOUT,
    /* the usual times and workers of slow commands */
    {0, 0, 0, 0},
    {0, 0, 0, 0},
    /* no boot loader, not behind a proxy, and every message of a change waits */
    0, 0, 0,
    /* no names of choices, and no locks */
    NULL, 0, 0, {{0, 0}},
    /* one port */
    {0},
    /* no personalities with slots of their own */
    NULL, 0, NULL, 0,
};

/* Asks the fixture, and prints its reply. */
static felosumay_stepped ask(felosumay_collector *bus, felosumay_responder *fixture, uint16_t pid, uint8_t command_class,
                             const uint8_t *load, uint64_t length) {
    felosumay_stepped stepped = {0, 0, 0, 0, {0, 0, 0, 0, 0, 0, 0}, 0, 0};
    uint8_t request[FELOSUMAY_FRAME_BYTES], reply[FELOSUMAY_FRAME_BYTES];
    uint64_t count = make(bus, pid, command_class, load, length, request);
    if (felosumay_responder_step(fixture, request, count, reply, &stepped) == FELOSUMAY_DONE && stepped.replied)
        print_bytes(reply, stepped.count);
    return stepped;
}

/* What a console asks first: which parameters there are, and what they are. */
static void explore(felosumay_collector *bus, felosumay_responder *fixture) {
    const uint8_t temperature[2] = {0x80, 0x00}, flashes[2] = {0x80, 0x02}, unknown[2] = {0x80, 0x03}, first = 1;
    ask(bus, fixture, FELOSUMAY_PID_SUPPORTED_PARAMETERS, FELOSUMAY_GET, NULL, 0);
    ask(bus, fixture, FELOSUMAY_PID_PARAMETER_DESCRIPTION, FELOSUMAY_GET, temperature, 2);
    ask(bus, fixture, FELOSUMAY_PID_PARAMETER_DESCRIPTION, FELOSUMAY_GET, flashes, 2);
    ask(bus, fixture, FELOSUMAY_PID_PARAMETER_DESCRIPTION, FELOSUMAY_GET, unknown, 2);
    ask(bus, fixture, FELOSUMAY_PID_LAMP_STATE, FELOSUMAY_GET, NULL, 0);
    ask(bus, fixture, FELOSUMAY_PID_DMX_PERSONALITY_DESCRIPTION, FELOSUMAY_GET, &first, 1);
}

/* A SET of the colour temperature: the firmware sees it like any other. A value beyond the greatest is rejected, and so is a SET of the
 * counter. */
static void set(felosumay_collector *bus, felosumay_responder *fixture) {
    const uint8_t daylight[2] = {0x15, 0xE0}, beyond[2] = {0x19, 0x65}, none[4] = {0x00, 0x00, 0x00, 0x00};
    ask(bus, fixture, COLOUR_TEMPERATURE, FELOSUMAY_GET, NULL, 0);
    felosumay_stepped stepped = ask(bus, fixture, COLOUR_TEMPERATURE, FELOSUMAY_SET, daylight, 2);
    printf("changed %u: PID %04X of device %u\n", stepped.changed, stepped.changed_parameter, stepped.changed_sub_device);
    ask(bus, fixture, COLOUR_TEMPERATURE, FELOSUMAY_SET, beyond, 2);
    ask(bus, fixture, FLASHES, FELOSUMAY_SET, none, 4);
    ask(bus, fixture, COLOUR_TEMPERATURE, FELOSUMAY_GET, NULL, 0);
}

/* The firmware counts flashes: it reads the number, and places the next one. */
static felosumay_result count_flash(felosumay_responder *fixture) {
    uint8_t flashes[FELOSUMAY_VALUE_BYTES];
    uint64_t count = 0;
    uint16_t reason = 0;
    felosumay_result status = felosumay_responder_get(fixture, 0, FLASHES, NULL, 0, flashes, &count, &reason);
    if (status != FELOSUMAY_DONE)
        return status;
    for (size_t i = count; i > 0 && ++flashes[i - 1] == 0; i--)
        continue;
    return felosumay_responder_place(fixture, 0, FLASHES, flashes, count);
}

/* FACTORY_DEFAULTS says that something has changed, resets the settings, and then says that nothing differs. */
static void set_back(felosumay_collector *bus, felosumay_responder *fixture) {
    ask(bus, fixture, FELOSUMAY_PID_FACTORY_DEFAULTS, FELOSUMAY_GET, NULL, 0);
    ask(bus, fixture, FELOSUMAY_PID_FACTORY_DEFAULTS, FELOSUMAY_SET, NULL, 0);
    ask(bus, fixture, FELOSUMAY_PID_FACTORY_DEFAULTS, FELOSUMAY_GET, NULL, 0);
    ask(bus, fixture, COLOUR_TEMPERATURE, FELOSUMAY_GET, NULL, 0);
    ask(bus, fixture, FLASHES, FELOSUMAY_GET, NULL, 0);
}

static felosumay_result play(felosumay_collector *bus, felosumay_responder *fixture) {
    explore(bus, fixture);
    set(bus, fixture);
    felosumay_result status = count_flash(fixture);
    set_back(bus, fixture);
    return status;
}

int main(void) {
    return play_with(&PROFILE, play);
}
