/* A fixture whose personalities have slots of their own: a moving head with one personality in its unit, and four behind that one. modes.txt
 * has what it prints: the data of the replies are worked out by hand from E1.20 section 10.6. docs/C.md reads it part by part.
 * Its initializers name the fields, and those that they don't name are 0: so it is C, and no C++ before C++20. */
#include "asked.h"

/* The slots of all modes. A secondary slot, such as the fine one, says which slot of its personality is its primary one. */
static const felosumay_slot SLOTS[] = {
    {.label = FELOSUMAY_SD_INTENSITY, .name = FELOSUMAY_TEXT("Dimmer")},
    {.label = FELOSUMAY_SD_PAN, .value = 0x80, .name = FELOSUMAY_TEXT("Pan")},
    {.label = 1, .kind = FELOSUMAY_ST_SEC_FINE, .name = FELOSUMAY_TEXT("Pan fine")},
    {.label = FELOSUMAY_SD_TILT, .value = 0x80, .name = FELOSUMAY_TEXT("Tilt")},
    {.label = FELOSUMAY_SD_COLOR_ADD_RED, .value = 0xFF, .name = FELOSUMAY_TEXT("Red")},
};

/* Personalities 2 to 5: one with the first four of these slots, and two more that nothing describes; one with the first three of them; one
 * with the first slot of the profile; and one with the fifth of these slots, and 39 more. */
static const felosumay_mode MODES[] = {
    {.footprint = 6, .slot_count = 4, .name = FELOSUMAY_TEXT("Fine")},
    {.footprint = 3, .slots_of = 2, .name = FELOSUMAY_TEXT("Pan only")},
    {.footprint = 1, .slots_of = 1, .name = FELOSUMAY_TEXT("Dimmer")},
    {.footprint = 40, .first_slot = 4, .slot_count = 1, .name = FELOSUMAY_TEXT("Pixels")},
};

static const felosumay_profile PROFILE = {
    .root = {.software = 0x00000100,
             .model = 0x0031,
             .category = FELOSUMAY_PRODUCT_CATEGORY_FIXTURE_MOVING_YOKE,
             .start = 1,
             .model_text = FELOSUMAY_TEXT("Moving head"),
             .personality_count = 1,
             .personalities = {{2, FELOSUMAY_TEXT("Basic")}}},
    .sub = {.start = 1, .personality_count = 1},
    .language_count = 1,
    .languages = {0x656E},
    .slot_count = 2,
    .slots = {{.label = FELOSUMAY_SD_INTENSITY, .name = FELOSUMAY_TEXT("Intensity")},
              {.label = FELOSUMAY_SD_PAN, .value = 0x80, .name = FELOSUMAY_TEXT("Pan")}},
    .modes = MODES,
    .mode_count = sizeof MODES / sizeof *MODES,
    .mode_slots = SLOTS,
    .mode_slot_count = sizeof SLOTS / sizeof *SLOTS,
};

enum { PERSONALITIES = 5 };

/* Asks the fixture, and prints the data of its reply, or why it rejects the request. */
static void ask(felosumay_collector *bus, felosumay_responder *fixture, uint16_t pid, uint8_t command_class, const uint8_t *load,
                uint64_t length) {
    uint8_t request[FELOSUMAY_FRAME_BYTES], bytes[FELOSUMAY_FRAME_BYTES];
    felosumay_stepped stepped;
    felosumay_reply reply;
    uint64_t count = make(bus, pid, command_class, load, length, request);
    felosumay_responder_step(fixture, request, count, bytes, &stepped);
    printf("%s %s: ", command_class == FELOSUMAY_SET ? "SET" : "GET", felosumay_parameter_name(pid));
    if (felosumay_reply_read(bytes, stepped.count, &reply) != FELOSUMAY_DONE)
        printf("no reply\n");
    else if (reply.type == FELOSUMAY_NACK)
        printf("%s\n", felosumay_reason_name(reply.reason));
    else if (reply.count == 0)
        printf("no data\n");
    else
        print_bytes(reply.bytes, reply.count);
}

/* A console takes this personality, and asks what it is and which slots it has. */
static void explore(felosumay_collector *bus, felosumay_responder *fixture, uint8_t number) {
    ask(bus, fixture, FELOSUMAY_PID_DMX_PERSONALITY, FELOSUMAY_SET, &number, 1);
    ask(bus, fixture, FELOSUMAY_PID_DMX_PERSONALITY, FELOSUMAY_GET, NULL, 0);
    ask(bus, fixture, FELOSUMAY_PID_DMX_PERSONALITY_DESCRIPTION, FELOSUMAY_GET, &number, 1);
    ask(bus, fixture, FELOSUMAY_PID_DEVICE_INFO, FELOSUMAY_GET, NULL, 0);
    ask(bus, fixture, FELOSUMAY_PID_SLOT_INFO, FELOSUMAY_GET, NULL, 0);
    ask(bus, fixture, FELOSUMAY_PID_DEFAULT_SLOT_VALUE, FELOSUMAY_GET, NULL, 0);
    for (uint8_t slot = 0; slot < 5; slot++) {
        const uint8_t offset[2] = {0x00, slot};
        ask(bus, fixture, FELOSUMAY_PID_SLOT_DESCRIPTION, FELOSUMAY_GET, offset, 2);
    }
}

/* There is no personality 6, on the line or at the menu, and none has the number 0. */
static felosumay_result try_others(felosumay_collector *bus, felosumay_responder *fixture) {
    const uint8_t others[] = {0, PERSONALITIES + 1};
    for (size_t i = 0; i < sizeof others; i++) {
        ask(bus, fixture, FELOSUMAY_PID_DMX_PERSONALITY, FELOSUMAY_SET, &others[i], 1);
        ask(bus, fixture, FELOSUMAY_PID_DMX_PERSONALITY_DESCRIPTION, FELOSUMAY_GET, &others[i], 1);
        printf("%u at the menu: %s\n", others[i], felosumay_status_name(felosumay_responder_change_personality(fixture, others[i])));
    }
    return felosumay_responder_change_personality(fixture, 2);
}

static felosumay_result play(felosumay_collector *bus, felosumay_responder *fixture) {
    for (uint8_t number = 1; number <= PERSONALITIES; number++)
        explore(bus, fixture, number);
    felosumay_result status = try_others(bus, fixture);
    ask(bus, fixture, FELOSUMAY_PID_DMX_PERSONALITY, FELOSUMAY_GET, NULL, 0);
    ask(bus, fixture, FELOSUMAY_PID_FACTORY_DEFAULTS, FELOSUMAY_SET, NULL, 0);
    ask(bus, fixture, FELOSUMAY_PID_DMX_PERSONALITY, FELOSUMAY_GET, NULL, 0);
    return status;
}

int main(void) {
    return play_with(&PROFILE, play);
}
