/* The rules of a profile, as docs/C.md counts them: what each allows at its limit, and what it refuses beyond. It prints
 * what differs, and then ends with status 1. */
#include "felosumay.h"
#include "felosumay_names.h"
#include <stdio.h>
#include <string.h>

static felosumay_profile profile;
static felosumay_parameter parameters[33];
static int failed;

/* The least profile that keeps the rules. */
static felosumay_profile *least(void) {
    memset(&profile, 0, sizeof profile);
    profile.root.personality_count = profile.sub.personality_count = 1;
    profile.root.start = profile.sub.start = 1;
    profile.language_count = 1;
    return &profile;
}

static void expect(int rule, const char *what, felosumay_result wanted) {
    felosumay_responder responder = {0};
    felosumay_result status = felosumay_responder_new(&responder, 0x7FF0, 1, &profile, 1);
    uint8_t fault = felosumay_profile_fault(&profile);
    felosumay_responder_free(&responder);
    if (status != wanted || fault != (wanted == FELOSUMAY_BAD_PROFILE ? rule : FELOSUMAY_NO_FAULT)) {
        printf("rule %d, %s: status %u, fault %u\n", rule, what, status, fault);
        failed = 1;
    }
}

static void numbers(void) {
    least();
    expect(0, "the least profile", FELOSUMAY_DONE);
    least()->subs = 512;
    expect(1, "512 sub-devices", FELOSUMAY_DONE);
    least()->subs = 513;
    expect(1, "513 sub-devices", FELOSUMAY_BAD_PROFILE);
    least()->presets = 65534;
    expect(2, "65,534 presets", FELOSUMAY_DONE);
    least()->presets = 65535;
    expect(2, "65,535 presets", FELOSUMAY_BAD_PROFILE);
    least()->language_count = 0;
    expect(7, "no language", FELOSUMAY_BAD_PROFILE);
}

static void unit(felosumay_unit *unit, const char *name) {
    least();
    unit->personality_count = 0;
    expect(3, name, FELOSUMAY_BAD_PROFILE);
    least();
    unit->start = 512;
    expect(4, name, FELOSUMAY_DONE);
    unit->start = 513;
    expect(4, name, FELOSUMAY_BAD_PROFILE);
    unit->start = 0;
    expect(4, name, FELOSUMAY_BAD_PROFILE);
}

static void footprints(void) {
    static const uint8_t counts[] = {0, 1, 46, 255};
    for (size_t i = 0; i < sizeof counts; i++) {
        least()->slot_count = counts[i];
        profile.root.personalities[0].footprint = counts[i] < 46 ? counts[i] : 46;
        expect(5, "a footprint of all slots", FELOSUMAY_DONE);
        profile.root.personalities[0].footprint++;
        expect(5, "a footprint of one slot more", FELOSUMAY_BAD_PROFILE);
    }
    least()->slot_count = 1;
    profile.more_slots = 510;
    profile.root.personalities[0].footprint = 511;
    expect(5, "a footprint of all slots and those beside them", FELOSUMAY_DONE);
    profile.root.personalities[0].footprint = 512;
    expect(5, "a footprint of one slot more", FELOSUMAY_BAD_PROFILE);
    profile.more_slots = 65535;
    expect(5, "512 slots of the root", FELOSUMAY_DONE);
    profile.root.personalities[0].footprint = 513;
    expect(5, "513 slots of the root", FELOSUMAY_BAD_PROFILE);
    least()->sub.personalities[0].footprint = 512;
    expect(6, "512 slots of a sub-device", FELOSUMAY_DONE);
    profile.sub.personalities[0].footprint = 513;
    expect(6, "513 slots of a sub-device", FELOSUMAY_BAD_PROFILE);
}

static void lists(void) {
    least()->test_count = 2;
    profile.tests[0].number = 1;
    profile.tests[1].number = 254;
    expect(8, "self tests 1 and 254", FELOSUMAY_DONE);
    profile.tests[1].number = 255;
    expect(8, "self test 255", FELOSUMAY_BAD_PROFILE);
    profile.tests[1].number = 0;
    expect(8, "self test 0", FELOSUMAY_BAD_PROFILE);
    profile.tests[1].number = 1;
    expect(9, "two self tests of one number", FELOSUMAY_BAD_PROFILE);
    least()->status_text_count = 2;
    profile.status_texts[1].id = 1;
    expect(10, "status IDs 0 and 1", FELOSUMAY_DONE);
    profile.status_texts[1].id = 0;
    expect(10, "two status texts of one ID", FELOSUMAY_BAD_PROFILE);
}

/* What may be left out, and what not: docs/PARAMETERS.md has the list. */
static void left_out(void) {
    static const uint16_t status[] = {0x0030, 0x0031, 0x0032, 0x0033}, queue[] = {0x0020}, makers[] = {0x8000};
    least()->without = status;
    profile.without_count = 4;
    expect(11, "status entries and all that is told of them", FELOSUMAY_DONE);
    profile.without_count = 3;
    expect(12, "status entries, but not their threshold", FELOSUMAY_BAD_PROFILE);
    profile.without = status + 1;
    expect(12, "all that is told of status entries, but not these", FELOSUMAY_DONE);
    profile.without = queue;
    profile.without_count = 1;
    expect(11, "QUEUED_MESSAGE", FELOSUMAY_BAD_PROFILE);
    profile.without = makers;
    expect(11, "what isn't of the table", FELOSUMAY_BAD_PROFILE);
}

/* The least profile with so many parameters of the maker's own, each of this type, with this number of slots. */
static felosumay_parameter *own(uint64_t count, uint8_t kind, uint8_t slots) {
    memset(parameters, 0, sizeof parameters);
    for (uint16_t i = 0; i < 33; i++) {
        parameters[i].pid = (uint16_t)(0x8000 + i);
        parameters[i].kind = kind;
        parameters[i].commands = FELOSUMAY_CC_GET_SET;
        parameters[i].size = slots;
        parameters[i].start.count = slots;
    }
    least()->parameters = parameters;
    profile.parameter_count = count;
    return parameters;
}

static void own_pids(void) {
    static const uint16_t lent[] = {0x8000, 0xFFDF, 0x0440, 0x1040, 0x1043, 0x1044},
                          taken[] = {0x0000, 0x0050, 0x0051, 0x0101, 0x7FFF, 0xFFE0};
    own(32, FELOSUMAY_DS_UNSIGNED_BYTE, 1);
    expect(13, "32 of them", FELOSUMAY_DONE);
    profile.parameter_count = 33;
    expect(13, "33 of them", FELOSUMAY_BAD_PROFILE);
    profile.subs = 513;
    expect(1, "33 of them, and 513 sub-devices", FELOSUMAY_BAD_PROFILE);
    own(1, FELOSUMAY_DS_UNSIGNED_BYTE, 1);
    for (size_t i = 0; i < sizeof lent / sizeof *lent; i++) {
        parameters[0].pid = lent[i];
        expect(14, "a PID that is free", FELOSUMAY_DONE);
    }
    for (size_t i = 0; i < sizeof taken / sizeof *taken; i++) {
        parameters[0].pid = taken[i];
        expect(14, "a PID that isn't", FELOSUMAY_BAD_PROFILE);
    }
    own(2, FELOSUMAY_DS_UNSIGNED_BYTE, 1)[1].pid = 0x8000;
    expect(14, "a PID twice", FELOSUMAY_BAD_PROFILE);
    own(2, FELOSUMAY_DS_UNSIGNED_BYTE, 1)[0].pid = 0x8002;
    expect(17, "a greater PID first", FELOSUMAY_BAD_PROFILE);
}

/* The least and the greatest number of a type, and beyond. */
static void limits(uint8_t kind, uint8_t slots, int64_t low, int64_t high) {
    felosumay_parameter *number = own(1, kind, slots);
    number->low = low;
    number->high = high;
    expect(15, "all numbers of the type", FELOSUMAY_DONE);
    number->high = high + 1;
    expect(15, "a greater number", FELOSUMAY_BAD_PROFILE);
    number->high = high;
    number->low = low - 1;
    expect(15, "a lesser number", FELOSUMAY_BAD_PROFILE);
    number->low = number->high = 0;
    expect(15, "one number", FELOSUMAY_DONE);
    number->low = 1;
    expect(15, "no number", FELOSUMAY_BAD_PROFILE);
    number->high = 1;
    expect(16, "0 to start with, of 1 to 1", FELOSUMAY_BAD_PROFILE);
    number->start.bytes[slots - 1] = 1;
    expect(16, "1 to start with", FELOSUMAY_DONE);
    number->start.count = (uint8_t)(slots + 1);
    expect(16, "a slot more to start with", FELOSUMAY_BAD_PROFILE);
}

static void own_data(void) {
    limits(FELOSUMAY_DS_UNSIGNED_BYTE, 1, 0, 255);
    limits(FELOSUMAY_DS_SIGNED_BYTE, 1, -128, 127);
    limits(FELOSUMAY_DS_UNSIGNED_WORD, 2, 0, 65535);
    limits(FELOSUMAY_DS_SIGNED_WORD, 2, -32768, 32767);
    limits(FELOSUMAY_DS_UNSIGNED_DWORD, 4, 0, 4294967295);
    limits(FELOSUMAY_DS_SIGNED_DWORD, 4, -2147483648LL, 2147483647);
    for (uint8_t kind = FELOSUMAY_DS_NOT_DEFINED; kind <= FELOSUMAY_DS_ASCII; kind++) {
        own(1, kind, 32)->low = 1;
        expect(15, "32 slots", FELOSUMAY_DONE);
        own(1, kind, 0);
        expect(15, "no slots", FELOSUMAY_DONE);
    }
    own(1, FELOSUMAY_DS_BIT_FIELD, 33);
    expect(15, "33 slots of bits", FELOSUMAY_BAD_PROFILE);
    own(1, FELOSUMAY_DS_BIT_FIELD, 2)->start.count = 1;
    expect(16, "a slot to start with, of two", FELOSUMAY_BAD_PROFILE);
    own(1, FELOSUMAY_DS_SIGNED_DWORD + 1, 1);
    expect(15, "no type", FELOSUMAY_BAD_PROFILE);
    own(1, FELOSUMAY_DS_UNSIGNED_BYTE, 1)->commands = 0;
    expect(15, "no commands", FELOSUMAY_BAD_PROFILE);
    parameters[0].commands = 4;
    expect(15, "other commands", FELOSUMAY_BAD_PROFILE);
    own(1, FELOSUMAY_DS_UNSIGNED_BYTE, 1)->commands = FELOSUMAY_CC_SET;
    expect(15, "an order", FELOSUMAY_DONE);
    own(1, FELOSUMAY_DS_BLOCK + 1, 1);
    expect(15, "no type beyond the last", FELOSUMAY_BAD_PROFILE);
}

/* The numbers that slots say. */
static void fields(void) {
    felosumay_parameter *parameter = own(1, FELOSUMAY_DS_NOT_DEFINED, 3);
    parameter->fields[0].slots = 1;
    parameter->fields[0].high = 255;
    parameter->fields[1].slots = 2;
    parameter->fields[1].high = 65535;
    parameter->field_count = 2;
    expect(18, "numbers in all slots", FELOSUMAY_DONE);
    parameter->field_count = 1;
    expect(18, "numbers in some slots", FELOSUMAY_BAD_PROFILE);
    parameter->field_count = 2;
    parameter->fields[0].high = 256;
    expect(18, "a number that one slot can't say", FELOSUMAY_BAD_PROFILE);
    parameter->fields[0].low = 2;
    parameter->fields[0].high = 1;
    expect(18, "the greatest number below the least", FELOSUMAY_BAD_PROFILE);
    parameter->fields[0].slots = 3;
    expect(15, "a number of three slots", FELOSUMAY_BAD_PROFILE);
    parameter->field_count = 9;
    expect(15, "nine numbers", FELOSUMAY_BAD_PROFILE);
}

/* Parameters that are as their standard says. */
static void standards(void) {
    own(1, FELOSUMAY_DS_NOT_DEFINED, 5)->pid = FELOSUMAY_PID_MINIMUM_LEVEL;
    expect(19, "MINIMUM_LEVEL", FELOSUMAY_DONE);
    parameters[0].commands = FELOSUMAY_CC_GET;
    expect(19, "MINIMUM_LEVEL that isn't set", FELOSUMAY_DONE);
    own(1, FELOSUMAY_DS_NOT_DEFINED, 4)->pid = FELOSUMAY_PID_MINIMUM_LEVEL;
    expect(19, "MINIMUM_LEVEL of four slots", FELOSUMAY_BAD_PROFILE);
    own(1, FELOSUMAY_DS_NOT_DEFINED, 11)->pid = FELOSUMAY_PID_DIMMER_INFO;
    expect(19, "DIMMER_INFO that is set", FELOSUMAY_BAD_PROFILE);
    parameters[0].commands = FELOSUMAY_CC_GET;
    expect(19, "DIMMER_INFO", FELOSUMAY_DONE);
    own(1, FELOSUMAY_DS_UNSIGNED_BYTE, 1)->pid = FELOSUMAY_PID_RESET_DEVICE;
    expect(19, "RESET_DEVICE that is read", FELOSUMAY_BAD_PROFILE);
    parameters[0].commands = FELOSUMAY_CC_SET;
    expect(19, "RESET_DEVICE", FELOSUMAY_DONE);
    own(1, FELOSUMAY_DS_BLOCK, 0)->pid = FELOSUMAY_PID_DMX_BLOCK_ADDRESS;
    expect(19, "DMX_BLOCK_ADDRESS", FELOSUMAY_DONE);
    parameters[0].pid = 0x8000;
    expect(19, "a block of the maker's own", FELOSUMAY_BAD_PROFILE);
    own(1, FELOSUMAY_DS_NOT_DEFINED, 6)->pid = FELOSUMAY_PID_COMMS_STATUS;
    expect(19, "COMMS_STATUS that is set", FELOSUMAY_BAD_PROFILE);
    parameters[0].commands = FELOSUMAY_CC_GET_CLEAR;
    expect(19, "COMMS_STATUS", FELOSUMAY_DONE);
    own(1, FELOSUMAY_DS_UNSIGNED_BYTE, 1)->commands = FELOSUMAY_CC_GET_CLEAR;
    expect(19, "one of the maker's own that is cleared", FELOSUMAY_BAD_PROFILE);
}

/* Scenes, of which the first can only be read, and a PIN. */
static void scenes_and_pins(void) {
    felosumay_parameter *scenes = own(1, FELOSUMAY_DS_SCENES, 0);
    scenes->pid = FELOSUMAY_PID_PRESET_STATUS;
    scenes->low = scenes->high = 255;
    expect(15, "255 scenes", FELOSUMAY_DONE);
    scenes->high = 256;
    expect(15, "256 scenes", FELOSUMAY_BAD_PROFILE);
    scenes->high = 2;
    expect(15, "more that can only be read than there are", FELOSUMAY_BAD_PROFILE);
    scenes->low = 1;
    scenes->start.count = 1;
    expect(16, "scenes that start with data", FELOSUMAY_BAD_PROFILE);
    scenes->start.count = 0;
    scenes->pid = 0x8000;
    expect(19, "scenes of the maker's own", FELOSUMAY_BAD_PROFILE);
    own(2, FELOSUMAY_DS_NAMES, 0)[0].pid = FELOSUMAY_PID_LOCK_PIN;
    parameters[0].kind = FELOSUMAY_DS_PIN;
    parameters[0].high = 9999;
    parameters[0].start.count = 2;
    profile.parameter_count = 1;
    expect(19, "a PIN", FELOSUMAY_DONE);
    parameters[0].high = 10000;
    expect(15, "a PIN of five digits", FELOSUMAY_BAD_PROFILE);
}

/* A PIN, two lock states, and what is told of these. */
static void lockable(void) {
    static felosumay_choice choices[2];
    own(3, FELOSUMAY_DS_NAMES, 0);
    parameters[0].pid = FELOSUMAY_PID_LOCK_PIN;
    parameters[0].kind = FELOSUMAY_DS_PIN;
    parameters[0].high = 9999;
    parameters[0].start.count = 2;
    parameters[1].pid = FELOSUMAY_PID_LOCK_STATE;
    parameters[1].kind = FELOSUMAY_DS_LOCK;
    parameters[1].high = 2;
    parameters[1].start.count = 1;
    parameters[2].pid = FELOSUMAY_PID_LOCK_STATE_DESCRIPTION;
    parameters[2].commands = FELOSUMAY_CC_GET;
    for (uint8_t i = 0; i < 2; i++) {
        choices[i].pid = FELOSUMAY_PID_LOCK_STATE_DESCRIPTION;
        choices[i].number = (uint8_t)(i + 1);
    }
    profile.choices = choices;
    profile.choice_count = 2;
}

/* Lock states with their names, and what they lock. */
static void locks(void) {
    lockable();
    expect(20, "lock states with their names", FELOSUMAY_DONE);
    profile.choice_count = 1;
    expect(20, "a lock state without its name", FELOSUMAY_BAD_PROFILE);
    profile.choice_count = 2;
    profile.lock_count = 255; /* they stand for 64 */
    for (uint8_t i = 0; i < 64; i++) {
        profile.locks[i].state = (uint8_t)(1 + i % 2);
        profile.locks[i].pid = FELOSUMAY_PID_DEVICE_LABEL;
    }
    expect(21, "locks of states 1 and 2", FELOSUMAY_DONE);
    profile.locks[63].state = 3;
    expect(21, "a lock of state 3", FELOSUMAY_BAD_PROFILE);
    profile.lock_count = 63;
    expect(21, "no such lock", FELOSUMAY_DONE);
    profile.locks[0].state = 0;
    expect(21, "a lock of state 0", FELOSUMAY_BAD_PROFILE);
    least()->lock_count = 1;
    profile.locks[0].state = 1;
    expect(21, "a lock without LOCK_STATE", FELOSUMAY_BAD_PROFILE);
}

/* Locks that could lock for good, or lock nothing. */
static void locked(void) {
    static const uint16_t held[] = {FELOSUMAY_PID_DMX_START_ADDRESS, FELOSUMAY_PID_LOCK_PIN, 0x8000},
                          loose[] = {FELOSUMAY_PID_LOCK_STATE, FELOSUMAY_PID_LAMP_STATE, FELOSUMAY_PID_POWER_STATE,
                                     FELOSUMAY_PID_PERFORM_SELFTEST, FELOSUMAY_PID_DEVICE_INFO, FELOSUMAY_PID_LAMP_HOURS,
                                     FELOSUMAY_PID_LOCK_STATE_DESCRIPTION, FELOSUMAY_PID_CURVE, 0x8001},
                          left_out[] = {FELOSUMAY_PID_LAMP_HOURS};
    lockable();
    parameters[1].commands = FELOSUMAY_CC_SET;
    expect(22, "a lock state that can't be read", FELOSUMAY_BAD_PROFILE);
    parameters[1].commands = FELOSUMAY_CC_GET;
    expect(22, "a lock state that can only be read", FELOSUMAY_DONE);
    parameters[0].commands = FELOSUMAY_CC_SET;
    expect(22, "a PIN that can't be read", FELOSUMAY_DONE);
    profile.parameters = parameters + 1;
    profile.parameter_count = 2;
    expect(22, "a lock state without a PIN", FELOSUMAY_BAD_PROFILE);
    lockable();
    parameters[3].pid = 0x8000;
    parameters[3].kind = FELOSUMAY_DS_UNSIGNED_BYTE;
    parameters[3].start.count = 1;
    profile.parameter_count = 4;
    profile.without = left_out;
    profile.without_count = profile.lock_count = 1;
    profile.locks[0].state = 1;
    for (size_t i = 0; i < sizeof held / sizeof *held; i++) {
        profile.locks[0].pid = held[i];
        expect(23, "a lock that holds", FELOSUMAY_DONE);
    }
    for (size_t i = 0; i < sizeof loose / sizeof *loose; i++) {
        profile.locks[0].pid = loose[i];
        expect(23, "a lock that can't hold", FELOSUMAY_BAD_PROFILE);
    }
}

/* The UID of the first port. */
static void ports(void) {
    static const uint8_t first[6] = {0x7F, 0xF0, 0xFF, 0xFF, 0xFF, 0xFE};
    least();
    memcpy(profile.binding_uid, first, sizeof first);
    expect(24, "a binding UID", FELOSUMAY_DONE);
    profile.binding_uid[5] = 0xFF;
    expect(24, "a binding UID of every device of a maker", FELOSUMAY_BAD_PROFILE);
    profile.binding_uid[0] = profile.binding_uid[1] = 0;
    expect(24, "one of manufacturer 0", FELOSUMAY_BAD_PROFILE);
    least()->boot_loader = profile.proxied_device = profile.newest_only = 255;
    expect(24, "no binding UID", FELOSUMAY_DONE);
}

/* The least profile with a personality of the root's unit and these modes, which share so many slots. */
static felosumay_mode *mode(uint64_t count, uint64_t slots) {
    static felosumay_mode modes[248];
    static felosumay_slot mode_slots[47];
    memset(modes, 0, sizeof modes);
    least()->modes = modes;
    profile.mode_count = count;
    profile.mode_slots = mode_slots;
    profile.mode_slot_count = slots;
    return modes;
}

/* How many modes there are, and how large each is. */
static void modes(void) {
    mode(247, 0);
    expect(25, "247 modes", FELOSUMAY_DONE);
    profile.mode_count = 248;
    expect(25, "248 modes", FELOSUMAY_BAD_PROFILE);
    profile.language_count = 0;
    expect(7, "248 modes, and no language", FELOSUMAY_BAD_PROFILE);
    mode(2, 0)[1].footprint = 512;
    expect(26, "a mode of 512 slots", FELOSUMAY_DONE);
    mode(2, 0)[1].footprint = 513;
    expect(26, "a mode of 513 slots", FELOSUMAY_BAD_PROFILE);
}

/* The slots that a mode has of its own. */
static void own_slots(void) {
    mode(1, 46)[0].slot_count = 46;
    expect(27, "46 slots of its own", FELOSUMAY_DONE);
    mode(1, 45)[0].slot_count = 46;
    expect(27, "46 slots of 45", FELOSUMAY_BAD_PROFILE);
    mode(1, 47)[0].slot_count = 47;
    expect(27, "47 slots of its own", FELOSUMAY_BAD_PROFILE);
    felosumay_mode *first = mode(1, 47);
    first[0].slot_count = 46;
    first[0].first_slot = 1;
    expect(27, "46 slots of its own, behind one that nobody has", FELOSUMAY_DONE);
    first = mode(2, 4);
    first[0].first_slot = 4;
    expect(27, "no slots, behind the last", FELOSUMAY_DONE);
    first[0].first_slot = 5;
    expect(27, "no slots, one behind that", FELOSUMAY_BAD_PROFILE);
    first[0].first_slot = 2;
    first[0].slot_count = first[1].slot_count = 2;
    first[1].first_slot = 1;
    expect(27, "slots that two modes have", FELOSUMAY_DONE);
    first[0].slot_count = 3;
    expect(27, "a slot behind the last", FELOSUMAY_BAD_PROFILE);
    first[0].first_slot = 65535;
    first[0].slot_count = 255;
    expect(27, "255 slots far behind it", FELOSUMAY_BAD_PROFILE);
}

/* The personality whose slots a mode has. Number 1 is the root's unit's, 2 to 4 are modes, of which 2 has slots of its own. */
static void shared_slots(void) {
    felosumay_mode *first = mode(3, 4);
    first[0].slot_count = 4;
    first[1].slots_of = 1;
    first[2].slots_of = 2;
    expect(27, "the slots of numbers 1 and 2", FELOSUMAY_DONE);
    first[1].slots_of = 0;
    expect(27, "slots of its own, of which there are none", FELOSUMAY_DONE);
    first[1].slots_of = 3;
    expect(27, "the slots of itself", FELOSUMAY_BAD_PROFILE);
    first[1].slots_of = 4;
    expect(27, "the slots of one that has those of another", FELOSUMAY_BAD_PROFILE);
    first[1].slots_of = 5;
    expect(27, "the slots of none", FELOSUMAY_BAD_PROFILE);
    first[1].slots_of = 255;
    expect(27, "the slots of number 255", FELOSUMAY_BAD_PROFILE);
    first[1].slots_of = 2;
    expect(27, "the slots of number 2 twice", FELOSUMAY_DONE);
    first[1].slot_count = 1;
    expect(27, "the slots of number 2, and one of its own", FELOSUMAY_BAD_PROFILE);
    mode(247, 0)[246].slots_of = 8;
    profile.root.personality_count = 255; /* they stand for 8 */
    expect(27, "255 personalities, of which the last has the slots of number 8", FELOSUMAY_DONE);
    profile.root.personality_count = 7;
    expect(27, "the same, where number 8 is a mode", FELOSUMAY_DONE);
    profile.modes = NULL;
    profile.mode_count = 0;
    expect(27, "no modes", FELOSUMAY_DONE);
}

/* A choice, and what its things are called. */
static void names(void) {
    static felosumay_choice choices[65];
    own(2, FELOSUMAY_DS_NAMES, 0);
    parameters[0].pid = FELOSUMAY_PID_OUTPUT_RESPONSE_TIME;
    parameters[0].kind = FELOSUMAY_DS_CHOICE;
    parameters[0].low = parameters[0].high = 1;
    parameters[0].start.count = 1;
    parameters[0].start.bytes[0] = 1;
    parameters[1].pid = FELOSUMAY_PID_OUTPUT_RESPONSE_TIME_DESCRIPTION;
    parameters[1].commands = FELOSUMAY_CC_GET;
    for (size_t i = 0; i < sizeof choices / sizeof *choices; i++) {
        choices[i].pid = FELOSUMAY_PID_OUTPUT_RESPONSE_TIME_DESCRIPTION;
        choices[i].number = (uint8_t)(i + 1);
    }
    profile.choices = choices;
    expect(20, "a thing without its name", FELOSUMAY_BAD_PROFILE);
    profile.choice_count = 1;
    expect(20, "a thing with its name", FELOSUMAY_DONE);
    profile.choice_count = 2;
    expect(20, "a name without its thing", FELOSUMAY_BAD_PROFILE);
    parameters[0].high = 64;
    profile.choice_count = 64;
    expect(20, "64 names", FELOSUMAY_DONE);
    parameters[0].high = 65;
    profile.choice_count = 65;
    expect(20, "65 names", FELOSUMAY_BAD_PROFILE);
}

int main(void) {
    numbers();
    unit(&profile.root, "the root");
    unit(&profile.sub, "the sub-devices");
    footprints();
    lists();
    left_out();
    own_pids();
    own_data();
    fields();
    standards();
    scenes_and_pins();
    names();
    locks();
    locked();
    ports();
    modes();
    own_slots();
    shared_slots();
    return failed;
}
