/* How much stack it takes to judge a profile, to make a responder of it, to hear a frame, to read a value and to free it: each call is made
 * in a thread that paints its stack before, and what is no paint afterwards was touched. Its status is 1 if one of the first two takes more
 * than 12 KiB, or another call more than 2. */
#define _XOPEN_SOURCE 700
#include "felosumay_memory.h"
#include "felosumay_names.h"
#include <pthread.h>
#include <stdio.h>

enum { STACK = 1 << 18, PAINT = 0xA5, UNPAINTED = 256, MOST_TO_MAKE = 12 * 1024, MOST = 2 * 1024, MOST_MODES = 247 };

FELOSUMAY_ALIGNED static uint8_t memory[FELOSUMAY_RESPONDER_BYTES(8, 64, 512) + FELOSUMAY_PARTICULARS_BYTES +
                                        FELOSUMAY_OWN_PARAMETERS_BYTES(32) + FELOSUMAY_CHOICES_BYTES(64) + FELOSUMAY_LOCKS_BYTES(64) +
                                        FELOSUMAY_MODES_BYTES(MOST_MODES, MOST_MODES)];
FELOSUMAY_ALIGNED static uint8_t stack[STACK];
static felosumay_profile profile;
static felosumay_parameter parameters[32];
static felosumay_choice choices[64];
static felosumay_mode modes[MOST_MODES];
static felosumay_slot mode_slots[1];
static felosumay_responder fixture;
static felosumay_result result;

static void judge(void) {
    result = felosumay_profile_fault(&profile) == FELOSUMAY_NO_FAULT ? FELOSUMAY_DONE : FELOSUMAY_BAD_PROFILE;
}

static void make(void) {
    result = felosumay_responder_new_in(memory, sizeof memory, &fixture, 0x7FF0, 1, &profile, 8, 64, 0);
}

/* SET LAMP_STATE. */
static void hear(void) {
    static const uint8_t lamp_on[] = {0xCC, 0x01, 0x19, 0x7F, 0xF0, 0, 0, 0, 1, 0x7F, 0xF0, 0, 0, 0,
                                      2,    0,    1,    0,    0,    0, 0x30, 0x04, 0x03, 1, 1, 0x04, 0x01};
    static uint8_t reply[FELOSUMAY_FRAME_BYTES];
    static felosumay_stepped stepped;
    result = felosumay_responder_step(&fixture, lamp_on, sizeof lamp_on, reply, &stepped);
}

static void ask(void) {
    static uint8_t value[FELOSUMAY_VALUE_BYTES];
    static uint64_t count;
    static uint16_t reason;
    result = felosumay_responder_get(&fixture, 0, FELOSUMAY_PID_DEVICE_INFO, NULL, 0, value, &count, &reason);
}

static void give_up(void) {
    felosumay_responder_free(&fixture);
}

/* The call that is measured, and the bytes from the frame of this function to the last that the call touches. */
static void (*call)(void);
static size_t touched;

static void *measure(void *unused) {
    const volatile uint8_t *here = (const volatile uint8_t *)__builtin_frame_address(0);
    const volatile uint8_t *lowest = stack;
    for (volatile uint8_t *place = stack; place < here - UNPAINTED; place++)
        *place = PAINT;
    call();
    while (lowest < here - UNPAINTED && *lowest == PAINT)
        lowest++;
    touched = (size_t)(here - lowest);
    return unused;
}

static int is_over(const char *name, void (*calls)(void), size_t most) {
    pthread_attr_t attributes;
    pthread_t thread;
    call = calls;
    pthread_attr_init(&attributes);
    if (pthread_attr_setstack(&attributes, stack, sizeof stack) != 0 || pthread_create(&thread, &attributes, measure, NULL) != 0)
        return 1;
    pthread_join(thread, NULL);
    pthread_attr_destroy(&attributes);
    printf("%s: %zu bytes of stack\n", name, touched);
    return result != FELOSUMAY_DONE || touched > most;
}

/* A choice of so many items, and the parameter with their names. */
static void add_choice(felosumay_parameter *parameter, uint16_t pid, uint8_t kind, uint8_t low, uint8_t high) {
    for (int i = 0; i < 2; i++)
        parameter[i].size = parameter[i].field_count = parameter[i].start.count = 0;
    parameter[0].pid = pid;
    parameter[0].kind = kind;
    parameter[0].low = parameter[0].start.bytes[0] = low;
    parameter[0].high = high;
    parameter[0].start.count = 1;
    parameter[1].pid = (uint16_t)(pid + 1);
    parameter[1].kind = FELOSUMAY_DS_NAMES;
    parameter[1].commands = FELOSUMAY_CC_GET;
}

/* As many parameters of the maker's own, names of choices and locks as there can be. */
static void add_parameters(void) {
    for (uint16_t i = 0; i < 32; i++) {
        parameters[i].pid = (uint16_t)(0x8000 + i);
        parameters[i].kind = FELOSUMAY_DS_NOT_DEFINED;
        parameters[i].commands = FELOSUMAY_CC_GET_SET;
        parameters[i].size = parameters[i].start.count = 32;
        parameters[i].field_count = 8;
        for (int k = 0; k < 8; k++) {
            parameters[i].fields[k].slots = 4;
            parameters[i].fields[k].high = 0xFFFFFFFF;
        }
    }
    add_choice(parameters, FELOSUMAY_PID_CURVE, FELOSUMAY_DS_CHOICE, 1, 63);
    parameters[2].pid = FELOSUMAY_PID_LOCK_PIN;
    parameters[2].kind = FELOSUMAY_DS_PIN;
    parameters[2].size = parameters[2].field_count = 0;
    parameters[2].high = 9999;
    parameters[2].start.count = 2;
    add_choice(parameters + 3, FELOSUMAY_PID_LOCK_STATE, FELOSUMAY_DS_LOCK, 0, 1);
    for (uint8_t i = 0; i < 64; i++) {
        choices[i].pid = i < 63 ? FELOSUMAY_PID_CURVE_DESCRIPTION : FELOSUMAY_PID_LOCK_STATE_DESCRIPTION;
        choices[i].number = (uint8_t)(i < 63 ? i + 1 : 1);
        profile.locks[i].state = 1;
        profile.locks[i].pid = FELOSUMAY_PID_DEVICE_LABEL;
    }
    profile.parameters = parameters;
    profile.parameter_count = 32;
    profile.choices = choices;
    profile.choice_count = profile.lock_count = 64;
}

/* As many modes as there can be, each with a slot of its own. */
static void add_modes(void) {
    for (int i = 0; i < MOST_MODES; i++)
        modes[i].slot_count = 1;
    profile.modes = modes;
    profile.mode_count = MOST_MODES;
    profile.mode_slots = mode_slots;
    profile.mode_slot_count = 1;
}

int main(void) {
    int failed;
    add_parameters();
    add_modes();
    profile.subs = 512;
    profile.root.personality_count = profile.sub.personality_count = 1;
    profile.root.start = profile.sub.start = 1;
    profile.language_count = 1;
    failed = is_over("profile_fault", judge, MOST_TO_MAKE);
    failed |= is_over("new_in", make, MOST_TO_MAKE);
    failed |= is_over("step", hear, MOST);
    failed |= is_over("get", ask, MOST);
    failed |= is_over("free", give_up, MOST);
    return failed;
}
