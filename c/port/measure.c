/* Counts what a request takes on a Cortex-M3: the timer of the processor counts time, and qemu's time goes on by the same amount with each
 * instruction. rows.h has the requests, which c/port/figures makes of bench/frames.txt; a line for each is printed, with the instructions of
 * one `step`. */
#include "../felosumay.h"
#include <stdio.h>
#include <string.h>

struct row {
    const char *name;
    uint16_t subs;
    uint16_t own;
    uint16_t count;
    uint8_t bytes[FELOSUMAY_FRAME_BYTES];
};

#include "rows.h"

enum { QUEUE_SIZE = 4, ENTRIES = 16, OWN = 2 };

/* How much time an instruction takes, and a tick of the timer, in nanoseconds; c/port/figures gives qemu the first. */
enum { INSTRUCTION = 1024, TICK = 40, MOST_TICKS = 0xFFFFFF };

static volatile uint32_t *const TIMER = (volatile uint32_t *)0xE000E010;
static felosumay_profile profile;
static felosumay_parameter own[OWN];
static uint8_t reply[FELOSUMAY_FRAME_BYTES];

static uint32_t now(void) {
    return TIMER[2];
}

/* The ticks since then: the timer counts down. */
static uint32_t since(uint32_t start) {
    return (start - now()) & MOST_TICKS;
}

/* The profile of bench/run as far as these requests meet it. */
static void describe(const struct row *row) {
    memset(&profile, 0, sizeof profile);
    profile.root.model = profile.sub.model = 0x0101;
    profile.root.personality_count = 3;
    profile.root.personalities[0].footprint = 1;
    profile.root.personalities[1].footprint = 2;
    profile.root.personalities[2].footprint = 3;
    profile.root.start = 1;
    profile.sub = profile.root;
    profile.subs = row->subs;
    profile.slot_count = 3;
    profile.sensor_count = 2;
    profile.language_count = 1;
    profile.languages[0] = 0x656E;
    own[0].pid = 0x8000;
    own[1].pid = 0x8001;
    for (int i = 0; i < OWN; i++) {
        own[i].kind = FELOSUMAY_DS_UNSIGNED_BYTE;
        own[i].commands = FELOSUMAY_CC_GET_SET;
        own[i].high = 255;
        own[i].start.count = 1;
    }
    profile.parameters = own;
    profile.parameter_count = row->own ? OWN : 0;
}

/* The ticks of one request, behind one of the same that the responder has heard. */
static uint32_t ticks_of(const struct row *row) {
    static felosumay_responder fixture;
    felosumay_stepped stepped;
    uint32_t start, ticks, empty;
    describe(row);
    if (felosumay_responder_new_with(&fixture, 0x7FF0, 1, &profile, QUEUE_SIZE, ENTRIES, 0) != FELOSUMAY_DONE)
        return 0;
    felosumay_responder_step(&fixture, row->bytes, row->count, reply, &stepped);
    start = now();
    empty = since(start);
    start = now();
    felosumay_responder_step(&fixture, row->bytes, row->count, reply, &stepped);
    ticks = since(start) - empty;
    felosumay_responder_free(&fixture);
    return ticks;
}

int main(void) {
    TIMER[1] = MOST_TICKS;
    TIMER[2] = 0;
    TIMER[0] = 5;
    for (unsigned i = 0; i < sizeof ROWS / sizeof *ROWS; i++)
        printf("%s\t%u\n", ROWS[i].name, (unsigned)((uint64_t)ticks_of(&ROWS[i]) * TICK / INSTRUCTION));
    return 0;
}
