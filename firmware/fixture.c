/* A whole fixture: a responder without a heap that listens to the line, does slow commands in their time, keeps its values over power-off,
 * and has a menu. README.md walks through it. */
#include "fixture.h"
#include "board.h"
#include <felosumay_memory.h>
#include <felosumay_values.h>

FELOSUMAY_ALIGNED static uint8_t memory[FELOSUMAY_RESPONDER_BYTES(QUEUE_SIZE, ENTRIES, CELLS)];
static uint8_t levels[512];

felosumay_responder fixture;

static void tell_identity(void) {
    uint8_t is_identified = 0;
    felosumay_get_u8(&fixture, 0, FELOSUMAY_PID_IDENTIFY_DEVICE, &is_identified);
    menu_say(is_identified ? "here I am\r\n" : "no longer identified\r\n");
}

/* What another value means for the fixture: here it says that it identifies itself, where others flash their lamp. */
static void look(const felosumay_stepped *stepped) {
    if (stepped->changed == FELOSUMAY_NOTHING_CHANGED)
        return;
    values_changed();
    if (stepped->changed_parameter == FELOSUMAY_PID_IDENTIFY_DEVICE && stepped->changed_sub_device == 0)
        tell_identity();
}

/* Jobs that have ended are reported first, so that the reply counts their messages. */
uint16_t fixture_hear(const uint8_t *packet, uint16_t count, uint8_t reply[FELOSUMAY_FRAME_BYTES]) {
    felosumay_stepped stepped;
    jobs_report();
    if (felosumay_responder_step(&fixture, packet, count, reply, &stepped) != FELOSUMAY_DONE)
        return 0;
    if (stepped.started)
        jobs_begin(&stepped.job);
    look(&stepped);
    return stepped.replied ? (uint16_t)stepped.count : 0;
}

void fixture_level(uint16_t slot, uint8_t level) {
    levels[slot - 1] = level;
}

/* Its slots begin at its start address; behind slot 512 there are none. */
uint8_t fixture_level_of(uint16_t slot) {
    uint16_t start = 1;
    felosumay_get_u16(&fixture, 0, FELOSUMAY_PID_DMX_START_ADDRESS, &start);
    const uint32_t at = start - 1u + slot;
    return at < sizeof levels ? levels[at] : 0;
}

/* All that came since the last time. */
static void hear_all(void) {
    uint8_t byte;
    while (board_line_receive(&byte))
        enttec_hear(byte);
    while (board_menu_receive(&byte))
        menu_hear(byte);
}

int main(void) {
    board_start();
    if (felosumay_responder_new_in(memory, sizeof memory, &fixture, MAKER, DEVICE, &PROFILE, QUEUE_SIZE, ENTRIES, 0) != FELOSUMAY_DONE)
        return 1;
    values_load();
    menu_say("fixture 7FF0:00000001 is on: try help\r\n");
    for (;;) {
        hear_all();
        jobs_report();
        values_keep();
        board_wait();
    }
}
