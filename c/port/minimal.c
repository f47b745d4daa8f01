/* The least firmware: a responder without a heap, its loop, and two functions of the board's. For its size (docs/PORTS.md). */
#include "../felosumay_memory.h"

enum { QUEUE_SIZE = 4, ENTRIES = 16 };

extern uint64_t line_receive(uint8_t *bytes);
extern void line_send(const uint8_t *bytes, uint64_t count);
extern const felosumay_profile PROFILE;

FELOSUMAY_ALIGNED static uint8_t memory[FELOSUMAY_RESPONDER_BYTES(QUEUE_SIZE, ENTRIES, 0)];

int main(void) {
    static felosumay_responder fixture;
    static uint8_t request[FELOSUMAY_FRAME_BYTES], reply[FELOSUMAY_FRAME_BYTES];
    const felosumay_outcome done = {FELOSUMAY_JOB_DONE, 0, 0, 0, 0, 0};
    felosumay_result result = felosumay_responder_new_in(memory, sizeof memory, &fixture, 0x7FF0, 1, &PROFILE, QUEUE_SIZE, ENTRIES, 0);
    while (result == FELOSUMAY_DONE) {
        felosumay_stepped stepped;
        const uint64_t count = line_receive(request);
        uint8_t kept;
        result = felosumay_responder_step(&fixture, request, count, reply, &stepped);
        if (stepped.replied)
            line_send(reply, stepped.count);
        if (stepped.started)
            felosumay_responder_arrive(&fixture, &stepped.job, &done, &kept);
    }
    return 0;
}
