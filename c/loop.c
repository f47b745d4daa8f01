/* The loop of a fixture's firmware: hear a request, send the reply, and report each job when its work is done. line.h stands in for the
 * line. docs/C.md and docs/FIXTURES.md show it. */
#include "felosumay.h"
#include "line.h"

int main(void) {
    const felosumay_outcome done = {FELOSUMAY_JOB_DONE, 0, 0, 0, 0, 0};
    felosumay_responder fixture = {0};
    uint8_t request[FELOSUMAY_FRAME_BYTES], reply[FELOSUMAY_FRAME_BYTES], kept;
    uint64_t count;
    felosumay_result result = felosumay_responder_demo(&fixture, 0x7FF0, 1, 0, 8);
    while (result == FELOSUMAY_DONE && (count = line_receive(request)) != 0) {
        felosumay_stepped stepped;
        result = felosumay_responder_step(&fixture, request, count, reply, &stepped);
        if (stepped.replied)
            line_send(reply, stepped.count);
        /* ACK_TIMER was sent. A real fixture starts its work now, and makes this call once that is done; a sensor reports a reading. */
        if (stepped.started)
            result = felosumay_responder_arrive(&fixture, &stepped.job, &done, &kept);
    }
    felosumay_responder_free(&fixture);
    return result;
}
