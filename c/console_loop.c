/* A console that strikes a lamp: it sends the command, and polls for the result that comes later. line.h stands in for the line.
 * docs/C.md shows it. */
#include "felosumay_names.h"
#include "line.h"

/* One request: what comes back goes to the collector until it takes it for the answer. If the line is silent, the transaction is over. */
static uint8_t exchange(felosumay_collector *console, const uint8_t *request, uint64_t count, felosumay_reply *reply) {
    uint8_t answer[FELOSUMAY_FRAME_BYTES];
    felosumay_heard heard = {0, 0, FELOSUMAY_IGNORED};
    line_send(request, count);
    while (heard.kind == FELOSUMAY_IGNORED && (count = line_receive(answer)) != 0)
        felosumay_collector_hear(console, answer, count, &heard);
    felosumay_collector_over(console);
    return felosumay_reply_read(answer, count, reply) == FELOSUMAY_DONE ? heard.kind : (uint8_t)FELOSUMAY_IGNORED;
}

int main(void) {
    const felosumay_command lamp = {1, 0x7FF0, 0, FELOSUMAY_PID_LAMP_STATE, FELOSUMAY_SET};
    const uint8_t on = FELOSUMAY_LAMP_ON;
    felosumay_collector console = {0};
    felosumay_message message;
    felosumay_reply reply;
    uint8_t request[FELOSUMAY_FRAME_BYTES];
    uint64_t count = 0;
    felosumay_result result = felosumay_collector_new(&console, 0x7FF0, 2, 0x7FF0, 1, FELOSUMAY_STATUS_ADVISORY);
    if (result == FELOSUMAY_DONE)
        result = felosumay_collector_ask(&console, &lamp, &on, 1, request, &count);
    while (result == FELOSUMAY_DONE && exchange(&console, request, count, &reply) != FELOSUMAY_IGNORED) {
        if (reply.type == FELOSUMAY_NACK)
            fprintf(stderr, "%s: %s\n", felosumay_parameter_name(reply.pid), felosumay_reason_name(reply.reason));
        if (reply.type == FELOSUMAY_ACK_TIMER) /* a real console waits for that long before it polls */
            fprintf(stderr, "%s: in %u tenths of a second\n", felosumay_parameter_name(reply.pid), reply.tenths);
        while (felosumay_collector_next(&console, &message) == FELOSUMAY_DONE)
            fprintf(stderr, "message: %s, %u bytes\n", felosumay_parameter_name(message.pid), (unsigned)message.count);
        if (reply.waiting == 0 && reply.type != FELOSUMAY_ACK_TIMER)
            break;
        result = felosumay_collector_poll(&console, request, &count);
    }
    felosumay_collector_free(&console);
    return result;
}
