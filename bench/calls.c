/* Makes one kind of call of the library for C over and over: bench/calls counts its instructions.
 *
 *     calls ROW ROUNDS
 */
#include "../c/felosumay.h"
#include <stdio.h>
#include <stdlib.h>

enum { MAKER = 0x7FF0, FIXTURE = 1, CONSOLE = 2, QUEUE_SIZE = 8, IDENTIFY_DEVICE = 0x1000 };

static felosumay_responder device;
static felosumay_collector console;
static uint8_t request[FELOSUMAY_FRAME_BYTES], reply[FELOSUMAY_FRAME_BYTES];
static uint64_t request_count;
static felosumay_stepped stepped;

static void ask(void) {
    const felosumay_command command = {FIXTURE, MAKER, 0, IDENTIFY_DEVICE, FELOSUMAY_GET};
    const uint8_t nothing = 0;
    felosumay_collector_ask(&console, &command, &nothing, 0, request, &request_count);
}

static uint64_t step(void) {
    felosumay_responder_step(&device, request, request_count, reply, &stepped);
    return stepped.count;
}

static uint64_t hear(void) {
    felosumay_heard heard = {0, 0, FELOSUMAY_IGNORED};
    felosumay_collector_hear(&console, reply, stepped.count, &heard);
    return heard.kind;
}

static uint64_t make(int row) {
    const uint8_t nothing = 0;
    felosumay_message message;
    uint64_t count = 0;
    uint16_t reason = 0;
    switch (row) {
    case 0:
        return step();
    case 1:
        felosumay_responder_get(&device, 0, IDENTIFY_DEVICE, &nothing, 0, reply, &count, &reason);
        return count;
    case 2:
        felosumay_responder_waiting(&device, &count);
        return count;
    case 3:
        ask();
        felosumay_collector_over(&console);
        return request_count;
    case 4:
        ask();
        step();
        return hear();
    case 5:
        felosumay_collector_poll(&console, request, &request_count);
        step();
        hear();
        felosumay_collector_next(&console, &message);
        return message.count;
    default: /* the loop alone */
        return request_count;
    }
}

int main(int argc, char **argv) {
    size_t sum = 0;
    if (argc != 3)
        return 2;
    const int row = atoi(argv[1]);
    if (felosumay_responder_demo(&device, MAKER, FIXTURE, 0, QUEUE_SIZE) != FELOSUMAY_DONE ||
        felosumay_collector_new(&console, MAKER, CONSOLE, MAKER, FIXTURE, 2) != FELOSUMAY_DONE)
        return 1;
    ask();
    felosumay_collector_over(&console);
    for (long round = strtol(argv[2], NULL, 10); round > 0; round--)
        sum += make(row);
    printf("%zu\n", sum);
    felosumay_responder_free(&device);
    felosumay_collector_free(&console);
    return 0;
}
