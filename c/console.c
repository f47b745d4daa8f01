/* A console's program: a collector sends its user's commands to a device, and fetches the messages that wait there, over a
 * bus that loses a reply. The demonstration fixture stands in for the device. docs/C.md reads it part by part. */
#include "felosumay.h"
#include <stdio.h>
#include <string.h>

enum { MAKER = 0x7FF0, FIXTURE = 1, CONSOLE = 2, QUEUE_SIZE = 8 };

/* One request to the device, and its reply, which may be lost. It says what the collector took the reply for. */
static uint8_t exchange(felosumay_collector *console, felosumay_responder *device, const uint8_t *request, uint64_t count,
                        int lost, felosumay_job *job) {
    uint8_t reply[FELOSUMAY_FRAME_BYTES];
    felosumay_heard heard = {0, 0, FELOSUMAY_IGNORED};
    felosumay_stepped stepped = {0, 0, 0, 0, {0, 0, 0, 0, 0, 0, 0}, 0, 0};
    felosumay_responder_step(device, request, count, reply, &stepped);
    if (stepped.started)
        *job = stepped.job;
    if (stepped.replied && !lost)
        felosumay_collector_hear(console, reply, stepped.count, &heard);
    else
        felosumay_collector_over(console);
    return heard.kind;
}

/* The user strikes the lamp: the device starts a job, which fails. */
static felosumay_result strike(felosumay_collector *console, felosumay_responder *device) {
    const felosumay_command lamp = {FIXTURE, MAKER, 0, 0x0403, FELOSUMAY_SET}, queue = {FIXTURE, MAKER, 0, 0x0020, FELOSUMAY_GET},
                            none = {FIXTURE, MAKER, 0, 0x0403, 0x99};
    const felosumay_outcome failed = {FELOSUMAY_JOB_FAILED, 4, 0, 0x8001, 1, 2};
    const uint8_t on[232] = {3};
    uint8_t request[FELOSUMAY_FRAME_BYTES], kept = 0;
    felosumay_job job = {0, 0, 0, 0, 0, 0, 0};
    uint64_t count = 0;
    printf("too long %u, reserved %u, unknown %u\n", felosumay_collector_ask(console, &lamp, on, 232, request, &count),
           felosumay_collector_ask(console, &queue, on, 1, request, &count),
           felosumay_collector_ask(console, &none, on, 1, request, &count));
    felosumay_result status = felosumay_collector_ask(console, &lamp, on, 1, request, &count);
    printf("poll while a command is open: %u\n", felosumay_collector_poll(console, request, &count));
    printf("lamp %u: heard %u\n", status, exchange(console, device, request, count, 0, &job));
    status = felosumay_responder_arrive(device, &job, &failed, &kept);
    printf("arrive %u, kept %u\n", status, kept);
    return status;
}

/* The console polls until an answer has no data: the first answer is lost, and asked for again. */
static felosumay_result collect(felosumay_collector *console, felosumay_responder *device) {
    uint8_t request[FELOSUMAY_FRAME_BYTES];
    felosumay_job job = {0, 0, 0, 0, 0, 0, 0};
    felosumay_message message;
    uint64_t count = 0;
    for (int round = 0; round < 4; round++) {
        felosumay_result status = felosumay_collector_poll(console, request, &count);
        if (status != FELOSUMAY_DONE)
            return status;
        printf("poll: heard %u\n", exchange(console, device, request, count, round == 0, &job));
    }
    while (felosumay_collector_next(console, &message) == FELOSUMAY_DONE) {
        printf("message: class %02X, PID %04X, sub-device %u:", message.command_class, message.pid, message.sub);
        for (size_t i = 0; i < message.count; i++)
            printf(" %02X", message.bytes[i]);
        printf("\n");
    }
    printf("next %u\n", felosumay_collector_next(console, &message));
    return FELOSUMAY_DONE;
}

static int is_same(const felosumay_message *one, const felosumay_message *other) {
    return one->type == other->type && one->command_class == other->command_class && one->pid == other->pid &&
           one->sub == other->sub && one->count == other->count && memcmp(one->bytes, other->bytes, one->count) == 0;
}

/* The request of the second poll is lost, though the first was answered. The third asks for the last message again, and gets the one
 * that the console has: if a message is equal to the one before it, and has the flag, it is most likely the same. */
static felosumay_result repeat(felosumay_collector *console, felosumay_responder *device) {
    uint8_t request[FELOSUMAY_FRAME_BYTES];
    felosumay_job job = {0, 0, 0, 0, 0, 0, 0};
    felosumay_message message, last = {0, 0, 0, 0, 0, 0, 0, 0, 0, {0}};
    uint64_t count = 0;
    printf("start 7: %u\n", felosumay_responder_change_start(device, 7));
    for (int round = 0; round < 3; round++) {
        felosumay_result status = felosumay_collector_poll(console, request, &count);
        if (status != FELOSUMAY_DONE)
            return status;
        if (round == 1)
            felosumay_collector_over(console);
        else
            exchange(console, device, request, count, 0, &job);
        if (felosumay_collector_next(console, &message) != FELOSUMAY_DONE)
            continue;
        printf("PID %04X%s\n", message.pid, message.may_repeat && is_same(&message, &last) ? ", again" : "");
        last = message;
    }
    return FELOSUMAY_DONE;
}

/* Ten thousand messages are collected and taken: the collector keeps none of them. */
static felosumay_result run_on(felosumay_collector *console, felosumay_responder *device) {
    uint8_t request[FELOSUMAY_FRAME_BYTES];
    felosumay_job job = {0, 0, 0, 0, 0, 0, 0};
    felosumay_message message;
    uint64_t count = 0, taken = 0;
    for (int round = 0; round < 10000; round++) {
        felosumay_result status = felosumay_collector_poll(console, request, &count);
        if (status != FELOSUMAY_DONE)
            return status;
        exchange(console, device, request, count, 0, &job);
        taken += felosumay_collector_next(console, &message) == FELOSUMAY_DONE;
    }
    printf("taken %u\n", (unsigned)taken);
    return FELOSUMAY_DONE;
}

int main(void) {
    felosumay_responder device = {0};
    felosumay_collector console = {0};
    felosumay_result status = felosumay_responder_demo(&device, MAKER, FIXTURE, 2, QUEUE_SIZE);
    uint64_t waiting = 0;
    if (status == FELOSUMAY_DONE)
        status = felosumay_collector_new(&console, MAKER, CONSOLE, MAKER, FIXTURE, 2);
    if (status == FELOSUMAY_DONE) {
        status = strike(&console, &device);
        if (status == FELOSUMAY_DONE)
            status = collect(&console, &device);
        if (status == FELOSUMAY_DONE)
            status = repeat(&console, &device);
        if (status == FELOSUMAY_DONE)
            status = run_on(&console, &device);
        printf("want of 7: %u\n", felosumay_collector_new(&console, MAKER, CONSOLE, MAKER, FIXTURE, 7));
        printf("a UID of all: %u\n", felosumay_collector_new(&console, MAKER, 0xFFFFFFFF, MAKER, FIXTURE, 2));
        printf("a target of all: %u\n", felosumay_collector_new(&console, MAKER, CONSOLE, 0xFFFF, 0xFFFFFFFF, 2));
        printf("both, and want of 7: %u\n", felosumay_collector_new(&console, MAKER, 0xFFFFFFFF, MAKER, 0xFFFFFFFF, 7));
        printf("the old one stays: %u\n", felosumay_collector_over(&console));
        /* the compiler takes no collector for a responder; a cast is found out */
        printf("mistaken %u\n", felosumay_responder_waiting((felosumay_responder *)&console, &waiting));
    }
    felosumay_collector_free(&console);
    felosumay_responder_free(&device);
    if (status != FELOSUMAY_DONE)
        printf("status %u\n", status);
    return status;
}
