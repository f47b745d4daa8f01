/* A fixture and the controller that asks it, in one program and without a bus: what own.c, locked.c and modes.c share. */
#ifndef ASKED_H
#define ASKED_H
#include "felosumay.h"
#include "felosumay_names.h"
#include <stdio.h>

enum { MAKER = 0x7FF0, FIXTURE = 1, CONSOLE = 2, QUEUE_SIZE = 8 };

static void print_bytes(const uint8_t *bytes, uint64_t count) {
    for (size_t i = 0; i < count; i++)
        printf("%02X%s", bytes[i], i + 1 < count ? " " : "\n");
}

/* Makes a request of the console, at the front of `request`. */
static uint64_t make(felosumay_collector *bus, uint16_t pid, uint8_t command_class, const uint8_t *load, uint64_t length,
                     uint8_t request[FELOSUMAY_FRAME_BYTES]) {
    const felosumay_command command = {FIXTURE, MAKER, 0, pid, command_class};
    uint64_t count = 0;
    if (felosumay_collector_ask(bus, &command, load, length, request, &count) != FELOSUMAY_DONE)
        return 0;
    felosumay_collector_over(bus);
    return count;
}

/* Makes a fixture with this profile and a controller, lets them play, and gives both up. It says what `main` is to say. */
static felosumay_result play_with(const felosumay_profile *profile,
                                  felosumay_result (*play)(felosumay_collector *bus, felosumay_responder *fixture)) {
    felosumay_responder fixture = {0};
    felosumay_collector bus = {0};
    felosumay_result status = felosumay_responder_new(&fixture, MAKER, FIXTURE, profile, QUEUE_SIZE);
    if (status == FELOSUMAY_DONE)
        status = felosumay_collector_new(&bus, MAKER, CONSOLE, MAKER, FIXTURE, FELOSUMAY_STATUS_ADVISORY);
    if (status == FELOSUMAY_DONE)
        status = play(&bus, &fixture);
    felosumay_collector_free(&bus);
    felosumay_responder_free(&fixture);
    if (status != FELOSUMAY_DONE)
        printf("status %u\n", status);
    return status;
}

#endif
