/* A line of fixtures for the programs that search one, search.c and altered.c. Each of them says what its line is, and has a `transact` of
 * its own. */
#ifndef SEARCHED_H
#define SEARCHED_H
#include "felosumay.h"
#include <string.h>

typedef struct line line;

/* Sends a request, and waits for what comes: the bytes of whoever answers, none if nobody does. */
static uint64_t transact(line *line, const uint8_t *request, uint64_t count, uint8_t heard[FELOSUMAY_FRAME_BYTES]);

/* What is heard of these fixtures: the bytes of whoever answers, as the OR of their bytes if more than one does. `answers` counts them. */
static uint64_t answer_of(felosumay_responder *fixtures, int most, const uint8_t *request, uint64_t count,
                          uint8_t heard[FELOSUMAY_FRAME_BYTES], int *answers) {
    uint8_t reply[FELOSUMAY_FRAME_BYTES];
    felosumay_stepped stepped;
    uint64_t length = 0;
    *answers = 0;
    memset(heard, 0, FELOSUMAY_FRAME_BYTES);
    for (int i = 0; i < most; i++) {
        felosumay_responder_step(&fixtures[i], request, count, reply, &stepped);
        if (!stepped.replied)
            continue;
        for (size_t k = 0; k < stepped.count; k++)
            heard[k] |= reply[k];
        length = stepped.count > length ? stepped.count : length;
        ++*answers;
    }
    return length;
}

/* Runs a search to its end: sends each of its requests, and passes in what came. */
static felosumay_result discover(felosumay_search *search, line *line) {
    uint8_t request[FELOSUMAY_FRAME_BYTES], heard[FELOSUMAY_FRAME_BYTES];
    uint64_t count = 0;
    felosumay_result status = felosumay_search_next(search, request, &count);
    while (status == FELOSUMAY_DONE) {
        uint64_t length = transact(line, request, count, heard);
        status = felosumay_search_hear(search, heard, length);
        if (status == FELOSUMAY_DONE)
            status = felosumay_search_next(search, request, &count);
    }
    return status;
}

#endif
