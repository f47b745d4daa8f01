/* A line for the examples: each frame is a line of hexadecimal digits, on standard input and standard output. */
#ifndef LINE_H
#define LINE_H
#include "felosumay.h"
#include <stdio.h>

/* The next frame, and how many bytes it has; 0 at the end. */
static uint64_t line_receive(uint8_t bytes[FELOSUMAY_FRAME_BYTES]) {
    char line[2 * FELOSUMAY_FRAME_BYTES + 2];
    unsigned byte;
    uint64_t count = 0;
    if (!fgets(line, sizeof line, stdin))
        return 0;
    while (count < FELOSUMAY_FRAME_BYTES && sscanf(line + 2 * count, "%2x", &byte) == 1)
        bytes[count++] = (uint8_t)byte;
    return count;
}

static void line_send(const uint8_t *bytes, uint64_t count) {
    for (size_t i = 0; i < count; i++)
        printf("%02X", bytes[i]);
    printf("\n");
    fflush(stdout);
}

#endif
