/* A fixture behind a UART: what the UART reports goes to a receiver, and each packet in it to the responder. Here the signals of the line
 * are an array; in a firmware an interrupt passes them in. docs/FIXTURES.md shows such a loop. */
#include "felosumay.h"
#include <stdio.h>

/* What a UART reports: a byte, or one of these. */
enum { LINE_BREAK = 256, LINE_ERROR = 257 };

#define REQUEST 0xCC, 0x01, 0x18, 0x7F, 0xF0, 0, 0, 0, 1, 0x7F, 0xF0, 0, 0, 0, 2, 0, 1, 0, 0, 0, 0x20, 0x10, 0, 0

static const uint16_t line[] = {
    /* Rubbish, before the first break. */
    0x12, 0x34,
    /* Three levels. */
    LINE_BREAK, 0x00, 0xFF, 0x80, 0x00,
    /* GET IDENTIFY_DEVICE. */
    LINE_BREAK, REQUEST, 0x03, 0xF7,
    /* The same, and rubbish behind it. */
    LINE_BREAK, REQUEST, 0x03, 0xF7, 0x55, 0xCC,
    /* The same with another checksum. */
    LINE_BREAK, REQUEST, 0x03, 0xF8,
    /* The same, with an error at one byte. */
    LINE_BREAK, 0xCC, 0x01, 0x18, LINE_ERROR, 0x7F, 0xF0, REQUEST, 0x03, 0xF7,
    /* The same, and a break within it. */
    LINE_BREAK, 0xCC, 0x01, 0x18, 0x7F, LINE_BREAK, REQUEST, 0x03, 0xF7,
};

static void print_bytes(const char *what, const uint8_t *bytes, uint64_t count) {
    printf("%s", what);
    for (uint64_t i = 0; i < count; i++)
        printf(" %02X", (unsigned)bytes[i]);
    printf("\n");
}

/* The responder receives a packet, and the driver of the line is on only while a reply is sent. */
static felosumay_result hear_packet(felosumay_responder *fixture, const felosumay_receiver *receiver, uint16_t count) {
    uint8_t reply[FELOSUMAY_FRAME_BYTES];
    felosumay_stepped stepped;
    felosumay_result result = felosumay_responder_step(fixture, receiver->packet, count, reply, &stepped);
    print_bytes("packet:", receiver->packet, count);
    if (stepped.replied)
        print_bytes("reply:", reply, stepped.count);
    else
        printf("no reply\n");
    return result;
}

/* What an interrupt does with a byte. */
static felosumay_result hear_byte(felosumay_responder *fixture, felosumay_receiver *receiver, uint8_t byte) {
    uint16_t number;
    switch (felosumay_receiver_byte(receiver, byte, &number)) {
    case FELOSUMAY_RECEIVED_PACKET:
        return hear_packet(fixture, receiver, number);
    case FELOSUMAY_RECEIVED_LEVEL:
        printf("slot %u: %u\n", (unsigned)number, (unsigned)byte);
        break;
    default: /* the byte completes nothing */
        break;
    }
    return FELOSUMAY_DONE;
}

int main(void) {
    felosumay_receiver receiver = {0, 0, {0}};
    felosumay_responder fixture = {0};
    felosumay_result result = felosumay_responder_demo(&fixture, 0x7FF0, 1, 0, 8);
    for (size_t i = 0; i < sizeof line / sizeof line[0] && result == FELOSUMAY_DONE; i++) {
        if (line[i] == LINE_BREAK)
            felosumay_receiver_break(&receiver);
        else if (line[i] == LINE_ERROR)
            felosumay_receiver_error(&receiver);
        else
            result = hear_byte(&fixture, &receiver, (uint8_t)line[i]);
    }
    felosumay_responder_free(&fixture);
    if (result != FELOSUMAY_DONE)
        printf("status %u\n", result);
    return result;
}
