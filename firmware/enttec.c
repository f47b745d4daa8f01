/* The line, as a computer has it at a serial port: the device's side of the protocol of the ENTTEC DMX USB Pro, which OLA and consoles
 * speak. A request of the computer's goes to the receiver with a break before it, as a UART hears it on a line; what the fixture replies
 * goes back. Behind a real RS-485 driver this file is left out, and the UART's interrupt calls the receiver. docs/WIDGET.md has the
 * messages. */
#include "board.h"
#include "fixture.h"
#include <string.h>

/* A message is START, a label, the length of its body, the low byte first, the body, and END. */
enum { START = 0x7E, END = 0xE7, HEAD = 4, MOST_BODY = 600 };

enum {
    ASK_PARAMETERS = 3,
    HEARD = 5, /* a status, 0, and the bytes that were on the line */
    SEND_LEVELS = 6,
    SEND_REQUEST = 7,
    ASK_SERIAL = 10,
    SEND_DISCOVERY = 11,
    NOTHING_HEARD = 12
};

static uint8_t message[HEAD + MOST_BODY + 1];
static uint16_t count; /* how many bytes of it have come */
static felosumay_receiver receiver;

static void answer(uint8_t label, const uint8_t *body, uint16_t length) {
    const uint8_t head[HEAD] = {START, label, (uint8_t)length, (uint8_t)(length >> 8)}, end = END;
    board_line_send(head, HEAD);
    board_line_send(body, length);
    board_line_send(&end, 1);
}

/* Puts bytes on the line behind a break. Of the reply that comes the number of bytes is returned, 0 if there is none. */
static uint16_t put_on_line(const uint8_t *bytes, uint16_t length, uint8_t reply[FELOSUMAY_FRAME_BYTES]) {
    uint16_t replied = 0, number;
    felosumay_receiver_break(&receiver);
    for (uint16_t i = 0; i < length; i++) {
        const uint8_t came = felosumay_receiver_byte(&receiver, bytes[i], &number);
        if (came == FELOSUMAY_RECEIVED_PACKET)
            replied = fixture_hear(receiver.packet, number, reply);
        else if (came == FELOSUMAY_RECEIVED_LEVEL)
            fixture_level(number, bytes[i]);
    }
    return replied;
}

/* A discovery request ends with NOTHING_HEARD in any case. */
static void transact(uint8_t label, const uint8_t *body, uint16_t length) {
    uint8_t heard[1 + FELOSUMAY_FRAME_BYTES] = {0};
    const uint16_t replied = put_on_line(body, length, heard + 1);
    if (replied != 0)
        answer(HEARD, heard, 1 + replied);
    if (replied == 0 || label == SEND_DISCOVERY)
        answer(NOTHING_HEARD, NULL, 0);
}

/* A whole message. Others have no answer. */
static void carry_out(uint8_t label, const uint8_t *body, uint16_t length) {
    static const uint8_t parameters[5] = {4, 2, 9, 1, 40}, serial[4] = {1, 0, 0, 0};
    uint8_t unheard[FELOSUMAY_FRAME_BYTES];
    if (label == ASK_PARAMETERS)
        answer(ASK_PARAMETERS, parameters, sizeof parameters);
    else if (label == ASK_SERIAL)
        answer(ASK_SERIAL, serial, sizeof serial);
    else if (label == SEND_LEVELS)
        put_on_line(body, length, unheard);
    else if (label == SEND_REQUEST || label == SEND_DISCOVERY)
        transact(label, body, length);
}

static uint16_t body_length(void) {
    return (uint16_t)(message[2] | message[3] << 8);
}

/* Bytes that aren't a message are passed over: all up to the next START. */
void enttec_hear(uint8_t byte) {
    message[count++] = byte;
    if (message[0] != START || (count == HEAD && body_length() > MOST_BODY))
        count = 0;
    if (count < HEAD + 1 || count < HEAD + body_length() + 1)
        return;
    if (byte == END)
        carry_out(message[1], message + HEAD, body_length());
    count = 0;
}
