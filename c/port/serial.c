/* The standard input and output of a program on qemu's RISC-V machine `virt`: its serial port, a 16550, since semihosting has no standard
 * input there. The byte 04, end of transmission, ends the input. */
#include <stdint.h>
#include <stdio.h>

/* Registers of the port, and bits of its line status. */
enum { DATA = 0, LINE_STATUS = 5 };
enum { RECEIVED = 0x01, MAY_SEND = 0x20 };
enum { END_OF_TRANSMISSION = 0x04 };

static volatile uint8_t *const port = (volatile uint8_t *)0x10000000;

static int send(char byte, FILE *file) {
    (void)file;
    while (!(port[LINE_STATUS] & MAY_SEND)) {
    }
    port[DATA] = (uint8_t)byte;
    return byte;
}

static int receive(FILE *file) {
    (void)file;
    while (!(port[LINE_STATUS] & RECEIVED)) {
    }
    const uint8_t byte = port[DATA];
    return byte == END_OF_TRANSMISSION ? _FDEV_EOF : byte;
}

static FILE serial = FDEV_SETUP_STREAM(send, receive, NULL, _FDEV_SETUP_RW);
FILE *const stdin = &serial;
FILE *const stdout = &serial;
FILE *const stderr = &serial;
