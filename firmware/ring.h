/* Bytes on their way from an interrupt to the main loop: one of them puts, the other takes, and no lock is needed. */
#ifndef RING_H
#define RING_H
#include <stdbool.h>
#include <stdint.h>

/* A power of two. The line's longest message has 605 bytes, and the main loop may be busy with the flash while it comes. */
enum { RING_BYTES = 1024 };

typedef struct {
    volatile uint16_t put, taken; /* how many bytes so far, from 0 again after 65535 */
    volatile uint8_t bytes[RING_BYTES];
} ring;

/* A byte for which there is no room is lost, as on a line: the message that it belonged to is no longer one. */
static inline void ring_put(ring *to, uint8_t byte) {
    if ((uint16_t)(to->put - to->taken) < RING_BYTES) {
        to->bytes[to->put % RING_BYTES] = byte;
        to->put++;
    }
}

static inline bool ring_is_empty(const ring *of) {
    return of->put == of->taken;
}

static inline bool ring_take(ring *from, uint8_t *byte) {
    if (ring_is_empty(from))
        return false;
    *byte = from->bytes[from->taken % RING_BYTES];
    from->taken++;
    return true;
}

#endif
