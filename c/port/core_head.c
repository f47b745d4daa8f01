/* felosumay_core.c: the library of felosumay.h as portable C. c/port/portable makes it of the LLVM module of the proved library: change
 * the library, not this file.
 *
 * It is for compilers that have no object of the library: C99, for pointers of 32 or 64 bits, and the lowest byte of a number first in
 * memory. What is undefined nowhere happens: a number has no sign, and is read from memory by one of the functions below.
 * FELOSUMAY_PLAIN leaves out what only gcc, clang and those like them know; FELOSUMAY_CHECKED stops where a number isn't the address that
 * it is taken for. */
#include "felosumay.h"
#include <string.h>

#define HELPER static inline
#if defined __GNUC__ && !defined FELOSUMAY_PLAIN
#define MEMORY(name, size, align) uint8_t name[size] __attribute__((aligned(align)))
#define CONSTANT(align) static const __attribute__((aligned(align)))
#define STOP() __builtin_trap()
#define AT(bits, align) uint##bits##_t __attribute__((may_alias, aligned(align)))
#define GET(bits, align) \
    HELPER uint##bits##_t get##bits##_##align(const uint8_t *at) { \
        typedef AT(bits, align) number; \
        return *(const number *)(const void *)at; \
    }
#define PUT(bits, align) \
    HELPER void put##bits##_##align(uint8_t *at, uint##bits##_t value) { \
        typedef AT(bits, align) number; \
        *(number *)(void *)at = value; \
    }
#else
#define MEMORY(name, size, align) uint64_t name[((size) + 7) / 8]
#define CONSTANT(align) static const
#define STOP() \
    for (;;) { \
    }
#define GET(bits, align) \
    HELPER uint##bits##_t get##bits##_##align(const uint8_t *at) { \
        uint##bits##_t value; \
        memcpy(&value, at, sizeof value); \
        return value; \
    }
#define PUT(bits, align) \
    HELPER void put##bits##_##align(uint8_t *at, uint##bits##_t value) { \
        memcpy(at, &value, sizeof value); \
    }
#endif

/* Of so many bits, at a multiple of so many bytes. */
GET(16, 1)
GET(16, 2)
GET(32, 1)
GET(32, 2)
GET(32, 4)
GET(64, 1)
GET(64, 2)
GET(64, 4)
GET(64, 8)
PUT(16, 1)
PUT(16, 2)
PUT(32, 1)
PUT(32, 2)
PUT(32, 4)
PUT(64, 1)
PUT(64, 2)
PUT(64, 4)
PUT(64, 8)

/* A pointer in memory is a number of 64 bits, of which its address may take the lower half. */
HELPER uint8_t *pointer(uint64_t number) {
#if defined FELOSUMAY_CHECKED
    if (number != (uintptr_t)number)
        STOP();
#endif
    return (uint8_t *)(uintptr_t)number;
}
HELPER uint64_t address(const uint8_t *at) {
    return (uintptr_t)at;
}

#define PLACE(constant) ((uint8_t *)(uintptr_t)&(constant))

/* A pointer in a constant: it has 8 bytes, too, of which its address may take the first four. */
typedef struct {
    const uint8_t *at;
#if UINTPTR_MAX == 0xFFFFFFFF
    uint32_t above;
#endif
} constant_pointer;
#if UINTPTR_MAX == 0xFFFFFFFF
#define POINTS(constant, behind) {(const uint8_t *)&(constant) + (behind), 0}
#else
#define POINTS(constant, behind) {(const uint8_t *)&(constant) + (behind)}
#endif

HELPER uint16_t swap16(uint16_t number) {
    return (uint16_t)(number << 8 | number >> 8);
}
HELPER uint32_t swap32(uint32_t number) {
    return number << 24 | (number & 0xFF00u) << 8 | (number >> 8 & 0xFF00u) | number >> 24;
}
HELPER uint64_t swap64(uint64_t number) {
    return (uint64_t)swap32((uint32_t)number) << 32 | swap32((uint32_t)(number >> 32));
}
HELPER uint32_t ones_in(uint64_t number) {
    uint32_t count = 0;
    for (; number != 0; number &= number - 1)
        count++;
    return count;
}
