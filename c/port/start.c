/* How a program of a Cortex-M begins on a board of qemu: the table of vectors, and the start of newlib, whose input and output go to qemu
 * by semihosting. After a fault the program ends with status 1. */
#include <stdint.h>

extern uint32_t __stack[];
extern void _start(void);

enum { SYS_EXIT = 0x18, RUN_TIME_ERROR = 0x20023 };

static void fail(void) {
    register uint32_t operation __asm__("r0") = SYS_EXIT, reason __asm__("r1") = RUN_TIME_ERROR;
    __asm__ volatile("bkpt 0xab" : : "r"(operation), "r"(reason));
    for (;;) {
    }
}

/* The first thing that runs: where there is a unit for floating point, C's library uses its registers. */
static void begin(void) {
#if defined __ARM_FP
    volatile uint32_t *const coprocessors = (volatile uint32_t *)0xE000ED88;
    *coprocessors |= 0xF00000;
#endif
    _start();
}

__attribute__((section(".vectors"), used)) static void *const vectors[16] = {
    __stack, (void *)begin, (void *)fail, (void *)fail, (void *)fail, (void *)fail, (void *)fail,
    0,       0,              0,            0,            (void *)fail, (void *)fail, 0,            (void *)fail, (void *)fail,
};

void _init(void) {
}
void _fini(void) {
}
