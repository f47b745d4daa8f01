/* qemu's mps2-an385: a Cortex-M3 at 25 MHz, with the UARTs and the timer of Arm's CMSDK. The line is UART 0, the menu UART 1. */
#include "board.h"
#include "ring.h"
#include <string.h>

typedef struct {
    volatile uint32_t data, state, control, interrupts, divider;
} uart;

typedef struct {
    volatile uint32_t control, value, reload, interrupts;
} timer;

#define LINE ((uart *)0x40004000)
#define MENU ((uart *)0x40005000)
#define TIMER ((timer *)0x40000000)
#define TICK_CONTROL (*(volatile uint32_t *)0xE000E010)
#define TICK_RELOAD (*(volatile uint32_t *)0xE000E014)
#define ENABLED_INTERRUPTS (*(volatile uint32_t *)0xE000E100)
#define RESET_CONTROL (*(volatile uint32_t *)0xE000ED0C)
/* The PSRAM stands in for flash: the board has none that a program can write. qemu keeps it in a file (firmware/run). */
#define FLASH ((volatile uint8_t *)0x21000000)

enum { CLOCKS_A_MILLISECOND = 25000, CLOCKS_A_TICK = 250000, BAUD_250000 = 100 };
enum { UART_FULL = 1, UART_RECEIVED = 2, UART_LOST = 8, UART_ON = 3, UART_RECEIVE_INTERRUPT = 8 };
enum { LINE_INTERRUPT = 1 << 0, MENU_INTERRUPT = 1 << 2, TICK_ON = 7, RESET_REQUEST = 0x05FA0004 };

extern uint8_t data_begin[], data_end[], data_image[], bss_begin[], bss_end[], stack_top[];
extern int main(void);

static ring line, menu;

/* ---- the table of vectors, and what a board begins with */

_Noreturn static void fail(void) {
    static const uint8_t told[] = "fault: the processor stops\r\n";
    board_menu_send(told, sizeof told - 1);
    for (;;)
        continue;
}

_Noreturn static void begin(void) {
    memcpy(data_begin, data_image, (size_t)(data_end - data_begin));
    memset(bss_begin, 0, (size_t)(bss_end - bss_begin));
    main();
    fail();
}

static void receive(uart *from, ring *to) {
    from->interrupts = 2;
    while (from->state & UART_RECEIVED)
        ring_put(to, (uint8_t)from->data);
    from->state = UART_LOST;
}

static void line_interrupt(void) {
    receive(LINE, &line);
}

static void menu_interrupt(void) {
    receive(MENU, &menu);
}

/* It wakes board_wait, and that is all. */
static void tick(void) {
}

typedef void (*vector)(void);

__attribute__((section(".vectors"), used)) static const vector vectors[16 + 3] = {
    (vector)(uintptr_t)stack_top, begin, fail, fail, fail, fail, fail, 0, 0, 0, 0, fail, fail, 0, fail, tick,
    /* UART 0 has interrupt 0, and UART 1 interrupt 2 */
    line_interrupt, fail, menu_interrupt,
};

/* ---- the UARTs */

static void uart_start(uart *port) {
    port->divider = BAUD_250000;
    port->control = UART_ON | UART_RECEIVE_INTERRUPT;
}

static void uart_send(uart *to, const uint8_t *bytes, uint16_t count) {
    for (uint16_t i = 0; i < count; i++) {
        while (to->state & UART_FULL)
            continue;
        to->data = bytes[i];
    }
}

bool board_line_receive(uint8_t *byte) {
    return ring_take(&line, byte);
}

bool board_menu_receive(uint8_t *byte) {
    return ring_take(&menu, byte);
}

void board_line_send(const uint8_t *bytes, uint16_t count) {
    uart_send(LINE, bytes, count);
}

void board_menu_send(const uint8_t *bytes, uint16_t count) {
    uart_send(MENU, bytes, count);
}

/* ---- time */

void board_start(void) {
    uart_start(LINE);
    uart_start(MENU);
    TIMER->reload = TIMER->value = UINT32_MAX;
    TIMER->control = 1;
    TICK_RELOAD = CLOCKS_A_TICK - 1;
    TICK_CONTROL = TICK_ON;
    ENABLED_INTERRUPTS = LINE_INTERRUPT | MENU_INTERRUPT;
}

/* The timer counts down, and begins again after 171 seconds: the main loop asks far more often. */
uint64_t board_milliseconds(void) {
    static uint64_t clocks;
    static uint32_t before = UINT32_MAX;
    const uint32_t now = TIMER->value;
    clocks += before - now;
    before = now;
    return clocks / CLOCKS_A_MILLISECOND;
}

/* An interrupt that comes while they are off wakes the processor all the same, so none is slept through. */
void board_wait(void) {
    __asm__ volatile("cpsid i" : : : "memory");
    if (ring_is_empty(&line) && ring_is_empty(&menu))
        __asm__ volatile("wfi" : : : "memory");
    __asm__ volatile("cpsie i" : : : "memory");
}

void board_reset(void) {
    RESET_CONTROL = RESET_REQUEST;
    for (;;)
        continue;
}

/* ---- the memory that outlives power-off, with the habits of flash: an erase raises bits, and a write lowers them */

void board_flash_read(uint8_t area, uint8_t *bytes, uint16_t count) {
    for (uint16_t i = 0; i < count; i++)
        bytes[i] = FLASH[area * FLASH_AREA_BYTES + i];
}

bool board_flash_erase(uint8_t area) {
    for (uint16_t i = 0; i < FLASH_AREA_BYTES; i++)
        FLASH[area * FLASH_AREA_BYTES + i] = 0xFF;
    return true;
}

bool board_flash_write(uint8_t area, const uint8_t *bytes, uint16_t count) {
    for (uint16_t i = 0; i < count; i++)
        FLASH[area * FLASH_AREA_BYTES + i] &= bytes[i];
    return true;
}
