/* qemu's virt: a 32-bit RISC-V with 16550 UARTs, and flash of two chips of Intel's kind. The line is the board's own UART, and the menu one
 * in the first slot of its PCI bus, since it has no second. */
#include "board.h"
#include "ring.h"
#include <string.h>

/* A UART's registers, a byte each. */
enum { UART_DATA = 0, UART_INTERRUPTS = 1, UART_FIFO = 2, UART_FORM = 3, UART_STATE = 5 };
enum { UART_RECEIVED = 0x01, UART_EMPTY = 0x20, UART_8N2 = 0x07, UART_FIFO_ON = 0x01, UART_INTERRUPT_ON = 0x01 };

#define LINE ((volatile uint8_t *)0x10000000)
/* The window of the bus for ports begins at 03000000: the UART gets the ports from 1000 on. */
#define MENU ((volatile uint8_t *)0x03001000)
#define MENU_SLOT ((volatile uint32_t *)0x30008000)
#define TIME ((volatile uint32_t *)0x0200BFF8)
#define TICK_AT ((volatile uint32_t *)0x02004000)
#define INTERRUPT_PRIORITIES ((volatile uint32_t *)0x0C000000)
#define INTERRUPTS_ON (*(volatile uint32_t *)0x0C002000)
#define INTERRUPT_CLAIM (*(volatile uint32_t *)0x0C200004)
#define RESET (*(volatile uint32_t *)0x00100000)
/* The second of the two banks; each is two chips of 16 bits beside each other, so each command and each state is there twice. */
#define FLASH ((volatile uint32_t *)0x22000000)
#define TWICE(command) ((uint32_t)(command) << 16 | (command))

enum { CLOCKS_A_MILLISECOND = 10000, CLOCKS_A_TICK = 100000, LINE_INTERRUPT = 10, RESET_REQUEST = 0x7777 };
enum { MENU_PORTS = 0x1000, PCI_COMMAND = 1, PCI_PORTS_ON = 1, PCI_FIRST_BASE = 4 };
enum { FLASH_ERASE = 0x20, FLASH_CONFIRM = 0xD0, FLASH_WRITE = 0x40, FLASH_READ = 0xFF, FLASH_CLEAR = 0x50 };
enum { FLASH_READY = 0x80, FLASH_FAILED = 0x3A, SECTOR_WORDS = 0x10000 };
enum { TIMER_CAUSE = 7, OUTSIDE_CAUSE = 11, INTERRUPTS_MAY_COME = 8 };

/* An instruction for a control register: the compiler's libraries are those of RV32IMAC alone, which counts these as an extension. */
#define CONTROL(text) ".option push\n .option arch, +zicsr\n " text "\n .option pop"

extern uint8_t data_begin[], data_end[], data_image[], bss_begin[], bss_end[];
extern int main(void);

static ring line, menu;

/* ---- what a board begins with, and its interrupts */

__asm__(".section .vectors, \"ax\"\n"
        "    la sp, stack_top\n"
        "    j begin\n"
        ".text\n");

_Noreturn static void fail(void) {
    static const uint8_t told[] = "fault: the processor stops\r\n";
    board_menu_send(told, sizeof told - 1);
    for (;;)
        continue;
}

static uint64_t clocks_now(void) {
    uint32_t high, low;
    do {
        high = TIME[1];
        low = TIME[0];
    } while (high != TIME[1]);
    return (uint64_t)high << 32 | low;
}

/* The next one comes a tick from now. All ones in between, so that none comes too early. */
static void tick(void) {
    const uint64_t at = clocks_now() + CLOCKS_A_TICK;
    TICK_AT[0] = UINT32_MAX;
    TICK_AT[1] = (uint32_t)(at >> 32);
    TICK_AT[0] = (uint32_t)at;
}

static void receive(volatile uint8_t *from, ring *to) {
    while (from[UART_STATE] & UART_RECEIVED)
        ring_put(to, from[UART_DATA]);
}

/* The menu has no interrupt of its own: a person types more slowly than the timer ticks, and the UART keeps 16 bytes. */
__attribute__((interrupt("machine"), aligned(4))) static void interrupted(void) {
    uint32_t cause, from;
    __asm__ volatile(CONTROL("csrr %0, mcause") : "=r"(cause));
    if (cause == (1u << 31 | OUTSIDE_CAUSE)) {
        from = INTERRUPT_CLAIM;
        receive(LINE, &line);
        INTERRUPT_CLAIM = from;
    } else if (cause == (1u << 31 | TIMER_CAUSE)) {
        receive(MENU, &menu);
        tick();
    } else {
        fail();
    }
}

__attribute__((used)) _Noreturn static void begin(void) {
    __asm__ volatile(CONTROL("csrw mtvec, %0") : : "r"((uintptr_t)interrupted));
    memcpy(data_begin, data_image, (size_t)(data_end - data_begin));
    memset(bss_begin, 0, (size_t)(bss_end - bss_begin));
    main();
    fail();
}

/* ---- the UARTs */

static void uart_start(volatile uint8_t *port, uint8_t interrupts) {
    port[UART_FORM] = UART_8N2;
    port[UART_FIFO] = UART_FIFO_ON;
    port[UART_INTERRUPTS] = interrupts;
}

static void uart_send(volatile uint8_t *to, const uint8_t *bytes, uint16_t count) {
    for (uint16_t i = 0; i < count; i++) {
        while (!(to[UART_STATE] & UART_EMPTY))
            continue;
        to[UART_DATA] = bytes[i];
    }
}

bool board_line_receive(uint8_t *byte) {
    return ring_take(&line, byte);
}

bool board_menu_receive(uint8_t *byte) {
    return ring_take(&menu, byte);
}

void board_line_send(const uint8_t *bytes, uint16_t count) {
    uart_send(LINE, bytes, count);
}

void board_menu_send(const uint8_t *bytes, uint16_t count) {
    uart_send(MENU, bytes, count);
}

/* ---- time */

static uint64_t clocks_at_start;

void board_start(void) {
    MENU_SLOT[PCI_FIRST_BASE] = MENU_PORTS;
    MENU_SLOT[PCI_COMMAND] = PCI_PORTS_ON;
    uart_start(LINE, UART_INTERRUPT_ON);
    uart_start(MENU, 0);
    INTERRUPT_PRIORITIES[LINE_INTERRUPT] = 1;
    INTERRUPTS_ON = 1u << LINE_INTERRUPT;
    clocks_at_start = clocks_now();
    tick();
    __asm__ volatile(CONTROL("csrw mie, %0") : : "r"(1 << TIMER_CAUSE | 1 << OUTSIDE_CAUSE));
    __asm__ volatile(CONTROL("csrsi mstatus, %0") : : "i"(INTERRUPTS_MAY_COME));
}

uint64_t board_milliseconds(void) {
    return (clocks_now() - clocks_at_start) / CLOCKS_A_MILLISECOND;
}

/* An interrupt that comes while they are off wakes the processor all the same, so none is slept through. */
void board_wait(void) {
    __asm__ volatile(CONTROL("csrci mstatus, %0") : : "i"(INTERRUPTS_MAY_COME) : "memory");
    if (ring_is_empty(&line) && ring_is_empty(&menu))
        __asm__ volatile("wfi" : : : "memory");
    __asm__ volatile(CONTROL("csrsi mstatus, %0") : : "i"(INTERRUPTS_MAY_COME) : "memory");
}

void board_reset(void) {
    RESET = RESET_REQUEST;
    for (;;)
        continue;
}

/* ---- the flash. An area is the beginning of a sector. */

static volatile uint32_t *sector_of(uint8_t area) {
    return FLASH + area * SECTOR_WORDS;
}

/* Waits until a command is done, and goes back to reading. */
static bool is_done(volatile uint32_t *at) {
    uint32_t state;
    do
        state = *at;
    while ((state & TWICE(FLASH_READY)) != TWICE(FLASH_READY));
    *at = TWICE(FLASH_CLEAR);
    *at = TWICE(FLASH_READ);
    return (state & TWICE(FLASH_FAILED)) == 0;
}

void board_flash_read(uint8_t area, uint8_t *bytes, uint16_t count) {
    for (uint16_t i = 0; i < count; i++)
        bytes[i] = (uint8_t)(sector_of(area)[i / 4] >> i % 4 * 8);
}

bool board_flash_erase(uint8_t area) {
    volatile uint32_t *const at = sector_of(area);
    *at = TWICE(FLASH_ERASE);
    *at = TWICE(FLASH_CONFIRM);
    return is_done(at);
}

/* Four bytes at a time; what is behind the last one stays erased. */
bool board_flash_write(uint8_t area, const uint8_t *bytes, uint16_t count) {
    for (uint16_t i = 0; i < count; i += 4) {
        volatile uint32_t *const at = sector_of(area) + i / 4;
        uint32_t word = UINT32_MAX;
        memcpy(&word, bytes + i, count - i < 4 ? (size_t)(count - i) : sizeof word);
        *at = TWICE(FLASH_WRITE);
        *at = word;
        if (!is_done(at))
            return false;
    }
    return true;
}
