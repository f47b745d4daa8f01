/* What the fixture needs of its board. board_mps2.c and board_virt.c have it for two boards of qemu; a board of your own has a file with
 * these functions in their place. */
#ifndef BOARD_H
#define BOARD_H
#include <stdbool.h>
#include <stdint.h>

/* Clocks, UARTs and interrupts. It is called once, before all others. */
void board_start(void);

/* The next byte that has come on the line, and on the UART of the menu; false if there is none. An interrupt has put the bytes aside. */
bool board_line_receive(uint8_t *byte);
bool board_menu_receive(uint8_t *byte);

/* Sends bytes, and returns when the last one is in the UART. */
void board_line_send(const uint8_t *bytes, uint16_t count);
void board_menu_send(const uint8_t *bytes, uint16_t count);

/* How much time has passed since board_start. It never goes back. */
uint64_t board_milliseconds(void);

/* Sleeps until a byte has come, ten milliseconds at most; not at all if one is there. */
void board_wait(void);

/* Begins again, as after power-on. */
_Noreturn void board_reset(void);

/* The memory that outlives power-off: two areas of this size, which share no sector. An erase makes each byte of an area FF; a write puts
 * bytes at the front of an area that is erased. False if the memory says that it failed. */
enum { FLASH_AREA_BYTES = 512 };
void board_flash_read(uint8_t area, uint8_t *bytes, uint16_t count);
bool board_flash_erase(uint8_t area);
bool board_flash_write(uint8_t area, const uint8_t *bytes, uint16_t count);

#endif
