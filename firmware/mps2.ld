/* The memory of a small Cortex-M3: the board has 4 MB of each. The stack lies below the data, so that one that is too deep meets no memory,
 * and is a fault. */
MEMORY {
    FLASH (rx) : ORIGIN = 0x00000000, LENGTH = 128K
    RAM (rw) : ORIGIN = 0x20000000, LENGTH = 48K
}
INCLUDE sections.ld
