/* The memory of qemu's virt, all of which is RAM: code from 80000000 on, and data 4 MB behind it. */
MEMORY {
    FLASH (rx) : ORIGIN = 0x80000000, LENGTH = 192K
    RAM (rw) : ORIGIN = 0x80400000, LENGTH = 48K
}
INCLUDE sections.ld
