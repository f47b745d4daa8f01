/* The memory of qemu's boards mps2, which loads the data in place: 4 MB of each. c/port/targets.sh says where they begin. */
MEMORY {
    CODE (rx) : ORIGIN = __code, LENGTH = 4M
    DATA (rwx) : ORIGIN = __data, LENGTH = 4M
}
ENTRY(_start)
SECTIONS {
    .text : {
        KEEP(*(.vectors)) *(.text*) *(.rodata*) KEEP(*(.init)) KEEP(*(.fini))
        . = ALIGN(4);
        __preinit_array_start = .; KEEP(*(.preinit_array*)) __preinit_array_end = .;
        __init_array_start = .; KEEP(*(.init_array*)) __init_array_end = .;
        __fini_array_start = .; KEEP(*(.fini_array*)) __fini_array_end = .;
    } > CODE
    .ARM.extab : { *(.ARM.extab*) } > CODE
    .ARM.exidx : { __exidx_start = .; *(.ARM.exidx*) __exidx_end = .; } > CODE
    .data : { *(.data*) } > DATA
    .bss : { __bss_start__ = .; *(.bss*) *(COMMON) __bss_end__ = .; } > DATA
    . = ALIGN(8); end = .; __end__ = .;
    __stack = ORIGIN(DATA) + LENGTH(DATA);
}
