/* What lies where, on each board. */
STACK_BYTES = 20K;
start = ORIGIN(FLASH);
ENTRY(start)
SECTIONS {
    .text : { KEEP(*(.vectors)) *(.text*) *(.rodata*) *(.srodata*) . = ALIGN(8); } > FLASH
    .stack (NOLOAD) : { . += STACK_BYTES; . = ALIGN(16); stack_top = .; } > RAM
    .data : { data_begin = .; *(.data*) *(.sdata*) . = ALIGN(8); data_end = .; } > RAM AT > FLASH
    data_image = LOADADDR(.data);
    .bss (NOLOAD) : { bss_begin = .; *(.bss*) *(.sbss*) *(COMMON) . = ALIGN(8); bss_end = .; } > RAM AT > RAM
    /DISCARD/ : { *(.ARM.exidx*) *(.ARM.extab*) *(.eh_frame*) *(.comment) }
}
