/* A chip with 512 KB of flash and 256 KB of memory, where the MPS2 board has them. */
MEMORY
{
    FLASH (rx) : ORIGIN = 0x00000000, LENGTH = 512K
    RAM (rw) : ORIGIN = 0x20000000, LENGTH = 256K
}

SECTIONS
{
    .text : { KEEP(*(.vectors)) *(.text*) *(.rodata*) . = ALIGN(8); } >FLASH
    .data : ALIGN(8) { data_start = .; *(.data*) . = ALIGN(8); data_end = .; } >RAM AT>FLASH
    data_from = LOADADDR(.data);
    .bss (NOLOAD) : ALIGN(8) { zeros_start = .; *(.bss* COMMON) . = ALIGN(8); zeros_end = .; } >RAM
    .stack (NOLOAD) : ALIGN(8) { *(.stack) } >RAM
    /DISCARD/ : { *(.ARM.exidx* .comment) }
}
