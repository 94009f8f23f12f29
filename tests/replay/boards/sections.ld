/* How an image of the tests lies in the memories CODE and DATA of its board, which the board's own script names. */
SECTIONS
{
    .text : { KEEP(*(.first)) *(.text*) *(.rodata*) . = ALIGN(8); } >CODE
    .data : ALIGN(8) { data_start = .; *(.data* .sdata*) . = ALIGN(8); data_end = .; } >DATA AT>CODE
    data_from = LOADADDR(.data);
    .bss (NOLOAD) : ALIGN(16) { bss_start = .; *(.bss* .sbss* COMMON) . = ALIGN(16); bss_end = .; } >DATA
    .stack (NOLOAD) : ALIGN(16) { stack_bottom = .; . += 256K; stack_top = .; } >DATA
    /DISCARD/ : { *(.ARM.exidx* .eh_frame* .comment .riscv.attributes .note*) }
}
