/* All in one segment, which may be written and executed. */
ENTRY(start)
PHDRS { all PT_LOAD FLAGS(7); }
SECTIONS {
    . = 0x00010000;
    .text : { *(.text .text.*) *(.rodata .rodata.* .srodata .srodata.*) } :all
    __global_pointer$ = . + 0x800;
    .data : { *(.data .data.* .sdata .sdata.*) *(.bss .bss.* .sbss .sbss.*) } :all
    /DISCARD/ : { *(.comment .riscv.attributes .eh_frame) }
}
