/* The segment `data` is named, and nothing stands in it where the contract has no data. */
ENTRY(start)
PHDRS { text PT_LOAD FLAGS(5); data PT_LOAD FLAGS(6); }
SECTIONS {
    . = 0x00010000;
    .text : { *(.text .text.*) *(.rodata .rodata.* .srodata .srodata.*) } :text
    . = ALIGN(4096);
    __global_pointer$ = . + 0x800;
    .data : { *(.data .data.* .sdata .sdata.*) *(.bss .bss.* .sbss .sbss.*) } :data
    /DISCARD/ : { *(.comment .riscv.attributes .eh_frame) }
}
