/* The data begins where the text ends, in the same page of 4,096 bytes. */
ENTRY(start)
PHDRS { text PT_LOAD FLAGS(5); data PT_LOAD FLAGS(6); }
SECTIONS {
    . = 0x00010000;
    .text : { *(.text .text.*) *(.rodata .rodata.* .srodata .srodata.*) } :text
    __global_pointer$ = . + 0x800;
    .data : { *(.data .data.* .sdata .sdata.*) *(.bss .bss.* .sbss .sbss.*) } :data
    /DISCARD/ : { *(.comment .riscv.attributes .eh_frame) }
}
