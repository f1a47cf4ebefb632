/* The places of a contract in memory, for GNU ld and lld: text and read-only data from 0x00010000 on,
   data and bss on pages of their own after that, and a page without rights below the input and the stack.
   A page has the rights of one segment. */
ENTRY(start)
PHDRS {
    text PT_LOAD FLAGS(5); /* readable, executable */
    data PT_LOAD FLAGS(6); /* readable, writable */
    guard PT_LOAD FLAGS(0);
}
SECTIONS {
    /* It comes first, so that a section without a place here follows the data and not this page. */
    .guard 0x000ff000 (NOLOAD) : {
        . += 4096;
    } :guard
    . = 0x00010000;
    .text : {
        *(.text.start)
        *(.text .text.*)
        *(.rodata .rodata.* .srodata .srodata.*)
    } :text
    . = ALIGN(4096);
    .data : {
        LONG(0) /* so that this segment is never empty */
        *(.data .data.*)
        . = ALIGN(8);
        __global_pointer$ = . + 0x780;
        *(.sdata .sdata.*)
    } :data
    .bss : {
        *(.sbss .sbss.*)
        *(.bss .bss.* COMMON)
    } :data
    /* What is free for a heap, after the sections above: zeros, readable, writable. */
    heap_start = ALIGN(16);
    heap_end = 0x000ff000;
    ASSERT(. <= heap_end, "the contract is too large: its data reaches the page without rights at 0x000ff000")
    /DISCARD/ : { *(.comment .note .note.* .riscv.attributes .eh_frame .eh_frame_hdr) }
}
