/* Code and constants from 00400000, and data from the next page, so that no page holds both. Behind the data lies the heap,
   where the program has one. The stack lies elsewhere: it is the policy's, and start.S sets it. Data far from the code, as at
   10000000, would do as well, but `objcopy -O binary` fills the gap with zeros. */
ENTRY(_start)

PHDRS {
    code PT_LOAD FLAGS(5);              /* read and execute */
    data PT_LOAD FLAGS(6);              /* read and write */
}

/* Pages of the heap: 16, or as many as --defsym=heap_pages=N says. Where nothing calls malloc there are none. */
heap_size = DEFINED(malloc) ? (DEFINED(heap_pages) ? heap_pages : 16) * 4096 : 0;

SECTIONS {
    . = 0x00400000;
    .text : { KEEP(*(.text.start)) *(.text .text.*) } :code
    .rodata : { *(.rodata .rodata.*) } :code

    . = ALIGN(4096);
    .data : { *(.data .data.*) } :data
    .bss : {
        *(.bss .bss.* COMMON)
        . = heap_size == 0 ? . : ALIGN(4096);
        heap = .;
        . += heap_size;
        heap_end = .;
    } :data

    /DISCARD/ : { *(.reginfo .MIPS.abiflags .pdr .comment .gnu.attributes .note.*) }
}
