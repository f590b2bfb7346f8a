/* The memory of a Cortex-M4, here qemu's machine mps2-an386, and no more of it than the program takes. */
MEMORY
{
    FLASH : ORIGIN = 0, LENGTH = 42000
    RAM : ORIGIN = 0x20000000, LENGTH = 1792
}
SECTIONS
{
    /* The stack is all of the RAM, from its end down: a variable has no place. */
    .text : { LONG(ORIGIN(RAM) + LENGTH(RAM)) LONG(start | 1) *(.text .text.* .rodata .rodata.*) } > FLASH
    /DISCARD/ : { *(.ARM.exidx .ARM.exidx.*) }
    .data : { *(.data .data.* .bss .bss.*) } > RAM
}
ENTRY(start)
ASSERT(SIZEOF(.data) == 0, "a variable has no place in RAM")
