/*
 * The bare program lies in memory from 1 MiB on.
 */
ENTRY(start)
SECTIONS
{
    . = 0x100000;
    .text : { *(.multiboot) *(.text .text.*) }
    .rodata : { *(.rodata .rodata.*) }
    .data : { *(.data .data.*) }
    .bss : { *(.bss .bss.*) *(COMMON) }
    /DISCARD/ : { *(.comment) *(.eh_frame) *(.note.*) }
}
