/*
 * The kernel lies in memory from 1 MiB on: first the code that starts it, at these addresses; then the program, at its own; and then
 * the kernel, at KERNEL and above.
 */
ENTRY(start)
KERNEL = 0xffffffff80000000;
task_segment = 0x0000890000000067 | (task & 0xffffff) << 16 | (task & 0xff000000) << 32;
SECTIONS {
    .boot 0x100000 : { *(.boot) }
    .program 0x400000 : AT(ALIGN(LOADADDR(.boot) + SIZEOF(.boot), 4096)) { *program.o(.text .text.* .rodata .rodata.*) . = ALIGN(4096); }
    program_frame = LOADADDR(.program);
    program_size = SIZEOF(.program);
    . = KERNEL + LOADADDR(.program) + SIZEOF(.program);
    text_start = .;
    .text : AT(ADDR(.text) - KERNEL) { *(.text .text.*) }
    . = ALIGN(4096);
    constants_start = .;
    .rodata : AT(ADDR(.rodata) - KERNEL) { *(.rodata .rodata.*) }
    . = ALIGN(4096);
    data_start = .;
    .data : AT(ADDR(.data) - KERNEL) { *(.data .data.*) }
    .bss : AT(ADDR(.bss) - KERNEL) { *(.bss .bss.* COMMON) }
    . = ALIGN(4096);
    data_end = .;
    /DISCARD/ : { *(.comment) *(.eh_frame) *(.note.*) }
}
