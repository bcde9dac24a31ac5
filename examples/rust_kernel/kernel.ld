/* The kernel lies in memory from 1 MiB on: first the code that starts it, at these addresses, and then the rest, at KERNEL and above. */
ENTRY(start)
KERNEL = 0xffffffff80000000;
task_segment = 0x0000890000000067 | (task & 0xffffff) << 16 | (task & 0xff000000) << 32;
PROVIDE(rust_eh_personality = 0); /* which a core for programs names */
PHDRS {
    boot PT_LOAD;
    kernel PT_LOAD;
    note PT_NOTE;
}
SECTIONS {
    .boot 0x100000 : { *(.boot) } :boot
    .note : { KEEP(*(.note.Xen)) } :boot :note
    . = KERNEL + ALIGN(4096);
    text_start = .;
    .text : AT(ADDR(.text) - KERNEL) { *(.text .text.*) } :kernel
    . = ALIGN(4096);
    constants_start = .;
    .rodata : AT(ADDR(.rodata) - KERNEL) { *(.rodata .rodata.*) *(.got .got.*) } :kernel
    . = ALIGN(4096);
    data_start = .;
    .data : AT(ADDR(.data) - KERNEL) { *(.data .data.*) } :kernel
    .bss : AT(ADDR(.bss) - KERNEL) { *(.bss .bss.* COMMON) } :kernel
    . = ALIGN(4096);
    data_end = .;
    /DISCARD/ : { *(.comment) *(.eh_frame) *(.eh_frame_hdr) *(.note.gnu*) *(.gcc_except_table*) }
}
