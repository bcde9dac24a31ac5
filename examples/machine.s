# The machine whose memory examples/machine.elf holds: it turns on paging and stops.
#
# Its page tables map what those of a small operating system do: a program with its heap and stack in the lower half, all
# memory and the kernel in the upper one. They are assembled whole; the processor adds ACCESSED and DIRTY where it goes. What
# checkers look for is there, too: the page of the boot at address 0 may be written and executed, and user code reaches a page
# of the upper half. With `--defsym FIVE_LEVELS=1` a table of level five is the root, at two of whose indices the others are.

        .set    PRESENT, 1
        .set    WRITABLE, 1 << 1
        .set    USER, 1 << 2
        .set    HUGE_PAGE, 1 << 7
        .set    GLOBAL, 1 << 8
        .set    NO_EXECUTE, 1 << 31             # of the upper half of an entry
        .set    TABLE, PRESENT | WRITABLE | USER
        .set    KERNEL, 0xffffffff80000000

        # begins a table, in a frame of its own
        .macro  table
        .balign 4096, 0
        .set    used, 0
        .endm

        # writes the entry at an index, above those before it
        .macro  entry index, address, flags, upper=0
        .fill   \index - used, 8
        .long   \address + \flags, \upper
        .set    used, \index + 1
        .endm

        .text
        .code32
        .globl  start
image:  .long   0x1badb002, 0, -0x1badb002      # the header that a multiboot loader looks for

start:  mov     %cr4, %eax
        or      $1 << 5, %eax                   # PAE
        .ifdef  FIVE_LEVELS
        or      $1 << 12, %eax                  # LA57
        .endif
        mov     %eax, %cr4
        mov     $root, %eax
        mov     %eax, %cr3
        mov     $0xc0000080, %ecx               # EFER
        rdmsr
        or      $1 << 8 | 1 << 11, %eax         # LME, NXE
        wrmsr
        mov     %cr0, %eax
        or      $1 << 31 | 1 << 16, %eax        # PG, WP
        mov     %eax, %cr0
        lgdt    segments_register
        ljmp    $8, $boot

        .code64
boot:   mov     $KERNEL + kernel - image, %rax
        jmp     *%rax
kernel: incl    KERNEL + 0x3000                 # the kernel's data
        mov     $0x405000, %ebx                 # the program's
        incl    (%rbx)
        mov     $0x7fffffffe000, %rsp           # its stack
        push    %rbx
stop:   hlt
        jmp     stop

        .balign 8
segments:
        .quad   0, 0x00209a0000000000           # code of 64 bits
segments_register:
        .word   . - segments - 1
        .long   segments

        .ifdef  FIVE_LEVELS
        table
root:   entry   0, level_four, TABLE
        entry   511, level_four, TABLE
        .endif

        table
        .ifndef FIVE_LEVELS
root:
        .endif
level_four:
        entry   0, low_3, TABLE
        entry   255, stack_3, TABLE
        entry   256, memory_3, PRESENT | WRITABLE
        entry   511, kernel_3, TABLE

        table
low_3:  entry   0, low_2, TABLE
        table
low_2:  entry   0, 0, PRESENT | WRITABLE | HUGE_PAGE
        entry   2, program_1, TABLE
        entry   128, 0x400000, TABLE | HUGE_PAGE, NO_EXECUTE
        entry   129, 0x600000, TABLE | HUGE_PAGE, NO_EXECUTE
        table
program_1:
        entry   0, 0x200000, PRESENT | USER
        entry   1, 0x201000, PRESENT | USER
        entry   2, 0x202000, PRESENT | USER
        entry   3, 0x203000, PRESENT | USER, NO_EXECUTE
        entry   4, 0x5a0000, 0                  # swapped out
        entry   5, 0x204000, PRESENT | WRITABLE | USER, NO_EXECUTE
        entry   6, 0x207000, PRESENT | WRITABLE | USER, NO_EXECUTE

        table
stack_3:
        entry   511, stack_2, TABLE
        table
stack_2:
        entry   511, stack_1, TABLE
        table
stack_1:
        entry   508, 0x20a000, PRESENT | WRITABLE | USER, NO_EXECUTE
        entry   509, 0x209000, PRESENT | WRITABLE | USER, NO_EXECUTE

        table
memory_3:
        entry   0, 0, PRESENT | WRITABLE | HUGE_PAGE | GLOBAL, NO_EXECUTE

        table
kernel_3:
        entry   510, kernel_2, PRESENT | WRITABLE
        entry   511, fixed_2, TABLE
        table
kernel_2:
        entry   0, kernel_1, PRESENT | WRITABLE
        table
kernel_1:
        entry   0, image, PRESENT | GLOBAL
        entry   1, 0x220000, PRESENT | GLOBAL, NO_EXECUTE
        entry   2, 0x221000, PRESENT | GLOBAL, NO_EXECUTE
        entry   3, 0x222000, PRESENT | WRITABLE | GLOBAL, NO_EXECUTE
        entry   4, 0x223000, PRESENT | WRITABLE | GLOBAL, NO_EXECUTE
        table
fixed_2:
        entry   507, fixed_1, TABLE
        table
fixed_1:
        entry   0, 0x226000, PRESENT | USER | GLOBAL
        .balign 4096, 0
