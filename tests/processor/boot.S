/*
 * Starts the bare program in 64-bit mode, enters code that makes an access, and takes the exception or interrupt that ends it.
 */
#include "shared.h"

        .section .multiboot, "a"
        .align 4
        .long 0x1badb002, 0, -0x1badb002

/* ---- the tables of the program itself: the lowest 2 GiB at their own addresses, for the supervisor but for one page */

        .data
        .align 4096
home_5: .quad home_4 + 0x27
        .fill 511, 8, 0
home_4: .quad home_3 + 0x27
        .fill 511, 8, 0
home_3: .quad home_2 + 0x27, home_2 + 0x1027
        .fill 510, 8, 0

        .bss
        .align 4096
home_2: .skip 8192
        .skip 16384
stack_top:
        .skip 16384
access_stack_top:

/* ---- from 32-bit mode, without paging, to 64-bit mode */

        .text
        .code32
        .globl start
start:
        cli
        mov $stack_top, %esp
        mov $home_2, %edi
        mov $0xe3, %eax
        mov $1024, %ecx
fill:
        mov %eax, (%edi)
        movl $0, 4(%edi)
        add $8, %edi
        add $0x200000, %eax
        loop fill
        orl $4, home_2 + USER_PAGE / 0x200000 * 8
        mov $0x20, %eax /* PAE */
        mov $home_4, %ebx
        cmpl $5, INPUT
        jne paging
        or $0x1000, %eax /* LA57 */
        mov $home_5, %ebx
paging:
        mov %eax, %cr4
        mov %ebx, %cr3
        mov %ebx, home
        mov $0xc0000080, %ecx /* EFER */
        rdmsr
        or $0x100, %eax /* LME */
        wrmsr
        mov %cr0, %eax
        or $0x80010001, %eax /* PG, WP, PE */
        mov %eax, %cr0
        lgdt descriptors_pointer
        ljmp $8, $start_64

        .code64
start_64:
        mov $0x10, %eax
        mov %eax, %ds
        mov %eax, %es
        mov %eax, %ss
        mov $stack_top, %rsp
        mov $task, %rax
        mov %ax, task_descriptor + 2
        shr $16, %rax
        mov %al, task_descriptor + 4
        mov %ah, task_descriptor + 7
        mov $0x28, %eax
        ltr %ax
        call run_batches
        mov $0xf4, %edx /* isa-debug-exit */
        mov $0, %eax
        out %eax, %dx
        hlt

        .data
        .align 8
descriptors:
        .quad 0
        .quad 0x00209b0000000000 /* 0x08: code of the supervisor */
        .quad 0x00cf93000000ffff /* 0x10: data of the supervisor */
        .quad 0x00cff3000000ffff /* 0x18: data of the user */
        .quad 0x0020fb0000000000 /* 0x20: code of the user */
task_descriptor:
        .quad 0x0000890000000067, 0
descriptors_pointer:
        .word . - descriptors - 1
        .quad descriptors
task:
        .long 0
        .quad access_stack_top
        .fill 92, 1, 0
home:
        .quad 0
saved_stack:
        .quad 0

/* ---- code that makes an access at %rdi; it ends by an exception or an interrupt */

        .section .rodata
        .globl read_code, write_code, fetch_code, end_of_code
read_code:
        mov (%rdi), %rax
        int $ARRIVED
write_code:
        mov %al, (%rdi)
        int $ARRIVED
fetch_code:
        jmp *%rdi
end_of_code:

/*
 * void enter(const struct entry *entry, uint64_t tables, uint64_t address, uint64_t value): loads CR3 with the root of tables, %rdi with
 * an address and %rax with a value, and returns to the code that the entry names. Returns after the exception or interrupt that this
 * code ends with.
 */
        .text
        .globl enter
enter:
        push %rbx
        push %rbp
        push %r12
        push %r13
        push %r14
        push %r15
        mov %rsp, saved_stack
        pushq 32(%rdi) /* ss */
        pushq 24(%rdi) /* rsp */
        pushq 16(%rdi) /* rflags */
        pushq 8(%rdi)  /* cs */
        pushq (%rdi)   /* rip */
        mov %rdx, %rdi
        mov %rcx, %rax
        mov %rsi, %cr3
        iretq

/* An exception or interrupt has pushed its error code or 0, and then its vector. */
leave:
        pop taken
        pop taken + 8
        pop taken + 16 /* rip */
        mov %rax, taken + 24
        mov %cr2, %rax
        mov %rax, taken + 32
        mov home, %rax
        mov %rax, %cr3
        mov saved_stack, %rsp
        pop %r15
        pop %r14
        pop %r13
        pop %r12
        pop %rbp
        pop %rbx
        pushq $2
        popfq
        ret

/* ---- an entry point for each vector, 16 bytes apart */

        .align 16
        .globl vectors, arrived
vectors:
        .set number, 0
        .rept 32
        .align 16
        .if (number != 8) && ((number < 10) || (number > 14)) && (number != 17) && (number != 21)
        pushq $0
        .endif
        pushq $number
        jmp leave
        .set number, number + 1
        .endr
        .align 16
arrived:
        pushq $0
        pushq $ARRIVED
        jmp leave

        .globl access_stack_top
        .section .note.GNU-stack, "", @progbits
