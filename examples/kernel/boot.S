/* Starts the kernel, from 32-bit mode without paging; and lets the processor run other code, until an exception or an interrupt. */
#include "kernel.h"

        .section .boot, "ax"
        .align 4
        .long 0x1badb002, 0, -0x1badb002 /* what a multiboot loader looks for */

/* The tables of the start: the lowest GiB of memory at 0, at DIRECT and at KERNEL. The kernel soon makes others. */
        .align 4096
start_5: .quad start_4 + 3
        .fill 510, 8, 0
        .quad start_4 + 3
start_4: .quad start_3 + 3
        .fill 255, 8, 0
        .quad start_3 + 3
        .fill 254, 8, 0
        .quad start_3 + 3
start_3: .quad start_2 + 3
        .fill 509, 8, 0
        .quad start_2 + 3, 0
start_2: .set entry, 0x83
        .rept 512
        .quad entry
        .set entry, entry + 0x200000
        .endr

        .globl start, run, entry_points, judge_code, write_code, task
        .code32
start:
        mov %ebx, %edi /* what the multiboot loader tells */
        mov $7, %eax
        xor %ecx, %ecx
        cpuid
        mov $CR4, %eax /* PAE (tools/kernel_example) */
        mov $start_4, %ebx
        mov $4, %esi /* levels of tables */
        test $0x10000, %ecx /* can the processor use five? */
        jz paging
        or $0x1000, %eax /* LA57 */
        mov $start_5, %ebx
        mov $5, %esi
paging:
        mov %eax, %cr4
        mov %ebx, %cr3
        mov $0xc0000080, %ecx /* EFER */
        rdmsr
        or $0x900, %eax /* NXE, LME */
        wrmsr
        mov %cr0, %eax
        or $0x80010001, %eax /* PG, WP, PE */
        mov %eax, %cr0
        lgdt start_segments
        ljmp $CODE, $start_64
start_segments:
        .word 7 * 8 - 1
        .long segments - KERNEL
        .code64
start_64:
        movabs $at_kernel, %rax
        jmp *%rax

        .text
at_kernel:
        lgdt all_segments
        mov $DATA, %eax
        mov %eax, %ss
        mov $stack_end, %rsp
        mov $TASK, %eax
        ltr %ax
        call kernel_main

run:
        .irp register, rbx, rbp, r12, r13, r14, r15
        push %\register
        .endr
        mov %rsp, kernel_stack
        lea REGISTERS_SIZE(%rdi), %rax
        mov %rax, task_stack
        lea 16(%rdi), %rsp
        .irp register, r15, r14, r13, r12, r11, r10, r9, r8, rbp, rdi, rsi, rdx, rcx, rbx, rax
        pop %\register
        .endr
        add $16, %rsp /* the vector and the code */
        iretq

/* Ends run. The processor has pushed where it was to the end of struct registers, and an entry point has pushed the vector. */
trapped:
        .irp register, rax, rbx, rcx, rdx, rsi, rdi, rbp, r8, r9, r10, r11, r12, r13, r14, r15
        push %\register
        .endr
        mov %cr2, %rax
        push %rax
        lea -8(%rsp), %rdi
        xor %esp, %esp
        xchg %rsp, kernel_stack
        test %rsp, %rsp
        jz in_kernel
        .irp register, r15, r14, r13, r12, rbp, rbx
        pop %\register
        .endr
        ret
in_kernel:
        mov $stack_end, %rsp
        call kernel_faulted

/* The entry points, 16 bytes apart: 32 exceptions, of which some push a code themselves, and SYSTEM_CALL. */
        .set number, 0
        .align 16
entry_points:
        .rept 33
        .align 16
        .if (number != 8) && ((number < 10) || (number > 14)) && (number != 17) && (number != 21)
        pushq $0
        .endif
        pushq $number
        jmp trapped
        .set number, number + 1
        .endr

/* Code that reads or writes at %rdi for the judge. It has a page for itself, which ring 3 can use, too. */
        .align 4096
judge_code:
        mov (%rdi), %rax
        int $SYSTEM_CALL
write_code:
        mov %rax, (%rdi)
        int $SYSTEM_CALL
        .align 4096

        .data
segments:
        .quad 0, 0x00209b0000000000, 0x00cf93000000ffff /* CODE and DATA */
        .quad 0x00cff3000000ffff, 0x0020fb0000000000    /* USER_DATA and USER_CODE */
        .quad task_segment, KERNEL >> 32                /* TASK: the address of the task, in parts (kernel.ld) */
all_segments:
        .word . - segments - 1
        .quad segments
kernel_stack: .quad 0 /* while other code runs, where the kernel's stack is */
task:   .fill 36, 1, 0
task_stack: .quad stack_end /* IST1: where the processor pushes */
        .fill 58, 1, 0
        .word 104

        .bss
        .align 16
        .skip 16384
stack_end:
