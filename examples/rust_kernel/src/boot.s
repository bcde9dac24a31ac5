# Starts the kernel, from 32-bit mode without paging, and takes page faults.

        .set KERNEL, 0xffffffff80000000 # as in kernel.ld

        # What a loader looks for, by the protocol PVH: the address at which to start.
        .section .note.Xen, "a"
        .align 4
        .long 4, 4, 18
        .asciz "Xen"
        .long start

        # The tables of the start: the lowest GiB of memory at 0, at DIRECT and at KERNEL. The kernel soon makes others.
        .section .boot, "awx"
        .align 4096
        .if LEVELS == 5
start_5: .quad start_4 + 3
        .fill 510, 8, 0
        .quad start_4 + 3
        .endif
start_4: .quad start_3 + 3
        .fill 255, 8, 0
        .quad start_3 + 3
        .fill 254, 8, 0
        .quad start_3 + 3
start_3: .quad start_2 + 3
        .fill 509, 8, 0
        .quad start_2 + 3, 0
start_2: .set entry, 0x83
        .rept 512
        .quad entry
        .set entry, entry + 0x200000
        .endr

        .globl start
        .code32
start:
        mov edi, ebx                    # where the loader tells what memory there is
        mov eax, 0x620                  # PAE; for SSE, with which core may be compiled: OSFXSR, OSXMMEXCPT
        lea ecx, [start_4]
        .if LEVELS == 5
        or eax, 0x1000                  # LA57
        lea ecx, [start_5]
        .endif
        mov cr4, eax
        mov cr3, ecx
        mov ecx, 0xc0000080             # EFER
        rdmsr
        or eax, 0x900                   # NXE, LME
        wrmsr
        mov eax, 0x80010033             # PG, WP, NE, ET, MP, PE
        mov cr0, eax
        lgdt [start_segments]
        ljmp 8, offset start_64
start_segments:
        .word 5 * 8 - 1
        .long segments - KERNEL
        .code64
start_64:
        movabs rax, offset at_kernel
        jmp rax

        .text
at_kernel:
        lgdt [rip + all_segments]
        mov eax, 16
        mov ss, eax
        mov eax, 24
        ltr ax
        lea rsp, [rip + stack_end]
        xor ebp, ebp
        call kernel_main

        # The processor comes here on a stack of its own, so that it doesn't write below that of the code that faults (the red zone).
        # The code that faults keeps nothing in registers that a call may change: it is try_read or try_write, or it doesn't go on.
        .globl page_fault_entry, try_read, try_write, give_up
page_fault_entry:
        mov rdi, rsp
        call page_fault
        add rsp, 8                      # the error code
        iretq

        # Read or write 8 bytes at rdi, and return true, or false if that faults.
try_read:
        mov rsi, [rdi]
        mov eax, 1
        ret
try_write:
        mov [rdi], rsi
        mov eax, 1
        ret
give_up:
        xor eax, eax
        ret

        # What the compiler calls. A core for kernels has these, one for programs hasn't.
        .weak memcpy, memmove, memset, memcmp
memcpy: mov rax, rdi
        mov rcx, rdx
        rep movsb
        ret
memmove: mov rax, rdi
        mov rcx, rdx
        mov r8, rdi
        sub r8, rsi
        cmp r8, rdx
        jae 1f
        std
        lea rdi, [rdi + rcx - 1]
        lea rsi, [rsi + rcx - 1]
1:      rep movsb
        cld
        ret
memset: mov r8, rdi
        mov eax, esi
        mov rcx, rdx
        rep stosb
        mov rax, r8
        ret
memcmp: xor eax, eax
        mov rcx, rdx
        cmp eax, eax
        repe cmpsb
        je 1f
        movzx eax, byte ptr [rdi - 1]
        movzx ecx, byte ptr [rsi - 1]
        sub eax, ecx
1:      ret

        .data
        .align 8
segments: .quad 0, 0x00209b0000000000, 0x00cf93000000ffff # code and data
        .quad task_segment, KERNEL >> 32                # the task's, in parts (kernel.ld)
all_segments: .word . - segments - 1
        .quad segments
        .globl task
task:   .fill 36, 1, 0
        .quad fault_stack_end           # IST1
        .fill 58, 1, 0
        .word 104

        .bss
        .align 16
        .skip 65536
stack_end: .skip 16384
fault_stack_end:
