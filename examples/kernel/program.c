/* The program that each process runs in ring 3. */
#include "kernel.h"

static volatile uint64_t *const first_word = (uint64_t *)HEAP, *const last_word = (uint64_t *)HEAP_END - 1;

static uint64_t call(uint64_t number, uint64_t argument) {
    __asm__ volatile("int %2" : "+a"(number) : "D"(argument), "i"(SYSTEM_CALL) : "memory");
    return number;
}

void program(void) {
    *first_word = 1;
    *last_word = 2;
    for (int k = 0; k < 3; k++) {
        bool is_child = call(FORK, 0) == 0;
        *first_word += is_child ? 10 : 1;
        call(TELL, *first_word + *last_word);
        if (is_child && k < 2)
            *(volatile uint64_t *)(k == 0 ? PROGRAM : DIRECT) = 0; /* not allowed: its code is read-only, and that is the kernel's */
        else if (is_child)
            ((void (*)(void))HEAP)(); /* not allowed: data can't be run */
    }
    call(EXIT, 0);
}
