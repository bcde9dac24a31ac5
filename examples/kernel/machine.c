/* The machine without its memory: the serial line, exceptions, the command line, and the end. */
#include "kernel.h"
#include <stdarg.h>

enum { SERIAL = 0x3f8, DEBUG_EXIT = 0xf4, IS_GOOD = 16, IS_BAD = 17 };

void *memcpy(void *restrict to, const void *restrict from, size_t count) {
    void *next = to;
    __asm__ volatile("rep movsb" : "+D"(next), "+S"(from), "+c"(count) : : "memory");
    return to;
}

void *memset(void *to, int byte, size_t count) {
    void *next = to;
    __asm__ volatile("rep stosb" : "+D"(next), "+c"(count) : "a"(byte) : "memory");
    return to;
}

static void put_byte(uint16_t port, uint8_t byte) {
    __asm__ volatile("outb %0, %1" : : "a"(byte), "d"(port));
}

static void print_number(uint64_t number, unsigned base) {
    if (number >= base)
        print_number(number / base, base);
    put_byte(SERIAL, (uint8_t)"0123456789abcdef"[number % base]);
}

/* Prints to the serial line, as printf does. It knows %s, %lu and %lx. */
void print(const char *format, ...) {
    va_list arguments;
    va_start(arguments, format);
    for (; *format != 0; format++)
        if (*format != '%')
            put_byte(SERIAL, (uint8_t)*format);
        else if (*++format == 's')
            for (const char *text = va_arg(arguments, const char *); *text != 0; text++)
                put_byte(SERIAL, (uint8_t)*text);
        else
            print_number(va_arg(arguments, uint64_t), *++format == 'x' ? 16 : 10);
    va_end(arguments);
}

/* Ends QEMU, whose status is 33 or 35 then. */
_Noreturn static void end(bool is_good) {
    put_byte(DEBUG_EXIT, is_good ? IS_GOOD : IS_BAD);
    for (;;)
        __asm__ volatile("hlt");
}

/* Ends QEMU if a call didn't return X64_OK. */
void check(const char *call, uint32_t status) {
    if (status == X64_OK)
        return;
    print("kernel: %s returned %lu\n", call, (uint64_t)status);
    end(false);
}

/* Called by boot.S if there was an exception in the kernel itself. */
void kernel_faulted(const struct registers *registers) {
    print("kernel: exception %lu, code 0x%lx, at 0x%lx\n", registers->vector, registers->code, registers->rip);
    end(false);
}

/* Names the entry points. On entry the processor takes the stack IST1, and ring 3 may make system calls. */
static void set_gates(void) {
    extern const uint8_t entry_points[];
    static uint64_t gates[2 * (SYSTEM_CALL + 1)];
    const struct __attribute__((packed)) { uint16_t limit; uint64_t base; } pointer = {sizeof gates - 1, (uint64_t)gates};
    for (uint64_t vector = 0; vector <= SYSTEM_CALL; vector++) {
        uint64_t address = (uint64_t)entry_points + 16 * vector, kind = vector == SYSTEM_CALL ? 0xee01 : 0x8e01;
        gates[2 * vector] = (address & 0xffff) | CODE << 16 | kind << 32 | (address >> 16 & 0xffff) << 48;
        gates[2 * vector + 1] = address >> 32;
    }
    __asm__ volatile("lidt %0" : : "m"(pointer));
}

/* Reads the next word of a text as a number: 0 if there is none. */
static uint64_t next_number(const char **text) {
    uint64_t number = 0;
    while (**text != 0 && *(*text)++ != ' ')
        ;
    for (; **text >= '0' && **text <= '9'; ++*text)
        number = number * 10 + (uint64_t)(**text - '0');
    return number;
}

/* Called by boot.S with the address of what a multiboot loader tells: the KiBs of memory from 1 MiB on, and the command line. */
void kernel_main(uint64_t information_at, uint64_t levels) {
    const uint32_t *information = (const uint32_t *)(DIRECT + information_at);
    const char *text = (const char *)(DIRECT + information[4]);
    uint64_t seed = next_number(&text), accesses = next_number(&text);
    left_out = (uint32_t)next_number(&text);
    set_gates();
    make_kernel_space(0x100000 + UINT64_C(1024) * information[2], levels);
    if (seed != 0)
        end(judge(seed, accesses, next_number(&text)) == 0);
    run_processes();
    end(true);
}
