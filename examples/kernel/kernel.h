/* What the parts of the kernel share. */
#pragma once
/* Virtual addresses: those of all memory and of the kernel, which all spaces share; then those of processes. */
#define DIRECT 0xffff800000000000
#define KERNEL 0xffffffff80000000
#define PROGRAM 0x400000
#define HEAP 0x10000000
#define HEAP_END 0x10400000

/* Segments, and vectors of exceptions and of an interrupt. */
#define CODE 0x08
#define DATA 0x10
#define USER_DATA 0x1b
#define USER_CODE 0x23
#define TASK 0x28
#define DEBUG 1
#define PAGE_FAULT 14
#define SYSTEM_CALL 32
#define REGISTERS_SIZE 192
#ifndef __ASSEMBLER__
#include "x86_64_paging_live.h"
/* boot.S: lets the processor go on with these registers until an exception or an interrupt, which leaves a vector, a code and CR2. */
struct __attribute__((aligned(16))) registers {
    uint64_t padding, cr2, r15, r14, r13, r12, r11, r10, r9, r8, rbp, rdi, rsi, rdx, rcx, rbx, rax, vector, code, rip, cs, rflags, rsp, ss;
};
void run(struct registers *registers);

/* machine.c */
void print(const char *format, ...) __attribute__((format(printf, 1, 2)));
void check(const char *call, uint32_t status);
void *memcpy(void *restrict to, const void *restrict from, size_t count);
void *memset(void *to, int byte, size_t count);

/* memory.c: the frames of all page tables, those of them that are free, the kernel's space, after which all others are made, and frames for
 * pages with their uses */
enum { TABLES_AT = 0x400000, TABLE_COUNT = 256, MOST_PAGES = 1024 };
static x64_table *const tables = (x64_table *)(DIRECT + TABLES_AT);
extern x64_pool pool;
extern x64_space kernel_space;
extern uint8_t uses[];
void make_kernel_space(uint64_t memory_size, uint64_t levels);
x64_space new_space(void);
void use_space(const x64_space *space);
void check_fit(const x64_space *space, size_t count);
void give_up_space(const x64_space *space);
uint64_t take_frames(uint64_t count);

/* memory.c: calls of the library with the flushes that x64_flush_after tells. The judge may leave one of these out, to see it noticed. */
extern uint32_t left_out;
void flush_everything(void);
void flush(uint32_t due, const x64_page *first, uint64_t count);
uint32_t map(const x64_space *space, const x64_map_request *request, uint64_t count);
uint32_t unmap(const x64_space *space, const x64_page *first, uint64_t count, uint64_t frames[MOST_PAGES], size_t *frame_count);
uint32_t update_flags(const x64_space *space, const x64_page *first, uint64_t count, uint64_t flags);
uint32_t set_table_flags(const x64_space *space, const x64_page *page, uint64_t level, uint64_t flags);
uint32_t clean_up(const x64_space *space, uint64_t first, uint64_t last);

/* pages.c: exchanges of a page's word with the flushes that x64_flush_between tells, and pages that are on a disk */
uint64_t word_of(const x64_space *space, const x64_page *page);
uint32_t exchange_page(const x64_space *space, const x64_page *page, uint64_t word, uint64_t *old);
uint32_t change_page(const x64_space *space, const x64_page *page, uint64_t keep, uint64_t set, uint64_t *old);
void add_use(uint64_t word);
void drop_use(uint64_t word);
void swap_out(const x64_space *space, const x64_page *page);
void bring_in(const x64_space *space, const x64_page *page);
size_t take_pages(const x64_space *space, uint64_t start, uint64_t end);

/* All spaces share the upper half: the indices of the root from SHARED_FROM up to, but not including, SHARED_TO. */
enum { SHARED_FROM = 256, SHARED_TO = 512 };

/* Returns the last page of the lower half, which each space has for itself. */
static inline uint64_t last_page(void) { return x64_space_last_page(&kernel_space, SHARED_FROM - 1); }

/* The two modes, and the program that processes run in ring 3, with its system calls. */
enum { FORK, TELL, EXIT };
void program(void);
void run_processes(void);
uint64_t judge(uint64_t seed, uint64_t accesses, bool is_falsified);
#endif
