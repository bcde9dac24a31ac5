/*
 * A program for a bare machine: it makes accesses by tables that are handed in, and tells what came of each.
 *
 * Each access is a read, a write or a fetch, of the supervisor or of the user, with the settings that are asked for. The port 0xe9 gets a
 * struct outcome for each. Which tables, which accesses, and what should come of them, is the matter of accesses.c.
 */
#include <stdbool.h>
#include <stddef.h>

#include "shared.h"

enum { BREAKPOINT = 3, WORDS = TABLES_PER_BATCH * 512, ENTRY_SIZE = 16 };

/* The byte that a write leaves, in the place of the first of eight that tell where they lie. */
#define MARK UINT64_C(0x5a)

/* What iretq takes. */
struct entry {
    uint64_t rip;
    uint64_t cs;
    uint64_t rflags;
    uint64_t rsp;
    uint64_t ss;
};

/* What the exception or interrupt has left that ended an access. */
struct taken {
    uint64_t vector;
    uint64_t code;
    uint64_t rip;
    uint64_t rax;
    uint64_t cr2;
} taken;

extern const uint8_t read_code[], write_code[], fetch_code[], end_of_code[], vectors[], arrived[];
extern uint8_t access_stack_top[];
void enter(const struct entry *entry, uint64_t tables, uint64_t address, uint64_t value);

static uint64_t *const tables = (uint64_t *)TABLES;

/* The tables before an access. */
static uint64_t before[WORDS];

/* ---- the processor */

static void set_control_registers(uint32_t controls) {
    uint64_t cr0, cr4;
    uint32_t low, high;
    __asm__ volatile("mov %%cr0, %0" : "=r"(cr0));
    cr0 = (cr0 & ~UINT64_C(0x10000)) | (controls & WRITE_PROTECT ? 0x10000 : 0);
    __asm__ volatile("mov %0, %%cr0" : : "r"(cr0));
    __asm__ volatile("mov %%cr4, %0" : "=r"(cr4));
    cr4 = (cr4 & ~UINT64_C(0x300000)) | (controls & SMEP ? 0x100000 : 0) | (controls & SMAP ? 0x200000 : 0);
    __asm__ volatile("mov %0, %%cr4" : : "r"(cr4));
    __asm__ volatile("rdmsr" : "=a"(low), "=d"(high) : "c"(0xc0000080));
    low = (low & ~UINT32_C(0x800)) | (controls & NO_EXECUTE ? 0x800 : 0);
    __asm__ volatile("wrmsr" : : "a"(low), "d"(high), "c"(0xc0000080));
}

/* Lets a vector enter the code, from privilege level 3 too. */
static void set_gate(uint64_t *gates, unsigned vector, const uint8_t *code) {
    uint64_t address = (uint64_t)code;
    gates[2 * vector] = (address & 0xffff) | (UINT64_C(8) << 16) | (UINT64_C(0xee) << 40) | (address >> 16 & 0xffff) << 48;
    gates[2 * vector + 1] = address >> 32;
}

static void set_gates(void) {
    static uint64_t gates[2 * 256];
    struct __attribute__((packed)) {
        uint16_t limit;
        uint64_t base;
    } pointer = {sizeof gates - 1, (uint64_t)gates};
    for (unsigned vector = 0; vector < 32; vector++)
        set_gate(gates, vector, vectors + ENTRY_SIZE * vector);
    set_gate(gates, ARRIVED, arrived);
    __asm__ volatile("lidt %0" : : "m"(pointer));
}

static void tell(const void *bytes, size_t count) {
    __asm__ volatile("rep outsb" : "+S"(bytes), "+c"(count) : "d"(0xe9) : "memory");
}

/* ---- memory that accesses may reach */

/* The first of eight bytes that tell where they lie: the code of a mov. */
#define FIRST_BYTE UINT64_C(0xb8)

static uint64_t told_at(uint64_t address) {
    return UINT64_C(0x9090cc0000000000) | address / 8 << 8 | FIRST_BYTE;
}

static void fill_data(void) {
    for (uint64_t higher = 0; higher <= HIGHER; higher += HIGHER)
        for (uint64_t address = higher + DATA; address < higher + DATA + DATA_SIZE; address += 8)
            *(volatile uint64_t *)address = told_at(address);
}

/* Returns the address that eight bytes of the memory tell, or 1 if they tell none. */
static uint64_t address_told(uint64_t bytes) {
    uint64_t address = (bytes >> 8 & 0xffffffff) * 8;
    return told_at(address) == bytes ? address : 1;
}

/* ---- accesses */

/* Returns the code that makes an access: the user has a copy of its own. */
static uint64_t code_for(const struct access *access) {
    const uint8_t *code = access->kind == READ ? read_code : access->kind == WRITE ? write_code : fetch_code;
    return access->controls & USER ? USER_PAGE + (uint64_t)(code - read_code) : (uint64_t)code;
}

static void make_access(const struct access *access) {
    bool is_user = access->controls & USER;
    struct entry entry = {
        .rip = code_for(access),
        .cs = is_user ? 0x23 : 0x08,
        .rflags = access->controls & AC ? 0x40002 : 0x2,
        .rsp = (uint64_t)access_stack_top,
        .ss = is_user ? 0x1b : 0x10,
    };
    set_control_registers(access->controls);
    enter(&entry, TABLES, access->address, MARK);
}

/* Returns where a write arrived: a read of the supervisor finds what it left. Takes that back. */
static uint64_t take_back(uint64_t written_to) {
    struct access read = {.address = written_to, .kind = READ, .controls = NO_EXECUTE};
    make_access(&read);
    uint64_t address = address_told(taken.rax - MARK + FIRST_BYTE);
    if (taken.vector != ARRIVED || address == 1)
        return 1;
    bool is_there = *(volatile uint64_t *)address == taken.rax;
    *(volatile uint64_t *)address = told_at(address);
    return is_there ? address : 1;
}

static uint64_t address_of(const struct access *access) {
    if (taken.vector == ARRIVED)
        return access->kind == READ ? address_told(taken.rax) : take_back(access->address);
    if (taken.vector == BREAKPOINT)
        return taken.rip == access->address + 6 ? taken.rax * 8 : 1;
    return taken.cr2;
}

/* Finds the words that an access changed. */
static void find_changes(struct outcome *outcome) {
    for (uint64_t place = 0; place < WORDS; place++) {
        if (tables[place] == before[place])
            continue;
        if (outcome->change_count < MOST_CHANGES)
            outcome->changes[outcome->change_count] = (struct change){place, tables[place]};
        outcome->change_count++;
        before[place] = tables[place];
    }
}

/* Takes the tables of a batch, with the program itself below the root's first entry. */
static void take_tables(uint64_t batch) {
    const uint64_t *handed_in = (const uint64_t *)HANDED_IN + batch * WORDS;
    const uint64_t *root;
    __asm__ volatile("mov %%cr3, %0" : "=r"(root));
    for (uint64_t place = 0; place < WORDS; place++)
        tables[place] = handed_in[place];
    tables[0] = root[0];
    for (uint64_t place = 0; place < WORDS; place++)
        before[place] = tables[place];
}

void run_batches(void) {
    const struct input *input = (const struct input *)INPUT;
    const struct access *access = (const struct access *)(input + 1);
    set_gates();
    fill_data();
    for (size_t k = 0; k < (size_t)(end_of_code - read_code); k++)
        ((volatile uint8_t *)USER_PAGE)[k] = read_code[k];
    for (uint64_t batch = 0; batch < input->batches; batch++) {
        take_tables(batch);
        for (uint64_t k = 0; k < input->accesses_per_batch; k++, access++) {
            make_access(access);
            struct outcome outcome = {.vector = taken.vector, .code = taken.code};
            outcome.address = address_of(access);
            find_changes(&outcome);
            tell(&outcome, sizeof outcome);
        }
    }
}
