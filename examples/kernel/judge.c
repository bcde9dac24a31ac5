/* The second mode: random calls on the tables that the processor uses, and accesses, compared with what x64_access says of each. */
#include "kernel.h"

/* Pages are mapped to the second GiB of memory, the sandbox. */
enum { SANDBOX = 0x40000000, ACCESSES_PER_CALL = 8, MOST_SHOWN = 5, TRAP_FLAG = 0x100, AC = 0x40000, WAS_PRESENT = 1, WAS_RESERVED = 8 };
/* How much higher the judge's code is mapped a second time, for ring 0, which can't run a page of ring 3 with SMEP. */
enum { COPY = 0x20000000 };
extern const uint8_t judge_code[], write_code[];
static x64_controls controls = {.write_protect = true, .no_execute = true};
static x64_space space;
static uint64_t state, arrived[3], faulted;

/* Returns a number below a limit, by a fixed rule: xorshift64*. */
static uint64_t below(uint64_t limit) {
    state ^= state >> 12;
    state ^= state << 25;
    state ^= state >> 27;
    return (state * UINT64_C(0x2545f4914f6cdd1d) >> 32) % limit;
}

/* Returns the address of a page of the lower half. Each index is one of three, so pages meet, often at the ends of tables. */
static uint64_t some_page(void) {
    uint64_t position = 0;
    for (uint64_t level = space.levels; level > 0; level--)
        position = position * 512 + (below(3) > 0 ? below(2) : level == space.levels ? 255 : 511);
    return position * X64_SIZE_4KIB;
}

/* Goes on to the next page that is mapped, if there is one in the lower half. */
static void find_mapped(x64_page *page) {
    x64_mapping mapping;
    uint64_t next;
    size_t count;
    uint32_t status = x64_space_mappings(&space, page->start, &mapping, 1, &count, &next);
    if (status <= X64_MORE && count == 1 && mapping.start < DIRECT)
        *page = (x64_page){mapping.start, mapping.size};
}

/* Returns any flags but X64_HUGE_PAGE. */
static uint64_t some_flags(void) {
    uint64_t flags = below(UINT32_MAX) << 52 | (below(UINT32_MAX) & 0xf78);
    flags |= (below(12) ? X64_PRESENT : 0) | (below(4) ? X64_WRITABLE : 0) | (below(4) ? X64_USER_ACCESSIBLE : 0);
    return below(10) ? flags & ~X64_NO_EXECUTE : flags;
}

static void cpuid(uint32_t leaf, uint32_t *eax, uint32_t *ebx) {
    uint32_t ecx = 0, edx;
    __asm__("cpuid" : "=a"(*eax), "=b"(*ebx), "+c"(ecx), "=d"(edx) : "a"(leaf));
}

/* Turns SMEP and SMAP on, if the processor has them, and asks how many bits its physical addresses have. */
static void set_controls(void) {
    uint32_t eax, ebx;
    uint64_t cr4;
    cpuid(7, &eax, &ebx);
    controls.smep = ebx >> 7 & 1;
    controls.smap = ebx >> 20 & 1;
    __asm__ volatile("mov %%cr4, %0" : "=r"(cr4));
    __asm__ volatile("mov %0, %%cr4" : : "r"(cr4 | (uint64_t)controls.smep << 20 | (uint64_t)controls.smap << 21) : "memory");
    cpuid(0x80000008, &eax, &ebx);
    controls.physical_bits = (uint8_t)eax;
}

/* Returns a frame in the sandbox, now and then with an address bit that the processor doesn't have, which is reserved. */
static uint64_t some_frame(uint64_t size) {
    uint64_t reserved = controls.physical_bits < 52 && below(12) == 0 ? UINT64_C(1) << controls.physical_bits : 0;
    return ((SANDBOX + below(8) * X64_SIZE_2MIB + below(8) * X64_SIZE_4KIB) & ~(size - 1)) | reserved;
}

/* Adds rights to a page. The header says that nothing has to be flushed, unless users get it while SMEP or SMAP is on. */
static void add_rights(const x64_page *page) {
    x64_translation old;
    if (x64_space_translate(&space, page->start, &old) != X64_OK || old.size != page->size)
        return;
    uint64_t flags = (old.flags | X64_USER_ACCESSIBLE | (below(2) ? X64_WRITABLE : 0)) & ~X64_NO_EXECUTE;
    if (flags & ~old.flags & X64_USER_ACCESSIBLE)
        check("x64_space_update_flags", update_flags(&space, page, 1, flags));
    else
        check("x64_space_update_flags", x64_space_update_flags(&space, page->start, page->size, flags));
}

/* Exchanges the word of a page, or changes it by masks. */
static void change_word(const x64_page *page) {
    static const uint64_t bits[] = {X64_PRESENT, X64_WRITABLE, X64_USER_ACCESSIBLE, X64_NO_EXECUTE, X64_DIRTY};
    uint64_t old, flags = below(2) ? some_flags() : word_of(&space, page) & ~X64_ADDRESS;
    uint64_t word = some_frame(page->size) | flags | (page->size > X64_SIZE_4KIB ? X64_HUGE_PAGE : 0);
    if (below(2))
        exchange_page(&space, page, below(8) ? word : below(2) ? 0 : word & ~X64_PRESENT, &old);
    else
        change_page(&space, page, ~bits[below(5)], below(2) ? 0 : bits[1 + below(3)], &old);
}

/* Makes a call on a number of pages, from one on, or on that page alone. */
static void make_call(const x64_page *page, uint64_t count) {
    static uint64_t frames[MOST_PAGES];
    size_t frame_count;
    uint64_t choice = below(14);
    x64_map_request request = {*page, some_frame(page->size), some_flags(), X64_PRESENT | X64_WRITABLE | X64_USER_ACCESSIBLE};
    if (choice == 0) {
        update_flags(&space, page, count, some_flags());
    } else if (choice == 1) {
        set_table_flags(&space, page, 2 + below(space.levels - 1), some_flags());
    } else if (choice == 2) {
        unmap(&space, page, count, frames, &frame_count);
        clean_up(&space, page->start, below(2) ? page->start : last_page());
    } else if (choice < 5) {
        add_rights(page);
    } else if (choice < 9) {
        change_word(page);
    } else {
        request.parent_flags = below(4) ? request.parent_flags : some_flags();
        map(&space, &request, count);
        if (request.parent_flags & X64_USER_ACCESSIBLE)
            flush_everything(); /* with SMEP and SMAP this may take rights from ring 0, on all pages below the same entries */
    }
}

/* Returns an address in some pages, right before or behind them, or elsewhere. */
static uint64_t address_near(const x64_page *first, uint64_t count) {
    uint64_t behind = first->start + count * first->size;
    uint64_t pages[] = {first->start, first->start + below(count) * first->size, behind - first->size, behind, some_page()};
    uint64_t offsets[] = {0, UINT64_C(-8), X64_SIZE_4KIB - 8, below(first->size / 8) * 8};
    return (pages[below(5)] + offsets[below(4)]) & (last_page() + X64_SIZE_4KIB - 1);
}

/* Lets the processor make an access. Before it %rax is a word, which a write writes. A fetch ends after an instruction. */
static void let_access(struct registers *registers, const x64_access_request *request, uint64_t word) {
    bool is_fetch = request->kind == X64_FETCH;
    uint64_t code = (uint64_t)(request->kind == X64_WRITE ? write_code : judge_code) + (request->user ? 0 : COPY);
    uint64_t flags = (is_fetch ? TRAP_FLAG : 0) | (controls.ac ? AC : 0);
    *registers = (struct registers){.rip = is_fetch ? request->address : code, .rflags = flags,
                                    .cs = request->user ? USER_CODE : CODE, .ss = request->user ? USER_DATA : DATA,
                                    .rdi = request->address, .rax = word};
    run(registers);
}

/* Whether the library's error code is right, and the processor's the same. The manuals say that bit 0 stands beside bit 3. QEMU 7.2 leaves
 * it out there. */
static bool same_code(uint64_t told, uint64_t code) {
    if (code & WAS_RESERVED)
        return (code & WAS_PRESENT) && (told | WAS_PRESENT) == code;
    return told == code;
}

/* Makes an access by the library, which may be falsified, and by the processor. Returns whether they agree. */
static bool compare(const x64_access_request *request, bool is_falsified) {
    x64_access_request asked = *request;
    x64_outcome outcome;
    struct registers after;
    controls.ac = below(2);
    asked.kind = is_falsified && asked.kind == X64_WRITE ? X64_READ : asked.kind;
    uint32_t status = x64_space_access(&space, &controls, &asked, &outcome);
    if (status != X64_OK) {
        faulted++;
        let_access(&after, request, 0);
        bool is_same = after.vector == PAGE_FAULT && after.cr2 == request->address && same_code(after.code, outcome.code);
        return status == X64_PAGE_FAULT && is_same;
    }
    volatile uint64_t *place = (uint64_t *)(DIRECT + outcome.address);
    uint64_t number = below(UINT32_MAX), word = number << 8 | 0xb8; /* also code: mov $number, %eax */
    arrived[request->kind]++;
    *place = request->kind == X64_WRITE ? 0 : word;
    let_access(&after, request, request->kind == X64_READ ? 0 : word);
    bool is_there = *place == word;
    *place = 0; /* after INVLPG of a large page QEMU 7.2 still runs code that it found there before, unless this is overwritten */
    if (request->kind == X64_FETCH)
        return after.vector == DEBUG && after.rax == number;
    return after.vector == SYSTEM_CALL && after.rax == word && is_there;
}

/* Makes and compares so many accesses. Returns the number of differences. */
uint64_t judge(uint64_t seed, uint64_t accesses, bool is_falsified) {
    static const char *const kinds[] = {"a read", "a write", "a fetch"};
    uint64_t count = 0, differences = 0;
    x64_page page = {(uint64_t)judge_code, X64_SIZE_4KIB};
    x64_map_request copy = {{page.start + COPY, page.size}, page.start - KERNEL, X64_PRESENT, X64_PRESENT | X64_ACCESSED};
    state = seed * UINT64_C(0x9e3779b97f4a7c15);
    set_controls();
    check("x64_space_map_with", map(&kernel_space, &copy, 1));
    check("x64_space_update_flags", update_flags(&kernel_space, &page, 1, X64_PRESENT | X64_USER_ACCESSIBLE));
    space = new_space();
    use_space(&space);
    for (uint64_t k = 0; k < accesses; k++) {
        if (k % ACCESSES_PER_CALL == 0) {
            page.size = below(2) ? X64_SIZE_4KIB : below(3) ? X64_SIZE_2MIB : X64_SIZE_1GIB;
            page.start = some_page() & ~(page.size - 1);
            if (below(2))
                find_mapped(&page);
            count = page.size == X64_SIZE_1GIB ? 1 : below(2) ? 1 + below(31) : below(2) ? 1 : 1 + below(500);
        } else if (k % ACCESSES_PER_CALL == ACCESSES_PER_CALL / 2) {
            make_call(&page, count); /* half of the accesses come before it, so that something is cached */
        }
        x64_access_request request = {address_near(&page, count), (uint32_t)below(3), below(2), false};
        if (!compare(&request, is_falsified) && ++differences <= MOST_SHOWN)
            print("judge: a difference: %s by ring %s at 0x%lx\n", kinds[request.kind], request.user ? "3" : "0", request.address);
    }
    check_fit(&space, 2);
    print("judge: %lu reads, %lu writes, %lu fetches arrive, ", arrived[X64_READ], arrived[X64_WRITE], arrived[X64_FETCH]);
    print("%lu accesses fault: %lu differences\n", faulted, differences);
    return differences;
}
