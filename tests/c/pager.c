/*
 * A small kernel's pager on the two headers: an identity map at boot, then a half that all processes share, and in the other one pages on
 * demand, swap, fork with copy on write, and the end of a process. The processor is x64_space_access with a TLB that forgets nothing before
 * it is flushed, and a frame that is let go is overwritten: so a flush that is left out shows. It ends with 1 if anything goes wrong.
 */
#include <stdio.h>
#include <stdlib.h>
#include <string.h>

#include "x86_64_paging_live.h"

#define SIZE X64_SIZE_4KIB
#define COPIED UINT64_C(0x200) /* a bit that processors ignore: the page is copied when it is written to */
#define KERNEL (X64_PRESENT | X64_WRITABLE)
#define USER (X64_PRESENT | X64_USER_ACCESSIBLE | X64_NO_EXECUTE)
#define CHECK(is_good) ((is_good) ? (void)0 : (printf("pager: line %d\n", __LINE__), exit(EXIT_FAILURE)))

enum { FIRST = 0x100, TABLES = 32, FRAMES = 64, PLACES = 8, SLOTS = 16 };

static x64_table memory[FRAMES]; /* the physical memory: first tables, then frames for pages */
static uint64_t frames[TABLES];
static x64_pool pool = {.frames = frames, .capacity = TABLES};
static size_t uses[FRAMES], in_use, places; /* how many pages have a frame; how many frames and places of the swap are in use */
static uint8_t swap[PLACES + 1][SIZE];
static struct slot { uint64_t page, frame; bool is_valid, may_write; } tlb[SLOTS];
static x64_space kernel = {.tables = memory, .table_count = FRAMES, .first = FIRST, .root = FIRST * SIZE, .levels = 4}, current;

static uint8_t *bytes(uint64_t address) { return (uint8_t *)&memory[address / SIZE - FIRST] + address % SIZE; }

static uint64_t take_frame(void) {
    size_t k = TABLES;
    while (uses[k] > 0)
        CHECK(++k < FRAMES);
    in_use += ++uses[k];
    memset(&memory[k], 0, SIZE);
    return (FIRST + k) * SIZE;
}

static void let_go(uint64_t word) {
    if (--uses[(word & X64_ADDRESS) / SIZE - FIRST] > 0)
        return;
    in_use--;
    memset(bytes(word & X64_ADDRESS), 0xee, SIZE);
}

/* Flushes what is due after the entry of a page of a size was changed. */
static void flush(uint64_t page, uint64_t size, uint64_t old, uint64_t word) {
    for (size_t k = 0; k < SLOTS; k++)
        tlb[k].is_valid &= tlb[k].page != page || x64_flush_between(x64_level_of(size), old, word) == X64_FLUSH_NOTHING;
}

static void load(const x64_space *space) {
    current = *space;
    memset(tlb, 0, sizeof tlb);
}

static void swap_out(const x64_space *space, uint64_t page) {
    uint64_t old, word = ++places * SIZE; /* not 0, and without X64_PRESENT */
    CHECK(places <= PLACES && x64_space_exchange_page(space, page, SIZE, word, &old) == X64_OK);
    flush(page, SIZE, old, word);
    memcpy(swap[places], bytes(old & X64_ADDRESS), SIZE);
    let_go(old);
}

/* Handles a page fault of the current process. */
static void handle(uint64_t page, bool is_write) {
    x64_entry entry;
    uint32_t status = x64_space_find_page(&current, page, SIZE, &entry);
    uint64_t frame = take_frame(), word = frame | USER | X64_WRITABLE, old = status == X64_OK ? entry.word : 0;
    if (old == 0) {
        CHECK(x64_space_map(&current, &pool, page, SIZE, frame, USER | X64_WRITABLE) == X64_OK);
    } else if (!(old & X64_PRESENT)) {
        memcpy(bytes(frame), swap[old / SIZE], SIZE);
        CHECK(x64_space_compare_exchange_entry(&current, &entry, word) == X64_OK);
    } else {
        CHECK(is_write && (old & COPIED) && x64_space_exchange_entry(&current, &entry, COPIED, &old) == X64_OK);
        flush(page, SIZE, old, COPIED);
        memcpy(bytes(frame), bytes(old & X64_ADDRESS), SIZE);
        CHECK(x64_space_exchange_entry(&current, &entry, word, &entry.word) == X64_OK);
        let_go(old);
    }
}

/* Returns where an access of the current process arrives, after its faults. */
static uint8_t *reach(uint64_t address, uint32_t kind) {
    const x64_controls controls = {.write_protect = true, .no_execute = true, .smep = true, .smap = true, .physical_bits = 48};
    const x64_access_request request = {.address = address, .kind = kind, .user = true, .mark = true};
    struct slot *slot = &tlb[address / SIZE % SLOTS];
    bool is_cached = slot->is_valid && slot->page == address / SIZE * SIZE;
    if (!is_cached || (kind == X64_WRITE && !slot->may_write)) {
        x64_outcome outcome;
        uint32_t status;
        while ((status = x64_space_access(&current, &controls, &request, &outcome)) == X64_PAGE_FAULT)
            handle(address / SIZE * SIZE, kind == X64_WRITE);
        CHECK(status == X64_OK && (!slot->is_valid || !is_cached || slot->frame == outcome.address / SIZE * SIZE));
        *slot = (struct slot){address / SIZE * SIZE, outcome.address / SIZE * SIZE, true, kind == X64_WRITE};
    }
    return bytes(slot->frame + address % SIZE);
}

/* Gives a process the pages of the current one. */
static void fork_into(const x64_space *child) {
    x64_taken pages[SLOTS];
    size_t count;
    uint64_t next, old;
    CHECK(x64_space_list_range(&current, 0, x64_space_last_page(&current, 255), pages, SLOTS, &count, &next) == X64_OK);
    for (size_t k = 0; k < count; k++) {
        reach(pages[k].page, X64_READ); /* swaps it in */
        CHECK(x64_space_change_page(&current, pages[k].page, SIZE, ~X64_WRITABLE, COPIED, &old) == X64_OK);
        flush(pages[k].page, SIZE, old, (old & ~X64_WRITABLE) | COPIED);
        x64_map_request request = x64_map_request_of(pages[k].page, SIZE, old & X64_ADDRESS, USER | COPIED);
        request.parent_flags |= X64_WRITABLE; /* the copy will be writable */
        CHECK(x64_space_map_with(child, &pool, &request) == X64_OK);
        uses[request.frame / SIZE - FIRST]++;
    }
}

/* Takes all pages of the lower half away, and then its tables. */
static void empty(const x64_space *space) {
    x64_taken pages[SLOTS];
    size_t count;
    uint64_t next, last = x64_space_last_page(space, 255);
    CHECK(x64_space_take_range(space, 0, last, pages, SLOTS, &count, &next) == X64_OK);
    for (size_t k = 0; k < count; k++) {
        flush(pages[k].page, pages[k].size, pages[k].word, 0);
        if ((pages[k].word & USER) == USER)
            let_go(pages[k].word);
    }
    CHECK(x64_space_clean_up(space, &pool, 0, last) == X64_OK);
}

int main(void) {
    const uint64_t heap = 0x400000, stack = 0x7ffffffff000;
    bool marks[FRAMES];
    uint64_t done;
    x64_space parent, child;
    for (size_t k = TABLES - 1; k > 0; k--)
        frames[pool.free_count++] = (FIRST + k) * SIZE;
    CHECK(x64_space_fits(&kernel, &pool, marks, FRAMES) == X64_OK);
    for (uint64_t index = 0; index < 512; index += 256)
        CHECK(x64_space_map_range(&kernel, &pool, x64_space_first_page(&kernel, index), X64_SIZE_2MIB, 2, 0, KERNEL, &done) == X64_OK);
    load(&kernel);
    empty(&kernel); /* it runs in the upper half now, which processes share from here on */
    kernel.shared_from = 256;
    kernel.shared_to = 512;
    const size_t free_tables = pool.free_count;
    CHECK(x64_space_new(&kernel, &pool, &parent) == X64_OK && x64_space_new(&kernel, &pool, &child) == X64_OK);
    load(&parent);
    *reach(heap + 5, X64_WRITE) = 1;
    *reach(stack, X64_WRITE) = 2;
    swap_out(&parent, heap);
    CHECK(*reach(heap + 5, X64_READ) == 1 && in_use == 2);
    *reach(heap + 5, X64_WRITE) = 3;
    swap_out(&parent, stack);
    fork_into(&child);
    *reach(heap + 5, X64_WRITE) = 4;
    CHECK(*reach(heap + 5, X64_READ) == 4 && *reach(stack, X64_READ) == 2);
    load(&child);
    CHECK(*reach(heap + 5, X64_READ) == 3 && *reach(stack, X64_READ) == 2);
    *reach(stack, X64_WRITE) = 5;
    swap_out(&child, stack);
    load(&parent);
    CHECK(*reach(stack, X64_READ) == 2 && in_use == 3);
    empty(&child);
    load(&kernel);
    empty(&parent);
    CHECK(x64_space_give_up(&child, &pool) == X64_OK && x64_space_give_up(&parent, &pool) == X64_OK);
    CHECK(pool.free_count == free_tables && in_use == 0);
    printf("pager: swap, copies and the ends of 2 processes leave %zu tables free, and no frame in use\n", free_tables);
    return EXIT_SUCCESS;
}
