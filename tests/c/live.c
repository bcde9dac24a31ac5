/*
 * Tests of x86_64_paging_live.h by one thread: each status of each function; which words may stand where, beside x64_pool_fits; splits and
 * joins beside x64_walk; x64_map beside x64_map_as_mapper and after x64_prepare; accesses beside x64_access. It is C and C++.
 *
 *     live OPERATIONS     how many accesses, with 4 levels and with 5; there are fewer of the other calls
 */
#include "live_space.h"

enum { RANGE = 64, WALKS = 200 };

static x64_table copies[TABLES];

/* Returns how many tables the hierarchy has, from a frame on. */
static size_t count_tables(uint64_t frame, uint64_t level) {
    size_t count = 1;
    for (size_t k = 0; k < 512 && level > 1; k++) {
        uint64_t word = tables[frame / 4096 - FIRST].words[k];
        if (x64_names_table(level, word))
            count += count_tables(word & X64_ADDRESS, level - 1);
    }
    return count;
}

/* Returns some address. Each index is one of the lowest or of the highest `width`, so addresses meet. Seldom it isn't canonical. */
static uint64_t some_address(uint64_t width) {
    uint64_t address = 0;
    for (uint64_t level = space.levels; level > 0; level--)
        address = address * 512 + (below(2) ? below(width) : 512 - width + below(width));
    address *= 4096;
    if (address >> (11 + 9 * space.levels) != 0 && below(50))
        address |= UINT64_MAX << (11 + 9 * space.levels);
    return address;
}

/* ---- each status */

/* Makes a space with a level that isn't there, one whose root isn't in the array, and one whose root leads out of it. */
enum fault { NO_LEVELS, NO_ROOT, NO_WAY, FAULTS };
static const uint32_t wanted[FAULTS] = {X64_BAD_LEVELS, X64_BAD_ROOT, X64_NOT_VALID};
static const uint32_t wanted_of_walks[FAULTS] = {X64_BAD_LEVELS, X64_BAD_ROOT, X64_NO_TABLE};

static void make_faulty(uint64_t levels, int fault) {
    fill(levels);
    if (fault == NO_LEVELS)
        space.levels = 3;
    else if (fault == NO_ROOT)
        space.root = 0x1000;
    else
        tables[0].words[0] = 0x1000 | USUAL;
}

static void try_faulty(uint64_t levels) {
    x64_entry entry, entries[X64_MOST_LEVELS];
    x64_taken taken[RANGE];
    x64_controls controls = {true, true, false, false, false, 52, false, false};
    x64_access_request access = {HEAP, X64_WRITE, true, true};
    x64_arrival arrival;
    uint64_t old, next = 0, frame;
    size_t count = 9;
    for (int fault = 0; fault < FAULTS; fault++) {
        const uint32_t status = wanted[fault], found = wanted_of_walks[fault];
        make_faulty(levels, fault);
        x64_hierarchy hierarchy = x64_space_hierarchy(&space);
        memcpy(copies, tables, sizeof tables);
        CHECK(x64_entries_live(&hierarchy, tables, TABLES, HEAP, entries, &count) == found);
        CHECK(x64_space_find_entry(&space, HEAP, &entry) == status);
        CHECK(x64_space_find_page(&space, HEAP, X64_SIZE_4KIB, &entry) == status);
        CHECK(x64_space_exchange_page(&space, HEAP, X64_SIZE_4KIB, 0, &old) == status);
        CHECK(x64_space_take_page(&space, HEAP, X64_SIZE_4KIB, &old) == status);
        CHECK(x64_space_change_page(&space, HEAP, X64_SIZE_4KIB, 0, 0, &old) == status);
        count = 9;
        CHECK(x64_space_take_range_live(&space, 0, HUGE, taken, RANGE, &count, &next) == status && count == (fault == NO_WAY ? 0 : 9));
        CHECK(x64_space_split(&space, &pool, LARGE, X64_SIZE_2MIB) == status);
        CHECK(x64_space_join(&space, HEAP, X64_SIZE_2MIB, 0x87, &frame) == status);
        CHECK(x64_access_live(&hierarchy, tables, TABLES, &controls, &access, &arrival) == found);
        CHECK(memcmp(copies, tables, sizeof tables) == 0);
    }
    start(levels);
    tables[0].words[0] = X64_HUGE_PAGE | X64_PRESENT;
    CHECK(x64_space_entries(&space, HEAP, entries, X64_MOST_LEVELS, &count) == X64_PARENT_ENTRY_HUGE_PAGE);
    CHECK(x64_space_find_entry(&space, HEAP, &entry) == X64_NOT_VALID);
}

static void try_finds(uint64_t levels) {
    x64_entry entry = {0, 0, 0, 0};
    fill(levels);
    CHECK(x64_space_find_entry(&space, HEAP + 0x1234, &entry) == X64_OK && entry.level == 1 && entry.index == 1);
    CHECK(entry.word == ((SMALL_FRAMES + 0x1000) | USUAL) && *x64_space_word_at(&space, &entry) == entry.word);
    CHECK(x64_space_find_entry(&space, HEAP + 0x100000, &entry) == X64_NOT_MAPPED && entry.level == 1 && entry.word == 0);
    CHECK(x64_space_find_entry(&space, 0, &entry) == X64_NOT_MAPPED && entry.level == 3);
    CHECK(x64_space_find_entry(&space, HUGE + 5, &entry) == X64_OK && entry.level == 3);
    CHECK(x64_space_find_entry(&space, UINT64_C(1) << 60, &entry) == X64_BAD_ADDRESS && entry.level == 3);
    CHECK(x64_space_find_page(&space, HEAP + 0x1000, X64_SIZE_4KIB, &entry) == X64_OK && entry.index == 1);
    CHECK(x64_space_find_page(&space, HEAP + 0x100000, X64_SIZE_4KIB, &entry) == X64_OK && entry.word == 0);
    CHECK(x64_space_find_page(&space, 0, X64_SIZE_1GIB, &entry) == X64_OK && entry.word == 0 && entry.level == 3);
    CHECK(x64_space_find_page(&space, 0, X64_SIZE_4KIB, &entry) == X64_PAGE_NOT_MAPPED);
    CHECK(x64_space_find_page(&space, HUGE, X64_SIZE_4KIB, &entry) == X64_PARENT_ENTRY_HUGE_PAGE);
    CHECK(x64_space_find_page(&space, HUGE, X64_SIZE_2MIB, &entry) == X64_PARENT_ENTRY_HUGE_PAGE);
    CHECK(x64_space_find_page(&space, HEAP, X64_SIZE_2MIB, &entry) == X64_HAS_TABLE);
    CHECK(x64_space_find_page(&space, HEAP, X64_SIZE_1GIB, &entry) == X64_HAS_TABLE);
    CHECK(x64_space_find_page(&space, HEAP + 1, X64_SIZE_4KIB, &entry) == X64_BAD_PAGE);
    CHECK(x64_space_find_page(&space, HEAP, 0x2000, &entry) == X64_BAD_PAGE && x64_space_find_page(&space, HEAP, 0, &entry) == X64_BAD_PAGE);
    CHECK(x64_space_find_page(&space, UINT64_C(1) << 60, X64_SIZE_4KIB, &entry) == X64_BAD_PAGE && entry.level == 3);
}

static void try_changes(uint64_t levels) {
    x64_entry entry = {0, 0, 0, 0}, large = entry, table;
    const uint64_t changed = (SWAPPED & ~UINT64_C(0x20)) | 0x400;
    uint64_t old = 0;
    fill(levels);
    CHECK(x64_space_find_page(&space, HEAP, X64_SIZE_4KIB, &entry) == X64_OK);
    CHECK(x64_space_exchange_entry(&space, &entry, SWAPPED, &old) == X64_OK && old == (SMALL_FRAMES | USUAL));
    CHECK(*x64_space_word_at(&space, &entry) == SWAPPED && fits());
    CHECK(x64_space_change_entry(&space, &entry, ~UINT64_C(0x20), 0x400, &old) == X64_OK && old == SWAPPED);
    CHECK(*x64_space_word_at(&space, &entry) == changed);
    CHECK(x64_space_compare_exchange_entry(&space, &entry, 0) == X64_CHANGED && entry.word == changed);
    CHECK(x64_space_compare_exchange_entry(&space, &entry, 0) == X64_OK && entry.word == 0 && *x64_space_word_at(&space, &entry) == 0);
    CHECK(x64_space_find_page(&space, LARGE, X64_SIZE_2MIB, &large) == X64_OK && large.level == 2);
    CHECK(x64_space_exchange_entry(&space, &large, SWAPPED & ~X64_HUGE_PAGE, &old) == X64_NOT_ALLOWED);
    CHECK(x64_space_change_entry(&space, &large, ~X64_HUGE_PAGE, 0, &old) == X64_NOT_ALLOWED);
    CHECK(x64_space_exchange_entry(&space, &large, SWAPPED | X64_HUGE_PAGE, &old) == X64_OK && fits());
    CHECK(x64_space_find_page(&space, LARGE, X64_SIZE_4KIB, &entry) == X64_PARENT_ENTRY_HUGE_PAGE);
    CHECK(x64_space_exchange_entry(&space, &large, 0, &old) == X64_OK && old == (SWAPPED | X64_HUGE_PAGE));
    table = large; /* the entry before it names the table of the small pages */
    table.index--;
    table.word = *x64_space_word_at(&space, &table);
    CHECK(x64_space_exchange_entry(&space, &table, 0, &old) == X64_NOT_ALLOWED);
    CHECK(x64_space_compare_exchange_entry(&space, &table, table.word + 4096) == X64_NOT_ALLOWED);
    CHECK(x64_space_change_entry(&space, &table, ~UINT64_C(0), X64_HUGE_PAGE, &old) == X64_NOT_ALLOWED);
    CHECK(x64_space_change_entry(&space, &table, ~X64_PRESENT, X64_ACCESSED, &old) == X64_OK && old == table.word && fits());
    CHECK(x64_space_find_page(&space, HEAP + 0x1000, X64_SIZE_4KIB, &entry) == X64_PAGE_NOT_MAPPED);
    CHECK(x64_space_find_page(&space, HEAP, X64_SIZE_2MIB, &entry) == X64_HAS_TABLE);
    table.table = 0;
    CHECK(x64_space_exchange_entry(&space, &table, 0, &old) == X64_NO_TABLE);
    CHECK(x64_space_change_entry(&space, &table, 0, 0, &old) == X64_NO_TABLE);
    CHECK(x64_space_compare_exchange_entry(&space, &table, 0) == X64_NO_TABLE);
    CHECK(fits());
    CHECK(strcmp(x64_status_name(X64_HAS_TABLE), "X64_HAS_TABLE") == 0);
    CHECK(strcmp(x64_status_name(X64_CHANGED), "X64_CHANGED") == 0 && strcmp(x64_status_name(X64_OK), "X64_OK") == 0);
}

static void try_pages(uint64_t levels) {
    uint64_t old = 7;
    fill(levels);
    CHECK(x64_space_change_page(&space, HEAP, X64_SIZE_4KIB, ~X64_WRITABLE, X64_ACCESSED, &old) == X64_OK && old == (SMALL_FRAMES | USUAL));
    CHECK(x64_space_exchange_page(&space, HEAP, X64_SIZE_4KIB, SWAPPED, &old) == X64_OK);
    CHECK(old == (SMALL_FRAMES | X64_PRESENT | X64_USER_ACCESSIBLE | X64_ACCESSED));
    old = 7;
    CHECK(x64_space_change_page(&space, HEAP, X64_SIZE_4KIB, ~X64_WRITABLE, 0, &old) == X64_PAGE_NOT_MAPPED && old == 7);
    CHECK(x64_space_take_page(&space, HEAP, X64_SIZE_4KIB, &old) == X64_OK && old == SWAPPED);
    old = 7;
    CHECK(x64_space_take_page(&space, HEAP, X64_SIZE_4KIB, &old) == X64_PAGE_NOT_MAPPED && old == 7);
    CHECK(x64_space_exchange_page(&space, HEAP, X64_SIZE_4KIB, SWAPPED, &old) == X64_PAGE_NOT_MAPPED && old == 7);
    CHECK(x64_space_change_page(&space, HEAP, X64_SIZE_4KIB, 0, 0, &old) == X64_PAGE_NOT_MAPPED);
    CHECK(x64_space_change_page(&space, HUGE, X64_SIZE_1GIB, ~X64_HUGE_PAGE, 0, &old) == X64_NOT_ALLOWED && old == 7);
    CHECK(x64_space_exchange_page(&space, HUGE, X64_SIZE_1GIB, 0x5007, &old) == X64_NOT_ALLOWED && old == 7);
    CHECK(x64_space_exchange_page(&space, HUGE, X64_SIZE_2MIB, 0, &old) == X64_PARENT_ENTRY_HUGE_PAGE);
    CHECK(x64_space_take_page(&space, HUGE, X64_SIZE_2MIB, &old) == X64_PARENT_ENTRY_HUGE_PAGE);
    CHECK(x64_space_take_page(&space, HEAP, X64_SIZE_2MIB, &old) == X64_HAS_TABLE);
    CHECK(x64_space_change_page(&space, HEAP, X64_SIZE_1GIB, 0, 0, &old) == X64_HAS_TABLE);
    CHECK(x64_space_take_page(&space, 5, X64_SIZE_4KIB, &old) == X64_BAD_PAGE && old == 7);
    CHECK(x64_space_take_page(&space, HUGE, X64_SIZE_1GIB, &old) == X64_OK && old == (UINT64_C(0x40000000) | USUAL | X64_HUGE_PAGE));
    CHECK(fits());
}

static void try_ranges(uint64_t levels) {
    x64_taken taken[RANGE];
    size_t count = 9;
    uint64_t next = 7, old, half = (UINT64_C(1) << (11 + 9 * levels)) - 4096;
    fill(levels);
    CHECK(x64_space_exchange_page(&space, HEAP + 0x3000, X64_SIZE_4KIB, SWAPPED, &old) == X64_OK);
    CHECK(x64_space_take_range_live(&space, 1, half, taken, RANGE, &count, &next) == X64_BAD_PAGE);
    CHECK(x64_space_take_range_live(&space, 0, half + 4096, taken, RANGE, &count, &next) == X64_BAD_PAGE);
    CHECK(x64_space_take_range_live(&space, 0, LAST_PAGE, taken, RANGE, &count, &next) == X64_BAD_PAGE && count == 9 && next == 7);
    CHECK(x64_space_take_range_live(&space, HUGE, 0, taken, RANGE, &count, &next) == X64_OK && count == 0 && next == 7);
    CHECK(x64_space_take_range_live(&space, 0, HUGE + 4096, taken, 3, &count, &next) == X64_MORE && count == 3 && next == HEAP + 0x3000);
    CHECK(taken[2].page == HEAP + 0x2000 && taken[2].size == X64_SIZE_4KIB && taken[2].word == ((SMALL_FRAMES + 0x2000) | USUAL));
    CHECK(x64_space_take_range_live(&space, next, HUGE + 4096, taken, RANGE, &count, &next) == X64_PARENT_ENTRY_HUGE_PAGE);
    CHECK(count == PAGES - 3 + 1 && next == HUGE && taken[0].word == SWAPPED && taken[PAGES - 3].size == X64_SIZE_2MIB);
    CHECK(x64_space_take_range_live(&space, HUGE + 4096, half, taken, RANGE, &count, &next) == X64_PARENT_ENTRY_HUGE_PAGE);
    CHECK(count == 0 && next == HUGE + 4096);
    CHECK(x64_space_take_range_live(&space, 0, half, taken, RANGE, &count, &next) == X64_OK && count == 1 && taken[0].page == HUGE);
    CHECK(next == HUGE + 4096 && x64_space_take_range_live(&space, 0, half, taken, 0, &count, &next) == X64_OK && count == 0);
    CHECK(x64_space_map(&space, &pool, LAST_PAGE, X64_SIZE_4KIB, 0x5000, USUAL) == X64_OK);
    CHECK(x64_space_take_range_live(&space, UINT64_MAX << (11 + 9 * levels), LAST_PAGE, taken, RANGE, &count, &next) == X64_OK);
    CHECK(count == 1 && taken[0].page == LAST_PAGE && taken[0].word == (0x5000 | USUAL));
    CHECK(x64_space_clean_up(&space, &pool, 0, LAST_PAGE) == X64_OK && pool.free_count == TABLES - 1 && fits());
}

/* The ranges of the library, by their inline functions: each status, and what they write. */
static void try_proved_ranges(uint64_t levels) {
    const uint64_t address = UINT64_C(0x000ffffffffff000), half = (UINT64_C(1) << (11 + 9 * levels)) - 4096;
    const uint64_t keep = ~X64_WRITABLE, large = UINT64_C(0x40000000) | USUAL | X64_HUGE_PAGE;
    x64_taken pages[RANGE];
    size_t count = 9;
    uint64_t next = 7, old;
    fill(levels);
    CHECK(x64_space_exchange_page(&space, HEAP + 0x3000, X64_SIZE_4KIB, SWAPPED, &old) == X64_OK);
    CHECK(x64_space_list_range(&space, 1, half, pages, RANGE, &count, &next) == X64_BAD_PAGE);
    CHECK(x64_space_take_range(&space, 0, half + 4096, pages, RANGE, &count, &next) == X64_BAD_PAGE);
    CHECK(x64_space_change_range(&space, 0, 5, keep, 0, pages, RANGE, &count, &next) == X64_BAD_PAGE);
    CHECK(x64_space_change_range(&space, 0, half, keep & ~address, 0, pages, RANGE, &count, &next) == X64_NOT_ALLOWED);
    CHECK(x64_space_change_range(&space, 0, half, keep & ~X64_HUGE_PAGE, 0, pages, RANGE, &count, &next) == X64_NOT_ALLOWED);
    CHECK(x64_space_change_range(&space, 0, half, keep, X64_HUGE_PAGE, pages, RANGE, &count, &next) == X64_NOT_ALLOWED);
    CHECK(x64_space_change_range(&space, 0, half, keep, 0x1000, pages, RANGE, &count, &next) == X64_NOT_ALLOWED);
    CHECK(count == 9 && next == 7);
    CHECK(x64_space_list_range(&space, HUGE, 0, pages, RANGE, &count, &next) == X64_OK && count == 0 && next == 7);
    memcpy(copies, tables, sizeof tables);
    CHECK(x64_space_list_range(&space, 0, LAST_PAGE, pages, RANGE, &count, &next) == X64_OK && count == PAGES + 2 && next == 7);
    CHECK(pages[3].page == HEAP + 0x3000 && pages[3].word == SWAPPED && pages[PAGES].size == X64_SIZE_2MIB);
    CHECK(pages[PAGES + 1].page == HUGE && pages[PAGES + 1].size == X64_SIZE_1GIB && pages[PAGES + 1].word == large);
    CHECK(x64_space_list_range(&space, 0, HUGE + 4096, pages, 3, &count, &next) == X64_MORE && count == 3 && next == HEAP + 0x3000);
    CHECK(x64_space_list_range(&space, next, HUGE + 4096, pages, RANGE, &count, &next) == X64_PARENT_ENTRY_HUGE_PAGE && next == HUGE);
    CHECK(count == PAGES - 3 + 1 && memcmp(copies, tables, sizeof tables) == 0);
    CHECK(x64_space_change_range(&space, 0, HUGE - 4096, keep, X64_ACCESSED, pages, 1, &count, &next) == X64_MORE && count == 1);
    CHECK(next == HEAP + 0x1000 && pages[0].word == (SMALL_FRAMES | USUAL));
    CHECK(x64_space_change_range(&space, next, HUGE - 4096, keep, X64_ACCESSED, pages, RANGE, &count, &next) == X64_OK);
    CHECK(count == PAGES - 2 + 1 && fits());
    CHECK(x64_space_list_range(&space, HEAP, HEAP + 0x3000, pages, RANGE, &count, &next) == X64_OK && count == 4);
    CHECK(pages[2].word == (((SMALL_FRAMES + 0x2000) | USUAL | X64_ACCESSED) & ~X64_WRITABLE) && pages[3].word == SWAPPED);
    CHECK(x64_space_change_range(&space, HUGE + 4096, half, keep, 0, pages, RANGE, &count, &next) == X64_PARENT_ENTRY_HUGE_PAGE);
    CHECK(count == 0 && next == HUGE + 4096);
    CHECK(x64_space_take_range(&space, 0, HUGE + 4096, pages, 2, &count, &next) == X64_MORE && count == 2 && next == HEAP + 0x2000);
    CHECK(x64_space_take_range(&space, next, HUGE + 4096, pages, RANGE, &count, &next) == X64_PARENT_ENTRY_HUGE_PAGE);
    CHECK(count == PAGES - 2 + 1 && next == HUGE && pages[1].word == SWAPPED && pages[PAGES - 2].size == X64_SIZE_2MIB);
    CHECK(x64_space_take_range(&space, 0, half, pages, RANGE, &count, &next) == X64_OK && count == 1 && pages[0].word == large);
    CHECK(x64_space_map(&space, &pool, LAST_PAGE, X64_SIZE_4KIB, 0x5000, USUAL) == X64_OK);
    CHECK(x64_space_take_range(&space, 0, LAST_PAGE, pages, RANGE, &count, &next) == X64_OK);
    CHECK(count == 1 && pages[0].page == LAST_PAGE && pages[0].word == (0x5000 | USUAL));
    CHECK(x64_space_list_range(&space, 0, LAST_PAGE, pages, RANGE, &count, &next) == X64_OK && count == 0);
    CHECK(x64_space_clean_up(&space, &pool, 0, LAST_PAGE) == X64_OK && pool.free_count == TABLES - 1 && fits());
}

/* A drop: all pages go, of each size, and their tables come back; and where it stops. */
static void try_drop(uint64_t levels) {
    const uint64_t half = (UINT64_C(1) << (11 + 9 * levels)) - 4096;
    x64_taken pages[RANGE];
    size_t count = 9;
    uint64_t next = 7, old;
    fill(levels);
    CHECK(x64_space_exchange_page(&space, HEAP + 0x3000, X64_SIZE_4KIB, SWAPPED, &old) == X64_OK);
    CHECK(x64_space_drop(&space, &pool, 0, half + 4096, &next) == X64_BAD_PAGE && next == 7);
    CHECK(x64_space_drop(&space, &pool, HUGE, 0, &next) == X64_OK && next == 7 && fits());
    CHECK(x64_space_drop(&space, &pool, HEAP, HEAP + 0x1000, &next) == X64_OK && next == 7 && fits());
    CHECK(x64_space_list_range(&space, 0, LAST_PAGE, pages, RANGE, &count, &next) == X64_OK && count == PAGES);
    CHECK(pages[0].page == HEAP + 0x2000 && pages[1].word == SWAPPED);
    CHECK(x64_space_drop(&space, &pool, 0, HUGE + 4096, &next) == X64_PARENT_ENTRY_HUGE_PAGE && next == HUGE && fits());
    CHECK(x64_space_list_range(&space, 0, LAST_PAGE, pages, RANGE, &count, &next) == X64_OK && count == 1 && pages[0].page == HUGE);
    CHECK(x64_space_drop(&space, &pool, HUGE + 4096, half, &next) == X64_PARENT_ENTRY_HUGE_PAGE && next == HUGE + 4096);
    CHECK(x64_space_drop(&space, &pool, 0, half, &next) == X64_OK && next == HUGE + 4096 && fits());
    CHECK(pool.free_count == TABLES - 1);
    CHECK(x64_space_list_range(&space, 0, LAST_PAGE, pages, RANGE, &count, &next) == X64_OK && count == 0);
}

/* x64_space_take_range_live passes over a table that lacks X64_PRESENT, with its pages, which the library's ranges see. */
static void try_hidden_table(uint64_t levels) {
    x64_taken taken[RANGE];
    x64_entry entry = {0, 0, 0, 0};
    size_t count = 9;
    uint64_t next = 7, old;
    fill(levels);
    CHECK(x64_space_find_page(&space, LARGE, X64_SIZE_2MIB, &entry) == X64_OK);
    entry.index--;
    CHECK(x64_space_change_entry(&space, &entry, ~X64_PRESENT, 0, &old) == X64_OK);
    CHECK(x64_space_list_range(&space, 0, HUGE - 4096, taken, RANGE, &count, &next) == X64_OK && count == PAGES + 1);
    CHECK(x64_space_take_range_live(&space, 0, HUGE - 4096, taken, RANGE, &count, &next) == X64_OK && count == 1 && taken[0].page == LARGE);
    CHECK(x64_space_change_entry(&space, &entry, ~UINT64_C(0), X64_PRESENT, &old) == X64_OK);
    CHECK(x64_space_take_range_live(&space, 0, HUGE - 4096, taken, RANGE, &count, &next) == X64_OK && count == PAGES && taken[0].page == HEAP);
}

/* ---- flushes */

/* Whether a present entry loses nothing, as LosesNothing in crates/x86_64_model/specs/Flushing.antt says it, clause by clause. */
static bool loses_nothing(uint64_t e, uint64_t f) {
    const uint64_t kind = UINT64_C(0x7800000000000118);
    bool is_there = f != 0 && (f & X64_PRESENT), same_huge = (f & X64_HUGE_PAGE) == (e & X64_HUGE_PAGE);
    bool same_address = (f & UINT64_C(0xffffffffff000)) == (e & UINT64_C(0xffffffffff000)), same_kind = (f & kind) == (e & kind);
    bool accessed = !(e & X64_ACCESSED) || (f & X64_ACCESSED), dirty = !(e & X64_DIRTY) || (f & X64_DIRTY);
    bool write = !(e & X64_WRITABLE) || (f & X64_WRITABLE), user = !(e & X64_USER_ACCESSIBLE) || (f & X64_USER_ACCESSIBLE);
    bool execute = (e & X64_NO_EXECUTE) || !(f & X64_NO_EXECUTE);
    return is_there && same_huge && same_address && same_kind && accessed && dirty && write && user && execute;
}

static void try_random_flushes(void) {
    size_t nothing = 0;
    for (int n = 0; n < 200000; n++) {
        uint64_t old = (below(UINT32_MAX) << 32 | below(UINT32_MAX)) & (below(2) ? UINT64_MAX : UINT64_C(0x80000000fffff1ff)), word = old;
        for (uint64_t bits = below(4); bits > 0; bits--)
            word ^= UINT64_C(1) << (below(3) ? below(9) : below(64));
        bool is_nothing = !(old & X64_PRESENT) || (loses_nothing(old, word) && (word & ~old & X64_USER_ACCESSIBLE) == 0);
        CHECK(x64_flush_between(1, old, word) == (is_nothing ? X64_FLUSH_NOTHING : X64_FLUSH_PAGE));
        nothing += is_nothing && (old & X64_PRESENT);
    }
    CHECK(nothing > 1000);
}

static void try_flushes(void) {
    const uint64_t page = UINT64_C(0x5000) | USUAL, nx = X64_NO_EXECUTE;
    CHECK(x64_flush_between(1, 0, page) == X64_FLUSH_NOTHING && x64_flush_between(1, SWAPPED, page) == X64_FLUSH_NOTHING);
    CHECK(x64_flush_between(1, page, 0) == X64_FLUSH_PAGE && x64_flush_between(1, page, SWAPPED) == X64_FLUSH_PAGE);
    CHECK(x64_flush_between(1, page, page | MARKS | 0x200) == X64_FLUSH_NOTHING);
    CHECK(x64_flush_between(1, page | X64_DIRTY, page) == X64_FLUSH_PAGE && x64_flush_between(1, page | X64_ACCESSED, page) == X64_FLUSH_PAGE);
    CHECK(x64_flush_between(1, page, page & ~X64_WRITABLE) == X64_FLUSH_PAGE);
    CHECK(x64_flush_between(1, page & ~X64_WRITABLE, page) == X64_FLUSH_NOTHING);
    CHECK(x64_flush_between(1, page & ~X64_USER_ACCESSIBLE, page) == X64_FLUSH_PAGE);
    CHECK(x64_flush_between(1, page, page & ~X64_USER_ACCESSIBLE) == X64_FLUSH_PAGE);
    CHECK(x64_flush_between(1, page, page | nx) == X64_FLUSH_PAGE && x64_flush_between(1, page | nx, page) == X64_FLUSH_NOTHING);
    for (unsigned bit = 3; bit < 63; bit++) { /* a bit that comes, and goes again: all but rights and marks */
        bool is_kind = bit == 3 || bit == 4 || bit == 7 || bit == 8 || (bit >= 12 && bit < 52) || (bit >= 59 && bit < 63);
        uint64_t other = page ^ UINT64_C(1) << bit;
        if (bit == 5 || bit == 6)
            continue;
        CHECK(x64_flush_between(1, page, other) == (is_kind ? X64_FLUSH_PAGE : X64_FLUSH_NOTHING));
        CHECK(x64_flush_between(1, other, page) == (is_kind ? X64_FLUSH_PAGE : X64_FLUSH_NOTHING));
    }
    CHECK(x64_flush_between(2, page, page & ~X64_PRESENT) == X64_FLUSH_EVERYTHING);
    CHECK(x64_flush_between(2, page | X64_HUGE_PAGE, 0) == X64_FLUSH_PAGE);
    CHECK(x64_flush_between(2, page | X64_HUGE_PAGE, (page | X64_HUGE_PAGE) ^ 0x1000) == X64_FLUSH_PAGE); /* PAT */
}

/* ---- which words may stand where */

/* Returns a word: often 0, a page, or a name of one of the tables. */
static uint64_t some_word(void) {
    uint64_t flags = below(512) | below(2) << 63;
    switch (below(5)) {
    case 0:
        return 0;
    case 1:
        return (FIRST + below(TABLES)) * 4096 | flags;
    case 2:
        return (FIRST + below(TABLES)) * 4096 | (flags & ~X64_HUGE_PAGE);
    default:
        return below(UINT32_MAX) * 4096 | flags;
    }
}

/* Exchanges entries at random: what is allowed keeps the tables, the pool and the hierarchy. What isn't mostly would not. */
static void try_words(uint64_t levels, size_t rounds) {
    size_t allowed = 0, refused = 0, harmless = 0;
    fill(levels);
    size_t count = count_tables(space.root, levels);
    for (size_t n = 0; n < rounds; n++) {
        uint64_t addresses[] = {HEAP + below(PAGES) * 4096, LARGE, HUGE, below(4) << 39, HEAP + below(8) * X64_SIZE_2MIB};
        x64_hierarchy hierarchy = x64_space_hierarchy(&space);
        x64_entry entries[X64_MOST_LEVELS];
        size_t read = 1;
        CHECK(x64_entries_live(&hierarchy, tables, TABLES, addresses[below(5)], entries, &read) <= X64_NOT_MAPPED);
        x64_entry entry = entries[below(read)];
        uint64_t word = below(3) ? some_word() : entry.word ^ (UINT64_C(1) << below(64)), old = 0;
        uint32_t status = x64_space_exchange_entry(&space, &entry, word, &old);
        CHECK(status == X64_OK ? old == entry.word : status == X64_NOT_ALLOWED);
        CHECK(*x64_space_word_at(&space, &entry) == (status == X64_OK ? word : entry.word));
        if (status == X64_OK) {
            allowed++;
            CHECK(fits() && count_tables(space.root, levels) == count);
            if (below(4)) /* put it back, so that the hierarchy stays as rich as it is */
                CHECK(x64_space_exchange_entry(&space, &entry, entry.word, &old) == X64_OK && old == word);
        } else {
            refused++;
            *x64_space_word_at(&space, &entry) = word;
            harmless += fits() && count_tables(space.root, levels) == count;
            *x64_space_word_at(&space, &entry) = entry.word;
        }
    }
    CHECK(rounds < 1000 || (allowed > rounds / 10 && refused > rounds / 10));
    printf("%" PRIu64 " levels: %zu exchanges, %zu allowed, which keep the hierarchy, %zu refused, of which %zu would have kept it\n", levels,
           rounds, allowed, refused, harmless);
}

/* ---- larger and smaller pages */

static void try_split_refusals(uint64_t levels) {
    uint64_t frame = 0, old = 0;
    fill(levels);
    CHECK(x64_space_split(&space, &pool, HEAP, X64_SIZE_4KIB) == X64_BAD_PAGE && x64_space_split(&space, &pool, HEAP, 5) == X64_BAD_PAGE);
    CHECK(x64_space_split(&space, &pool, HEAP, X64_SIZE_2MIB) == X64_HAS_TABLE);
    CHECK(x64_space_split(&space, &pool, HUGE, X64_SIZE_2MIB) == X64_PARENT_ENTRY_HUGE_PAGE);
    CHECK(x64_space_split(&space, &pool, HEAP + 4 * X64_SIZE_2MIB, X64_SIZE_2MIB) == X64_PAGE_NOT_MAPPED);
    CHECK(x64_space_split(&space, &pool, 4 * X64_SIZE_1GIB, X64_SIZE_2MIB) == X64_PAGE_NOT_MAPPED);
    CHECK(x64_space_join(&space, HEAP, X64_SIZE_2MIB, 0x87, &frame) == X64_NOT_ALLOWED);
    CHECK(x64_space_join(&space, HEAP, X64_SIZE_4KIB, 0x7, &frame) == X64_BAD_PAGE);
    CHECK(x64_space_join(&space, HEAP + 4096, X64_SIZE_2MIB, 0x87, &frame) == X64_BAD_PAGE);
    CHECK(x64_space_join(&space, UINT64_C(1) << 60, X64_SIZE_2MIB, 0x87, &frame) == X64_BAD_PAGE);
    CHECK(x64_space_join(&space, 0, X64_SIZE_2MIB, 0x87, &frame) == X64_PAGE_NOT_MAPPED);
    CHECK(x64_space_join(&space, HUGE, X64_SIZE_1GIB, 0x87, &frame) == X64_PARENT_ENTRY_HUGE_PAGE && frame == 0);
    size_t free_count = pool.free_count;
    pool.free_count = 0;
    CHECK(x64_space_split(&space, &pool, HUGE, X64_SIZE_1GIB) == X64_FRAME_ALLOCATION_FAILED);
    pool.free_count = pool.capacity + 1;
    CHECK(x64_space_split(&space, &pool, HUGE, X64_SIZE_1GIB) == X64_BAD_ARRAY);
    pool.free_count = free_count;
    for (unsigned bit = 13; bit < 30; bit++) { /* address bits that are reserved */
        uint64_t word = UINT64_C(0x40000000) | USUAL | X64_HUGE_PAGE | UINT64_C(1) << bit;
        CHECK(x64_space_exchange_page(&space, HUGE, X64_SIZE_1GIB, word, &old) == X64_OK);
        CHECK(x64_space_split(&space, &pool, HUGE, X64_SIZE_1GIB) == X64_INVALID_FRAME_ADDRESS && pool.free_count == free_count);
        CHECK(x64_space_take_page(&space, HUGE, X64_SIZE_1GIB, &old) == X64_OK && old == word);
        CHECK(x64_space_exchange_page(&space, HUGE, X64_SIZE_1GIB, word, &old) == X64_PAGE_NOT_MAPPED);
        CHECK(x64_space_map(&space, &pool, HUGE, X64_SIZE_1GIB, 0, USUAL) == X64_OK);
    }
    CHECK(fits());
}

/* What x64_walk says of addresses all over a page. */
struct walks {
    x64_walk_result results[WALKS];
    uint32_t statuses[WALKS];
};

static void walk_all(uint64_t page, uint64_t size, struct walks *walks) {
    memset(walks, 0, sizeof *walks);
    for (uint64_t k = 0; k < WALKS; k++)
        walks->statuses[k] = x64_space_walk(&space, page + k * (size / WALKS) / 8 * 8, &walks->results[k]);
}

static bool walks_stay(uint64_t page, uint64_t size, const struct walks *before) {
    static struct walks after;
    walk_all(page, size, &after);
    return memcmp(before, &after, sizeof after) == 0;
}

/* Returns the word of the j-th part of a page: with the page's flags, and PAT where a page of the part's size has it. */
static uint64_t part_of(uint64_t level, uint64_t word, uint64_t j) {
    uint64_t pat = word & 0x1000, flags = word & ~X64_ADDRESS;
    uint64_t start = (word & X64_ADDRESS) / x64_span_of(level) * x64_span_of(level);
    flags = level == 2 ? (flags & ~X64_HUGE_PAGE) | (pat ? 0x80 : 0) : flags | pat;
    return flags | (start + j * x64_span_of(level - 1));
}

/* Writes the parts of a page into a table, and changes one of them. */
static void try_part_words(uint64_t level, uint64_t word) {
    const uint64_t all = X64_PRESENT | X64_WRITABLE | X64_USER_ACCESSIBLE, number = below(512);
    static const uint64_t seen[] = {0x1, 0x2, 0x4, 0x8, 0x10, 0x80, 0x100, 0x1000, 0x40000000, UINT64_C(1) << 59, X64_NO_EXECUTE};
    static const uint64_t unseen[] = {X64_ACCESSED, X64_DIRTY, 0x200, 0x800, UINT64_C(1) << 52, UINT64_C(1) << 58};
    x64_table table;
    memset(&table, 0x55, sizeof table);
    CHECK(x64_split_status(level, word) == X64_OK && x64_write_parts(level, word, &table) == X64_OK);
    for (uint64_t j = 0; j < 512; j++)
        CHECK(table.words[j] == part_of(level, word, j));
    CHECK(x64_are_parts(level, word, all, &table) && !x64_are_parts(5 - level, word, all, &table));
    CHECK(x64_are_parts(level, word, all & ~X64_WRITABLE, &table) == !(word & X64_WRITABLE));
    CHECK(x64_are_parts(level, word, all & ~X64_USER_ACCESSIBLE, &table) == !(word & X64_USER_ACCESSIBLE));
    CHECK(x64_are_parts(level, word, all | X64_NO_EXECUTE, &table) == ((word & X64_NO_EXECUTE) != 0));
    CHECK(x64_joined_word(word, &table) == (word | X64_ACCESSED | (word & X64_WRITABLE ? X64_DIRTY : 0)));
    for (size_t k = 0; k < sizeof seen / sizeof seen[0]; k++) {
        table.words[number] ^= seen[k];
        CHECK(!x64_are_parts(level, word, all, &table));
        table.words[number] ^= seen[k];
    }
    for (size_t k = 0; k < sizeof unseen / sizeof unseen[0]; k++)
        table.words[number] ^= unseen[k];
    CHECK(x64_are_parts(level, word, all, &table));
    table.words[number] |= X64_DIRTY;
    CHECK(x64_joined_word(word, &table) == (word | X64_ACCESSED | X64_DIRTY));
}

/* Refuses words that aren't those of pages with parts. Then the table stays. */
static void try_no_parts(void) {
    static const struct {
        uint64_t level, word;
        uint32_t status;
    } rows[] = {
        {1, 0x40000087, X64_BAD_LEVELS}, {4, 0x40000087, X64_BAD_LEVELS}, {0, 0, X64_BAD_LEVELS}, {2, 0, X64_PAGE_NOT_MAPPED},
        {3, 0, X64_PAGE_NOT_MAPPED}, {2, 0x40000007, X64_HAS_TABLE}, {3, 0x200, X64_HAS_TABLE}, {2, 0x40002087, X64_INVALID_FRAME_ADDRESS},
        {2, 0x40100087, X64_INVALID_FRAME_ADDRESS}, {3, 0x40200087, X64_INVALID_FRAME_ADDRESS}, {3, 0x60000087, X64_INVALID_FRAME_ADDRESS},
    };
    x64_table table, before;
    memset(&table, 0x55, sizeof table);
    before = table;
    for (size_t k = 0; k < sizeof rows / sizeof rows[0]; k++) {
        CHECK(x64_split_status(rows[k].level, rows[k].word) == rows[k].status);
        CHECK(x64_write_parts(rows[k].level, rows[k].word, &table) == rows[k].status);
        CHECK(memcmp(&table, &before, sizeof table) == 0 && !x64_are_parts(rows[k].level, rows[k].word, 0x7, &table));
    }
    try_part_words(2, 0x40001087);
    try_part_words(3, 0x40001087);
    try_part_words(2, 0x40200080);
    try_part_words(3, UINT64_MAX & ~UINT64_C(0x3fffe000));
}

/* Splits one part of a page of 1 GiB again, and joins its parts, if they are present. */
static void try_part(uint64_t page, uint64_t word, uint64_t number, const struct walks *before) {
    uint64_t inner = page + number * X64_SIZE_2MIB, part = part_of(3, word, number), frame = 0;
    size_t free_count = pool.free_count;
    CHECK(x64_space_split(&space, &pool, inner, X64_SIZE_2MIB) == X64_OK && fits() && walks_stay(page, X64_SIZE_1GIB, before));
    CHECK(x64_space_join(&space, page, X64_SIZE_1GIB, word, &frame) == X64_NOT_ALLOWED);
    if (word & X64_PRESENT) {
        CHECK(x64_space_join(&space, inner, X64_SIZE_2MIB, part, &frame) == X64_OK);
        give_back(frame);
        CHECK(fits() && pool.free_count == free_count);
    }
}

/* Refuses words of which the pages aren't the parts: with another right, frame or kind of memory. */
static void try_wrong_words(uint64_t page, uint64_t size, uint64_t word) {
    const unsigned bits[] = {0, 1, 2, 3, 4, 7, 8, 12, 13, 20, 21, 29, 30, 35, 51, 59, 60, 61, 62, 63};
    uint64_t frame = 7;
    for (size_t k = 0; k < sizeof bits / sizeof bits[0]; k++)
        CHECK(x64_space_join(&space, page, size, word ^ UINT64_C(1) << bits[k], &frame) == X64_NOT_ALLOWED && frame == 7);
}

/* Splits a page that has this word, changes a part and joins them. */
static void try_split(uint64_t page, uint64_t size, uint64_t word) {
    static struct walks before;
    const uint64_t level = x64_level_of(size), number = below(512), part_size = size / 512, inner = page + number * part_size;
    const uint64_t part = part_of(level, word, number), kept = X64_GLOBAL | MARKS | X64_NO_EXECUTE | UINT64_C(0x7ff0000000000e18);
    uint64_t old = 0, frame = 0, late = below(4) ? 0 : X64_DIRTY;
    x64_entry entry = {0, 0, 0, 0};
    size_t free_count = pool.free_count;
    try_part_words(level, word);
    walk_all(page, size, &before);
    CHECK(x64_space_split(&space, &pool, page, size) == X64_OK && pool.free_count == free_count - 1 && fits() && walks_stay(page, size, &before));
    CHECK(x64_space_find_page(&space, inner, part_size, &entry) == X64_OK && entry.word == part && ((part ^ word) & kept) == 0);
    CHECK((part & (level == 2 ? 0x80 : 0x1000)) == (word & 0x1000 ? level == 2 ? 0x80u : 0x1000u : 0));
    try_wrong_words(page, size, word);
    if (level == 3)
        try_part(page, word, number, &before);
    if (level == 3 && !(word & X64_PRESENT))
        return; /* one of the parts is still split */
    CHECK(x64_space_exchange_page(&space, inner, part_size, part ^ X64_WRITABLE, &old) == X64_OK && ((old ^ part) & ~MARKS) == 0);
    CHECK(x64_space_join(&space, page, size, word, &frame) == X64_NOT_ALLOWED);
    CHECK(x64_space_exchange_page(&space, inner, part_size, part | late, &old) == X64_OK);
    CHECK(x64_space_join(&space, page, size, word, &frame) == X64_OK && x64_space_find_page(&space, page, size, &entry) == X64_OK);
    CHECK(entry.word == (word | X64_ACCESSED | (word & X64_WRITABLE ? X64_DIRTY : 0) | late));
    give_back(frame);
    CHECK(walks_stay(page, size, &before) && pool.free_count == free_count && fits());
}

static void try_splits(uint64_t levels, size_t rounds) {
    const uint64_t page = HUGE + 4 * X64_SIZE_1GIB;
    for (size_t n = 0; n < rounds; n++) {
        uint64_t size = below(2) ? X64_SIZE_2MIB : X64_SIZE_1GIB, old = 0;
        x64_map_request request = x64_map_request_of(page, size, below(64) * X64_SIZE_1GIB, below(512) & ~X64_HUGE_PAGE);
        request.flags |= (below(8) ? X64_PRESENT : 0) | (below(2) ? X64_NO_EXECUTE : 0) | below(2048) << 52;
        request.parent_flags = USUAL;
        start(levels);
        x64_hierarchy hierarchy = x64_space_hierarchy(&space);
        CHECK(x64_map(&hierarchy, tables, TABLES, frames, TABLES, &pool.free_count, &request) == X64_OK);
        uint64_t word = request.frame | request.flags | X64_HUGE_PAGE | (below(2) ? 0x1000 : 0);
        CHECK(x64_space_exchange_page(&space, page, size, word, &old) == X64_OK && (old | 0x1000) == (word | 0x1000));
        try_split(page, size, word);
    }
}

/* The entry that names the table takes rights away, and the joined page grants what both granted. */
static void try_join_below(uint64_t levels) {
    const uint64_t word = LARGE_FRAME | X64_PRESENT | X64_HUGE_PAGE | X64_NO_EXECUTE;
    struct walks before;
    uint64_t old, frame = 0;
    x64_entry entry = {0, 0, 0, 0};
    fill(levels);
    CHECK(x64_space_split(&space, &pool, LARGE, X64_SIZE_2MIB) == X64_OK);
    CHECK(x64_space_find_page(&space, HEAP + 2 * X64_SIZE_2MIB, X64_SIZE_2MIB, &entry) == X64_OK);
    entry.index--;
    CHECK(x64_space_change_entry(&space, &entry, ~(X64_WRITABLE | X64_USER_ACCESSIBLE), X64_NO_EXECUTE, &old) == X64_OK);
    walk_all(LARGE, X64_SIZE_2MIB, &before);
    CHECK(x64_space_join(&space, LARGE, X64_SIZE_2MIB, word | X64_WRITABLE, &frame) == X64_NOT_ALLOWED);
    CHECK(x64_space_join(&space, LARGE, X64_SIZE_2MIB, word | X64_USER_ACCESSIBLE, &frame) == X64_NOT_ALLOWED);
    CHECK(x64_space_join(&space, LARGE, X64_SIZE_2MIB, word & ~X64_NO_EXECUTE, &frame) == X64_NOT_ALLOWED && frame == 0);
    CHECK(x64_space_join(&space, LARGE, X64_SIZE_2MIB, word, &frame) == X64_OK && walks_stay(LARGE, X64_SIZE_2MIB, &before));
    give_back(frame);
    CHECK(fits());
}

/* ---- maps beside those of the library */

/* Returns some request, mostly one that is allowed. */
static x64_map_request some_request(void) {
    static const uint64_t sizes[] = {X64_SIZE_4KIB, X64_SIZE_2MIB, X64_SIZE_1GIB, 0x2000};
    x64_map_request request;
    request.page.size = sizes[below(40) ? below(3) : 3];
    uint64_t address = some_address(2);
    request.page.start = below(50) ? address & ~(request.page.size - 1) : address;
    request.frame = below(50) ? below(1 << 20) * X64_SIZE_1GIB >> (below(2) ? 0 : 9) & ~(request.page.size - 1) : below(UINT32_MAX) << below(33);
    request.flags = (below(8) ? X64_PRESENT : 0) | below(128) | (below(50) ? 0 : UINT64_C(1) << below(64));
    request.parent_flags = (below(4) ? X64_PRESENT : 0) | (below(128) & ~X64_PRESENT) | (below(50) ? 0 : UINT64_C(1) << below(64));
    return request;
}

/* Takes X64_PRESENT from one of the entries on the way to an address. */
static void hide_one(uint64_t address) {
    x64_hierarchy hierarchy = x64_space_hierarchy(&space);
    x64_entry entries[X64_MOST_LEVELS];
    size_t read = 1;
    uint64_t old;
    if (x64_entries_live(&hierarchy, tables, TABLES, address, entries, &read) < X64_BAD_LEVELS)
        CHECK(x64_space_change_entry(&space, &entries[below(read)], ~X64_PRESENT, 0, &old) == X64_OK);
}

/* Makes maps at random by x64_map, and the same by x64_map_as_mapper in a copy. What x64_map refuses must change nothing. */
static void try_maps(uint64_t levels, size_t rounds) {
    static const uint32_t seen[] = {X64_OK, X64_NOT_ALLOWED, X64_FRAME_ALLOCATION_FAILED, X64_PARENT_ENTRY_HUGE_PAGE, X64_PAGE_ALREADY_MAPPED,
                                    X64_BAD_ARRAY, X64_BAD_PAGE, X64_BAD_FRAME};
    static x64_table before[TABLES];
    size_t counts[X64_BAD_INDICES + 1], left = 0;
    memset(counts, 0, sizeof counts);
    for (size_t n = 0; n < rounds; n++) {
        if (n % 64 == 0) {
            start(levels);
            pool.free_count = below(8) ? below(TABLES) : below(4);
        }
        x64_map_request request = some_request();
        size_t free_before = pool.free_count, free_count = below(100) ? free_before : TABLES + 1;
        x64_hierarchy hierarchy = x64_space_hierarchy(&space);
        memcpy(before, tables, sizeof tables);
        memcpy(copies, tables, sizeof tables);
        pool.free_count = free_count;
        uint32_t told = x64_map_as_mapper(&hierarchy, copies, TABLES, frames, TABLES, &free_count, &request);
        uint32_t found = x64_map(&hierarchy, tables, TABLES, frames, TABLES, &pool.free_count, &request);
        CHECK(found == told);
        counts[found]++;
        if (found == X64_OK) {
            CHECK(pool.free_count == free_count && memcmp(tables, copies, sizeof tables) == 0);
        } else {
            CHECK(memcmp(tables, before, sizeof tables) == 0 && (pool.free_count == free_before || found == X64_BAD_ARRAY));
            pool.free_count = free_before;
            left += memcmp(before, copies, sizeof tables) != 0;
        }
        if (below(8) == 0)
            hide_one(request.page.start);
    }
    CHECK(fits());
    for (size_t k = 0; rounds >= 1000 && k < sizeof seen / sizeof seen[0]; k++)
        CHECK(counts[seen[k]] > 0);
    printf("%" PRIu64 " levels: %zu maps with the status of x64_map_as_mapper, %zu done, %zu not allowed, %zu without a frame, %zu below a larger "
           "page, %zu where a page is; x64_map_as_mapper left something after %zu refusals\n",
           levels, rounds, counts[X64_OK], counts[X64_NOT_ALLOWED], counts[X64_FRAME_ALLOCATION_FAILED], counts[X64_PARENT_ENTRY_HUGE_PAGE],
           counts[X64_PAGE_ALREADY_MAPPED], left);
}

/* Prepares pages at random and maps them, which is to map them alone, as a copy is. What x64_prepare refuses must change nothing. */
static void try_prepared(uint64_t levels, size_t rounds) {
    static const uint32_t seen[] = {X64_OK, X64_NOT_ALLOWED, X64_FRAME_ALLOCATION_FAILED, X64_PARENT_ENTRY_HUGE_PAGE, X64_BAD_PAGE};
    static x64_table before[TABLES];
    size_t counts[X64_BAD_INDICES + 1], mapped = 0;
    memset(counts, 0, sizeof counts);
    for (size_t n = 0; n < rounds; n++) {
        if (n % 64 == 0) {
            start(levels);
            pool.free_count = below(8) ? below(TABLES) : below(4);
        }
        x64_map_request request = some_request();
        size_t free_before = pool.free_count, free_count = free_before;
        x64_hierarchy hierarchy = x64_space_hierarchy(&space);
        memcpy(before, tables, sizeof tables);
        memcpy(copies, tables, sizeof tables);
        uint32_t alone = x64_map(&hierarchy, copies, TABLES, frames, TABLES, &free_count, &request);
        uint32_t status = x64_space_prepare(&space, &pool, request.page.start, request.page.size, request.parent_flags);
        counts[status]++;
        if (status == X64_OK) {
            CHECK(x64_map(&hierarchy, tables, TABLES, frames, TABLES, &pool.free_count, &request) == alone);
            CHECK(alone != X64_OK || (pool.free_count == free_count && memcmp(tables, copies, sizeof tables) == 0));
            mapped += alone == X64_OK;
        } else {
            CHECK(memcmp(tables, before, sizeof tables) == 0 && pool.free_count == free_before);
            CHECK(alone == status || alone == X64_NOT_ALLOWED || alone == X64_BAD_FRAME);
        }
        if (below(8) == 0)
            hide_one(request.page.start);
    }
    CHECK(fits());
    for (size_t k = 0; rounds >= 1000 && k < sizeof seen / sizeof seen[0]; k++)
        CHECK(counts[seen[k]] > 0);
    printf("%" PRIu64 " levels: %zu pages prepared, %zu not allowed, %zu without a frame, %zu below a larger page; %zu mapped then\n", levels,
           counts[X64_OK], counts[X64_NOT_ALLOWED], counts[X64_FRAME_ALLOCATION_FAILED], counts[X64_PARENT_ENTRY_HUGE_PAGE], mapped);
}

/* ---- accesses beside those of the library */

/* Fills all tables with words that lead around in them, at the indices that are used here. Some have reserved bits. */
static void fill_wild(void) {
    memset(tables, 0, sizeof tables);
    for (size_t n = 0; n < TABLES; n++)
        for (size_t k = 0; k < 512; k += k == 3 ? 505 : 1) {
            uint64_t frame = below(12) ? FIRST + below(TABLES) : below(4) << below(41);
            uint64_t flags = (below(24) ? X64_PRESENT : 0) | (below(6) ? X64_WRITABLE : 0) | (below(6) ? X64_USER_ACCESSIBLE : 0);
            flags |= below(512) & ~(USUAL | X64_HUGE_PAGE);
            flags |= (below(8) ? 0 : X64_HUGE_PAGE) | (below(12) ? 0 : X64_NO_EXECUTE);
            if (flags & X64_HUGE_PAGE)
                frame &= below(4) ? ~UINT64_C(0x3ffff) : ~UINT64_C(0);
            tables[n].words[k] = frame * 4096 | flags;
        }
}

/* Whether a walk meets a word twice: tables may name themselves here. */
static bool meets_twice(const x64_entry *entries, size_t count) {
    for (size_t k = 0; k < count; k++)
        for (size_t other = 0; other < k; other++)
            if (entries[k].table == entries[other].table && entries[k].index == entries[other].index)
                return true;
    return false;
}

/* Whether what is said of an access that arrived is what x64_walk says. */
static bool arrives_as_walk(const x64_arrival *arrival, uint64_t address) {
    x64_walk_result walked;
    uint64_t size = arrival->count == space.levels ? X64_SIZE_4KIB : arrival->count == space.levels - 1 ? X64_SIZE_2MIB : X64_SIZE_1GIB;
    return x64_space_walk(&space, address, &walked) == X64_OK && walked.address == arrival->outcome.address && walked.write == arrival->write &&
           walked.user == arrival->user && walked.execute == arrival->execute && arrival->size == size;
}

/* Makes an access by both functions, and returns the status. */
static uint32_t try_access(uint64_t address, const x64_controls *controls, const x64_access_request *request) {
    x64_hierarchy hierarchy = x64_space_hierarchy(&space);
    x64_entry entries[X64_MOST_LEVELS], live[X64_MOST_LEVELS];
    size_t count = 0, live_count = 0;
    uint32_t status = x64_entries(&hierarchy, tables, TABLES, address, entries, X64_MOST_LEVELS, &count);
    CHECK(x64_entries_live(&hierarchy, tables, TABLES, address, live, &live_count) == status && live_count == count);
    CHECK(status >= X64_BAD_LEVELS || memcmp(entries, live, count * sizeof entries[0]) == 0);
    x64_outcome outcome;
    x64_arrival arrival;
    memset(&outcome, 0, sizeof outcome);
    memset(&arrival, 0, sizeof arrival);
    memcpy(copies, tables, sizeof tables);
    uint32_t told = x64_access(&hierarchy, copies, TABLES, controls, request, &outcome);
    uint32_t found = x64_access_live(&hierarchy, tables, TABLES, controls, request, &arrival);
    CHECK(found == told && memcmp(&outcome, &arrival.outcome, sizeof outcome) == 0);
    if (told == X64_OK && request->mark && meets_twice(entries, count))
        memcpy(tables, copies, sizeof tables); /* marks of one entry may change what the other one was judged by */
    CHECK(memcmp(tables, copies, sizeof tables) == 0);
    if (found == X64_OK) {
        CHECK(arrives_as_walk(&arrival, address) && arrival.count == count);
        for (size_t k = 0; k < count && !meets_twice(entries, count); k++)
            CHECK(arrival.entries[k].word == tables[arrival.entries[k].table / 4096 - FIRST].words[arrival.entries[k].index]);
    }
    return found;
}

static void try_accesses(uint64_t levels, size_t rounds) {
    static const uint32_t seen[] = {X64_OK, X64_PAGE_FAULT, X64_NO_TABLE, X64_BAD_ACCESS, X64_BAD_ADDRESS};
    size_t counts[X64_BAD_INDICES + 1];
    memset(counts, 0, sizeof counts);
    start(levels);
    for (size_t n = 0; n < rounds; n++) {
        if (n % 64 == 0)
            fill_wild();
        uint64_t address = some_address(4) + below(4096);
        x64_access_request request = {address, (uint32_t)below(below(50) ? 3 : 4), below(2) != 0, below(2) != 0};
        x64_controls controls = {below(2) != 0, below(4) != 0, below(2) != 0, below(2) != 0, below(2) != 0, (uint8_t)(below(50) ? 40 + below(13) : below(80)),
                                 below(4) == 0, below(4) == 0};
        counts[try_access(address, &controls, &request)]++;
    }
    for (size_t k = 0; rounds >= 1000 && k < sizeof seen / sizeof seen[0]; k++)
        CHECK(counts[seen[k]] > 0);
    printf("%" PRIu64 " levels: %zu accesses as by x64_access, %zu arrive, %zu fault, %zu lack a table\n", levels, rounds, counts[X64_OK],
           counts[X64_PAGE_FAULT], counts[X64_NO_TABLE]);
}

/* ---- frames that are kept until a flush */

/* Frees tables into a second array, and hands them to the pool later. */
static void try_second_pool(uint64_t levels) {
    uint64_t gathered[TABLES], old;
    fill(levels);
    x64_hierarchy hierarchy = x64_space_hierarchy(&space);
    size_t free_count = 0, below_root = count_tables(space.root, levels) - 1;
    CHECK(x64_pool_fits(&hierarchy, tables, TABLES, gathered, below_root, 0, visited, TABLES) == X64_OK);
    CHECK(x64_pool_fits(&hierarchy, tables, TABLES, gathered, below_root - 1, 0, visited, TABLES) == X64_NOT_VALID);
    for (size_t k = 0; k < PAGES; k++)
        CHECK(x64_space_take_page(&space, HEAP + k * 4096, X64_SIZE_4KIB, &old) == X64_OK);
    CHECK(x64_clean_up(&hierarchy, tables, TABLES, gathered, below_root, &free_count, 0, LAST_PAGE) == X64_OK && free_count == 1);
    CHECK(fits() && x64_pool_fits(&hierarchy, tables, TABLES, gathered, below_root, free_count, visited, TABLES) == X64_OK);
    CHECK(x64_space_map(&space, &pool, HEAP, X64_SIZE_4KIB, SMALL_FRAMES, USUAL) == X64_OK && fits());
    while (free_count > 0)
        frames[pool.free_count++] = gathered[--free_count];
    CHECK(fits() && pool.free_count == TABLES - 1 - below_root);
}

int main(int argc, char **argv) {
    const size_t operations = argc > 1 ? strtoull(argv[1], NULL, 0) : 100000, fewer = operations / 10;
    for (uint64_t levels = 4; levels <= 5; levels++) {
        try_faulty(levels);
        try_finds(levels);
        try_changes(levels);
        try_pages(levels);
        try_ranges(levels);
        try_proved_ranges(levels);
        try_drop(levels);
        try_hidden_table(levels);
        try_second_pool(levels);
        try_no_parts();
        try_split_refusals(levels);
        try_splits(levels, operations / 100);
        try_join_below(levels);
        try_words(levels, fewer);
        try_maps(levels, fewer);
        try_prepared(levels, fewer);
        try_accesses(levels, operations);
    }
    try_flushes();
    try_random_flushes();
    printf("%zu checks, %zu faults\n", checked, failed);
    return failed == 0 ? EXIT_SUCCESS : EXIT_FAILURE;
}
