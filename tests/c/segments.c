/*
 * Makes calls in a memory with a hole, whose tables are named by two segments, and the same calls in a memory without one. The entries that
 * name tables differ by where the frames are; all else has to be the same. It is C and C++.
 */
#include <inttypes.h>
#include <stdio.h>
#include <stdlib.h>
#include <string.h>

#include "x86_64_paging.h"
#include "x86_64_paging_live.h"

enum { TABLES = 16, HALF = TABLES / 2, FIRST = 0x100, PAGES = 4, HIGH = 0x100000 };

#define USUAL (X64_PRESENT | X64_WRITABLE)

/* A memory, with the space in it, and its pool. */
struct memory {
    x64_table tables[TABLES];
    uint64_t frames[TABLES];
    x64_space space;
    x64_pool pool;
};

/* The frames from FIRST on have the second half of the tables, and those above 4 GiB the first one. */
static const x64_segment halves[] = {{FIRST, HALF, HALF}, {HIGH, HALF, 0}};
static const uint64_t pages[PAGES] = {0x1000, 0x40000000, 0x8000000000, 0xffff800000000000};

static struct memory holed, plain;
static bool marks[TABLES];
static size_t compared, failed;

static void check(const char *what, bool is_good) {
    compared++;
    if (is_good)
        return;
    failed++;
    fprintf(stderr, "wrong: %s\n", what);
}

#define CHECK(condition) check(#condition, condition)

/* Returns the number of the frame that is the n-th one of the holed memory, in which the two halves take turns. */
static uint64_t holed_frame(uint64_t n) { return (n % 2 == 0 ? FIRST : HIGH) + n / 2; }

/* Returns the index of its table. */
static size_t holed_place(uint64_t n) { return (n % 2 == 0 ? HALF : 0) + n / 2; }

/* Makes both memories anew: frame 0 of each is the root, and all others are free. */
static void fill(uint64_t levels) {
    memset(&holed, 0, sizeof holed);
    memset(&plain, 0, sizeof plain);
    for (size_t n = 1; n < TABLES; n++) {
        holed.frames[n - 1] = holed_frame(n) * 4096;
        plain.frames[n - 1] = (FIRST + n) * 4096;
    }
    struct memory *both[] = {&holed, &plain};
    for (size_t k = 0; k < 2; k++) {
        x64_space *space = &both[k]->space;
        space->tables = both[k]->tables;
        space->table_count = TABLES;
        space->levels = levels;
        space->first = space->root = 0;
        both[k]->pool.frames = both[k]->frames;
        both[k]->pool.capacity = TABLES;
        both[k]->pool.free_count = TABLES - 1;
    }
    holed.space.root = FIRST * 4096;
    holed.space.segments = halves;
    holed.space.segment_count = 2;
    plain.space.root = FIRST * 4096;
    plain.space.first = FIRST;
}

/* Returns the word of the plain memory that stands for one of the holed memory: that names the frame with the same number n. */
static uint64_t plain_word(uint64_t word) {
    for (uint64_t n = 0; n < TABLES; n++)
        if ((word & X64_ADDRESS) == holed_frame(n) * 4096)
            return (word & ~X64_ADDRESS) | (FIRST + n) * 4096;
    return word;
}

/* Compares all tables. */
static void compare_tables(const char *what) {
    bool are_same = holed.pool.free_count == plain.pool.free_count;
    for (uint64_t n = 0; n < TABLES; n++)
        for (size_t i = 0; i < 512; i++)
            are_same = are_same && plain_word(holed.tables[holed_place(n)].words[i]) == plain.tables[n].words[i];
    check(what, are_same);
}

#define BOTH(wanted, call)                                                                                                               \
    do {                                                                                                                                 \
        struct memory *it = &holed;                                                                                                      \
        const uint32_t one = call;                                                                                                       \
        it = &plain;                                                                                                                     \
        const uint32_t other = call;                                                                                                     \
        check(#call, one == (wanted) && other == (wanted));                                                                              \
        compare_tables(#call);                                                                                                           \
    } while (0)

/* Maps pages far from each other, looks them up, changes and unmaps them, and frees their tables. */
static void use_pages(void) {
    x64_walk_result walked;
    x64_translation found;
    x64_entry entries[X64_MOST_LEVELS];
    uint64_t frame;
    size_t count;
    for (uint64_t n = 0; n < PAGES; n++) {
        BOTH(X64_OK, x64_space_map(&it->space, &it->pool, pages[n], X64_SIZE_4KIB, 0x7000000 + n * 4096, USUAL));
        BOTH(X64_OK, x64_space_is_valid(&it->space, marks, TABLES));
        BOTH(X64_OK, x64_space_walk(&it->space, pages[n] + 8, &walked));
        CHECK(walked.address == 0x7000000 + n * 4096 + 8 && walked.write && !walked.user);
        BOTH(X64_OK, x64_space_translate(&it->space, pages[n] + 8, &found));
        CHECK(found.frame == 0x7000000 + n * 4096 && found.offset == 8);
        BOTH(X64_OK, x64_space_entries_live(&it->space, pages[n], entries, &count));
        CHECK(count == holed.space.levels && entries[count - 1].word == (found.frame | found.flags));
    }
    for (uint64_t n = 0; n < PAGES; n++) {
        BOTH(X64_OK, x64_space_update_flags(&it->space, pages[n], X64_SIZE_4KIB, X64_PRESENT));
        BOTH(X64_OK, x64_space_unmap(&it->space, pages[n], X64_SIZE_4KIB, &frame));
        CHECK(frame == 0x7000000 + n * 4096);
        BOTH(X64_NOT_MAPPED, x64_space_walk(&it->space, pages[n], &walked));
    }
    BOTH(X64_OK, x64_space_clean_up(&it->space, &it->pool, 0, UINT64_MAX - 4095));
    CHECK(holed.pool.free_count == TABLES - 1);
}

/* Tests the pool with both, and with a free frame in the hole. */
static void test_pools(void) {
    BOTH(X64_OK, x64_space_fits(&it->space, &it->pool, marks, TABLES));
    holed.frames[0] = (FIRST + HALF) * 4096;
    CHECK(x64_space_fits(&holed.space, &holed.pool, marks, TABLES) == X64_NOT_VALID);
}

/* Looks up an address whose walk leads into the hole. */
static void walk_into_hole(void) {
    x64_walk_result walked;
    x64_entry entries[X64_MOST_LEVELS];
    size_t count;
    holed.tables[HALF].words[0] = (FIRST + HALF) * 4096 | X64_PRESENT;
    CHECK(x64_space_walk(&holed.space, 0, &walked) == X64_NOT_MAPPED);
    CHECK(x64_space_entries(&holed.space, 0, entries, X64_MOST_LEVELS, &count) == X64_NO_TABLE && count == 1);
    CHECK(x64_space_entries_live(&holed.space, 0, entries, &count) == X64_NO_TABLE && count == 1);
    CHECK(x64_space_is_valid(&holed.space, marks, TABLES) == X64_NOT_VALID);
    holed.space.root = (FIRST + HALF) * 4096;
    CHECK(x64_space_walk(&holed.space, 0, &walked) == X64_BAD_ROOT);
    CHECK(x64_space_entries_live(&holed.space, 0, entries, &count) == X64_BAD_ROOT);
}

/* Makes a call with segments that are wrong, or right. Nothing may change if they are wrong. */
static void try_segments(uint32_t wanted, x64_segment first, x64_segment second) {
    const x64_segment segments[] = {first, second};
    x64_entry entries[X64_MOST_LEVELS];
    size_t count;
    struct memory before;
    fill(4);
    holed.space.segments = segments;
    memcpy(&before, &holed, sizeof holed);
    CHECK(x64_space_map(&holed.space, &holed.pool, 0, X64_SIZE_4KIB, 0, USUAL) == wanted);
    CHECK(wanted == X64_OK || memcmp(&before, &holed, sizeof holed) == 0);
    CHECK(x64_space_is_valid(&holed.space, marks, TABLES) == wanted);
    CHECK(x64_space_fits(&holed.space, &holed.pool, marks, TABLES) == wanted);
    CHECK(x64_space_entries_live(&holed.space, 0, entries, &count) == wanted);
    if (wanted != X64_OK) {
        x64_taken taken[1];
        uint64_t next, frame;
        CHECK(x64_space_take_range_live(&holed.space, 0, 0x1000, taken, 1, &count, &next) == wanted);
        CHECK(x64_space_split(&holed.space, &holed.pool, 0, X64_SIZE_2MIB) == wanted);
        CHECK(x64_space_join(&holed.space, 0, X64_SIZE_2MIB, 0, &frame) == wanted);
    }
}

#define TRY(wanted, a, b, c, d, e, f)                                                                                                    \
    do {                                                                                                                                 \
        const x64_segment first = {a, b, c}, second = {d, e, f};                                                                         \
        try_segments(wanted, first, second);                                                                                             \
    } while (0)

/* Tries segments that overlap in frames or in tables, are out of order, or end at 2^64, and some that just don't. */
static void refuse_segments(void) {
    TRY(X64_OK, FIRST, HALF, HALF, HIGH, HALF, 0);
    TRY(X64_BAD_SEGMENTS, HIGH, HALF, 0, FIRST, HALF, HALF);
    TRY(X64_BAD_SEGMENTS, FIRST, HALF, HALF, FIRST + HALF - 1, HALF, 0);
    TRY(X64_BAD_SEGMENTS, FIRST, HALF, HALF, HIGH, HALF, 1);
    TRY(X64_BAD_SEGMENTS, FIRST, HALF, HALF, HIGH, HALF, TABLES - 1);
    TRY(X64_BAD_SEGMENTS, FIRST, HALF, HALF, HIGH, UINT64_MAX - HIGH + 1, TABLES);
    TRY(X64_BAD_SEGMENTS, FIRST, HALF, HALF, HIGH, HALF, UINT64_MAX - HALF + 1);
}

int main(void) {
    for (uint64_t levels = 4; levels <= 5; levels++) {
        fill(levels);
        use_pages();
        test_pools();
        fill(levels);
        walk_into_hole();
    }
    refuse_segments();
    printf("memory with a hole: %zu checks, %zu wrong\n", compared, failed);
    return failed == 0 ? EXIT_SUCCESS : EXIT_FAILURE;
}
