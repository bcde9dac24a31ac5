/* What live.c and live_threads.c share: checks, random numbers, and a space with pages of each size. It is C and C++. */
#include <inttypes.h>
#include <stdio.h>
#include <stdlib.h>
#include <string.h>

#include "x86_64_paging_live.h"

enum { TABLES = 48, FIRST = 0x100, PAGES = 8 };

#define USUAL (X64_PRESENT | X64_WRITABLE | X64_USER_ACCESSIBLE)
#define MARKS (X64_ACCESSED | X64_DIRTY)
#define SMALL_FRAMES UINT64_C(0x7000000)
#define LARGE_FRAME UINT64_C(0x8000000)
/* Where the pages are: PAGES of 4 KiB from HEAP on, one of 2 MiB, and one of 1 GiB. */
#define HEAP UINT64_C(0x40000000)
#define LARGE (HEAP + X64_SIZE_2MIB)
#define HUGE UINT64_C(0x80000000)
#define LAST_PAGE (UINT64_MAX - 4095)
/* An entry without X64_PRESENT, as the number of a place in a swap file. */
#define SWAPPED UINT64_C(0x123456789abcde0)

static x64_table tables[TABLES];
static uint64_t frames[TABLES];
static bool visited[TABLES];
static x64_space space;
static x64_pool pool;
static size_t checked, failed;
static uint64_t state = 1;

static void check(bool is_good, int line, const char *what) {
    checked++;
    if (is_good)
        return;
    if (++failed < 20)
        printf("line %d: %s\n", line, what);
    fflush(stdout); /* a test that goes on may crash */
}
#define CHECK(condition) check(condition, __LINE__, #condition)

/* Returns a number below a limit, by a fixed rule: xorshift64*. */
static uint64_t below(uint64_t limit) {
    state ^= state >> 12;
    state ^= state << 25;
    state ^= state >> 27;
    return (state * UINT64_C(0x2545f4914f6cdd1d) >> 32) % limit;
}

/* Makes an empty space, with all other tables free. */
static void start(uint64_t levels) {
    memset(tables, 0, sizeof tables);
    memset(&space, 0, sizeof space);
    for (size_t n = 1; n < TABLES; n++)
        frames[n - 1] = (FIRST + TABLES - n) * 4096;
    space.tables = tables;
    space.table_count = TABLES;
    space.first = FIRST;
    space.root = FIRST * 4096;
    space.levels = levels;
    pool.frames = frames;
    pool.capacity = TABLES;
    pool.free_count = TABLES - 1;
}

/* Makes a space with its pages. */
static void fill(uint64_t levels) {
    uint64_t done;
    start(levels);
    CHECK(x64_space_map_range(&space, &pool, HEAP, X64_SIZE_4KIB, PAGES, SMALL_FRAMES, USUAL, &done) == X64_OK);
    CHECK(x64_space_map(&space, &pool, LARGE, X64_SIZE_2MIB, LARGE_FRAME, USUAL) == X64_OK);
    CHECK(x64_space_map(&space, &pool, HUGE, X64_SIZE_1GIB, 0x40000000, USUAL) == X64_OK);
}

static bool fits(void) {
    return x64_space_fits(&space, &pool, visited, TABLES) == X64_OK;
}

/* Clears the frame of a table that was joined away, and gives it back to the pool. */
static void give_back(uint64_t frame) {
    CHECK(frame / 4096 - FIRST < TABLES);
    if (frame / 4096 - FIRST >= TABLES)
        return;
    memset(&tables[frame / 4096 - FIRST], 0, sizeof tables[0]);
    frames[pool.free_count++] = frame;
}
