/*
 * Compares the library's map and unmap with those by hand: random calls on two copies of a memory leave the same, and in turn each maps and
 * unmaps contiguous pages of 4 KiB. Prints the nanoseconds of processor time of a call, the least of seven rounds.
 *
 *     measure_floor PAGES
 *
 * A call that does nothing, with the same parameters, says what the interface alone costs.
 */
#define _DEFAULT_SOURCE
#include <inttypes.h>
#include <stdio.h>
#include <stdlib.h>
#include <string.h>
#include <time.h>

#include "floor.h"

enum { MACHINES = 2000, CALLS = 300, TABLES = 24, FIRST = 5, ROUNDS = 7, CALLS_MEASURED = 1000000 };

/* The calls of one kind. */
typedef struct x64_calls {
    const char *name;
    uint32_t (*map)(const x64_hierarchy *, x64_table *, size_t, uint64_t *, size_t, size_t *, const x64_map_request *);
    uint32_t (*unmap)(const x64_hierarchy *, x64_table *, size_t, const x64_page *, uint64_t *);
} x64_calls;

/* Ends the program unless something holds. */
static void check(bool holds, const char *what) {
    if (!holds) {
        fprintf(stderr, "%s\n", what);
        exit(EXIT_FAILURE);
    }
}

/* ---- random calls */

typedef struct machine {
    x64_table tables[TABLES];
    uint64_t pool[TABLES];
    size_t free_count;
    uint64_t frame;
} machine;

/* Returns a number below a limit. */
static uint64_t below(uint64_t limit) {
    static uint64_t state = 1;
    state = state * UINT64_C(6364136223846793005) + UINT64_C(1442695040888963407);
    return (state >> 33) % limit;
}

/* Returns the number, or now and then a wrong one near it. */
static uint64_t mostly(uint64_t number) {
    static const unsigned bits[] = {0, 11, 12, 20, 40, 47, 52, 55, 63};
    return below(40) != 0 ? number : number ^ UINT64_C(1) << bits[below(9)];
}

/* Returns flags of an entry. */
static uint64_t some_flags(void) {
    static const uint64_t flags[] = {X64_WRITABLE, X64_USER_ACCESSIBLE, X64_GLOBAL, X64_NO_EXECUTE, X64_HUGE_PAGE, UINT64_C(0x4000)};
    uint64_t chosen = below(20) == 0 ? 0 : X64_PRESENT;
    for (size_t k = 0; k < 6; k++)
        if (below(k < 4 ? 3 : 40) == 0)
            chosen |= flags[k];
    return chosen;
}

/* Returns a page. */
static x64_page some_page(uint64_t levels) {
    static const uint64_t sizes[] = {X64_SIZE_4KIB, X64_SIZE_2MIB, X64_SIZE_1GIB};
    uint64_t start = 0, size = sizes[below(20) < 14 ? 0 : 1 + below(2)];
    for (uint64_t level = 1; level <= levels; level++)
        start |= (below(2) == 0 ? 0 : level == levels && below(2) == 0 ? 511 : below(2)) << (3 + 9 * level);
    if (start >> (11 + 9 * levels) != 0)
        start |= ~UINT64_C(0) << (11 + 9 * levels);
    return (x64_page){.start = mostly(start & ~(size - 1)), .size = mostly(size)};
}

/* Returns a hierarchy with a number of levels, or now and then one that is wrong. */
static x64_hierarchy some_hierarchy(uint64_t levels) {
    const uint64_t root = (FIRST + 1) * X64_SIZE_4KIB;
    x64_hierarchy wrong[] = {{FIRST, root, 3}, {FIRST, root, 6}, {FIRST, root + 8, levels}, {FIRST, root | UINT64_C(1) << 52, levels},
        {FIRST, (FIRST - 1) * X64_SIZE_4KIB, levels}, {FIRST, (FIRST + TABLES) * X64_SIZE_4KIB, levels}, {FIRST + 2, root, levels},
        {UINT64_MAX, root, levels}};
    return below(20) != 0 ? (x64_hierarchy){FIRST, root, levels} : wrong[below(8)];
}

/* Changes a word in the tables of two machines, which then are still valid: an entry loses PRESENT or gets it, or a larger page gets a
 * frame that isn't a multiple of its size. */
static void change_a_word(machine *a, machine *b) {
    uint64_t *word = &a->tables[below(TABLES)].words[below(3)];
    if (*word == 0)
        return;
    *word ^= *word & X64_HUGE_PAGE && below(2) == 0 ? 0x2000 : X64_PRESENT;
    if (*word == 0)
        *word = X64_PRESENT;
    memcpy(b->tables, a->tables, sizeof a->tables);
}

/* Makes one random call on each machine, and returns the status, which has to be the same as what is left. */
static uint32_t make_call(const x64_calls *one, const x64_calls *other, machine *a, machine *b, uint64_t levels) {
    uint32_t status, expected;
    x64_hierarchy hierarchy = some_hierarchy(levels);
    x64_page page = some_page(levels);
    if (below(3) == 0) {
        expected = one->unmap(&hierarchy, a->tables, TABLES, &page, &a->frame);
        status = other->unmap(&hierarchy, b->tables, TABLES, &page, &b->frame);
    } else {
        uint64_t frame = mostly(below(64) * page.size);
        x64_map_request request = {.page = page, .frame = frame, .flags = some_flags(), .parent_flags = some_flags()};
        size_t capacity = below(99) == 0 && a->free_count > 0 ? a->free_count - 1 : TABLES;
        expected = one->map(&hierarchy, a->tables, TABLES, a->pool, capacity, &a->free_count, &request);
        status = other->map(&hierarchy, b->tables, TABLES, b->pool, capacity, &b->free_count, &request);
    }
    check(status == expected, "a status differs");
    check(memcmp(a, b, sizeof *a) == 0, "what a call leaves differs");
    return status;
}

/* Makes random calls of both kinds. */
static void compare(const x64_calls *one, const x64_calls *other) {
    static machine a, b;
    uint64_t counts[X64_BAD_INDICES + 1] = {0};
    for (int n = 0; n < MACHINES; n++) {
        uint64_t levels = 4 + below(2);
        memset(&a, 0, sizeof a);
        for (a.free_count = 0; a.free_count < TABLES - 2; a.free_count++)
            a.pool[a.free_count] = (FIRST + 2 + a.free_count) * X64_SIZE_4KIB;
        memcpy(&b, &a, sizeof a);
        for (int k = 0; k < CALLS; k++) {
            counts[make_call(one, other, &a, &b, levels)]++;
            if (below(4) == 0)
                change_a_word(&a, &b);
        }
    }
    printf("%d calls leave the same; statuses:", MACHINES * CALLS);
    for (uint32_t k = 0; k <= X64_BAD_INDICES; k++)
        if (counts[k] != 0)
            printf(" %" PRIu32 " (%" PRIu64 ")", k, counts[k]);
    printf("\n");
}

/* ---- times */

static uint32_t map_nothing(const x64_hierarchy *hierarchy, x64_table *tables, size_t table_count, uint64_t *pool, size_t capacity,
    size_t *free_count, const x64_map_request *request) {
    (void)hierarchy, (void)tables, (void)table_count, (void)pool, (void)capacity, (void)free_count, (void)request;
    return X64_OK;
}

static uint32_t unmap_nothing(const x64_hierarchy *hierarchy, x64_table *tables, size_t table_count, const x64_page *page,
    uint64_t *frame) {
    (void)hierarchy, (void)tables, (void)table_count, (void)page, (void)frame;
    return X64_OK;
}

static const x64_calls kinds[] = {
    {"library", x64_map_as_mapper, x64_unmap},
    {"by hand", floor_map, floor_unmap},
    {"x64_map", x64_map, x64_unmap},
    {"nothing", map_nothing, unmap_nothing},
};

enum { KINDS = sizeof kinds / sizeof *kinds };

/* A hierarchy with a pool, and the pages that are mapped in it. */
static x64_hierarchy hierarchy = {.first = 0, .root = X64_SIZE_4KIB, .levels = 4};
static x64_table *tables;
static uint64_t *pool;
static size_t pages, table_count, free_count;

static void map_all(const x64_calls *calls) {
    for (uint64_t n = 0; n < pages; n++) {
        x64_map_request request = {.page = {.start = n * X64_SIZE_4KIB, .size = X64_SIZE_4KIB},
            .frame = n * X64_SIZE_4KIB,
            .flags = X64_PRESENT | X64_WRITABLE,
            .parent_flags = X64_PRESENT | X64_WRITABLE};
        check(calls->map(&hierarchy, tables, table_count, pool, table_count, &free_count, &request) == X64_OK, "a map fails");
    }
}

static void unmap_all(const x64_calls *calls) {
    for (uint64_t n = 0; n < pages; n++) {
        x64_page page = {.start = n * X64_SIZE_4KIB, .size = X64_SIZE_4KIB};
        uint64_t frame;
        check(calls->unmap(&hierarchy, tables, table_count, &page, &frame) == X64_OK, "an unmap fails");
    }
}

/* Returns the processor time so far, in nanoseconds. */
static double now(void) {
    struct timespec time;
    check(clock_gettime(CLOCK_PROCESS_CPUTIME_ID, &time) == 0, "there is no clock");
    return (double)time.tv_sec * 1e9 + (double)time.tv_nsec;
}

/* Makes memory for the pages and their tables. */
static void make_memory(void) {
    table_count = pages / 512 + 8;
    tables = aligned_alloc(sizeof *tables, table_count * sizeof *tables);
    pool = calloc(table_count, sizeof *pool);
    check(tables != NULL && pool != NULL, "there is no memory");
    memset(tables, 0, table_count * sizeof *tables);
    for (free_count = 0; free_count < table_count - 2; free_count++)
        pool[free_count] = (table_count - 1 - free_count) * X64_SIZE_4KIB;
}

int main(int count, char **words) {
    pages = count > 1 ? strtoul(words[1], NULL, 10) : 2048;
    check(pages > 0 && pages <= 1000000, "usage: measure_floor PAGES");
    compare(&kinds[0], &kinds[1]);
    make_memory();
    double map[KINDS], unmap[KINDS];
    size_t times = CALLS_MEASURED / pages + 1;
    for (int round = 0; round < ROUNDS; round++)
        for (size_t k = 0; k < KINDS; k++) {
            double mapping = 0, unmapping = 0;
            for (size_t n = 0; n < times; n++) {
                double start = now();
                map_all(&kinds[k]);
                double between = now();
                unmap_all(&kinds[k]);
                mapping += between - start, unmapping += now() - between;
            }
            map[k] = round == 0 || mapping < map[k] ? mapping : map[k];
            unmap[k] = round == 0 || unmapping < unmap[k] ? unmapping : unmap[k];
        }
    for (size_t k = 0; k < KINDS; k++)
        printf("%s: map %.1f ns, unmap %.1f ns\n", kinds[k].name, map[k] / (double)(times * pages), unmap[k] / (double)(times * pages));
    return EXIT_SUCCESS;
}
