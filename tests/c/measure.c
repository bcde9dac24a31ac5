/*
 * Measures calls of the library: how many nanoseconds of processor time one takes, the least of seven rounds.
 *
 * The pages are of 4 KiB, contiguous, and so few that their tables stay in the cache. Each is mapped, translated and unmapped in turn
 * with the others, and as a range, about ten million times in a round and in all.
 */
#define _DEFAULT_SOURCE
#include <inttypes.h>
#include <stdio.h>
#include <stdlib.h>
#include <time.h>

#include "x86_64_paging.h"

enum { PAGES = 2048, TABLES = 8, ROUNDS = 7, TIMES = 700 };

static const uint64_t flags = X64_PRESENT | X64_WRITABLE;

static x64_table tables[TABLES];
static const x64_hierarchy hierarchy = {.first = 0, .root = 0x1000, .levels = 4};
static uint64_t pool[TABLES] = {0x7000, 0x6000, 0x5000, 0x4000, 0x3000, 0x2000};
static size_t free_count = 6;

/* Returns the page with a number. */
static x64_page page_at(uint64_t number) {
    return (x64_page){.start = number * X64_SIZE_4KIB, .size = X64_SIZE_4KIB};
}

/* Ends the program unless a call was done. */
static void check(uint32_t status) {
    if (status != X64_OK) {
        fprintf(stderr, "status %" PRIu32 "\n", status);
        exit(EXIT_FAILURE);
    }
}

static void map(void) {
    for (uint64_t n = 0; n < PAGES; n++) {
        x64_map_request request = {.page = page_at(n), .frame = n * X64_SIZE_4KIB, .flags = flags, .parent_flags = flags};
        check(x64_map(&hierarchy, tables, TABLES, pool, TABLES, &free_count, &request));
    }
}

static void translate(void) {
    for (uint64_t n = 0; n < PAGES; n++) {
        x64_translation found;
        check(x64_translate(&hierarchy, tables, TABLES, n * X64_SIZE_4KIB + 8, &found));
        check(found.frame == n * X64_SIZE_4KIB ? X64_OK : X64_NOT_MAPPED);
    }
}

static void walk(void) {
    for (uint64_t n = 0; n < PAGES; n++) {
        x64_walked walked;
        check(x64_page_walk(&hierarchy, tables, TABLES, n * X64_SIZE_4KIB + 8, &walked));
        check(walked.address == n * X64_SIZE_4KIB + 8 ? X64_OK : X64_NOT_MAPPED);
    }
}

static void access_pages(void) {
    const x64_controls controls = {.write_protect = true, .no_execute = true, .smep = true, .smap = true, .physical_bits = 48};
    for (uint64_t n = 0; n < PAGES; n++) {
        x64_access_request request = {.address = n * X64_SIZE_4KIB + 8, .kind = X64_READ};
        x64_outcome outcome;
        check(x64_access(&hierarchy, tables, TABLES, &controls, &request, &outcome));
        check(outcome.address == n * X64_SIZE_4KIB + 8 ? X64_OK : X64_NOT_MAPPED);
    }
}

static void write_pages(void) {
    const x64_controls controls = {.write_protect = true, .no_execute = true, .smep = true, .smap = true, .physical_bits = 48};
    for (uint64_t n = 0; n < PAGES; n++) {
        x64_access_request request = {.address = n * X64_SIZE_4KIB + 8, .kind = X64_WRITE, .mark = true};
        x64_outcome outcome;
        check(x64_access(&hierarchy, tables, TABLES, &controls, &request, &outcome));
        check(outcome.address == n * X64_SIZE_4KIB + 8 ? X64_OK : X64_NOT_MAPPED);
    }
}

static void list(void) {
    static x64_mapping mappings[PAGES];
    size_t count;
    uint64_t next;
    check(x64_mappings(&hierarchy, tables, TABLES, 0, mappings, PAGES, &count, &next));
    check(count == PAGES ? X64_OK : X64_NOT_MAPPED);
}

static void unmap(void) {
    for (uint64_t n = 0; n < PAGES; n++) {
        x64_page page = page_at(n);
        uint64_t frame;
        check(x64_unmap(&hierarchy, tables, TABLES, &page, &frame));
    }
}

static void map_range(void) {
    x64_map_request request = {.page = page_at(0), .frame = 0, .flags = flags, .parent_flags = flags};
    uint64_t done;
    check(x64_map_range(&hierarchy, tables, TABLES, pool, TABLES, &free_count, &request, PAGES, &done));
}

static void update_range(void) {
    x64_page page = page_at(0);
    uint64_t changed;
    check(x64_update_flags_range(&hierarchy, tables, TABLES, &page, PAGES, X64_PRESENT, &changed));
    check(changed == PAGES ? X64_OK : X64_NOT_MAPPED);
}

static void unmap_range(void) {
    static uint64_t frames[PAGES];
    x64_page page = page_at(0);
    size_t count;
    uint64_t done;
    check(x64_unmap_range(&hierarchy, tables, TABLES, &page, PAGES, frames, PAGES, &count, &done));
    check(count == PAGES ? X64_OK : X64_NOT_MAPPED);
}

/* What is measured, in the order in which it is done. */
static const struct {
    const char *name;
    void (*calls)(void);
} operations[] = {{"map", map}, {"translate", translate}, {"walk", walk}, {"access", access_pages},
    {"marking write", write_pages}, {"list", list}, {"unmap", unmap}, {"map as a range", map_range},
    {"update as a range", update_range}, {"unmap as a range", unmap_range}};

enum { OPERATIONS = sizeof operations / sizeof *operations };

/* Returns the processor time so far, in nanoseconds. */
static double now(void) {
    struct timespec time;
    if (clock_gettime(CLOCK_PROCESS_CPUTIME_ID, &time) != 0)
        exit(EXIT_FAILURE);
    return (double)time.tv_sec * 1e9 + (double)time.tv_nsec;
}

int main(void) {
    bool marks[TABLES];
    check(x64_pool_fits(&hierarchy, tables, TABLES, pool, TABLES, free_count, marks, TABLES));
    double least[OPERATIONS];
    for (size_t k = 0; k < OPERATIONS; k++)
        least[k] = 1e18;
    for (int round = 0; round < ROUNDS; round++) {
        double taken[OPERATIONS] = {0};
        for (int n = 0; n < TIMES; n++)
            for (size_t k = 0; k < OPERATIONS; k++) {
                double start = now();
                operations[k].calls();
                taken[k] += now() - start;
            }
        for (size_t k = 0; k < OPERATIONS; k++)
            if (taken[k] < least[k])
                least[k] = taken[k];
    }
    for (size_t k = 0; k < OPERATIONS; k++)
        printf("%s %.1f ns\n", operations[k].name, least[k] / TIMES / PAGES);
    return EXIT_SUCCESS;
}
