/*
 * Maps a page, looks it up, lists it, unmaps it, and frees the tables that are empty then. It prints each step. The tables are those
 * of the first picture in docs/DEFINITIONS.md: the frames 0x1000 to 0x4000, of which 0x1000 is the root.
 */
#include <inttypes.h>
#include <stdio.h>
#include <stdlib.h>

#include "x86_64_paging.h"

enum { TABLES = 4 };

/* the frames 0x1000 to 0x4000 */
static x64_table tables[TABLES];
static const x64_space space = {.tables = tables, .table_count = TABLES, .first = 1, .root = 0x1000, .levels = 4, .shared_from = 0, .shared_to = 0};

/* the free frames: the last one is handed out first */
static uint64_t frames[TABLES] = {0x4000, 0x3000, 0x2000};
static x64_pool pool = {.frames = frames, .capacity = TABLES, .free_count = 3};

/* Ends the program if a call returned another status than X64_OK. */
static void check(const char *call, uint32_t status) {
    if (status != X64_OK) {
        fprintf(stderr, "%s: %s\n", call, x64_status_name(status));
        exit(EXIT_FAILURE);
    }
}

/* Returns the name of a page's size. */
static const char *size_name(uint64_t size) {
    return size == X64_SIZE_4KIB ? "4KiB" : size == X64_SIZE_2MIB ? "2MiB" : "1GiB";
}

/* Prints all words that aren't 0. */
static void print_words(void) {
    for (size_t n = 0; n < TABLES; n++)
        for (size_t index = 0; index < 512; index++)
            if (tables[n].words[index] != 0)
                printf("word 0x%" PRIx64 " %zu 0x%" PRIx64 "\n", (space.first + n) * 4096, index, tables[n].words[index]);
}

/* Prints the free frames in the order in which they are handed out. */
static void print_pool(void) {
    printf("pool");
    for (size_t n = pool.free_count; n > 0; n--)
        printf(" 0x%" PRIx64, pool.frames[n - 1]);
    printf("\n");
}

/* Prints what an address is mapped to. */
static void translate(uint64_t address) {
    x64_translation found;
    uint32_t status = x64_space_translate(&space, address, &found);
    printf("translate 0x%" PRIx64 ": ", address);
    if (status == X64_NOT_MAPPED) {
        printf("not mapped\n");
        return;
    }
    check("x64_space_translate", status);
    printf("mapped %s 0x%" PRIx64 " 0x%" PRIx64 " 0x%" PRIx64 "\n", size_name(found.size), found.frame, found.offset, found.flags);
}

/* Prints where the processor arrives from an address. */
static void walk(uint64_t address) {
    x64_walked walked;
    uint32_t status = x64_space_page_walk(&space, address, &walked);
    printf("walk 0x%" PRIx64 ": ", address);
    if (status == X64_NOT_MAPPED) {
        printf("none\n");
        return;
    }
    check("x64_space_page_walk", status);
    printf("0x%" PRIx64 " write=%d user=%d\n", walked.address, walked.write, walked.user);
}

/* Prints all mappings, which are listed two at a time. */
static void list(void) {
    x64_mapping mappings[2];
    uint64_t next = 0;
    uint32_t status;
    do {
        size_t count;
        status = x64_space_mappings(&space, next, mappings, 2, &count, &next);
        if (status != X64_MORE)
            check("x64_space_mappings", status);
        for (size_t n = 0; n < count; n++)
            printf("listed 0x%" PRIx64 " %s 0x%" PRIx64 " r%c%c%c 0x%" PRIx64 "\n", mappings[n].start, size_name(mappings[n].size),
                   mappings[n].frame, mappings[n].write ? 'w' : '-', mappings[n].execute ? 'x' : '-',
                   mappings[n].user ? 'u' : '-', mappings[n].flags);
    } while (status == X64_MORE);
}

int main(void) {
    bool marks[TABLES];
    check("x64_space_fits", x64_space_fits(&space, &pool, marks, TABLES));
    print_pool();

    x64_map_request request = {
        .page = {.start = 0x1000, .size = X64_SIZE_4KIB},
        .frame = 0x5000,
        .flags = X64_PRESENT | X64_WRITABLE,
        .parent_flags = X64_PRESENT | X64_WRITABLE, /* x64_space_map would add X64_ACCESSED */
    };
    check("x64_space_map_with", x64_space_map_with(&space, &pool, &request));
    printf("map 4KiB 0x1000: done\n");
    print_words();
    print_pool();

    translate(0x1abc);
    walk(0x1abc);
    translate(0x2000);
    list();

    uint64_t frame;
    check("x64_space_unmap", x64_space_unmap(&space, request.page.start, request.page.size, &frame));
    printf("unmap 4KiB 0x1000: 0x%" PRIx64 "\n", frame);
    walk(0x1abc);

    check("x64_space_clean_up", x64_space_clean_up(&space, &pool, 0, x64_space_last_page(&space, 511)));
    printf("clean up: done\n");
    print_words();
    print_pool();
    return 0;
}
