/*
 * Makes calls by a fixed rule, for the program pagetab and by the library, whose replies have to be the same.
 *
 *     beside_pagetab input LEVELS SEED CALLS     prints an image of page tables, and commands on it, as pagetab reads them
 *     beside_pagetab output LEVELS SEED CALLS    makes the same calls by the library, and prints what pagetab has to print
 *
 * LEVELS is 4 or 5. The memory has 64 tables, from frame 0 on, and the root is in the frame 0x1000. At the end every word is shown.
 * Maps are those of x64_map_as_mapper, which also leaves what pagetab leaves after a refused one. A range is made page by page, as pagetab
 * does it, and by one call on a copy of the tables and the pool, which must end the same.
 */
#include <inttypes.h>
#include <stdio.h>
#include <stdlib.h>
#include <string.h>

#include "x86_64_paging.h"

enum { TABLES = 64, FIRST_FREE = 10, FREE_OF_4 = 14, FREE_OF_5 = 36, PHASE = 1500 };

static x64_table tables[TABLES];
static x64_hierarchy hierarchy = {.first = 0, .root = 0x1000};
static uint64_t pool[TABLES];
static size_t free_count;

/* Whether the input is printed, and not the output. */
static bool is_input;

/* ---- numbers by a fixed rule: xorshift64* */

static uint64_t state;

static uint64_t next_number(void) {
    state ^= state >> 12;
    state ^= state << 25;
    state ^= state >> 27;
    return state * UINT64_C(0x2545f4914f6cdd1d);
}

/* Returns a number below a limit. */
static uint64_t below(uint64_t limit) {
    return (next_number() >> 33) % limit;
}

/* Whether something that happens once in so many times happens. */
static bool once_in(uint64_t times) {
    return below(times) == 0;
}

/* ---- pages, frames and flags */

static const uint64_t sizes[] = {X64_SIZE_4KIB, X64_SIZE_2MIB, X64_SIZE_1GIB};

static const char *size_name(uint64_t size) {
    return size == X64_SIZE_4KIB ? "4KiB" : size == X64_SIZE_2MIB ? "2MiB" : "1GiB";
}

/* Returns one of some dozens of addresses: each index is one of few, so that pages share tables and meet larger ones. */
static uint64_t some_address(void) {
    static const uint64_t few[] = {0, 1, 2, 511};
    uint64_t position = 0;
    for (uint64_t level = hierarchy.levels; level > 0; level--) {
        uint64_t index = level == 1 ? below(3) : level == hierarchy.levels ? few[below(2) * 3] : few[below(3)];
        position = position * 512 + index;
    }
    position = position * 4096 + below(4096);
    unsigned highest = (unsigned)(11 + 9 * hierarchy.levels);
    return position >> highest != 0 ? position | UINT64_MAX << highest : position;
}

static x64_page some_page(void) {
    uint64_t size = sizes[once_in(2) ? 0 : below(3)];
    return (x64_page){.start = some_address() & ~(size - 1), .size = size};
}

/* Returns flags, mostly good ones. */
static uint64_t some_flags(void) {
    uint64_t flags = below(8) | (once_in(4) ? 0 : X64_PRESENT);
    if (once_in(8))
        flags |= X64_NO_EXECUTE;
    if (once_in(8))
        flags |= below(512);
    if (once_in(40))
        flags |= X64_SIZE_4KIB << below(40);
    return flags;
}

/* ---- replies */

static void print_refusal(uint32_t status) {
    switch (status) {
    case X64_NOT_ALLOWED:
        printf("not allowed\n");
        break;
    case X64_FRAME_ALLOCATION_FAILED:
        printf("frame allocation failed\n");
        break;
    case X64_PARENT_ENTRY_HUGE_PAGE:
        printf("parent entry huge page\n");
        break;
    case X64_PAGE_NOT_MAPPED:
        printf("page not mapped\n");
        break;
    default:
        printf("status %" PRIu32 "\n", status);
    }
}

static void print_done(uint32_t status) {
    if (status == X64_OK)
        printf("ok\n");
    else
        print_refusal(status);
}

/* ---- calls, each as a line of the input or as its reply */

static x64_map_request some_map(void) {
    x64_map_request request = {.page = some_page(), .flags = some_flags(), .parent_flags = some_flags()};
    request.frame = below(UINT64_C(1) << 20) * X64_SIZE_1GIB + below(4) * request.page.size;
    request.frame &= (UINT64_C(1) << 52) - request.page.size;
    if (request.page.size == X64_SIZE_4KIB && !once_in(8))
        request.flags &= ~X64_HUGE_PAGE;
    if (!once_in(8))
        request.parent_flags &= ~X64_HUGE_PAGE;
    return request;
}

/* Returns what a call returned; X64_OK where only its line is printed. */
static uint32_t map(x64_map_request request) {
    if (is_input) {
        printf("map-with %s 0x%" PRIx64 " 0x%" PRIx64 " 0x%" PRIx64 " 0x%" PRIx64 "\n", size_name(request.page.size),
               request.page.start, request.frame, request.flags, request.parent_flags);
        return X64_OK;
    }
    uint32_t status = x64_map_as_mapper(&hierarchy, tables, TABLES, pool, TABLES, &free_count, &request);
    if (status == X64_PAGE_ALREADY_MAPPED)
        printf("page already mapped 0x%" PRIx64 "\n", request.frame);
    else
        print_done(status);
    return status;
}

static uint32_t unmap(x64_page page, uint64_t *frame) {
    if (is_input) {
        printf("unmap %s 0x%" PRIx64 "\n", size_name(page.size), page.start);
        return X64_OK;
    }
    uint32_t status = x64_unmap(&hierarchy, tables, TABLES, &page, frame);
    if (status == X64_OK)
        printf("0x%" PRIx64 "\n", *frame);
    else if (status == X64_INVALID_FRAME_ADDRESS)
        printf("invalid frame address 0x%" PRIx64 "\n", *frame);
    else
        print_refusal(status);
    return status;
}

static uint32_t update_flags(x64_page page, uint64_t flags) {
    if (is_input) {
        printf("update %s 0x%" PRIx64 " 0x%" PRIx64 "\n", size_name(page.size), page.start, flags);
        return X64_OK;
    }
    uint32_t status = x64_update_flags(&hierarchy, tables, TABLES, &page, flags);
    print_done(status);
    return status;
}

static void change_flags(void) {
    x64_page page = some_page();
    update_flags(page, some_flags());
}

/* ---- ranges, also by one call on a copy */

enum { MOST_PAGES = 5 };

static x64_table copy[TABLES];
static uint64_t copied_pool[TABLES];
static size_t copied_count;

static void copy_all(void) {
    memcpy(copy, tables, sizeof tables);
    memcpy(copied_pool, pool, sizeof pool);
    copied_count = free_count;
}

/* Prints a line that pagetab never prints, unless something holds and the copy is as the tables and the pool are. */
static void check_copy(bool holds) {
    if (!holds || copied_count != free_count || memcmp(copied_pool, pool, free_count * sizeof *pool) != 0 ||
        memcmp(copy, tables, sizeof tables) != 0)
        printf("another range\n");
}

/* Makes the maps page by page. The range ends where the first one is refused. */
static void map_range(void) {
    x64_map_request request = some_map();
    uint64_t count = below(MOST_PAGES + 1);
    uint64_t done = count;
    uint32_t expected = X64_OK;
    uint32_t status = X64_NOT_ALLOWED;
    if (!is_input) {
        copy_all();
        status = x64_map_range(&hierarchy, copy, TABLES, copied_pool, TABLES, &copied_count, &request, count, &done);
        if (status == X64_NOT_ALLOWED)
            check_copy(done == count);
    }
    for (uint64_t n = 0; n < count; n++) {
        bool goes_on = expected == X64_OK;
        uint32_t single = map(request);
        if (goes_on && single != X64_OK && status != X64_NOT_ALLOWED) {
            expected = single;
            check_copy(status == single && done == n);
        }
        request.page.start += request.page.size;
        request.frame += request.page.size;
    }
    if (expected == X64_OK && status != X64_NOT_ALLOWED)
        check_copy(status == X64_OK && done == count);
}

static void unmap_range(void) {
    x64_page page = some_page();
    uint64_t count = below(MOST_PAGES + 1);
    uint64_t frames[MOST_PAGES];
    uint64_t unmapped[MOST_PAGES];
    size_t frame_count = 0;
    size_t unmapped_count = 0;
    uint64_t done = count;
    uint32_t status = X64_OK;
    if (!is_input) {
        copy_all();
        status = x64_unmap_range(&hierarchy, copy, TABLES, &page, count, frames, MOST_PAGES, &frame_count, &done);
    }
    for (uint64_t n = 0; n < count; n++) {
        if (unmap(page, &unmapped[unmapped_count]) == X64_OK)
            unmapped_count++;
        page.start += page.size;
    }
    if (!is_input)
        check_copy(status == X64_OK && done == count && frame_count == unmapped_count &&
                   memcmp(frames, unmapped, frame_count * sizeof *frames) == 0);
}

static void update_flags_range(void) {
    x64_page page = some_page();
    uint64_t flags = some_flags();
    uint64_t count = below(MOST_PAGES + 1);
    uint64_t changed = 0;
    uint64_t expected = 0;
    uint32_t status = X64_OK;
    if (!is_input) {
        copy_all();
        status = x64_update_flags_range(&hierarchy, copy, TABLES, &page, count, flags, &changed);
    }
    for (uint64_t n = 0; n < count; n++) {
        expected += update_flags(page, flags) == X64_OK;
        page.start += page.size;
    }
    if (!is_input)
        check_copy(changed == expected && (status == X64_OK || (status == X64_NOT_ALLOWED && changed == 0)));
}

/* ---- calls on tables and addresses */

static void set_table_flags(void) {
    x64_page page = some_page();
    uint64_t level = 2 + below(hierarchy.levels - 1);
    uint64_t flags = some_flags();
    if (is_input)
        printf("p%" PRIu64 " %s 0x%" PRIx64 " 0x%" PRIx64 "\n", level, size_name(page.size), page.start, flags);
    else
        print_done(x64_set_table_flags(&hierarchy, tables, TABLES, &page, level, flags));
}

static void clean_up(void) {
    uint64_t first_page = 0;
    uint64_t last_page = UINT64_MAX & ~(X64_SIZE_4KIB - 1);
    if (!once_in(3)) {
        first_page = some_address() & ~(X64_SIZE_4KIB - 1);
        last_page = some_address() & ~(X64_SIZE_4KIB - 1);
    }
    if (is_input)
        printf("cleanup-range 0x%" PRIx64 " 0x%" PRIx64 "\n", first_page, last_page);
    else
        print_done(x64_clean_up(&hierarchy, tables, TABLES, pool, TABLES, &free_count, first_page, last_page));
}

static void translate(void) {
    uint64_t address = some_address();
    if (is_input) {
        printf("translate 0x%" PRIx64 "\n", address);
        return;
    }
    x64_translation found;
    uint32_t status = x64_translate(&hierarchy, tables, TABLES, address, &found);
    if (status == X64_OK)
        printf("mapped %s 0x%" PRIx64 " 0x%" PRIx64 " 0x%" PRIx64 "\n", size_name(found.size), found.frame, found.offset,
               found.flags);
    else if (status == X64_NOT_MAPPED)
        printf("not mapped\n");
    else
        print_refusal(status);
}

/* Whether a list from an address on begins with a page that has the address and leads where the processor arrives, or with a later
 * one if the processor arrives nowhere. */
static bool is_listed(uint64_t address, uint32_t status, const x64_walked *walked) {
    x64_mapping mapping;
    size_t count;
    uint64_t next;
    uint32_t listed = x64_mappings(&hierarchy, tables, TABLES, address, &mapping, 1, &count, &next);
    if (listed != X64_OK && listed != X64_MORE)
        return false;
    bool found = count == 1 && mapping.start <= address;
    if (status != X64_OK || !found)
        return (status == X64_OK) == found;
    return mapping.frame + (address - mapping.start) == walked->address && mapping.write == walked->write &&
           mapping.user == walked->user;
}

static void walk(void) {
    uint64_t address = some_address();
    if (is_input) {
        printf("walk 0x%" PRIx64 "\n", address);
        return;
    }
    x64_walked walked;
    uint32_t status = x64_page_walk(&hierarchy, tables, TABLES, address, &walked);
    if (!is_listed(address, status, &walked))
        printf("another list\n");
    else if (status == X64_OK)
        printf("0x%" PRIx64 " write=%d user=%d\n", walked.address, walked.write, walked.user);
    else if (status == X64_NOT_MAPPED)
        printf("none\n");
    else
        print_refusal(status);
}

static void show_pool(void) {
    printf("pool");
    for (size_t n = free_count; n > 0 && !is_input; n--)
        printf(" 0x%" PRIx64, pool[n - 1]);
    printf("\n");
}

/* Shows a word. */
static void show(size_t table, size_t index) {
    if (is_input)
        printf("show 0x%zx %zu\n", table * 4096, index);
    else
        printf("0x%" PRIx64 "\n", tables[table].words[index]);
}

/* Makes a call, or asks for the pool or a word. In every second phase most calls unmap or clean up. */
static void do_call(uint64_t number) {
    bool shrinks = number / PHASE % 2 == 1;
    uint64_t choice = below(100);
    uint64_t frame;
    if (choice < 50 && (shrinks ? choice < 2 : choice < 35))
        once_in(8) ? map_range() : (void)map(some_map());
    else if (choice < 50)
        once_in(8) ? unmap_range() : (void)unmap(some_page(), &frame);
    else if (choice < 58)
        once_in(8) ? update_flags_range() : change_flags();
    else if (choice < 64)
        set_table_flags();
    else if (choice < 69)
        clean_up();
    else if (choice < 82)
        translate();
    else if (choice < 96)
        walk();
    else if (choice < 98)
        show_pool();
    else
        show(below(TABLES), below(512));
}

/* ---- the image */

/* Sets a word of the image. */
static void set_word(size_t table, size_t index, uint64_t word) {
    tables[table].words[index] = word;
    if (is_input)
        printf("word 0x%zx %zu 0x%" PRIx64 "\n", table * 4096, index, word);
}

/* Makes an image with what calls can't make: pages with addresses that are no multiple, and tables without PRESENT. Of the other
 * frames, half of which hold rubbish, some are free. */
static void make_image(void) {
    size_t top = 1;
    if (hierarchy.levels == 5) {
        set_word(1, 0, 0x2003);
        top = 2;
    }
    set_word(top, 0, 0x3003);
    set_word(top, 2, 0x7002);
    set_word(3, 0, 0x4003);
    set_word(3, 1, UINT64_C(0x8000000080201083));
    set_word(3, 2, 0x8003);
    set_word(4, 0, 0x5003);
    set_word(4, 1, 0x601083);
    set_word(4, 2, 0x6007);
    set_word(5, 1, 0x5083);
    set_word(6, 2, 0x5002);
    for (size_t table = FIRST_FREE; table < TABLES; table++)
        if (table % 2 == 0)
            set_word(table, below(512), next_number());
    free_count = hierarchy.levels == 4 ? FREE_OF_4 : FREE_OF_5;
    for (size_t n = 0; n < free_count; n++)
        pool[n] = (FIRST_FREE + (n * 7 + 3) % (TABLES - FIRST_FREE)) * 4096;
    for (size_t n = free_count; n > 0 && is_input; n--)
        printf("free 0x%" PRIx64 "\n", pool[n - 1]);
}

int main(int argc, char **argv) {
    if (argc != 5) {
        fprintf(stderr, "usage: beside_pagetab input|output LEVELS SEED CALLS\n");
        return EXIT_FAILURE;
    }
    is_input = strcmp(argv[1], "input") == 0;
    hierarchy.levels = strtoull(argv[2], NULL, 10);
    state = strtoull(argv[3], NULL, 10) * 2 + 1;
    uint64_t calls = strtoull(argv[4], NULL, 10);

    make_image();
    bool marks[TABLES];
    if (!is_input && x64_pool_fits(&hierarchy, tables, TABLES, pool, TABLES, free_count, marks, TABLES) != X64_OK)
        printf("invalid hierarchy\n");
    for (uint64_t n = 0; n < calls; n++)
        do_call(n);
    show_pool();
    for (size_t table = 0; table < TABLES; table++)
        for (size_t index = 0; index < 512; index++)
            show(table, index);
    if (!is_input && x64_pool_fits(&hierarchy, tables, TABLES, pool, TABLES, free_count, marks, TABLES) != X64_OK)
        printf("invalid hierarchy\n");
    return EXIT_SUCCESS;
}
