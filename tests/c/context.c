/*
 * Makes each call on a space of x86_64_paging.h in one memory, and the raw call that it stands for in a copy of it, and compares the
 * statuses and all that the calls leave. guards.c tests which calls are refused because of shared entries. It is C and C++.
 */
#include <inttypes.h>
#include <stdio.h>
#include <stdlib.h>
#include <string.h>

#include "x86_64_paging.h"

enum { TABLES = 16, FIRST = 0x100, FREE = 15, LISTED = 2, STATUSES = 32 };

#define USUAL (X64_PRESENT | X64_WRITABLE)
#define PARENTS (USUAL | X64_ACCESSED)

/* What calls write, beside what they return. */
struct memory {
    x64_table tables[TABLES];
    uint64_t free_frames[TABLES];
    bool marks[TABLES];
    x64_walked walked;
    x64_walk_result arrival;
    x64_entry entries[X64_MOST_LEVELS];
    x64_translation translation;
    x64_mapping mappings[LISTED];
    x64_taken pages[LISTED];
    x64_outcome outcome;
    uint64_t frames[LISTED];
    uint64_t word;
    size_t count;
};

/* the memory of the space, and that of the raw calls */
static struct memory a, b;
static x64_space space;
static x64_pool pool;
static x64_hierarchy hierarchy;
static size_t free_count, compared, failed;

/* Compares what two calls returned and left, and the status with the one that is wanted. */
static void compare(const char *call, uint32_t status, uint32_t plain, uint32_t wanted) {
    compared++;
    if (status == wanted && plain == wanted && pool.free_count == free_count && memcmp(&a, &b, sizeof a) == 0)
        return;
    failed++;
    fprintf(stderr, "%s: %s and %s, where %s is wanted\n", call, x64_status_name(status), x64_status_name(plain), x64_status_name(wanted));
}

#define TABLES_OF(m) (m).tables, TABLES
#define POOL_OF(m) (m).free_frames, TABLES
#define SAME(wanted, call, plain) compare(#call, call, plain, wanted)

/* Makes the memories: table 0 is the root, and all others are free. */
static void fill(uint64_t levels) {
    memset(&a, 0, sizeof a);
    for (size_t n = 0; n < FREE; n++)
        a.free_frames[n] = (FIRST + FREE - n) * 4096;
    memcpy(&b, &a, sizeof a);
    hierarchy.first = FIRST;
    hierarchy.root = FIRST * 4096;
    hierarchy.levels = levels;
    free_count = FREE;
    space.tables = a.tables;
    space.table_count = TABLES;
    space.first = FIRST;
    space.root = hierarchy.root;
    space.levels = levels;
    space.shared_from = space.shared_to = 0;
    pool.frames = a.free_frames;
    pool.capacity = TABLES;
    pool.free_count = FREE;
}

static x64_map_request request(uint64_t start, uint64_t size, uint64_t frame, uint64_t flags, uint64_t parent_flags) {
    x64_map_request made;
    made.page.start = start;
    made.page.size = size;
    made.frame = frame;
    made.flags = flags;
    made.parent_flags = parent_flags;
    return made;
}

static void try_maps(void) {
    const uint64_t flags = USUAL | X64_NO_EXECUTE | X64_GLOBAL, user = USUAL | X64_USER_ACCESSIBLE;
    x64_map_request small = request(0x1000, X64_SIZE_4KIB, 0x5000, flags, PARENTS);
    SAME(X64_OK, x64_space_map(&space, &pool, 0x1000, X64_SIZE_4KIB, 0x5000, flags),
         x64_map(&hierarchy, TABLES_OF(b), POOL_OF(b), &free_count, &small));
    SAME(X64_PAGE_ALREADY_MAPPED, x64_space_map(&space, &pool, 0x1000, X64_SIZE_4KIB, 0x5000, flags),
         x64_map(&hierarchy, TABLES_OF(b), POOL_OF(b), &free_count, &small));
    x64_map_request other = request(0x3000, X64_SIZE_4KIB, 0x5000, X64_PRESENT, X64_PRESENT | X64_USER_ACCESSIBLE);
    SAME(X64_OK, x64_space_map_with(&space, &pool, &other), x64_map(&hierarchy, TABLES_OF(b), POOL_OF(b), &free_count, &other));
    x64_map_request large = request(0x200000, X64_SIZE_2MIB, 0x400000, user, user | X64_ACCESSED);
    SAME(X64_OK, x64_space_map(&space, &pool, 0x200000, X64_SIZE_2MIB, 0x400000, user),
         x64_map(&hierarchy, TABLES_OF(b), POOL_OF(b), &free_count, &large));
    x64_map_request range = request(0x10000, X64_SIZE_4KIB, 0x80000, USUAL, PARENTS);
    SAME(X64_OK, x64_space_map_range(&space, &pool, 0x10000, X64_SIZE_4KIB, 4, 0x80000, USUAL, &a.word),
         x64_map_range(&hierarchy, TABLES_OF(b), POOL_OF(b), &free_count, &range, 4, &b.word));
    x64_page far = {UINT64_C(0x7fffffe00000), X64_SIZE_2MIB};
    SAME(X64_OK, x64_space_prepare(&space, &pool, far.start, far.size, USUAL),
         x64_prepare(&hierarchy, TABLES_OF(b), POOL_OF(b), &free_count, &far, USUAL));
    SAME(X64_NOT_ALLOWED, x64_space_prepare(&space, &pool, far.start, far.size, USUAL | X64_HUGE_PAGE),
         x64_prepare(&hierarchy, TABLES_OF(b), POOL_OF(b), &free_count, &far, USUAL | X64_HUGE_PAGE));
    x64_map_request more = request(0x400000, X64_SIZE_2MIB, 0x800000, USUAL, X64_PRESENT);
    SAME(X64_OK, x64_space_map_range_with(&space, &pool, &more, 2, &a.word),
         x64_map_range(&hierarchy, TABLES_OF(b), POOL_OF(b), &free_count, &more, 2, &b.word));
}

/* Makes maps of a list of frames by raw calls, up to one that is refused. */
static uint32_t map_all(uint64_t page, const uint64_t *frames, size_t count, size_t *done) {
    for (*done = 0; *done < count; ++*done) {
        x64_map_request made = request(page + *done * 4096, X64_SIZE_4KIB, frames[*done], USUAL, PARENTS);
        uint32_t status = x64_map(&hierarchy, TABLES_OF(b), POOL_OF(b), &free_count, &made);
        if (status != X64_OK)
            return status;
    }
    return X64_OK;
}

static void try_lists(void) {
    const uint64_t frames[] = {0x9000, 0x3000, 0x9000, 0x12345000}, wrong[] = {0x1000, 0x2001};
    const uint64_t half = UINT64_C(1) << (11 + 9 * space.levels), last = UINT64_MAX - 4095, far_page = 0x10000;
    SAME(X64_OK, x64_space_map_list(&space, &pool, 0x5000, X64_SIZE_4KIB, frames, 4, USUAL, &a.count), map_all(0x5000, frames, 4, &b.count));
    SAME(X64_PAGE_ALREADY_MAPPED, x64_space_map_list(&space, &pool, far_page, X64_SIZE_4KIB, frames, 4, USUAL, &a.count),
         map_all(far_page, frames, 4, &b.count));
    SAME(X64_BAD_FRAME, x64_space_map_list(&space, &pool, 0x20000, X64_SIZE_4KIB, wrong, 2, USUAL, &a.count),
         map_all(0x20000, wrong, 2, &b.count));
    SAME(X64_OK, x64_space_map_list(&space, &pool, 0x20000, X64_SIZE_4KIB, NULL, 0, USUAL, &a.count), map_all(0x20000, NULL, 0, &b.count));
    SAME(X64_BAD_PAGE, x64_space_map_list(&space, &pool, half - 4096, X64_SIZE_4KIB, frames, 2, USUAL, &a.count),
         map_all(half - 4096, frames, 2, &b.count));
    /* behind the last page of the address space there is none: not the first one */
    SAME(X64_BAD_PAGE, x64_space_map_list(&space, &pool, last, X64_SIZE_4KIB, frames, 2, USUAL, &a.count),
         map_all(last, frames, 1, &b.count) == X64_OK ? X64_BAD_PAGE : X64_OK);
    SAME(X64_BAD_PAGE, x64_space_map_list(&space, &pool, 0, 0x2000, frames, 2, USUAL, &a.count), (b.count = 0, X64_BAD_PAGE));
    pool.free_count = free_count = TABLES + 1;
    SAME(X64_BAD_ARRAY, x64_space_map_list(&space, &pool, 0, X64_SIZE_4KIB, frames, 2, USUAL, &a.count), map_all(0, frames, 2, &b.count));
    pool.free_count = free_count = 1;
    SAME(X64_FRAME_ALLOCATION_FAILED, x64_space_map_list(&space, &pool, UINT64_C(1) << 45, X64_SIZE_4KIB, frames, 1, USUAL, &a.count),
         map_all(UINT64_C(1) << 45, frames, 1, &b.count));
}

static void try_reads(void) {
    x64_controls controls;
    memset(&controls, 0, sizeof controls);
    controls.no_execute = true;
    controls.physical_bits = 40;
    x64_access_request access;
    memset(&access, 0, sizeof access);
    access.address = 0x1234;
    access.kind = X64_WRITE;
    access.mark = true;
    SAME(X64_OK, x64_space_page_walk(&space, 0x1234, &a.walked), x64_page_walk(&hierarchy, TABLES_OF(b), 0x1234, &b.walked));
    SAME(X64_OK, x64_space_walk(&space, 0x1234, &a.arrival), x64_walk(&hierarchy, TABLES_OF(b), 0x1234, &b.arrival));
    SAME(X64_NOT_MAPPED, x64_space_entries(&space, 0x2000, a.entries, X64_MOST_LEVELS, &a.count),
         x64_entries(&hierarchy, TABLES_OF(b), 0x2000, b.entries, X64_MOST_LEVELS, &b.count));
    SAME(X64_OK, x64_space_translate(&space, 0x1234, &a.translation), x64_translate(&hierarchy, TABLES_OF(b), 0x1234, &b.translation));
    SAME(X64_MORE, x64_space_mappings(&space, 0, a.mappings, LISTED, &a.count, &a.word),
         x64_mappings(&hierarchy, TABLES_OF(b), 0, b.mappings, LISTED, &b.count, &b.word));
    SAME(X64_MORE, x64_space_list_range(&space, 0x1000, 0x20000, a.pages, LISTED, &a.count, &a.word),
         x64_list_range(&hierarchy, TABLES_OF(b), 0x1000, 0x20000, b.pages, LISTED, &b.count, &b.word));
    SAME(X64_OK, x64_space_is_valid(&space, a.marks, TABLES), x64_is_valid(&hierarchy, TABLES_OF(b), b.marks, TABLES));
    SAME(X64_OK, x64_space_fits(&space, &pool, a.marks, TABLES),
         x64_spaces_fit(FIRST, space.levels, TABLES_OF(b), &hierarchy.root, 1, 0, 0, POOL_OF(b), free_count, b.marks, TABLES));
    SAME(X64_BAD_ARRAY, x64_space_fits(&space, &pool, a.marks, TABLES - 1),
         x64_spaces_fit(FIRST, space.levels, TABLES_OF(b), &hierarchy.root, 1, 0, 0, POOL_OF(b), free_count, b.marks, TABLES - 1));
    SAME(X64_OK, x64_space_access(&space, &controls, &access, &a.outcome),
         x64_access(&hierarchy, TABLES_OF(b), &controls, &access, &b.outcome));
}

static void try_changes(void) {
    x64_page small = {0x1000, X64_SIZE_4KIB}, first = {0x10000, X64_SIZE_4KIB};
    SAME(X64_OK, x64_space_update_flags(&space, 0x1000, X64_SIZE_4KIB, X64_PRESENT),
         x64_update_flags(&hierarchy, TABLES_OF(b), &small, X64_PRESENT));
    SAME(X64_OK, x64_space_update_flags_range(&space, 0x10000, X64_SIZE_4KIB, 3, X64_PRESENT, &a.word),
         x64_update_flags_range(&hierarchy, TABLES_OF(b), &first, 3, X64_PRESENT, &b.word));
    SAME(X64_OK, x64_space_set_table_flags(&space, 0x1000, X64_SIZE_4KIB, 2, X64_PRESENT),
         x64_set_table_flags(&hierarchy, TABLES_OF(b), &small, 2, X64_PRESENT));
    SAME(X64_MORE, x64_space_change_range(&space, 0x10000, 0x20000, ~X64_WRITABLE, X64_DIRTY, a.pages, 1, &a.count, &a.word),
         x64_change_range(&hierarchy, TABLES_OF(b), 0x10000, 0x20000, ~X64_WRITABLE, X64_DIRTY, b.pages, 1, &b.count, &b.word));
    SAME(X64_NOT_ALLOWED, x64_space_change_range(&space, 0x10000, 0x20000, 0, 0, a.pages, 1, &a.count, &a.word),
         x64_change_range(&hierarchy, TABLES_OF(b), 0x10000, 0x20000, 0, 0, b.pages, 1, &b.count, &b.word));
    SAME(X64_MORE, x64_space_take_range(&space, 0x10000, 0x20000, a.pages, 1, &a.count, &a.word),
         x64_take_range(&hierarchy, TABLES_OF(b), 0x10000, 0x20000, b.pages, 1, &b.count, &b.word));
    SAME(X64_OK, x64_space_unmap(&space, 0x1000, X64_SIZE_4KIB, &a.word), x64_unmap(&hierarchy, TABLES_OF(b), &small, &b.word));
    SAME(X64_MORE, x64_space_unmap_range(&space, 0x10000, X64_SIZE_4KIB, 4, a.frames, LISTED, &a.count, &a.word),
         x64_unmap_range(&hierarchy, TABLES_OF(b), &first, 4, b.frames, LISTED, &b.count, &b.word));
}

static void try_spaces(void) {
    x64_space shared = space, other = space;
    uint64_t root = 0, roots[2];
    shared.shared_from = 256;
    shared.shared_to = 512;
    SAME(X64_OK, x64_space_new(&shared, &pool, &other), x64_new_space(&hierarchy, TABLES_OF(b), POOL_OF(b), &free_count, 256, 512, &root));
    failed += other.root != root || other.shared_from != 256 || other.shared_to != 512 || other.levels != space.levels ||
              other.first != FIRST || other.tables != a.tables || other.table_count != TABLES;
    roots[0] = space.root;
    roots[1] = root;
    SAME(X64_OK, x64_space_all_fit(&other, roots, 2, &pool, a.marks, TABLES),
         x64_spaces_fit(FIRST, space.levels, TABLES_OF(b), roots, 2, 256, 512, POOL_OF(b), free_count, b.marks, TABLES));
    roots[0] = root;
    SAME(X64_NOT_VALID, x64_space_all_fit(&other, roots, 2, &pool, a.marks, TABLES),
         x64_spaces_fit(FIRST, space.levels, TABLES_OF(b), roots, 2, 256, 512, POOL_OF(b), free_count, b.marks, TABLES));
    SAME(X64_SPACE_IN_USE, x64_space_give_up(&shared, &pool),
         x64_give_up_space(&hierarchy, TABLES_OF(b), POOL_OF(b), &free_count, 256, 512));
    hierarchy.root = root;
    SAME(X64_OK, x64_space_give_up(&other, &pool), x64_give_up_space(&hierarchy, TABLES_OF(b), POOL_OF(b), &free_count, 256, 512));
    hierarchy.root = space.root;
    shared.shared_to = 513;
    other.root = 7;
    SAME(X64_BAD_INDICES, x64_space_new(&shared, &pool, &other), x64_new_space(&hierarchy, TABLES_OF(b), POOL_OF(b), &free_count, 256, 513, &root));
    failed += other.root != 7;
    SAME(X64_BAD_INDICES, x64_space_give_up(&shared, &pool), x64_give_up_space(&hierarchy, TABLES_OF(b), POOL_OF(b), &free_count, 256, 513));
    SAME(X64_OK, x64_space_clean_up(&space, &pool, 0, UINT64_C(0xfffffffffffff000)),
         x64_clean_up(&hierarchy, TABLES_OF(b), POOL_OF(b), &free_count, 0, UINT64_C(0xfffffffffffff000)));
    SAME(X64_OK, x64_space_drop(&space, &pool, 0x1000, 0x10000, &a.word),
         x64_drop(&hierarchy, TABLES_OF(b), POOL_OF(b), &free_count, 0x1000, 0x10000, &b.word));
}

/* Makes each call with a space that is wrong, as its copy is. All return the same status, but tests of several spaces another one. */
static void try_wrong(uint32_t wanted, uint32_t wanted_of_fits) {
    const x64_controls controls = {true, true, false, false, false, 40, false, false};
    const x64_access_request access = {0x1000, X64_READ, false, true};
    const x64_page page = {0x1000, X64_SIZE_4KIB};
    const uint64_t frames[] = {0x5000}, last = UINT64_MAX - 4095;
    x64_map_request map = request(0x1000, X64_SIZE_4KIB, 0x5000, USUAL, PARENTS);
    x64_space other;
    SAME(wanted_of_fits, x64_space_fits(&space, &pool, a.marks, TABLES),
         x64_spaces_fit(FIRST, hierarchy.levels, TABLES_OF(b), &hierarchy.root, 1, 0, 0, POOL_OF(b), free_count, b.marks, TABLES));
    SAME(wanted, x64_space_is_valid(&space, a.marks, TABLES), x64_is_valid(&hierarchy, TABLES_OF(b), b.marks, TABLES));
    SAME(wanted, x64_space_page_walk(&space, 0x1234, &a.walked), x64_page_walk(&hierarchy, TABLES_OF(b), 0x1234, &b.walked));
    SAME(wanted, x64_space_walk(&space, 0x1234, &a.arrival), x64_walk(&hierarchy, TABLES_OF(b), 0x1234, &b.arrival));
    SAME(wanted, x64_space_entries(&space, 0x2000, a.entries, X64_MOST_LEVELS, &a.count),
         x64_entries(&hierarchy, TABLES_OF(b), 0x2000, b.entries, X64_MOST_LEVELS, &b.count));
    SAME(wanted, x64_space_translate(&space, 0x1234, &a.translation), x64_translate(&hierarchy, TABLES_OF(b), 0x1234, &b.translation));
    SAME(wanted, x64_space_mappings(&space, 0, a.mappings, LISTED, &a.count, &a.word),
         x64_mappings(&hierarchy, TABLES_OF(b), 0, b.mappings, LISTED, &b.count, &b.word));
    SAME(wanted, x64_space_list_range(&space, 0x1000, 0x2000, a.pages, LISTED, &a.count, &a.word),
         x64_list_range(&hierarchy, TABLES_OF(b), 0x1000, 0x2000, b.pages, LISTED, &b.count, &b.word));
    SAME(wanted, x64_space_access(&space, &controls, &access, &a.outcome), x64_access(&hierarchy, TABLES_OF(b), &controls, &access, &b.outcome));
    SAME(wanted, x64_space_map(&space, &pool, 0x1000, X64_SIZE_4KIB, 0x5000, USUAL),
         x64_map(&hierarchy, TABLES_OF(b), POOL_OF(b), &free_count, &map));
    SAME(wanted, x64_space_map_with(&space, &pool, &map), x64_map(&hierarchy, TABLES_OF(b), POOL_OF(b), &free_count, &map));
    SAME(wanted, x64_space_prepare(&space, &pool, 0x1000, X64_SIZE_4KIB, USUAL),
         x64_prepare(&hierarchy, TABLES_OF(b), POOL_OF(b), &free_count, &page, USUAL));
    SAME(wanted, x64_space_map_list(&space, &pool, 0x1000, X64_SIZE_4KIB, frames, 1, USUAL, &a.count), map_all(0x1000, frames, 1, &b.count));
    SAME(wanted, x64_space_map_range(&space, &pool, 0x1000, X64_SIZE_4KIB, 2, 0x5000, USUAL, &a.word),
         x64_map_range(&hierarchy, TABLES_OF(b), POOL_OF(b), &free_count, &map, 2, &b.word));
    SAME(wanted, x64_space_map_range_with(&space, &pool, &map, 2, &a.word),
         x64_map_range(&hierarchy, TABLES_OF(b), POOL_OF(b), &free_count, &map, 2, &b.word));
    SAME(wanted, x64_space_unmap(&space, 0x1000, X64_SIZE_4KIB, &a.word), x64_unmap(&hierarchy, TABLES_OF(b), &page, &b.word));
    SAME(wanted, x64_space_unmap_range(&space, 0x1000, X64_SIZE_4KIB, 4, a.frames, LISTED, &a.count, &a.word),
         x64_unmap_range(&hierarchy, TABLES_OF(b), &page, 4, b.frames, LISTED, &b.count, &b.word));
    SAME(wanted, x64_space_update_flags(&space, 0x1000, X64_SIZE_4KIB, USUAL), x64_update_flags(&hierarchy, TABLES_OF(b), &page, USUAL));
    SAME(wanted, x64_space_update_flags_range(&space, 0x1000, X64_SIZE_4KIB, 3, USUAL, &a.word),
         x64_update_flags_range(&hierarchy, TABLES_OF(b), &page, 3, USUAL, &b.word));
    SAME(wanted, x64_space_take_range(&space, 0x1000, 0x2000, a.pages, LISTED, &a.count, &a.word),
         x64_take_range(&hierarchy, TABLES_OF(b), 0x1000, 0x2000, b.pages, LISTED, &b.count, &b.word));
    SAME(wanted, x64_space_change_range(&space, 0x1000, 0x2000, ~X64_WRITABLE, 0, a.pages, LISTED, &a.count, &a.word),
         x64_change_range(&hierarchy, TABLES_OF(b), 0x1000, 0x2000, ~X64_WRITABLE, 0, b.pages, LISTED, &b.count, &b.word));
    SAME(wanted, x64_space_set_table_flags(&space, 0x1000, X64_SIZE_4KIB, 2, USUAL),
         x64_set_table_flags(&hierarchy, TABLES_OF(b), &page, 2, USUAL));
    SAME(wanted, x64_space_clean_up(&space, &pool, 0, last), x64_clean_up(&hierarchy, TABLES_OF(b), POOL_OF(b), &free_count, 0, last));
    SAME(wanted, x64_space_drop(&space, &pool, 0, last, &a.word),
         x64_drop(&hierarchy, TABLES_OF(b), POOL_OF(b), &free_count, 0, last, &b.word));
    SAME(wanted, x64_space_new(&space, &pool, &other), x64_new_space(&hierarchy, TABLES_OF(b), POOL_OF(b), &free_count, 0, 0, &b.word));
    SAME(wanted, x64_space_give_up(&space, &pool), x64_give_up_space(&hierarchy, TABLES_OF(b), POOL_OF(b), &free_count, 0, 0));
}

static void try_all_wrong(uint64_t levels) {
    fill(levels);
    space.levels = hierarchy.levels = 3;
    try_wrong(X64_BAD_LEVELS, X64_BAD_LEVELS);
    fill(levels);
    space.root = hierarchy.root = (FIRST + TABLES) * 4096;
    try_wrong(X64_BAD_ROOT, X64_NOT_VALID);
}

/* Frames of one pool become tables, and these go to another pool. */
static void try_pools(void) {
    uint64_t gathered[TABLES], frame;
    x64_pool gathering = {gathered, TABLES, 0};
    const uint64_t last = x64_space_last_page(&space, 511);
    const size_t before = pool.free_count;
    failed += x64_space_map(&space, &pool, 0, X64_SIZE_4KIB, 0x5000, USUAL) != X64_OK;
    failed += x64_space_unmap(&space, 0, X64_SIZE_4KIB, &frame) != X64_OK || x64_space_clean_up(&space, &gathering, 0, last) != X64_OK;
    failed += gathering.free_count != space.levels - 1 || pool.free_count + gathering.free_count != before;
    failed += x64_space_fits(&space, &gathering, a.marks, TABLES) != X64_OK || x64_space_fits(&space, &pool, a.marks, TABLES) != X64_OK;
    failed += x64_space_map(&space, &gathering, last, X64_SIZE_4KIB, 0x5000, USUAL) != X64_OK || gathering.free_count != 0;
    compared += 5;
}

/* The first and last pages below entries of the root. */
static void try_edges(void) {
    const uint64_t levels = space.levels, half = UINT64_C(1) << (11 + 9 * levels), part = UINT64_C(1) << (3 + 9 * levels);
    for (uint64_t index = 0; index < 512; index++) {
        uint64_t start = x64_space_first_page(&space, index), end = x64_space_last_page(&space, index);
        failed += start != (index < 256 ? index * part : 0 - (512 - index) * part) || end != start + (part - 4096);
    }
    failed += x64_space_last_page(&space, 255) != half - 4096 || x64_space_first_page(&space, 256) != 0 - half;
    failed += x64_space_last_page(&space, 511) != UINT64_MAX - 4095;
    compared += 514;
}

/* Checks that each status has a name of its own, and that there are as many as the header declares. */
static void try_names(void) {
    size_t count = 0;
    for (uint32_t status = 0; status < STATUSES; status++) {
        const char *name = x64_status_name(status);
        bool is_known = strncmp(name, "X64_", 4) == 0;
        count += is_known;
        if (is_known != (status <= X64_BAD_SEGMENTS))
            failed++;
        for (uint32_t other = 0; other < status && is_known; other++)
            if (strcmp(name, x64_status_name(other)) == 0)
                failed++;
    }
    if (count != 25 || strcmp(x64_status_name(X64_SHARED_ENTRY), "X64_SHARED_ENTRY") != 0 || strcmp(x64_status_name(X64_NO_TABLE), "X64_NO_TABLE") != 0)
        failed++;
}

int main(void) {
    for (uint64_t levels = 4; levels <= 5; levels++) {
        fill(levels);
        try_maps();
        try_reads();
        try_changes();
        try_lists();
        fill(levels);
        try_maps();
        try_spaces();
        try_all_wrong(levels);
        fill(levels);
        try_pools();
        try_edges();
    }
    try_names();
    printf("context: %zu calls compared, %zu faults\n", compared, failed);
    return failed == 0 ? EXIT_SUCCESS : EXIT_FAILURE;
}
