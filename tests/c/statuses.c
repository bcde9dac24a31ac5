/*
 * Meets each status of each function, row by row, and compares what the call left: how many words changed, the pool, and what
 * was written through out parameters. A row is tried with four levels and with five, with tables from frame 0 on and from frame 16
 * on, and with segments of frames, as a memory with holes has them. While a call reads, its tables stand in memory that can't be written.
 */
#define _DEFAULT_SOURCE
#include <inttypes.h>
#include <stdio.h>
#include <stdlib.h>
#include <string.h>
#include <sys/mman.h>

#include "x86_64_paging.h"

enum { TABLES = 16, ROOM = 12, FREE = 3, LISTED = 8, MAPPED = 6, ROOTS = 2, SETTINGS = 9, STATUSES = 25, READ = X64_MOST_LEVELS + 1 };

/* Addresses that aren't canonical: the first with four levels, the second with five, too. */
#define NOT_CANONICAL_4 UINT64_C(0x800000000000)
#define NOT_CANONICAL UINT64_C(0x100000000000000)
#define MISSING UINT64_C(0x8000000000) /* a page with no tables below level four */
#define LAST_PAGE UINT64_C(0xfffffffffffff000)

/* ---- what a call is made with */

/* The arguments of all functions. A row sets those that differ from the usual ones. */
struct arguments {
    uint64_t only; /* 4 or 5 if the row is tried with so many levels alone */
    uint64_t levels, root, root_offset, table_count, null_tables, bad_segments;
    uint64_t capacity, free_count, null_pool;
    uint64_t mark_count, null_marks;
    uint64_t list_capacity, null_list, entry_capacity, null_entries;
    uint64_t entry_count; /* of x64_outcome_of: 0 for those that the walk reads. They are followed by zeros */
    uint64_t address, start, size, count, frame, flags, parent_flags, keep, level, first_page, last_page;
    uint64_t root_count, null_roots, second_root, shared_from, shared_to;
    uint64_t kind, user, mark, write_protect, no_execute, smep, smap, ac, physical_bits, no_1gib_pages, global_reserved;
    /* before the call the word at an index of a table gets these flags and the address of the table with a number */
    uint64_t word_table, word_index, word_flags, word_names;
    /* whether all used words get USER_ACCESSIBLE before the call */
    uint64_t user_pages;
    /* before the call the first free frame of the pool becomes the table with a number, plus an offset; or the frame 0 */
    uint64_t pool_table, pool_offset, pool_zero;
};

#define SET(field, value) {offsetof(struct arguments, field), value}
#define USUAL {0, 0}

/* A row: by which arguments a call has which status, and what it leaves. */
struct row {
    const char *what;
    uint32_t status;
    struct {
        size_t at;
        uint64_t value;
    } set[SETTINGS];
    size_t words;         /* how many words of the memory change */
    size_t words_above;   /* how many more change with each level above three */
    int taken;            /* how many frames leave the pool, negative if frames come back */
    uint64_t out[4];      /* what is written through out parameters, field by field */
};

/* A row whose call changes and writes nothing, or writes through out parameters, or changes words. */
#define ROW(what, status, ...) {what, status, {__VA_ARGS__}, 0, 0, 0, {0}}
#define OUT(...) {__VA_ARGS__}
#define WRITES(what, status, out, ...) {what, status, {__VA_ARGS__}, 0, 0, 0, out}
#define CHANGES(what, status, words, ...) {what, status, {__VA_ARGS__}, words, 0, 0, {0}}

/* ---- the memory */

struct world {
    x64_table tables[TABLES];
    uint64_t pool[ROOM];
    size_t free_count;
    uint64_t roots[ROOTS];
    bool marks[TABLES];
    x64_walked walked;
    x64_walk_result arrival;
    x64_entry entries[READ];
    x64_translation translation;
    x64_mapping mappings[LISTED];
    x64_taken pages[LISTED];
    size_t count;
    uint64_t next;
    uint64_t frame;
    uint64_t root;
    uint64_t frames[LISTED];
    uint64_t done;
    x64_outcome outcome;
};

static _Alignas(4096) struct world world, before;
static uint64_t first;
static bool has_segments;

/* Segments that name the same tables as tables from frame 16 on, and some that overlap. */
static const x64_segment segments[] = {{16, 5, 0}, {21, TABLES - 5, 5}}, bad_segments[] = {{16, 5, 0}, {20, TABLES - 5, 5}};

/* Returns the address of a table. */
static uint64_t table(uint64_t number) {
    return (first + number) * 4096;
}

/* Makes the memory: tables that map pages of all sizes and refuse for all reasons, and three free frames that hold rubbish. Table 11
 * is a root that maps nothing. */
static void fill(uint64_t levels) {
    memset(&world, 0xa5, sizeof world);
    memset(world.tables, 0, sizeof world.tables);
    x64_table *t = world.tables;
    size_t top = levels == 5 ? 2 : 1;
    if (levels == 5)
        t[1].words[0] = table(2) | 0x3;
    t[top].words[0] = table(3) | 0x3;
    t[3].words[0] = table(4) | 0x3;
    t[4].words[0] = table(5) | 0x3;
    t[5].words[1] = 0x5003;     /* 0x1000 is mapped to 0x5000 */
    t[5].words[2] = 0x6002;     /* 0x2000 lacks PRESENT */
    t[5].words[3] = 0x7083;     /* 0x3000 has bit 7 */
    t[4].words[1] = 0x400083;   /* 0x200000 is mapped by 2 MiB */
    t[4].words[2] = 0x601083;   /* so is 0x400000, with an address that is no multiple */
    t[4].words[3] = 0x800082;   /* 0x600000 lacks PRESENT */
    t[4].words[4] = table(6) | 0x2; /* the table for 0x800000 lacks PRESENT and is empty */
    t[3].words[1] = 0x80000083; /* 0x40000000 is mapped by 1 GiB */
    t[3].words[2] = 0xc0001083; /* so is 0x80000000, with an address that is no multiple */
    t[3].words[3] = table(7) | 0x3; /* the table for 0xc0000000 is empty */
    for (size_t n = 0; n < FREE; n++) {
        memset(&t[8 + n], 0x5a, sizeof t[8 + n]);
        world.pool[n] = table(10 - n);
    }
}

/* ---- the functions */

enum function {
    PAGE_WALK,
    WALK,
    ENTRIES,
    TRANSLATE,
    MAPPINGS,
    LIST_RANGE,
    IS_VALID,
    POOL_FITS,
    SPACES_FIT,
    SPACES_FIT_IN,
    OUTCOME_OF,
    ACCESS,
    MAP,
    MAP_AS_MAPPER,
    PREPARE,
    UNMAP,
    UPDATE_FLAGS,
    SET_TABLE_FLAGS,
    MAP_RANGE,
    UNMAP_RANGE,
    UPDATE_FLAGS_RANGE,
    CLEAN_UP,
    CLEAN_UP_BELOW_ROOT,
    DROP,
    TAKE_RANGE,
    CHANGE_RANGE,
    NEW_SPACE,
    GIVE_UP_SPACE,
    FUNCTIONS
};

static const char *const names[FUNCTIONS] = {
    "x64_page_walk",          "x64_walk",      "x64_entries",      "x64_translate",       "x64_mappings",  "x64_list_range",
    "x64_is_valid",           "x64_pool_fits", "x64_spaces_fit",   "x64_spaces_fit_in",   "x64_outcome_of", "x64_access",
    "x64_map",                "x64_map_as_mapper", "x64_prepare",  "x64_unmap",           "x64_update_flags", "x64_set_table_flags",
    "x64_map_range",          "x64_unmap_range", "x64_update_flags_range", "x64_clean_up", "x64_clean_up_below_root", "x64_drop",
    "x64_take_range",         "x64_change_range", "x64_new_space", "x64_give_up_space",
};

/* Returns the arguments that rows change. */
static struct arguments usual(uint64_t levels) {
    return (struct arguments){
        .levels = levels,
        .root = table(1),
        .table_count = TABLES,
        .capacity = ROOM,
        .free_count = FREE,
        .mark_count = TABLES,
        .list_capacity = LISTED,
        .entry_capacity = READ,
        .start = 0x4000,
        .size = X64_SIZE_4KIB,
        .count = 1,
        .frame = 0x9000,
        .flags = 0x3,
        .parent_flags = 0x3,
        .keep = UINT64_MAX,
        .level = 4,
        .last_page = LAST_PAGE,
        .root_count = ROOTS,
        .second_root = table(11),
        .shared_from = 256,
        .shared_to = 512,
        .kind = X64_READ,
        .write_protect = 1,
        .no_execute = 1,
        .smep = 1,
        .smap = 1,
        .physical_bits = 48,
    };
}

/* Makes a call. */
static uint32_t call(enum function function, const struct arguments *a) {
    x64_hierarchy hierarchy = {.first = first, .root = a->root + a->root_offset, .levels = a->levels};
    const x64_hierarchy *h = &hierarchy;
    if (has_segments || a->bad_segments) {
        hierarchy.first = 99; /* isn't looked at */
        hierarchy.segments = a->bad_segments ? bad_segments : segments;
        hierarchy.segment_count = 2;
    }
    x64_table *tables = a->null_tables ? NULL : world.tables;
    uint64_t *pool = a->null_pool ? NULL : world.pool;
    bool *marks = a->null_marks ? NULL : world.marks;
    x64_mapping *list = a->null_list ? NULL : world.mappings;
    x64_taken *taken = a->null_list ? NULL : world.pages;
    uint64_t *roots = a->null_roots ? NULL : world.roots;
    uint64_t from = a->shared_from, to = a->shared_to, start = a->first_page, last = a->last_page;
    uint64_t *frames = a->null_list ? NULL : world.frames;
    x64_page page = {.start = a->start, .size = a->size};
    x64_map_request request = {.page = page, .frame = a->frame, .flags = a->flags, .parent_flags = a->parent_flags};
    x64_controls controls = {.write_protect = a->write_protect, .no_execute = a->no_execute, .smep = a->smep, .smap = a->smap,
        .ac = a->ac, .physical_bits = (uint8_t)a->physical_bits, .no_1gib_pages = a->no_1gib_pages,
        .global_reserved = a->global_reserved};
    x64_access_request access = {.address = a->address, .kind = (uint32_t)a->kind, .user = a->user, .mark = a->mark};
    size_t n = a->table_count, read = 0;
    x64_entry path[READ];
    switch (function) {
    case PAGE_WALK:
        return x64_page_walk(h, tables, n, a->address, &world.walked);
    case WALK:
        return x64_walk(h, tables, n, a->address, &world.arrival);
    case ENTRIES:
        return x64_entries(h, tables, n, a->address, a->null_entries ? NULL : world.entries, a->entry_capacity, &world.count);
    case TRANSLATE:
        return x64_translate(h, tables, n, a->address, &world.translation);
    case MAPPINGS:
        return x64_mappings(h, tables, n, a->address, list, a->list_capacity, &world.count, &world.next);
    case LIST_RANGE:
        return x64_list_range(h, tables, n, start, last, taken, a->list_capacity, &world.count, &world.next);
    case IS_VALID:
        return x64_is_valid(h, tables, n, marks, a->mark_count);
    case POOL_FITS:
        return x64_pool_fits(h, tables, n, pool, a->capacity, a->free_count, marks, a->mark_count);
    case SPACES_FIT:
        return x64_spaces_fit(first, a->levels, tables, n, roots, a->root_count, from, to, pool, a->capacity, a->free_count,
                              marks, a->mark_count);
    case SPACES_FIT_IN:
        return x64_spaces_fit_in(h, tables, n, roots, a->root_count, from, to, pool, a->capacity, a->free_count, marks, a->mark_count);
    case OUTCOME_OF:
        memset(path, 0, sizeof path);
        if (x64_entries(h, tables, n, a->address, path, READ, &read) == X64_BAD_ADDRESS || a->entry_count != 0 || a->null_entries)
            read = a->entry_count;
        return x64_outcome_of(a->levels, &controls, &access, a->null_entries ? NULL : path, read, &world.outcome);
    case ACCESS:
        return x64_access(h, tables, n, &controls, &access, &world.outcome);
    case MAP:
        return x64_map(h, tables, n, pool, a->capacity, &world.free_count, &request);
    case MAP_AS_MAPPER:
        return x64_map_as_mapper(h, tables, n, pool, a->capacity, &world.free_count, &request);
    case PREPARE:
        return x64_prepare(h, tables, n, pool, a->capacity, &world.free_count, &page, a->parent_flags);
    case UNMAP:
        return x64_unmap(h, tables, n, &page, &world.frame);
    case UPDATE_FLAGS:
        return x64_update_flags(h, tables, n, &page, a->flags);
    case SET_TABLE_FLAGS:
        return x64_set_table_flags(h, tables, n, &page, a->level, a->flags);
    case MAP_RANGE:
        return x64_map_range(h, tables, n, pool, a->capacity, &world.free_count, &request, a->count, &world.done);
    case UNMAP_RANGE:
        return x64_unmap_range(h, tables, n, &page, a->count, frames, a->list_capacity, &world.count, &world.done);
    case UPDATE_FLAGS_RANGE:
        return x64_update_flags_range(h, tables, n, &page, a->count, a->flags, &world.done);
    case CLEAN_UP:
        return x64_clean_up(h, tables, n, pool, a->capacity, &world.free_count, a->first_page, a->last_page);
    case CLEAN_UP_BELOW_ROOT:
        return x64_clean_up_below_root(h, tables, n, pool, a->capacity, &world.free_count, a->first_page, a->last_page);
    case DROP:
        return x64_drop(h, tables, n, pool, a->capacity, &world.free_count, start, last, &world.next);
    case TAKE_RANGE:
        return x64_take_range(h, tables, n, start, last, taken, a->list_capacity, &world.count, &world.next);
    case CHANGE_RANGE:
        return x64_change_range(h, tables, n, start, last, a->keep, a->flags, taken, a->list_capacity, &world.count, &world.next);
    case NEW_SPACE:
        return x64_new_space(h, tables, n, pool, a->capacity, &world.free_count, from, to, &world.root);
    case GIVE_UP_SPACE:
        return x64_give_up_space(h, tables, n, pool, a->capacity, &world.free_count, from, to);
    case FUNCTIONS:
        break;
    }
    abort();
}

/* ---- the rows */

/* Bad arguments of every function. What is tested first is said first. */
static const struct row levels_rows[] = {
    ROW("three levels", X64_BAD_LEVELS, SET(levels, 3)),
    ROW("six levels", X64_BAD_LEVELS, SET(levels, 6)),
    ROW("levels beyond 32 bits", X64_BAD_LEVELS, SET(levels, UINT64_C(0x100000004))),
    ROW("bad levels before all others", X64_BAD_LEVELS, SET(levels, 0), SET(bad_segments, 1), SET(root_offset, 1), SET(capacity, 0), SET(mark_count, 0),
        SET(shared_to, 513), SET(entry_capacity, 0)),
};

/* Bad segments of every function that takes a hierarchy. */
static const struct row segment_rows[] = {
    ROW("segments that overlap", X64_BAD_SEGMENTS, SET(bad_segments, 1)),
    ROW("bad segments before all others", X64_BAD_SEGMENTS, SET(bad_segments, 1), SET(root_offset, 8), SET(capacity, 0), SET(mark_count, 0),
        SET(address, NOT_CANONICAL), SET(size, 0), SET(kind, 3), SET(shared_to, 513), SET(entry_capacity, 0)),
};

/* Bad roots of every function that takes a hierarchy. */
static const struct row hierarchies[] = {
    ROW("a root that is no multiple of 4096", X64_BAD_ROOT, SET(root_offset, 8)),
    ROW("a root with a flag", X64_BAD_ROOT, SET(root_offset, 1)),
    ROW("a root beyond the tables", X64_BAD_ROOT, SET(root_offset, (TABLES - 1) * 4096)),
    ROW("a root from 2^52 on", X64_BAD_ROOT, SET(root, UINT64_C(1) << 52)),
    ROW("a root with high bits", X64_BAD_ROOT, SET(root_offset, UINT64_C(1) << 63)),
    ROW("too few tables for the root", X64_BAD_ROOT, SET(table_count, 1)),
    ROW("no tables", X64_BAD_ROOT, SET(table_count, 0)),
    ROW("no tables, and null", X64_BAD_ROOT, SET(table_count, 0), SET(null_tables, 1)),
    ROW("a bad root before all others", X64_BAD_ROOT, SET(root_offset, 8), SET(capacity, 0), SET(mark_count, 0),
        SET(address, NOT_CANONICAL), SET(size, 0), SET(first_page, 1), SET(kind, 3), SET(shared_to, 513), SET(entry_capacity, 0)),
};

static const struct row page_walk[] = {
    WRITES("4 KiB", X64_OK, OUT(0x5abc, 1, 0, 0), SET(address, 0x1abc)),
    WRITES("4 KiB with bit 7", X64_OK, OUT(0x7fff, 1, 0, 0), SET(address, 0x3fff)),
    WRITES("2 MiB", X64_OK, OUT(0x434567, 1, 0, 0), SET(address, 0x234567)),
    WRITES("2 MiB, an address that is rounded down", X64_OK, OUT(0x600123, 1, 0, 0), SET(address, 0x400123)),
    WRITES("1 GiB", X64_OK, OUT(0x80123456, 1, 0, 0), SET(address, 0x40123456)),
    WRITES("an entry above without WRITABLE", X64_OK, OUT(0x5000, 0, 0, 0), SET(address, 0x1000), SET(word_table, 4),
        SET(word_flags, 0x5), SET(word_names, 5)),
    ROW("no PRESENT", X64_NOT_MAPPED, SET(address, 0x2000)),
    ROW("no PRESENT above", X64_NOT_MAPPED, SET(address, 0x800000)),
    ROW("no tables there", X64_NOT_MAPPED, SET(address, MISSING)),
    ROW("the upper half", X64_NOT_MAPPED, SET(address, UINT64_MAX)),
    ROW("a table beyond the array", X64_NOT_MAPPED, SET(address, 0x1200000), SET(word_table, 4), SET(word_index, 9),
        SET(word_flags, 0x3), SET(word_names, 40)),
    ROW("HUGE_PAGE in the root", X64_NOT_MAPPED, SET(word_table, 1), SET(word_flags, 0x83)),
    ROW("not canonical", X64_BAD_ADDRESS, SET(address, NOT_CANONICAL)),
    ROW("not canonical with four levels", X64_BAD_ADDRESS, SET(address, NOT_CANONICAL_4), SET(only, 4)),
    ROW("canonical with five levels", X64_NOT_MAPPED, SET(address, NOT_CANONICAL_4), SET(only, 5)),
};

/* The address, the rights to write and of users, and whether the right to execute is missing. The rows of x64_page_walk are tried, too. */
static const struct row walk[] = {
    WRITES("all for users", X64_OK, OUT(0x5000, 1, 1, 0), SET(address, 0x1000), SET(user_pages, 1)),
    WRITES("the page has NO_EXECUTE", X64_OK, OUT(0x9000, 1, 0, 1), SET(address, 0x9000), SET(word_table, 5), SET(word_index, 9),
        SET(word_flags, UINT64_C(0x8000000000009003))),
    WRITES("an entry above has NO_EXECUTE", X64_OK, OUT(0x5000, 1, 0, 1), SET(address, 0x1000), SET(word_table, 4),
        SET(word_flags, UINT64_C(0x8000000000000003)), SET(word_names, 5)),
    WRITES("the root's entry has NO_EXECUTE", X64_OK, OUT(0x80123456, 1, 0, 1), SET(address, 0x40123456), SET(word_table, 1),
        SET(word_flags, UINT64_C(0x8000000000000003)), SET(word_names, 3), SET(only, 4)),
    WRITES("all 52 bits", X64_OK, OUT(UINT64_C(0xffffffffff123), 0, 0, 0), SET(address, 0x9123), SET(word_table, 5),
        SET(word_index, 9), SET(word_flags, UINT64_C(0xffffffffff001))),
};

/* The number of entries with four levels, and the number of the last one's table, its index and its word. */
static const struct row entries[] = {
    {"4 KiB", X64_OK, {SET(address, 0x1abc)}, 0, 0, 0, {4, 5, 1, 0x5003}},
    {"4 KiB with bit 7", X64_OK, {SET(address, 0x3fff)}, 0, 0, 0, {4, 5, 3, 0x7083}},
    {"2 MiB", X64_OK, {SET(address, 0x234567)}, 0, 0, 0, {3, 4, 1, 0x400083}},
    {"2 MiB, an address that is no multiple", X64_OK, {SET(address, 0x400123)}, 0, 0, 0, {3, 4, 2, 0x601083}},
    {"1 GiB", X64_OK, {SET(address, 0x40123456)}, 0, 0, 0, {2, 3, 1, 0x80000083}},
    {"just enough room, with four levels", X64_OK, {SET(address, 0x1abc), SET(entry_capacity, 4), SET(only, 4)}, 0, 0, 0,
        {4, 5, 1, 0x5003}},
    {"just enough room, with five levels", X64_OK, {SET(address, 0x1abc), SET(entry_capacity, 5), SET(only, 5)}, 0, 0, 0,
        {4, 5, 1, 0x5003}},
    {"no PRESENT", X64_NOT_MAPPED, {SET(address, 0x2000)}, 0, 0, 0, {4, 5, 2, 0x6002}},
    {"an unused entry", X64_NOT_MAPPED, {USUAL}, 0, 0, 0, {4, 5, 0, 0}},
    {"2 MiB without PRESENT", X64_NOT_MAPPED, {SET(address, 0x600000)}, 0, 0, 0, {3, 4, 3, 0x800082}},
    {"no PRESENT above, and all other flags", X64_NOT_MAPPED, {SET(address, 0x1200000), SET(word_table, 4), SET(word_index, 9),
        SET(word_flags, UINT64_C(0xfffffffffffffffe))}, 0, 0, 0, {3, 4, 9, UINT64_C(0xfffffffffffffffe)}},
    {"HUGE_PAGE in the root, with four levels", X64_PARENT_ENTRY_HUGE_PAGE, {SET(word_table, 1), SET(word_flags, 0x83), SET(only, 4)},
        0, 0, 0, {1, 1, 0, 0x83}},
    {"HUGE_PAGE in the root, with five levels", X64_PARENT_ENTRY_HUGE_PAGE, {SET(word_table, 1), SET(word_flags, 0x83), SET(only, 5)},
        0, 0, 0, {0, 1, 0, 0x83}},
    {"HUGE_PAGE at level four", X64_PARENT_ENTRY_HUGE_PAGE, {SET(word_table, 2), SET(word_flags, 0x83), SET(only, 5)}, 0, 0, 0,
        {1, 2, 0, 0x83}},
    {"a table beyond the array", X64_NO_TABLE, {SET(address, 0x1200000), SET(word_table, 4), SET(word_index, 9),
        SET(word_flags, 0x7fff003)}, 0, 0, 0, {3, 4, 9, 0x7fff003}},
    {"a table that is its own child", X64_OK, {SET(address, 0x1201000), SET(word_table, 4), SET(word_index, 9), SET(word_flags, 0x3),
        SET(word_names, 4)}, 0, 0, 0, {4, 4, 1, 0x400083}},
    ROW("room for one too few, with four levels", X64_BAD_ARRAY, SET(entry_capacity, 3), SET(only, 4)),
    ROW("room for one too few, with five levels", X64_BAD_ARRAY, SET(entry_capacity, 4), SET(only, 5)),
    ROW("no array", X64_BAD_ARRAY, SET(entry_capacity, 0), SET(null_entries, 1)),
    ROW("a bad array before a bad address", X64_BAD_ARRAY, SET(entry_capacity, 0), SET(address, NOT_CANONICAL)),
    ROW("not canonical", X64_BAD_ADDRESS, SET(address, NOT_CANONICAL)),
    ROW("not canonical with four levels", X64_BAD_ADDRESS, SET(address, NOT_CANONICAL_4), SET(only, 4)),
};

static const struct row translate[] = {
    WRITES("4 KiB", X64_OK, OUT(0x5000, 0x1000, 0xabc, 0x3), SET(address, 0x1abc)),
    WRITES("4 KiB without PRESENT", X64_OK, OUT(0x6000, 0x1000, 0x1, 0x2), SET(address, 0x2001)),
    WRITES("4 KiB with bit 7", X64_OK, OUT(0x7000, 0x1000, 0xfff, 0x83), SET(address, 0x3fff)),
    WRITES("2 MiB", X64_OK, OUT(0x400000, 0x200000, 0x34567, 0x83), SET(address, 0x234567)),
    WRITES("2 MiB, an address that is rounded down", X64_OK, OUT(0x600000, 0x200000, 0x123, 0x83), SET(address, 0x400123)),
    WRITES("1 GiB", X64_OK, OUT(0x80000000, 0x40000000, 0x123456, 0x83), SET(address, 0x40123456)),
    WRITES("all flags", X64_OK, OUT(0x9000, 0x1000, 0, UINT64_C(0xfff0000000000fff)), SET(address, 0x9000), SET(word_table, 5),
        SET(word_index, 9), SET(word_flags, UINT64_C(0xfff0000000009fff))),
    ROW("2 MiB without PRESENT", X64_NOT_MAPPED, SET(address, 0x600000)),
    ROW("no PRESENT above", X64_NOT_MAPPED, SET(address, 0x800000)),
    ROW("an unused entry", X64_NOT_MAPPED, SET(address, 0)),
    ROW("no tables there", X64_NOT_MAPPED, SET(address, MISSING)),
    ROW("not canonical", X64_BAD_ADDRESS, SET(address, NOT_CANONICAL)),
    ROW("not canonical with four levels", X64_BAD_ADDRESS, SET(address, NOT_CANONICAL_4), SET(only, 4)),
    ROW("canonical with five levels", X64_NOT_MAPPED, SET(address, NOT_CANONICAL_4), SET(only, 5)),
};

/* The number, and the first one's start and frame. */
static const struct row mappings[] = {
    WRITES("all", X64_OK, OUT(MAPPED, 0x1000, 0x5000, 0), USUAL),
    WRITES("from the first one's last byte on", X64_OK, OUT(MAPPED, 0x1000, 0x5000, 0), SET(address, 0x1fff)),
    WRITES("from the byte after it on", X64_OK, OUT(MAPPED - 1, 0x3000, 0x7000, 0), SET(address, 0x2000)),
    WRITES("from inside a larger page on", X64_OK, OUT(2, 0x40000000, 0x80000000, 0), SET(address, 0x40123456)),
    ROW("from the last address on", X64_OK, SET(address, UINT64_MAX)),
    WRITES("an array that is just long enough", X64_OK, OUT(MAPPED, 0x1000, 0x5000, 0), SET(list_capacity, MAPPED)),
    WRITES("an array for one", X64_MORE, OUT(1, 0x1000, 0x5000, 0), SET(list_capacity, 1)),
    WRITES("an array for all but one", X64_MORE, OUT(MAPPED - 1, 0x1000, 0x5000, 0), SET(list_capacity, MAPPED - 1)),
    ROW("an array of no length", X64_MORE, SET(list_capacity, 0)),
    ROW("no array", X64_MORE, SET(list_capacity, 0), SET(null_list, 1)),
    ROW("no array, and none to list", X64_OK, SET(list_capacity, 0), SET(null_list, 1), SET(address, LAST_PAGE)),
    WRITES("a table that is its own child", X64_OK, OUT(5, 0x1201000, 0x400000, 0), SET(address, 0x1201000), SET(word_table, 4),
        SET(word_index, 9), SET(word_flags, 0x3), SET(word_names, 4)),
    ROW("not canonical", X64_BAD_ADDRESS, SET(address, NOT_CANONICAL)),
};

/* These are tried with x64_pool_fits, too. */
static const struct row is_valid[] = {
    ROW("valid", X64_OK, USUAL),
    ROW("two entries name one table", X64_NOT_VALID, SET(word_table, 4), SET(word_index, 9), SET(word_flags, 3),
        SET(word_names, 5)),
    ROW("an entry names its own table", X64_NOT_VALID, SET(word_table, 4), SET(word_index, 9), SET(word_flags, 3),
        SET(word_names, 4)),
    ROW("an entry names the root", X64_NOT_VALID, SET(word_table, 4), SET(word_index, 9), SET(word_flags, 3), SET(word_names, 1)),
    ROW("the root names itself", X64_NOT_VALID, SET(word_table, 1), SET(word_index, 511), SET(word_flags, 3), SET(word_names, 1)),
    ROW("an entry names frame 0", X64_NOT_VALID, SET(word_table, 4), SET(word_index, 9), SET(word_flags, 3)),
    ROW("a table beyond the array", X64_NOT_VALID, SET(word_table, 4), SET(word_index, 9), SET(word_flags, 3),
        SET(word_names, TABLES)),
    ROW("the same without PRESENT", X64_NOT_VALID, SET(word_table, 4), SET(word_index, 9), SET(word_flags, 2),
        SET(word_names, TABLES)),
    ROW("HUGE_PAGE in the root", X64_NOT_VALID, SET(word_table, 1), SET(word_index, 9), SET(word_flags, 0x83)),
    ROW("HUGE_PAGE at level four", X64_NOT_VALID, SET(word_table, 2), SET(word_index, 9), SET(word_flags, 0x83), SET(only, 5)),
    ROW("too few marks", X64_BAD_ARRAY, SET(mark_count, TABLES - 1)),
    ROW("no marks", X64_BAD_ARRAY, SET(null_marks, 1), SET(mark_count, 0)),
};

static const struct row pool_fits[] = {
    ROW("no free frame", X64_OK, SET(free_count, 0)),
    ROW("room for just all, with four levels", X64_OK, SET(capacity, FREE + 5), SET(only, 4)),
    ROW("room for just all, with five levels", X64_OK, SET(capacity, FREE + 6), SET(only, 5)),
    ROW("room for one too few, with four levels", X64_NOT_VALID, SET(capacity, FREE + 4), SET(only, 4)),
    ROW("room for one too few, with five levels", X64_NOT_VALID, SET(capacity, FREE + 5), SET(only, 5)),
    ROW("no room, and null", X64_NOT_VALID, SET(free_count, 0), SET(capacity, 0), SET(null_pool, 1)),
    ROW("a free frame twice", X64_NOT_VALID, SET(pool_table, 9)),
    ROW("a free frame that is the root", X64_NOT_VALID, SET(pool_table, 1)),
    ROW("a free frame that is a table", X64_NOT_VALID, SET(pool_table, 5)),
    ROW("a free frame that is a table without PRESENT", X64_NOT_VALID, SET(pool_table, 6)),
    ROW("a free frame beyond the array", X64_NOT_VALID, SET(pool_table, TABLES)),
    ROW("a free frame that is no multiple of 4096", X64_NOT_VALID, SET(pool_table, 10), SET(pool_offset, 8)),
    ROW("a free frame with high bits", X64_NOT_VALID, SET(pool_table, 10), SET(pool_offset, UINT64_C(1) << 52)),
    ROW("frame 0", X64_NOT_VALID, SET(pool_zero, 1)),
    ROW("more free frames than room", X64_BAD_ARRAY, SET(capacity, FREE - 1)),
};

/* Bad arguments of every function that takes shared indices. */
static const struct row indices[] = {
    ROW("more free frames than room", X64_BAD_ARRAY, SET(capacity, FREE - 1)),
    ROW("indices out of order", X64_BAD_INDICES, SET(shared_from, 257), SET(shared_to, 256)),
    ROW("an index above 511", X64_BAD_INDICES, SET(shared_to, 513)),
    ROW("an end beyond 16 bits", X64_BAD_INDICES, SET(shared_to, 0x10200)),
    ROW("indices beyond 16 bits", X64_BAD_INDICES, SET(shared_from, 0x10100), SET(shared_to, 0x10200)),
    ROW("a bad array before bad indices", X64_BAD_ARRAY, SET(capacity, FREE - 1), SET(shared_to, 513)),
};

static const struct row spaces_fit[] = {
    ROW("two that map nothing in common", X64_OK, USUAL),
    ROW("nothing is shared", X64_OK, SET(shared_from, 0), SET(shared_to, 0)),
    ROW("one", X64_OK, SET(root_count, 1)),
    ROW("none", X64_OK, SET(root_count, 0), SET(null_roots, 1)),
    ROW("no free frame", X64_OK, SET(free_count, 0)),
    ROW("a shared table, with four levels", X64_OK, SET(shared_from, 0), SET(shared_to, 1), SET(word_table, 11), SET(word_flags, 0x3),
        SET(word_names, 3), SET(only, 4)),
    ROW("a shared table, with five levels", X64_OK, SET(shared_from, 0), SET(shared_to, 1), SET(word_table, 11), SET(word_flags, 0x3),
        SET(word_names, 2), SET(only, 5)),
    ROW("the same table, but other flags", X64_NOT_VALID, SET(shared_from, 0), SET(shared_to, 1), SET(word_table, 11),
        SET(word_flags, 0x7), SET(word_names, 3), SET(only, 4)),
    ROW("the same table, and it isn't shared", X64_NOT_VALID, SET(shared_from, 1), SET(word_table, 11), SET(word_flags, 0x3),
        SET(word_names, 3), SET(only, 4)),
    ROW("the last shared index", X64_NOT_VALID, SET(word_table, 11), SET(word_index, 511), SET(word_flags, 0x3), SET(word_names, 12)),
    ROW("the first shared index", X64_NOT_VALID, SET(word_table, 11), SET(word_index, 256), SET(word_flags, 0x3), SET(word_names, 12)),
    ROW("the index before it", X64_OK, SET(word_table, 11), SET(word_index, 255), SET(word_flags, 0x3), SET(word_names, 12)),
    ROW("a table of the other", X64_NOT_VALID, SET(word_table, 11), SET(word_flags, 0x3), SET(word_names, 7)),
    ROW("the root of the other", X64_NOT_VALID, SET(word_table, 11), SET(word_flags, 0x3), SET(word_names, 1)),
    ROW("the first isn't valid", X64_NOT_VALID, SET(word_table, 4), SET(word_index, 9), SET(word_flags, 3), SET(word_names, 5)),
    ROW("the second isn't valid", X64_NOT_VALID, SET(word_table, 11), SET(word_index, 9), SET(word_flags, 0x83)),
    ROW("one root twice", X64_NOT_VALID, SET(second_root, 0)),
    ROW("a root that is no multiple of 4096", X64_NOT_VALID, SET(second_root, 11 * 4096 + 8)),
    ROW("a root beyond the tables", X64_NOT_VALID, SET(second_root, (TABLES + 16) * 4096)),
    ROW("a root with high bits", X64_NOT_VALID, SET(second_root, UINT64_C(1) << 63)),
    ROW("room for just all, with four levels", X64_OK, SET(capacity, FREE + 7), SET(only, 4)),
    ROW("room for just all, with five levels", X64_OK, SET(capacity, FREE + 8), SET(only, 5)),
    ROW("room for one too few, with four levels", X64_NOT_VALID, SET(capacity, FREE + 6), SET(only, 4)),
    ROW("room for one too few, with five levels", X64_NOT_VALID, SET(capacity, FREE + 7), SET(only, 5)),
    ROW("a free frame that is the second root", X64_NOT_VALID, SET(pool_table, 11)),
    ROW("a free frame that is a table", X64_NOT_VALID, SET(pool_table, 5)),
    ROW("a free frame twice", X64_NOT_VALID, SET(pool_table, 9)),
    ROW("frame 0", X64_NOT_VALID, SET(pool_zero, 1)),
    ROW("too few marks", X64_BAD_ARRAY, SET(mark_count, TABLES - 1)),
    ROW("no marks", X64_BAD_ARRAY, SET(null_marks, 1), SET(mark_count, 0)),
};

/* The number of the new root. */
static const struct row new_space[] = {
    {"the upper half", X64_OK, {USUAL}, 512, 0, 1, {8}},
    {"the lower half", X64_OK, {SET(shared_from, 0), SET(shared_to, 256)}, 512, 0, 1, {8}},
    {"all but the first", X64_OK, {SET(shared_from, 1)}, 512, 0, 1, {8}},
    {"the first alone", X64_OK, {SET(shared_from, 0), SET(shared_to, 1)}, 512, 0, 1, {8}},
    {"an entry behind the shared ones", X64_OK, {SET(shared_from, 0), SET(shared_to, 256), SET(word_table, 1), SET(word_index, 256),
        SET(word_flags, 0x3), SET(word_names, 12)}, 512, 0, 1, {8}},
    {"an entry before the shared ones", X64_OK, {SET(shared_from, 256), SET(shared_to, 511), SET(word_table, 1), SET(word_index, 255),
        SET(word_flags, 0x3), SET(word_names, 12)}, 512, 0, 1, {8}},
    {"nothing", X64_OK, {SET(shared_from, 512)}, 512, 0, 1, {8}},
    {"the last free frame", X64_OK, {SET(free_count, 1)}, 512, 0, 1, {10}},
    ROW("no free frame", X64_FRAME_ALLOCATION_FAILED, SET(free_count, 0)),
    ROW("no pool", X64_FRAME_ALLOCATION_FAILED, SET(free_count, 0), SET(null_pool, 1), SET(capacity, 0)),
    ROW("bad indices before no free frame", X64_BAD_INDICES, SET(free_count, 0), SET(shared_to, 513)),
};

/* The root that comes back. */
static const struct row give_up_space[] = {
    {"an empty space", X64_OK, {SET(root_offset, 10 * 4096)}, 0, 0, -1, {11}},
    {"a shared entry", X64_OK, {SET(root_offset, 10 * 4096), SET(word_table, 11), SET(word_index, 511), SET(word_flags, 0x3),
        SET(word_names, 12)}, 1, 0, -1, {11}},
    {"the first shared entry", X64_OK, {SET(root_offset, 10 * 4096), SET(word_table, 11), SET(word_index, 256), SET(word_flags, 0x3),
        SET(word_names, 12)}, 1, 0, -1, {11}},
    {"the lower half is shared", X64_OK, {SET(shared_from, 0), SET(shared_to, 256)}, 1, 0, -1, {1}},
    ROW("pages", X64_SPACE_IN_USE, USUAL),
    ROW("nothing is shared", X64_SPACE_IN_USE, SET(shared_to, 256)),
    ROW("the last entry that isn't shared", X64_SPACE_IN_USE, SET(root_offset, 10 * 4096), SET(word_table, 11), SET(word_index, 255),
        SET(word_flags, 0x3), SET(word_names, 12)),
    ROW("one without PRESENT", X64_SPACE_IN_USE, SET(root_offset, 10 * 4096), SET(word_table, 11), SET(word_flags, 0x2),
        SET(word_names, 12)),
    ROW("one behind the shared ones", X64_SPACE_IN_USE, SET(root_offset, 10 * 4096), SET(shared_to, 511), SET(word_table, 11),
        SET(word_index, 511), SET(word_flags, 0x3), SET(word_names, 12)),
    ROW("frame 0", X64_BAD_ROOT, SET(root, 0)),
    ROW("frame 0 before a bad array", X64_BAD_ROOT, SET(root, 0), SET(capacity, 0)),
};

/* The physical address or that of a frame, the error code, and the level. The rows of x64_access are tried, too, but for those with marks. */
static const struct row outcome_of[] = {
    WRITES("entries behind that of the page", X64_OK, OUT(0x434567, 0, 0, 0), SET(address, 0x234567), SET(entry_count, 4)),
    WRITES("entries behind one without PRESENT", X64_PAGE_FAULT, OUT(0, 0, 2, 0), SET(address, 0x600000), SET(entry_count, 4)),
    ROW("more entries than levels", X64_BAD_ARRAY, SET(entry_count, READ)),
    ROW("five entries, with four levels", X64_BAD_ARRAY, SET(entry_count, 5), SET(only, 4)),
    ROW("no entries", X64_BAD_ARRAY, SET(null_entries, 1)),
    ROW("a bad kind before a bad array", X64_BAD_ACCESS, SET(kind, 3), SET(entry_count, READ)),
    ROW("a bad address before a bad array", X64_BAD_ADDRESS, SET(address, NOT_CANONICAL), SET(entry_count, READ)),
};

/* The same, and the table with the word that gets DIRTY. */
static const struct row access_rows[] = {
    WRITES("a read of 4 KiB", X64_OK, OUT(0x5abc, 0, 0, 0), SET(address, 0x1abc)),
    WRITES("a write", X64_OK, OUT(0x5abc, 0, 0, 0), SET(address, 0x1abc), SET(kind, X64_WRITE)),
    WRITES("a fetch", X64_OK, OUT(0x5abc, 0, 0, 0), SET(address, 0x1abc), SET(kind, X64_FETCH)),
    WRITES("2 MiB with PAT", X64_OK, OUT(0x600123, 0, 0, 0), SET(address, 0x400123)),
    {"a read leaves marks", X64_OK, {SET(address, 0x1abc), SET(mark, 1)}, 3, 1, 0, {0x5abc}},
    {"a fetch leaves marks", X64_OK, {SET(address, 0x1abc), SET(mark, 1), SET(kind, X64_FETCH)}, 3, 1, 0, {0x5abc}},
    {"a write leaves marks", X64_OK, {SET(address, 0x1abc), SET(mark, 1), SET(kind, X64_WRITE)}, 3, 1, 0, {0x5abc, 0, 0, 5}},
    {"a write to 2 MiB", X64_OK, {SET(address, 0x234567), SET(mark, 1), SET(kind, X64_WRITE)}, 2, 1, 0, {0x434567, 0, 0, 4}},
    {"a write to 1 GiB", X64_OK, {SET(address, 0x40123456), SET(mark, 1), SET(kind, X64_WRITE)}, 1, 1, 0, {0x80123456, 0, 0, 3}},
    {"a page that is marked", X64_OK, {SET(address, 0x9000), SET(mark, 1), SET(kind, X64_WRITE), SET(word_table, 5),
        SET(word_index, 9), SET(word_flags, 0x9063)}, 2, 1, 0, {0x9000}},
    WRITES("no PRESENT", X64_PAGE_FAULT, OUT(0, 0, 1, 0), SET(address, 0x2000)),
    WRITES("a fault leaves no marks", X64_PAGE_FAULT, OUT(0, 2, 1, 0), SET(address, 0x2000), SET(mark, 1), SET(kind, X64_WRITE)),
    WRITES("no PRESENT above", X64_PAGE_FAULT, OUT(0, 6, 2, 0), SET(address, 0x800000), SET(kind, X64_WRITE), SET(user, 1)),
    WRITES("no tables there", X64_PAGE_FAULT, OUT(0, 16, 4, 0), SET(address, MISSING), SET(kind, X64_FETCH)),
    WRITES("a user reads a supervisor's page", X64_PAGE_FAULT, OUT(0, 5, 1, 0), SET(address, 0x1000), SET(user, 1)),
    WRITES("a user reads", X64_OK, OUT(0x5000, 0, 0, 0), SET(address, 0x1000), SET(user, 1), SET(user_pages, 1)),
    WRITES("a supervisor reads a user's page", X64_PAGE_FAULT, OUT(0, 1, 1, 0), SET(address, 0x1000), SET(user_pages, 1)),
    WRITES("the same with AC", X64_OK, OUT(0x5000, 0, 0, 0), SET(address, 0x1000), SET(user_pages, 1), SET(ac, 1)),
    WRITES("the same without SMAP", X64_OK, OUT(0x5000, 0, 0, 0), SET(address, 0x1000), SET(user_pages, 1), SET(smap, 0)),
    WRITES("a supervisor fetches from a user's page", X64_PAGE_FAULT, OUT(0, 17, 1, 0), SET(address, 0x1000), SET(user_pages, 1),
        SET(kind, X64_FETCH)),
    WRITES("the same without SMEP", X64_OK, OUT(0x5000, 0, 0, 0), SET(address, 0x1000), SET(user_pages, 1), SET(kind, X64_FETCH),
        SET(smep, 0)),
    WRITES("a fetch that the code doesn't tell", X64_PAGE_FAULT, OUT(0, 5, 1, 0), SET(address, 0x1000), SET(user, 1),
        SET(kind, X64_FETCH), SET(smep, 0), SET(no_execute, 0)),
    WRITES("a write without WRITABLE above", X64_PAGE_FAULT, OUT(0, 3, 1, 0), SET(address, 0x1000), SET(kind, X64_WRITE),
        SET(word_table, 4), SET(word_flags, 0x1), SET(word_names, 5)),
    WRITES("the same without WP", X64_OK, OUT(0x5000, 0, 0, 0), SET(address, 0x1000), SET(kind, X64_WRITE), SET(word_table, 4),
        SET(word_flags, 0x1), SET(word_names, 5), SET(write_protect, 0)),
    WRITES("a fetch with NO_EXECUTE", X64_PAGE_FAULT, OUT(0, 17, 1, 0), SET(address, 0x9000), SET(kind, X64_FETCH),
        SET(word_table, 5), SET(word_index, 9), SET(word_flags, UINT64_C(0x8000000000009003))),
    WRITES("NO_EXECUTE is reserved", X64_PAGE_FAULT, OUT(0, 9, 1, 0), SET(address, 0x9000), SET(no_execute, 0),
        SET(word_table, 5), SET(word_index, 9), SET(word_flags, UINT64_C(0x8000000000009003))),
    WRITES("a reserved bit of 2 MiB", X64_PAGE_FAULT, OUT(0, 9, 2, 0), SET(address, 0x1200000), SET(word_table, 4),
        SET(word_index, 9), SET(word_flags, 0x602083)),
    WRITES("HUGE_PAGE at level four", X64_PAGE_FAULT, OUT(0, 9, 4, 0), SET(word_table, 1), SET(word_flags, 0x83), SET(only, 4)),
    WRITES("HUGE_PAGE at level five", X64_PAGE_FAULT, OUT(0, 9, 5, 0), SET(word_table, 1), SET(word_flags, 0x83), SET(only, 5)),
    WRITES("an address of 49 bits", X64_PAGE_FAULT, OUT(0, 9, 1, 0), SET(address, 0x9000), SET(word_table, 5), SET(word_index, 9),
        SET(word_flags, UINT64_C(0x1000000000003))),
    WRITES("the same with 49 bits", X64_OK, OUT(UINT64_C(0x1000000000000), 0, 0, 0), SET(address, 0x9000), SET(physical_bits, 49),
        SET(word_table, 5), SET(word_index, 9), SET(word_flags, UINT64_C(0x1000000000003))),
    WRITES("all 52 bits", X64_OK, OUT(UINT64_C(0xffffffffff123), 0, 0, 0), SET(address, 0x9123), SET(physical_bits, 52),
        SET(word_table, 5), SET(word_index, 9), SET(word_flags, UINT64_C(0xffffffffff003))),
    WRITES("32 bits are enough", X64_OK, OUT(0x5000, 0, 0, 0), SET(address, 0x1000), SET(physical_bits, 32)),
    WRITES("1 GiB", X64_OK, OUT(0x80123456, 0, 0, 0), SET(address, 0x40123456)),
    WRITES("the same without pages of 1 GiB", X64_PAGE_FAULT, OUT(0, 9, 3, 0), SET(address, 0x40123456), SET(no_1gib_pages, 1)),
    WRITES("2 MiB without pages of 1 GiB", X64_OK, OUT(0x434567, 0, 0, 0), SET(address, 0x234567), SET(no_1gib_pages, 1)),
    WRITES("GLOBAL at level four", X64_OK, OUT(0x5abc, 0, 0, 0), SET(address, 0x1abc), SET(word_table, 1), SET(word_flags, 0x103),
        SET(word_names, 3), SET(only, 4)),
    WRITES("the same if it is reserved", X64_PAGE_FAULT, OUT(0, 9, 4, 0), SET(address, 0x1abc), SET(word_table, 1),
        SET(word_flags, 0x103), SET(word_names, 3), SET(only, 4), SET(global_reserved, 1)),
    WRITES("GLOBAL at level five, if it is reserved", X64_PAGE_FAULT, OUT(0, 9, 5, 0), SET(address, 0x1abc), SET(word_table, 1),
        SET(word_flags, 0x103), SET(word_names, 2), SET(only, 5), SET(global_reserved, 1)),
    WRITES("GLOBAL at level three is ignored", X64_OK, OUT(0x5abc, 0, 0, 0), SET(address, 0x1abc), SET(word_table, 3),
        SET(word_flags, 0x103), SET(word_names, 4), SET(global_reserved, 1)),
    WRITES("GLOBAL at level two is ignored", X64_OK, OUT(0x5abc, 0, 0, 0), SET(address, 0x1abc), SET(word_table, 4),
        SET(word_flags, 0x103), SET(word_names, 5), SET(global_reserved, 1)),
    WRITES("HUGE_PAGE beside GLOBAL at level three", X64_PAGE_FAULT, OUT(0, 9, 3, 0), SET(address, 0x1abc), SET(word_table, 3),
        SET(word_flags, 0x183), SET(global_reserved, 1), SET(no_1gib_pages, 1)),
    WRITES("a global page", X64_OK, OUT(0x9000, 0, 0, 0), SET(address, 0x9000), SET(word_table, 5), SET(word_index, 9),
        SET(word_flags, 0x9103), SET(global_reserved, 1)),
    /* what the header leaves out: processors may do otherwise here */
    WRITES("an implicit access of a supervisor to a user's page: AC is passed as 0", X64_PAGE_FAULT, OUT(0, 1, 1, 0), SET(address, 0x1000),
        SET(user_pages, 1), SET(ac, 0)),
    ROW("an address with bits that LAM lets be", X64_BAD_ADDRESS, SET(address, UINT64_C(0x2a00000000001abc))),
    WRITES("a supervisor in the lower half, which LASS forbids", X64_OK, OUT(0x5abc, 0, 0, 0), SET(address, 0x1abc), SET(ac, 0)),
    WRITES("a table beyond the array", X64_NO_TABLE, OUT(0x7fff000, 0, 0, 0), SET(address, 0x1200000), SET(word_table, 4),
        SET(word_index, 9), SET(word_flags, 0x7fff003), SET(mark, 1)),
    ROW("no such kind", X64_BAD_ACCESS, SET(kind, 3)),
    ROW("the greatest kind", X64_BAD_ACCESS, SET(kind, UINT32_MAX)),
    ROW("too few bits", X64_BAD_ACCESS, SET(physical_bits, 31)),
    ROW("too many bits", X64_BAD_ACCESS, SET(physical_bits, 53)),
    ROW("a bad kind before a bad address", X64_BAD_ACCESS, SET(kind, 3), SET(address, NOT_CANONICAL)),
    ROW("bad bits before a bad address", X64_BAD_ACCESS, SET(physical_bits, 0), SET(address, NOT_CANONICAL)),
    ROW("not canonical", X64_BAD_ADDRESS, SET(address, NOT_CANONICAL), SET(mark, 1)),
    ROW("not canonical with four levels", X64_BAD_ADDRESS, SET(address, NOT_CANONICAL_4), SET(only, 4)),
    WRITES("canonical with five levels", X64_PAGE_FAULT, OUT(0, 0, 4, 0), SET(address, NOT_CANONICAL_4), SET(only, 5)),
};

/* Maps that x64_map and x64_map_as_mapper do, or refuse and leave all as it was. */
static const struct row map[] = {
    CHANGES("4 KiB", X64_OK, 1, USUAL),
    CHANGES("2 MiB", X64_OK, 1, SET(start, 0xa00000), SET(size, X64_SIZE_2MIB), SET(frame, 0x800000)),
    CHANGES("1 GiB", X64_OK, 1, SET(start, 0x100000000), SET(size, X64_SIZE_1GIB), SET(frame, 0x80000000)),
    CHANGES("2 MiB with HUGE_PAGE", X64_OK, 1, SET(start, 0xa00000), SET(size, X64_SIZE_2MIB), SET(frame, 0), SET(flags, 0x83)),
    {"three new tables", X64_OK, {SET(start, MISSING)}, 1 + 3 * 512, 0, 3, {0}},
    {"parents get USER_ACCESSIBLE", X64_OK, {SET(parent_flags, 0x7)}, 3, 1, 0, {0}},
    CHANGES("a parent gets PRESENT", X64_OK, 2, SET(start, 0x800000)),
    CHANGES("no parent flags are needed", X64_OK, 1, SET(parent_flags, 0)),
    CHANGES("the last frame", X64_OK, 1, SET(frame, UINT64_C(0xffffffffff000))),
    ROW("frame 0 with no flags", X64_OK, SET(frame, 0), SET(flags, 0)),
    ROW("an address in the flags", X64_NOT_ALLOWED, SET(flags, 0x1003)),
    ROW("an address in the parent flags", X64_NOT_ALLOWED, SET(parent_flags, 0x1003)),
    ROW("HUGE_PAGE in the parent flags", X64_NOT_ALLOWED, SET(parent_flags, 0x83)),
    ROW("HUGE_PAGE for 4 KiB", X64_NOT_ALLOWED, SET(flags, 0x83)),
    ROW("a new parent would lack PRESENT", X64_NOT_ALLOWED, SET(start, MISSING), SET(parent_flags, 0x2)),
    ROW("a parent would still lack PRESENT", X64_NOT_ALLOWED, SET(start, 0x800000), SET(parent_flags, 0x2)),
    ROW("not allowed before no frame", X64_NOT_ALLOWED, SET(start, MISSING), SET(parent_flags, 0), SET(free_count, 0)),
    ROW("no free frame", X64_FRAME_ALLOCATION_FAILED, SET(start, MISSING), SET(free_count, 0)),
    ROW("below 2 MiB", X64_PARENT_ENTRY_HUGE_PAGE, SET(start, 0x200000)),
    ROW("2 MiB below 1 GiB", X64_PARENT_ENTRY_HUGE_PAGE, SET(start, 0x40000000), SET(size, X64_SIZE_2MIB), SET(frame, 0)),
    ROW("mapped", X64_PAGE_ALREADY_MAPPED, SET(start, 0x1000)),
    ROW("used without PRESENT", X64_PAGE_ALREADY_MAPPED, SET(start, 0x2000)),
    ROW("a table is there", X64_PAGE_ALREADY_MAPPED, SET(start, 0), SET(size, X64_SIZE_2MIB), SET(frame, 0)),
    ROW("more free frames than room", X64_BAD_ARRAY, SET(capacity, FREE - 1)),
    ROW("no pool, but free frames", X64_BAD_ARRAY, SET(null_pool, 1), SET(capacity, 0)),
    ROW("a bad array before a bad page", X64_BAD_ARRAY, SET(capacity, 0), SET(size, 0)),
    ROW("a bad page before a bad frame", X64_BAD_PAGE, SET(start, 1), SET(frame, 1)),
    ROW("a frame that is no multiple", X64_BAD_FRAME, SET(frame, 0x9800)),
    ROW("a frame that is no multiple of 2 MiB", X64_BAD_FRAME, SET(start, 0xa00000), SET(size, X64_SIZE_2MIB)),
    ROW("a frame from 2^52 on", X64_BAD_FRAME, SET(frame, UINT64_C(1) << 52)),
    ROW("a bad frame before bad flags", X64_BAD_FRAME, SET(frame, 1), SET(flags, 0x1000)),
};

/* Maps that are refused, of which x64_map leaves nothing. */
static const struct row refused_map[] = {
    ROW("one free frame of three", X64_FRAME_ALLOCATION_FAILED, SET(start, MISSING), SET(free_count, 1)),
    ROW("two free frames of three", X64_FRAME_ALLOCATION_FAILED, SET(start, MISSING), SET(free_count, 2)),
    ROW("below 2 MiB, and parents lack USER_ACCESSIBLE", X64_PARENT_ENTRY_HUGE_PAGE, SET(start, 0x200000), SET(parent_flags, 0x7)),
    ROW("mapped, and parents lack USER_ACCESSIBLE", X64_PAGE_ALREADY_MAPPED, SET(start, 0x1000), SET(parent_flags, 0x7)),
};

/* The same, of which x64_map_as_mapper leaves tables and parent flags. */
static const struct row refused_map_as_mapper[] = {
    {"one free frame of three", X64_FRAME_ALLOCATION_FAILED, {SET(start, MISSING), SET(free_count, 1)}, 1 + 512, 0, 1, {0}},
    {"two free frames of three", X64_FRAME_ALLOCATION_FAILED, {SET(start, MISSING), SET(free_count, 2)}, 1 + 2 * 512, 0, 2, {0}},
    {"below 2 MiB, and parents get USER_ACCESSIBLE", X64_PARENT_ENTRY_HUGE_PAGE, {SET(start, 0x200000),
        SET(parent_flags, 0x7)}, 2, 1, 0, {0}},
    {"mapped, and parents get USER_ACCESSIBLE", X64_PAGE_ALREADY_MAPPED, {SET(start, 0x1000), SET(parent_flags, 0x7)}, 2, 1, 0, {0}},
};

/* Tables above pages. The page's own entry stays, so nothing is left to do if they are there. */
static const struct row prepare_rows[] = {
    ROW("4 KiB", X64_OK, USUAL),
    ROW("4 KiB where a page is", X64_OK, SET(start, 0x1000)),
    ROW("4 KiB without PRESENT", X64_OK, SET(start, 0x2000)),
    ROW("2 MiB", X64_OK, SET(start, 0xa00000), SET(size, X64_SIZE_2MIB)),
    ROW("2 MiB where a page is", X64_OK, SET(start, 0x200000), SET(size, X64_SIZE_2MIB)),
    ROW("2 MiB where a table is", X64_OK, SET(start, 0), SET(size, X64_SIZE_2MIB)),
    ROW("1 GiB", X64_OK, SET(start, 0x100000000), SET(size, X64_SIZE_1GIB)),
    ROW("1 GiB where a page is", X64_OK, SET(start, 0x40000000), SET(size, X64_SIZE_1GIB)),
    {"three new tables", X64_OK, {SET(start, MISSING)}, 1 + 3 * 512, 0, 3, {0}},
    {"two new tables", X64_OK, {SET(start, MISSING), SET(size, X64_SIZE_2MIB)}, 1 + 2 * 512, 0, 2, {0}},
    {"one new table", X64_OK, {SET(start, MISSING), SET(size, X64_SIZE_1GIB), SET(free_count, 1)}, 1 + 512, 0, 1, {0}},
    {"a new table below one that is there", X64_OK, {SET(start, 0xa00000), SET(free_count, 1)}, 1 + 512, 0, 1, {0}},
    {"parents get USER_ACCESSIBLE", X64_OK, {SET(parent_flags, 0x7)}, 2, 1, 0, {0}},
    {"parents of a page get USER_ACCESSIBLE", X64_OK, {SET(start, 0x1000), SET(parent_flags, 0x7)}, 2, 1, 0, {0}},
    {"parents of 2 MiB get USER_ACCESSIBLE", X64_OK, {SET(start, 0x200000), SET(size, X64_SIZE_2MIB), SET(parent_flags, 0x7)},
        1, 1, 0, {0}},
    CHANGES("a parent gets PRESENT", X64_OK, 1, SET(start, 0x800000)),
    ROW("no parent flags are needed", X64_OK, SET(parent_flags, 0)),
    ROW("no free frame is needed", X64_OK, SET(free_count, 0)),
    ROW("an address in the parent flags", X64_NOT_ALLOWED, SET(parent_flags, 0x1003)),
    ROW("HUGE_PAGE in the parent flags", X64_NOT_ALLOWED, SET(parent_flags, 0x83)),
    ROW("a new parent would lack PRESENT", X64_NOT_ALLOWED, SET(start, MISSING), SET(parent_flags, 0x2)),
    ROW("a parent would still lack PRESENT", X64_NOT_ALLOWED, SET(start, 0x800000), SET(parent_flags, 0x2)),
    ROW("not allowed before no frame", X64_NOT_ALLOWED, SET(start, MISSING), SET(parent_flags, 0), SET(free_count, 0)),
    ROW("no free frame", X64_FRAME_ALLOCATION_FAILED, SET(start, MISSING), SET(free_count, 0)),
    ROW("one free frame of three", X64_FRAME_ALLOCATION_FAILED, SET(start, MISSING), SET(free_count, 1)),
    ROW("two free frames of three", X64_FRAME_ALLOCATION_FAILED, SET(start, MISSING), SET(free_count, 2)),
    ROW("one free frame of two", X64_FRAME_ALLOCATION_FAILED, SET(start, MISSING), SET(size, X64_SIZE_2MIB), SET(free_count, 1)),
    ROW("below 2 MiB", X64_PARENT_ENTRY_HUGE_PAGE, SET(start, 0x200000)),
    ROW("below 2 MiB, and parents lack USER_ACCESSIBLE", X64_PARENT_ENTRY_HUGE_PAGE, SET(start, 0x200000), SET(parent_flags, 0x7)),
    ROW("2 MiB below 1 GiB", X64_PARENT_ENTRY_HUGE_PAGE, SET(start, 0x40000000), SET(size, X64_SIZE_2MIB)),
    ROW("more free frames than room", X64_BAD_ARRAY, SET(capacity, FREE - 1)),
    ROW("no pool, but free frames", X64_BAD_ARRAY, SET(null_pool, 1), SET(capacity, 0)),
    ROW("a bad array before a bad page", X64_BAD_ARRAY, SET(capacity, 0), SET(size, 0)),
    ROW("a bad page before bad parent flags", X64_BAD_PAGE, SET(start, 1), SET(parent_flags, 0x1000)),
};

/* Bad pages of every function that takes one. */
static const struct row pages[] = {
    ROW("a page of no size", X64_BAD_PAGE, SET(size, 0)),
    ROW("a page of 8 KiB", X64_BAD_PAGE, SET(size, 0x2000)),
    ROW("a page of 512 GiB", X64_BAD_PAGE, SET(start, 0), SET(size, UINT64_C(1) << 39)),
    ROW("a start that is no multiple", X64_BAD_PAGE, SET(start, 0x1800)),
    ROW("a start that is no multiple of 2 MiB", X64_BAD_PAGE, SET(size, X64_SIZE_2MIB)),
    ROW("a start that is no multiple of 1 GiB", X64_BAD_PAGE, SET(start, 0x200000), SET(size, X64_SIZE_1GIB)),
    ROW("a start that isn't canonical", X64_BAD_PAGE, SET(start, NOT_CANONICAL)),
    ROW("a start that isn't canonical with four levels", X64_BAD_PAGE, SET(start, NOT_CANONICAL_4), SET(only, 4)),
};

static const struct row unmap[] = {
    {"4 KiB", X64_OK, {SET(start, 0x1000)}, 1, 0, 0, {0x5000}},
    {"2 MiB", X64_OK, {SET(start, 0x200000), SET(size, X64_SIZE_2MIB)}, 1, 0, 0, {0x400000}},
    {"1 GiB", X64_OK, {SET(start, 0x40000000), SET(size, X64_SIZE_1GIB)}, 1, 0, 0, {0x80000000}},
    ROW("an unused entry", X64_PAGE_NOT_MAPPED, USUAL),
    ROW("no PRESENT", X64_PAGE_NOT_MAPPED, SET(start, 0x2000)),
    ROW("2 MiB without PRESENT", X64_PAGE_NOT_MAPPED, SET(start, 0x600000), SET(size, X64_SIZE_2MIB)),
    ROW("no PRESENT above", X64_PAGE_NOT_MAPPED, SET(start, 0x800000)),
    ROW("no tables there", X64_PAGE_NOT_MAPPED, SET(start, MISSING)),
    ROW("below 2 MiB", X64_PARENT_ENTRY_HUGE_PAGE, SET(start, 0x200000)),
    ROW("2 MiB below 1 GiB", X64_PARENT_ENTRY_HUGE_PAGE, SET(start, 0x40000000), SET(size, X64_SIZE_2MIB)),
    ROW("4 KiB with bit 7", X64_PARENT_ENTRY_HUGE_PAGE, SET(start, 0x3000)),
    ROW("a table is there", X64_PARENT_ENTRY_HUGE_PAGE, SET(start, 0), SET(size, X64_SIZE_2MIB)),
    WRITES("2 MiB, an address that is no multiple", X64_INVALID_FRAME_ADDRESS, OUT(0x601000, 0, 0, 0), SET(start, 0x400000),
        SET(size, X64_SIZE_2MIB)),
    WRITES("1 GiB, an address that is no multiple", X64_INVALID_FRAME_ADDRESS, OUT(0xc0001000, 0, 0, 0), SET(start, 0x80000000),
        SET(size, X64_SIZE_1GIB)),
};

static const struct row update_flags[] = {
    CHANGES("4 KiB", X64_OK, 1, SET(start, 0x1000), SET(flags, 0x1)),
    CHANGES("4 KiB to bit 7", X64_OK, 1, SET(start, 0x1000), SET(flags, 0x83)),
    CHANGES("4 KiB without PRESENT", X64_OK, 1, SET(start, 0x2000)),
    CHANGES("2 MiB keeps HUGE_PAGE", X64_OK, 1, SET(start, 0x200000), SET(size, X64_SIZE_2MIB), SET(flags, 0)),
    ROW("2 MiB has these flags", X64_OK, SET(start, 0x200000), SET(size, X64_SIZE_2MIB)),
    CHANGES("1 GiB", X64_OK, 1, SET(start, 0x40000000), SET(size, X64_SIZE_1GIB), SET(flags, 0x1)),
    ROW("an address in the flags", X64_NOT_ALLOWED, SET(start, 0x1000), SET(flags, 0x1001)),
    ROW("not allowed before not mapped", X64_NOT_ALLOWED, SET(flags, 0x1001)),
    ROW("an unused entry", X64_PAGE_NOT_MAPPED, USUAL),
    ROW("no PRESENT above", X64_PAGE_NOT_MAPPED, SET(start, 0x800000)),
    ROW("no tables there", X64_PAGE_NOT_MAPPED, SET(start, MISSING)),
    ROW("a table is there", X64_PAGE_NOT_MAPPED, SET(start, 0), SET(size, X64_SIZE_2MIB)),
    ROW("below 2 MiB", X64_PARENT_ENTRY_HUGE_PAGE, SET(start, 0x200000)),
    ROW("a bad page before bad flags", X64_BAD_PAGE, SET(start, 1), SET(flags, 0x1000)),
};

static const struct row set_table_flags[] = {
    CHANGES("level four", X64_OK, 1, SET(flags, 0x7)),
    CHANGES("level five", X64_OK, 1, SET(level, 5), SET(flags, 0x7), SET(only, 5)),
    CHANGES("level three", X64_OK, 1, SET(level, 3), SET(flags, 0x7)),
    CHANGES("level two", X64_OK, 1, SET(level, 2), SET(flags, 0x1)),
    CHANGES("level two without PRESENT", X64_OK, 1, SET(level, 2), SET(flags, 0)),
    CHANGES("HUGE_PAGE stays", X64_OK, 1, SET(start, 0x200000), SET(level, 2), SET(flags, 0x87)),
    ROW("an address in the flags", X64_NOT_ALLOWED, SET(flags, 0x1003)),
    ROW("HUGE_PAGE at level four", X64_NOT_ALLOWED, SET(flags, 0x83)),
    ROW("HUGE_PAGE at level five", X64_NOT_ALLOWED, SET(level, 5), SET(flags, 0x83), SET(only, 5)),
    ROW("a table would become a page", X64_NOT_ALLOWED, SET(level, 2), SET(flags, 0x83)),
    ROW("a page of 2 MiB would become a table", X64_NOT_ALLOWED, SET(start, 0x200000), SET(level, 2)),
    ROW("a page of 1 GiB would become a table", X64_NOT_ALLOWED, SET(start, 0x40000000), SET(level, 3)),
    ROW("the level of the page", X64_PARENT_ENTRY_HUGE_PAGE, SET(start, 0x200000), SET(size, X64_SIZE_2MIB), SET(level, 2)),
    ROW("a level below that of the page", X64_PARENT_ENTRY_HUGE_PAGE, SET(start, 0x40000000), SET(size, X64_SIZE_1GIB),
        SET(level, 2)),
    ROW("below 1 GiB", X64_PARENT_ENTRY_HUGE_PAGE, SET(start, 0x40000000), SET(level, 2)),
    ROW("an unused entry", X64_PAGE_NOT_MAPPED, SET(start, 0xa00000), SET(level, 2)),
    ROW("an unused entry, and HUGE_PAGE", X64_PAGE_NOT_MAPPED, SET(start, 0xa00000), SET(level, 2), SET(flags, 0x83)),
    ROW("no tables there", X64_PAGE_NOT_MAPPED, SET(start, MISSING), SET(level, 2)),
    ROW("no PRESENT above", X64_PAGE_NOT_MAPPED, SET(level, 2), SET(word_table, 3), SET(word_flags, 0x2), SET(word_names, 4)),
    ROW("level 0", X64_BAD_LEVELS, SET(level, 0)),
    ROW("level one", X64_BAD_LEVELS, SET(level, 1)),
    ROW("level six", X64_BAD_LEVELS, SET(level, 6)),
    ROW("level five of four", X64_BAD_LEVELS, SET(level, 5), SET(only, 4)),
    ROW("a bad root before a bad level", X64_BAD_ROOT, SET(level, 1), SET(root_offset, 8)),
    ROW("a bad level before a bad page", X64_BAD_LEVELS, SET(level, 1), SET(size, 0)),
    ROW("a bad page before bad flags", X64_BAD_PAGE, SET(start, 1), SET(flags, 0x1000)),
};

/* Bad numbers of pages of every function that takes one. */
static const struct row ranges[] = {
    ROW("behind the last page", X64_BAD_PAGE, SET(start, LAST_PAGE), SET(count, 2)),
    ROW("behind the lower half with four levels", X64_BAD_PAGE, SET(start, NOT_CANONICAL_4 - 0x1000), SET(count, 2), SET(only, 4)),
    ROW("behind the lower half with five levels", X64_BAD_PAGE, SET(start, NOT_CANONICAL - 0x1000), SET(count, 2), SET(only, 5)),
    ROW("behind the upper half by 2 MiB", X64_BAD_PAGE, SET(start, UINT64_C(0xffffffffffe00000)), SET(size, X64_SIZE_2MIB),
        SET(count, 2)),
    ROW("more bytes than 64 bits count", X64_BAD_PAGE, SET(count, (UINT64_C(1) << 52) + 1)),
    ROW("the greatest number", X64_BAD_PAGE, SET(count, UINT64_MAX)),
    ROW("a page of no size, and no page", X64_BAD_PAGE, SET(size, 0), SET(count, 0)),
};

/* How many pages were mapped. */
static const struct row map_range[] = {
    {"one page", X64_OK, {USUAL}, 1, 0, 0, {1}},
    {"all to the end of a table", X64_OK, {SET(count, 508)}, 508, 0, 0, {508}},
    {"2 MiB", X64_OK, {SET(start, 0xa00000), SET(size, X64_SIZE_2MIB), SET(frame, 0x800000), SET(count, 2)}, 2, 0, 0, {2}},
    {"1 GiB", X64_OK, {SET(start, 0x100000000), SET(size, X64_SIZE_1GIB), SET(frame, 0), SET(count, 2)}, 2, 0, 0, {2}},
    {"three new tables", X64_OK, {SET(start, MISSING), SET(count, 2)}, 1 + 3 * 512, 0, 3, {2}},
    {"the last pages", X64_OK, {SET(start, LAST_PAGE - 0x1000), SET(count, 2), SET(only, 4)}, 1 + 3 * 512, 0, 3, {2}},
    {"the last frames", X64_OK, {SET(frame, UINT64_C(0xfffffffffe000)), SET(count, 2)}, 2, 0, 0, {2}},
    ROW("no page", X64_OK, SET(count, 0)),
    ROW("no page at all, with bad flags", X64_OK, SET(count, 0), SET(flags, 0x1003)),
    ROW("no page, and parents without PRESENT", X64_NOT_ALLOWED, SET(count, 0), SET(parent_flags, 0x2)),
    ROW("parents without PRESENT, which have it", X64_NOT_ALLOWED, SET(parent_flags, 0x2)),
    ROW("an address in the flags", X64_NOT_ALLOWED, SET(flags, 0x1003)),
    ROW("an address in the parent flags", X64_NOT_ALLOWED, SET(parent_flags, 0x1003)),
    ROW("HUGE_PAGE in the parent flags", X64_NOT_ALLOWED, SET(parent_flags, 0x83)),
    ROW("HUGE_PAGE for 4 KiB", X64_NOT_ALLOWED, SET(flags, 0x83)),
    ROW("no free frame", X64_FRAME_ALLOCATION_FAILED, SET(start, MISSING), SET(free_count, 0)),
    {"no free frame for the second page", X64_FRAME_ALLOCATION_FAILED, {SET(start, MISSING + 0x1ff000), SET(count, 2)},
        1 + 3 * 512, 0, 3, {1}},
    ROW("below 2 MiB", X64_PARENT_ENTRY_HUGE_PAGE, SET(start, 0x200000)),
    {"up to 2 MiB", X64_PARENT_ENTRY_HUGE_PAGE, {SET(start, 0x1fe000), SET(count, 4)}, 2, 0, 0, {2}},
    ROW("mapped", X64_PAGE_ALREADY_MAPPED, SET(start, 0x1000), SET(count, 4)),
    {"up to a mapped one", X64_PAGE_ALREADY_MAPPED, {SET(start, 0), SET(count, 8)}, 1, 0, 0, {1}},
    ROW("more free frames than room", X64_BAD_ARRAY, SET(capacity, FREE - 1)),
    ROW("a bad array before a bad range", X64_BAD_ARRAY, SET(capacity, 0), SET(count, UINT64_MAX)),
    ROW("a bad range before a bad frame", X64_BAD_PAGE, SET(count, UINT64_MAX), SET(frame, 1)),
    ROW("a frame that is no multiple", X64_BAD_FRAME, SET(frame, 0x9800)),
    ROW("a frame from 2^52 on", X64_BAD_FRAME, SET(frame, UINT64_C(1) << 52)),
    ROW("a second frame from 2^52 on", X64_BAD_FRAME, SET(frame, UINT64_C(0xffffffffff000)), SET(count, 2)),
    ROW("a bad frame before bad flags", X64_BAD_FRAME, SET(frame, 1), SET(flags, 0x1000)),
};

/* How many pages were looked at, how many frames there are, and the first and the last of these. */
static const struct row unmap_range[] = {
    {"one page", X64_OK, {SET(start, 0x1000)}, 1, 0, 0, {1, 1, 0x5000, 0x5000}},
    {"one page of eight", X64_OK, {SET(start, 0), SET(count, LISTED)}, 1, 0, 0, {LISTED, 1, 0x5000, 0x5000}},
    {"two pages", X64_OK, {SET(start, 0x1000), SET(count, 2), SET(word_table, 5), SET(word_index, 2), SET(word_flags, 0x6003)},
        2, 0, 0, {2, 2, 0x5000, 0x6000}},
    {"2 MiB", X64_OK, {SET(start, 0), SET(size, X64_SIZE_2MIB), SET(count, LISTED)}, 1, 0, 0, {LISTED, 1, 0x400000, 0x400000}},
    {"1 GiB", X64_OK, {SET(start, 0), SET(size, X64_SIZE_1GIB), SET(count, LISTED)}, 1, 0, 0,
        {LISTED, 1, 0x80000000, 0x80000000}},
    WRITES("below 2 MiB", X64_OK, OUT(LISTED, 0, 0, 0), SET(start, 0x200000), SET(count, LISTED)),
    WRITES("no tables there", X64_OK, OUT(LISTED, 0, 0, 0), SET(start, MISSING), SET(count, LISTED)),
    WRITES("the last page", X64_OK, OUT(1, 0, 0, 0), SET(start, LAST_PAGE)),
    ROW("no page", X64_OK, SET(count, 0)),
    ROW("no page, and no array", X64_OK, SET(count, 0), SET(list_capacity, 0), SET(null_list, 1)),
    {"room for all but one", X64_MORE, {SET(start, 0), SET(count, LISTED + 1)}, 1, 0, 0, {LISTED, 1, 0x5000, 0x5000}},
    {"room for one", X64_MORE, {SET(start, 0x1000), SET(count, 2), SET(list_capacity, 1)}, 1, 0, 0, {1, 1, 0x5000, 0x5000}},
    ROW("no room", X64_MORE, SET(start, 0x1000), SET(list_capacity, 0)),
    ROW("no array", X64_MORE, SET(start, 0x1000), SET(list_capacity, 0), SET(null_list, 1)),
};

/* How many pages were changed. */
static const struct row update_flags_range[] = {
    {"one page", X64_OK, {SET(start, 0x1000), SET(flags, 0x1)}, 1, 0, 0, {1}},
    {"three pages of a table", X64_OK, {SET(start, 0), SET(count, 512), SET(flags, 0x1)}, 3, 0, 0, {3}},
    {"a table, and a page of 2 MiB", X64_OK, {SET(start, 0), SET(count, 1024), SET(flags, 0x1)}, 3, 0, 0, {3}},
    {"2 MiB", X64_OK, {SET(start, 0), SET(size, X64_SIZE_2MIB), SET(count, 512), SET(flags, 0x1)}, 3, 0, 0, {3}},
    {"1 GiB", X64_OK, {SET(start, 0), SET(size, X64_SIZE_1GIB), SET(count, 512), SET(flags, 0x1)}, 2, 0, 0, {2}},
    WRITES("the flags that a page has", X64_OK, OUT(1, 0, 0, 0), SET(start, 0x1000)),
    ROW("no tables there", X64_OK, SET(start, MISSING), SET(count, 1 << 20)),
    ROW("no page", X64_OK, SET(count, 0)),
    ROW("an address in the flags", X64_NOT_ALLOWED, SET(start, 0x1000), SET(flags, 0x1001)),
    ROW("no page, and an address in the flags", X64_NOT_ALLOWED, SET(count, 0), SET(flags, 0x1001)),
    ROW("a bad page before bad flags", X64_BAD_PAGE, SET(start, 1), SET(flags, 0x1000)),
};

/* Of ranges of pages of all sizes, whose words come back: how many pages, the first one with its word, and where the range goes on. These
 * are tried with all three functions. */
static const struct row word_ranges[] = {
    ROW("nothing there", X64_OK, SET(first_page, MISSING)),
    ROW("the last page before the first one", X64_OK, SET(first_page, LAST_PAGE), SET(last_page, 0)),
    ROW("no array, and nothing there", X64_OK, SET(first_page, MISSING), SET(list_capacity, 0), SET(null_list, 1)),
    WRITES("no array", X64_MORE, OUT(0, 0, 0, 0x1000), SET(list_capacity, 0), SET(null_list, 1)),
    WRITES("from inside a larger page on", X64_PARENT_ENTRY_HUGE_PAGE, OUT(0, 0, 0, 0x201000), SET(first_page, 0x201000)),
    WRITES("inside a larger page", X64_PARENT_ENTRY_HUGE_PAGE, OUT(0, 0, 0, 0x40001000), SET(first_page, 0x40001000),
        SET(last_page, 0x40001000)),
    ROW("a first page that is no multiple", X64_BAD_PAGE, SET(first_page, 1)),
    ROW("a last page that is no multiple", X64_BAD_PAGE, SET(last_page, 0xfff)),
    ROW("a first page that isn't canonical", X64_BAD_PAGE, SET(first_page, NOT_CANONICAL)),
    ROW("a last page that isn't canonical", X64_BAD_PAGE, SET(last_page, NOT_CANONICAL)),
    ROW("a last page that isn't canonical with four levels", X64_BAD_PAGE, SET(last_page, NOT_CANONICAL_4), SET(only, 4)),
};

static const struct row list_range[] = {
    WRITES("all", X64_OK, OUT(LISTED, 0x1000, 0x5003, 0), USUAL),
    WRITES("a page without PRESENT", X64_OK, OUT(1, 0x2000, 0x6002, 0), SET(first_page, 0x2000), SET(last_page, 0x2000)),
    WRITES("an array for three", X64_MORE, OUT(3, 0x1000, 0x5003, 0x200000), SET(list_capacity, 3)),
    WRITES("up to a part of a page", X64_PARENT_ENTRY_HUGE_PAGE, OUT(3, 0x1000, 0x5003, 0x200000), SET(last_page, 0x200000)),
    WRITES("a part of a page without PRESENT", X64_PARENT_ENTRY_HUGE_PAGE, OUT(0, 0, 0, 0x601000), SET(first_page, 0x601000)),
};

static const struct row take_range[] = {
    {"all", X64_OK, {USUAL}, LISTED, 0, 0, {LISTED, 0x1000, 0x5003, 0}},
    {"a page without PRESENT", X64_OK, {SET(first_page, 0x2000), SET(last_page, 0x2000)}, 1, 0, 0, {1, 0x2000, 0x6002, 0}},
    {"an array for three", X64_MORE, {SET(list_capacity, 3)}, 3, 0, 0, {3, 0x1000, 0x5003, 0x200000}},
    {"up to a part of a page", X64_PARENT_ENTRY_HUGE_PAGE, {SET(last_page, 0x200000)}, 3, 0, 0, {3, 0x1000, 0x5003, 0x200000}},
};

#define READ_ONLY SET(keep, ~X64_WRITABLE), SET(flags, 0)
static const struct row change_range[] = {
    {"all present ones", X64_OK, {READ_ONLY}, MAPPED, 0, 0, {MAPPED, 0x1000, 0x5003, 0}},
    {"all lose PRESENT", X64_OK, {SET(keep, ~X64_PRESENT), SET(flags, 0x2)}, MAPPED, 0, 0, {MAPPED, 0x1000, 0x5003, 0}},
    WRITES("the flags that they have", X64_OK, OUT(MAPPED, 0x1000, 0x5003, 0), USUAL),
    ROW("a page without PRESENT", X64_OK, SET(first_page, 0x2000), SET(last_page, 0x2000)),
    ROW("a part of a page without PRESENT", X64_OK, SET(first_page, 0x601000), SET(last_page, 0x7ff000)),
    {"an array for two", X64_MORE, {READ_ONLY, SET(list_capacity, 2)}, 2, 0, 0, {2, 0x1000, 0x5003, 0x200000}},
    {"up to a part of a page", X64_PARENT_ENTRY_HUGE_PAGE, {READ_ONLY, SET(last_page, 0x200000)}, 2, 0, 0,
        {2, 0x1000, 0x5003, 0x200000}},
    ROW("HUGE_PAGE isn't kept", X64_NOT_ALLOWED, SET(keep, ~X64_HUGE_PAGE)),
    ROW("the lowest bit of the address isn't kept", X64_NOT_ALLOWED, SET(keep, ~UINT64_C(0x1000))),
    ROW("the highest bit of the address isn't kept", X64_NOT_ALLOWED, SET(keep, ~(UINT64_C(1) << 51))),
    ROW("HUGE_PAGE is set", X64_NOT_ALLOWED, SET(flags, X64_HUGE_PAGE)),
    ROW("an address is set", X64_NOT_ALLOWED, SET(flags, UINT64_C(1) << 51)),
    ROW("no page, and an address is set", X64_NOT_ALLOWED, SET(first_page, LAST_PAGE), SET(last_page, 0), SET(flags, 0x1000)),
    ROW("a bad page before bad masks", X64_BAD_PAGE, SET(first_page, 1), SET(keep, 0), SET(flags, 0x1000)),
};

/* The table that comes back last, of both clean ups: no entry of the root names it. */
static const struct row clean_up[] = {
    {"all", X64_OK, {USUAL}, 1, 0, -1, {7}},
    {"the page alone", X64_OK, {SET(first_page, 0xc0000000), SET(last_page, 0xc0000000)}, 1, 0, -1, {7}},
    ROW("all before it", X64_OK, SET(last_page, 0xbffff000)),
};

/* Pages that are dropped, and the table that comes back last; or where the range goes on. */
static const struct row drop_rows[] = {
    {"all", X64_OK, {USUAL}, LISTED + 2, 0, -2, {7}},
    {"a page without PRESENT", X64_OK, {SET(first_page, 0x2000), SET(last_page, 0x2000)}, 1, 0, 0, {0}},
    {"all pages of a table", X64_OK, {SET(last_page, 0x3000)}, 4, 0, -1, {5}},
    {"up to a part of a page", X64_PARENT_ENTRY_HUGE_PAGE, {SET(last_page, 0x200000)}, 4, 0, -1, {5}},
    {"from inside a larger page on", X64_PARENT_ENTRY_HUGE_PAGE, {SET(first_page, 0x201000)}, 1, 0, -1, {7}},
    WRITES("inside a larger page", X64_PARENT_ENTRY_HUGE_PAGE, OUT(0x40001000), SET(first_page, 0x40001000),
        SET(last_page, 0x40001000)),
};

/* Ranges whose tables are freed, of all functions that free some: nothing there, and bad arguments. */
static const struct row freed_ranges[] = {
    ROW("all after it", X64_OK, SET(first_page, 0x100000000)),
    ROW("the last page before the first one", X64_OK, SET(first_page, LAST_PAGE), SET(last_page, 0)),
    ROW("more free frames than room", X64_BAD_ARRAY, SET(capacity, FREE - 1)),
    ROW("a first page that is no multiple", X64_BAD_PAGE, SET(first_page, 0x800)),
    ROW("a last page that is no multiple", X64_BAD_PAGE, SET(last_page, UINT64_MAX)),
    ROW("a first page that isn't canonical", X64_BAD_PAGE, SET(first_page, NOT_CANONICAL)),
    ROW("a last page that isn't canonical", X64_BAD_PAGE, SET(last_page, NOT_CANONICAL)),
};

#define EXECUTE_TAKEN (X64_PRESENT | X64_NO_EXECUTE)

/* What has to be flushed after calls. */
static const struct {
    uint32_t call;
    uint64_t parent_flags;
    uint32_t status, flush;
} flushes[] = {
    {X64_CALL_MAP, X64_PRESENT | X64_WRITABLE, X64_OK, X64_FLUSH_NOTHING},
    {X64_CALL_MAP, X64_PRESENT, X64_PAGE_ALREADY_MAPPED, X64_FLUSH_NOTHING},
    {X64_CALL_MAP, UINT64_MAX >> 1, X64_OK, X64_FLUSH_NOTHING},
    {X64_CALL_MAP, EXECUTE_TAKEN, X64_OK, X64_FLUSH_EVERYTHING},
    {X64_CALL_MAP, EXECUTE_TAKEN, X64_FRAME_ALLOCATION_FAILED, X64_FLUSH_EVERYTHING},
    {X64_CALL_MAP, EXECUTE_TAKEN, X64_PARENT_ENTRY_HUGE_PAGE, X64_FLUSH_EVERYTHING},
    {X64_CALL_MAP, EXECUTE_TAKEN, X64_PAGE_ALREADY_MAPPED, X64_FLUSH_EVERYTHING},
    {X64_CALL_MAP, EXECUTE_TAKEN, X64_NOT_ALLOWED, X64_FLUSH_NOTHING},
    {X64_CALL_MAP, EXECUTE_TAKEN, X64_BAD_LEVELS, X64_FLUSH_NOTHING},
    {X64_CALL_MAP, EXECUTE_TAKEN, X64_BAD_FRAME, X64_FLUSH_NOTHING},
    {X64_CALL_UNMAP, EXECUTE_TAKEN, X64_OK, X64_FLUSH_PAGE},
    {X64_CALL_UNMAP, 0, X64_MORE, X64_FLUSH_PAGE},
    {X64_CALL_UNMAP, 0, X64_PAGE_NOT_MAPPED, X64_FLUSH_NOTHING},
    {X64_CALL_UNMAP, 0, X64_PARENT_ENTRY_HUGE_PAGE, X64_FLUSH_NOTHING},
    {X64_CALL_UNMAP, 0, X64_INVALID_FRAME_ADDRESS, X64_FLUSH_NOTHING},
    {X64_CALL_UNMAP, 0, X64_BAD_PAGE, X64_FLUSH_NOTHING},
    {X64_CALL_UPDATE_FLAGS, EXECUTE_TAKEN, X64_OK, X64_FLUSH_PAGE},
    {X64_CALL_UPDATE_FLAGS, 0, X64_PAGE_NOT_MAPPED, X64_FLUSH_NOTHING},
    {X64_CALL_UPDATE_FLAGS, 0, X64_PARENT_ENTRY_HUGE_PAGE, X64_FLUSH_NOTHING},
    {X64_CALL_UPDATE_FLAGS, 0, X64_NOT_ALLOWED, X64_FLUSH_NOTHING},
    {X64_CALL_UPDATE_FLAGS, 0, X64_BAD_PAGE, X64_FLUSH_NOTHING},
    {X64_CALL_SET_TABLE_FLAGS, 0, X64_OK, X64_FLUSH_EVERYTHING},
    {X64_CALL_SET_TABLE_FLAGS, EXECUTE_TAKEN, X64_PAGE_NOT_MAPPED, X64_FLUSH_NOTHING},
    {X64_CALL_SET_TABLE_FLAGS, 0, X64_PARENT_ENTRY_HUGE_PAGE, X64_FLUSH_NOTHING},
    {X64_CALL_SET_TABLE_FLAGS, 0, X64_NOT_ALLOWED, X64_FLUSH_NOTHING},
    {X64_CALL_SET_TABLE_FLAGS, 0, X64_BAD_LEVELS, X64_FLUSH_NOTHING},
    {X64_CALL_CLEAN_UP, EXECUTE_TAKEN, X64_OK, X64_FLUSH_TABLES},
    {X64_CALL_CLEAN_UP, 0, X64_BAD_ARRAY, X64_FLUSH_NOTHING},
    {X64_CALL_CLEAN_UP + 1, 0, X64_OK, X64_FLUSH_EVERYTHING},
    {UINT32_MAX, 0, X64_OK, X64_FLUSH_EVERYTHING},
    {UINT32_MAX, 0, X64_BAD_PAGE, X64_FLUSH_NOTHING},
};

/* ---- the test */

static size_t checked, failed;
static bool met[FUNCTIONS][STATUSES];

/* Says what is wrong with a row. */
static void fail(enum function function, const struct row *row, uint64_t levels, const char *format, uint64_t is, uint64_t wanted) {
    failed++;
    fprintf(stderr, "%s: %s (%" PRIu64 " levels, frames from %" PRIu64 " on): ", names[function], row->what, levels, first);
    fprintf(stderr, format, is, wanted);
    fprintf(stderr, "\n");
}

/* Sets in the memory what a row wants otherwise. */
static void prepare(const struct arguments *a) {
    if (a->word_table != 0)
        world.tables[a->word_table].words[a->word_index] = (a->word_names != 0 ? table(a->word_names) : 0) | a->word_flags;
    for (size_t n = 1; n < 6 && a->user_pages; n++)
        for (size_t index = 0; index < 512; index++)
            if (world.tables[n].words[index] != 0)
                world.tables[n].words[index] |= X64_USER_ACCESSIBLE;
    if (a->pool_table != 0)
        world.pool[0] = table(a->pool_table) + a->pool_offset;
    if (a->pool_zero)
        world.pool[0] = 0;
    world.roots[0] = a->root;
    world.roots[1] = a->second_root != 0 ? a->second_root : a->root;
    world.free_count = a->free_count;
}

/* Returns how many words differ. */
static size_t changed_words(void) {
    size_t count = 0;
    for (size_t n = 0; n < TABLES; n++)
        for (size_t index = 0; index < 512; index++)
            count += world.tables[n].words[index] != before.tables[n].words[index];
    return count;
}

/* the table with the word that got X64_DIRTY, 0 if there is none */
static size_t dirty_table;

/* Checks that an access set nothing but X64_ACCESSED, and X64_DIRTY in one word, and finds its table. */
static void check_marks(const struct row *row, uint64_t levels) {
    dirty_table = 0;
    for (size_t n = 0; n < TABLES; n++)
        for (size_t index = 0; index < 512; index++) {
            uint64_t set = world.tables[n].words[index] ^ before.tables[n].words[index];
            if ((set & ~(X64_ACCESSED | X64_DIRTY)) != 0 || (set & before.tables[n].words[index]) != 0 ||
                ((set & X64_DIRTY) != 0 && dirty_table != 0))
                fail(ACCESS, row, levels, "bits 0x%" PRIx64 " of a word changed", set, 0);
            if ((set & X64_DIRTY) != 0)
                dirty_table = n;
        }
}

/* Checks that a new root has the template's entries at the shared indices alone. */
static void check_root(const struct row *row, const struct arguments *a) {
    const x64_table *root = &world.tables[world.root / 4096 - first], *template = &before.tables[1];
    for (uint64_t index = 0; index < 512; index++) {
        uint64_t wanted = a->shared_from <= index && index < a->shared_to ? template->words[index] : 0;
        if (root->words[index] != wanted)
            fail(NEW_SPACE, row, a->levels, "the root has 0x%" PRIx64 " and not 0x%" PRIx64, root->words[index], wanted);
    }
}

/* Checks that entries lead from the root down, one level after the other, and are those of the memory at the address. */
static void check_entries(const struct row *row, const struct arguments *a) {
    uint64_t at = a->root;
    for (size_t n = 0; n < world.count; n++) {
        const x64_entry *entry = &world.entries[n];
        uint64_t index = a->address >> (12 + 9 * (a->levels - n - 1)) & 511;
        uint64_t word = before.tables[at / 4096 - first].words[index];
        if (entry->level != a->levels - n || entry->table != at || entry->index != index || entry->word != word)
            fail(ENTRIES, row, a->levels, "entry %" PRIu64 " of %" PRIu64 " is another one", n, world.count);
        at = word & UINT64_C(0xffffffffff000);
    }
}

/* Reads what a call wrote through its out parameters, as a row has it, and puts back what was there before. */
static void read_out(enum function function, uint64_t levels, uint64_t out[4]) {
    memset(out, 0, 4 * sizeof *out);
    switch (function) {
    case PAGE_WALK:
        out[0] = world.walked.address, out[1] = world.walked.write, out[2] = world.walked.user;
        world.walked = before.walked;
        break;
    case WALK:
        out[0] = world.arrival.address, out[1] = world.arrival.write;
        out[2] = world.arrival.user, out[3] = !world.arrival.execute;
        world.arrival = before.arrival;
        break;
    case ENTRIES:
        out[0] = world.count - (levels - 4);
        out[1] = world.entries[world.count - 1].table / 4096 - first;
        out[2] = world.entries[world.count - 1].index, out[3] = world.entries[world.count - 1].word;
        memcpy(world.entries, before.entries, world.count * sizeof *world.entries);
        world.count = before.count;
        break;
    case TRANSLATE:
        out[0] = world.translation.frame, out[1] = world.translation.size;
        out[2] = world.translation.offset, out[3] = world.translation.flags;
        world.translation = before.translation;
        break;
    case MAPPINGS:
        out[0] = world.count;
        if (world.count != 0)
            out[1] = world.mappings[0].start, out[2] = world.mappings[0].frame;
        memcpy(world.mappings, before.mappings, world.count * sizeof *world.mappings);
        world.count = before.count;
        break;
    case LIST_RANGE:
    case TAKE_RANGE:
    case CHANGE_RANGE:
        out[0] = world.count, out[3] = world.next == before.next ? 0 : world.next;
        if (world.count != 0)
            out[1] = world.pages[0].page, out[2] = world.pages[0].word;
        memcpy(world.pages, before.pages, world.count * sizeof *world.pages);
        world.count = before.count;
        world.next = before.next;
        break;
    case DROP:
        out[0] = world.next == before.next ? 0 : world.next;
        world.next = before.next;
        break;
    case OUTCOME_OF:
    case ACCESS:
        out[0] = world.outcome.address, out[1] = world.outcome.code, out[2] = world.outcome.level;
        out[3] = function == ACCESS ? dirty_table : 0;
        world.outcome = before.outcome;
        break;
    case UNMAP:
        out[0] = world.frame;
        world.frame = before.frame;
        break;
    case NEW_SPACE:
        out[0] = world.root / 4096 - first;
        world.root = before.root;
        break;
    case UNMAP_RANGE:
        out[0] = world.done, out[1] = world.count;
        if (world.count != 0)
            out[2] = world.frames[0], out[3] = world.frames[world.count - 1];
        memcpy(world.frames, before.frames, world.count * sizeof *world.frames);
        world.done = before.done;
        world.count = before.count;
        break;
    case MAP_RANGE:
    case UPDATE_FLAGS_RANGE:
        out[0] = world.done;
        world.done = before.done;
        break;
    default:
        break;
    }
}

/* Whether a call with this status writes through out parameters. */
static bool writes(enum function function, uint32_t status) {
    if (function == ENTRIES)
        return status < X64_BAD_LEVELS;
    if (function == LIST_RANGE || function == DROP || function == TAKE_RANGE || function == CHANGE_RANGE)
        return status == X64_OK || status == X64_MORE || status == X64_PARENT_ENTRY_HUGE_PAGE;
    if (function == MAP_RANGE && (status == X64_FRAME_ALLOCATION_FAILED || status == X64_PARENT_ENTRY_HUGE_PAGE ||
        status == X64_PAGE_ALREADY_MAPPED))
        return true;
    return status == X64_OK || status == X64_MORE || status == X64_INVALID_FRAME_ADDRESS || status == X64_PAGE_FAULT ||
           status == X64_NO_TABLE;
}

/* Makes the call of a row. */
static uint32_t call_row(enum function function, const struct arguments *a) {
    if (function > ACCESS || (function == ACCESS && a->mark))
        return call(function, a);
    if (mprotect(world.tables, sizeof world.tables, PROT_READ) != 0)
        abort();
    uint32_t status = call(function, a);
    if (mprotect(world.tables, sizeof world.tables, PROT_READ | PROT_WRITE) != 0)
        abort();
    return status;
}

/* Lists on from where a call stopped, and checks that together they are all. */
static void go_on(const struct row *row, const struct arguments *a) {
    struct arguments more = *a;
    size_t listed = world.count;
    x64_mapping list[LISTED];
    memcpy(list, world.mappings, sizeof list);
    more.address = world.next;
    more.list_capacity = LISTED;
    more.null_list = 0;
    if (call(MAPPINGS, &more) != X64_OK || listed + world.count != MAPPED)
        fail(MAPPINGS, row, a->levels, "%" PRIu64 " mappings and not %" PRIu64, listed + world.count, MAPPED);
    world.count = listed;
    world.next = before.next;
    memcpy(world.mappings, list, sizeof list);
}

/* Checks the pool, and puts back what was there before. */
static void check_pool(enum function function, const struct row *row, uint64_t levels) {
    if (world.free_count + (size_t)row->taken != before.free_count)
        fail(function, row, levels, "%" PRIu64 " free frames and not %" PRIu64, world.free_count,
             before.free_count - (size_t)row->taken);
    if (row->taken < 0 && world.pool[world.free_count - 1] != table(row->out[0]))
        fail(function, row, levels, "the frame 0x%" PRIx64 " came back, and not 0x%" PRIx64, world.pool[world.free_count - 1],
             table(row->out[0]));
    if (row->taken < 0)
        memcpy(world.pool + before.free_count, before.pool + before.free_count, (size_t)-row->taken * sizeof *world.pool);
    world.free_count = before.free_count;
}

/* Returns the arguments of a row. */
static struct arguments arguments_of(const struct row *row, uint64_t levels) {
    struct arguments arguments = usual(levels);
    for (size_t n = 0; n < SETTINGS; n++)
        if (row->set[n].at != 0 || row->set[n].value != 0)
            memcpy((char *)&arguments + row->set[n].at, &row->set[n].value, sizeof row->set[n].value);
    return arguments;
}

/* Whether a row is tried with so many levels. */
static bool is_tried(enum function function, const struct row *row, uint64_t levels) {
    uint64_t only = arguments_of(row, levels).only;
    return (only == 0 || only == levels) && (function != OUTCOME_OF || row->words == 0);
}

/* Tries a row. */
static void try_row(enum function function, const struct row *row, uint64_t levels) {
    struct arguments arguments = arguments_of(row, levels);
    fill(levels);
    prepare(&arguments);
    memcpy(&before, &world, sizeof world);

    uint32_t status = call_row(function, &arguments);
    checked++;
    if (status != row->status) {
        fail(function, row, levels, "status %" PRIu64 " and not %" PRIu64, status, row->status);
        return;
    }
    met[function][status] = true;

    size_t words = row->words + row->words_above * (levels - 3);
    if (changed_words() != words)
        fail(function, row, levels, "%" PRIu64 " words changed, and not %" PRIu64, changed_words(), words);
    if (function == ENTRIES && status < X64_BAD_LEVELS)
        check_entries(row, &arguments);
    if (function == ACCESS)
        check_marks(row, levels);
    if (function == NEW_SPACE && status == X64_OK)
        check_root(row, &arguments);
    if (words != 0)
        memcpy(world.tables, before.tables, sizeof world.tables);
    check_pool(function, row, levels);
    if (status < X64_BAD_LEVELS)
        memcpy(world.marks, before.marks, sizeof world.marks);
    if (function == MAPPINGS && status == X64_MORE)
        go_on(row, &arguments);
    if (writes(function, status)) {
        uint64_t out[4];
        read_out(function, levels, out);
        for (size_t n = 0; n < 4 && row->taken >= 0; n++)
            if (out[n] != row->out[n])
                fail(function, row, levels, "it wrote 0x%" PRIx64 " and not 0x%" PRIx64, out[n], row->out[n]);
    }
    /* all that a call may write was put back, so that nothing may differ now */
    if (memcmp(&world, &before, sizeof world) != 0)
        fail(function, row, levels, "it wrote what it may not write", 0, 0);
}

/* Tries rows with all numbers of levels, with tables from two frames on, and with segments if the function takes them. */
static void try_rows(enum function function, const struct row *rows, size_t count) {
    static const uint64_t firsts[] = {0, 16, 16};
    for (size_t n = 0; n < count; n++)
        for (size_t k = 0; k < (function == SPACES_FIT ? 2 : 3); k++)
            for (uint64_t levels = 4; levels <= 5; levels++)
                if (is_tried(function, &rows[n], levels)) {
                    first = firsts[k];
                    has_segments = k == 2;
                    try_row(function, &rows[n], levels);
                }
}

/* Compares what x64_flush_after returns with the table. */
static void try_flushes(void) {
    for (size_t n = 0; n < sizeof flushes / sizeof *flushes; n++) {
        uint32_t flush = x64_flush_after(flushes[n].call, flushes[n].parent_flags, flushes[n].status);
        checked++;
        if (flush != flushes[n].flush) {
            failed++;
            fprintf(stderr, "x64_flush_after: call %" PRIu32 ", %s: %" PRIu32 " and not %" PRIu32 "\n", flushes[n].call,
                    x64_status_name(flushes[n].status), flush, flushes[n].flush);
        }
    }
}

#define TRY(function, rows) try_rows(function, rows, sizeof rows / sizeof *rows)

/* Whether a function takes a hierarchy. */
static bool takes_hierarchy(enum function function) {
    return function != SPACES_FIT && function != OUTCOME_OF;
}

/* Whether a function takes a hierarchy whose root it uses. */
static bool takes_root(enum function function) {
    return takes_hierarchy(function) && function != SPACES_FIT_IN;
}

/* Checks that a function met just the statuses that the header says it may return, which come after X64_OK and end with it. */
static void check_statuses(enum function function, const uint32_t *statuses) {
    bool may[STATUSES] = {[X64_OK] = true, [X64_BAD_LEVELS] = true};
    may[X64_BAD_SEGMENTS] = takes_hierarchy(function);
    may[X64_BAD_ROOT] = takes_root(function);
    for (; *statuses != X64_OK; statuses++)
        may[*statuses] = true;
    for (uint32_t status = 0; status < STATUSES; status++)
        if (met[function][status] != may[status]) {
            failed++;
            fprintf(stderr, "%s: no row is about status %" PRIu32 "\n", names[function], status);
        }
}

int main(void) {
    for (int function = 0; function < FUNCTIONS; function++) {
        TRY((enum function)function, levels_rows);
        if (takes_hierarchy((enum function)function))
            TRY((enum function)function, segment_rows);
        if (takes_root((enum function)function))
            TRY((enum function)function, hierarchies);
        if (function == SPACES_FIT || function == SPACES_FIT_IN || function > CHANGE_RANGE)
            TRY((enum function)function, indices);
    }
    for (int function = MAP; function < CLEAN_UP; function++)
        TRY((enum function)function, pages);
    for (int function = MAP_RANGE; function < CLEAN_UP; function++)
        TRY((enum function)function, ranges);
    TRY(PAGE_WALK, page_walk);
    TRY(WALK, page_walk);
    TRY(WALK, walk);
    TRY(ENTRIES, entries);
    TRY(TRANSLATE, translate);
    TRY(MAPPINGS, mappings);
    TRY(LIST_RANGE, word_ranges);
    TRY(LIST_RANGE, list_range);
    TRY(IS_VALID, is_valid);
    TRY(POOL_FITS, is_valid);
    TRY(POOL_FITS, pool_fits);
    TRY(SPACES_FIT, spaces_fit);
    TRY(SPACES_FIT_IN, spaces_fit);
    TRY(OUTCOME_OF, outcome_of);
    TRY(OUTCOME_OF, access_rows);
    TRY(ACCESS, access_rows);
    TRY(MAP, map);
    TRY(MAP, refused_map);
    TRY(MAP_AS_MAPPER, map);
    TRY(MAP_AS_MAPPER, refused_map_as_mapper);
    TRY(PREPARE, prepare_rows);
    TRY(UNMAP, unmap);
    TRY(UPDATE_FLAGS, update_flags);
    TRY(SET_TABLE_FLAGS, set_table_flags);
    TRY(MAP_RANGE, map_range);
    TRY(UNMAP_RANGE, unmap_range);
    TRY(UPDATE_FLAGS_RANGE, update_flags_range);
    TRY(CLEAN_UP, clean_up);
    TRY(CLEAN_UP, freed_ranges);
    TRY(CLEAN_UP_BELOW_ROOT, clean_up);
    TRY(CLEAN_UP_BELOW_ROOT, freed_ranges);
    TRY(DROP, drop_rows);
    TRY(DROP, freed_ranges);
    TRY(TAKE_RANGE, word_ranges);
    TRY(TAKE_RANGE, take_range);
    TRY(CHANGE_RANGE, word_ranges);
    TRY(CHANGE_RANGE, change_range);
    TRY(NEW_SPACE, new_space);
    TRY(GIVE_UP_SPACE, give_up_space);

    static const uint32_t statuses[FUNCTIONS][8] = {
        [PAGE_WALK] = {X64_NOT_MAPPED, X64_BAD_ADDRESS},
        [WALK] = {X64_NOT_MAPPED, X64_BAD_ADDRESS},
        [ENTRIES] = {X64_NOT_MAPPED, X64_PARENT_ENTRY_HUGE_PAGE, X64_NO_TABLE, X64_BAD_ARRAY, X64_BAD_ADDRESS},
        [TRANSLATE] = {X64_NOT_MAPPED, X64_BAD_ADDRESS},
        [MAPPINGS] = {X64_MORE, X64_BAD_ADDRESS},
        [LIST_RANGE] = {X64_MORE, X64_PARENT_ENTRY_HUGE_PAGE, X64_BAD_PAGE},
        [IS_VALID] = {X64_NOT_VALID, X64_BAD_ARRAY},
        [POOL_FITS] = {X64_NOT_VALID, X64_BAD_ARRAY},
        [OUTCOME_OF] = {X64_PAGE_FAULT, X64_NO_TABLE, X64_BAD_ARRAY, X64_BAD_ACCESS, X64_BAD_ADDRESS},
        [ACCESS] = {X64_PAGE_FAULT, X64_NO_TABLE, X64_BAD_ACCESS, X64_BAD_ADDRESS},
        [MAP] = {X64_NOT_ALLOWED, X64_FRAME_ALLOCATION_FAILED, X64_PARENT_ENTRY_HUGE_PAGE, X64_PAGE_ALREADY_MAPPED,
                 X64_BAD_ARRAY, X64_BAD_PAGE, X64_BAD_FRAME},
        [MAP_AS_MAPPER] = {X64_NOT_ALLOWED, X64_FRAME_ALLOCATION_FAILED, X64_PARENT_ENTRY_HUGE_PAGE, X64_PAGE_ALREADY_MAPPED,
                           X64_BAD_ARRAY, X64_BAD_PAGE, X64_BAD_FRAME},
        [PREPARE] = {X64_NOT_ALLOWED, X64_FRAME_ALLOCATION_FAILED, X64_PARENT_ENTRY_HUGE_PAGE, X64_BAD_ARRAY, X64_BAD_PAGE},
        [UNMAP] = {X64_PARENT_ENTRY_HUGE_PAGE, X64_PAGE_NOT_MAPPED, X64_INVALID_FRAME_ADDRESS, X64_BAD_PAGE},
        [UPDATE_FLAGS] = {X64_NOT_ALLOWED, X64_PARENT_ENTRY_HUGE_PAGE, X64_PAGE_NOT_MAPPED, X64_BAD_PAGE},
        [SET_TABLE_FLAGS] = {X64_NOT_ALLOWED, X64_PARENT_ENTRY_HUGE_PAGE, X64_PAGE_NOT_MAPPED, X64_BAD_PAGE},
        [SPACES_FIT] = {X64_NOT_VALID, X64_BAD_ARRAY, X64_BAD_INDICES},
        [SPACES_FIT_IN] = {X64_NOT_VALID, X64_BAD_ARRAY, X64_BAD_INDICES},
        [MAP_RANGE] = {X64_NOT_ALLOWED, X64_FRAME_ALLOCATION_FAILED, X64_PARENT_ENTRY_HUGE_PAGE, X64_PAGE_ALREADY_MAPPED,
                       X64_BAD_ARRAY, X64_BAD_PAGE, X64_BAD_FRAME},
        [UNMAP_RANGE] = {X64_MORE, X64_BAD_PAGE},
        [UPDATE_FLAGS_RANGE] = {X64_NOT_ALLOWED, X64_BAD_PAGE},
        [CLEAN_UP] = {X64_BAD_ARRAY, X64_BAD_PAGE},
        [CLEAN_UP_BELOW_ROOT] = {X64_BAD_ARRAY, X64_BAD_PAGE},
        [DROP] = {X64_PARENT_ENTRY_HUGE_PAGE, X64_BAD_ARRAY, X64_BAD_PAGE},
        [TAKE_RANGE] = {X64_MORE, X64_PARENT_ENTRY_HUGE_PAGE, X64_BAD_PAGE},
        [CHANGE_RANGE] = {X64_NOT_ALLOWED, X64_MORE, X64_PARENT_ENTRY_HUGE_PAGE, X64_BAD_PAGE},
        [NEW_SPACE] = {X64_FRAME_ALLOCATION_FAILED, X64_BAD_ARRAY, X64_BAD_INDICES},
        [GIVE_UP_SPACE] = {X64_SPACE_IN_USE, X64_BAD_ARRAY, X64_BAD_INDICES},
    };
    for (int function = 0; function < FUNCTIONS; function++)
        check_statuses((enum function)function, statuses[function]);
    try_flushes();
    printf("statuses: %zu calls checked, %zu faults\n", checked, failed);
    return failed == 0 ? EXIT_SUCCESS : EXIT_FAILURE;
}
