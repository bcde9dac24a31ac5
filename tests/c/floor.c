/*
 * A map and an unmap by hand, as quick as C makes them.
 *
 * Most calls are on pages of 4 KiB in tables of four levels that are all there, with arguments that are right: these are done at once. For
 * any other one a function starts over, which saves the first one tests, statuses and registers. Levels of tables and sizes of pages are
 * constants where entries are read.
 */
#include <string.h>

#include "floor.h"

/* The bits of an entry that are the address of a frame. */
#define ADDRESS UINT64_C(0x000ffffffffff000)

#define INLINE static inline __attribute__((always_inline))
#define NOINLINE __attribute__((noinline))

/* Lets the compiler write a loop out. */
#ifdef __clang__
#define UNROLL _Pragma("unroll")
#else
#define UNROLL _Pragma("GCC unroll 4")
#endif

/* Returns the address of the frame with the number 0, as if it were in the array of tables. */
INLINE uintptr_t start_of(const x64_hierarchy *hierarchy, const x64_table *tables) {
    return (uintptr_t)tables - hierarchy->first * sizeof(x64_table);
}

/* Returns whether the root is the address of a frame in the array of tables. */
INLINE bool has_root(const x64_hierarchy *hierarchy, size_t table_count) {
    uint64_t number = hierarchy->root / sizeof(x64_table);
    return (hierarchy->root & ~ADDRESS) == 0 && number >= hierarchy->first && number - hierarchy->first < table_count;
}

/* Returns the size of the pages that entries of a level map. */
INLINE uint64_t size_of(unsigned level) {
    return X64_SIZE_4KIB << 9 * (level - 1);
}

/* Returns whether a page of a level starts at an address. */
INLINE bool starts_page(uint64_t start, unsigned levels, unsigned level) {
    unsigned bits = 12 + 9 * levels;
    return ((start + (UINT64_C(1) << (bits - 1))) >> bits | (start & (size_of(level) - 1))) == 0;
}

/* Returns the entry of a level on the way to a page. */
INLINE uint64_t *entry_at(uintptr_t table, uint64_t start, unsigned level) {
    return (uint64_t *)(table + (start >> (9 * level) & 0xff8));
}

/* Returns whether an entry names a table, or a page of 4 KiB. */
INLINE bool names_table(uint64_t word) {
    return (word & (X64_PRESENT | X64_HUGE_PAGE)) == X64_PRESENT;
}

/* Unmaps a page of a level. */
INLINE uint32_t unmap(const x64_hierarchy *hierarchy, x64_table *tables, uint64_t start, uint64_t *frame, unsigned levels, unsigned level) {
    if (!starts_page(start, levels, level))
        return X64_BAD_PAGE;
    uintptr_t memory = start_of(hierarchy, tables);
    uint64_t *entry = entry_at(memory + hierarchy->root, start, levels);
    uint64_t word = *entry;
    UNROLL
    for (unsigned above = levels; above > level; above--) {
        if (!names_table(word))
            return word & X64_PRESENT ? X64_PARENT_ENTRY_HUGE_PAGE : X64_PAGE_NOT_MAPPED;
        entry = entry_at(memory + (word & ADDRESS), start, above - 1);
        word = *entry;
    }
    if (!(word & X64_PRESENT) || names_table(word) != (level == 1))
        return word & X64_PRESENT ? X64_PARENT_ENTRY_HUGE_PAGE : X64_PAGE_NOT_MAPPED;
    *frame = word & ADDRESS;
    if ((word & ADDRESS & (size_of(level) - 1)) != 0)
        return X64_INVALID_FRAME_ADDRESS;
    *entry = 0;
    return X64_OK;
}

/* Unmaps a page with a number of levels of tables. */
INLINE uint32_t unmap_of_any_size(const x64_hierarchy *hierarchy, x64_table *tables, size_t table_count, const x64_page *page,
    uint64_t *frame, unsigned levels) {
    if (!has_root(hierarchy, table_count))
        return X64_BAD_ROOT;
    if (page->size == X64_SIZE_4KIB)
        return unmap(hierarchy, tables, page->start, frame, levels, 1);
    if (page->size == X64_SIZE_2MIB)
        return unmap(hierarchy, tables, page->start, frame, levels, 2);
    if (page->size == X64_SIZE_1GIB)
        return unmap(hierarchy, tables, page->start, frame, levels, 3);
    return X64_BAD_PAGE;
}

/* Unmaps any page. */
static NOINLINE uint32_t unmap_any(const x64_hierarchy *hierarchy, x64_table *tables, size_t table_count, const x64_page *page,
    uint64_t *frame) {
    if (hierarchy->levels == 4)
        return unmap_of_any_size(hierarchy, tables, table_count, page, frame, 4);
    if (hierarchy->levels == 5)
        return unmap_of_any_size(hierarchy, tables, table_count, page, frame, 5);
    return X64_BAD_LEVELS;
}

uint32_t floor_unmap(const x64_hierarchy *hierarchy, x64_table *tables, size_t table_count, const x64_page *page, uint64_t *frame) {
    uint64_t start = page->start;
    if (hierarchy->levels != 4 || !has_root(hierarchy, table_count) || page->size != X64_SIZE_4KIB || !starts_page(start, 4, 1))
        return unmap_any(hierarchy, tables, table_count, page, frame);
    uintptr_t memory = start_of(hierarchy, tables);
    uint64_t *entry = entry_at(memory + hierarchy->root, start, 4);
    UNROLL
    for (unsigned level = 3; level > 0; level--) {
        if (!names_table(*entry))
            return unmap_any(hierarchy, tables, table_count, page, frame);
        entry = entry_at(memory + (*entry & ADDRESS), start, level);
    }
    if (!names_table(*entry))
        return unmap_any(hierarchy, tables, table_count, page, frame);
    *frame = *entry & ADDRESS;
    *entry = 0;
    return X64_OK;
}

/* Returns whether a map with these flags is allowed, whatever the tables hold. */
INLINE bool flags_allowed(const x64_map_request *request, unsigned level) {
    uint64_t refused = ADDRESS | (level == 1 ? X64_HUGE_PAGE : 0);
    return ((request->flags & refused) | (request->parent_flags & (ADDRESS | X64_HUGE_PAGE))) == 0;
}

/* Returns whether all entries above a page would have X64_PRESENT, if none gets it. */
static bool are_present(uintptr_t memory, uint64_t root, uint64_t start, unsigned levels, unsigned level) {
    uint64_t table = root;
    for (unsigned above = levels; above > level; above--) {
        uint64_t word = *entry_at(memory + table, start, above);
        if (!(word & X64_PRESENT))
            return false;
        if (word & X64_HUGE_PAGE)
            return true;
        table = word & ADDRESS;
    }
    return true;
}

/* Makes a new table, which an entry names then. Returns its word, or 0 if there is no free frame. */
static uint64_t name_new_table(uintptr_t memory, uint64_t *pool, size_t *free_count, uint64_t *entry,
    uint64_t parent_flags) {
    if (*free_count == 0)
        return 0;
    uint64_t frame = pool[--*free_count];
    memset((void *)(memory + frame), 0, sizeof(x64_table));
    return *entry = frame | parent_flags;
}

/* Maps a page of a level. */
INLINE uint32_t map(const x64_hierarchy *hierarchy, x64_table *tables, uint64_t *pool, size_t *free_count, const x64_map_request *request,
    unsigned levels, unsigned level) {
    uint64_t start = request->page.start, flags = request->parent_flags;
    if (!starts_page(start, levels, level))
        return X64_BAD_PAGE;
    if ((request->frame & (~ADDRESS | (size_of(level) - 1))) != 0)
        return X64_BAD_FRAME;
    uintptr_t memory = start_of(hierarchy, tables);
    if (!flags_allowed(request, level) || (!(flags & X64_PRESENT) && !are_present(memory, hierarchy->root, start, levels, level)))
        return X64_NOT_ALLOWED;
    uint64_t table = hierarchy->root;
    UNROLL
    for (unsigned above = levels; above > level; above--) {
        uint64_t *entry = entry_at(memory + table, start, above);
        uint64_t word = *entry;
        if (word == 0) {
            word = name_new_table(memory, pool, free_count, entry, flags);
            if (word == 0)
                return X64_FRAME_ALLOCATION_FAILED;
        } else {
            *entry = word | flags;
            if (word & X64_HUGE_PAGE)
                return X64_PARENT_ENTRY_HUGE_PAGE;
        }
        table = word & ADDRESS;
    }
    uint64_t *entry = entry_at(memory + table, start, level);
    if (*entry != 0)
        return X64_PAGE_ALREADY_MAPPED;
    *entry = request->frame | request->flags | (level == 1 ? 0 : X64_HUGE_PAGE);
    return X64_OK;
}

/* Maps a page with a number of levels of tables. */
INLINE uint32_t map_of_any_size(const x64_hierarchy *hierarchy, x64_table *tables, size_t table_count, uint64_t *pool, size_t capacity,
    size_t *free_count, const x64_map_request *request, unsigned levels) {
    if (!has_root(hierarchy, table_count))
        return X64_BAD_ROOT;
    if (*free_count > capacity)
        return X64_BAD_ARRAY;
    if (request->page.size == X64_SIZE_4KIB)
        return map(hierarchy, tables, pool, free_count, request, levels, 1);
    if (request->page.size == X64_SIZE_2MIB)
        return map(hierarchy, tables, pool, free_count, request, levels, 2);
    if (request->page.size == X64_SIZE_1GIB)
        return map(hierarchy, tables, pool, free_count, request, levels, 3);
    return X64_BAD_PAGE;
}

/* Maps any page. */
static NOINLINE uint32_t map_any(const x64_hierarchy *hierarchy, x64_table *tables, size_t table_count, uint64_t *pool, size_t capacity,
    size_t *free_count, const x64_map_request *request) {
    if (hierarchy->levels == 4)
        return map_of_any_size(hierarchy, tables, table_count, pool, capacity, free_count, request, 4);
    if (hierarchy->levels == 5)
        return map_of_any_size(hierarchy, tables, table_count, pool, capacity, free_count, request, 5);
    return X64_BAD_LEVELS;
}

uint32_t floor_map(const x64_hierarchy *hierarchy, x64_table *tables, size_t table_count, uint64_t *pool, size_t capacity,
    size_t *free_count, const x64_map_request *request) {
    uint64_t start = request->page.start, flags = request->parent_flags;
    if (hierarchy->levels != 4 || !has_root(hierarchy, table_count) || *free_count > capacity || request->page.size != X64_SIZE_4KIB ||
        !starts_page(start, 4, 1) || (request->frame & ~ADDRESS) != 0 || !flags_allowed(request, 1) || !(flags & X64_PRESENT))
        return map_any(hierarchy, tables, table_count, pool, capacity, free_count, request);
    uintptr_t memory = start_of(hierarchy, tables);
    uint64_t *entry = entry_at(memory + hierarchy->root, start, 4);
    UNROLL
    for (unsigned level = 3; level > 0; level--) {
        if ((*entry & (flags | X64_HUGE_PAGE)) != flags)
            return map_any(hierarchy, tables, table_count, pool, capacity, free_count, request);
        entry = entry_at(memory + (*entry & ADDRESS), start, level);
    }
    if (*entry != 0)
        return map_any(hierarchy, tables, table_count, pool, capacity, free_count, request);
    *entry = request->frame | request->flags;
    return X64_OK;
}
