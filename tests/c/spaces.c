/*
 * Makes random calls on three address spaces that share their upper half and have one pool, and compares each status and each
 * translation with a plain model: which tables and pages there are, by indices. After each call x64_spaces_fit has to say that the
 * spaces fit together; for spaces with a random fault its answer has to be that of a plain test.
 *
 *     spaces LEVELS SEED CALLS
 */
#include <inttypes.h>
#include <stdio.h>
#include <stdlib.h>
#include <string.h>

#include "x86_64_paging.h"

/* Of each page, the index of the highest level is one of four, two of which are shared; that of level one is one of three, and those
 * between are 0 or 1. */
enum { TABLES = 80, SPACES = 3, SHARED = SPACES, PAGES = 96, TABLES_OF_A_LEVEL = 32, LAST = 3, FROM = 256, TO = 512 };

static const uint64_t tops[] = {0, 3, 256, 511};
static const uint64_t parent_flags = X64_PRESENT | X64_WRITABLE | X64_USER_ACCESSIBLE | X64_ACCESSED;

static x64_table tables[TABLES];
static uint64_t pool[TABLES];
static size_t free_count;
static bool marks[TABLES];
static uint64_t first = 7, levels;

/* ---- the model */

/* Space by space, and then what all share: the pages' words, and which tables there are, by the number of indices that lead to one. */
static uint64_t page_words[SPACES + 1][PAGES];
static bool has_table[SPACES + 1][5][TABLES_OF_A_LEVEL];
static bool is_alive[SPACES];
static uint64_t roots[SPACES];
static size_t free_frames, all_frames;

/* Returns the number of pages. */
static uint64_t page_count(void) {
    return 4 * (UINT64_C(1) << (levels - 2)) * LAST;
}

/* Returns the number of the table on the way to a page that the first indices lead to. */
static uint64_t table_of(uint64_t page, uint64_t indices) {
    return page / LAST >> (levels - 1 - indices);
}

/* Returns whose a page is: a space's own, or shared. */
static size_t owner(size_t space, uint64_t page) {
    return table_of(page, 1) < 2 ? space : SHARED;
}

/* Returns the first address of a page. */
static uint64_t address(uint64_t page) {
    uint64_t position = tops[table_of(page, 1)];
    for (uint64_t n = 2; n < levels; n++)
        position = position * 512 + table_of(page, n) % 2;
    position = (position * 512 + page % LAST) * 4096;
    unsigned highest = (unsigned)(11 + 9 * levels);
    return position >> highest != 0 ? position | UINT64_MAX << highest : position;
}

static uint32_t model_map(size_t space, uint64_t page, uint64_t word) {
    size_t o = owner(space, page);
    for (uint64_t n = 1; n < levels; n++) {
        bool *has = &has_table[o][n][table_of(page, n)];
        if (!*has && free_frames == 0)
            return X64_FRAME_ALLOCATION_FAILED;
        free_frames -= !*has;
        *has = true;
    }
    if (page_words[o][page] != 0)
        return X64_PAGE_ALREADY_MAPPED;
    page_words[o][page] = word;
    return X64_OK;
}

/* Sets the word of a page that is mapped. */
static uint32_t model_set(size_t space, uint64_t page, uint64_t word) {
    uint64_t *old = &page_words[owner(space, page)][page];
    if (*old == 0)
        return X64_PAGE_NOT_MAPPED;
    *old = word;
    return X64_OK;
}

/* Whether a table has no words. */
static bool is_empty(size_t space, uint64_t indices, uint64_t number) {
    bool used = false;
    for (uint64_t k = 0; k < LAST && indices == levels - 1; k++)
        used |= page_words[space][number * LAST + k] != 0;
    for (uint64_t k = 0; k < 2 && indices < levels - 1; k++)
        used |= has_table[space][indices + 1][number * 2 + k];
    return !used;
}

/* Frees the empty tables of a space below some of its own indices. */
static void model_clean_up(size_t space, uint64_t low, uint64_t high) {
    for (uint64_t n = levels - 1; n > 0; n--)
        for (uint64_t k = low << (n - 1); k < high << (n - 1); k++)
            if (has_table[space][n][k] && is_empty(space, n, k)) {
                has_table[space][n][k] = false;
                free_frames++;
            }
}

/* ---- numbers by a fixed rule: xorshift64* */

static uint64_t state;

static uint64_t below(uint64_t limit) {
    state ^= state >> 12;
    state ^= state << 25;
    state ^= state >> 27;
    return (state * UINT64_C(0x2545f4914f6cdd1d) >> 33) % limit;
}

/* ---- faults */

static uint64_t call_number, failed;

static void wants(const char *what, uint64_t is, uint64_t wanted) {
    if (is == wanted)
        return;
    failed++;
    fprintf(stderr, "call %" PRIu64 ", %s: 0x%" PRIx64 " and not 0x%" PRIx64 "\n", call_number, what, is, wanted);
}

/* ---- calls */

static x64_hierarchy hierarchy(size_t space) {
    return (x64_hierarchy){.first = first, .root = roots[space], .levels = levels};
}

static uint64_t some_flags(void) {
    return X64_PRESENT | below(4) << 1 | (below(4) == 0 ? X64_NO_EXECUTE : 0);
}

static void map(size_t space, uint64_t page) {
    x64_hierarchy h = hierarchy(space);
    x64_map_request request = {.page = {.start = address(page), .size = X64_SIZE_4KIB}, .frame = below(1 << 20) * 4096,
        .flags = some_flags(), .parent_flags = parent_flags};
    wants("map", x64_map_as_mapper(&h, tables, TABLES, pool, TABLES, &free_count, &request),
          model_map(space, page, request.frame | request.flags));
}

static void unmap(size_t space, uint64_t page) {
    x64_hierarchy h = hierarchy(space);
    x64_page given = {.start = address(page), .size = X64_SIZE_4KIB};
    uint64_t frame;
    wants("unmap", x64_unmap(&h, tables, TABLES, &given, &frame), model_set(space, page, 0));
}

static void update_flags(size_t space, uint64_t page) {
    x64_hierarchy h = hierarchy(space);
    x64_page given = {.start = address(page), .size = X64_SIZE_4KIB};
    uint64_t flags = some_flags(), old = page_words[owner(space, page)][page];
    wants("update_flags", x64_update_flags(&h, tables, TABLES, &given, flags),
          model_set(space, page, (old & UINT64_C(0xffffffffff000)) | flags));
}

/* Cleans up below one of a space's own indices, or all that isn't shared. */
static void clean_up(size_t space) {
    x64_hierarchy h = hierarchy(space);
    uint64_t low = below(3), span = UINT64_C(1) << (3 + 9 * levels), half = span * 256;
    uint64_t from = low < 2 ? tops[low] * span : 0, to = low < 2 ? from + span : half;
    wants("clean_up", x64_clean_up(&h, tables, TABLES, pool, TABLES, &free_count, from, to - 4096), X64_OK);
    model_clean_up(space, low % 2, low == 0 ? 1 : 2);
    if (low == 2)
        model_clean_up(space, 0, 2);
}

static void new_space(size_t template, size_t space) {
    x64_hierarchy h = hierarchy(template);
    uint64_t root = 0;
    uint32_t status = x64_new_space(&h, tables, TABLES, pool, TABLES, &free_count, FROM, TO, &root);
    wants("new_space", status, free_frames == 0 ? X64_FRAME_ALLOCATION_FAILED : X64_OK);
    if (status != X64_OK)
        return;
    free_frames--;
    is_alive[space] = true;
    roots[space] = root;
}

static void give_up_space(size_t space) {
    x64_hierarchy h = hierarchy(space);
    bool in_use = has_table[space][1][0] || has_table[space][1][1];
    uint32_t status = x64_give_up_space(&h, tables, TABLES, pool, TABLES, &free_count, FROM, TO);
    wants("give_up_space", status, in_use ? X64_SPACE_IN_USE : X64_OK);
    if (status != X64_OK)
        return;
    free_frames++;
    is_alive[space] = false;
}

/* ---- what is compared */

/* Compares all translations, and the number of mappings. */
static void compare(size_t space) {
    x64_hierarchy h = hierarchy(space);
    x64_mapping list[PAGES + 1];
    size_t count, mapped = 0;
    uint64_t next;
    for (uint64_t page = 0; page < page_count(); page++) {
        uint64_t word = page_words[owner(space, page)][page];
        x64_translation found = {0};
        wants("translate", x64_translate(&h, tables, TABLES, address(page), &found), word == 0 ? X64_NOT_MAPPED : X64_OK);
        wants("what is mapped", found.frame | found.flags, word);
        mapped += word != 0;
    }
    wants("mappings", x64_mappings(&h, tables, TABLES, 0, list, PAGES + 1, &count, &next), X64_OK);
    wants("the number of mappings", count, mapped);
}

/* Meets a table and those below it. Returns false if one was met before, isn't there, or has a word that it may not have. */
static bool meet(uint64_t frame, uint64_t level, bool seen[TABLES]);

static bool meet_below(uint64_t word, uint64_t level, bool seen[TABLES]) {
    if ((word & X64_HUGE_PAGE) != 0)
        return level <= 3;
    return word == 0 || ((word & UINT64_C(0xffffffffff000)) != 0 && meet(word & UINT64_C(0xffffffffff000), level - 1, seen));
}

static bool meet(uint64_t frame, uint64_t level, bool seen[TABLES]) {
    uint64_t number = frame / 4096 - first;
    if (frame % 4096 != 0 || frame / 4096 < first || number >= TABLES || seen[number])
        return false;
    seen[number] = true;
    for (size_t index = 0; index < 512 && level > 1; index++)
        if (!meet_below(tables[number].words[index], level, seen))
            return false;
    return true;
}

/* Meets a root, and the tables below the indices that are shared, or that aren't. Returns false if one may not be met. */
static bool meet_part(const x64_table *root, bool is_shared, uint64_t from, uint64_t to, bool seen[TABLES]) {
    for (uint64_t index = 0; index < 512; index++)
        if ((from <= index && index < to) == is_shared && !meet_below(root->words[index], levels, seen))
            return false;
    return true;
}

/* A plain test whether spaces fit together. */
static bool fits(const uint64_t *list, size_t count, uint64_t from, uint64_t to, size_t capacity) {
    bool seen[TABLES] = {false};
    const x64_table *one = NULL;
    for (size_t k = 0; k < count; k++) {
        if (!meet(list[k], 1, seen))
            return false;
        const x64_table *root = &tables[list[k] / 4096 - first];
        if (one == NULL && !meet_part(root, true, from, to, seen))
            return false;
        one = one == NULL ? root : one;
        if (!meet_part(root, false, from, to, seen) || memcmp(root->words + from, one->words + from, (to - from) * 8) != 0)
            return false;
    }
    for (size_t n = 0; n < free_count; n++)
        if (pool[n] == 0 || !meet(pool[n], 1, seen))
            return false;
    size_t met = 0;
    for (size_t n = 0; n < TABLES; n++)
        met += seen[n];
    return count == 0 || met <= capacity;
}

static uint32_t test(const uint64_t *list, size_t count, uint64_t from, uint64_t to, size_t capacity) {
    return x64_spaces_fit(first, levels, tables, TABLES, list, count, from, to, pool, capacity, free_count, marks, TABLES);
}

/* Lists the roots of the spaces that there are. */
static size_t list_roots(uint64_t list[SPACES]) {
    size_t count = 0;
    for (size_t space = 0; space < SPACES; space++)
        if (is_alive[space])
            list[count++] = roots[space];
    return count;
}

static uint64_t some_frame(void) {
    return (first + below(TABLES + 1) - below(16) / 15) * 4096;
}

static size_t tested[2];

/* Makes a random fault, or nothing that is one, and compares the test with the plain one. Then takes it back. */
static void compare_tests(void) {
    static x64_table tables_before[TABLES];
    uint64_t list[SPACES], pool_before[TABLES], from = FROM, to = TO;
    size_t count = list_roots(list), capacity = all_frames;
    memcpy(tables_before, tables, sizeof tables);
    memcpy(pool_before, pool, sizeof pool);
    uint64_t kind = below(8);
    if (kind < 4) {
        uint64_t *word = &tables[below(TABLES)].words[below(2) == 0 ? below(2) : tops[below(4)]];
        *word = below(4) == 0 ? 0 : (below(4) == 0 ? *word : some_frame()) | (below(4) == 0 ? below(512) : 3);
    } else if (kind == 4) {
        list[below(count)] = some_frame() | (below(8) == 0 ? 8 : 0);
    } else if (kind == 5) {
        from = below(2) == 0 ? tops[below(4)] + below(2) : below(513);
        to = from + below(513 - from);
    } else if (kind == 6 && free_count > 0) {
        pool[below(free_count)] = below(8) == 0 ? 0 : some_frame();
    } else {
        capacity = free_count + below(all_frames - free_count + 2);
        count -= below(2);
    }
    bool fit = fits(list, count, from, to, capacity);
    wants("spaces_fit", test(list, count, from, to, capacity), fit ? X64_OK : X64_NOT_VALID);
    tested[fit]++;
    memcpy(tables, tables_before, sizeof tables);
    memcpy(pool, pool_before, sizeof pool);
}

static void check(void) {
    uint64_t list[SPACES];
    size_t count = list_roots(list);
    wants("free frames", free_count, free_frames);
    wants("the spaces fit", test(list, count, FROM, TO, all_frames), X64_OK);
    wants("with too little room", test(list, count, FROM, TO, all_frames - 1), X64_NOT_VALID);
    for (size_t space = 0; space < SPACES; space++)
        if (is_alive[space])
            compare(space);
}

/* ---- the test */

/* Makes a random call on one of the spaces, or one space more or less. In every second phase most calls unmap or clean up. */
static void do_call(void) {
    bool shrinks = call_number / 400 % 2 == 1;
    size_t space = below(SPACES), other = (space + 1 + below(SPACES - 1)) % SPACES;
    uint64_t page = below(page_count()), choice = below(100);
    if (!is_alive[space] || !is_alive[other]) {
        size_t one = is_alive[space] ? space : other, none = is_alive[space] ? other : space;
        if (is_alive[one] && choice < 20)
            new_space(one, none);
        space = is_alive[space] ? space : 0;
        if (!is_alive[space])
            return;
    }
    if (choice < 60)
        shrinks == (choice < 10) ? map(space, page) : unmap(space, page);
    else if (choice < 75)
        update_flags(space, page);
    else if (choice < 90)
        clean_up(space);
    else if (space != other && is_alive[other])
        give_up_space(space);
}

/* Two roots with three tables each and one free frame: each alone fits an array of four, which is too short for both. */
static void check_short_array(void) {
    uint64_t both[] = {(first + 1) * 4096, (first + 5) * 4096};
    memset(tables, 0, sizeof tables);
    for (size_t n = 1; n < 9; n++)
        if (n % 4 != 0)
            tables[n].words[0] = (first + n + 1) * 4096 | X64_PRESENT;
    pool[0] = first * 4096;
    free_count = 1;
    for (size_t k = 0; k < 2; k++) {
        x64_hierarchy h = {.first = first, .root = both[k], .levels = 4};
        wants("pool_fits", x64_pool_fits(&h, tables, TABLES, pool, 4, 1, marks, TABLES), X64_OK);
    }
    for (size_t capacity = 1; capacity < 12; capacity++)
        wants("spaces_fit", x64_spaces_fit(first, 4, tables, TABLES, both, 2, FROM, TO, pool, capacity, 1, marks, TABLES),
              capacity < 9 ? X64_NOT_VALID : X64_OK);
}

/* Makes one space with tables below each shared index. Of the other frames some are free, and all hold rubbish. */
static void start(void) {
    memset(tables, 0x5a, sizeof tables);
    memset(&tables[1], 0, sizeof tables[1]);
    roots[0] = (first + 1) * 4096;
    is_alive[0] = true;
    free_count = 0;
    for (uint64_t n = 2; n < (levels == 4 ? 36 : 70); n++)
        pool[free_count++] = (first + n) * 4096;
    free_frames = free_count;
    all_frames = free_count + 1;
    for (uint64_t top = 2; top < 4; top++)
        map(0, page_count() / 4 * top);
}

int main(int argc, char **argv) {
    if (argc != 4) {
        fprintf(stderr, "usage: spaces LEVELS SEED CALLS\n");
        return EXIT_FAILURE;
    }
    levels = strtoull(argv[1], NULL, 10);
    state = strtoull(argv[2], NULL, 10) * 2 + 1;
    uint64_t calls = strtoull(argv[3], NULL, 10);
    check_short_array();
    start();
    for (call_number = 1; call_number <= calls && failed < 20; call_number++) {
        do_call();
        check();
        compare_tests();
    }
    printf("spaces: %" PRIu64 " calls, %zu spaces that fit together and %zu that don't, %" PRIu64 " faults\n", call_number - 1,
           tested[true], tested[false], failed);
    return failed == 0 ? EXIT_SUCCESS : EXIT_FAILURE;
}
