/*
 * Tests of what calls on spaces refuse because the spaces share entries of their roots: each such refusal by rows, and random calls on
 * three spaces with two pools. After each call all spaces have to fit together with both pools. What the raw call does in a copy says
 * which calls must be refused. It is C and C++.
 *
 *     guards CALLS     how many random calls, with 4 levels and with 5
 */
#include <inttypes.h>
#include <stdio.h>
#include <stdlib.h>
#include <string.h>

#include "x86_64_paging_live.h"

enum { TABLES = 96, FIRST = 0x100, SPACES = 3, POOLS = 2, FROM = 256, TO = 512, STATUSES = 32 };

#define PARENTS (X64_PRESENT | X64_WRITABLE | X64_ACCESSED)
#define USER (PARENTS | X64_USER_ACCESSIBLE)
#define USUAL (X64_PRESENT | X64_WRITABLE)
#define FRAME UINT64_C(0x7000000)

/* The shared entries that aren't 0: one for the kernel's pages, one that lacks X64_ACCESSED, and one for pages of users, too. */
enum { KERNEL = 256, UNMARKED = 300, ANYONE = 511, UNUSED = 400, OWN = 3 };

/* What calls change. */
struct memory {
    x64_table tables[TABLES];
    uint64_t frames[POOLS][TABLES];
    size_t free_counts[POOLS];
};
static struct memory now, before, copied;
static x64_space spaces[SPACES];
static x64_pool pools[POOLS];
static bool visited[TABLES];
static size_t checked, failed;
static uint64_t state = 1;

static void check(bool is_good, int line, const char *what) {
    checked++;
    if (!is_good && ++failed < 20)
        printf("line %d: %s\n", line, what);
}
#define CHECK(condition) check(condition, __LINE__, #condition)

/* Returns a number below a limit, by a fixed rule: xorshift64*. */
static uint64_t below(uint64_t limit) {
    state ^= state >> 12;
    state ^= state << 25;
    state ^= state >> 27;
    return (state * UINT64_C(0x2545f4914f6cdd1d) >> 32) % limit;
}

static x64_map_request request_of(uint64_t page, uint64_t size, uint64_t flags, uint64_t parent_flags) {
    x64_map_request request = x64_map_request_of(page, size, FRAME & ~(size - 1), flags);
    request.parent_flags = parent_flags;
    return request;
}

/* Whether all spaces fit together with each pool, and no frame is in two pools. */
static bool all_fit(void) {
    uint64_t roots[SPACES];
    bool fit = true, is_free[TABLES] = {false};
    for (size_t n = 0; n < SPACES; n++)
        roots[n] = spaces[n].root;
    for (size_t n = 0; n < POOLS; n++) {
        fit = fit && x64_space_all_fit(&spaces[n], roots, SPACES, &pools[n], visited, TABLES) == X64_OK;
        for (size_t k = 0; k < pools[n].free_count && fit; k++) {
            bool *is_here = &is_free[pools[n].frames[k] / 4096 - FIRST];
            fit = !*is_here;
            *is_here = true;
        }
    }
    return fit;
}

/* Makes three spaces: the first one is made without shared entries, and maps something below those that will be shared. */
static void start(uint64_t levels) {
    memset(&now, 0, sizeof now);
    for (size_t n = 0; n < POOLS; n++) {
        pools[n].frames = now.frames[n];
        pools[n].capacity = TABLES;
        pools[n].free_count = 0;
    }
    for (uint64_t n = 1; n < TABLES; n++)
        now.frames[n % POOLS][pools[n % POOLS].free_count++] = (FIRST + n) * 4096;
    x64_space first;
    memset(&first, 0, sizeof first);
    first.tables = now.tables;
    first.table_count = TABLES;
    first.first = FIRST;
    first.root = FIRST * 4096;
    first.levels = levels;
    const uint64_t used[] = {KERNEL, UNMARKED, ANYONE}, flags[] = {PARENTS, X64_PRESENT, USER};
    for (size_t n = 0; n < 3; n++) {
        x64_map_request request = request_of(x64_space_first_page(&first, used[n]), X64_SIZE_4KIB, X64_PRESENT, flags[n]);
        CHECK(x64_space_map_with(&first, &pools[0], &request) == X64_OK);
    }
    first.shared_from = FROM;
    first.shared_to = TO;
    spaces[0] = first;
    for (size_t n = 1; n < SPACES; n++)
        CHECK(x64_space_new(&spaces[n - 1], &pools[n % POOLS], &spaces[n]) == X64_OK);
    CHECK(all_fit());
}

/* Notes what there is before a call. */
static void note(void) {
    for (size_t n = 0; n < POOLS; n++)
        now.free_counts[n] = pools[n].free_count;
    memcpy(&before, &now, sizeof now);
    memcpy(&copied, &now, sizeof now);
}

/* Whether nothing has changed since. */
static bool is_as_before(void) {
    for (size_t n = 0; n < POOLS; n++)
        now.free_counts[n] = pools[n].free_count;
    return memcmp(&before, &now, sizeof now) == 0;
}

/* Checks that a call, which was made after the last note, returned this status, and changed nothing if that isn't X64_OK. */
static void wants(int line, uint32_t status, uint32_t wanted) {
    if (status != wanted)
        printf("%s where %s is wanted\n", x64_status_name(status), x64_status_name(wanted));
    check(status == wanted, line, "a status");
    check(status == X64_OK || is_as_before(), line, "a refused call changes something");
    check(all_fit(), line, "the spaces don't fit together any more");
    note();
}
#define WANTS(wanted, call) wants(__LINE__, call, wanted)

/* ---- rows */

/* The first page below an entry of the root, and one that is n pages of 2 MiB further. */
static uint64_t page_at(uint64_t index, uint64_t n) {
    return x64_space_first_page(&spaces[0], index) + n * X64_SIZE_2MIB;
}

static uint32_t map_at(const x64_space *space, uint64_t index, uint64_t n, uint64_t flags) {
    return x64_space_map(space, &pools[n % POOLS], page_at(index, n), X64_SIZE_4KIB, FRAME, flags);
}

static void try_maps(const x64_space *space, uint64_t n) {
    x64_map_request request = request_of(page_at(UNMARKED, n), X64_SIZE_4KIB, USUAL, X64_PRESENT);
    WANTS(X64_OK, map_at(space, KERNEL, n, USUAL));
    WANTS(X64_PAGE_ALREADY_MAPPED, map_at(space, KERNEL, n, USUAL));
    WANTS(X64_SHARED_ENTRY, map_at(space, KERNEL, n, USUAL | X64_USER_ACCESSIBLE));
    WANTS(X64_OK, map_at(space, ANYONE, n, USUAL | X64_USER_ACCESSIBLE));
    WANTS(X64_SHARED_ENTRY, map_at(space, UNMARKED, n, X64_PRESENT));
    WANTS(X64_SHARED_ENTRY, map_at(space, UNUSED, n, USUAL));
    WANTS(X64_OK, map_at(space, OWN, n, USUAL | X64_USER_ACCESSIBLE));
    WANTS(X64_OK, x64_space_map_with(space, &pools[0], &request));
    request.page.start += 4096;
    request.parent_flags |= X64_WRITABLE;
    WANTS(X64_SHARED_ENTRY, x64_space_map_with(space, &pools[0], &request));
    WANTS(X64_SHARED_ENTRY, x64_space_prepare(space, &pools[0], request.page.start, X64_SIZE_4KIB, USUAL));
    WANTS(X64_OK, x64_space_prepare(space, &pools[0], request.page.start, X64_SIZE_4KIB, X64_PRESENT));
    WANTS(X64_SHARED_ENTRY, x64_space_prepare(space, &pools[0], page_at(UNUSED, 0), X64_SIZE_1GIB, PARENTS));
    WANTS(X64_OK, x64_space_prepare(space, &pools[0], page_at(KERNEL, 0), X64_SIZE_1GIB, PARENTS));
    WANTS(X64_OK, x64_space_prepare(space, &pools[0], page_at(OWN, n), X64_SIZE_2MIB, USER));
    request.parent_flags = 0; /* an entry that is 0 isn't used, whatever the parent flags are */
    request.page.start = page_at(UNUSED, 0);
    WANTS(X64_SHARED_ENTRY, x64_space_map_with(space, &pools[0], &request));
}

/* Wrong levels, roots and pages come before shared entries, and these before everything else. */
static void try_order(const x64_space *space) {
    x64_space wrong = *space;
    x64_pool broken = {now.frames[0], 1, 2};
    WANTS(X64_SHARED_ENTRY, x64_space_map(space, &broken, page_at(UNUSED, 0), X64_SIZE_4KIB, 5, X64_ADDRESS));
    WANTS(X64_BAD_ARRAY, x64_space_map(space, &broken, page_at(OWN, 0), X64_SIZE_4KIB, 5, X64_ADDRESS));
    WANTS(X64_BAD_PAGE, x64_space_map(space, &pools[0], page_at(UNUSED, 0) + 5, X64_SIZE_4KIB, 0, USUAL));
    WANTS(X64_BAD_PAGE, x64_space_map(space, &pools[0], page_at(UNUSED, 0), 0x3000, 0, USUAL));
    WANTS(X64_BAD_PAGE, x64_space_map(space, &pools[0], page_at(UNUSED, 0), 0, 0, USUAL));
    WANTS(X64_BAD_PAGE, x64_space_map(space, &pools[0], page_at(UNUSED, 0) ^ UINT64_C(1) << 63, X64_SIZE_4KIB, 0, USUAL));
    for (uint64_t levels = 0; levels < 80; levels++)
        if (levels != 4 && levels != 5) {
            wrong.levels = levels;
            WANTS(X64_BAD_LEVELS, x64_space_map(&wrong, &pools[0], page_at(UNUSED, 0), X64_SIZE_4KIB, 0, USUAL));
            WANTS(X64_BAD_LEVELS, x64_space_set_table_flags(&wrong, page_at(UNUSED, 0), X64_SIZE_4KIB, levels, 0));
        }
    wrong.levels = space->levels;
    const uint64_t roots[] = {0, (FIRST - 1) * 4096, (FIRST + TABLES) * 4096, FIRST * 4096 + 1, UINT64_C(1) << 63};
    for (size_t n = 0; n < sizeof roots / sizeof roots[0]; n++) {
        wrong.root = roots[n];
        WANTS(X64_BAD_ROOT, x64_space_map(&wrong, &pools[0], page_at(UNUSED, 0), X64_SIZE_4KIB, 0, USUAL));
        WANTS(X64_BAD_ROOT, x64_space_clean_up(&wrong, &pools[0], 0, page_at(UNUSED, 0)));
    }
    wrong.root = space->root;
    wrong.shared_from = wrong.shared_to = 0; /* a copy without shared entries refuses nothing */
    WANTS(X64_BAD_FRAME, x64_space_map(&wrong, &pools[0], page_at(UNUSED, 0), X64_SIZE_4KIB, 5, USUAL));
    WANTS(X64_NOT_ALLOWED, x64_space_set_table_flags(&wrong, page_at(KERNEL, 0), X64_SIZE_4KIB, space->levels, X64_HUGE_PAGE));
}

static void try_ranges(const x64_space *space, uint64_t n) {
    const uint64_t end = page_at(KERNEL + 1, 0), last = x64_space_last_page(space, 511), frames[] = {FRAME, FRAME + 0x5000, FRAME};
    uint64_t done = 7;
    size_t count = 7;
    WANTS(X64_OK, x64_space_map_range(space, &pools[0], page_at(KERNEL, n) + 0x10000, X64_SIZE_4KIB, 3, FRAME, USUAL, &done));
    CHECK(done == 3);
    WANTS(X64_SHARED_ENTRY, x64_space_map_range(space, &pools[0], end - 0x20000, X64_SIZE_4KIB, 0x21, FRAME, USUAL, &done));
    WANTS(X64_SHARED_ENTRY, x64_space_map_range(space, &pools[0], page_at(KERNEL, 0), X64_SIZE_1GIB, (end - page_at(KERNEL, 0)) / X64_SIZE_1GIB + 1, 0, USUAL,
                                                &done));
    WANTS(X64_SHARED_ENTRY, x64_space_map_range(space, &pools[0], page_at(KERNEL, 9), X64_SIZE_4KIB, 1, FRAME, X64_PRESENT | X64_USER_ACCESSIBLE, &done));
    CHECK(done == 3);
    WANTS(X64_OK, x64_space_map_range(space, &pools[0], page_at(UNUSED, 0), X64_SIZE_4KIB, 0, FRAME, USUAL, &done));
    CHECK(done == 0);
    WANTS(X64_BAD_PAGE, x64_space_map_range(space, &pools[0], last, X64_SIZE_4KIB, 2, FRAME, USUAL, &done));
    WANTS(X64_BAD_PAGE, x64_space_map_range(space, &pools[0], page_at(UNUSED, 0), X64_SIZE_1GIB, UINT64_MAX, 0, USUAL, &done));
    /* a list goes on up to the first page below the next entry, which is 0 */
    CHECK(x64_space_map_list(space, &pools[0], end - 0x2000, X64_SIZE_4KIB, frames, 3, USUAL, &count) ==
          (n == 0 ? X64_SHARED_ENTRY : X64_PAGE_ALREADY_MAPPED));
    CHECK(count == (n == 0 ? 2 : 0) && all_fit());
    note();
}

/* A range and a list that begin before shared entries of the lower half. */
static void try_lower_half(void) {
    const uint64_t frames[] = {FRAME, FRAME, FRAME}, page = page_at(OWN + 1, 0) - 0x2000;
    x64_space space = spaces[0];
    uint64_t done = 7;
    size_t count = 7;
    space.shared_from = OWN + 1;
    space.shared_to = OWN + 3;
    note();
    CHECK(x64_space_map_range(&space, &pools[0], page, X64_SIZE_4KIB, 3, FRAME, USUAL, &done) == X64_SHARED_ENTRY && done == 7);
    CHECK(x64_space_clean_up(&space, &pools[0], page, page + 0x2000) == X64_SHARED_ENTRY);
    CHECK(x64_space_clean_up(&space, &pools[0], page_at(OWN + 3, 0) - 0x1000, page_at(OWN + 5, 0)) == X64_SHARED_ENTRY && is_as_before());
    CHECK(x64_space_clean_up(&space, &pools[0], page_at(OWN + 3, 0), page_at(OWN + 5, 0)) == X64_OK);
    CHECK(x64_space_clean_up(&space, &pools[0], 0, page + 0x1000) == X64_OK && is_as_before());
    CHECK(x64_space_map_list(&space, &pools[0], page, X64_SIZE_4KIB, frames, 3, USUAL, &count) == X64_SHARED_ENTRY && count == 2);
    CHECK(x64_space_shares(&space, page_at(OWN + 1, 0)) && x64_space_shares(&space, page_at(OWN + 3, 0) - 1));
    CHECK(!x64_space_shares(&space, page_at(OWN + 1, 0) - 1) && !x64_space_shares(&space, page_at(OWN + 3, 0)));
    space.shared_from = space.shared_to; /* nothing is shared */
    CHECK(x64_space_map_list(&space, &pools[0], page + 0x2000, X64_SIZE_4KIB, frames, 1, USUAL, &count) == X64_OK && count == 1);
    CHECK(x64_space_clean_up(&space, &pools[0], 0, x64_space_last_page(&space, 511)) == X64_OK);
    CHECK(all_fit());
    note();
}

static void try_tables(const x64_space *space) {
    const uint64_t first = x64_space_first_page(space, FROM), own_end = x64_space_last_page(space, FROM - 1);
    uint64_t next = 7;
    WANTS(X64_SHARED_ENTRY, x64_space_drop(space, &pools[0], 0, x64_space_last_page(space, 511), &next));
    WANTS(X64_SHARED_ENTRY, x64_space_drop(space, &pools[0], own_end, first, &next));
    WANTS(X64_SHARED_ENTRY, x64_space_drop(space, &pools[0], page_at(UNUSED, 1), page_at(UNUSED, 1), &next));
    WANTS(X64_OK, x64_space_drop(space, &pools[0], first, own_end, &next)); /* the last page comes before the first one */
    WANTS(X64_BAD_PAGE, x64_space_drop(space, &pools[0], 5, first, &next));
    CHECK(next == 7);
    WANTS(X64_SHARED_ENTRY, x64_space_clean_up(space, &pools[0], 0, x64_space_last_page(space, 511)));
    WANTS(X64_SHARED_ENTRY, x64_space_clean_up(space, &pools[0], 0, first));
    WANTS(X64_SHARED_ENTRY, x64_space_clean_up(space, &pools[0], own_end, first));
    WANTS(X64_SHARED_ENTRY, x64_space_clean_up(space, &pools[0], page_at(UNUSED, 1), page_at(UNUSED, 1)));
    WANTS(X64_OK, x64_space_clean_up(space, &pools[0], 0, own_end));
    WANTS(X64_OK, x64_space_clean_up(space, &pools[0], first, own_end)); /* the last page comes before the first one */
    WANTS(X64_OK, x64_space_clean_up(space, &pools[0], page_at(UNUSED, 1), page_at(UNUSED, 0)));
    WANTS(X64_BAD_PAGE, x64_space_clean_up(space, &pools[0], 5, first));
    WANTS(X64_BAD_PAGE, x64_space_clean_up(space, &pools[0], 0, first + 5));
    WANTS(X64_BAD_PAGE, x64_space_clean_up(space, &pools[0], 0, first ^ UINT64_C(1) << 63));
    WANTS(X64_SHARED_ENTRY, x64_space_set_table_flags(space, page_at(KERNEL, 0), X64_SIZE_4KIB, space->levels, PARENTS));
    WANTS(X64_SHARED_ENTRY, x64_space_set_table_flags(space, page_at(UNUSED, 0), X64_SIZE_1GIB, space->levels, PARENTS));
    WANTS(X64_BAD_PAGE, x64_space_set_table_flags(space, page_at(KERNEL, 0) + 5, X64_SIZE_4KIB, space->levels, PARENTS));
    WANTS(X64_BAD_LEVELS, x64_space_set_table_flags(space, page_at(KERNEL, 0), X64_SIZE_4KIB, space->levels + 1, PARENTS));
    WANTS(X64_OK, x64_space_set_table_flags(space, page_at(KERNEL, 0), X64_SIZE_4KIB, space->levels - 1, PARENTS));
    WANTS(X64_OK, x64_space_set_table_flags(space, page_at(OWN, 0), X64_SIZE_4KIB, space->levels, USER));
}

/* The only page below a shared entry goes, and then all tables there but the one that the roots name. Another space maps the page again. */
static void try_below_root(void) {
    const x64_map_request request = request_of(page_at(UNMARKED, 0), X64_SIZE_4KIB, X64_PRESENT, X64_PRESENT);
    const uint64_t page = request.page.start, last = x64_space_last_page(&spaces[1], UNMARKED), levels = spaces[1].levels;
    const size_t free_count = pools[1].free_count;
    x64_walked walked;
    uint64_t frame;
    WANTS(X64_OK, x64_space_clean_up_below_root(&spaces[1], &pools[1], page, last));
    CHECK(pools[1].free_count == free_count);
    WANTS(X64_OK, x64_space_unmap(&spaces[0], page, X64_SIZE_4KIB, &frame));
    WANTS(X64_SHARED_ENTRY, x64_space_clean_up(&spaces[1], &pools[1], page, last));
    WANTS(X64_OK, x64_space_clean_up_below_root(&spaces[1], &pools[1], page, last));
    CHECK(pools[1].free_count == free_count + levels - 2 && all_fit());
    WANTS(X64_OK, x64_space_clean_up_below_root(&spaces[2], &pools[1], page, last));
    CHECK(pools[1].free_count == free_count + levels - 2);
    WANTS(X64_OK, x64_space_map_with(&spaces[2], &pools[1], &request));
    CHECK(pools[1].free_count == free_count && x64_space_page_walk(&spaces[0], page, &walked) == X64_OK);
    WANTS(X64_BAD_PAGE, x64_space_clean_up_below_root(&spaces[0], &pools[1], page + 5, last));
}

static void try_accesses(const x64_space *space) {
    const x64_controls controls = {true, true, false, false, false, 52, false, false};
    const uint32_t wanted[] = {X64_SHARED_ENTRY, X64_OK, X64_PAGE_FAULT, X64_PAGE_FAULT, X64_OK, X64_BAD_ACCESS, X64_BAD_ADDRESS};
    const x64_access_request requests[] = {
        {page_at(UNMARKED, 0), X64_READ, false, true},  {page_at(UNMARKED, 0), X64_READ, false, false},
        {page_at(UNMARKED, 0), X64_WRITE, false, true}, {page_at(UNUSED, 0), X64_READ, false, true},
        {page_at(KERNEL, 0), X64_READ, false, true},    {page_at(UNMARKED, 0), 9, false, true},
        {page_at(UNMARKED, 0) ^ UINT64_C(1) << 63, X64_READ, false, true},
    };
    for (size_t n = 0; n < sizeof wanted / sizeof wanted[0]; n++) {
        x64_outcome outcome = {1, 2, 3};
        x64_arrival arrival;
        memset(&arrival, 0, sizeof arrival);
        WANTS(wanted[n], x64_space_access(space, &controls, &requests[n], &outcome));
        WANTS(wanted[n], x64_space_access_live(space, &controls, &requests[n], &arrival));
        CHECK(wanted[n] == X64_OK || wanted[n] == X64_PAGE_FAULT
                  ? memcmp(&outcome, &arrival.outcome, sizeof outcome) == 0 && arrival.count > 0
                  : outcome.level == 3 && arrival.count == 0);
    }
    x64_space wrong = *space;
    x64_arrival arrival;
    wrong.levels = 99;
    WANTS(X64_BAD_LEVELS, x64_space_access_live(&wrong, &controls, &requests[0], &arrival));
}

/* Refuses each change of a shared entry of the root, and makes those of entries below it. */
static void try_words(const x64_space *space, uint64_t n) {
    const uint64_t indices[] = {KERNEL, UNMARKED, ANYONE, UNUSED}, page = page_at(KERNEL, n);
    x64_entry entries[X64_MOST_LEVELS], entry;
    x64_taken taken[2];
    uint64_t old = 7, next = 7;
    size_t count = 0;
    for (size_t k = 0; k < 4; k++) {
        CHECK(x64_space_entries_live(space, page_at(indices[k], 0), entries, &count) <= X64_NOT_MAPPED);
        WANTS(X64_SHARED_ENTRY, x64_space_exchange_entry(space, &entries[0], entries[0].word | X64_ACCESSED, &old));
        WANTS(X64_SHARED_ENTRY, x64_space_change_entry(space, &entries[0], UINT64_MAX, X64_ACCESSED, &old));
        WANTS(X64_SHARED_ENTRY, x64_space_compare_exchange_entry(space, &entries[0], 0));
        CHECK(old == 7);
    }
    CHECK(x64_space_entries_live(space, page, entries, &count) == X64_OK);
    WANTS(X64_OK, x64_space_change_entry(space, &entries[1], UINT64_MAX, X64_WRITABLE, &old)); /* the tables below are the same in all spaces */
    WANTS(X64_OK, x64_space_change_page(space, page, X64_SIZE_4KIB, ~X64_WRITABLE, 0, &old));
    WANTS(X64_OK, x64_space_exchange_page(space, page, X64_SIZE_4KIB, 0x5000 | USUAL, &old));
    WANTS(X64_OK, x64_space_find_page(space, page, X64_SIZE_4KIB, &entry));
    WANTS(X64_OK, x64_space_compare_exchange_entry(space, &entry, 0x6000 | USUAL));
    WANTS(X64_OK, x64_space_exchange_entry(space, &entry, 0x7000 | USUAL, &old));
    WANTS(X64_OK, x64_space_map(space, &pools[0], page + 0x1ff000, X64_SIZE_4KIB, FRAME, USUAL)); /* index 511, as that of a shared entry */
    WANTS(X64_OK, x64_space_change_page(space, page + 0x1ff000, X64_SIZE_4KIB, ~X64_WRITABLE, 0, &old));
    WANTS(X64_OK, x64_space_take_page(space, page + 0x1ff000, X64_SIZE_4KIB, &old));
    WANTS(X64_OK, x64_space_change_range(space, page, page, ~X64_WRITABLE, 0, taken, 2, &count, &next));
    CHECK(count == 1 && taken[0].word == (0x7000 | USUAL));
    WANTS(X64_OK, x64_space_list_range(space, page, page, taken, 2, &count, &next));
    CHECK(count == 1 && taken[0].word == (0x7000 | X64_PRESENT));
    WANTS(X64_OK, x64_space_take_range(space, page, page, taken, 2, &count, &next));
    CHECK(count == 1 && taken[0].word == (0x7000 | X64_PRESENT));
    WANTS(X64_OK, x64_space_map(space, &pools[0], page, X64_SIZE_4KIB, 0x7000, USUAL));
    WANTS(X64_OK, x64_space_take_range_live(space, page, page, taken, 2, &count, &next));
    CHECK(count == 1 && taken[0].word == (0x7000 | USUAL));
    CHECK(x64_space_entries_live(space, page_at(OWN, n), entries, &count) == X64_OK);
    WANTS(X64_OK, x64_space_change_entry(space, &entries[0], ~X64_USER_ACCESSIBLE, 0, &old));
    WANTS(X64_NOT_ALLOWED, x64_space_exchange_entry(space, &entries[0], 0, &old));
}

static void try_sizes(const x64_space *space, uint64_t n) {
    const uint64_t large = 20 + n, indices[] = {KERNEL, OWN}, word = FRAME | USUAL | X64_HUGE_PAGE | X64_ACCESSED | X64_DIRTY;
    uint64_t frame = 7, old;
    for (size_t k = 0; k < 2; k++) {
        const uint64_t page = page_at(indices[k], large);
        WANTS(X64_OK, x64_space_map(space, &pools[k], page, X64_SIZE_2MIB, FRAME & ~(X64_SIZE_2MIB - 1), USUAL));
        WANTS(X64_OK, x64_space_exchange_page(space, page, X64_SIZE_2MIB, word & ~UINT64_C(0x1ff000), &old));
        WANTS(X64_OK, x64_space_split(space, &pools[k], page, X64_SIZE_2MIB));
        WANTS(X64_HAS_TABLE, x64_space_split(space, &pools[k], page, X64_SIZE_2MIB));
        WANTS(X64_BAD_PAGE, x64_space_join(space, page + 5, X64_SIZE_2MIB, word, &frame));
        WANTS(X64_BAD_PAGE, x64_space_join(space, page, X64_SIZE_4KIB, word, &frame));
    }
    WANTS(X64_SHARED_ENTRY, x64_space_join(space, page_at(KERNEL, large), X64_SIZE_2MIB, word & ~UINT64_C(0x1ff000), &frame));
    WANTS(X64_SHARED_ENTRY, x64_space_join(space, page_at(UNUSED, large), X64_SIZE_2MIB, 5, &frame));
    CHECK(frame == 7);
    CHECK(x64_space_join(space, page_at(OWN, large), X64_SIZE_2MIB, word & ~UINT64_C(0x1ff000), &frame) == X64_OK);
    memset(&now.tables[frame / 4096 - FIRST], 0, sizeof now.tables[0]);
    pools[0].frames[pools[0].free_count++] = frame;
    CHECK(x64_space_take_page(space, page_at(OWN, large), X64_SIZE_2MIB, &old) == X64_OK && all_fit());
    note();
}

/* A space is made of any other, and given up; a copy without shared entries may be cleaned up, since a page stays below each. */
static void try_ends(const x64_space *space) {
    x64_space other, bare = *space;
    uint64_t frame;
    WANTS(X64_OK, x64_space_new(space, &pools[1], &other));
    WANTS(X64_OK, x64_space_map(&other, &pools[0], page_at(OWN, 0), X64_SIZE_4KIB, FRAME, USUAL));
    WANTS(X64_SPACE_IN_USE, x64_space_give_up(&other, &pools[0]));
    WANTS(X64_OK, x64_space_unmap(&other, page_at(OWN, 0), X64_SIZE_4KIB, &frame));
    WANTS(X64_SPACE_IN_USE, x64_space_give_up(&other, &pools[0]));
    WANTS(X64_OK, x64_space_clean_up(&other, &pools[0], 0, x64_space_last_page(&other, FROM - 1)));
    WANTS(X64_OK, x64_space_give_up(&other, &pools[0]));
    bare.shared_to = bare.shared_from;
    WANTS(X64_OK, x64_space_clean_up(&bare, &pools[0], 0, x64_space_last_page(&bare, 511)));
    bare.shared_to = 513;
    WANTS(X64_BAD_INDICES, x64_space_new(&bare, &pools[0], &other));
    WANTS(X64_BAD_INDICES, x64_space_give_up(&bare, &pools[0]));
    CHECK(x64_space_fits(&bare, &pools[0], visited, TABLES) == X64_BAD_INDICES);
}

/* ---- random calls */

enum kind { MAP, RANGE, PREPARE, CLEAN_UP, TABLE_FLAGS, ACCESS, UNMAP, FLAGS, TAKE, CHANGE, KINDS };
static size_t made[KINDS], refused[KINDS], changes[KINDS];

/* Returns some page, below an entry that is shared or not, used or not. */
static uint64_t some_page(uint64_t size) {
    static const uint64_t indices[] = {OWN, OWN + 1, FROM - 1, KERNEL, KERNEL + 1, UNMARKED, UNUSED, ANYONE - 1, ANYONE};
    const uint64_t start = x64_space_first_page(&spaces[0], indices[below(9)]);
    return (start + (below(4) ? below(3) << 30 | below(3) << 21 | below(6) << 12 : (UINT64_C(1) << 39) - size)) & ~(size - 1);
}

static uint64_t some_parents(void) {
    return (below(8) ? X64_PRESENT : 0) | (below(2) ? X64_WRITABLE : 0) | (below(3) ? 0 : X64_USER_ACCESSIBLE) | (below(2) ? X64_ACCESSED : 0);
}

/* Whether the raw call changed a shared entry of the root of the space in the copy. */
static bool changed_shared(const x64_space *space) {
    const size_t root = space->root / 4096 - FIRST;
    return memcmp(&copied.tables[root].words[FROM], &before.tables[root].words[FROM], (TO - FROM) * 8) != 0;
}

/* Makes a call on a space, and the raw one in a copy, and compares them. A call that is refused may not change anything; it must be
 * refused if the raw one changes a shared entry, and a map or an access only then, if the raw one is done. */
static void make_call(enum kind kind, const x64_space *space, size_t pool) {
    static const uint64_t sizes[] = {X64_SIZE_4KIB, X64_SIZE_4KIB, X64_SIZE_2MIB, X64_SIZE_1GIB};
    const x64_hierarchy hierarchy = x64_space_hierarchy(space);
    const uint64_t size = sizes[below(4)];
    const x64_page page = x64_page_of(some_page(size), size);
    const x64_controls controls = {true, true, false, false, false, 52, false, false};
    const uint64_t flags = some_parents(), count = 1 + below(3), level = 2 + below(4), last = some_page(4096);
    x64_map_request request = request_of(page.start, page.size, USUAL, some_parents());
    x64_access_request access = {below(2) ? page.start + below(size) : page_at(UNMARKED, 0) + below(6 << 12), (uint32_t)below(3), below(2) != 0, true};
    const uint64_t keep = below(8) ? ~X64_WRITABLE : ~X64_HUGE_PAGE;
    x64_outcome outcome;
    x64_taken taken[2];
    size_t taken_count = 0;
    uint64_t done = 0, *frames = copied.frames[pool];
    uint32_t status = X64_OK, raw = X64_OK;
    note();
    size_t *free_count = &copied.free_counts[pool];
    if (kind == MAP) {
        status = x64_space_map_with(space, &pools[pool], &request);
        raw = x64_map(&hierarchy, copied.tables, TABLES, frames, TABLES, free_count, &request);
    } else if (kind == RANGE) {
        status = x64_space_map_range_with(space, &pools[pool], &request, count, &done);
        raw = x64_map_range(&hierarchy, copied.tables, TABLES, frames, TABLES, free_count, &request, count, &done);
    } else if (kind == PREPARE) {
        status = x64_space_prepare(space, &pools[pool], page.start, page.size, request.parent_flags);
        raw = x64_prepare(&hierarchy, copied.tables, TABLES, frames, TABLES, free_count, &page, request.parent_flags);
    } else if (kind == CLEAN_UP) {
        status = x64_space_clean_up(space, &pools[pool], page.start & ~UINT64_C(4095), last);
        raw = x64_clean_up(&hierarchy, copied.tables, TABLES, frames, TABLES, free_count, page.start & ~UINT64_C(4095), last);
    } else if (kind == TABLE_FLAGS) {
        status = x64_space_set_table_flags(space, page.start, page.size, level, flags);
        raw = x64_set_table_flags(&hierarchy, copied.tables, TABLES, &page, level, flags);
    } else if (kind == ACCESS) {
        status = x64_space_access(space, &controls, &access, &outcome);
        raw = x64_access(&hierarchy, copied.tables, TABLES, &controls, &access, &outcome);
    } else if (kind == UNMAP) {
        status = x64_space_unmap(space, page.start, page.size, &done);
        raw = x64_unmap(&hierarchy, copied.tables, TABLES, &page, &done);
    } else if (kind == FLAGS) {
        status = x64_space_update_flags(space, page.start, page.size, flags);
        raw = x64_update_flags(&hierarchy, copied.tables, TABLES, &page, flags);
    } else if (kind == TAKE) {
        status = x64_space_take_range(space, page.start, page.start + count * 4096, taken, 2, &taken_count, &done);
        raw = x64_take_range(&hierarchy, copied.tables, TABLES, page.start, page.start + count * 4096, taken, 2, &taken_count, &done);
    } else {
        status = x64_space_change_range(space, page.start, last, keep, flags, taken, 2, &taken_count, &done);
        raw = x64_change_range(&hierarchy, copied.tables, TABLES, page.start, last, keep, flags, taken, 2, &taken_count, &done);
    }
    bool is_refused = status == X64_SHARED_ENTRY, is_same = is_as_before();
    made[kind]++;
    refused[kind] += is_refused;
    changes[kind] += changed_shared(space);
    CHECK(is_refused || !changed_shared(space));
    CHECK(!is_refused || is_same);
    CHECK(!is_refused || raw != X64_OK || changed_shared(space) || kind == CLEAN_UP || kind == TABLE_FLAGS);
    CHECK(is_refused || (status == raw && memcmp(&copied, &now, sizeof now) == 0));
}

static void make_exchange(const x64_space *space, size_t pool) {
    static const uint64_t sizes[] = {X64_SIZE_4KIB, X64_SIZE_2MIB, X64_SIZE_1GIB};
    const uint64_t size = sizes[below(3)], page = some_page(size);
    x64_entry entries[X64_MOST_LEVELS];
    uint64_t old, frame;
    size_t count = 0;
    uint32_t status = x64_space_entries_live(space, page, entries, &count);
    CHECK(status <= X64_NOT_MAPPED);
    x64_entry *entry = &entries[below(count)];
    const uint64_t choice = below(6);
    switch (choice) {
    case 0:
        status = x64_space_exchange_entry(space, entry, below(2) ? entry->word ^ UINT64_C(1) << below(64) : 0, &old);
        break;
    case 1:
        status = x64_space_change_entry(space, entry, ~(UINT64_C(1) << below(64)), below(2) ? X64_PRESENT | X64_WRITABLE : 0, &old);
        break;
    case 2:
        status = x64_space_compare_exchange_entry(space, entry, entry->word ^ UINT64_C(1) << below(64));
        break;
    case 3:
        status = x64_space_take_page(space, page, size, &old);
        break;
    case 4:
        status = x64_space_split(space, &pools[pool], page, size);
        break;
    default:
        status = x64_space_join(space, page, size, (entries[count - 1].word & ~X64_ADDRESS) | X64_HUGE_PAGE | (FRAME & ~(size - 1)), &frame);
        if (status == X64_OK) {
            memset(&now.tables[frame / 4096 - FIRST], 0, sizeof now.tables[0]);
            pools[pool].frames[pools[pool].free_count++] = frame;
        }
    }
    CHECK(status < X64_BAD_LEVELS || status == X64_BAD_PAGE);
    CHECK(choice > 2 || (status == X64_SHARED_ENTRY) == (entry == entries && FROM <= entry->index));
}

static void make_calls(size_t count) {
    for (size_t n = 0; n < count; n++) {
        const x64_space *space = &spaces[below(SPACES)];
        const size_t pool = below(POOLS);
        if (below(4))
            make_call((enum kind)below(KINDS), space, pool);
        else
            make_exchange(space, pool);
        CHECK(all_fit());
    }
}

int main(int argc, char **argv) {
    setvbuf(stdout, NULL, _IOLBF, 0); /* so that lines are out if a mistake lets it crash */
    const size_t count = argc > 1 ? strtoull(argv[1], NULL, 0) : 5000;
    for (uint64_t levels = 4; levels <= 5; levels++) {
        start(levels);
        note();
        try_below_root();
        for (uint64_t n = 0; n < SPACES; n++) {
            const x64_space *space = &spaces[SPACES - 1 - n];
            try_maps(space, n + 1);
            try_order(space);
            try_ranges(space, n);
            try_tables(space);
            try_accesses(space);
            try_words(space, n + 1);
            try_sizes(space, n);
            try_ends(space);
        }
        try_lower_half();
        start(levels);
        make_calls(count);
    }
    for (size_t kind = 0; kind < KINDS; kind++) {
        bool is_tried = refused[kind] > 10 && (changes[kind] > 0 || kind == CLEAN_UP) && made[kind] > refused[kind];
        CHECK(kind >= UNMAP ? refused[kind] == 0 : count < 5000 || is_tried);
    }
    static const char *const names[KINDS] = {"maps", "ranges", "preparations", "clean ups", "changes of tables", "accesses", "", "", "", ""};
    printf("guards: %zu checks, %zu faults; refused of random calls:", checked, failed);
    for (size_t kind = 0; kind < UNMAP; kind++)
        printf("%s %zu of %zu %s", kind > 0 ? "," : "", refused[kind], made[kind], names[kind]);
    printf("\n");
    return failed == 0 ? EXIT_SUCCESS : EXIT_FAILURE;
}
