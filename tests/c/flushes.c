/*
 * Shows by a simulated processor which flushes calls make necessary. For each sentence of the header about them there are rows which leave
 * the flush out, or are late with it, so that an access goes astray, and rows which do as the header says. Then random calls do so.
 *
 * The processor caches what its walks find: pages, as a TLB does, and tables on the way. A large page is cached in parts of 4 KiB, as
 * the manuals allow. An item stays until a flush drops it, or a fault at its address. An access may go by each item that serves its
 * address, and by the tables. (Intel SDM vol. 3A, "Caching Translation Information".)
 */
#include <inttypes.h>
#include <stdio.h>
#include <stdlib.h>
#include <string.h>

#include "x86_64_paging.h"

enum { FIRST = 16, FRAMES = 64, ITEMS = 4096, SHARED_FROM = 256, SHARED_TO = 512 };
#define USER X64_USER_ACCESSIBLE
#define RIGHTS (X64_WRITABLE | USER)
#define PARENTS (X64_PRESENT | RIGHTS | X64_ACCESSED)
#define ADDRESS UINT64_C(0xffffffffff000)
#define KEY UINT64_C(0x7800000000000000)
/* The bits of a page's entry that say how its memory is cached, whether it is global, and its protection key. */
#define KIND (X64_WRITE_THROUGH | X64_NO_CACHE | X64_HUGE_PAGE | X64_GLOBAL | KEY)

static x64_table memory[FRAMES];
static uint64_t free_frames[FRAMES];
static x64_pool pool;
static x64_space space; /* its root is in CR3, too */

static size_t rows, failed;

static void wants(const char *what, uint64_t is, uint64_t wanted) {
    rows++;
    if (is == wanted)
        return;
    failed++;
    fprintf(stderr, "%" PRIu64 " levels, %s: %" PRIu64 " and not %" PRIu64 "\n", space.levels, what, is, wanted);
}

/* ---- the processor */

/* What is cached of the addresses from `start` on. */
struct item {
    uint64_t start, size;
    uint64_t level;      /* that of the table that it names, or 0 if it names a page */
    uint64_t page_level; /* that of the page's entry */
    uint64_t frame;      /* of the table, or of the page or its part */
    uint64_t flags;      /* those of the last entry, with the rights that all on the way grant */
};

static struct item cache[ITEMS];
static size_t item_count;
static x64_controls controls;

static bool serves(const struct item *item, uint64_t address) {
    return address - item->start <= item->size - 1;
}

/* The root's table, where each walk may start. */
static struct item root_table(void) {
    return (struct item){.level = space.levels, .frame = space.root, .flags = RIGHTS};
}

/* Goes on by the entry of a table. Returns false if it leads nowhere. */
static bool step(struct item *at, uint64_t address) {
    uint64_t number = at->frame / 4096 - FIRST, level = at->level, shift = 3 + 9 * level, size = UINT64_C(1) << shift;
    if (number >= FRAMES)
        return false;
    uint64_t word = memory[number].words[address >> shift & 511], mixed = word & at->flags & RIGHTS;
    bool is_page = level == 1 || (word & X64_HUGE_PAGE);
    if (!(word & X64_PRESENT) || (is_page && level > 3))
        return false;
    at->flags = (word & ~ADDRESS & ~RIGHTS) | mixed | (at->flags & X64_NO_EXECUTE);
    at->frame = is_page ? (word & ADDRESS & ~(size - 1)) + (address & (size - 1) & ADDRESS) : word & ADDRESS;
    at->level = is_page ? 0 : level - 1;
    at->page_level = is_page ? level : 0;
    at->size = is_page ? 4096 : size;
    at->start = address & ~(at->size - 1);
    return true;
}

static void keep(const struct item *item) {
    for (size_t n = 0; n < item_count; n++)
        if (memcmp(&cache[n], item, sizeof *item) == 0)
            return;
    if (item_count < ITEMS)
        cache[item_count++] = *item;
}

/* Drops the items of tables, and the pages that a test names. */
static void drop(bool (*is_dropped)(const struct item *, uint64_t), uint64_t address) {
    size_t kept = 0;
    for (size_t n = 0; n < item_count; n++)
        if (cache[n].level == 0 && !is_dropped(&cache[n], address))
            cache[kept++] = cache[n];
    item_count = kept;
}

/* Whether INVLPG drops a page: that of the address, and the other parts of a large one, unless smaller pages have a table there by now. */
static bool is_invalidated(const struct item *page, uint64_t address) {
    uint64_t large = UINT64_C(1) << (3 + 9 * page->page_level);
    x64_entry entries[X64_MOST_LEVELS];
    size_t count;
    if (serves(page, address))
        return true;
    return page->start / large == address / large &&
           x64_space_entries(&space, address, entries, X64_MOST_LEVELS, &count) <= X64_NO_TABLE &&
           entries[count - 1].level >= page->page_level;
}

static bool is_not_global(const struct item *page, uint64_t unused) {
    (void)unused;
    return !(page->flags & X64_GLOBAL);
}

static void invlpg(uint64_t address) {
    drop(is_invalidated, address);
}

static void load_cr3(uint64_t root) {
    space.root = root;
    drop(is_not_global, 0);
}

static void flush_everything(void) {
    item_count = 0;
}

/* A page fault drops what serves its address. */
static void fault(uint64_t address) {
    drop(serves, address);
}

static void keep_way(struct item at, uint64_t address) {
    while (at.level > 0 && step(&at, address))
        keep(&at);
}

/* Lets the processor read, write and fetch at an address, in both rings, with its marks, and cache all that it finds on the way: from the
 * root, and from each table that it has cached. */
static void use(uint64_t address) {
    for (uint32_t k = 0; k < 6; k++) {
        x64_access_request access = {address, k / 2, k % 2, true};
        x64_outcome outcome;
        if (x64_space_access(&space, &controls, &access, &outcome) > X64_PAGE_FAULT)
            abort();
        keep_way(root_table(), address);
        for (size_t n = 0, count = item_count; n < count; n++)
            if (serves(&cache[n], address))
                keep_way(cache[n], address);
    }
}

/* ---- accesses */

/* How an access goes by what is cached, beside what x64_access says: the same, or it faults where it should arrive, or it goes where it
 * shouldn't, or in a way that it shouldn't. */
enum verdict { AGREES, FAULTS_ONCE, ASTRAY };

/* Whether the rights of a page, as they are cached, allow an access. */
static bool is_allowed(const struct item *page, const x64_access_request *access) {
    bool is_user_page = page->flags & USER, is_supervisor_there = is_user_page && !access->user;
    if (access->user && !is_user_page)
        return false;
    if (access->kind == X64_FETCH)
        return !(page->flags & X64_NO_EXECUTE) && !(is_supervisor_there && controls.smep);
    if (is_supervisor_there && controls.smap && !controls.ac)
        return false;
    return access->kind == X64_READ || (page->flags & X64_WRITABLE);
}

/* Compares an access that comes to a page, or to none, with what x64_access says. */
static enum verdict compare(const struct item *page, const x64_access_request *access) {
    x64_outcome outcome = {0};
    x64_translation now = {0};
    bool arrives = x64_space_access(&space, &controls, access, &outcome) == X64_OK;
    if (page == NULL || !is_allowed(page, access))
        return arrives ? FAULTS_ONCE : AGREES;
    if (!arrives || outcome.address != page->frame + access->address % 4096)
        return ASTRAY;
    /* who has cached a mark doesn't set it again */
    uint64_t marks = X64_ACCESSED | (access->kind == X64_WRITE ? X64_DIRTY : 0);
    bool is_there = x64_space_translate(&space, access->address, &now) == X64_OK;
    return is_there && ((page->flags ^ now.flags) & KIND) == 0 && (page->flags & ~now.flags & marks) == 0 ? AGREES : ASTRAY;
}

/* Returns the worst that may come of accesses at an address by the entries of a table, or by a page. */
static enum verdict worst_by(struct item at, uint64_t address) {
    enum verdict found = AGREES;
    bool leads_on = true;
    while (leads_on && at.level > 0)
        leads_on = step(&at, address);
    for (uint32_t k = 0; k < 6; k++) {
        x64_access_request access = {address, k / 2, k % 2, false};
        enum verdict verdict = compare(leads_on ? &at : NULL, &access);
        found = verdict > found ? verdict : found;
    }
    return found;
}

/* Returns the worst that may come of accesses at an address. */
static enum verdict worst(uint64_t address) {
    enum verdict found = worst_by(root_table(), address);
    for (size_t n = 0; n < item_count; n++)
        if (serves(&cache[n], address)) {
            enum verdict verdict = worst_by(cache[n], address);
            found = verdict > found ? verdict : found;
        }
    return found;
}

/* ---- the kernel */

/* Pages of the lower half, which each root has for itself, and where pages are mapped to. */
enum { PAGE = 0x1000, LARGE = 0x200000, FRAME = 0x40000000 };

static uint64_t high(void) {
    return UINT64_MAX << (11 + 9 * space.levels);
}

static uint64_t lower_end(void) {
    return UINT64_C(1) << (11 + 9 * space.levels);
}

/* How many bytes an entry of the highest level is about. */
static uint64_t top_size(void) {
    return UINT64_C(1) << (3 + 9 * space.levels);
}

static uint32_t map(uint64_t page, uint64_t size, uint64_t flags, uint64_t parent_flags) {
    x64_map_request request = {{page, size}, FRAME + page % FRAME, flags, parent_flags};
    return x64_space_map_with(&space, &pool, &request);
}

/* Maps a page of 4 KiB for all accesses. */
static void map_page(uint64_t page) {
    wants("map", map(page, X64_SIZE_4KIB, X64_PRESENT | RIGHTS, PARENTS), X64_OK);
}

static void unmap(uint64_t page, uint64_t size) {
    uint64_t frame;
    wants("unmap", x64_space_unmap(&space, page, size, &frame), X64_OK);
    wants("the flush after it", x64_flush_after(X64_CALL_UNMAP, 0, X64_OK), X64_FLUSH_PAGE);
}

/* Makes one more space, which shares the upper half of the root, and returns its root. */
static uint64_t new_space(void) {
    x64_space shared = space, other = space;
    shared.shared_from = SHARED_FROM;
    shared.shared_to = SHARED_TO;
    wants("new_space", x64_space_new(&shared, &pool, &other), X64_OK);
    return other.root;
}

static void clean_up(void) {
    wants("clean_up", x64_space_clean_up(&space, &pool, 0, lower_end() - 4096), X64_OK);
    wants("the flush after it", x64_flush_after(X64_CALL_CLEAN_UP, 0, X64_OK), X64_FLUSH_TABLES);
}

/* Makes a space with a page in its shared half, and forgets what was cached. */
static void start(uint64_t levels) {
    memset(memory, 0, sizeof memory);
    for (size_t n = 0; n < FRAMES; n++)
        free_frames[n] = (FIRST + FRAMES - 1 - n) * UINT64_C(4096);
    space = (x64_space){memory, FRAMES, FIRST, FIRST * 4096, levels, 0, 0, NULL, 0};
    pool = (x64_pool){free_frames, FRAMES, FRAMES - 1};
    controls = (x64_controls){.write_protect = true, .no_execute = true, .physical_bits = 40};
    flush_everything();
    map_page(high());
}

/* ---- rows: changes of a page's flags */

/* What is set of a page with flags that the processor uses, and what comes of it if nothing is flushed. */
static const struct update {
    const char *what;
    uint64_t before, removed, added;
    bool smep, smap;
    enum verdict unflushed;
} updates[] = {
    {"WRITABLE is added", X64_PRESENT, 0, X64_WRITABLE, false, false, FAULTS_ONCE},
    {"USER_ACCESSIBLE is added", X64_PRESENT | X64_WRITABLE, 0, USER, false, false, FAULTS_ONCE},
    {"NO_EXECUTE is removed", X64_PRESENT | RIGHTS | X64_NO_EXECUTE, X64_NO_EXECUTE, 0, true, true, FAULTS_ONCE},
    {"marks are added", X64_PRESENT, 0, X64_ACCESSED | X64_DIRTY, true, true, AGREES},
    {"bits are added that the processor ignores", X64_PRESENT | RIGHTS, 0, UINT64_C(0x7f0000000000e00), true, true, AGREES},
    {"PRESENT is added", X64_WRITABLE, 0, X64_PRESENT | USER, false, false, AGREES},
    {"PRESENT is removed", X64_PRESENT, X64_PRESENT, 0, false, false, ASTRAY},
    {"WRITABLE is removed", X64_PRESENT | RIGHTS, X64_WRITABLE, 0, false, false, ASTRAY},
    {"USER_ACCESSIBLE is removed", X64_PRESENT | RIGHTS, USER, 0, false, false, ASTRAY},
    {"NO_EXECUTE is added", X64_PRESENT | RIGHTS, 0, X64_NO_EXECUTE, false, false, ASTRAY},
    {"ACCESSED is removed", X64_PRESENT, X64_ACCESSED, 0, false, false, ASTRAY},
    {"DIRTY is removed", X64_PRESENT | RIGHTS, X64_DIRTY, 0, false, false, ASTRAY},
    {"WRITE_THROUGH is added", X64_PRESENT, 0, X64_WRITE_THROUGH, false, false, ASTRAY},
    {"NO_CACHE is removed", X64_PRESENT | X64_NO_CACHE, X64_NO_CACHE, 0, false, false, ASTRAY},
    {"PAT is added", X64_PRESENT, 0, X64_HUGE_PAGE, false, false, ASTRAY},
    {"GLOBAL is removed", X64_PRESENT | X64_GLOBAL, X64_GLOBAL, 0, false, false, ASTRAY},
    {"the protection key changes", X64_PRESENT | RIGHTS, 0, UINT64_C(1) << 59, false, false, ASTRAY},
    {"its last bit changes", X64_PRESENT | RIGHTS | UINT64_C(1) << 62, UINT64_C(1) << 62, 0, false, false, ASTRAY},
    {"USER_ACCESSIBLE is added with SMEP", X64_PRESENT, 0, USER, true, false, ASTRAY},
    {"USER_ACCESSIBLE is added with SMAP", X64_PRESENT | X64_NO_EXECUTE, 0, USER, false, true, ASTRAY},
};

/* Whether the header says that nothing has to be flushed after the flags of a page's entry changed. */
static bool may_stay(uint64_t before, uint64_t after) {
    uint64_t kept = X64_PRESENT | RIGHTS | X64_ACCESSED | X64_DIRTY;
    bool is_added = (after & ~before & USER) && (controls.smep || controls.smap);
    return (before & kept & ~after) == 0 && !(after & X64_NO_EXECUTE) && ((before ^ after) & KIND) == 0 && !is_added;
}

/* What follows: nothing, a fault at the page after which the access is made again, or its flush. */
enum after { NOTHING, FAULT, FLUSH };

/* Sets the flags of a page that the processor uses. */
static void try_update(const struct update *row, uint64_t levels) {
    for (enum after after = NOTHING; after <= FLUSH; after++) {
        x64_translation now = {0};
        start(levels);
        controls.smep = row->smep;
        controls.smap = row->smap;
        wants("map", map(PAGE, X64_SIZE_4KIB, row->before, PARENTS), X64_OK);
        use(PAGE);
        wants("translate", x64_space_translate(&space, PAGE, &now), X64_OK);
        uint64_t flags = (now.flags & ~row->removed) | row->added;
        wants(row->what, x64_space_update_flags(&space, PAGE, X64_SIZE_4KIB, flags), X64_OK);
        wants("whether it may stay cached", may_stay(now.flags, flags), row->unflushed != ASTRAY);
        wants("the flush after it", x64_flush_after(X64_CALL_UPDATE_FLAGS, 0, X64_OK), X64_FLUSH_PAGE);
        if (after == FAULT)
            fault(PAGE);
        else if (after == FLUSH)
            invlpg(PAGE);
        if (after != FAULT || row->unflushed == FAULTS_ONCE)
            wants(row->what, worst(PAGE), after == NOTHING ? row->unflushed : AGREES);
    }
}

/* ---- rows: freed tables */

enum flush { NONE, INVLPG, LOAD_CR3, EVERYTHING, FLUSHES };

static void flush(enum flush kind, uint64_t page) {
    if (kind == INVLPG)
        invlpg(page);
    else if (kind == LOAD_CR3)
        load_cr3(space.root);
    else if (kind == EVERYTHING)
        flush_everything();
}

/* Lets the caller take free frames, in which it writes what looks like entries of pages. */
static void take_frames(uint64_t count) {
    for (uint64_t k = 0; k < count; k++) {
        x64_table *taken = &memory[free_frames[--pool.free_count] / 4096 - FIRST];
        for (size_t index = 0; index < 512; index++)
            taken->words[index] = FRAME | X64_PRESENT | RIGHTS;
    }
}

/* Who takes a frame of a table that was freed, before or after cached tables are flushed: a map, a new root, or the caller. */
enum taker { MAP, NEW_SPACE, CALLER, TAKERS };

/* Frees tables that the processor has cached, lets one of their frames be taken, and returns the worst of accesses that come to it. */
static enum verdict take_freed(enum taker taker, enum flush due) {
    map_page(PAGE);
    unmap(PAGE, X64_SIZE_4KIB);
    invlpg(PAGE);
    use(PAGE);
    clean_up();
    wants("freed tables, which hold zeros", worst(PAGE), AGREES);
    flush(due, high());
    if (taker == MAP) {
        map_page(PAGE + top_size());
    } else if (taker == NEW_SPACE) {
        new_space();
        return worst(SHARED_FROM * (top_size() / 512)); /* the new root's first shared entry, seen as one of a level below */
    } else {
        take_frames(space.levels - 1);
    }
    return worst(PAGE);
}

static void try_freed_tables(uint64_t levels) {
    static const char *const takers[TAKERS] = {"a map takes a freed table", "a root does", "the caller does"};
    for (enum taker taker = MAP; taker < TAKERS; taker++)
        for (enum flush due = NONE; due < FLUSHES; due++) {
            start(levels);
            wants(takers[taker], take_freed(taker, due), due == NONE ? ASTRAY : AGREES);
        }
}

/* ---- rows: global pages */

/* Maps a page in a space, lets the processor use it and go on to another space, and returns the worst of accesses there. */
static enum verdict switch_after(uint64_t page, uint64_t flags, uint64_t levels) {
    start(levels);
    wants("map", map(page, X64_SIZE_4KIB, X64_PRESENT | RIGHTS | flags, PARENTS), X64_OK);
    uint64_t root = new_space();
    use(page);
    load_cr3(root);
    return worst(page);
}

static void try_global_pages(uint64_t levels) {
    wants("a page of one space", switch_after(PAGE, 0, levels), AGREES);
    wants("a global page of one space", switch_after(PAGE, X64_GLOBAL, levels), ASTRAY);
    wants("a global page of all spaces", switch_after(high() + PAGE, X64_GLOBAL, levels), AGREES);
}

/* ---- rows: several calls before one flush */

/* Unmaps two global pages, frees their tables, and then flushes so many times. Returns the worst of accesses there. */
static enum verdict unmap_two(enum flush kind, uint64_t times, uint64_t levels) {
    start(levels);
    for (uint64_t k = 0; k < 2; k++) {
        wants("map", map(PAGE + k * 4096, X64_SIZE_4KIB, X64_PRESENT | RIGHTS | X64_GLOBAL, PARENTS), X64_OK);
        use(PAGE + k * 4096);
    }
    unmap(PAGE, X64_SIZE_4KIB);
    unmap(PAGE + 4096, X64_SIZE_4KIB);
    clean_up();
    for (uint64_t k = 0; k < times; k++)
        flush(kind, PAGE + k * 4096);
    enum verdict one = worst(PAGE), other = worst(PAGE + 4096);
    return one > other ? one : other;
}

/* Unmaps a range, and flushes some of its pages. */
static enum verdict unmap_three(uint64_t flushed, uint64_t levels) {
    uint64_t frames[3], done;
    size_t count;
    start(levels);
    for (uint64_t k = 0; k < 3; k++) {
        map_page(PAGE + k * 4096);
        use(PAGE + k * 4096);
    }
    wants("unmap_range", x64_space_unmap_range(&space, PAGE, X64_SIZE_4KIB, 3, frames, 3, &count, &done), X64_OK);
    for (uint64_t k = 0; k < flushed; k++)
        invlpg(PAGE + k * 4096);
    return worst(PAGE + 2 * 4096);
}

/* Takes a range away, of which one page isn't present, and flushes each page whose words want it, but for some of them. */
static enum verdict take_three(uint64_t left, uint64_t levels) {
    x64_taken taken[3];
    uint64_t next;
    size_t count;
    start(levels);
    for (uint64_t k = 0; k < 3; k++) {
        map_page(PAGE + k * 4096);
        use(PAGE + k * 4096);
    }
    wants("update_flags", x64_space_update_flags(&space, PAGE + 4096, X64_SIZE_4KIB, 0), X64_OK);
    invlpg(PAGE + 4096);
    wants("take_range", x64_space_take_range(&space, PAGE, PAGE + 2 * 4096, taken, 3, &count, &next), X64_OK);
    for (size_t k = 0; k + left < count; k++)
        if (x64_flush_between(1, taken[k].word, 0) == X64_FLUSH_PAGE)
            invlpg(taken[k].page);
    return worst(PAGE + 2 * 4096);
}

static void try_several_calls(uint64_t levels) {
    wants("two pages and the INVLPG of one", unmap_two(INVLPG, 1, levels), ASTRAY);
    wants("two pages and the INVLPG of each", unmap_two(INVLPG, 2, levels), AGREES);
    wants("two pages and a load of CR3", unmap_two(LOAD_CR3, 1, levels), ASTRAY);
    wants("two pages and a flush of everything", unmap_two(EVERYTHING, 1, levels), AGREES);
    wants("a range without its last page", unmap_three(2, levels), ASTRAY);
    wants("a range", unmap_three(3, levels), AGREES);
    wants("a range of words without its last page", take_three(1, levels), ASTRAY);
    wants("a range of words", take_three(0, levels), AGREES);
}

/* ---- rows: large pages */

/* Unmaps a large page, maps a small one there, and flushes before that, and after it. Returns the worst of accesses to another part. */
static enum verdict replace_large(enum flush before, enum flush after, uint64_t levels) {
    uint64_t part = LARGE + 5 * 4096;
    start(levels);
    wants("map", map(LARGE, X64_SIZE_2MIB, X64_PRESENT | RIGHTS, PARENTS), X64_OK);
    use(LARGE);
    use(part);
    unmap(LARGE, X64_SIZE_2MIB);
    flush(before, LARGE);
    map_page(LARGE);
    flush(after, LARGE);
    return worst(part);
}

static void try_large_pages(uint64_t levels) {
    wants("INVLPG of a large page", replace_large(INVLPG, NONE, levels), AGREES);
    wants("INVLPG after a smaller page is mapped", replace_large(NONE, INVLPG, levels), ASTRAY);
    wants("everything after it", replace_large(NONE, EVERYTHING, levels), AGREES);
}

/* ---- rows: a map that gives users more */

/* Maps a page below entries without USER_ACCESSIBLE, and then one beside it, which adds this to them. Returns the worst of accesses to the
 * first page. */
static enum verdict map_beside(uint64_t flags, bool smep, bool smap, enum flush after, uint64_t levels) {
    start(levels);
    controls.smep = smep;
    controls.smap = smap;
    wants("map", map(PAGE, X64_SIZE_4KIB, X64_PRESENT | flags, X64_PRESENT | X64_WRITABLE), X64_OK);
    use(PAGE);
    map_page(PAGE + 4096);
    wants("the flush after it", x64_flush_after(X64_CALL_MAP, PARENTS, X64_OK), X64_FLUSH_NOTHING);
    flush(after, PAGE);
    return worst(PAGE);
}

static void try_maps(uint64_t levels) {
    wants("USER_ACCESSIBLE above", map_beside(RIGHTS, false, false, NONE, levels), FAULTS_ONCE);
    wants("with SMEP", map_beside(RIGHTS, true, false, NONE, levels), ASTRAY);
    wants("with SMAP", map_beside(RIGHTS, false, true, NONE, levels), ASTRAY);
    wants("with both and INVLPG", map_beside(RIGHTS, true, true, INVLPG, levels), AGREES);
    wants("with both, above a page of the kernel", map_beside(X64_WRITABLE, true, true, NONE, levels), AGREES);
    wants("NO_EXECUTE in parent flags", x64_flush_after(X64_CALL_MAP, PARENTS | X64_NO_EXECUTE, X64_OK), X64_FLUSH_EVERYTHING);
}

/* ---- random calls */

/* What is done with the flushes that calls tell: what the header says, or with a mistake. */
enum rule { HEADER, ONLY_THE_LAST, MAPS_BEFORE_TABLES, SMALL_BEFORE_LARGE, RULES };

static struct due {
    uint64_t start, size;
} dues[ITEMS];
static size_t due_count;
static bool are_tables_due, is_everything_due;

/* Numbers by a fixed rule: xorshift64*. */
static uint64_t state;

static uint64_t below(uint64_t limit) {
    state ^= state >> 12;
    state ^= state << 25;
    state ^= state >> 27;
    return (state * UINT64_C(0x2545f4914f6cdd1d) >> 33) % limit;
}

/* Returns the address of one of eight pages, below two entries of the root. */
static uint64_t some_page(void) {
    uint64_t number = below(8);
    return number / 4 * top_size() + number / 2 % 2 * X64_SIZE_2MIB + number % 2 * X64_SIZE_4KIB;
}

static uint64_t some_flags(void) {
    uint64_t number = below(1024), flags = number & (RIGHTS | X64_ACCESSED | X64_DIRTY);
    return flags | (number % 8 == 0 ? 0 : X64_PRESENT) | (number >= 900 ? X64_NO_EXECUTE : 0);
}

/* Executes the flushes that are due. */
static void settle(enum rule rule) {
    if (is_everything_due)
        flush_everything();
    else if (due_count == 0 && are_tables_due)
        flush(below(2) ? INVLPG : LOAD_CR3, lower_end() - 4096); /* no page is there */
    for (size_t n = rule == ONLY_THE_LAST && due_count > 0 ? due_count - 1 : 0; n < due_count; n++)
        invlpg(dues[n].start);
    due_count = 0;
    are_tables_due = is_everything_due = false;
}

/* Whether a flush is due of a page that contains an address, or, if so asked, of a large page in which another page lies. */
static bool is_due(uint64_t address, uint64_t least_size) {
    for (size_t n = 0; n < due_count; n++)
        if (address - dues[n].start < dues[n].size && dues[n].size > least_size)
            return true;
    return is_everything_due;
}

/* Makes a call, and remembers what has to be flushed. Before a map it flushes what has to be flushed by then. */
static void call(enum rule rule) {
    uint64_t size = below(2) ? X64_SIZE_4KIB : X64_SIZE_2MIB, page = some_page() & ~(size - 1), choice = below(32), frame;
    uint64_t number = below(256), parent_flags = X64_PRESENT | (number & RIGHTS) | (number < 8 ? X64_NO_EXECUTE : 0);
    x64_translation now = {0};
    uint32_t status, kind = choice < 10   ? X64_CALL_MAP
                            : choice < 24 ? X64_CALL_UNMAP
                            : choice < 26 ? X64_CALL_UPDATE_FLAGS
                            : choice < 27 ? X64_CALL_SET_TABLE_FLAGS
                                          : X64_CALL_CLEAN_UP;
    if (kind == X64_CALL_MAP) {
        bool is_large_due = size == X64_SIZE_4KIB && is_due(page, X64_SIZE_4KIB);
        if ((are_tables_due && rule != MAPS_BEFORE_TABLES) || (is_large_due && rule != SMALL_BEFORE_LARGE))
            settle(rule);
        status = choice < 2 ? x64_space_prepare(&space, &pool, page, size, parent_flags) : map(page, size, some_flags() & ~X64_ACCESSED, parent_flags);
        if (status != X64_OK)
            return; /* nothing has changed */
    } else if (kind == X64_CALL_UNMAP) {
        status = x64_space_unmap(&space, page, size, &frame);
    } else if (kind == X64_CALL_UPDATE_FLAGS) {
        uint64_t flags = some_flags() | (size - X64_SIZE_4KIB ? X64_HUGE_PAGE : 0);
        bool is_there = x64_space_translate(&space, page, &now) == X64_OK && now.size == size;
        status = x64_space_update_flags(&space, page, size, flags);
        if (is_there && status == X64_OK && may_stay(now.flags, flags))
            return;
    } else if (kind == X64_CALL_SET_TABLE_FLAGS) {
        uint64_t level = 2 + below(space.levels - 1);
        status = x64_space_set_table_flags(&space, page, size, level, some_flags() | X64_PRESENT);
    } else {
        status = x64_space_clean_up(&space, &pool, 0, lower_end() - 4096);
    }
    uint32_t told = x64_flush_after(kind, parent_flags, status);
    if (told == X64_FLUSH_PAGE)
        dues[due_count++] = (struct due){page, size};
    are_tables_due |= told == X64_FLUSH_TABLES;
    is_everything_due |= told == X64_FLUSH_EVERYTHING;
}

/* Makes random calls and flushes, while the processor caches. Returns how many accesses go astray that no flush is due for. */
static size_t make_calls(enum rule rule, uint64_t count, uint64_t levels) {
    size_t astray = 0;
    start(levels);
    state = UINT64_C(0x9e3779b97f4a7c15);
    due_count = 0;
    are_tables_due = is_everything_due = false;
    for (uint64_t k = 0; k < count; k++) {
        uint64_t page = some_page(), other = some_page();
        if (below(2) == 0)
            call(rule);
        if (below(16) == 0 || due_count == ITEMS)
            settle(rule);
        use(page);
        if (!is_due(other, 0))
            astray += worst(other) == ASTRAY;
        if (below(200) == 0)
            flush_everything(); /* a processor may forget at any time */
    }
    return astray;
}

static size_t astray[RULES];

static void try_random_calls(uint64_t levels) {
    for (enum rule rule = HEADER; rule < RULES; rule++) {
        size_t found = make_calls(rule, 60000, levels);
        wants("whether random calls lead astray", found > 0, rule != HEADER);
        astray[rule] += found;
    }
}

int main(void) {
    for (uint64_t levels = 4; levels <= 5; levels++) {
        for (size_t n = 0; n < sizeof updates / sizeof *updates; n++)
            try_update(&updates[n], levels);
        try_freed_tables(levels);
        try_global_pages(levels);
        try_several_calls(levels);
        try_large_pages(levels);
        try_maps(levels);
        try_random_calls(levels);
    }
    printf("flushes: %zu checks, %zu faults; of random calls %zu lead astray with all flushes, %zu with the last one alone, "
           "%zu with maps before tables are flushed, %zu with small pages before a large one is\n",
           rows, failed, astray[HEADER], astray[ONLY_THE_LAST], astray[MAPS_BEFORE_TABLES], astray[SMALL_BEFORE_LARGE]);
    return failed == 0 ? EXIT_SUCCESS : EXIT_FAILURE;
}
