/*
 * Tests of x86_64_paging_live.h by threads: marks that one sets as a processor does while another one exchanges the words; guests that take
 * pages away during accesses; splits and joins beside writes; reads beside exchanges; and what is lost by calls that read and then write.
 * It is C and C++.
 *
 *     live_threads OPERATIONS     how many changes and accesses each thread makes, at least
 */
#include <pthread.h>
#include <sched.h>

#include "live_space.h"

enum { TURNS = 100, MEETINGS = 500, ROUNDS = 10, OTHER_PAGES = 1000 };

#define OTHER_FRAMES UINT64_C(0x9000000)

static uint64_t operations;
static int is_over, has_enough;

static bool is_set(const int *flag) {
    return __atomic_load_n(flag, __ATOMIC_ACQUIRE) != 0;
}

static void set_flag(int *flag, int value) {
    __atomic_store_n(flag, value, __ATOMIC_SEQ_CST);
}

static void begin(pthread_t *thread, void *(*work)(void *), void *argument) {
    CHECK(pthread_create(thread, NULL, work, argument) == 0);
}

/* Finds the entries of the small pages. */
static void find_all(x64_entry entries[PAGES]) {
    memset(entries, 0, PAGES * sizeof entries[0]);
    for (size_t k = 0; k < PAGES; k++)
        CHECK(x64_space_find_page(&space, HEAP + k * 4096, X64_SIZE_4KIB, &entries[k]) == X64_OK);
}

/* ---- marks beside exchanges */

/* Marks that were set, or found in old words. */
struct marks {
    uint64_t turns, accessed, dirty;
};

static void add_marks(struct marks *marks, uint64_t bits) {
    marks->accessed += (bits & X64_ACCESSED) != 0;
    marks->dirty += (bits & X64_DIRTY) != 0;
}

struct processor {
    x64_entry entries[PAGES];
    struct marks set;
};

/* Marks a word as a processor does for an access, if it allows it. Returns the marks that it set. */
static uint64_t mark(uint64_t *at, bool is_write) {
    uint64_t seen = __atomic_load_n(at, __ATOMIC_ACQUIRE), lacking;
    do {
        if (!(seen & X64_PRESENT) || (is_write && !(seen & X64_WRITABLE)))
            return 0; /* a page fault */
        lacking = (is_write ? MARKS : X64_ACCESSED) & ~seen;
    } while (lacking != 0 && !__atomic_compare_exchange_n(at, &seen, seen | lacking, false, __ATOMIC_SEQ_CST, __ATOMIC_ACQUIRE));
    return lacking;
}

static void *be_processor(void *argument) {
    struct processor *processor = (struct processor *)argument;
    uint64_t random = 99;
    for (; processor->set.turns < operations || !is_set(&is_over); processor->set.turns++) {
        random = random * UINT64_C(6364136223846793005) + UINT64_C(1442695040888963407);
        add_marks(&processor->set, mark(x64_space_word_at(&space, &processor->entries[(random >> 33) % PAGES]), random >> 60 & 1));
        if (processor->set.turns == operations)
            set_flag(&has_enough, 1);
        if (processor->set.turns % TURNS == 0)
            sched_yield();
    }
    set_flag(&has_enough, 1);
    return NULL;
}

/* Changes a page by one of the functions of the header, and learns of marks that go. */
static void change_live(struct marks *learned, uint64_t page) {
    const uint64_t word = (SMALL_FRAMES + (page - HEAP)) | USUAL, set = below(2) ? X64_WRITABLE : 0;
    const uint64_t keep[] = {~X64_WRITABLE, ~X64_DIRTY, ~MARKS, ~X64_PRESENT};
    uint64_t old = 0, choice = below(10);
    x64_entry entry = {0, 0, 0, 0};
    if (choice < 4) {
        if (x64_space_change_page(&space, page, X64_SIZE_4KIB, keep[choice], set, &old) == X64_OK)
            add_marks(learned, old & ~((old & keep[choice]) | set));
    } else if (choice == 4) {
        if (x64_space_take_page(&space, page, X64_SIZE_4KIB, &old) == X64_OK)
            add_marks(learned, old);
    } else if (choice == 5) {
        if (x64_space_exchange_page(&space, page, X64_SIZE_4KIB, SWAPPED & ~MARKS, &old) == X64_OK)
            add_marks(learned, old);
    } else if (choice == 6) {
        x64_taken taken[2];
        size_t count = 0;
        uint64_t next;
        CHECK(x64_space_take_range_live(&space, page & ~UINT64_C(0x1000), page | 0x1000, taken, 2, &count, &next) == X64_OK && count <= 2);
        for (size_t k = 0; k < count; k++)
            add_marks(learned, taken[k].word);
    } else {
        CHECK(x64_space_find_page(&space, page, X64_SIZE_4KIB, &entry) == X64_OK);
        if (choice == 7) {
            CHECK(x64_space_exchange_entry(&space, &entry, word, &old) == X64_OK);
        } else if (choice == 8) {
            CHECK(x64_space_change_entry(&space, &entry, ~MARKS, set, &old) == X64_OK);
        } else {
            do
                old = entry.word;
            while (x64_space_compare_exchange_entry(&space, &entry, word) == X64_CHANGED);
        }
        add_marks(learned, old);
    }
}

/* Changes a page by a call that reads and then writes. Its marks are looked up right before. */
static void change_plain(struct marks *learned, uint64_t page) {
    x64_translation found;
    uint64_t flags = below(2) ? USUAL : USUAL & ~X64_WRITABLE;
    memset(&found, 0, sizeof found);
    CHECK(x64_space_translate(&space, page, &found) == X64_OK);
    CHECK(x64_space_update_flags(&space, page, X64_SIZE_4KIB, flags) == X64_OK);
    add_marks(learned, found.flags);
}

/* Returns the n-th of other pages of the space, of which a part lies in the same table. */
static uint64_t other_page(uint64_t n) {
    return n % 4 == 0 ? HEAP + (PAGES + n % 64) * 4096 : (n % 4) << 39 | (n * 37 % 8) << 30 | (n * 11 % 3) << 21 | (n % 5) << 12;
}

/* Maps and unmaps other pages, and frees no table. */
static void *be_mapper(void *argument) {
    uint64_t *calls = (uint64_t *)argument;
    for (uint64_t n = 0; !is_set(&is_over); n++, (*calls)++) {
        uint64_t page = other_page(n % OTHER_PAGES), frame;
        uint32_t status = x64_space_map(&space, &pool, page, X64_SIZE_4KIB, OTHER_FRAMES + n % OTHER_PAGES * 4096, USUAL);
        if (status == X64_PAGE_ALREADY_MAPPED) {
            if (x64_space_unmap(&space, page, X64_SIZE_4KIB, &frame) != X64_OK || frame < OTHER_FRAMES)
                abort();
        } else if (status != X64_OK && status != X64_FRAME_ALLOCATION_FAILED) {
            abort();
        }
    }
    return NULL;
}

static uint64_t difference(uint64_t a, uint64_t b) {
    return a > b ? a - b : b - a;
}

/* Lets a processor mark pages while this thread changes them, and maybe another one maps others. Returns how many marks are lost, or found
 * twice. */
static uint64_t race(const char *name, void (*change)(struct marks *, uint64_t), bool is_beside_maps) {
    struct processor processor;
    struct marks learned;
    pthread_t thread, mapper;
    uint64_t calls = 0;
    memset(&processor, 0, sizeof processor);
    memset(&learned, 0, sizeof learned);
    fill(4);
    find_all(processor.entries);
    set_flag(&is_over, 0);
    set_flag(&has_enough, 0);
    begin(&thread, be_processor, &processor);
    if (is_beside_maps)
        begin(&mapper, be_mapper, &calls);
    while (learned.turns < operations || !is_set(&has_enough)) {
        change(&learned, HEAP + below(PAGES) * 4096);
        if (++learned.turns % TURNS == 0)
            sched_yield();
    }
    set_flag(&is_over, 1);
    pthread_join(thread, NULL);
    if (is_beside_maps)
        pthread_join(mapper, NULL);
    for (size_t k = 0; k < PAGES; k++)
        add_marks(&learned, *x64_space_word_at(&space, &processor.entries[k]));
    CHECK(fits());
    uint64_t lost = difference(processor.set.accessed, learned.accessed) + difference(processor.set.dirty, learned.dirty);
    printf("%s: %" PRIu64 " changes beside %" PRIu64 " accesses and %" PRIu64 " maps: ACCESSED set %" PRIu64 " times, DIRTY %" PRIu64
           ", %" PRIu64 " lost\n",
           name, learned.turns, processor.set.turns, calls, processor.set.accessed, processor.set.dirty, lost);
    return lost;
}

/* ---- a guest that takes pages away */

struct hypervisor {
    bool is_plain;
    uint64_t turns, changed, elsewhere;
};

/* Makes a write for the guest. */
static void write_for_guest(struct hypervisor *hypervisor) {
    x64_hierarchy hierarchy = x64_space_hierarchy(&space);
    x64_controls controls = {true, true, false, false, false, 52, false, false};
    uint64_t number = hypervisor->turns % PAGES;
    x64_access_request request = {HEAP + number * 4096, X64_WRITE, true, true};
    x64_outcome outcome;
    x64_arrival arrival;
    uint32_t status;
    if (hypervisor->is_plain) {
        if (x64_access(&hierarchy, tables, TABLES, &controls, &request, &outcome) > X64_PAGE_FAULT)
            abort();
        return;
    }
    while ((status = x64_access_live(&hierarchy, tables, TABLES, &controls, &request, &arrival)) == X64_CHANGED)
        hypervisor->changed++;
    hypervisor->elsewhere += status == X64_OK && arrival.outcome.address != SMALL_FRAMES + number * 4096;
}

static void *be_hypervisor(void *argument) {
    struct hypervisor *hypervisor = (struct hypervisor *)argument;
    for (uint64_t n = 0; n < operations / 10; n++, hypervisor->turns++)
        write_for_guest(hypervisor);
    set_flag(&is_over, 1);
    return NULL;
}

/* Takes a page away, and looks for a while whether its word comes back. Then maps it again. */
static bool comes_back(const x64_entry *entry, uint64_t word) {
    bool is_back = false;
    uint64_t old;
    CHECK(x64_space_exchange_entry(&space, entry, 0, &old) == X64_OK);
    for (uint64_t wait = below(100); wait < 100 && !is_back; wait++)
        is_back = __atomic_load_n(x64_space_word_at(&space, entry), __ATOMIC_ACQUIRE) != 0;
    CHECK(x64_space_exchange_entry(&space, entry, word, &old) == X64_OK);
    return is_back;
}

/* Returns how many words that the guest took away came back, and how many accesses arrived where the guest never mapped the page to. It is
 * repeated until there is one, or the two have met often enough, but at most so many times. */
static uint64_t put_back(const char *name, bool is_plain, int rounds) {
    struct hypervisor hypervisor;
    uint64_t turns = 0, back = 0;
    x64_entry entries[PAGES];
    memset(&hypervisor, 0, sizeof hypervisor);
    hypervisor.is_plain = is_plain;
    for (; rounds > 0 && back == 0 && hypervisor.changed < MEETINGS; rounds--) {
        pthread_t thread;
        fill(4);
        find_all(entries);
        set_flag(&is_over, 0);
        begin(&thread, be_hypervisor, &hypervisor);
        for (; !is_set(&is_over); turns++) {
            size_t k = below(PAGES);
            back += comes_back(&entries[k], (SMALL_FRAMES + k * 4096) | USUAL);
        }
        pthread_join(thread, NULL);
    }
    printf("%s: %" PRIu64 " writes while pages are taken away %" PRIu64 " times: %" PRIu64 " came back, %" PRIu64 " told of a change, %" PRIu64
           " arrive elsewhere\n",
           name, hypervisor.turns, turns, back, hypervisor.changed, hypervisor.elsewhere);
    return back + hypervisor.elsewhere;
}

/* ---- splits and joins beside writes */

static uint64_t begun, ended;

/* Writes to each part of the page of 2 MiB in turn, and counts the writes that begin and end. */
static void *write_large(void *argument) {
    x64_hierarchy hierarchy = x64_space_hierarchy(&space);
    x64_controls controls = {true, true, false, false, false, 52, false, false};
    (void)argument;
    for (uint64_t n = 0; !is_set(&is_over); n++) {
        uint64_t offset = n * 4096 % X64_SIZE_2MIB;
        x64_access_request request = {LARGE + offset, X64_WRITE, true, true};
        x64_arrival arrival;
        uint32_t status;
        __atomic_store_n(&begun, n + 1, __ATOMIC_SEQ_CST);
        while ((status = x64_access_live(&hierarchy, tables, TABLES, &controls, &request, &arrival)) == X64_CHANGED)
            ;
        if (status != X64_OK || arrival.outcome.address != LARGE_FRAME + offset)
            abort();
        __atomic_store_n(&ended, n + 1, __ATOMIC_SEQ_CST);
    }
    return NULL;
}

/* Waits as a flush does: until each write that has begun has ended. Returns how many have ended. */
static uint64_t wait_for_writes(void) {
    uint64_t first = __atomic_load_n(&begun, __ATOMIC_SEQ_CST);
    while (__atomic_load_n(&ended, __ATOMIC_SEQ_CST) < first)
        sched_yield();
    return __atomic_load_n(&ended, __ATOMIC_SEQ_CST);
}

/* Splits the page and joins it again. DIRTY is cleared before, and flushed: no write that began before goes on. The part of each write that
 * ended between that and the split must be dirty. Returns how many weren't. */
static uint64_t split_and_join(uint64_t *looked) {
    uint64_t old, frame = 0, lost = 0;
    CHECK(x64_space_change_page(&space, LARGE, X64_SIZE_2MIB, ~X64_DIRTY, 0, &old) == X64_OK);
    uint64_t from = wait_for_writes();
    if (below(2))
        sched_yield();
    CHECK(x64_space_split(&space, &pool, LARGE, X64_SIZE_2MIB) == X64_OK);
    uint64_t to = __atomic_load_n(&ended, __ATOMIC_SEQ_CST);
    for (uint64_t write = from; write < to && write < from + 512; write++, (*looked)++) {
        x64_entry entry = {0, 0, 0, 0};
        CHECK(x64_space_find_page(&space, LARGE + write % 512 * 4096, X64_SIZE_4KIB, &entry) == X64_OK);
        lost += !(entry.word & X64_DIRTY);
    }
    CHECK(x64_space_join(&space, LARGE, X64_SIZE_2MIB, LARGE_FRAME | USUAL | X64_HUGE_PAGE, &frame) == X64_OK);
    wait_for_writes(); /* nobody walks the old table any more */
    give_back(frame);
    return lost;
}

/* Splits and joins the page at least so often, and until enough writes were looked at. Returns how many of these were lost. */
static uint64_t split_beside_writes(uint64_t least) {
    pthread_t thread;
    uint64_t splits = 0, lost = 0, looked = 0;
    fill(4);
    begun = ended = 0;
    set_flag(&is_over, 0);
    begin(&thread, write_large, NULL);
    for (; splits < least || looked < MEETINGS; splits++)
        lost += split_and_join(&looked);
    set_flag(&is_over, 1);
    pthread_join(thread, NULL);
    printf("splits and joins: %" PRIu64 " beside %" PRIu64 " writes: of %" PRIu64 " that were looked at %" PRIu64 " lost\n", splits, ended, looked, lost);
    CHECK(fits());
    return lost;
}

/* ---- reads beside exchanges */

static void *exchange_one(void *argument) {
    const x64_entry *entry = (const x64_entry *)argument;
    while (!is_set(&is_over)) {
        uint64_t old;
        if (x64_space_exchange_entry(&space, entry, 0, &old) != X64_OK ||
            x64_space_exchange_entry(&space, entry, LARGE_FRAME | USUAL | (entry->level > 1 ? X64_HUGE_PAGE : 0), &old) != X64_OK)
            abort();
    }
    return NULL;
}

/* Whether a status and the word that it tells of belong together. */
static bool agrees(uint32_t status, uint64_t word) {
    return status == (word & X64_PRESENT ? X64_OK : X64_NOT_MAPPED);
}

/* Reads an entry while another thread exchanges it, until both words were read often enough. x64_entries may load it twice, so what it says needn't
 * belong together. */
static void read_beside_exchanges(uint64_t page, uint64_t size) {
    pthread_t thread;
    x64_entry entry = {1, space.root, 0, 0}, entries[X64_MOST_LEVELS], found = entry;
    size_t count = 0;
    uint64_t reads = 0, present = 0, plain = 0, live = 0, finds = 0;
    fill(4);
    CHECK(x64_space_find_page(&space, page, size, &entry) == X64_OK);
    set_flag(&is_over, 0);
    begin(&thread, exchange_one, &entry);
    x64_hierarchy hierarchy = x64_space_hierarchy(&space);
    for (; reads < operations / 4 || present < MEETINGS || reads - present < MEETINGS; reads++) {
        uint32_t status = x64_entries(&hierarchy, tables, TABLES, page, entries, X64_MOST_LEVELS, &count);
        plain += !agrees(status, entries[count - 1].word);
        status = x64_entries_live(&hierarchy, tables, TABLES, page, entries, &count);
        live += !agrees(status, entries[count - 1].word);
        present += status == X64_OK;
        status = x64_space_find_entry(&space, page, &found);
        finds += !agrees(status, found.word) || found.level != entry.level;
    }
    set_flag(&is_over, 1);
    pthread_join(thread, NULL);
    printf("reads of a word of level %" PRIu64 " that is exchanged: of %" PRIu64 ", which found it present %" PRIu64
           " times, don't agree with their status: %" PRIu64 " by x64_entries, %" PRIu64 " by x64_entries_live, %" PRIu64 " by x64_space_find_entry\n",
           entry.level, reads, present, plain, live, finds);
    CHECK(live == 0 && finds == 0);
}

int main(int argc, char **argv) {
    operations = argc > 1 ? strtoull(argv[1], NULL, 0) : 1000000;
    CHECK(race("exchanges", change_live, false) == 0);
    CHECK(race("exchanges beside maps", change_live, true) == 0);
    CHECK(put_back("x64_access_live", false, ROUNDS) == 0);
    CHECK(split_beside_writes(operations / 500) == 0);
    read_beside_exchanges(HEAP, X64_SIZE_4KIB);
    read_beside_exchanges(LARGE, X64_SIZE_2MIB);
    printf("%zu checks, %zu faults. And by calls that read and then write:\n", checked, failed);
    race("x64_update_flags", change_plain, false);
    put_back("x64_access with mark", true, ROUNDS);
    return failed == 0 ? EXIT_SUCCESS : EXIT_FAILURE;
}
