/*
 * x86_64_paging_live.h: entries that change while processors use them. The functions are inline,
 * over those of x86_64_paging.h, and take the same spaces and pools. They need a compiler that has
 * gcc's __atomic functions, as gcc and clang do.
 *
 * A processor sets X64_ACCESSED and X64_DIRTY in a present entry at any moment. Whoever reads a
 * word, and then writes another one, loses what was set in between: x64_space_unmap,
 * x64_space_update_flags and x64_space_take_range do, and x64_space_access with mark does it to a
 * guest. The functions here put a word in the place of another one by a single locked instruction,
 * and return the one that was there. So no mark is lost: it is in the entry now, or in a word that
 * one of these functions returned since.
 *
 * WHICH WORDS ARE YOURS
 *
 * An entry that names no table is the caller's to change: at level 1 it may become any word at all,
 * with X64_PRESENT or without it, such as the number of a place in a swap file (shifted, so that
 * X64_PRESENT stays clear, and not 0, which is an unused entry); at levels 2 and 3 it may become 0
 * or any word with X64_HUGE_PAGE. An entry that names a table may get other flags but
 * X64_HUGE_PAGE, and keeps its address. The hierarchy stays valid, and the pool fits as before.
 * x64_may_replace tests it, and the functions refuse everything else with X64_NOT_ALLOWED. An entry
 * of the root that is shared stays as it is: they refuse to change it with X64_SHARED_ENTRY. One
 * condition isn't tested: X64_GLOBAL is set only below such entries.
 *
 * WHEN
 *
 * What finds and changes entries, pages and ranges here needs no lock against processors, nor
 * against each other. The tables that a find went through must still be there at the change: so no
 * x64_space_clean_up, no x64_space_give_up and no x64_space_join may free a table of this space, or
 * below an entry that it shares, at the same time or between the two. Other calls on this space may
 * run meanwhile if they touch other entries: x64_space_map, x64_space_unmap and
 * x64_space_update_flags touch the entry of their page and those above it, x64_space_prepare those
 * above its page alone, ranges those of all their pages. x64_space_split and x64_space_join are
 * calls themselves: they run one at a time with other calls on this space, and split with those
 * with its pool, as x64_space_map does. See WHAT MAY RUN AT THE SAME TIME in x86_64_paging.h.
 *
 * WHAT TO FLUSH
 *
 * x64_flush_between tells it from the old word and the new one. Until the flush a processor may use
 * the page as it was, and may write to it if the old word has X64_WRITABLE. So read, copy or free
 * the frame after the flush. The old word tells already whether the page is dirty, if whatever
 * cleared X64_DIRTY before was flushed: a processor sets it before it writes. If another frame
 * takes the place of a page, one processor may use the old frame while another one uses the new
 * one, until the flush. Where that matters, as for copy on write, take the page away, flush, and
 * put the other frame there. A page that gets X64_WRITABLE or X64_USER_ACCESSIBLE so has it only if
 * all entries above it have it, which no exchange of the page adds: see x64_space_map.
 *
 * WHAT IS PROVED
 *
 * Laws of the model (crates/x86_64_model), which say what is in memory:
 *
 *   entries_may_change   if a word takes the place of another one between calls, and may do so
 *                        (MayReplace), then this entry changes and no other one, and no table. The
 *                        hierarchy stays valid, the pool fits again, and walks elsewhere stay
 *   live_tables_fit      so it is after any marks and exchanges, in any order. An entry may be
 *                        exchanged during calls, too, if these don't touch its word: it is as if
 *                        it were changed after them. The law says this of one entry
 *   marks_are_never_lost a mark is in the entry, or in a word that an exchange has returned since,
 *                        if nothing else changes the word
 *   pages_may_be_split, pages_may_be_joined
 *                        see x64_space_split and x64_space_join. The words of the parts are written
 *                        and compared by proved functions (x64_write_parts, x64_are_parts)
 *
 *   exchanges_may_happen, flushes_after_calls_are_enough
 *                        if each exchange is followed by the flush that x64_flush_between returns,
 *                        each access goes with the page walk, with no right more. The law speaks
 *                        of one root and one processor. An entry that isn't 0 and lacks
 *                        X64_PRESENT isn't exchanged while everything is due for an entry above it
 *
 * Not proved, but tested (tests/c/live.c, tests/c/live_threads.c, tests/c/guards.c,
 * examples/kernel): that the lines below do what these laws speak of, that the compiler makes one
 * locked instruction of each exchange, that a find may run beside calls, and X64_SHARED_ENTRY. The
 * model says nothing of flushes after splits and joins: there this file goes by the manuals.
 */
#ifndef X86_64_PAGING_LIVE_H
#define X86_64_PAGING_LIVE_H

#include "x86_64_paging.h"

#ifdef __cplusplus
extern "C" {
#endif

/*
 * WORDS
 */

/* Returns whether a status says that a hierarchy is wrong: its levels, its segments or its root. */
static inline bool x64_is_bad_hierarchy(uint32_t status) {
    return status == X64_BAD_LEVELS || status == X64_BAD_SEGMENTS || status == X64_BAD_ROOT;
}

/* Returns whether a word at a level names a table, present or not. */
static inline bool x64_names_table(uint64_t level, uint64_t word) {
    return level > 1 && word != 0 && !(word & X64_HUGE_PAGE);
}

/* Returns whether a word at a level is one that names no table: any at level 1, 0 everywhere, and
 * at levels 2 and 3 what has X64_HUGE_PAGE. */
static inline bool x64_names_no_table(uint64_t level, uint64_t word) {
    return level == 1 || word == 0 || (level <= 3 && (word & X64_HUGE_PAGE));
}

/* Returns whether a word may take the place of another one at a level, so that the hierarchy stays
 * valid with the same tables: both name none, or both name the same one. This is MayReplace in
 * crates/x86_64_model/specs/Laws/EntriesInPlace.antt. */
static inline bool x64_may_replace(uint64_t level, uint64_t old, uint64_t word) {
    if (x64_names_no_table(level, old))
        return x64_names_no_table(level, word);
    return x64_names_table(level, old) && !(word & X64_HUGE_PAGE) &&
           ((old ^ word) & X64_ADDRESS) == 0;
}

/* Returns where the word of an entry stands, or null if its table isn't in the array. */
static inline uint64_t *x64_space_word_at(const x64_space *space, const x64_entry *entry) {
    uint64_t number = x64_space_place_of(space, entry->table);
    return number < space->table_count && entry->index < 512
               ? &space->tables[number].words[entry->index]
               : NULL;
}

/* Returns whether an entry is one of the root that other spaces share. */
static inline bool x64_space_shares_entry(const x64_space *space, const x64_entry *entry) {
    return entry->table == space->root && x64_space_shares_index(space, entry->index);
}

/*
 * FINDING ENTRIES
 */

/*
 * Does what x64_entries does, but reads each word by one load: so what it writes belongs together,
 * whoever changes the tables meanwhile. x64_entries reads each word once, too, but by plain loads,
 * which a compiler might repeat. There is room for X64_MOST_LEVELS entries.
 *
 * Condition: pointers only. The tables may hold anything, and may change meanwhile.
 *
 * Returns what x64_entries returns. That it does so, with the same entries, on tables that nobody
 * changes is tested.
 */
X64_NODISCARD
static inline uint32_t x64_entries_live(const x64_hierarchy *hierarchy, const x64_table *tables,
                                        size_t table_count, uint64_t address, x64_entry *entries,
                                        size_t *count) {
    uint64_t levels = hierarchy->levels, frame = hierarchy->root,
             number = x64_place_of(hierarchy, frame);
    if (levels != 4 && levels != 5)
        return X64_BAD_LEVELS;
    if (!x64_has_segments_in_order(hierarchy))
        return X64_BAD_SEGMENTS;
    if ((frame & ~X64_ADDRESS) != 0 || number >= table_count)
        return X64_BAD_ROOT;
    if (!x64_is_canonical(levels, address))
        return X64_BAD_ADDRESS;
    *count = 0;
    for (uint64_t level = levels; level > 0; level--) {
        x64_entry *entry = &entries[(*count)++];
        entry->level = level;
        entry->table = frame;
        entry->index = address >> (3 + 9 * level) & 511;
        entry->word = __atomic_load_n(&tables[number].words[entry->index], __ATOMIC_ACQUIRE);
        if (!(entry->word & X64_PRESENT))
            return X64_NOT_MAPPED;
        if (level == 1 || (entry->word & X64_HUGE_PAGE))
            return level <= 3 ? X64_OK : X64_PARENT_ENTRY_HUGE_PAGE;
        frame = entry->word & X64_ADDRESS;
        number = x64_place_of(hierarchy, frame);
        if (number >= table_count)
            return X64_NO_TABLE;
    }
    return X64_OK;
}

/* x64_entries_live, of a space. */
X64_NODISCARD
static inline uint32_t x64_space_entries_live(const x64_space *space, uint64_t address,
                                              x64_entry *entries, size_t *count) {
    x64_hierarchy hierarchy = x64_space_hierarchy(space);
    return x64_entries_live(&hierarchy, space->tables, space->table_count, address, entries, count);
}

/*
 * Finds the entry at which the page walk to an address ends. It maps a page, or it lacks
 * X64_PRESENT: then it is unused (0), or what the caller has put there, or names a table that no
 * processor uses. Each word on the way is read by one load.
 *
 * Condition: the hierarchy is valid. WHEN says above what may run meanwhile.
 *
 * Returns X64_OK if the entry has X64_PRESENT; X64_NOT_MAPPED if it lacks it, and *entry is
 * written, too; X64_BAD_ADDRESS; X64_BAD_LEVELS; X64_BAD_SEGMENTS; X64_BAD_ROOT; X64_NOT_VALID, if
 * the hierarchy isn't and the walk meets this.
 */
X64_NODISCARD
static inline uint32_t x64_space_find_entry(const x64_space *space, uint64_t address,
                                            x64_entry *entry) {
    x64_entry entries[X64_MOST_LEVELS];
    size_t count = 0;
    uint32_t status = x64_space_entries_live(space, address, entries, &count);
    if (status >= X64_BAD_LEVELS)
        return status;
    if (status != X64_OK && status != X64_NOT_MAPPED)
        return X64_NOT_VALID;
    *entry = entries[count - 1];
    return status;
}

/*
 * Finds a page's own entry, whether it has X64_PRESENT or not, or is 0. If there is no table for
 * it, it returns X64_PAGE_NOT_MAPPED: x64_space_map and x64_space_prepare make one.
 *
 * Condition: that of x64_space_find_entry.
 *
 * Returns X64_OK or one of these; then *entry isn't written:
 *   X64_PAGE_NOT_MAPPED          if an entry above the page lacks X64_PRESENT
 *   X64_PARENT_ENTRY_HUGE_PAGE   if an entry above the page has X64_HUGE_PAGE, present or not
 *   X64_HAS_TABLE                if the entry of a page of 2 MiB or 1 GiB names a table
 *   X64_BAD_PAGE; and X64_BAD_LEVELS; X64_BAD_SEGMENTS; X64_BAD_ROOT; X64_NOT_VALID as
 *                                x64_space_find_entry
 */
X64_NODISCARD
static inline uint32_t x64_space_find_page(const x64_space *space, uint64_t page, uint64_t size,
                                     x64_entry *entry) {
    uint64_t level = x64_level_of(size);
    x64_entry found;
    uint32_t status = x64_space_find_entry(space, page, &found);
    if (status == X64_BAD_ADDRESS || (status < X64_BAD_LEVELS && (level == 0 || page % size != 0)))
        return X64_BAD_PAGE;
    if (status != X64_OK && status != X64_NOT_MAPPED)
        return status;
    if (found.level > level)
        return found.word & X64_HUGE_PAGE ? X64_PARENT_ENTRY_HUGE_PAGE : X64_PAGE_NOT_MAPPED;
    if (found.level < level || x64_names_table(level, found.word))
        return X64_HAS_TABLE;
    *entry = found;
    return X64_OK;
}

/*
 * CHANGING AN ENTRY THAT WAS FOUND
 *
 * Condition: x64_space_find_entry, x64_space_find_page or x64_space_entries_live found the entry in
 * this space, and its table is still there. entry->word may be old. Each returns X64_OK or one of
 * these; then no word has changed:
 *   X64_NOT_ALLOWED    if the word may not stand there (x64_may_replace)
 *   X64_SHARED_ENTRY   if it is a shared entry of the root
 *   X64_NO_TABLE       if the entry's table isn't in the array
 *
 * What such a change leaves is proved of the model (entries_may_change, live_tables_fit,
 * marks_are_never_lost). Each of these functions is a loop, or an if, around one instruction.
 */

/* Puts another word in the place of an entry, and writes the one that was there to *old. */
X64_NODISCARD
static inline uint32_t x64_space_exchange_entry(const x64_space *space, const x64_entry *entry,
                                          uint64_t word, uint64_t *old) {
    uint64_t *at = x64_space_word_at(space, entry);
    if (at == NULL)
        return X64_NO_TABLE;
    if (x64_space_shares_entry(space, entry))
        return X64_SHARED_ENTRY;
    if (entry->level == 1) {
        *old = __atomic_exchange_n(at, word, __ATOMIC_SEQ_CST);
        return X64_OK;
    }
    uint64_t seen = __atomic_load_n(at, __ATOMIC_ACQUIRE);
    do
        if (!x64_may_replace(entry->level, seen, word))
            return X64_NOT_ALLOWED;
    while (!__atomic_compare_exchange_n(at, &seen, word, true, __ATOMIC_SEQ_CST, __ATOMIC_ACQUIRE));
    *old = seen;
    return X64_OK;
}

/* Clears the bits of an entry that aren't in `keep`, sets those in `set`, whether it has
 * X64_PRESENT or not, and writes the word that was there to *old. */
X64_NODISCARD
static inline uint32_t x64_space_change_entry(const x64_space *space, const x64_entry *entry,
                                        uint64_t keep, uint64_t set, uint64_t *old) {
    uint64_t *at = x64_space_word_at(space, entry);
    if (at == NULL)
        return X64_NO_TABLE;
    if (x64_space_shares_entry(space, entry))
        return X64_SHARED_ENTRY;
    uint64_t seen = __atomic_load_n(at, __ATOMIC_ACQUIRE);
    do
        if (!x64_may_replace(entry->level, seen, (seen & keep) | set))
            return X64_NOT_ALLOWED;
    while (!__atomic_compare_exchange_n(at, &seen, (seen & keep) | set, true, __ATOMIC_SEQ_CST,
                                        __ATOMIC_ACQUIRE));
    *old = seen;
    return X64_OK;
}

/*
 * Puts another word in the place of an entry if its word is still entry->word, which then becomes
 * the new one. Otherwise returns X64_CHANGED, and entry->word becomes the word that is there: so a
 * loop can look at it and try again. A processor that marks the entry changes it, too.
 */
X64_NODISCARD
static inline uint32_t x64_space_compare_exchange_entry(const x64_space *space, x64_entry *entry,
                                                  uint64_t word) {
    uint64_t *at = x64_space_word_at(space, entry);
    if (at == NULL)
        return X64_NO_TABLE;
    if (x64_space_shares_entry(space, entry))
        return X64_SHARED_ENTRY;
    if (!x64_may_replace(entry->level, entry->word, word))
        return X64_NOT_ALLOWED;
    if (!__atomic_compare_exchange_n(at, &entry->word, word, false, __ATOMIC_SEQ_CST,
                                     __ATOMIC_ACQUIRE))
        return X64_CHANGED;
    entry->word = word;
    return X64_OK;
}

/*
 * CHANGING A PAGE
 *
 * Each finds the page's own entry by x64_space_find_page, and changes it by
 * x64_space_compare_exchange_entry until this succeeds. Besides what it says it returns what
 * x64_space_find_page returns. Unless it returns X64_OK no word has changed, and *old isn't
 * written.
 */

/* Puts another word in the place of the page's entry if that isn't 0, whether it has X64_PRESENT or
 * not, and writes the one that was there to *old. Returns X64_OK; X64_PAGE_NOT_MAPPED if it is 0,
 * which x64_space_find_page and x64_space_compare_exchange_entry replace; X64_NOT_ALLOWED. */
X64_NODISCARD
static inline uint32_t x64_space_exchange_page(const x64_space *space, uint64_t page, uint64_t size,
                                         uint64_t word, uint64_t *old) {
    x64_entry entry;
    uint32_t status = x64_space_find_page(space, page, size, &entry);
    if (status != X64_OK)
        return status;
    uint64_t seen;
    do {
        seen = entry.word;
        if (seen == 0)
            return X64_PAGE_NOT_MAPPED;
        status = x64_space_compare_exchange_entry(space, &entry, word);
    } while (status == X64_CHANGED);
    if (status == X64_OK)
        *old = seen;
    return status;
}

/* Takes a page away, whether it has X64_PRESENT or not: its entry becomes 0, and the word that was
 * there is written to *old. Returns X64_OK; X64_PAGE_NOT_MAPPED if it is 0 already. No table is
 * freed. */
X64_NODISCARD
static inline uint32_t x64_space_take_page(const x64_space *space, uint64_t page, uint64_t size,
                                     uint64_t *old) {
    return x64_space_exchange_page(space, page, size, 0, old);
}

/* Clears the bits of the page's entry that aren't in `keep` and sets those in `set`, if the entry
 * has X64_PRESENT, and writes the word that was there to *old. Returns X64_OK; X64_NOT_ALLOWED;
 * X64_PAGE_NOT_MAPPED if it lacks X64_PRESENT: its bits are then the caller's, who changes them by
 * x64_space_find_page and x64_space_compare_exchange_entry. */
X64_NODISCARD
static inline uint32_t x64_space_change_page(const x64_space *space, uint64_t page, uint64_t size,
                                       uint64_t keep, uint64_t set, uint64_t *old) {
    x64_entry entry;
    uint32_t status = x64_space_find_page(space, page, size, &entry);
    if (status != X64_OK)
        return status;
    uint64_t seen;
    do {
        seen = entry.word;
        if (!(seen & X64_PRESENT))
            return X64_PAGE_NOT_MAPPED;
        status = x64_space_compare_exchange_entry(space, &entry, (seen & keep) | set);
    } while (status == X64_CHANGED);
    if (status == X64_OK)
        *old = seen;
    return status;
}

/*
 * Does what x64_space_take_range does, but each page is taken away by x64_space_exchange_entry: so
 * no mark that a processor sets is lost, and it may run beside other finds and changes. It differs
 * in two more things: an entry that names a table but lacks X64_PRESENT is passed over, with all
 * that is below it; and `first` and `last` lie in one half of the address space. It walks down from
 * the root for each page, and isn't proved. Each page whose word had X64_PRESENT wants an INVLPG of
 * its own.
 *
 * Condition: that of x64_space_find_entry. If `last` comes before `first`, nothing is taken.
 *
 * Returns one of these:
 *   X64_OK                       if all are taken
 *   X64_MORE                     if the array is full; a call with first = *next continues
 *   X64_PARENT_ENTRY_HUGE_PAGE   if a larger page is only partly in the range: all before it are
 *                                taken, and *next is the first address of the range in it
 *   X64_NOT_VALID                as x64_space_find_entry; *count of them are taken
 *   X64_BAD_PAGE                 if `first` or `last` isn't a canonical multiple of 4 KiB, or they
 *                                are in different halves of the address space
 *   X64_BAD_LEVELS; X64_BAD_SEGMENTS; X64_BAD_ROOT
 * X64_BAD_ statuses write nothing, and only X64_MORE and X64_PARENT_ENTRY_HUGE_PAGE write *next.
 */
X64_NODISCARD
static inline uint32_t x64_space_take_range_live(const x64_space *space, uint64_t first,
                                                 uint64_t last, x64_taken *taken, size_t capacity,
                                                 size_t *count, uint64_t *next) {
    x64_entry entry;
    uint32_t status = x64_space_find_entry(space, first, &entry);
    if (x64_is_bad_hierarchy(status))
        return status;
    if (status == X64_BAD_ADDRESS || !x64_is_canonical(space->levels, last) || first % 4096 != 0 ||
        last % 4096 != 0 || (first ^ last) >> 63 != 0)
        return X64_BAD_PAGE;
    *count = 0;
    for (uint64_t at = first; at <= last;) {
        status = x64_space_find_entry(space, at, &entry);
        if (status != X64_OK && status != X64_NOT_MAPPED)
            return status;
        uint64_t span = x64_span_of(entry.level), start = at & ~(span - 1),
                 end = start + (span - 1);
        if (entry.word != 0 && x64_names_no_table(entry.level, entry.word)) {
            bool is_partly_in = start < first || end - 4095 > last;
            if (is_partly_in || *count == capacity) {
                *next = at;
                return is_partly_in ? X64_PARENT_ENTRY_HUGE_PAGE : X64_MORE;
            }
            status = x64_space_exchange_entry(space, &entry, 0, &taken[*count].word);
            if (status == X64_NOT_ALLOWED)
                continue; /* it names a table by now: look again */
            if (status != X64_OK)
                return X64_NOT_VALID;
            taken[*count].page = start;
            taken[*count].size = span;
            *count += taken[*count].word != 0;
        }
        if (end >= last)
            break;
        at = end + 1;
    }
    return X64_OK;
}

/*
 * LARGER AND SMALLER PAGES
 */

/*
 * Splits a page of 2 MiB or 1 GiB: its entry names a table of 512 smaller pages with its frames,
 * rights, kind of memory and marks. The table is made in the last free frame of the pool, whose
 * free_count decreases by one. No access changes. No mark is lost: the entry is exchanged only if
 * it is still the word of which the parts were made. It becomes the table's address with
 * X64_PRESENT, X64_WRITABLE, X64_USER_ACCESSIBLE and X64_ACCESSED, so the parts decide.
 *
 * What waits for a flush before a map waits for it here, too: tables that a clean up freed.
 * After the split nothing has to be flushed, by the manuals, until a part is changed. Then flush
 * that part, as x64_flush_between tells. But of a page of 1 GiB flush everything before you count
 * on the change of a part: a processor may keep the large page in pieces, and an INVLPG drops one
 * of them. Until all is flushed, a processor may keep two sizes for one address. Some have errata
 * about this: for these take X64_PRESENT away, flush the page, split it, and give X64_PRESENT to
 * the parts.
 *
 * Proved of the model: that the pool fits again, and that walks arrive where they did with the same
 * rights (pages_may_be_split), if the words are parts. Proved of x64_write_parts: that these words
 * are, with the page's flags and marks. Tested: that this is what happens.
 *
 * Condition: that of x64_space_map. Returns X64_OK or one of these:
 *   X64_PAGE_NOT_MAPPED          if the entry is 0, or one above it lacks X64_PRESENT
 *   X64_FRAME_ALLOCATION_FAILED  if the pool is empty
 *   X64_INVALID_FRAME_ADDRESS    if the address in the entry isn't a multiple of the page's size
 *   X64_BAD_ARRAY                if pool->free_count > pool->capacity
 *   X64_BAD_PAGE                 also for a page of 4 KiB
 *   and what x64_space_find_page returns otherwise
 * Unless it is X64_OK no word in use has changed, but the last free frame may hold zeros now.
 */
X64_NODISCARD
static inline uint32_t x64_space_split(const x64_space *space, x64_pool *pool, uint64_t page,
                                       uint64_t size) {
    x64_entry entry;
    uint32_t status = x64_space_find_page(space, page, size, &entry);
    if (status != X64_OK)
        return status;
    if (entry.level == 1)
        return X64_BAD_PAGE;
    if (pool->free_count > pool->capacity)
        return X64_BAD_ARRAY;
    status = x64_split_status(entry.level, entry.word);
    if (status != X64_OK)
        return status;
    if (pool->free_count == 0)
        return X64_FRAME_ALLOCATION_FAILED;
    const uint64_t frame = pool->frames[pool->free_count - 1],
                   table = frame | X64_PRESENT | X64_WRITABLE | X64_USER_ACCESSIBLE | X64_ACCESSED;
    x64_table *parts = &space->tables[x64_space_place_of(space, frame)];
    do {
        status = x64_write_parts(entry.level, entry.word, parts);
        if (status != X64_OK) {
            for (size_t j = 0; j < 512; j++)
                parts->words[j] = 0;
            return status;
        }
    } while (!__atomic_compare_exchange_n(x64_space_word_at(space, &entry), &entry.word, table,
                                          true, __ATOMIC_SEQ_CST, __ATOMIC_ACQUIRE));
    pool->free_count--;
    return X64_OK;
}

/*
 * Joins the 512 pages below an entry of level 2 or 3 to one page of 2 MiB or 1 GiB, which gets this
 * word and X64_ACCESSED, and X64_DIRTY if it is writable or a part has it: marks of the parts may
 * come until the end, so all count (but those of writes to pages that aren't writable, by ring 0
 * with CR0.WP clear). No access changes.
 *
 * The frame of the table is written to *frame, and isn't in the pool: a processor may still read
 * its words, and has cached small pages, of which an INVLPG drops one. So flush everything
 * (X64_FLUSH_EVERYTHING), then clear the frame, and then give it to a pool.
 *
 * Proved of the model: that the pool fits with that frame, and that walks arrive where they did
 * with the same rights (pages_may_be_joined), if the words are parts. Proved of x64_are_parts: that
 * it looks whether they are, and at the kind of memory, and not at marks, which processors set
 * meanwhile. Tested: that this is what happens.
 *
 * Condition: that of x64_space_clean_up, with some pool. Nobody changes the words of the parts
 * meanwhile but processors that mark them.
 *
 * Returns X64_OK or one of these; then nothing has changed:
 *   X64_SHARED_ENTRY             if the page is below a shared entry of the root: the law says
 *                                nothing of tables that several spaces have
 *   X64_PAGE_NOT_MAPPED          if no present entry names a table there
 *   X64_PARENT_ENTRY_HUGE_PAGE   if the entry, or one above it, has X64_HUGE_PAGE
 *   X64_NOT_ALLOWED              if the pages below aren't the parts of the word, or it lacks
 *                                X64_HUGE_PAGE, or its address isn't a multiple of the size
 *   X64_BAD_PAGE                 also for 4 KiB
 *   X64_BAD_LEVELS; X64_BAD_SEGMENTS; X64_BAD_ROOT; X64_NOT_VALID as x64_space_find_entry
 */
X64_NODISCARD
static inline uint32_t x64_space_join(const x64_space *space, uint64_t page, uint64_t size,
                                     uint64_t word, uint64_t *frame) {
    x64_entry entries[X64_MOST_LEVELS];
    size_t count = 0;
    uint64_t level = x64_level_of(size);
    uint32_t status = x64_space_entries_live(space, page, entries, &count);
    if (x64_is_bad_hierarchy(status))
        return status;
    if (status == X64_BAD_ADDRESS || level < 2 || page % size != 0)
        return X64_BAD_PAGE;
    if (x64_space_shares(space, page))
        return X64_SHARED_ENTRY;
    if (status == X64_NO_TABLE)
        return X64_NOT_VALID;
    if (count <= space->levels - level + 1)
        return entries[count - 1].word & X64_HUGE_PAGE ? X64_PARENT_ENTRY_HUGE_PAGE
                                                       : X64_PAGE_NOT_MAPPED;
    x64_entry *entry = &entries[space->levels - level];
    const x64_table *parts = &space->tables[x64_space_place_of(space, entry[1].table)];
    word = x64_joined_word(word, parts);
    do
        if (!(entry->word & X64_PRESENT) || !x64_names_table(level, entry->word) ||
            !x64_are_parts(level, word, entry->word, parts))
            return X64_NOT_ALLOWED;
    while (!__atomic_compare_exchange_n(x64_space_word_at(space, entry), &entry->word, word, true,
                                        __ATOMIC_SEQ_CST, __ATOMIC_ACQUIRE));
    *frame = entry->word & X64_ADDRESS;
    return X64_OK;
}

/*
 * GUESTS' TABLES
 */

/* What comes of an access to tables that a guest uses. */
typedef struct x64_arrival {
    x64_outcome outcome;                /* as x64_access says it */
    uint64_t size;                      /* X64_OK: the size of the page */
    bool write;                         /* X64_OK: all entries have X64_WRITABLE */
    bool user;                          /* X64_OK: all entries have X64_USER_ACCESSIBLE */
    bool execute;                       /* X64_OK: no entry has X64_NO_EXECUTE */
    size_t count;                       /* how many entries were read */
    x64_entry entries[X64_MOST_LEVELS]; /* these; with their marks, if request->mark is set */
} x64_arrival;

/* Adds marks to an entry, also to entry->word, if its word is still that one, but for marks.
 * Returns whether it is. A word that has the marks isn't looked at. */
static inline bool x64_mark_entry(uint64_t *at, x64_entry *entry, uint64_t marks) {
    const uint64_t judged = entry->word;
    while ((entry->word & marks) != marks) {
        if (__atomic_compare_exchange_n(at, &entry->word, entry->word | marks, false,
                                        __ATOMIC_SEQ_CST, __ATOMIC_ACQUIRE))
            entry->word |= marks;
        else if (((entry->word ^ judged) & ~(X64_ACCESSED | X64_DIRTY)) != 0)
            return false;
    }
    return true;
}

/*
 * Does what x64_access does, on tables that a guest changes meanwhile, without a lock. What
 * x64_access says of such tables needn't belong together, and with mark it may put back a word that
 * the guest took away (reading_and_writing_loses_marks).
 *
 * It reads each word on the way once (x64_entries_live), and says what x64_outcome_of says of them.
 * If request->mark is set and the access arrives, each entry gets X64_ACCESSED, from the root down,
 * and that of the page X64_DIRTY for a write, by a locked compare and exchange. If an entry that
 * lacks a mark is no longer the word that was read, but for marks, it returns X64_CHANGED: call
 * again. Entries above it may have got X64_ACCESSED by then, as a processor leaves it. How often
 * that happens is up to the guest.
 *
 * What it says is good until the guest flushes the address, like what a TLB holds: so a flush by
 * the guest must wait until the access is done.
 *
 * Proved: what comes of an access by these words (x64_outcome_of). That a mark isn't lost and a
 * word doesn't come back is a law of the model (marks_are_never_lost). Tested: that each word is
 * read once, beside x64_access, and the marks beside a thread that takes pages away.
 *
 * Condition: pointers only. Returns what x64_access returns, with *arrival in place of *outcome, or
 * X64_CHANGED; then *arrival isn't written.
 */
X64_NODISCARD
static inline uint32_t x64_access_live(const x64_hierarchy *hierarchy, x64_table *tables,
                                       size_t table_count, const x64_controls *controls,
                                       const x64_access_request *request, x64_arrival *arrival) {
    x64_arrival seen;
    uint32_t status = x64_entries_live(hierarchy, tables, table_count, request->address,
                                       seen.entries, &seen.count);
    if (x64_is_bad_hierarchy(status))
        return status;
    if (status == X64_BAD_ADDRESS)
        seen.count = 0; /* x64_outcome_of looks at the kind of the access before */
    status = x64_outcome_of(hierarchy->levels, controls, request, seen.entries, seen.count,
                            &seen.outcome);
    if (status != X64_OK && status != X64_PAGE_FAULT && status != X64_NO_TABLE)
        return status;
    seen.size = 0;
    seen.write = seen.user = seen.execute = status == X64_OK;
    for (size_t k = 0; k < seen.count && status == X64_OK; k++) {
        x64_entry *entry = &seen.entries[k];
        seen.size = x64_span_of(entry->level);
        seen.write = seen.write && (entry->word & X64_WRITABLE);
        seen.user = seen.user && (entry->word & X64_USER_ACCESSIBLE);
        seen.execute = seen.execute && !(entry->word & X64_NO_EXECUTE);
        bool is_dirty = k + 1 == seen.count && request->kind == X64_WRITE;
        uint64_t *at = &tables[x64_place_of(hierarchy, entry->table)].words[entry->index];
        if (request->mark &&
            !x64_mark_entry(at, entry, is_dirty ? X64_ACCESSED | X64_DIRTY : X64_ACCESSED))
            return X64_CHANGED;
    }
    *arrival = seen;
    return status;
}

/*
 * x64_access_live, of a space. Returns also X64_SHARED_ENTRY, if the access arrives and would set
 * X64_ACCESSED in a shared entry of the root. Then nothing has changed.
 */
X64_NODISCARD
static inline uint32_t x64_space_access_live(const x64_space *space, const x64_controls *controls,
                                             const x64_access_request *request,
                                             x64_arrival *arrival) {
    x64_hierarchy hierarchy = x64_space_hierarchy(space);
    x64_access_request asked = *request;
    x64_arrival seen;
    const uint64_t *word = x64_space_shared_word(space, request->address);
    if (word != NULL && !(__atomic_load_n(word, __ATOMIC_ACQUIRE) & X64_ACCESSED))
        asked.mark = false;
    uint32_t status = x64_access_live(&hierarchy, space->tables, space->table_count, controls,
                                      &asked, &seen);
    if (status == X64_OK && asked.mark != request->mark)
        return X64_SHARED_ENTRY;
    if (status == X64_OK || status == X64_PAGE_FAULT || status == X64_NO_TABLE)
        *arrival = seen;
    return status;
}

#ifdef __cplusplus
}
#endif

#endif
