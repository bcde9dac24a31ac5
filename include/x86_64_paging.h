/*
 * x86_64_paging.h: page tables of x86-64, in memory that the caller owns.
 *
 * The library reads and changes page tables of four or five levels, as a processor in 64-bit mode
 * uses them. It maps, unmaps and translates pages of 4 KiB, 2 MiB and 1 GiB, lists what is mapped,
 * frees empty tables, and does what a processor does with an access. The tables are an array of the
 * caller's: a kernel's own, those of a guest, or a copy of either.
 *
 * The library keeps no state and allocates nothing. It calls memcpy and memset of the C library
 * and nothing else, and takes less than 2 KB of stack. It is written in Rattle, which is Rust with
 * contracts, and each function is proved to meet its contract: what it returns, and what every word
 * of the tables, of the pool's free frames and of the out parameters is afterwards.
 *
 * There are two builds. The one for programs uses SSE registers of an x86-64-v2 processor (SSE4.1).
 * The one for kernels (tools/c_library --kernel) uses no SSE, x87 or MMX register and no red zone.
 *
 * SPACES AND POOLS
 *
 * A space is where tables are, and the root of some of them. A pool is a stack of frames that may
 * become tables. This program makes both, tests them and maps a page:
 *
 *     #include "x86_64_paging.h"
 *     static x64_table tables[64];
 *     static uint64_t frames[64];
 *     static bool marks[64];
 *     int main(void) {
 *         x64_space space = {tables, 64, 0x100, 0x100000, 4, 0, 0, NULL, 0};
 *         x64_pool pool = {frames, 64, 0};
 *         for (uint64_t number = 0x101; number < 0x140; number++)
 *             frames[pool.free_count++] = number * 4096;
 *         if (x64_space_fits(&space, &pool, marks, 64) != X64_OK)
 *             return 1;
 *         uint64_t flags = X64_PRESENT | X64_WRITABLE;
 *         return x64_space_map(&space, &pool, 0x400000, X64_SIZE_4KIB, 0x7000000, flags) != X64_OK;
 *     }
 *
 * The tables are the frames 0x100 to 0x13f of physical memory, to which a kernel has a pointer in
 * place of the array. The first of them, all zeros, is the root, with four levels of tables, and
 * the others are free: these may hold anything, since a table is cleared when it is made. The page
 * at 0x400000 is mapped to the frame at 0x7000000, and three free frames became tables on the way
 * to it. A kernel that has tables already makes a space of their root: x64_space_fits tests them.
 *
 * There is one x64_space for each root, and no field of it changes after it is made, so processors
 * may share it without a lock. A pool changes with each call that takes frames from it or gives
 * them back. Any pool will do for any space with these tables: one for each processor, for example.
 *
 * First come all calls on spaces, by task: tests, looking up, maps, changes, tables, more spaces,
 * accesses, flushes. Exchanges of single words that processors use are in x86_64_paging_live.h. The
 * raw calls follow below, whose descriptions have every detail: each call on a space passes its
 * arguments on to one of them.
 *
 * HOW TABLES, FRAMES AND ADDRESSES GO TOGETHER
 *
 * A frame is 4096 bytes of physical memory. Its number is its physical address divided by 4096.
 * `tables[i]` is the frame with the number `first + i`. So entries name tables by their physical
 * addresses, and no address is used as a pointer. A frame outside the array can't hold a table. But
 * a page can be mapped to any frame: outside the array or in it, to one that holds a table, or to
 * one that other pages are mapped to. The library doesn't look at that. A kernel that reaches
 * physical memory at its own addresses lets the array begin at frame 1 or above: a null pointer
 * would be no array.
 *
 * A memory with holes has segments (x64_segment) in place of `first`: each says which frames have
 * which tables of the array. A guest whose memory goes on above 4 GiB has two, for example, and a
 * kernel one for each piece of memory that it maps. Frames that no segment has hold no tables. The
 * segments are in order: each ends before the next begins, and no table is in two. If they aren't,
 * all calls return X64_BAD_SEGMENTS; each call compares any two, so have few. A frame of the first
 * segment is found at once, others by binary search. The segments must stay as they are during a
 * call, and which table a frame has must never change. Without segments (segment_count is 0)
 * `first` counts, and no segment is looked at.
 *
 * All addresses, sizes and offsets are in bytes. Virtual addresses must be canonical: with four
 * levels bits 48 to 63 are copies of bit 47, with five levels bits 57 to 63 are copies of bit 56.
 * Physical addresses are below 2^52.
 *
 * CONDITIONS
 *
 * The description of each function says what must hold when it is called. If it doesn't, the
 * behavior is undefined, as in any C library: the proof doesn't cover such calls. There are three
 * kinds of conditions:
 *
 * 1. Pointers, for every function. An array of n elements is a pointer to n elements, and may be
 *    null if n is 0. Every other pointer points to one object and is not null. Each is aligned as
 *    its type requires: tables to 8 bytes here, although a processor needs them aligned to 4096.
 *    What a call writes through one pointer must not overlap what it reaches through another. Out
 *    parameters and marks may hold anything before a call.
 *
 * 2. The hierarchy of the space is valid, which x64_space_is_valid and x64_is_valid test: the root
 *    and all tables below it are in the array, no two entries name the same table, none names the
 *    root or frame 0, and no entry above level 3 has X64_HUGE_PAGE. An entry above level 1 that is
 *    not 0 and lacks X64_HUGE_PAGE names a table, whether it has X64_PRESENT or not.
 *
 * 3. The pool fits the hierarchy, which x64_space_fits and x64_pool_fits test: the hierarchy is
 *    valid, the free frames are distinct, each is in the array and is neither frame 0, nor the
 *    root, nor a table below it, and the pool's array has room for all frames that it may ever
 *    hold: those that are free, and those of the tables below the root. Room for as many frames as
 *    there are tables in the array is always enough.
 *
 * If several spaces have an array of tables in common, they must fit together with each pool, which
 * x64_space_all_fit and x64_spaces_fit test: the pool fits each, no table of one is a table of
 * another (but those below shared entries of the roots), and the pool's array has room for the free
 * frames, all roots and the tables of all. No frame is in two pools. x64_pool_fits looks at one
 * hierarchy and can't see the others. Room for as many frames as there are tables in the array is
 * always enough.
 *
 * Between two calls the caller may add a frame to a pool: write its address to frames[free_count],
 * and add one to free_count. It must be in the array of tables, not 0, neither free nor a root nor
 * in use as a table, and the pool must have room for it beside its free frames and all tables below
 * the roots. Or the caller may take free frames for itself, the top ones first, by lowering
 * free_count.
 *
 * Conditions 2 and 3 hold again after every call, whatever its status. If only these calls change
 * the tables and the pools, it is enough to test them once. Each call checks its other arguments
 * itself, and returns an X64_BAD_ status if one is wrong, whatever the tables hold.
 *
 * SPACES THAT SHARE ENTRIES
 *
 * Spaces made by x64_space_new have roots of their own, and in all of these the entries at some
 * indices are the same: those from shared_from up to, but not including, shared_to. A kernel that
 * has the upper half for itself shares 256 to 512. With 0 to 0 nothing is shared. A call on one of
 * the spaces then keeps the others: below shared entries they see what it did, elsewhere they stay
 * as they were, and all fit together again. This is proved of the calls of the model (spaces_stay),
 * as long as the root's shared entries stay what they are, and which calls leave them is proved,
 * too (calls_keep_root_entries). Of what is none of these it is tested: x64_prepare of larger pages
 * than 4 KiB, x64_take_range, x64_change_range and x64_drop, and splits and joins
 * (x86_64_paging_live.h).
 * Calls on spaces refuse everything else: they return X64_SHARED_ENTRY, and nothing has changed,
 * but for the pages that x64_space_map_list mapped before. That they do so is tested.
 *
 *   x64_space_map, x64_space_map_with, x64_space_map_list, x64_space_prepare
 *                              if a shared entry above the page is 0, or lacks a parent flag
 *   x64_space_map_range, x64_space_map_range_with
 *                              the same, of any page
 *   x64_space_clean_up, x64_space_drop
 *                              if a page of the range is below a shared entry
 *   x64_space_set_table_flags  at the highest level, if the entry is shared
 *   x64_space_access           with mark, if it would set X64_ACCESSED in a shared entry
 *   in x86_64_paging_live.h    exchanges of a shared entry; x64_space_join below one; and
 *                              x64_space_access_live as x64_space_access
 *
 * A processor that uses an entry sets X64_ACCESSED in it, in one root only. So shared entries have
 * it from the start: x64_space_map gives it to all entries above a page.
 *
 * To begin, make one space with 0 to 0, which refuses nothing. Below each entry that will be shared
 * prepare a page of 1 GiB (x64_space_prepare), for example at x64_space_first_page, with all parent
 * flags that will ever be needed there: X64_PRESENT, X64_WRITABLE and X64_ACCESSED, and
 * X64_USER_ACCESSIBLE if users get pages there. A shared entry that is 0 then stays 0 for good. Set
 * shared_from and shared_to, leave all fields as they are from now on, and make the others by
 * x64_space_new. No further test is needed.
 *
 * x64_space_clean_up_below_root cleans up below shared entries, too. It refuses nothing, since it
 * keeps each table that an entry of the root names. It is proved that all spaces are spaces again,
 * and that the result of each page walk of each of them stays
 * (spaces_stay_after_clean_ups_below_root in crates/x86_64_mappers).
 *
 * A copy of a space with 0 to 0 in place of its shared indices refuses nothing either. Who makes a
 * call on that has to see to it that all roots have the same shared entries again before the next
 * call.
 *
 * Roots may also share in pairs, for example a kernel's root and a user's root of each process. It
 * is proved of the model that calls keep this, too (paired_spaces_stay). But x64_spaces_fit knows
 * one range for all roots; grouped_spaces_fit in crates/x86_64_spaces tests it.
 *
 * TABLES THAT A PROCESSOR USES
 *
 * A processor caches what its page walks find: pages in the TLB, and tables on the way to them. It
 * reads ahead whatever it can reach, at any moment, and forgets when it likes. The library executes
 * no privileged instruction, so the caller flushes. What a call makes due depends on its status,
 * and x64_flush_after returns it. After an exchange of a word (x86_64_paging_live.h)
 * x64_flush_between does. A call on a space makes due what its raw call makes due: x64_space_map
 * and x64_space_map_list what x64_map does, for example.
 *
 *   call                      status            due
 *   x64_unmap                 X64_OK            the page: INVLPG of an address in it
 *   x64_update_flags          X64_OK            the page
 *   x64_unmap_range           X64_OK, X64_MORE  each page that was looked at, by an INVLPG of its
 *                                               own
 *   x64_update_flags_range    X64_OK            each page, by an INVLPG of its own
 *   x64_take_range,           any               each page that was written to `pages`: what
 *   x64_change_range                            x64_flush_between tells of its word and the new one
 *   x64_set_table_flags       X64_OK            everything, global pages too: a change of CR4.PGE,
 *                                               or INVPCID of everything
 *   x64_clean_up,             X64_OK            tables: any INVLPG, or a load of CR3 with bit 63
 *   x64_clean_up_below_root                     clear. If EFER.TCE is set (AMD), INVLPG isn't
 *                                               enough
 *   x64_drop                  X64_OK, X64_PARENT_ENTRY_HUGE_PAGE
 *                                               everything, global pages too. x64_flush_after
 *                                               doesn't know this call
 *   x64_map, x64_prepare      X64_OK            nothing; but everything, global pages too, if the
 *                                               parent flags have X64_NO_EXECUTE (those of
 *                                               x64_space_map don't)
 *   x64_map_as_mapper,        any               the same, unless the status is X64_NOT_ALLOWED or
 *   x64_map_range                               an X64_BAD_ status
 *   x64_new_space             any               nothing
 *   x64_give_up_space         any               nothing; but before the call no processor uses the
 *                                               root, and no PCID holds it (see below)
 *
 * After any other status nothing is due, nor after X64_SHARED_ENTRY. A flush of everything settles
 * all that is due. An INVLPG settles tables and its own page, and no other page: two pages want
 * two, and if there are many, flush everything. If everything is due for pages below entries that
 * aren't shared, no global page is among them (see X64_GLOBAL): then a load of CR3 with bit 63
 * clear flushes enough for the PCID that it loads. This is by the manuals; the laws below don't
 * count on it.
 *
 * Who flushes: each processor that uses the root. If the page of the call, or a part of its range,
 * lies below entries that roots share, each processor that uses one of these roots. So a process
 * ends without a flush, if first each processor loads another root and each PCID that holds this
 * one is given up (see below), and its pages are taken away and its tables cleaned up after that.
 *
 * When: several calls may be made before their flushes. A flush waits no longer than this:
 *
 *   any flush   until a frame that a call let go, a page's or a table's, is used for something
 *               else, or is copied. Before the flush an access may still reach the frame that the
 *               page had when the call was made, with the rights that it had. Afterwards none does.
 *               Nor is a right gone before the flush.
 *   a page      until a smaller page is mapped there: one INVLPG drops all of a large page only as
 *               long as no smaller one is there.
 *   tables      until a frame that a clean up or x64_drop freed is taken: by a map (x64_map,
 *               x64_map_as_mapper, x64_map_range), x64_prepare or x64_new_space with this pool, on
 *               whatever root, or by the caller. It may become another table or a root, which the
 *               processor would walk as the old one. The map of a page takes at most the last 3
 *               free frames of the pool (4 with 5 levels), so it waits only if one of these was
 *               freed.
 *
 * A clean up may put the frames of tables into a pool of its own, which has room for all tables
 * below the root (x64_pool_fits). Then maps with another pool take none of them meanwhile. After
 * the flush the caller adds them to the pool, with their zeros. The laws below know one pool, in
 * whose order frames that were freed may come after others.
 *
 * PCIDs (CR4.PCIDE): a PCID holds the root with which CR3 was last loaded under it. INVLPG flushes
 * for the PCID that is current, and global pages. A load of CR3 flushes for the PCID that it loads,
 * if bit 63 is clear. For each other PCID that holds one of the roots above, there is INVPCID: of
 * an address for a page, or of a PCID for all that it has. Or the PCID is given up: the next load
 * of CR3 with it has bit 63 clear. That bit may be set only if the PCID holds the root that is
 * loaded, and wasn't given up. Neither kind of INVPCID flushes global pages, and that of an address
 * isn't counted on to flush tables.
 *
 * X64_GLOBAL: no load of CR3 flushes a page whose entry has it. So give it, in flags and in parent
 * flags, only to pages below entries that all roots share. Any page may have it if there is one
 * root.
 *
 * Faults after "nothing": a processor may have cached a page before it got more rights. An access
 * may then fault once, though the tables allow it (x64_access tells). The handler returns, since a
 * fault drops what is cached there (Intel SDM vol. 3A, "Operations that Invalidate TLBs and
 * Paging-Structure Caches"), or it flushes the page first.
 *
 * Marks: a processor that has cached a page with X64_ACCESSED or X64_DIRTY doesn't set these again.
 * So who clears X64_DIRTY flushes the page before counting on it. Who clears X64_ACCESSED only to
 * learn what is in use may leave that flush out.
 *
 * SMEP and SMAP: with these, X64_USER_ACCESSIBLE takes rights from a supervisor, which the model
 * doesn't count. Pages whose own entries have it may get it by a map that adds it to the entries
 * above them, and a supervisor may go on there by what is cached. So flush everything after such a
 * map. Or have no pages of users and of supervisors below one entry, and X64_USER_ACCESSIBLE in the
 * entries above users' pages from the start. After an x64_update_flags that gives it to a page,
 * always flush the page.
 *
 * What is proved: laws of a model, in which a processor may cache any present word at any moment.
 * Each function is proved to do what the model's call does (a refused x64_map does nothing), so the
 * laws are about these calls. x64_prepare of a page of 4 KiB leaves what a call leaves that maps
 * the page to frame 0 without flags, and so writes 0 (small_preparations_are_steps in
 * crates/x86_64_live). For larger pages it is none of these calls. Nor is
 * x64_clean_up_below_root: that the flush after it is enough isn't proved. x64_take_range and
 * x64_change_range leave what exchanges of the entries of their pages leave (ExchangesPages there),
 * whose law is at x64_flush_between. x64_drop leaves what such exchanges and then x64_clean_up
 * leave.
 *
 *   flushed_calls_leave_no_stale_item (crates/x86_64/src/laws.rt)
 *       Calls on one root, each with its flush, which may be late: afterwards each access goes
 *       where the page walk in the present words goes, with no right more (to write, to execute,
 *       and for users).
 *   flushed_calls_leave_no_stale_item_of_a_space (there)
 *       The same of roots that share entries, with loads of CR3 and global pages, if other PCIDs
 *       are given up, or everything is flushed.
 *   flushes_are_enough_with_switches, switching_processors_are_flushed_each (crates/x86_64_model)
 *       The same with INVPCID, and on several processors.
 *   new_roots_may_happen, given_up_roots_may_happen (crates/x86_64_model)
 *       What the table above says of x64_new_space and x64_give_up_space.
 *   stale_accesses_go_where_pages_were_with_switches,
 *   frames_let_go_are_not_reached_with_switches (crates/x86_64_model)
 *       What accesses reach before and after a flush.
 *   calls_keep_globals_below_shared_indices (crates/x86_64_model)
 *       The condition on X64_GLOBAL, for all calls later.
 *   marks_of_address_spaces_may_happen (crates/x86_64_access)
 *       A processor may set X64_ACCESSED and X64_DIRTY between calls, if shared entries of the
 *       roots have X64_ACCESSED from the start.
 *
 * What isn't proved: what a processor sees between two writes of one call. The model's laws hold
 * then, too, if at each moment the tables are a valid hierarchy, with each entry as it was or as it
 * will be. The source writes so: a map clears a new table before it writes the entry that names it,
 * and a clean up looks for entries in a table before it clears the one that names it. A compiler
 * may change the order. Frames that a clean up or x64_drop puts into the pool hold zeros. The model
 * leaves out memory types, protection keys, nested paging, ASIDs and INVLPGB, and that a large page
 * may be cached in parts.
 *
 * WHAT MAY RUN AT THE SAME TIME
 *
 * 1. Calls that change one space run one at a time, and so do calls with one pool.
 * 2. Calls on spaces that own no frame in common may run at the same time, each with a pool of its
 *    own. So may calls on spaces that share entries, as long as their pages and ranges lie below
 *    entries that aren't shared, no frame is in two pools, and all roots fit together with each
 *    pool (x64_spaces_fit). So a lock for each space is enough, and a pool for each processor.
 * 3. Calls below shared entries, of any spaces, run one at a time. They may run beside those of 2
 *    on other spaces: these read and write none of the same words.
 * 4. Words of entries that name no table may be exchanged beside all of these calls, and beside
 *    each other, as long as no call touches the same word and no table on the way is freed between
 *    finding a word and exchanging it. x86_64_paging_live.h has the functions, and says more.
 *    x64_map, x64_map_as_mapper, x64_unmap and x64_update_flags touch the entry of their page and
 *    those above it, and x64_prepare only those above it; ranges touch those of all their pages;
 *    clean ups and x64_drop touch all entries in their range, and x64_give_up_space those of the
 *    root, and all of these free tables.
 * 5. Processors mark entries at any moment. What they set is lost only by calls that read an entry
 *    and then write it: x64_unmap, x64_update_flags, their ranges, x64_take_range, x64_drop,
 *    x64_change_range, x64_set_table_flags, maps and x64_prepare if they add parent flags, and
 *    x64_access with mark. The last one may also put back an entry that a guest took away in
 *    between. Exchanges lose nothing: a mark is in the entry, or an exchange returned it.
 * 6. Calls that only read tables may run at the same time: they write nothing but their out
 *    parameters and marks. Beside exchanges of words they may load a word twice, and meet two:
 *    x64_entries_live and x64_access_live load each word once. Tests of validity want tables that
 *    nobody changes.
 *
 * Proved are laws of the model. It is as if such calls were made one after another, in any order
 * (turns_are_as_if_alone, calls_commute, spaces_stay_apart, pools_stay_apart: this is 2). A word
 * that a caller exchanges keeps the hierarchy valid and the pool fitting (entries_may_change), also
 * during calls that don't touch it (live_tables_fit, of one such entry: this is 4). No mark is lost
 * by exchanges (marks_are_never_lost), and reading and then writing loses some
 * (reading_and_writing_loses_marks: this is 5). That the functions write no words of others is
 * proved. That they read none is read in their source, and so is 3. Tested are calls of several
 * threads at the same time, each with a space and a pool of its own (tests/c/pools.c).
 *
 * WHAT IS PROVED, AND WHAT ISN'T
 *
 * Proved is what the functions return and write that this file only declares, as their descriptions
 * say it: the raw calls, those on flushes and those on parts of larger pages. The contract of the
 * function of the same name in crates/x86_64_c/src carries it. Those of x64_list_range,
 * x64_take_range, x64_change_range and x64_drop say it by page_entries and ExchangesPages, which
 * crates/x86_64_live/specs/PageRanges.antt defines. The laws named above are theorems of these
 * names.
 *
 * Not proved is this file: the prover does not read it. tools/c_header compares it with the source:
 * the functions with their parameters and results, the fields of each struct with their types and
 * their order, and the numbers of the statuses. tools/c_library compares the functions that are
 * only declared with those that the library exports. The inline functions, among them all calls
 * on spaces, are tested: that such a call passes the right arguments to its raw call, which is
 * proved (tests/c/context.c), and that it refuses what is said above (tests/c/guards.c).
 * x86_64_paging_live.h says what is tested of its functions.
 */
#ifndef X86_64_PAGING_H
#define X86_64_PAGING_H

#include <stdbool.h>
#include <stddef.h>
#include <stdint.h>

/* The version, 1.0.0: 10000 times its first number, 100 times the second one, and the third one. */
#define X64_VERSION 10000

/* Lets the compiler warn of a call whose status is ignored. Whoever defines it, as nothing for
 * example, before this file is included has it so. */
#ifndef X64_NODISCARD
#if defined(__cplusplus) && __cplusplus >= 201703L
#define X64_NODISCARD [[nodiscard]]
#elif defined(__STDC_VERSION__) && __STDC_VERSION__ >= 202311L
#define X64_NODISCARD [[nodiscard]]
#elif defined(__GNUC__)
#define X64_NODISCARD __attribute__((warn_unused_result))
#else
#define X64_NODISCARD
#endif
#endif

#ifdef __cplusplus
extern "C" {
#endif

/*
 * STATUSES
 *
 * Every call but x64_flush_after, x64_flush_between, x64_are_parts and x64_joined_word returns one
 * of these. It writes its out parameters only if it returns X64_OK, unless its description says
 * otherwise. X64_CHANGED and X64_SHARED_ENTRY are returned by inline functions alone.
 *
 * X64_BAD_LEVELS and the statuses after it say that an argument is wrong; nothing has changed.
 * Arguments are checked before anything else: first the levels, the segments and the root of the
 * hierarchy, then arrays, then shared indices, a level or the kind of an access with the number of
 * bits of physical addresses, then addresses, pages and frames in the order in which they are
 * passed.
 */
enum {
    X64_OK = 0,                      /* the call was done */
    X64_NOT_MAPPED = 1,              /* the address isn't mapped */
    X64_MORE = 2,                    /* there are more mappings, or pages, than room */
    X64_NOT_VALID = 3,               /* the hierarchy isn't valid, or the pool doesn't fit it */
    X64_NOT_ALLOWED = 4,             /* these flags may not be set there; nothing has changed */
    X64_FRAME_ALLOCATION_FAILED = 5, /* too few frames are free for what is missing */
    X64_PARENT_ENTRY_HUGE_PAGE = 6,  /* an entry above the page maps a larger page */
    X64_PAGE_ALREADY_MAPPED = 7,     /* the page's entry isn't 0 */
    X64_PAGE_NOT_MAPPED = 8,         /* the page, or the entry, isn't there */
    X64_INVALID_FRAME_ADDRESS = 9,   /* the entry's address isn't a multiple of the page's size */
    X64_PAGE_FAULT = 10,             /* the access ends in a page fault */
    X64_NO_TABLE = 11,               /* the access, or the walk, needs a table not in the array */
    X64_SPACE_IN_USE = 12,           /* an entry of the root that isn't shared isn't 0 */
    X64_HAS_TABLE = 13,              /* the entry names a table: smaller pages, or room for them */
    X64_CHANGED = 14,                /* the word isn't the one that was expected any more */
    X64_SHARED_ENTRY = 15,           /* it might change a shared entry of the root: not done */

    X64_BAD_LEVELS = 16,  /* the number of levels isn't 4 or 5, or there is no such level */
    X64_BAD_ROOT = 17,    /* the root isn't the address of a frame in the array of tables */
    X64_BAD_ARRAY = 18,   /* the pool has no room for its free frames, or an array is too short */
    X64_BAD_ADDRESS = 19, /* an address isn't canonical */
    X64_BAD_PAGE = 20,    /* the size isn't one of the three, or the start no canonical multiple */
    X64_BAD_FRAME = 21,   /* the frame isn't a multiple of the page's size below 2^52 */
    X64_BAD_ACCESS = 22,  /* the kind isn't one of the three, or physical_bits isn't 32 to 52 */
    X64_BAD_INDICES = 23, /* shared_from > shared_to, or shared_to > 512 */
    X64_BAD_SEGMENTS = 24 /* a segment isn't before the next, or has its tables, or is too long */
};

/* Returns the name of a status, as "X64_OK", or "unknown status" if no status has this number. */
static inline const char *x64_status_name(uint32_t status) {
    switch (status) {
    case X64_OK:
        return "X64_OK";
    case X64_NOT_MAPPED:
        return "X64_NOT_MAPPED";
    case X64_MORE:
        return "X64_MORE";
    case X64_NOT_VALID:
        return "X64_NOT_VALID";
    case X64_NOT_ALLOWED:
        return "X64_NOT_ALLOWED";
    case X64_FRAME_ALLOCATION_FAILED:
        return "X64_FRAME_ALLOCATION_FAILED";
    case X64_PARENT_ENTRY_HUGE_PAGE:
        return "X64_PARENT_ENTRY_HUGE_PAGE";
    case X64_PAGE_ALREADY_MAPPED:
        return "X64_PAGE_ALREADY_MAPPED";
    case X64_PAGE_NOT_MAPPED:
        return "X64_PAGE_NOT_MAPPED";
    case X64_INVALID_FRAME_ADDRESS:
        return "X64_INVALID_FRAME_ADDRESS";
    case X64_PAGE_FAULT:
        return "X64_PAGE_FAULT";
    case X64_NO_TABLE:
        return "X64_NO_TABLE";
    case X64_SPACE_IN_USE:
        return "X64_SPACE_IN_USE";
    case X64_HAS_TABLE:
        return "X64_HAS_TABLE";
    case X64_CHANGED:
        return "X64_CHANGED";
    case X64_SHARED_ENTRY:
        return "X64_SHARED_ENTRY";
    case X64_BAD_LEVELS:
        return "X64_BAD_LEVELS";
    case X64_BAD_ROOT:
        return "X64_BAD_ROOT";
    case X64_BAD_ARRAY:
        return "X64_BAD_ARRAY";
    case X64_BAD_ADDRESS:
        return "X64_BAD_ADDRESS";
    case X64_BAD_PAGE:
        return "X64_BAD_PAGE";
    case X64_BAD_FRAME:
        return "X64_BAD_FRAME";
    case X64_BAD_ACCESS:
        return "X64_BAD_ACCESS";
    case X64_BAD_INDICES:
        return "X64_BAD_INDICES";
    case X64_BAD_SEGMENTS:
        return "X64_BAD_SEGMENTS";
    default:
        return "unknown status";
    }
}

/* What has to be flushed after a call. Each flush drops what those before it drop. */
enum {
    X64_FLUSH_NOTHING = 0,   /* nothing */
    X64_FLUSH_TABLES = 1,    /* cached tables: any INVLPG, or a load of CR3; before the next map */
    X64_FLUSH_PAGE = 2,      /* the page, or each one of a range: an INVLPG for each */
    X64_FLUSH_EVERYTHING = 3 /* everything, global pages too */
};

/* The calls after which something may have to be flushed. */
enum {
    X64_CALL_MAP = 0,             /* x64_map, x64_map_as_mapper, x64_map_range, x64_prepare */
    X64_CALL_UNMAP = 1,           /* x64_unmap, x64_unmap_range */
    X64_CALL_UPDATE_FLAGS = 2,    /* x64_update_flags, x64_update_flags_range */
    X64_CALL_SET_TABLE_FLAGS = 3, /* x64_set_table_flags */
    X64_CALL_CLEAN_UP = 4         /* x64_clean_up, x64_clean_up_below_root */
};


/*
 * FLAGS
 *
 * The flags of an entry are all its bits except 12 to 51, which are the address of a frame
 * (X64_ADDRESS). Page walks ignore bits 9 to 11 and 52 to 58 (but bit 11
 * under HLAT): they are the caller's, and the library keeps them. PAT is bit 7 of a page of 4 KiB,
 * and bit 12 of a larger one. Maps refuse to set it; an exchange of the word does. x64_unmap
 * refuses a page of 4 KiB that has it, and x64_space_take_page takes that away. These bits have
 * names:
 */
#define X64_PRESENT UINT64_C(0x1)         /* the processor uses the entry */
#define X64_WRITABLE UINT64_C(0x2)        /* writes are allowed, if all entries on the way agree */
#define X64_USER_ACCESSIBLE UINT64_C(0x4) /* user code has access, if all entries agree */
#define X64_WRITE_THROUGH UINT64_C(0x8)   /* the cache writes through */
#define X64_NO_CACHE UINT64_C(0x10)       /* there is no caching */
#define X64_ACCESSED UINT64_C(0x20)       /* the processor used the entry */
#define X64_DIRTY UINT64_C(0x40)          /* the processor wrote to the page */
#define X64_HUGE_PAGE UINT64_C(0x80)      /* at levels 3 and 2: the entry maps a page */
#define X64_GLOBAL UINT64_C(0x100)        /* the page stays in the TLB if CR3 is loaded */
#define X64_NO_EXECUTE UINT64_C(0x8000000000000000) /* instructions aren't fetched */

/* The bits of an entry that are the address of a frame. In a page of 2 MiB or 1 GiB bit 12 is PAT,
 * and no part of the address. */
#define X64_ADDRESS UINT64_C(0x000ffffffffff000)

/* The sizes of pages, in bytes. */
#define X64_SIZE_4KIB UINT64_C(0x1000)
#define X64_SIZE_2MIB UINT64_C(0x200000)
#define X64_SIZE_1GIB UINT64_C(0x40000000)

/* The most levels of tables, and so the most entries that a walk reads. */
#define X64_MOST_LEVELS 5

/* The kinds of accesses. */
#define X64_READ 0
#define X64_WRITE 1
#define X64_FETCH 2 /* of an instruction */

/* A page table: 512 entries, each a word of an address and flags. An entry is unused if it is 0. */
typedef struct x64_table {
    uint64_t words[512];
} x64_table;


/* Frames that have tables: the frame with the number first + i has tables[place + i], for each i
 * below count. */
typedef struct x64_segment {
    uint64_t first; /* the number of the first frame */
    uint64_t count; /* how many they are; first + count is below 2^64 */
    uint64_t place; /* the index of the first frame's table; place + count is below 2^64 */
} x64_segment;

/* A space: what a root maps. Its fields stay as they are once it is made. */
typedef struct x64_space {
    x64_table *tables;    /* the tables */
    size_t table_count;   /* how many they are */
    uint64_t first;       /* the number of the frame that tables[0] is, if there are no segments */
    uint64_t root;        /* the physical address of the root table: CR3 without its flags */
    uint64_t levels;      /* the number of levels of tables: 4 or 5 */
    uint64_t shared_from; /* the first index of the root whose entry other spaces share */
    uint64_t shared_to;   /* the first index after it whose entry they don't share */
    const x64_segment *segments; /* which frames have which tables, for a memory with holes */
    size_t segment_count;        /* how many segments there are: with 0 `first` counts */
} x64_space;

/* A pool: a stack of frames that may become tables. The last free one is handed out first. */
typedef struct x64_pool {
    uint64_t *frames;  /* the physical addresses of the free frames, and room for more */
    size_t capacity;   /* for how many frames there is room */
    size_t free_count; /* how many are free: frames[0] to frames[free_count - 1] */
} x64_pool;

/* A hierarchy of page tables in an array of tables. */
typedef struct x64_hierarchy {
    uint64_t first;  /* the number of the frame that tables[0] is, if there are no segments */
    uint64_t root;   /* the physical address of the root table: CR3 without its flags */
    uint64_t levels; /* the number of levels of tables: 4 or 5 */
    const x64_segment *segments; /* which frames have which tables, for a memory with holes */
    size_t segment_count;        /* how many segments there are: with 0 `first` counts */
} x64_hierarchy;

/* Where the processor arrives, and with which rights. */
typedef struct x64_walked {
    uint64_t address; /* the physical address */
    bool write;       /* all entries on the way have X64_WRITABLE */
    bool user;        /* all entries on the way have X64_USER_ACCESSIBLE */
} x64_walked;

/* Where the processor arrives, and with all rights. */
typedef struct x64_walk_result {
    uint64_t address; /* the physical address */
    bool write;       /* all entries on the way have X64_WRITABLE */
    bool user;        /* all entries on the way have X64_USER_ACCESSIBLE */
    bool execute;     /* no entry on the way has X64_NO_EXECUTE */
} x64_walk_result;

/* An entry that a walk reads. */
typedef struct x64_entry {
    uint64_t level; /* the level of its table */
    uint64_t table; /* the physical address of its table */
    uint64_t index; /* its index in the table: 0 to 511 */
    uint64_t word;  /* its address and flags */
} x64_entry;

/* What an address is mapped to. */
typedef struct x64_translation {
    uint64_t frame;  /* the physical address where the frame starts, a multiple of its size */
    uint64_t size;   /* the size of the page and of the frame in bytes, one of the three */
    uint64_t offset; /* the offset of the address in the page in bytes */
    uint64_t flags;  /* the flags of the page's entry */
} x64_translation;

/* A page that is mapped, as x64_mappings lists it. */
typedef struct x64_mapping {
    uint64_t start; /* the first address of the page */
    uint64_t size;  /* its size in bytes, one of the three */
    uint64_t frame; /* the physical address that the first address is mapped to */
    uint64_t flags; /* the flags of the page's entry */
    bool write;     /* all entries on the way have X64_WRITABLE */
    bool user;      /* all entries on the way have X64_USER_ACCESSIBLE */
    bool execute;   /* no entry on the way has X64_NO_EXECUTE */
} x64_mapping;

/* A page of a range, and what its entry is or was, present or not. If it is present, its frame is
 * word & X64_ADDRESS, but for bit 12 of a larger page. */
typedef struct x64_taken {
    uint64_t page; /* its first address */
    uint64_t size; /* its size in bytes, one of the three */
    uint64_t word; /* the word of its entry, with its frame, flags and marks */
} x64_taken;

/* A page. */
typedef struct x64_page {
    uint64_t start; /* its first address: canonical, and a multiple of the size */
    uint64_t size;  /* its size in bytes: X64_SIZE_4KIB, X64_SIZE_2MIB or X64_SIZE_1GIB */
} x64_page;

/* A page to be mapped, and how. */
typedef struct x64_map_request {
    x64_page page;         /* the page */
    uint64_t frame;        /* where it is mapped to: a multiple of the page's size below 2^52 */
    uint64_t flags;        /* for its entry; X64_HUGE_PAGE is added for 2 MiB and 1 GiB */
    uint64_t parent_flags; /* added to each entry above it, as x64_space_map does by itself */
} x64_map_request;

/* What a processor is set to, and has, as far as that decides accesses. */
typedef struct x64_controls {
    bool write_protect;    /* CR0.WP: a supervisor can't write to pages without X64_WRITABLE */
    bool no_execute;       /* EFER.NXE: X64_NO_EXECUTE forbids fetches. Else that bit is reserved */
    bool smep;             /* CR4.SMEP: a supervisor can't fetch from user pages */
    bool smap;             /* CR4.SMAP: a supervisor can't read or write user pages, but with ac */
    bool ac;               /* EFLAGS.AC */
    uint8_t physical_bits; /* MAXPHYADDR: 32 to 52. Higher address bits of entries are reserved */
    bool no_1gib_pages;    /* no pages of 1 GiB (CPUID 8000_0001H, EDX bit 26, is clear): at level 3
                            * X64_HUGE_PAGE is reserved */
    bool global_reserved;  /* X64_GLOBAL is reserved at levels 4 and 5, as on AMD's processors */
} x64_controls;

/* An access. */
typedef struct x64_access_request {
    uint64_t address; /* the virtual address */
    uint32_t kind;    /* X64_READ, X64_WRITE or X64_FETCH */
    bool user;        /* made at privilege level 3. All others are a supervisor's */
    bool mark;        /* set X64_ACCESSED and X64_DIRTY as the processor does */
} x64_access_request;

/* What comes of an access. A field that the status doesn't name here is 0. */
typedef struct x64_outcome {
    uint64_t address; /* X64_OK: the physical address; X64_NO_TABLE: that of the frame */
    uint64_t code;    /* X64_PAGE_FAULT: the error code */
    uint64_t level;   /* X64_PAGE_FAULT: the level of the last entry that was read */
} x64_outcome;

/*
 * CALLS ON SPACES
 *
 * Each makes the raw call that its description begins with, and passes it the fields of the space
 * and of the pool. That call's condition, its statuses and what it writes hold here, too; its
 * description below says them in full. A call returns X64_SHARED_ENTRY only where this is said. It
 * looks for this after wrong levels, roots and pages, and before everything else.
 *
 * The contract of the raw call carries what is said here, but for three things, which are tested:
 * that these arguments are passed, the parent flags of x64_space_map among them; X64_SHARED_ENTRY;
 * and that x64_space_map_list calls x64_map for one page after another.
 *
 * Any of them may return X64_BAD_LEVELS, X64_BAD_SEGMENTS or X64_BAD_ROOT if the space's fields are
 * wrong, and those with a pool X64_BAD_ARRAY if its free_count is greater than its capacity.
 */

/*
 * Tests
 */

/* x64_spaces_fit_in, of this space alone: tests whether all calls on the space may be made with the
 * pool. `marks` is working memory, with a mark for each table of the array. Returns X64_OK;
 * X64_NOT_VALID, also if the root isn't in the array; X64_BAD_LEVELS; X64_BAD_ARRAY;
 * X64_BAD_INDICES. */
X64_NODISCARD
static inline uint32_t x64_space_fits(const x64_space *space, const x64_pool *pool, bool *marks,
                                      size_t mark_count);

/* x64_spaces_fit_in, of all spaces that share entries with this one: these are their roots, with
 * its own among them. With several pools, test each. */
X64_NODISCARD
static inline uint32_t x64_space_all_fit(const x64_space *space, const uint64_t *roots,
                                         size_t root_count, const x64_pool *pool, bool *marks,
                                         size_t mark_count);

/* x64_is_valid: tests a space that has no pool. Returns X64_OK; X64_NOT_VALID; X64_BAD_ARRAY. */
X64_NODISCARD
static inline uint32_t x64_space_is_valid(const x64_space *space, bool *marks, size_t mark_count);

/*
 * Looking up. All but x64_space_translate and x64_space_list_range take any tables, whatever they
 * hold.
 */

/* x64_walk: where the processor arrives from an address, and with which rights. Returns X64_OK;
 * X64_NOT_MAPPED; X64_BAD_ADDRESS. */
X64_NODISCARD
static inline uint32_t x64_space_walk(const x64_space *space, uint64_t address,
                                      x64_walk_result *walked);

/* x64_page_walk: the same, but it doesn't look at X64_NO_EXECUTE. */
X64_NODISCARD
static inline uint32_t x64_space_page_walk(const x64_space *space, uint64_t address,
                                           x64_walked *walked);

/* x64_entries: the entries that the walk to an address reads, from the root's on, and why it ends.
 * There is room for `capacity` entries, at least as many as there are levels. */
X64_NODISCARD
static inline uint32_t x64_space_entries(const x64_space *space, uint64_t address,
                                         x64_entry *entries, size_t capacity, size_t *count);

/* x64_translate: the frame, size and flags of the page that contains an address, even if an entry
 * of level 1 lacks X64_PRESENT. Returns X64_OK; X64_NOT_MAPPED; X64_BAD_ADDRESS. */
X64_NODISCARD
static inline uint32_t x64_space_translate(const x64_space *space, uint64_t address,
                                           x64_translation *translation);

/* x64_mappings: lists the pages that the processor can reach, from an address on. Returns X64_OK if
 * these are all; X64_MORE if the array is full, and a call with from = *next goes on;
 * X64_BAD_ADDRESS. */
X64_NODISCARD
static inline uint32_t x64_space_mappings(const x64_space *space, uint64_t from,
                                          x64_mapping *mappings, size_t capacity, size_t *count,
                                          uint64_t *next);

/* x64_list_range: lists the pages of all sizes, from the page of 4 KiB at `first` to the one at
 * `last`, with the words of their entries, whether they have X64_PRESENT or not. Returns X64_OK if
 * these are all; X64_MORE if the array is full, and a call with first = *next goes on;
 * X64_PARENT_ENTRY_HUGE_PAGE if a larger page, in which *next is, is only partly in the range;
 * X64_BAD_PAGE. */
X64_NODISCARD
static inline uint32_t x64_space_list_range(const x64_space *space, uint64_t first, uint64_t last,
                                            x64_taken *pages, size_t capacity, size_t *count,
                                            uint64_t *next);

/*
 * Maps. They take free frames from the pool for tables that are missing: at most levels - 1 for a
 * page. Nothing has to be flushed afterwards, unless parent flags have X64_NO_EXECUTE; but see SMEP
 * and SMAP above.
 */

/* x64_map: maps a page of a size to a frame, or changes nothing. The entries above the page get the
 * parent flags: those of X64_PRESENT, X64_WRITABLE and X64_USER_ACCESSIBLE that its flags have, and
 * always X64_ACCESSED. If the page's own entry gets one of these later, by another call, those
 * above it need it, too, as X64_WRITABLE for copy on write: make a request by x64_map_request_of,
 * add the flag to its parent_flags, and call x64_space_map_with. Returns X64_OK or one of these:
 *   X64_SHARED_ENTRY             if a shared entry above the page is 0, or lacks a parent flag
 *   X64_PAGE_ALREADY_MAPPED      if the page's entry isn't 0
 *   X64_PARENT_ENTRY_HUGE_PAGE   if an entry above it maps a larger page
 *   X64_FRAME_ALLOCATION_FAILED  if too few frames are free
 *   X64_NOT_ALLOWED              if the flags have any of the bits 12 to 51, or, for a page of
 *                                4 KiB, X64_HUGE_PAGE; or if they lack X64_PRESENT, and an entry
 *                                above the page would lack it, too
 *   X64_BAD_PAGE; X64_BAD_FRAME */
X64_NODISCARD
static inline uint32_t x64_space_map(const x64_space *space, x64_pool *pool, uint64_t page,
                                     uint64_t size, uint64_t frame, uint64_t flags);

/* x64_map: the same with the parent flags of the request, and no others. */
X64_NODISCARD
static inline uint32_t x64_space_map_with(const x64_space *space, x64_pool *pool,
                                          const x64_map_request *request);

/* x64_prepare: makes the tables above a page of a size, with these parent flags, or changes
 * nothing. The page's own entry stays. A map of the page then needs no free frame, and an exchange
 * of its word no table: for handlers that may not fail, and for entries that will be shared.
 * Returns X64_OK; X64_SHARED_ENTRY as x64_space_map_with; X64_PARENT_ENTRY_HUGE_PAGE;
 * X64_FRAME_ALLOCATION_FAILED; X64_NOT_ALLOWED; X64_BAD_PAGE. */
X64_NODISCARD
static inline uint32_t x64_space_prepare(const x64_space *space, x64_pool *pool, uint64_t page,
                                         uint64_t size, uint64_t parent_flags);

/* x64_map, of each page in turn: maps `count` pages, from `page` on, to as many frames in any
 * order, with the parent flags of x64_space_map, and stops at the first page that is refused.
 * Writes to *done, whatever it returns, how many are mapped. Returns X64_OK if all are, or what
 * x64_space_map returned for the next page, which has changed nothing: X64_BAD_PAGE also behind the
 * last page of the address space. */
X64_NODISCARD
static inline uint32_t x64_space_map_list(const x64_space *space, x64_pool *pool, uint64_t page,
                                          uint64_t size, const uint64_t *frames, size_t count,
                                          uint64_t flags, size_t *done);

/* x64_map_range: maps `count` pages, from first_page on, to as many frames that follow each other,
 * with the parent flags of x64_space_map. It is faster than maps of each page. Writes to *done how
 * many are mapped, unless it returns X64_SHARED_ENTRY, X64_NOT_ALLOWED or an X64_BAD_ status. A
 * page that it refuses may leave parent flags and new tables: x64_map_range says which. */
X64_NODISCARD
static inline uint32_t x64_space_map_range(const x64_space *space, x64_pool *pool,
                                           uint64_t first_page, uint64_t size, uint64_t count,
                                           uint64_t first_frame, uint64_t flags, uint64_t *done);

/* x64_map_range: the same with the parent flags of the request, which names the first page. */
X64_NODISCARD
static inline uint32_t x64_space_map_range_with(const x64_space *space, x64_pool *pool,
                                                const x64_map_request *request, uint64_t count,
                                                uint64_t *done);

/*
 * Changes of pages. They free no table, and change no entry of the root. While processors use the
 * page, a mark that one sets may be lost: x86_64_paging_live.h has changes that lose none.
 */

/* x64_unmap: the page's entry becomes 0, and its frame is written to *frame. Returns X64_OK;
 * X64_PAGE_NOT_MAPPED; X64_PARENT_ENTRY_HUGE_PAGE; X64_INVALID_FRAME_ADDRESS; X64_BAD_PAGE. */
X64_NODISCARD
static inline uint32_t x64_space_unmap(const x64_space *space, uint64_t page, uint64_t size,
                                       uint64_t *frame);

/* x64_unmap_range: the same of `count` pages, but at most `capacity`. It passes over pages that it
 * can't unmap. Returns X64_OK; X64_MORE if there are pages left; X64_BAD_PAGE. */
X64_NODISCARD
static inline uint32_t x64_space_unmap_range(const x64_space *space, uint64_t first_page,
                                             uint64_t size, uint64_t count, uint64_t *frames,
                                             size_t capacity, size_t *frame_count, uint64_t *done);

/* x64_update_flags: sets the flags of the page's entry. Returns X64_OK; X64_PAGE_NOT_MAPPED;
 * X64_PARENT_ENTRY_HUGE_PAGE; X64_NOT_ALLOWED; X64_BAD_PAGE. */
X64_NODISCARD
static inline uint32_t x64_space_update_flags(const x64_space *space, uint64_t page, uint64_t size,
                                              uint64_t flags);

/* x64_update_flags_range: the same of `count` pages. It passes over pages whose flags it can't set,
 * and writes to *changed how many the others are. Returns X64_OK; X64_NOT_ALLOWED; X64_BAD_PAGE. */
X64_NODISCARD
static inline uint32_t x64_space_update_flags_range(const x64_space *space, uint64_t first_page,
                                                    uint64_t size, uint64_t count, uint64_t flags,
                                                    uint64_t *changed);

/* x64_take_range: the entries of the pages that x64_space_list_range would write become 0, and
 * `pages` gets them as they were, with their frames, flags and marks. Returns what that returns. */
X64_NODISCARD
static inline uint32_t x64_space_take_range(const x64_space *space, uint64_t first, uint64_t last,
                                            x64_taken *pages, size_t capacity, size_t *count,
                                            uint64_t *next);

/* x64_change_range: of the same pages, those that have X64_PRESENT keep the flags in `keep` and get
 * those in `set`, and `pages` gets them as they were. Returns what x64_space_list_range returns;
 * X64_NOT_ALLOWED if `keep` lacks X64_HUGE_PAGE or a bit of the address, or `set` has one. */
X64_NODISCARD
static inline uint32_t x64_space_change_range(const x64_space *space, uint64_t first, uint64_t last,
                                              uint64_t keep, uint64_t set, x64_taken *pages,
                                              size_t capacity, size_t *count, uint64_t *next);

/*
 * Tables
 */

/* x64_clean_up: frees the empty tables on the way to the pages of 4 KiB from first_page to
 * last_page, and puts their frames into the pool, which may be another one than that of the maps.
 * Returns X64_OK; X64_SHARED_ENTRY if one of these pages is below a shared entry, whether or not a
 * table there is empty; X64_BAD_PAGE. */
X64_NODISCARD
static inline uint32_t x64_space_clean_up(const x64_space *space, x64_pool *pool,
                                          uint64_t first_page, uint64_t last_page);

/* x64_clean_up_below_root: the same, below shared entries, too, but it keeps each table that an
 * entry of the root names. A call that reaches below shared entries runs alone among all calls
 * there, and then each processor that uses one of the roots flushes, before a freed frame is taken.
 * Returns X64_OK; X64_BAD_PAGE. */
X64_NODISCARD
static inline uint32_t x64_space_clean_up_below_root(const x64_space *space, x64_pool *pool,
                                                     uint64_t first_page, uint64_t last_page);

/* x64_drop: takes all pages away from the page of 4 KiB at `first` to that at `last`, of all sizes,
 * with X64_PRESENT or without it, and frees the empty tables there, as x64_space_clean_up does: the
 * end of a process in one call, without an array. It is for who knows the pages' frames by other
 * means. Flush everything before one of these frames, or a frame of the pool, is used. Returns
 * X64_OK; X64_PARENT_ENTRY_HUGE_PAGE at a larger page that is only partly in the range, with *next
 * in it: the pages before it are gone; X64_SHARED_ENTRY as x64_space_clean_up; X64_BAD_PAGE. */
X64_NODISCARD
static inline uint32_t x64_space_drop(const x64_space *space, x64_pool *pool, uint64_t first,
                                      uint64_t last, uint64_t *next);

/* The starts of the first and of the last page of 4 KiB below the root's entry at an index from 0
 * to 511. A space that shares 256 to 512 cleans up from x64_space_first_page(space, 0) to
 * x64_space_last_page(space, 255). */
static inline uint64_t x64_space_first_page(const x64_space *space, uint64_t index);
static inline uint64_t x64_space_last_page(const x64_space *space, uint64_t index);

/* x64_set_table_flags: sets the flags of the entry at a level on the way to a page. Returns X64_OK;
 * X64_SHARED_ENTRY if that is a shared entry of the root; X64_PAGE_NOT_MAPPED;
 * X64_PARENT_ENTRY_HUGE_PAGE; X64_NOT_ALLOWED; X64_BAD_PAGE. */
X64_NODISCARD
static inline uint32_t x64_space_set_table_flags(const x64_space *space, uint64_t page,
                                                 uint64_t size, uint64_t level, uint64_t flags);

/*
 * More spaces
 */

/* x64_new_space: makes one more space, with the same shared entries as this one and nothing else,
 * and writes it to *other. Its root is a free frame of the pool. If no entries are shared, nothing
 * is mapped in it, no kernel either. Returns X64_OK; X64_FRAME_ALLOCATION_FAILED if no frame is
 * free; X64_BAD_INDICES. */
X64_NODISCARD
static inline uint32_t x64_space_new(const x64_space *space, x64_pool *pool, x64_space *other);

/* x64_give_up_space: puts the root's frame into the pool. Before, take all pages away that aren't
 * below shared entries (x64_space_take_range, which returns their frames), and clean up;
 * x64_space_drop does both, and returns no frames. And no processor uses the root any more. Returns
 * X64_OK; X64_SPACE_IN_USE if an entry that isn't shared isn't 0; X64_BAD_INDICES. */
X64_NODISCARD
static inline uint32_t x64_space_give_up(const x64_space *space, x64_pool *pool);

/* Returns whether an address is below a shared entry of the root. */
static inline bool x64_space_shares(const x64_space *space, uint64_t address);

/*
 * Accesses
 */

/* x64_access: what a processor does with an access, and the marks that it sets. Returns X64_OK;
 * X64_PAGE_FAULT; X64_NO_TABLE; X64_SHARED_ENTRY if it arrives and would set X64_ACCESSED in a
 * shared entry; X64_BAD_ACCESS; X64_BAD_ADDRESS. */
X64_NODISCARD
static inline uint32_t x64_space_access(const x64_space *space, const x64_controls *controls,
                                        const x64_access_request *request, x64_outcome *outcome);

/*
 * Flushes
 */

/*
 * Returns what has to be flushed after a call that returned this status: one of the X64_FLUSH_
 * numbers, by the table under TABLES THAT A PROCESSOR USES. `call` is one of the X64_CALL_ numbers.
 * `parent_flags` are those of a map, and mean nothing for other calls; pass 0 for x64_space_map,
 * x64_space_map_list and x64_space_map_range. For a number that is no call it returns
 * X64_FLUSH_EVERYTHING, unless the status is X64_NOT_ALLOWED or an X64_BAD_ status.
 *
 * It is proved that this is the least flush that settles all that the model makes due after a call
 * (flush_after in crates/x86_64_model/specs/Flushing.antt), and of the model that such flushes are
 * enough (see there). For a range X64_FLUSH_PAGE settles what each page makes due, by an INVLPG for
 * each. The model's map is x64_map_as_mapper: after a refused x64_map nothing has to be flushed,
 * whatever this returns.
 *
 * A caller who knows more may flush less. Nothing has to be flushed after a map if x64_entries
 * reads the same entries above the page before the call and after it; nor after x64_update_flags if
 * the entry isn't 0, has each of X64_PRESENT, X64_WRITABLE, X64_USER_ACCESSIBLE, X64_ACCESSED and
 * X64_DIRTY that it had, hasn't got X64_NO_EXECUTE, and has the bits 3, 4, 7, 8 and 59 to 62 as
 * they were: caching, X64_GLOBAL and the protection key. With SMEP or SMAP it must not have got
 * X64_USER_ACCESSIBLE either.
 */
X64_NODISCARD
uint32_t x64_flush_after(uint32_t call, uint64_t parent_flags, uint32_t status);

/*
 * Returns what has to be flushed after the word of an entry of a level, which was `old`, was
 * exchanged for `word` by one atomic instruction (x86_64_paging_live.h has such exchanges):
 * X64_FLUSH_NOTHING, X64_FLUSH_PAGE (INVLPG of an address in the page), or X64_FLUSH_EVERYTHING if
 * the entry names a table. Level 1 is that of tables whose entries map pages of 4 KiB;
 * x64_level_of(size) is that of a page. TABLES THAT A PROCESSOR USES says which processors flush,
 * and when.
 *
 * It is nothing if `old` lacks X64_PRESENT, since a processor caches no such entry. Else it is
 * nothing if the address, X64_HUGE_PAGE and the bits 3, 4, 8 and 59 to 62 stay, none of PRESENT,
 * WRITABLE, USER_ACCESSIBLE, ACCESSED and DIRTY goes, and neither NO_EXECUTE nor USER_ACCESSIBLE
 * comes: a page that becomes a user's takes rights from ring 0 under SMEP and SMAP.
 *
 * It is proved that this is the least flush that settles all that the model makes due after the
 * exchange (due_between in crates/x86_64_model/specs/Flushing.antt), and of the model that such
 * flushes are enough, on one processor with one root (exchanges_may_happen,
 * flushes_after_calls_are_enough). There an entry that isn't 0 and lacks X64_PRESENT isn't
 * exchanged while everything is due for an entry above it.
 *
 * After "nothing" a processor may still fault once by what it cached: the handler finds that the
 * entry allows the access, and returns. Who clears ACCESSED only to learn which pages are in use
 * may leave the flush out: a processor may then use the page without setting it again.
 */
X64_NODISCARD
uint32_t x64_flush_between(uint64_t level, uint64_t old, uint64_t word);

/*
 * Parts of larger pages
 *
 * A page of 2 MiB or 1 GiB has 512 parts: the pages of 4 KiB or 2 MiB that map the same frames as
 * the same kind of memory, with the same rights. x64_space_split and x64_space_join
 * (x86_64_paging_live.h) put a table of the parts in the place of the page, and the page in the
 * place of the table, by one locked instruction. These functions write and compare words for them.
 * `level` is that of the page's entry, 2 or 3, and `word` is the entry's word. The definitions are
 * in crates/x86_64_live/specs/Parts.antt.
 *
 * Proved of the model: if the words of a table are parts (AreParts), the page and the table may
 * take each other's place, and all walks arrive where they did with the same rights
 * (pages_may_be_split, pages_may_be_joined in crates/x86_64_model). Proved of these functions: that
 * the words are parts.
 */

/*
 * Returns whether the page that has this word can be split: X64_OK or one of these:
 *   X64_BAD_LEVELS              if the level isn't 2 or 3
 *   X64_PAGE_NOT_MAPPED         if the word is 0
 *   X64_HAS_TABLE               if it names a table: it lacks X64_HUGE_PAGE
 *   X64_INVALID_FRAME_ADDRESS   if its address isn't a multiple of the page's size, but for bit 12,
 *                               which is PAT. Such bits are reserved
 */
X64_NODISCARD
uint32_t x64_split_status(uint64_t level, uint64_t word);

/*
 * Writes the words of the parts of a page into a table that nobody uses: with all its flags, its
 * marks and its PAT (part_of). They are parts (AreParts) below any entry that has X64_WRITABLE and
 * X64_USER_ACCESSIBLE and lacks X64_NO_EXECUTE.
 *
 * Returns what x64_split_status returns. Unless it is X64_OK, the table stays as it was.
 */
X64_NODISCARD
uint32_t x64_write_parts(uint64_t level, uint64_t word, x64_table *table);

/*
 * Returns whether the words of a table are the parts (AreParts) of a page with this word, below the
 * word of the entry that names the table: they map the same frames and grant, with that entry, what
 * the page grants. They also have the same kind of memory (MapsParts): X64_PRESENT, X64_GLOBAL,
 * caching with PAT, and the protection key. Returns false if x64_split_status refuses the page.
 *
 * It looks neither at X64_ACCESSED and X64_DIRTY nor at the bits 9 to 11 and 52 to 58: its contract
 * says the same of tables that differ in these alone. So it may run while processors mark the
 * parts. Trusted is that the compiler reads a word whole, once or twice.
 */
X64_NODISCARD
bool x64_are_parts(uint64_t level, uint64_t word, uint64_t entry, const x64_table *table);

/*
 * Returns the word of a page that takes the place of the parts in a table: this word with
 * X64_ACCESSED, and with X64_DIRTY if the page is writable or a part has X64_DIRTY. A writable page
 * counts as dirty, since its parts may be marked until it takes their place. Ring 0 with CR0.WP
 * clear marks parts that aren't writable, too.
 */
X64_NODISCARD
uint64_t x64_joined_word(uint64_t word, const x64_table *table);

/*
 * RAW CALLS
 *
 * The functions of the library. They take a hierarchy, which is a space without its tables, and the
 * arrays with their lengths, and refuse nothing because of shared entries. Use them for what no
 * call on a space does, such as x64_map_as_mapper, and for tables that belong to nobody's space.
 */

/*
 * CALLS THAT READ
 *
 * Each may also return X64_BAD_LEVELS and, if it is passed a hierarchy, X64_BAD_SEGMENTS or
 * X64_BAD_ROOT (but x64_spaces_fit_in, which has no root).
 */

/*
 * Walks the tables for an address, and writes to *walked where the walk arrives. It reads raw
 * words, and looks at no reserved bits: x64_access does. A walk that leads out of the array of
 * tables arrives nowhere.
 *
 * Condition: pointers only. The tables may hold anything.
 *
 * Returns X64_OK; X64_NOT_MAPPED if the walk arrives nowhere; X64_BAD_ADDRESS.
 */
X64_NODISCARD
uint32_t x64_page_walk(const x64_hierarchy *hierarchy, const x64_table *tables, size_t table_count,
                       uint64_t address, x64_walked *walked);

/*
 * Does what x64_page_walk does, and also tells whether no entry on the way has X64_NO_EXECUTE. If
 * EFER.NXE is off, that bit is reserved, and the processor faults instead: x64_access does what a
 * processor does by its settings.
 *
 * Condition: pointers only. The tables may hold anything.
 *
 * Returns X64_OK; X64_NOT_MAPPED if the walk arrives nowhere; X64_BAD_ADDRESS.
 */
X64_NODISCARD
uint32_t x64_walk(const x64_hierarchy *hierarchy, const x64_table *tables, size_t table_count,
                  uint64_t address, x64_walk_result *walked);

/*
 * Writes the entries that the walk to an address reads to `entries`, from the root's on, one for
 * each level down to the last one that it reads, and their number to *count. The array has room for
 * `capacity` entries, at least as many as there are levels: X64_MOST_LEVELS are always enough. It
 * keeps what it held behind the entries that are written.
 *
 * Condition: pointers only. The tables may hold anything.
 *
 * Returns why the walk ends, as one of these; all of them write `entries` and *count:
 *   X64_OK                       the last entry maps a page, at which the walk arrives
 *   X64_NOT_MAPPED               the last entry lacks X64_PRESENT; the walk doesn't look at its
 *                                other bits
 *   X64_PARENT_ENTRY_HUGE_PAGE   the last entry has X64_HUGE_PAGE above level 3, where it maps no
 *                                page
 *   X64_NO_TABLE                 the table that the last entry names isn't in the array
 * or X64_BAD_ARRAY if there is room for fewer entries than levels; X64_BAD_ADDRESS.
 */
X64_NODISCARD
uint32_t x64_entries(const x64_hierarchy *hierarchy, const x64_table *tables, size_t table_count,
                     uint64_t address, x64_entry *entries, size_t capacity, size_t *count);

/*
 * Looks up the entry of the page that contains an address, and writes to *translation what the
 * address is mapped to. The entries above it must have X64_PRESENT, and so must an entry of level 3
 * or 2 that maps a page. An entry of level 1 counts if it isn't 0, even without X64_PRESENT: check
 * the flags. If they have X64_PRESENT, the processor arrives at frame + offset.
 *
 * Condition: the hierarchy is valid (x64_is_valid).
 *
 * Returns X64_OK; X64_NOT_MAPPED if there is no such entry; X64_BAD_ADDRESS.
 */
X64_NODISCARD
uint32_t x64_translate(const x64_hierarchy *hierarchy, const x64_table *tables, size_t table_count,
                       uint64_t address, x64_translation *translation);

/*
 * Lists the pages that the processor can reach, in ascending order of addresses, from the first one
 * whose last address isn't below `from`. At most `capacity` of them are written to `mappings`, and
 * their number to *count. To list all pages, begin with from = 0.
 *
 * With X64_MORE there are more: *count is `capacity`, and a call with from = *next continues after
 * the last one written. With X64_OK the list is complete, and *next is unchanged.
 *
 * Condition: pointers only. The tables may hold anything, and a table that several entries name is
 * listed for each.
 *
 * Returns X64_OK; X64_MORE; X64_BAD_ADDRESS.
 */
X64_NODISCARD
uint32_t x64_mappings(const x64_hierarchy *hierarchy, const x64_table *tables, size_t table_count,
                      uint64_t from, x64_mapping *mappings, size_t capacity, size_t *count,
                      uint64_t *next);

/*
 * Tests whether the hierarchy is valid. `marks` is working memory for the call: mark_count marks,
 * at least table_count. What they hold after the call means nothing.
 *
 * Condition: pointers only. The tables may hold anything, even cycles.
 *
 * Returns X64_OK if it is valid; X64_NOT_VALID; X64_BAD_ARRAY if there are too few marks.
 */
X64_NODISCARD
uint32_t x64_is_valid(const x64_hierarchy *hierarchy, const x64_table *tables, size_t table_count,
                      bool *marks, size_t mark_count);

/*
 * Tests whether the hierarchy is valid and the pool fits it. The pool is a stack of physical
 * addresses of frames: pool[0] to pool[free_count - 1] are the free frames, and the last of these
 * is handed out first. The array has room for `capacity`. `marks` is as for x64_is_valid.
 *
 * Condition: pointers only. The tables and the pool may hold anything.
 *
 * Returns X64_OK if the pool fits; X64_NOT_VALID, also if the pool's array is too short for the
 * frames that may come back; X64_BAD_ARRAY if free_count > capacity or there are too few marks.
 */
X64_NODISCARD
uint32_t x64_pool_fits(const x64_hierarchy *hierarchy, const x64_table *tables, size_t table_count,
                       const uint64_t *pool, size_t capacity, size_t free_count, bool *marks,
                       size_t mark_count);

/*
 * Tests whether the hierarchies with these roots fit together with the pool, and share the tables
 * below the entries of their roots from shared_from up to, but not including, shared_to: the roots
 * are distinct, all have the same words at these indices, each hierarchy is valid, and no table is
 * in two of them but those below these entries; the free frames are distinct, each is in the array
 * and is neither frame 0, nor a root, nor a table; and the pool's array has room for the free
 * frames, all roots and all tables. `first` and `levels` are as in x64_hierarchy, the pool and
 * `marks` as for x64_pool_fits. Each table is met once.
 *
 * If they do, each hierarchy is valid, the pool fits it, and each may be given up.
 *
 * Condition: pointers only. The tables, the roots and the pool may hold anything.
 *
 * Returns X64_OK if they fit together, also if root_count is 0; X64_NOT_VALID, also for a root that
 * isn't the address of a frame in the array of tables; X64_BAD_LEVELS; X64_BAD_ARRAY if
 * free_count > capacity or there are too few marks; X64_BAD_INDICES.
 */
X64_NODISCARD
uint32_t x64_spaces_fit(uint64_t first, uint64_t levels, const x64_table *tables,
                        size_t table_count, const uint64_t *roots, size_t root_count,
                        uint64_t shared_from, uint64_t shared_to, const uint64_t *pool,
                        size_t capacity, size_t free_count, bool *marks, size_t mark_count);

/*
 * Tests the same, with the number of levels of a hierarchy and in its memory, which may have
 * segments. The root of the hierarchy isn't looked at.
 *
 * Condition: that of x64_spaces_fit.
 *
 * Returns what x64_spaces_fit returns, or X64_BAD_SEGMENTS.
 */
X64_NODISCARD
uint32_t x64_spaces_fit_in(const x64_hierarchy *hierarchy, const x64_table *tables,
                           size_t table_count, const uint64_t *roots, size_t root_count,
                           uint64_t shared_from, uint64_t shared_to, const uint64_t *pool,
                           size_t capacity, size_t free_count, bool *marks, size_t mark_count);

/*
 * CALLS THAT CHANGE TABLES
 *
 * Each may also return X64_BAD_LEVELS, X64_BAD_SEGMENTS or X64_BAD_ROOT. Words change only in the
 * root, in the tables below it and, if a map or x64_new_space makes tables, in frames that it takes
 * from the pool.
 */

/*
 * Does what a processor does with a read, a write or a fetch at an address, and writes to *outcome
 * what comes of it. From the root down, each entry that is read is looked at in this order: without
 * X64_PRESENT the access faults; with a reserved bit it faults; and at the page it faults if the
 * rights that all entries grant don't suffice. Reserved are bits 13 to 29 of a page of 1 GiB, bits
 * 13 to 20 of one of 2 MiB, X64_HUGE_PAGE above level 3, and what the fields of x64_controls say.
 * The error code has bit 0 if the entry has X64_PRESENT, bit 1 for a write, bit 2 for a user, bit 3
 * for a reserved bit, and bit 4 for a fetch if no_execute or smep is on.
 *
 * Left out are, or have to be done by the caller:
 *   - protection keys, shadow stacks and HLAT (another root, which the VMCS names);
 *   - LAM and AMD's UAI: clear the ignored bits of the address before;
 *   - LASS, by which an access faults before any entry is read;
 *   - what a processor reads as a supervisor by itself, such as descriptors: pass user = 0, ac = 0.
 *
 * If request->mark is set and the access arrives, each entry that was read gets X64_ACCESSED, and
 * that of the page X64_DIRTY for a write. Otherwise no table changes.
 *
 * It is proved that the status, *outcome and every word of the tables are those that the model of a
 * processor's access defines (crates/x86_64_model/specs/Access.antt), whatever the tables held.
 *
 * Condition: pointers only. The tables may hold anything.
 *
 * Returns X64_OK if the access arrives, or one of these. The first two write *outcome, too:
 *   X64_PAGE_FAULT   if it faults
 *   X64_NO_TABLE     if the table in a frame on the way isn't in the array; a processor would read
 *                    on there
 *   X64_BAD_ACCESS   if the kind isn't one of the three, or physical_bits isn't 32 to 52; this is
 *                    checked before the address
 *   X64_BAD_ADDRESS
 */
X64_NODISCARD
uint32_t x64_access(const x64_hierarchy *hierarchy, x64_table *tables, size_t table_count,
                    const x64_controls *controls, const x64_access_request *request,
                    x64_outcome *outcome);

/*
 * Does what x64_access does without marks, by entries that the caller has read, and reads no table:
 * by those that the walk to request->address reads through so many levels, from the root's on. So
 * who loads each word once, as x64_entries_live does while a guest changes its tables, gets what a
 * processor does that reads these words. Only the words of the entries count, and those behind the
 * one at which the walk ends mean nothing, nor does request->mark.
 *
 * It is proved that the status and *outcome are what x64_access says of any tables in which the
 * walk reads these words (WritesWherever in crates/x86_64_c/specs/Paths.antt), and of words that no
 * tables have together what the model of an access makes of them one by one (WritesAlong there).
 *
 * Condition: pointers only. The entries may hold anything.
 *
 * Returns X64_OK if the access arrives, or one of these. The first two write *outcome, too:
 *   X64_PAGE_FAULT   if it faults
 *   X64_NO_TABLE     if the processor reads on in the table that the last entry names
 *   X64_BAD_ACCESS; X64_BAD_ADDRESS as x64_access
 *   X64_BAD_ARRAY    if there is no entry, or if there are more than levels
 *   X64_BAD_LEVELS
 */
X64_NODISCARD
uint32_t x64_outcome_of(uint64_t levels, const x64_controls *controls,
                        const x64_access_request *request, const x64_entry *entries, size_t count,
                        x64_outcome *outcome);

/*
 * Maps a page to a frame, or changes nothing: unless it returns X64_OK, the tables, the pool and
 * *free_count are as before. It looks at the tables first. Then, from the root down,
 * request->parent_flags are added to each entry above the page. An entry that was 0 then also names
 * a new table: the last free frame of the pool, which is cleared, and *free_count decreases by one.
 *
 * Condition: the pool fits the hierarchy (x64_pool_fits).
 *
 * Returns X64_OK or one of these; then nothing has changed:
 *   X64_NOT_ALLOWED              if the flags or the parent flags have any of the bits 12 to 51; if
 *                                the parent flags have X64_HUGE_PAGE, or the flags of a page of
 *                                4 KiB have it; or if the parent flags lack X64_PRESENT and an
 *                                entry above the page would be without it
 *   X64_PARENT_ENTRY_HUGE_PAGE   if an entry above the page has X64_HUGE_PAGE
 *   X64_FRAME_ALLOCATION_FAILED  if more tables are missing than frames are free
 *   X64_PAGE_ALREADY_MAPPED      if the page's entry isn't 0
 *   X64_BAD_ARRAY                if *free_count > capacity
 *   X64_BAD_PAGE, X64_BAD_FRAME
 *
 * If the parent flags have X64_USER_ACCESSIBLE, see SMEP and SMAP above.
 */
X64_NODISCARD
uint32_t x64_map(const x64_hierarchy *hierarchy, x64_table *tables, size_t table_count,
                 uint64_t *pool, size_t capacity, size_t *free_count,
                 const x64_map_request *request);

/*
 * Maps a page to a frame as map_to_with_table_flags of the Rust crate x86_64 does, and the program
 * pagetab: it returns what x64_map returns, and leaves the same if that is X64_OK, X64_NOT_ALLOWED
 * or an X64_BAD_ status. But it changes entries on its way down, so entries above a page that it
 * refuses may have changed. Use it to end with the same words as one of these after any calls.
 *
 * Condition: the pool fits the hierarchy (x64_pool_fits).
 *
 * Returns what x64_map returns. With X64_FRAME_ALLOCATION_FAILED, X64_PARENT_ENTRY_HUGE_PAGE and
 * X64_PAGE_ALREADY_MAPPED the page's entry hasn't changed, but parent flags may have been added to
 * entries above it, and new tables may have been made. With X64_PARENT_ENTRY_HUGE_PAGE the entry of
 * the larger page got the parent flags, too, so that page may have more rights than before. New
 * tables are part of the hierarchy, and x64_clean_up frees them if they are empty.
 */
X64_NODISCARD
uint32_t x64_map_as_mapper(const x64_hierarchy *hierarchy, x64_table *tables, size_t table_count,
                           uint64_t *pool, size_t capacity, size_t *free_count,
                           const x64_map_request *request);

/*
 * Makes the tables above a page, or changes nothing: unless it returns X64_OK, the tables, the pool
 * and *free_count are as before. After X64_OK each entry above the page names a table and has the
 * parent flags. Those that were 0 name new tables: the last free frames of the pool, which are
 * cleared. The page's own entry is neither read nor written.
 *
 * A map of the page then needs no free frame, and an exchange of its entry (x86_64_paging_live.h)
 * no table. So a handler of faults that may not fail has its pages prepared, and two handlers may
 * put two pages below one table at the same time.
 *
 * Condition: the pool fits the hierarchy (x64_pool_fits).
 *
 * Returns X64_OK or one of these; then nothing has changed:
 *   X64_NOT_ALLOWED              if the parent flags have any of the bits 12 to 51, or
 *                                X64_HUGE_PAGE; or if they lack X64_PRESENT and an entry above the
 *                                page would be without it
 *   X64_PARENT_ENTRY_HUGE_PAGE   if an entry above the page has X64_HUGE_PAGE
 *   X64_FRAME_ALLOCATION_FAILED  if more tables are missing than frames are free
 *   X64_BAD_ARRAY                if *free_count > capacity
 *   X64_BAD_PAGE
 *
 * It is proved that x64_map of the page, with the same parent flags, does afterwards what it would
 * have done alone (prepared_maps_are_maps in crates/x86_64_live).
 */
X64_NODISCARD
uint32_t x64_prepare(const x64_hierarchy *hierarchy, x64_table *tables, size_t table_count,
                     uint64_t *pool, size_t capacity, size_t *free_count, const x64_page *page,
                     uint64_t parent_flags);

/*
 * Maps `count` pages of one size, from request->page on, to as many frames, from request->frame on,
 * in order. Does what x64_map_as_mapper of each page in turn would do, up to the first one that is
 * refused, but looks up each table only once. Writes to *done how many pages it mapped.
 *
 * Condition: the pool fits the hierarchy (x64_pool_fits).
 *
 * Returns X64_OK if all pages were mapped, and if count is 0, or one of these:
 *   X64_NOT_ALLOWED              if the parent flags lack X64_PRESENT; or, unless count is 0, if
 *                                x64_map of a page wouldn't be allowed. Nothing has changed
 *   X64_FRAME_ALLOCATION_FAILED, X64_PARENT_ENTRY_HUGE_PAGE, X64_PAGE_ALREADY_MAPPED
 *                                if x64_map_as_mapper refused the next page so. *done is written:
 *                                so many pages are mapped. The next one left what a refused
 *                                x64_map_as_mapper leaves: entries above it may have got the
 *                                parent flags, and tables may be new. No page after it was looked
 *                                at
 *   X64_BAD_ARRAY                if *free_count > capacity
 *   X64_BAD_PAGE                 also if the pages don't end in the half of the address space in
 *                                which they start
 *   X64_BAD_FRAME                also if the last frame doesn't end at 2^52 or below
 */
X64_NODISCARD
uint32_t x64_map_range(const x64_hierarchy *hierarchy, x64_table *tables, size_t table_count,
                       uint64_t *pool, size_t capacity, size_t *free_count,
                       const x64_map_request *request, uint64_t count, uint64_t *done);

/*
 * Unmaps a page: its entry becomes 0, and the physical address that it was mapped to is written to
 * *frame. No table is freed.
 *
 * Condition: the hierarchy is valid (x64_is_valid).
 *
 * Returns X64_OK or one of these; then no table has changed:
 *   X64_PAGE_NOT_MAPPED          if the page's entry or one above it lacks X64_PRESENT
 *   X64_PARENT_ENTRY_HUGE_PAGE   if an entry above the page has X64_HUGE_PAGE, if the entry of a
 *                                page of 4 KiB has it, or if the entry of a larger page lacks it
 *   X64_INVALID_FRAME_ADDRESS    if the address in the entry of a page of 2 MiB or 1 GiB isn't a
 *                                multiple of the size. That address is written to *frame
 *   X64_BAD_PAGE
 */
X64_NODISCARD
uint32_t x64_unmap(const x64_hierarchy *hierarchy, x64_table *tables, size_t table_count,
                   const x64_page *page, uint64_t *frame);

/*
 * Unmaps `count` pages of one size, from *first on, but at most `capacity`, and writes to *done how
 * many these are. Does what x64_unmap of each page in turn would do, but looks up each table only
 * once, and passes over the pages below a missing table at once. A page whose unmap is refused, for
 * whatever reason, is passed over and stays as it is. The addresses of the frames that the others
 * were mapped to are written to `frames`, in order and from its start on, and their number to
 * *frame_count. No table is freed.
 *
 * With X64_MORE *done is `capacity`, and a call with first->start + *done * first->size and
 * count - *done continues after the last page that was looked at. So a call passes over at most
 * `capacity` pages of a hole. For ranges with holes take x64_take_range, which passes over a whole
 * hole in one call, and returns the words of pages of all sizes.
 *
 * Condition: the hierarchy is valid (x64_is_valid).
 *
 * Returns X64_OK if *done is count; X64_MORE if it is less; X64_BAD_PAGE, also if the pages don't
 * end in the half of the address space in which they start.
 */
X64_NODISCARD
uint32_t x64_unmap_range(const x64_hierarchy *hierarchy, x64_table *tables, size_t table_count,
                         const x64_page *first, uint64_t count, uint64_t *frames, size_t capacity,
                         size_t *frame_count, uint64_t *done);

/*
 * Sets the flags of a page's entry, which may lack X64_PRESENT. Its address stays, and the entry of
 * a larger page keeps X64_HUGE_PAGE.
 *
 * Condition: the hierarchy is valid (x64_is_valid).
 *
 * Returns X64_OK or one of these; then nothing has changed:
 *   X64_NOT_ALLOWED              if the flags have any of the bits 12 to 51
 *   X64_PAGE_NOT_MAPPED          if an entry above the page lacks X64_PRESENT, if the page's own is
 *                                0, or if that of a page of 2 MiB or 1 GiB lacks X64_HUGE_PAGE
 *   X64_PARENT_ENTRY_HUGE_PAGE   if an entry above the page has X64_HUGE_PAGE
 *   X64_BAD_PAGE
 */
X64_NODISCARD
uint32_t x64_update_flags(const x64_hierarchy *hierarchy, x64_table *tables, size_t table_count,
                          const x64_page *page, uint64_t flags);

/*
 * Sets the flags of the entries of `count` pages of one size, from *first on. Does what
 * x64_update_flags of each page in turn would do, but looks up each table only once, and passes
 * over the pages below a missing table at once. A page whose change is refused, for whatever
 * reason, is passed over and stays as it is. Writes to *changed how many pages the others are.
 *
 * Condition: the hierarchy is valid (x64_is_valid).
 *
 * Returns X64_OK or one of these; then nothing has changed:
 *   X64_NOT_ALLOWED              if the flags have any of the bits 12 to 51
 *   X64_BAD_PAGE                 also if the pages don't end in the half of the address space in
 *                                which they start
 */
X64_NODISCARD
uint32_t x64_update_flags_range(const x64_hierarchy *hierarchy, x64_table *tables,
                                size_t table_count, const x64_page *first, uint64_t count,
                                uint64_t flags, uint64_t *changed);

/*
 * Lists the pages of a range with the words of their entries: all pages from the page of 4 KiB that
 * starts at `first` to the one that starts at `last`, of all three sizes, with X64_PRESENT or
 * without it, in ascending order of addresses. A page is what has an entry that isn't 0 and names
 * no table. At most `capacity` of them are written to `pages`, and their number to *count. A
 * missing table is passed over by one look. The range may cross the gap of the address space. If
 * `last` comes before `first`, it is empty.
 *
 * Condition: the hierarchy is valid (x64_is_valid).
 *
 * Returns X64_OK if these are all; then *next isn't written. Or one of these; the first two also
 * write `pages`, *count and *next:
 *   X64_MORE                     if the array is full and there are more: a call with
 *                                first = *next goes on
 *   X64_PARENT_ENTRY_HUGE_PAGE   if a page of 2 MiB or 1 GiB is only partly in the range: all
 *                                before it are written, and *next is the first address of the
 *                                range in it. Split it and go on there, or begin at its start
 *   X64_BAD_PAGE                 if `first` or `last` isn't a canonical multiple of 4 KiB
 */
X64_NODISCARD
uint32_t x64_list_range(const x64_hierarchy *hierarchy, const x64_table *tables, size_t table_count,
                        uint64_t first, uint64_t last, x64_taken *pages, size_t capacity,
                        size_t *count, uint64_t *next);

/*
 * Takes the pages of a range away: those that x64_list_range would write, which it writes as they
 * were, and their entries become 0. No table is freed. Each page whose word had X64_PRESENT wants
 * an INVLPG of its own, as x64_flush_between tells of its word and 0.
 *
 * It reads a word and then writes it: a mark that a processor sets in between is lost. Where that
 * matters, as for pages that a running program may write to, use x64_space_take_range_live
 * in x86_64_paging_live.h.
 *
 * Condition: the hierarchy is valid (x64_is_valid). Returns what x64_list_range returns.
 */
X64_NODISCARD
uint32_t x64_take_range(const x64_hierarchy *hierarchy, x64_table *tables, size_t table_count,
                        uint64_t first, uint64_t last, x64_taken *pages, size_t capacity,
                        size_t *count, uint64_t *next);

/*
 * Changes the flags of the pages of a range that have X64_PRESENT: their words keep the bits that
 * are in `keep`, and get those that are in `set`. The pages are written to `pages` with the words
 * that they had, as x64_list_range writes them. Pages without X64_PRESENT are passed over, also a
 * larger one that is only partly in the range. What to flush of each page x64_flush_between tells
 * of its two words. As x64_take_range, it reads a word and then writes it.
 *
 * Condition: the hierarchy is valid (x64_is_valid).
 *
 * Returns what x64_list_range returns, or X64_NOT_ALLOWED if `keep` lacks X64_HUGE_PAGE or one of
 * the bits 12 to 51, or `set` has one of these; then nothing has changed.
 */
X64_NODISCARD
uint32_t x64_change_range(const x64_hierarchy *hierarchy, x64_table *tables, size_t table_count,
                          uint64_t first, uint64_t last, uint64_t keep, uint64_t set,
                          x64_taken *pages, size_t capacity, size_t *count, uint64_t *next);

/*
 * Sets the flags of the entry on the way to a page at a level from 2 to hierarchy->levels. They
 * apply to all pages below the entry: without X64_PRESENT the processor reaches none of them.
 *
 * Condition: the hierarchy is valid (x64_is_valid).
 *
 * Returns X64_OK or one of these; then nothing has changed:
 *   X64_NOT_ALLOWED              if the flags have any of the bits 12 to 51, or X64_HUGE_PAGE at
 *                                level 4 or 5; or, if nothing below refuses the call, if they would
 *                                change X64_HUGE_PAGE at level 3 or 2
 *   X64_PARENT_ENTRY_HUGE_PAGE   if the level isn't above that of the page's own entry (1 for
 *                                4 KiB, 2 for 2 MiB, 3 for 1 GiB), or if an entry above the one at
 *                                that level has X64_HUGE_PAGE
 *   X64_PAGE_NOT_MAPPED          if the entry is 0, or an entry above it lacks X64_PRESENT
 *   X64_BAD_LEVELS               also if there is no such level
 *   X64_BAD_PAGE
 */
X64_NODISCARD
uint32_t x64_set_table_flags(const x64_hierarchy *hierarchy, x64_table *tables, size_t table_count,
                             const x64_page *page, uint64_t level, uint64_t flags);

/*
 * Frees the empty tables on the way to pages of 4 KiB, from the page that starts at first_page to
 * the one that starts at last_page, and then the tables that became empty by this. A table is empty
 * if all its words are 0. The root is never freed. The entry that names a freed table becomes 0,
 * and its frame goes to the top of the pool: *free_count increases by one. Entries without
 * X64_PRESENT stay, with everything below them. If last_page comes before first_page, nothing
 * changes. For the whole address space first_page is 0 and last_page 0xfffffffffffff000.
 *
 * Condition: the pool fits the hierarchy (x64_pool_fits).
 *
 * Returns X64_OK; X64_BAD_ARRAY if *free_count > capacity; X64_BAD_PAGE for either page.
 */
X64_NODISCARD
uint32_t x64_clean_up(const x64_hierarchy *hierarchy, x64_table *tables, size_t table_count,
                      uint64_t *pool, size_t capacity, size_t *free_count, uint64_t first_page,
                      uint64_t last_page);

/*
 * Frees what x64_clean_up frees, except for tables that an entry of the root names: these stay,
 * empty or not. So the root's entries stay, and other roots may have the same entries.
 *
 * Condition: the pool fits the hierarchy (x64_pool_fits).
 *
 * Returns X64_OK; X64_BAD_ARRAY if *free_count > capacity; X64_BAD_PAGE for either page.
 */
X64_NODISCARD
uint32_t x64_clean_up_below_root(const x64_hierarchy *hierarchy, x64_table *tables,
                                 size_t table_count, uint64_t *pool, size_t capacity,
                                 size_t *free_count, uint64_t first_page, uint64_t last_page);

/*
 * Takes all pages of a range away, those that x64_list_range would write, and then frees the empty
 * tables of the range, as x64_clean_up does. It tells no page: it is for who knows their frames by
 * other means, as for the end of a process. It passes over the range twice, and a missing table is
 * passed over by one look: so its time is that of the tables of the range, 512 entries each. Before
 * a frame of one of the pages or of the pool is used, flush everything, global pages too.
 *
 * As x64_take_range, it reads a word and then writes it: a mark that a processor sets in between is
 * lost.
 *
 * Condition: the pool fits the hierarchy (x64_pool_fits).
 *
 * Returns X64_OK if all pages of the range are gone; then *next isn't written. Or one of these; the
 * last two change nothing:
 *   X64_PARENT_ENTRY_HUGE_PAGE   if a page of 2 MiB or 1 GiB is only partly in the range: all pages
 *                                before it are gone, it and those behind it stay, the empty tables
 *                                of the range are freed, and *next is the first address of the
 *                                range in it. Split it and go on there, or begin at its start
 *   X64_BAD_ARRAY                if *free_count > capacity
 *   X64_BAD_PAGE                 if `first` or `last` isn't a canonical multiple of 4 KiB
 */
X64_NODISCARD
uint32_t x64_drop(const x64_hierarchy *hierarchy, x64_table *tables, size_t table_count,
                  uint64_t *pool, size_t capacity, size_t *free_count, uint64_t first,
                  uint64_t last, uint64_t *next);

/*
 * Makes one more address space. The last free frame of the pool becomes its root: it gets the
 * template's entries from shared_from up to, but not including, shared_to, and all its other words
 * become 0. Its physical address is written to *root, and *free_count decreases by one. If the
 * template fits together with other spaces that share these entries, the new one does so, too.
 *
 * Condition: the pool fits the template (x64_pool_fits or x64_spaces_fit).
 *
 * Returns X64_OK or one of these; then nothing has changed:
 *   X64_FRAME_ALLOCATION_FAILED  if the pool is empty
 *   X64_BAD_ARRAY                if *free_count > capacity
 *   X64_BAD_INDICES
 */
X64_NODISCARD
uint32_t x64_new_space(const x64_hierarchy *template_space, x64_table *tables, size_t table_count,
                       uint64_t *pool, size_t capacity, size_t *free_count, uint64_t shared_from,
                       uint64_t shared_to, uint64_t *root);

/*
 * Gives up an address space: all words of its root become 0, and the root's frame goes to the top
 * of the pool: *free_count increases by one. Entries from shared_from up to, but not including,
 * shared_to don't count: what is below them stays for the other spaces. All other entries must be
 * 0, as after x64_unmap of all pages there and x64_clean_up of that range. If the space fits
 * together with others that share these entries, they still do so, and no frame is lost.
 *
 * Condition: the pool fits the hierarchy, with room for the root, too (x64_spaces_fit). Room for as
 * many frames as there are tables in the array is always enough, and so is what the pool had when
 * x64_new_space took the root. No processor uses the root any more.
 *
 * Returns X64_OK or one of these; then nothing has changed:
 *   X64_SPACE_IN_USE             if an entry that isn't shared isn't 0, whether it has X64_PRESENT
 *                                or not
 *   X64_BAD_ROOT                 also if the root is frame 0, which is never free
 *   X64_BAD_ARRAY                if *free_count > capacity
 *   X64_BAD_INDICES
 */
X64_NODISCARD
uint32_t x64_give_up_space(const x64_hierarchy *hierarchy, x64_table *tables, size_t table_count,
                           uint64_t *pool, size_t capacity, size_t *free_count,
                           uint64_t shared_from, uint64_t shared_to);

/*
 * THE INLINE FUNCTIONS
 *
 * Helpers first, which programs may use, too. The rest is what the calls on spaces do, with no more
 * to know for callers.
 */

/* Returns the level of the entries that map pages of a size: 1, 2 or 3, or 0 if no pages have this
 * size. */
static inline uint64_t x64_level_of(uint64_t size) {
    return size == X64_SIZE_4KIB ? 1 : size == X64_SIZE_2MIB ? 2 : size == X64_SIZE_1GIB ? 3 : 0;
}

/* Returns how many bytes an entry of a level from 1 to 5 stands for. */
static inline uint64_t x64_span_of(uint64_t level) { return UINT64_C(1) << (3 + 9 * level); }

/* Returns whether an address is canonical with 4 or 5 levels. */
static inline bool x64_is_canonical(uint64_t levels, uint64_t address) {
    uint64_t top = address >> (11 + 9 * levels);
    return top == 0 || top == UINT64_MAX >> (11 + 9 * levels);
}

/* Returns the hierarchy of a space, for raw calls. */
static inline x64_hierarchy x64_space_hierarchy(const x64_space *space) {
    x64_hierarchy hierarchy;
    hierarchy.first = space->first;
    hierarchy.root = space->root;
    hierarchy.levels = space->levels;
    hierarchy.segments = space->segments;
    hierarchy.segment_count = space->segment_count;
    return hierarchy;
}

/* Returns whether the segments of a hierarchy are in order. */
static inline bool x64_has_segments_in_order(const x64_hierarchy *hierarchy) {
    for (size_t k = 0; k < hierarchy->segment_count; k++) {
        const x64_segment *it = &hierarchy->segments[k];
        if (it->count > UINT64_MAX - it->first || it->count > UINT64_MAX - it->place)
            return false;
        for (size_t j = 0; j < k; j++) {
            const x64_segment *other = &hierarchy->segments[j];
            if (other->first + other->count > it->first ||
                (other->place + other->count > it->place && it->place + it->count > other->place))
                return false;
        }
    }
    return true;
}

/* Returns the index of the table that a frame has, or one that is outside of every array. */
static inline uint64_t x64_place_of(const x64_hierarchy *hierarchy, uint64_t frame) {
    const uint64_t number = frame / 4096;
    if (hierarchy->segment_count == 0)
        return number - hierarchy->first;
    for (size_t k = 0; k < hierarchy->segment_count; k++) {
        const x64_segment *it = &hierarchy->segments[k];
        if (number - it->first < it->count)
            return it->place + (number - it->first);
    }
    return UINT64_MAX;
}

/* The same, of a space. */
static inline uint64_t x64_space_place_of(const x64_space *space, uint64_t frame) {
    const x64_hierarchy hierarchy = x64_space_hierarchy(space);
    return x64_place_of(&hierarchy, frame);
}

/* Returns the page of a size that starts at an address. */
static inline x64_page x64_page_of(uint64_t start, uint64_t size) {
    x64_page page;
    page.start = start;
    page.size = size;
    return page;
}

/* Returns the request of x64_space_map, whose parent flags the caller may change. */
static inline x64_map_request x64_map_request_of(uint64_t page, uint64_t size, uint64_t frame,
                                                 uint64_t flags) {
    x64_map_request request;
    request.page = x64_page_of(page, size);
    request.frame = frame;
    request.flags = flags;
    request.parent_flags =
        (flags & (X64_PRESENT | X64_WRITABLE | X64_USER_ACCESSIBLE)) | X64_ACCESSED;
    return request;
}

/* Returns the index of an address in the root. */
static inline uint64_t x64_space_index(const x64_space *space, uint64_t address) {
    return address >> (3 + 9 * space->levels) & 511;
}

/* Returns whether the entry of the root at an index is shared. */
static inline bool x64_space_shares_index(const x64_space *space, uint64_t index) {
    return space->shared_from <= index && index < space->shared_to;
}

static inline bool x64_space_shares(const x64_space *space, uint64_t address) {
    return x64_space_shares_index(space, x64_space_index(space, address));
}

/* Returns whether a space's number of levels and its root are right. */
static inline bool x64_space_has_root(const x64_space *space) {
    return (space->levels == 4 || space->levels == 5) && space->root % 4096 == 0 &&
           space->root < UINT64_C(1) << 52 &&
           x64_space_place_of(space, space->root) < space->table_count;
}

/* Returns whether a space's root can be read, and these pages exist: at least one, of a size that
 * pages have, all in one half of the address space. */
static inline bool x64_space_has_pages(const x64_space *space, const x64_page *first,
                                       uint64_t count) {
    if (!x64_space_has_root(space) || x64_level_of(first->size) == 0 ||
        first->start % first->size != 0 || !x64_is_canonical(space->levels, first->start))
        return false;
    uint64_t half = UINT64_C(1) << (11 + 9 * space->levels);
    return 0 < count && count <= (half - (first->start & (half - 1))) / first->size;
}

/* Returns where the root's entry above an address stands, if it is shared. Otherwise, and if the
 * root is wrong, returns null. */
static inline uint64_t *x64_space_shared_word(const x64_space *space, uint64_t address) {
    return x64_space_has_root(space) && x64_space_shares(space, address)
               ? &space->tables[x64_space_place_of(space, space->root)]
                      .words[x64_space_index(space, address)]
               : NULL;
}

/* Returns whether a map of pages, if they exist, might change a shared entry: whether one above
 * them is 0, or lacks a parent flag. */
static inline bool x64_space_forbids_map(const x64_space *space, const x64_page *first,
                                         uint64_t count, uint64_t parent_flags) {
    if (!x64_space_has_pages(space, first, count))
        return false;
    uint64_t last = x64_space_index(space, first->start + (count - 1) * first->size);
    for (uint64_t index = x64_space_index(space, first->start); index <= last; index++) {
        const uint64_t *word = x64_space_shared_word(space, x64_space_first_page(space, index));
        if (word != NULL && (*word == 0 || (parent_flags & ~*word) != 0))
            return true;
    }
    return false;
}

/* Returns whether one of the pages of 4 KiB from one to another, if both exist, is below a shared
 * entry. */
static inline bool x64_space_shares_pages(const x64_space *space, uint64_t first_page,
                                          uint64_t last_page) {
    const x64_page first = x64_page_of(first_page, X64_SIZE_4KIB),
                   last = x64_page_of(last_page, X64_SIZE_4KIB);
    return x64_space_has_pages(space, &first, 1) && x64_space_has_pages(space, &last, 1) &&
           first_page <= last_page && space->shared_from < space->shared_to &&
           x64_space_index(space, first_page) < space->shared_to &&
           space->shared_from <= x64_space_index(space, last_page);
}

/* Returns whether a call on the entry of a page at a level might change a shared entry. */
static inline bool x64_space_forbids_level(const x64_space *space, const x64_page *page,
                                           uint64_t level) {
    return level == space->levels && x64_space_has_pages(space, page, 1) &&
           x64_space_shares(space, page->start);
}

static inline uint64_t x64_space_first_page(const x64_space *space, uint64_t index) {
    uint64_t start = index << (3 + 9 * space->levels);
    return index < 256 ? start : start | UINT64_MAX << (11 + 9 * space->levels);
}

static inline uint64_t x64_space_last_page(const x64_space *space, uint64_t index) {
    return x64_space_first_page(space, index) + (x64_span_of(space->levels) - X64_SIZE_4KIB);
}

static inline uint32_t x64_space_fits(const x64_space *space, const x64_pool *pool, bool *marks,
                                      size_t mark_count) {
    return x64_space_all_fit(space, &space->root, 1, pool, marks, mark_count);
}

static inline uint32_t x64_space_all_fit(const x64_space *space, const uint64_t *roots,
                                         size_t root_count, const x64_pool *pool, bool *marks,
                                         size_t mark_count) {
    x64_hierarchy hierarchy = x64_space_hierarchy(space);
    return x64_spaces_fit_in(&hierarchy, space->tables, space->table_count, roots, root_count,
                             space->shared_from, space->shared_to, pool->frames, pool->capacity,
                             pool->free_count, marks, mark_count);
}

static inline uint32_t x64_space_is_valid(const x64_space *space, bool *marks, size_t mark_count) {
    x64_hierarchy hierarchy = x64_space_hierarchy(space);
    return x64_is_valid(&hierarchy, space->tables, space->table_count, marks, mark_count);
}

static inline uint32_t x64_space_walk(const x64_space *space, uint64_t address,
                                      x64_walk_result *walked) {
    x64_hierarchy hierarchy = x64_space_hierarchy(space);
    return x64_walk(&hierarchy, space->tables, space->table_count, address, walked);
}

static inline uint32_t x64_space_page_walk(const x64_space *space, uint64_t address,
                                           x64_walked *walked) {
    x64_hierarchy hierarchy = x64_space_hierarchy(space);
    return x64_page_walk(&hierarchy, space->tables, space->table_count, address, walked);
}

static inline uint32_t x64_space_entries(const x64_space *space, uint64_t address,
                                         x64_entry *entries, size_t capacity, size_t *count) {
    x64_hierarchy hierarchy = x64_space_hierarchy(space);
    return x64_entries(&hierarchy, space->tables, space->table_count, address, entries, capacity,
                       count);
}

static inline uint32_t x64_space_translate(const x64_space *space, uint64_t address,
                                           x64_translation *translation) {
    x64_hierarchy hierarchy = x64_space_hierarchy(space);
    return x64_translate(&hierarchy, space->tables, space->table_count, address, translation);
}

static inline uint32_t x64_space_mappings(const x64_space *space, uint64_t from,
                                          x64_mapping *mappings, size_t capacity, size_t *count,
                                          uint64_t *next) {
    x64_hierarchy hierarchy = x64_space_hierarchy(space);
    return x64_mappings(&hierarchy, space->tables, space->table_count, from, mappings, capacity,
                        count, next);
}

static inline uint32_t x64_space_list_range(const x64_space *space, uint64_t first, uint64_t last,
                                            x64_taken *pages, size_t capacity, size_t *count,
                                            uint64_t *next) {
    x64_hierarchy hierarchy = x64_space_hierarchy(space);
    return x64_list_range(&hierarchy, space->tables, space->table_count, first, last, pages,
                          capacity, count, next);
}

static inline uint32_t x64_space_map(const x64_space *space, x64_pool *pool, uint64_t page,
                                     uint64_t size, uint64_t frame, uint64_t flags) {
    x64_map_request request = x64_map_request_of(page, size, frame, flags);
    return x64_space_map_with(space, pool, &request);
}

static inline uint32_t x64_space_map_with(const x64_space *space, x64_pool *pool,
                                          const x64_map_request *request) {
    x64_hierarchy hierarchy = x64_space_hierarchy(space);
    if (x64_space_forbids_map(space, &request->page, 1, request->parent_flags))
        return X64_SHARED_ENTRY;
    return x64_map(&hierarchy, space->tables, space->table_count, pool->frames, pool->capacity,
                   &pool->free_count, request);
}

static inline uint32_t x64_space_prepare(const x64_space *space, x64_pool *pool, uint64_t page,
                                         uint64_t size, uint64_t parent_flags) {
    x64_hierarchy hierarchy = x64_space_hierarchy(space);
    x64_page prepared = x64_page_of(page, size);
    if (x64_space_forbids_map(space, &prepared, 1, parent_flags))
        return X64_SHARED_ENTRY;
    return x64_prepare(&hierarchy, space->tables, space->table_count, pool->frames, pool->capacity,
                       &pool->free_count, &prepared, parent_flags);
}

static inline uint32_t x64_space_map_list(const x64_space *space, x64_pool *pool, uint64_t page,
                                          uint64_t size, const uint64_t *frames, size_t count,
                                          uint64_t flags, size_t *done) {
    for (*done = 0; *done < count; ++*done, page += size) {
        if (*done > 0 && page == 0)
            return X64_BAD_PAGE;
        uint32_t status = x64_space_map(space, pool, page, size, frames[*done], flags);
        if (status != X64_OK)
            return status;
    }
    return X64_OK;
}

static inline uint32_t x64_space_map_range(const x64_space *space, x64_pool *pool,
                                           uint64_t first_page, uint64_t size, uint64_t count,
                                           uint64_t first_frame, uint64_t flags, uint64_t *done) {
    x64_map_request request = x64_map_request_of(first_page, size, first_frame, flags);
    return x64_space_map_range_with(space, pool, &request, count, done);
}

static inline uint32_t x64_space_map_range_with(const x64_space *space, x64_pool *pool,
                                                const x64_map_request *request, uint64_t count,
                                                uint64_t *done) {
    x64_hierarchy hierarchy = x64_space_hierarchy(space);
    if (x64_space_forbids_map(space, &request->page, count, request->parent_flags))
        return X64_SHARED_ENTRY;
    return x64_map_range(&hierarchy, space->tables, space->table_count, pool->frames,
                         pool->capacity, &pool->free_count, request, count, done);
}

static inline uint32_t x64_space_unmap(const x64_space *space, uint64_t page, uint64_t size,
                                       uint64_t *frame) {
    x64_hierarchy hierarchy = x64_space_hierarchy(space);
    x64_page unmapped = x64_page_of(page, size);
    return x64_unmap(&hierarchy, space->tables, space->table_count, &unmapped, frame);
}

static inline uint32_t x64_space_unmap_range(const x64_space *space, uint64_t first_page,
                                             uint64_t size, uint64_t count, uint64_t *frames,
                                             size_t capacity, size_t *frame_count, uint64_t *done) {
    x64_hierarchy hierarchy = x64_space_hierarchy(space);
    x64_page first = x64_page_of(first_page, size);
    return x64_unmap_range(&hierarchy, space->tables, space->table_count, &first, count, frames,
                           capacity, frame_count, done);
}

static inline uint32_t x64_space_update_flags(const x64_space *space, uint64_t page, uint64_t size,
                                              uint64_t flags) {
    x64_hierarchy hierarchy = x64_space_hierarchy(space);
    x64_page changed = x64_page_of(page, size);
    return x64_update_flags(&hierarchy, space->tables, space->table_count, &changed, flags);
}

static inline uint32_t x64_space_update_flags_range(const x64_space *space, uint64_t first_page,
                                                    uint64_t size, uint64_t count, uint64_t flags,
                                                    uint64_t *changed) {
    x64_hierarchy hierarchy = x64_space_hierarchy(space);
    x64_page first = x64_page_of(first_page, size);
    return x64_update_flags_range(&hierarchy, space->tables, space->table_count, &first, count,
                                  flags, changed);
}

static inline uint32_t x64_space_take_range(const x64_space *space, uint64_t first, uint64_t last,
                                            x64_taken *pages, size_t capacity, size_t *count,
                                            uint64_t *next) {
    x64_hierarchy hierarchy = x64_space_hierarchy(space);
    return x64_take_range(&hierarchy, space->tables, space->table_count, first, last, pages,
                          capacity, count, next);
}

static inline uint32_t x64_space_change_range(const x64_space *space, uint64_t first, uint64_t last,
                                              uint64_t keep, uint64_t set, x64_taken *pages,
                                              size_t capacity, size_t *count, uint64_t *next) {
    x64_hierarchy hierarchy = x64_space_hierarchy(space);
    return x64_change_range(&hierarchy, space->tables, space->table_count, first, last, keep, set,
                            pages, capacity, count, next);
}

static inline uint32_t x64_space_clean_up(const x64_space *space, x64_pool *pool,
                                          uint64_t first_page, uint64_t last_page) {
    x64_hierarchy hierarchy = x64_space_hierarchy(space);
    if (x64_space_shares_pages(space, first_page, last_page))
        return X64_SHARED_ENTRY;
    return x64_clean_up(&hierarchy, space->tables, space->table_count, pool->frames, pool->capacity,
                        &pool->free_count, first_page, last_page);
}

static inline uint32_t x64_space_clean_up_below_root(const x64_space *space, x64_pool *pool,
                                                     uint64_t first_page, uint64_t last_page) {
    x64_hierarchy hierarchy = x64_space_hierarchy(space);
    return x64_clean_up_below_root(&hierarchy, space->tables, space->table_count, pool->frames,
                                   pool->capacity, &pool->free_count, first_page, last_page);
}

static inline uint32_t x64_space_drop(const x64_space *space, x64_pool *pool, uint64_t first,
                                      uint64_t last, uint64_t *next) {
    x64_hierarchy hierarchy = x64_space_hierarchy(space);
    if (x64_space_shares_pages(space, first, last))
        return X64_SHARED_ENTRY;
    return x64_drop(&hierarchy, space->tables, space->table_count, pool->frames, pool->capacity,
                    &pool->free_count, first, last, next);
}

static inline uint32_t x64_space_set_table_flags(const x64_space *space, uint64_t page,
                                                 uint64_t size, uint64_t level, uint64_t flags) {
    x64_hierarchy hierarchy = x64_space_hierarchy(space);
    x64_page below = x64_page_of(page, size);
    if (x64_space_forbids_level(space, &below, level))
        return X64_SHARED_ENTRY;
    return x64_set_table_flags(&hierarchy, space->tables, space->table_count, &below, level, flags);
}

static inline uint32_t x64_space_new(const x64_space *space, x64_pool *pool, x64_space *other) {
    x64_hierarchy hierarchy = x64_space_hierarchy(space);
    x64_space made = *space;
    uint32_t status = x64_new_space(&hierarchy, space->tables, space->table_count, pool->frames,
                                    pool->capacity, &pool->free_count, space->shared_from,
                                    space->shared_to, &made.root);
    if (status == X64_OK)
        *other = made;
    return status;
}

static inline uint32_t x64_space_give_up(const x64_space *space, x64_pool *pool) {
    x64_hierarchy hierarchy = x64_space_hierarchy(space);
    return x64_give_up_space(&hierarchy, space->tables, space->table_count, pool->frames,
                             pool->capacity, &pool->free_count, space->shared_from,
                             space->shared_to);
}

static inline uint32_t x64_space_access(const x64_space *space, const x64_controls *controls,
                                        const x64_access_request *request, x64_outcome *outcome) {
    x64_hierarchy hierarchy = x64_space_hierarchy(space);
    const uint64_t *word = x64_space_shared_word(space, request->address);
    if (request->mark && word != NULL && !(*word & X64_ACCESSED)) {
        x64_access_request asked = *request;
        x64_outcome seen;
        asked.mark = false;
        if (x64_access(&hierarchy, space->tables, space->table_count, controls, &asked, &seen) ==
            X64_OK)
            return X64_SHARED_ENTRY;
    }
    return x64_access(&hierarchy, space->tables, space->table_count, controls, request, outcome);
}

#ifdef __cplusplus
}
#endif

#endif
