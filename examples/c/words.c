/*
 * Exchanges words of pages while a processor uses them, as kernels do for swap, PROT_NONE, copy on write, and to learn which pages were
 * written to. It prints each step. A processor is imitated by x64_space_access_live, which marks words as one
 * does.
 */
#include <inttypes.h>
#include <stdio.h>
#include <stdlib.h>

#include "x86_64_paging_live.h"

enum { TABLES = 4, FORBIDDEN = 0x200, BUSY = 0x400 };

#define SIZE X64_SIZE_4KIB
#define PAGE UINT64_C(0x1000)

/* the frames 0x1000 to 0x4000, of which 0x1000 is the root */
static x64_table tables[TABLES];
static uint64_t frames[TABLES] = {0x4000, 0x3000, 0x2000};
static x64_space process = {tables, TABLES, 1, 0x1000, 4, 0, 0, NULL, 0};
static x64_pool pool = {frames, TABLES, 3};

/* Ends the program if a call returned another status than X64_OK. */
static void check(const char *call, uint32_t status) {
    if (status != X64_OK) {
        fprintf(stderr, "%s: %s\n", call, x64_status_name(status));
        exit(EXIT_FAILURE);
    }
}

/* Here a kernel executes INVLPG of the page on each processor that uses the space, if this is due. */
static void flush(uint64_t page, uint64_t old, uint64_t word) {
    bool is_due = x64_flush_between(1, old, word) == X64_FLUSH_PAGE;
    printf("0x%" PRIx64 ": 0x%" PRIx64 " becomes 0x%" PRIx64 ", %s\n", page, old, word, is_due ? "flushed" : "no flush");
}

/* Swap: the word becomes the number of a place. Returns the old one: its frame may be written to the place now, if it has X64_DIRTY. */
static uint64_t swap_out(const x64_space *space, uint64_t page, uint64_t place) {
    uint64_t old;
    check("swap_out", x64_space_exchange_page(space, page, SIZE, place * SIZE, &old));
    flush(page, old, place * SIZE);
    return old;
}

/* The fault handler has read the place into a frame, which this word names. Returns whether nobody was faster. */
static bool swap_in(const x64_space *space, uint64_t page, uint64_t place, uint64_t word) {
    x64_entry entry;
    check("swap_in", x64_space_find_page(space, page, SIZE, &entry));
    return entry.word == place * SIZE && x64_space_compare_exchange_entry(space, &entry, word) == X64_OK;
}

/* PROT_NONE: the word stays, but for X64_PRESENT. */
static void forbid(const x64_space *space, uint64_t page) {
    uint64_t old;
    check("forbid", x64_space_change_page(space, page, SIZE, ~X64_PRESENT, FORBIDDEN, &old));
    flush(page, old, (old & ~X64_PRESENT) | FORBIDDEN);
}

/* And back. Returns whether nobody was faster. */
static bool allow(const x64_space *space, uint64_t page) {
    x64_entry entry;
    check("allow", x64_space_find_page(space, page, SIZE, &entry));
    const uint64_t word = (entry.word & ~(uint64_t)FORBIDDEN) | X64_PRESENT;
    return (entry.word & FORBIDDEN) && x64_space_compare_exchange_entry(space, &entry, word) == X64_OK;
}

/* Copy on write, of a page that is present: no processor reads the old frame any more when one may write to the new one. Returns whether
 * nobody was faster, and nothing changed the word meanwhile. Otherwise the access is made again. */
static bool copy_on_write(const x64_space *space, uint64_t page, uint64_t frame) {
    x64_entry entry;
    check("copy_on_write", x64_space_find_page(space, page, SIZE, &entry));
    uint64_t old = entry.word, busy;
    if (!(old & X64_PRESENT) || x64_space_compare_exchange_entry(space, &entry, BUSY) != X64_OK)
        return false;
    flush(page, old, BUSY); /* now the old frame is copied; who faults finds BUSY, and waits */
    check("copy_on_write", x64_space_exchange_entry(space, &entry, (old & ~X64_ADDRESS) | frame | X64_WRITABLE, &busy));
    return true;
}

/* Returns whether a page was written to since the last time. A later write sets X64_DIRTY again, once the page is flushed. */
static bool was_written(const x64_space *space, uint64_t page) {
    uint64_t old;
    check("was_written", x64_space_change_page(space, page, SIZE, ~X64_DIRTY, 0, &old));
    flush(page, old, old & ~X64_DIRTY);
    return old & X64_DIRTY;
}

/* Lets a processor read or write, and prints what comes of it. */
static void use(uint32_t kind) {
    const x64_controls controls = {true, true, false, false, false, 52, false, false}; /* CR0.WP and EFER.NXE are on */
    const x64_access_request request = {PAGE, kind, true, true};
    x64_arrival arrival;
    uint32_t status = x64_space_access_live(&process, &controls, &request, &arrival);
    const char *name = kind == X64_WRITE ? "write" : "read";
    if (status == X64_OK)
        printf("%s: arrives at 0x%" PRIx64 "\n", name, arrival.outcome.address);
    else if (status == X64_PAGE_FAULT)
        printf("%s: page fault, code 0x%" PRIx64 "\n", name, arrival.outcome.code);
}

int main(void) {
    check("x64_space_map", x64_space_map(&process, &pool, PAGE, SIZE, 0x5000, X64_PRESENT | X64_WRITABLE | X64_USER_ACCESSIBLE));
    use(X64_WRITE);
    printf("written: %d\n", was_written(&process, PAGE));
    use(X64_READ);
    printf("written: %d\n", was_written(&process, PAGE));
    forbid(&process, PAGE);
    use(X64_READ);
    printf("allowed again: %d\n", allow(&process, PAGE));
    use(X64_READ);
    uint64_t word = swap_out(&process, PAGE, 7);
    use(X64_WRITE);
    printf("swapped in, read-only: %d\n", swap_in(&process, PAGE, 7, (word & ~(X64_ADDRESS | X64_WRITABLE)) | 0x6000));
    use(X64_WRITE);
    printf("copied: %d\n", copy_on_write(&process, PAGE, 0x8000));
    use(X64_WRITE);
    return EXIT_SUCCESS;
}
