/* Words of pages: those that the processor uses are exchanged, each by one locked instruction, and those without X64_PRESENT are the kernel's.
 * They hold the number of a place on a disk. */
#include "kernel.h"

/* The flag of a page that is on the disk, whose address is that of a place there. Place 0 isn't used, and the disk is memory. */
enum { ON_DISK = 0x200, PLACES = 16 };
static uint8_t disk[PLACES][X64_SIZE_4KIB], disk_uses[PLACES];

/* Returns the word of a page's own entry, or 0 if there is none. */
uint64_t word_of(const x64_space *space, const x64_page *page) {
    x64_entry entry;
    return x64_space_find_page(space, page->start, page->size, &entry) == X64_OK ? entry.word : 0;
}

/* Puts another word in the place of a page's, if there is one, and flushes. */
uint32_t exchange_page(const x64_space *space, const x64_page *page, uint64_t word, uint64_t *old) {
    uint32_t status = x64_space_exchange_page(space, page->start, page->size, word, old);
    if (status == X64_OK)
        flush(x64_flush_between(x64_level_of(page->size), *old, word), page, 1);
    return status;
}

/* Changes the word of a page that is present by masks, and flushes. */
uint32_t change_page(const x64_space *space, const x64_page *page, uint64_t keep, uint64_t set, uint64_t *old) {
    uint32_t status = x64_space_change_page(space, page->start, page->size, keep, set, old);
    if (status == X64_OK)
        flush(x64_flush_between(x64_level_of(page->size), *old, (*old & keep) | set), page, 1);
    return status;
}

/* Returns how many pages have the frame, or the place on the disk, that a word names. */
static uint8_t *uses_of(uint64_t word) {
    return &(word & X64_PRESENT ? uses : disk_uses)[(word & X64_ADDRESS) / X64_SIZE_4KIB];
}

void add_use(uint64_t word) {
    ++*uses_of(word);
}

void drop_use(uint64_t word) {
    --*uses_of(word);
}

/* Writes a page to the disk, if there is a place and no other page has its frame, and frees the frame. Its word keeps the rights. The frame
 * is read after the flush, since nobody writes to it any more then. */
void swap_out(const x64_space *space, const x64_page *page) {
    uint64_t word = word_of(space, page), old, place = 1;
    while (place < PLACES && disk_uses[place] > 0)
        place++;
    if (!(word & X64_PRESENT) || *uses_of(word) != 1 || place == PLACES)
        return;
    word = (word & ~(X64_ADDRESS | X64_PRESENT | X64_ACCESSED | X64_DIRTY)) | place * X64_SIZE_4KIB | ON_DISK;
    check("x64_space_exchange_page", exchange_page(space, page, word, &old));
    memcpy(disk[place], (void *)(DIRECT + (old & X64_ADDRESS)), X64_SIZE_4KIB);
    add_use(word);
    drop_use(old);
    print("kernel: page 0x%lx goes to the disk, %s\n", page->start, old & X64_DIRTY ? "dirty" : "clean");
}

/* Brings a page back from the disk. Nothing is flushed, since its entry lacked X64_PRESENT. */
void bring_in(const x64_space *space, const x64_page *page) {
    uint64_t word = word_of(space, page), old, frame = take_frames(1);
    memcpy((void *)(DIRECT + frame), disk[(word & X64_ADDRESS) / X64_SIZE_4KIB], X64_SIZE_4KIB);
    check("x64_space_exchange_page", exchange_page(space, page, (word & ~(X64_ADDRESS | ON_DISK)) | frame | X64_PRESENT, &old));
    drop_use(old);
}

/* Takes away the pages from an address up to another, at most MOST_PAGES, and lets go of what they have. Returns how many. */
size_t take_pages(const x64_space *space, uint64_t start, uint64_t end) {
    static x64_taken taken[MOST_PAGES];
    uint64_t next;
    size_t count = 0;
    uint32_t due = X64_FLUSH_NOTHING;
    check("x64_space_take_range_live", x64_space_take_range_live(space, start, end - X64_SIZE_4KIB, taken, MOST_PAGES, &count, &next));
    for (size_t k = 0; k < count; k++) {
        uint32_t more = x64_flush_between(1, taken[k].word, 0);
        due = due < more ? more : due;
    }
    flush(due, &(x64_page){start, X64_SIZE_4KIB}, (end - start) / X64_SIZE_4KIB);
    for (size_t k = 0; k < count; k++)
        drop_use(taken[k].word);
    return count;
}
