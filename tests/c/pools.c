/*
 * Lets several processors, which are threads here, make calls at the same time: each on a space of its own, with a pool of its own, and
 * with a lock for calls below shared entries. Each looks whether its pages are as it left them. At the end all spaces have to fit together
 * with each pool, and no frame may be lost. It is C and C++.
 *
 *     pools CALLS     how many calls each thread makes, with 4 levels and with 5
 */
#include <inttypes.h>
#include <pthread.h>
#include <stdio.h>
#include <stdlib.h>
#include <string.h>

#include "x86_64_paging.h"

enum { THREADS = 4, TABLES = 640, FIRST = 0x100, PAGES = 64, KERNEL_PAGES = 16, FROM = 256, TO = 512 };

#define USUAL (X64_PRESENT | X64_WRITABLE)

/* A processor with its space and its pool, and where its pages are mapped to, or 0. */
struct processor {
    x64_space space;
    x64_pool pool;
    uint64_t frames[TABLES], pages[PAGES], state;
    size_t number, calls, done, failed, refused;
};

static x64_table tables[TABLES];
static bool marks[TABLES];
static struct processor processors[THREADS];
static uint64_t kernel_pages[THREADS][KERNEL_PAGES];
static pthread_mutex_t shared_lock = PTHREAD_MUTEX_INITIALIZER;

static uint64_t below(struct processor *self, uint64_t limit) {
    self->state ^= self->state >> 12;
    self->state ^= self->state << 25;
    self->state ^= self->state >> 27;
    return (self->state * UINT64_C(0x2545f4914f6cdd1d) >> 32) % limit;
}

/* Returns the address of a page of the lower half. Each two have a table for themselves, and each eight one of the level above. */
static uint64_t page_at(const struct processor *self, uint64_t n) {
    return x64_space_first_page(&self->space, n / 32) + (n / 8 % 4 << 30) + (n / 2 % 4 << 21) + (n % 2 << 12);
}

/* Returns the address of a page below a shared entry, which one processor maps, in a table where others map theirs. */
static uint64_t kernel_page_at(const struct processor *self, uint64_t n) {
    return x64_space_first_page(&self->space, FROM) + (1 << 30) + (n / 4 << 21) + ((self->number * 4 + n % 4) << 12);
}

static void check(struct processor *self, bool is_good) {
    self->failed += !is_good;
}

/* Maps a page, unmaps it, or looks where it is. */
static void use_page(struct processor *self, uint64_t page, uint64_t *word) {
    uint64_t frame = (1 + below(self, 1 << 20)) * 4096, old = 0;
    x64_walk_result walked;
    if (*word == 0) {
        uint32_t status = x64_space_map(&self->space, &self->pool, page, X64_SIZE_4KIB, frame, USUAL);
        check(self, status == X64_OK || (status == X64_FRAME_ALLOCATION_FAILED && self->pool.free_count < self->space.levels));
        self->refused += status != X64_OK;
        *word = status == X64_OK ? frame : 0;
    } else if (below(self, 2)) {
        check(self, x64_space_unmap(&self->space, page, X64_SIZE_4KIB, &old) == X64_OK && old == *word);
        *word = 0;
    }
    uint32_t status = x64_space_walk(&self->space, page + 8, &walked);
    check(self, *word == 0 ? status == X64_NOT_MAPPED : status == X64_OK && walked.address == *word + 8);
}

/* Maps several pages by a list, where there are none, and takes them away by a range. */
static void use_list(struct processor *self) {
    const uint64_t page = x64_space_first_page(&self->space, 40), frames[] = {0x7000, 0x5000, 0x9000};
    uint64_t unmapped[3], range_done;
    size_t done, count;
    uint32_t status = x64_space_map_list(&self->space, &self->pool, page, X64_SIZE_4KIB, frames, 3, USUAL, &done);
    check(self, status == X64_OK ? done == 3 : status == X64_FRAME_ALLOCATION_FAILED && done == 0);
    check(self, x64_space_unmap_range(&self->space, page, X64_SIZE_4KIB, 3, unmapped, 3, &count, &range_done) == X64_OK && count == done);
    check(self, done == 0 || memcmp(unmapped, frames, sizeof frames) == 0);
}

static void *run(void *argument) {
    struct processor *self = (struct processor *)argument;
    for (self->done = 0; self->done < self->calls; self->done++) {
        uint64_t choice = below(self, 16), n = below(self, PAGES);
        if (choice == 0) {
            check(self, x64_space_clean_up(&self->space, &self->pool, 0, x64_space_last_page(&self->space, FROM - 1)) == X64_OK);
        } else if (choice == 1) {
            use_list(self);
        } else if (choice == 2) {
            n %= KERNEL_PAGES;
            pthread_mutex_lock(&shared_lock);
            use_page(self, kernel_page_at(self, n), &kernel_pages[self->number][n]);
            pthread_mutex_unlock(&shared_lock);
        } else if (choice == 3) {
            x64_space other;
            uint32_t status = x64_space_new(&self->space, &self->pool, &other);
            check(self, status == (self->pool.free_count == 0 && status != X64_OK ? X64_FRAME_ALLOCATION_FAILED : X64_OK));
            check(self, status != X64_OK || x64_space_give_up(&other, &self->pool) == X64_OK);
        } else {
            use_page(self, page_at(self, n), &self->pages[n]);
        }
    }
    return NULL;
}

/* Makes a kernel's space, a space for each processor, and hands the free frames out: a few to each, so that some maps are refused. */
static void start(uint64_t levels, size_t calls) {
    x64_space kernel;
    uint64_t next = FIRST + 1;
    memset(tables, 0, sizeof tables);
    memset(&kernel, 0, sizeof kernel);
    memset(kernel_pages, 0, sizeof kernel_pages);
    memset(processors, 0, sizeof processors);
    kernel.tables = tables;
    kernel.table_count = TABLES;
    kernel.first = FIRST;
    kernel.root = FIRST * 4096;
    kernel.levels = levels;
    for (size_t n = 0; n < THREADS; n++) {
        struct processor *self = &processors[n];
        self->pool.frames = self->frames;
        self->pool.capacity = TABLES;
        for (uint64_t k = 0; k < 44; k++)
            self->frames[self->pool.free_count++] = next++ * 4096;
        self->number = n;
        self->calls = calls;
        self->state = n + 1;
    }
    x64_pool *pool = &processors[0].pool;
    if (x64_space_map(&kernel, pool, x64_space_first_page(&kernel, FROM), X64_SIZE_4KIB, 0, USUAL) != X64_OK)
        processors[0].failed++;
    kernel.shared_from = FROM;
    kernel.shared_to = TO;
    for (size_t n = 0; n < THREADS; n++)
        if (x64_space_new(&kernel, &processors[n].pool, &processors[n].space) != X64_OK)
            processors[n].failed++;
}

/* Counts a table and those below its first entries, or below all. */
static size_t count_tables(uint64_t frame, uint64_t level, uint64_t entries) {
    size_t count = 1;
    for (uint64_t k = 0; k < entries && level > 1; k++) {
        uint64_t word = tables[frame / 4096 - FIRST].words[k];
        if (word != 0 && !(word & X64_HUGE_PAGE))
            count += count_tables(word & UINT64_C(0xffffffffff000), level - 1, 512);
    }
    return count;
}

/* Returns how many faults there are in the end. */
static size_t finish(void) {
    uint64_t roots[THREADS];
    size_t faults = 0, frames = 0;
    for (size_t n = 0; n < THREADS; n++)
        roots[n] = processors[n].space.root;
    for (size_t n = 0; n < THREADS; n++) {
        struct processor *self = &processors[n];
        const x64_space *space = &self->space;
        faults += self->failed + (x64_space_all_fit(space, roots, THREADS, &self->pool, marks, TABLES) != X64_OK);
        for (uint64_t k = 0; k < KERNEL_PAGES; k++) {
            x64_walk_result walked; /* seen by another processor's space */
            uint32_t status = x64_space_walk(&processors[(n + 1) % THREADS].space, kernel_page_at(self, k), &walked);
            faults += kernel_pages[n][k] == 0 ? status != X64_NOT_MAPPED : status != X64_OK || walked.address != kernel_pages[n][k];
        }
        frames += self->pool.free_count + count_tables(space->root, space->levels, n == 0 ? TO : FROM); /* shared ones once */
    }
    return faults + (frames != THREADS * 44);
}

int main(int argc, char **argv) {
    const size_t calls = argc > 1 ? strtoull(argv[1], NULL, 0) : 200000;
    size_t faults = 0, refused = 0;
    for (uint64_t levels = 4; levels <= 5; levels++) {
        pthread_t threads[THREADS];
        start(levels, calls);
        for (size_t n = 0; n < THREADS; n++)
            if (pthread_create(&threads[n], NULL, run, &processors[n]) != 0)
                return EXIT_FAILURE;
        for (size_t n = 0; n < THREADS; n++)
            pthread_join(threads[n], NULL);
        faults += finish();
        for (size_t n = 0; n < THREADS; n++)
            refused += processors[n].refused;
    }
    printf("pools: %d threads with %zu calls each at the same time, %zu maps without a frame, %zu faults\n", THREADS, 2 * calls, refused, faults);
    return faults == 0 && (calls < 10000 || refused > 0) ? EXIT_SUCCESS : EXIT_FAILURE;
}
