/*
 * The memory of a small kernel and of two processes, as it begins: the kernel's space, whose upper half all spaces share, a pool for each
 * of two processors, and a space for each process. It prints each step, and what is refused.
 */
#include <inttypes.h>
#include <stdio.h>
#include <stdlib.h>

#include "x86_64_paging.h"

/* All spaces share the upper half. The tables are the frames from FIRST on: a kernel has a pointer to them. */
enum { TABLES = 32, FIRST = 0x100, SHARED_FROM = 256, SHARED_TO = 512, PAGES = 3 };

#define KERNEL UINT64_C(0xffff800000000000)
#define HEAP UINT64_C(0x10000000)
#define USER (X64_PRESENT | X64_WRITABLE | X64_USER_ACCESSIBLE | X64_NO_EXECUTE)

static x64_table tables[TABLES];
static uint64_t frames[2][TABLES];
/* one for each processor; each has room for all tables */
static x64_pool pools[2] = {{frames[0], TABLES, 0}, {frames[1], TABLES, 0}};

/* Prints a step with its status, and ends the program if another status is wanted. */
static void step(const char *what, uint32_t status, uint32_t wanted) {
    printf("%s: %s; %zu and %zu tables are free\n", what, x64_status_name(status), pools[0].free_count, pools[1].free_count);
    if (status != wanted)
        exit(EXIT_FAILURE);
}

/* Makes the kernel's space. While its shared indices are empty, nothing is refused: so it gets a table below each entry that will be shared,
 * with all rights that a page there will ever need. Afterwards its fields stay as they are. */
static x64_space make_kernel(void) {
    x64_space kernel = {.tables = tables, .table_count = TABLES, .first = FIRST, .root = FIRST * 4096, .levels = 4};
    x64_map_request request = {
        .page = {.start = KERNEL, .size = X64_SIZE_2MIB},
        .frame = 0,
        .flags = X64_PRESENT | X64_WRITABLE | X64_GLOBAL,
        .parent_flags = X64_PRESENT | X64_WRITABLE | X64_ACCESSED,
    };
    step("the kernel's memory", x64_space_map_with(&kernel, &pools[0], &request), X64_OK);
    kernel.shared_from = SHARED_FROM;
    kernel.shared_to = SHARED_TO;
    return kernel;
}

/* Takes all away that a process has, and gives up its space. No processor uses it any more, and each has flushed what it cached. */
static void end_process(const x64_space *process) {
    uint64_t unmapped[PAGES], done;
    size_t count;
    step("its pages", x64_space_unmap_range(process, HEAP, X64_SIZE_4KIB, PAGES, unmapped, PAGES, &count, &done), X64_OK);
    step("its tables", x64_space_clean_up(process, &pools[1], 0, x64_space_last_page(process, SHARED_FROM - 1)), X64_OK);
    step("its root", x64_space_give_up(process, &pools[1]), X64_OK);
}

int main(void) {
    const uint64_t heap[PAGES] = {0x7000000, 0x9000000, 0x8000000};
    x64_space first, second;
    x64_walk_result walked;
    bool marks[TABLES];
    size_t done;
    for (uint64_t number = FIRST + 1; number < FIRST + TABLES; number++) {
        x64_pool *pool = &pools[number % 2];
        pool->frames[pool->free_count++] = number * 4096;
    }
    const x64_space kernel = make_kernel();
    step("the kernel's space", x64_space_fits(&kernel, &pools[0], marks, TABLES), X64_OK);

    step("a process", x64_space_new(&kernel, &pools[0], &first), X64_OK);
    step("another one", x64_space_new(&kernel, &pools[1], &second), X64_OK);
    step("its heap", x64_space_map_list(&second, &pools[1], HEAP, X64_SIZE_4KIB, heap, PAGES, USER, &done), X64_OK);
    step("the same again", x64_space_map(&second, &pools[1], HEAP, X64_SIZE_4KIB, 0x7000000, USER), X64_PAGE_ALREADY_MAPPED);

    /* what one space maps below a shared entry, all see */
    uint64_t page = KERNEL + X64_SIZE_2MIB;
    step("a kernel's page", x64_space_map(&first, &pools[0], page, X64_SIZE_2MIB, 0x200000, X64_PRESENT | X64_WRITABLE), X64_OK);
    step("seen by the other", x64_space_walk(&second, page, &walked), X64_OK);

    /* no call changes a shared entry: users get no page here, nothing is mapped below an empty entry, and no table here is freed */
    page = KERNEL + 2 * X64_SIZE_2MIB;
    step("a user's page there", x64_space_map(&first, &pools[0], page, X64_SIZE_4KIB, 0x7000000, USER), X64_SHARED_ENTRY);
    page = x64_space_first_page(&first, 300);
    step("an empty entry", x64_space_map(&first, &pools[0], page, X64_SIZE_4KIB, 0x7000000, X64_PRESENT), X64_SHARED_ENTRY);
    step("all tables", x64_space_clean_up(&first, &pools[0], 0, x64_space_last_page(&first, 511)), X64_SHARED_ENTRY);

    end_process(&second);
    const uint64_t roots[] = {kernel.root, first.root};
    step("the rest fits", x64_space_all_fit(&kernel, roots, 2, &pools[1], marks, TABLES), X64_OK);
    return EXIT_SUCCESS;
}
