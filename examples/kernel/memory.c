/* Memory: page tables, which the library makes and changes, and frames for pages. pages.c changes words of these tables. */
#include "kernel.h"

enum { FRAMES_AT = 0x800000, FRAMES_END = 0x1000000, MOST_SINGLE_FLUSHES = 32 };
uint32_t left_out = X64_FLUSH_NOTHING;
static uint64_t free_tables[TABLE_COUNT];
x64_pool pool = {free_tables, TABLE_COUNT, 0};
x64_space kernel_space;
uint8_t uses[FRAMES_END / X64_SIZE_4KIB]; /* how many pages each frame is mapped to */

void flush_everything(void) {
    uint64_t cr4, pge = 0x80; /* that CR4.PGE changes flushes everything, global pages too */
    __asm__ volatile("mov %%cr4, %0" : "=r"(cr4));
    __asm__ volatile("mov %0, %%cr4" : : "r"(cr4 & ~pge) : "memory");
    __asm__ volatile("mov %0, %%cr4" : : "r"(cr4 | pge) : "memory");
}

/* Flushes one of the X64_FLUSH_ kinds for some pages. For X64_FLUSH_TABLES the INVLPG of any page does. */
void flush(uint32_t due, const x64_page *first, uint64_t count) {
    if (due == X64_FLUSH_NOTHING || due == left_out)
        return;
    if (due == X64_FLUSH_EVERYTHING || count > MOST_SINGLE_FLUSHES)
        flush_everything();
    else
        for (uint64_t k = 0; k < count; k++)
            __asm__ volatile("invlpg (%0)" : : "r"(first->start + k * first->size) : "memory");
}

/* Flushes what x64_flush_after says of a call on some pages, before any other call, and returns its status. */
static uint32_t flushed(uint32_t call, uint64_t parent_flags, const x64_page *first, uint64_t count, uint32_t status) {
    flush(x64_flush_after(call, parent_flags, status), first, count);
    return status;
}

uint32_t map(const x64_space *space, const x64_map_request *request, uint64_t count) {
    uint64_t done;
    uint32_t status =
        count == 1 ? x64_space_map_with(space, &pool, request) : x64_space_map_range_with(space, &pool, request, count, &done);
    return flushed(X64_CALL_MAP, request->parent_flags, &request->page, count, status);
}

/* Unmaps pages, at most MOST_PAGES. */
uint32_t unmap(const x64_space *space, const x64_page *first, uint64_t count, uint64_t frames[MOST_PAGES], size_t *frame_count) {
    uint64_t done;
    *frame_count = 1;
    uint32_t status = count == 1 ? x64_space_unmap(space, first->start, first->size, frames)
                                 : x64_space_unmap_range(space, first->start, first->size, count, frames, MOST_PAGES, frame_count, &done);
    return flushed(X64_CALL_UNMAP, 0, first, count, status);
}

uint32_t update_flags(const x64_space *space, const x64_page *first, uint64_t count, uint64_t flags) {
    uint64_t changed;
    uint32_t status = count == 1 ? x64_space_update_flags(space, first->start, first->size, flags)
                                 : x64_space_update_flags_range(space, first->start, first->size, count, flags, &changed);
    return flushed(X64_CALL_UPDATE_FLAGS, 0, first, count, status);
}

uint32_t set_table_flags(const x64_space *space, const x64_page *page, uint64_t level, uint64_t flags) {
    return flushed(X64_CALL_SET_TABLE_FLAGS, 0, page, 1, x64_space_set_table_flags(space, page->start, page->size, level, flags));
}

uint32_t clean_up(const x64_space *space, uint64_t first, uint64_t last) {
    uint32_t status = x64_space_clean_up(space, &pool, first, last);
    return flushed(X64_CALL_CLEAN_UP, 0, &(x64_page){first, X64_SIZE_4KIB}, 1, status);
}

/* Loads CR3. This flushes all pages but global ones, which only the kernel has. */
void use_space(const x64_space *space) {
    __asm__ volatile("mov %0, %%cr3" : : "r"(space->root) : "memory");
}

x64_space new_space(void) {
    x64_space space;
    check("x64_space_new", x64_space_new(&kernel_space, &pool, &space));
    return space;
}

/* Tests whether a space fits together with that of the kernel. */
void check_fit(const x64_space *space, size_t count) {
    static bool marks[TABLE_COUNT];
    uint64_t roots[] = {kernel_space.root, space->root};
    check("x64_space_all_fit", x64_space_all_fit(space, roots, count, &pool, marks, TABLE_COUNT));
}

/* Gives up a space in which nothing is mapped any more, and which the processor doesn't use. */
void give_up_space(const x64_space *space) {
    check_fit(space, 2);
    check("x64_space_clean_up", clean_up(space, 0, last_page()));
    check("x64_space_give_up", x64_space_give_up(space, &pool));
}

/* Maps the addresses from one up to another to those that are so much lower. Only the pages' own entries take rights away. */
static void map_kernel(const uint8_t *from, const uint8_t *to, uint64_t size, uint64_t base, uint64_t flags) {
    x64_map_request request = {{(uint64_t)from, size}, (uint64_t)from - base, X64_PRESENT | X64_GLOBAL | flags,
                               X64_PRESENT | X64_WRITABLE | X64_USER_ACCESSIBLE | X64_ACCESSED};
    check("x64_space_map_range_with", map(&kernel_space, &request, (uint64_t)(to - from) / size));
}

/* Makes the kernel's own tables, in place of those of boot.S. When all is mapped, the entries of the root's upper half are shared: with
 * X64_ACCESSED, they stay as they are from then on. */
void make_kernel_space(uint64_t memory_size, uint64_t levels) {
    extern const uint8_t text_start[], constants_start[], data_start[], data_end[];
    for (; pool.free_count < TABLE_COUNT - 1; pool.free_count++)
        free_tables[pool.free_count] = TABLES_AT + pool.free_count * sizeof(x64_table);
    const uint64_t root = TABLES_AT + pool.free_count * sizeof(x64_table);
    kernel_space = (x64_space){tables, TABLE_COUNT, TABLES_AT / sizeof(x64_table), root, levels, 0, 0, NULL, 0};
    memset(&tables[pool.free_count], 0, sizeof(x64_table));
    map_kernel((uint8_t *)DIRECT, (uint8_t *)DIRECT + memory_size, X64_SIZE_2MIB, DIRECT, X64_WRITABLE | X64_NO_EXECUTE);
    map_kernel(text_start, constants_start, X64_SIZE_4KIB, KERNEL, 0);
    map_kernel(constants_start, data_start, X64_SIZE_4KIB, KERNEL, X64_NO_EXECUTE);
    map_kernel(data_start, data_end, X64_SIZE_4KIB, KERNEL, X64_WRITABLE | X64_NO_EXECUTE);
    kernel_space.shared_from = SHARED_FROM;
    kernel_space.shared_to = SHARED_TO;
    check_fit(&kernel_space, 1);
    use_space(&kernel_space);
    flush_everything(); /* CR4.PGE is on from now on */
    print("kernel: %lu MiB of memory, %lu levels; %lu tables are free\n", memory_size >> 20, levels, (uint64_t)pool.free_count);
}

/* Takes frames that follow each other, for one page each, and clears them. */
uint64_t take_frames(uint64_t count) {
    uint64_t first = FRAMES_AT, size = count * X64_SIZE_4KIB;
    for (uint64_t frame = first; frame < first + size && first + size <= FRAMES_END; frame += X64_SIZE_4KIB)
        if (uses[frame / X64_SIZE_4KIB] > 0)
            first = frame + X64_SIZE_4KIB;
    check("take_frames", first + size <= FRAMES_END ? X64_OK : X64_FRAME_ALLOCATION_FAILED);
    memset(&uses[first / X64_SIZE_4KIB], 1, count);
    memset((void *)(DIRECT + first), 0, size);
    return first;
}
