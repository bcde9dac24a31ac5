/* The first mode: processes that get memory when they touch it, share it until they write, and end if they touch what isn't theirs. */
#include "kernel.h"

#define STACK_END 0x7ffffffff000
enum { AREA_COUNT = 3, MOST_PROCESSES = 4, PAGES_AT_START = 600, WAS_PRESENT = 1, WAS_WRITE = 2, WAS_FETCH = 16 };

struct process {
    struct registers registers;
    x64_space space;
    uint64_t number;
};

/* The addresses that a process may touch, and the flags of pages there. */
static const struct area { uint64_t start, end, flags; } areas[AREA_COUNT] = {
    {PROGRAM, PROGRAM + X64_SIZE_4KIB, X64_PRESENT | X64_USER_ACCESSIBLE},
    {HEAP, HEAP_END, X64_PRESENT | X64_USER_ACCESSIBLE | X64_WRITABLE | X64_NO_EXECUTE},
    {STACK_END - 0x10000, STACK_END, X64_PRESENT | X64_USER_ACCESSIBLE | X64_WRITABLE | X64_NO_EXECUTE},
};

/* Maps pages of a process. The entries above them get all rights: the pages' own take some away, and give them back later. */
static void map_pages(const struct process *process, uint64_t start, uint64_t frame, uint64_t count, uint64_t flags) {
    x64_map_request request = {{start, X64_SIZE_4KIB}, frame, flags, X64_PRESENT | X64_WRITABLE | X64_USER_ACCESSIBLE | X64_ACCESSED};
    check("x64_space_map_with", map(&process->space, &request, count));
}

/* Lets a process write to a page: to a copy of it, unless nobody shares the frame any more. One processor runs the process. Several would
 * have to take the page away and flush before they exchange frames. */
static const char *copy_on_write(const struct process *process, const x64_page *page) {
    uint64_t old, word = word_of(&process->space, page), shared = word & X64_ADDRESS;
    if (uses[shared / X64_SIZE_4KIB] == 1) {
        check("x64_space_change_page", change_page(&process->space, page, UINT64_MAX, X64_WRITABLE, &old));
        return "may be written to";
    }
    uint64_t frame = take_frames(1);
    memcpy((void *)(DIRECT + frame), (void *)(DIRECT + shared), X64_SIZE_4KIB);
    check("x64_space_exchange_page", exchange_page(&process->space, page, (word & ~X64_ADDRESS) | frame | X64_WRITABLE, &old));
    drop_use(old);
    return "is copied";
}

/* Handles a page fault. Returns what is done with the page, or null if the access isn't allowed. */
static const char *handle_fault(const struct process *process, uint64_t address, uint64_t code) {
    x64_page page = {address & ~(X64_SIZE_4KIB - 1), X64_SIZE_4KIB};
    const struct area *area = areas;
    while (address < area->start || address >= area->end)
        if (++area == areas + AREA_COUNT)
            return NULL;
    if (((code & WAS_WRITE) && !(area->flags & X64_WRITABLE)) || ((code & WAS_FETCH) && (area->flags & X64_NO_EXECUTE)))
        return NULL;
    if (code & WAS_PRESENT)
        return copy_on_write(process, &page);
    if (word_of(&process->space, &page) != 0) {
        bring_in(&process->space, &page);
        return "is brought back";
    }
    map_pages(process, page.start, take_frames(1), 1, area->flags);
    return "is mapped";
}

/* Lets a process share a page with another one. If it is in memory, neither may write to it any more. If it is on the disk, each brings it
 * back for itself. */
static void share_page(const struct process *process, const struct process *child, const x64_page *page) {
    uint64_t word = word_of(&process->space, page), old;
    if (word & X64_PRESENT) {
        check("x64_space_change_page", change_page(&process->space, page, ~X64_WRITABLE, 0, &old));
        word = old & ~X64_WRITABLE;
    }
    if (word != 0) {
        map_pages(child, page->start, word & X64_ADDRESS, 1, word & ~X64_ADDRESS);
        add_use(word);
    }
}

/* Makes a process that shares all pages with another one. */
static struct process fork(const struct process *process) {
    struct process child = {process->registers, new_space(), process->number + 1};
    for (const struct area *area = areas; area < areas + AREA_COUNT; area++)
        for (x64_page page = {area->start, X64_SIZE_4KIB}; page.start < area->end; page.start += page.size)
            share_page(process, &child, &page);
    child.registers.rax = 0;
    print("process %lu: makes process %lu; %lu tables are free\n", process->number, child.number, (uint64_t)pool.free_count);
    return child;
}

/* Runs a process until it exits or does what isn't allowed. A child runs to its end before its parent goes on. */
static void run_process(struct process *process) {
    struct registers *state = &process->registers;
    bool goes_on = true;
    use_space(&process->space);
    while (goes_on) {
        run(state);
        if (state->vector != SYSTEM_CALL) {
            const char *done = state->vector == PAGE_FAULT ? handle_fault(process, state->cr2, state->code) : NULL;
            print("process %lu: exception %lu, code 0x%lx, at 0x%lx: %s\n", process->number, state->vector, state->code, state->cr2,
                  done ? done : "not allowed");
            goes_on = done;
        } else if (state->rax == FORK && process->number < MOST_PROCESSES) {
            swap_out(&process->space, &(x64_page){HEAP_END - X64_SIZE_4KIB, X64_SIZE_4KIB});
            struct process child = fork(process);
            run_process(&child);
            use_space(&process->space);
            state->rax = child.number;
        } else {
            print("process %lu: %s %lu\n", process->number, state->rax == TELL ? "tells" : "exits with", state->rdi);
            goes_on = state->rax == TELL;
        }
    }
    use_space(&kernel_space);
    size_t unmapped = 0;
    for (const struct area *area = areas; area < areas + AREA_COUNT; area++)
        unmapped += take_pages(&process->space, area->start, area->end);
    give_up_space(&process->space);
    print("process %lu: has ended, %lu pages are unmapped; %lu tables are free\n", process->number, unmapped, (uint64_t)pool.free_count);
}

/* Makes the first process and runs it. */
void run_processes(void) {
    extern const uint8_t program_frame[];
    struct process first = {.space = new_space(), .number = 1};
    first.registers = (struct registers){.rip = (uint64_t)program, .cs = USER_CODE, .rsp = STACK_END - 8, .ss = USER_DATA};
    map_pages(&first, PROGRAM, (uint64_t)program_frame, 1, areas[0].flags);
    map_pages(&first, HEAP, take_frames(PAGES_AT_START), PAGES_AT_START, areas[1].flags);
    uses[(uint64_t)program_frame / X64_SIZE_4KIB]++;
    print("process 1: starts with %lu pages; %lu tables are free\n", (uint64_t)PAGES_AT_START + 1, (uint64_t)pool.free_count);
    run_process(&first);
}
