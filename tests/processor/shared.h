/*
 * What the bare program and the program that judges it share: where things lie in the machine's memory, and how accesses and what came
 * of them are passed on.
 */
#ifndef SHARED_H
#define SHARED_H

/* The numbers of levels, of batches and so on (struct input), and then the accesses. */
#define INPUT 0x400000

/* The page that code at privilege level 3 runs in, of 2 MiB. */
#define USER_PAGE 0xe00000

/* The tables that a batch of accesses walks. The root is the first. */
#define TABLES 0x1000000
#define TABLES_PER_BATCH 24

/* The tables of all batches, as they are handed in. */
#define HANDED_IN 0x2000000

/*
 * Memory that accesses may reach: DATA_SIZE bytes from DATA on, and as many 1 GiB higher. The eight bytes at each multiple of eight say
 * where they lie, and are code that puts this into a register and then breaks: mov $(address / 8), %eax; int3; nop; nop.
 */
#define DATA 0x4000000
#define DATA_SIZE 0x1000000
#define HIGHER 0x40000000

/* The vector of the interrupt with which code ends that could read or write. */
#define ARRIVED 0x81

/* The bits of struct access.controls: those of the processor's settings that are on, and who makes the access. */
#define WRITE_PROTECT 1
#define NO_EXECUTE 2
#define SMEP 4
#define SMAP 8
#define AC 16
#define USER 32

#ifndef __ASSEMBLER__
#include <stdint.h>

enum { READ, WRITE, FETCH };

struct input {
    uint64_t levels;
    uint64_t batches;
    uint64_t accesses_per_batch;
};

struct access {
    uint64_t address;
    uint32_t kind;
    uint32_t controls;
};

/* A word that changed: its table's number times 512, plus its index. */
struct change {
    uint64_t place;
    uint64_t word;
};

#define MOST_CHANGES 5

/* What came of an access. More changes than there is room for are counted, too. */
struct outcome {
    uint64_t vector;  /* of the exception or interrupt that ended it */
    uint64_t code;    /* of a page fault */
    uint64_t address; /* of a page fault: CR2. Else where it arrived, or 1 if that isn't where it should have left its mark */
    uint64_t change_count;
    struct change changes[MOST_CHANGES];
};
#endif

#endif
