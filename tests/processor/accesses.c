/*
 * Makes tables and accesses for the bare program, and compares what came of these with what the library says.
 *
 *     accesses make LEVELS BITS SEED BATCHES ACCESSES INPUT TABLES
 *     accesses compare LEVELS BITS SEED BATCHES ACCESSES OUTCOMES [MISTAKE]
 *
 * `make` writes two files, which the bare program finds in its memory. `compare` makes the same accesses by x64_access, and reads what the
 * bare program told. BITS is the number of bits of the processor's physical addresses. For each batch there are other tables.
 *
 * Tables are random: entries of all kinds that a processor knows, present or not, with reserved bits and without. A table may be named
 * more than once. But each names only tables of the level below it, and pages lie in memory that is set apart, so that no access changes
 * a table and no walk leaves them.
 *
 * A MISTAKE is made on purpose, to see that it is found: `smap` lets it be off, `dirty` marks each write as a read, `present` leaves bit 0
 * out of the error codes that have bit 3.
 */
#include <inttypes.h>
#include <stdio.h>
#include <stdlib.h>
#include <string.h>

#include "shared.h"
#include "x86_64_paging.h"

enum { WORDS = TABLES_PER_BATCH * 512 };

static uint64_t levels, bits, batches, accesses_per_batch;
static x64_table tables[TABLES_PER_BATCH];
static const x64_hierarchy *hierarchy;

static void fail(const char *why, const char *what) {
    fprintf(stderr, "accesses: %s%s\n", why, what);
    exit(2);
}

/* ---- numbers by a fixed rule: xorshift64* */

static uint64_t state;

static uint64_t next_number(void) {
    state ^= state >> 12;
    state ^= state << 25;
    state ^= state >> 27;
    return state * UINT64_C(0x2545f4914f6cdd1d);
}

static uint64_t below(uint64_t limit) {
    return (next_number() >> 33) % limit;
}

static bool once_in(uint64_t times) {
    return below(times) == 0;
}

/* ---- tables */

/* The tables of a level are those from first_table[level] up to, but not, first_table[level - 1]. The root is alone. */
static const uint64_t first_table[] = {TABLES_PER_BATCH, 16, 10, 5, 1, 0};

/* The indices that addresses have. At level two they keep a page of 1 GiB in the memory that is set apart. */
static const uint64_t indices[6][6] = {
    {0}, {0, 1, 5, 63, 510, 511}, {32, 33, 35, 37, 38, 39}, {0, 1, 2, 3, 510, 511}, {1, 2, 255, 256, 510, 511}, {1, 2, 255, 256, 510, 511},
};

static uint64_t page_size(uint64_t level) {
    return UINT64_C(1) << (3 + 9 * level);
}

/* Returns the address of a page of a level, in the memory that is set apart or, for 1 GiB, around it. */
static uint64_t some_frame(uint64_t level) {
    uint64_t start = once_in(2) ? HIGHER : 0;
    return level == 3 ? start : start + DATA + below(DATA_SIZE / page_size(level)) * page_size(level);
}

static uint64_t some_table(uint64_t level) {
    uint64_t number = first_table[level] + below(first_table[level - 1] - first_table[level]);
    return TABLES + number * sizeof(x64_table);
}

/* Returns bits that are reserved in an entry of a level that maps a page or not, or 0. */
static uint64_t reserved_bits(uint64_t level, bool is_page) {
    uint64_t some = 0;
    if (bits < 52 && once_in(24))
        some |= UINT64_C(1) << (bits + below(52 - bits));
    if (level >= 4 && once_in(24))
        some |= X64_HUGE_PAGE;
    if (is_page && level > 1 && once_in(12))
        some |= UINT64_C(1) << (13 + below(9 * level - 10));
    return some;
}

/* Returns an entry of a level. Most grant most rights. */
static uint64_t some_entry(uint64_t level) {
    if (once_in(24))
        return next_number() & ~X64_PRESENT;
    bool is_page = level == 1 || (level <= 3 && once_in(4));
    uint64_t entry = is_page ? some_frame(level) : some_table(level - 1);
    entry |= X64_PRESENT | reserved_bits(level, is_page);
    entry |= is_page && level > 1 ? X64_HUGE_PAGE : 0;
    entry |= once_in(6) ? 0 : X64_WRITABLE;
    entry |= once_in(5) ? 0 : X64_USER_ACCESSIBLE;
    entry |= once_in(12) ? X64_NO_EXECUTE : 0;
    /* Accessed, dirty, caching, global, bits that the processor ignores, and PAT. */
    entry |= next_number() & (UINT64_C(0x7f0000000000f78) & ~(level == 1 ? 0 : UINT64_C(0x80)));
    return is_page && once_in(4) ? entry | (level == 1 ? 0x80 : 0x1000) : entry;
}

static void make_tables(void) {
    memset(tables, 0, sizeof tables);
    for (uint64_t level = levels; level > 0; level--)
        for (uint64_t number = first_table[level == levels ? 5 : level]; number < (level == levels ? 1 : first_table[level - 1]); number++)
            for (unsigned k = 0; k < 6; k++)
                tables[number].words[indices[level][k]] = some_entry(level);
}

/* ---- accesses */

static uint64_t some_address(void) {
    uint64_t position = 0;
    for (uint64_t level = levels; level > 0; level--)
        position = position * 512 + indices[level][below(6)];
    position = position * 4096 + below(512) * 8;
    unsigned highest = (unsigned)(11 + 9 * levels);
    return position >> highest != 0 ? position | UINT64_MAX << highest : position;
}

static struct access some_access(void) {
    return (struct access){.address = some_address(), .kind = (uint32_t)below(3), .controls = (uint32_t)below(64)};
}

static void write_files(const char *input_name, const char *tables_name) {
    FILE *input = fopen(input_name, "wb"), *image = fopen(tables_name, "wb");
    if (!input || !image)
        fail("can't write ", input ? tables_name : input_name);
    struct input head = {levels, batches, accesses_per_batch};
    fwrite(&head, sizeof head, 1, input);
    for (uint64_t batch = 0; batch < batches; batch++) {
        make_tables();
        fwrite(tables, sizeof tables, 1, image);
        for (uint64_t k = 0; k < accesses_per_batch; k++) {
            struct access access = some_access();
            fwrite(&access, sizeof access, 1, input);
        }
    }
    if (fclose(input) || fclose(image))
        fail("can't write ", input_name);
}

/* ---- comparison */

static const char *mistake = "";
static uint64_t arrivals[3], faults[32], differences, marks, marks_on_the_way, codes_without_present;

/* The bits of error codes that an entry was present, and had a reserved bit. */
enum { PROTECTION_VIOLATION = 1, MALFORMED_TABLE = 8 };

/* Makes an access by the library. */
static uint32_t make_access(const struct access *access, x64_outcome *outcome) {
    x64_controls controls = {
        .write_protect = access->controls & WRITE_PROTECT,
        .no_execute = access->controls & NO_EXECUTE,
        .smep = access->controls & SMEP,
        .smap = (access->controls & SMAP) && strcmp(mistake, "smap") != 0,
        .ac = access->controls & AC,
        .physical_bits = (uint8_t)bits,
    };
    x64_access_request request = {
        .address = access->address,
        .kind = access->kind == READ ? X64_READ : access->kind == WRITE ? X64_WRITE : X64_FETCH,
        .user = access->controls & USER,
        .mark = true,
    };
    if (request.kind == X64_WRITE && strcmp(mistake, "dirty") == 0)
        request.kind = X64_READ;
    uint32_t status = x64_access(hierarchy, tables, TABLES_PER_BATCH, &controls, &request, outcome);
    if (outcome->code & MALFORMED_TABLE && strcmp(mistake, "present") == 0)
        outcome->code &= ~(uint64_t)PROTECTION_VIOLATION;
    return status;
}

/*
 * Whether the library's error code is right, and the processor's the same. The manuals say that bit 0 stands beside bit 3. QEMU leaves it
 * out there, which is counted.
 */
static bool same_codes(uint64_t told, uint64_t code) {
    if ((code & MALFORMED_TABLE) == 0)
        return told == code;
    codes_without_present += (told & PROTECTION_VIOLATION) == 0;
    return (code & PROTECTION_VIOLATION) && (told | PROTECTION_VIOLATION) == code;
}

/* Whether the processor did what the library says. */
static bool agree(const struct access *access, const struct outcome *told, uint32_t status, const x64_outcome *outcome) {
    if (status == X64_OK)
        return told->vector == (access->kind == FETCH ? 3 : ARRIVED) && told->address == outcome->address;
    return status == X64_PAGE_FAULT && told->vector == 14 && same_codes(told->code, outcome->code) && told->address == access->address;
}

/* The words as the processor left them so far. */
static uint64_t left[WORDS];

/*
 * Whether the processor changed the words that the library did. As the manuals allow, an access that faults may set ACCESSED in present
 * entries on its way: these are counted, and the library's tables get them, too.
 */
static bool same_changes(const struct outcome *told, bool arrives) {
    uint64_t *words = tables[0].words;
    if (told->change_count > MOST_CHANGES)
        return false;
    for (uint64_t k = 0; k < told->change_count; k++) {
        struct change change = told->changes[k];
        if (change.place >= WORDS)
            return false;
        if (arrives)
            marks++;
        else if ((left[change.place] & X64_PRESENT) && change.word == (left[change.place] | X64_ACCESSED)) {
            marks_on_the_way++;
            words[change.place] |= X64_ACCESSED;
        }
        left[change.place] = change.word;
    }
    return memcmp(left, words, sizeof left) == 0;
}

static void show(const struct access *access, const struct outcome *told, uint32_t status, const x64_outcome *outcome) {
    printf("a difference: address %#" PRIx64 ", kind %" PRIu32 ", controls %#" PRIx32 ": the processor ends with vector %#" PRIx64
           ", code %#" PRIx64 ", address %#" PRIx64 ", %" PRIu64 " words changed; the library says status %" PRIu32 ", address %#" PRIx64
           ", code %#" PRIx64 "\n",
           access->address, access->kind, access->controls, told->vector, told->code, told->address, told->change_count, status,
           outcome->address, outcome->code);
}

static void compare_access(const struct access *access, const struct outcome *told) {
    x64_outcome outcome = {0};
    uint32_t status = make_access(access, &outcome);
    bool is_same = agree(access, told, status, &outcome);
    is_same &= same_changes(told, status == X64_OK);
    if (status == X64_OK)
        arrivals[access->kind]++;
    else
        faults[outcome.code & 31]++;
    if (is_same)
        return;
    if (differences++ < 5)
        show(access, told, status, &outcome);
    memcpy(tables, left, sizeof left);
}

static void compare_all(const char *name) {
    FILE *outcomes = fopen(name, "rb");
    if (!outcomes)
        fail("can't read ", name);
    for (uint64_t batch = 0; batch < batches; batch++) {
        make_tables();
        memcpy(left, tables, sizeof left);
        for (uint64_t k = 0; k < accesses_per_batch; k++) {
            struct access access = some_access();
            struct outcome told;
            if (fread(&told, sizeof told, 1, outcomes) != 1)
                fail("the bare program told too little: ", name);
            compare_access(&access, &told);
        }
    }
    if (fgetc(outcomes) != EOF)
        fail("the bare program told too much: ", name);
    fclose(outcomes);
}

static int report(void) {
    printf("%" PRIu64 " levels, %" PRIu64 " bits: %" PRIu64 " accesses; %" PRIu64 " reads, %" PRIu64 " writes, %" PRIu64
           " fetches arrive, the others fault with",
           levels, bits, batches * accesses_per_batch, arrivals[READ], arrivals[WRITE], arrivals[FETCH]);
    for (unsigned code = 0; code < 32; code++)
        if (faults[code] > 0)
            printf(" %#x: %" PRIu64, code, faults[code]);
    printf("; %" PRIu64 " marks, and %" PRIu64 " on the way to a fault; %" PRIu64 " codes of reserved bits without present; %" PRIu64
           " differences\n",
           marks, marks_on_the_way, codes_without_present, differences);
    return differences > 0;
}

/* Reads a number from low to high. */
static uint64_t number(const char *text, uint64_t low, uint64_t high) {
    char *end;
    uint64_t value = strtoull(text, &end, 10);
    if (*text == 0 || *end != 0 || value < low || value > high)
        fail("not a number in its range: ", text);
    return value;
}

int main(int count, char **words) {
    bool makes = count == 9 && strcmp(words[1], "make") == 0;
    bool compares = (count == 8 || count == 9) && strcmp(words[1], "compare") == 0;
    if (!makes && !compares)
        fail("see the comment at the top of ", __FILE__);
    levels = number(words[2], 4, 5);
    bits = number(words[3], 32, 52);
    state = (number(words[4], 1, UINT32_MAX) * 8 + levels) * 64 + bits;
    state *= UINT64_C(0x9e3779b97f4a7c15);
    batches = number(words[5], 1, 300);
    accesses_per_batch = number(words[6], 1, 2000);
    x64_hierarchy where = {.first = TABLES / 4096, .root = TABLES, .levels = levels};
    hierarchy = &where;
    if (makes) {
        write_files(words[7], words[8]);
        return 0;
    }
    mistake = count == 9 ? words[8] : "";
    compare_all(words[7]);
    return report();
}
