/* A made workload over the kernel, with superpages and without. Each load is compared with a flat array.
 *
 *     kernel [--base-pages] [SEED]
 *
 * By --base-pages it is made without superpages alone. SEED is 1 where it isn't given. */
#include <stddef.h>
#include <stdio.h>
#include <stdlib.h>
#include <string.h>
#include "kernel.h"

enum { SLOT = 2048, AREAS = SPACES * PAGES / SLOT, ROUNDS = 80, WORKS = 8 };

/* A part of a space, in which a region comes and goes; end is 0 while there is none. */
typedef struct { uint32_t space, first, end; } area;

typedef struct { uint64_t accesses, refused; kernel_counts kernel; tlb_counts tlb; } column;

static uint64_t shadow[SPACES][PAGES][WORDS], state;
static bool is_writable[SPACES][PAGES];
static area areas[AREAS];
static column counts;

static void fails(const char *what, uint32_t space, uint32_t page) {
    fprintf(stderr, "kernel: %s, at page %u of space %u\n", what, page, space);
    exit(1);
}

static uint32_t drawn(uint32_t below) {
    state = state * 6364136223846793005u + 1442695040888963407u;
    return (uint32_t)((state >> 33) % below);
}

static void load(uint32_t space, uint32_t page) {
    uint32_t word = drawn(WORDS);
    const uint64_t *at = kernel_access(space, page, word, false);
    counts.accesses++;
    if (!at || *at != shadow[space][page][word])
        fails("a load differs", space, page);
}

/* A store is refused exactly where the page is protected. */
static void store(uint32_t space, uint32_t page) {
    uint32_t word = drawn(WORDS);
    uint64_t *at = kernel_access(space, page, word, true);
    counts.accesses++;
    if (!at != !is_writable[space][page])
        fails("a store is refused or isn't", space, page);
    if (at)
        *at = shadow[space][page][word] = state;
    else
        counts.refused++;
}

/* Each page once, in order, as a program initialises or scans an array. */
static void sweep(const area *at, bool is_store) {
    for (uint32_t page = at->first; page < at->end; page++)
        (is_store ? store : load)(at->space, page);
}

static void map(area *at) {
    uint32_t first = at->first + drawn(64), end = first + 64 + drawn(SLOT - 700);
    if (!kernel_map(at->space, first, end))
        fails("a region isn't mapped", at->space, first);
    at->first = first;
    at->end = end;
    memset(shadow[at->space][first], 0, (end - first) * sizeof shadow[0][0]);
    memset(is_writable[at->space] + first, true, end - first);
    if (drawn(2) == 0)
        sweep(at, true);
}

static void unmap(area *at) {
    kernel_unmap(at->space, at->first);
    if (kernel_access(at->space, at->first, 0, false))
        fails("a page without a region is loaded", at->space, at->first);
    at->first -= at->first % SLOT;
    at->end = 0;
}

/* One part of three may be loaded alone, until another call says else of its pages. */
static void protect(const area *at) {
    uint32_t first = at->first + drawn(at->end - at->first), end = first + 1 + drawn(at->end - first);
    bool may_store = drawn(3) != 0;
    kernel_protect(at->space, first, end, may_store);
    memset(is_writable[at->space] + first, may_store, end - first);
}

/* Pages at random, as a program looks things up in a table. One access of eight is a store. */
static void look_up(const area *at) {
    for (uint32_t i = 0; i < 3000; i++) {
        bool is_store = drawn(8) == 0;
        (is_store ? store : load)(at->space, at->first + drawn(at->end - at->first));
    }
}

static void works(area *at) {
    switch (drawn(16)) {
    case 0: case 1: unmap(at); break;
    case 2: protect(at); break;
    case 3: case 4: sweep(at, true); break;
    case 5: case 6: sweep(at, false); break;
    default: look_up(at);
    }
}

/* The same calls, whatever pages the kernel uses. */
static column runs(uint64_t seed, bool with_superpages) {
    state = seed;
    counts = (column){0};
    machine_reset();
    if (!kernel_start(with_superpages))
        fails("the pool isn't open", 0, 0);
    for (uint32_t i = 0; i < AREAS; i++)
        areas[i] = (area){.space = i * SLOT / PAGES, .first = i * SLOT % PAGES};
    for (uint32_t round = 0; round < ROUNDS; round++) {
        area *at = &areas[drawn(AREAS)];
        for (uint32_t work = 0; work < WORKS; work++) {
            if (at->end == 0)
                map(at);
            else
                works(at);
            if (!kernel_tlb_agrees())
                fails("the TLB doesn't agree", at->space, at->first);
        }
    }
    counts.kernel = kernel_counted();
    counts.tlb = tlb_counted();
    kernel_stop();
    return counts;
}

typedef struct { const char *name; size_t at; } row;

static const row rows[] = {
    {"loads and stores", offsetof(column, accesses)},
    {"stores refused", offsetof(column, refused)},
    {"TLB hits", offsetof(column, tlb.hits)},
    {"TLB misses", offsetof(column, tlb.misses)},
    {"TLB entries flushed", offsetof(column, tlb.flushed)},
    {"faults", offsetof(column, kernel.faults)},
    {"promotions to 8 pages", offsetof(column, kernel.promotions[1])},
    {"promotions to 64 pages", offsetof(column, kernel.promotions[2])},
    {"promotions to 512 pages", offsetof(column, kernel.promotions[3])},
    {"demotions of 8 pages", offsetof(column, kernel.demotions[1])},
    {"demotions of 64 pages", offsetof(column, kernel.demotions[2])},
    {"demotions of 512 pages", offsetof(column, kernel.demotions[3])},
    {"evictions", offsetof(column, kernel.evictions)},
    {"pages written to disk", offsetof(column, kernel.written)},
    {"reservations preempted", offsetof(column, kernel.preempted)},
};

static void prints(const column *columns, int many) {
    for (const row *at = rows; at < rows + sizeof rows / sizeof rows[0]; at++) {
        printf("%-24s", at->name);
        for (const column *next = columns; next < columns + many; next++) {
            uint64_t count;
            memcpy(&count, (const char *)next + at->at, sizeof count);
            printf("%12llu", (unsigned long long)count);
        }
        printf("\n");
    }
}

int main(int argc, char **argv) {
    bool is_base_alone = argc > 1 && strcmp(argv[1], "--base-pages") == 0;
    uint64_t seed = argc > 1 + is_base_alone ? strtoull(argv[1 + is_base_alone], NULL, 10) : 1;
    column columns[] = {{0}, runs(seed, false)};
    if (is_base_alone) {
        printf("%36s\n", "base pages");
        prints(&columns[1], 1);
        return 0;
    }
    columns[0] = runs(seed, true);
    printf("%36s%12s\n", "superpages", "base pages");
    prints(columns, 2);
    printf("Superpages saved %.1f %% of the TLB misses.\n", 100.0 - 100.0 * (double)columns[0].tlb.misses / (double)columns[1].tlb.misses);
    return 0;
}
