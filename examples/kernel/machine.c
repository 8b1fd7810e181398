/* Frames, a disk and a TLB, all simulated. */
#include "machine.h"
#include <string.h>

_Alignas(4096) uint64_t memory[FRAMES][WORDS];
static uint64_t disk[SPACES][PAGES][WORDS];
static tlb_entry tlb[TLB_ENTRIES];
static uint32_t next;
static tlb_counts counts;

/* At power-on the contents of memory are anybody's guess: a kernel has to fill each frame before it maps it. */
void machine_reset(void) {
    memset(memory, 0xa5, sizeof memory);
    memset(tlb, 0, sizeof tlb);
    next = 0;
    counts = (tlb_counts){0};
}

void disk_write(uint32_t space, uint32_t page, uint32_t frame) {
    memcpy(disk[space][page], memory[frame], sizeof memory[frame]);
}

void disk_read(uint32_t space, uint32_t page, uint32_t frame) {
    memcpy(memory[frame], disk[space][page], sizeof memory[frame]);
}

/* Each entry is looked at, as in a fully associative TLB; NULL is a miss. */
const tlb_entry *tlb_find(uint32_t space, uint32_t page) {
    for (const tlb_entry *at = tlb; at < tlb + TLB_ENTRIES; at++)
        if (at->is_valid && at->space == space && page - at->page < PAGES_OF(at->size)) {
            counts.hits++;
            return at;
        }
    counts.misses++;
    return NULL;
}

const tlb_entry *tlb_at(uint32_t number) {
    return &tlb[number];
}

/* The entry that came first makes room. */
const tlb_entry *tlb_fill(tlb_entry entry) {
    tlb_entry *at = &tlb[next++ % TLB_ENTRIES];
    *at = entry;
    at->is_valid = true;
    return at;
}

/* Drops each entry that maps a page from first to before end, a superpage's too if one of its pages is among these. */
void tlb_flush(uint32_t space, uint32_t first, uint32_t end) {
    for (tlb_entry *at = tlb; at < tlb + TLB_ENTRIES; at++)
        if (at->is_valid && at->space == space && at->page < end && first < at->page + PAGES_OF(at->size)) {
            at->is_valid = false;
            counts.flushed++;
        }
}

tlb_counts tlb_counted(void) {
    return counts;
}
