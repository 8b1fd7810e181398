/* What the kernel runs on: frames, a disk and a TLB, all simulated. */
#ifndef MACHINE_H
#define MACHINE_H

#include <stdbool.h>
#include <stdint.h>

enum { FRAMES = 2048, WORDS = 512, SPACES = 2, PAGES = 4096, SIZES = 4, TLB_ENTRIES = 32 };

/* How many base pages a page of a size, 0 to 3, has: 1, 8, 64 or 512. */
#define PAGES_OF(size) (1u << 3 * (size))

/* What the TLB has of a page of some size: it maps aligned pages from `page` on to the frames from `frame` on. */
typedef struct { uint32_t space, page, frame, size; bool may_store, is_valid; } tlb_entry;

typedef struct { uint64_t hits, misses, flushed; } tlb_counts;

/* Physical memory: frame n is the n-th page of it. The first frame is one that the largest superpage may begin at. */
extern uint64_t memory[FRAMES][WORDS];

void machine_reset(void);
void disk_write(uint32_t space, uint32_t page, uint32_t frame);
void disk_read(uint32_t space, uint32_t page, uint32_t frame);
const tlb_entry *tlb_find(uint32_t space, uint32_t page);
const tlb_entry *tlb_fill(tlb_entry entry);
const tlb_entry *tlb_at(uint32_t number);
void tlb_flush(uint32_t space, uint32_t first, uint32_t end);
tlb_counts tlb_counted(void);
#endif
