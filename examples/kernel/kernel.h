/* The memory of a small kernel: demand paging with superpages, over the pool of frames. */
#ifndef KERNEL_H
#define KERNEL_H

#include "machine.h"

/* Beside the pool's own count of preempted reservations. */
typedef struct { uint64_t faults, promotions[SIZES], demotions[SIZES], evictions, written, preempted; } kernel_counts;

/* False: there is too little memory for the pool. */
bool kernel_start(bool with_superpages);
void kernel_stop(void);

/* Maps pages that no region has: they are zero. False: one of them has a region, or no table is left. */
bool kernel_map(uint32_t space, uint32_t first, uint32_t end);

/* Unmaps a region, by its first page. */
void kernel_unmap(uint32_t space, uint32_t first);

/* Sets whether pages of one region may be stored to. */
void kernel_protect(uint32_t space, uint32_t first, uint32_t end, bool may_store);

/* The word, as the processor reaches it; NULL: the access is a violation. */
uint64_t *kernel_access(uint32_t space, uint32_t page, uint32_t word, bool is_store);

/* Whether the TLB agrees with the page tables, for a test. */
bool kernel_tlb_agrees(void);

kernel_counts kernel_counted(void);
#endif
