/* A whole reservation-based superpage pager, for C and C++: spaces with their regions and rights, pages with their frames, superpages, what each
 * processor's TLB would hold, and paging out, with the words of memory and the copies of pages kept too. Calls are made one by one, and each is
 * answered before the next.
 *
 * Each call answers a status. SUPERPAGER_MACHINE_DONE: the call was made, and `reply` and the other numbers say what it was answered. Any other
 * status: nothing was done, and each number beside it is 0. No number that is passed can do harm: each is tested, and the pager may be closed.
 *
 * What the caller has to keep, since nothing here can test it:
 *   1. `machine` points to a superpager_machine that began as all zeros, is written by these calls alone, and is never copied.
 *   2. The calls are made one at a time, and none in a signal handler.
 *   3. The memory is that of heap.c, over a malloc and a free that belong together; or that of heap_buffer.c; or such as these two.
 */
#ifndef SUPERPAGER_MACHINE_H
#define SUPERPAGER_MACHINE_H

#include <stdbool.h>
#include <stdint.h>

#ifdef __cplusplus
extern "C" {
#endif

/* A pager, open or closed. `superpager_machine machine = {0};` is closed. Its fields are the calls' own. */
typedef struct { void *at; bool is_open; } superpager_machine;

enum {
    SUPERPAGER_MACHINE_DONE = 0,
    SUPERPAGER_MACHINE_CLOSED = 1,    /* the pager is closed */
    SUPERPAGER_MACHINE_OPEN = 2,      /* the pager is open already */
    SUPERPAGER_MACHINE_NO_MEMORY = 3, /* there is too little memory; what the call took is given back */
    SUPERPAGER_MACHINE_RANGE = 4,     /* a number is out of its bounds */
    SUPERPAGER_MACHINE_COUNTED = 5    /* 4,294,967,295 calls were made, and no more can be */
};

/* The kinds of a region: of fixed length, growing, or of fixed length and never paged out. */
enum { SUPERPAGER_FIXED, SUPERPAGER_GROWING, SUPERPAGER_WIRED };

/* The rights of a page. */
enum { SUPERPAGER_NO_ACCESS, SUPERPAGER_READ, SUPERPAGER_WRITE };

/* What a call is answered, and which further numbers say more of it. */
enum {
    SUPERPAGER_REPLY_DONE,
    SUPERPAGER_REPLY_VALUE,        /* a load: `value` is the word */
    SUPERPAGER_REPLY_CLEAN,        /* the page was equal to its copy already */
    SUPERPAGER_REPLY_WRITTEN,      /* the page was written to its copy */
    SUPERPAGER_REPLY_UNMAPPED,     /* no region has the page, or the range isn't in one region */
    SUPERPAGER_REPLY_DENIED,       /* the page's rights, or its region's kind, don't allow the call */
    SUPERPAGER_REPLY_OVERLAP,      /* a region has one of the pages already */
    SUPERPAGER_REPLY_OUT_OF_SPACE, /* the range ends past the last page */
    SUPERPAGER_REPLY_NOT_GROWING,  /* the region doesn't grow */
    SUPERPAGER_REPLY_REGIONS_FULL, /* the space has 64 regions */
    SUPERPAGER_REPLY_NO_FRAMES,    /* no frame could be had: `wired`, `claimed` and `held` are all frames */
    SUPERPAGER_REPLY_STORE_FAULT,  /* the store of `space` failed, for the time `faults`. Those of this library never fail */
    SUPERPAGER_REPLY_NO_MEMORY,    /* there was no memory for the copy of a page */
    SUPERPAGER_REPLY_BUSY          /* the frame of `page` is claimed. It never is where calls are made one at a time */
};

/* `frames` is a multiple of 512 from 512 to 32,768, and there are 1 to 16 processors and spaces. Beside base pages of 8 KiB there are superpages of
 * 8, 64 and 512 of them, each where its field is not 0. */
typedef struct { uint32_t frames, processors, spaces, pages_8, pages_64, pages_512; } superpager_machine_setting;

/* What a call was answered, and what it did. */
typedef struct {
    uint64_t value, faults;
    uint64_t promotions, demotions; /* extents that became a translation, and translations that were broken */
    uint64_t preemptions;           /* takings of a frame that broke a reservation */
    uint64_t evictions;             /* pages that were paged out or evicted */
    uint32_t status, reply;
    uint32_t is_hit;           /* a load or a store that was served: 1 if the processor's TLB had the page's translation, else 0 */
    uint32_t pages;            /* and how many pages the translation has now: 1, 8, 64 or 512. Else 0 */
    uint32_t has_frame, frame; /* and 1, and the page's frame. Else 0 */
    uint32_t wired, claimed, held, space, page;
} superpager_told;

/* The counts of all calls so far, the translations by size and the frames by role as they are now. */
typedef struct {
    uint64_t promotions, demotions, preemptions, hits, misses;
    uint32_t status, calls, tiles_1, tiles_8, tiles_64, tiles_512, free, reserved, used;
} superpager_machine_counted;

/* Opens a pager whose spaces have no regions, and whose memory is all zero. OPEN, RANGE, NO_MEMORY. */
uint32_t superpager_machine_open(superpager_machine *machine, superpager_machine_setting setting);

/* Closes the pager, and gives its memory back. It may be opened again. CLOSED. */
uint32_t superpager_machine_close(superpager_machine *machine);

/* CLOSED. */
superpager_machine_counted superpager_machine_counts(superpager_machine *machine);

/* The calls of a processor on a space. Pages are 0 to 1,048,575, and a length is 1 to 1,048,576; an address is that of a word of 8 bytes, and a space
 * has 8 GiB. CLOSED, RANGE, COUNTED. */

/* Maps a region of `length` pages from `page` on. */
superpager_told superpager_machine_map(superpager_machine *machine, uint32_t processor, uint32_t space, uint32_t page, uint32_t length, uint32_t kind,
                                       uint32_t rights);
/* The region of the page grows by so many pages. */
superpager_told superpager_machine_grow(superpager_machine *machine, uint32_t processor, uint32_t space, uint32_t page, uint32_t by);
/* Unmaps the region of the page. */
superpager_told superpager_machine_unmap(superpager_machine *machine, uint32_t processor, uint32_t space, uint32_t page);
/* Gives `length` pages from `page` on these rights. */
superpager_told superpager_machine_protect(superpager_machine *machine, uint32_t processor, uint32_t space, uint32_t page, uint32_t length,
                                           uint32_t rights);
/* Loads a word. */
superpager_told superpager_machine_load(superpager_machine *machine, uint32_t processor, uint32_t space, uint64_t address);
/* Stores a word. */
superpager_told superpager_machine_store(superpager_machine *machine, uint32_t processor, uint32_t space, uint64_t address, uint64_t word);
/* Writes the page to its copy, where it isn't equal to it. */
superpager_told superpager_machine_sync(superpager_machine *machine, uint32_t processor, uint32_t space, uint32_t page);
/* The same, and the page gives its frame up. */
superpager_told superpager_machine_evict(superpager_machine *machine, uint32_t processor, uint32_t space, uint32_t page);
/* The words of `length` pages from `page` on are zero, and the pages give their frames up. */
superpager_told superpager_machine_discard(superpager_machine *machine, uint32_t processor, uint32_t space, uint32_t page, uint32_t length);
/* No page of the page's region is paged out until it is unwired. */
superpager_told superpager_machine_wire(superpager_machine *machine, uint32_t processor, uint32_t space, uint32_t page);
superpager_told superpager_machine_unwire(superpager_machine *machine, uint32_t processor, uint32_t space, uint32_t page);

#ifdef __cplusplus
}
#endif
#endif
