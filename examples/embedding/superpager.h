/* The pool of frames of a reservation-based superpage pager, for C and C++.
 *
 * The pool decides which frame a page gets, which reservation is preempted, and which page is evicted. It deals in numbers alone: page tables, TLBs,
 * contents and backing store are the caller's. Frame n stands for the n-th frame of the caller's memory, which begins at a multiple of 512 frames.
 *
 * Each call answers a status. SUPERPAGER_DONE: what the call says was done. Any other status: nothing was done, and each number of the answer beside
 * the status is 0, except as superpager_pin says. No number that is passed can do harm: each is tested, and the pool may be closed.
 *
 * What the caller has to keep, since nothing here can test it:
 *   1. `pool` points to a superpager that began as all zeros, is written by these calls alone, and is never copied.
 *   2. The calls for a pool are made one at a time: by threads or processors that share it under one lock, and by no handler that interrupts a call.
 *   3. The memory is that of heap.c, over a malloc and a free that belong together; or that of heap_buffer.c; or such as these two.
 */
#ifndef SUPERPAGER_H
#define SUPERPAGER_H

#include <stdbool.h>
#include <stddef.h>
#include <stdint.h>

#ifdef __cplusplus
extern "C" {
#endif

/* A pool, open or closed. `superpager pool = {0};` is closed. Its fields are the calls' own. */
typedef struct { void *at; bool is_open; } superpager;

enum {
    SUPERPAGER_DONE = 0,
    SUPERPAGER_CLOSED = 1,      /* the pool is closed */
    SUPERPAGER_OPEN = 2,        /* the pool is open already */
    SUPERPAGER_NO_MEMORY = 3,   /* there is too little memory; what the call took is given back */
    SUPERPAGER_RANGE = 4,       /* a number is out of its bounds, or the want is not for the page */
    SUPERPAGER_PLACED = 5,      /* the page has a frame already */
    SUPERPAGER_UNPLACED = 6,    /* the page has no frame */
    SUPERPAGER_FULL = 7,        /* no frame is free, and every reservation is fully populated */
    SUPERPAGER_NO_VICTIM = 8,   /* every populated frame is wired or claimed */
    SUPERPAGER_BUSY = 9,        /* the processor claims or holds a frame already */
    SUPERPAGER_IDLE = 10,       /* the processor claims no frame, or holds none, as the call wants it */
    SUPERPAGER_CLAIMED = 11,    /* a page that was to be wired is claimed */
    SUPERPAGER_COUNTED = 12     /* the pool counted 2^45 changes, and counts no more */
};

/* `frames` is a multiple of 512, and at most 32,768; there are at most 17 processors. Beside base pages there are superpages of 8, 64 and 512 of
 * them, each where its field is not 0. */
typedef struct { uint32_t frames, processors, pages_8, pages_64, pages_512; } superpager_setting;

/* Where a reservation for a page may lie: on pages from low to before high, and of at most cap pages. low <= page < high <= 1,048,576, and cap is not
 * 0. A page that is taken with wired not 0 is never a victim. */
typedef struct { uint32_t low, high, cap, wired; } superpager_want;

typedef struct { uint32_t status, frame; } superpager_framed;
typedef struct { uint32_t status, size; } superpager_sized;        /* 0 to 3: of 1, 8, 64 or 512 pages */
typedef struct { uint32_t status, frame, is_held, processor; } superpager_given;
typedef struct { uint32_t status, space, page, frame; } superpager_victim;
typedef struct { uint32_t status, frame, is_held; } superpager_collected;
typedef struct { uint32_t status, page, frame; } superpager_pinned;
typedef struct { uint64_t preempted; uint32_t status, free, reserved, used, wired, claimed, held; } superpager_counted;

/* There are spaces 0 to 15, each of pages 0 to 1,048,575. The processors are 0 to before the number in the setting. Under each call stand the
 * statuses that it may answer beside DONE. If several causes hold, it answers the first that stands there. */

/* Opens a pool whose frames are all free. It takes all the memory that the pool ever needs: no other call takes any.
 * OPEN, RANGE, NO_MEMORY. */
uint32_t superpager_open(superpager *pool, superpager_setting setting);

/* Closes the pool, and gives its memory back. It may be opened again.
 * CLOSED. */
uint32_t superpager_close(superpager *pool);

/* The page gets a frame: its place in the reservation that has the page, or in a new one, for which another may be preempted.
 * CLOSED, RANGE, PLACED, COUNTED, FULL. */
superpager_framed superpager_take(superpager *pool, uint32_t space, uint32_t page, superpager_want want);

/* The size that a new reservation round the page is tried with first, before frames are looked at: the largest of the setting's whose aligned extent
 * round the page the want allows, and no page of which is in a reservation. 0 if there is none, as where a reservation has the page. If no extent of
 * frames of this size can be had, a taking tries the smaller ones.
 * CLOSED, RANGE. */
superpager_sized superpager_preferred(superpager *pool, uint32_t space, uint32_t page, superpager_want want);

/* The frame of the page.
 * CLOSED, RANGE, UNPLACED. */
superpager_framed superpager_frame_of(superpager *pool, uint32_t space, uint32_t page);

/* The page gives its frame up. If a processor claimed the frame, is_held is 1, and that processor holds it now; else both are 0.
 * CLOSED, RANGE, UNPLACED. */
superpager_given superpager_give(superpager *pool, uint32_t space, uint32_t page);

/* The processor claims the victim: of the pages whose frame is neither wired nor claimed the one that got its frame first.
 * CLOSED, RANGE, BUSY, COUNTED, NO_VICTIM. */
superpager_victim superpager_claim(superpager *pool, uint32_t processor);

/* The processor claims its frame no more, and the page keeps it.
 * CLOSED, RANGE, IDLE, COUNTED. */
superpager_framed superpager_unclaim(superpager *pool, uint32_t processor);

/* The frame that the processor claims or holds. is_held is 1 if its page gave it up, and 0 while the page has it.
 * CLOSED, RANGE, IDLE. */
superpager_collected superpager_collect(superpager *pool, uint32_t processor);

/* The frame that the processor holds is free.
 * CLOSED, RANGE, IDLE, COUNTED. */
superpager_framed superpager_drop_held(superpager *pool, uint32_t processor);

/* The frame that the processor holds is free, and the page gets this frame or another.
 * CLOSED, RANGE, IDLE, PLACED, COUNTED. */
superpager_framed superpager_use_held(superpager *pool, uint32_t processor, uint32_t space, uint32_t page, superpager_want want);

/* The populated frames of length pages from the first are wired, or, if wired is 0, are wired no longer. If one that is to be wired is claimed, none
 * is wired, the change is counted, and page and frame are the lowest such page and its frame: CLAIMED. Else page and frame are 0.
 * CLOSED, RANGE, COUNTED, CLAIMED. */
superpager_pinned superpager_pin(superpager *pool, uint32_t space, uint32_t first, uint32_t length, uint32_t wired);

/* How many frames are free, unpopulated places of reservations, populated, and held; how many of the populated ones are wired, and claimed; and how
 * many takings broke a reservation.
 * CLOSED. */
superpager_counted superpager_counts(superpager *pool);

/* Of heap_buffer.c alone: from now on the memory of the calls is this buffer. No pool is open then, and while one is the buffer is the calls' own. */
void superpager_memory(void *buffer, size_t bytes);

/* Of heap_buffer.c alone: how many bytes of the buffer are taken. */
size_t superpager_memory_taken(void);

#ifdef __cplusplus
}
#endif
#endif
