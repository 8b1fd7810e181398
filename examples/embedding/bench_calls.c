/* What a call costs by itself, by what it has to do, beside the calls of a plain buddy allocator.
 *
 *     bench_calls [ROUNDS [TRIAL]]
 *
 * Tells the median time of a call in so many rounds, less that of a call of nothing. The median leaves out what else the machine did now and then.
 * With the number of a trial it makes that one alone, and tells how many calls it made: `make instructions` has Valgrind count their instructions. */
#include <stdio.h>
#include <stdlib.h>
#include <time.h>
#include <x86intrin.h>
#include "buddy.h"
#include "superpager.h"

enum { MOST_ROUNDS = 100000, RESERVATIONS = FRAMES / 512, FAR = FRAMES };

/* Before each round the pool is in the same state: `call` is timed, and `before` and `after` lead to it and back. */
typedef struct { const char *name; void (*begin)(void), (*before)(void); uint32_t (*call)(void); void (*after)(void); uint32_t one_of; } trial;

static superpager pool;
static const superpager_want region = {.low = 0, .high = 1 << 20, .cap = 1 << 20};
static uint32_t page, state = 1;
static uint64_t times[MOST_ROUNDS];
static superpager_victim victim;

static void done(uint32_t status) {
    if (status != SUPERPAGER_DONE) {
        fprintf(stderr, "bench_calls: status %u\n", status);
        exit(1);
    }
}

static void takes(uint32_t at) { done(superpager_take(&pool, 0, at, region).status); }
static void gives(uint32_t at) { done(superpager_give(&pool, 0, at).status); }

/* An empty pool, with superpages of 64 pages or without. */
static void begin(bool pages_64) {
    superpager_setting setting = {.frames = FRAMES, .processors = 1, .pages_8 = 1, .pages_64 = pages_64, .pages_512 = 1};
    superpager_close(&pool);
    done(superpager_open(&pool, setting));
}

/* So many reservations of 512 pages, each with its first page. */
static void begin_reserved(uint32_t reservations) {
    begin(true);
    for (uint32_t i = 0; i < reservations; i++)
        takes(i * 512);
}

static void begin_all(void) { begin_reserved(RESERVATIONS); }
static void begin_but_one(void) { begin_reserved(RESERVATIONS - 1); }

static void begin_full(void) {
    begin(true);
    for (uint32_t i = 0; i < FRAMES; i++)
        takes(i);
}

/* The oldest reservation has 512 pages, of which one of eight is populated: to get a frame out of it, it is split by each size that there is. Behind
 * it in the list of its yield stand 4,032 reservations of 8 pages. */
static void begin_crowd(bool pages_64) {
    begin(pages_64);
    for (uint32_t i = 0; i < 512; i += 8)
        takes(i);
    for (uint32_t i = 512; i < FRAMES; i += 8) {
        superpager_want eight = {.low = i, .high = i + 8, .cap = 8};
        done(superpager_take(&pool, 0, i, eight).status);
    }
}

static void crowd(void) { begin_crowd(true); }
static void crowd_without_64(void) { begin_crowd(false); }

static void none(void) {}
static uint32_t nothing(void) { return SUPERPAGER_DONE; }

/* The next page, or a page at random: but none of those that each reservation has. */
static void follow(void) {
    page = (page + 1) % FRAMES;
    page += page % 512 == 0;
}

static void draw(void) {
    state = state * 1664525u + 1013904223u;
    page = state >> 17;
    page += page % 512 == 0;
}

static void follow_taken(void) { follow(); takes(page); }
static void draw_new(void) { page = (RESERVATIONS - 1) * 512; }
static void draw_new_taken(void) { draw_new(); takes(page); }
static void draw_far(void) { page = FAR; }
static uint32_t take(void) { return superpager_take(&pool, 0, page, region).status; }
static uint32_t give(void) { return superpager_give(&pool, 0, page).status; }
static void give_back(void) { gives(page); }

/* The oldest reservation was preempted. It comes anew, as the youngest. */
static void renew(void) {
    static uint32_t oldest;
    gives(page);
    gives(oldest * 512);
    takes(oldest * 512);
    oldest = (oldest + 1) % RESERVATIONS;
}

static uint32_t take_one(void) {
    return superpager_take(&pool, 0, FAR, (superpager_want){.low = FAR, .high = FAR + 1, .cap = 1}).status;
}

/* A page in the oldest of 4,033 reservations, which becomes the youngest. */
static uint32_t take_second(void) { return superpager_take(&pool, 0, 1, region).status; }

static uint32_t frame_of(void) { return superpager_frame_of(&pool, 0, page).status; }
static uint32_t claim(void) { return (victim = superpager_claim(&pool, 0)).status; }
static void claim_before(void) { done(claim()); }
static uint32_t give_victim(void) { return superpager_give(&pool, 0, victim.page).status; }
static void crowd_claimed(void) { crowd_without_64(); done(claim()); }
static void give_before(void) { done(claim()); done(give_victim()); }
static uint32_t use_held(void) { return superpager_use_held(&pool, 0, 0, victim.page, region).status; }
static void use_after(void) { done(use_held()); }
static void unclaim(void) { done(superpager_unclaim(&pool, 0).status); }

static int frame;
static void begin_buddy(int taken) {
    for (buddy_open(); taken > 0; taken--)
        frame = buddy_take();
}

/* The last block of 512 is free; or a frame of it is taken, and for each order one block is free. */
static void begin_block(void) { begin_buddy(FRAMES - 512); }
static void begin_blocks(void) { begin_buddy(FRAMES - 511); }
static void buddy_take_before(void) { frame = buddy_take(); }
static void buddy_give_after(void) { buddy_give(frame); }
static uint32_t take_of_buddy(void) { return (frame = buddy_take()) == NONE; }
static uint32_t give_of_buddy(void) { buddy_give(frame); return SUPERPAGER_DONE; }

static const trial trials[] = {
    {"nothing", none, none, nothing, none, 1},
    {"take: in its reservation, the next page", begin_all, follow, take, give_back, 1},
    {"take: in its reservation, a random page", begin_all, draw, take, give_back, 1},
    {"take: in its reservation, the oldest of 4,033", none, crowd, take_second, none, 500},
    {"take: a new reservation of 512", begin_but_one, draw_new, take, give_back, 1},
    {"take: a new one, by a preemption", begin_all, draw_far, take, renew, 1},
    {"take: the worst preemption known", none, crowd, take_one, none, 500},
    {"take: the same without pages of 64", none, crowd_without_64, take_one, none, 500},
    {"give: the reservation stays, the next page", begin_all, follow_taken, give, none, 1},
    {"give: the reservation ends", begin_but_one, draw_new_taken, give, none, 1},
    {"claim", begin_full, none, claim, unclaim, 1},
    {"give: of a claimed page", begin_full, claim_before, give_victim, use_after, 1},
    {"give: of a claimed page, the worst known", none, crowd_claimed, give_victim, none, 500},
    {"use_held", begin_full, give_before, use_held, none, 1},
    {"frame_of: a random page", begin_full, draw, frame_of, none, 1},
    {"buddy, take: a free frame", begin_blocks, none, take_of_buddy, buddy_give_after, 1},
    {"buddy, take: splits a block of 512", begin_block, none, take_of_buddy, buddy_give_after, 1},
    {"buddy, give: joins none", begin_blocks, buddy_take_before, give_of_buddy, none, 1},
    {"buddy, give: joins a block of 512", begin_block, buddy_take_before, give_of_buddy, none, 1},
};

/* The processor's clock, read once all before is done. */
static uint64_t ticks(void) {
    _mm_lfence();
    uint64_t now = __rdtsc();
    _mm_lfence();
    return now;
}

static double nanoseconds(void) {
    struct timespec now;
    clock_gettime(CLOCK_MONOTONIC, &now);
    return (double)now.tv_sec * 1e9 + (double)now.tv_nsec;
}

/* How many nanoseconds a tick takes. */
static double tick(void) {
    double since = nanoseconds();
    uint64_t first = ticks();
    while (nanoseconds() - since < 1e7)
        continue;
    return (nanoseconds() - since) / (double)(ticks() - first);
}

/* It has a name of its own for Valgrind. */
__attribute__((noinline)) static uint32_t timed_call(const trial *at) { return at->call(); }

static int is_less(const void *left, const void *right) {
    uint64_t a = *(const uint64_t *)left, b = *(const uint64_t *)right;
    return (a > b) - (a < b);
}

static uint64_t median(const trial *at, uint32_t rounds) {
    at->begin();
    for (uint32_t round = 0; round < rounds; round++) {
        at->before();
        uint64_t since = ticks();
        uint32_t status = timed_call(at);
        times[round] = ticks() - since;
        done(status);
        at->after();
    }
    qsort(times, rounds, sizeof times[0], is_less);
    return times[rounds / 2];
}

int main(int argc, char **argv) {
    uint32_t rounds = argc > 1 ? (uint32_t)strtoul(argv[1], NULL, 10) : 100000;
    size_t many = sizeof trials / sizeof trials[0], chosen = argc > 2 ? strtoul(argv[2], NULL, 10) : many;
    if (rounds == 0 || rounds > MOST_ROUNDS || chosen > many)
        return 1;
    if (chosen < many) {
        rounds = rounds / trials[chosen].one_of + 1;
        median(&trials[chosen], rounds);
        printf("%-48s calls %u\n", trials[chosen].name, rounds);
        return 0;
    }
    double each = tick(), least = (double)median(&trials[0], rounds);
    for (size_t i = 1; i < many; i++)
        printf("%2zu  %-48s %8.0f ns\n", i, trials[i].name, each * ((double)median(&trials[i], rounds / trials[i].one_of + 1) - least));
    superpager_close(&pool);
    return 0;
}
