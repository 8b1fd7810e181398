/* The time of many calls, each page once and pages at random, beside that of a plain buddy allocator.
 *
 *     bench [ROUNDS] */
#include <stdio.h>
#include <stdlib.h>
#include <time.h>
#include "buddy.h"
#include "superpager.h"

static double nanoseconds(void) {
    struct timespec now;
    clock_gettime(CLOCK_PROCESS_CPUTIME_ID, &now);
    return (double)now.tv_sec * 1e9 + (double)now.tv_nsec;
}

static uint32_t drawn(uint32_t *state) {
    *state = *state * 1664525u + 1013904223u;
    return *state >> 17;
}

static void told(const char *what, double since, uint32_t times) {
    printf("%-46s %6.0f ns\n", what, (nanoseconds() - since) / times);
}

static void want_status(uint32_t status) {
    if (status != SUPERPAGER_DONE)
        exit(1);
}

static void of_buddy(uint32_t rounds) {
    static int frame_of[FRAMES];
    uint32_t state = 1;
    buddy_open();
    double since = nanoseconds();
    for (int page = 0; page < FRAMES; page++)
        frame_of[page] = buddy_take();
    told("buddy: take, each frame once", since, FRAMES);
    since = nanoseconds();
    for (uint32_t round = 0; round < rounds; round++) {
        uint32_t page = drawn(&state);
        buddy_give(frame_of[page]);
        frame_of[page] = buddy_take();
    }
    told("buddy: give and take", since, rounds);
    since = nanoseconds();
    for (int page = 0; page < FRAMES; page++)
        buddy_give(frame_of[page]);
    told("buddy: give, each frame once", since, FRAMES);
}

static void of_pool(uint32_t rounds) {
    superpager pool = {0};
    superpager_setting setting = {.frames = FRAMES, .processors = 1, .pages_8 = 1, .pages_64 = 1, .pages_512 = 1};
    superpager_want region = {.low = 0, .high = 1 << 20, .cap = 1 << 20};
    uint32_t state = 1, page = 0;
    double since = nanoseconds();
    want_status(superpager_open(&pool, setting));
    told("pool: open", since, 1);
    since = nanoseconds();
    for (page = 0; page < FRAMES; page++)
        want_status(superpager_take(&pool, 0, page, region).status);
    told("pool: take, each page once", since, FRAMES);
    since = nanoseconds();
    for (uint32_t round = 0; round < rounds; round++) {
        page = drawn(&state);
        want_status(superpager_give(&pool, 0, page).status);
        want_status(superpager_take(&pool, 0, page, region).status);
    }
    told("pool: give and take", since, rounds);
    since = nanoseconds();
    for (page = 0; page < FRAMES; page++)
        want_status(superpager_give(&pool, 0, page).status);
    told("pool: give, each page once", since, FRAMES);
    for (page = 0; page < FRAMES; page++)
        want_status(superpager_take(&pool, 0, page, region).status);
    since = nanoseconds();
    for (uint32_t round = 0; round < rounds; round++)
        want_status(superpager_frame_of(&pool, 0, drawn(&state)).status);
    told("pool: frame_of", since, rounds);
    since = nanoseconds();
    for (uint32_t round = 0; round < rounds; round++) {
        superpager_victim victim = superpager_claim(&pool, 0);
        want_status(superpager_give(&pool, victim.space, victim.page).status);
        want_status(superpager_use_held(&pool, 0, 0, (victim.page + FRAMES) & 0xfffff, region).status);
    }
    told("pool: claim, give and use_held", since, rounds);
    since = nanoseconds();
    want_status(superpager_close(&pool));
    told("pool: close", since, 1);
}

int main(int argc, char **argv) {
    uint32_t rounds = argc > 1 ? (uint32_t)strtoul(argv[1], NULL, 10) : 1000000;
    of_pool(rounds);
    of_buddy(rounds);
    return 0;
}
