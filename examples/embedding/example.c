/* Touches the pages of a region, watches a superpage come, fills the pool, and evicts the page that got its frame first. */
#include <stdio.h>
#include "superpager.h"

static superpager pool;

static void show(const char *what) {
    superpager_counted now = superpager_counts(&pool);
    printf("%-24s free %3u, reserved %3u, used %3u, held %u, preempted %llu\n", what, now.free, now.reserved, now.used, now.held,
        (unsigned long long)now.preempted);
}

/* Processor 0 evicts a page, and another page gets its frame. */
static uint32_t replaced(uint32_t page, superpager_want want) {
    superpager_victim victim = superpager_claim(&pool, 0);
    printf("victim: page %u, in frame %u\n", victim.page, victim.frame);
    /* Here the victim is unmapped, its TLB entries are invalidated, and it is written out if it is dirty. */
    superpager_given given = superpager_give(&pool, victim.space, victim.page);
    printf("processor %u holds frame %u\n", given.processor, given.frame);
    return superpager_use_held(&pool, 0, 0, page, want).frame;
}

int main(void) {
    superpager_setting setting = {.frames = 512, .processors = 1, .pages_8 = 1, .pages_64 = 1, .pages_512 = 1};
    superpager_want region = {.low = 0, .high = 4096, .cap = 4096};

    printf("before it is open: status %u\n", superpager_take(&pool, 0, 0, region).status);
    if (superpager_open(&pool, setting) != SUPERPAGER_DONE)
        return 1;
    show("open");
    printf("page 100 gets frame %u, its place in a reservation of 512\n", superpager_take(&pool, 0, 100, region).frame);
    show("one page");
    for (uint32_t page = 0; page < 512; page++)
        superpager_take(&pool, 0, page, region);
    printf("page 100 again: status %u\n", superpager_take(&pool, 0, 100, region).status);
    printf("pages 0 to 511 begin at frame %u: a superpage\n", superpager_frame_of(&pool, 0, 0).frame);
    show("512 pages");
    printf("page 600: status %u\n", superpager_take(&pool, 0, 600, region).status);
    superpager_pin(&pool, 0, 100, 1, 1);
    printf("page 600 gets frame %u\n", replaced(600, region));
    show("one page evicted");
    printf("space 16: status %u\n", superpager_take(&pool, 16, 0, region).status);
    printf("closed: status %u\n", superpager_close(&pool));
    printf("closed again: status %u\n", superpager_close(&pool));
    return 0;
}
