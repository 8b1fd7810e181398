/* A plain buddy allocator, to compare the pool with: it gives single frames, and knows neither pages nor reservations. */
#ifndef BUDDY_H
#define BUDDY_H

enum { FRAMES = 32768, ORDERS = 10, NONE = -1 };

/* The buddy allocator: for each order a list of free blocks, and at the first frame of each free block its order. */
static int lists[ORDERS], next[FRAMES], before[FRAMES], order_of[FRAMES];

static void enlist(int block, int order) {
    next[block] = lists[order];
    before[block] = NONE;
    if (lists[order] != NONE)
        before[lists[order]] = block;
    lists[order] = block;
    order_of[block] = order;
}

static void unlist(int block) {
    int order = order_of[block];
    if (before[block] == NONE)
        lists[order] = next[block];
    else
        next[before[block]] = next[block];
    if (next[block] != NONE)
        before[next[block]] = before[block];
    order_of[block] = NONE;
}

static void buddy_open(void) {
    for (int order = 0; order < ORDERS; order++)
        lists[order] = NONE;
    for (int frame = 0; frame < FRAMES; frame++)
        order_of[frame] = NONE;
    for (int frame = FRAMES - 512; frame >= 0; frame -= 512)
        enlist(frame, ORDERS - 1);
}

static int buddy_take(void) {
    int order = 0;
    while (order < ORDERS && lists[order] == NONE)
        order++;
    if (order == ORDERS)
        return NONE;
    int block = lists[order];
    unlist(block);
    while (order > 0) {
        order--;
        enlist(block + (1 << order), order);
    }
    return block;
}

static void buddy_give(int block) {
    int order = 0;
    while (order < ORDERS - 1 && order_of[block ^ 1 << order] == order) {
        unlist(block ^ 1 << order);
        block &= ~(1 << order++);
    }
    enlist(block, order);
}

#endif
