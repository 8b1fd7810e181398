/* Makes random calls, many of them with numbers that are out of bounds, in any order, on a pool that may be closed and whose memory may run out.
 * Beside it stands a model: which frame each page has, which are wired, and what each processor claims and holds. Each status and each number that is
 * answered has to be the model's. Which frame a page gets is the pool's to choose, but no page may have it, and no processor hold it. The model knows
 * no reservations: so it tells the size that a page prefers exactly where none can be near, and else the most that it may be. A taking tells by the
 * counts how large a reservation it made, which is no larger than the preferred size.
 *
 *     random [CALLS [SEED]]
 *
 * It prints how often each status came. Its heap is heap.c over scarce_malloc, below. */
#include <stdio.h>
#include <stdlib.h>
#include <string.h>
#include "superpager.h"

enum { SPACES = 16, PAGES = 1 << 20, HALF = 1024, KNOWN = 2 * HALF, FRAMES = 32768, PROCESSORS = 17, NONE = -1, STATUSES = 13 };

typedef struct { int space, page, wired, claimer; uint64_t age; } used_frame;    /* space is NONE where no page has it */

static superpager pool;
static struct {
    bool is_open;
    uint32_t frames, processors;
    bool has_size[4];
    int frame_of[SPACES][KNOWN];           /* of the first and the last HALF pages of each space: no other page gets a frame here */
    used_frame used[FRAMES];
    int claims[PROCESSORS], holds[PROCESSORS];
    bool is_held[FRAMES];
    uint32_t count, wired, claimed, held;
    uint64_t changes;
} model;
static uint64_t seen[STATUSES], state = 1;
static const char *call = "nothing";
static uint64_t call_number;

static uint32_t drawn(uint32_t below) {
    state = state * 6364136223846793005u + 1442695040888963407u;
    return (uint32_t)((state >> 33) % below);
}

static bool one_in(uint32_t times) {
    return drawn(times) == 0;
}

void *scarce_malloc(size_t bytes) {
    return one_in(200) ? NULL : malloc(bytes);
}

static void wrong(const char *what, uint64_t is, uint64_t should_be) {
    fprintf(stderr, "call %llu, %s: %s is %llu, and should be %llu\n", (unsigned long long)call_number, call, what, (unsigned long long)is,
        (unsigned long long)should_be);
    exit(1);
}

static void same(const char *what, uint64_t is, uint64_t should_be) {
    if (is != should_be)
        wrong(what, is, should_be);
}

/* A number that may be below the bound, at it, or anywhere. */
static uint32_t number(uint32_t below) {
    switch (drawn(16)) {
    case 0: return below + drawn(3);
    case 1: return drawn(1u << 31) * 2u + drawn(2);
    default: return drawn(below ? below : 1);
    }
}

/* A page that the model knows, or one that there isn't. */
static uint32_t any_page(void) {
    uint32_t page = number(drawn(2) ? KNOWN : HALF / 4);
    return page < HALF ? page : page < KNOWN ? PAGES - KNOWN + page : PAGES | page;
}

static uint32_t any_space(void) {
    return drawn(2) ? number(SPACES) : drawn(2);
}

static int *place(uint32_t space, uint32_t page) {
    return &model.frame_of[space][page < HALF ? page : page - (PAGES - KNOWN)];
}

static bool is_page(uint32_t space, uint32_t page) {
    return space < SPACES && page < PAGES;
}

static superpager_want any_want(uint32_t page) {
    superpager_want want = {.low = number(page + 1), .high = number(PAGES), .cap = 1u << drawn(12), .wired = one_in(20) ? 1 + drawn(9) : 0};
    if (page < PAGES && !one_in(8))
        want.high = page + 1 + drawn(PAGES - page);
    if (page < PAGES && !one_in(8))
        want.low = drawn(2) ? 0 : page - page % 512;
    if (one_in(30))
        want.cap = 0;
    return want;
}

static bool is_wanted(uint32_t space, uint32_t page, superpager_want want) {
    return space < SPACES && want.low <= page && page < want.high && want.high <= PAGES && want.cap > 0;
}

static void now_has(uint32_t space, uint32_t page, superpager_want want, uint32_t frame) {
    if (frame >= model.frames || model.used[frame].space != NONE || model.is_held[frame])
        wrong("a frame that is another's", frame, 0);
    *place(space, page) = (int)frame;
    model.used[frame] = (used_frame){(int)space, (int)page, want.wired != 0, NONE, model.changes++};
    model.count++;
    model.wired += want.wired != 0;
}

static void now_holds_none(uint32_t processor) {
    model.is_held[model.holds[processor]] = false;
    model.holds[processor] = NONE;
    model.held--;
}

static void opens(void) {
    superpager_setting setting = {drawn(4) * 512, drawn(PROCESSORS + 1), drawn(2) * 7, drawn(2), drawn(2)};
    if (one_in(20))
        setting.frames = FRAMES;
    if (one_in(4))
        setting.frames = number(FRAMES + 512);
    if (one_in(8))
        setting.processors = number(PROCESSORS + 1);
    bool fits = setting.frames % 512 == 0 && setting.frames <= FRAMES && setting.processors <= PROCESSORS;
    uint32_t status = superpager_open(&pool, setting);
    seen[status]++;
    if (model.is_open || !fits || status != SUPERPAGER_NO_MEMORY)
        same("status", status, model.is_open ? SUPERPAGER_OPEN : fits ? SUPERPAGER_DONE : SUPERPAGER_RANGE);
    if (status != SUPERPAGER_DONE)
        return;
    memset(&model, 0, sizeof model);
    model.is_open = true;
    model.frames = setting.frames;
    model.processors = setting.processors;
    bool has_size[4] = {true, setting.pages_8 != 0, setting.pages_64 != 0, setting.pages_512 != 0};
    memcpy(model.has_size, has_size, sizeof has_size);
    memset(model.frame_of, NONE, sizeof model.frame_of);
    memset(model.claims, NONE, sizeof model.claims);
    memset(model.holds, NONE, sizeof model.holds);
    for (int frame = 0; frame < FRAMES; frame++)
        model.used[frame].space = NONE;
}

static void closes(void) {
    uint32_t status = superpager_close(&pool);
    seen[status]++;
    same("status", status, model.is_open ? SUPERPAGER_DONE : SUPERPAGER_CLOSED);
    model.is_open = false;
}

/* Whether a page of the extent of so many pages round the page has a frame. */
static bool any_has_frame(uint32_t space, uint32_t page, uint32_t pages) {
    uint32_t first = page - page % pages, other = first;
    while (other < first + pages && *place(space, other) == NONE)
        other++;
    return other < first + pages;
}

/* The largest size whose extent round the page the want allows, and none of whose pages has a frame: each that has one is in a reservation. */
static uint32_t largest(uint32_t space, uint32_t page, superpager_want want) {
    for (uint32_t size = 3; size > 0; size--) {
        uint32_t pages = 1u << 3 * size, first = page - page % pages;
        if (model.has_size[size] && want.low <= first && first + pages <= want.high && pages <= want.cap && !any_has_frame(space, page, pages))
            return size;
    }
    return 0;
}

/* Where no page of the extent of 512 has a frame, no reservation meets it. */
static void prefers(void) {
    uint32_t space = any_space(), page = any_page();
    superpager_want want = any_want(page);
    superpager_sized got = superpager_preferred(&pool, space, page, want);
    seen[got.status]++;
    uint32_t status = !model.is_open ? SUPERPAGER_CLOSED : !is_wanted(space, page, want) ? SUPERPAGER_RANGE : SUPERPAGER_DONE;
    same("status", got.status, status);
    uint32_t most = status == SUPERPAGER_DONE ? largest(space, page, want) : 0;
    if (got.size > most || (got.size < most && !any_has_frame(space, page, 512)))
        wrong("size", got.size, most);
}

/* A taking that broke no reservation made one of so many frames, which were free, and of at most the preferred size; or of none: it used a place. */
static void reserves(uint32_t frames, uint32_t page, uint32_t frame, uint32_t preferred) {
    if (frames == 0) {
        same("the preferred size", preferred, 0);
        return;
    }
    if (frames != 1 && frames != 8 && frames != 64 && frames != 512)
        wrong("the frames of a reservation", frames, 1);
    if (frames > 1u << 3 * preferred)
        wrong("the frames of a reservation", frames, 1u << 3 * preferred);
    same("the frame's place", frame % frames, page % frames);
}

static void takes(void) {
    uint32_t space = any_space(), page = any_page();
    superpager_want want = any_want(page);
    superpager_counted before = superpager_counts(&pool);
    superpager_sized preferred = superpager_preferred(&pool, space, page, want);
    superpager_framed got = superpager_take(&pool, space, page, want);
    seen[got.status]++;
    superpager_counted now = superpager_counts(&pool);
    uint32_t status = !model.is_open ? SUPERPAGER_CLOSED : !is_wanted(space, page, want) ? SUPERPAGER_RANGE
        : *place(space, page) != NONE ? SUPERPAGER_PLACED : got.status == SUPERPAGER_DONE ? SUPERPAGER_DONE : SUPERPAGER_FULL;
    same("status", got.status, status);
    if (status == SUPERPAGER_FULL)
        same("free and reserved", now.free + now.reserved, 0);
    if (status != SUPERPAGER_DONE) {
        same("frame", got.frame, 0);
        return;
    }
    now_has(space, page, want, got.frame);
    if (before.free == model.frames)
        same("the frames of the first reservation", before.free - now.free, 1u << 3 * preferred.size);
    if (before.preempted == now.preempted)
        reserves(before.free - now.free, page, got.frame, preferred.size);
}

static void asks(void) {
    uint32_t space = any_space(), page = any_page();
    superpager_framed got = superpager_frame_of(&pool, space, page);
    seen[got.status]++;
    uint32_t status = !model.is_open ? SUPERPAGER_CLOSED : !is_page(space, page) ? SUPERPAGER_RANGE
        : *place(space, page) == NONE ? SUPERPAGER_UNPLACED : SUPERPAGER_DONE;
    same("status", got.status, status);
    same("frame", got.frame, status == SUPERPAGER_DONE ? (uint32_t)*place(space, page) : 0);
}

static void gives(void) {
    uint32_t space = any_space(), page = any_page(), frame = 0, claimer = NONE;
    if (model.is_open && model.processors > 0 && drawn(2)) {        /* a page whose frame is claimed, if there is one */
        int claimed = model.claims[drawn(model.processors)];
        if (claimed != NONE) {
            space = (uint32_t)model.used[claimed].space;
            page = (uint32_t)model.used[claimed].page;
        }
    }
    superpager_given got = superpager_give(&pool, space, page);
    seen[got.status]++;
    uint32_t status = !model.is_open ? SUPERPAGER_CLOSED : !is_page(space, page) ? SUPERPAGER_RANGE
        : *place(space, page) == NONE ? SUPERPAGER_UNPLACED : SUPERPAGER_DONE;
    same("status", got.status, status);
    if (status == SUPERPAGER_DONE) {
        frame = (uint32_t)*place(space, page);
        used_frame *used = &model.used[frame];
        claimer = (uint32_t)used->claimer;
        *place(space, page) = NONE;
        model.count--;
        model.wired -= (uint32_t)used->wired;
        if (used->claimer != NONE) {
            model.claims[claimer] = NONE;
            model.claimed--;
            model.holds[claimer] = (int)frame;
            model.is_held[frame] = true;
            model.held++;
        }
        used->space = NONE;
    }
    same("frame", got.frame, frame);
    same("whether it is held", got.is_held, claimer != (uint32_t)NONE);
    same("processor", got.processor, claimer == (uint32_t)NONE ? 0 : claimer);
}

static void claims(void) {
    uint32_t processor = number(model.processors);
    superpager_victim got = superpager_claim(&pool, processor);
    seen[got.status]++;
    uint32_t status = !model.is_open ? SUPERPAGER_CLOSED : processor >= model.processors ? SUPERPAGER_RANGE
        : model.claims[processor] != NONE || model.holds[processor] != NONE ? SUPERPAGER_BUSY
        : model.count == model.wired + model.claimed ? SUPERPAGER_NO_VICTIM : SUPERPAGER_DONE;
    same("status", got.status, status);
    int oldest = NONE;
    for (uint32_t frame = 0; status == SUPERPAGER_DONE && frame < model.frames; frame++) {
        used_frame *used = &model.used[frame];
        if (used->space != NONE && !used->wired && used->claimer == NONE && (oldest == NONE || used->age < model.used[oldest].age))
            oldest = (int)frame;
    }
    used_frame none = {0, 0, 0, NONE, 0}, *victim = oldest == NONE ? &none : &model.used[oldest];
    same("frame", got.frame, oldest == NONE ? 0 : (uint32_t)oldest);
    same("space", got.space, (uint32_t)victim->space);
    same("page", got.page, (uint32_t)victim->page);
    if (status == SUPERPAGER_DONE) {
        victim->claimer = (int)processor;
        model.claims[processor] = oldest;
        model.claimed++;
        model.changes++;
    }
}

static void collects(void) {
    uint32_t processor = number(model.processors), status = SUPERPAGER_DONE, frame = 0, is_held = 0;
    superpager_collected got = superpager_collect(&pool, processor);
    seen[got.status]++;
    if (!model.is_open)
        status = SUPERPAGER_CLOSED;
    else if (processor >= model.processors)
        status = SUPERPAGER_RANGE;
    else if (model.holds[processor] != NONE)
        frame = (uint32_t)model.holds[processor], is_held = 1;
    else if (model.claims[processor] != NONE)
        frame = (uint32_t)model.claims[processor];
    else
        status = SUPERPAGER_IDLE;
    same("status", got.status, status);
    same("frame", got.frame, frame);
    same("whether it is held", got.is_held, is_held);
}

/* The status of a call for what the processor has of these: its claims, or what it holds. */
static uint32_t status_for(uint32_t processor, const int *has) {
    return !model.is_open ? SUPERPAGER_CLOSED : processor >= model.processors ? SUPERPAGER_RANGE
        : has[processor] == NONE ? SUPERPAGER_IDLE : SUPERPAGER_DONE;
}

static void unclaims(void) {
    uint32_t processor = number(model.processors), status = status_for(processor, model.claims);
    superpager_framed got = superpager_unclaim(&pool, processor);
    seen[got.status]++;
    same("status", got.status, status);
    same("frame", got.frame, status == SUPERPAGER_DONE ? (uint32_t)model.claims[processor] : 0);
    if (status == SUPERPAGER_DONE) {
        model.used[model.claims[processor]].claimer = NONE;
        model.claims[processor] = NONE;
        model.claimed--;
        model.changes++;
    }
}

static void drops(void) {
    uint32_t processor = number(model.processors), status = status_for(processor, model.holds);
    superpager_framed got = superpager_drop_held(&pool, processor);
    seen[got.status]++;
    same("status", got.status, status);
    same("frame", got.frame, status == SUPERPAGER_DONE ? (uint32_t)model.holds[processor] : 0);
    if (status == SUPERPAGER_DONE) {
        now_holds_none(processor);
        model.changes++;
    }
}

static void uses(void) {
    uint32_t processor = number(model.processors), space = any_space(), page = any_page();
    superpager_want want = any_want(page);
    superpager_framed got = superpager_use_held(&pool, processor, space, page, want);
    seen[got.status]++;
    uint32_t status = status_for(processor, model.holds);
    if (status == SUPERPAGER_DONE || status == SUPERPAGER_IDLE)
        status = !is_wanted(space, page, want) ? SUPERPAGER_RANGE : status == SUPERPAGER_IDLE ? status
            : *place(space, page) != NONE ? SUPERPAGER_PLACED : SUPERPAGER_DONE;
    same("status", got.status, status);
    if (status == SUPERPAGER_DONE) {
        now_holds_none(processor);
        now_has(space, page, want, got.frame);
    } else
        same("frame", got.frame, 0);
}

/* Wires the page's frame, or wires it no longer, if it has one and `wired` isn't NONE; answers whether it is claimed. */
static bool wire(uint32_t space, uint32_t page, int wired) {
    int frame = *place(space, page);
    if (frame == NONE)
        return false;
    used_frame *used = &model.used[frame];
    if (wired != NONE) {
        model.wired += (uint32_t)(wired - used->wired);
        used->wired = wired;
    }
    return used->claimer != NONE;
}

static void pins(void) {
    uint32_t space = any_space(), first = any_page(), length = one_in(4) ? number(PAGES) : drawn(100), wired = drawn(4) ? 0 : 5;
    superpager_pinned got = superpager_pin(&pool, space, first, length, wired);
    seen[got.status]++;
    uint32_t status = !model.is_open ? SUPERPAGER_CLOSED : space >= SPACES || (uint64_t)first + length > PAGES ? SUPERPAGER_RANGE : SUPERPAGER_DONE;
    uint32_t claimed = PAGES;
    for (int known = 0; status == SUPERPAGER_DONE && wired && known < KNOWN; known++) {
        uint32_t page = (uint32_t)(known < HALF ? known : PAGES - KNOWN + known);
        if (first <= page && page < first + length && wire(space, page, NONE) && page < claimed)
            claimed = page;
    }
    if (claimed < PAGES)
        status = SUPERPAGER_CLAIMED;
    same("status", got.status, status);
    same("page", got.page, claimed < PAGES ? claimed : 0);
    same("frame", got.frame, claimed < PAGES ? (uint32_t)*place(space, claimed) : 0);
    if (status == SUPERPAGER_DONE || status == SUPERPAGER_CLAIMED)
        model.changes++;
    for (int known = 0; status == SUPERPAGER_DONE && known < KNOWN; known++) {
        uint32_t page = (uint32_t)(known < HALF ? known : PAGES - KNOWN + known);
        if (first <= page && page < first + length)
            wire(space, page, wired != 0);
    }
}

static void counts(void) {
    superpager_counted now = superpager_counts(&pool);
    seen[now.status]++;
    same("status", now.status, model.is_open ? SUPERPAGER_DONE : SUPERPAGER_CLOSED);
    bool is_open = model.is_open;
    same("used", now.used, is_open ? model.count : 0);
    same("wired", now.wired, is_open ? model.wired : 0);
    same("claimed", now.claimed, is_open ? model.claimed : 0);
    same("held", now.held, is_open ? model.held : 0);
    same("all", now.free + now.reserved + now.used + now.held, is_open ? model.frames : 0);
}

/* The calls, and how often each comes of a thousand. */
static const struct { const char *name; void (*makes)(void); uint32_t share; } calls[] = {
    {"open", opens, 20}, {"close", closes, 1}, {"preferred", prefers, 40}, {"take", takes, 350}, {"frame_of", asks, 60}, {"give", gives, 150},
    {"claim", claims, 100}, {"collect", collects, 40}, {"unclaim", unclaims, 20}, {"drop_held", drops, 60}, {"use_held", uses, 100},
    {"pin", pins, 39}, {"counts", counts, 20},
};

int main(int argc, char **argv) {
    uint64_t all = argc > 1 ? strtoull(argv[1], NULL, 10) : 100000;
    state = argc > 2 ? strtoull(argv[2], NULL, 10) : 1;
    for (call_number = 1; call_number <= all; call_number++) {
        uint32_t share = drawn(1000), which = 0;
        while (share >= calls[which].share)
            share -= calls[which++].share;
        call = calls[which].name;
        calls[which].makes();
    }
    closes();
    for (int status = 0; status < STATUSES; status++)
        printf("status %2d: %llu\n", status, (unsigned long long)seen[status]);
    return 0;
}
