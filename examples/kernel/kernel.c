/* The memory of a small kernel. It needs no C library: see README.md.
 *
 * The pool (superpager.h) says which frame a page gets, and which page is evicted. All else is here: page tables, contents, rights, dirty flags, and
 * when pages are promoted and demoted. There is one processor, with number 0. With several, each table needs a lock, and the pool one of its own. */
#include "kernel.h"
#include <string.h>
#include "../embedding/superpager.h"

/* A page table entry. A superpage has an entry for each of its base pages, which all tell its size, as by the granularity hint of Alpha or the
 * contiguous bit of arm64: so the walk is the same for each size, and a promotion writes the size alone. `region` is 1 + the region's number, and 0
 * where the page has none. The processor may store where the page is writable and dirty: so the first store to a clean page faults. */
typedef struct { uint32_t frame : 15, is_present : 1, is_writable : 1, is_dirty : 1, is_on_disk : 1, size : 2, region : 8; } entry;

/* A page table has two levels. A leaf has the entries of 512 pages, so each superpage's lie in one leaf, side by side. */
enum { LEAF = 512, LEAVES = SPACES * PAGES / LEAF, REGIONS = 255, PROCESSOR = 0 };

typedef struct { uint32_t space, first, end; } region;

static superpager pool;
static _Alignas(16) unsigned char pool_memory[20 << 20];
static entry leaves[LEAVES][LEAF], *roots[SPACES][PAGES / LEAF];
static uint32_t leaves_used, largest;
static region regions[REGIONS];
static kernel_counts counts;

bool kernel_start(bool with_superpages) {
    superpager_setting setting = {FRAMES, 1, with_superpages, with_superpages, with_superpages};
    memset(leaves, 0, sizeof leaves);
    memset(roots, 0, sizeof roots);
    memset(regions, 0, sizeof regions);
    leaves_used = 0;
    largest = with_superpages ? SIZES - 1 : 0;
    counts = (kernel_counts){0};
    superpager_memory(pool_memory, sizeof pool_memory);
    return superpager_open(&pool, setting) == SUPERPAGER_DONE;
}

void kernel_stop(void) {
    superpager_close(&pool);
}

kernel_counts kernel_counted(void) {
    counts.preempted = superpager_counts(&pool).preempted;
    return counts;
}

/* The page's entry; NULL where its leaf was never needed. */
static entry *entry_of(uint32_t space, uint32_t page) {
    entry *leaf = page < PAGES ? roots[space][page / LEAF] : NULL;
    return leaf ? leaf + page % LEAF : NULL;
}

/* The entry of the first page of the extent of a size that has the page. */
static entry *extent_of(uint32_t space, uint32_t page, uint32_t size) {
    return entry_of(space, page & ~(PAGES_OF(size) - 1));
}

static void set_size(entry *first, uint32_t pages, uint32_t size) {
    for (entry *at = first; at < first + pages; at++)
        at->size = size;
}

/* Whether eight pages of one size below can be one page of this size: all are present, alike, and in frames that lie in order from one on at which
 * the larger page may begin. Each of the eight is uniform itself, as its size tells.
 *
 * The pool doesn't tell when a reservation is fully populated, and needn't: its pages have frames in order, so they pass this once the last of them
 * is there. Pages of two reservations pass it too, where these happen to lie side by side. */
static bool can_promote(const entry *first, uint32_t size) {
    uint32_t part = PAGES_OF(size - 1);
    if (first->frame % PAGES_OF(size) != 0)
        return false;
    for (uint32_t i = 0; i < 8; i++) {
        const entry *at = first + i * part;
        if (!at->is_present || at->size != size - 1 || at->frame != first->frame + i * part || at->region != first->region
            || at->is_writable != first->is_writable || at->is_dirty != first->is_dirty)
            return false;
    }
    return true;
}

/* Incremental promotion: the page's superpage grows by one size after the other, as far as the pages round it allow. A processor may hold no two
 * translations of one page, so those of the parts are flushed. */
static void promote(uint32_t space, uint32_t page) {
    for (uint32_t size = entry_of(space, page)->size + 1; size <= largest; size++) {
        entry *first = extent_of(space, page, size);
        if (!can_promote(first, size))
            return;
        set_size(first, PAGES_OF(size), size);
        page &= ~(PAGES_OF(size) - 1);
        tlb_flush(space, page, page + PAGES_OF(size));
        counts.promotions[size]++;
    }
}

/* Demotes the superpage that has the page by one size, and so on, until a translation begins at the page and has no more than `most` pages. Only the
 * part that has the page is split further, so the others stay as large as they can be. The caller flushes the TLB. */
static void demote(uint32_t space, uint32_t page, uint32_t most) {
    entry *at = entry_of(space, page);
    while (page % PAGES_OF(at->size) != 0 || PAGES_OF(at->size) > most) {
        uint32_t size = at->size;
        set_size(extent_of(space, page, size), PAGES_OF(size), size - 1);
        counts.demotions[size]++;
    }
}

/* The page is resident no more. Its frame is in no TLB then, and what it has is on disk. */
static void page_out(uint32_t space, uint32_t page) {
    entry *at = entry_of(space, page);
    demote(space, page, 1);
    at->is_present = false;
    tlb_flush(space, page, page + 1);
    if (at->is_dirty) {
        disk_write(space, page, at->frame);
        at->is_on_disk = true;
        counts.written++;
    }
    counts.evictions++;
}

/* A frame for the page. Where none is free and no reservation can be preempted, the processor claims a victim's. The page may then get another frame
 * than the victim's, since the pool chooses anew once that is free. */
static bool find_frame(uint32_t space, uint32_t page, uint32_t *frame) {
    const region *around = &regions[entry_of(space, page)->region - 1];
    superpager_want want = {.low = around->first, .high = around->end, .cap = around->end - around->first};
    superpager_framed got = superpager_take(&pool, space, page, want);
    if (got.status == SUPERPAGER_FULL) {
        superpager_victim victim = superpager_claim(&pool, PROCESSOR);
        if (victim.status != SUPERPAGER_DONE)
            return false;
        page_out(victim.space, victim.page);
        superpager_give(&pool, victim.space, victim.page);
        got = superpager_use_held(&pool, PROCESSOR, space, page, want);
    }
    *frame = got.frame;
    return got.status == SUPERPAGER_DONE;
}

/* The frame is filled before it is mapped, so that no processor ever sees what another page left in it. */
static bool page_in(uint32_t space, uint32_t page) {
    entry *at = entry_of(space, page);
    uint32_t frame;
    if (!find_frame(space, page, &frame))
        return false;
    if (at->is_on_disk)
        disk_read(space, page, frame);
    else
        memset(memory[frame], 0, sizeof memory[frame]);
    at->frame = frame;
    at->size = 0;
    at->is_dirty = false;
    at->is_present = true;
    return true;
}

/* A page fault: the page isn't resident, or a store comes to a clean one. A superpage has one dirty flag in effect, so a store to a clean superpage
 * demotes it: else all its pages would have to be written out. Once all are dirty they are promoted again. */
static bool fault(uint32_t space, uint32_t page, bool is_store) {
    entry *at = entry_of(space, page);
    if (!at || at->region == 0 || (is_store && !at->is_writable))
        return false;
    counts.faults++;
    if (!at->is_present && !page_in(space, page))
        return false;
    if (is_store) {
        demote(space, page, 1);
        at->is_dirty = true;
        tlb_flush(space, page, page + 1);
    }
    promote(space, page);
    return true;
}

/* What the processor does at a TLB miss: it walks the table, and the TLB gets the whole superpage. */
static const tlb_entry *walk(uint32_t space, uint32_t page) {
    const entry *at = entry_of(space, page);
    if (!at || !at->is_present)
        return NULL;
    uint32_t offset = page % PAGES_OF(at->size);
    return tlb_fill((tlb_entry){.space = space, .page = page - offset, .frame = at->frame - offset, .size = at->size,
        .may_store = at->is_writable && at->is_dirty});
}

uint64_t *kernel_access(uint32_t space, uint32_t page, uint32_t word, bool is_store) {
    for (;;) {
        const tlb_entry *at = tlb_find(space, page);
        if (!at)
            at = walk(space, page);
        if (at && (!is_store || at->may_store))
            return &memory[at->frame + (page - at->page)][word];
        if (!fault(space, page, is_store))
            return NULL;
    }
}

/* The leaf of the page, from a store of leaves: a kernel would take a frame for it. */
static entry *leaf_of(uint32_t space, uint32_t page) {
    entry **root = &roots[space][page / LEAF];
    if (!*root && leaves_used < LEAVES)
        *root = leaves[leaves_used++];
    return *root;
}

bool kernel_map(uint32_t space, uint32_t first, uint32_t end) {
    uint32_t number = 0;
    while (number < REGIONS && regions[number].end != 0)
        number++;
    if (number == REGIONS)
        return false;
    for (uint32_t page = first; page < end; page++)
        if (!leaf_of(space, page) || entry_of(space, page)->region != 0)
            return false;
    regions[number] = (region){space, first, end};
    for (uint32_t page = first; page < end; page++)
        *entry_of(space, page) = (entry){.region = number + 1, .is_writable = 1};
    return true;
}

/* No frame is given back while a TLB may still map it: so the flush comes first. A region's superpages end with it, so none has to be demoted. */
void kernel_unmap(uint32_t space, uint32_t first) {
    region *gone = &regions[entry_of(space, first)->region - 1];
    tlb_flush(space, gone->first, gone->end);
    for (uint32_t page = gone->first; page < gone->end; page++) {
        if (entry_of(space, page)->is_present)
            superpager_give(&pool, space, page);
        *entry_of(space, page) = (entry){0};
    }
    *gone = (region){0};
}

/* Only the superpages at both ends have pages outside, and are demoted as far as needed. Where the pages are as those beside them now, they are
 * promoted again. */
void kernel_protect(uint32_t space, uint32_t first, uint32_t end, bool may_store) {
    demote(space, first, LEAF);
    if (end < PAGES && entry_of(space, end))
        demote(space, end, LEAF);
    for (uint32_t page = first; page < end; page++)
        entry_of(space, page)->is_writable = may_store;
    tlb_flush(space, first, end);
    for (uint32_t page = first; page < end; page++)
        if (entry_of(space, page)->is_present)
            promote(space, page);
}

/* Each page of the entry is resident, by a page of the same size, in the frame that the entry tells; and both begin where such a page may. */
static bool agrees(const tlb_entry *at) {
    uint32_t pages = PAGES_OF(at->size);
    if (at->page % pages != 0 || at->frame % pages != 0)
        return false;
    for (uint32_t i = 0; i < pages; i++) {
        const entry *page = entry_of(at->space, at->page + i);
        if (!page->is_present || page->frame != at->frame + i || page->size != at->size || at->may_store != (page->is_writable && page->is_dirty))
            return false;
    }
    return true;
}

bool kernel_tlb_agrees(void) {
    for (uint32_t i = 0; i < TLB_ENTRIES; i++)
        if (tlb_at(i)->is_valid && !agrees(tlb_at(i)))
            return false;
    return true;
}
