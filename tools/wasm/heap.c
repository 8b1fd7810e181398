/* The heap that the program's allocator calls, in place of the C library's: blocks by classes of sizes, four to each power of two, each class with a
   list of the blocks that were given back. Nothing proves it. In front of each block stand its class and how many bytes it has in all. */
#include "room.h"

/* What the program asks for: whether there is a block, and where. */
struct tried { u64 ok; void *at; };

enum { HEAD = 16, LEAST = 64, PAGE = 65536, CLASSES = 256 };
static const u64 most = 1ul << 40;

extern u8 __heap_base;
static u64 top, end;
static void *given_back[CLASSES];
/* Where a block of no bytes is. */
static u8 nothing[HEAD] __attribute__((aligned(16)));

/* The class of a block of so many bytes, and how many it has. */
static u64 class_of(u64 count, u64 *bytes) {
    if (count < LEAST) count = LEAST;
    u64 power = 63 - __builtin_clzl(count), step = 1ul << (power - 2), whole = (count + step - 1) & ~(step - 1);
    if (whole == 1ul << (power + 1)) {
        power++;
        step *= 2;
    }
    *bytes = whole;
    return power * 4 + (whole / step & 3);
}

/* Whether there are so many bytes more, behind the blocks that were made. */
static int has_room(u64 bytes) {
    if (!top) {
        top = ((u64)&__heap_base + HEAD - 1) & ~(u64)(HEAD - 1);
        end = __builtin_wasm_memory_size(0) * PAGE;
    }
    if (top + bytes <= end) return 1;
    u64 pages = (top + bytes - end + PAGE - 1) / PAGE;
    if (__builtin_wasm_memory_grow(0, pages) == (u64)-1) return 0;
    end += pages * PAGE;
    return 1;
}

void *room_of(u64 count) {
    if (count > most) return 0;
    u64 bytes, class = class_of(count + HEAD, &bytes);
    if (given_back[class]) {
        void *at = given_back[class];
        given_back[class] = *(void **)at;
        return at;
    }
    if (!has_room(bytes)) return 0;
    u64 *head = (u64 *)top;
    top += bytes;
    head[0] = class;
    head[1] = bytes;
    return (u8 *)head + HEAD;
}

void rattle_dealloc(void *at) {
    if (at == nothing) return;
    u64 class = *(u64 *)((u8 *)at - HEAD);
    *(void **)at = given_back[class];
    given_back[class] = at;
}

struct tried rattle_alloc(u64 count, u64 align) {
    void *at = align > HEAD ? 0 : count ? room_of(count) : nothing;
    return (struct tried){at != 0, at ? at : nothing};
}

struct tried rattle_realloc(void *at, u64 kept, u64 count, u64 align) {
    if (at != nothing && count && count + HEAD <= *(u64 *)((u8 *)at - 8)) return (struct tried){1, at};
    struct tried more = rattle_alloc(count, align);
    if (!more.ok) return more;
    __builtin_memcpy(more.at, at, kept < count ? kept : count);
    rattle_dealloc(at);
    return more;
}
