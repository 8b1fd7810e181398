/* The memory of the library, out of a buffer that the caller hands over: for a kernel, which has no malloc. Blocks are taken one behind the other,
 * and the buffer is whole again once each was given back, as superpager_close does. It calls nothing. */
#include "superpager.h"

typedef struct { bool is_there; void *at; } block;

static unsigned char *first, *next, *end, nowhere;
static size_t blocks;

void superpager_memory(void *buffer, size_t bytes) {
    first = next = buffer;
    end = first + bytes;
}

size_t superpager_memory_taken(void) {
    return (size_t)(next - first);
}

block rattle_alloc(size_t bytes, size_t align) {
    bytes = bytes ? bytes : align;
    size_t gap = (align - (uintptr_t)next % align) % align, left = (size_t)(end - next);
    if (gap > left || bytes > left - gap)
        return (block){false, &nowhere};
    unsigned char *at = next + gap;
    next = at + bytes;
    blocks++;
    return (block){true, at};
}

void rattle_dealloc(void *at) {
    (void)at;
    if (--blocks == 0)
        next = first;
}

block rattle_realloc(void *at, size_t kept, size_t bytes, size_t align) {
    block moved = rattle_alloc(bytes, align);
    if (!moved.is_there)
        return moved;
    for (size_t i = 0; i < kept; i++)
        ((unsigned char *)moved.at)[i] = ((unsigned char *)at)[i];
    rattle_dealloc(at);
    return moved;
}
