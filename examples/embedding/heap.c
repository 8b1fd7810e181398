/* The memory of the library, out of malloc. */
#include <stdbool.h>
#include <stdlib.h>

typedef struct { bool is_there; void *at; } block;

static char nowhere;

static block answered(void *at) {
    return at ? (block){true, at} : (block){false, &nowhere};
}

block rattle_alloc(size_t bytes, size_t align) {
    return answered(malloc(bytes ? bytes : align));
}

block rattle_realloc(void *at, size_t kept, size_t bytes, size_t align) {
    (void)kept;
    return answered(realloc(at, bytes ? bytes : align));
}

void rattle_dealloc(void *at) {
    free(at);
}
