/* Opens a pool with no C library: its memory is a buffer, and all that it has beside are the memmove and the memset that a compiler asks of every
 * kernel. Built for Linux on x86-64 with -ffreestanding -nostdlib, where it ends with status 0 if each answer was as it should be. */
#include "superpager.h"

enum { BYTES = 8 << 20 };

static superpager pool;
static _Alignas(16) unsigned char buffer[BYTES];

void *memmove(void *to, const void *from, size_t bytes) {
    volatile unsigned char *there = to;
    const unsigned char *here = from;

    if (there < here)
        for (size_t i = 0; i < bytes; i++)
            there[i] = here[i];
    else
        for (size_t i = bytes; i > 0; i--)
            there[i - 1] = here[i - 1];
    return to;
}

void *memset(void *at, int byte, size_t bytes) {
    for (volatile unsigned char *next = at; bytes > 0; bytes--)
        *next++ = (unsigned char)byte;
    return at;
}

static int runs(void) {
    superpager_setting setting = {.frames = 512, .processors = 1, .pages_8 = 1, .pages_64 = 1, .pages_512 = 1};
    superpager_want want = {.low = 0, .high = 512, .cap = 512};

    if (superpager_open(&pool, setting) != SUPERPAGER_NO_MEMORY)
        return 1;
    superpager_memory(buffer, sizeof buffer);
    if (superpager_open(&pool, setting) != SUPERPAGER_DONE)
        return 2;
    for (uint32_t page = 0; page < 512; page++)
        if (superpager_take(&pool, 0, page, want).frame != page)
            return 3;
    if (superpager_close(&pool) != SUPERPAGER_DONE || superpager_memory_taken() != 0)
        return 4;
    return 0;
}

static _Noreturn void ends(long status) {
    for (;;)
        __asm__ volatile("syscall" : : "a"(231L), "D"(status) : "rcx", "r11", "memory");
}

__attribute__((force_align_arg_pointer)) _Noreturn void _start(void) {
    ends(runs());
}
