/* Rotates an image of SIDE times SIDE pixels of four bytes by 90 degrees, clockwise: a row of the one is a column of the other.
 *
 *     rotate [SIDE]
 *
 * SIDE is 2000 where it isn't given: two images of 16 MB, and some 100 million accesses, instructions among them. 200 makes a million, and 6000 a
 * billion. */
#include <stdint.h>
#include <stdio.h>
#include <stdlib.h>

/* A picture of rings, so that each pixel is told by where it is. */
static void draw(uint32_t *image, size_t side) {
    for (size_t y = 0; y < side; y++)
        for (size_t x = 0; x < side; x++)
            image[y * side + x] = (uint32_t)((x * x + 3 * y * y) >> 4);
}

static void rotate(uint32_t *to, const uint32_t *from, size_t side) {
    for (size_t y = 0; y < side; y++)
        for (size_t x = 0; x < side; x++)
            to[x * side + (side - 1 - y)] = from[y * side + x];
}

static uint32_t hash(const uint32_t *image, size_t side) {
    uint32_t h = 0;
    for (size_t i = 0; i < side * side; i++)
        h = h * 31 + image[i];
    return h;
}

int main(int argc, char **argv) {
    size_t side = argc > 1 ? strtoul(argv[1], NULL, 10) : 2000;
    uint32_t *from = malloc(side * side * sizeof *from), *to = malloc(side * side * sizeof *to);
    if (side == 0 || from == NULL || to == NULL) {
        fputs("rotate: no such image\n", stderr);
        return 1;
    }
    draw(from, side);
    rotate(to, from, side);
    printf("%08x\n", (unsigned)hash(to, side));
    free(from);
    free(to);
    return 0;
}
