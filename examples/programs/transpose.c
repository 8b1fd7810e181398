/* Transposes a matrix of N times N doubles into another, row by row, so that it writes with a stride of a row.
 *
 *     transpose [N]
 *
 * N is 1500 where it isn't given: two matrices of 18 MB, and some 90 million accesses, instructions among them. 150 makes a million, and 5000 a
 * billion. */
#include <stdio.h>
#include <stdlib.h>

static void fill(double *matrix, size_t n) {
    for (size_t i = 0; i < n * n; i++)
        matrix[i] = (double)(i % 1009);
}

static void transpose(double *to, const double *from, size_t n) {
    for (size_t row = 0; row < n; row++)
        for (size_t column = 0; column < n; column++)
            to[column * n + row] = from[row * n + column];
}

/* A sum that tells a matrix from its transpose. */
static double sum(const double *matrix, size_t n) {
    double total = 0;
    for (size_t i = 0; i < n * n; i++)
        total += matrix[i] * (double)(i / n % 7);
    return total;
}

int main(int argc, char **argv) {
    size_t n = argc > 1 ? strtoul(argv[1], NULL, 10) : 1500;
    double *from = malloc(n * n * sizeof *from), *to = malloc(n * n * sizeof *to);
    if (n == 0 || from == NULL || to == NULL) {
        fputs("transpose: no such matrix\n", stderr);
        return 1;
    }
    fill(from, n);
    transpose(to, from, n);
    printf("%.0f\n", sum(to, n));
    free(from);
    free(to);
    return 0;
}
