/* The fast Fourier transform of 2^K complex numbers, in place: in pass after pass each number meets another, which is half as far away in the
 * pass before. Then it is turned back, and what differs from the beginning is summed.
 *
 *     fft [K]
 *
 * K is 17 where it isn't given: 2 MB of numbers, and some 110 million accesses, instructions among them. 11 makes a million, and 20 a billion. */
#include <stdio.h>
#include <stdlib.h>

typedef struct {
    double re, im;
} Complex;

static const double PI = 3.14159265358979323846;

/* The sine of an angle from -PI to PI, by its series. */
static double sine(double x) {
    double term = x, sum = x;
    for (int n = 2; n < 30; n += 2) {
        term *= -x * x / (n * (n + 1));
        sum += term;
    }
    return sum;
}

static Complex times(Complex a, Complex b) {
    return (Complex){a.re * b.re - a.im * b.im, a.re * b.im + a.im * b.re};
}

/* Puts each number where the bits of its place are read backwards. */
static void turn_bits(Complex *a, size_t n) {
    for (size_t i = 1, j = 0; i < n; i++) {
        size_t bit = n >> 1;
        for (; j & bit; bit >>= 1)
            j ^= bit;
        j ^= bit;
        if (i < j) {
            Complex held = a[i];
            a[i] = a[j];
            a[j] = held;
        }
    }
}

static void transform(Complex *a, size_t n, int sign) {
    turn_bits(a, n);
    for (size_t half = 1; half < n; half *= 2) {
        double s = sine(PI / 2 / (double)half);
        Complex step = {1 - 2 * s * s, sign * sine(PI / (double)half)};
        for (size_t start = 0; start < n; start += 2 * half) {
            Complex root = {1, 0};
            for (size_t i = start; i < start + half; i++) {
                Complex far = times(a[i + half], root);
                a[i + half] = (Complex){a[i].re - far.re, a[i].im - far.im};
                a[i] = (Complex){a[i].re + far.re, a[i].im + far.im};
                root = times(root, step);
            }
        }
    }
}

static double wave(size_t i) {
    return (double)(i * 37 % 101) - 50;
}

int main(int argc, char **argv) {
    unsigned long k = argc > 1 ? strtoul(argv[1], NULL, 10) : 17;
    size_t n = k < 40 ? (size_t)1 << k : 0;
    Complex *a = malloc(n * sizeof *a);
    if (n == 0 || a == NULL) {
        fputs("fft: no such size\n", stderr);
        return 1;
    }
    for (size_t i = 0; i < n; i++)
        a[i] = (Complex){wave(i), 0};
    transform(a, n, -1);
    transform(a, n, 1);
    double wrong = 0;
    for (size_t i = 0; i < n; i++) {
        double by = a[i].re / (double)n - wave(i);
        wrong += by < 0 ? -by : by;
    }
    puts(wrong < 1e-4 * (double)n ? "right" : "wrong");
    free(a);
    return 0;
}
