/* A small ray tracer: 32,768 mirroring balls, which a grid of cells finds, and one light. Each pixel of an image of SIDE times SIDE follows a ray
 * over at most three mirrors. What the rays meet lies about the scene in no order.
 *
 *     raytrace [SIDE]
 *
 * SIDE is 150 where it isn't given: a scene of 2 MB, and some 110 million accesses, instructions among them. 1 makes three million, most of them for
 * the scene, and 460 a billion. */
#include <stdint.h>
#include <stdio.h>
#include <stdlib.h>

enum { CELLS = 32, BALLS = 32768, MIRRORS = 3 };

typedef struct {
    double x, y, z;
} Vector;

typedef struct {
    Vector middle;
    double radius, shade;
    /* The next ball whose middle is in the same cell, or -1. */
    int next;
} Ball;

typedef struct {
    Ball *balls;
    /* The first ball of each cell, or -1. The scene is a cube of side 1. */
    int *cells;
} Scene;

static const Vector LIGHT = {0.48, 0.64, -0.6};

static Vector along(Vector from, Vector way, double far) {
    return (Vector){from.x + far * way.x, from.y + far * way.y, from.z + far * way.z};
}

static double dot(Vector a, Vector b) {
    return a.x * b.x + a.y * b.y + a.z * b.z;
}

/* The square root of a number from 0 to 4, by Newton's steps. */
static double root(double x) {
    double r = x < 1 ? 1 : x;
    for (int n = 0; n < 12; n++)
        r = (r + x / r) / 2;
    return r;
}

static Vector unit(Vector v) {
    return along((Vector){0, 0, 0}, v, 1 / root(dot(v, v)));
}

static double drawn(uint64_t *state) {
    *state = *state * 6364136223846793005u + 1442695040888963407u;
    return (double)(*state >> 33) / 2147483648.0;
}

static int cell_at(Vector p) {
    int x = (int)(p.x * CELLS), y = (int)(p.y * CELLS), z = (int)(p.z * CELLS);
    return (x * CELLS + y) * CELLS + z;
}

static void fill(Scene *scene) {
    uint64_t state = 7;
    for (int i = 0; i < CELLS * CELLS * CELLS; i++)
        scene->cells[i] = -1;
    for (int i = 0; i < BALLS; i++) {
        Ball *ball = &scene->balls[i];
        ball->middle = (Vector){drawn(&state), drawn(&state), drawn(&state)};
        ball->radius = 0.0025 + 0.01 * drawn(&state);
        ball->shade = 0.2 + 0.8 * drawn(&state);
        int *cell = &scene->cells[cell_at(ball->middle)];
        ball->next = *cell;
        *cell = i;
    }
}

/* How far a ray goes to a ball, or a negative number. */
static double distance(const Ball *ball, Vector from, Vector way) {
    Vector to = along(ball->middle, from, -1);
    double half = dot(to, way), rest = half * half - dot(to, to) + ball->radius * ball->radius;
    return rest < 0 ? -1 : half - root(rest);
}

/* The first ball that a ray meets of those in the cells that it goes through, or NULL. */
static const Ball *meets(const Scene *scene, Vector from, Vector way, double *far) {
    for (double at = 0; at < 2; at += 0.5 / CELLS) {
        Vector p = along(from, way, at);
        if (p.x < 0 || p.y < 0 || p.z < 0 || p.x >= 1 || p.y >= 1 || p.z >= 1)
            return NULL;
        const Ball *best = NULL;
        for (int i = scene->cells[cell_at(p)]; i >= 0; i = scene->balls[i].next) {
            double d = distance(&scene->balls[i], from, way);
            if (d > 1e-6 && (best == NULL || d < *far)) {
                best = &scene->balls[i];
                *far = d;
            }
        }
        if (best != NULL)
            return best;
    }
    return NULL;
}

/* How bright it is where a ray comes from. */
static double brightness(const Scene *scene, Vector from, Vector way) {
    double bright = 0, share = 1, far = 0;
    for (int mirror = 0; mirror < MIRRORS; mirror++) {
        const Ball *ball = meets(scene, from, way, &far);
        if (ball == NULL)
            return bright + share * (0.5 + 0.5 * way.y);
        from = along(from, way, far);
        Vector normal = unit(along(from, ball->middle, -1));
        double lit = dot(normal, LIGHT), shadow = 0;
        if (lit > 0 && meets(scene, along(from, normal, 1e-4), LIGHT, &shadow) == NULL)
            bright += share * lit * ball->shade;
        share *= 0.5;
        way = along(way, normal, -2 * dot(way, normal));
        from = along(from, normal, 1e-4);
    }
    return bright;
}

int main(int argc, char **argv) {
    size_t side = argc > 1 ? strtoul(argv[1], NULL, 10) : 150;
    Scene scene = {malloc(BALLS * sizeof(Ball)), malloc(CELLS * CELLS * CELLS * sizeof(int))};
    unsigned char *image = malloc(side * side);
    if (side == 0 || scene.balls == NULL || scene.cells == NULL || image == NULL) {
        fputs("raytrace: no such image\n", stderr);
        return 1;
    }
    fill(&scene);
    unsigned sum = 0;
    for (size_t y = 0; y < side; y++)
        for (size_t x = 0; x < side; x++) {
            Vector way = unit((Vector){((double)x + 0.5) / (double)side - 0.5, ((double)y + 0.5) / (double)side - 0.5, 1});
            double bright = brightness(&scene, (Vector){0.5, 0.5, 0}, way);
            image[y * side + x] = (unsigned char)(bright > 1 ? 255 : 255 * bright);
            sum = sum * 31 + image[y * side + x];
        }
    printf("%08x\n", sum);
    free(scene.balls);
    free(scene.cells);
    free(image);
    return 0;
}
