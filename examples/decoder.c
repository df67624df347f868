/*
 * What a decode loop does with a run in steps: two images are opened, and the transform of each has to be worked out from its bands' covariance,
 * one pass at a time, while tiles of a third image wait to be decoded. After every pass a tile gets its turn. In the end both transforms are those of
 * the one call, bit for bit.
 */
#include <stdio.h>
#include <string.h>
#include "crewelmarsh.h"

enum { FIRST = 24, SECOND = 16, LARGER = 24, TILES = 40, TILE = 64, BANDS = 4 };

/* An image whose transform is being worked out: its covariance, and the arrays that the run is lent. They belong to this run alone until it has ended. */
struct image {
    const char *name;
    size_t bands;
    double covariance[LARGER * LARGER], work[LARGER], result[LARGER + LARGER * LARGER];
    struct crewelmarsh_eigen_run run;
};

static struct image first = {"first", FIRST, {0}, {0}, {0}, {0, 0, 0, 0, 0, 0, 0, 0, 0, 0, 0, {0, 0, 0, 0}}};
static struct image second = {"second", SECOND, {0}, {0}, {0}, {0, 0, 0, 0, 0, 0, 0, 0, 0, 0, 0, {0, 0, 0, 0}}};

/* Whole numbers 0 to 99, the same in every run. */
static unsigned next_number(void)
{
    static unsigned state = 7;
    state = (state * 1103515245u + 12345u) & 0x7fffffffu;
    return (state >> 16) % 100;
}

/* The covariance of bands that are alike: only its lower triangle is read. */
static void measure(struct image *image)
{
    size_t i, j;
    for (i = 0; i < image->bands; i++)
        for (j = 0; j <= i; j++)
            image->covariance[i * image->bands + j] = 100.0 / (double)(1 + i - j) + next_number() / 16.0;
}

static void open_image(struct image *image)
{
    size_t n = image->bands;
    measure(image);
    image->run = crewelmarsh_eigen_start(n, CREWELMARSH_MAX_LIMIT, CREWELMARSH_EDITION_2, image->covariance, n * n,
                                         image->work, n, image->result, n + n * n);
}

/* One pass further, if one is left. */
static int step_image(struct image *image)
{
    size_t n = image->bands;
    if (!crewelmarsh_eigen_goes_on(image->run))
        return 0;
    image->run = crewelmarsh_eigen_step(image->run, image->work, n, image->result, n + n * n);
    return 1;
}

static void finish_image(struct image *image)
{
    size_t n = image->bands;
    struct crewelmarsh_answer a;
    image->run = crewelmarsh_eigen_finish(image->run, image->work, n, image->result, n + n * n);
    a = image->run.answer;
    printf("%s image: %zu bands, %s, %zu passes, values %.4f to %.4f\n", image->name, n, crewelmarsh_text(a.answer), a.count,
           image->result[0], image->result[n - 1]);
}

/* The other work: a tile's samples through a small inverse transform. */
static double decode_tile(int tile)
{
    static const double vectors[BANDS][BANDS] = {{0.5, 0.5, 0.5, 0.5}, {0.5, 0.5, -0.5, -0.5}, {0.5, -0.5, -0.5, 0.5}, {0.5, -0.5, 0.5, -0.5}};
    double sum = 0;
    int s, b, c;
    for (s = 0; s < TILE; s++)
        for (b = 0; b < BANDS; b++)
            for (c = 0; c < BANDS; c++)
                sum += vectors[b][c] * (double)((tile + s * c) % 17);
    return sum;
}

/* The one call, on arrays of its own. */
static int as_one_call(const struct image *image)
{
    static double work[LARGER], result[LARGER + LARGER * LARGER];
    size_t n = image->bands;
    struct crewelmarsh_answer a = crewelmarsh_symmetric_eigen(n, CREWELMARSH_MAX_LIMIT, CREWELMARSH_EDITION_2, image->covariance, n * n,
                                                              work, n, result, n + n * n);
    return a.answer == image->run.answer.answer && a.count == image->run.answer.count &&
           memcmp(result, image->result, (n + n * n) * sizeof(double)) == 0;
}

int main(void)
{
    int tiles = 0, passes = 0, good;
    double decoded = 0;
    open_image(&first);
    open_image(&second);
    for (;;) {
        int steps = step_image(&first) + step_image(&second);
        if (steps == 0)
            break;
        passes += steps;
        if (tiles < TILES)
            decoded += decode_tile(tiles++);
    }
    printf("%d steps of two runs, %d tiles decoded in between, sum %.0f\n", passes, tiles, decoded);
    finish_image(&first);
    finish_image(&second);
    good = as_one_call(&first) && as_one_call(&second);
    printf("%s\n", good ? "both as the one call gives them" : "NOT as the one call gives them");
    return !good;
}
