/*
 * What a codec does with Crewelmarsh: planes of 16-bit samples, their covariance, its values and vectors,
 * the forward transform, the inverse, and the largest difference to the samples. Values and vectors then go into a
 * transform block, from which a decoder takes them for a tile that has no block of its own. Blocks of tiles that come
 * out of order wait in a store. The tiles of the planes are tallied at several limits, as one does who tunes it. Then an
 * svd and a pseudo-inverse of a small matrix.
 */
#include <stdio.h>
#include "crewelmarsh.h"

enum { BANDS = 5, SAMPLES = 1024 };
enum { SERIES = 8, TILE_SAMPLES = SAMPLES / SERIES };
enum { ROWS = 3, COLUMNS = 2, SMALLER = 2 };

/* The planes: sample s of band b is at b * SAMPLES + s. */
static int16_t planes[BANDS * SAMPLES];
static double samples[SAMPLES][BANDS], centred[SAMPLES][BANDS];
static double coded[SAMPLES][BANDS], decoded[SAMPLES][BANDS];
static double mean[BANDS], covariance[BANDS * BANDS];

/* The arrays of symmetric_eigen: the values, then the vectors as columns, row by row. */
static double work[BANDS];
static double result[BANDS + BANDS * BANDS];
static const double *const values = result;
static const double *const vectors = result + BANDS;

/* Whether a call was done; if not, says so as a log would. */
static int done(const char *call, struct crewelmarsh_answer a)
{
    if (a.answer == CREWELMARSH_DONE)
        return 1;
    printf("%s: answer %zu (%s), place %zu, index %zu, count %zu\n", call, a.answer, crewelmarsh_text(a.answer),
           a.place, a.index, a.count);
    return 0;
}

/* Whole numbers 0 to 99, the same in every run. */
static unsigned next_number(void)
{
    static unsigned state = 1;
    state = (state * 1103515245u + 12345u) & 0x7fffffffu;
    return (state >> 16) % 100;
}

/* Samples of bands that are alike: one scene, brighter from band to band, and some noise. */
static void make_samples(void)
{
    int s, b;
    for (s = 0; s < SAMPLES; s++) {
        unsigned scene = next_number() * 8;
        for (b = 0; b < BANDS; b++)
            planes[b * SAMPLES + s] = (int16_t)(100 + scene * (b + 1) / 2 + next_number() / 4);
    }
}

static void centre(void)
{
    int s, b;
    for (b = 0; b < BANDS; b++) {
        mean[b] = 0;
        for (s = 0; s < SAMPLES; s++) {
            samples[s][b] = planes[b * SAMPLES + s];
            mean[b] += samples[s][b];
        }
        mean[b] /= SAMPLES;
        for (s = 0; s < SAMPLES; s++)
            centred[s][b] = samples[s][b] - mean[b];
    }
}

/* A sample times the vectors: component c is the sample along column c. */
static void forward(const double *from, double *to)
{
    int b, c;
    for (c = 0; c < BANDS; c++) {
        to[c] = 0;
        for (b = 0; b < BANDS; b++)
            to[c] += vectors[b * BANDS + c] * from[b];
    }
}

/* The vectors are orthonormal, so that their transpose goes back. */
static void inverse(const double *from, double *to)
{
    int b, c;
    for (b = 0; b < BANDS; b++) {
        to[b] = mean[b];
        for (c = 0; c < BANDS; c++)
            to[b] += vectors[b * BANDS + c] * from[c];
    }
}

static double magnitude(double x) { return x < 0 ? -x : x; }

/* A NaN is not larger than any number, so it is looked for by itself: it comes back, and is below no bound. */
static double largest_difference(const double *x, const double *y, int length)
{
    double largest = 0;
    int i;
    for (i = 0; i < length; i++) {
        double difference = magnitude(x[i] - y[i]);
        if (difference != difference)
            return difference;
        if (difference > largest)
            largest = difference;
    }
    return largest;
}

static int transform_bands(void)
{
    struct crewelmarsh_answer a;
    double difference;
    int s, b;
    make_samples();
    centre();
    a = crewelmarsh_covariance(BANDS, SAMPLES, planes, BANDS * SAMPLES, covariance, BANDS * BANDS);
    if (!done("covariance", a))
        return 0;
    printf("covariance: %d bands of %d samples, first row times %d * %d", BANDS, SAMPLES, SAMPLES, SAMPLES);
    for (b = 0; b < BANDS; b++)
        printf(" %.0f", covariance[b]);
    printf("\n");
    a = crewelmarsh_symmetric_eigen(BANDS, CREWELMARSH_MAX_LIMIT, CREWELMARSH_EDITION_1, covariance, BANDS * BANDS,
                                    work, BANDS, result, BANDS + BANDS * BANDS);
    if (!done("symmetric_eigen", a))
        return 0;
    printf("symmetric_eigen: %d bands, %zu passes, values", BANDS, a.count);
    for (b = 0; b < BANDS; b++)
        printf(" %.4f", values[b] / ((double)SAMPLES * SAMPLES));
    printf("\n");

    for (s = 0; s < SAMPLES; s++) {
        forward(centred[s], coded[s]);
        inverse(coded[s], decoded[s]);
    }
    difference = largest_difference(&samples[0][0], &decoded[0][0], SAMPLES * BANDS);
    printf("forward and inverse: %d samples, largest difference %.2g\n", SAMPLES * BANDS, difference);
    return difference < 1e-9;
}

/* Tile t has every band's samples t * TILE_SAMPLES and on. Values and vectors of each, and one report on all of them. */
static int tally_tiles(size_t limit)
{
    static int16_t part[BANDS * TILE_SAMPLES];
    double matrix[BANDS * BANDS], own_work[BANDS], own_result[BANDS + BANDS * BANDS];
    struct crewelmarsh_tally tally = CREWELMARSH_TALLY_EMPTY;
    struct crewelmarsh_answer a;
    int t, b, s;
    for (t = 0; t < SERIES; t++) {
        for (b = 0; b < BANDS; b++)
            for (s = 0; s < TILE_SAMPLES; s++)
                part[b * TILE_SAMPLES + s] = planes[b * SAMPLES + t * TILE_SAMPLES + s];
        a = crewelmarsh_covariance(BANDS, TILE_SAMPLES, part, BANDS * TILE_SAMPLES, matrix, BANDS * BANDS);
        if (!done("covariance", a))
            return 0;
        a = crewelmarsh_symmetric_eigen(BANDS, limit, CREWELMARSH_EDITION_1, matrix, BANDS * BANDS,
                                        own_work, BANDS, own_result, BANDS + BANDS * BANDS);
        if (crewelmarsh_tally_add(&tally, a.answer, a.count) != CREWELMARSH_DONE)
            return 0;
    }
    printf("tally at limit %zu: %zu tiles, %zu done, %zu at the limit, %zu passes, %zu at the most, first in tile %zu\n", limit,
           tally.tiles, tally.counts[CREWELMARSH_DONE], tally.counts[CREWELMARSH_LIMIT_USED], tally.passes, tally.most, tally.first);
    return tally.tiles == SERIES;
}

/* A * A+ * A, which is A again. */
static void there_and_back(const double *a, const double *inverse_of_a, double *product)
{
    double left[ROWS * ROWS];
    int i, j, k;
    for (i = 0; i < ROWS; i++)
        for (j = 0; j < ROWS; j++) {
            left[i * ROWS + j] = 0;
            for (k = 0; k < COLUMNS; k++)
                left[i * ROWS + j] += a[i * COLUMNS + k] * inverse_of_a[k * ROWS + j];
        }
    for (i = 0; i < ROWS; i++)
        for (j = 0; j < COLUMNS; j++) {
            product[i * COLUMNS + j] = 0;
            for (k = 0; k < ROWS; k++)
                product[i * COLUMNS + j] += left[i * ROWS + k] * a[k * COLUMNS + j];
        }
}

/* The decomposition is the result of svd, passed on as it is with the same sizes and flags. */
static int invert_small(void)
{
    static const double a[ROWS * COLUMNS] = {1, 2, 3, 4, 5, 6};
    double svd_work[ROWS * SMALLER + SMALLER * SMALLER + SMALLER];
    double decomposition[SMALLER + ROWS * SMALLER + SMALLER * COLUMNS];
    double inverse_of_a[COLUMNS * ROWS], product[ROWS * COLUMNS], difference;
    size_t work_len = crewelmarsh_svd_work_len(ROWS, COLUMNS);
    size_t len = crewelmarsh_svd_result_len(ROWS, COLUMNS, 1, 1);
    struct crewelmarsh_part row;

    struct crewelmarsh_answer answer = crewelmarsh_svd(
        ROWS, COLUMNS, 1, 1, CREWELMARSH_MAX_LIMIT, a, ROWS * COLUMNS, svd_work, work_len, decomposition, len);
    if (!done("svd", answer))
        return 0;
    row = crewelmarsh_vt_row(ROWS, COLUMNS, 1, 1, decomposition, len, 0);
    printf("svd: %zu sweeps, values %.4f %.4f, first row of V^T %.4f %.4f\n", answer.count, decomposition[0],
           decomposition[1], row.start[0], row.start[1]);

    answer = crewelmarsh_pseudo_inverse(
        ROWS, COLUMNS, 1, 1, 1e-12, decomposition, len, inverse_of_a, COLUMNS * ROWS);
    if (!done("pseudo_inverse", answer))
        return 0;
    there_and_back(a, inverse_of_a, product);
    difference = largest_difference(a, product, ROWS * COLUMNS);
    printf("pseudo_inverse: largest difference of A * A+ * A to A %.2g\n", difference);
    return difference < 1e-9;
}

/* Whether a part was copied and the tile's own block is not refused: in its stead the main one's part would have come. */
static int copied(struct crewelmarsh_answer a)
{
    if (!done("block_copy", a))
        return 0;
    if (a.place == CREWELMARSH_DONE)
        return 1;
    printf("block_copy: the own block has %zu (%s)\n", a.place, crewelmarsh_text(a.place));
    return 0;
}

/* The values and vectors as a block, the numbers of which a decoder gets back bit for bit. The tile's own block has values
   alone, so that they come from there and the vectors from the main header. */
static int pass_as_block(void)
{
    static const double own_values[BANDS] = {1, 2, 3, 4, 5};
    static unsigned char own[36 - 12 + 8 * BANDS], main_block[36 + 8 * (BANDS + BANDS * BANDS)];
    double values_back[BANDS], vectors_back[BANDS * BANDS];
    size_t own_len = crewelmarsh_block_length(BANDS, BANDS, 1, CREWELMARSH_VALUES, 0, 0);
    size_t main_len = crewelmarsh_block_length(BANDS, BANDS, 2, CREWELMARSH_VALUES, CREWELMARSH_MATRIX, 0);
    struct crewelmarsh_block about;
    struct crewelmarsh_block_part at;

    if (own_len != sizeof own || main_len != sizeof main_block)
        return 0;
    if (!done("block_write", crewelmarsh_block_write(BANDS, BANDS, 1, CREWELMARSH_VALUES, own_values, BANDS, 0, NULL, 0, 0, NULL, 0,
                                                     own, own_len)) ||
        !done("block_write", crewelmarsh_block_write(BANDS, BANDS, 2, CREWELMARSH_VALUES, values, BANDS, CREWELMARSH_MATRIX, vectors,
                                                     BANDS * BANDS, 0, NULL, 0, main_block, main_len)))
        return 0;
    about = crewelmarsh_block_check(main_block, main_len);
    printf("block: %zu bytes, %zu by %zu, %zu parts\n", main_len, about.rows, about.columns, about.parts);

    at = crewelmarsh_block_find(own, own_len, main_block, main_len, CREWELMARSH_MATRIX);
    printf("block: vectors from block %zu, offset %zu, %zu numbers, %zu by %zu\n", at.block, at.start, at.count, at.rows, at.columns);
    if (at.own_answer != CREWELMARSH_DONE || at.rows != BANDS || at.columns != BANDS)
        return 0;
    if (!copied(crewelmarsh_block_copy(own, own_len, main_block, main_len, CREWELMARSH_VALUES, values_back, BANDS)) ||
        !copied(crewelmarsh_block_copy(own, own_len, main_block, main_len, CREWELMARSH_MATRIX, vectors_back, BANDS * BANDS)))
        return 0;
    about = crewelmarsh_block_check(main_block, main_len - 1);
    printf("block cut by a byte: answer %zu (%s)\n", about.answer, crewelmarsh_text(about.answer));
    own[19] ^= 1; /* the values' offset */
    at = crewelmarsh_block_find(own, own_len, main_block, main_len, CREWELMARSH_VALUES);
    printf("own block with a byte wrong: answer %zu (%s), values from block %zu\n", at.own_answer, crewelmarsh_text(at.own_answer), at.block);
    return largest_difference(own_values, values_back, BANDS) == 0 && largest_difference(vectors, vectors_back, BANDS * BANDS) == 0;
}

/* The block of an image's tile: BANDS values, the first of which are the image's and the tile's numbers. */
enum { IMAGES = 2, TILES = 3, TILE_BLOCK = 12 + 12 + 8 * BANDS };

static int make_tile(size_t image, uint16_t tile, unsigned char *block)
{
    double own[BANDS] = {0, 0, 2, 3, 4};
    own[0] = (double)image;
    own[1] = tile;
    return done("block_write", crewelmarsh_block_write(BANDS, BANDS, 1, CREWELMARSH_VALUES, own, BANDS, 0, NULL, 0, 0, NULL, 0, block, TILE_BLOCK));
}

/* The store's three arrays, as each of its calls takes them. Each image is an owner, with room for two blocks. */
static size_t list[CREWELMARSH_STORE_LIST_LEN];
static uint16_t tiles[CREWELMARSH_STORE_TILES_LEN];
static unsigned char bytes[IMAGES * 2 * TILE_BLOCK];
#define STORE list, CREWELMARSH_STORE_LIST_LEN, tiles, CREWELMARSH_STORE_TILES_LEN, bytes, sizeof bytes

/* The tile that is an image's next is taken out of the store, as long as it is there. */
static int take_next(size_t image, uint16_t *next)
{
    unsigned char block[TILE_BLOCK];
    double own[BANDS];
    while (crewelmarsh_store_length(image, STORE, *next).answer == CREWELMARSH_DONE) {
        if (!done("store_fetch", crewelmarsh_store_fetch(image, STORE, *next, block, sizeof block)) ||
            !done("store_drop", crewelmarsh_store_drop(image, STORE, *next)) ||
            !copied(crewelmarsh_block_copy(block, sizeof block, NULL, 0, CREWELMARSH_VALUES, own, BANDS)) ||
            own[0] != (double)image || own[1] != *next)
            return 0;
        printf(" %u", *next);
        *next += 1;
    }
    return 1;
}

/* Tiles of two images come out of order and are decoded in order: each block waits in the store for its turn. */
static int keep_tiles(void)
{
    static const struct { size_t image; uint16_t tile; } order[IMAGES * TILES] = {{0, 2}, {1, 1}, {0, 0}, {1, 2}, {0, 1}, {1, 0}};
    unsigned char block[TILE_BLOCK];
    uint16_t next[IMAGES] = {0, 0};
    int i;
    if (!done("store_setup", crewelmarsh_store_setup(2 * TILE_BLOCK, 2 * TILE_BLOCK, STORE)))
        return 0;
    for (i = 0; i < IMAGES * TILES; i++) {
        size_t image = order[i].image;
        uint16_t waiting = next[image];
        if (!make_tile(image, order[i].tile, block))
            return 0;
        printf("store: tile %u of image %zu came, decoded", order[i].tile, image);
        /* The next tile need not wait, and so needs no room. */
        if (order[i].tile == waiting) {
            printf(" %u", order[i].tile);
            next[image] += 1;
        } else if (!done("store_put", crewelmarsh_store_put(image, STORE, order[i].tile, block, sizeof block)))
            return 0;
        if (!take_next(image, &next[image]))
            return 0;
        printf("%s, %zu and %zu held\n", next[image] == waiting ? " none" : "", list[2], list[36]);
    }
    return next[0] == TILES && next[1] == TILES;
}

/* What a refusal looks like: 257 bands, and bands with no sample. */
static void refuse(void)
{
    struct crewelmarsh_tally tally = CREWELMARSH_TALLY_EMPTY;
    size_t refusal = crewelmarsh_tally_add(&tally, 0, 15361);
    done("symmetric_eigen of 257", crewelmarsh_symmetric_eigen(257, 60, CREWELMARSH_EDITION_1, NULL, 0, NULL, 0, NULL, 0));
    done("covariance of no sample", crewelmarsh_covariance(3, 0, NULL, 0, NULL, 0));
    done("store_drop of a tile that is gone", crewelmarsh_store_drop(1, STORE, 2));
    printf("tally_add of 15,361 passes: %zu (%s)\n", refusal, crewelmarsh_text(refusal));
}

int main(void)
{
    int good = transform_bands();
    good = pass_as_block() && good;
    good = keep_tiles() && good;
    good = tally_tiles(3) && good;
    good = tally_tiles(4) && good;
    good = tally_tiles(CREWELMARSH_MAX_LIMIT) && good;
    good = invert_small() && good;
    refuse();
    printf("%s\n", good ? "good" : "NOT good");
    return !good;
}
