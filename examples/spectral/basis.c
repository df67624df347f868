/*
 * From samples to a basis and back: the covariance of an area, its principal components by symmetric_eigen or lanczos, and the two
 * transforms that a codec does itself.
 */
#include <math.h>
#include <stdio.h>
#include <stdlib.h>
#include <string.h>
#include "spectral.h"

struct basis new_basis(const struct plan *plan)
{
    size_t cells = crewelmarsh_matrix_len(plan->kept, plan->bands);
    struct basis basis;
    basis.values = room(plan->kept + 2 * cells, sizeof *basis.values);
    basis.forward = basis.values + plan->kept;
    basis.inverse = basis.forward + cells;
    return basis;
}

void free_basis(struct basis *basis)
{
    free(basis->values);
}

/*
 * 25 and 26 say to take fewer samples: every second one in both directions, every fourth, and so on. With 2,896 and fewer neither
 * comes, so that the loop ends.
 */
struct taken area_covariance(const int16_t *cube, size_t bands, size_t side, struct area a, double *matrix)
{
    int16_t *samples = room(bands * a.side * a.side, sizeof *samples);
    struct taken taken = {0, 1, CREWELMARSH_DONE};
    for (;; taken.stride *= 2) {
        struct crewelmarsh_answer got;
        size_t at = 0;
        for (size_t b = 0; b < bands; b++)
            for (size_t y = 0; y < a.side; y += taken.stride)
                for (size_t x = 0; x < a.side; x += taken.stride)
                    samples[at++] = cube[(b * side + a.y + y) * side + a.x + x];
        taken.count = at / bands;
        got = crewelmarsh_covariance(bands, taken.count, samples, at, matrix, crewelmarsh_covariance_matrix_len(bands));
        if (got.answer != CREWELMARSH_SAMPLES && got.answer != CREWELMARSH_ENTRY_OVER) {
            must(got, "covariance");
            free(samples);
            return taken;
        }
        taken.refusal = got.answer;
    }
}

/* Adds a run to the tally. A full one is reported and begun anew. */
static void count_run(struct crewelmarsh_tally *tally, struct crewelmarsh_answer a)
{
    size_t said = crewelmarsh_tally_add(tally, a.answer, a.count);
    if (said == CREWELMARSH_TALLY_FULL) {
        struct crewelmarsh_tally empty = CREWELMARSH_TALLY_EMPTY;
        tally_line(tally);
        *tally = empty;
        said = crewelmarsh_tally_add(tally, a.answer, a.count);
    }
    if (said != CREWELMARSH_DONE)
        fail("tally_add", crewelmarsh_text(said));
}

void tally_line(const struct crewelmarsh_tally *tally)
{
    printf("  tally: %zu runs, %zu done, %zu at the limit, %zu passes, %zu at the most, first in run %zu\n", tally->tiles,
           tally->counts[CREWELMARSH_DONE], tally->counts[CREWELMARSH_LIMIT_USED], tally->passes, tally->most, tally->first);
}

/*
 * symmetric_eigen has values ascending and the vector of value j in column j of n by n, lanczos values descending and the vector of
 * value t in row t. leading gives the first the layout of the second.
 */
static struct crewelmarsh_answer by_eigen(const struct plan *plan, const double *matrix, struct basis *basis)
{
    size_t n = plan->bands, k = plan->kept, work_len = crewelmarsh_symmetric_eigen_work_len(n), len = crewelmarsh_symmetric_eigen_result_len(n);
    size_t rows_len = crewelmarsh_leading_out_len(n, k);
    double *work = room(work_len, sizeof *work), *result = room(len, sizeof *result), *rows = room(rows_len, sizeof *rows);
    struct crewelmarsh_answer a = crewelmarsh_symmetric_eigen(n, plan->limit, EDITION, matrix, n * n, work, work_len, result, len);
    if (a.answer == CREWELMARSH_DONE)
        must(crewelmarsh_leading(n, k, result, len, rows, rows_len), "leading");
    memcpy(basis->values, rows, k * sizeof *rows);
    memcpy(basis->forward, rows + k, k * n * sizeof *rows);
    free(work);
    free(result);
    free(rows);
    return a;
}

static struct crewelmarsh_answer by_lanczos(const struct plan *plan, const double *matrix, struct basis *basis)
{
    size_t n = plan->bands, k = plan->kept, work_len = crewelmarsh_lanczos_work_len(n, k), len = crewelmarsh_lanczos_answer_len(n, k);
    double *work = room(work_len, sizeof *work), *answer = room(len, sizeof *answer), *start = room(n, sizeof *start);
    struct crewelmarsh_answer a;
    make_start(start, n); /* the same for all tiles, since the bits depend on it */
    a = crewelmarsh_lanczos(n, k, plan->limit, EDITION, matrix, n * n, start, n, work, work_len, answer, len);
    memcpy(basis->values, answer, k * sizeof *answer);
    memcpy(basis->forward, answer + k, k * n * sizeof *answer);
    if (a.answer == CREWELMARSH_DONE && a.place < k) /* the rest are rows of zeros: components of zeros, which cost nearly nothing */
        printf("  lanczos: %zu of %zu pairs found\n", a.place, k);
    free(work);
    free(answer);
    free(start);
    return a;
}

/*
 * Whether values descend and each row is a vector of its value: matrix * row is value * row, within a thousandth of the greatest value
 * (the last rows of lanczos are not nearer). It is a test of the layout: rows taken for columns are orthonormal too, decode without an
 * error and lose the whole gain.
 */
static int rows_fit(const struct plan *plan, const double *matrix, const struct basis *basis)
{
    size_t n = plan->bands;
    for (size_t c = 0; c < plan->kept; c++) {
        const double *row = basis->forward + c * n;
        double square = 0;
        for (size_t i = 0; i < n; i++) {
            double off = -basis->values[c] * row[i];
            for (size_t j = 0; j < n; j++)
                off += matrix[i * n + j] * row[j];
            square += off * off;
        }
        if (!(sqrt(square) <= 1e-3 * basis->values[0]) || (c > 0 && !(basis->values[c] <= basis->values[c - 1])))
            return 0;
    }
    return 1;
}

int derive(const struct plan *plan, const int16_t *cube, struct area a, struct basis *basis, struct crewelmarsh_tally *tally)
{
    size_t n = plan->bands, k = plan->kept;
    double *matrix = room(crewelmarsh_covariance_matrix_len(n), sizeof *matrix);
    struct taken taken = area_covariance(cube, n, plan->side, a, matrix);
    struct crewelmarsh_answer got;
    if (taken.stride > 1)
        printf("  covariance: %s; taken of %zu samples a band, one of %zu each way\n", crewelmarsh_text(taken.refusal), taken.count,
               taken.stride);
    got = k < n ? by_lanczos(plan, matrix, basis) : by_eigen(plan, matrix, basis);
    count_run(tally, got);
    /* 8 and 10 can be scaled away elsewhere; whole numbers of at most 2^53 leave nothing to scale. */
    if (got.answer != CREWELMARSH_LIMIT_USED && got.answer != CREWELMARSH_OVERFLOW && got.answer != CREWELMARSH_INVALID)
        must(got, k < n ? "lanczos" : "symmetric_eigen");
    if (got.answer == CREWELMARSH_DONE && !rows_fit(plan, matrix, basis))
        fail("a basis is not of its matrix", "");
    for (size_t c = 0; c < k; c++)
        for (size_t b = 0; b < n; b++)
            basis->inverse[b * k + c] = basis->forward[c * n + b];
    free(matrix);
    return got.answer == CREWELMARSH_DONE;
}

/* A band's mean is its exact sum over the number of samples, rounded once and then to a whole number. */
void area_means(const int16_t *cube, size_t bands, size_t side, struct area a, int16_t *means)
{
    size_t count = a.side * a.side, at = 0;
    int16_t *samples = room(bands * count, sizeof *samples);
    double *sums = room(bands, sizeof *sums);
    for (size_t b = 0; b < bands; b++)
        for (size_t y = a.y; y < a.y + a.side; y++, at += a.side)
            memcpy(samples + at, cube + (b * side + y) * side + a.x, a.side * sizeof *samples);
    must(crewelmarsh_sums(bands, count, samples, at, sums, bands), "sums");
    for (size_t b = 0; b < bands; b++)
        means[b] = (int16_t)lrint(sums[b] / (double)count);
    free(samples);
    free(sums);
}

void forward_area(const struct plan *plan, const int16_t *cube, struct area a, const double *forward, const int16_t *means, int32_t **planes)
{
    double *sums = room(a.side, sizeof *sums), scale = ldexp(1, (int)plan->fraction);
    for (size_t y = a.y; y < a.y + a.side; y++)
        for (size_t c = 0; c < plan->kept; c++) {
            for (size_t x = 0; x < a.side; x++)
                sums[x] = 0;
            for (size_t b = 0; b < plan->bands; b++) {
                const int16_t *row = cube + (b * plan->side + y) * plan->side + a.x;
                double factor = forward[c * plan->bands + b];
                for (size_t x = 0; x < a.side; x++)
                    sums[x] += factor * (row[x] - means[b]);
            }
            for (size_t x = 0; x < a.side; x++)
                planes[c][y * plan->side + a.x + x] = (int32_t)lrint(sums[x] * scale);
        }
    free(sums);
}

void inverse_area(const struct undo *undo, const int32_t *const *planes, size_t stride, int16_t *cube, size_t side, struct area a)
{
    double *sums = room(a.side, sizeof *sums), scale = ldexp(1, -(int)undo->fraction);
    for (size_t y = 0; y < a.side; y++)
        for (size_t b = 0; b < undo->bands; b++) {
            int16_t *row = cube + (b * side + a.y + y) * side + a.x;
            for (size_t x = 0; x < a.side; x++)
                sums[x] = undo->means[b];
            for (size_t c = 0; c < undo->components; c++) {
                const int32_t *plane = planes[c] + y * stride;
                double factor = undo->inverse[b * undo->components + c] * scale;
                for (size_t x = 0; x < a.side; x++)
                    sums[x] += factor * plane[x];
            }
            for (size_t x = 0; x < a.side; x++)
                row[x] = (int16_t)(sums[x] < INT16_MIN ? INT16_MIN : sums[x] > INT16_MAX ? INT16_MAX : lrint(sums[x]));
        }
    free(sums);
}

static uint64_t fold(uint64_t sum, uint64_t bits) /* FNV-1a, byte by byte */
{
    for (int i = 0; i < 8; i++) {
        sum = (sum ^ (bits & 255)) * 1099511628211u;
        bits >>= 8;
    }
    return sum;
}

uint64_t undo_sum(const struct undo *undo)
{
    uint64_t sum = fold(14695981039346656037u, undo->fraction);
    for (size_t b = 0; b < undo->bands; b++)
        sum = fold(sum, (uint16_t)undo->means[b]);
    for (size_t i = 0; i < undo->bands * undo->components; i++) {
        uint64_t bits;
        memcpy(&bits, &undo->inverse[i], sizeof bits);
        sum = fold(sum, bits);
    }
    return sum;
}
