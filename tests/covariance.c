/* crewelmarsh_covariance: its numbers, by another formula; each refusal, in order; guard words and old contents. Then crewelmarsh_sums,
   against sums in 64 bits. */
#include <string.h>
#include "boundary.h"

enum { EDGE = 5, MOST_SAMPLES = 4 * 65536, MOST_BANDS = 256 };

/* The samples start at an odd place, so that they are aligned for int16_t and for nothing larger. */
static int16_t planes[EDGE + MOST_SAMPLES + 1 + EDGE], planes_before[EDGE + MOST_SAMPLES + 1 + EDGE];
static double room[EDGE + MOST_BANDS * MOST_BANDS + 1 + EDGE], room_before[EDGE + MOST_BANDS * MOST_BANDS + 1 + EDGE];
static double first_matrix[MOST_BANDS * MOST_BANDS + 1], wanted[MOST_BANDS * MOST_BANDS];
static int16_t *const samples = planes + EDGE;

/* matrix_len is also the length of what crewelmarsh_sums writes. */
struct covariance_call {
    size_t n, count, samples_len, matrix_len;
};

/* The type of both entries. */
typedef struct crewelmarsh_answer entry(size_t n, size_t count, const int16_t *samples, size_t samples_len, double *matrix, size_t matrix_len);

static struct covariance_call sized(size_t n, size_t count)
{
    struct covariance_call c;
    c.n = n;
    c.count = count;
    c.samples_len = crewelmarsh_covariance_samples_len(n, count);
    c.matrix_len = crewelmarsh_covariance_matrix_len(n);
    return c;
}

static int all_zero(const double *m, size_t length)
{
    size_t i;
    for (i = 0; i < length; i++)
        if (to_bits(m[i]) != 0)
            return 0;
    return 1;
}

static int same_bits(const double *a, const double *b, size_t length)
{
    return memcmp(a, b, length * sizeof(double)) == 0;
}

/* One call between guard words, the matrix full of `byte` before. */
static struct crewelmarsh_answer run(entry *called, const char *what, struct covariance_call c, int byte, int null_if_empty)
{
    double *matrix = room + EDGE;
    struct crewelmarsh_answer a;
    memset(room, byte, sizeof room);
    memcpy(room_before, room, sizeof room);
    memcpy(planes_before, planes, sizeof planes);
    a = called(c.n, c.count, null_if_empty && c.samples_len == 0 ? NULL : samples, c.samples_len,
               null_if_empty && c.matrix_len == 0 ? NULL : matrix, c.matrix_len);
    check(memcmp(planes, planes_before, sizeof planes) == 0, what);
    check(same_bits(room, room_before, EDGE) && same_bits(matrix + c.matrix_len, room_before + EDGE + c.matrix_len, EDGE), what);
    if (a.answer == CREWELMARSH_ENTRY_OVER)
        check(all_zero(matrix, c.matrix_len), what);
    else if (a.answer != CREWELMARSH_DONE)
        check(same_bits(room, room_before, sizeof room / sizeof room[0]), what);
    return a;
}

/* Twice, with other old contents, and the numbers that must come; on 0 the matrix is `wanted`. */
static void expect_entry(entry *called, const char *what, struct covariance_call c, size_t answer, size_t place)
{
    struct crewelmarsh_answer a = run(called, what, c, 0xa5, 1);
    check(a.answer == answer && a.place == place && a.index == 0 && a.count == 0, what);
    memcpy(first_matrix, room + EDGE, c.matrix_len * sizeof(double));
    a = run(called, what, c, 0xff, 0);
    check(a.answer == answer && a.place == place && a.index == 0 && a.count == 0, what);
    if (answer == 0)
        check(same_bits(room + EDGE, first_matrix, c.matrix_len) && same_bits(room + EDGE, wanted, c.matrix_len), what);
}

static void expect_covariance(const char *what, struct covariance_call c, size_t answer, size_t place)
{
    expect_entry(crewelmarsh_covariance, what, c, answer, place);
}

/* Whole numbers below `bound`, the same in every run. */
static unsigned draw(unsigned bound)
{
    static unsigned state = 7;
    state = state * 1664525u + 1013904223u;
    return (state >> 8) % bound;
}

static void fill_band(size_t count, size_t band, int16_t value)
{
    size_t k;
    for (k = 0; k < count; k++)
        samples[band * count + k] = value;
}

/* The sum of (x(i) - x(j)) * (y(i) - y(j)) over all i below j: no sum of samples, and nothing taken off. */
static double by_pairs(size_t count, const int16_t *x, const int16_t *y)
{
    double sum = 0; /* whole numbers below 2^53 here */
    size_t i, j;
    for (i = 0; i < count; i++)
        for (j = i + 1; j < count; j++)
            sum += ((double)x[i] - x[j]) * ((double)y[i] - y[j]);
    return sum;
}

static void want_pairs(size_t n, size_t count)
{
    size_t x, y;
    for (x = 0; x < n; x++)
        for (y = 0; y < n; y++)
            wanted[x * n + y] = by_pairs(count, samples + x * count, samples + y * count);
}

static void small_ones(void)
{
    static const int16_t two[6] = {1, 2, 3, 4, -5, 7};
    memcpy(samples, two, sizeof two);
    wanted[0] = 6;
    wanted[1] = wanted[2] = 9;
    wanted[3] = 234;
    expect_covariance("two bands of three", sized(2, 3), 0, 0);
    wanted[0] = wanted[1] = wanted[2] = wanted[3] = 0;
    expect_covariance("two bands of one", sized(2, 1), 0, 0);
    expect_covariance("no band", sized(0, 1), 0, 0);
    expect_covariance("no band, most samples", sized(0, 65536), 0, 0);
}

static void random_ones(void)
{
    size_t n, count, k;
    for (n = 1; n <= 7; n++)
        for (count = 1; count <= 40; count += 3) {
            for (k = 0; k < n * count; k++)
                samples[k] = (int16_t)((int)draw(65536) - 32768);
            want_pairs(n, count);
            expect_covariance("random bands", sized(n, count), 0, 0);
        }
}

/* Constant bands have no covariance; so the sums cancel exactly, at their largest too. */
static void constant_ones(void)
{
    static const int16_t values[4] = {-32768, 32767, 0, -1};
    size_t i;
    for (i = 0; i < 16; i++)
        wanted[i] = 0;
    for (i = 0; i < 4; i++)
        fill_band(65536, i, values[i]);
    expect_covariance("constant bands", sized(4, 65536), 0, 0);
    for (i = 0; i < MOST_BANDS * MOST_BANDS; i++)
        wanted[i] = 0;
    for (i = 0; i < MOST_BANDS; i++)
        fill_band(1024, i, values[i % 4]);
    expect_covariance("256 constant bands", sized(256, 1024), 0, 0);
}

/* 6,144 samples, 2,048 of them `rare`, the rest `usual`: the own entry is 2^23 * (rare - usual)^2. */
enum { STEPS = 6144, RARE = 2048 };

static void step_band(size_t band, int16_t rare, int16_t usual)
{
    size_t k;
    for (k = 0; k < STEPS; k++)
        samples[band * STEPS + k] = k < RARE ? rare : usual;
}

static void at_two_to_53(void)
{
    double most = power_of_two(53);
    step_band(0, 0, -32768);
    step_band(1, -32768, 0);
    wanted[0] = wanted[3] = most;
    wanted[1] = wanted[2] = -most;
    expect_covariance("2^53 and -2^53", sized(2, STEPS), 0, 0);
    step_band(1, 1, -32768);
    expect_covariance("over in the first row", sized(2, STEPS), 26, 1);
    step_band(1, -32768, 1);
    expect_covariance("under in the first row", sized(2, STEPS), 26, 1);
    step_band(0, 0, -1);
    expect_covariance("over on the diagonal", sized(2, STEPS), 26, 3);
    step_band(1, 0, -32768);
    step_band(2, 1, -32768);
    expect_covariance("over above the diagonal", sized(3, STEPS), 26, 5);
    step_band(0, 1, -32768);
    expect_covariance("over at once", sized(3, STEPS), 26, 0);
    samples[0] = 0; /* of the 2,048 that are 1 */
    expect_covariance("over by less", sized(1, STEPS), 26, 0);
}

static void largest(void)
{
    size_t k;
    for (k = 0; k < 65536; k++)
        samples[k] = (int16_t)(k % 2 ? 32767 : -32768);
    expect_covariance("alternating", sized(1, 65536), 26, 0);
    fill_band(65536, 0, -32768);
    samples[65535] = 32767;
    wanted[0] = 65535.0 * 65535.0 * 65535.0; /* 2^48, about */
    expect_covariance("one sample apart", sized(1, 65536), 0, 0);
    fill_band(65536, 1, 32767);
    samples[65536] = -32768;
    wanted[0] = wanted[3] = 65535.0 * 65535.0 * 65535.0;
    wanted[1] = wanted[2] = 65535.0 * 65535.0;
    expect_covariance("two samples apart", sized(2, 65536), 0, 0);
}

static void refusals(void)
{
    static const size_t counts[] = {0, 65537, 131072, (size_t)1 << 32, ((size_t)1 << 32) + 3, (size_t)1 << 63, SIZE_MAX};
    struct covariance_call c;
    size_t i;
    for (i = 0; i < LARGE_NUMBERS; i++) {
        c = sized(2, 3);
        c.n = large_numbers[i];
        expect_covariance("too many bands", c, 1, 0);
        c.count = 0;
        c.samples_len = c.matrix_len = 0;
        expect_covariance("too many bands, and all else wrong", c, 1, 0);
    }
    for (i = 0; i < sizeof counts / sizeof counts[0]; i++) {
        c = sized(2, 3);
        c.count = counts[i];
        expect_covariance("samples out of range", c, 25, 0);
        c.samples_len = c.matrix_len = 1;
        expect_covariance("samples out of range, lengths wrong", c, 25, 0);
        c.n = c.samples_len = c.matrix_len = 0;
        expect_covariance("samples out of range, no band", c, 25, 0);
    }
    for (i = 0; i < 12; i++) {
        c = sized(2, 3);
        c.samples_len = i == 6 ? 7 : i;
        c.matrix_len = i % 5;
        expect_covariance("samples of wrong length", c, 6, 0);
        c = sized(2, 3);
        c.matrix_len = i == 4 ? 16 : i;
        expect_covariance("matrix of wrong length", c, 6, 1);
    }
    c = sized(0, 3);
    c.matrix_len = 1;
    expect_covariance("a matrix of no band", c, 6, 1);
    c.samples_len = 1;
    expect_covariance("samples of no band", c, 6, 0);
}

/* The deviations that the header gives: half of the samples above their mean and half below. */
static void deviations(void)
{
    static const struct { size_t count; int most; } given[] = {{65536, 1448}, {16384, 5792}, {4096, 23170}};
    size_t g, k;
    int over;
    for (g = 0; g < 3; g++)
        for (over = 0; over < 2; over++) {
            struct crewelmarsh_answer a;
            double entry;
            for (k = 0; k < given[g].count; k++)
                samples[k] = (int16_t)(k % 2 ? given[g].most + over : -given[g].most - over);
            a = crewelmarsh_covariance(1, given[g].count, samples, given[g].count, &entry, 1);
            check(a.answer == (over ? 26 : 0) && a.place == 0, "a deviation");
        }
    for (k = 0; k < 1024; k++)
        samples[k] = (int16_t)(k % 2 ? 32767 : -32768);
    check(crewelmarsh_covariance(1, 1024, samples, 1024, wanted, 1).answer == 0, "the third time any");
}

/* What is done is taken by symmetric_eigen, and its values add up to the diagonal. */
static void then_eigen(void)
{
    double matrix[25], work[5], result[30], trace = 0, sum = 0;
    size_t k;
    for (k = 0; k < 5 * 64; k++)
        samples[k] = (int16_t)((int)draw(4096) - 100);
    check(crewelmarsh_covariance(5, 64, samples, 5 * 64, matrix, 25).answer == 0, "then symmetric_eigen: covariance");
    check(crewelmarsh_symmetric_eigen(5, 60, 1, matrix, 25, work, 5, result, 30).answer == 0, "then symmetric_eigen");
    for (k = 0; k < 5; k++) {
        trace += matrix[k * 5 + k];
        sum += result[k];
    }
    check(sum > trace * 0.999999 && sum < trace * 1.000001, "then symmetric_eigen: the values' sum");
}

/* ---- the sums */

static struct covariance_call sums_sized(size_t n, size_t count)
{
    struct covariance_call c = sized(n, count);
    c.matrix_len = crewelmarsh_sums_out_len(n);
    return c;
}

static void expect_sums(const char *what, struct covariance_call c, size_t answer, size_t place)
{
    expect_entry(crewelmarsh_sums, what, c, answer, place);
}

/* The sums in 64 bits, from the last sample to the first, and the call against them. */
static void check_sums(const char *what, size_t n, size_t count)
{
    size_t x, k;
    for (x = 0; x < n; x++) {
        int64_t sum = 0;
        for (k = count; k > 0; k--)
            sum += samples[x * count + k - 1];
        wanted[x] = (double)sum;
    }
    expect_sums(what, sums_sized(n, count), 0, 0);
}

static void small_sums(void)
{
    static const int16_t two[6] = {1, 2, 3, 4, -5, 7};
    size_t i, k;
    memcpy(samples, two, sizeof two);
    wanted[0] = wanted[1] = 6;
    expect_sums("sums of two bands", sums_sized(2, 3), 0, 0);
    wanted[0] = 1;
    wanted[1] = 2;
    expect_sums("sums of single samples", sums_sized(2, 1), 0, 0);
    expect_sums("sums of no band", sums_sized(0, 1), 0, 0);
    expect_sums("sums of no band, most samples", sums_sized(0, 65536), 0, 0);
    /* each sample counts once, in its own band */
    for (i = 0; i < 12; i++) {
        for (k = 0; k < 12; k++)
            samples[k] = k == i ? -7 : 0;
        for (k = 0; k < 3; k++)
            wanted[k] = k == i / 4 ? -7 : 0;
        expect_sums("one sample that is not 0", sums_sized(3, 4), 0, 0);
    }
}

static void random_sums(void)
{
    size_t n, count, k;
    for (n = 1; n <= 7; n++)
        for (count = 1; count <= 40; count += 3) {
            for (k = 0; k < n * count; k++)
                samples[k] = (int16_t)((int)draw(65536) - 32768);
            check_sums("random sums", n, count);
        }
}

/* The least and the greatest sum, +0.0 by no sample and by samples that cancel, the most bands; and what is 26 in the covariance. */
static void extreme_sums(void)
{
    size_t k;
    fill_band(65536, 0, -32768);
    fill_band(65536, 1, 32767);
    fill_band(65536, 2, 0);
    for (k = 0; k < 65536; k++)
        samples[3 * 65536 + k] = (int16_t)(k % 2 ? 32767 : -32767);
    wanted[0] = -power_of_two(31);
    wanted[1] = power_of_two(31) - 65536;
    wanted[2] = wanted[3] = 0;
    expect_sums("extreme sums", sums_sized(4, 65536), 0, 0);
    check_sums("extreme sums in 64 bits", 4, 65536);
    samples[65535] = 32767;
    samples[4 * 65536 - 1] = -1;
    check_sums("the last samples", 4, 65536);
    check_sums("an odd number of samples", 4, 65535);
    for (k = 0; k < MOST_BANDS; k++)
        fill_band(1024, k, (int16_t)(k % 2 ? -32768 : 32767 - (int)k));
    check_sums("256 sums", MOST_BANDS, 1024);
}

static void sums_refusals(void)
{
    static const size_t counts[] = {0, 65537, 131072, (size_t)1 << 32, ((size_t)1 << 32) + 3, (size_t)1 << 63, SIZE_MAX};
    struct covariance_call c;
    size_t i;
    for (i = 0; i < LARGE_NUMBERS; i++) {
        c = sums_sized(2, 3);
        c.n = large_numbers[i];
        expect_sums("sums: too many bands", c, 1, 0);
        c.count = 0;
        c.samples_len = c.matrix_len = 0;
        expect_sums("sums: too many bands, and all else wrong", c, 1, 0);
    }
    for (i = 0; i < sizeof counts / sizeof counts[0]; i++) {
        c = sums_sized(2, 3);
        c.count = counts[i];
        expect_sums("sums: samples out of range", c, 25, 0);
        c.samples_len = c.matrix_len = 1;
        expect_sums("sums: samples out of range, lengths wrong", c, 25, 0);
        c.n = c.samples_len = c.matrix_len = 0;
        expect_sums("sums: samples out of range, no band", c, 25, 0);
    }
    for (i = 0; i < 12; i++) {
        c = sums_sized(2, 3);
        c.samples_len = i == 6 ? 7 : i;
        c.matrix_len = i % 5;
        expect_sums("sums: samples of wrong length", c, 6, 0);
        c = sums_sized(2, 3);
        c.matrix_len = i == 2 ? 16 : i;
        expect_sums("sums: out of wrong length", c, 6, 1);
    }
    c = sums_sized(0, 3);
    c.matrix_len = 1;
    expect_sums("sums: out of no band", c, 6, 1);
    c.samples_len = 1;
    expect_sums("sums: samples of no band", c, 6, 0);
}

/* The matrices of parts made one, as docs/C.md has it: the same bits as the matrix of all samples. */
enum { PARTS = 3, POOLED = 4, ALL = 5 + 64 + 31 };

static void pool(size_t n, size_t parts, const size_t *counts, double (*sums)[POOLED], double (*matrices)[POOLED * POOLED], double *matrix)
{
    size_t p, x, y;
    for (x = 0; x < n; x++)
        for (y = 0; y < n; y++) {
            int64_t count = 0, products = 0, sum_x = 0, sum_y = 0;
            for (p = 0; p < parts; p++) {
                int64_t a = (int64_t)sums[p][x], b = (int64_t)sums[p][y];
                count += (int64_t)counts[p];
                products += ((int64_t)matrices[p][x * n + y] + a * b) / (int64_t)counts[p];
                sum_x += a;
                sum_y += b;
            }
            matrix[x * n + y] = (double)(count * products - sum_x * sum_y);
        }
}

static void pooled(void)
{
    static const size_t counts[PARTS] = {5, 64, 31};
    static int16_t all[POOLED * ALL];
    static double sums[PARTS][POOLED], matrices[PARTS][POOLED * POOLED], matrix[POOLED * POOLED];
    size_t round, p, x, k, before;
    for (round = 0; round < 20; round++) {
        for (k = 0; k < POOLED * ALL; k++)
            all[k] = (int16_t)((int)draw(65536) - 32768);
        for (p = before = 0; p < PARTS; before += counts[p++]) {
            for (x = 0; x < POOLED; x++)
                for (k = 0; k < counts[p]; k++)
                    samples[x * counts[p] + k] = all[x * ALL + before + k];
            check(crewelmarsh_sums(POOLED, counts[p], samples, POOLED * counts[p], sums[p], POOLED).answer == 0, "a part's sums");
            check(crewelmarsh_covariance(POOLED, counts[p], samples, POOLED * counts[p], matrices[p], POOLED * POOLED).answer == 0, "a part's matrix");
        }
        pool(POOLED, PARTS, counts, sums, matrices, matrix);
        check(crewelmarsh_covariance(POOLED, ALL, all, POOLED * ALL, wanted, POOLED * POOLED).answer == 0, "the whole matrix");
        check(same_bits(matrix, wanted, POOLED * POOLED), "parts made one");
    }
}

void test_covariance(void)
{
    size_t k;
    for (k = 0; k < sizeof planes / sizeof planes[0]; k++)
        planes[k] = (int16_t)((int)draw(65536) - 32768);
    small_ones();
    random_ones();
    constant_ones();
    at_two_to_53();
    largest();
    refusals();
    deviations();
    then_eigen();
    small_sums();
    random_sums();
    extreme_sums();
    sums_refusals();
    pooled();
}
