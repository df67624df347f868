/* crewelmarsh_lanczos: hand-worked numbers, every answer it can give, and the leading pairs beside symmetric_eigen's. */
#include "boundary.h"

static const double plain[9] = {4, 1, 0, 1, 3, 1, 0, 1, 2};
static const double ones[3] = {1, 1, 1};

/* By hand: where the first vector is mapped to a multiple of itself there is one pair, and the rest is +0.0. */
static void worked(void)
{
    double five[1] = {5}, two[1] = {-2}, first[2] = {5, -1};
    double twice[9] = {2, 0, 0, 0, 2, 0, 0, 0, 2}, third[3] = {0, 0, -3};
    double alone[12] = {2, 0, 0, 0, 0, -1};
    double halves[4] = {1, 0, 0, 1}, none[2] = {0, 0};
    double level[3];

    expect("n = 1", lanczos_call(1, 1, five, two), 0, 1, 0, first);
    expect("n = 1, no pair", lanczos_call(1, 0, five, two), 0, 0, 0, NULL);
    expect("2 times the identity", lanczos_call(3, 3, twice, third), 0, 1, 0, alone);
    expect("no pair of it", lanczos_call(3, 0, twice, third), 0, 0, 0, NULL);
    /* From 1 / root 2 throughout: both its square and its norm round. */
    level[0] = from_bits(UINT64_C(0x3feffffffffffffe));
    level[1] = level[2] = from_bits(UINT64_C(0x3fe6a09e667f3bcd));
    expect("a start of zeros", lanczos_call(2, 1, halves, none), 0, 1, 0, level);
}

/* Values that stand more than once: 2 times the identity has one pair. With numbers of a covariance's size rounding passes the test of beta, so that
   diag(5e6, 5e6, 1, 2) has two, and from where the run starts it depends whether the second is of the same value. */
static void equal_values(void)
{
    double twice[16] = {2, 0, 0, 0, 0, 2, 0, 0, 0, 0, 2, 0, 0, 0, 0, 2};
    double large[16] = {5e6, 0, 0, 0, 0, 5e6, 0, 0, 0, 0, 1, 0, 0, 0, 0, 2};
    double other[4] = {1, 2, 3, 4}, same[4] = {3, 1, 4, 1}, out[10];
    size_t edition;
    for (edition = 1; edition <= 2; edition++) {
        struct call c = lanczos_call(4, 2, twice, other);
        c.edition = edition;
        expect_pairs("2 times the identity, two asked for", c, 1, out);
        check(out[1] == 0, "no second value");
        c = lanczos_call(4, 2, large, other);
        c.edition = edition;
        expect_pairs("a large value twice", c, 2, out);
        check(out[0] > 4999999 && out[0] < 5000001 && out[1] > 1.999 && out[1] < 2.001, "found once");
        c = lanczos_call(4, 2, large, same);
        c.edition = edition;
        expect_pairs("a large value twice, from elsewhere", c, 2, out);
        check(out[0] > 4999999 && out[0] < 5000001 && out[1] > 4999999 && out[1] <= out[0], "found twice");
    }
}

/* A start vector whose norm is EPSILON is not divided by it, and one above it is. */
static void start_norm(void)
{
    double five[1] = {5}, start[1], positive[2] = {5, 1}, negative[2] = {5, -1};
    start[0] = -power_of_two(-52);
    expect("EPSILON", lanczos_call(1, 1, five, start), 0, 1, 0, positive);
    start[0] = -from_bits(UINT64_C(0x3cb0000000000001));
    expect("above EPSILON", lanczos_call(1, 1, five, start), 0, 1, 0, negative);
}

/* (0 t; t 0) from (1, 0): beta is t. */
static void tiny(void)
{
    double matrix[4] = {0}, start[2] = {1, 0}, alone[6] = {0, 0, 1, 0, 0, 0};
    double out[6];
    matrix[1] = matrix[2] = from_bits(UINT64_C(0x3d719799812dea11));
    expect("beta of 1e-12", lanczos_call(2, 2, matrix, start), 0, 1, 0, alone);
    matrix[1] = matrix[2] = from_bits(UINT64_C(0x3d719799812dea10));
    expect("beta below 1e-12", lanczos_call(2, 2, matrix, start), 0, 1, 0, alone);
    matrix[1] = matrix[2] = from_bits(UINT64_C(0x3d719799812dea12));
    expect_pairs("beta above 1e-12", lanczos_call(2, 2, matrix, start), 2, out);
    check(out[0] == -out[1] && out[0] > 0, "values of both signs, descending");
}

/* 1 / (i + j + 1) from (1, 2, 3, 4, 5, 6): by the oracle's bits. */
static void by_bits(void)
{
    static const uint64_t wanted[2][21] = {
        {UINT64_C(0x3ff9e70389d943c6), UINT64_C(0x3fcf05ae5679adb2), UINT64_C(0x3f90b696c128ca27),
         UINT64_C(0x3fe7f58201df1db9), UINT64_C(0x3fdc34b72fcd297f), UINT64_C(0x3fd4864c29f43ba7),
         UINT64_C(0x3fd046a343d54be4), UINT64_C(0x3fcb13714c1e0624), UINT64_C(0x3fc739860165ce46),
         UINT64_C(0x3fe3aa59ea6e29bf), UINT64_C(0xbfcb04c031c8c19d), UINT64_C(0xbfd76acd054ba54f),
         UINT64_C(0xbfd942e035b59ccf), UINT64_C(0xbfd8d81cb086efe9), UINT64_C(0xbfd7b97b5427cc79),
         UINT64_C(0xbfcec2fb50dcd547), UINT64_C(0x3fe65328fa1a6c57), UINT64_C(0x3fcd9e2abf8daa5b),
         UINT64_C(0xbfc101a8f452079f), UINT64_C(0xbfd736b8a55d9f1a), UINT64_C(0xbfe016a226cbbc47)},
        {UINT64_C(0x3ff9e70389d943cd), UINT64_C(0x3fcf05ae5679adb3), UINT64_C(0x3f90b696c128ca2d),
         UINT64_C(0x3fe7f58201df1dba), UINT64_C(0x3fdc34b72fcd297f), UINT64_C(0x3fd4864c29f43ba7),
         UINT64_C(0x3fd046a343d54be7), UINT64_C(0x3fcb13714c1e0623), UINT64_C(0x3fc739860165ce41),
         UINT64_C(0x3fe3aa59ea6e29bf), UINT64_C(0xbfcb04c031c8c19a), UINT64_C(0xbfd76acd054ba54e),
         UINT64_C(0xbfd942e035b59ccd), UINT64_C(0xbfd8d81cb086efe7), UINT64_C(0xbfd7b97b5427cc79),
         UINT64_C(0xbfcec2fb50dcd546), UINT64_C(0x3fe65328fa1a6c55), UINT64_C(0x3fcd9e2abf8daa68),
         UINT64_C(0xbfc101a8f4520791), UINT64_C(0xbfd736b8a55d9f1c), UINT64_C(0xbfe016a226cbbc4c)}};
    double matrix[36], start[6], out[21];
    size_t i, j;
    int edition;
    for (i = 0; i < 6; i++) {
        start[i] = (double)(i + 1);
        for (j = 0; j < 6; j++)
            matrix[i * 6 + j] = 1.0 / (double)(i + j + 1);
    }
    for (edition = 1; edition <= 2; edition++) {
        struct call c = lanczos_call(6, 3, matrix, start);
        c.edition = (size_t)edition;
        for (i = 0; i < 21; i++)
            out[i] = from_bits(wanted[edition - 1][i]);
        expect("bits", c, 0, 3, 12, out);
    }
}

/* All is wrong at first; what is found first is mended, and the next is found. */
static void order_of_tests(void)
{
    double matrix[4] = {1, 0, 0, 2}, start[2] = {1, 1};
    struct call c = lanczos_call(2, 1, matrix, start);
    matrix[1] = not_a_number();
    start[1] = plus_infinity();
    c.n = 257;
    c.m = 3;
    c.limit = 0;
    c.edition = 0;
    c.in_len = 3;
    c.right_len = 1;
    c.work_len = 1;
    c.out_len = 7;
    expect("n of 257", c, 1, 0, 0, NULL);
    c.n = 0;
    expect("limit 0", c, 2, 0, 0, NULL);
    c.limit = 61;
    expect("limit 61", c, 2, 0, 0, NULL);
    c.limit = 60;
    expect("edition 0", c, 12, 0, 0, NULL);
    c.edition = 3;
    expect("edition 3", c, 12, 0, 0, NULL);
    c.edition = 2;
    expect("n of 0", c, 14, 0, 0, NULL);
    c.m = 0;
    expect("n of 0 and no pair", c, 14, 0, 0, NULL);
    c.n = 2;
    c.m = 3;
    expect("k over n", c, 15, 0, 0, NULL);
    c.m = 1;
    expect("matrix of 3", c, 6, 0, 0, NULL);
    c.in_len = 4;
    expect("start of 1", c, 6, 1, 0, NULL);
    c.right_len = 2;
    expect("work of 1", c, 6, 2, 0, NULL);
    c.work_len = crewelmarsh_lanczos_work_len(2, 1);
    expect("answer of 7", c, 6, 3, 0, NULL);
    c.out_len = 3;
    expect("NaN above the diagonal", c, 7, 1, 0, NULL);
    matrix[1] = 0;
    expect("infinity in the start vector", c, 7, 5, 0, NULL);
    start[1] = 0;
    expect("mended", c, 0, 1, 0, NULL);
}

static void lengths(void)
{
    struct call c = lanczos_call(3, 2, plain, ones);
    expect_length("matrix", &c, &c.in_len, 0);
    expect_length("start", &c, &c.right_len, 1);
    expect_length("work", &c, &c.work_len, 2);
    expect_length("answer", &c, &c.out_len, 3);
}

/* Sizes, k, limits and editions whose low bits alone would do. */
static void large(void)
{
    int i;
    for (i = 0; i < LARGE_NUMBERS; i++) {
        struct call c = lanczos_call(2, 1, plain, ones);
        c.n = large_numbers[i];
        expect("n", c, 1, 0, 0, NULL);
        c.n = 2;
        c.m = large_numbers[i];
        expect("k", c, 15, 0, 0, NULL);
        c.m = 1;
        c.limit = large_numbers[i];
        expect("limit", c, 2, 0, 0, NULL);
        c.limit = 60;
        c.edition = large_numbers[i];
        expect("edition", c, 12, 0, 0, NULL);
    }
}

/* All of the matrix is looked at, and then the start vector. */
static void not_finite(void)
{
    double start[3];
    size_t i;
    int w;
    for (i = 0; i < 9; i++)
        expect_not_finite("matrix", lanczos_call(3, 2, plain, ones), i, i);
    for (i = 0; i < 3; i++)
        for (w = 0; w < BAD_NUMBERS; w++) {
            struct call c = lanczos_call(3, 2, plain, start);
            start[0] = start[1] = start[2] = 1;
            start[i] = from_bits(bad_numbers[w]);
            expect("start vector", c, 7, 9 + i, 0, NULL);
        }
}

/* What is not finite in the run: the place says what, the index which step. */
static void marks(void)
{
    double most = from_bits(UINT64_C(0x7fefffffffffffff));
    double one[3] = {1, 0, 0}, matrix[9] = {0}, start[2];
    start[0] = start[1] = most;
    matrix[1] = matrix[2] = 1;
    expect_at("the start norm", lanczos_call(2, 1, matrix, start), 8, 3, 0, 0);
    start[0] = start[1] = 1;
    matrix[0] = matrix[1] = matrix[2] = matrix[3] = most;
    expect_at("alpha infinite", lanczos_call(2, 1, matrix, start), 8, 4, 0, 0);
    matrix[2] = matrix[3] = -most;
    expect_at("alpha a NaN", lanczos_call(2, 1, matrix, start), 10, 4, 0, 0);
    matrix[0] = matrix[3] = 0;
    matrix[1] = matrix[2] = power_of_two(600);
    expect_at("beta infinite", lanczos_call(2, 1, matrix, one), 8, 5, 0, 0);
    start[0] = 0.6;
    start[1] = 0.8;
    matrix[0] = 0.9 * most;
    matrix[1] = 0.575 * most;
    matrix[2] = -most;
    matrix[3] = -0.5 * most;
    expect_at("beta a NaN", lanczos_call(2, 1, matrix, start), 10, 5, 0, 0);
    matrix[0] = matrix[2] = matrix[6] = 0;
    matrix[1] = matrix[3] = 1;
    matrix[4] = matrix[8] = 0;
    matrix[5] = matrix[7] = power_of_two(600);
    expect_at("beta infinite in step 1", lanczos_call(3, 2, matrix, one), 8, 5, 1, 0);
    matrix[2] = matrix[6] = 1;
    matrix[4] = matrix[5] = matrix[7] = matrix[8] = most;
    expect_at("alpha infinite in step 1", lanczos_call(3, 2, matrix, one), 8, 4, 1, 0);
    matrix[7] = matrix[8] = -most;
    expect_at("alpha a NaN in step 1", lanczos_call(3, 2, matrix, one), 10, 4, 1, 0);
    matrix[0] = -power_of_two(1023);
    matrix[1] = matrix[2] = matrix[3] = 2;
    expect_at("mark 0 of the inner call", lanczos_call(2, 2, matrix, one), 10, 0, 0, 0);
    matrix[0] = power_of_two(-1074);
    matrix[1] = matrix[2] = 0.5;
    matrix[3] = power_of_two(1023);
    expect_at("mark 1 of the inner call", lanczos_call(2, 2, matrix, one), 10, 1, 0, 1);
}

/* The limit of the inner call, and that a higher one changes nothing but a 9. */
static void limits(void)
{
    double matrix[36], start[6], high[21], low[21];
    size_t i, j, limit, count;
    for (i = 0; i < 6; i++) {
        start[i] = (double)(i + 1);
        for (j = 0; j < 6; j++)
            matrix[i * 6 + j] = (double)((i * j + 3 * (i + j)) % 7);
    }
    count = expect_pairs("limit 60", lanczos_call(6, 3, matrix, start), 3, high);
    for (limit = 1; limit < 60; limit++) {
        struct call c = lanczos_call(6, 3, matrix, start);
        c.limit = limit;
        if (limit == 1) {
            expect("limit 1", c, 9, 0, 1, NULL);
            continue;
        }
        if (limit == 2) {
            expect("limit 2", c, 9, 0, 2, NULL);
            continue;
        }
        check(expect_pairs("a lower limit", c, 3, low) == count, "its count");
        for (i = 0; i < 21; i++)
            check(to_bits(low[i]) == to_bits(high[i]), "its bits");
    }
}

/* 8 of 256, beside symmetric_eigen: the values, and that the matrix stretches each vector by its value. */
static double large_matrix[65536], large_start[256], large_pairs[8 + 8 * 256], large_result[256 + 65536], large_work[256];

static double distance(double x, double y) { return x < y ? y - x : x - y; }

/* Band i of one of twelve sources, each half as strong as the one before. */
static double source(size_t t, size_t i) { return (double)(((t + 1) * 37 * i + 11 * t) % 101) / 50 - 1; }

static void beside(void)
{
    struct crewelmarsh_answer a;
    size_t i, j, t;
    double worst = 0, apart = 0;
    for (i = 0; i < 256; i++) {
        large_start[i] = (double)(i * 37 % 101) - 50;
        for (j = 0; j < 256; j++) {
            double sum = i == j ? 1.0 / (double)(64 + i % 7) : 0;
            for (t = 0; t < 12; t++)
                sum += source(t, i) * source(t, j) / (double)((size_t)1 << t);
            large_matrix[i * 256 + j] = sum;
        }
    }
    expect_pairs("8 of 256", lanczos_call(256, 8, large_matrix, large_start), 8, large_pairs);
    a = crewelmarsh_symmetric_eigen(256, 60, 1, large_matrix, 65536, large_work, 256, large_result, 256 + 65536);
    check(a.answer == 0, "symmetric_eigen of the same");
    for (t = 0; t < 8; t++) {
        double d = distance(large_pairs[t], large_result[255 - t]);
        const double *v = large_pairs + 8 + t * 256;
        worst = d > worst ? d : worst;
        check(t == 0 || large_pairs[t] <= large_pairs[t - 1], "descending");
        for (i = 0; i < 256; i++) {
            double sum = 0;
            for (j = 0; j < 256; j++)
                sum += large_matrix[i * 256 + j] * v[j];
            d = distance(sum, large_pairs[t] * v[i]);
            apart = d > apart ? d : apart;
        }
    }
    check(worst <= 1e-8 * large_pairs[0], "values near symmetric_eigen's");
    check(apart <= 1e-4 * large_pairs[0], "vectors that the matrix stretches");
}

void test_lanczos(void)
{
    worked();
    equal_values();
    start_norm();
    tiny();
    by_bits();
    order_of_tests();
    lengths();
    large();
    not_finite();
    marks();
    limits();
    beside();
}
