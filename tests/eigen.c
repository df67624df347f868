/* crewelmarsh_symmetric_eigen: the worked numbers and every answer it can give. */
#include "boundary.h"

/* Its lower triangle; above it stand zeros. */
static const double plain[9] = {4, 0, 0, 1, 3, 0, 2, 1, 5};

static void worked(void)
{
    double minus_zero[1] = {-0.0};
    double zero_result[2] = {0, 1};
    double diagonal[4] = {2, 0, 0, 1};
    double diagonal_result[6] = {1, 2, 0, 1, 1, 0};
    double matrix[4] = {1, 0, 0, 2};
    double identity_result[6] = {1, 2, 1, 0, 0, 1};

    expect("n = 0", eigen_call(0, NULL), 0, 0, 0, NULL);
    expect("-0.0", eigen_call(1, minus_zero), 0, 0, 0, zero_result);
    expect("diagonal (2, 1)", eigen_call(2, diagonal), 0, 0, 0, diagonal_result);
    matrix[1] = not_a_number();
    expect("NaN above the diagonal", eigen_call(2, matrix), 0, 0, 0, identity_result);
    matrix[1] = 0;
    matrix[2] = not_a_number();
    expect("NaN below the diagonal", eigen_call(2, matrix), 7, 2, 0, NULL);
}

/* Whatever stands above the diagonal, the outcome is the same, in each edition. */
static void above_the_diagonal(size_t edition)
{
    static const size_t above[3] = {1, 2, 5};
    double result[12], matrix[9];
    struct call c = eigen_call(3, plain);
    size_t count;
    int i, k, w;
    c.edition = edition;
    count = expect_done("plain", c, result);
    c.in = matrix;
    for (w = 0; w < BAD_NUMBERS; w++)
        for (i = 0; i < 3; i++) {
            for (k = 0; k < 9; k++)
                matrix[k] = plain[k];
            matrix[above[i]] = from_bits(bad_numbers[w]);
            expect("above the diagonal", c, 0, 0, count, result);
        }
}

/* All is wrong at first; what is found first is mended, and the next is found. */
static void order_of_tests(void)
{
    double matrix[4] = {1, 0, 0, 2};
    struct call c = eigen_call(2, matrix);
    matrix[2] = not_a_number();
    c.n = 257;
    c.limit = 0;
    c.edition = 0;
    c.in_len = 3;
    c.work_len = 1;
    c.out_len = 7;
    expect("n of 257", c, 1, 0, 0, NULL);
    c.n = 2;
    expect("limit 0", c, 2, 0, 0, NULL);
    c.limit = 61;
    expect("limit 61", c, 2, 0, 0, NULL);
    c.limit = 1;
    expect("edition 0", c, 12, 0, 0, NULL);
    c.edition = 3;
    expect("edition 3", c, 12, 0, 0, NULL);
    c.edition = 2;
    expect("matrix of 3", c, 6, 0, 0, NULL);
    c.in_len = 4;
    expect("work of 1", c, 6, 1, 0, NULL);
    c.work_len = 2;
    expect("result of 7", c, 6, 2, 0, NULL);
    c.out_len = 6;
    expect("NaN", c, 7, 2, 0, NULL);
    matrix[2] = 0;
    expect("mended", c, 0, 0, 0, NULL);
}

static void lengths(void)
{
    struct call c = eigen_call(3, plain);
    expect_length("matrix", &c, &c.in_len, 0);
    expect_length("work", &c, &c.work_len, 1);
    expect_length("result", &c, &c.out_len, 2);
}

static void not_finite(void)
{
    double matrix[9];
    size_t i, j;
    for (i = 0; i < 3; i++)
        for (j = 0; j <= i; j++)
            expect_not_finite("on or below the diagonal", eigen_call(3, plain), i * 3 + j, i * 3 + j);
    for (i = 0; i < 9; i++)
        matrix[i] = i < 4 ? plain[i] : not_a_number();
    expect("the first of several", eigen_call(3, matrix), 7, 4, 0, NULL);
}

static void marks(void)
{
    double first[9] = {0};
    double second[4] = {0};
    double third[4] = {0};
    first[6] = first[7] = power_of_two(1023);
    expect_at("mark 0", eigen_call(3, first), 10, 0, 0, 0);
    second[2] = power_of_two(-512);
    second[3] = power_of_two(512);
    expect_at("mark 1", eigen_call(2, second), 10, 1, 0, 1);
    third[0] = -1.75 * power_of_two(1022);
    third[2] = 0.75 * power_of_two(1022);
    third[3] = -3.75 * power_of_two(1022);
    expect_at("mark 2", eigen_call(2, third), 8, 2, 1, 1);
}

/* A pass that leaves every d finite and an e that is not: without the look at e the answer would be 0. */
static void mark_by_e(void)
{
    double matrix[16] = {0};
    matrix[0] = matrix[4] = power_of_two(1023);
    matrix[10] = power_of_two(1021);
    matrix[12] = 1;
    matrix[14] = power_of_two(40);
    expect_at("mark 1 by e alone", eigen_call(4, matrix), 8, 1, 5, 1);
}

/* The bound goes by the largest |d| + |e| so far: the 1 of l = 0 holds at l = 1 too, where d is 0 and e 2^-52. */
static void bound_is_kept(void)
{
    double matrix[9] = {0, 0, 0, 0, 1, 0, 0, 0, 0};
    double result[12] = {0, 0, 1, 1, 0, 0, 0, 0, 1, 0, 1, 0};
    matrix[6] = power_of_two(-52);
    expect("the bound is kept", eigen_call(3, matrix), 0, 0, 0, result);
}

/* Only a smaller value moves forward. */
static void equal_values(void)
{
    double identity[4] = {1, 0, 0, 1};
    double result[6] = {1, 1, 1, 0, 0, 1};
    expect("equal values keep their order", eigen_call(2, identity), 0, 0, 0, result);
}

/* At a limit of 1 to 3 passes for each value. The count is of all passes. */
static void limits(void)
{
    double matrix[9] = {0, 0, 0, 0, 1, 0, 1, 1, 0};
    double split[16] = {2, 0, 0, 0, 0, 0, 0, 0, 0, 0, 0, 0, 1, 1, 0, 0};
    struct call c = eigen_call(3, matrix);
    expect("settled", c, 0, 0, 5, NULL);
    for (c.limit = 1; c.limit <= 3; c.limit++)
        expect("used up at the first value", c, 9, 0, c.limit, NULL);
    c = eigen_call(4, split);
    expect("settled", c, 0, 0, 6, NULL);
    for (c.limit = 1; c.limit <= 3; c.limit++)
        expect("used up at the second value", c, 9, 1, c.limit + 1, NULL);
}

static void large_limits(void)
{
    struct call c = eigen_call(3, plain);
    int i;
    for (i = 0; i < LARGE_NUMBERS; i++) {
        c.limit = large_numbers[i];
        expect("limit", c, 2, 0, 0, NULL);
    }
}

static void large_editions(void)
{
    struct call c = eigen_call(3, plain);
    int i;
    for (i = 0; i < LARGE_NUMBERS; i++) {
        c.edition = large_numbers[i];
        expect("edition", c, 12, 0, 0, NULL);
    }
}

/* The vectors' numbers are 3 over a hypot. In edition 2 they come to the double nearest to the root of 1/2, in edition 1 to the one below it. Of `plain`
   nearly every number differs in its last bits, those of the oracle. */
static void editions(void)
{
    static const uint64_t minus_three = 0xc008000000000000u, three = 0x4008000000000000u, minus = 0x8000000000000000u;
    static const uint64_t root_half[2] = {0x3fe6a09e667f3bccu, 0x3fe6a09e667f3bcdu};
    static const uint64_t of_plain[2][12] = {
        {0x400276bd7259c067u, 0x40052513c77a9a76u, 0x401c32176315d290u, 0xbfe7954f2c3d2fddu, 0xbfd4fdb5f638b251u, 0x3fe2e98bcedf294du,
         0x3fe2e98bcedf294bu, 0xbfe7954f2c3d2fdfu, 0x3fd4fdb5f638b253u, 0x3fd4fdb5f638b257u, 0x3fe2e98bcedf294cu, 0x3fe7954f2c3d2fdbu},
        {0x400276bd7259c067u, 0x40052513c77a9a76u, 0x401c32176315d291u, 0xbfe7954f2c3d2fdeu, 0xbfd4fdb5f638b252u, 0x3fe2e98bcedf294eu,
         0x3fe2e98bcedf294cu, 0xbfe7954f2c3d2fe0u, 0x3fd4fdb5f638b254u, 0x3fd4fdb5f638b258u, 0x3fe2e98bcedf294du, 0x3fe7954f2c3d2fddu}};
    double matrix[4] = {0, 0, 3, 0};
    struct call c = eigen_call(2, matrix), d = eigen_call(3, plain);
    for (c.edition = d.edition = 1; c.edition <= 2; c.edition++, d.edition++) {
        uint64_t half = root_half[c.edition - 1], bits[6];
        bits[0] = minus_three;
        bits[1] = three;
        bits[2] = bits[3] = bits[5] = half;
        bits[4] = half | minus;
        expect_bits("an edition", c, 1, bits);
        expect_bits("an edition of the plain matrix", d, 4, of_plain[d.edition - 1]);
    }
}

void test_symmetric_eigen(void)
{
    worked();
    above_the_diagonal(1);
    above_the_diagonal(2);
    order_of_tests();
    lengths();
    not_finite();
    marks();
    mark_by_e();
    bound_is_kept();
    equal_values();
    limits();
    large_limits();
    editions();
    large_editions();
}
