/* crewelmarsh_svd: the worked numbers and every answer it can give. */
#include "boundary.h"

static const double diagonal[4] = {2, 0, 0, 4};
static const double plain[6] = {1, 2, 3, 4, 5, 7};

static void worked(void)
{
    double all[10] = {4, 2, 0, 1, 1, 0, 0, 1, 1, 0};
    double wide[6] = {0, 3, 0, 2, 0, 0};
    double wide_all[12] = {3, 2, 1, 0, 0, 1, 0, 1, 0, 1, 0, 0};
    double equal[4] = {3, 0, 0, 3};
    double equal_all[10] = {3, 3, 1, 0, 0, 1, 1, 0, 0, 1};
    expect("both", svd_call(2, 2, 1, 1, diagonal), 0, 0, 1, all);
    expect("U alone", svd_call(2, 2, 1, 0, diagonal), 0, 0, 1, all);
    expect("V^T alone", svd_call(2, 2, 0, 1, diagonal), 0, 0, 1, all);
    expect("values alone", svd_call(2, 2, 0, 0, diagonal), 0, 0, 1, all);
    expect("2 by 3", svd_call(2, 3, 1, 1, wide), 0, 0, 1, wide_all);
    expect("equal values keep their order", svd_call(2, 2, 1, 1, equal), 0, 0, 1, equal_all);
}

/* Bits from the Rust oracle where another order, sign or bound gives others. */
static void order_of_work(void)
{
    double column[3] = {0.1, 0.1, 0.3};
    static const uint64_t column_all[5] = {
        UINT64_C(0x3fd539f5433125c3), UINT64_C(0x3fd34bf63d156826), UINT64_C(0x3fd34bf63d156826),
        UINT64_C(0x3fecf1f15ba01c39), UINT64_C(0x3ff0000000000000)};
    double equal_norms[4] = {1, -2, 2, -1};
    static const uint64_t equal_norms_all[10] = {
        UINT64_C(0x4007ffffffffffff), UINT64_C(0x3fefffffffffffff),
        UINT64_C(0x3fe6a09e667f3bcd), UINT64_C(0xbfe6a09e667f3bcd),
        UINT64_C(0x3fe6a09e667f3bcd), UINT64_C(0x3fe6a09e667f3bcd),
        UINT64_C(0x3fe6a09e667f3bcc), UINT64_C(0xbfe6a09e667f3bcc),
        UINT64_C(0x3fe6a09e667f3bcc), UINT64_C(0x3fe6a09e667f3bcc)};
    double at_bound[4] = {1, 0, 0, 1};
    double at_bound_all[10] = {1, 1, 1, 0, 0, 1, 1, 0, 0, 1};
    at_bound[1] = at_bound_all[3] = power_of_two(-52);
    expect_bits("squares are added from the first row on", svd_call(3, 1, 1, 1, column), 1, column_all);
    expect_bits("zeta of -0 counts as not negative", svd_call(2, 2, 1, 1, equal_norms), 2, equal_norms_all);
    expect("gamma equal to the bound does not turn", svd_call(2, 2, 1, 1, at_bound), 0, 0, 1, at_bound_all);
}

/* No pair to turn: one sweep all the same. */
static void no_pairs(void)
{
    double row[3] = {0, -3, 0};
    double row_all[5] = {3, 1, 0, -1, 0};
    expect("0 by 0", svd_call(0, 0, 1, 1, NULL), 0, 0, 1, NULL);
    expect("0 by 2", svd_call(0, 2, 1, 1, NULL), 0, 0, 1, NULL);
    expect("2 by 0", svd_call(2, 0, 1, 1, NULL), 0, 0, 1, NULL);
    expect("1 by 3", svd_call(1, 3, 1, 1, row), 0, 0, 1, row_all);
}

/* With U alone, V^T alone or neither, the same numbers at their places. */
static void parts_agree(void)
{
    double all[12], part[8];
    size_t count = expect_done("3 by 2", svd_call(3, 2, 1, 1, plain), all);
    int i;
    expect("values and U", svd_call(3, 2, 1, 0, plain), 0, 0, count, all);
    expect("values", svd_call(3, 2, 0, 0, plain), 0, 0, count, all);
    for (i = 0; i < 6; i++)
        part[i] = i < 2 ? all[i] : all[i + 6];
    expect("values and V^T", svd_call(3, 2, 0, 1, plain), 0, 0, count, part);
}

static void flags(void)
{
    double all[10] = {4, 2, 0, 1, 1, 0, 0, 1, 1, 0};
    int i, j;
    for (i = 0; i < LARGE_NUMBERS; i++) {
        expect("want_u", svd_call(2, 2, large_numbers[i], 0, diagonal), 0, 0, 1, all);
        expect("want_vt", svd_call(2, 2, 0, large_numbers[i], diagonal), 0, 0, 1, all);
        j = LARGE_NUMBERS - 1 - i;
        expect("both", svd_call(2, 2, large_numbers[i], large_numbers[j], diagonal), 0, 0, 1, all);
    }
    expect("2 and 256", svd_call(2, 2, 2, 256, diagonal), 0, 0, 1, all);
}

static void order_of_tests(void)
{
    double matrix[6] = {1, 2, 3, 4, 5, 7};
    struct call c = svd_call(3, 2, 1, 1, matrix);
    matrix[5] = -plus_infinity();
    c.m = 257;
    c.n = 257;
    c.limit = 0;
    c.in_len = 5;
    c.work_len = 13;
    c.out_len = 11;
    expect("m and n of 257", c, 1, 0, 0, NULL);
    c.m = 3;
    expect("n of 257", c, 1, 0, 0, NULL);
    c.n = 2;
    expect("limit 0", c, 2, 0, 0, NULL);
    c.limit = 61;
    expect("limit 61", c, 2, 0, 0, NULL);
    c.limit = 60;
    expect("matrix of 5", c, 6, 0, 0, NULL);
    c.in_len = 6;
    expect("work of 13", c, 6, 1, 0, NULL);
    c.work_len = 12;
    expect("result of 11", c, 6, 2, 0, NULL);
    c.out_len = 12;
    expect("-infinity", c, 7, 5, 0, NULL);
}

static void lengths(void)
{
    struct call c = svd_call(3, 2, 1, 1, plain);
    expect_length("matrix", &c, &c.in_len, 0);
    expect_length("work", &c, &c.work_len, 1);
    expect_length("result", &c, &c.out_len, 2);
    c = svd_call(3, 2, 0, 1, plain);
    expect_length("result with no U", &c, &c.out_len, 2);
    c = svd_call(3, 2, 1, 0, plain);
    expect_length("result with no V^T", &c, &c.out_len, 2);
    c = svd_call(3, 2, 0, 0, plain);
    expect_length("result of values", &c, &c.out_len, 2);
}

static void not_finite(void)
{
    double matrix[6];
    size_t i;
    for (i = 0; i < 6; i++) {
        expect_not_finite("tall", svd_call(3, 2, 1, 1, plain), i, i);
        expect_not_finite("wide", svd_call(2, 3, 0, 0, plain), i, i);
        matrix[i] = i < 3 ? 1 : not_a_number();
    }
    expect("the first of several", svd_call(2, 3, 1, 1, matrix), 7, 3, 0, NULL);
}

static void marks(void)
{
    double matrix[4];
    matrix[0] = matrix[1] = matrix[2] = power_of_two(600);
    matrix[3] = -matrix[0];
    expect_at("mark 1", svd_call(2, 2, 1, 1, matrix), 10, 1, 0, 1);
    expect_at("mark 1, values alone", svd_call(2, 2, 0, 0, matrix), 10, 1, 0, 1);
    expect_at("mark 2", svd_call(1, 1, 1, 1, matrix), 8, 2, 0, 1);
    expect_at("mark 2, wide", svd_call(1, 2, 0, 1, matrix), 8, 2, 0, 1);
}

static void limits(void)
{
    double matrix[4] = {1, 0, 0, 0};
    double singular[4] = {0, 0, 1, 6};
    double all[12];
    struct call c = svd_call(2, 2, 1, 1, matrix);
    matrix[1] = power_of_two(-520);
    for (c.limit = 1; c.limit <= 60; c.limit++)
        expect("a pair that turns by nothing", c, 9, c.limit, c.limit, NULL);
    expect("a singular matrix", svd_call(2, 2, 1, 1, singular), 9, 60, 60, NULL);

    c = svd_call(3, 2, 1, 1, plain);
    c.limit = expect_done("3 by 2", c, all);
    expect("as many sweeps as it takes", c, 0, 0, c.limit, all);
    c.limit--;
    expect("one sweep too few", c, 9, c.limit, c.limit, NULL);
}

static void large_limits(void)
{
    struct call c = svd_call(3, 2, 1, 1, plain);
    int i;
    for (i = 0; i < LARGE_NUMBERS; i++) {
        c.limit = large_numbers[i];
        expect("limit", c, 2, 0, 0, NULL);
    }
}

void test_svd(void)
{
    worked();
    order_of_work();
    no_pairs();
    parts_agree();
    flags();
    order_of_tests();
    lengths();
    not_finite();
    marks();
    limits();
    large_limits();
}
