/* crewelmarsh_qr_q: the worked numbers and every answer it can give. */
#include "boundary.h"

static const double plain[6] = {1, 2, 3, 4, 5, 7};

static void worked(void)
{
    double one[1], zero_result[1] = {0}, one_result[1] = {1};
    double dependent[6] = {0, 0, 3, 2, 4, 0};
    double dependent_result[6] = {0, 0, 1, 1, 0, 0};
    one[0] = power_of_two(-52);
    expect("2^-52", qr_q_call(1, 1, one), 0, 0, 0, zero_result);
    one[0] = power_of_two(-51);
    expect("2^-51", qr_q_call(1, 1, one), 0, 0, 0, one_result);
    one[0] = -0.0;
    expect("-0.0", qr_q_call(1, 1, one), 0, 0, 0, zero_result);
    expect("more columns than rows", qr_q_call(2, 3, dependent), 0, 0, 0, dependent_result);
    expect("0 by 0", qr_q_call(0, 0, NULL), 0, 0, 0, NULL);
    expect("0 by 2", qr_q_call(0, 2, NULL), 0, 0, 0, NULL);
    expect("2 by 0", qr_q_call(2, 0, NULL), 0, 0, 0, NULL);
}

/* Bits from the Rust oracle: the second pass changes the last bits of the second column. */
static void two_passes(void)
{
    double matrix[4] = {1, 0, 1, 1};
    static const uint64_t basis[4] = {
        UINT64_C(0x3fe6a09e667f3bcc), UINT64_C(0xbfe6a09e667f3bcc),
        UINT64_C(0x3fe6a09e667f3bcc), UINT64_C(0x3fe6a09e667f3bcd)};
    expect_bits("two passes", qr_q_call(2, 2, matrix), 0, basis);
}

/* All is wrong at first; what is found first is mended, and the next is found. */
static void order_of_tests(void)
{
    double matrix[6] = {1, 2, 3, 4, 5, 7};
    struct call c = qr_q_call(2, 3, matrix);
    matrix[4] = not_a_number();
    c.m = 257;
    c.n = 257;
    c.in_len = 5;
    c.out_len = 7;
    expect("m and k of 257", c, 1, 0, 0, NULL);
    c.m = 2;
    expect("k of 257", c, 1, 0, 0, NULL);
    c.n = 3;
    expect("matrix of 5", c, 6, 0, 0, NULL);
    c.in_len = 6;
    expect("answer of 7", c, 6, 1, 0, NULL);
    c.out_len = 6;
    expect("NaN", c, 7, 4, 0, NULL);
    matrix[4] = 5;
    expect("mended", c, 0, 0, 0, NULL);
}

static void lengths(void)
{
    struct call c = qr_q_call(3, 2, plain);
    expect_length("matrix", &c, &c.in_len, 0);
    expect_length("answer", &c, &c.out_len, 1);
}

static void not_finite(void)
{
    size_t i;
    for (i = 0; i < 6; i++)
        expect_not_finite("matrix", qr_q_call(3, 2, plain), i, i);
}

/* Place and index are the column. */
static void columns(void)
{
    double matrix[9] = {1, 0, 0, 0, 1, 0, 0, 0, 1};
    size_t j;
    for (j = 0; j < 3; j++) {
        matrix[4 * j] = power_of_two(512);
        expect_at("a norm that overflows", qr_q_call(3, 3, matrix), 8, j, j, 0);
        matrix[4 * j] = 1;
    }
}

void test_qr_q(void)
{
    worked();
    two_passes();
    order_of_tests();
    lengths();
    not_finite();
    columns();
}
