/* The largest sizes that are taken, and larger ones. */
#include "boundary.h"

static const double plain[12] = {1, 2, 3, 4, 5, 6, 7, 8, 9, 10, 11, 12};
static double large_in[LONGEST], large_out[LONGEST], large_right[256];

/* As diag(1, .., 256), so that values, vectors and inverses are known. */
static double *diagonal(size_t rows, size_t columns)
{
    size_t i;
    for (i = 0; i < rows * columns; i++)
        large_in[i] = 0;
    for (i = 0; i < rows && i < columns; i++)
        large_in[i * columns + i] = (double)(i + 1);
    return large_in;
}

/* The call with a dimension that isn't taken, on its arrays and on none. */
static void refused(const char *what, struct call c, size_t m, size_t n)
{
    c.m = m;
    c.n = n;
    expect(what, c, 1, 0, 0, NULL);
    c.limit = 0;
    c.u = c.vt = 0;
    c.in_len = c.right_len = c.work_len = c.out_len = 0;
    expect(what, c, 1, 0, 0, NULL);
}

/* Among them sizes whose products are 0 or small again where they wrap. */
static void too_large(void)
{
    int i;
    for (i = 0; i < LARGE_NUMBERS; i++) {
        size_t large = large_numbers[i];
        refused("eigen n", eigen_call(2, plain), 0, large);
        refused("svd m", svd_call(2, 2, 1, 1, plain), large, 2);
        refused("svd n", svd_call(2, 2, 1, 1, plain), 2, large);
        refused("svd m and n", svd_call(2, 2, 1, 1, plain), large, large);
        refused("svd m beside 0", svd_call(0, 0, 1, 1, NULL), large, 0);
        refused("solve m", solve_call(2, 2, plain, plain), large, 2);
        refused("solve n", solve_call(2, 2, plain, plain), 2, large);
        refused("solve m and n", solve_call(2, 2, plain, plain), large, large);
        refused("solve n beside 0", solve_call(0, 0, NULL, NULL), 0, large);
        refused("pseudo_inverse m", pseudo_inverse_call(2, 2, plain), large, 2);
        refused("pseudo_inverse n", pseudo_inverse_call(2, 2, plain), 2, large);
        refused("pseudo_inverse m and n", pseudo_inverse_call(2, 2, plain), large, large);
        refused("qr_q m", qr_q_call(2, 2, plain), large, 2);
        refused("qr_q k", qr_q_call(2, 2, plain), 2, large);
        refused("qr_q m and k", qr_q_call(2, 2, plain), large, large);
    }
}

static void eigen_256(void)
{
    struct call c = eigen_call(256, diagonal(256, 256));
    size_t i;
    for (i = 0; i < 256; i++)
        large_out[i] = (double)(i + 1);
    for (i = 0; i < 256 * 256; i++)
        large_out[256 + i] = i % 257 == 0;
    expect("eigen of 256", c, 0, 0, 0, large_out);
    c.limit = 0;
    expect("eigen of 256, limit 0", c, 2, 0, 0, NULL);
    c.limit = 61;
    expect("eigen of 256, limit 61", c, 2, 0, 0, NULL);
    c.limit = 60;
    c.out_len--;
    expect("eigen of 256, result short", c, 6, 2, 0, NULL);
    c.out_len++;
    large_in[256 * 256 - 1] = not_a_number();
    expect("eigen of 256, last number", c, 7, 256 * 256 - 1, 0, NULL);
    c.n = 257;
    c.limit = 0;
    expect("eigen of 257, limit 0", c, 1, 0, 0, NULL);
}

/* The values come out from 256 down, and each factor is the identity with its columns turned round. */
static void svd_of_diagonal(void)
{
    size_t i;
    for (i = 0; i < 256; i++)
        large_out[i] = (double)(256 - i);
    for (i = 0; i < 2 * 256 * 256; i++)
        large_out[256 + i] = i % 256 == 255 - i / 256 % 256;
}

static void svd_256(void)
{
    struct call c = svd_call(256, 256, 1, 1, diagonal(256, 256));
    svd_of_diagonal();
    expect("svd of 256", c, 0, 0, 1, large_out);
    c.limit = 0;
    expect("svd of 256, limit 0", c, 2, 0, 0, NULL);
    c.limit = 61;
    expect("svd of 256, limit 61", c, 2, 0, 0, NULL);
    c.limit = 60;
    large_in[256 * 256 - 1] = not_a_number();
    expect("svd of 256, last number", c, 7, 256 * 256 - 1, 0, NULL);
}

static void svd_thin(void)
{
    double column_out[1 + 256 + 1] = {1, 1};
    double row_out[1 + 1 + 256] = {1, 1, 1};
    column_out[257] = 1;
    expect("svd of 256 by 1", svd_call(256, 1, 1, 1, diagonal(256, 1)), 0, 0, 1, column_out);
    expect("svd of 1 by 256", svd_call(1, 256, 1, 1, diagonal(1, 256)), 0, 0, 1, row_out);
    expect("svd of 256 by 0", svd_call(256, 0, 1, 1, NULL), 0, 0, 1, NULL);
    expect("svd of 0 by 256", svd_call(0, 256, 1, 1, NULL), 0, 0, 1, NULL);
}

static void solve_256(void)
{
    size_t i;
    struct call c = solve_call(256, 256, large_in, large_right);
    svd_of_diagonal();
    for (i = 0; i < LONGEST; i++)
        large_in[i] = large_out[i];
    for (i = 0; i < 256; i++) {
        large_right[i] = (double)(2 * (i + 1));
        large_out[i] = 2;
    }
    expect("solve of 256", c, 0, 0, 0, large_out);
    large_right[255] = not_a_number();
    expect("solve of 256, last number", c, 7, c.in_len + 255, 0, NULL);

    for (i = 0; i < 256 * 256; i++)
        large_out[i] = i % 257 == 0 ? 1.0 / (double)(i / 257 + 1) : 0;
    expect("pseudo_inverse of 256", pseudo_inverse_call(256, 256, large_in), 0, 0, 0, large_out);
    large_in[131327] = not_a_number();
    expect("pseudo_inverse of 256, last number", pseudo_inverse_call(256, 256, large_in), 7, 131327, 0, NULL);
}

static void qr_256(void)
{
    size_t i;
    for (i = 0; i < 256 * 256; i++)
        large_out[i] = i % 257 == 0;
    expect("qr_q of 256", qr_q_call(256, 256, diagonal(256, 256)), 0, 0, 0, large_out);
    large_in[256 * 256 - 1] = power_of_two(512);
    expect_at("qr_q of 256, last column", qr_q_call(256, 256, large_in), 8, 255, 255, 0);
}

void test_sizes(void)
{
    too_large();
    eigen_256();
    svd_256();
    svd_thin();
    solve_256();
    qr_256();
}
