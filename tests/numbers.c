/* Matrices of many shapes: what comes back is a decomposition, a solution, an inverse, a basis. */
#include "boundary.h"

enum { MOST = 32 };
static double a[MOST * MOST], b[MOST], product[MOST * MOST];
static double decomposition[MOST + 2 * MOST * MOST], answer[MOST + MOST * MOST];
static uint32_t state = 1;

/* Whole numbers from -500 to 499, over 1000. */
static double next_number(void)
{
    state = state * 1664525u + 1013904223u;
    return ((double)((state >> 8) % 1000) - 500) / 1000;
}

static void make(double *to, size_t length)
{
    size_t i;
    for (i = 0; i < length; i++)
        to[i] = next_number();
}

static double magnitude(double x) { return x < 0 ? -x : x; }

/* Comparisons below are so written that a NaN fails them. */
static int near(const double *x, const double *y, size_t length, double bound)
{
    size_t i;
    for (i = 0; i < length; i++)
        if (!(magnitude(x[i] - y[i]) < bound))
            return 0;
    return 1;
}

/* Columns p and q of an m by n matrix, multiplied. */
static double columns_multiplied(const double *x, size_t m, size_t n, size_t p, size_t q)
{
    double sum = 0;
    size_t i;
    for (i = 0; i < m; i++)
        sum += x[i * n + p] * x[i * n + q];
    return sum;
}

static int orthonormal_columns(const double *x, size_t m, size_t n)
{
    size_t p, q;
    for (p = 0; p < n; p++)
        for (q = 0; q <= p; q++)
            if (!(magnitude(columns_multiplied(x, m, n, p, q) - (p == q)) <= 1e-12))
                return 0;
    return 1;
}

static int ascending(const double *x, size_t n)
{
    size_t i;
    for (i = 1; i < n; i++)
        if (!(x[i - 1] <= x[i]))
            return 0;
    return 1;
}

/* The vectors times the values times the vectors' transpose, in `product`. */
static void from_values(const double *values, const double *vectors, size_t n)
{
    size_t i, j, k;
    for (i = 0; i < n; i++)
        for (j = 0; j < n; j++) {
            double sum = 0;
            for (k = 0; k < n; k++)
                sum += vectors[i * n + k] * values[k] * vectors[j * n + k];
            product[i * n + j] = sum;
        }
}

static void eigen(size_t n)
{
    size_t i, j;
    make(a, n * n);
    for (i = 0; i < n; i++)
        for (j = i + 1; j < n; j++)
            a[i * n + j] = a[j * n + i];
    expect_done("eigen", eigen_call(n, a), answer);
    check(ascending(answer, n), "eigen: values ascend");
    check(orthonormal_columns(answer + n, n, n), "eigen: vectors orthonormal");
    from_values(answer, answer + n, n);
    check(near(a, product, n * n, 1e-12), "eigen: matrix from values and vectors");
}

/* U times the values times V^T, in `product`; V^T by the header's rows. */
static void from_svd(size_t m, size_t n)
{
    size_t len = crewelmarsh_svd_result_len(m, n, 1, 1);
    size_t r = crewelmarsh_svd_values_len(m, n);
    size_t i, j, k;
    for (i = 0; i < m * n; i++)
        product[i] = 0;
    for (k = 0; k < r; k++) {
        struct crewelmarsh_part row = crewelmarsh_vt_row(m, n, 1, 1, decomposition, len, k);
        for (i = 0; i < m; i++)
            for (j = 0; j < row.length; j++)
                product[i * n + j] += decomposition[r + i * r + k] * decomposition[k] * row.start[j];
    }
}

/* A times the n numbers of x, in `product`. */
static void times(const double *x, size_t m, size_t n)
{
    size_t i, j;
    for (i = 0; i < m; i++) {
        product[i] = 0;
        for (j = 0; j < n; j++)
            product[i] += a[i * n + j] * x[j];
    }
}

/* The answer solves the normal equations: what is left over is orthogonal to every column. */
static int least_squares(size_t m, size_t n)
{
    size_t i, j;
    times(answer, m, n);
    for (j = 0; j < n; j++) {
        double sum = 0;
        for (i = 0; i < m; i++)
            sum += a[i * n + j] * (b[i] - product[i]);
        if (!(magnitude(sum) <= 1e-10))
            return 0;
    }
    return 1;
}

/* The answer of solve is the pseudo-inverse times the right side. */
static int inverse_agrees(const double *inverse, const double *x, size_t m, size_t n)
{
    size_t i, j;
    for (j = 0; j < n; j++) {
        double sum = 0;
        for (i = 0; i < m; i++)
            sum += inverse[j * m + i] * b[i];
        if (!(magnitude(sum - x[j]) <= 1e-9))
            return 0;
    }
    return 1;
}

static void svd(size_t m, size_t n)
{
    double x[MOST];
    size_t j;
    make(a, m * n);
    make(b, m);
    expect_done("svd", svd_call(m, n, 1, 1, a), decomposition);
    from_svd(m, n);
    check(near(a, product, m * n, 1e-12), "svd: matrix from its factors");
    expect_done("solve", solve_call(m, n, decomposition, b), answer);
    check(least_squares(m, n), "solve: least squares");
    for (j = 0; j < n; j++)
        x[j] = answer[j];
    expect_done("pseudo_inverse", pseudo_inverse_call(m, n, decomposition), answer);
    check(inverse_agrees(answer, x, m, n), "pseudo_inverse: agrees with solve");
}

static void qr(size_t m, size_t k)
{
    make(a, m * k);
    expect_done("qr_q", qr_q_call(m, k, a), answer);
    check(orthonormal_columns(answer, m, k), "qr_q: columns orthonormal");
}

void test_numbers(void)
{
    static const size_t shapes[][2] = {{1, 1}, {2, 2}, {3, 2}, {2, 3}, {5, 3}, {3, 5}, {8, 8},
                                       {12, 7}, {7, 12}, {16, 16}, {32, 5}, {5, 32}, {32, 32}};
    size_t i;
    for (i = 1; i <= MOST; i++)
        eigen(i);
    for (i = 0; i < sizeof shapes / sizeof shapes[0]; i++) {
        size_t m = shapes[i][0], n = shapes[i][1];
        svd(m, n);
        qr(m > n ? m : n, m > n ? n : m);
    }
}
