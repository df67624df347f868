/*
 * The number that went bad, found again through `place` and `index`: both classes, at every mark where they
 * can be met. Where a mark's arrays can be worked out here with a few lines, they are, and the number at
 * `index` is looked at; every other index is from the Rust oracle.
 */
#include <string.h>
#include "boundary.h"

enum { MOST = 16 };

static double huge(void) { return power_of_two(1023); }
static double largest(void) { return from_bits(UINT64_C(0x7fefffffffffffff)); }

/* The answer that a number gives which is not finite: 8 or 10; 0 for one that is finite. */
static size_t class_of(double x)
{
    uint64_t magnitude = to_bits(x) << 1 >> 1;
    uint64_t infinity = to_bits(plus_infinity());
    return magnitude < infinity ? 0 : magnitude == infinity ? 8 : 10;
}

/* The call, and that in the mark's arrays the number at the index is of the class, and all before it are finite. */
static void found(const char *what, struct call c, size_t answer, size_t place, size_t index, size_t count,
                  const double *arrays)
{
    size_t i;
    for (i = 0; i < index; i++)
        check(class_of(arrays[i]) == 0, "finite before the index");
    check(class_of(arrays[index]) == answer, "what stands at the index");
    expect_at(what, c, answer, place, index, count);
}

/* ---- solve and pseudo_inverse: the arrays are the answers, by the definition's sums. All values are above the tolerance, 0. */

static void solved(const double *given, const double *right, size_t m, size_t n, double *x)
{
    size_t r = m < n ? m : n, i, j, k;
    const double *u = given + r, *vt = u + m * r;
    double c[MOST];
    for (k = 0; k < r; k++) {
        double sum = 0;
        for (i = 0; i < m; i++)
            sum += u[i * r + k] * right[i];
        c[k] = sum / given[k];
    }
    for (j = 0; j < n; j++) {
        x[j] = 0;
        for (k = 0; k < r; k++)
            x[j] += vt[k * n + j] * c[k];
    }
}

static void inverted(const double *given, size_t m, size_t n, double *inverse)
{
    size_t r = m < n ? m : n, i, j, k;
    const double *u = given + r, *vt = u + m * r;
    for (j = 0; j < n; j++)
        for (i = 0; i < m; i++) {
            double sum = 0;
            for (k = 0; k < r; k++)
                sum += vt[k * n + j] * (1 / given[k]) * u[i * r + k];
            inverse[j * m + i] = sum;
        }
}

static void solve_one(const char *what, size_t m, size_t n, const double *given, const double *right, size_t answer,
                      size_t index)
{
    double x[MOST];
    solved(given, right, m, n, x);
    found(what, solve_call(m, n, given, right), answer, 2, index, 0, x);
}

static void inverse_one(const char *what, size_t m, size_t n, const double *given, size_t answer, size_t index)
{
    double inverse[MOST];
    inverted(given, m, n, inverse);
    found(what, pseudo_inverse_call(m, n, given), answer, 2, index, 0, inverse);
}

/* A row: the value 1, U 1 by 1, V^T as long as the answer. */
static void solve_marks(void)
{
    double row[5] = {1, 2, 0, 0, 0}, one[1] = {1}, both[10] = {1, 1, 0, 0, 2, 0, -1, 0, 1, 0}, minus[2] = {-1, -1};
    size_t j;
    for (j = 0; j < 3; j++) {
        row[2] = row[3] = row[4] = 0;
        row[2 + j] = huge();
        solve_one("2 * 2^1023", 1, 3, row, one, 8, j);
        row[4] = huge();
        solve_one("the first of two", 1, 3, row, one, 8, j);
    }
    row[1] = one[0] = huge();
    row[2] = 1;
    row[3] = row[4] = 0;
    solve_one("infinity, then 0 * infinity", 1, 3, row, one, 8, 0);
    row[2] = 0;
    row[4] = 1;
    solve_one("0 * infinity, then infinity", 1, 3, row, one, 10, 0);
    row[0] = power_of_two(-1074);
    row[1] = one[0] = 1;
    solve_one("0 * (1 / 2^-1074)", 1, 3, row, one, 10, 0);
    both[2] = both[5] = largest();
    both[7] = -huge();
    both[9] = huge();
    solve_one("infinity - infinity", 2, 2, both, minus, 10, 1);
}

/* Cells are counted row by row of the n by m answer. */
static void inverse_marks(void)
{
    double given[12] = {1, 1, 0, 0, 0, 0, 0, 0, 2, 0, 0, 2};
    double mixed[10] = {2, 1, -1, 0, 0, 0, 0, 0, 0, 2}, differ[10] = {1, 1, 1, 1, 0, 0, 0, -1, 0, 0};
    double tiny[12] = {1, 0, 1, 0, 0, 1, 0, 0, 1, 0, 0, 1};
    size_t i, j;
    for (j = 0; j < 2; j++)
        for (i = 0; i < 3; i++) {
            given[2 + 2 * i + j] = huge();
            inverse_one("2 * 2^1023", 3, 2, given, 8, j * 3 + i);
            given[2 + 2 * i + j] = 0;
        }
    given[2 + 2 * 2] = given[2 + 1] = huge();
    inverse_one("row by row", 3, 2, given, 8, 2);
    mixed[4] = -huge();
    mixed[5] = mixed[6] = mixed[7] = huge();
    inverse_one("infinity, then NaN", 2, 2, mixed, 8, 1);
    differ[4] = differ[5] = differ[8] = largest();
    differ[6] = -largest();
    inverse_one("infinity - infinity", 2, 2, differ, 10, 1);
    tiny[1] = power_of_two(-1074);
    inverse_one("0 * infinity", 3, 2, tiny, 10, 0);
}

/* ---- qr_q: the array has the squared length of each column. The columns before the bad one are of length 1 or 2,
   and orthogonal to each other. */

static void column_lengths(const double *a, size_t m, size_t k, double *squares)
{
    double q[MOST];
    size_t i, j, row;
    int pass;
    memcpy(q, a, m * k * sizeof(double));
    for (j = 0; j < k; j++) {
        for (pass = 0; pass < 2; pass++)
            for (i = 0; i < j; i++) {
                double along = 0;
                for (row = 0; row < m; row++)
                    along += q[row * k + i] * q[row * k + j];
                for (row = 0; row < m; row++)
                    q[row * k + j] -= along * q[row * k + i];
            }
        squares[j] = 0;
        for (row = 0; row < m; row++)
            squares[j] += q[row * k + j] * q[row * k + j];
        if (squares[j] == 4)
            for (row = 0; row < m; row++)
                q[row * k + j] /= 2;
    }
}

static void qr_marks(void)
{
    double matrix[12] = {1, 1, 0, 1, 1, 0, 1, -1, 0, 1, -1, 0};
    double squares[3];
    size_t j, row;
    for (j = 0; j < 3; j++) {
        double old = matrix[j];
        matrix[j] = power_of_two(600);
        column_lengths(matrix, 4, 3, squares);
        found("a length that overflows", qr_q_call(4, 3, matrix), 8, j, j, 0, squares);
        matrix[j] = old;
    }
    for (row = 0; row < 4; row++)
        matrix[row * 3 + 2] = largest();
    column_lengths(matrix, 4, 3, squares);
    found("a length that is NaN", qr_q_call(4, 3, matrix), 10, 2, 2, 0, squares);
    for (row = 0; row < 4; row++)
        matrix[row * 3 + 1] = -largest();
    column_lengths(matrix, 4, 3, squares);
    found("the first of two", qr_q_call(4, 3, matrix), 10, 1, 1, 0, squares);
}

/* ---- svd. At mark 2 the first r numbers are the columns' lengths, here of the matrix itself, since no pair turns. At mark
   1 a pair whose product of columns is NaN has turned, and its first column is NaN from the first row on. */

static void svd_lengths(const double *a, size_t rows, size_t r, int wide, double *squares)
{
    size_t i, j;
    for (j = 0; j < r; j++) {
        squares[j] = 0;
        for (i = 0; i < rows; i++) {
            double x = wide ? a[j * rows + i] : a[i * r + j];
            squares[j] += x * x;
        }
    }
}

static void svd_values(void)
{
    double matrix[12], squares[3];
    size_t i, j;
    for (j = 0; j < 3; j++) {
        for (i = 0; i < 12; i++)
            matrix[i] = 0;
        matrix[0] = matrix[4] = matrix[8] = 1;
        matrix[4 * j] = -power_of_two(512);
        svd_lengths(matrix, 4, 3, 0, squares);
        found("a value that overflows", svd_call(4, 3, 1, 1, matrix), 8, 2, j, 1, squares);
        for (i = 0; i < 12; i++)
            matrix[i] = 0;
        matrix[0] = matrix[5] = matrix[10] = 1;
        matrix[5 * j] = power_of_two(512);
        svd_lengths(matrix, 4, 3, 1, squares);
        found("a value that overflows, wide", svd_call(3, 4, 0, 0, matrix), 8, 2, j, 1, squares);
    }
}

/* Columns p and 2 are (x, x) and (x, -x) in two rows, and their product x * x - x * x. */
static void svd_factors(void)
{
    double tall[12], wide[12], product;
    size_t i, j, p;
    for (p = 0; p < 2; p++) {
        for (i = 0; i < 12; i++)
            tall[i] = wide[i] = 0;
        tall[2 * 3 + 1 - p] = 1;
        tall[p] = tall[2] = tall[3 + p] = power_of_two(600);
        tall[3 + 2] = -tall[p];
        for (i = 0; i < 4; i++)
            for (j = 0; j < 3; j++)
                wide[j * 4 + i] = tall[i * 3 + j];
        product = tall[p] * tall[2] + tall[3 + p] * tall[3 + 2];
        check(class_of(product) == 10, "the product of the columns");
        expect_at("a factor that is NaN", svd_call(4, 3, 1, 1, tall), 10, 1, p, 1);
        expect_at("a factor that is NaN, wide", svd_call(3, 4, 1, 0, wide), 10, 1, p, 1);
    }
}

/* ---- symmetric_eigen */

/* n = 2, worked through: what the reduction leaves is the diagonal, then 0 and the number beside row 1, then the identity. */
static void reduced(const double *a, double *arrays)
{
    double beside = a[2] < 0 ? -a[2] : a[2], d = a[2] / beside, f = d + d;
    double e = a[0] * f / 2;
    e -= e * f / 4 * f;
    arrays[0] = a[0] - (f * e + e * f);
    arrays[1] = a[3];
    arrays[2] = 0;
    arrays[3] = beside * -d;
    arrays[4] = arrays[7] = 1;
    arrays[5] = arrays[6] = 0;
}

/* The index from the oracle: at mark 0 and 1 the diagonal has 0 to n - 1, the subdiagonal n to 2 * n - 1. */
static void eigen_marks(void)
{
    double two[4] = {0, 0, 1, 0}, arrays[8];
    double three[9] = {0}, four[16] = {1, 0, 0, 0, 1, 0, 0, 0, 0, 0, 0, 0, 1, 0, 0, 0};
    two[0] = huge();
    reduced(two, arrays);
    found("mark 0, NaN", eigen_call(2, two), 10, 0, 0, 0, arrays);
    two[2] = -3;
    reduced(two, arrays);
    found("mark 0, NaN", eigen_call(2, two), 10, 0, 0, 0, arrays);
    three[0] = huge();
    three[4] = -huge();
    three[6] = three[8] = -1;
    expect_at("mark 0, infinity", eigen_call(3, three), 8, 0, 0, 0);
    three[3] = three[6] = 1;
    three[8] = 0;
    expect_at("mark 0, NaN, then infinity", eigen_call(3, three), 10, 0, 0, 0);
    four[5] = -huge();
    four[8] = four[10] = four[13] = huge();
    expect_at("mark 0, infinity, not the first", eigen_call(4, four), 8, 0, 1, 0);
}

static void pass_marks(void)
{
    double half = huge() / 2;
    double two[4] = {0}, three[9] = {0}, four[16] = {2, 0, 0, 0, 1, 0, 0, 0, 0, 0, 1, 0, 0, 1, 1, -1};
    two[0] = half / 2;
    two[2] = -half;
    two[3] = largest();
    expect_at("mark 1, infinity", eigen_call(2, two), 8, 1, 1, 1);
    two[0] = half;
    two[2] = -huge();
    two[3] = -largest();
    expect_at("mark 1, NaN", eigen_call(2, two), 10, 1, 0, 1);
    two[0] = 0;
    two[2] = power_of_two(-1074);
    two[3] = 1;
    expect_at("mark 1, NaN with no number above 1", eigen_call(2, two), 10, 1, 0, 1);
    two[3] = 0;
    two[2] = largest();
    expect_at("mark 1, NaN below the diagonal", eigen_call(2, two), 10, 1, 3, 1);
    three[3] = half;
    three[4] = -1;
    three[7] = -largest();
    three[8] = half;
    expect_at("mark 1, infinity below the diagonal", eigen_call(3, three), 8, 1, 4, 1);
    memset(three, 0, sizeof three);
    three[3] = half;
    three[6] = -half;
    expect_at("mark 1, NaN, then infinity", eigen_call(3, three), 10, 1, 0, 1);
    three[3] = largest();
    three[6] = 0;
    three[8] = -huge();
    expect_at("mark 1, infinity, then NaN", eigen_call(3, three), 8, 1, 2, 1);
    memset(three, 0, sizeof three);
    three[3] = 1;
    three[6] = -huge();
    three[8] = huge();
    expect_at("mark 1, NaN, not the first", eigen_call(3, three), 10, 1, 1, 2);
    four[9] = huge();
    expect_at("mark 1, infinity, not the first", eigen_call(4, four), 8, 1, 1, 2);
}

/* A value above the largest double: with a quarter of the matrix it is there, and four times that is infinite. */
static void value_mark(void)
{
    double matrix[4] = {0}, quarter[4], result[6];
    int i;
    matrix[0] = -huge() / 2;
    matrix[2] = huge() / 2;
    matrix[3] = -largest();
    expect_at("mark 2", eigen_call(2, matrix), 8, 2, 1, 1);
    for (i = 0; i < 4; i++)
        quarter[i] = matrix[i] / 4;
    expect_done("a quarter of it", eigen_call(2, quarter), result);
    check(class_of(4 * result[0]) == 8 && class_of(4 * result[1]) == 0, "the value that is too large");
}

void test_marks(void)
{
    solve_marks();
    inverse_marks();
    qr_marks();
    svd_values();
    svd_factors();
    eigen_marks();
    pass_marks();
    value_mark();
}
