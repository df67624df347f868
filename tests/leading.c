/* crewelmarsh_leading: layouts worked out by hand and by the rule, every answer it can give, and an eigen result beside lanczos' answer. */
#include "boundary.h"

/* Three values, and a vector in each column: number i of column j is 10 * (i + 1) + j. */
static const double three[12] = {1, 2, 3, 10, 11, 12, 20, 21, 22, 30, 31, 32};

static void worked(void)
{
    double all[12] = {3, 2, 1, 12, 22, 32, 11, 21, 31, 10, 20, 30};
    double two[8] = {3, 2, 12, 22, 32, 11, 21, 31}, one[4] = {3, 12, 22, 32};
    double single[2] = {-7, 1}, equal[6] = {2, 2, 1, 0, 0, -1}, later[6] = {2, 2, 0, -1, 1, 0};
    double falls[6] = {9, 4, 1, 2, 3, 5}, back[3] = {4, 2, 5};
    double small[2], same[2];
    expect("3 of 3", leading_call(3, 3, three), 0, 0, 0, all);
    expect("2 of 3", leading_call(3, 2, three), 0, 0, 0, two);
    expect("1 of 3", leading_call(3, 1, three), 0, 0, 0, one);
    expect("0 of 3", leading_call(3, 0, three), 0, 0, 0, NULL);
    expect("n = 1", leading_call(1, 1, single), 0, 0, 0, single);
    expect("n = 0", leading_call(0, 0, NULL), 0, 0, 0, NULL);
    expect("of equal values the later first", leading_call(2, 2, equal), 0, 0, 0, later);
    expect("values that don't ascend", leading_call(2, 1, falls), 0, 0, 0, back);
    small[0] = same[0] = -power_of_two(-1074);
    small[1] = same[1] = from_bits(UINT64_C(0x8000000000000000));
    expect("a subnormal and -0.0", leading_call(1, 1, small), 0, 0, 0, same);
}

/* Out by the rule, for every k of every n up to 6, and of 256. */
static double result[256 + 65536], wanted[256 + 65536];

static void by_rule(const char *what, size_t n, size_t k)
{
    size_t i, t;
    for (i = 0; i < n + n * n; i++)
        result[i] = (double)(i * 37 % 1009) - 504 + (double)i / 131072;
    for (t = 0; t < k; t++) {
        wanted[t] = result[n - 1 - t];
        for (i = 0; i < n; i++)
            wanted[k + t * n + i] = result[n + i * n + (n - 1 - t)];
    }
    expect(what, leading_call(n, k, result), 0, 0, 0, wanted);
}

static void sizes(void)
{
    size_t n, k;
    for (n = 0; n <= 6; n++)
        for (k = 0; k <= n; k++)
            by_rule("n up to 6", n, k);
    by_rule("8 of 256", 256, 8);
    by_rule("256 of 256", 256, 256);
}

/* All is wrong at first; what is found first is mended, and the next is found. */
static void order_of_tests(void)
{
    double bad[6] = {1, 2, 3, 4, 5, 6};
    struct call c = leading_call(2, 1, bad);
    bad[0] = not_a_number();
    bad[5] = plus_infinity();
    c.n = 257;
    c.m = 258;
    c.in_len = 5;
    c.out_len = 2;
    expect("n of 257", c, 1, 0, 0, NULL);
    c.n = 2;
    expect("k over n", c, 15, 0, 0, NULL);
    c.m = 3;
    expect("k over n by 1", c, 15, 0, 0, NULL);
    c.m = 1;
    expect("result of 5", c, 6, 0, 0, NULL);
    c.in_len = 6;
    expect("out of 2", c, 6, 1, 0, NULL);
    c.out_len = 3;
    expect("NaN in a value that is not given", c, 7, 0, 0, NULL);
    bad[0] = 1;
    expect("infinity", c, 7, 5, 0, NULL);
    bad[5] = 6;
    expect("mended", c, 0, 0, 0, NULL);
}

static void lengths(void)
{
    struct call c = leading_call(3, 2, three);
    expect_length("result", &c, &c.in_len, 0);
    expect_length("out", &c, &c.out_len, 1);
}

/* Sizes and k whose low bits alone would do. */
static void large(void)
{
    int i;
    for (i = 0; i < LARGE_NUMBERS; i++) {
        struct call c = leading_call(3, 2, three);
        c.n = large_numbers[i];
        expect("n", c, 1, 0, 0, NULL);
        c.n = 3;
        c.m = large_numbers[i];
        expect("k", c, 15, 0, 0, NULL);
    }
}

/* Every number is looked at, also those that are not given. */
static void not_finite(void)
{
    size_t i;
    for (i = 0; i < 12; i++)
        expect_not_finite("result", leading_call(3, 1, three), i, i);
}

/* An eigen result handed on, beside lanczos of the same matrix: values, and rows up to their sign. */
enum { BANDS = 24, KEPT = 5 };

static double distance(double x, double y) { return x < y ? y - x : x - y; }

/* How far the matrix's product with v is from v times the value. */
static double apart(const double *matrix, const double *v, double value)
{
    double most = 0;
    size_t i, j;
    for (i = 0; i < BANDS; i++) {
        double sum = 0;
        for (j = 0; j < BANDS; j++)
            sum += matrix[i * BANDS + j] * v[j];
        if (distance(sum, value * v[i]) > most)
            most = distance(sum, value * v[i]);
    }
    return most;
}

static void beside(void)
{
    static double matrix[BANDS * BANDS], eigen[BANDS + BANDS * BANDS];
    double start[BANDS], out[KEPT + KEPT * BANDS], pairs[KEPT + KEPT * BANDS];
    size_t i, j, t;
    for (i = 0; i < BANDS; i++) {
        start[i] = (double)(i * 7 % 11) - 4;
        for (j = 0; j < BANDS; j++) {
            double sum = i == j ? 1.0 / (double)(64 + i) : 0;
            for (t = 0; t < 8; t++)
                sum += ((double)((t + 1) * 13 * i % 31) / 15 - 1) * ((double)((t + 1) * 13 * j % 31) / 15 - 1) / (double)((size_t)1 << 2 * t);
            matrix[i * BANDS + j] = sum;
        }
    }
    expect_done("symmetric_eigen", eigen_call(BANDS, matrix), eigen);
    expect_done("its leading pairs", leading_call(BANDS, KEPT, eigen), out);
    expect_pairs("lanczos of the same", lanczos_call(BANDS, KEPT, matrix, start), KEPT, pairs);
    for (t = 0; t < KEPT; t++) {
        const double *row = out + KEPT + t * BANDS, *other = pairs + KEPT + t * BANDS;
        double dot = 0, worst = 0;
        for (i = 0; i < BANDS; i++)
            dot += row[i] * other[i];
        for (i = 0; i < BANDS; i++) {
            double d = distance(row[i], dot < 0 ? -other[i] : other[i]);
            worst = d > worst ? d : worst;
        }
        check(t == 0 || out[t] <= out[t - 1], "descending");
        check(distance(out[t], pairs[t]) <= 1e-8 * out[0], "lanczos' value");
        check(worst <= 1e-5, "lanczos' row up to its sign");
        check(apart(matrix, row, out[t]) <= 1e-12 * out[0], "a row that the matrix stretches");
    }
    /* The trap: row t of the result's own matrix is no vector of the matrix. */
    check(apart(matrix, eigen + BANDS + (BANDS - 1) * BANDS, out[0]) > 0.1 * out[0], "rows taken for columns");
}

void test_leading(void)
{
    worked();
    sizes();
    order_of_tests();
    lengths();
    large();
    not_finite();
    beside();
}
