/* crewelmarsh_solve and crewelmarsh_pseudo_inverse: the worked numbers and every answer they can give. */
#include "boundary.h"

/* The decomposition of diagonal (2, 4); and whole numbers in the place of one of 3 by 2. */
static const double diagonal[10] = {4, 2, 0, 1, 1, 0, 0, 1, 1, 0};
static const double plain[12] = {1, 2, 3, 4, 5, 6, 7, 8, 9, 10, 11, 12};
static const double right[3] = {2, 4, 6};

static struct call with_tolerance(struct call c, double tolerance)
{
    c.tolerance = tolerance;
    return c;
}

static struct call with_flags(struct call c, size_t u, size_t vt)
{
    c.u = u;
    c.vt = vt;
    return c;
}

/*
 * Tolerances that are refused: NaNs of both signs, quiet and signalling, with the least and the largest payload; and
 * below 0 the nearest to 0, the nearest that is normal, -1, the farthest and -infinity.
 */
enum { REFUSED = 11 };
static const uint64_t refused[REFUSED] = {
    UINT64_C(0x7ff8000000000000), UINT64_C(0xfff8000000000000), UINT64_C(0x7ff0000000000001),
    UINT64_C(0xfff0000000000001), UINT64_C(0x7fffffffffffffff), UINT64_C(0xffffffffffffffff),
    UINT64_C(0x8000000000000001), UINT64_C(0x8010000000000000), UINT64_C(0xbff0000000000000),
    UINT64_C(0xffefffffffffffff), UINT64_C(0xfff0000000000000)};

/*
 * Tolerances for the diagonal, with the outcome where both values count, the larger alone, and none. A
 * value equal to the tolerance doesn't count.
 */
static void tolerances(struct call c, const double *both, const double *larger, const double *none)
{
    int i;
    expect("tolerance 0", c, 0, 0, 0, both);
    expect("tolerance -0", with_tolerance(c, from_bits(UINT64_C(1) << 63)), 0, 0, 0, both);
    expect("tolerance 2^-1074", with_tolerance(c, power_of_two(-1074)), 0, 0, 0, both);
    expect("tolerance just below 2", with_tolerance(c, from_bits(to_bits(2) - 1)), 0, 0, 0, both);
    expect("tolerance 2", with_tolerance(c, 2), 0, 0, 0, larger);
    expect("tolerance just below 4", with_tolerance(c, from_bits(to_bits(4) - 1)), 0, 0, 0, larger);
    expect("tolerance 4", with_tolerance(c, 4), 0, 0, 0, none);
    expect("tolerance infinite", with_tolerance(c, plus_infinity()), 0, 0, 0, none);
    for (i = 0; i < REFUSED; i++)
        expect("tolerance refused", with_tolerance(c, from_bits(refused[i])), 11, 0, 0, NULL);
}

/* Each refused tolerance, and -0, beside one other mistake, which alone gives `answer` and `place`: up to 5 that comes first. */
static void beside(const char *what, struct call c, size_t answer, size_t place)
{
    int i;
    for (i = 0; i < REFUSED; i++)
        expect(what, with_tolerance(c, from_bits(refused[i])), answer < 6 ? answer : 11, 0, 0, NULL);
    expect(what, with_tolerance(c, from_bits(UINT64_C(1) << 63)), answer, place, 0, NULL);
}

/* The mistakes that both entries know, of a call of 3 by 2 on `decomposition`, which is `plain` at first and again at the end. */
static void beside_each(struct call c, double *decomposition)
{
    struct call wrong = c;
    wrong.m = 257;
    beside("m of 257", wrong, 1, 0);
    wrong = c;
    wrong.n = SIZE_MAX;
    beside("n too large", wrong, 1, 0);
    beside("no U", with_flags(c, 0, 1), 3, 0);
    beside("no V^T", with_flags(c, 1, 0), 4, 0);
    wrong = c;
    wrong.in_len = 11;
    beside("decomposition of 11", wrong, 6, 0);
    wrong = c;
    wrong.out_len++;
    beside("answer one too long", wrong, 6, 1);
    decomposition[5] = not_a_number();
    beside("NaN in the decomposition", c, 7, 5);
    decomposition[5] = plain[5];
}

/* The flags, of a call that is done with both: any number but 0 is yes. */
static void flags(struct call c, const double *done)
{
    int i, j;
    expect("neither factor", with_flags(c, 0, 0), 3, 0, 0, NULL);
    for (i = 0; i < LARGE_NUMBERS; i++) {
        j = LARGE_NUMBERS - 1 - i;
        expect("both", with_flags(c, large_numbers[i], large_numbers[j]), 0, 0, 0, done);
        expect("no U", with_flags(c, 0, large_numbers[i]), 3, 0, 0, NULL);
        expect("no V^T", with_flags(c, large_numbers[i], 0), 4, 0, 0, NULL);
    }
    expect("2 and 256", with_flags(c, 2, 256), 0, 0, 0, done);
}

static void solve_worked(void)
{
    double both[2] = {1, 1}, larger[2] = {0, 1}, none[2] = {0, 0};
    tolerances(solve_call(2, 2, diagonal, right), both, larger, none);
    flags(solve_call(2, 2, diagonal, right), both);
    expect("0 by 2", solve_call(0, 2, NULL, NULL), 0, 0, 0, none);
    expect("2 by 0", solve_call(2, 0, NULL, right), 0, 0, 0, NULL);
    expect("0 by 0", solve_call(0, 0, NULL, NULL), 0, 0, 0, NULL);
}

/* All is wrong at first; what is found first is mended, and the next is found. */
static void solve_order_of_tests(void)
{
    double decomposition[12], side[3] = {2, 4, 6};
    struct call c = solve_call(3, 2, decomposition, side);
    int i;
    for (i = 0; i < 12; i++)
        decomposition[i] = plain[i];
    decomposition[11] = not_a_number();
    side[2] = plus_infinity();
    c.m = 257;
    c.n = SIZE_MAX;
    c.u = c.vt = 0;
    c.right_len = 4;
    c.tolerance = not_a_number();
    c.in_len = 11;
    c.out_len = 1;
    expect("m of 257", c, 1, 0, 0, NULL);
    c.m = 3;
    expect("n too large", c, 1, 0, 0, NULL);
    c.n = 2;
    expect("neither factor", c, 3, 0, 0, NULL);
    c.u = 1;
    expect("no V^T", c, 4, 0, 0, NULL);
    c.vt = 1;
    expect("right side of 4", c, 5, 0, 0, NULL);
    c.right_len = 3;
    expect("tolerance NaN", c, 11, 0, 0, NULL);
    c.tolerance = 0;
    expect("decomposition of 11", c, 6, 0, 0, NULL);
    c.in_len = 12;
    expect("answer of 1", c, 6, 1, 0, NULL);
    c.out_len = 2;
    expect("NaN in the decomposition", c, 7, 11, 0, NULL);
    decomposition[11] = 12;
    expect("infinity in the right side", c, 7, 14, 0, NULL);
    side[2] = 6;
    expect("mended", c, 0, 0, 0, NULL);
}

static void solve_tolerance(void)
{
    double decomposition[12], side[3] = {2, 4, 6}, tiny[3] = {0, 1, 1};
    struct call c = solve_call(3, 2, decomposition, side);
    int i;
    for (i = 0; i < 12; i++)
        decomposition[i] = plain[i];
    beside_each(c, decomposition);
    c.right_len = 2;
    beside("right side of 2", c, 5, 0);
    c.right_len = 3;
    side[1] = plus_infinity();
    beside("infinity in the right side", c, 7, 13);
    tiny[0] = power_of_two(-1074);
    for (i = 0; i < REFUSED; i++)
        expect("overflow", with_tolerance(solve_call(1, 1, tiny, right), from_bits(refused[i])), 11, 0, 0, NULL);
}

static void solve_lengths(void)
{
    static const size_t wrong[] = {0, 1, 2, 4, 12};
    struct call c = solve_call(3, 2, plain, right);
    size_t i;
    expect_length("decomposition", &c, &c.in_len, 0);
    expect_length("answer", &c, &c.out_len, 1);
    for (i = 0; i < sizeof wrong / sizeof wrong[0]; i++) {
        c.right_len = wrong[i];
        expect("right side", c, 5, 0, 0, NULL);
    }
}

/* Indices go on from the decomposition to the right side. */
static void solve_not_finite(void)
{
    double side[3];
    size_t i, j, w;
    for (i = 0; i < 12; i++)
        expect_not_finite("decomposition", solve_call(3, 2, plain, right), i, i);
    for (i = 0; i < 3; i++)
        for (w = 0; w < BAD_NUMBERS; w++) {
            for (j = 0; j < 3; j++)
                side[j] = j < i ? right[j] : from_bits(bad_numbers[w]);
            expect("right side", solve_call(3, 2, plain, side), 7, 12 + i, 0, NULL);
        }
}

/* A value of 0 doesn't count at any tolerance; a tiny one does, and overflows. */
static void solve_mark(void)
{
    double tiny[3] = {0, 1, 1}, side[1] = {1}, none[1] = {0};
    expect("value 0", solve_call(1, 1, tiny, side), 0, 0, 0, none);
    tiny[0] = power_of_two(-1074);
    expect_at("overflow", solve_call(1, 1, tiny, side), 8, 2, 0, 0);
    tiny[2] = 0;
    expect_at("0 * infinity", solve_call(1, 1, tiny, side), 10, 2, 0, 0);
}

void test_solve(void)
{
    solve_worked();
    solve_order_of_tests();
    solve_tolerance();
    solve_lengths();
    solve_not_finite();
    solve_mark();
}

static void inverse_worked(void)
{
    double both[4] = {0.5, 0, 0, 0.25}, larger[4] = {0, 0, 0, 0.25}, none[4] = {0, 0, 0, 0};
    tolerances(pseudo_inverse_call(2, 2, diagonal), both, larger, none);
    flags(pseudo_inverse_call(2, 2, diagonal), both);
    expect("0 by 2", pseudo_inverse_call(0, 2, NULL), 0, 0, 0, NULL);
    expect("2 by 0", pseudo_inverse_call(2, 0, NULL), 0, 0, 0, NULL);
}

/* Bits from the Rust oracle: 3 times the rounded 1/5, and that times 3. Nine times the rounded 1/5 is another number. */
static void inverse_order_of_work(void)
{
    static const double decomposition[3] = {5, 3, 3};
    static const uint64_t inverse[1] = {UINT64_C(0x3ffcccccccccccce)};
    expect_bits("V^T by the value first", pseudo_inverse_call(1, 1, decomposition), 0, inverse);
}

static void inverse_order_of_tests(void)
{
    double decomposition[12];
    struct call c = pseudo_inverse_call(3, 2, decomposition);
    int i;
    for (i = 0; i < 12; i++)
        decomposition[i] = plain[i];
    decomposition[3] = not_a_number();
    c.m = SIZE_MAX;
    c.n = 257;
    c.u = c.vt = 0;
    c.tolerance = -power_of_two(-1074);
    c.in_len = 11;
    c.out_len = 7;
    expect("m too large", c, 1, 0, 0, NULL);
    c.m = 3;
    expect("n of 257", c, 1, 0, 0, NULL);
    c.n = 2;
    expect("neither factor", c, 3, 0, 0, NULL);
    c.u = 1;
    expect("no V^T", c, 4, 0, 0, NULL);
    c.vt = 1;
    expect("tolerance below 0", c, 11, 0, 0, NULL);
    c.tolerance = 0;
    expect("decomposition of 11", c, 6, 0, 0, NULL);
    c.in_len = 12;
    expect("answer of 7", c, 6, 1, 0, NULL);
    c.out_len = 6;
    expect("NaN", c, 7, 3, 0, NULL);
    decomposition[3] = 4;
    expect("mended", c, 0, 0, 0, NULL);
}

static void inverse_tolerance(void)
{
    double decomposition[12], tiny[3] = {0, 1, 1};
    int i;
    for (i = 0; i < 12; i++)
        decomposition[i] = plain[i];
    beside_each(pseudo_inverse_call(3, 2, decomposition), decomposition);
    tiny[0] = power_of_two(-1074);
    for (i = 0; i < REFUSED; i++)
        expect("overflow", with_tolerance(pseudo_inverse_call(1, 1, tiny), from_bits(refused[i])), 11, 0, 0, NULL);
}

static void inverse_lengths(void)
{
    struct call c = pseudo_inverse_call(3, 2, plain);
    expect_length("decomposition", &c, &c.in_len, 0);
    expect_length("answer", &c, &c.out_len, 1);
}

static void inverse_not_finite(void)
{
    size_t i;
    for (i = 0; i < 12; i++)
        expect_not_finite("decomposition", pseudo_inverse_call(3, 2, plain), i, i);
}

static void inverse_mark(void)
{
    double tiny[3] = {0, 1, 1}, none[1] = {0};
    expect("value 0", pseudo_inverse_call(1, 1, tiny), 0, 0, 0, none);
    tiny[0] = power_of_two(-1074);
    expect_at("overflow", pseudo_inverse_call(1, 1, tiny), 8, 2, 0, 0);
}

void test_pseudo_inverse(void)
{
    inverse_worked();
    inverse_order_of_work();
    inverse_order_of_tests();
    inverse_tolerance();
    inverse_lengths();
    inverse_not_finite();
    inverse_mark();
}
