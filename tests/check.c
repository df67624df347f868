/* Counting, doubles by their bits, and the one function through which every call is made. */
#include <stdio.h>
#include <string.h>
#include "boundary.h"

static const char *group_name;
static unsigned long group_checks, group_failures, all_checks, all_failures;

static void end_group(void)
{
    if (group_name)
        printf("%s: %lu checks, %lu failed\n", group_name, group_checks, group_failures);
    all_checks += group_checks;
    all_failures += group_failures;
    group_checks = 0;
    group_failures = 0;
}

void group(const char *name)
{
    end_group();
    group_name = name;
}

static void check_aspect(int good, const char *what, const char *aspect)
{
    group_checks++;
    if (good)
        return;
    group_failures++;
    printf("FAILED: %s: %s%s\n", group_name, what, aspect);
}

void check(int good, const char *what) { check_aspect(good, what, ""); }

int report(void)
{
    end_group();
    printf("boundary: %lu checks, %lu failed\n", all_checks, all_failures);
    return all_failures != 0;
}

double from_bits(uint64_t bits)
{
    double x;
    memcpy(&x, &bits, sizeof x);
    return x;
}

uint64_t to_bits(double x)
{
    uint64_t bits;
    memcpy(&bits, &x, sizeof bits);
    return bits;
}

double power_of_two(int exponent)
{
    if (exponent < -1022)
        return from_bits((uint64_t)1 << (exponent + 1074));
    return from_bits((uint64_t)(exponent + 1023) << 52);
}

double not_a_number(void) { return from_bits(UINT64_C(0x7ff8000000000000)); }

double plus_infinity(void) { return from_bits(UINT64_C(0x7ff0000000000000)); }

const uint64_t bad_numbers[BAD_NUMBERS] = {
    UINT64_C(0x7ff8000000000000), UINT64_C(0x7ff0000000000001), UINT64_C(0xffffffffffffffff),
    UINT64_C(0x7ff0000000000000), UINT64_C(0xfff0000000000000)};

const size_t large_numbers[LARGE_NUMBERS] = {
    257, 258, 512, 65536 + 2, 65536 + 60, ((size_t)1 << 32) + 2, (size_t)1 << 32, (size_t)1 << 63, SIZE_MAX};

/* The arrays of a call, each in a room of its own between guard words. */
enum { IN, RIGHT, WORK, OUT, ROOMS };
enum { GUARD = 16 };

static double room[ROOMS][GUARD + LONGEST + GUARD];
static double before[ROOMS][GUARD + LONGEST + GUARD];
static double first_out[LONGEST];

/* Fills guards and array with one byte, writes what there is of contents, and notes it all. */
static double *lend(int r, int byte, const double *contents, size_t full, size_t length,
                    int null_if_empty)
{
    size_t bytes = (GUARD + length + GUARD) * sizeof(double);
    size_t i;
    memset(room[r], byte, bytes);
    for (i = 0; i < length && i < full; i++)
        room[r][GUARD + i] = contents[i];
    memcpy(before[r], room[r], bytes);
    return null_if_empty && length == 0 ? NULL : room[r] + GUARD;
}

static int same(int r, size_t from, size_t length)
{
    return memcmp(room[r] + from, before[r] + from, length * sizeof(double)) == 0;
}

static int guards_kept(int r, size_t length)
{
    return same(r, 0, GUARD) && same(r, GUARD + length, GUARD);
}

static int kept(int r, size_t length) { return same(r, GUARD, length); }

static int zeroed(int r, size_t length)
{
    size_t i;
    for (i = 0; i < length; i++)
        if (to_bits(room[r][GUARD + i]) != 0)
            return 0;
    return 1;
}

static int all_finite(int r, size_t length)
{
    size_t i;
    for (i = 0; i < length; i++)
        if ((to_bits(room[r][GUARD + i]) >> 52 & 0x7ff) == 0x7ff)
            return 0;
    return 1;
}

static int out_is(const double *expected, size_t length)
{
    return memcmp(room[OUT] + GUARD, expected, length * sizeof(double)) == 0;
}

static struct crewelmarsh_answer run(const struct call *c, const double *in, const double *right,
                                     double *work, double *out)
{
    struct crewelmarsh_answer none = {99, 99, 99, 99};
    switch (c->entry) {
    case EIGEN:
        return crewelmarsh_symmetric_eigen(c->n, c->limit, c->edition, in, c->in_len,
                                           work, c->work_len, out, c->out_len);
    case SVD:
        return crewelmarsh_svd(c->m, c->n, c->u, c->vt, c->limit, in, c->in_len,
                               work, c->work_len, out, c->out_len);
    case SOLVE:
        return crewelmarsh_solve(c->m, c->n, c->u, c->vt, c->tolerance, in, c->in_len,
                                 right, c->right_len, out, c->out_len);
    case PSEUDO_INVERSE:
        return crewelmarsh_pseudo_inverse(c->m, c->n, c->u, c->vt, c->tolerance, in, c->in_len,
                                          out, c->out_len);
    case QR_Q:
        return crewelmarsh_qr_q(c->m, c->n, in, c->in_len, out, c->out_len);
    case LANCZOS:
        return crewelmarsh_lanczos(c->n, c->m, c->limit, c->edition, in, c->in_len, right, c->right_len,
                                   work, c->work_len, out, c->out_len);
    case LEADING:
        return crewelmarsh_leading(c->n, c->m, in, c->in_len, out, c->out_len);
    }
    return none;
}

/* What a call leaves in the two arrays that it may write. */
static int left_as_promised(const struct call *c, size_t answer)
{
    if (answer == 0)
        return zeroed(WORK, c->work_len) && all_finite(OUT, c->out_len);
    if (answer <= 6 || answer == 11 || answer == 12 || answer == 14 || answer == 15)
        return kept(WORK, c->work_len) && kept(OUT, c->out_len);
    return zeroed(WORK, c->work_len) && zeroed(OUT, c->out_len);
}

static struct crewelmarsh_answer run_between_guards(const char *what, const struct call *c,
                                                    int byte, int null_if_empty)
{
    const double *in = lend(IN, byte, c->in, c->in_full, c->in_len, null_if_empty);
    const double *right = lend(RIGHT, byte, c->right, c->right_full, c->right_len, null_if_empty);
    double *work = lend(WORK, byte, NULL, 0, c->work_len, null_if_empty);
    double *out = lend(OUT, byte, NULL, 0, c->out_len, null_if_empty);
    struct crewelmarsh_answer a = run(c, in, right, work, out);

    check_aspect(guards_kept(IN, c->in_len) && guards_kept(RIGHT, c->right_len) &&
                 guards_kept(WORK, c->work_len) && guards_kept(OUT, c->out_len), what, ": guard words");
    check_aspect(kept(IN, c->in_len) && kept(RIGHT, c->right_len), what, ": what is only read");
    check_aspect(left_as_promised(c, a.answer), what, ": what the answer leaves in work and result");
    return a;
}

static void check_numbers(const char *what, struct crewelmarsh_answer a,
                          size_t answer, size_t place, size_t index, size_t count)
{
    int good = a.answer == answer && a.place == place && a.index == index && a.count == count;
    check_aspect(good, what, ": answer, place, index, count");
    if (!good)
        printf("  %zu %zu %zu %zu came, %zu %zu %zu %zu expected\n",
               a.answer, a.place, a.index, a.count, answer, place, index, count);
}

/* The old contents are negative numbers the first time and NaN the second. */
static struct crewelmarsh_answer run_first(const char *what, const struct call *c)
{
    struct crewelmarsh_answer a = run_between_guards(what, c, 0xa5, 1);
    memcpy(first_out, room[OUT] + GUARD, c->out_len * sizeof(double));
    return a;
}

static struct crewelmarsh_answer run_again(const char *what, const struct call *c)
{
    struct crewelmarsh_answer a = run_between_guards(what, c, 0xff, 0);
    if (a.answer == 0)
        check_aspect(out_is(first_out, c->out_len), what, ": the same result the second time");
    return a;
}

void expect(const char *what, struct call c, size_t answer, size_t place, size_t count, const double *out)
{
    check_numbers(what, run_first(what, &c), answer, place, 0, count);
    check_numbers(what, run_again(what, &c), answer, place, 0, count);
    if (out)
        check_aspect(out_is(out, c.out_len), what, ": the bits of the result");
}

void expect_at(const char *what, struct call c, size_t answer, size_t place, size_t index, size_t count)
{
    check_numbers(what, run_first(what, &c), answer, place, index, count);
    check_numbers(what, run_again(what, &c), answer, place, index, count);
}

void expect_bits(const char *what, struct call c, size_t count, const uint64_t *bits)
{
    double out[64];
    size_t i;
    for (i = 0; i < c.out_len; i++)
        out[i] = from_bits(bits[i]);
    expect(what, c, 0, 0, count, out);
}

size_t expect_done(const char *what, struct call c, double *out)
{
    struct crewelmarsh_answer a = run_first(what, &c);
    check_numbers(what, a, 0, 0, 0, a.count);
    check_numbers(what, run_again(what, &c), 0, 0, 0, a.count);
    memcpy(out, first_out, c.out_len * sizeof(double));
    return a.count;
}

size_t expect_pairs(const char *what, struct call c, size_t pairs, double *out)
{
    struct crewelmarsh_answer a = run_first(what, &c);
    check_numbers(what, a, 0, pairs, 0, a.count);
    check_numbers(what, run_again(what, &c), 0, pairs, 0, a.count);
    memcpy(out, first_out, c.out_len * sizeof(double));
    return a.count;
}

void expect_not_finite(const char *what, struct call c, size_t index, size_t place)
{
    double in[64];
    int i;
    memcpy(in, c.in, c.in_len * sizeof(double));
    c.in = in;
    for (i = 0; i < BAD_NUMBERS; i++) {
        in[index] = from_bits(bad_numbers[i]);
        expect(what, c, 7, place, 0, NULL);
    }
}

void expect_length(const char *what, struct call *c, size_t *len, size_t place)
{
    size_t right = *len;
    size_t wrong[4];
    int i;
    wrong[0] = right - 1;
    wrong[1] = right + 1;
    wrong[2] = 0;
    wrong[3] = 2 * right;
    for (i = 0; i < 4; i++) {
        *len = wrong[i];
        expect(what, *c, 6, place, 0, NULL);
    }
    *len = right;
}

static struct call blank(enum entry entry, size_t m, size_t n)
{
    struct call c;
    memset(&c, 0, sizeof c);
    c.entry = entry;
    c.m = m;
    c.n = n;
    c.u = 1;
    c.vt = 1;
    c.limit = 60;
    c.edition = 1;
    return c;
}

struct call eigen_call(size_t n, const double *matrix)
{
    struct call c = blank(EIGEN, 0, n);
    c.in = matrix;
    c.in_full = c.in_len = crewelmarsh_matrix_len(n, n);
    c.work_len = crewelmarsh_symmetric_eigen_work_len(n);
    c.out_len = crewelmarsh_symmetric_eigen_result_len(n);
    return c;
}

struct call svd_call(size_t m, size_t n, size_t u, size_t vt, const double *matrix)
{
    struct call c = blank(SVD, m, n);
    c.u = u;
    c.vt = vt;
    c.in = matrix;
    c.in_full = c.in_len = crewelmarsh_matrix_len(m, n);
    c.work_len = crewelmarsh_svd_work_len(m, n);
    c.out_len = crewelmarsh_svd_result_len(m, n, u, vt);
    return c;
}

struct call solve_call(size_t m, size_t n, const double *decomposition, const double *right)
{
    struct call c = blank(SOLVE, m, n);
    c.in = decomposition;
    c.right = right;
    c.in_full = c.in_len = crewelmarsh_svd_result_len(m, n, 1, 1);
    c.right_full = c.right_len = crewelmarsh_solve_right_side_len(m);
    c.out_len = crewelmarsh_solve_answer_len(n);
    return c;
}

struct call pseudo_inverse_call(size_t m, size_t n, const double *decomposition)
{
    struct call c = blank(PSEUDO_INVERSE, m, n);
    c.in = decomposition;
    c.in_full = c.in_len = crewelmarsh_svd_result_len(m, n, 1, 1);
    c.out_len = crewelmarsh_pseudo_inverse_answer_len(m, n);
    return c;
}

struct call qr_q_call(size_t m, size_t k, const double *matrix)
{
    struct call c = blank(QR_Q, m, k);
    c.in = matrix;
    c.in_full = c.in_len = crewelmarsh_matrix_len(m, k);
    c.out_len = crewelmarsh_qr_q_answer_len(m, k);
    return c;
}

struct call lanczos_call(size_t n, size_t k, const double *matrix, const double *start)
{
    struct call c = blank(LANCZOS, k, n);
    c.in = matrix;
    c.right = start;
    c.in_full = c.in_len = crewelmarsh_matrix_len(n, n);
    c.right_full = c.right_len = n;
    c.work_len = crewelmarsh_lanczos_work_len(n, k);
    c.out_len = crewelmarsh_lanczos_answer_len(n, k);
    return c;
}

struct call leading_call(size_t n, size_t k, const double *result)
{
    struct call c = blank(LEADING, k, n);
    c.in = result;
    c.in_full = c.in_len = crewelmarsh_symmetric_eigen_result_len(n);
    c.out_len = crewelmarsh_leading_out_len(n, k);
    return c;
}
