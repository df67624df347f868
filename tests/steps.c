/* crewelmarsh_eigen_start, _step and _finish: a run in steps ends as the one call, whatever is wrong between steps is refused, and nothing is touched then. */
#include <string.h>
#include "boundary.h"

enum { MOST = 256, GUARDS = 8 };

/* The arrays of one run, each between guard words. */
struct arrays {
    size_t n, work_len, result_len;
    double work[GUARDS + MOST + 1 + GUARDS];
    double result[GUARDS + MOST + MOST * MOST + 1 + GUARDS];
};

static struct arrays first, second, kept, whole;

static double *work_of(struct arrays *a) { return a->work + GUARDS; }
static double *result_of(struct arrays *a) { return a->result + GUARDS; }

/* Everything that is lent, and the guards, holds this byte. */
static void set_up(struct arrays *a, size_t n, int byte)
{
    memset(a, byte, sizeof *a);
    a->n = n;
    a->work_len = n;
    a->result_len = n + n * n;
}

static int same_bytes(const void *a, const void *b, size_t count) { return memcmp(a, b, count) == 0; }

/* Both arrays with all around them, byte for byte. */
static int same_arrays(const struct arrays *a, const struct arrays *b)
{
    return same_bytes(a->work, b->work, sizeof a->work) && same_bytes(a->result, b->result, sizeof a->result);
}

static int guards_kept(const struct arrays *a, int byte)
{
    unsigned char guard[GUARDS * sizeof(double)];
    memset(guard, byte, sizeof guard);
    return same_bytes(a->work, guard, sizeof guard) && same_bytes(a->result, guard, sizeof guard) &&
           same_bytes(a->work + GUARDS + a->work_len, guard, sizeof guard) &&
           same_bytes(a->result + GUARDS + a->result_len, guard, sizeof guard);
}

static int same_answer(struct crewelmarsh_answer a, struct crewelmarsh_answer b)
{
    return a.answer == b.answer && a.place == b.place && a.index == b.index && a.count == b.count;
}

static int is_answer(struct crewelmarsh_answer a, size_t answer, size_t place, size_t index, size_t count)
{
    struct crewelmarsh_answer b;
    b.answer = answer;
    b.place = place;
    b.index = index;
    b.count = count;
    return same_answer(a, b);
}

/* The record has no padding, and its doubles are compared by their bits. */
static int same_run(struct crewelmarsh_eigen_run a, struct crewelmarsh_eigen_run b) { return same_bytes(&a, &b, sizeof a); }

/* The same but for the answer that it carries. */
static int same_but_answer(struct crewelmarsh_eigen_run a, struct crewelmarsh_eigen_run b)
{
    b.answer = a.answer;
    return same_run(a, b);
}

static struct crewelmarsh_eigen_run start(struct arrays *a, size_t limit, size_t edition, const double *matrix)
{
    return crewelmarsh_eigen_start(a->n, limit, edition, matrix, a->n * a->n, work_of(a), a->work_len, result_of(a), a->result_len);
}

static struct crewelmarsh_eigen_run step(struct crewelmarsh_eigen_run q, struct arrays *a)
{
    return crewelmarsh_eigen_step(q, work_of(a), a->work_len, result_of(a), a->result_len);
}

static struct crewelmarsh_eigen_run finish(struct crewelmarsh_eigen_run q, struct arrays *a)
{
    return crewelmarsh_eigen_finish(q, work_of(a), a->work_len, result_of(a), a->result_len);
}

static struct crewelmarsh_answer one_call(struct arrays *a, size_t limit, size_t edition, const double *matrix)
{
    return crewelmarsh_symmetric_eigen(a->n, limit, edition, matrix, a->n * a->n, work_of(a), a->work_len, result_of(a), a->result_len);
}

/* ---- matrices */

static const double plain[16] = {4, 0, 0, 0, 1, 3, 0, 0, 2, 1, 5, 0, 1, 2, 3, 7};
static const double split[16] = {2, 0, 0, 0, 0, 0, 0, 0, 0, 0, 0, 0, 1, 1, 0, 0};
static double large[MOST * MOST];

static double *any_matrix(size_t n)
{
    uint64_t x = 88172645463325252u;
    size_t k;
    for (k = 0; k < n * n; k++) {
        x ^= x << 13;
        x ^= x >> 7;
        x ^= x << 17;
        large[k] = (double)(x >> 11) * power_of_two(-52) - 1;
    }
    return large;
}

/* ---- a run and the one call */

static void repeats(struct crewelmarsh_eigen_run q, struct arrays *a)
{
    kept = *a;
    check(same_run(q, step(q, a)) && same_arrays(a, &kept), "a step of a run that has ended repeats it");
    check(same_run(q, finish(q, a)) && same_arrays(a, &kept), "a finish of a run that has ended repeats it");
}

/* Steps on to the end, and compares with the one call. */
static struct crewelmarsh_eigen_run to_the_end(struct crewelmarsh_eigen_run q, struct arrays *a, const double *matrix)
{
    struct crewelmarsh_answer answer;
    size_t steps = 0, counted = 0, going = 0, count;
    while (crewelmarsh_eigen_goes_on(q)) {
        count = q.count;
        q = step(q, a);
        steps++;
        counted += q.count <= count + 1 && (q.count == count + 1 || q.l == q.n);
        going += q.stop != 0 || is_answer(q.answer, 0, 0, 0, q.count);
    }
    check(counted == steps, "a step runs one pass, none after the last l");
    check(going == steps, "while a run goes on the answer is 0, 0, 0 and the count");
    check(steps <= 60 * q.n, "at most 60 n steps");
    q = finish(q, a);
    check(q.stop != 0, "a finish ends the run");
    set_up(&whole, a->n, 0x55);
    answer = one_call(&whole, q.limit, q.edition, matrix);
    check(same_answer(q.answer, answer), "the one call's answer");
    check(same_bytes(work_of(a), work_of(&whole), a->work_len * sizeof(double)), "the one call's work");
    check(same_bytes(result_of(a), result_of(&whole), a->result_len * sizeof(double)), "the one call's result");
    check(guards_kept(a, 0xaa), "nothing around the arrays");
    return q;
}

static size_t in_steps(size_t n, size_t limit, size_t edition, const double *matrix)
{
    struct crewelmarsh_eigen_run q;
    set_up(&first, n, 0xaa);
    q = to_the_end(start(&first, limit, edition, matrix), &first, matrix);
    repeats(q, &first);
    return q.answer.answer;
}

static void ends_alike(void)
{
    double bad0[9] = {0}, bad1[4] = {0}, bad2[4] = {0}, nan7[4] = {1, 0, 0, 2};
    size_t edition, limit, n;
    bad0[6] = bad0[7] = power_of_two(1023);
    bad1[2] = power_of_two(-512);
    bad1[3] = power_of_two(512);
    bad2[0] = -1.75 * power_of_two(1022);
    bad2[2] = 0.75 * power_of_two(1022);
    bad2[3] = -3.75 * power_of_two(1022);
    nan7[2] = not_a_number();
    for (edition = 1; edition <= 2; edition++) {
        check(in_steps(0, 60, edition, NULL) == 0, "n = 0");
        check(in_steps(1, 60, edition, plain) == 0, "n = 1");
        for (limit = 1; limit <= 5; limit++)
            in_steps(4, limit, edition, plain);
        check(in_steps(4, 60, edition, plain) == 0, "plain");
        check(in_steps(4, 2, edition, split) == 9, "the limit at the second l");
        check(in_steps(4, 60, edition, split) == 0, "split");
        check(in_steps(3, 60, edition, bad0) == 10, "mark 0");
        check(in_steps(2, 60, edition, bad1) == 10, "mark 1");
        check(in_steps(2, 60, edition, bad2) == 8, "mark 2");
        check(in_steps(2, 60, edition, nan7) == 7, "a NaN in the matrix");
        for (n = 5; n <= 20; n++)
            check(in_steps(n, 60, edition, any_matrix(n)) == 0, "any matrix");
    }
    check(in_steps(256, 60, 1, any_matrix(256)) == 0, "n = 256");
}

/* ---- a start that is refused */

static void refused_start(const char *what, size_t n, size_t limit, size_t edition, size_t matrix_len, size_t work_len, size_t result_len, size_t answer, size_t place)
{
    struct crewelmarsh_eigen_run q;
    set_up(&first, 4, 0xaa);
    first.work_len = work_len;
    first.result_len = result_len;
    kept = first;
    q = crewelmarsh_eigen_start(n, limit, edition, plain, matrix_len, work_of(&first), work_len, result_of(&first), result_len);
    check(is_answer(q.answer, answer, place, 0, 0) && q.stop != 0, what);
    check(q.n == n && q.limit == limit && q.edition == edition, "the record has what was passed");
    check(same_arrays(&first, &kept), "a refused start touches nothing");
    repeats(q, &first);
}

static void refused_starts(void)
{
    int i;
    refused_start("dimension", 257, 0, 0, 0, 0, 0, 1, 0);
    refused_start("limit 0", 4, 0, 0, 0, 0, 0, 2, 0);
    refused_start("limit 61", 4, 61, 0, 0, 0, 0, 2, 0);
    refused_start("edition 0", 4, 60, 0, 0, 0, 0, 12, 0);
    refused_start("edition 3", 4, 60, 3, 0, 0, 0, 12, 0);
    refused_start("matrix", 4, 60, 1, 15, 0, 0, 6, 0);
    refused_start("work", 4, 60, 1, 16, 3, 0, 6, 1);
    refused_start("result", 4, 60, 1, 16, 4, 19, 6, 2);
    refused_start("result", 4, 60, 1, 16, 4, 21, 6, 2);
    for (i = 0; i < LARGE_NUMBERS; i++) {
        refused_start("a large n", large_numbers[i], 60, 1, 16, 4, 20, 1, 0);
        refused_start("a large limit", 4, large_numbers[i], 1, 16, 4, 20, 2, 0);
        refused_start("a large edition", 4, 60, large_numbers[i], 16, 4, 20, 12, 0);
    }
}

/* ---- between steps */

/* A run of plain after some steps, in `first`. */
static struct crewelmarsh_eigen_run half_way(size_t steps)
{
    struct crewelmarsh_eigen_run q;
    set_up(&first, 4, 0xaa);
    q = start(&first, 60, 2, plain);
    while (steps-- > 0)
        q = step(q, &first);
    return q;
}

/* r, and what is lent, is refused by a step and by a finish, and nothing but the answer changes. */
static void refused(const char *what, struct crewelmarsh_eigen_run r, size_t answer, size_t place)
{
    struct crewelmarsh_eigen_run t;
    kept = first;
    t = step(r, &first);
    check(is_answer(t.answer, answer, place, 0, 0) && same_but_answer(t, r), what);
    check(same_arrays(&first, &kept), "a refused step touches nothing");
    t = finish(r, &first);
    check(is_answer(t.answer, answer, place, 0, 0) && same_but_answer(t, r), what);
    check(same_arrays(&first, &kept), "a refused finish touches nothing");
}

/* r, and what is lent, is not refused by a step: it comes back with some number, and writes nothing around the arrays. */
static void taken(const char *what, struct crewelmarsh_eigen_run r)
{
    struct crewelmarsh_eigen_run t;
    kept = first;
    t = step(r, &first);
    check(t.answer.answer != 13 && t.answer.answer != 6, what);
    check(guards_kept(&first, 0xaa), "nothing around the arrays");
    first = kept;
}

/* With what was lent before, the run that was refused goes on to the one call's end. */
static void goes_on(struct crewelmarsh_eigen_run q, struct arrays *before)
{
    struct crewelmarsh_eigen_run t;
    first = *before;
    q.answer.answer = 13;
    t = step(q, &first);
    to_the_end(t, &first, plain);
}

static void early_finishes(void)
{
    struct crewelmarsh_eigen_run q, t;
    size_t steps;
    for (steps = 0; steps < 4; steps++) {
        q = half_way(steps);
        check(crewelmarsh_eigen_goes_on(q), "steps are left");
        second = first;
        t = finish(q, &first);
        check(is_answer(t.answer, 13, 0, 0, 0) && same_but_answer(t, q), "a finish too early");
        check(same_arrays(&first, &second), "a finish too early touches nothing");
        check(!crewelmarsh_eigen_goes_on(t), "a refused run is not stepped on by itself");
        goes_on(t, &second);
    }
}

static void wrong_lengths(void)
{
    static const size_t wrong[4] = {0, 1, 3, 5};
    struct crewelmarsh_eigen_run q = half_way(1);
    int i;
    second = first;
    for (i = 0; i < 4; i++) {
        first.work_len = wrong[i];
        refused("work's length", q, 6, 0);
        first.result_len = 7;
        refused("work's length before the result's", q, 6, 0);
        first = second;
    }
    for (i = 0; i < 4; i++) {
        first.result_len = 16 + wrong[i];
        refused("the result's length", q, 6, 1);
        first = second;
    }
    first.result_len = 19;
    q.limit = 0;
    refused("6 comes before 13", q, 6, 1);
    q.limit = 60;
    goes_on(q, &second);
}

/* Which records of a run still going are in range: the scope's words once more, for n = 4. */
static int in_range(struct crewelmarsh_eigen_run q)
{
    return q.limit >= 1 && q.limit <= 60 && (q.edition == 1 || q.edition == 2) && q.l <= 4 && q.m < 4 && q.passes < q.limit &&
           q.passes <= q.count && q.count <= q.l * q.limit + q.passes && q.index == 0 && (q.passes == 0 || q.l < q.m) &&
           q.tst1 >= 0;
}

static void damaged(const char *what, struct crewelmarsh_eigen_run r)
{
    if (in_range(r))
        taken(what, r);
    else
        refused(what, r, 13, 0);
}

static void each_value(const char *what, struct crewelmarsh_eigen_run q, size_t *field, struct crewelmarsh_eigen_run *r)
{
    size_t value;
    int i;
    for (value = 0; value <= 70; value++) {
        *r = q;
        *field = value;
        damaged(what, *r);
    }
    for (i = 0; i < LARGE_NUMBERS; i++) {
        *r = q;
        *field = large_numbers[i];
        damaged(what, *r);
    }
}

static void damaged_records(void)
{
    static const double good[4] = {0.0, -0.0, 1e300, 3};
    static const double negative[3] = {-1, -4e-320, -1e300};
    struct crewelmarsh_eigen_run q, r, t;
    size_t steps, n;
    int i;
    for (steps = 0; steps <= 4; steps++) {
        q = half_way(steps);
        second = first;
        each_value("limit", q, &r.limit, &r);
        each_value("edition", q, &r.edition, &r);
        each_value("l", q, &r.l, &r);
        each_value("m", q, &r.m, &r);
        each_value("passes", q, &r.passes, &r);
        each_value("count", q, &r.count, &r);
        each_value("index", q, &r.index, &r);
        r = q;
        for (i = 0; i < BAD_NUMBERS; i++) {
            r.tst1 = from_bits(bad_numbers[i]);
            damaged("tst1 not finite", r);
        }
        for (i = 0; i < 4; i++) {
            r.tst1 = good[i];
            damaged("tst1", r);
        }
        for (i = 0; i < 3; i++) {
            r.tst1 = negative[i];
            damaged("tst1 negative", r);
        }
        r = q;
        for (i = 0; i < BAD_NUMBERS; i++) {
            r.f = from_bits(bad_numbers[i]);
            taken("f may be anything", r);
        }
        /* the answer that it carries has no part in what comes */
        r = q;
        r.answer.answer = SIZE_MAX;
        r.answer.place = r.answer.index = r.answer.count = 7;
        t = step(q, &first);
        kept = first;
        first = second;
        check(same_run(t, step(r, &first)) && same_arrays(&first, &kept), "the answer is forgotten");
        /* any other stop is a run that has ended */
        first = second;
        r = q;
        for (n = 1; n <= 14; n++) {
            r.stop = n;
            repeats(r, &first);
        }
        r.stop = SIZE_MAX;
        repeats(r, &first);
        first = second;
        to_the_end(q, &first, plain);
    }
    /* n: the arrays don't fit it, but where they do it is out of range */
    q = half_way(1);
    for (n = 0; n <= 300; n++) {
        r = q;
        r.n = n;
        if (n != 4)
            refused("n beside the arrays", r, 6, 0);
    }
    for (i = 0; i < LARGE_NUMBERS; i++) {
        r = q;
        r.n = large_numbers[i];
        refused("a large n", r, 6, 0);
    }
    r = q;
    r.n = 0;
    first.work_len = first.result_len = 0;
    refused("n = 0", r, 13, 0);
    t = crewelmarsh_eigen_step(r, NULL, 0, NULL, 0);
    check(is_answer(t.answer, 13, 0, 0, 0) && same_but_answer(t, r), "n = 0 with no arrays");
    t = crewelmarsh_eigen_finish(r, NULL, 0, NULL, 0);
    check(is_answer(t.answer, 13, 0, 0, 0) && same_but_answer(t, r), "n = 0 with no arrays");
}

/* n = 257 with arrays that fit it. */
static void too_wide(void)
{
    static double work[257], result[257 + 257 * 257];
    struct crewelmarsh_eigen_run q = half_way(1), t;
    q.n = 257;
    t = crewelmarsh_eigen_step(q, work, 257, result, 257 + 257 * 257);
    check(is_answer(t.answer, 13, 0, 0, 0) && same_but_answer(t, q), "n = 257");
    t = crewelmarsh_eigen_finish(q, work, 257, result, 257 + 257 * 257);
    check(is_answer(t.answer, 13, 0, 0, 0) && same_but_answer(t, q), "n = 257");
}

/* Each number of the arrays in turn. From l on e and d are looked at, and the last e must be a zero. */
static void damaged_arrays(void)
{
    struct crewelmarsh_eigen_run q;
    size_t steps, k;
    int i;
    for (steps = 0; steps <= 4; steps++) {
        q = half_way(steps);
        second = first;
        for (k = 0; k < 4; k++)
            for (i = 0; i < BAD_NUMBERS; i++) {
                work_of(&first)[k] = from_bits(bad_numbers[i]);
                if (k >= q.l || k == 3)
                    refused("e", q, 13, 0);
                else
                    taken("e before l", q);
                first = second;
                result_of(&first)[k] = from_bits(bad_numbers[i]);
                if (k >= q.l)
                    refused("d", q, 13, 0);
                else
                    taken("d before l", q);
                first = second;
            }
        for (k = 4; k < 20; k++)
            for (i = 0; i < BAD_NUMBERS; i++) {
                result_of(&first)[k] = from_bits(bad_numbers[i]);
                taken("v", q);
                first = second;
            }
        work_of(&first)[3] = 1;
        refused("the last e is 1", q, 13, 0);
        work_of(&first)[3] = -power_of_two(-1074);
        refused("the last e is as small as can be", q, 13, 0);
        work_of(&first)[3] = -0.0;
        taken("the last e is -0.0", q);
        goes_on(q, &second);
    }
}

/* A v that is not finite is seen at the end, by mark 2. */
static void spoiled_vector(void)
{
    struct crewelmarsh_eigen_run q = half_way(4);
    while (crewelmarsh_eigen_goes_on(q))
        q = step(q, &first);
    result_of(&first)[4 + 2 * 4 + 1] = plus_infinity();
    q = finish(q, &first);
    check(is_answer(q.answer, 8, 2, 4 + 1 * 4 + 2, q.count) && q.stop != 0, "mark 2 counts v row by row");
    repeats(q, &first);
}

/* Before the finish v stands column by column, and after it row by row: each column is there with its value, which the finish moves. */
static void columns_then_rows(void)
{
    struct crewelmarsh_eigen_run q = half_way(4);
    const double *before = result_of(&second), *after = result_of(&first);
    size_t i, j, k;
    while (crewelmarsh_eigen_goes_on(q))
        q = step(q, &first);
    second = first;
    q = finish(q, &first);
    check(q.answer.answer == 0, "the finish");
    for (j = 0; j < 4; j++) {
        for (k = 0; to_bits(before[k]) != to_bits(after[j]) && k < 4; k++)
            ;
        for (i = 0; i < 4; i++)
            check(k < 4 && to_bits(before[4 + k * 4 + i]) == to_bits(after[4 + i * 4 + j]), "v column by column");
    }
}

/* What 13 does not see comes through the steps, and a mark sees it: a NaN in v in the result, one in f in the record. */
static void unseen(void)
{
    struct crewelmarsh_eigen_run q = half_way(1);
    size_t k, bad = 0;
    result_of(&first)[4 + 2 * 4 + 1] = not_a_number();
    q = step(q, &first);
    for (k = 4; k < 20; k++)
        bad += result_of(&first)[k] != result_of(&first)[k];
    check(is_answer(q.answer, 0, 0, 0, q.count) && bad > 0, "a NaN in v comes through a step");
    while (crewelmarsh_eigen_goes_on(q))
        q = step(q, &first);
    q = finish(q, &first);
    check(q.answer.answer == 10 && q.answer.place == 2, "mark 2 sees it");
    q = half_way(1);
    q.f = not_a_number();
    q = step(q, &first);
    check(is_answer(q.answer, 0, 0, 0, q.count) && q.f != q.f, "a NaN in f comes through a step");
    while (crewelmarsh_eigen_goes_on(q))
        q = step(q, &first);
    check(finish(q, &first).answer.answer == 10, "a mark sees it");
}

/* Two runs, a step of each in turn. */
static void side_by_side(void)
{
    struct crewelmarsh_eigen_run q, r;
    set_up(&first, 4, 0xaa);
    set_up(&second, 4, 0xaa);
    q = start(&first, 60, 1, plain);
    r = start(&second, 60, 2, split);
    while (crewelmarsh_eigen_goes_on(q) || crewelmarsh_eigen_goes_on(r)) {
        q = step(q, &first);
        r = step(r, &second);
    }
    to_the_end(q, &first, plain);
    to_the_end(r, &second, split);
}

void test_steps(void)
{
    ends_alike();
    refused_starts();
    early_finishes();
    wrong_lengths();
    damaged_records();
    too_wide();
    damaged_arrays();
    spoiled_vector();
    columns_then_rows();
    unseen();
    side_by_side();
}
