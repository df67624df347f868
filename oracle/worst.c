/*
 * How long a call takes on bad input: of symmetric_eigen, svd, lanczos and qr_q at n = 16, 64 and 256 the longest over families of matrices, beside an
 * ordinary input. A time is the least processor time of several calls. For symmetric_eigen up to n = 64 it also climbs towards more passes, since these
 * don't depend on the clock. A row for each call and n. The argument is a seed. Run by 'make bench-worst'.
 */
#define _POSIX_C_SOURCE 200809L
#include <math.h>
#include <stdint.h>
#include <stdio.h>
#include <stdlib.h>
#include <string.h>
#include <time.h>
#include "crewelmarsh.h"

enum { N = 256, KEPT = 8, SAMPLES = 512, SOURCES = 6 };

static double matrix[N * N], kept[N * N], start[N], work[198144], result[2 * N * N + N];
static size_t n;

static uint64_t state = 88172645463325252u;

static uint64_t bits(void)
{
    state ^= state << 13;
    state ^= state >> 7;
    state ^= state << 17;
    return state;
}
static double uniform(void) { return (double)(bits() >> 11) / 9007199254740992.0; }
static double centred(void) { return 2 * uniform() - 1; }
static double two(int exponent) { return ldexp(1, exponent); }
static double subnormal(void) { return ldexp(centred(), -1022 - (int)(bits() % 50)); }

/* ---- the inputs */

static void mirror(void)
{
    for (size_t i = 0; i < n; i++)
        for (size_t j = 0; j < i; j++)
            matrix[j * n + i] = matrix[i * n + j];
}

/* The covariance of a few sources and noise: what a codec calls symmetric_eigen with. */
static void covariance(void)
{
    static double bands[N][SAMPLES], sources[SOURCES][SAMPLES];
    for (size_t s = 0; s < SOURCES; s++)
        for (size_t k = 0; k < SAMPLES; k++)
            sources[s][k] = centred();
    for (size_t i = 0; i < n; i++) {
        double mix[SOURCES];
        for (size_t s = 0; s < SOURCES; s++)
            mix[s] = centred();
        for (size_t k = 0; k < SAMPLES; k++) {
            double x = 0.05 * centred();
            for (size_t s = 0; s < SOURCES; s++)
                x += mix[s] * sources[s][k];
            bands[i][k] = floor(1000 * x);
        }
    }
    for (size_t i = 0; i < n; i++)
        for (size_t j = 0; j <= i; j++) {
            double sum = 0;
            for (size_t k = 0; k < SAMPLES; k++)
                sum += bands[i][k] * bands[j][k];
            matrix[i * n + j] = sum;
        }
    mirror();
}

static void random_samples(void)
{
    for (size_t i = 0; i < n * n; i++)
        matrix[i] = centred();
}

enum { FAMILIES = 20, VARIANTS = 8 };
static const char *const names[FAMILIES] = {
    "random", "sparse", "graded down", "graded up", "Toeplitz", "spread", "all subnormal", "tiny", "localised", "Wilkinson",
    "clustered", "signs", "decaying", "subnormal off the diagonal", "arrow", "remainders", "equal columns", "rows graded",
    "parallel but for tiny rests", "partly subnormal"};

static double cell(int family, int v, size_t i, size_t j)
{
    static const int tiny[VARIANTS] = {-512, -508, -280, -516, -375, -500, -450, -264};
    int apart = (int)(i > j ? i - j : j - i), along = (int)(i + j), size = (int)n;
    switch (family) {
    case 0: return centred();
    case 1: return uniform() < 0.1 ? centred() : 0;
    case 2: return centred() * two(-along * (v + 1) / 2);
    case 3: return centred() * two((along - 2 * size) * (v + 1) / 2);
    case 4: return apart == 0 ? 2 : apart == 1 ? -1 : 0;
    case 5: return centred() * two((int)(bits() % (uint64_t)(100 * (v + 1))) - 50 * (v + 1));
    case 6: return v % 2 ? subnormal() : floor(1000 * centred()) * 0x1p-1074;
    case 7: return centred() * two(tiny[v]);
    case 8: return apart == 0 ? centred() : apart == 1 ? two(-2 * v) : 0;
    case 9: return apart == 0 ? fabs((double)i - (double)n / 2) : apart == 1 ? two(-v) : 0;
    case 10: return (apart == 0) + centred() * two(-20 - 8 * v);
    case 11: return bits() % 2 ? 1 : -1;
    case 12: return centred() * two(-(int)((double)(apart * (v + 1)) * 140 / (double)n) - (v % 3) * 20);
    case 13: return apart == 0 ? centred() : subnormal();
    case 14: return apart == 0 || i == 0 || j == 0 ? centred() : 0;
    case 15: return (double)((i * 7 + j * (i % 3 + 1)) % (size_t)(5 + v));
    case 16: return j % 2 ? matrix[i * n + j - 1] : centred();
    case 17: return centred() * two(-(int)(16 * i > 1000 ? 1000 : 16 * i) - 2 * v);
    case 18: return i == 0 ? 1 : centred() * two(-524 + 4 * v);
    default: return (int)(bits() % VARIANTS) <= v ? centred() : subnormal();
    }
}

static void fill(int family, int variant)
{
    for (size_t i = 0; i < n; i++)
        for (size_t j = 0; j < n; j++)
            matrix[i * n + j] = cell(family, variant, i, j);
}

/* ---- the calls */

typedef struct crewelmarsh_answer call(void);

static struct crewelmarsh_answer eigen(void)
{
    return crewelmarsh_symmetric_eigen(n, 60, CREWELMARSH_EDITION_1, matrix, n * n, work, n, result, n + n * n);
}
static struct crewelmarsh_answer svd(void)
{
    return crewelmarsh_svd(n, n, 1, 1, 60, matrix, n * n, work, crewelmarsh_svd_work_len(n, n), result, crewelmarsh_svd_result_len(n, n, 1, 1));
}
static struct crewelmarsh_answer lanczos(void)
{
    return crewelmarsh_lanczos(n, KEPT, 60, CREWELMARSH_EDITION_1, matrix, n * n, start, n, work, crewelmarsh_lanczos_work_len(n, KEPT), result,
                               crewelmarsh_lanczos_answer_len(n, KEPT));
}
static struct crewelmarsh_answer qr_q(void) { return crewelmarsh_qr_q(n, n, matrix, n * n, result, n * n); }

static double now(void)
{
    struct timespec t;
    clock_gettime(CLOCK_PROCESS_CPUTIME_ID, &t);
    return 1e6 * (double)t.tv_sec + 1e-3 * (double)t.tv_nsec;
}

static double least(call *f, int times, struct crewelmarsh_answer *got)
{
    double best = INFINITY;
    while (times-- > 0) {
        double t = now();
        *got = f();
        t = now() - t;
        best = t < best ? t : best;
    }
    return best;
}

/* ---- the search */

static struct {
    double time;
    const char *name;
    size_t passes; /* the most of any input, not those of the longest */
} worst;

static void tried(call *f, const char *name, int times)
{
    struct crewelmarsh_answer got;
    double t = least(f, times, &got);
    if (t > worst.time) /* the longest of many is the unluckiest too: it must be so again */
        t = fmin(t, least(f, 2 * times, &got));
    if (got.count > worst.passes)
        worst.passes = got.count;
    if (t > worst.time) {
        worst.time = t;
        worst.name = name;
        memcpy(kept, matrix, n * n * sizeof *matrix);
    }
}

/* Small changes of a matrix, kept where there are not fewer passes. */
static void climb(int family, int turns)
{
    static double best[N * N];
    size_t most;
    fill(family, 1);
    mirror();
    most = eigen().count;
    memcpy(best, matrix, n * n * sizeof *best);
    while (turns-- > 0) {
        struct crewelmarsh_answer got;
        for (uint64_t changes = 1 + bits() % 3; changes > 0; changes--) {
            size_t i = bits() % n, j = bits() % (i + 1);
            double *x = &matrix[i * n + j];
            switch (bits() % 6) {
            case 0: *x = centred(); break;
            case 1: *x *= 2 * uniform(); break;
            case 2: *x = 0; break;
            case 3: *x = -*x; break;
            case 4: *x = centred() * two(-(int)(bits() % 60)); break;
            default: *x += 1e-3 * centred();
            }
        }
        got = eigen();
        if (got.answer == CREWELMARSH_DONE && got.count >= most) {
            most = got.count;
            memcpy(best, matrix, n * n * sizeof *best);
        }
        memcpy(matrix, best, n * n * sizeof *best);
    }
    tried(eigen, "climbed", 8);
}

static void row(const char *name, call *f, void (*ordinary)(void), int symmetric)
{
    int times = n == 16 ? 8 : n == 64 ? 3 : 2, variants = f == svd && n == N ? 4 : VARIANTS;
    double usual;
    struct crewelmarsh_answer got;
    ordinary();
    usual = least(f, 5 * times, &got);
    worst.time = 0;
    worst.passes = got.count;
    for (int family = 0; family < FAMILIES; family++)
        for (int v = 0; v < variants; v++) {
            fill(family, v);
            if (symmetric)
                mirror();
            tried(f, names[family], f == svd && n == N ? 1 : times);
        }
    for (int family = 0; f == eigen && n < N && family < FAMILIES; family++)
        climb(family, n == 16 ? 10000 : 500);
    memcpy(matrix, kept, n * n * sizeof *kept);
    worst.time = fmin(worst.time, least(f, f == svd && n == N ? 2 : 5 * times, &got));
    printf("| %s | %zu | %.1f | %.1f | %.2f | %s | %zu | %zu |\n", name, n, usual, worst.time, worst.time / usual, worst.name, got.answer, worst.passes);
    fflush(stdout);
}

int main(int count, char **arguments)
{
    static const size_t sizes[3] = {16, 64, 256};
    if (count > 1)
        state += 2 * (strtoull(arguments[1], NULL, 10) - 1);
    printf("| call | n | ordinary, us | longest, us | ratio | of | its answer | most passes or sweeps |\n|---|---|---|---|---|---|---|---|\n");
    for (size_t s = 0; s < 3; s++) {
        n = sizes[s];
        for (size_t i = 0; i < n; i++)
            start[i] = i % 3 ? subnormal() : centred();
        row("symmetric_eigen", eigen, covariance, 1);
        row("svd", svd, random_samples, 0);
        row("lanczos, symmetric", lanczos, covariance, 1);
        row("lanczos, not symmetric", lanczos, covariance, 0);
        row("qr_q", qr_q, random_samples, 0);
    }
    return 0;
}
