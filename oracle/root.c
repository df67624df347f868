/* `root::root` and `root::side_by_side::roots` as they are compiled (oracle/root.sh) beside the processor's own root and what stood in its place before
   (oracle/root_former.c): each held to the processor's on random numbers, and the times of all in one run; and of both editions of hypot. root COUNT. */
#define _POSIX_C_SOURCE 199309L
#include <stdint.h>
#include <stdio.h>
#include <stdlib.h>
#include <string.h>
#include <time.h>

double root_root(double x);
struct pair { double first, second; };
struct pair root_side_by_side_roots(double x, double y);
double leaves_hypot(double x, double y);
double hypot_hypot2(double x, double y);
double former_root(double x);
double factor_root(double x);

static const uint64_t one = UINT64_C(1) << 52;
static const uint64_t infinity = UINT64_C(0x7ff0000000000000);

static double from_bits(uint64_t bits)
{
    double x;
    memcpy(&x, &bits, sizeof x);
    return x;
}

static uint64_t to_bits(double x)
{
    uint64_t bits;
    memcpy(&bits, &x, sizeof bits);
    return bits;
}

/* Called as the others are. */
__attribute__((noinline)) static double own_root(double x) { return __builtin_sqrt(x); }

/* ---- against the processor's */

static uint64_t state = UINT64_C(0x9e3779b97f4a7c15);

static uint64_t next(void)
{
    state ^= state << 13;
    state ^= state >> 7;
    state ^= state << 17;
    return state * UINT64_C(0x2545f4914f6cdd1d);
}

static int same(double x, double y) { return x != x ? y != y : to_bits(x) == to_bits(y); }

/* Numbers by their bits, drawn by `draw`: how many differ in any way. */
static unsigned long hold(const char *what, unsigned long count, uint64_t (*draw)(void))
{
    unsigned long i, wrong = 0;
    double last = 0;
    struct pair roots;
    for (i = 0; i < count; i++) {
        double x = from_bits(draw()), y = own_root(x);
        wrong += !same(root_root(x), y) || !same(former_root(x), y) || !same(factor_root(x), y);
        roots = root_side_by_side_roots(last, x);
        wrong += !same(roots.first, own_root(last)) || !same(roots.second, y);
        last = x;
    }
    printf("%s: %lu numbers, %lu differ from the processor's root\n", what, count, wrong);
    return wrong;
}

static uint64_t any(void) { return next(); }
static uint64_t normal(void) { return one + next() % (infinity - one); }
static uint64_t subnormal(void) { return 1 + next() % (one - 1); }

/* A square and its neighbours, where the root is a whole number or nearly halfway between two numbers. */
static uint64_t near_square(void)
{
    double q = (double)(next() >> 38), r = (double)(next() >> 11);
    double x = next() % 2 ? q * q : r * r;
    return to_bits(x) + next() % 5 - 2;
}

/* ---- times */

enum { NUMBERS = 4096, RUNS = 201 };
static uint64_t numbers[NUMBERS];

static double now(void)
{
    struct timespec t;
    clock_gettime(CLOCK_MONOTONIC, &t);
    return 1e9 * (double)t.tv_sec + (double)t.tv_nsec;
}

static int ascending(const void *x, const void *y)
{
    double a = *(const double *)x, b = *(const double *)y;
    return (a > b) - (a < b);
}

static volatile uint64_t kept;

/* One after the other: the last bit of a number is changed by that of the root before it. */
static void waiting(double (*root)(double))
{
    uint64_t last = 0;
    int i;
    for (i = 0; i < NUMBERS; i++)
        last = to_bits(root(from_bits(numbers[i] ^ (last & 1))));
    kept = last;
}

static void apart(double (*root)(double))
{
    uint64_t seen = 0;
    int i;
    for (i = 0; i < NUMBERS; i++)
        seen += to_bits(root(from_bits(numbers[i])));
    kept = seen;
}

/* The same two by two, each pair in one loop. */
static void waiting_pairs(double (*root)(double))
{
    uint64_t last = 0;
    struct pair roots;
    int i;
    (void)root;
    for (i = 0; i < NUMBERS; i += 2) {
        roots = root_side_by_side_roots(from_bits(numbers[i] ^ (last & 1)), from_bits(numbers[i + 1] ^ (last & 1)));
        last = to_bits(roots.first) ^ to_bits(roots.second);
    }
    kept = last;
}

static void apart_pairs(double (*root)(double))
{
    uint64_t seen = 0;
    struct pair roots;
    int i;
    (void)root;
    for (i = 0; i < NUMBERS; i += 2) {
        roots = root_side_by_side_roots(from_bits(numbers[i]), from_bits(numbers[i + 1]));
        seen += to_bits(roots.first) + to_bits(roots.second);
    }
    kept = seen;
}

/* The median over runs, in nanoseconds a root. */
static double median(void (*all)(double (*)(double)), double (*root)(double))
{
    static double took[RUNS];
    int run;
    for (run = 0; run < RUNS; run++) {
        double from = now();
        all(root);
        took[run] = (now() - from) / NUMBERS;
    }
    qsort(took, RUNS, sizeof took[0], ascending);
    return took[RUNS / 2];
}

/* Beside 1 none of the numbers is so large or small that no root is worked out. */
static double hypot_1(double x) { return leaves_hypot(x, 1); }
static double hypot_2(double x) { return hypot_hypot2(x, 1); }

static void time_of(const char *what, double (*root)(double)) { printf("| %s | %.1f | %.1f |\n", what, median(waiting, root), median(apart, root)); }

int main(int words, char **word)
{
    unsigned long count = words > 1 ? strtoul(word[1], NULL, 10) : 5000000, wrong = 0;
    int i;
    wrong += hold("any bits", count, any);
    wrong += hold("normal numbers", count, normal);
    wrong += hold("subnormal numbers", count / 10, subnormal);
    wrong += hold("squares and beside them", count, near_square);
    for (i = 0; i < NUMBERS; i++)
        numbers[i] = one * 1000 + next() % (46 * one); /* 2^-23 to 2^23 */
    printf("\n| nanoseconds a root | waiting for each other | not |\n|---|---|---|\n");
    time_of("the processor's instruction", own_root);
    time_of("before: a guess, tested in whole numbers", former_root);
    time_of("before, where the guess was not enough: the digit as a factor", factor_root);
    time_of("the root: a select for each digit", root_root);
    printf("| two roots in one loop, for each | %.1f | %.1f |\n", median(waiting_pairs, NULL), median(apart_pairs, NULL));
    time_of("hypot, edition 1", hypot_1);
    time_of("hypot, edition 2", hypot_2);
    return wrong != 0;
}
