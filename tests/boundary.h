/* What the files of the boundary's test share. The test calls the archive through the header alone. */
#ifndef BOUNDARY_H
#define BOUNDARY_H

#include <stddef.h>
#include <stdint.h>
#include "crewelmarsh.h"

/* The longest array that a call takes, and one number more. */
enum { LONGEST = 198144 + 1 };

/* Counting: a group's checks are printed on one line when the next group begins. */
void group(const char *name);
void check(int good, const char *what);
int report(void);

/* Doubles by their bits. */
double from_bits(uint64_t bits);
uint64_t to_bits(double x);
double power_of_two(int exponent); /* -1074 to 1023 */
double not_a_number(void);
double plus_infinity(void);

/* A NaN, a signalling NaN, a NaN of all ones, and both infinities. */
enum { BAD_NUMBERS = 5 };
extern const uint64_t bad_numbers[BAD_NUMBERS];

/* Sizes, limits and flags whose low 8, 16 or 32 bits alone would look like something else. */
enum { LARGE_NUMBERS = 9 };
extern const size_t large_numbers[LARGE_NUMBERS];

enum entry { EIGEN, SVD, SOLVE, PSEUDO_INVERSE, QR_Q, LANCZOS, LEADING };

/* One call. `in` is the matrix, the decomposition or the eigen result, `out` the result or the answer. */
struct call {
    enum entry entry;
    size_t m, n;   /* eigen has n alone; n is the k of qr_q, m that of lanczos and leading */
    size_t u, vt;  /* the flags */
    size_t limit;
    size_t edition; /* of eigen and lanczos */
    double tolerance;
    const double *in, *right; /* right: the right side, the start vector of lanczos */
    size_t in_full, right_full; /* how many numbers `in` and `right` hold */
    size_t in_len, right_len, work_len, out_len;
};

/* Calls whose lengths are right. Limits are 60, the edition and both flags 1 and the tolerance 0, until changed. */
struct call eigen_call(size_t n, const double *matrix);
struct call svd_call(size_t m, size_t n, size_t u, size_t vt, const double *matrix);
struct call solve_call(size_t m, size_t n, const double *decomposition, const double *right);
struct call pseudo_inverse_call(size_t m, size_t n, const double *decomposition);
struct call qr_q_call(size_t m, size_t k, const double *matrix);
struct call lanczos_call(size_t n, size_t k, const double *matrix, const double *start);
struct call leading_call(size_t n, size_t k, const double *result);

/*
 * Runs a call on arrays between guard words, twice, with other old contents the second time; an array
 * of length 0 is NULL the first time. Checks the four numbers (the index is 0), the guards, that what is only read is
 * unchanged byte for byte, and of the other arrays what the answer promises: 1 to 6, 11, 12, 14 and 15 unchanged, 7 to 10
 * +0.0 throughout, 0 work +0.0 and every number of the result finite, the same both times, and with the
 * bits of `out` where that is not NULL.
 */
void expect(const char *what, struct call c, size_t answer, size_t place, size_t count, const double *out);

/* The same for an 8 or a 10, with its index. */
void expect_at(const char *what, struct call c, size_t answer, size_t place, size_t index, size_t count);

/* The same for an answer 0 whose result, at most 64 long, is given by its bits. */
void expect_bits(const char *what, struct call c, size_t count, const uint64_t *bits);

/* The same, for an answer 0 whose count and numbers are not known beforehand: copies the result to `out`
   and gives the count. */
size_t expect_done(const char *what, struct call c, double *out);

/* The same, of lanczos with so many pairs found. */
size_t expect_pairs(const char *what, struct call c, size_t pairs, double *out);

/* Expects 7 with this place where number `index` of c.in (at most 64 long) is a NaN, a signalling NaN or
   infinite. */
void expect_not_finite(const char *what, struct call c, size_t index, size_t place);

/* Expects 6 with this place where the array behind `len`, a field of c, is shorter or longer by one,
   empty or twice as long. */
void expect_length(const char *what, struct call *c, size_t *len, size_t place);

/* The groups. */
void header_from_c(void (*check_one)(int good, const char *what));
void header_from_cpp(void (*check_one)(int good, const char *what));
void test_symmetric_eigen(void);
void test_svd(void);
void test_row(void);
void test_solve(void);
void test_pseudo_inverse(void);
void test_qr_q(void);
void test_marks(void);
void test_sizes(void);
void test_numbers(void);
void test_blocks(void);
void test_covariance(void);
void test_store(void);
void test_steps(void);
void test_tally(void);
void test_lanczos(void);
void test_leading(void);

#endif
