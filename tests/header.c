/*
 * The header by itself: its version, constants, texts, lengths and rows, and that the entries link. Compiled
 * as C99 and as C++, both linked and run. The header comes first, and twice.
 */
#include "crewelmarsh.h"
#include "crewelmarsh.h"
#include <string.h>

#ifdef __cplusplus
extern "C" void header_from_cpp(void (*check)(int good, const char *what));
#define TEST_HEADER header_from_cpp
#else
void header_from_c(void (*check)(int good, const char *what));
#define TEST_HEADER header_from_c
#endif

/* Lengths that the compiler works out: an array's length, or a refusal to compile. */
#define SAME(name, a, b) typedef char name[(a) == (b) ? 1 : -1]
SAME(matrix, CREWELMARSH_MATRIX_LEN(3, 2), 6);
SAME(matrix_most, CREWELMARSH_MATRIX_LEN(256, 256), 65536);
SAME(matrix_over, CREWELMARSH_MATRIX_LEN(257, 1), 0);
SAME(matrix_negative, CREWELMARSH_MATRIX_LEN(1, -1), 0);
SAME(values_tall, CREWELMARSH_SVD_VALUES_LEN(3, 2), 2);
SAME(values_wide, CREWELMARSH_SVD_VALUES_LEN(2, 3), 2);
SAME(values_over, CREWELMARSH_SVD_VALUES_LEN(257, 3), 0);
SAME(eigen_work, CREWELMARSH_SYMMETRIC_EIGEN_WORK_LEN(2 + 3), 5);
SAME(eigen_result, CREWELMARSH_SYMMETRIC_EIGEN_RESULT_LEN(2 + 3), 30);
SAME(eigen_over, CREWELMARSH_SYMMETRIC_EIGEN_RESULT_LEN(257), 0);
SAME(lanczos_work, CREWELMARSH_LANCZOS_WORK_LEN(1 + 2, 2), 45);
SAME(lanczos_work_few, CREWELMARSH_LANCZOS_WORK_LEN(256, 8), 12464);
SAME(lanczos_work_most, CREWELMARSH_LANCZOS_WORK_LEN(256, 118), 198144);
SAME(lanczos_work_less, CREWELMARSH_LANCZOS_WORK_LEN(256, 117), 195584);
SAME(lanczos_work_over, CREWELMARSH_LANCZOS_WORK_LEN(3, 257), 0);
SAME(lanczos_answer, CREWELMARSH_LANCZOS_ANSWER_LEN(1 + 2, 2), 8);
SAME(lanczos_answer_over, CREWELMARSH_LANCZOS_ANSWER_LEN(257, 2), 0);
SAME(leading_out, CREWELMARSH_LEADING_OUT_LEN(1 + 2, 2), 8);
SAME(leading_out_over, CREWELMARSH_LEADING_OUT_LEN(2, 257), 0);
SAME(svd_work, CREWELMARSH_SVD_WORK_LEN(3, 2), 12);
SAME(svd_work_most, CREWELMARSH_SVD_WORK_LEN(256, 256), 131328);
SAME(svd_result, CREWELMARSH_SVD_RESULT_LEN(1 + 2, 2, 1, 1), 12);
SAME(svd_result_u, CREWELMARSH_SVD_RESULT_LEN(3, 1 + 1, 2, 0), 8);
SAME(svd_result_vt, CREWELMARSH_SVD_RESULT_LEN(3, 2, 0, 1 | 2), 6);
SAME(svd_result_values, CREWELMARSH_SVD_RESULT_LEN(3, 2, 0, 0), 2);
SAME(solve_right_side, CREWELMARSH_SOLVE_RIGHT_SIDE_LEN(3), 3);
SAME(solve_answer, CREWELMARSH_SOLVE_ANSWER_LEN(2), 2);
SAME(inverse_answer, CREWELMARSH_PSEUDO_INVERSE_ANSWER_LEN(3, 2), 6);
SAME(qr_answer, CREWELMARSH_QR_Q_ANSWER_LEN(3, 2), 6);
SAME(covariance_samples, CREWELMARSH_COVARIANCE_SAMPLES_LEN(1 + 2, 65536), 196608);
SAME(covariance_over, CREWELMARSH_COVARIANCE_SAMPLES_LEN(3, 65537), 0);
SAME(covariance_bands, CREWELMARSH_COVARIANCE_SAMPLES_LEN(257, 1), 0);
SAME(covariance_matrix, CREWELMARSH_COVARIANCE_MATRIX_LEN(3), 9);
SAME(sums_out, CREWELMARSH_SUMS_OUT_LEN(1 + 2), 3);
SAME(sums_over, CREWELMARSH_SUMS_OUT_LEN(257), 0);

#if CREWELMARSH_VERSION_MAJOR < 4
#error "the version is no number"
#endif

/* "5.0.0", of one digit each until one has more. */
static int version_right(void)
{
    const char *v = CREWELMARSH_VERSION;
    return sizeof CREWELMARSH_VERSION == 6 && v[0] - '0' == CREWELMARSH_VERSION_MAJOR && v[1] == '.' &&
           v[2] - '0' == CREWELMARSH_VERSION_MINOR && v[3] == '.' && v[4] - '0' == CREWELMARSH_VERSION_PATCH;
}

static const size_t dimensions[] = {0, 1, 2, 3, 17, 255, 256, 257, 4294967296u, (size_t)-1};
enum { DIMENSIONS = sizeof dimensions / sizeof dimensions[0] };

static int constants_right(void)
{
    return CREWELMARSH_DONE == 0 && CREWELMARSH_DIMENSION == 1 && CREWELMARSH_LIMIT == 2 &&
           CREWELMARSH_NO_U == 3 && CREWELMARSH_NO_VT == 4 && CREWELMARSH_RIGHT_SIDE == 5 &&
           CREWELMARSH_LENGTH == 6 && CREWELMARSH_NOT_FINITE == 7 && CREWELMARSH_OVERFLOW == 8 &&
           CREWELMARSH_LIMIT_USED == 9 && CREWELMARSH_INVALID == 10 && CREWELMARSH_TOLERANCE == 11 && CREWELMARSH_EDITION == 12 && CREWELMARSH_RUN == 13 && CREWELMARSH_NO_BAND == 14 && CREWELMARSH_PAIRS == 15 && CREWELMARSH_BLOCK_SHORT == 20 &&
           CREWELMARSH_BLOCK_OVER == 21 && CREWELMARSH_BLOCK_COUNT == 22 && CREWELMARSH_BLOCK_KIND == 23 &&
           CREWELMARSH_BLOCK_OFFSET == 24 && CREWELMARSH_VALUES == 1 && CREWELMARSH_MATRIX == 2 &&
           CREWELMARSH_INVERSE == 3 && CREWELMARSH_BLOCK_MOST == 1050672 && CREWELMARSH_MAX_DIMENSION == 256 &&
           CREWELMARSH_MIN_LIMIT == 1 && CREWELMARSH_MAX_LIMIT == 60 && CREWELMARSH_EDITION_1 == 1 && CREWELMARSH_EDITION_2 == 2;
}

/* Those of covariance. */
static int covariance_constants_right(void)
{
    return CREWELMARSH_SAMPLES == 25 && CREWELMARSH_ENTRY_OVER == 26 && CREWELMARSH_MIN_SAMPLES == 1 &&
           CREWELMARSH_MAX_SAMPLES == 65536;
}

/* Those of the store. */
static int store_constants_right(void)
{
    return CREWELMARSH_STORE_FULL == 30 && CREWELMARSH_STORE_HELD == 31 && CREWELMARSH_STORE_MISSING == 32 &&
           CREWELMARSH_STORE_ENTRIES == 33 && CREWELMARSH_STORE_OWNER == 34 && CREWELMARSH_STORE_QUOTAS == 35 &&
           CREWELMARSH_STORE_BUFFER == 37 && CREWELMARSH_STORE_DAMAGED == 39 && CREWELMARSH_STORE_OWNERS == 2 &&
           CREWELMARSH_STORE_ENTRIES_MOST == 32 && CREWELMARSH_STORE_LIST_LEN == 70 && CREWELMARSH_STORE_TILES_LEN == 64 &&
           CREWELMARSH_STORE_BYTES_MOST == 65536 && CREWELMARSH_TILE_MOST == 65535 && CREWELMARSH_STACK_MOST == 24576;
}

/* A number is a tile's or it isn't: the last that is one, the first that isn't, those whose low 16 bits would do, and a negative int. */
static int tiles_right(void)
{
    static const size_t none[] = {65536, 65536 + 7, 4294967296u, (size_t)-1};
    uint16_t tile = 99;
    size_t i;
    for (i = 0; i < sizeof none / sizeof none[0]; i++)
        if (crewelmarsh_tile(none[i], &tile) || tile != 99)
            return 0;
    for (i = 0; i < 65536; i++)
        if (!crewelmarsh_tile(i, &tile) || tile != i)
            return 0;
    return 1;
}

/* The word of a place: each place that the header gives of a 6 has one, as the parameter is named, and no other has. */
static int names_right(void)
{
    static const char *const arrays[CREWELMARSH_CALLS] = {
        "matrix work result", "matrix work result", "work result", "work result", "matrix start work answer", "matrix work result",
        "decomposition answer", "decomposition answer", "matrix answer", "result out", "samples matrix", "samples out", "out", "out", "out"};
    static const char none[] = "no array of that call";
    size_t call, place;
    for (call = 0; call < CREWELMARSH_CALLS; call++) {
        char said[64];
        size_t end = 0;
        for (place = 0; strcmp(crewelmarsh_array_name(call, place), none) != 0; place++) {
            const char *name = crewelmarsh_array_name(call, place);
            if (place > 0)
                said[end++] = ' ';
            while (*name != 0 && end < sizeof said - 2)
                said[end++] = *name++;
        }
        said[end] = 0;
        if (strcmp(said, arrays[call]) != 0 || strcmp(crewelmarsh_array_name(call, (size_t)-1), none) != 0)
            return 0;
    }
    return CREWELMARSH_CALL_SYMMETRIC_EIGEN == 0 && CREWELMARSH_CALL_STORE_FETCH + 1 == CREWELMARSH_CALLS &&
           strcmp(crewelmarsh_array_name(CREWELMARSH_CALL_LANCZOS, 1), "start") == 0 &&
           strcmp(crewelmarsh_array_name(CREWELMARSH_CALL_SVD, 2), "result") == 0 &&
           strcmp(crewelmarsh_array_name(CREWELMARSH_CALL_COVARIANCE, 0), "samples") == 0 &&
           strcmp(crewelmarsh_array_name(CREWELMARSH_CALL_EIGEN_STEP, 0), "work") == 0 &&
           strcmp(crewelmarsh_array_name(CREWELMARSH_CALLS, 0), none) == 0 && strcmp(crewelmarsh_array_name((size_t)-1, 0), none) == 0;
}

/* Those of the tally, whose struct is 20 numbers in the order of the report. */
static int tally_right(void)
{
    struct crewelmarsh_tally tally = CREWELMARSH_TALLY_EMPTY;
    const size_t *numbers = &tally.tiles;
    return CREWELMARSH_TALLY_FULL == 36 && CREWELMARSH_TALLY_TILE == 38 && sizeof tally == 20 * sizeof(size_t) &&
           numbers + 1 == tally.counts && numbers + 17 == &tally.passes && numbers + 18 == &tally.most && numbers + 19 == &tally.first &&
           crewelmarsh_tally_add(&tally, 15, 15360) == 0 && crewelmarsh_tally_add(&tally, 16, 0) == 38 && tally.tiles == 1 &&
           tally.counts[15] == 1 && tally.passes == 15360 && tally.most == 15360 && tally.first == 0;
}

/* The text of each number differs from the others, and from the one that all other numbers have. */
static int texts_differ(void)
{
    static const size_t numbers[] = {0, 1, 2, 3, 4, 5, 6, 7, 8, 9, 10, 11, 12, 13, 14, 15, 20, 21, 22, 23, 24, 25, 26, 30, 31, 32, 33, 34, 35, 36, 37, 38, 39, (size_t)-1};
    size_t a, b;
    for (a = 0; a < sizeof numbers / sizeof numbers[0]; a++)
        for (b = 0; b < a; b++)
            if (strcmp(crewelmarsh_text(numbers[a]), crewelmarsh_text(numbers[b])) == 0)
                return 0;
    return strcmp(crewelmarsh_text(16), crewelmarsh_text((size_t)-1)) == 0 && strcmp(crewelmarsh_text(19), crewelmarsh_text(27)) == 0 &&
           strcmp(crewelmarsh_text(29), crewelmarsh_text(40)) == 0;
}

static int square_lengths_right(size_t n)
{
    size_t taken = n <= 256;
    return crewelmarsh_symmetric_eigen_work_len(n) == (taken ? n : 0) &&
           crewelmarsh_symmetric_eigen_result_len(n) == (taken ? n + n * n : 0) &&
           crewelmarsh_solve_right_side_len(n) == (taken ? n : 0) &&
           crewelmarsh_solve_answer_len(n) == (taken ? n : 0);
}

/* Of lanczos with k pairs. */
static size_t steps(size_t n, size_t k) { return 2 * k + 20 < n ? 2 * k + 20 : n; }

static int lengths_right(size_t m, size_t n)
{
    size_t taken = m <= 256 && n <= 256;
    size_t r = m < n ? m : n;
    size_t l = m < n ? n : m;
    return crewelmarsh_matrix_len(m, n) == (taken ? m * n : 0) &&
           crewelmarsh_svd_values_len(m, n) == (taken ? r : 0) &&
           crewelmarsh_svd_work_len(m, n) == (taken ? l * r + r * r + r : 0) &&
           crewelmarsh_svd_result_len(m, n, 0, 0) == (taken ? r : 0) &&
           crewelmarsh_svd_result_len(m, n, 2, 0) == (taken ? r + m * r : 0) &&
           crewelmarsh_svd_result_len(m, n, 0, 256) == (taken ? r + r * n : 0) &&
           crewelmarsh_svd_result_len(m, n, 1, 1) == (taken ? r + m * r + r * n : 0) &&
           crewelmarsh_lanczos_work_len(m, n) == (taken ? steps(m, n) * (m + 2 * steps(m, n) + 4) + 2 * m : 0) &&
           crewelmarsh_lanczos_answer_len(m, n) == (taken ? n + n * m : 0) &&
           crewelmarsh_leading_out_len(m, n) == (taken ? n + n * m : 0) &&
           crewelmarsh_pseudo_inverse_answer_len(m, n) == (taken ? n * m : 0) &&
           crewelmarsh_qr_q_answer_len(m, n) == (taken ? m * n : 0);
}

static int covariance_lengths_right(size_t n, size_t count)
{
    return crewelmarsh_covariance_samples_len(n, count) == (n <= 256 && count <= 65536 ? n * count : 0) &&
           crewelmarsh_covariance_matrix_len(n) == (n <= 256 ? n * n : 0) &&
           crewelmarsh_sums_out_len(n) == (n <= 256 ? n : 0);
}

static int is_part(struct crewelmarsh_part part, const double *start, size_t length)
{
    return part.start == start && part.length == length;
}

/* A 3 by 2 decomposition: values 0 and 1, U 2 to 7, V^T 8 to 11; without U, V^T is 2 to 5. */
static int rows_right(void)
{
    double a[12] = {0, 1, 2, 3, 4, 5, 6, 7, 8, 9, 10, 11};
    return is_part(crewelmarsh_vt_row(3, 2, 1, 1, a, 12, 0), a + 8, 2) &&
           is_part(crewelmarsh_vt_row(3, 2, 256, (size_t)-1, a, 12, 1), a + 10, 2) &&
           is_part(crewelmarsh_vt_row(3, 2, 0, 1, a, 6, 0), a + 2, 2) &&
           is_part(crewelmarsh_vt_row(3, 2, 0, 1, a, 6, 1), a + 4, 2) &&
           is_part(crewelmarsh_vt_row(2, 3, 1, 1, a, 12, 1), a + 9, 3);
}

static int empty_rows_right(void)
{
    double a[12] = {0, 1, 2, 3, 4, 5, 6, 7, 8, 9, 10, 11};
    size_t most = (size_t)-1;
    return is_part(crewelmarsh_vt_row(3, 2, 1, 1, a, 12, 2), a, 0) &&
           is_part(crewelmarsh_vt_row(3, 2, 1, 1, a, 12, most), a, 0) &&
           is_part(crewelmarsh_vt_row(3, 2, 1, 0, a, 8, 0), a, 0) &&
           is_part(crewelmarsh_vt_row(3, 2, 1, 1, a, 11, 0), a, 0) &&
           is_part(crewelmarsh_vt_row(3, 2, 0, 1, a, 12, 0), a, 0) &&
           is_part(crewelmarsh_vt_row(257, 0, 1, 1, a, 0, 0), a, 0) &&
           is_part(crewelmarsh_vt_row(0, most, 1, 1, a, 0, 0), a, 0) &&
           is_part(crewelmarsh_vt_row(most, most, 1, 1, a, 0, 0), a, 0) &&
           is_part(crewelmarsh_vt_row(0, 2, 1, 1, NULL, 0, 0), NULL, 0) &&
           is_part(crewelmarsh_vt_row(2, 0, 1, 1, NULL, 0, 0), NULL, 0);
}

static int is_answer(struct crewelmarsh_answer a, size_t answer, size_t place, size_t count)
{
    return a.answer == answer && a.place == place && a.index == 0 && a.count == count;
}

/* In this order, with nothing between. */
static int in_order(void)
{
    struct crewelmarsh_answer a;
    size_t numbers[4] = {1, 2, 3, 4};
    memcpy(&a, numbers, sizeof a);
    return a.answer == 1 && a.place == 2 && a.index == 3 && a.count == 4;
}

static int part_in_order(void)
{
    struct crewelmarsh_block_part p;
    size_t numbers[sizeof p / sizeof(size_t)], i;
    for (i = 0; i < sizeof p / sizeof(size_t); i++)
        numbers[i] = i + 1;
    memcpy(&p, numbers, sizeof p);
    return sizeof p == 7 * sizeof(size_t) && p.block == 1 && p.start == 2 && p.count == 3 && p.rows == 4 && p.columns == 5 && p.own_answer == 6 &&
           p.main_answer == 7;
}

/* An empty block in a store of no byte. */
static int store_links(void)
{
    size_t list[CREWELMARSH_STORE_LIST_LEN];
    uint16_t tiles[CREWELMARSH_STORE_TILES_LEN];
    return is_answer(crewelmarsh_store_setup(0, 0, list, CREWELMARSH_STORE_LIST_LEN, tiles, CREWELMARSH_STORE_TILES_LEN, NULL, 0), 0, 0, 0) &&
           is_answer(crewelmarsh_store_put(1, list, 70, tiles, 64, NULL, 0, 7, NULL, 0), 0, 0, 0) &&
           is_answer(crewelmarsh_store_length(1, list, 70, tiles, 64, NULL, 0, 7), 0, 0, 0) &&
           is_answer(crewelmarsh_store_fetch(1, list, 70, tiles, 64, NULL, 0, 7, NULL, 0), 0, 0, 0) &&
           is_answer(crewelmarsh_store_drop(0, list, 70, tiles, 64, NULL, 0, 7), 32, 0, 0) &&
           is_answer(crewelmarsh_store_drop(1, list, 70, tiles, 64, NULL, 0, 7), 0, 0, 0) &&
           is_answer(crewelmarsh_store_reset(list, 70, tiles, 64, NULL, 0), 0, 0, 0) &&
           is_answer(crewelmarsh_store_drop(2, list, 70, tiles, 64, NULL, 0, 7), 34, 0, 0);
}

/* A run's record likewise: eleven numbers and the answer, two of them doubles. */
static int run_in_order(void)
{
    struct crewelmarsh_eigen_run r;
    size_t before[5] = {1, 2, 3, 4, 5}, behind[8] = {8, 9, 10, 11, 12, 13, 14, 15};
    double between[2] = {6, 7};
    unsigned char bytes[15 * 8];
    memcpy(bytes, before, sizeof before);
    memcpy(bytes + 5 * 8, between, sizeof between);
    memcpy(bytes + 7 * 8, behind, sizeof behind);
    memcpy(&r, bytes, sizeof r);
    return r.n == 1 && r.limit == 2 && r.edition == 3 && r.l == 4 && r.m == 5 && r.f == 6 && r.tst1 == 7 && r.passes == 8 && r.count == 9 &&
           r.stop == 10 && r.index == 11 && r.answer.answer == 12 && r.answer.place == 13 && r.answer.index == 14 && r.answer.count == 15;
}

/* A run of no value has ended at its start. */
static int steps_link(void)
{
    struct crewelmarsh_eigen_run r = crewelmarsh_eigen_start(0, 60, 1, NULL, 0, NULL, 0, NULL, 0);
    return !crewelmarsh_eigen_goes_on(r) && is_answer(crewelmarsh_eigen_step(r, NULL, 0, NULL, 0).answer, 0, 0, 0) &&
           is_answer(crewelmarsh_eigen_finish(r, NULL, 0, NULL, 0).answer, 0, 0, 0);
}

/* An svd runs one sweep over no pair; the others do nothing. */
static int entries_link(void)
{
    struct crewelmarsh_extent none = crewelmarsh_vt_row_extent(0, 0, 1, 1, 0, 0);
    struct crewelmarsh_block block = crewelmarsh_block_check(NULL, 0);
    struct crewelmarsh_block_part part = crewelmarsh_block_find(NULL, 0, NULL, 0, 1);
    unsigned char least[12];
    return block.answer == 20 && block.rows == 0 && block.columns == 0 && block.parts == 0 && part.block == 0 && part.start == 0 &&
           part.count == 0 && part.rows == 0 && part.columns == 0 && part.own_answer == 20 && part.main_answer == 20 &&
           crewelmarsh_block_bytes(NULL, 0, NULL, 0, 1).start == NULL &&
           is_answer(crewelmarsh_block_copy(NULL, 0, NULL, 0, 1, NULL, 0), 0, 20, 0) &&
           crewelmarsh_block_length(0, 0, 0, 0, 0, 0) == 12 &&
           is_answer(crewelmarsh_block_write(0, 0, 0, 0, NULL, 0, 0, NULL, 0, 0, NULL, 0, least, 12), 0, 0, 0) &&
           crewelmarsh_block_check(least, 12).answer == 0 && none.start == 0 && none.length == 0 &&
           is_answer(crewelmarsh_symmetric_eigen(0, 60, 1, NULL, 0, NULL, 0, NULL, 0), 0, 0, 0) &&
           is_answer(crewelmarsh_lanczos(0, 0, 60, 1, NULL, 0, NULL, 0, NULL, 0, NULL, 0), 14, 0, 0) &&
           is_answer(crewelmarsh_leading(0, 0, NULL, 0, NULL, 0), 0, 0, 0) &&
           is_answer(crewelmarsh_svd(0, 0, 1, 1, 60, NULL, 0, NULL, 0, NULL, 0), 0, 0, 1) &&
           is_answer(crewelmarsh_solve(0, 0, 1, 1, 0.0, NULL, 0, NULL, 0, NULL, 0), 0, 0, 0) &&
           is_answer(crewelmarsh_pseudo_inverse(0, 0, 1, 1, 0.0, NULL, 0, NULL, 0), 0, 0, 0) &&
           is_answer(crewelmarsh_qr_q(0, 0, NULL, 0, NULL, 0), 0, 0, 0);
}

void TEST_HEADER(void (*check)(int good, const char *what))
{
    double declared[CREWELMARSH_SYMMETRIC_EIGEN_RESULT_LEN(5)];
    int i, j;
    check(sizeof declared == 30 * sizeof(double), "a declared array");
    check(version_right(), "version");
    check(constants_right(), "constants");
    check(texts_differ(), "texts");
    check(sizeof(struct crewelmarsh_answer) == 4 * sizeof(size_t), "four numbers");
    check(in_order(), "answer, place, index, count");
    check(part_in_order(), "the fields of a part");
    check(sizeof(struct crewelmarsh_eigen_run) == 15 * 8, "fifteen numbers");
    check(run_in_order(), "the fields of a run");
    check(steps_link(), "a run in steps");
    for (i = 0; i < DIMENSIONS; i++) {
        check(square_lengths_right(dimensions[i]), "lengths by n");
        for (j = 0; j < DIMENSIONS; j++)
            check(lengths_right(dimensions[i], dimensions[j]), "lengths by m and n");
    }
    check(covariance_constants_right(), "constants of covariance");
    for (i = 0; i < DIMENSIONS; i++)
        for (j = 0; j < DIMENSIONS; j++)
            check(covariance_lengths_right(dimensions[i], dimensions[j]), "lengths of covariance");
    check(is_answer(crewelmarsh_covariance(0, 1, NULL, 0, NULL, 0), 0, 0, 0), "covariance of no band");
    check(is_answer(crewelmarsh_sums(0, 1, NULL, 0, NULL, 0), 0, 0, 0), "sums of no band");
    check(store_constants_right(), "constants of the store");
    check(tiles_right(), "tile numbers");
    check(names_right(), "names of arrays");
    check(store_links(), "the store");
    check(tally_right(), "the tally");
    check(rows_right(), "rows of V^T");
    check(empty_rows_right(), "empty rows of V^T");
    check(entries_link(), "entries");
}
