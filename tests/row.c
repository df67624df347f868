/* crewelmarsh_vt_row and the entry behind it: every row of several sizes with every flag, and every way to have none. */
#include "boundary.h"

static double result[LONGEST];
static const char *wrong; /* the last thing that was, of a size */

/* Index of row j of V^T, found by walking through a result: the values, U row by row, V^T row by row. */
static size_t walk_to(size_t m, size_t n, size_t r, size_t u, size_t j)
{
    size_t at = 0, i, k;
    for (i = 0; i < r; i++)
        at++;
    if (u)
        for (i = 0; i < m; i++)
            for (k = 0; k < r; k++)
                at++;
    for (i = 0; i < j; i++)
        for (k = 0; k < n; k++)
            at++;
    return at;
}

static void must(int good, const char *what)
{
    if (!good)
        wrong = what;
}

/* The entry's two numbers, and the part that the header makes of them. */
static void row(const char *what, size_t m, size_t n, size_t u, size_t vt, size_t len, size_t j, size_t start,
                size_t length)
{
    struct crewelmarsh_extent at = crewelmarsh_vt_row_extent(m, n, u, vt, len, j);
    struct crewelmarsh_part part = crewelmarsh_vt_row(m, n, u, vt, result, len, j);
    must(at.start == start && at.length == length, what);
    must(part.start == result + start && part.length == length, what);
    if (length == 0) {
        part = crewelmarsh_vt_row(m, n, u, vt, NULL, len, j);
        must(part.start == NULL && part.length == 0, what);
    }
}

static void none(const char *what, size_t m, size_t n, size_t u, size_t vt, size_t len, size_t j)
{
    row(what, m, n, u, vt, len, j, 0, 0);
}

/* One size with one pair of flags: its rows, and what has none at the right length and at others. One check. */
static void size(size_t m, size_t n, size_t u, size_t vt)
{
    size_t r = m < n ? m : n;
    size_t len = r + (u ? m * r : 0) + (vt ? r * n : 0);
    size_t j;
    int i;
    wrong = NULL;
    for (j = 0; j < r; j++) {
        if (vt)
            row("row", m, n, u, vt, len, j, walk_to(m, n, r, u, j), n);
        else
            none("no V^T", m, n, u, vt, len, j);
        none("one short", m, n, u, vt, len - 1, j);
        none("one over", m, n, u, vt, len + 1, j);
        none("no result", m, n, u, vt, 0, j);
        none("U or none", m, n, !u, vt, len, j);
    }
    none("row r", m, n, u, vt, len, r);
    none("row r + 1", m, n, u, vt, len, r + 1);
    for (i = 0; i < LARGE_NUMBERS; i++) {
        if (large_numbers[i] >= r)
            none("row far below", m, n, u, vt, len, large_numbers[i]);
        if (large_numbers[i] != len)
            none("far too long", m, n, u, vt, large_numbers[i], 0);
    }
    check(wrong == NULL, wrong);
}

/* A dimension that isn't taken, with lengths that would fit where a product wraps or 256 were no bound. */
static void too_large(size_t large)
{
    static const size_t others[] = {0, 1, 2, 256};
    size_t i;
    wrong = NULL;
    for (i = 0; i < 4; i++) {
        size_t n = others[i];
        none("m", large, n, 0, 1, n + n * n, 0);
        none("m with U", large, n, 1, 1, n + large * n + n * n, 0);
        none("n", n, large, 0, 1, n + n * large, 0);
        none("n with U", n, large, 1, 1, n + n * n + n * large, 0);
        none("no result", large, n, 1, 1, 0, 0);
    }
    none("m and n", large, large, 0, 1, large + large * large, 0);
    none("m and n with U", large, large, 1, 1, large + 2 * large * large, 0);
    check(wrong == NULL, wrong);
}

void test_row(void)
{
    static const size_t dimensions[] = {0, 1, 2, 3, 5, 17};
    static const size_t flags[] = {0, 1, 2, 256, 4294967296u, (size_t)-1};
    size_t i, j, u, vt;
    for (i = 0; i < 6; i++)
        for (j = 0; j < 6; j++)
            for (u = 0; u < 6; u++)
                for (vt = 0; vt < 6; vt++)
                    size(dimensions[i], dimensions[j], flags[u], flags[vt]);
    size(256, 256, 1, 1);
    size(256, 255, 0, 1);
    size(255, 256, 1, 1);
    for (i = 0; i < LARGE_NUMBERS; i++)
        too_large(large_numbers[i]);
    too_large(257);
}
