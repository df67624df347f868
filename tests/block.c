/*
 * Transform blocks against a reader and a writer of this file's own, written from the rule: random contents, every cut of a
 * block, every number of a header changed, every bit of it turned, lookups among good and refused blocks, and everything that
 * the writer refuses. A check is one block, or one write, with all that is asked of it.
 */
#include <string.h>
#include "boundary.h"

enum { GUARD = 8, ROOM = CREWELMARSH_BLOCK_MOST + 64 };

static const char *wrong; /* the last thing that was */

static void must(int good, const char *what)
{
    if (!good)
        wrong = what;
}

static void verdict(const char *what)
{
    check(wrong == NULL, wrong == NULL ? what : wrong);
    wrong = NULL;
}

/* ---- the reader of this file */

struct model {
    size_t answer, rows, columns, parts;
    size_t start[4], count[4]; /* by kind; a start of 0 is no part */
};

static uint64_t big(const unsigned char *at, int bytes)
{
    uint64_t x = 0;
    while (bytes-- > 0)
        x = x << 8 | *at++;
    return x;
}

static size_t numbers_of(size_t rows, size_t columns, size_t kind)
{
    return kind == 1 ? (rows < columns ? rows : columns) : rows * columns;
}

static struct model none_but(size_t answer)
{
    struct model m;
    memset(&m, 0, sizeof m);
    m.answer = answer;
    return m;
}

static struct model read_block(const unsigned char *t, size_t len)
{
    struct model m = none_but(0);
    uint64_t end, last = 0;
    size_t i;
    if (len < 12)
        return none_but(20);
    m.rows = (size_t)big(t, 4);
    m.columns = (size_t)big(t + 4, 4);
    m.parts = (size_t)big(t + 8, 4);
    if (m.rows > 256 || m.columns > 256 || m.parts > 3)
        return none_but(22);
    end = 12 + 12 * (uint64_t)m.parts;
    if (len < end)
        return none_but(20);
    for (i = 0; i < m.parts; i++) {
        const unsigned char *entry = t + 12 + 12 * i;
        uint64_t kind = big(entry, 4), offset = big(entry + 4, 4), count = big(entry + 8, 4);
        if (kind < 1 || kind > 3 || kind <= last)
            return none_but(23);
        if (count != numbers_of(m.rows, m.columns, (size_t)kind))
            return none_but(22);
        if (offset != end)
            return none_but(24);
        m.start[kind] = (size_t)offset;
        m.count[kind] = (size_t)count;
        last = kind;
        end += 8 * count;
    }
    if (len != end)
        return none_but(len < end ? 20 : 21);
    return m;
}

/* ---- the writer of this file */

static void put(unsigned char **to, uint64_t x, int bytes)
{
    while (bytes-- > 0)
        *(*to)++ = (unsigned char)(x >> 8 * bytes);
}

/* The block with the kinds of a set (1 values, 2 matrix, 4 inverse), its numbers one behind the other. Gives its length. */
static size_t make_block(unsigned char *to, size_t rows, size_t columns, int set, const uint64_t *words)
{
    unsigned char *start = to;
    size_t kind, parts = 0, offset, i, all = 0;
    for (kind = 1; kind <= 3; kind++)
        if (set >> (kind - 1) & 1)
            parts++;
    put(&to, rows, 4);
    put(&to, columns, 4);
    put(&to, parts, 4);
    offset = 12 + 12 * parts;
    for (kind = 1; kind <= 3; kind++)
        if (set >> (kind - 1) & 1) {
            size_t count = numbers_of(rows, columns, kind);
            put(&to, kind, 4);
            put(&to, offset, 4);
            put(&to, count, 4);
            offset += 8 * count;
            all += count;
        }
    for (i = 0; i < all; i++)
        put(&to, words[i], 8);
    return (size_t)(to - start);
}

/* ---- numbers */

static uint64_t state = 88172645463325252u;

static uint64_t next_word(void)
{
    state ^= state << 13;
    state ^= state >> 7;
    state ^= state << 17;
    return state;
}

static int is_nan(uint64_t bits) { return (bits & UINT64_C(0x7fffffffffffffff)) > UINT64_C(0x7ff0000000000000); }

/* Any bits, and often a NaN with a payload, an infinity, a zero of either sign or a subnormal number. */
static uint64_t some_word(void)
{
    static const uint64_t special[] = {
        UINT64_C(0x7ff8000000000000), UINT64_C(0x7ff0000000000001), UINT64_C(0xffffffffffffffff), UINT64_C(0x7ff0000000000000),
        UINT64_C(0xfff0000000000000), 0, UINT64_C(0x8000000000000000), 1, UINT64_C(0x000fffffffffffff), UINT64_C(0x3ff0000000000000)};
    uint64_t x = next_word();
    return x % 3 == 0 ? special[x / 3 % 10] : next_word();
}

/* ---- what the archive says of two blocks, beside the reader above */

static double copied[GUARD + 65536 + 1 + GUARD];
static const size_t kinds[] = {0, 1, 2, 3, 4, 255, 257, (size_t)1 << 32, ((size_t)1 << 32) + 1, SIZE_MAX};
enum { KINDS = sizeof kinds / sizeof kinds[0] };

static int untouched(const double *from, size_t count)
{
    size_t i;
    for (i = 0; i < count; i++)
        if (to_bits(from[i]) != UINT64_C(0x4141414141414141))
            return 0;
    return 1;
}

/* Copies with this length, between guards. On 0 the place is what the reader says of the own block. */
static struct crewelmarsh_answer copy(const unsigned char *own, size_t own_len, const unsigned char *other, size_t other_len, size_t kind,
                                      size_t length)
{
    struct crewelmarsh_answer a;
    memset(copied, 0x41, (GUARD + length + GUARD) * sizeof copied[0]);
    a = crewelmarsh_block_copy(own, own_len, other, other_len, kind, length == 0 ? NULL : copied + GUARD, length);
    must(untouched(copied, GUARD) && untouched(copied + GUARD + length, GUARD), "copy: guards");
    must(a.place == (a.answer == 0 ? read_block(own, own_len).answer : 0) && a.index == 0 && a.count == 0, "copy: place, index, count");
    return a;
}

static void copy_refused(const unsigned char *own, size_t own_len, const unsigned char *other, size_t other_len, size_t kind, size_t length)
{
    must(copy(own, own_len, other, other_len, kind, length).answer == 6, "copy: 6");
    must(untouched(copied + GUARD, length), "copy: untouched");
}

static void one_kind(const unsigned char *own, size_t own_len, const struct model *a, const unsigned char *other, size_t other_len,
                     const struct model *b, size_t kind)
{
    struct crewelmarsh_block_part at = crewelmarsh_block_find(own, own_len, other, other_len, kind);
    struct crewelmarsh_bytes bytes = crewelmarsh_block_bytes(own, own_len, other, other_len, kind);
    int known = kind >= 1 && kind <= 3;
    size_t block = known && a->start[kind] ? 1 : known && b->start[kind] ? 2 : 0;
    const struct model *m = block == 1 ? a : b;
    const unsigned char *base = block == 1 ? own : other;
    size_t start = block ? m->start[kind] : 0, count = block ? m->count[kind] : 0, i;
    must(at.block == block && at.start == start && at.count == count, "find");
    must(at.rows == (block ? m->rows : 0) && at.columns == (block ? m->columns : 0), "find: rows and columns");
    must(at.own_answer == a->answer && at.main_answer == b->answer, "find: answers");
    must(bytes.start == (block ? base + start : other) && bytes.length == 8 * count, "bytes");
    must(copy(own, own_len, other, other_len, kind, count).answer == 0, "copy");
    for (i = 0; i < count; i++) {
        uint64_t word = big(base + start + 8 * i, 8), came = to_bits(copied[GUARD + i]);
        must(is_nan(word) ? is_nan(came) : came == word, "copied number");
    }
    copy_refused(own, own_len, other, other_len, kind, count + 1);
    if (count > 0)
        copy_refused(own, own_len, other, other_len, kind, count - 1);
}

static void two_blocks(const char *what, const unsigned char *own, size_t own_len, const unsigned char *other, size_t other_len)
{
    struct model a = read_block(own, own_len), b = read_block(other, other_len);
    int k;
    for (k = 0; k < KINDS; k++)
        one_kind(own, own_len, &a, other, other_len, &b, kinds[k]);
    verdict(what);
}

static void one_block(const char *what, const unsigned char *t, size_t len)
{
    struct model m = read_block(t, len);
    struct crewelmarsh_block b = crewelmarsh_block_check(len == 0 ? NULL : t, len);
    must(b.answer == m.answer && b.rows == m.rows && b.columns == m.columns && b.parts == m.parts, "check");
    two_blocks(what, t, len, NULL, 0);
    two_blocks(what, NULL, 0, t, len);
}

/* ---- reading */

static unsigned char full[ROOM], changed[ROOM], second[ROOM];
static uint64_t words[256 + 2 * 65536];

static size_t some_block(unsigned char *to, size_t rows, size_t columns, int set)
{
    size_t i, most = rows * columns * 2 + 256;
    for (i = 0; i < most; i++)
        words[i] = some_word();
    return make_block(to, rows, columns, set, words);
}

static void cuts_and_changes(size_t rows, size_t columns, int set)
{
    static const uint64_t values[] = {0, 1, 2, 3, 4, 255, 256, 257, 65536, UINT64_C(1) << 31, (UINT64_C(1) << 32) - 1, (UINT64_C(1) << 32) - 8};
    size_t len = some_block(full, rows, columns, set), header = 12 + 12 * (size_t)big(full + 8, 4), i, v;
    for (i = 0; i <= len; i++)
        one_block("cut", full, i);
    for (i = 1; i <= 17; i++) {
        memset(full + len, 0, i);
        one_block("bytes over", full, len + i);
    }
    for (i = 0; i < header; i += 4)
        for (v = 0; v < sizeof values / sizeof values[0] + 3; v++) {
            uint64_t old = big(full + i, 4);
            unsigned char *at = changed + i;
            memcpy(changed, full, len);
            put(&at, v < 12 ? values[v] : v == 12 ? old + 1 : v == 13 ? old - 1 : old + 8, 4);
            one_block("a number of the header", changed, len);
        }
    for (i = 0; i < len; i++)
        for (v = 0; v < 8; v++) {
            memcpy(changed, full, len);
            changed[i] ^= (unsigned char)(1 << v);
            one_block("a bit turned", changed, len);
        }
}

static void random_blocks(void)
{
    int turn;
    for (turn = 0; turn < 400; turn++) {
        size_t rows = (size_t)(next_word() % 7), columns = (size_t)(next_word() % 7);
        size_t len = some_block(full, rows, columns, (int)(next_word() % 8));
        size_t other = some_block(second, columns, rows + 1, (int)(next_word() % 8));
        if (next_word() % 4 == 0)
            len -= (size_t)(next_word() % 3);
        if (next_word() % 5 == 0)
            second[other++] = 0;
        one_block("random", full, len);
        two_blocks("random two", full, len, second, other);
    }
}

/* A block with an inverse of four numbers that the reader answers with this. Gives its length. */
static size_t answered(unsigned char *to, size_t rows, size_t columns, size_t answer)
{
    size_t len = some_block(to, rows, columns, 4);
    to[len] = 0;
    if (answer == 22)
        to[2] = 1;
    if (answer == 23)
        to[15] = 4;
    if (answer == 24)
        to[19] ^= 1;
    return answer == 20 ? len - 1 : answer == 21 ? len + 1 : len;
}

/* Each answer for a tile's own block of 1 by 4 beside each for a main one of 2 by 2: both are told, and the sizes of the one
   that is taken. */
static void both_told(void)
{
    static const size_t answers[] = {0, 20, 21, 22, 23, 24};
    size_t i, j;
    for (i = 0; i < 6; i++)
        for (j = 0; j < 6; j++) {
            size_t len = answered(full, 1, 4, answers[i]), other = answered(second, 2, 2, answers[j]);
            struct crewelmarsh_block_part at = crewelmarsh_block_find(full, len, second, other, 3);
            struct crewelmarsh_answer a = copy(full, len, second, other, 3, i > 0 && j > 0 ? 0 : 4);
            must(at.own_answer == answers[i] && at.main_answer == answers[j], "both answers");
            must(at.block == (i == 0 ? 1u : j == 0 ? 2u : 0u), "the block that is taken");
            must(at.rows == (i == 0 ? 1u : j == 0 ? 2u : 0u) && at.columns == (i == 0 ? 4u : j == 0 ? 2u : 0u), "1 by 4 or 2 by 2");
            must(a.answer == 0 && a.place == answers[i], "copy: the own block's answer");
            two_blocks("both told", full, len, second, other);
        }
}

/* A tile's own block with one bit of its header wrong, beside a good main one. */
static void own_damaged(void)
{
    size_t len = some_block(full, 2, 2, 7), other = some_block(second, 2, 2, 7), i, v;
    for (i = 0; i < 48; i++)
        for (v = 0; v < 8; v++) {
            struct crewelmarsh_block_part at;
            full[i] ^= (unsigned char)(1 << v);
            at = crewelmarsh_block_find(full, len, second, other, 3);
            must(at.block == 2 && at.own_answer >= 20 && at.own_answer <= 24 && at.main_answer == 0, "damage is told");
            must(copy(full, len, second, other, 3, 4).place == at.own_answer, "copy: damage is told");
            two_blocks("own damaged", full, len, second, other);
            full[i] ^= (unsigned char)(1 << v);
        }
}

static void largest(void)
{
    size_t len = some_block(full, 256, 256, 7);
    must(len == CREWELMARSH_BLOCK_MOST, "the longest");
    one_block("full block", full, len);
    one_block("full block cut", full, len - 1);
    full[len] = 0;
    one_block("full block and a byte", full, len + 1);
    len = some_block(full, 256, 1, 7);
    one_block("256 by 1", full, len);
    len = some_block(full, 0, 256, 7);
    one_block("0 by 256", full, len);
    len = make_block(full, 257, 1, 1, words);
    one_block("257 by 1", full, len);
    len = make_block(full, 1, 257, 1, words);
    one_block("1 by 257", full, len);
}

/* ---- writing */

struct given {
    size_t rows, columns, parts, kind[3], len[3];
};

static double numbers[3][65536 + 1];
static unsigned char out[GUARD + ROOM + GUARD];

static int all_are(const unsigned char *from, size_t count, unsigned char byte)
{
    size_t i;
    for (i = 0; i < count; i++)
        if (from[i] != byte)
            return 0;
    return 1;
}

/* Fills the numbers, each as its bits in words, a NaN's as the one pattern. */
static void fill_numbers(const struct given *g, int nans)
{
    size_t p, i, at = 0;
    for (p = 0; p < 3; p++)
        for (i = 0; i < g->len[p]; i++) {
            uint64_t word = some_word();
            if (is_nan(word) && !nans)
                word = 1;
            numbers[p][i] = from_bits(word);
            if (p < g->parts)
                words[at++] = is_nan(word) ? UINT64_C(0x7ff8000000000000) : word;
        }
}

static struct crewelmarsh_answer write_block(const struct given *g, size_t length)
{
    struct crewelmarsh_answer a;
    memset(out, 0xee, GUARD + length + GUARD);
    a = crewelmarsh_block_write(
        g->rows, g->columns, g->parts, g->kind[0], g->len[0] ? numbers[0] : NULL, g->len[0], g->kind[1], g->len[1] ? numbers[1] : NULL,
        g->len[1], g->kind[2], g->len[2] ? numbers[2] : NULL, g->len[2], length ? out + GUARD : NULL, length);
    must(all_are(out, GUARD, 0xee) && all_are(out + GUARD + length, GUARD, 0xee), "write: guards");
    must(a.place == 0 && a.index == 0 && a.count == 0, "write: place, index, count");
    if (a.answer != 0)
        must(all_are(out + GUARD, length, 0xee), "write: untouched");
    return a;
}

static size_t length_of(const struct given *g)
{
    return crewelmarsh_block_length(g->rows, g->columns, g->parts, g->kind[0], g->kind[1], g->kind[2]);
}

/* The parts of a set; what is behind them is empty, of kind 0. */
static struct given parts_of(size_t rows, size_t columns, int set)
{
    struct given g;
    size_t kind;
    memset(&g, 0, sizeof g);
    g.rows = rows;
    g.columns = columns;
    for (kind = 1; kind <= 3; kind++)
        if (set >> (kind - 1) & 1) {
            g.kind[g.parts] = kind;
            g.len[g.parts++] = numbers_of(rows, columns, kind);
        }
    return g;
}

static void written(size_t rows, size_t columns, int set)
{
    struct given g = parts_of(rows, columns, set);
    size_t len;
    fill_numbers(&g, 1);
    len = make_block(full, rows, columns, set, words);
    must(length_of(&g) == len, "length");
    must(write_block(&g, len).answer == 0, "write");
    must(memcmp(out + GUARD, full, len) == 0, "the block written");
    must(write_block(&g, len - 1).answer == 6, "one short");
    must(write_block(&g, len + 1).answer == 6, "one over");
    must(write_block(&g, 0).answer == 6, "no destination");
    verdict("written");
}

static void refused(const char *what, struct given g, size_t answer, size_t length)
{
    must(length_of(&g) == length, "length of what is refused");
    must(write_block(&g, 160).answer == answer, "refused");
    must(write_block(&g, 0).answer == answer, "refused with no destination");
    verdict(what);
}

/* Each mistake by itself in a block of 2 by 3 with three parts (160 bytes), and two at once, of which the first counts. */
static void all_refused(void)
{
    static const size_t bad_kinds[] = {0, 4, 5, 257, (size_t)1 << 32, ((size_t)1 << 32) + 1, SIZE_MAX};
    struct given g = parts_of(2, 3, 7), h;
    size_t i, p;
    fill_numbers(&g, 0);
    for (i = 0; i < LARGE_NUMBERS; i++) {
        h = g, h.rows = large_numbers[i];
        refused("rows", h, 22, 0);
        h = g, h.columns = large_numbers[i];
        refused("columns", h, 22, 0);
        h.kind[0] = 0;
        refused("columns before a kind", h, 22, 0);
        h = g, h.parts = large_numbers[i];
        refused("parts", h, 22, 0);
    }
    h = g, h.parts = 4;
    refused("four parts", h, 22, 0);
    for (p = 0; p < 3; p++)
        for (i = 0; i < sizeof bad_kinds / sizeof bad_kinds[0]; i++) {
            h = g, h.kind[p] = bad_kinds[i];
            refused("kind", h, 23, 0);
            h.len[p]++;
            refused("kind before count", h, 23, 0);
            if (p > 0) {
                h.len[0]++;
                refused("count of the part before", h, 22, 0);
            }
        }
    h = g, h.kind[1] = 1;
    refused("kind twice", h, 23, 0);
    h = g, h.kind[0] = 2;
    refused("second kind again, first count too", h, 22, 0);
    h.len[0] = 6;
    refused("kinds 2, 2", h, 23, 0);
    h = g, h.kind[1] = 3, h.kind[2] = 2;
    refused("kinds descend", h, 23, 0);
    for (p = 0; p < 3; p++) {
        h = g, h.len[p]--;
        refused("count one short", h, 22, 160);
        h = g, h.len[p]++;
        refused("count one over", h, 22, 160);
        h = g, h.len[p] = 0;
        refused("no numbers", h, 22, 160);
    }
    /* What is behind the parts isn't looked at. */
    for (p = 0; p < 3; p++) {
        h = g, h.parts = p;
        for (i = p; i < 3; i++)
            h.kind[i] = bad_kinds[p], h.len[i] = 77 * i;
        must(length_of(&h) == (p == 0 ? 12 : p == 1 ? 40 : 100), "length of the first parts");
        must(write_block(&h, length_of(&h)).answer == 0, "the first parts");
        verdict("behind the parts");
    }
}

/* What fits into a store (THE STORE in the header): the most bands of an n by n block in a whole buffer, half and a quarter of one, and the most of 256 components. */
static size_t most_bands(size_t room, size_t parts, size_t kind1, size_t kind2, size_t kind3)
{
    size_t n = 0;
    while (n < 256 && crewelmarsh_block_length(n + 1, n + 1, parts, kind1, kind2, kind3) <= room)
        n++;
    return n;
}

static size_t most_components(size_t room)
{
    size_t k = 0;
    while (k < 256 && crewelmarsh_block_length(k + 1, 256, 1, 3, 0, 0) <= room)
        k++;
    return k;
}

static void what_fits(void)
{
    static const size_t table[3][4] = {{90, 89, 63, 63}, {63, 63, 45, 44}, {45, 44, 31, 31}};
    size_t r;
    for (r = 0; r < 3; r++) {
        size_t room = CREWELMARSH_STORE_BYTES_MOST >> r;
        check(most_bands(room, 1, 3, 0, 0) == table[r][0], "the inverse alone");
        check(most_bands(room, 2, 1, 3, 0) == table[r][1], "values and inverse");
        check(most_bands(room, 2, 2, 3, 0) == table[r][2], "matrix and inverse");
        check(most_bands(room, 3, 1, 2, 3) == table[r][3], "all three");
    }
    check(most_bands(CREWELMARSH_STORE_BYTES_MOST / CREWELMARSH_STORE_ENTRIES_MOST, 1, 3, 0, 0) == 15, "32 at a time");
    check(most_components(65536) == 31 && most_components(32768) == 15, "components of 256 bands");
    check(crewelmarsh_block_length(16, 16, 1, 3, 0, 0) == 2072 && crewelmarsh_block_length(64, 64, 1, 3, 0, 0) == 32792 &&
              crewelmarsh_block_length(256, 256, 1, 3, 0, 0) == 524312 && crewelmarsh_block_length(8, 256, 1, 3, 0, 0) == 16408,
          "what the inverse alone costs");
    check(crewelmarsh_block_length(16, 16, 3, 1, 2, 3) == 4272 && crewelmarsh_block_length(64, 64, 3, 1, 2, 3) == 66096, "what all three cost");
}

void test_blocks(void)
{
    static const size_t sizes[] = {0, 1, 2, 5};
    size_t i, j;
    int set;
    cuts_and_changes(3, 2, 7);
    cuts_and_changes(2, 2, 5);
    cuts_and_changes(0, 3, 7);
    random_blocks();
    both_told();
    own_damaged();
    largest();
    for (i = 0; i < 4; i++)
        for (j = 0; j < 4; j++)
            for (set = 0; set < 8; set++)
                written(sizes[i], sizes[j], set);
    written(256, 256, 7);
    written(256, 3, 6);
    written(0, 256, 7);
    all_refused();
    what_fits();
}
