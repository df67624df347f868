/* The tally, held to figures counted from the list of tiles: random series, the last tiles of a full one, each limit of 36, tallies that no series makes;
   guard words throughout. */
#include <string.h>
#include "boundary.h"

enum { EDGE = 4, SERIES = 300, LONG = 64, TILES = 65536, MOST = 15360 };

/* The tally between guards, as it was before a call and as it must be after. */
struct guarded {
    size_t front[EDGE];
    struct crewelmarsh_tally tally;
    size_t back[EDGE];
};
static struct guarded now, wanted;

/* The tiles that were not refused. */
static struct {
    size_t answer, passes;
} tiles[LONG];
static size_t held;

static unsigned draw(unsigned bound)
{
    static unsigned state = 22;
    state = state * 1664525u + 1013904223u;
    return (state >> 8) % bound;
}

static void begin(void)
{
    static const struct crewelmarsh_tally empty = CREWELMARSH_TALLY_EMPTY;
    size_t k;
    for (k = 0; k < EDGE; k++)
        now.front[k] = now.back[k] = 0x5a5a5a5a + k;
    now.tally = empty;
    held = 0;
    wanted = now;
}

static void add(const char *what, size_t answer, size_t passes, size_t expected)
{
    check(crewelmarsh_tally_add(&now.tally, answer, passes) == expected && memcmp(&now, &wanted, sizeof now) == 0, what);
}

/* The figures of the list, each counted by itself. */
static void count(void)
{
    struct crewelmarsh_tally *t = &wanted.tally;
    size_t a, k;
    t->tiles = held;
    t->passes = t->most = t->first = 0;
    for (a = 0; a < 16; a++) {
        t->counts[a] = 0;
        for (k = 0; k < held; k++)
            t->counts[a] += tiles[k].answer == a;
    }
    for (k = 0; k < held; k++)
        t->passes += tiles[k].passes;
    for (k = 0; k < held; k++)
        if (tiles[k].passes > t->most)
            t->most = tiles[k].passes;
    while (t->first < held && tiles[t->first].passes != t->most)
        t->first++;
}

/* A tile of a series: refused where a number is out of range, else on the list. */
static void add_to_series(const char *what, size_t answer, size_t passes)
{
    if (answer > 15 || passes > MOST) {
        add(what, answer, passes, 38);
        return;
    }
    tiles[held].answer = answer;
    tiles[held].passes = passes;
    held++;
    count();
    add(what, answer, passes, 0);
}

/* Series with few different passes, so that the most comes again and again, some of them all 0. */
static void random_series(void)
{
    size_t s, k;
    for (s = 0; s < SERIES; s++) {
        unsigned spread = draw(6);
        begin();
        for (k = 0; k < LONG; k++) {
            size_t answer = draw(17), passes = spread == 5 ? draw(MOST + 2) : draw(1 + spread * spread);
            if (draw(20) == 0)
                passes = MOST + draw(2);
            if (draw(40) == 0)
                answer = large_numbers[draw(LARGE_NUMBERS)];
            add_to_series("a tile of a series", answer, passes);
        }
    }
}

/* Every tile with the most passes: the total comes to its limit, and the 65,537th tile is one too many. */
static void full_series(void)
{
    size_t k, taken = 0;
    begin();
    for (k = 0; k < TILES; k++)
        taken += crewelmarsh_tally_add(&now.tally, 7, MOST) == 0;
    check(taken == TILES, "65,536 tiles");
    wanted.tally.tiles = wanted.tally.counts[7] = TILES;
    wanted.tally.passes = (size_t)TILES * MOST;
    wanted.tally.most = MOST;
    add("one too many", 7, MOST, 36);
    add("one too many, of no pass", 0, 0, 36);
    add("one too many, and out of range", 16, 0, 38);
    add("one too many, and out of range", 0, MOST + 1, 38);
}

/* Each number of the tally, and the most that it may be. */
static size_t *number(size_t k)
{
    struct crewelmarsh_tally *t = &now.tally;
    return k == 0 ? &t->tiles : k <= 16 ? &t->counts[k - 1] : k == 17 ? &t->passes : k == 18 ? &t->most : &t->first;
}

static size_t limit(size_t k)
{
    return k == 0 || k == 19 ? TILES - 1 : k <= 16 ? TILES : k == 17 ? (size_t)TILES * MOST : MOST;
}

/* What adding does where nothing is refused, whatever the figures are. */
static void add_taken(const char *what, size_t answer, size_t passes)
{
    wanted = now;
    if (passes > wanted.tally.most) {
        wanted.tally.most = passes;
        wanted.tally.first = wanted.tally.tiles;
    }
    wanted.tally.tiles++;
    wanted.tally.counts[answer]++;
    wanted.tally.passes += passes;
    add(what, answer, passes, 0);
}

static void add_refused(const char *what)
{
    wanted = now;
    add(what, 0, 0, 36);
    add(what, 15, MOST, 36);
    add("38 comes before 36", 16, MOST, 38);
    add("38 comes before 36", 15, MOST + 1, 38);
}

/* One figure at its limit; one over; far over; two over; and all at their limits. */
static void damaged(void)
{
    size_t k, j;
    for (k = 0; k < 20; k++) {
        begin();
        *number(k) = limit(k);
        add_taken("a figure at its limit", 3, 5);
        begin();
        *number(k) = limit(k) + 1;
        add_refused("a figure over its limit");
        for (j = 0; j < LARGE_NUMBERS; j++)
            if (large_numbers[j] > limit(k)) {
                *number(k) = large_numbers[j];
                add_refused("a figure far over its limit");
            }
        for (j = 0; j < k; j++) {
            begin();
            *number(j) = limit(j) + 1;
            *number(k) = limit(k) + 1;
            add_refused("two figures over their limits");
        }
    }
    begin();
    for (k = 0; k < 20; k++)
        *number(k) = limit(k);
    add_taken("all figures at their limits", 15, MOST);
    add_refused("behind the last tile");
}

/* Figures that belong to no series, and that are in range: no tile and a most, a total that is too small. */
static void no_series(void)
{
    size_t answer, passes;
    for (answer = 0; answer < 16; answer++)
        for (passes = 9; passes < 12; passes++) {
            begin();
            now.tally.most = 10;
            now.tally.first = 400;
            now.tally.counts[answer] = 77;
            add_taken("figures of no series", answer, passes);
            add_taken("figures of no series", 15 - answer, passes);
        }
}

static void numbers_out_of_range(void)
{
    size_t k;
    begin();
    for (k = 0; k < LARGE_NUMBERS; k++) {
        add("a large answer", large_numbers[k], 0, 38);
        add("large passes", 0, large_numbers[k] > MOST ? large_numbers[k] : (size_t)-1, 38);
        add("both", large_numbers[k], (size_t)-1, 38);
    }
    add("answer 16", 16, 0, 38);
    add("15,361 passes", 0, MOST + 1, 38);
}

void test_tally(void)
{
    numbers_out_of_range();
    random_series();
    full_series();
    damaged();
    no_series();
}
