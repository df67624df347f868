/* The store of two owners, held to two plain maps in C: sequences of random calls by both, each refusal, damaged lists; guard words throughout. A short run by hand. */
#include <string.h>
#include "boundary.h"

enum { EDGE = 16, ENTRIES = 32, OWN = 34, LEFT = 69, LIST = 70, TILES = 64, ROOM = 65536, CALLS = 100000 };

/* The arrays between guards, and as they were before a call. */
struct arrays {
    size_t list[EDGE + LIST + EDGE];
    uint16_t tiles[EDGE + TILES + EDGE];
    unsigned char bytes[EDGE + ROOM + EDGE + 2];
    unsigned char out[EDGE + ROOM + EDGE + 2];
};
static struct arrays now, before;
static size_t *const list = now.list + EDGE;
static uint16_t *const tiles = now.tiles + EDGE;
static unsigned char *const bytes = now.bytes + EDGE;
static unsigned char *const out = now.out + EDGE;
static unsigned char block[ROOM + 2];

/* What a call is told the lengths are. */
static struct {
    size_t list, tiles, bytes;
} told;

/* An owner's plain map: tiles, lengths and bytes, in no order that the store knows of; and where its bytes are in the buffer. */
struct map {
    size_t count, sum, quota, start;
    uint16_t tile[ENTRIES];
    size_t length[ENTRIES];
    unsigned char bytes[ENTRIES][ROOM / 16];
};
static struct map maps[2];
static size_t room;

/* Whole numbers below `bound`, the same in every run. */
static unsigned draw(unsigned bound)
{
    static unsigned state = 19;
    state = state * 1664525u + 1013904223u;
    return (state >> 8) % bound;
}

static void scramble(void *start, size_t length)
{
    unsigned char *at = start;
    while (length-- > 0)
        *at++ = (unsigned char)draw(256);
}

static void tell(size_t length)
{
    told.list = LIST;
    told.tiles = TILES;
    told.bytes = length;
}

/* The entries, on the arrays as told. */
#define ARRAYS list, told.list, tiles, told.tiles, bytes, told.bytes

static struct crewelmarsh_answer setup(size_t quota0, size_t quota1) { return crewelmarsh_store_setup(quota0, quota1, ARRAYS); }
static struct crewelmarsh_answer reset(void) { return crewelmarsh_store_reset(ARRAYS); }
static struct crewelmarsh_answer length_of(size_t owner, uint16_t tile) { return crewelmarsh_store_length(owner, ARRAYS, tile); }
static struct crewelmarsh_answer drop(size_t owner, uint16_t tile) { return crewelmarsh_store_drop(owner, ARRAYS, tile); }

static struct crewelmarsh_answer put(size_t owner, uint16_t tile, size_t length)
{
    return crewelmarsh_store_put(owner, ARRAYS, tile, length ? block : NULL, length);
}

static struct crewelmarsh_answer fetch(size_t owner, uint16_t tile, size_t length)
{
    return crewelmarsh_store_fetch(owner, ARRAYS, tile, length ? out : NULL, length);
}

static int is(struct crewelmarsh_answer a, size_t answer, size_t count)
{
    return a.answer == answer && a.place == 0 && a.index == 0 && a.count == count;
}

/* How much of the buffer and of the destination is looked at: more than any call of the group may touch. */
static size_t reach;

static void keep(void)
{
    memcpy(before.list, now.list, sizeof now.list);
    memcpy(before.tiles, now.tiles, sizeof now.tiles);
    memcpy(before.bytes, now.bytes, reach);
    memcpy(before.out, now.out, reach);
}

static int untouched(void)
{
    return memcmp(before.list, now.list, sizeof now.list) == 0 && memcmp(before.tiles, now.tiles, sizeof now.tiles) == 0 &&
           memcmp(before.bytes, now.bytes, reach) == 0 && memcmp(before.out, now.out, reach) == 0;
}

/* Nothing outside of an owner's parts, the destination included; of its list the quota neither. */
static int guarded(size_t owner)
{
    const struct map *m = &maps[owner];
    size_t from = EDGE + 1 + owner * OWN, end = EDGE + m->start + m->quota;
    memcpy(before.list + from + 1, now.list + from + 1, (OWN - 1) * sizeof(size_t));
    memcpy(before.tiles + EDGE + owner * ENTRIES, now.tiles + EDGE + owner * ENTRIES, ENTRIES * sizeof(uint16_t));
    return memcmp(before.list, now.list, sizeof now.list) == 0 && memcmp(before.tiles, now.tiles, sizeof now.tiles) == 0 &&
           memcmp(before.bytes, now.bytes, EDGE + m->start) == 0 && memcmp(before.bytes + end, now.bytes + end, reach - end) == 0 &&
           memcmp(before.out, now.out, reach) == 0;
}

/* The place of a tile in a plain map, or its count. */
static size_t place_of(const struct map *m, uint16_t tile)
{
    size_t k;
    for (k = 0; k < m->count && m->tile[k] != tile; k++)
        ;
    return k;
}

static size_t wanted_put(const struct map *m, uint16_t tile, size_t length)
{
    if (place_of(m, tile) < m->count)
        return 31;
    if (m->count == ENTRIES)
        return 33;
    return m->sum + length > m->quota ? 30 : 0;
}

static int put_right(size_t owner, uint16_t tile, size_t length)
{
    struct map *m = &maps[owner];
    size_t want = wanted_put(m, tile, length), k = m->count;
    if (!is(put(owner, tile, length), want, 0))
        return 0;
    if (want)
        return untouched();
    m->tile[k] = tile;
    m->length[k] = length;
    memcpy(m->bytes[k], block, length);
    m->count++;
    m->sum += length;
    return guarded(owner) && list[2 + owner * OWN] == m->count;
}

static int length_right(size_t owner, uint16_t tile)
{
    const struct map *m = &maps[owner];
    size_t k = place_of(m, tile);
    return (k < m->count ? is(length_of(owner, tile), 0, m->length[k]) : is(length_of(owner, tile), 32, 0)) && untouched();
}

static int fetch_right(size_t owner, uint16_t tile, size_t length)
{
    const struct map *m = &maps[owner];
    size_t k = place_of(m, tile);
    if (k == m->count)
        return is(fetch(owner, tile, length), 32, 0) && untouched();
    if (length != m->length[k])
        return is(fetch(owner, tile, length), 6, 0) && untouched();
    if (!is(fetch(owner, tile, length), 0, 0) || memcmp(out, m->bytes[k], length) != 0)
        return 0;
    memcpy(before.out + EDGE, out, length);
    return untouched();
}

static int drop_right(size_t owner, uint16_t tile)
{
    struct map *m = &maps[owner];
    size_t k = place_of(m, tile);
    if (k == m->count)
        return is(drop(owner, tile), 32, 0) && untouched();
    m->sum -= m->length[k];
    m->count--;
    m->tile[k] = m->tile[m->count];
    m->length[k] = m->length[m->count];
    memcpy(m->bytes[k], m->bytes[m->count], m->length[k]);
    return is(drop(owner, tile), 0, 0) && guarded(owner) && list[2 + owner * OWN] == m->count;
}

static int reset_right(void)
{
    maps[0].count = maps[0].sum = maps[1].count = maps[1].sum = 0;
    before.list[EDGE + 2] = before.list[EDGE + 36] = 0;
    return is(reset(), 0, 0) && untouched();
}

/* Every block of both comes back. */
static int all_right(void)
{
    size_t owner, k;
    for (owner = 0; owner < 2; owner++)
        for (k = 0; k < maps[owner].count; k++) {
            keep();
            if (!length_right(owner, maps[owner].tile[k]) || !fetch_right(owner, maps[owner].tile[k], maps[owner].length[k]))
                return 0;
        }
    return 1;
}

/* A call by one of the two, or, seldom, a reset or a call by nobody. Both have the same tile numbers. */
static int one_call(unsigned spread, unsigned longest)
{
    size_t owner = draw(2);
    uint16_t tile = (uint16_t)(65535u - draw(spread) * 31u);
    size_t length = draw(longest + 1), k = place_of(&maps[owner], tile);
    unsigned which = draw(1600);
    scramble(block, length < 8 ? length : 8);
    memset(block + (length < 8 ? length : 8), (int)draw(256), length < 8 ? 0 : length - 8);
    keep();
    if (which == 0)
        return reset_right();
    if (which < 5)
        return is(which % 2 ? drop(2 + draw(9), tile) : put((size_t)0 - 1 - draw(9), tile, length), 34, 0) && untouched();
    if (which < 700)
        return put_right(owner, tile, draw(20) ? length : 0);
    if (which < 900)
        return length_right(owner, tile);
    if (which < 1300)
        return fetch_right(owner, tile, k < maps[owner].count && draw(4) ? maps[owner].length[k] : length);
    return drop_right(owner, tile);
}

static void begin(size_t length, size_t quota0, size_t quota1)
{
    room = length;
    maps[0].count = maps[0].sum = maps[1].count = maps[1].sum = 0;
    maps[0].quota = maps[1].start = quota0;
    maps[0].start = 0;
    maps[1].quota = quota1;
    reach = room + 512 < sizeof now.bytes ? room + 512 : sizeof now.bytes;
    tell(room);
}

static int set_up_right(size_t length, size_t quota0, size_t quota1)
{
    begin(length, quota0, quota1);
    keep();
    before.list[EDGE] = length;
    before.list[EDGE + 1] = quota0;
    before.list[EDGE + 35] = quota1;
    before.list[EDGE + 2] = before.list[EDGE + 36] = 0;
    before.list[EDGE + LEFT] = length - quota0 - quota1;
    return is(setup(quota0, quota1), 0, 0) && untouched();
}

/* Sequences from an empty store over arrays of any contents. */
static void sequences(void)
{
    static const unsigned rooms[] = {0, 1, 7, 64, 200, 700, 2000, 4000};
    unsigned done = 0, round;
    for (round = 0; done < CALLS; round++) {
        unsigned length = rooms[round % 8], quota0 = draw(length + 1), quota1 = round % 5 ? length - quota0 : draw(length - quota0 + 1);
        unsigned spread = 1 + draw(130), longest = draw(round % 3 ? 60 : 400), k;
        scramble(now.list, sizeof now.list);
        scramble(now.tiles, sizeof now.tiles);
        scramble(now.bytes, EDGE + length + EDGE);
        scramble(now.out, 500);
        check(set_up_right(length, quota0, quota1), "a set-up over any contents");
        for (k = 0; k < 500; k++, done++)
            check(one_call(spread, longest), "a call of a sequence");
        check(all_right(), "every block of a sequence");
    }
}

/* Lists that no call made: the store answers as the maps that they say. */
static void given_lists(void)
{
    unsigned round, k;
    for (round = 0; round < 60; round++) {
        size_t length = draw(3000), quota0 = draw((unsigned)length + 1), left = round % 2 ? draw((unsigned)(length - quota0) + 1) : 0, owner;
        scramble(now.bytes, EDGE + length + EDGE);
        begin(length, quota0, length - quota0 - left);
        list[0] = length;
        list[LEFT] = left;
        for (owner = 0; owner < 2; owner++) {
            struct map *m = &maps[owner];
            size_t *own = list + 1 + owner * OWN, at = 0;
            own[0] = m->quota;
            own[1] = draw(ENTRIES + 1);
            for (k = 0; k < own[1]; k++) {
                own[2 + k] = draw(60) < m->quota - at ? draw(60) : 0;
                if (own[2 + k] > m->quota - at)
                    own[2 + k] = 0;
                tiles[owner * ENTRIES + k] = m->tile[k] = (uint16_t)(k * 977u + round);
                m->length[k] = own[2 + k];
                memcpy(m->bytes[k], bytes + m->start + at, own[2 + k]);
                at += own[2 + k];
            }
            m->count = own[1];
            m->sum = at;
        }
        check(all_right(), "lists that were written by hand");
        for (k = 0; k < 100; k++)
            check(one_call(100, 60), "a call on lists that were written by hand");
        check(all_right(), "what lists written by hand hold afterwards");
    }
}

/* Each call of this owner is refused with this, whatever its tile, and nothing changes. */
static void refused(const char *what, size_t owner, size_t answer)
{
    keep();
    check(is(put(owner, 9, 1), answer, 0) && untouched(), what);
    check(is(put(owner, 1, 0), answer, 0) && untouched(), what);
    check(is(length_of(owner, 1), answer, 0) && untouched(), what);
    check(is(fetch(owner, 1, 3), answer, 0) && untouched(), what);
    check(is(fetch(owner, 9, 4), answer, 0) && untouched(), what);
    check(is(drop(owner, 1), answer, 0) && untouched(), what);
    check(is(drop(owner, 9), answer, 0) && untouched(), what);
}

/* What no set-up leaves: both owners are refused, and so is a reset; nobody has 34 all the same. */
static void both_refused(const char *what)
{
    refused(what, 0, 39);
    refused(what, 1, 39);
    check(is(reset(), 39, 0) && untouched(), what);
    refused(what, 2, 34);
}

/* A damaged list of one owner stops it and a reset, and not the other, who finds its own blocks. */
static void one_refused(const char *what, size_t owner)
{
    const struct map *other = &maps[1 - owner];
    size_t k;
    refused(what, owner, 39);
    check(is(reset(), 39, 0) && untouched(), what);
    for (k = 0; k < other->count; k++) {
        keep();
        check(length_right(1 - owner, other->tile[k]) && fetch_right(1 - owner, other->tile[k], other->length[k]), what);
    }
    keep();
    check(put_right(1 - owner, 77, 1), what);
    keep();
    check(drop_right(1 - owner, 77), what);
    refused(what, 2, 34);
}

/* Three blocks of 3, 0 and 5 bytes for each, of 10. */
static void three(void)
{
    size_t owner;
    check(set_up_right(23, 10, 11), "three blocks: set-up");
    for (owner = 0; owner < 2; owner++) {
        scramble(block, 5);
        keep();
        check(put_right(owner, 1, 3) && put_right(owner, 2, 0), "three blocks");
        keep();
        check(put_right(owner, 65535, 5), "three blocks: the third");
    }
}

static void damaged_lists(size_t owner)
{
    size_t *own = list + 1 + owner * OWN, k;
    uint16_t *mine = tiles + owner * ENTRIES;
    three();
    for (k = 0; k < LARGE_NUMBERS; k++) {
        own[1] = large_numbers[k];
        one_refused("more held than 32", owner);
        own[1] = 3;
        own[2] = large_numbers[k];
        one_refused("a block that leaves the quota", owner);
        own[3] = (size_t)0 - large_numbers[k];
        one_refused("lengths whose sum wraps", owner);
        own[2] = 3;
        own[3] = 0;
    }
    own[1] = 33;
    one_refused("33 held", owner);
    own[1] = 3;
    own[4] = maps[owner].quota - 3 + 1;
    one_refused("one byte over", owner);
    own[4] = 5;
    for (k = 0; k < 3; k++) {
        uint16_t old = mine[k];
        mine[k] = mine[(k + 1) % 3];
        one_refused("a tile twice", owner);
        mine[k] = old;
    }
    keep();
    check(all_right(), "whole again");

    /* Any two of 32 tiles. */
    own[1] = ENTRIES;
    for (k = 0; k < ENTRIES; k++) {
        own[2 + k] = 0;
        mine[k] = (uint16_t)(k * 2000u + 3);
    }
    for (k = 0; k < ENTRIES; k++) {
        uint16_t old = mine[k];
        size_t twin = (k * 13 + 5) % ENTRIES, held = (k < twin ? twin : k) + 1;
        if (twin == k)
            continue;
        mine[k] = mine[twin];
        own[1] = held;
        refused("a tile twice among many", owner, 39);
        check(is(reset(), 39, 0) && untouched(), "a reset of a tile twice among many");
        own[1] = held - 1;
        keep();
        check(is(length_of(owner, 4), 32, 0) && untouched(), "the second one not held");
        own[1] = ENTRIES;
        mine[k] = old;
    }

    /* A set-up mends it. */
    own[1] = (size_t)0 - 1;
    refused("beyond repair", owner, 39);
    check(is(reset(), 39, 0) && untouched(), "a reset of a damaged list");
    check(set_up_right(23, 10, 11), "a set-up of a damaged list");
    keep();
    check(put_right(owner, 5, 5), "mended");
    keep();
    check(put_right(1 - owner, 5, 0), "mended, and the other's too");
    keep();
    check(reset_right(), "a reset of what was mended");
}

/* Each number of the set-up by any other number, the rest as it was. Of 23 bytes 10 and 11 are the owners', and 2 are left over. */
static void damaged_set_up(void)
{
    static const size_t at[] = {0, 1, 1 + OWN, LEFT};
    size_t k, other;
    three();
    for (k = 0; k < 4; k++) {
        size_t *number = list + at[k], was = *number;
        for (other = 0; other < 100; other++)
            if (other != was) {
                *number = other;
                both_refused("one number of the set-up");
            }
        for (other = 0; other < LARGE_NUMBERS; other++) {
            *number = large_numbers[other];
            both_refused("one number of the set-up, large");
            *number = (size_t)0 - large_numbers[other];
            both_refused("one number of the set-up, large, from the other end");
            *number = was + large_numbers[other];
            both_refused("one number of the set-up, far off");
        }
        for (other = 0; other < 64; other++) {
            *number = was ^ (size_t)1 << other;
            both_refused("one bit of a number of the set-up");
        }
        *number = was;
        keep();
        check(all_right(), "the number as it was");
    }

    /* Two numbers that still add up are not seen: owner 1's bytes start one byte early, and what it fetches is not what it put. */
    list[1] = 9;
    list[LEFT] = 3;
    keep();
    check(is(fetch(1, 1, 3), 0, 0) && out[0] == bytes[9] && memcmp(out + 1, maps[1].bytes[place_of(&maps[1], 1)], 2) == 0,
          "two numbers of the set-up that add up");
    check(is(length_of(1, 1), 0, 3) && is(length_of(0, 1), 0, 3), "their lengths");
    list[1] = 10;
    list[LEFT] = 2;
    keep();
    check(all_right(), "both numbers as they were");
}

static void damages(void)
{
    static const size_t wrong[] = {0, 1, 2, 32, 34, 35, 63, 65, 66, 68, 69, 71, (size_t)1 << 32};
    size_t k;
    damaged_lists(0);
    damaged_lists(1);
    damaged_set_up();
    three();
    for (k = 0; k < LARGE_NUMBERS; k++) {
        list[0] = large_numbers[k];
        both_refused("another room");
        list[0] = 23;
        list[1] = large_numbers[k];
        both_refused("a quota of owner 0 over the room");
        list[35] = (size_t)0 - large_numbers[k];
        both_refused("quotas whose sum wraps");
        list[1] = 10;
        list[35] = large_numbers[k];
        both_refused("a quota of owner 1 over the room");
        list[35] = 11;
    }
    list[1] = 13;
    both_refused("quotas one byte over");
    list[LEFT] = (size_t)0 - 1;
    both_refused("quotas one byte over, and the sum wraps to the room");
    list[1] = 10;
    list[LEFT] = 2;
    list[0] = 22;
    both_refused("a room one less");
    list[LEFT] = 1;
    both_refused("a room one less that adds up");
    list[0] = 24;
    list[LEFT] = 3;
    both_refused("a room one more that adds up");
    list[0] = 23;
    list[LEFT] = 2;
    for (k = 0; k < sizeof wrong / sizeof wrong[0]; k++) {
        told.tiles = wrong[k];
        both_refused("tiles of another length");
        told.tiles = TILES;
        told.list = wrong[k];
        both_refused("a list of another length");
        told.list = LIST;
    }
    for (k = 0; k < 30; k++)
        if (k != 23) {
            told.bytes = k;
            both_refused("a buffer of another length");
        }
    told.list = told.tiles = 0;
    both_refused("no list and no tiles");
    tell(23);
    keep();
    check(all_right(), "whole again");
    for (k = 0; k < LARGE_NUMBERS; k++)
        refused("nobody", large_numbers[k], 34);

    /* A forged room, over a buffer that is as long. */
    reach = sizeof now.bytes;
    list[0] = told.bytes = ROOM + 1;
    list[LEFT] = ROOM + 1 - 10 - 11;
    both_refused("a room over 65,536");
}

static void set_ups(void)
{
    size_t k;
    reach = sizeof now.bytes;
    keep();
    tell(ROOM + 1);
    check(is(setup(0, 0), 37, 0) && untouched(), "a buffer of 65,537");
    told.list = told.tiles = 0;
    check(is(setup(ROOM + 1, ROOM + 1), 37, 0) && untouched(), "37 before 35 and 39");
    told.bytes = (size_t)0 - 1;
    check(is(setup(0, 0), 37, 0) && untouched(), "the longest buffer");
    tell(ROOM);
    check(is(setup(ROOM, 1), 35, 0) && untouched(), "quotas one byte over");
    check(is(setup(1, ROOM), 35, 0) && untouched(), "quotas one byte over, the other way");
    for (k = 0; k < LARGE_NUMBERS; k++) {
        size_t quota = large_numbers[k] > ROOM ? large_numbers[k] : large_numbers[k] + ROOM;
        check(is(setup(quota, 0), 35, 0) && untouched(), "a first quota over the room");
        check(is(setup(0, quota), 35, 0) && untouched(), "a second quota over the room");
        check(is(setup((size_t)0 - 1 - k, 1 + k), 35, 0) && untouched(), "quotas whose sum wraps");
    }
    told.list = told.tiles = 0;
    check(is(setup(ROOM, 1), 35, 0) && untouched(), "35 before 39");
    tell(ROOM);
    told.list = LIST - 1;
    check(is(setup(1, 1), 39, 0) && untouched(), "a list of 69");
    told.list = LIST + 1;
    check(is(setup(1, 1), 39, 0) && untouched(), "a list of 71");
    check(is(crewelmarsh_store_setup(1, 1, NULL, 0, tiles, TILES, bytes, ROOM), 39, 0) && untouched(), "no list");
    tell(ROOM);
    told.tiles = TILES - 1;
    check(is(setup(1, 1), 39, 0) && untouched(), "tiles of 63");
    told.tiles = TILES + 1;
    check(is(setup(1, 1), 39, 0) && untouched(), "tiles of 65");
    check(set_up_right(ROOM, ROOM, 0), "the whole buffer for owner 0");
    check(set_up_right(ROOM, 0, ROOM), "the whole buffer for owner 1");
    check(set_up_right(ROOM, 5, 6), "most of it for neither");
    check(set_up_right(0, 0, 0), "a buffer of none");
    check(is(crewelmarsh_store_put(1, list, LIST, tiles, TILES, NULL, 0, 5, NULL, 0), 0, 0), "an empty block in no buffer");
    check(is(crewelmarsh_store_length(1, list, LIST, tiles, TILES, NULL, 0, 5), 0, 0), "its length");
    check(is(crewelmarsh_store_length(0, list, LIST, tiles, TILES, NULL, 0, 5), 32, 0), "not the other's");
    check(is(crewelmarsh_store_fetch(1, list, LIST, tiles, TILES, NULL, 0, 5, NULL, 0), 0, 0), "itself");
    check(is(crewelmarsh_store_put(1, list, LIST, tiles, TILES, NULL, 0, 6, block, 1), 30, 0), "a byte in no buffer");
    check(is(crewelmarsh_store_reset(list, LIST, tiles, TILES, NULL, 0), 0, 0), "a reset of no buffer");
    check(is(crewelmarsh_store_drop(1, list, LIST, tiles, TILES, NULL, 0, 5), 32, 0), "an empty block gone");
}

/* The last byte of a quota, the last entry, and which refusal comes first; the other owner has room all the while. */
static void limits(size_t owner)
{
    unsigned k;
    check(set_up_right(200, owner ? 130 : 64, owner ? 64 : 130), "limits: set-up");
    scramble(block, 200);
    keep();
    check(put_right(1 - owner, 0, 100), "100 bytes of the other's");
    for (k = 0; k < 3; k++) {
        keep();
        check(put_right(owner, (uint16_t)k, 21), "21 bytes of 64");
    }
    keep();
    check(put_right(owner, 3, 2), "one byte over the quota");
    keep();
    check(put_right(owner, 3, 1), "the last byte");
    keep();
    check(put_right(owner, 4, 1), "no byte left");
    keep();
    check(put_right(owner, 4, 0), "no byte needed");
    keep();
    check(put_right(1 - owner, 1, 30), "the other's last bytes");
    keep();
    check(drop_right(owner, 1), "room again");
    keep();
    check(put_right(owner, 9, 22), "more than was dropped");
    keep();
    check(put_right(owner, 9, 21), "as much as was dropped");
    check(all_right(), "all of them");

    check(set_up_right(200, 100, 100), "entries: set-up");
    for (k = 0; k < ENTRIES; k++) {
        keep();
        check(put_right(owner, (uint16_t)(k * 2048u), 1), "32 blocks");
    }
    keep();
    check(is(put(owner, 1, 0), 33, 0) && untouched(), "the 33rd");
    check(is(put(owner, 1, 200), 33, 0) && untouched(), "33 before 30");
    check(is(put(owner, 0, 0), 31, 0) && untouched(), "31 before 33");
    check(is(put(owner, 63488, 200), 31, 0) && untouched(), "31 before 33 and 30");
    check(is(fetch(owner, 1, 3), 32, 0) && untouched(), "32 before 6");
    check(is(fetch(owner, 0, 2), 6, 0) && untouched(), "a destination too long");
    check(is(fetch(owner, 0, 0), 6, 0) && untouched(), "a destination too short");
    check(is(length_of(1 - owner, 0), 32, 0) && untouched(), "not the other's");
    for (k = 0; k < ENTRIES; k++) {
        keep();
        check(put_right(1 - owner, (uint16_t)(k * 2048u), 2), "32 of the other's");
    }
    check(all_right(), "all 64");
    keep();
    check(reset_right(), "a reset of 64");
    check(is(length_of(owner, 0), 32, 0) && is(length_of(1 - owner, 0), 32, 0), "none left");
}

static void whole_room(size_t owner)
{
    check(set_up_right(ROOM, owner ? 0 : ROOM, owner ? ROOM : 0), "one block: set-up");
    scramble(block, ROOM);
    keep();
    check(is(put(owner, 7, ROOM + 1), 30, 0) && untouched(), "a block longer than the room");
    check(is(put(1 - owner, 7, 1), 30, 0) && untouched(), "a byte of no quota");
    check(is(put(owner, 7, ROOM), 0, 0) && memcmp(bytes, block, ROOM) == 0, "a block as long as the room");
    check(is(length_of(owner, 7), 0, ROOM), "its length");
    memset(out, 0, ROOM);
    check(is(fetch(owner, 7, ROOM), 0, 0) && memcmp(out, block, ROOM) == 0, "itself, back");
    check(is(put(owner, 8, 0), 0, 0) && is(drop(owner, 7), 0, 0) && is(length_of(owner, 8), 0, 0) && is(length_of(owner, 7), 32, 0),
          "an empty block behind it");
}

static struct crewelmarsh_answer put_text(size_t owner, uint16_t tile, const char *text, size_t length)
{
    memcpy(block, text, length);
    return put(owner, tile, length);
}

/* A run by hand, with no map beside it: the buffer is in view, the bytes of a dropped block and of a reset too. */
static void by_hand(void)
{
    size_t k;
    tell(10);
    for (k = 0; k < LIST; k++)
        list[k] = 9;
    memset(tiles, 0, TILES * sizeof tiles[0]);
    memset(bytes, '.', 10);
    memset(out, '-', 2);
    check(is(setup(6, 5), 35, 0), "by hand: 6 and 5 of 10 bytes");
    check(is(setup(6, 4), 0, 0), "by hand: 6 and 4");
    check(is(put_text(1, 7, "vwxyz", 5), 30, 0), "by hand: more than owner 1 has");
    check(is(put_text(1, 7, "xy", 2), 0, 0), "by hand: less");
    check(is(put_text(0, 7, "abcde", 5), 0, 0), "by hand: the same tile number of owner 0");
    check(is(put_text(2, 7, "", 0), 34, 0), "by hand: nobody's");
    check(is(length_of(0, 7), 0, 5), "by hand: the length of owner 0's");
    check(is(length_of(1, 7), 0, 2), "by hand: the length of owner 1's");
    check(memcmp(bytes, "abcde.xy..", 10) == 0, "by hand: both blocks in the buffer");
    check(is(put_text(0, 8, "f", 1), 0, 0), "by hand: another tile of owner 0");
    check(is(drop(0, 7), 0, 0), "by hand: its first one gone");
    check(is(fetch(0, 8, 2), 6, 0), "by hand: a destination too long");
    check(is(fetch(1, 7, 2), 0, 0), "by hand: owner 1's block");
    check(memcmp(out, "xy", 2) == 0, "by hand: its bytes");
    check(is(reset(), 0, 0), "by hand: a reset");
    check(is(length_of(0, 7), 32, 0), "by hand: nothing of owner 0");
    check(is(length_of(1, 7), 32, 0), "by hand: nothing of owner 1");
    check(memcmp(bytes, "fbcdefxy..", 10) == 0, "by hand: the second block in the first one's place, and nothing cleared");
}

void test_store(void)
{
    by_hand();
    set_ups();
    limits(0);
    limits(1);
    whole_room(0);
    whole_room(1);
    sequences();
    given_lists();
    damages();
}
