/* What the parts of the example share. spectral.c says what it does. */
#ifndef SPECTRAL_H
#define SPECTRAL_H

#include <stddef.h>
#include <stdint.h>
#include <crewelmarsh.h>

enum { IMAGES = CREWELMARSH_STORE_OWNERS, EDITION = CREWELMARSH_EDITION_2, PEAK = 16383 };

/* What is coded, and how. */
struct plan {
    size_t bands, side, tile; /* planes of side by side samples, in square tiles */
    size_t kept;              /* components; where they are fewer than bands, by lanczos */
    size_t fraction;          /* bits behind the point of a component, 0 to 6 */
    size_t limit;             /* QL passes for any one value, 1 to 60 */
    double rate;              /* bits a sample, by 9-7; 0: as many as it takes, by 5-3 */
    size_t spoilt;            /* the tile of image 0 whose own block is spoilt, or NOWHERE */
    int lost;                 /* whether its box is left away instead */
    int picture;              /* whether the cubes and the bits of each component are written */
    const char *folder;
};

#define NOWHERE ((size_t)-1)

enum scheme { PLAIN, MAIN, OWN, SCHEMES };

struct area {
    size_t x, y, side;
};

static inline size_t tile_count(size_t side, size_t tile)
{
    return (side / tile) * (side / tile);
}

static inline struct area tile_area(size_t side, size_t tile, size_t number)
{
    size_t across = side / tile;
    struct area a = {number % across * tile, number / across * tile, tile};
    return a;
}

/* ---- spectral.c */

void fail(const char *what, const char *which);                  /* a message, and status 1 */
void must(struct crewelmarsh_answer a, const char *call);         /* fails on a refusal that only a mistake in this program gives */
void *room(size_t count, size_t size);                            /* zeros; fails where there is no memory */

/* ---- cube.c */

/* bands planes of side * side samples of 14 bits. The same seed gives the same samples on every machine. */
int16_t *make_cube(size_t bands, size_t side, uint64_t seed);

/* Numbers from -0.5 to 0.5 with no pattern, the same each time: the start vector of lanczos. */
void make_start(double *start, size_t count);

/* ---- basis.c */

/* Principal components of an area, greatest first. */
struct basis {
    double *values;  /* kept: N * N times the variance along each, N the samples taken */
    double *forward; /* kept rows of bands */
    double *inverse; /* bands rows of kept: the transpose, since the rows are orthonormal up to rounding */
};

struct basis new_basis(const struct plan *plan);
void free_basis(struct basis *basis);

/* What came of a covariance: how many samples of each band were taken, one of how many in both directions, and the last refusal. */
struct taken {
    size_t count, stride, refusal;
};

struct taken area_covariance(const int16_t *cube, size_t bands, size_t side, struct area a, double *matrix);

/* Whether there is a basis; where there is none the caller codes with another one, or with none. */
int derive(const struct plan *plan, const int16_t *cube, struct area a, struct basis *basis, struct crewelmarsh_tally *tally);

void tally_line(const struct crewelmarsh_tally *tally);

/* The means of an area, in whole numbers. */
void area_means(const int16_t *cube, size_t bands, size_t side, struct area a, int16_t *means);

/* Samples to components, in whole numbers of 2^-fraction. planes[c] is of the whole image. */
void forward_area(const struct plan *plan, const int16_t *cube, struct area a, const double *forward, const int16_t *means, int32_t **planes);

/* What a decoder needs to turn components into samples. */
struct undo {
    size_t bands, components, fraction;
    const double *inverse;
    const int16_t *means;
};

/* The way back: planes[c] is of the area alone, its rows `stride` apart. */
void inverse_area(const struct undo *undo, const int32_t *const *planes, size_t stride, int16_t *cube, size_t side, struct area a);

/* A checksum of all bits that turn components into samples. */
uint64_t undo_sum(const struct undo *undo);

/* ---- file.c */

struct bytes {
    unsigned char *start;
    size_t length;
};

size_t get(const unsigned char *from, size_t count);              /* a big-endian number */
void put(unsigned char *to, size_t count, size_t number);
struct bytes read_file(const char *name);                         /* free its start */
void append_file(const char *name, const unsigned char *bytes, size_t length);

/* Writes planes as a JP2 file of at most some `most` bytes by 9-7; of as many as it takes, by 5-3, where most is 0. */
void write_jp2(const char *name, int32_t *const *planes, size_t count, size_t side, size_t tile, double most);

/*
 * A box behind the codestream: length, 'uuid', 16 bytes of UUID, then the item:
 *
 *     u16  tile; 65,535, which no tile of a codestream has, says that it is the image's
 *     u8   edition, since the bits of a block can't tell it
 *     u8   fraction
 *     i16  for each band, in a tile's item alone: its mean
 *     ..   a transform block of the inverse alone; in a tile's item it may be empty
 *
 * A block's rows are components, its columns bands, and the inverse stands band by band.
 */
enum { BOX_HEAD = 24, ITEM_HEAD = 4, THE_IMAGE = 65535 };

/* A box, with means or NULL, with a basis or NULL. Free its start. */
struct bytes make_box(const struct plan *plan, size_t tile, const int16_t *means, const struct basis *basis);

/* The next item from *at on, which is moved behind it; its start is NULL where there is none. */
struct bytes next_item(struct bytes file, size_t *at);

/* ---- encode.c */

/* What the encoder knows of a file, for looking at what a decoder makes of it. */
struct coded {
    size_t bytes, boxes; /* the file's length, and how much of it are boxes */
    int transformed;     /* whether there is a transform */
    size_t spoilt;       /* the tile whose block was spoilt, or whose box was left away, or NOWHERE */
    uint64_t *sums;      /* for each tile the sum of what undoes it; 0 where there is no transform */
    int16_t *expected;   /* what comes out where no component loses anything */
};

struct coded encode(const struct plan *plan, enum scheme scheme, size_t image, const int16_t *cube, const char *name);

/* ---- decode.c */

/* What became of a tile. Where it was left out, a line has said why. */
enum { NOT_YET, DECODED, LEFT_OUT };

/* What the decoder made of a file. */
struct decoded {
    size_t bands, side, tiles;
    int16_t *cube;
    uint64_t *sums;       /* as in `coded` */
    unsigned char *state; /* of each tile */
};

/* Two files at a time, over one store. */
void decode(const char *const *names, struct decoded *out);

/* Whether the viewer's run in steps ended as the one call does. */
int view_end(void);

#endif
