/*
 * The decoder: two files at a time. Their boxes come by turns; what a tile needs waits in the store until the tile is due, and where
 * it finds no room there the tile is decoded at once. All that the decoder knows is in the files.
 *
 * A box that can't be used costs its tile and nothing else.
 */
#include <math.h>
#include <stdio.h>
#include <stdlib.h>
#include <string.h>
#include <openjpeg.h>
#include "spectral.h"

static size_t list[CREWELMARSH_STORE_LIST_LEN];
static uint16_t tiles[CREWELMARSH_STORE_TILES_LEN];
static unsigned char bytes[CREWELMARSH_STORE_BYTES_MOST];
#define STORE list, CREWELMARSH_STORE_LIST_LEN, tiles, CREWELMARSH_STORE_TILES_LEN, bytes, sizeof bytes

/* A file that is being decoded. */
struct source {
    size_t owner; /* 0 or 1, in the store */
    struct bytes file;
    size_t at;    /* where the next box begins */
    size_t components, tile, fraction;
    size_t due;   /* the tile that is next in order */
    struct bytes block; /* the image's; its start is NULL as long as it has not come */
    size_t boxes;       /* how many of ours came: without one the bands are coded as they are */
    opj_codec_t *codec;
    opj_stream_t *stream;
    opj_image_t *image;
    struct decoded *out;
};

/* ---- the viewer: principal components of the first tile decoded, a pass at a time between two tiles */

static struct {
    struct crewelmarsh_eigen_run run;
    double *matrix, *work, *result;
    size_t n, meanwhile; /* bands; steps while tiles were decoded */
} view;

static void view_start(const struct decoded *from, struct area a)
{
    view.n = from->bands;
    view.matrix = room(crewelmarsh_covariance_matrix_len(view.n), sizeof *view.matrix);
    view.work = room(crewelmarsh_symmetric_eigen_work_len(view.n), sizeof *view.work);
    view.result = room(crewelmarsh_symmetric_eigen_result_len(view.n), sizeof *view.result);
    view.meanwhile = 0;
    area_covariance(from->cube, view.n, from->side, a, view.matrix);
    view.run = crewelmarsh_eigen_start(view.n, CREWELMARSH_MAX_LIMIT, EDITION, view.matrix, view.n * view.n, view.work, view.n,
                                       view.result, view.n + view.n * view.n);
}

/* A few steps, if any are left; how many were done. A refusal ends them, and stays in the record. */
static size_t view_steps(size_t most)
{
    size_t steps = 0;
    for (; steps < most && crewelmarsh_eigen_goes_on(view.run); steps++)
        view.run = crewelmarsh_eigen_step(view.run, view.work, view.n, view.result, view.n + view.n * view.n);
    return steps;
}

/* The rest of the run, and the one call beside it. A refusal is an end like any other: the viewer would go without its picture. */
int view_end(void)
{
    size_t n = view.n, len = n + n * n;
    double *work, *result;
    struct crewelmarsh_answer one;
    int same;
    if (view.matrix == NULL)
        return 1; /* no tile was decoded */
    work = room(n, sizeof *work);
    result = room(len, sizeof *result);
    view_steps(CREWELMARSH_MAX_LIMIT * n);
    view.run = crewelmarsh_eigen_finish(view.run, view.work, n, view.result, len);
    one = crewelmarsh_symmetric_eigen(n, CREWELMARSH_MAX_LIMIT, EDITION, view.matrix, n * n, work, n, result, len);
    same = memcmp(&one, &view.run.answer, sizeof one) == 0 && memcmp(result, view.result, len * sizeof *result) == 0;
    printf("  viewer: %s, %s\n", crewelmarsh_text(view.run.answer.answer), same ? "bits as by the one call" : "NOT as by the one call");
    printf("  openjpeg: the viewer's run has %zu passes; %zu steps were made between tiles\n", view.run.answer.count, view.meanwhile);
    free(work);
    free(result);
    free(view.matrix);
    free(view.work);
    free(view.result);
    view.matrix = NULL;
    return same;
}

/* ---- a tile */

/*
 * The inverse for a tile, from its own block where it has one, else from the image's; NULL, or why there is none. A block that is
 * refused has no part, so that the lookup gives the image's inverse for a tile whose own block is damaged; and a part of so many
 * numbers may be of another shape. It says both, and both are tested.
 */
static const char *find_inverse(const struct source *in, struct bytes own, double *inverse, size_t len)
{
    struct crewelmarsh_block_part part =
        crewelmarsh_block_find(own.start, own.length, in->block.start, in->block.length, CREWELMARSH_INVERSE);
    if (own.length > 0 && part.own_answer != CREWELMARSH_DONE)
        return crewelmarsh_text(part.own_answer);
    if (part.block == 0)
        return "no block has an inverse";
    if (part.rows != in->components || part.columns != in->out->bands)
        return "its inverse has another shape";
    must(crewelmarsh_block_copy(own.start, own.length, in->block.start, in->block.length, CREWELMARSH_INVERSE, inverse, len),
         "block_copy");
    for (size_t i = 0; i < len; i++)
        if (!isfinite(inverse[i]))
            return "a number of its inverse is not finite";
    return NULL;
}

/* The components of a tile, by OpenJPEG; NULL, or why there are none. */
static const char *read_components(const struct source *in, size_t tile, const int32_t **planes)
{
    if (!opj_get_decoded_tile(in->codec, in->stream, in->image, (OPJ_UINT32)tile))
        return "OpenJPEG can't decode it";
    for (size_t c = 0; c < in->components; c++) {
        const opj_image_comp_t *part = &in->image->comps[c];
        if (part->data == NULL || part->w != in->tile || part->h != in->tile)
            return "a component has another size";
        planes[c] = part->data;
    }
    return NULL;
}

/* Bands that were coded as they are. */
static void take_bands(const struct source *in, const int32_t *const *planes, struct area a)
{
    size_t side = in->out->side;
    for (size_t b = 0; b < in->components; b++)
        for (size_t y = 0; y < a.side; y++)
            for (size_t x = 0; x < a.side; x++) {
                int32_t v = planes[b][y * a.side + x];
                in->out->cube[(b * side + a.y + y) * side + a.x + x] = (int16_t)(v < INT16_MIN ? INT16_MIN : v > INT16_MAX ? INT16_MAX : v);
            }
}

/* Decodes a tile with what its box held, means and a block that may be empty; with nothing where there are no boxes. */
static void decode_tile(struct source *in, size_t tile, struct bytes held)
{
    size_t n = in->out->bands, k = in->components, len = held.start ? crewelmarsh_matrix_len(n, k) : 0;
    struct area a = tile_area(in->out->side, in->tile, tile);
    double *inverse = room(len, sizeof *inverse);
    int16_t *means = room(n, sizeof *means);
    const int32_t **planes = room(k, sizeof *planes);
    const char *why = read_components(in, tile, planes);
    if (why == NULL && held.start) {
        struct undo undo = {n, k, in->fraction, inverse, means};
        struct bytes own = {held.start + 2 * n, held.length - 2 * n};
        for (size_t b = 0; b < n; b++)
            means[b] = (int16_t)get(held.start + 2 * b, 2);
        why = find_inverse(in, own, inverse, len);
        if (why == NULL) {
            inverse_area(&undo, planes, a.side, in->out->cube, in->out->side, a);
            in->out->sums[tile] = undo_sum(&undo);
        }
    } else if (why == NULL) {
        take_bands(in, planes, a);
    }
    in->out->state[tile] = why ? LEFT_OUT : DECODED;
    if (why)
        printf("  left out: tile %zu of image %zu: %s\n", tile, in->owner, why);
    else if (view.matrix == NULL)
        view_start(in->out, a);
    if (view.matrix)
        view.meanwhile += view_steps(8);
    free(inverse);
    free(means);
    free(planes);
}

/* ---- a file */

static void say(const char *message, void *unused)
{
    (void)unused;
    fprintf(stderr, "openjpeg: %s", message);
}

static void open_source(struct source *in, const char *name, size_t owner, struct decoded *out)
{
    opj_dparameters_t options;
    opj_codestream_info_v2_t *info = NULL;
    memset(in, 0, sizeof *in);
    memset(out, 0, sizeof *out);
    in->owner = owner;
    in->out = out;
    in->file = read_file(name);
    in->codec = opj_create_decompress(OPJ_CODEC_JP2);
    in->stream = opj_stream_create_default_file_stream(name, OPJ_TRUE);
    opj_set_default_decoder_parameters(&options);
    if (in->codec) /* of errors alone: it warns of all that stands behind a codestream, at every tile */
        opj_set_error_handler(in->codec, say, NULL);
    if (!in->codec || !in->stream || !opj_setup_decoder(in->codec, &options) || !opj_read_header(in->stream, in->codec, &in->image) ||
        (info = opj_get_cstr_info(in->codec)) == NULL)
        fail("OpenJPEG can't read it", name);
    else {
        out->side = in->image->x1;
        in->tile = info->tdx;
        in->components = in->image->numcomps;
        if (in->image->x0 || in->image->y0 || in->image->y1 != out->side || info->tdy != in->tile || info->tx0 || info->ty0 ||
            in->tile == 0 || out->side % in->tile != 0 || in->components > CREWELMARSH_MAX_DIMENSION)
            fail("is not of this example's making", name);
        opj_destroy_cstr_info(&info);
    }
    out->tiles = tile_count(out->side, in->tile);
    if (out->tiles >= THE_IMAGE)
        fail("has too many tiles", name);
    out->sums = room(out->tiles, sizeof *out->sums);
    out->state = room(out->tiles, sizeof *out->state);
}

static void close_source(struct source *in)
{
    opj_stream_destroy(in->stream);
    opj_destroy_codec(in->codec);
    opj_image_destroy(in->image);
    free(in->file.start);
}

/* The number of bands is known: room for their samples. */
static void set_bands(struct source *in, size_t bands)
{
    in->out->bands = bands;
    in->out->cube = room(bands * in->out->side * in->out->side, sizeof *in->out->cube);
}

/* The image's item; NULL, or why it can't be used. */
static const char *take_image(struct source *in, struct bytes block, size_t fraction)
{
    struct crewelmarsh_block shape = crewelmarsh_block_check(block.start, block.length);
    if (in->block.start)
        return "a second one";
    if (shape.answer != CREWELMARSH_DONE)
        return crewelmarsh_text(shape.answer);
    if (shape.rows != in->components || shape.columns < shape.rows || fraction > 6)
        return "it doesn't belong to this codestream";
    in->block = block;
    in->fraction = fraction;
    set_bands(in, shape.columns);
    return NULL;
}

/* ---- two files over one store */

static size_t waited, at_once; /* tiles that were put into the store, and those that found no room in it */

/* Decodes what is due, as far as it is held; at the end of the file also what is held behind a tile that has not come. */
static void decode_due(struct source *in, int at_end)
{
    for (; in->due < in->out->tiles; in->due++) {
        struct crewelmarsh_answer length;
        struct bytes held;
        if (in->out->state[in->due] != NOT_YET)
            continue;
        length = crewelmarsh_store_length(in->owner, STORE, (uint16_t)in->due);
        if (length.answer == CREWELMARSH_STORE_MISSING && !at_end)
            return; /* it has not come yet */
        if (length.answer == CREWELMARSH_STORE_MISSING) {
            printf("  left out: tile %zu of image %zu: it has not come\n", in->due, in->owner);
            in->out->state[in->due] = LEFT_OUT;
            continue;
        }
        must(length, "store_length");
        held.length = length.count;
        held.start = room(held.length, 1);
        must(crewelmarsh_store_fetch(in->owner, STORE, (uint16_t)in->due, held.start, held.length), "store_fetch");
        must(crewelmarsh_store_drop(in->owner, STORE, (uint16_t)in->due), "store_drop");
        decode_tile(in, in->due, held);
        free(held.start);
    }
}

/* What a tile needs has come: NULL, or why it can't be used. */
static const char *take_tile(struct source *in, size_t tile, struct bytes held)
{
    struct crewelmarsh_answer got;
    if (in->block.start == NULL)
        return "the image's item has not come";
    if (tile >= in->out->tiles)
        return "there is no such tile";
    if (held.length < 2 * in->out->bands)
        return "its means are cut short";
    if (in->out->state[tile] != NOT_YET)
        return "it came before";
    got = crewelmarsh_store_put(in->owner, STORE, (uint16_t)tile, held.start, held.length);
    if (got.answer == CREWELMARSH_STORE_HELD)
        return "it came before";
    if (got.answer == CREWELMARSH_STORE_FULL || got.answer == CREWELMARSH_STORE_ENTRIES) {
        decode_tile(in, tile, held); /* out of order, since it can't wait */
        at_once++;
    } else {
        must(got, "store_put");
        waited++;
    }
    decode_due(in, 0);
    return NULL;
}

/* The next item of a file, if there is one. */
static int take_item(struct source *in)
{
    struct bytes item = next_item(in->file, &in->at), rest;
    const char *why;
    size_t tile;
    if (item.start == NULL)
        return 0;
    in->boxes++;
    tile = get(item.start, 2);
    rest.start = item.start + ITEM_HEAD;
    rest.length = item.length - ITEM_HEAD;
    why = tile == THE_IMAGE ? take_image(in, rest, item.start[3]) : take_tile(in, tile, rest);
    if (why && tile == THE_IMAGE)
        printf("  left out: the transform of image %zu: %s\n", in->owner, why);
    else if (why)
        printf("  left out: a box for tile %zu of image %zu: %s\n", tile, in->owner, why);
    return 1;
}

void decode(const char *const *names, struct decoded *out)
{
    struct source in[IMAGES];
    struct bytes nothing = {NULL, 0};
    int left = 1;
    must(crewelmarsh_store_setup(sizeof bytes / 2, sizeof bytes / 2, STORE), "store_setup");
    waited = at_once = 0;
    for (size_t i = 0; i < IMAGES; i++)
        open_source(&in[i], names[i], i, &out[i]);
    while (left) {
        left = 0;
        for (size_t i = 0; i < IMAGES; i++)
            left += take_item(&in[i]);
    }
    for (size_t i = 0; i < IMAGES; i++) {
        if (in[i].boxes == 0) {
            set_bands(&in[i], in[i].components);
            for (size_t tile = 0; tile < out[i].tiles; tile++)
                decode_tile(&in[i], tile, nothing);
        }
        decode_due(&in[i], 1);
        close_source(&in[i]);
    }
    if (waited + at_once > 0)
        printf("  store: %zu tiles waited in it, %zu found no room and were decoded at once\n", waited, at_once);
}
