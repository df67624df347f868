/*
 * The encoder: a cube into a JP2 file with boxes behind the codestream. The tiles' boxes are written out of order, as a stream may
 * bring them.
 */
#include <stdio.h>
#include <stdlib.h>
#include <string.h>
#include "spectral.h"

/* A tile by a basis: components into the planes; the sum, and what comes out of them, into `out`. */
static void code_tile(const struct plan *plan, const int16_t *cube, size_t tile, const struct basis *basis, int16_t *means,
                      int32_t **planes, struct coded *out)
{
    struct area a = tile_area(plan->side, plan->tile, tile);
    struct undo undo = {plan->bands, plan->kept, plan->fraction, basis->inverse, means};
    const int32_t **corner = room(plan->kept, sizeof *corner);
    area_means(cube, plan->bands, plan->side, a, means);
    forward_area(plan, cube, a, basis->forward, means, planes);
    for (size_t c = 0; c < plan->kept; c++)
        corner[c] = planes[c] + a.y * plan->side + a.x;
    inverse_area(&undo, corner, plan->side, out->expected, plan->side, a);
    out->sums[tile] = undo_sum(&undo);
    free(corner);
}

/*
 * All tiles and their boxes; how many boxes there are. 0: the image has no transform, and nothing is changed. A tile for which own
 * is wanted and none is found is coded by the image's.
 */
static size_t transform(const struct plan *plan, enum scheme scheme, size_t image, const int16_t *cube, int32_t **planes,
                        struct bytes *boxes, struct coded *out)
{
    struct crewelmarsh_tally tally = CREWELMARSH_TALLY_EMPTY;
    struct area all = {0, 0, plan->side};
    struct basis whole = new_basis(plan), own = new_basis(plan);
    int16_t *means = room(plan->bands, sizeof *means);
    size_t tiles = tile_count(plan->side, plan->tile), count = 0, owns = 0;
    if (derive(plan, cube, all, &whole, &tally)) {
        boxes[count++] = make_box(plan, THE_IMAGE, NULL, &whole);
        for (size_t i = 0; i < tiles; i++) {
            size_t tile = (i * 7 + 5) % tiles; /* tiles is a power of 4, so that each comes once */
            int is_own = scheme == OWN && derive(plan, cube, tile_area(plan->side, plan->tile, tile), &own, &tally);
            code_tile(plan, cube, tile, is_own ? &own : &whole, means, planes, out);
            boxes[count++] = make_box(plan, tile, means, is_own ? &own : NULL);
            owns += is_own != 0;
            if (image == 0 && tile == plan->spoilt && (is_own || plan->lost)) {
                out->spoilt = tile;
                if (plan->lost)
                    free(boxes[--count].start);
                else
                    boxes[count - 1].start[BOX_HEAD + ITEM_HEAD + 2 * plan->bands] ^= 0x80; /* the first byte of the block: rows */
            }
        }
        printf("  transform of image %zu: %zu tiles with one of their own, %zu with the image's\n", image, owns, tiles - owns);
    } else {
        printf("  transform of image %zu: none, so that its bands are coded as they are\n", image);
    }
    tally_line(&tally);
    free_basis(&whole);
    free_basis(&own);
    free(means);
    return count;
}

/* What each component costs by itself, by 5-3 and in one tile. */
static void component_lines(const struct plan *plan, int32_t *const *planes, size_t count)
{
    char name[600];
    snprintf(name, sizeof name, "%s/component.jp2", plan->folder);
    for (size_t c = 0; c < count; c++) {
        struct bytes file;
        write_jp2(name, planes + c, 1, plan->side, plan->side, 0);
        file = read_file(name);
        printf("  openjpeg: component %zu, %.4f bits a sample\n", c, 8 * (double)file.length / (double)(plan->side * plan->side));
        free(file.start);
    }
    remove(name);
}

struct coded encode(const struct plan *plan, enum scheme scheme, size_t image, const int16_t *cube, const char *name)
{
    size_t pixels = plan->side * plan->side, tiles = tile_count(plan->side, plan->tile), boxes = 0, planes_used = plan->bands;
    int32_t **planes = room(plan->bands, sizeof *planes);
    struct bytes *box = room(tiles + 1, sizeof *box), file;
    struct coded out = {0, 0, 0, NOWHERE, NULL, NULL};
    double most = plan->rate * (double)(plan->bands * pixels) / 8;
    out.sums = room(tiles, sizeof *out.sums);
    out.expected = room(plan->bands * pixels, sizeof *out.expected);
    for (size_t b = 0; b < plan->bands; b++)
        planes[b] = room(pixels, sizeof **planes);
    if (scheme != PLAIN)
        boxes = transform(plan, scheme, image, cube, planes, box, &out);
    if (boxes > 0) {
        out.transformed = 1;
        planes_used = plan->kept;
    } else {
        memcpy(out.expected, cube, plan->bands * pixels * sizeof *cube);
        for (size_t i = 0; i < plan->bands * pixels; i++)
            planes[i / pixels][i % pixels] = cube[i];
    }
    for (size_t i = 0; i < boxes; i++)
        out.boxes += box[i].length;
    if (most > 0 && most < (double)out.boxes + 1000)
        fail("the boxes alone are longer than the file may be", name);
    write_jp2(name, planes, planes_used, plan->side, plan->tile, most > 0 ? most - (double)out.boxes : 0);
    for (size_t i = 0; i < boxes; i++) {
        append_file(name, box[i].start, box[i].length);
        free(box[i].start);
    }
    file = read_file(name);
    out.bytes = file.length;
    if (plan->picture && image == 0)
        component_lines(plan, planes, planes_used);
    for (size_t b = 0; b < plan->bands; b++)
        free(planes[b]);
    free(planes);
    free(box);
    free(file.start);
    return out;
}
