/*
 * A hyperspectral codec over OpenJPEG and Crewelmarsh: the bands of an image are turned into principal components (Karhunen-Loeve),
 * the components are coded as JPEG 2000, and the transform travels in uuid boxes behind the codestream. Two images are coded, then
 * decoded side by side, and what comes out is looked at.
 *
 *     spectral [option ..] [scheme ..]
 *
 *     plain  the bands as they are           -b 16   bands, 1 to 256
 *     main   one transform for the image     -s 128  side of the image, a power of two, 32 to 512
 *     own    one for each tile               -t 32   side of a tile, a power of two, 32 to the image's
 *     (all three if none is named)           -k 16   components kept; fewer than bands are found by lanczos
 *                                            -r 0    bits a sample, by 9-7; 0: as many as it takes, by 5-3
 *                                            -f 0    bits behind the point of a component, 0 to 6
 *                                            -l 60   QL passes for any one value, 1 to 60
 *                                            -d .    folder for the files
 *                                            -x T    spoils the own block of tile T of image 0
 *                                            -m T    leaves its box away
 *                                            -p      writes the cubes and the bits of each component, for picture.py
 *
 * Status 0 where everything is as it must be:
 *
 *     by 5-3 each sample is what the encoder expects (of plain: the sample itself), and with all components kept no further from what it
 *     was than rounding takes it
 *     by 9-7 as well as by 5-3 the decoder has the encoder's means and inverse to the bit
 *     the run in steps ends as the one call does
 *     no tile is left out but the one that was spoilt or left away
 *
 * Lines with "openjpeg:" have figures that depend on it and are not compared with anything; all others are the same everywhere.
 */
#include <math.h>
#include <stdio.h>
#include <stdlib.h>
#include <string.h>
#include "spectral.h"

static const char *const names[SCHEMES] = {"plain", "main", "own"};

void fail(const char *what, const char *which)
{
    fflush(stdout);
    fprintf(stderr, "spectral: %s%s%s\n", which, *which ? ": " : "", what);
    exit(1);
}

void must(struct crewelmarsh_answer a, const char *call)
{
    if (a.answer == CREWELMARSH_DONE)
        return;
    fprintf(stderr, "spectral: answer %zu, place %zu, index %zu, count %zu\n", a.answer, a.place, a.index, a.count);
    fail(crewelmarsh_text(a.answer), call);
}

void *room(size_t count, size_t size)
{
    void *p = calloc(count ? count : 1, size);
    if (p == NULL)
        fail("there is no memory", "");
    return p;
}

/* ---- what came out */

/* How many samples of a tile differ by more than that. */
static size_t differing(const struct plan *plan, size_t tile, const int16_t *a, const int16_t *b, double by)
{
    struct area at = tile_area(plan->side, plan->tile, tile);
    size_t count = 0;
    for (size_t band = 0; band < plan->bands; band++)
        for (size_t y = at.y; y < at.y + at.side; y++)
            for (size_t x = at.x; x < at.x + at.side; x++) {
                size_t i = (band * plan->side + y) * plan->side + x;
                count += fabs((double)a[i] - b[i]) > by;
            }
    return count;
}

/*
 * How far a sample may be from what it was where all components are kept and none loses anything but its rounding: each is off by half of
 * 2^-fraction, a row of the inverse has length 1, so that its numbers sum up to root(n) at the most, and the sample is rounded too.
 */
static double rounding(const struct plan *plan)
{
    return 0.5 * sqrt((double)plan->bands) / (double)(1 << plan->fraction) + 0.5 + 1e-6;
}

/* How many tiles of an image are not what they must be; a line for each. */
static size_t wrong_tiles(const struct plan *plan, size_t image, const int16_t *cube, const struct coded *coded, const struct decoded *got)
{
    size_t wrong = 0;
    if (got->cube == NULL || got->bands != plan->bands || got->side != plan->side || got->tiles != tile_count(plan->side, plan->tile)) {
        printf("  WRONG: image %zu has another size\n", image);
        return 1;
    }
    for (size_t tile = 0; tile < got->tiles; tile++) {
        const char *what = NULL;
        if (tile == coded->spoilt)
            what = got->state[tile] == DECODED ? "was decoded by a box that was spoilt" : NULL;
        else if (got->state[tile] != DECODED)
            what = "was not decoded";
        else if (got->sums[tile] != coded->sums[tile])
            what = "has another transform";
        else if (plan->rate == 0 && differing(plan, tile, got->cube, coded->expected, 0) > 0)
            what = "has other samples";
        else if (plan->rate == 0 && plan->kept == plan->bands && differing(plan, tile, got->cube, cube, rounding(plan)) > 0)
            what = "is further from its samples than rounding takes it";
        if (what) {
            printf("  WRONG: tile %zu of image %zu %s\n", tile, image, what);
            wrong++;
        }
    }
    return wrong;
}

/* The bits of all transforms of an image, as one number. */
static uint64_t all_sums(const struct decoded *got)
{
    uint64_t sum = 0;
    for (size_t tile = 0; tile < got->tiles; tile++)
        sum = (sum ^ got->sums[tile]) * 1099511628211u;
    return sum;
}

static void write_cubes(const struct plan *plan, const char *scheme, const int16_t *before, const int16_t *after)
{
    char name[600];
    size_t count = plan->bands * plan->side * plan->side;
    FILE *f;
    snprintf(name, sizeof name, "%s/%s.raw", plan->folder, scheme);
    f = fopen(name, "wb");
    if (f == NULL || fwrite(before, sizeof *before, count, f) != count || fwrite(after, sizeof *after, count, f) != count || fclose(f) != 0)
        fail("can't be written", name);
}

/* Codes and decodes both images by a scheme; whether all is as it must be. */
static int run(const struct plan *plan, enum scheme scheme, int16_t *const *cubes)
{
    char name[IMAGES][600];
    const char *files[IMAGES];
    struct coded coded[IMAGES];
    struct decoded decoded[IMAGES];
    size_t wrong = 0, samples = plan->bands * plan->side * plan->side;
    double squares = 0, worst = 0, bytes = 0, boxes = 0;
    printf("%s: %zu bands of %zu by %zu, tiles of %zu", names[scheme], plan->bands, plan->side, plan->side, plan->tile);
    if (scheme != PLAIN)
        printf(", %zu components by %s", plan->kept, plan->kept < plan->bands ? "lanczos" : "symmetric_eigen");
    printf(plan->rate > 0 ? ", 9-7 at %g bits\n" : ", 5-3\n", plan->rate);
    for (size_t i = 0; i < IMAGES; i++) {
        snprintf(name[i], sizeof name[i], "%s/%s-%zu.jp2", plan->folder, names[scheme], i);
        files[i] = name[i];
        coded[i] = encode(plan, scheme, i, cubes[i], name[i]);
        bytes += (double)coded[i].bytes;
        boxes += (double)coded[i].boxes;
    }
    decode(files, decoded);
    wrong += !view_end();
    for (size_t i = 0; i < IMAGES; i++) {
        size_t w = wrong_tiles(plan, i, cubes[i], &coded[i], &decoded[i]);
        wrong += w;
        if (coded[i].transformed)
            printf("  transform of image %zu: all bits give %016llx\n", i, (unsigned long long)all_sums(&decoded[i]));
        for (size_t s = 0; w == 0 && s < samples; s++) {
            double d = fabs((double)cubes[i][s] - decoded[i].cube[s]);
            worst = d > worst ? d : worst;
            squares += d * d;
        }
    }
    if (wrong == 0 && coded[0].spoilt == NOWHERE) {
        double all = (double)(IMAGES * samples);
        printf("  openjpeg: %.0f bytes, %.0f of them boxes, %.4f bits a sample, ", bytes, boxes, 8 * bytes / all);
        if (squares > 0)
            printf("%.2f dB, largest error %.0f\n", 10 * log10((double)PEAK * PEAK * all / squares), worst);
        else
            printf("exact\n");
    }
    if (wrong == 0 && plan->picture)
        write_cubes(plan, names[scheme], cubes[0], decoded[0].cube);
    for (size_t i = 0; i < IMAGES; i++) {
        free(coded[i].sums);
        free(coded[i].expected);
        free(decoded[i].cube);
        free(decoded[i].sums);
        free(decoded[i].state);
    }
    printf("  %s\n", wrong ? "NOT good" : "good");
    return wrong == 0;
}

/* ---- what is asked for */

static void usage(const char *what)
{
    fprintf(stderr, "spectral: %s\nspectral [-b bands] [-s side] [-t tile] [-k kept] [-r bits] [-f fraction] [-l limit] [-d folder] [-x tile] [-m tile] [-p] "
                    "[plain] [main] [own]\n", what);
    exit(2);
}

/* A whole number from `least` to `most`. */
static size_t number(const char *text, size_t least, size_t most)
{
    char *end;
    unsigned long v = strtoul(text, &end, 10);
    if (*text < '0' || *text > '9' || *end != '\0' || v < least || v > most)
        usage("a number is out of range");
    return v;
}

static size_t power_of_two(size_t v)
{
    if ((v & (v - 1)) != 0)
        usage("a side is no power of two");
    return v;
}

static double bits(const char *text)
{
    char *end;
    double v = strtod(text, &end);
    if (end == text || *end != '\0' || !(v >= 0 && v <= 16))
        usage("the bits are out of range");
    return v;
}

/* The value of an option goes into the plan. */
static void set_option(struct plan *plan, char option, const char *value)
{
    switch (option) {
    case 'b': plan->bands = number(value, 1, CREWELMARSH_MAX_DIMENSION); break;
    case 's': plan->side = power_of_two(number(value, 32, 512)); break;
    case 't': plan->tile = power_of_two(number(value, 32, 512)); break;
    case 'k': plan->kept = number(value, 1, CREWELMARSH_MAX_DIMENSION); break;
    case 'r': plan->rate = bits(value); break;
    case 'f': plan->fraction = number(value, 0, 6); break;
    case 'l': plan->limit = number(value, CREWELMARSH_MIN_LIMIT, CREWELMARSH_MAX_LIMIT); break;
    case 'x':
    case 'm':
        plan->spoilt = number(value, 0, 255);
        plan->lost = option == 'm';
        break;
    case 'd':
        if (strlen(value) > 500)
            usage("the folder's name is too long");
        plan->folder = value;
        break;
    default: usage("there is no such option");
    }
}

int main(int argc, char **argv)
{
    struct plan plan = {16, 128, 32, 0, 0, CREWELMARSH_MAX_LIMIT, 0, NOWHERE, 0, 0, "."};
    int wanted[SCHEMES] = {0, 0, 0}, good = 1, named = 0;
    int16_t *cubes[IMAGES];
    for (int i = 1; i < argc; i++) {
        int scheme = PLAIN;
        while (scheme < SCHEMES && strcmp(argv[i], names[scheme]) != 0)
            scheme++;
        if (scheme < SCHEMES)
            named = wanted[scheme] = 1;
        else if (strcmp(argv[i], "-p") == 0)
            plan.picture = 1;
        else if (argv[i][0] != '-' || strlen(argv[i]) != 2 || i + 1 == argc)
            usage("an argument can't be read");
        else {
            set_option(&plan, argv[i][1], argv[i + 1]);
            i++;
        }
    }
    if (plan.kept == 0)
        plan.kept = plan.bands;
    if (plan.kept > plan.bands || plan.tile > plan.side)
        usage("more components than bands, or a tile larger than the image");
    if (plan.spoilt != NOWHERE && plan.spoilt >= tile_count(plan.side, plan.tile))
        usage("there is no such tile");
    for (size_t i = 0; i < IMAGES; i++)
        cubes[i] = make_cube(plan.bands, plan.side, i + 1);
    for (int scheme = PLAIN; scheme < SCHEMES; scheme++)
        if (wanted[scheme] || !named)
            good &= run(&plan, (enum scheme)scheme, cubes);
    for (size_t i = 0; i < IMAGES; i++)
        free(cubes[i]);
    return !good;
}
