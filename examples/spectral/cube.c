/*
 * The images: six spectra mixed smoothly in space, a gain and a dark level for each band, shot noise and read noise. Only + - * /,
 * roots and rounding are used, no sin or exp of a C library, so that the samples are the same on every machine.
 */
#include <math.h>
#include <stdlib.h>
#include "spectral.h"

enum { SPECTRA = 6, TERMS = 6 };

static double uniform(uint64_t *state) /* xorshift64*, 0 to 1 */
{
    *state ^= *state >> 12;
    *state ^= *state << 25;
    *state ^= *state >> 27;
    return (double)((*state * 2685821657736338717u) >> 11) / 9007199254740992.0;
}

static double normal(uint64_t *state)
{
    double sum = -6;
    for (int i = 0; i < 12; i++)
        sum += uniform(state);
    return sum;
}

/* Much like sin(2 pi turns), by parabolas. */
static double wave(double turns)
{
    double t = turns - floor(turns);
    return t < 0.5 ? 16 * t * (0.5 - t) : 16 * (t - 0.5) * (t - 1);
}

/* Much like e^x: (1 + x / 64)^64. */
static double grown(double x)
{
    double y = 1 + x / 64;
    if (y <= 0)
        return 0;
    for (int i = 0; i < 6; i++)
        y *= y;
    return y;
}

/* How much of each spectrum a pixel has; together 1. */
static void make_shares(double (*share)[SPECTRA], size_t side, uint64_t *state)
{
    double across[SPECTRA][TERMS], down[SPECTRA][TERMS], phase[SPECTRA][TERMS];
    for (int s = 0; s < SPECTRA; s++)
        for (int i = 0; i < TERMS; i++) {
            across[s][i] = (uniform(state) - 0.5) * (4 << i);
            down[s][i] = (uniform(state) - 0.5) * (4 << i);
            phase[s][i] = uniform(state);
        }
    for (size_t p = 0; p < side * side; p++) {
        double x = (double)(p % side) / 256, y = (double)(p / side) / 256, sum = 0;
        for (int s = 0; s < SPECTRA; s++) {
            double g = 0;
            for (int i = 0; i < TERMS; i++)
                g += 3.75 / (1 + i) * wave(across[s][i] * x + down[s][i] * y + phase[s][i]);
            share[p][s] = grown(g);
            sum += share[p][s];
        }
        for (int s = 0; s < SPECTRA; s++)
            share[p][s] /= sum;
    }
}

int16_t *make_cube(size_t bands, size_t side, uint64_t seed)
{
    uint64_t state = seed * 0x9E3779B97F4A7C15u + 1;
    double centre[SPECTRA][TERMS], width[SPECTRA][TERMS], height[SPECTRA][TERMS];
    size_t pixels = side * side;
    int16_t *cube = room(bands * pixels, sizeof *cube);
    double(*share)[SPECTRA] = room(pixels, sizeof *share);
    for (int s = 0; s < SPECTRA; s++)
        for (int i = 0; i < TERMS; i++) {
            centre[s][i] = uniform(&state);
            width[s][i] = 0.03 + 0.25 * uniform(&state);
            height[s][i] = 0.1 + 0.4 * uniform(&state);
        }
    make_shares(share, side, &state);
    for (size_t b = 0; b < bands; b++) {
        double at = (double)b / (double)bands, spectrum[SPECTRA];
        double gain = 4500 * (0.6 + uniform(&state)) * (0.4 + wave(at / 2)), dark = 100 + 60 * uniform(&state);
        for (int s = 0; s < SPECTRA; s++) {
            spectrum[s] = 0.15;
            for (int i = 0; i < TERMS; i++) {
                double d = (at - centre[s][i]) / width[s][i];
                spectrum[s] += height[s][i] * grown(-d * d);
            }
        }
        for (size_t p = 0; p < pixels; p++) {
            double v = dark;
            for (int s = 0; s < SPECTRA; s++)
                v += gain * share[p][s] * spectrum[s];
            v += normal(&state) * sqrt(4 + v / 40);
            cube[b * pixels + p] = (int16_t)(v < 0 ? 0 : v > PEAK ? PEAK : lrint(v));
        }
    }
    free(share);
    return cube;
}

void make_start(double *start, size_t count)
{
    uint64_t state = 1;
    for (size_t i = 0; i < count; i++)
        start[i] = uniform(&state) - 0.5;
}
