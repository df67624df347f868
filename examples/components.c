/*
 * Keeping 8 of 256 components: planes of 256 bands, their covariance, its 8 leading pairs by a Lanczos run, what they keep of the samples,
 * and the 8 greatest values of symmetric_eigen beside them.
 */
#include <stdio.h>
#include "crewelmarsh.h"

enum { BANDS = 256, SAMPLES = 512, KEPT = 8, SOURCES = 12 };

/* The planes: sample s of band b is at b * SAMPLES + s. */
static int16_t planes[BANDS * SAMPLES];
static double covariance[BANDS * BANDS], start[BANDS];
static double work[CREWELMARSH_LANCZOS_WORK_LEN(BANDS, KEPT)], pairs[CREWELMARSH_LANCZOS_ANSWER_LEN(BANDS, KEPT)];
static double all_work[BANDS], all[BANDS + BANDS * BANDS];

static int done(const char *call, struct crewelmarsh_answer a)
{
    if (a.answer == CREWELMARSH_DONE)
        return 1;
    printf("%s: answer %zu (%s), place %zu, index %zu, count %zu\n", call, a.answer, crewelmarsh_text(a.answer),
           a.place, a.index, a.count);
    return 0;
}

/* Whole numbers -50 to 49, the same in every run. */
static int next_number(void)
{
    static unsigned state = 1;
    state = (state * 1103515245u + 12345u) & 0x7fffffffu;
    return (int)((state >> 16) % 100) - 50;
}

/* A few materials, each with a spectrum of its own and weaker than the one before, and noise. */
static void make_samples(void)
{
    static int spectrum[SOURCES][BANDS];
    int s, b, m;
    for (m = 0; m < SOURCES; m++)
        for (b = 0; b < BANDS; b++)
            spectrum[m][b] = next_number() / (m + 1);
    for (s = 0; s < SAMPLES; s++) {
        int amount[SOURCES];
        for (m = 0; m < SOURCES; m++)
            amount[m] = next_number();
        for (b = 0; b < BANDS; b++) {
            int sum = next_number();
            for (m = 0; m < SOURCES; m++)
                sum += amount[m] * spectrum[m][b];
            planes[b * SAMPLES + s] = (int16_t)sum;
        }
    }
}

/* How much of the samples' variance the rows kept have, in percent: the sum of the values over the trace. */
static double share(void)
{
    double kept = 0, trace = 0;
    int i;
    for (i = 0; i < KEPT; i++)
        kept += pairs[i];
    for (i = 0; i < BANDS; i++)
        trace += covariance[i * BANDS + i];
    return 100 * kept / trace;
}

/* The largest difference of the 8 values to symmetric_eigen's, as a part of the greatest; a NaN where one is. */
static double apart(void)
{
    double most = 0;
    int i;
    for (i = 0; i < KEPT; i++) {
        double d = pairs[i] - all[BANDS - 1 - i];
        d = d < 0 ? -d : d;
        if (d != d)
            return d;
        if (d > most)
            most = d;
    }
    return most / pairs[0];
}

int main(void)
{
    struct crewelmarsh_answer a;
    int good, i;
    make_samples();
    for (i = 0; i < BANDS; i++)
        start[i] = next_number(); /* the same for all tiles */
    a = crewelmarsh_covariance(BANDS, SAMPLES, planes, BANDS * SAMPLES, covariance, BANDS * BANDS);
    if (!done("covariance", a))
        return 1;
    a = crewelmarsh_lanczos(BANDS, KEPT, CREWELMARSH_MAX_LIMIT, CREWELMARSH_EDITION_1, covariance, BANDS * BANDS, start, BANDS,
                            work, sizeof work / sizeof *work, pairs, sizeof pairs / sizeof *pairs);
    if (!done("lanczos", a))
        return 1;
    printf("lanczos: %zu of %d pairs, %zu inner passes\n", a.place, BANDS, a.count);
    printf("components kept: %d, with %.2f %% of the variance\n", KEPT, share());
    a = crewelmarsh_symmetric_eigen(BANDS, CREWELMARSH_MAX_LIMIT, CREWELMARSH_EDITION_1, covariance, BANDS * BANDS,
                                    all_work, BANDS, all, BANDS + BANDS * BANDS);
    if (!done("symmetric_eigen", a))
        return 1;
    good = apart() <= 1e-8;
    printf("values: %s symmetric_eigen's\n", good ? "within 1e-8 of the greatest of" : "NOT near");
    printf("%s\n", good ? "good" : "NOT good");
    return !good;
}
