/* crewelmarsh_covariance through the archive against 128-bit integers: planes chosen by hand, then random ones (arguments: seed,
   number of cases). The entry here is the sum of (N * x - sum of the x) * y: another formula than the definition's, and no part of
   it is rounded or cut. Compares the four numbers and every number of the matrix; comes back with 1 where any differs. It declares what
   it calls, so that it builds with no system header. */

typedef unsigned long word; /* 64 bits, as size_t, on every x86-64 Linux */
typedef __int128 wide;

int printf(const char *, ...);
void *malloc(word);
void *memcpy(void *, const void *, word);

struct answer {
    word answer, place, index, count;
};

struct answer crewelmarsh_covariance_abi5(word n, word count, const short *samples, word samples_len, double *matrix, word matrix_len);

enum { BANDS = 256, SAMPLES = 65536 };

static short *planes;
static double *matrix, *before;
static wide *entries;

static word state;

static word draw(word bound) {
    state ^= state << 13;
    state ^= state >> 7;
    state ^= state << 17;
    return (state >> 11) % bound;
}

/* ---- what must come */

static wide sum_of(word count, const short *x) {
    wide sum = 0;
    for (word k = 0; k < count; k++)
        sum += x[k];
    return sum;
}

static wide entry_of(word count, const short *x, const short *y) {
    wide sum = sum_of(count, x), entry = 0;
    for (word k = 0; k < count; k++)
        entry += ((wide)count * x[k] - sum) * y[k];
    return entry;
}

static struct answer wanted(word n, word count, word samples_len, word matrix_len) {
    struct answer a = {0, 0, 0, 0};
    if (n > BANDS) {
        a.answer = 1;
    } else if (count < 1 || count > SAMPLES) {
        a.answer = 25;
    } else if (samples_len != n * count) {
        a.answer = 6;
    } else if (matrix_len != n * n) {
        a.answer = 6;
        a.place = 1;
    } else {
        for (word x = 0; x < n; x++)
            for (word y = 0; y < n; y++) {
                wide z = y < x ? entries[y * n + x] : entry_of(count, planes + x * count, planes + y * count);
                entries[x * n + y] = z;
                if (z > (wide)1 << 53 || z < -((wide)1 << 53)) {
                    a.answer = 26;
                    a.place = x * n + y;
                    return a;
                }
            }
    }
    return a;
}

/* ---- what came */

static word bits(double x) {
    word w;
    memcpy(&w, &x, sizeof w);
    return w;
}

/* Whether x is the whole number z and, for 0, +0.0. A cast back is exact, since |z| is at most 2^53. */
static int is_whole(double x, wide z) {
    if (z == 0)
        return bits(x) == 0;
    return x >= -9007199254740992.0 && x <= 9007199254740992.0 && (wide)(long)x == z && (double)(long)x == x;
}

static word cases, failed, by_answer[27];

static int left_right(word answer, word matrix_len) {
    for (word k = 0; k < matrix_len; k++) {
        int right = answer == 0 ? is_whole(matrix[k], entries[k]) : answer == 26 ? bits(matrix[k]) == 0 : bits(matrix[k]) == bits(before[k]);
        if (!right)
            return 0;
    }
    return 1;
}

static void compare(const char *what, word n, word count, word samples_len, word matrix_len) {
    for (word k = 0; k < matrix_len; k++)
        matrix[k] = before[k] = (double)k - 7.5;
    struct answer w = wanted(n, count, samples_len, matrix_len);
    struct answer a = crewelmarsh_covariance_abi5(n, count, planes, samples_len, matrix, matrix_len);
    int good = a.answer == w.answer && a.place == w.place && a.index == 0 && a.count == 0 && left_right(w.answer, matrix_len);
    cases++;
    by_answer[w.answer]++;
    if (good)
        return;
    failed++;
    printf("DIFFERS: %s, n %lu, N %lu: %lu %lu %lu %lu came, %lu %lu 0 0 wanted\n", what, n, count, a.answer, a.place, a.index,
           a.count, w.answer, w.place);
}

static void compare_sized(const char *what, word n, word count) { compare(what, n, count, n * count, n * n); }

/* ---- planes */

enum { LEAST, MOST, ALTERNATING, ONE_APART, RAMP, FULL, BITS_12, BITS_8, TWO_VALUES, KINDS };

static const char *const kinds[] = {"all -32768", "all 32767", "alternating", "one sample apart", "ramp", "16 bits", "12 bits", "8 bits", "two values"};

static short sample(int kind, word band, word k) {
    switch (kind) {
    case LEAST: return -32768;
    case MOST: return 32767;
    case ALTERNATING: return (k + band) % 2 ? 32767 : -32768;
    case ONE_APART: return k == band % 3 ? 32767 : -32768;
    case RAMP: return (short)((long)(k * (band + 1) % 65536) - 32768);
    case FULL: return (short)((long)draw(65536) - 32768);
    case BITS_12: return (short)((long)draw(4096) - 2048);
    case BITS_8: return (short)draw(256);
    default: return draw(2) ? 32767 : -32768;
    }
}

static void fill(int kind, word n, word count) {
    for (word x = 0; x < n; x++)
        for (word k = 0; k < count; k++)
            planes[x * count + k] = sample(kind, x, k);
}

static void by_hand(void) {
    static const word counts[] = {1, 2, 3, 2896, 2897, 4096, 65535, 65536};
    for (int kind = 0; kind < KINDS; kind++)
        for (word c = 0; c < sizeof counts / sizeof counts[0]; c++)
            for (word n = 1; n <= 5; n += 2) {
                fill(kind, n, counts[c]);
                compare_sized(kinds[kind], n, counts[c]);
            }
    for (int kind = 0; kind < KINDS; kind++) {
        fill(kind, BANDS, 1);
        compare_sized(kinds[kind], BANDS, 1);
        fill(kind, BANDS, 300);
        compare_sized(kinds[kind], BANDS, 300);
    }
    fill(BITS_8, BANDS, SAMPLES);
    compare_sized("256 bands of 65,536 samples", BANDS, SAMPLES);
    for (word n = 255; n <= 258; n++)
        for (word count = 0; count <= 2; count++)
            compare("sizes", n, count, n * count, n * n);
    for (word count = 65535; count <= 65538; count++)
        compare("sizes", 1, count, count, 1);
}

static void at_random(word many) {
    for (word i = 0; i < many; i++) {
        word n = draw(draw(8) ? 6 : 20), count = draw(draw(8) ? 200 : 8000);
        int kind = (int)draw(KINDS);
        fill(kind, n, count);
        if (draw(10) == 0)
            compare("wrong length", n, count, n * count + draw(3), n * n + draw(3));
        else
            compare_sized(kinds[kind], n, count);
    }
}

static word number(const char *text) {
    word n = 0;
    for (; *text >= '0' && *text <= '9'; text++)
        n = 10 * n + (word)(*text - '0');
    return n;
}

int main(int argc, char **argv) {
    planes = malloc(sizeof *planes * BANDS * SAMPLES + 1024);
    matrix = malloc(sizeof *matrix * 2 * BANDS * BANDS);
    before = malloc(sizeof *before * 2 * BANDS * BANDS);
    entries = malloc(sizeof *entries * BANDS * BANDS);
    state = argc > 1 ? number(argv[1]) * 2654435761u + 1 : 1;
    by_hand();
    at_random(argc > 2 ? number(argv[2]) : 1000);
    printf("covariance: %lu calls against 128-bit integers", cases);
    for (word a = 0; a < 27; a++)
        if (by_answer[a])
            printf(", %lu with answer %lu", by_answer[a], a);
    printf("; %lu differ\n", failed);
    return failed != 0;
}
