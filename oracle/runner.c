/* Reads cases with their outcomes (README.md has the format) from standard input, calls the C entries with them, and
   compares the four numbers and every array afterwards, bit for bit. Writes how many agree, by function; comes back
   with 1 where any differs. It declares what it calls, so that it builds with no system header. */

typedef unsigned long word; /* 64 bits, as size_t, on every x86-64 Linux */

long read(int, void *, word);
int printf(const char *, ...);
void *memcpy(void *, const void *, word);

struct answer {
    word answer, place, index, count;
};

struct answer crewelmarsh_symmetric_eigen_abi5(word n, word limit, word edition, const double *, word, double *, word, double *, word);
struct answer crewelmarsh_svd_abi5(word m, word n, word want_u, word want_vt, word limit, const double *, word, double *, word,
                              double *, word);
struct answer crewelmarsh_solve_abi5(word m, word n, word has_u, word has_vt, double tolerance, const double *, word,
                                const double *, word, double *, word);
struct answer crewelmarsh_pseudo_inverse_abi5(word m, word n, word has_u, word has_vt, double tolerance, const double *, word,
                                         double *, word);
struct answer crewelmarsh_qr_q_abi5(word m, word k, const double *, word, double *, word);

struct extent {
    word start, length;
};

struct extent crewelmarsh_vt_row_extent_abi5(word m, word n, word has_u, word has_vt, word result_len, word j);

/* A run of symmetric_eigen in steps. */
struct run {
    word n, limit, edition, l, m;
    double f, tst1;
    word passes, count, stop, index;
    struct answer answer;
};

struct run crewelmarsh_eigen_start_abi5(word n, word limit, word edition, const double *, word, double *, word, double *, word);
struct run crewelmarsh_eigen_step_abi5(struct run, double *, word, double *, word);
struct run crewelmarsh_eigen_finish_abi5(struct run, double *, word, double *, word);

struct answer crewelmarsh_lanczos_abi5(word n, word k, word limit, word edition, const double *, word, const double *, word, double *, word,
                                       double *, word);

/* IN_STEPS is no function of the list: each case of EIGEN is run both ways. */
enum { EIGEN = 1, SVD, SOLVE, PSEUDO_INVERSE, QR_Q, VT_ROW, IN_STEPS, LANCZOS, FUNCTIONS };

static const char *const names[] = {"", "symmetric_eigen", "svd", "solve", "pseudo_inverse", "qr_q", "row of V^T", "symmetric_eigen in steps",
                                    "lanczos"};

/* ---- input */

static unsigned char bytes[1 << 16];
static word have, used;
static int cut; /* the input ended inside the list */

static word next(void) {
    word w = 0;
    for (int i = 0; i < 8; i++) {
        if (used == have) {
            long got = read(0, bytes, sizeof bytes);
            if (got <= 0) {
                cut = 1;
                return 0;
            }
            have = (word)got;
            used = 0;
        }
        w |= (word)bytes[used++] << 8 * i;
    }
    return w;
}

static word step(word x) {
    x ^= x << 13;
    x ^= x >> 7;
    return x ^ x << 17;
}

static word bits(double x) {
    word w;
    memcpy(&w, &x, 8);
    return w;
}

static double number(word w) {
    double x;
    memcpy(&x, &w, 8);
    return x;
}

static word canonical(word w) { return (w & ~0ul >> 1) > 0x7ff0000000000000ul ? 0x7ff8000000000000ul : w; }

static double made(word kind, word x, double scale) {
    double base = kind == 1   ? number(0x3ff0000000000000ul + (x >> 12)) - 1.5
                  : kind == 2 ? number(0x4330000000000000ul + (x >> 61)) - 4503599627370500.0
                              : number(x) - 0.0;
    return base * scale;
}

/* ---- arrays with guards of 8 words at both ends */

enum { GUARD = 8, ROOM = 300 * 300 * 3 + 1800 };
static const word guard = 0x4242424242424242ul;

struct array {
    double cells[GUARD + ROOM + GUARD];
    double copy[ROOM];
    word len;
};
static struct array a, b, work, result;

static double *start(struct array *x) { return x->cells + GUARD; }

static void lay(struct array *x, word len) {
    x->len = len;
    for (word i = 0; i < GUARD; i++) {
        x->cells[i] = number(guard);
        x->cells[GUARD + len + i] = number(guard);
    }
}

static void keep(struct array *x) { memcpy(x->copy, start(x), 8 * x->len); }

static int untouched(struct array *x) {
    for (word i = 0; i < x->len; i++)
        if (bits(x->copy[i]) != bits(start(x)[i])) return 0;
    return 1;
}

static int guarded(struct array *x) {
    for (word i = 0; i < GUARD; i++)
        if (bits(x->cells[i]) != guard || bits(x->cells[GUARD + x->len + i]) != guard) return 0;
    return 1;
}

static word hash(word h, struct array *x) {
    for (word i = 0; i < x->len; i++) h = step(h ^ canonical(bits(start(x)[i])));
    return h;
}

static double shown[ROOM];

/* An empty slice is passed as (NULL, 0) in every second case. */
static double *slice(struct array *x, word turn) { return x->len == 0 && turn % 2 ? 0 : start(x); }

/* The row of V^T in `a`, laid out as a result; its length, or a length that no row has where it leaves `a`. */
static word row(struct extent at) {
    if (at.start > a.len || at.length > a.len - at.start) return ~0ul;
    lay(&result, at.length);
    memcpy(start(&result), start(&a) + at.start, 8 * at.length);
    keep(&result);
    return at.length;
}

/* As the list has its old contents. */
static void before(word old) {
    for (word i = 0; i < work.len; i++) start(&work)[i] = number(old + i);
    for (word i = 0; i < result.len; i++) start(&result)[i] = number(old + work.len + i);
    keep(&work), keep(&result);
}

static struct answer in_steps(const word *p, double *pa, double *pw, double *pr) {
    struct run q = crewelmarsh_eigen_start_abi5(p[0], p[1], p[2], pa, a.len, pw, work.len, pr, result.len);
    for (int i = 0; i < 60 * 256 && q.stop == 0 && q.l < q.n; i++) q = crewelmarsh_eigen_step_abi5(q, pw, work.len, pr, result.len);
    return crewelmarsh_eigen_finish_abi5(q, pw, work.len, pr, result.len).answer;
}

int main(void) {
    word total[FUNCTIONS] = {0}, agree[FUNCTIONS] = {0}, turn = 0, told = 0;
    for (;; turn++) {
        word f = next();
        if (f == 0) break;
        word p[5], lens[4];
        for (int i = 0; i < 5; i++) p[i] = next();
        for (int i = 0; i < 4; i++) lens[i] = next();
        if (f == IN_STEPS || f > LANCZOS || lens[0] > ROOM || lens[1] > ROOM || lens[2] > ROOM || lens[3] > ROOM) {
            printf("no case at %lu\n", turn);
            return 1;
        }
        lay(&a, lens[0]), lay(&b, lens[1]), lay(&work, lens[2]), lay(&result, lens[3]);
        word old = next(), kind = next(), seed = next();
        double scale = number(next());
        struct answer wanted, got = {0, 0, 0, 0};
        wanted.answer = next(), wanted.place = next(), wanted.index = next(), wanted.count = next();
        word wanted_hash = next(), words = next();
        for (word i = 0; i < a.len + b.len; i++) {
            seed = step(seed);
            double x = kind == 0 ? number(next()) : made(kind, seed, scale);
            *(i < a.len ? start(&a) + i : start(&b) + (i - a.len)) = x;
        }
        for (word i = 0; i < words; i++) shown[i] = number(next());
        keep(&a), keep(&b);
        double *pa = slice(&a, turn), *pb = slice(&b, turn), *pw = slice(&work, turn), *pr = slice(&result, turn);
        double tolerance = number(p[4]);
    again:
        before(old);
        switch (f) {
        case IN_STEPS: got = in_steps(p, pa, pw, pr); break;
        case EIGEN: got = crewelmarsh_symmetric_eigen_abi5(p[0], p[1], p[2], pa, a.len, pw, work.len, pr, result.len); break;
        case SVD: got = crewelmarsh_svd_abi5(p[0], p[1], p[2], p[3], p[4], pa, a.len, pw, work.len, pr, result.len); break;
        case SOLVE: got = crewelmarsh_solve_abi5(p[0], p[1], p[2], p[3], tolerance, pa, a.len, pb, b.len, pr, result.len); break;
        case PSEUDO_INVERSE: got = crewelmarsh_pseudo_inverse_abi5(p[0], p[1], p[2], p[3], tolerance, pa, a.len, pr, result.len); break;
        case LANCZOS: got = crewelmarsh_lanczos_abi5(p[0], p[1], p[2], p[3], pa, a.len, pb, b.len, pw, work.len, pr, result.len); break;
        case QR_Q: got = crewelmarsh_qr_q_abi5(p[0], p[1], pa, a.len, pr, result.len); break;
        default: got.answer = row(crewelmarsh_vt_row_extent_abi5(p[0], p[1], p[2], p[3], a.len, p[4]));
        }
        int good = got.answer == wanted.answer && got.place == wanted.place && got.index == wanted.index && got.count == wanted.count;
        good &= untouched(&a) & untouched(&b);
        good &= guarded(&a) & guarded(&b) & guarded(&work) & guarded(&result);
        good &= hash(hash(0x9e3779b97f4a7c15ul, &work), &result) == wanted_hash;
        if ((1 <= wanted.answer && wanted.answer <= 6) || wanted.answer > 10) good &= untouched(&work) & untouched(&result);
        for (word i = 0; i < words; i++) good &= bits(start(&result)[i]) == bits(shown[i]);
        total[f]++;
        agree[f] += (word)good;
        if (!good && told++ < 10)
            printf("case %lu, %s(%lx, %lx, %lx, %lx, %lx), lengths %lu %lu %lu %lu: %lu %lu %lu %lu, wanted %lu %lu %lu %lu\n",
                   turn,
                   names[f], p[0], p[1], p[2], p[3], p[4], a.len, b.len, work.len, result.len, got.answer, got.place,
                   got.index, got.count, wanted.answer, wanted.place, wanted.index, wanted.count);
        if (f == EIGEN) {
            f = IN_STEPS;
            goto again;
        }
    }
    word bad = 0, calls = 0;
    for (int f = EIGEN; f < FUNCTIONS; f++) {
        printf("%s: %lu of %lu agree\n", names[f], agree[f], total[f]);
        bad += total[f] - agree[f];
        calls += f == IN_STEPS ? 0 : total[f];
    }
    printf("%lu cases, %lu differ%s\n", calls, bad, cut ? "; the list is cut short" : "");
    return bad != 0 || calls == 0 || cut;
}
