/*
 * What holds of a call on x86-64 beside its answer: how much stack it takes, and what it leaves of the floating-point state. Each entry is called on
 * a stack of its own that is painted before, from states with and without raised flags. One line an entry, status 1 on a failure.
 */
#include <stddef.h>
#include <stdint.h>
#include <stdio.h>
#include <string.h>
#include "crewelmarsh.h"

enum { STACK = 65536, N = 256, PAINT = 0xa5 };

static unsigned checks, failed;

static void check(int good, const char *entry, const char *what)
{
    checks++;
    if (!good) {
        failed++;
        printf("FAILED: %s: %s\n", entry, what);
    }
}

/* ---- what the calls work on */

static double matrix[N * N], start[N], work[198144], result[2 * N * N + N], inverse[N * N];
static int16_t samples[4 * N];
static size_t list[CREWELMARSH_STORE_LIST_LEN];
static uint16_t tiles[CREWELMARSH_STORE_TILES_LEN];
static unsigned char bytes[2000], block[2000];
static struct crewelmarsh_tally tally;
static struct crewelmarsh_eigen_run run;
static size_t n, k, edition, answer;

#define STORE list, CREWELMARSH_STORE_LIST_LEN, tiles, CREWELMARSH_STORE_TILES_LEN, bytes, sizeof bytes
#define EIGEN work, n, result, n + n * n

/* A matrix that is mostly zeros, so that 256 rows take no time: a full corner of 6, and numbers on the diagonal. In edition 2 it is not symmetric, and lanczos
   walks it in its other way. */
static void fill(void)
{
    size_t i, j;
    memset(matrix, 0, sizeof matrix);
    for (i = 0; i < n; i++) {
        start[i] = (double)(i * 37 % 101) - 50;
        matrix[i * n + i] = (double)(i + 2);
        for (j = 0; j < 6 && i < 6; j++)
            matrix[i * n + j] += 1 / (double)(i + j + 1);
    }
    if (edition == 2)
        matrix[n - 1] += 0.5;
    for (i = 0; i < 4 * N; i++)
        samples[i] = (int16_t)(i * 7919 % 4001 - 2000);
}

static void symmetric_eigen(void) { answer = crewelmarsh_symmetric_eigen(n, 60, edition, matrix, n * n, EIGEN).answer; }
static void eigen_start(void) { run = crewelmarsh_eigen_start(n, 60, edition, matrix, n * n, EIGEN), answer = run.answer.answer; }
static void eigen_step(void) { run = crewelmarsh_eigen_step(run, EIGEN), answer = run.answer.answer; }
static void eigen_finish(void) { run = crewelmarsh_eigen_finish(run, EIGEN), answer = run.answer.answer; }
static void lanczos(void)
{
    answer = crewelmarsh_lanczos(n, k, 60, edition, matrix, n * n, start, n, work, crewelmarsh_lanczos_work_len(n, k),
                                 inverse, crewelmarsh_lanczos_answer_len(n, k)).answer;
}
static void svd(void)
{
    answer = crewelmarsh_svd(n, k, 1, 1, 60, matrix, n * k, work, crewelmarsh_svd_work_len(n, k),
                             result, crewelmarsh_svd_result_len(n, k, 1, 1)).answer;
}
static void solve(void)
{
    answer = crewelmarsh_solve(n, k, 1, 1, 0, result, crewelmarsh_svd_result_len(n, k, 1, 1), start, n, inverse, k).answer;
}
static void pseudo_inverse(void)
{
    answer = crewelmarsh_pseudo_inverse(n, k, 1, 1, 0, result, crewelmarsh_svd_result_len(n, k, 1, 1), inverse, k * n).answer;
}
static void qr_q(void) { answer = crewelmarsh_qr_q(n, k, matrix, n * k, result, n * k).answer; }
static void covariance(void) { answer = crewelmarsh_covariance(n, 4, samples, 4 * n, matrix, n * n).answer; }
static void sums(void) { answer = crewelmarsh_sums(n, 4, samples, 4 * n, inverse, n).answer; }
static void leading(void)
{
    answer = crewelmarsh_leading(n, k, result, crewelmarsh_symmetric_eigen_result_len(n), inverse, crewelmarsh_leading_out_len(n, k)).answer;
}
static void vt_row_extent(void) { answer = crewelmarsh_vt_row_extent(n, k, 1, 1, crewelmarsh_svd_result_len(n, k, 1, 1), 0).length != k; }
static void block_write(void)
{
    answer = crewelmarsh_block_write(6, 6, 3, 1, start, 6, 2, matrix, 36, 3, matrix, 36, block,
                                     crewelmarsh_block_length(6, 6, 3, 1, 2, 3)).answer;
}
static void block_length(void) { answer = crewelmarsh_block_length(6, 6, 3, 1, 2, 3) != 672; }
static void block_check(void) { answer = crewelmarsh_block_check(block, 672).answer; }
static void block_find(void) { answer = crewelmarsh_block_find(NULL, 0, block, 672, 3).count != 36; }
static void block_copy(void) { answer = crewelmarsh_block_copy(NULL, 0, block, 672, 3, inverse, 36).answer; }
static void store_setup(void) { answer = crewelmarsh_store_setup(1000, 1000, STORE).answer; }
static void store_put(void) { answer = crewelmarsh_store_put(1, STORE, 7, block, 672).answer; }
static void store_length(void) { answer = crewelmarsh_store_length(1, STORE, 7).answer; }
static void store_fetch(void) { answer = crewelmarsh_store_fetch(1, STORE, 7, block, 672).answer; }
static void store_drop(void) { answer = crewelmarsh_store_drop(1, STORE, 7).answer; }
static void store_reset(void) { answer = crewelmarsh_store_reset(STORE).answer; }
static void tally_add(void) { answer = crewelmarsh_tally_add(&tally, 0, 5); }

/* ---- a call on the painted stack */

static unsigned char painted[STACK] __attribute__((aligned(16)));

static void on_painted_stack(void (*call)(void))
{
    unsigned char *top = painted + STACK;
    memset(painted, PAINT, STACK);
    __asm__ volatile("movq %%rsp, %%rbx\n\tmovq %0, %%rsp\n\tcall *%1\n\tmovq %%rbx, %%rsp"
                     : "+r"(top), "+r"(call)
                     :
                     : "rbx", "rax", "rcx", "rdx", "rsi", "rdi", "r8", "r9", "r10", "r11", "xmm0", "xmm1", "xmm2", "xmm3", "xmm4", "xmm5",
                       "xmm6", "xmm7", "xmm8", "xmm9", "xmm10", "xmm11", "xmm12", "xmm13", "xmm14", "xmm15", "memory", "cc");
}

static size_t used(void)
{
    size_t i = 0;
    while (i < STACK && painted[i] == PAINT)
        i++;
    return STACK - i;
}

/* ---- the floating-point state */

enum { FLAGS = 0x3f, MASKED = 0x1f80, X87 = 0x37f, X87_DOUBLE = 0x27f };

static uint32_t mxcsr(void)
{
    uint32_t x;
    __asm__ volatile("stmxcsr %0" : "=m"(x));
    return x;
}
static void set_mxcsr(uint32_t x) { __asm__ volatile("ldmxcsr %0" : : "m"(x)); }
static uint16_t x87(void)
{
    uint16_t x;
    __asm__ volatile("fnstcw %0" : "=m"(x));
    return x;
}
static void set_x87(uint16_t x) { __asm__ volatile("fldcw %0" : : "m"(x)); }

static void from_state(const char *entry, void (*before)(void), void (*call)(void), uint32_t flags, uint16_t word)
{
    uint32_t state;
    before();
    set_x87(word);
    set_mxcsr(MASKED | flags);
    on_painted_stack(call);
    state = mxcsr();
    check(x87() == word, entry, "the x87's control word");
    set_x87(X87);
    set_mxcsr(MASKED);
    check(answer == 0, entry, "its answer");
    check((state & ~(uint32_t)FLAGS) == MASKED, entry, "the control bits of MXCSR");
    check((state & flags) == flags, entry, "flags that were raised");
}

/* The entry in sizes from small to 256; `bound` is what the header says of its stack. The first call is not measured: it may find C's library unbound. */
static size_t most;

static void sized(const char *entry, void (*before)(void), void (*call)(void))
{
    before();
    call();
    from_state(entry, before, call, 0, X87);
    if (used() > most)
        most = used();
    from_state(entry, before, call, FLAGS, X87);
    from_state(entry, before, call, 1, X87_DOUBLE);
}

static void entry(const char *name, size_t bound, void (*before)(void), void (*call)(void))
{
    static const size_t sizes[3][2] = {{6, 3}, {3, 6}, {N, 5}};
    size_t s;
    most = 0;
    for (s = 0; s < 3; s++)
        for (edition = 1; edition <= 2; edition++) {
            n = sizes[s][0];
            k = sizes[s][1] > n && (call == lanczos || call == leading) ? n : sizes[s][1];
            sized(name, before, call);
        }
    printf("stack %s: %u of %u\n", name, (unsigned)most, (unsigned)bound);
    check(most <= bound, name, "takes more stack than the header says");
    if (bound > 512)
        check(2 * most >= bound, name, "takes less than half of what the header says");
    check(bound <= CREWELMARSH_STACK_MOST, name, "the most of all");
}

/* ---- what comes before a call, so that it answers 0 */

static void filled(void) { fill(); }
static void started(void) { fill(), eigen_start(); }
static void stepped(void)
{
    started();
    while (crewelmarsh_eigen_goes_on(run))
        eigen_step();
}
static void decomposed(void) { fill(), svd(); }
static void valued(void) { fill(), symmetric_eigen(); }
static void written(void)
{
    size_t was = n;
    n = 6, fill(), block_write(), n = was;
}
static void emptied(void) { written(), store_setup(); }
static void held(void) { emptied(), store_put(); }
static void untallied(void)
{
    static const struct crewelmarsh_tally empty = CREWELMARSH_TALLY_EMPTY;
    tally = empty;
}

int main(void)
{
    entry("symmetric_eigen", 4096, filled, symmetric_eigen);
    entry("eigen_start", 4096, filled, eigen_start);
    entry("eigen_step", 4096, started, eigen_step);
    entry("eigen_finish", 4096, stepped, eigen_finish);
    entry("lanczos", 24576, filled, lanczos);
    entry("svd", 4096, filled, svd);
    entry("solve", 4096, decomposed, solve);
    entry("pseudo_inverse", 4096, decomposed, pseudo_inverse);
    entry("qr_q", 6144, filled, qr_q);
    entry("vt_row_extent", 512, filled, vt_row_extent);
    entry("leading", 512, valued, leading);
    entry("covariance", 4096, filled, covariance);
    entry("sums", 512, filled, sums);
    entry("block_check", 512, written, block_check);
    entry("block_find", 512, written, block_find);
    entry("block_copy", 512, written, block_copy);
    entry("block_length", 512, written, block_length);
    entry("block_write", 512, written, block_write);
    entry("store_setup", 512, emptied, store_setup);
    entry("store_put", 12288, emptied, store_put);
    entry("store_length", 12288, held, store_length);
    entry("store_fetch", 12288, held, store_fetch);
    entry("store_drop", 12288, held, store_drop);
    entry("store_reset", 12288, held, store_reset);
    entry("tally_add", 512, untallied, tally_add);
    printf("machine: %u checks, %u failed\n", checks, failed);
    return failed != 0;
}
