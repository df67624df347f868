/*
 * Crewelmarsh: dense linear algebra for a codec. C99 and C++. MIT licence; LICENSE and NOTICE go with every copy.
 *
 * Five entries, each taking sizes, flags and arrays of double and giving back four numbers:
 *
 *     crewelmarsh_symmetric_eigen   values and vectors of a symmetric matrix
 *     crewelmarsh_svd               singular values, U and V^T of any matrix
 *     crewelmarsh_solve             least squares by an svd
 *     crewelmarsh_pseudo_inverse    the pseudo-inverse by an svd
 *     crewelmarsh_qr_q              the columns made orthonormal, from left to right
 *
 * crewelmarsh_eigen_start, _step and _finish are the first one in pieces, one QL pass at a time, for a program that
 * has other work waiting (see ONE PASS AT A TIME below).
 *
 * crewelmarsh_lanczos gives the leading values and vectors alone, for a codec that keeps a few components of many
 * bands: at 8 of 256 a small part of the time. crewelmarsh_leading takes the same out of a result of symmetric_eigen,
 * in the layout of lanczos.
 *
 * crewelmarsh_vt_row_extent says where in an svd's result a row of V^T stands; crewelmarsh_vt_row
 * makes a pointer of it.
 *
 * Five more pass matrices as bytes, in transform blocks (see TRANSFORM BLOCKS below):
 *
 *     crewelmarsh_block_check       whether bytes are a block, and its rows and columns
 *     crewelmarsh_block_find        which of two blocks has a part, and where
 *     crewelmarsh_block_copy        a part's numbers as doubles
 *     crewelmarsh_block_length      how long a block is
 *     crewelmarsh_block_write       a block from doubles
 *
 * crewelmarsh_covariance makes the matrix that symmetric_eigen takes from bands of 16-bit samples, exactly;
 * crewelmarsh_sums gives the sums of the same bands, so that a band's mean is one division.
 *
 * Six keep blocks of bytes under tile numbers, for two owners in one buffer (see THE STORE below):
 *
 *     crewelmarsh_store_setup       an empty store
 *     crewelmarsh_store_put         a block under an owner's tile number
 *     crewelmarsh_store_length      how long a tile's block is
 *     crewelmarsh_store_fetch       a tile's block
 *     crewelmarsh_store_drop        a tile's block gone, its room free
 *     crewelmarsh_store_reset       both owners' blocks gone
 *
 * crewelmarsh_tally_add adds a tile's answer and passes to the figures of a whole run of tiles (see THE TALLY below).
 *
 * A document is named as in the repository: docs/C.md is share/doc/crewelmarsh/C.md where the library is installed.
 * T2 and its like are theorems, listed in docs/PROMISES.md.
 *
 * WHAT IS ASKED OF A CALLER
 *
 * An array is lent as a pointer and a length in numbers (not bytes), a block as a pointer and a length in bytes. No
 * code can test the following, and nothing else is asked (docs/C.md, "What no code can test"):
 *
 *   - the arrays of one call exist at the length given, as does the tally, and don't overlap;
 *   - each is aligned for what it holds: double, size_t, uint16_t, int16_t, the tally's struct; bytes need nothing;
 *   - no other thread touches them during the call, unless it too only reads what the call only reads;
 *   - the floating-point state is the one that a C program starts with (see FLOATING-POINT STATE);
 *   - there is as much stack as MEMORY says.
 *
 * Every other mistake comes back as a number, and no array is read or written outside its length. An array of length 0
 * may be NULL, or any other pointer: it isn't looked at.
 *
 * Matrices stand row by row: cell (i, j) of a matrix with n columns is at i * n + j. Dimensions are 0 to
 * 256, limits 1 to 60. A flag is a number: 0 is no, anything else is yes. Lengths are exact, neither
 * longer nor shorter; the helpers below give them.
 *
 * WHAT COMES BACK
 *
 * `answer` says what happened, `place` where, `index` which number, `count` how much work was done. Test
 * `answer` after every call: only 0 leaves a result.
 *
 *     answer   arrays afterwards
 *     0        result or answer full, work all +0.0
 *     1 to 6   all untouched
 *     7 to 10  result or answer, and work, all +0.0
 *     11 to 15 all untouched
 *
 * Matrix, decomposition, right side and start vector are only read. None of the five, nor lanczos, nor leading, writes
 * an infinity or a NaN (T11, T36, T46). 20 to 24 come from blocks alone, and leave all untouched; so do 30 to 35, 37
 * and 39, which come from the store alone, and 36 and 38, which come from the tally alone. 25 and 26 come from
 * covariance, 25 from sums too: 25 leaves matrix and sums untouched, 26 fills the matrix with +0.0.
 *
 * What the other three numbers say. Where an answer isn't named the number is 0:
 *
 *     entry                  place                            index                      count
 *     symmetric_eigen,       6 the array, 7 the number,       8, 10 the number at the    0, 8, 9, 10 QL passes
 *     eigen_start, _step,    8, 10 the mark, 9 the value      mark
 *     _finish
 *     lanczos                the same, with marks of its      the same; at places 4      0, 8, 9, 10 passes of the
 *                            own; 0 the pairs found           and 5 the step             inner symmetric_eigen
 *     svd                    6 the array, 7 the number,       8, 10 the number at the    0, 8, 9, 10 sweeps
 *                            8, 10 the mark, 9 the sweeps     mark
 *     solve,                 6 the array, 7 the number,       8, 10 the number in the    -
 *     pseudo_inverse         8, 10 always 2                   answer
 *     qr_q                   6 the array, 7 the number,       8, 10 the column           -
 *                            8, 10 the column
 *     leading                6 the array, 7 the number        -                          -
 *     covariance             6 the array, 26 the entry        -                          -
 *     sums                   6 the array                      -                          -
 *     store_length           -                                -                          0 the length
 *     block_copy             0 the own block's answer         -                          -
 *     other store_ entries,  -                                -                          -
 *     block_write
 *
 * block_check, block_find and vt_row_extent have structs of their own; block_length and tally_add give one number.
 * crewelmarsh_text makes a text of an answer, crewelmarsh_array_name a word of a 6's place.
 *
 * Which test comes first differs from entry to entry, and is said there: the refusals stand in the order of the tests,
 * and the first that is met is given. 8, 9 and 10 come as the run meets them. So a 7 says that sizes, limit and lengths
 * were good.
 *
 * EDITIONS
 *
 * symmetric_eigen, and lanczos with it, takes lengths of pairs of numbers, hypot(x, y), the root of x * x + y * y, and
 * there are two rules for it. Its edition says which, and it is part of the definition: the same call in the other
 * edition gives values and vectors that differ in their last bits, and now and then another count or answer.
 *
 *     1  the greater magnitude is taken out and each step rounds, as this library has always done
 *     2  the double nearest to the exact root, a tie to the even one, as IEEE 754-2019 has it; an infinity beside
 *        a NaN gives an infinity
 *
 * Which to choose: 1 where the bits must be those of what is stored already, since archives hold 1. Where nothing
 * is stored, 2 has fewer roundings and agrees with other libraries more often; its time is 1's up to a few hundredths.
 * Write down which one was taken, beside the data: the bits can't tell it.
 *
 * MARKS
 *
 * At some places of a run, its marks, arrays are looked at for a number that is not finite; `place` says
 * which mark it was. The first such number decides: infinite gives 8, a NaN gives 10. `index` is its place
 * counted from 0 through the mark's arrays, one behind the other, a matrix row by row. So with arrays of
 * 3, 3 and 9 numbers index 2 is the last of the first, 4 the middle of the second, and 6 + i * 3 + j is cell
 * (i, j) of the third. Each entry's comment names the arrays of each mark. They are the run's own: nothing of
 * them is left after the call, and the index says where in the method things went wrong, which with the same
 * input is the same on every machine. On every other answer the index is 0.
 *
 * MAGNITUDE
 *
 * Squares and products of the numbers are formed. Where the largest magnitude in a matrix lies outside
 * 2^-250 to 2^250 (about 1e-75 to 1e75) they may overflow or vanish: then mostly the answer is 8, 9 or 10, but
 * also 0 with numbers that are the defined ones and yet no eigenvectors or singular vectors (found by
 * trying: symmetric_eigen below about 2^-515 and near the largest double, svd above about 2^252 and below
 * about 2^-537; docs/FINDINGS.md has inputs). Multiply such a matrix by a power of two first, and the values
 * by its inverse afterwards; the vectors stay. The same can befall a part of a matrix that is so small by
 * itself, beside numbers near 1: set to 0 what is that far below the largest.
 *
 * What svd and symmetric_eigen promise: every number of a matrix may be multiplied by 2^k, k above or below 0, sizes,
 * flags, limit, edition and lengths being equal. If in both calls each number given or computed is zero, or finite and
 * above 2^-1022 in magnitude, and no product or quotient of nonzero numbers comes out zero, then all four numbers of
 * the answer agree; on 0 U and V^T, or the eigenvectors, are the same bits and each value is multiplied by 2^k; on any
 * other answer both results are all +0.0, or both untouched. This is proved (T33, T48). Numbers from 2^-250 to 2^250
 * mostly stay in that range; a call doesn't say whether they did. So on a codec's own path, from samples to vectors:
 * samples times 2^k give covariances times 4^k (T42), and those the same vectors and values times 4^k (T49). lanczos
 * does not promise it: its 1e-12 does not grow with the matrix.
 *
 * WHICH BITS
 *
 * The same call gives the same bits on every x86-64 machine, whoever made its processor, and whatever work, result and
 * answer held before (T2, T14, T34): every outcome is defined to the last bit, each + - * / rounds once by IEEE 754, no
 * step is fused, no mathematical library is called, and no code looks at which processor it runs on. Of a NaN alone
 * nothing is said but that it is one: block_copy gives one where the block has one, and a run in steps whose arrays a
 * caller spoiled may.
 *
 * FLOATING-POINT STATE
 *
 * The one that a C program starts with: exceptions masked, rounding to nearest, subnormal numbers neither flushed to
 * zero nor read as zero (FTZ and DAZ of MXCSR off). No call tests it. With another rounding, or with -ffast-math, which
 * may set FTZ and DAZ for the whole program when it is linked, the definition doesn't describe what comes out. With an
 * exception switched on (feenableexcept) a call may end the program, also one that would answer 0: the compiled code
 * divides before it chooses.
 *
 * Any call may raise status flags (inexact, underflow, overflow, divide by zero, invalid), also on 0: they say nothing.
 * No call clears a flag, and none changes the control bits of MXCSR or the x87's control word.
 *
 * THREADS
 *
 * The library keeps nothing between calls, so that calls on different arrays may run at the same time. What a call only
 * reads may be lent to several. A store, both its owners together, is one thread's at a time; so is a run in steps, and
 * a tally. Handing one on from thread to thread is good, with the lock or queue that the program uses for it.
 *
 * MEMORY
 *
 * An entry uses no heap, no file, and no memory but the arrays lent and its stack. This much stack is enough for each,
 * in bytes, the call itself included, whatever the sizes (measured by painting the stack, and held by the tests), where
 * memcpy, memmove and memset are bound already:
 *
 *     lanczos                                              24,576
 *     store_put, _length, _fetch, _drop, _reset            12,288
 *     qr_q                                                  6,144
 *     symmetric_eigen, eigen_start, _step, _finish, svd,
 *     solve, pseudo_inverse, covariance                     4,096
 *     all others                                              512
 *
 * A program that is linked without -z now, as by gcc's default, binds a function of C's library when it first calls it.
 * An entry that is the first to come to one of these three takes the loader's stack besides, some 3 KB (docs/C.md):
 * link with -z now, or have 4 KB more. CREWELMARSH_STACK_MOST was enough for any call either way.
 *
 * The code is some 64 KB, and the library has no writable memory.
 *
 * HOW LONG A CALL TAKES
 *
 * Every call ends. symmetric_eigen runs at most `limit` passes for each of n values, so 60 * n, each over at most n - 1
 * pairs of columns of n numbers; svd at most `limit` sweeps, each over r * (r - 1) / 2 pairs of columns; lanczos s
 * steps, each of a product with the matrix and two rounds over the vectors so far, and then symmetric_eigen of s by s.
 * What the others do is bounded by their sizes and lengths.
 *
 * What was found by a search for bad input on an AMD EPYC, x86-64 (docs/C.md): symmetric_eigen 3 passes a value at the
 * most, and 1.9, 1.4 and 1.3 times the time of an ordinary covariance at 16, 64 and 256; svd all of 60 sweeps, on
 * numbers near 2^-510, whose products are subnormal: 11, 10 and 10 times the time of an ordinary matrix, 1.2 seconds at
 * 256; lanczos up to 2.7 times, qr_q up to 1.7 times. On a processor that is slower with subnormal numbers it may be
 * more. A lower limit bounds it: an outcome that is not 9 is the same at every higher limit (T4, T13, T35).
 *
 * WHICH MACHINE
 *
 * Linux on x86-64, and of that what every such processor has: SSE2, no AVX, no FMA, no x87. The archive needs memcpy,
 * memmove and memset of C's library, and nothing else. docs/C.md says what stands in the way of other systems.
 *
 * WHICH LIBRARY
 *
 * In the library each entry's name ends in the major version, crewelmarsh_svd_abi5, and this header maps
 * the plain name to it: that is what nm, a debugger and the linker show. So a program compiled with a
 * header of another major version doesn't link, and "undefined reference to crewelmarsh_svd_abi5" says
 * that the library is missing or is not of major version 5.
 */
#ifndef CREWELMARSH_H
#define CREWELMARSH_H

#include <stddef.h>
#include <stdint.h>

/*
 * The version; pkg-config, CMake and the shared library's name take it from here. From version 3 on no call's bits,
 * answers or refusals change within a major version: archives may rely on them. A new rule of arithmetic is a new
 * edition, or a new major version.
 *
 *     another major   an entry, a struct, a refusal or bits changed: compile anew, after a look at docs/C.md
 *     another minor   something was added
 *     another patch   anything else
 */
#define CREWELMARSH_VERSION_MAJOR 5
#define CREWELMARSH_VERSION_MINOR 0
#define CREWELMARSH_VERSION_PATCH 0
#define CREWELMARSH_VERSION /* as a string */ \
    CREWELMARSH_DOTTED(CREWELMARSH_VERSION_MAJOR, CREWELMARSH_VERSION_MINOR, CREWELMARSH_VERSION_PATCH)

/* Each entry by its name in the library. */
#define crewelmarsh_symmetric_eigen CREWELMARSH_NAME(symmetric_eigen)
#define crewelmarsh_eigen_start CREWELMARSH_NAME(eigen_start)
#define crewelmarsh_eigen_step CREWELMARSH_NAME(eigen_step)
#define crewelmarsh_eigen_finish CREWELMARSH_NAME(eigen_finish)
#define crewelmarsh_lanczos CREWELMARSH_NAME(lanczos)
#define crewelmarsh_leading CREWELMARSH_NAME(leading)
#define crewelmarsh_svd CREWELMARSH_NAME(svd)
#define crewelmarsh_vt_row_extent CREWELMARSH_NAME(vt_row_extent)
#define crewelmarsh_solve CREWELMARSH_NAME(solve)
#define crewelmarsh_pseudo_inverse CREWELMARSH_NAME(pseudo_inverse)
#define crewelmarsh_qr_q CREWELMARSH_NAME(qr_q)
#define crewelmarsh_block_check CREWELMARSH_NAME(block_check)
#define crewelmarsh_block_find CREWELMARSH_NAME(block_find)
#define crewelmarsh_block_copy CREWELMARSH_NAME(block_copy)
#define crewelmarsh_block_length CREWELMARSH_NAME(block_length)
#define crewelmarsh_block_write CREWELMARSH_NAME(block_write)
#define crewelmarsh_covariance CREWELMARSH_NAME(covariance)
#define crewelmarsh_sums CREWELMARSH_NAME(sums)
#define crewelmarsh_store_setup CREWELMARSH_NAME(store_setup)
#define crewelmarsh_store_put CREWELMARSH_NAME(store_put)
#define crewelmarsh_store_length CREWELMARSH_NAME(store_length)
#define crewelmarsh_store_fetch CREWELMARSH_NAME(store_fetch)
#define crewelmarsh_store_drop CREWELMARSH_NAME(store_drop)
#define crewelmarsh_store_reset CREWELMARSH_NAME(store_reset)
#define crewelmarsh_tally_add CREWELMARSH_NAME(tally_add)

/* The numbers are put in first, then pasted or quoted. */
#define CREWELMARSH_NAME(name) CREWELMARSH_NUMBERED(crewelmarsh_##name##_abi, CREWELMARSH_VERSION_MAJOR)
#define CREWELMARSH_NUMBERED(name, major) CREWELMARSH_PASTED(name, major)
#define CREWELMARSH_PASTED(name, major) name##major
#define CREWELMARSH_DOTTED(major, minor, patch) CREWELMARSH_QUOTED(major, minor, patch)
#define CREWELMARSH_QUOTED(major, minor, patch) #major "." #minor "." #patch

#ifdef __cplusplus
extern "C" {
#endif

/* What a call comes back with. */
struct crewelmarsh_answer {
    size_t answer; /* one of the numbers below */
    size_t place;  /* where; the table above says what it is of each entry and answer, as of index and count */
    size_t index;  /* on 8 and 10 the number at the mark, in qr_q the column; else 0 */
    size_t count;  /* QL passes or sweeps run, the one that stopped the run included; of store_length the length */
};

enum {
    CREWELMARSH_MAX_DIMENSION = 256,
    CREWELMARSH_MIN_LIMIT = 1,
    CREWELMARSH_MAX_LIMIT = 60
};

/* Stack that is enough for any call, in bytes (see MEMORY above). */
enum { CREWELMARSH_STACK_MOST = 24576 };

/* The editions (see EDITIONS above): what archives hold, and the correctly rounded one. */
enum {
    CREWELMARSH_EDITION_1 = 1,
    CREWELMARSH_EDITION_2 = 2
};

/* How many samples a band may have (crewelmarsh_covariance, crewelmarsh_sums). */
enum {
    CREWELMARSH_MIN_SAMPLES = 1,
    CREWELMARSH_MAX_SAMPLES = 65536
};

/*
 * The answer numbers: when exactly each is given, its place, and what to do about it.
 */
enum {
    /* Done. Place 0, in lanczos the number of pairs found. */
    CREWELMARSH_DONE = 0,

    /* A dimension is over 256. Place 0.
       The size is wrong (a negative int becomes a huge size_t), or the image has more bands than are
       taken: split them into groups. */
    CREWELMARSH_DIMENSION = 1,

    /* The limit is outside 1 to 60 (symmetric_eigen, eigen_start, lanczos, svd). Place 0.
       Pass 60 if in doubt. */
    CREWELMARSH_LIMIT = 2,

    /* The decomposition has no U: has_u is 0 (solve, pseudo_inverse). Place 0.
       Call svd with want_u and want_vt, and pass the same two flags here. */
    CREWELMARSH_NO_U = 3,

    /* The decomposition has no V^T: has_vt is 0 (the same two). Place 0.
       As for 3. */
    CREWELMARSH_NO_VT = 4,

    /* The right side's length is not m (solve). Place 0.
       m is the number of rows of the matrix that was decomposed. Look for m and n exchanged. */
    CREWELMARSH_RIGHT_SIDE = 5,

    /* The length of another array is wrong. Place: the first such array, numbered from 0 as the entry says;
       crewelmarsh_array_name has its name.
       Take lengths from the helpers below. They count numbers, not bytes, and depend on the flags. */
    CREWELMARSH_LENGTH = 6,

    /* A number read is a NaN or infinite. Place: where it stands in the array, so of a matrix row place / columns,
       column place % columns; a decomposition, and the result that leading takes, have their values in front. In solve,
       indices from decomposition_len on are of the right side, in lanczos those from matrix_len on of the start vector.
       The fault is in what the caller computed. Look at samples, sums and divisions by zero there. */
    CREWELMARSH_NOT_FINITE = 7,

    /* A number became infinite during the run: at a mark (see MARKS) the first that is not finite is +infinity
       or -infinity. Place: the mark, see the entry; in qr_q the column. Index: the number; in qr_q the column.
       A result is too large for a double. The input is finite but too large, see MAGNITUDE above: scale it down
       by a power of two, so that its largest number is near 1. In solve and pseudo_inverse a singular value is
       too small to divide by: raise the tolerance. */
    CREWELMARSH_OVERFLOW = 8,

    /* The limit is used up. Place: in symmetric_eigen the index l of the value being worked on, in svd
       the sweeps run.
       With a limit below 60, try 60. At 60, svd gives this for many singular matrices, also small and
       plain ones such as (0 0; 1 6). For a covariance use symmetric_eigen, which takes them. Else code
       this tile without a transform, or with a fixed one. */
    CREWELMARSH_LIMIT_USED = 9,

    /* A number became a NaN during the run: at a mark the first that is not finite is a NaN. Place and index
       as for 8.
       An operation had no value: infinity - infinity, 0 * infinity, infinity / infinity or 0 / 0. The input is
       finite, so that mostly a number overflowed further back, between two marks: scale down as for 8. Where the
       largest number is near 1 already, tiny ones stand beside it (in symmetric_eigen 2^-1074 beside 1): set to 0
       what is that far below the largest. In solve and pseudo_inverse raise the tolerance as for 8. */
    CREWELMARSH_INVALID = 10,

    /* The tolerance is a NaN or below 0; -0.0 is taken as 0 (solve, pseudo_inverse). Place 0.
       Pass 0 to have every value above 0 count, or a small part of the largest value, decomposition[0]: see solve.
       A NaN is mostly a 0 / 0 in what the caller computed, as where the largest value is 0. */
    CREWELMARSH_TOLERANCE = 11,

    /* The edition is not 1 or 2 (symmetric_eigen, eigen_start, lanczos). Place 0.
       Pass 1 where the bits must be those of an archive, else 1 or 2 as EDITIONS says. A huge number is mostly an
       argument left out: the edition stands between the limit and the matrix. */
    CREWELMARSH_EDITION = 12,

    /* A run that goes on is not in order: a number of its record is out of range for its size, tst1 is a NaN or
       negative, the last e (in work) is not zero, or a d or an e from l on is not finite; or a finish came before
       the last l was done (eigen_step, eigen_finish). Place 0.
       The record or the arrays were changed between two calls, or belong to another run; or a step is left. Nothing
       is lost: with the record and the arrays as they were, the run goes on. What 13 does not see is said in ONE
       PASS AT A TIME. */
    CREWELMARSH_RUN = 13,

    /* n is 0 (lanczos). Place 0.
       There is no band, so that there is no direction to start in. */
    CREWELMARSH_NO_BAND = 14,

    /* k is over n (lanczos, leading). Place 0.
       There are n pairs at the most. Look for n and k exchanged. */
    CREWELMARSH_PAIRS = 15,

    /* A block is cut short: fewer than 12 bytes, or than its entries need, or than its numbers need. Place 0, as
       for 21 to 24.
       The block was not read or sent whole. Fetch it again. */
    CREWELMARSH_BLOCK_SHORT = 20,

    /* Bytes stand behind the block's last number.
       Pass the block's own length and not the buffer's. */
    CREWELMARSH_BLOCK_OVER = 21,

    /* Rows or columns are over 256, there are more than 3 parts, or a part's count is not min(rows, columns) for
       values, rows * columns for a matrix or an inverse.
       Reading: these bytes are no block, or one of another program's making; look for little-endian numbers.
       Writing: take the counts from rows and columns. */
    CREWELMARSH_BLOCK_COUNT = 22,

    /* A part's kind is none of 1, 2, 3, or not above that of the part before it.
       Writing: values first, then the matrix, then the inverse, each once at most. */
    CREWELMARSH_BLOCK_KIND = 23,

    /* A part's offset is not where the entries end, or where the part before it ends.
       The block was not made by this format's rules; nothing of it can be trusted. */
    CREWELMARSH_BLOCK_OFFSET = 24
};

/* Those of crewelmarsh_covariance, 25 of crewelmarsh_sums too. 25 leaves the matrix or the sums untouched, 26 fills the
   matrix with +0.0. */
enum {
    /* The number of samples a band is not 1 to 65,536. Place 0.
       Take fewer samples of each band, as every second one in both directions. */
    CREWELMARSH_SAMPLES = 25,

    /* An entry's magnitude is over 2^53, so that not every whole number near it is a double. Place: the first
       such entry row by row, so bands place / n and place % n, the first not above the second.
       Take fewer samples: every second one in both directions, at most three times (see crewelmarsh_covariance). With
       N of them an entry is at most N * N * 2^30, so that up to 2,896 always do, and with samples of 12 bits (-2048 to
       2047) up to 46,340. */
    CREWELMARSH_ENTRY_OVER = 26
};

/* Those of the store. Place 0; each leaves the store and the destination untouched. */
enum {
    /* The lengths of the blocks that the owner holds and of the new one together exceed its quota (put).
       Drop tiles that are done with, or give the owner a larger quota. */
    CREWELMARSH_STORE_FULL = 30,

    /* The owner holds the tile already (put).
       Drop it first where the new block is to take its place. */
    CREWELMARSH_STORE_HELD = 31,

    /* The owner doesn't hold the tile (length, fetch, drop).
       It has not come yet, or was dropped, or is the other owner's. */
    CREWELMARSH_STORE_MISSING = 32,

    /* The owner holds 32 blocks (put).
       Drop tiles that are done with. */
    CREWELMARSH_STORE_ENTRIES = 33,

    /* The owner is not 0 or 1. */
    CREWELMARSH_STORE_OWNER = 34,

    /* The quotas together exceed the buffer's length (setup).
       Give one of them less, or both a larger buffer. */
    CREWELMARSH_STORE_QUOTAS = 35,

    /* The buffer is over 65,536 bytes (setup).
       Pass a smaller length; more buffers are more stores. */
    CREWELMARSH_STORE_BUFFER = 37,

    /* These arrays are no store that a setup and calls left: a length is not that of the setup, the room is over 65,536
       or not the buffer's length, the quotas and what they leave over don't add up to the room, or the owner's list
       says that more than 32 are held, that they exceed its quota, or a tile twice. The other owner's list isn't looked
       at, but a reset looks at both. In setup: list or tiles have a wrong length.
       Something else wrote into list or tiles, or the setup was forgotten. What is held can't be trusted: set up anew.
       What damage is seen and what isn't is told at THE STORE. */
    CREWELMARSH_STORE_DAMAGED = 39
};

/* Those of the tally. Each leaves it untouched. */
enum {
    /* The tally holds 65,536 tiles or more, or a figure that no series of tiles gives: a count over 65,536, a total
       over 1,006,632,960, a most over 15,360 or a first over 65,535.
       Report what is there and begin a new tally. A figure out of range says that something else wrote into it, or that
       it was not empty when the series began. */
    CREWELMARSH_TALLY_FULL = 36,

    /* The tile's answer is over 15 or its passes are over 15,360. It comes before 36.
       symmetric_eigen and lanczos give neither: pass `answer` and `count`, not `place` or `index`. */
    CREWELMARSH_TALLY_TILE = 38
};

/* A short text for an answer number, for logs. Never NULL. */
static inline const char *crewelmarsh_text(size_t answer)
{
    switch (answer) {
    case CREWELMARSH_DONE: return "done";
    case CREWELMARSH_DIMENSION: return "a dimension is over 256";
    case CREWELMARSH_LIMIT: return "the limit is outside 1 to 60";
    case CREWELMARSH_NO_U: return "U was not computed";
    case CREWELMARSH_NO_VT: return "V^T was not computed";
    case CREWELMARSH_RIGHT_SIDE: return "the right side's length is not m";
    case CREWELMARSH_LENGTH: return "an array's length is wrong";
    case CREWELMARSH_NOT_FINITE: return "a number read is not finite";
    case CREWELMARSH_OVERFLOW: return "a number computed is infinite";
    case CREWELMARSH_LIMIT_USED: return "the limit is used up";
    case CREWELMARSH_INVALID: return "a number computed is not a number";
    case CREWELMARSH_TOLERANCE: return "the tolerance is a NaN or below 0";
    case CREWELMARSH_EDITION: return "the edition is not 1 or 2";
    case CREWELMARSH_RUN: return "the run is not in order, or not at its end";
    case CREWELMARSH_NO_BAND: return "there is no band";
    case CREWELMARSH_PAIRS: return "more pairs are asked for than there are bands";
    case CREWELMARSH_BLOCK_SHORT: return "the block is cut short";
    case CREWELMARSH_BLOCK_OVER: return "bytes stand behind the block";
    case CREWELMARSH_BLOCK_COUNT: return "a dimension, a number of parts or a count of the block is bad";
    case CREWELMARSH_BLOCK_KIND: return "a kind of the block is bad or out of order";
    case CREWELMARSH_BLOCK_OFFSET: return "an offset of the block is bad";
    case CREWELMARSH_SAMPLES: return "the number of samples is outside 1 to 65,536";
    case CREWELMARSH_ENTRY_OVER: return "an entry is over 2^53";
    case CREWELMARSH_STORE_FULL: return "the owner's quota has no room for the block";
    case CREWELMARSH_STORE_HELD: return "the tile is held already";
    case CREWELMARSH_STORE_MISSING: return "the tile is not held";
    case CREWELMARSH_STORE_ENTRIES: return "the owner holds as many blocks as it may";
    case CREWELMARSH_STORE_OWNER: return "the owner is not 0 or 1";
    case CREWELMARSH_STORE_QUOTAS: return "the quotas exceed the store's buffer";
    case CREWELMARSH_STORE_BUFFER: return "the store's buffer is over 65,536 bytes";
    case CREWELMARSH_STORE_DAMAGED: return "the store's arrays are not what its calls left";
    case CREWELMARSH_TALLY_FULL: return "the tally is full, or not what its calls left";
    case CREWELMARSH_TALLY_TILE: return "a tile's answer is over 15 or its passes are over 15,360";
    default: return "no answer of crewelmarsh";
    }
}

/* The calls that give 6, for crewelmarsh_array_name. */
enum {
    CREWELMARSH_CALL_SYMMETRIC_EIGEN,
    CREWELMARSH_CALL_EIGEN_START,
    CREWELMARSH_CALL_EIGEN_STEP,
    CREWELMARSH_CALL_EIGEN_FINISH,
    CREWELMARSH_CALL_LANCZOS,
    CREWELMARSH_CALL_SVD,
    CREWELMARSH_CALL_SOLVE,
    CREWELMARSH_CALL_PSEUDO_INVERSE,
    CREWELMARSH_CALL_QR_Q,
    CREWELMARSH_CALL_LEADING,
    CREWELMARSH_CALL_COVARIANCE,
    CREWELMARSH_CALL_SUMS,
    CREWELMARSH_CALL_BLOCK_COPY,
    CREWELMARSH_CALL_BLOCK_WRITE,
    CREWELMARSH_CALL_STORE_FETCH,
    CREWELMARSH_CALLS /* how many */
};

/* The array that a 6's place names, as the call's parameter is named, for logs. Never NULL. */
static inline const char *crewelmarsh_array_name(size_t call, size_t place)
{
    static const char *const names[CREWELMARSH_CALLS][4] = {
        {"matrix", "work", "result", NULL},
        {"matrix", "work", "result", NULL},
        {"work", "result", NULL, NULL},
        {"work", "result", NULL, NULL},
        {"matrix", "start", "work", "answer"},
        {"matrix", "work", "result", NULL},
        {"decomposition", "answer", NULL, NULL},
        {"decomposition", "answer", NULL, NULL},
        {"matrix", "answer", NULL, NULL},
        {"result", "out", NULL, NULL},
        {"samples", "matrix", NULL, NULL},
        {"samples", "out", NULL, NULL},
        {"out", NULL, NULL, NULL},
        {"out", NULL, NULL, NULL},
        {"out", NULL, NULL, NULL}};
    if (call >= CREWELMARSH_CALLS || place >= 4 || names[call][place] == NULL)
        return "no array of that call";
    return names[call][place];
}

/*
 * Lengths, in numbers. Where a dimension is over 256 each gives 0, so that nothing overflows and nothing is allocated:
 * pass the 0 on, and the call refuses it (1; 15 where it is the k of lanczos or leading, 25 where it is the number of
 * samples).
 *
 * Of doubles the most that any of them gives is 198,144 (the work of lanczos where k is 118 to 256 of 256); else
 * 131,328 (the work or the result of an svd of 256 by 256). Of samples it is 16,777,216 (256 bands of 65,536).
 *
 * Each is there twice: as a macro for the length of an array that is declared, where the dimensions are
 * constants (it may evaluate an argument several times, and has no meaning in #if), and as a function.
 */

/* A dimension as a size_t, by a product, since some warn of casts; and whether it is taken. */
#define CREWELMARSH_SIZE(dimension) (sizeof(char) * (dimension))
#define CREWELMARSH_TAKEN(dimension) (CREWELMARSH_SIZE(dimension) <= CREWELMARSH_MAX_DIMENSION)

/* rows * columns; the length of a matrix. */
#define CREWELMARSH_MATRIX_LEN(rows, columns) \
    (CREWELMARSH_TAKEN(rows) && CREWELMARSH_TAKEN(columns) ? CREWELMARSH_SIZE(rows) * CREWELMARSH_SIZE(columns) : 0)

/* r, the smaller of m and n: how many singular values an m by n matrix has. */
#define CREWELMARSH_SVD_VALUES_LEN(m, n) \
    (!CREWELMARSH_TAKEN(m) || !CREWELMARSH_TAKEN(n) ? 0 : \
     CREWELMARSH_SIZE(m) < CREWELMARSH_SIZE(n) ? CREWELMARSH_SIZE(m) : CREWELMARSH_SIZE(n))

/* n */
#define CREWELMARSH_SYMMETRIC_EIGEN_WORK_LEN(n) (CREWELMARSH_TAKEN(n) ? CREWELMARSH_SIZE(n) : 0)

/* n + n * n */
#define CREWELMARSH_SYMMETRIC_EIGEN_RESULT_LEN(n) \
    (CREWELMARSH_TAKEN(n) ? CREWELMARSH_SIZE(n) + CREWELMARSH_SIZE(n) * CREWELMARSH_SIZE(n) : 0)

/* s, how many steps lanczos runs at the most: the smaller of 2 * k + 20 and n. 0 also where k is over 256. */
#define CREWELMARSH_LANCZOS_STEPS(n, k) \
    (!CREWELMARSH_TAKEN(n) || !CREWELMARSH_TAKEN(k) ? 0 : \
     2 * CREWELMARSH_SIZE(k) + 20 < CREWELMARSH_SIZE(n) ? 2 * CREWELMARSH_SIZE(k) + 20 : CREWELMARSH_SIZE(n))

/* s * n + 2 * n + 2 * s * s + 4 * s */
#define CREWELMARSH_LANCZOS_WORK_LEN(n, k) \
    (!CREWELMARSH_TAKEN(n) || !CREWELMARSH_TAKEN(k) ? 0 : \
     CREWELMARSH_LANCZOS_STEPS(n, k) * CREWELMARSH_SIZE(n) + 2 * CREWELMARSH_SIZE(n) + \
     2 * CREWELMARSH_LANCZOS_STEPS(n, k) * CREWELMARSH_LANCZOS_STEPS(n, k) + 4 * CREWELMARSH_LANCZOS_STEPS(n, k))

/* k + k * n */
#define CREWELMARSH_LANCZOS_ANSWER_LEN(n, k) \
    (CREWELMARSH_TAKEN(n) && CREWELMARSH_TAKEN(k) ? CREWELMARSH_SIZE(k) + CREWELMARSH_SIZE(k) * CREWELMARSH_SIZE(n) : 0)

/* k + k * n: as the answer of lanczos. */
#define CREWELMARSH_LEADING_OUT_LEN(n, k) CREWELMARSH_LANCZOS_ANSWER_LEN(n, k)

/* max(m, n) * r + r * r + r */
#define CREWELMARSH_SVD_WORK_LEN(m, n) \
    (CREWELMARSH_MATRIX_LEN(m, n) + \
     CREWELMARSH_SVD_VALUES_LEN(m, n) * CREWELMARSH_SVD_VALUES_LEN(m, n) + CREWELMARSH_SVD_VALUES_LEN(m, n))

/* r, and m * r if U is wanted, and r * n if V^T is wanted; also the length of a decomposition. */
#define CREWELMARSH_SVD_RESULT_LEN(m, n, want_u, want_vt) \
    (CREWELMARSH_SVD_VALUES_LEN(m, n) + \
     ((want_u) != 0 ? CREWELMARSH_MATRIX_LEN(m, CREWELMARSH_SVD_VALUES_LEN(m, n)) : 0) + \
     ((want_vt) != 0 ? CREWELMARSH_MATRIX_LEN(CREWELMARSH_SVD_VALUES_LEN(m, n), n) : 0))

/* m */
#define CREWELMARSH_SOLVE_RIGHT_SIDE_LEN(m) (CREWELMARSH_TAKEN(m) ? CREWELMARSH_SIZE(m) : 0)

/* n */
#define CREWELMARSH_SOLVE_ANSWER_LEN(n) (CREWELMARSH_TAKEN(n) ? CREWELMARSH_SIZE(n) : 0)

/* n * m */
#define CREWELMARSH_PSEUDO_INVERSE_ANSWER_LEN(m, n) CREWELMARSH_MATRIX_LEN(n, m)

/* m * k */
#define CREWELMARSH_QR_Q_ANSWER_LEN(m, k) CREWELMARSH_MATRIX_LEN(m, k)

/* n * count, in samples. 0 also where count is over 65,536. */
#define CREWELMARSH_COVARIANCE_SAMPLES_LEN(n, count) \
    (CREWELMARSH_TAKEN(n) && CREWELMARSH_SIZE(count) <= CREWELMARSH_MAX_SAMPLES ? \
     CREWELMARSH_SIZE(n) * CREWELMARSH_SIZE(count) : 0)

/* n * n */
#define CREWELMARSH_COVARIANCE_MATRIX_LEN(n) CREWELMARSH_MATRIX_LEN(n, n)

/* n. The samples are as many as those of the covariance. */
#define CREWELMARSH_SUMS_OUT_LEN(n) CREWELMARSH_MATRIX_LEN(n, 1)

static inline size_t crewelmarsh_matrix_len(size_t rows, size_t columns)
{
    return CREWELMARSH_MATRIX_LEN(rows, columns);
}

static inline size_t crewelmarsh_svd_values_len(size_t m, size_t n)
{
    return CREWELMARSH_SVD_VALUES_LEN(m, n);
}

static inline size_t crewelmarsh_symmetric_eigen_work_len(size_t n)
{
    return CREWELMARSH_SYMMETRIC_EIGEN_WORK_LEN(n);
}

static inline size_t crewelmarsh_symmetric_eigen_result_len(size_t n)
{
    return CREWELMARSH_SYMMETRIC_EIGEN_RESULT_LEN(n);
}

static inline size_t crewelmarsh_lanczos_work_len(size_t n, size_t k)
{
    return CREWELMARSH_LANCZOS_WORK_LEN(n, k);
}

static inline size_t crewelmarsh_lanczos_answer_len(size_t n, size_t k)
{
    return CREWELMARSH_LANCZOS_ANSWER_LEN(n, k);
}

static inline size_t crewelmarsh_leading_out_len(size_t n, size_t k)
{
    return CREWELMARSH_LEADING_OUT_LEN(n, k);
}

static inline size_t crewelmarsh_svd_work_len(size_t m, size_t n)
{
    return CREWELMARSH_SVD_WORK_LEN(m, n);
}

static inline size_t crewelmarsh_svd_result_len(size_t m, size_t n, size_t want_u, size_t want_vt)
{
    return CREWELMARSH_SVD_RESULT_LEN(m, n, want_u, want_vt);
}

static inline size_t crewelmarsh_solve_right_side_len(size_t m)
{
    return CREWELMARSH_SOLVE_RIGHT_SIDE_LEN(m);
}

static inline size_t crewelmarsh_solve_answer_len(size_t n)
{
    return CREWELMARSH_SOLVE_ANSWER_LEN(n);
}

static inline size_t crewelmarsh_pseudo_inverse_answer_len(size_t m, size_t n)
{
    return CREWELMARSH_PSEUDO_INVERSE_ANSWER_LEN(m, n);
}

static inline size_t crewelmarsh_qr_q_answer_len(size_t m, size_t k)
{
    return CREWELMARSH_QR_Q_ANSWER_LEN(m, k);
}

static inline size_t crewelmarsh_covariance_samples_len(size_t n, size_t count)
{
    return CREWELMARSH_COVARIANCE_SAMPLES_LEN(n, count);
}

static inline size_t crewelmarsh_covariance_matrix_len(size_t n)
{
    return CREWELMARSH_COVARIANCE_MATRIX_LEN(n);
}

static inline size_t crewelmarsh_sums_out_len(size_t n)
{
    return CREWELMARSH_SUMS_OUT_LEN(n);
}

/*
 * Values and vectors of a symmetric matrix (Householder reduction, then QL passes).
 *
 * n          rows and columns, 0 to 256
 * limit      the most QL passes for any one value, 1 to 60
 * edition    1 or 2, see EDITIONS; archives hold 1
 * matrix     n * n, only read, and only on and below the diagonal: above it may stand anything, also NaN
 * work       n
 * result     n + n * n. On 0: the n values, ascending; then the vectors, an n by n matrix whose column j
 *            (cells n + i * n + j) belongs to value j
 *
 * Answers, the refusals in the order of the tests:
 *   0  count: passes run in all (0 for n = 0, and for a diagonal matrix)
 *   1, 2, 12
 *   6  place 0 matrix, 1 work, 2 result
 *   7  place i * n + j, the first such on or below the diagonal, row by row
 *   8, 9, 10 as the run meets them; after a pass mark 1 is looked at first, then the limit
 *   8, 10  place and index by the mark; count: passes run in all
 *      place 0, after the reduction to a tridiagonal matrix: its diagonal (n), the subdiagonal (n: cell i stands
 *               beside row i, cell 0 is 0), the transform (n * n)
 *      place 1, after a pass: the diagonal (n), the subdiagonal (n: cell i stands below diagonal cell i, the last
 *               is 0)
 *      place 2, after the last value, before they are sorted: the values (n), the vectors (n * n)
 *   9  place: the value being worked on, 0 to n - 1. Count: passes run in all
 */
struct crewelmarsh_answer crewelmarsh_symmetric_eigen(
    size_t n,
    size_t limit,
    size_t edition,
    const double *matrix, size_t matrix_len,
    double *work, size_t work_len,
    double *result, size_t result_len);

/*
 * The leading values and vectors of a symmetric matrix by one Lanczos run from a start vector: s steps at the most, s
 * the smaller of 2 * k + 20 and n, each with the vectors before it taken out twice, and symmetric_eigen of the
 * tridiagonal matrix that they make.
 *
 * n          rows and columns, 1 to 256
 * k          how many pairs, 0 to n
 * limit      the most QL passes for any one value of the tridiagonal matrix, 1 to 60
 * edition    1 or 2, see EDITIONS
 * matrix     n * n, only read. ALL of it is read, unlike by symmetric_eigen: above the diagonal the mirror of what
 *            stands below must stand, or else the pairs are those of no matrix
 * start      n, only read: any vector, best one with a part of every leading vector, as the same random numbers for all
 *            tiles. It is divided by its norm; where that is not above 2^-52 the run starts from 1 / root(n) throughout
 * work       s * n + 2 * n + 2 * s * s + 4 * s
 * answer     k + k * n. On 0: the k values, descending, then k rows of n, row t (from k + t * n on) the vector of value
 *            t. Where a step leaves a beta not above 1e-12 the run ends; if that is before k steps, `place` says how
 *            many pairs there are, and what they don't fill is +0.0
 *
 * What it saves is the time of symmetric_eigen, and in a block the rows that aren't carried; not the covariance before
 * it, which is most of the time then (see docs/C.md).
 *
 * The pairs are near those of symmetric_eigen where the values differ (8 leading values of 400 covariances are held to
 * 1e-8 of the greatest, and 6.4e-10 was the worst seen). What is proved is the bits, not how near they are.
 *
 * A value that stands more than once: without rounding one start vector would find it once, and so 2 * I with k = 2
 * gives place 1. With rounding it may come again, since 1e-12 is no part of the matrix's size: the noise of numbers as
 * large as a covariance's passes it, and the run goes on in a direction that rounding made. diag(5e6, 5e6, 1, 2) with
 * k = 2 gives place 2, from (1, 2, 3, 4) with values near 5e6 and 2, from (3, 1, 4, 1) near 5e6 twice. So neither the
 * place nor the values say how often a value stands: where that is needed, take symmetric_eigen.
 *
 * Answers, the refusals in the order of the tests:
 *   0  place: how many pairs were found, at most k. Count: passes of the inner symmetric_eigen
 *   1, 2, 12, 14, 15
 *   6  place 0 matrix, 1 start, 2 work, 3 answer
 *   7  place i * n + j in the matrix, or n * n + i in the start vector
 *   8, 9, 10 as the run meets them:
 *   8, 10  place 0, 1 and 2 are marks of the inner symmetric_eigen, with its index and count
 *      place 3, the norm of the start vector; index 0, count 0
 *      place 4, alpha, a step's diagonal number, and
 *      place 5, beta, the norm of what is left after it: index the step, from 0; count 0
 *      place 6, the answer: index the number in it; count: passes of the inner symmetric_eigen
 *   9  of the inner symmetric_eigen, with its place and count
 */
struct crewelmarsh_answer crewelmarsh_lanczos(
    size_t n,
    size_t k,
    size_t limit,
    size_t edition,
    const double *matrix, size_t matrix_len,
    const double *start, size_t start_len,
    double *work, size_t work_len,
    double *answer, size_t answer_len);

/*
 * The k greatest values of a symmetric_eigen result, descending, and a row of n for each: the layout of lanczos, from
 * exact columns. symmetric_eigen has COLUMNS and ascends, lanczos and leading have ROWS and descend: rows taken for
 * columns decode without an error and lose what the transform was to gain, and no answer tells. With this call a codec
 * has one layout, whichever of the two it uses.
 *
 * n          rows and columns of the matrix that was decomposed, 0 to 256
 * k          how many pairs, 0 to n
 * result     n + n * n, only read: as symmetric_eigen left it with answer 0
 * out        k + k * n. On 0: out[t] is result[n - 1 - t], and number i of row t, out[k + t * n + i], is
 *            result[n + i * n + (n - 1 - t)]. So of equal values the one that stands later in the result comes first.
 *            Nothing is computed: each number is a copy
 *
 * That the values ascend in the result is taken from symmetric_eigen, and not looked at: of other numbers the last k
 * are given, from the last one back.
 *
 * Answers:
 *   0
 *   1, 15, tested in this order
 *   6  place 0 result, 1 out
 *   7  place: index in the result, of which every number is looked at, also those that are not given
 */
struct crewelmarsh_answer crewelmarsh_leading(
    size_t n,
    size_t k,
    const double *result, size_t result_len,
    double *out, size_t out_len);

/*
 * ONE PASS AT A TIME
 *
 * symmetric_eigen in pieces. A start makes a run, a step takes it one QL pass further, and a finish gives the
 * result; with arrays that nobody touches in between it ends exactly as the one call does, with the same answer and
 * the same bits (T29), after at most limit * n steps. Each call takes the run's record by value and gives back the
 * next; the record holds no pointer and owns nothing, so that a run may be dropped at any time, or kept by a copy of
 * the record and of both arrays. Several runs go on side by side, each with arrays of its own, and each one thread's at
 * a time. A decode loop:
 *
 *     run = crewelmarsh_eigen_start(n, 60, edition, matrix, n * n, work, n, result, n + n * n);
 *     while (crewelmarsh_eigen_goes_on(run)) {
 *         run = crewelmarsh_eigen_step(run, work, n, result, n + n * n);
 *         ... a tile that waits ...
 *     }
 *     run = crewelmarsh_eigen_finish(run, work, n, result, n + n * n);
 *     if (run.answer.answer != CREWELMARSH_DONE) ...
 *
 * A step costs one pass: at n = 256 less than 0.1 ms of a run of 16 to 22 ms (docs/BENCHMARKS.md). The start costs
 * more, since the reduction is not divided: a quarter of the run or more. The finish looks once at each number, and
 * sorts: some 0.2 ms.
 *
 * While a run goes on its stop is 0, and its arrays hold no result: e stands in work, d in the first n numbers of
 * result, and behind them v column by column, so that cell (i, j) is at n + j * n + i. What symmetric_eigen says of the
 * arrays on 0, the vectors row by row, holds from the finish on. When a call ends the run (stop is not 0 then), it also
 * fills the arrays as symmetric_eigen does. A step or a finish of a run that has ended gives the record back as it was
 * and looks at no array (T31).
 *
 * What 13 does not see, and is the caller's affair: f, v, a d or an e before l (but the last e), the matrix, which is
 * read by the start alone, and any change from one number in range to another. Such a run goes on with what it finds,
 * ends in a number, and touches nothing but its arrays. A NaN or an infinity that a caller put into v comes through the
 * steps in result, and one in f in the record; a later mark answers 8 or 10 for what it finds in d, e or v.
 */

/* A run. Its fields are for reading: a program that changes one of a run still going gets 13, or another result. */
struct crewelmarsh_eigen_run {
    size_t n, limit, edition; /* as they were passed to the start */
    size_t l;      /* the value that is worked on, 0 to n; n where the last is done */
    size_t m;      /* where the matrix splits, l < m < n while passes are run at l */
    double f;      /* what has been shifted so far */
    double tst1;   /* the largest |d| + |e| so far */
    size_t passes; /* passes run at this l, 0 to limit - 1 */
    size_t count;  /* passes run in all */
    size_t stop;   /* 0 while the run goes on */
    size_t index;  /* 0 while the run goes on */
    struct crewelmarsh_answer answer; /* what the last call gave; while the run goes on 0, 0, 0 and the count so far */
};

/* Whether steps are left: the run has not ended, its last value is not done, and the last call was not refused. */
static inline int crewelmarsh_eigen_goes_on(struct crewelmarsh_eigen_run run)
{
    return run.stop == 0 && run.l < run.n && run.answer.answer == CREWELMARSH_DONE;
}

/*
 * Checks as symmetric_eigen does, and reduces the matrix; the parameters are the same, and the matrix is not looked at
 * again.
 *
 * Answers, the refusals in the order of the tests:
 *   0  the run goes on (for n = 0 it has ended)
 *   1, 2, 12, 6, 7, and 8 or 10 at mark 0: as in symmetric_eigen
 */
struct crewelmarsh_eigen_run crewelmarsh_eigen_start(
    size_t n,
    size_t limit,
    size_t edition,
    const double *matrix, size_t matrix_len,
    double *work, size_t work_len,
    double *result, size_t result_len);

/*
 * Values that have settled are skipped, and one pass is run; after the last value none is, and nothing changes.
 *
 * run        as the call before gave it
 * work       n, and result n + n * n, as the call before left them
 *
 * Answers, the refusals in the order of the tests:
 *   0  count: passes run so far
 *   6  place 0 work, 1 result
 *   13 and 6 change the answer alone
 *   8, 10  at mark 1, then 9: as in symmetric_eigen, and the run has ended
 */
struct crewelmarsh_eigen_run crewelmarsh_eigen_step(
    struct crewelmarsh_eigen_run run,
    double *work, size_t work_len,
    double *result, size_t result_len);

/*
 * Once the last value is done: looks at all numbers, sorts, and leaves the result. The run has ended then.
 *
 * Answers, the refusals in the order of the tests:
 *   0  the result is full; count: passes run in all
 *   6  place 0 work, 1 result
 *   13, also where a step is left; 13 and 6 change the answer alone
 *   8, 10  at mark 2, as in symmetric_eigen
 */
struct crewelmarsh_eigen_run crewelmarsh_eigen_finish(
    struct crewelmarsh_eigen_run run,
    double *work, size_t work_len,
    double *result, size_t result_len);

/*
 * The singular value decomposition of an m by n matrix, A = U * diag(values) * V^T (one-sided Jacobi).
 * Let r be the smaller of m and n.
 *
 * m, n       rows and columns, 0 to 256
 * want_u     whether U is wanted
 * want_vt    whether V^T is wanted
 * limit      the most sweeps, 1 to 60. The sweep that finds nothing to turn counts too
 * matrix     m * n, only read
 * work       max(m, n) * r + r * r + r
 * result     r, then m * r if U is wanted, then r * n if V^T is wanted. On 0: the values, descending;
 *            then U, an m by r matrix; then V^T, an r by n matrix. Where a value is 0, its column of U
 *            (for m < n its row of V^T) need not have length 1
 *
 * Answers, the refusals in the order of the tests:
 *   0  count: sweeps run, 1 or more
 *   1, 2
 *   6  place 0 matrix, 1 work, 2 result
 *   7  place: index in the matrix
 *   8, 9, 10 as the run meets them; after a sweep mark 1 is looked at first, then the limit
 *   8, 10  place and index by the mark; count: sweeps run. Let L be the larger of m and n
 *      place 1, after a sweep: the factor with L rows (L * r: the matrix, for m < n its transpose, turned so far),
 *               then the other (r * r: the turns so far)
 *      place 2, after the last sweep, before the values are sorted: the values (r), then both factors likewise,
 *               the first with its columns divided by their lengths
 *      So at place 1 index i * r + j is of column j; at place 2 index j below r is the length of column j
 *   9  place and count: sweeps run, which is the limit
 */
struct crewelmarsh_answer crewelmarsh_svd(
    size_t m,
    size_t n,
    size_t want_u,
    size_t want_vt,
    size_t limit,
    const double *matrix, size_t matrix_len,
    double *work, size_t work_len,
    double *result, size_t result_len);

/* `length` numbers of an array from index `start` on. */
struct crewelmarsh_extent {
    size_t start;
    size_t length;
};

/*
 * Where row j of V^T stands in an svd's result of result_len numbers: n numbers from an index on. Start and
 * length are 0 where j is not below r, V^T wasn't wanted, a dimension is over 256 or result_len is not the
 * length of such a result.
 */
struct crewelmarsh_extent crewelmarsh_vt_row_extent(
    size_t m,
    size_t n,
    size_t has_u,
    size_t has_vt,
    size_t result_len,
    size_t j);

/* Part of an array: `length` numbers from `start`. */
struct crewelmarsh_part {
    const double *start;
    size_t length;
};

/* Row j of V^T, as that part of an svd's result, with no copy; else the empty part at the array's start. */
static inline struct crewelmarsh_part crewelmarsh_vt_row(
    size_t m,
    size_t n,
    size_t has_u,
    size_t has_vt,
    const double *result, size_t result_len,
    size_t j)
{
    struct crewelmarsh_extent at = crewelmarsh_vt_row_extent(m, n, has_u, has_vt, result_len, j);
    struct crewelmarsh_part row;
    row.start = at.length == 0 ? result : result + at.start; /* C has no NULL + 0 */
    row.length = at.length;
    return row;
}

/*
 * The x of least length among those that make |A * x - right_side| least, from an svd of A.
 *
 * m, n       the dimensions of A, as passed to svd
 * has_u      the flags passed to svd; both must be yes
 * has_vt
 * tolerance  0 or above. A singular value counts only where it is above the tolerance. max(m, n) * 2^-52 times
 *            the largest value, decomposition[0], is usual; 0 or -0.0 takes all that are not 0; with +infinity
 *            none counts and the answer is all zeros
 * decomposition   the result of svd: r + m * r + r * n, only read
 * right_side m, only read
 * answer     n. On 0: x
 *
 * Answers, the refusals in the order of the tests, count always 0:
 *   0, 1, 3, 4, 5, 11
 *   6  place 0 decomposition, 1 answer
 *   7  place: index in the decomposition, or decomposition_len + index in the right side
 *   8, 10  place 2; index: in the answer as it was about to be given
 */
struct crewelmarsh_answer crewelmarsh_solve(
    size_t m,
    size_t n,
    size_t has_u,
    size_t has_vt,
    double tolerance,
    const double *decomposition, size_t decomposition_len,
    const double *right_side, size_t right_side_len,
    double *answer, size_t answer_len);

/*
 * The pseudo-inverse of A, an n by m matrix, from an svd of A.
 *
 * m, n, has_u, has_vt, tolerance, decomposition   as in solve
 * answer     n * m. On 0: the pseudo-inverse
 *
 * Answers, the refusals in the order of the tests, count always 0:
 *   0, 1, 3, 4, 11
 *   6  place 0 decomposition, 1 answer
 *   7  place: index in the decomposition
 *   8, 10  place 2; index: in the answer as it was about to be given, so row index / m, column index % m
 */
struct crewelmarsh_answer crewelmarsh_pseudo_inverse(
    size_t m,
    size_t n,
    size_t has_u,
    size_t has_vt,
    double tolerance,
    const double *decomposition, size_t decomposition_len,
    double *answer, size_t answer_len);

/*
 * The columns of an m by k matrix made orthonormal, from left to right (Gram-Schmidt, twice).
 *
 * m, k       rows and columns, 0 to 256; k may be above m
 * matrix     m * k, only read
 * answer     m * k. On 0: column j has length 1 up to rounding, or is all +0.0 where what was left of column j
 *            after the columns before it had a length not above 2^-52. Of a column that depends on those before
 *            it, as some do where k is above m, rounding is left: where that is longer it gets length 1 too, and
 *            need not be orthogonal to the others (docs/FINDINGS.md, 9)
 *
 * Answers, the refusals in the order of the tests, count always 0:
 *   0, 1
 *   6  place 0 matrix, 1 answer
 *   7  place: index in the matrix
 *   8, 10  place and index: the first column whose length is infinite, or a NaN
 */
struct crewelmarsh_answer crewelmarsh_qr_q(
    size_t m,
    size_t k,
    const double *matrix, size_t matrix_len,
    double *answer, size_t answer_len);

/*
 * TRANSFORM BLOCKS
 *
 * A block holds rows, columns and up to three parts: values, a matrix, its inverse. All numbers are big-endian. First
 * three u32: rows, columns, how many parts; then for each part three u32: its kind, the offset of its numbers from
 * the block's start, how many there are; then the numbers, 8 bytes each, with no gap. Kinds ascend, so there is
 * exactly one block for a content: two blocks hold the same exactly where their bytes are equal. A dimension may be 0.
 *
 * The order of the numbers: a matrix of k rows and n columns stands row by row, number (t, i) at t * n + i. Its inverse
 * has n rows and k columns, and stands row by row too, number (i, t) at i * k + t: for bands i = 0, 1, .. the k factors
 * of the band. That is how our programs have it; the format itself fixes how many numbers there are, which is the same
 * for both, and no call looks at them. So a block of k of n components has rows k and columns n.
 *
 * What a block costs beside the picture: 12 bytes, 12 for each part, 8 for each number. With the inverse alone, which
 * is all that a decoder needs: 16 bands 2,072 bytes, 64 bands 32,792, 256 bands 524,312; 8 of 256 components 16,408.
 * All three parts of 256 by 256 are 1,050,672. So carry the inverse alone, one block for the image and not one for each
 * tile unless tiles are large, and k of n components where the rest is noise.
 *
 * Lossless coding: a matrix of doubles can't be undone in whole numbers. Components that are rounded to whole numbers
 * come back with an error of 1 or so; to have the samples back exactly, code the difference beside them, or carry
 * fraction bits in the components, which costs most of what the transform gains (docs/C.md has figures).
 *
 * Blocks are arrays of unsigned char and need no alignment. Checking one reads its first 48 bytes at most. Every length
 * is tested before anything behind it is read, so that any bytes at all, cut or changed, may be passed.
 *
 * A NaN: each of its patterns is content like any other as long as a block is only passed on. As a double it is just a
 * NaN: block_write writes every NaN as 7ff8000000000000, and block_copy gives a NaN for every pattern of one, with no
 * word about its bits. Every other double, infinities and -0.0 too, is written and read bit for bit: look for a number
 * that is not finite before using what came from a file.
 */

/* The kinds of parts. */
enum {
    CREWELMARSH_VALUES = 1,  /* min(rows, columns) numbers */
    CREWELMARSH_MATRIX = 2,  /* rows * columns numbers, row by row */
    CREWELMARSH_INVERSE = 3  /* rows * columns numbers, row by row of the inverse, whose rows are the block's columns */
};

/* The longest block. */
enum { CREWELMARSH_BLOCK_MOST = 12 + 3 * 12 + 8 * (256 + 2 * 256 * 256) };

/* What block_check says. On every answer but 0 rows, columns and parts are 0. */
struct crewelmarsh_block {
    size_t answer;  /* 0, or 20 to 24 */
    size_t rows;
    size_t columns;
    size_t parts;   /* how many, 0 to 3 */
};

/*
 * Whether these bytes are a block, and its rows and columns.
 *
 * The answer is 0, or the first of these that is met: 20 (the first 12 bytes), 22 (rows, columns, how many parts), 20
 * (the entries), for each part 23, 22, 24, then 20 (the numbers), 21. The numbers aren't looked at.
 */
struct crewelmarsh_block crewelmarsh_block_check(const unsigned char *block, size_t block_len);

/* Where a part stands, and what block_check says of both blocks. All but the two answers are 0 where neither block has
   the part. */
struct crewelmarsh_block_part {
    size_t block;        /* 1 the tile's own, 2 the main one */
    size_t start;        /* the offset in that block */
    size_t count;        /* how many numbers; their bytes are 8 times as many */
    size_t rows;         /* that block's */
    size_t columns;      /* that block's */
    size_t own_answer;   /* block_check's for the tile's own block: 0, or 20 to 24; of no bytes 20 */
    size_t main_answer;  /* the same for the main block */
};

/*
 * The part of a kind from the tile's own block where it has one, else from the main block. A block that block_check
 * refuses has none, so that for a tile without a block own is NULL with own_len 0. A kind other than 1, 2 and 3 is in
 * no block.
 *
 * So an own block that is refused, and one wrong byte may do, gives the main one's part: where own_len is not 0,
 * test own_answer. And test rows and columns, not count alone: 1 by 4 and 2 by 2 have as many numbers.
 */
struct crewelmarsh_block_part crewelmarsh_block_find(
    const unsigned char *own, size_t own_len,
    const unsigned char *main_block, size_t main_len,
    size_t kind);

/* A part of a block. */
struct crewelmarsh_bytes {
    const unsigned char *start;
    size_t length;
};

/* The same part as bytes, with no copy: its length is 8 times its count. Where neither block has one it is the main
   block's empty start. */
static inline struct crewelmarsh_bytes crewelmarsh_block_bytes(
    const unsigned char *own, size_t own_len,
    const unsigned char *main_block, size_t main_len,
    size_t kind)
{
    struct crewelmarsh_block_part at = crewelmarsh_block_find(own, own_len, main_block, main_len, kind);
    struct crewelmarsh_bytes part;
    part.start = at.block == 0 ? main_block : at.block == 1 ? own + at.start : main_block + at.start;
    part.length = 8 * at.count;
    return part;
}

/*
 * The numbers of that part as doubles.
 *
 * out        as many as the part has, which block_find says: 0 where neither block has one
 *
 * Answers, index and count always 0:
 *   0  place: block_check's answer for the tile's own block. 0: it is a block; 20 to 24: it is refused, or with
 *      own_len 0 there is none (20), and the numbers, if any, are the main block's
 *   6  place 0: out_len is not the part's count. out is untouched
 *
 * A refused block has no part and gives no refusal of its own here.
 */
struct crewelmarsh_answer crewelmarsh_block_copy(
    const unsigned char *own, size_t own_len,
    const unsigned char *main_block, size_t main_len,
    size_t kind,
    double *out, size_t out_len);

/*
 * How many bytes the block of rows, columns and the first `parts` of these kinds has; 0 where block_write refuses it
 * with 22 or 23. Kinds behind the first `parts` aren't looked at.
 */
size_t crewelmarsh_block_length(size_t rows, size_t columns, size_t parts, size_t kind1, size_t kind2, size_t kind3);

/*
 * Writes the block of rows, columns and the first `parts` of three parts, each by its kind and its numbers. What is
 * behind the first `parts` isn't looked at, and may be 0, NULL, 0.
 *
 * rows, columns   0 to 256
 * parts           0 to 3
 * kind1 ..        ascending
 * numbers1 ..     as many as the kind has, only read
 * out             as many bytes as block_length says. On 0: the block
 *
 * Answers, place, index and count always 0, the refusals in the order of the tests; all but 0 leave out untouched:
 *   0
 *   22 rows, columns, parts
 *   23, 22 for each part
 *   6  out_len is not the block's length
 */
struct crewelmarsh_answer crewelmarsh_block_write(
    size_t rows,
    size_t columns,
    size_t parts,
    size_t kind1, const double *numbers1, size_t len1,
    size_t kind2, const double *numbers2, size_t len2,
    size_t kind3, const double *numbers3, size_t len3,
    unsigned char *out, size_t out_len);

/*
 * COVARIANCE
 *
 * The covariances of n bands of N samples each, by N * N: the entry for bands x and y is N times the sum of x * y,
 * less the product of their sums, worked out exactly in whole numbers and given without rounding (T21). So it is the
 * same on every machine, and the matrix is symmetric bit for bit (T20). Its eigenvectors are the covariance's, its
 * eigenvalues N * N times as large.
 *
 * n          bands, 0 to 256
 * count      N, the samples of each band, 1 to 65,536, also where n is 0
 * samples    n * N, only read, band by band: sample k of band x is at x * N + k. Aligned for int16_t. The length
 *            counts samples
 * matrix     n * n. On 0: the matrix, whole numbers of at most 2^53 in magnitude. No number on the diagonal is
 *            negative. symmetric_eigen takes it: with a limit, an edition and lengths that are right it answers 0, 8, 9
 *            or 10 (T23)
 *
 * 26 in ordinary use: an entry on the diagonal is N * N times the band's variance, so that with 65,536 samples a band
 * whose deviation is above some 1,448 is refused, as one of 14 bits may be. Take every second sample in both directions
 * and call again: a quarter of the samples, and four times the deviation is taken (5,792; then 23,170; the third time
 * any). Or begin with every second one, which costs a quarter. A refused call has added up all bands once and done the
 * entries up to the refused one: where the first band is over that is little, where the last is it is the whole call.
 *
 * Answers, index and count always 0, the refusals in the order of the tests:
 *   0
 *   1  n is over 256
 *   25 N is not 1 to 65,536
 *   6  place 0 samples, 1 matrix
 *   26 place x * n + y: the first entry over 2^53, row by row, so x is not above y. The matrix is all +0.0
 * 1, 25 and 6 leave the matrix untouched.
 */
struct crewelmarsh_answer crewelmarsh_covariance(
    size_t n,
    size_t count,
    const int16_t *samples, size_t samples_len,
    double *matrix, size_t matrix_len);

/*
 * The sums of n bands of N samples each, exactly (T45 of docs/PROMISES.md): out[x] / N is the mean of band x, rounded
 * once. With them the matrices of parts of an image are made one (docs/C.md, "Means, and parts of an image").
 *
 * n          bands, 0 to 256
 * count      N, the samples of each band, 1 to 65,536, also where n is 0
 * samples    n * N, only read, as of crewelmarsh_covariance
 * out        n. On 0: the sums, whole numbers of at most 2^31 in magnitude; 0 is +0.0
 *
 * Answers, index and count always 0:
 *   0
 *   1  n is over 256
 *   25 N is not 1 to 65,536
 *   6  place 0 samples, 1 out
 * The tests run in this order: 25 comes before 6. All but 0 leave out untouched.
 */
struct crewelmarsh_answer crewelmarsh_sums(
    size_t n,
    size_t count,
    const int16_t *samples, size_t samples_len,
    double *out, size_t out_len);

/*
 * THE STORE
 *
 * A store keeps blocks of bytes, any bytes, under tile numbers 0 to 65,535, each given back just as it was put. It has
 * two owners, 0 and 1, as two images that are decoded at a time: each has up to 32 blocks, and a quota of the buffer's
 * bytes that is fixed at setup. Tile numbers are per owner. A block may be empty.
 *
 * An owner's calls answer as a plain map from tiles to bytes does, whatever the other one puts and drops in between,
 * and no call changes a byte of the other's part (T27 and T28), as long as nothing else writes into the three arrays.
 * With one image, use owner 0 with the whole buffer as its quota, and 0 for the other.
 *
 * One thread at a time, both owners together: each call reads and writes the same three arrays.
 *
 * The caller lends these to each call, and nothing is kept elsewhere:
 *
 *     list    70 numbers: the room, which is the buffer's length; then for each owner 34: its quota, how many blocks it
 *             holds, a length for each of 32 entries; last what the quotas leave over of the room
 *     tiles   64 numbers: a tile for each entry of owner 0, then of owner 1
 *     bytes   the buffer, as long as at setup: first owner 0's bytes, as many as its quota, then owner 1's. Each has
 *             its blocks and nothing else, one behind the other
 *
 * They need no old contents before setup. (gcc may warn of local arrays that were never written: setup takes tiles and
 * bytes as const and looks at their lengths alone, and `= {0}` quietens it.) list[2] and list[36] are how many blocks
 * each holds, and may be read at any time. All arrays may be copied or moved to other memory between two calls.
 *
 * The room of a dropped block is free at once: the owner's blocks behind it move down. So a pointer into the buffer is
 * of no use after a drop. Each call looks the owner's list through first, and then for the tile: less than a
 * microsecond.
 *
 * What fits. The buffer has 65,536 bytes at most, and so has a block. The most bands n of which a block of n by n fits:
 *
 *     parts of the block           whole buffer   half of it   a quarter
 *     the inverse alone                      90           63          45
 *     values and inverse                     89           63          44
 *     matrix and inverse                     63           45          31
 *     all three                              63           44          31
 *
 * So above 90 bands no n by n matrix fits, and 32 blocks at a time in a whole buffer have 15 bands at the most. Of k of
 * 256 components the inverse fits up to k = 31, in half a buffer up to 15. What to do above that: carry k of n
 * components; or one block for the image, which stands outside of the store; or keep the blocks in memory of your own
 * and put under the tile what finds them, as a number of 8 bytes: the store takes any bytes.
 *
 * Where something else wrote into the arrays, this is seen, with 39 (T44):
 *
 *   - one of list[0], list[1], list[35] and list[69] (room, quotas, what they leave over) is another number, and the
 *     other three are as they were, whatever else is changed: by every call of either owner, and by a reset
 *   - an owner's list says that more than 32 are held, that they exceed its quota, or a tile twice: by each call of
 *     that owner, and by a reset. The other owner's calls go on
 *
 * This isn't: two or three of list[1], list[35] and list[69] changed so that they still add up to the room; an owner's
 * list that still says at most 32 different tiles within its quota (another length, another tile number, a block fewer
 * or more); the buffer's bytes. The store then answers as the map that the arrays show, whoever wrote it. In any case
 * no call of an owner changes or gives back a byte outside of what list[1] and list[35] say is its part.
 */
enum {
    CREWELMARSH_STORE_OWNERS = 2,
    CREWELMARSH_STORE_ENTRIES_MOST = 32,
    CREWELMARSH_STORE_LIST_LEN = 1 + 2 * (2 + 32) + 1,
    CREWELMARSH_STORE_TILES_LEN = 2 * 32,
    CREWELMARSH_STORE_BYTES_MOST = 65536,
    CREWELMARSH_TILE_MOST = 65535 /* the greatest tile number */
};

/*
 * Makes a tile number of n. It gives 1 where n is one, and puts it into *tile; 0 where n is above
 * CREWELMARSH_TILE_MOST, and leaves *tile as it is. A tile number has 16 bits, and C converts a larger number to one
 * without a word: a put under 65,543 is a put under tile 7. A negative int is a huge size_t, and gives 0 too.
 */
static inline int crewelmarsh_tile(size_t n, uint16_t *tile)
{
    if (n > CREWELMARSH_TILE_MOST)
        return 0;
    *tile = n & CREWELMARSH_TILE_MOST; /* as it is; so no compiler warns */
    return 1;
}

/*
 * An empty store over this buffer, whatever the arrays held before. The quotas may leave bytes over.
 *
 * Answers, place, index and count always 0, the refusals in the order of the tests:
 *   0
 *   37 bytes_len is over 65,536
 *   35 quota0 and quota1 together are over bytes_len
 *   39 list_len is not 70 or tiles_len not 64
 * Only 0 writes, and only to six numbers of the list.
 */
struct crewelmarsh_answer crewelmarsh_store_setup(
    size_t quota0,
    size_t quota1,
    size_t *list, size_t list_len,
    const uint16_t *tiles, size_t tiles_len,
    const unsigned char *bytes, size_t bytes_len);

/*
 * Puts a block under a tile of which the owner has none.
 *
 * tile       0 to 65,535; C cuts a larger number to 16 bits before the call, see crewelmarsh_tile
 *
 * Answers, place, index and count always 0, the refusals in the order of the tests; all but 0 leave everything
 * untouched:
 *   0, 34, 39, 31, 33, 30
 */
struct crewelmarsh_answer crewelmarsh_store_put(
    size_t owner,
    size_t *list, size_t list_len,
    uint16_t *tiles, size_t tiles_len,
    unsigned char *bytes, size_t bytes_len,
    uint16_t tile,
    const unsigned char *block, size_t block_len);

/*
 * How long a tile's block is: `count`, on 0.
 *
 * Answers, place and index always 0, the refusals in the order of the tests: 0, 34, 39, 32
 */
struct crewelmarsh_answer crewelmarsh_store_length(
    size_t owner,
    const size_t *list, size_t list_len,
    const uint16_t *tiles, size_t tiles_len,
    const unsigned char *bytes, size_t bytes_len,
    uint16_t tile);

/*
 * Copies a tile's block to `out`, which is as long as the block.
 *
 * Answers, place, index and count always 0, the refusals in the order of the tests; all but 0 leave out untouched:
 *   0, 34, 39, 32
 *   6  out_len is not the block's length
 */
struct crewelmarsh_answer crewelmarsh_store_fetch(
    size_t owner,
    const size_t *list, size_t list_len,
    const uint16_t *tiles, size_t tiles_len,
    const unsigned char *bytes, size_t bytes_len,
    uint16_t tile,
    unsigned char *out, size_t out_len);

/*
 * Drops a tile's block.
 *
 * Answers, place, index and count always 0, the refusals in the order of the tests; all but 0 leave everything
 * untouched:
 *   0, 34, 39, 32
 */
struct crewelmarsh_answer crewelmarsh_store_drop(
    size_t owner,
    size_t *list, size_t list_len,
    uint16_t *tiles, size_t tiles_len,
    unsigned char *bytes, size_t bytes_len,
    uint16_t tile);

/*
 * Drops all blocks of both owners. It belongs to neither, and looks both lists through as their own calls do: where
 * either is damaged it is refused, and setup empties both.
 *
 * Answers, place, index and count always 0: 0, 39. Only 0 writes, and only to the list.
 */
struct crewelmarsh_answer crewelmarsh_store_reset(
    size_t *list, size_t list_len,
    const uint16_t *tiles, size_t tiles_len,
    const unsigned char *bytes, size_t bytes_len);

/*
 * THE TALLY
 *
 * The figures of a run of tiles, for tuning the limit: a tile is the answer and the count of a call of symmetric_eigen.
 * lanczos' may be added too, and a run in steps' last: their answers are 15 at the most, their passes 15,360. (svd's
 * would be counted as well, with sweeps for passes: keep it in a tally of its own.) After any series of tiles added to
 * an empty tally each figure is the one counted from the list of those that were not refused (T32). The caller keeps
 * the tally, in a struct of 20 numbers that may be copied, read and printed at any time; it is one thread's at a time.
 */
struct crewelmarsh_tally {
    size_t tiles;      /* how many were added, up to 65,536 */
    size_t counts[16]; /* how many with each answer, 0 to 15 */
    size_t passes;     /* the passes of all */
    size_t most;       /* the most passes of one */
    size_t first;      /* the first tile that had so many, counted from 0. 0, as most is, where there is none */
};

/* The empty tally: struct crewelmarsh_tally tally = CREWELMARSH_TALLY_EMPTY; */
#define CREWELMARSH_TALLY_EMPTY {0, {0}, 0, 0, 0}

/*
 * Adds a tile to the tally.
 *
 * tally      aligned for size_t, and not NULL: it is the one pointer without a length. It may hold anything
 * answer     0 to 15
 * passes     0 to 15,360, which is 256 values of 60 passes
 *
 * What comes back is 38, 36 or 0: first 38 is tested, then 36. Both leave the tally untouched. In a series from an
 * empty tally, with nothing else writing into it, 36 comes for every tile in range behind the 65,536th that was added,
 * and for none before.
 */
size_t crewelmarsh_tally_add(struct crewelmarsh_tally *tally, size_t answer, size_t passes);

#ifdef __cplusplus
}
#endif

#endif
