/*
 * Najluthed: a verified checker for systolic-array designs, as a static library.
 *
 *     (cd crates/najluthed && rt lib)         makes crates/najluthed/out/libnajluthed.a (x86-64 Linux)
 *     gcc -Iinclude mine.c crates/najluthed/out/libnajluthed.a
 *
 * Every function takes the bytes of a job file and answers in numbers, for all bytes and all lengths of table: `number` is the
 * number of refusal, and 0 where there is none. The checks are made in the order of the numbers:
 *
 *      1  fewer than 16 bytes
 *      2  the form is not 1
 *      3  n, k or m out of range, or a zero byte not zero
 *      4  an offset or the total not by the formulas
 *      5  the bytes given differ in number from the total
 *      6  a bound of -128, a lower bound over its upper one, or over 1,024 points
 *      7  a stream breaks its limits: an entry of d beyond 15 in size, d not led by a positive entry or its gcd not 1,
 *         or a kind, a rule or a source that there is not, or a source of rule 0 that is not 0
 *      8  an entry of -128 in the time row or a place row
 *      9  precedence: a stream with Hd < 1
 *     10  hop: a moving stream with Hd no multiple of g, the gcd of Sd
 *     11  cell: two points in one cell at one tick
 *     12  link: two tokens of one stream on one link at one tick
 *     13  the input or the value table is not m x points long
 *     14  the room R is over 8,192
 *     15  fewer than R places are lent
 *     16  the number of a single tick is not below the tick count
 *
 * What is altered. A refusal alters nothing that was lent, save that najluthed_line writes its line. The job and the input are
 * never altered. Otherwise:
 *     najluthed_run    writes every value, and the first R places; no place past them;
 *     najluthed_tick   writes the values of the points worked in that tick, and one place for each stream and cell;
 *     najluthed_loop   writes every value;
 *     najluthed_line   writes the line to the front of the buffer; no byte behind it.
 *
 * Tables hold stream by stream, points in box order (the first coordinate most significant). Places hold stream by stream,
 * cell by cell (row-major), w places each.
 *
 * What the caller owes. Each table is a pointer and its length in elements, not bytes; the elements are there, aligned, and no
 * table that a call may write overlaps another one of that call. A pointer is not null, even where the length is 0. There is no
 * state: calls may run at once on tables that are apart. Nothing is allocated, and the only functions asked of the C library are
 * memcpy and memset.
 *
 * Each function is proved to meet a contract that says, for all it may be lent, its reply and what the tables then hold:
 * crates/najluthed/src/lib.rt. What the caller owes is not checked, here or there.
 */
#ifndef NAJLUTHED_H
#define NAJLUTHED_H

#include <stddef.h>
#include <stdint.h>

#ifdef __cplusplus
extern "C" {
#endif

/* The room that a run never passes: places for so many suffice for every job that 14 does not refuse. */
#define NAJLUTHED_MOST_ROOM 8192

/* The bytes of the longest job file. One byte more of a longer file suffices to have it refused, with the same number. */
#define NAJLUTHED_LONGEST_JOB 68

/* The bytes that a buffer for the line must have. No line, with its newline, is longer. */
#define NAJLUTHED_LONGEST_LINE 269

/* A verdict. `stream` is that of 9, 10 and 12, `hops` that of 12, with its sign; they are 0 where there is none. */
typedef struct {
    uint32_t number;
    uint32_t stream;
    int64_t hops;
} najluthed_reply;

/* The number of refusal, and a count: what it counts is said at each function. */
typedef struct {
    uint32_t number;
    uint64_t count;
} najluthed_done;

/*
 * The sizes of a job. `dimensions` is n, `streams` m and `points` how many points the box has: of every job that 1 to 8 do not
 * refuse, so that a table has streams x points elements. `cells`, `ticks` and `room`, which is R, are those of an accepted job.
 * Where there is none, each is 0.
 */
typedef struct {
    uint32_t number;
    uint32_t dimensions;
    uint32_t streams;
    uint64_t points;
    uint64_t cells;
    uint64_t ticks;
    uint64_t room;
} najluthed_extent;

/* A point: `found` is 1 where there is one, and then x0 to x3 are its coordinates, 0 from the n-th on. Else `found` and x0 to x3 are 0. */
typedef struct {
    uint32_t number;
    uint32_t found;
    int64_t x0;
    int64_t x1;
    int64_t x2;
    int64_t x3;
} najluthed_worked;

/* Whether the array can be built. Numbers 1 to 12. */
najluthed_reply najluthed_verdict(const uint8_t *job, size_t length);

/* How many places a run needs: the count is R, and 0 for a refusal. Numbers 1 to 12. */
najluthed_done najluthed_room(const uint8_t *job, size_t length);

/* How large the job is, and so how long its tables are. Numbers 1 to 12. */
najluthed_extent najluthed_sizes(const uint8_t *job, size_t length);

/*
 * The line that the checking program prints, in ASCII, closed by a newline and no zero byte; the answer is its length. A buffer
 * of fewer than NAJLUTHED_LONGEST_LINE bytes stays as it is, and the answer is 0.
 */
size_t najluthed_line(const uint8_t *job, size_t length, uint8_t *out, size_t out_count);

/*
 * The first R places are cleared, then every tick is done in order. The count is the tick count; R for 14 and 15; else 0.
 * Numbers 1 to 15.
 */
najluthed_done najluthed_run(const uint8_t *job, size_t length, const uint32_t *input, size_t inputs, uint32_t *values,
                             size_t value_count, uint32_t *places, size_t place_count);

/*
 * One tick, from the places as they are. The count is the tick count; R for 14 and 15; else 0. Numbers 1 to 16.
 */
najluthed_done najluthed_tick(const uint8_t *job, size_t length, uint64_t tick, const uint32_t *input, size_t inputs,
                              uint32_t *values, size_t value_count, uint32_t *places, size_t place_count);

/*
 * The plain loop nest, points in box order; the array need not be one that can be built. The count is the point count, and 0
 * for a refusal. Numbers 1 to 8 and 13.
 */
najluthed_done najluthed_loop(const uint8_t *job, size_t length, const uint32_t *input, size_t inputs, uint32_t *values,
                              size_t value_count);

/* The point worked in a tick at a cell (its place in row-major order); none is found past the last of either. Numbers 1 to 12. */
najluthed_worked najluthed_point(const uint8_t *job, size_t length, uint64_t tick, uint64_t cell);

#ifdef __cplusplus
}
#endif

#endif
