/* A second Najluthed, written from the scope alone and as plainly as it goes: all pairs of points, every cell of every tick. */
#ifndef REFERENCE_H
#define REFERENCE_H

#include <stddef.h>
#include <stdint.h>

#define MOST_POINTS 1024

struct stream {
    int d[4];
    int kind, rule, a, b;
    /* of the mapping */
    long hd, sd[2], g, e[2], w;
};

struct job {
    int n, k, m;
    int low[4], high[4];
    struct stream stream[4];
    int time[4], row[2][4];
    /* the points in box order, with the time and the place of each */
    int points;
    int x[MOST_POINTS][4];
    long h[MOST_POINTS], s[MOST_POINTS][2];
    /* sizes */
    long first, ticks, corner[2], side[2];
    uint64_t cells, room;
};

struct verdict {
    unsigned number, stream;
    long hops;
    /* the pair of 11 and 12, by its places in box order */
    int p, q;
};

/* Refusals 1 to 8, or 0 and the job. */
unsigned reference_read(const uint8_t *bytes, size_t length, struct job *j);

/* The verdict on a job that was read; where its number is 0 the sizes are set too. */
struct verdict reference_verdict(struct job *j);

/* The printed line of a verdict: of a job that was read, or of a refusal by 1 to 8. At most 200 bytes. */
void reference_line(const struct job *j, struct verdict v, char *line);

/* One tick of an accepted job. */
void reference_tick(const struct job *j, long t, const uint32_t *input, uint32_t *values, uint32_t *places);

/* The loop nest of a job that was read. */
void reference_loop(const struct job *j, const uint32_t *input, uint32_t *values);

/* The place in box order of the point worked in a tick at a cell of an accepted job, or -1. */
int reference_point(const struct job *j, uint64_t t, uint64_t cell);

#endif
