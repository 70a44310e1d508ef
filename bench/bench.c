/*
 * The library against plain C, on the same jobs in one run. A line for each job: its name, the microseconds of a verdict, as a multiple of
 * the plain and of the quick walk's, all pairs' as a multiple of it; the microseconds of a run, as a multiple of the plain and of the quick one's.
 */
#define _POSIX_C_SOURCE 199309L
#include "najluthed.h"
#include "plain.h"

#include <stdio.h>
#include <stdlib.h>
#include <string.h>
#include <time.h>

static double now(void) {
    struct timespec t;
    clock_gettime(CLOCK_MONOTONIC, &t);
    return t.tv_sec * 1e6 + t.tv_nsec / 1e3;
}

static size_t bytes_of(const plain_job *j, uint8_t *out) {
    int n = j->n, at_streams = 16 + 2 * n, at_matrices = at_streams + j->m * (n + 4), total = at_matrices + (1 + j->k) * n;
    uint8_t head[16] = {1, 0, n, j->k, j->m, 0, 16, 0, at_streams, 0, at_matrices, 0, total, 0, 0, 0};
    uint8_t *p = out;
    memcpy(p, head, 16);
    p += 16;
    for (int i = 0; i < n; i++) {
        *p++ = j->low[i];
        *p++ = j->high[i];
    }
    for (int s = 0; s < j->m; s++) {
        for (int i = 0; i < n; i++) *p++ = j->d[s][i];
        *p++ = j->kind[s];
        *p++ = j->rule[s];
        *p++ = j->a[s];
        *p++ = j->b[s];
    }
    for (int i = 0; i < n; i++) *p++ = j->time[i];
    for (int r = 0; r < j->k; r++)
        for (int i = 0; i < n; i++) *p++ = j->row[r][i];
    return total;
}

static uint32_t input[4096], values[4096], places[8192], others[4096], room[8192];

/* What is timed, and how many calls make a round. */
enum { VERDICT, WALK, QUICK_WALK, PAIRS, RUN, PLAIN_RUN, QUICK_RUN, KINDS };
static const int turns[] = {20, 20, 20, 2, 5, 5, 5};

typedef struct {
    const plain_job *j;
    uint8_t job[80];
    size_t length, table;
} trial;

/* One call. A run is the verdict and, if that is 0, the ticks. */
static uint64_t called(int kind, const trial *t) {
    switch (kind) {
    case VERDICT: return najluthed_verdict(t->job, t->length).number;
    case WALK: return (uint64_t)plain_walk(t->j);
    case QUICK_WALK: return (uint64_t)quick_walk(t->j);
    case PAIRS: return (uint64_t)all_pairs(t->j);
    case RUN: return najluthed_run(t->job, t->length, input, t->table, values, t->table, places, 8192).count;
    case PLAIN_RUN: return plain_walk(t->j) ? 0 : plain_run(t->j, input, others, room);
    default: return quick_walk(t->j) ? 0 : quick_run(t->j, input, others, room);
    }
}

/* Whether a run of plain C leaves the values and places of ours. */
static int is_same_run(int kind, const trial *t, uint64_t ticks, size_t used) {
    memset(others, 1, sizeof others);
    memset(room, 1, sizeof room);
    return called(kind, t) == ticks && !memcmp(values, others, t->table * sizeof *values) && !memcmp(places, room, used * sizeof *places);
}

/* One job: its line of ratios, tab after tab, and whether a reply differs. The time of a call is the least of eight rounds, which take turns: what the machine does beside it only adds. */
static int tried(const char *name, const plain_job *j) {
    trial t = {j, {0}, 0, (size_t)j->m};
    t.length = bytes_of(j, t.job);
    for (int i = 0; i < 4; i++) t.table *= (size_t)(j->high[i] - j->low[i] + 1);
    for (size_t i = 0; i < t.table; i++) input[i] = (uint32_t)i + 1;
    int wrong = called(VERDICT, &t) || called(WALK, &t) || called(QUICK_WALK, &t) || called(PAIRS, &t);
    uint64_t ticks = called(RUN, &t), used = najluthed_room(t.job, t.length).count;
    wrong |= !is_same_run(PLAIN_RUN, &t, ticks, used) || !is_same_run(QUICK_RUN, &t, ticks, used);
    double least[KINDS];
    uint64_t sum = 0;
    for (int round = 0; round < 8; round++)
        for (int kind = 0; kind < KINDS; kind++) {
            double from = now();
            for (int i = 0; i < turns[kind]; i++) sum += called(kind, &t);
            double took = (now() - from) / turns[kind];
            if (round == 0 || took < least[kind]) least[kind] = took;
        }
    wrong |= sum != 8 * 15 * ticks;
    printf("%s\t%f\t%f\t%f\t%f\t%f\t%f\t%f\n", name, least[VERDICT], least[VERDICT] / least[WALK], least[VERDICT] / least[QUICK_WALK],
           least[PAIRS] / least[VERDICT], least[RUN], least[RUN] / least[PLAIN_RUN], least[RUN] / least[QUICK_RUN]);
    return wrong;
}

/* Jobs drawn at random, fixed seed, until so many with at least 256 points are accepted and fit the places. */
static uint32_t seed = 7;
static int drawn(int low, int high) {
    seed = seed * 1664525u + 1013904223u;
    return low + (int)((seed >> 8) % (uint32_t)(high - low + 1));
}

static int forward(const int *d) {
    for (int i = 0; i < 4; i++)
        if (d[i]) return d[i] > 0;
    return 0;
}

static plain_job any_job(void) {
    plain_job j = {0};
    j.n = drawn(2, 3);
    j.k = drawn(1, j.n - 1);
    j.m = drawn(1, 3);
    for (int i = 0; i < j.n; i++) j.high[i] = drawn(7, j.n == 2 ? 31 : 9);
    for (int s = 0; s < j.m; s++) {
        do
            for (int i = 0; i < j.n; i++) j.d[s][i] = drawn(-1, 1);
        while (!forward(j.d[s]));
        j.kind[s] = drawn(0, 1);
        j.rule[s] = drawn(0, 2);
        if (j.rule[s]) {
            j.a[s] = drawn(0, j.m - 1);
            j.b[s] = drawn(0, j.m - 1);
        }
    }
    for (int i = 0; i < j.n; i++) j.time[i] = drawn(0, 3);
    for (int r = 0; r < j.k; r++)
        for (int i = 0; i < j.n; i++) j.row[r][i] = drawn(-1, 1);
    return j;
}

static plain_job accepted_job(void) {
    for (;;) {
        plain_job j = any_job();
        uint8_t job[80];
        size_t length = bytes_of(&j, job), points = 1;
        for (int i = 0; i < 4; i++) points *= j.high[i] - j.low[i] + 1;
        najluthed_done r = najluthed_room(job, length);
        if (points >= 256 && r.number == 0 && r.count <= 8192) return j;
    }
}

int main(void) {
    const plain_job jobs[] = {
        {2, 1, 3, {0}, {31, 31}, {{1, 0}, {0, 1}, {1, 1}}, {0}, {0, 0, 1}, {0, 0, 0}, {0, 0, 1}, {1, 1}, {{0, 1}}},
        {2, 1, 3, {0}, {31, 31}, {{1, 0}, {0, 1}, {1, 1}}, {0, 0, 1}, {0, 0, 1}, {0, 0, 0}, {0, 0, 1}, {2, 1}, {{1, 0}}},
        {3, 2, 3, {0}, {9, 9, 9}, {{0, 1, 0}, {1, 0, 0}, {0, 0, 1}}, {0}, {0, 0, 1}, {0, 0, 0}, {0, 0, 1}, {1, 1, 1}, {{1, 0, 0}, {0, 1, 0}}},
        {3, 2, 3, {0}, {9, 9, 9}, {{0, 1, 0}, {1, 0, 0}, {0, 0, 1}}, {0}, {0, 0, 1}, {0, 0, 0}, {0, 0, 1}, {1, 1, 1}, {{1, 0, -1}, {0, 1, -1}}},
    };
    const char *names[] = {"32x32 through", "32x32 one local", "10x10x10 square", "10x10x10 moving"};
    int wrong = 0;
    for (int i = 0; i < 4; i++) wrong |= tried(names[i], &jobs[i]);
    for (int i = 0; i < 4; i++) {
        plain_job j = accepted_job();
        char name[64];
        snprintf(name, sizeof name, "drawn %d: %dx%dx%d, m %d", i, j.high[0] + 1, j.high[1] + 1, j.high[2] + 1, j.m);
        wrong |= tried(name, &j);
    }
    if (wrong) fputs("bench: the replies differ\n", stderr);
    return wrong;
}
