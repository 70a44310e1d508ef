#include "reference.h"

#include <stdio.h>
#include <stdlib.h>
#include <string.h>

static int entry(uint8_t byte) { return byte < 128 ? byte : byte - 256; }

static unsigned pair(const uint8_t *bytes) { return bytes[0] + 256u * bytes[1]; }

static long gcd(long a, long b) {
    a = labs(a);
    b = labs(b);
    while (b != 0) {
        long r = a % b;
        a = b;
        b = r;
    }
    return a;
}

static int within(long x, long low, long high) { return low <= x && x <= high; }

/* 'Streams m': its line and the rules. */
static int stream_is_good(const struct job *j, const struct stream *t) {
    long g = 0;
    int leading = 0;
    for (int i = 0; i < j->n; i++) {
        if (!within(t->d[i], -15, 15)) {
            return 0;
        }
        if (leading == 0) {
            leading = t->d[i];
        }
        g = gcd(g, t->d[i]);
    }
    if (leading <= 0 || g != 1 || !within(t->kind, 0, 1)) {
        return 0;
    }
    if (t->rule == 0) {
        return t->a == 0 && t->b == 0;
    }
    return within(t->rule, 1, 2) && within(t->a, 0, j->m - 1) && within(t->b, 0, j->m - 1);
}

/* 'Box order is lexicographic, first coordinate most significant.' */
static void list_points(struct job *j) {
    int x[4] = {0, 0, 0, 0};
    memcpy(x, j->low, sizeof x);
    for (;;) {
        memcpy(j->x[j->points++], x, sizeof x);
        int i = j->n - 1;
        while (i >= 0 && x[i] == j->high[i]) {
            x[i] = j->low[i];
            i--;
        }
        if (i < 0) {
            return;
        }
        x[i]++;
    }
}

unsigned reference_read(const uint8_t *bytes, size_t length, struct job *j) {
    memset(j, 0, sizeof *j);
    if (length < 16) {
        return 1;
    }
    if (pair(bytes) != 1) {
        return 2;
    }
    int n = bytes[2], k = bytes[3], m = bytes[4];
    if (!within(n, 1, 4) || !within(k, 1, 2) || !within(m, 1, 4) || bytes[5] != 0 || pair(bytes + 14) != 0) {
        return 3;
    }
    unsigned box = 16, streams = box + 2 * n, matrices = streams + m * (n + 4), total = matrices + (1 + k) * n;
    if (pair(bytes + 6) != box || pair(bytes + 8) != streams || pair(bytes + 10) != matrices || pair(bytes + 12) != total) {
        return 4;
    }
    if (length != total) {
        return 5;
    }
    j->n = n;
    j->k = k;
    j->m = m;
    long points = 1;
    int bad = 0;
    for (int i = 0; i < n; i++) {
        j->low[i] = entry(bytes[box + 2 * i]);
        j->high[i] = entry(bytes[box + 2 * i + 1]);
        bad |= j->low[i] == -128 || j->high[i] == -128 || j->low[i] > j->high[i];
        points *= j->high[i] - j->low[i] + 1;
    }
    if (bad || points > MOST_POINTS) {
        return 6;
    }
    for (int s = 0; s < m; s++) {
        const uint8_t *at = bytes + streams + s * (n + 4);
        struct stream *t = &j->stream[s];
        for (int i = 0; i < n; i++) {
            t->d[i] = entry(at[i]);
        }
        t->kind = entry(at[n]);
        t->rule = entry(at[n + 1]);
        t->a = entry(at[n + 2]);
        t->b = entry(at[n + 3]);
        bad |= !stream_is_good(j, t);
    }
    if (bad) {
        return 7;
    }
    for (int i = 0; i < n; i++) {
        j->time[i] = entry(bytes[matrices + i]);
        bad |= j->time[i] == -128;
        for (int r = 0; r < k; r++) {
            j->row[r][i] = entry(bytes[matrices + (1 + r) * n + i]);
            bad |= j->row[r][i] == -128;
        }
    }
    if (bad) {
        return 8;
    }
    list_points(j);
    return 0;
}

static long product(const int *row, const int *x) {
    long sum = 0;
    for (int i = 0; i < 4; i++) {
        sum += (long)row[i] * x[i];
    }
    return sum;
}

/* Whether y is a whole multiple of d. Beyond 254 none fits, since the bounds are up to 127 in size. */
static int is_multiple(const int *y, const int *d) {
    for (int c = -254; c <= 254; c++) {
        int same = 1;
        for (int i = 0; i < 4; i++) {
            same &= y[i] == c * d[i];
        }
        if (same) {
            return 1;
        }
    }
    return 0;
}

/* 'suppose a whole number f has Sy = f·e and Hy = f·w'; e is not 0. */
static int hops_apart(const struct stream *t, long hy, const long *sy, long *f) {
    int i = t->e[0] != 0 ? 0 : 1;
    if (sy[i] % t->e[i] != 0) {
        return 0;
    }
    *f = sy[i] / t->e[i];
    return sy[0] == *f * t->e[0] && sy[1] == *f * t->e[1] && hy == *f * t->w;
}

/* Whether the tokens of the points p and q, p before q, collide on their stream. */
static int collide(const struct job *j, const struct stream *t, int p, int q, long *f) {
    long sy[2] = {j->s[q][0] - j->s[p][0], j->s[q][1] - j->s[p][1]};
    if (!hops_apart(t, j->h[q] - j->h[p], sy, f)) {
        return 0;
    }
    if (t->kind == 1) {
        return within(labs(*f), 1, t->g - 1);
    }
    int y[4];
    for (int i = 0; i < 4; i++) {
        y[i] = j->x[q][i] - j->x[p][i];
    }
    return !is_multiple(y, t->d);
}

/* Whether the pair p, q comes before the pair p′, q′: 'the least y in lexicographic order and, among those, the least p'. */
static int comes_first(const struct job *j, int p, int q, int p1, int q1) {
    for (int i = 0; i < 4; i++) {
        int y = j->x[q][i] - j->x[p][i], y1 = j->x[q1][i] - j->x[p1][i];
        if (y != y1) {
            return y < y1;
        }
    }
    return p < p1;
}

static void measure(struct job *j) {
    long low[3], high[3];
    for (int i = 0; i < j->points; i++) {
        long at[3] = {j->h[i], j->s[i][0], j->s[i][1]};
        for (int c = 0; c < 3; c++) {
            low[c] = i == 0 || at[c] < low[c] ? at[c] : low[c];
            high[c] = i == 0 || at[c] > high[c] ? at[c] : high[c];
        }
    }
    j->first = low[0];
    j->ticks = high[0] - low[0] + 1;
    for (int r = 0; r < 2; r++) {
        j->corner[r] = low[1 + r];
        j->side[r] = high[1 + r] - low[1 + r] + 1;
    }
    j->cells = (uint64_t)j->side[0] * (uint64_t)j->side[1];
    uint64_t w = 0;
    for (int s = 0; s < j->m; s++) {
        w += (uint64_t)j->stream[s].w;
    }
    j->room = j->cells * w;
}

struct verdict reference_verdict(struct job *j) {
    for (int i = 0; i < j->points; i++) {
        j->h[i] = product(j->time, j->x[i]);
        j->s[i][0] = product(j->row[0], j->x[i]);
        j->s[i][1] = product(j->row[1], j->x[i]);
    }
    for (int s = 0; s < j->m; s++) {
        struct stream *t = &j->stream[s];
        t->hd = product(j->time, t->d);
        t->sd[0] = product(j->row[0], t->d);
        t->sd[1] = product(j->row[1], t->d);
        t->g = gcd(t->sd[0], t->sd[1]);
        if (t->hd < 1) {
            return (struct verdict){9, (unsigned)s, 0, 0, 0};
        }
    }
    for (int s = 0; s < j->m; s++) {
        struct stream *t = &j->stream[s];
        if (t->g == 0) {
            t->w = t->hd;
            continue;
        }
        if (t->hd % t->g != 0) {
            return (struct verdict){10, (unsigned)s, 0, 0, 0};
        }
        t->e[0] = t->sd[0] / t->g;
        t->e[1] = t->sd[1] / t->g;
        t->w = t->hd / t->g;
    }
    int p0 = -1, q0 = -1;
    for (int p = 0; p < j->points; p++) {
        for (int q = p + 1; q < j->points; q++) {
            int shared = j->h[p] == j->h[q] && j->s[p][0] == j->s[q][0] && j->s[p][1] == j->s[q][1];
            if (shared && (p0 < 0 || comes_first(j, p, q, p0, q0))) {
                p0 = p;
                q0 = q;
            }
        }
    }
    if (p0 >= 0) {
        return (struct verdict){11, 0, 0, p0, q0};
    }
    for (int s = 0; s < j->m; s++) {
        const struct stream *t = &j->stream[s];
        int p1 = -1, q1 = -1;
        long f, hops = 0;
        for (int p = 0; t->g != 0 && p < j->points; p++) {
            for (int q = p + 1; q < j->points; q++) {
                if (collide(j, t, p, q, &f) && (p1 < 0 || comes_first(j, p, q, p1, q1))) {
                    p1 = p;
                    q1 = q;
                    hops = f;
                }
            }
        }
        if (p1 >= 0) {
            return (struct verdict){12, (unsigned)s, hops, p1, q1};
        }
    }
    measure(j);
    return (struct verdict){0, 0, 0, 0, 0};
}

/* The place in box order of a point, or -1 where it is outside. */
static int place_of(const struct job *j, const int *x) {
    for (int i = 0; i < j->points; i++) {
        if (memcmp(j->x[i], x, sizeof j->x[i]) == 0) {
            return i;
        }
    }
    return -1;
}

/* The place of i - d, or -1 where it is outside the box. */
static int place_before(const struct job *j, int s, int i) {
    int x[4];
    for (int c = 0; c < 4; c++) {
        x[c] = j->x[i][c] - j->stream[s].d[c];
    }
    return place_of(j, x);
}

/* 'Rules, over the m arrivals at a point, modulo 2^32' */
static uint32_t new_value(const struct job *j, int s, const uint32_t *in) {
    const struct stream *t = &j->stream[s];
    if (t->rule == 0) {
        return in[s];
    }
    if (t->rule == 1) {
        return (uint32_t)(in[s] + (uint64_t)in[t->a] * in[t->b]);
    }
    uint32_t sum = (uint32_t)((uint64_t)in[t->a] + in[t->b]);
    return in[s] < sum ? in[s] : sum;
}

int reference_point(const struct job *j, uint64_t t, uint64_t cell) {
    if (t >= (uint64_t)j->ticks || cell >= j->cells) {
        return -1;
    }
    long x[2] = {j->corner[0] + (long)(cell / (uint64_t)j->side[1]), j->corner[1] + (long)(cell % (uint64_t)j->side[1])};
    for (int i = 0; i < j->points; i++) {
        if (j->s[i][0] == x[0] && j->s[i][1] == x[1] && j->h[i] == j->first + (long)t) {
            return i;
        }
    }
    return -1;
}

void reference_tick(const struct job *j, long t, const uint32_t *input, uint32_t *values, uint32_t *places) {
    uint32_t *before = malloc((j->room + 1) * sizeof *before);
    memcpy(before, places, j->room * sizeof *before);
    for (uint64_t cell = 0; cell < j->cells; cell++) {
        uint32_t arrival[4], in[4];
        uint64_t at[4], band = 0;
        for (int s = 0; s < j->m; s++) {
            const struct stream *r = &j->stream[s];
            long x = (long)(cell / (uint64_t)j->side[1]) - r->e[0], y = (long)(cell % (uint64_t)j->side[1]) - r->e[1];
            int inside = within(x, 0, j->side[0] - 1) && within(y, 0, j->side[1] - 1);
            at[s] = band + cell * (uint64_t)r->w + (uint64_t)(t % r->w);
            arrival[s] = inside ? before[band + (uint64_t)((x * j->side[1] + y) * r->w + t % r->w)] : 0;
            band += j->cells * (uint64_t)r->w;
        }
        int i = reference_point(j, (uint64_t)t, cell);
        for (int s = 0; i >= 0 && s < j->m; s++) {
            in[s] = place_before(j, s, i) >= 0 ? arrival[s] : input[s * j->points + i];
        }
        for (int s = 0; s < j->m; s++) {
            places[at[s]] = i >= 0 ? new_value(j, s, in) : arrival[s];
            if (i >= 0) {
                values[s * j->points + i] = places[at[s]];
            }
        }
    }
    free(before);
}

void reference_loop(const struct job *j, const uint32_t *input, uint32_t *values) {
    for (int i = 0; i < j->points; i++) {
        uint32_t in[4];
        for (int s = 0; s < j->m; s++) {
            int q = place_before(j, s, i);
            in[s] = q >= 0 ? values[s * j->points + q] : input[s * j->points + i];
        }
        for (int s = 0; s < j->m; s++) {
            values[s * j->points + i] = new_value(j, s, in);
        }
    }
}

/* The coordinates of a point, each after a blank. */
static char *put_point(char *at, const struct job *j, int p) {
    for (int i = 0; i < j->n; i++) {
        at += sprintf(at, " %d", j->x[p][i]);
    }
    return at;
}

void reference_line(const struct job *j, struct verdict v, char *line) {
    if (v.number == 0) {
        sprintf(line, "accepted cells %llu ticks %ld room %llu\n", (unsigned long long)j->cells, j->ticks, (unsigned long long)j->room);
        return;
    }
    line += sprintf(line, "refused %u", v.number);
    if (v.number == 9 || v.number == 10 || v.number == 12) {
        line += sprintf(line, " stream %u", v.stream);
    }
    if (v.number == 11 || v.number == 12) {
        line = put_point(line + sprintf(line, " pair"), j, v.p);
        line = put_point(line + sprintf(line, " /"), j, v.q);
    }
    if (v.number == 12) {
        line += sprintf(line, " hops %ld", v.hops);
    }
    sprintf(line, "\n");
}
