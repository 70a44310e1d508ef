#include "plain.h"

#include <stdlib.h>
#include <string.h>

static int dot(const int *h, const int *x) { return h[0] * x[0] + h[1] * x[1] + h[2] * x[2] + h[3] * x[3]; }

static int gcd(int a, int b) {
    while (b) {
        int r = a % b;
        a = b;
        b = r;
    }
    return a;
}

typedef struct {
    int g, hop[2], w;
} course;

/* Precedence and hop; the courses of the streams. */
static int courses(const plain_job *j, course *c) {
    for (int s = 0; s < j->m; s++)
        if (dot(j->time, j->d[s]) < 1) return 9;
    for (int s = 0; s < j->m; s++) {
        int s0 = dot(j->row[0], j->d[s]), s1 = dot(j->row[1], j->d[s]), h = dot(j->time, j->d[s]);
        int g = gcd(abs(s0), abs(s1));
        if (g && h % g) return 10;
        int n = g ? g : 1;
        c[s] = (course){g, {s0 / n, s1 / n}, h / n};
    }
    return 0;
}

/* A point, or the difference of two, with its H and S. */
typedef struct {
    int x[4], h, s0, s1;
} spot;

static spot spot_of(const plain_job *j, int a, int b, int c, int d) {
    spot p = {{a, b, c, d}, 0, 0, 0};
    p.h = dot(j->time, p.x);
    p.s0 = dot(j->row[0], p.x);
    p.s1 = dot(j->row[1], p.x);
    return p;
}

static int points_of(const plain_job *j, spot *p) {
    int n = 0;
    for (int a = j->low[0]; a <= j->high[0]; a++)
        for (int b = j->low[1]; b <= j->high[1]; b++)
            for (int c = j->low[2]; c <= j->high[2]; c++)
                for (int d = j->low[3]; d <= j->high[3]; d++) p[n++] = spot_of(j, a, b, c, d);
    return n;
}

static int is_still(const spot *y) { return !y->h && !y->s0 && !y->s1; }

/* Whether two points y apart, whose tokens are f hops apart on stream s, collide. */
static int is_collision(const plain_job *j, const course *c, int s, const int *y, int f) {
    if (j->kind[s]) return abs(f) >= 1 && abs(f) < c->g;
    const int *d = j->d[s];
    int i = 0;
    while (!d[i]) i++;
    if (y[i] % d[i]) return 1;
    int z = y[i] / d[i];
    return y[0] != z * d[0] || y[1] != z * d[1] || y[2] != z * d[2] || y[3] != z * d[3];
}

static int collides(const plain_job *j, const course *c, int s, const spot *y) {
    if (y->h % c->w) return 0;
    int f = y->h / c->w;
    return y->s0 == f * c->hop[0] && y->s1 == f * c->hop[1] && is_collision(j, c, s, y->x, f);
}

/* ---- the verdict */

int all_pairs(const plain_job *j) {
    static spot p[1024];
    course c[4];
    int r = courses(j, c), n = points_of(j, p);
    if (r) return r;
    for (int s = -1; s < j->m; s++) {
        if (s >= 0 && !c[s].g) continue;
        for (int i = 0; i < n; i++)
            for (int k = i + 1; k < n; k++) {
                spot y = {{p[k].x[0] - p[i].x[0], p[k].x[1] - p[i].x[1], p[k].x[2] - p[i].x[2], p[k].x[3] - p[i].x[3]},
                          p[k].h - p[i].h, p[k].s0 - p[i].s0, p[k].s1 - p[i].s1};
                if (s < 0 ? is_still(&y) : collides(j, &c[s], s, &y)) return s < 0 ? 11 : 12;
            }
    }
    return 0;
}

/* The differences that point forward, in order, once for the cell rule and once for each stream that moves. */
int plain_walk(const plain_job *j) {
    course c[4];
    int r = courses(j, c), u[4];
    if (r) return r;
    for (int i = 0; i < 4; i++) u[i] = j->high[i] - j->low[i];
    for (int s = -1; s < j->m; s++) {
        if (s >= 0 && !c[s].g) continue;
        for (int a = 0; a <= u[0]; a++)
            for (int b = a ? -u[1] : 0; b <= u[1]; b++)
                for (int e = a || b ? -u[2] : 0; e <= u[2]; e++)
                    for (int f = a || b || e ? -u[3] : 1; f <= u[3]; f++) {
                        spot y = spot_of(j, a, b, e, f);
                        if (s < 0 ? is_still(&y) : collides(j, &c[s], s, &y)) return s < 0 ? 11 : 12;
                    }
    }
    return 0;
}

/* The same differences, line by line along the last dimension; what does not fit is told by a product, before any division. */
int quick_walk(const plain_job *j) {
    course c[4];
    int r = courses(j, c), u[4], last = j->n - 1;
    int h = j->time[last], s0 = j->row[0][last], s1 = j->row[1][last];
    if (r) return r;
    for (int i = 0; i < 4; i++) u[i] = j->high[i] - j->low[i];
    for (int s = -1; s < j->m; s++) {
        if (s >= 0 && !c[s].g) continue;
        int x[4] = {0}, i;
        x[last] = 1;
        do {
            spot y = spot_of(j, x[0], x[1], x[2], x[3]);
            if (s < 0) {
                for (; y.x[last] <= u[last]; y.x[last]++, y.h += h, y.s0 += s0, y.s1 += s1)
                    if (is_still(&y)) return 11;
            } else {
                for (; y.x[last] <= u[last]; y.x[last]++, y.h += h, y.s0 += s0, y.s1 += s1)
                    if (y.s0 * c[s].w == y.h * c[s].hop[0] && y.s1 * c[s].w == y.h * c[s].hop[1] && collides(j, &c[s], s, &y)) return 12;
            }
            x[last] = -u[last];
            for (i = last - 1; i >= 0 && x[i] == u[i]; i--) x[i] = -u[i];
            if (i >= 0) x[i]++;
        } while (i >= 0);
    }
    return 0;
}

/* ---- the run */

static void ends(const plain_job *j, const int *h, int *low, int *high) {
    *low = *high = 0;
    for (int i = 0; i < 4; i++) {
        int a = h[i] * j->low[i], b = h[i] * j->high[i];
        *low += a < b ? a : b;
        *high += a < b ? b : a;
    }
}

static uint32_t ruled(int rule, uint32_t own, uint32_t a, uint32_t b) {
    if (rule == 0) return own;
    if (rule == 1) return own + a * b;
    return own < a + b ? own : a + b;
}

/* What is worked out once a run: the rectangle, the streams' bands, and the tick and the cell of every point. */
typedef struct {
    int points, ticks, rows, columns, cells;
    course c[4];
    uint32_t *band[4];
    spot p[1024];
    int tick[1024], cell[1024];
} frame;

static void set_up(const plain_job *j, uint32_t *places, frame *f) {
    int start, end, low0, high0, low1, high1, sum = 0;
    courses(j, f->c);
    ends(j, j->time, &start, &end);
    ends(j, j->row[0], &low0, &high0);
    ends(j, j->row[1], &low1, &high1);
    f->ticks = end - start + 1;
    f->rows = high0 - low0 + 1;
    f->columns = high1 - low1 + 1;
    f->cells = f->rows * f->columns;
    for (int s = 0; s < j->m; s++) {
        f->band[s] = places + (size_t)f->cells * sum;
        sum += f->c[s].w;
    }
    memset(places, 0, (size_t)f->cells * sum * sizeof *places);
    f->points = points_of(j, f->p);
    for (int i = 0; i < f->points; i++) {
        spot *p = &f->p[i];
        p->s0 -= low0;
        p->s1 -= low1;
        f->tick[i] = p->h - start;
        f->cell[i] = p->s0 * f->columns + p->s1;
    }
}

/* The work at point i, once all has arrived: from what stands in the places of its cell, where the new values then go; slot is t mod w of each stream. */
static void work(const plain_job *j, const frame *f, const int *slot, int i, const uint32_t *input, uint32_t *values) {
    const spot *p = &f->p[i];
    uint32_t got[4];
    for (int s = 0; s < j->m; s++) {
        int inside = 1;
        for (int x = 0; x < 4; x++) {
            int z = p->x[x] - j->d[s][x];
            inside &= z >= j->low[x] && z <= j->high[x];
        }
        got[s] = inside ? f->band[s][f->cell[i] * f->c[s].w + slot[s]] : input[s * f->points + i];
    }
    for (int s = 0; s < j->m; s++) {
        uint32_t v = ruled(j->rule[s], got[s], got[j->a[s]], got[j->b[s]]);
        values[s * f->points + i] = v;
        f->band[s][f->cell[i] * f->c[s].w + slot[s]] = v;
    }
}

/* Every cell of a band takes what arrives, at `at` and w places on; the cell is divided into row and column, as ours is. */
static void shift(const frame *f, const course *c, uint32_t *at) {
    int down = c->hop[0] ? c->hop[0] > 0 : c->hop[1] >= 0;
    for (int k = 0; k < f->cells; k++) {
        int x = down ? f->cells - 1 - k : k;
        int y = x / f->columns - c->hop[0], z = x % f->columns - c->hop[1];
        at[x * c->w] = y < 0 || y >= f->rows || z < 0 || z >= f->columns ? 0 : at[(y * f->columns + z) * c->w];
    }
}

/* The same row by row; a stationary band stays as it is. */
static void quick_shift(const frame *f, const course *c, uint32_t *at) {
    int h0 = c->hop[0], h1 = c->hop[1], back = (h0 * f->columns + h1) * c->w;
    if (h0 ? h0 > 0 : h1 > 0) {
        int to = (f->cells - 1) * c->w;
        for (int y = f->rows - 1 - h0; y >= -h0; y--)
            for (int z = f->columns - 1 - h1; z >= -h1; z--, to -= c->w) at[to] = y < 0 || z < 0 || z >= f->columns ? 0 : at[to - back];
    } else if (h0 || h1) {
        int to = 0;
        for (int y = -h0; y < f->rows - h0; y++)
            for (int z = -h1; z < f->columns - h1; z++, to += c->w) at[to] = y >= f->rows || z < 0 || z >= f->columns ? 0 : at[to - back];
    }
}

uint64_t plain_run(const plain_job *j, const uint32_t *input, uint32_t *values, uint32_t *places) {
    static frame f;
    set_up(j, places, &f);
    for (int t = 0; t < f.ticks; t++) {
        int slot[4];
        for (int s = 0; s < j->m; s++) {
            slot[s] = t % f.c[s].w;
            shift(&f, &f.c[s], f.band[s] + slot[s]);
        }
        for (int i = 0; i < f.points; i++)
            if (f.tick[i] == t) work(j, &f, slot, i, input, values);
    }
    return (uint64_t)f.ticks;
}

uint64_t quick_run(const plain_job *j, const uint32_t *input, uint32_t *values, uint32_t *places) {
    static frame f;
    int slot[4] = {0};
    set_up(j, places, &f);
    for (int t = 0; t < f.ticks; t++) {
        for (int s = 0; s < j->m; s++) quick_shift(&f, &f.c[s], f.band[s] + slot[s]);
        for (int i = 0; i < f.points; i++)
            if (f.tick[i] == t) work(j, &f, slot, i, input, values);
        for (int s = 0; s < j->m; s++) slot[s] = slot[s] + 1 == f.c[s].w ? 0 : slot[s] + 1;
    }
    return (uint64_t)f.ticks;
}
