/* Jobs drawn in a fixed order from a seed: good, damaged, cut short and drawn out. */
#include "draw.h"

#include <stdlib.h>
#include <string.h>

/* ---- numbers drawn in a fixed order */

static uint64_t state;

void draw_from(uint64_t seed) { state = seed; }

uint64_t draw_word(void) {
    uint64_t z = state += 0x9e3779b97f4a7c15u;
    z = (z ^ (z >> 30)) * 0xbf58476d1ce4e5b9u;
    z = (z ^ (z >> 27)) * 0x94d049bb133111ebu;
    return z ^ (z >> 31);
}

int draw(int low, int high) { return low + (int)(draw_word() % (uint64_t)(high - low + 1)); }

int one_in(int n) { return draw(1, n) == 1; }

size_t pick(const size_t *of, size_t count) { return of[draw_word() % count]; }

/* ---- jobs */

static void put(struct file *f, int entry) { f->bytes[f->length++] = (uint8_t)entry; }

static void put_pair(struct file *f, int number) {
    put(f, number & 255);
    put(f, number >> 8);
}

static long divisor(long a, long b) { return b == 0 ? labs(a) : divisor(b, a % b); }

/* A vector of a stream: led by a positive entry, gcd 1. */
static void draw_vector(int n, int most, int *d) {
    for (;;) {
        long g = 0;
        int leading = 0;
        for (int i = 0; i < n; i++) {
            d[i] = draw(-most, most);
            leading = leading ? leading : d[i];
            g = divisor(g, d[i]);
        }
        if (leading > 0 && g == 1) {
            return;
        }
    }
}

static void draw_box(struct file *f, int n) {
    static const int most[] = {40, 9, 5, 4};
    if (one_in(12)) {
        /* up to and just over 1,024 points */
        static const int large[] = {255, 33, 11, 6};
        for (int i = 0; i < n; i++) {
            int side = draw(1, large[n - 1]);
            int low = draw(-127, 128 - side);
            put(f, low);
            put(f, low + side - 1);
        }
        return;
    }
    for (int i = 0; i < n; i++) {
        int low = one_in(10) ? draw(-127, 80) : draw(-3, 3);
        put(f, low);
        put(f, low + draw(1, most[n - 1]) - 1);
    }
}

static void draw_row(struct file *f, int n, int low, int high, int scale) {
    for (int i = 0; i < n; i++) {
        put(f, scale * draw(low, high));
    }
}

/* Time and place rows of several kinds: those that often pass, small ones of any sign, and large ones. */
static void draw_rows(struct file *f, int n, int k) {
    switch (draw(0, 5)) {
    case 0:
    case 1: {
        /* a forward clock and places along the axes */
        int scale = one_in(3) ? 2 : 1;
        draw_row(f, n, 1, 3, 1);
        for (int r = 0; r < k; r++) {
            int axis = draw(0, n - 1);
            for (int i = 0; i < n; i++) {
                put(f, i == axis ? (one_in(4) ? -scale : scale) : 0);
            }
        }
        break;
    }
    case 2: {
        /* a clock that tells all points apart */
        int weight = 1;
        for (int i = 0; i < n; i++) {
            put(f, weight > 127 ? 127 : weight);
            weight *= draw(2, 5);
        }
        draw_row(f, k * n, -1, 1, 1);
        break;
    }
    case 3:
        draw_row(f, n, 0, 4, 2);
        draw_row(f, k * n, -2, 2, 2);
        break;
    case 4:
        draw_row(f, n, -1, 5, 1);
        draw_row(f, k * n, -2, 2, 1);
        break;
    default: {
        int most = one_in(3) ? 127 : 20;
        draw_row(f, n, one_in(3) ? -most : 1, most, 1);
        draw_row(f, k * n, -most, most, 1);
    }
    }
}

static int dot(const uint8_t *row, const uint8_t *d, int n) {
    int sum = 0;
    for (int i = 0; i < n; i++) {
        sum += (int8_t)row[i] * (int8_t)d[i];
    }
    return sum;
}

/* Whether the streams keep precedence and hop under the rows just drawn. */
static int is_promising(const struct file *f, int n, int k, int m) {
    const uint8_t *time = f->bytes + f->length - (1 + k) * n;
    for (int s = 0; s < m; s++) {
        const uint8_t *d = f->bytes + 16 + 2 * n + s * (n + 4);
        long g = dot(time + n, d, n);
        g = k == 2 ? divisor(g, dot(time + 2 * n, d, n)) : g;
        int hd = dot(time, d, n);
        if (hd < 1 || (g != 0 && hd % g != 0)) {
            return 0;
        }
    }
    return 1;
}

void draw_job(struct file *f) {
    int n = draw(1, 4), k = draw(1, 2), m = draw(1, 4);
    int streams = 16 + 2 * n, matrices = streams + m * (n + 4);
    f->length = 0;
    put_pair(f, 1);
    put(f, n);
    put(f, k);
    put(f, m);
    put(f, 0);
    put_pair(f, 16);
    put_pair(f, streams);
    put_pair(f, matrices);
    put_pair(f, matrices + (1 + k) * n);
    put_pair(f, 0);
    draw_box(f, n);
    for (int s = 0; s < m; s++) {
        int d[4], rule = draw(0, 2);
        draw_vector(n, one_in(8) ? 15 : one_in(3) ? 2 : 1, d);
        for (int i = 0; i < n; i++) {
            put(f, d[i]);
        }
        put(f, draw(0, 1));
        put(f, rule);
        put(f, rule ? draw(0, m - 1) : 0);
        put(f, rule ? draw(0, m - 1) : 0);
    }
    /* mostly a job that gets as far as the cells */
    for (int tries = one_in(4) ? 1 : 40; tries > 0; tries--) {
        f->length = (size_t)matrices;
        draw_rows(f, n, k);
        if (is_promising(f, n, k, m)) {
            return;
        }
    }
}

/* A third of the jobs are damaged. */
void damage(struct file *f) {
    static const int entries[] = {0, 1, 2, 3, 5, 16, 127, 128, 129, 240, 255};
    switch (draw(0, 14)) {
    case 0:
        f->length = (size_t)draw(0, (int)f->length - 1);
        break;
    case 1:
        for (int more = draw(1, 3); more > 0; more--) {
            put(f, draw(0, 255));
        }
        break;
    case 2:
        f->bytes[draw(0, 15)] = (uint8_t)draw(0, 255);
        break;
    case 3:
        f->bytes[draw(0, (int)f->length - 1)] ^= (uint8_t)(1 << draw(0, 7));
        break;
    case 4:
        for (int more = draw(1, 3); more > 0; more--) {
            f->bytes[draw(16, (int)f->length - 1)] = (uint8_t)entries[draw(0, 10)];
        }
        break;
    default:
        break;
    }
}
