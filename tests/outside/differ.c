/*
 * The library beside the reference, on drawn jobs: good, damaged, cut short and drawn out, with right and wrong lengths of table,
 * enough places and too few, buffers that a line fits into and shorter ones. Whatever a call is lent is compared afterwards, with
 * the guards around it.
 *
 *     differ JOBS SEED GUARDS
 *
 * GUARDS words stand on each side of every table, as many bytes on each side of a line's buffer: 0 lets valgrind see a step
 * outside. From 1,000 jobs on, a number of refusal that never came is a difference too.
 */
#include <stdio.h>
#include <stdlib.h>
#include <string.h>

#include "draw.h"
#include "najluthed.h"
#include "reference.h"

/* Arrays that take longer than this in the reference (ticks x cells x points) are not run. */
#define MOST_WORK 4000000u

static size_t guards;
static unsigned long differences, calls, run_in_full, passed_over;

/* ---- what is lent */

struct table {
    uint32_t *block, *was, *at;
    size_t length;
};

static size_t size_of(const struct table *t) { return (t->length + 2 * guards) * sizeof *t->block; }

static struct table lend(size_t length) {
    struct table t = {0, 0, 0, length};
    t.block = malloc(size_of(&t));
    t.was = malloc(size_of(&t));
    t.at = t.block + guards;
    int small = one_in(2);
    for (size_t i = 0; i < length + 2 * guards; i++) {
        t.block[i] = (uint32_t)(small ? draw_word() % 7 : draw_word());
    }
    memcpy(t.was, t.block, size_of(&t));
    return t;
}

/* What the table is to hold afterwards: the reference writes here. */
static uint32_t *due(struct table *t) { return t->was + guards; }

static int is_due(const struct table *t) { return size_of(t) == 0 || memcmp(t->block, t->was, size_of(t)) == 0; }

static void take_back(struct table *t) {
    free(t->block);
    free(t->was);
}

/* ---- the comparison */

enum call { VERDICT, ROOM, SIZES, LINE, RUN, TICK, LOOP, POINT, CALLS };
static const char *const names[] = {"verdict", "room", "sizes", "line", "run", "tick", "loop", "point"};
static unsigned long seen[CALLS][17];

static void expect(enum call call, const struct file *f, unsigned number, int same) {
    calls++;
    seen[call][number]++;
    if (same) {
        return;
    }
    differences++;
    if (differences <= 10) {
        printf("%s differs (due number %u) on", names[call], number);
        for (size_t i = 0; i < f->length; i++) {
            printf(" %02X", f->bytes[i]);
        }
        printf("\n");
    }
}

/* A length of table: most often the right one. */
static size_t draw_length(size_t right) {
    size_t wrong[] = {0, right + 1, right ? right - 1 : 1, right + 7, (size_t)draw(0, 40)};
    return one_in(5) ? pick(wrong, 5) : right;
}

static size_t draw_places(uint64_t room) {
    size_t fits = room <= 3 * NAJLUTHED_MOST_ROOM ? room : NAJLUTHED_MOST_ROOM;
    size_t lengths[] = {fits, fits, fits, fits + 5, fits ? fits - 1 : 0, fits / 2, 0, NAJLUTHED_MOST_ROOM};
    return pick(lengths, 8);
}

/* 13 to 15 for an accepted job, and 16 where a tick is given. */
static unsigned lacking(const struct job *j, size_t input, size_t values, size_t places) {
    size_t right = (size_t)j->m * (size_t)j->points;
    return input != right || values != right ? 13 : j->room > NAJLUTHED_MOST_ROOM ? 14 : places < j->room ? 15 : 0;
}

static uint64_t count_of(const struct job *j, unsigned number) {
    return number == 0 ? (uint64_t)j->ticks : number == 14 || number == 15 ? j->room : 0;
}

struct lent {
    const uint8_t *job;
    size_t length;
    struct table input, values, places;
};

static struct lent lend_all(const uint8_t *job, size_t length, size_t right, uint64_t room) {
    return (struct lent){job, length, lend(draw_length(right)), lend(draw_length(right)), lend(draw_places(room))};
}

static int all_due(const struct lent *l) { return is_due(&l->input) && is_due(&l->values) && is_due(&l->places); }

static void take_all_back(struct lent *l) {
    take_back(&l->input);
    take_back(&l->values);
    take_back(&l->places);
}

static void compare_run(const struct file *f, const struct job *j, unsigned refused, struct lent l) {
    unsigned number = refused ? refused : lacking(j, l.input.length, l.values.length, l.places.length);
    if (number == 0 && (uint64_t)j->ticks * j->cells * (uint64_t)j->points > MOST_WORK) {
        passed_over++;
        take_all_back(&l);
        return;
    }
    if (number == 0) {
        run_in_full++;
        memset(due(&l.places), 0, j->room * sizeof(uint32_t));
        for (long t = 0; t < j->ticks; t++) {
            reference_tick(j, t, l.input.at, due(&l.values), due(&l.places));
        }
    }
    najluthed_done got = najluthed_run(l.job, l.length, l.input.at, l.input.length, l.values.at, l.values.length, l.places.at, l.places.length);
    int same = got.number == number && got.count == (refused ? 0 : count_of(j, number)) && all_due(&l);
    if (number == 0) {
        /* an accepted array computes what the loop computes */
        struct table looped = lend(l.values.length);
        reference_loop(j, l.input.at, looped.at);
        same = same && memcmp(l.values.at, looped.at, looped.length * sizeof *looped.at) == 0;
        take_back(&looped);
    }
    expect(RUN, f, number, same);
    take_all_back(&l);
}

static void compare_tick(const struct file *f, const struct job *j, unsigned refused, struct lent l) {
    uint64_t count = refused ? 5 : (uint64_t)j->ticks;
    uint64_t ticks[] = {0, count - 1, draw_word() % count, draw_word() % count, draw_word() % count, count, count + 1, UINT64_MAX};
    uint64_t tick = ticks[draw(0, 7)];
    unsigned number = refused ? refused : lacking(j, l.input.length, l.values.length, l.places.length);
    number = number == 0 && tick >= count ? 16 : number;
    if (number == 0) {
        reference_tick(j, (long)tick, l.input.at, due(&l.values), due(&l.places));
    }
    najluthed_done got = najluthed_tick(l.job, l.length, tick, l.input.at, l.input.length, l.values.at, l.values.length, l.places.at, l.places.length);
    expect(TICK, f, number, got.number == number && got.count == (refused ? 0 : count_of(j, number)) && all_due(&l));
    take_all_back(&l);
}

static void compare_loop(const struct file *f, const struct job *j, unsigned unread, struct lent l) {
    size_t right = (size_t)j->m * (size_t)j->points;
    unsigned number = unread ? unread : l.input.length != right || l.values.length != right ? 13 : 0;
    if (number == 0) {
        reference_loop(j, l.input.at, due(&l.values));
    }
    najluthed_done got = najluthed_loop(l.job, l.length, l.input.at, l.input.length, l.values.at, l.values.length);
    expect(LOOP, f, number, got.number == number && got.count == (number ? 0 : (uint64_t)j->points) && all_due(&l));
    take_all_back(&l);
}

static void compare_point(const struct file *f, const struct job *j, unsigned refused, const uint8_t *job, size_t length) {
    int i = refused ? -1 : draw(0, j->points - 1);
    uint64_t tick = draw_word() % (refused ? 5 : (uint64_t)j->ticks + 2), cell = draw_word() % (refused ? 5 : j->cells + 2);
    if (!refused && one_in(2)) {
        /* where a point is worked */
        tick = (uint64_t)(j->h[i] - j->first);
        cell = (uint64_t)((j->s[i][0] - j->corner[0]) * j->side[1] + j->s[i][1] - j->corner[1]);
    }
    i = refused ? -1 : reference_point(j, tick, cell);
    int none[4] = {0, 0, 0, 0};
    const int *x = i >= 0 ? j->x[i] : none;
    najluthed_worked got = najluthed_point(job, length, tick, cell);
    expect(POINT, f, refused,
           got.number == refused && got.found == (i >= 0) && got.x0 == x[0] && got.x1 == x[1] && got.x2 == x[2] && got.x3 == x[3]);
}

static void compare_sizes(const struct file *f, const struct job *j, unsigned unread, unsigned refused, const uint8_t *job, size_t length) {
    najluthed_extent due = {refused, 0, 0, 0, 0, 0, 0}, got = najluthed_sizes(job, length);
    if (!unread) {
        due.dimensions = (uint32_t)j->n;
        due.streams = (uint32_t)j->m;
        due.points = (uint64_t)j->points;
    }
    if (!refused) {
        due.cells = j->cells;
        due.ticks = (uint64_t)j->ticks;
        due.room = j->room;
    }
    expect(SIZES, f, refused,
           got.number == due.number && got.dimensions == due.dimensions && got.streams == due.streams && got.points == due.points &&
               got.cells == due.cells && got.ticks == due.ticks && got.room == due.room);
}

/* The line in a buffer of so many bytes, of which all that it does not take must stay, with the guard bytes around it. */
static void compare_line(const struct file *f, unsigned refused, const char *line, const uint8_t *job, size_t length, size_t room) {
    size_t due = room < NAJLUTHED_LONGEST_LINE ? 0 : strlen(line), whole = room + 2 * guards;
    uint8_t *block = malloc(whole ? whole : 1), *was = malloc(whole ? whole : 1);
    for (size_t i = 0; i < whole; i++) {
        was[i] = block[i] = (uint8_t)draw_word();
    }
    memcpy(was + guards, line, due);
    size_t got = najluthed_line(job, length, block + guards, room);
    expect(LINE, f, refused, got == due && memcmp(block, was, whole) == 0);
    free(block);
    free(was);
}

static void compare(const struct file *f) {
    enum { LONGEST = NAJLUTHED_LONGEST_LINE };
    static const size_t enough[] = {LONGEST, LONGEST, LONGEST + 1, LONGEST + 40}, few[] = {LONGEST - 1, LONGEST - 2, 200, 40, 16, 2, 1, 0};
    static struct job j;
    /* the job at its exact length */
    uint8_t *job = malloc(f->length ? f->length : 1);
    size_t length = f->length;
    memcpy(job, f->bytes, length);

    unsigned unread = reference_read(f->bytes, length, &j);
    struct verdict due_verdict = {unread, 0, 0, 0, 0};
    if (!unread) {
        due_verdict = reference_verdict(&j);
    }
    unsigned refused = due_verdict.number;

    najluthed_reply reply = najluthed_verdict(job, length);
    expect(VERDICT, f, refused, reply.number == refused && reply.stream == due_verdict.stream && reply.hops == due_verdict.hops);
    najluthed_done room = najluthed_room(job, length);
    expect(ROOM, f, refused, room.number == refused && room.count == (refused ? 0 : j.room));
    compare_sizes(f, &j, unread, refused, job, length);
    char line[200];
    reference_line(&j, due_verdict, line);
    compare_line(f, refused, line, job, length, pick(enough, 4));
    compare_line(f, refused, line, job, length, pick(few, 8));

    size_t right = unread ? (size_t)draw(0, 20) : (size_t)j.m * (size_t)j.points;
    uint64_t places = refused ? (uint64_t)draw(0, 20) : j.room;
    compare_run(f, &j, refused, lend_all(job, length, right, places));
    for (int again = 0; again < 3; again++) {
        compare_tick(f, &j, refused, lend_all(job, length, right, places));
        compare_point(f, &j, refused, job, length);
    }
    compare_loop(f, &j, unread, lend_all(job, length, right, places));

    if (memcmp(job, f->bytes, length) != 0) {
        differences++;
        printf("the job was altered\n");
    }
    free(job);
}

/* How often each number came, and those that never did. */
static void tell(int demand) {
    static const unsigned most[] = {12, 12, 12, 12, 15, 16, 13, 12};
    for (int call = 0; call < CALLS; call++) {
        printf("%s:", names[call]);
        for (unsigned number = 0; number <= most[call]; number++) {
            if (call == LOOP && 9 <= number && number <= 12) {
                continue;
            }
            printf(" %u x%lu", number, seen[call][number]);
            if (demand && seen[call][number] == 0) {
                differences++;
                printf(" (never)");
            }
        }
        printf("\n");
    }
    printf("%lu calls; %lu arrays run in full, %lu too long for the reference\n", calls, run_in_full, passed_over);
}

int main(int count, char **words) {
    if (count != 4) {
        fputs("differ JOBS SEED GUARDS\n", stderr);
        return 2;
    }
    unsigned long jobs = strtoul(words[1], NULL, 10);
    draw_from(strtoull(words[2], NULL, 10));
    guards = strtoul(words[3], NULL, 10);
    for (unsigned long i = 0; i < jobs; i++) {
        struct file f;
        draw_job(&f);
        damage(&f);
        compare(&f);
    }
    tell(jobs >= 1000);
    printf("%lu jobs, %lu differences\n", jobs, differences);
    return differences != 0;
}
