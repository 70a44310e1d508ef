/*
 * Checks the job files named on the command line: for each its line, the verdict, the room, and, for an array that can be built, a
 * run beside the plain loop nest, entry k of the input table being k + 1. Exit status 1 where a value differs.
 *
 *     (cd crates/najluthed && rt lib); mkdir -p target
 *     gcc -O2 -Wall -Wextra -Iinclude -o target/check examples/c/check.c crates/najluthed/out/libnajluthed.a
 *     target/check FILE...
 */
#include <stdio.h>
#include <stdlib.h>
#include <string.h>

#include "najluthed.h"

static uint32_t *table(size_t length) {
    uint32_t *t = calloc(length ? length : 1, sizeof *t);
    if (!t) {
        fputs("no memory\n", stderr);
        exit(2);
    }
    return t;
}

/* Runs the array beside the loop: 0 where every value is the same. */
static int compare(const uint8_t *job, size_t length) {
    najluthed_extent sizes = najluthed_sizes(job, length);
    size_t size = sizes.streams * sizes.points;
    size_t room = sizes.room <= NAJLUTHED_MOST_ROOM ? sizes.room : 0;
    uint32_t *input = table(size);
    uint32_t *values = table(size);
    uint32_t *looped = table(size);
    uint32_t *places = table(room);
    for (size_t k = 0; k < size; k++) {
        input[k] = (uint32_t)(k + 1);
    }
    najluthed_done run = najluthed_run(job, length, input, size, values, size, places, room);
    najluthed_done loop = najluthed_loop(job, length, input, size, looped, size);
    printf("run number %u count %llu\n", run.number, (unsigned long long)run.count);
    printf("loop number %u count %llu\n", loop.number, (unsigned long long)loop.count);
    int differ = run.number == 0 && memcmp(values, looped, size * sizeof *values) != 0;
    if (run.number == 0) {
        printf("values %s\n", differ ? "differ" : "the same");
        for (uint32_t s = 0; s < sizes.streams; s++) {
            printf("stream %u last value %u\n", s, values[(s + 1) * sizes.points - 1]);
        }
    }
    free(input);
    free(values);
    free(looped);
    free(places);
    return differ;
}

/* Tells all about one job: 0, or 1 where the array and the loop differ. */
static int check(const char *name, const uint8_t *job, size_t length) {
    uint8_t line[NAJLUTHED_LONGEST_LINE];
    size_t end = najluthed_line(job, length, line, sizeof line);
    printf("%s: %.*s", name, (int)end, (const char *)line);
    najluthed_reply reply = najluthed_verdict(job, length);
    printf("verdict number %u stream %u hops %lld\n", reply.number, reply.stream, (long long)reply.hops);
    najluthed_done room = najluthed_room(job, length);
    printf("room number %u count %llu\n", room.number, (unsigned long long)room.count);
    return reply.number == 0 ? compare(job, length) : 0;
}

int main(int count, char **names) {
    if (count < 2) {
        fputs("check FILE...\n", stderr);
        return 2;
    }
    int differ = 0;
    for (int i = 1; i < count; i++) {
        FILE *file = fopen(names[i], "rb");
        if (!file) {
            perror(names[i]);
            return 2;
        }
        /* one byte more than a job can have tells a file that is too long */
        uint8_t job[NAJLUTHED_LONGEST_JOB + 1];
        size_t length = fread(job, 1, sizeof job, file);
        fclose(file);
        differ |= check(names[i], job, length);
    }
    return differ;
}
