/* Jobs drawn in a fixed order from a seed. */
#ifndef DRAW_H
#define DRAW_H

#include <stddef.h>
#include <stdint.h>

struct file {
    uint8_t bytes[128];
    size_t length;
};

void draw_from(uint64_t seed);

/* Any word; a number from low to high; true once in n; one of a list. */
uint64_t draw_word(void);
int draw(int low, int high);
int one_in(int n);
size_t pick(const size_t *of, size_t count);

/* A job that is good or nearly so, and the same with some damage, or none. */
void draw_job(struct file *f);
void damage(struct file *f);

#endif
