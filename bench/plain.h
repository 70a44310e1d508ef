/*
 * Plain C for the comparison, without any check of the input. All pairs: the conditions as they are stated. Plain: the same steps as
 * ours, with the same tables. Quick: the same method with what else C offers, H and S of a difference by adding, and no division
 * in the loops.
 */
#ifndef PLAIN_H
#define PLAIN_H
#include <stdint.h>

typedef struct {
    int n, k, m;
    int low[4], high[4];
    int d[4][4], kind[4], rule[4], a[4], b[4];
    int time[4], row[2][4];
} plain_job;

/* 0 accepted; 9, 10, 11, 12 otherwise. */
int all_pairs(const plain_job *j);
int plain_walk(const plain_job *j);
int quick_walk(const plain_job *j);

/* The tick count; the places must be enough. */
uint64_t plain_run(const plain_job *j, const uint32_t *input, uint32_t *values, uint32_t *places);
uint64_t quick_run(const plain_job *j, const uint32_t *input, uint32_t *values, uint32_t *places);
#endif
