/* Times of a run, of which the shortest counts, and numbers that are the same in every run. */
#ifndef CLOCK_H
#define CLOCK_H

#include <stdint.h>

double seconds_now(void);

/* What has passed since the start, if it is less. */
void keep_shortest(double *best, double start);

/* From low to high, the same row of numbers after each beginning. */
void draw_begin(void);
uint64_t draw(uint64_t low, uint64_t high);

#endif
