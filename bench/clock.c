#define _POSIX_C_SOURCE 199309L /* clock_gettime */

#include "clock.h"

#include <time.h>

double seconds_now(void)
{
    struct timespec now;

    clock_gettime(CLOCK_MONOTONIC, &now);
    return (double)now.tv_sec + (double)now.tv_nsec * 1e-9;
}

void keep_shortest(double *best, double start)
{
    double took = seconds_now() - start;

    if (took < *best)
        *best = took;
}

static uint64_t state;

void draw_begin(void)
{
    state = UINT64_C(88172645463325252);
}

uint64_t draw(uint64_t low, uint64_t high)
{
    state ^= state << 13;
    state ^= state >> 7;
    state ^= state << 17;
    return low + (state >> 11) % (high - low + 1);
}
