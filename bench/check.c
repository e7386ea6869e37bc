/*
 * How long does the record check take, against one plain OR over the same
 * records? How it is timed: timing.h.
 *
 * Usage: check [--gate RATIO]
 * With a gate the exit status is 1 when the highest ratio is above it.
 */
#include "lensember.h"
#include "recipes.h"
#include "timing.h"

#include <stdio.h>
#include <stdlib.h>
#include <string.h>

static uint64_t call_check(size_t c)
{
    return lensember_pool_check(pool_of(c));
}

/* Generates a pool, times both calls on it, prints a line, answers the ratio. */
static double measure(const char *name, size_t c)
{
    struct records pool = {c, bits, words, slots};
    struct rng rng = {c};
    static timed_call *const calls[] = {call_or, call_check};
    double best[2], ratio;

    generate(&pool, recipe_named(name), &rng);
    if (call_check(c) != LENSEMBER_OK) {
        fprintf(stderr, "check: the pool %s of %zu chunks is not answered 0\n", name, c);
        exit(2);
    }
    time_calls(calls, best, 2, c);
    ratio = best[1] / best[0];
    printf("%-20s %2zu %10.3f %10.3f %8.2f\n", name, c, best[0], best[1], ratio);
    fflush(stdout);
    return ratio;
}

static double measure_all(void)
{
    static const char *const names[] = {
        "free", "mixed", "large-1-to-20", "large-1-to-300",
        "classes", "classes-one-page", "class-0", "stretches"};
    double highest = 0;

    for (size_t c = 1; c <= MAX_CHUNKS; c += MAX_CHUNKS - 1) {
        for (size_t i = 0; i < sizeof names / sizeof names[0]; i++) {
            double ratio = measure(names[i], c);
            if (ratio > highest)
                highest = ratio;
        }
    }
    return highest;
}

int main(int argc, char **argv)
{
    double gate = 0, highest;

    if (argc == 3 && strcmp(argv[1], "--gate") == 0) {
        gate = strtod(argv[2], NULL);
    } else if (argc != 1) {
        fprintf(stderr, "usage: check [--gate RATIO]\n");
        return 2;
    }
    printf("%-20s %2s %10s %10s %8s\n", "pool", "c", "or us", "check us", "ratio");
    highest = measure_all();
    printf("times are microseconds a chunk; highest ratio %.2f\n", highest);
    if (gate > 0 && highest > gate) {
        printf("above the gate of %.2f\n", gate);
        return 1;
    }
    return 0;
}
