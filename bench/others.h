/*
 * Other allocators, to which the same pairs are given: malloc, and PHP's own
 * where its library is installed. Each holds the blocks of the pool before the
 * pairs, runs the pairs, and drops what is left.
 */
#ifndef OTHERS_H
#define OTHERS_H

#include <stddef.h>
#include <stdint.h>

/* Block `out` is given back; the last one takes its number, and a block of
 * this size comes behind the others. */
struct pair {
    size_t out;
    uint64_t size;
};

void hold_malloc(const uint64_t *sizes, size_t count);
void run_malloc(const struct pair *pairs, size_t count, size_t live);
void drop_malloc(size_t live);

int have_php(void);
void hold_php(const uint64_t *sizes, size_t count);
void run_php(const struct pair *pairs, size_t count, size_t live);
void drop_php(size_t live);

#endif
