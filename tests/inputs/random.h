/* Random numbers that are the same for the same seed on every machine. */
#ifndef RANDOM_H
#define RANDOM_H

#include <stdint.h>

/* How many elements an array has. */
#define COUNT(array) (sizeof(array) / sizeof(array)[0])

struct rng {
    uint64_t state;
};
uint64_t rng_next(struct rng *rng);
unsigned rng_below(struct rng *rng, unsigned limit);

/* Writes 0 to count - 1, in any order. */
void rng_order(struct rng *rng, unsigned order[], unsigned count);

/* The one source of the test programs, which program_begin seeds. */
extern struct rng rng;

#endif
