#include "random.h"

struct rng rng;

/* SplitMix64: any seed will do, 0 too. */
uint64_t rng_next(struct rng *rng)
{
    uint64_t z = rng->state += UINT64_C(0x9E3779B97F4A7C15);
    z = (z ^ (z >> 30)) * UINT64_C(0xBF58476D1CE4E5B9);
    z = (z ^ (z >> 27)) * UINT64_C(0x94D049BB133111EB);
    return z ^ (z >> 31);
}

unsigned rng_below(struct rng *rng, unsigned limit)
{
    return (unsigned)(rng_next(rng) % limit);
}

void rng_order(struct rng *rng, unsigned order[], unsigned count)
{
    for (unsigned i = 0; i < count; i++) {
        unsigned j = rng_below(rng, i + 1);
        order[i] = i;
        order[i] = order[j];
        order[j] = i;
    }
}
