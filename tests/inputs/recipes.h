/* Sound pools, made at random by a recipe: for the tests and the benchmark. */
#ifndef RECIPES_H
#define RECIPES_H

#include "random.h"
#include "records.h"

/* What a generated pool is made of. */
enum fill { FILL_RANDOM, FILL_FULL, FILL_EMPTY, FILL_ANY };

struct recipe {
    const char *name;
    unsigned free_share, large_share, class_share; /* how often each is put */
    unsigned large_min, large_max;                 /* pages of a large run */
    unsigned class_min, class_max;                 /* classes in use */
    unsigned stretch;   /* up to so many of one sort in a row */
    bool parade;        /* each chunk has every class, large runs and free pages */
    enum fill fill;     /* which slots of a class run are taken */
};

extern const struct recipe recipes[];
extern const size_t recipe_count;

const struct recipe *recipe_named(const char *name); /* null if there is none */
struct recipe recipe_of_class(unsigned class_number, enum fill fill);

void generate(struct records *r, const struct recipe *recipe, struct rng *rng);

#endif
