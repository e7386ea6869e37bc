/* Damaged pools to try calls on: each named case of damage, done in turn. */
#ifndef TRIALS_H
#define TRIALS_H

#include "cases.h"
#include "lent.h"
#include "recipes.h"

/*
 * A sound pool, the copy that is damaged and lent, and what was lent as it was
 * before the call. Between two trials all three are equal.
 */
struct trial_pools {
    struct records sound, lent, before;
};

struct trial_pools pools_new(size_t c);
void pools_free(struct trial_pools *pools);
void pools_generate(struct trial_pools *pools, const struct recipe *recipe);

/* How much is tried in a pool of c chunks. */
struct effort {
    size_t c;
    unsigned trials;   /* in one chunk, at most */
    unsigned variants; /* at one page, at most */
};

/* A trial on a pool that has just been damaged there. */
typedef void damage_trial(const struct trial_pools *pools, size_t chunk, unsigned page,
                          unsigned variant);

/*
 * Every named case of damage, each a group of the family: done to the first, a
 * middle and the last chunk of one pool for each of the `count` efforts.
 */
void try_damage_cases(const char *family, const struct effort *efforts, size_t count,
                      damage_trial *try_it);

#endif
