#include "trials.h"

#include "groups.h"

#include <assert.h>

struct trial_pools pools_new(size_t c)
{
    struct trial_pools pools = {lent_new(c), lent_new(c), lent_new(c)};
    return pools;
}

void pools_free(struct trial_pools *pools)
{
    lent_free(&pools->sound);
    lent_free(&pools->lent);
    lent_free(&pools->before);
}

void pools_generate(struct trial_pools *pools, const struct recipe *recipe)
{
    generate(&pools->sound, recipe, &rng);
    lent_copy(&pools->lent, &pools->sound);
    lent_copy(&pools->before, &pools->sound);
}

/* Damage is done to one chunk and perhaps the one behind it. */
static void copy_site_chunks(struct records *to, const struct records *from, size_t chunk)
{
    chunk_copy(chunk_of(to, chunk), chunk_of(from, chunk));
    if (chunk + 1 < from->c)
        chunk_copy(chunk_of(to, chunk + 1), chunk_of(from, chunk + 1));
}

static unsigned smaller(unsigned a, unsigned b)
{
    return a < b ? a : b;
}

static void try_in_chunk(const struct damage_case *way, struct trial_pools *pools,
                         size_t chunk, const struct effort *effort, damage_trial *try_it)
{
    static struct site site;
    unsigned order[PAGES];
    unsigned done = 0;
    bool one_page = way->where == AT_PAGE_0;
    unsigned at_page = one_page ? way->variants : smaller(way->variants, effort->variants);

    site_read(&site, &pools->lent, chunk);
    rng_order(&rng, order, PAGES);
    for (unsigned i = 0; i < PAGES; i++) {
        unsigned page = order[i];
        unsigned start = rng_below(&rng, way->variants);
        if (!(site.pages[page].kind & way->where))
            continue;
        for (unsigned v = 0; v < at_page; v++) {
            unsigned variant = (start + v) % way->variants;
            if (done == effort->trials)
                return;
            if (!way->apply(&site, page, variant))
                continue;
            copy_site_chunks(&pools->before, &pools->lent, chunk);
            try_it(pools, chunk, page, variant);
            copy_site_chunks(&pools->lent, &pools->sound, chunk);
            copy_site_chunks(&pools->before, &pools->sound, chunk);
            done++;
        }
    }
}

static void try_case(const struct damage_case *way, struct trial_pools *pools,
                     const struct effort *effort, damage_trial *try_it)
{
    size_t first = 0, middle = effort->c / 2, last = effort->c - 1;

    try_in_chunk(way, pools, first, effort, try_it);
    if (middle != first)
        try_in_chunk(way, pools, middle, effort, try_it);
    if (last != middle)
        try_in_chunk(way, pools, last, effort, try_it);
}

/* More efforts than any test makes. */
enum { MAX_EFFORTS = 8 };

void try_damage_cases(const char *family, const struct effort *efforts, size_t count,
                      damage_trial *try_it)
{
    struct trial_pools pools[MAX_EFFORTS];

    assert(count <= MAX_EFFORTS);
    for (size_t i = 0; i < count; i++)
        pools[i] = pools_new(efforts[i].c);
    for (size_t n = 0; n < damage_case_count; n++) {
        group_begin(family, damage_cases[n].name);
        for (size_t i = 0; i < count; i++) {
            pools_generate(&pools[i], recipe_named("parade"));
            try_case(&damage_cases[n], &pools[i], &efforts[i], try_it);
        }
        group_end();
    }
    for (size_t i = 0; i < count; i++)
        pools_free(&pools[i]);
}
