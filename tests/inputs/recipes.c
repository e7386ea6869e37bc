#include "recipes.h"

#include <string.h>

static unsigned rng_between(struct rng *rng, unsigned low, unsigned high)
{
    return low + rng_below(rng, high - low + 1);
}

/* ---- Recipes ----------------------------------------------------------- */

const struct recipe recipes[] = {
    /* name               free large class  pages    classes stretch parade fill */
    {"free",              1,   0,    0,     1, 1,    0, 0,   1,      false, FILL_EMPTY},
    {"mixed",             1,   1,    1,     1, 20,   0, 29,  1,      false, FILL_RANDOM},
    {"mixed-any-length",  2,   1,    6,     1, 511,  0, 29,  1,      false, FILL_ANY},
    {"parade",            1,   1,    1,     1, 20,   0, 29,  1,      true,  FILL_ANY},
    {"large-1-to-20",     0,   1,    0,     1, 20,   0, 0,   1,      false, FILL_EMPTY},
    {"large-1-to-300",    0,   1,    0,     1, 300,  0, 0,   1,      false, FILL_EMPTY},
    {"large-one-page",    0,   1,    0,     1, 1,    0, 0,   1,      false, FILL_EMPTY},
    {"large-whole-chunk", 0,   1,    0,     511, 511, 0, 0,  1,      false, FILL_EMPTY},
    {"classes",           0,   0,    1,     1, 1,    0, 29,  1,      false, FILL_RANDOM},
    {"classes-full",      0,   0,    1,     1, 1,    0, 29,  1,      false, FILL_FULL},
    {"classes-empty",     0,   0,    1,     1, 1,    0, 29,  1,      false, FILL_EMPTY},
    {"classes-one-page",  0,   0,    1,     1, 1,    0, 15,  1,      false, FILL_RANDOM},
    {"class-0",           0,   0,    1,     1, 1,    0, 0,   1,      false, FILL_RANDOM},
    {"stretches",         1,   1,    1,     1, 20,   0, 29,  40,     false, FILL_RANDOM},
    {"classes-any-fill",  0,   0,    1,     1, 1,    0, 29,  1,      false, FILL_ANY},
};

const size_t recipe_count = COUNT(recipes);

const struct recipe *recipe_named(const char *name)
{
    for (size_t i = 0; i < recipe_count; i++)
        if (strcmp(recipes[i].name, name) == 0)
            return &recipes[i];
    return NULL;
}

struct recipe recipe_of_class(unsigned class_number, enum fill fill)
{
    struct recipe recipe = {
        "one-class", 0, 0, 1, 1, 1, class_number, class_number, 1, false, fill};
    return recipe;
}

/* ---- Pools ------------------------------------------------------------- */

/* What is put next: a free page, a large run or a class run. */
enum sort { SORT_FREE, SORT_LARGE, SORT_CLASS };

static enum sort pick_sort(const struct recipe *recipe, struct rng *rng)
{
    unsigned all = recipe->free_share + recipe->large_share + recipe->class_share;
    unsigned pick = rng_below(rng, all);

    if (pick < recipe->free_share)
        return SORT_FREE;
    if (pick < recipe->free_share + recipe->large_share)
        return SORT_LARGE;
    return SORT_CLASS;
}

/* Each of these puts something at a page and answers the page behind it. */

static unsigned put_large(struct run_list *list, unsigned page, unsigned pages)
{
    struct run run = {RUN_LARGE, page, pages, 0};

    if (page + pages > PAGES)
        run.pages = PAGES - page; /* the rest of the chunk */
    list->runs[list->count++] = run;
    return page + run.pages;
}

static unsigned put_class(struct run_list *list, unsigned page, unsigned b)
{
    struct run run = {RUN_CLASS, page, size_classes[b].pages, b};

    if (page + run.pages > PAGES)
        return page + 1; /* no room for it: the page stays free */
    list->runs[list->count++] = run;
    return page + run.pages;
}

static unsigned put_some(struct run_list *list, unsigned page, enum sort sort,
                         const struct recipe *recipe, struct rng *rng)
{
    switch (sort) {
    case SORT_LARGE:
        return put_large(list, page,
                         rng_between(rng, recipe->large_min, recipe->large_max));
    case SORT_CLASS:
        return put_class(list, page,
                         rng_between(rng, recipe->class_min, recipe->class_max));
    default:
        return page + 1;
    }
}

/* Every class once, in random order, free pages and large runs in between. */
static unsigned put_parade(struct run_list *list, unsigned page, struct rng *rng)
{
    unsigned order[CLASSES];

    rng_order(rng, order, CLASSES);
    for (unsigned i = 0; i < CLASSES; i++) {
        page = put_class(list, page, order[i]);
        if (i % 3 == 1)
            page++;
        if (i % 5 == 2)
            page = put_large(list, page, 1 + i / 5);
    }
    return page;
}

static void list_runs(struct run_list *list, const struct recipe *recipe,
                      struct rng *rng)
{
    unsigned page = 1, alike = 0;
    enum sort sort = SORT_FREE;

    list->count = 0;
    if (recipe->parade)
        page = put_parade(list, page, rng);
    while (page < PAGES) {
        if (alike == 0) {
            alike = rng_between(rng, 1, recipe->stretch);
            sort = pick_sort(recipe, rng);
        }
        page = put_some(list, page, sort, recipe, rng);
        alike--;
    }
}

/* Of the slots that a run has, which now all count as taken, keeps some. */
static void fill_run(struct chunk chunk, unsigned first, enum fill fill,
                     struct rng *rng)
{
    uint64_t *words = chunk.slots + PAGE_SLOT_WORDS * first;

    if (fill == FILL_ANY)
        fill = (enum fill)rng_below(rng, FILL_ANY);
    for (unsigned i = 0; i < PAGE_SLOT_WORDS; i++) {
        if (fill == FILL_EMPTY)
            words[i] = 0;
        else if (fill == FILL_RANDOM && words[i] != 0)
            words[i] &= rng_next(rng);
    }
}

static void generate_chunk(struct chunk chunk, const struct recipe *recipe,
                           struct rng *rng)
{
    static struct run_list list;

    list_runs(&list, recipe, rng);
    model_write(&list, chunk);
    for (unsigned i = 0; i < list.count; i++)
        if (list.runs[i].kind == RUN_CLASS)
            fill_run(chunk, list.runs[i].first, recipe->fill, rng);
}

void generate(struct records *r, const struct recipe *recipe, struct rng *rng)
{
    for (size_t k = 0; k < r->c; k++)
        generate_chunk(chunk_of(r, k), recipe, rng);
}
