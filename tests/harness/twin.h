/*
 * A pool kept twice: by the library and by the model. Each call is made on
 * both; the answers, and all three buffers after it, are compared.
 */
#ifndef TWIN_H
#define TWIN_H

#include "lent.h"
#include "pool.h"
#include "recipes.h"

struct twin {
    struct records lent;  /* the library's */
    struct records right; /* the same, written from the model's runs */
    struct records anew;  /* written anew from time to time, to compare */
    struct pool model;
    unsigned long calls;
    size_t room_words; /* of each of these two, for a census */
    uint64_t *room;    /* lent: as many words from its end as are asked for */
    uint64_t *listed;  /* what the model lists there */
};

struct twin *twin_new(size_t c); /* fresh */
void twin_free(struct twin *twin);

/* A generated pool, or whatever the model has been given by hand. */
void twin_generate(struct twin *twin, const struct recipe *recipe);
void twin_settle(struct twin *twin);

/* The lent buffers are those of the model. */
void expect_alike(const struct twin *twin);

/* A test that leaves the two alike, on pools of every count of chunks and, for each, one recipe in so many. */
typedef void twin_test(struct twin *twin);
void on_each_recipe(unsigned step, twin_test *test);

/* These count as trials. Answered is what the model says. */
void twin_fresh(struct twin *twin);
struct pool_reserved twin_reserve(struct twin *twin, uint64_t size);
uint64_t twin_release(struct twin *twin, uint64_t place);
struct pool_resized twin_resize(struct twin *twin, uint64_t place, uint64_t size);
uint64_t twin_sweep(struct twin *twin); /* the pages gained */
struct pool_sized twin_block_size(struct twin *twin, uint64_t place);
struct pool_found twin_next(struct twin *twin, uint64_t place);
struct pool_counted twin_census(struct twin *twin, size_t nroom);
struct pool_summed twin_totals(struct twin *twin);

/* Numbers that are known beforehand, besides those of the model. */
void expect_served(struct twin *twin, uint64_t size, uint64_t place, uint64_t given);
void expect_refused(struct twin *twin, uint64_t size, uint64_t number);
void expect_release(struct twin *twin, uint64_t place, uint64_t number);
void expect_gain(struct twin *twin, uint64_t pages);
void expect_size(struct twin *twin, uint64_t place, uint64_t number, uint64_t size);

/* How often the library gave each answer, 0 to 7. Others count as 8. */
enum { ANSWERS = 9 };

struct answers {
    unsigned long reserve[ANSWERS], release[ANSWERS], sweep[ANSWERS], block_size[ANSWERS];
    unsigned long next[ANSWERS], census[ANSWERS], totals[ANSWERS];
    unsigned long reserve_swept;   /* served, but only after a sweep */
    unsigned long reserve_spared;  /* of these: the sweep gained more pages than were taken */
    unsigned long reserve_in_vain; /* refused 4, and there are empty runs */
    unsigned long reserve_unswept; /* served, and there are empty runs */
    unsigned long sweep_none;      /* no page gained */
    unsigned long next_none;       /* no block at or above the place */
    struct resize_counts resizes;  /* as the model has them */
};
extern struct answers answers;

#endif
