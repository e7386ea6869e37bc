/* Random sizes and places to call with, likely and unlikely ones. */
#ifndef DRAWS_H
#define DRAWS_H

#include "pool.h"

uint64_t draw_small_size(void);                    /* 0 to 3,072 */
uint64_t draw_size_of_class(unsigned class_number);
uint64_t draw_large_size(unsigned most_pages);     /* 3,073 to 2,093,056 at most */
uint64_t draw_hostile_size(void);                  /* around each limit, or any number */

/*
 * Sizes for a series: mostly small ones, any, large ones, those of which few fill
 * a pool, mostly those of class b.
 */
uint64_t draw_mostly_small(unsigned b);
uint64_t draw_any_size(unsigned b);
uint64_t draw_large_only(unsigned b);
uint64_t draw_filling(unsigned b);
uint64_t draw_mostly_class(unsigned b);

/* A pool is filled up, then drained, in turn: is it filled, after a call with this answer? */
bool next_tide(const struct pool *pool, bool filling, uint64_t refusal);

/* A size for the block at a place: near the one that it has, or any. */
uint64_t draw_new_size(const struct pool *pool, uint64_t place);

/* The place of a live block; page 0 where none is found. */
uint64_t draw_live_place(const struct pool *pool);

/* A place to look for the next block from, in or outside the pool. */
uint64_t draw_next_place(const struct pool *pool);

/* Words lent to a census: too few, just enough or more. */
size_t draw_room(const struct pool *pool);

/* Any of the places of refusals 5 and 6 (RULES 3.7), and others. */
uint64_t draw_hostile_place(const struct pool *pool);

#endif
