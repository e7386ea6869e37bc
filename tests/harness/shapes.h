/* Bad input: chunk counts and buffer lengths that every call refuses. */
#ifndef SHAPES_H
#define SHAPES_H

#include "records.h"

/* Room for records of up to 18 chunks and one element, between guards. */
enum { GUARD = 16, ROOM = 18 };

struct shelf {
    uint64_t bits[GUARD + ROOM * BIT_WORDS + 1 + GUARD];
    uint32_t words[GUARD + ROOM * PAGES + 1 + GUARD];
    uint64_t slots[GUARD + ROOM * SLOT_WORDS + 1 + GUARD];
};

extern struct shelf shelf, shelf_before;

struct records shelf_records(struct shelf *s, size_t c);
void shelf_fill_random(void); /* everything, guards too */

struct lengths {
    size_t bits, words, slots;
};

struct lengths exact_lengths(size_t c);

/* A trial of calls on records that are lent with a chunk count or lengths that
 * do not fit. That nothing lent, nor around it, changes is seen to here. */
typedef void shape_trial(uint64_t c, const struct records *r, struct lengths n);

/*
 * All of them, each kind a group of refusals 1: wrong chunk counts and wrong
 * lengths, on sound and on damaged records, and empty buffers, whose pointers
 * need only be non-null and aligned.
 */
void try_bad_shapes(shape_trial *try_it);

#endif
