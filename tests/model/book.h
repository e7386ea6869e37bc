/*
 * A book of blocks by rising place: those handed out and not given back. It is
 * fed places and sizes, and knows nothing of pages, runs or slots.
 */
#ifndef BOOK_H
#define BOOK_H

#include <stddef.h>
#include <stdint.h>

/* Kept on sheets by place, so that few blocks move when one is put in. */
enum { BOOK_SHEETS = 64 };

struct booked {
    uint64_t place, size;
};

struct book_sheet {
    size_t count, space;
    struct booked *blocks; /* by rising place */
};

struct book {
    unsigned long count;
    uint64_t bytes; /* of all blocks together */
    struct book_sheet sheets[BOOK_SHEETS];
};

/* A book starts as zero. Both end the program when they cannot be done. */
void book_put(struct book *book, uint64_t place, uint64_t size);
void book_take(struct book *book, uint64_t place); /* of a block that is in it */

void book_clear(struct book *book);

/* The block with the lowest place at or above this one, or null. */
const struct booked *book_from(const struct book *book, uint64_t place);

/* The block with so many before it, or null. */
const struct booked *book_at(const struct book *book, unsigned long number);

/* Writes place and size of all blocks; there is room for them. */
void book_copy(const struct book *book, uint64_t *out);

#endif
