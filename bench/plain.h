/*
 * A pool by the same rules, written in C without a proof: what the replay is
 * measured against. It keeps its own records and reads the log itself. It
 * looks for a free slot by its records alone, page by page; or, tuned, by a row
 * of bits for each class, of the runs that have one.
 */
#ifndef PLAIN_H
#define PLAIN_H

#include <stddef.h>
#include <stdint.h>

/* The calls of a log: an empty pool of c chunks, 1 to 16; a reserve, which
 * answers its refusal and the place; a release; a resize, which may change the
 * place. */
void plain_fresh(unsigned c);
void plain_tune(int tuned); /* from the next fresh pool on */
unsigned plain_reserve(uint64_t size, uint64_t *place);
unsigned plain_release(uint64_t place);
unsigned plain_resize(uint64_t *place, uint64_t size);

/* Replays a log on a pool of c chunks, 1 to 16. Answers the refusal: 0, 8 or 9. */
unsigned plain_replay(unsigned c, const uint8_t *log, size_t length);

/* How many blocks are live, and the sum of their places. */
uint64_t plain_live(uint64_t *places);

#endif
