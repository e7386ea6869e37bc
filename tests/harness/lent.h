/*
 * Buffers to lend. Each ends right before memory that no one may touch, so a
 * call that reads or writes behind a buffer's last element stops the test. One
 * that fills whole pages of the system also starts right behind such memory.
 */
#ifndef LENT_H
#define LENT_H

#include "records.h"

struct records lent_new(size_t c); /* all zero; ends the program if there is no memory */
void lent_free(struct records *r);

/* So many words of room; the last one lies right before that memory. */
uint64_t *lent_room_new(size_t words);
void lent_room_free(uint64_t *room, size_t words);

/* The same of bytes. */
uint8_t *lent_bytes_new(size_t bytes);
void lent_bytes_free(uint8_t *buffer, size_t bytes);

/* Fills a buffer with bytes, drawn at random, of which no two words are alike. */
void lent_fill(uint8_t *buffer, size_t bytes);

/* Very many bytes for reading: these in front, all others 0. They take no memory. */
const uint8_t *lent_vast_new(size_t bytes, const uint8_t *front, size_t nfront);
void lent_vast_free(const uint8_t *buffer, size_t bytes);

/* Both of the same c. */
void lent_copy(struct records *to, const struct records *from);
bool lent_equal(const struct records *a, const struct records *b);

#endif
