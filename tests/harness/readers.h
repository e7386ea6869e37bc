/* Tests of next, census and totals. The program series runs them. */
#ifndef READERS_H
#define READERS_H

#include "shapes.h"
#include "twin.h"

void test_readers(void);

/* Numbers that are known beforehand, besides those of the model. */
void expect_next(struct twin *twin, uint64_t from, uint64_t place, uint64_t size);
void expect_census(struct twin *twin, size_t nroom, uint64_t number, uint64_t count);
void expect_totals(struct twin *twin, uint64_t blocks, uint64_t bytes, uint64_t free_pages);

/* All three refuse records of these lengths, whatever else they are given. */
void expect_readers_refuse(uint64_t number, uint64_t c, const struct records *r, struct lengths n);

/* So does a census in so many words, and they are unchanged. */
void expect_census_refused(const struct records *r, uint64_t number, size_t nroom);

#endif
