/* Tests of resize. The program series runs them. */
#ifndef RESIZES_H
#define RESIZES_H

#include "shapes.h"
#include "twin.h"

void test_resizes(void);

/* Of each way to be kept or moved, each bar, refusals 3 to 6 and sweeps there were so many. */
void expect_each_resize(const struct resize_counts *counts, unsigned long least);

/* Records of these lengths are refused, whatever place and size are given. */
void expect_resizes_refuse(uint64_t number, uint64_t c, const struct records *r, struct lengths n);

#endif
