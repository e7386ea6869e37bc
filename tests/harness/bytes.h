/* Tests of bytes, the call for a block's part of an arena. The program replays runs them. */
#ifndef BYTES_H
#define BYTES_H

#include "records.h"
#include "shapes.h"

void test_bytes(void);

/* Refuses records of these lengths, whatever ear, place and arenas are given. */
void expect_bytes_refuse(uint64_t number, uint64_t c, const struct records *r, struct lengths n);

#endif
