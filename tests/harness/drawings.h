/*
 * What the drawings of a pool of one chunk have to say, from the runs of
 * pool.c: the map byte for byte, the picture as a reader of SVG takes it.
 */
#ifndef DRAWINGS_H
#define DRAWINGS_H

#include "pool.h"

/* Of the last run's standard output, after a log of nlog bytes. */
void expect_map(const struct pool *pool, size_t nlog);
void expect_picture(const struct pool *pool, size_t nlog);

#endif
