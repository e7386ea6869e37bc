/* The library's calls, each on the whole records of a pool, by the forms that take a pool. */
#ifndef CALLS_H
#define CALLS_H

#include "lensember.h"
#include "records.h"

uint64_t library_check(const struct records *r);
uint64_t library_fresh(const struct records *r);
struct lensember_reserved library_reserve(const struct records *r, uint64_t size);
uint64_t library_release(const struct records *r, uint64_t place);
struct lensember_resized library_resize(const struct records *r, uint64_t place, uint64_t size);
struct lensember_swept library_sweep(const struct records *r);
struct lensember_sized library_block_size(const struct records *r, uint64_t place);
struct lensember_found library_next(const struct records *r, uint64_t place);
struct lensember_counted library_census(const struct records *r, uint64_t *room, size_t nroom);
struct lensember_summed library_totals(const struct records *r);
struct lensember_replayed library_replay(const struct records *r, const uint8_t *log, size_t nlog);
struct lensember_printed library_lines(const struct records *r, const uint8_t *log, size_t nlog,
                                       uint8_t *out, size_t nout);
struct lensember_part library_bytes(uint64_t ear, const struct records *r, uint64_t place,
                                    size_t nleft, size_t nright);

#endif
