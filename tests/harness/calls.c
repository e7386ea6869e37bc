#include "calls.h"

/*
 * Put together by hand, since the buffers lie apart, each before memory that no one
 * may touch. It is lent until the next call.
 */
static struct lensember_pool *pool_of(const struct records *r)
{
    static struct lensember_pool pool;

    pool.c = r->c;
    pool.bits = r->bits;
    pool.words = r->words;
    pool.slots = r->slots;
    return &pool;
}

uint64_t library_check(const struct records *r)
{
    return lensember_pool_check(pool_of(r));
}

uint64_t library_fresh(const struct records *r)
{
    return lensember_pool_fresh(pool_of(r));
}

struct lensember_reserved library_reserve(const struct records *r, uint64_t size)
{
    return lensember_pool_reserve(pool_of(r), size);
}

uint64_t library_release(const struct records *r, uint64_t place)
{
    return lensember_pool_release(pool_of(r), place);
}

struct lensember_resized library_resize(const struct records *r, uint64_t place, uint64_t size)
{
    return lensember_pool_resize(pool_of(r), place, size);
}

struct lensember_swept library_sweep(const struct records *r)
{
    return lensember_pool_sweep(pool_of(r));
}

struct lensember_sized library_block_size(const struct records *r, uint64_t place)
{
    return lensember_pool_block_size(pool_of(r), place);
}

struct lensember_found library_next(const struct records *r, uint64_t place)
{
    return lensember_pool_next(pool_of(r), place);
}

struct lensember_counted library_census(const struct records *r, uint64_t *room, size_t nroom)
{
    return lensember_pool_census(pool_of(r), room, nroom);
}

struct lensember_summed library_totals(const struct records *r)
{
    return lensember_pool_totals(pool_of(r));
}

struct lensember_replayed library_replay(const struct records *r, const uint8_t *log, size_t nlog)
{
    return lensember_pool_replay(pool_of(r), log, nlog);
}

struct lensember_printed library_lines(const struct records *r, const uint8_t *log, size_t nlog,
                                       uint8_t *out, size_t nout)
{
    return lensember_pool_lines(pool_of(r), log, nlog, out, nout);
}

struct lensember_part library_bytes(uint64_t ear, const struct records *r, uint64_t place,
                                    size_t nleft, size_t nright)
{
    return lensember_pool_bytes(pool_of(r), ear, place, nleft, nright);
}
