/*
 * An independent pool, written from RULES 5 and 6.
 *
 * It keeps no bits and no page words: a chunk is a list of runs by rising
 * page, a run of slots has the set of those that are taken, and a gap is what
 * lies between two runs. A sweep strikes runs off the list, and what it would
 * give is seen by looking through them. A large run may grow up to where the
 * next run starts. The records are written from the runs only to be compared.
 * Next, census and totals come from a book of the blocks that were handed out,
 * and from the gaps.
 */
#ifndef POOL_H
#define POOL_H

#include "book.h"
#include "records.h"

#define PAGE_BYTES UINT64_C(4096)
#define CHUNK_BYTES UINT64_C(2097152)
#define LARGEST_SMALL UINT64_C(3072)
#define LARGEST UINT64_C(2093056)

struct pool_run {
    enum run_kind kind;
    unsigned first, pages;
    unsigned class_number; /* of a class run */
    unsigned taken_count;  /* of a class run: how many slots are taken */
    bool taken[512];       /* and which */
};

struct pool_chunk {
    unsigned count;
    struct pool_run *runs[PAGES]; /* by rising page */
};

/* What a call changed the records of: the pages of a run or two, or any, where runs were swept. */
enum { MOST_STRETCHES = 2 };

struct touched {
    unsigned count;
    struct stretch {
        size_t chunk;
        unsigned first, pages;
    } stretches[MOST_STRETCHES];
    bool anywhere;
};

struct pool {
    size_t c;
    struct book live; /* blocks handed out and not given back */
    struct touched touched;
    struct pool_chunk chunks[MAX_CHUNKS];
};

/* All pools start as zero, with no runs to forget. */
void pool_fresh(struct pool *pool, size_t c);
void pool_end(struct pool *pool); /* forgets all runs */

/* Takes over what sound records say. */
void pool_read(struct pool *pool, const struct records *sound);

/* Puts a run on free pages, all slots free. The length of a class run is known. */
struct pool_run *pool_put_large(struct pool *pool, size_t chunk, unsigned first, unsigned pages);
struct pool_run *pool_put_class(struct pool *pool, size_t chunk, unsigned first, unsigned b);
void pool_take_slot(struct pool *pool, size_t chunk, struct pool_run *run, unsigned slot);

unsigned class_of_size(uint64_t size); /* for up to 3,072 bytes */
uint64_t run_place(size_t chunk, const struct pool_run *run);

/* Answers, all 0 where they do not apply. */
enum block_kind { BLOCK_NOTHING = 0, BLOCK_SLOT = 1, BLOCK_RUN = 2 };

struct pool_reserved {
    uint64_t refusal;
    uint64_t place, size;
    enum block_kind kind;
    uint64_t class_number, first_page, slot;
    uint64_t pages;
    uint64_t gained; /* pages, by a sweep before it, of which the library tells nothing */
};

enum resized_how { RESIZED_NOTHING = 0, RESIZED_KEPT = 1, RESIZED_MOVED = 2 };

/* What became of a block: four ways to be kept, then four to be moved. */
enum change {
    SLOT_STAYS,
    RUN_STAYS,
    RUN_SHRINKS,
    RUN_GROWS,
    SLOT_TO_SLOT,
    SLOT_TO_RUN,
    RUN_TO_SLOT,
    RUN_TO_RUN,
    CHANGES
};

/* What stands where a large run would have to grow, so that it is moved or refused. */
enum bar { BAR_NONE, BAR_CHUNK_END, BAR_BLOCK, BAR_EMPTY_RUN, BARS };

struct pool_resized {
    uint64_t refusal;
    uint64_t place, size;
    enum resized_how how;
    uint64_t copy;
    /* Of what follows the library tells nothing. */
    enum change change; /* of a resize that is served */
    enum bar bar;
    uint64_t gained; /* pages, by a sweep */
};

struct pool_sized {
    uint64_t refusal;
    uint64_t size;
};

struct pool_found {
    uint64_t place, size;
};

struct pool_counted {
    uint64_t refusal;
    uint64_t count;
};

struct pool_summed {
    uint64_t blocks, bytes, free_pages;
};

struct pool_reserved pool_reserve(struct pool *pool, uint64_t size);
uint64_t pool_release(struct pool *pool, uint64_t place);
struct pool_resized pool_resize(struct pool *pool, uint64_t place, uint64_t size);
uint64_t pool_sweep(struct pool *pool); /* the pages gained */
struct pool_sized pool_block_size(const struct pool *pool, uint64_t place);
struct pool_found pool_next(const struct pool *pool, uint64_t place);
struct pool_counted pool_census(const struct pool *pool, uint64_t *room, size_t nroom);
struct pool_summed pool_totals(const struct pool *pool);

/* How many pages the large run at a place may have where it lies; 0 where there is none. */
unsigned pool_most_pages(const struct pool *pool, uint64_t place);

uint64_t pool_run_pages(const struct pool *pool);   /* in all runs together */
uint64_t pool_empty_pages(const struct pool *pool); /* in empty runs: what a sweep would gain */

/* The records of the pool: all of them, or only what the last call changed. */
void pool_write(const struct pool *pool, struct records *out);
void pool_write_touched(const struct pool *pool, struct records *out);
void pool_untouch(struct pool *pool); /* that call changed nothing */

/* How often calls were answered 0 to 6. */
enum { CALL_ANSWERS = 7 };

/* How resizes went. */
struct resize_counts {
    unsigned long answers[CALL_ANSWERS];
    unsigned long changes[CHANGES], bars[BARS];
    unsigned long swept;   /* served, but only after a sweep */
    unsigned long in_vain; /* refused 4, and there were empty runs */
};

/* Right after the call on this pool. */
void count_resize(struct resize_counts *counts, const struct pool *pool,
                  const struct pool_resized *answer);
void add_resizes(struct resize_counts *counts, const struct resize_counts *more);

#endif
