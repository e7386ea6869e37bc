/*
 * Lensember: the records of a memory pool, kept by proved code.
 *
 * A pool has c chunks, 1 to 16. A chunk is 2,097,152 bytes, 512 pages of
 * 4,096. The library keeps only the records that say which pages and slots
 * are taken; it never reads or writes the bytes of a block.
 *
 * Who owns what. The caller owns all buffers, those of the records, the room
 * for a census, a request log and the room for its lines, a vendor's text, and
 * lends them for the length of one call. The arenas, where the bytes of the
 * blocks lie, are the caller's alone: only their lengths are told. The library
 * keeps nothing between calls, allocates nothing and has no state of its own.
 *
 * A pool is one value, struct lensember_pool, made on one piece of memory:
 *
 *   static LENSEMBER_POOL_MEMORY(2) records;
 *   struct lensember_pool pool = lensember_pool_at(2, &records, sizeof records);
 *   lensember_pool_fresh(&pool);
 *   struct lensember_reserved row = lensember_pool_reserve(&pool, 24);
 *
 * Each call on a pool has two forms, of one description: lensember_pool_NAME on
 * the pool, and lensember_NAME on its records as plain buffers. Whatever a later
 * version keeps of a pool becomes a part of it: a program that makes its pools by
 * lensember_pool_at compiles unchanged then. <lensember_arena.h> allocates from
 * a pool by pointers. Both headers are C99, and C++.
 *
 * The three buffers of a pool, each with one part a chunk, lengths counted in
 * elements:
 *
 *   bits   page bits    8 words of 64 bits a chunk      8 * c
 *   words  page words   512 words of 32 bits a chunk    512 * c
 *   slots  slot bits    4,096 words of 64 bits a chunk  4,096 * c
 *
 * What no callee can check, and the caller must see to:
 *
 *   - each pointer is aligned for its type and valid for its count of
 *     elements: for reading, and for writing too where it is not const;
 *   - the three buffers do not overlap, nor does the room lent to a census or
 *     to lines, or a log, overlap any of them or each other; nor do the log and
 *     the text of an import or export;
 *   - nobody else writes to them while the call runs;
 *   - an empty buffer's pointer need only be non-null and aligned.
 *
 * All else may be anything: any number, any length, any contents. Each call
 * ends and answers, and a refused call changes nothing; only a log that is
 * refused at one of its fields has done what the fields before it say.
 *
 * Threads. Calls on two pools may run in two threads at once. Of one pool only
 * one call may run at a time: the caller locks. Calls that only read a pool may
 * run side by side while none changes it.
 *
 * When LENSEMBER_DAMAGED is answered, something else has written into the
 * records, a wild pointer or a failing memory, and nobody knows any more what
 * lies where. Write no block of that pool. Put its records back: from a copy, or
 * by a replay of its log, which gives each block its place again if every call is
 * in the log (a sweep of the program's own is not, there is no field for it). See
 * that a check answers LENSEMBER_OK. The bytes of the blocks nobody checks: trust
 * them as far as a checksum of the program's own goes, for what has written into
 * the records may have written there too.
 */
#ifndef LENSEMBER_H
#define LENSEMBER_H

#include <stddef.h>
#include <stdint.h>

/* The version of this header and of the archive that belongs to it. */
#define LENSEMBER_VERSION "1.1.0"
#define LENSEMBER_VERSION_MAJOR 1
#define LENSEMBER_VERSION_MINOR 1
#define LENSEMBER_VERSION_PATCH 0

/* Sizes in bytes, and how many chunks a pool may have. */
#define LENSEMBER_CHUNK_BYTES 2097152
#define LENSEMBER_PAGE_BYTES 4096
#define LENSEMBER_CHUNK_PAGES 512
#define LENSEMBER_MAX_CHUNKS 16

/* Elements of each record buffer that belong to one chunk. */
#define LENSEMBER_CHUNK_BITS 8
#define LENSEMBER_CHUNK_WORDS 512
#define LENSEMBER_CHUNK_SLOTS 4096

/* Answers. */
#define LENSEMBER_OK 0         /* served */
#define LENSEMBER_SHAPE 1      /* c not 1 to 16, a length that does not fit, or no such ear */
#define LENSEMBER_DAMAGED 2    /* the records are not those of any pool */
#define LENSEMBER_TOO_BIG 3    /* more than 2,093,056 bytes are asked for */
#define LENSEMBER_NO_ROOM 4    /* no free slot of the class and no long enough gap, swept or not */
#define LENSEMBER_NO_BLOCK 5   /* no block or slot starts at that place */
#define LENSEMBER_FREE_SLOT 6  /* a slot starts there and is free */
#define LENSEMBER_SHORT_ROOM 7 /* less room was lent than what is to be written needs */
#define LENSEMBER_CUT_LOG 8    /* a log ends inside a field or before its end field */
#define LENSEMBER_BAD_FIELD 9  /* a field is unknown, of wrong length, out of turn or unwritable */
#define LENSEMBER_BAD_LINE 13  /* a line of a vendor's text is not one that is due */

/* What a reserved block is. */
#define LENSEMBER_NOTHING 0 /* refused: there is no block */
#define LENSEMBER_SLOT 1    /* a slot of a size class, for 0 to 3,072 bytes */
#define LENSEMBER_RUN 2     /* a run of pages, for 3,073 to 2,093,056 bytes */

/* How a block got another size; LENSEMBER_NOTHING where that is refused. */
#define LENSEMBER_KEPT 1  /* the block lies where it did */
#define LENSEMBER_MOVED 2 /* another block has taken its place */

/* Ears. Each has a pool and an arena of its own. */
#define LENSEMBER_LEFT 0
#define LENSEMBER_RIGHT 1

/* The fields of a request log, by their tags. */
#define LENSEMBER_START 1   /* the count of chunks */
#define LENSEMBER_RESERVE 2 /* the size */
#define LENSEMBER_RELEASE 3 /* the place */
#define LENSEMBER_END 4     /* no number */
#define LENSEMBER_RESIZE 8  /* the place, then the size */

/* Bytes of room that are enough for the lines of any log of n bytes. */
#define LENSEMBER_LINES_ROOM(n) (12 * (size_t)(n) + 60)

/* Bytes of room that are enough for any field behind a log so far. */
#define LENSEMBER_FIELD_ROOM 11

/* Bytes of room that are enough for the log of any vendor's text of n bytes. */
#define LENSEMBER_IMPORT_ROOM(n) (7 * ((size_t)(n) / 3))

/* Bytes of room that are enough for the vendor's text of any log of n bytes. */
#define LENSEMBER_EXPORT_ROOM(n) (12 * ((size_t)(n) / 7))

#ifdef __cplusplus
extern "C" {
#endif

/*
 * A pool: how many chunks it has, and its records. It is made by
 * lensember_pool_at, and before that, also where it is all zero, it is nothing to
 * call on. It may be copied, and two copies are the same pool. It needs no end:
 * the memory that it was made on is the caller's.
 */
struct lensember_pool {
    uint64_t c; /* chunks, 1 to 16 */
    uint64_t *bits;
    uint32_t *words;
    uint64_t *slots;
};

/*
 * Bytes of memory for the records of a pool of c chunks, 34,880 a chunk. They
 * start at a multiple of 8, as malloc's do.
 */
#define LENSEMBER_POOL_BYTES(c)                                \
    ((size_t)(c)                                               \
     * (LENSEMBER_CHUNK_BITS * sizeof(uint64_t)                \
        + LENSEMBER_CHUNK_WORDS * sizeof(uint32_t)             \
        + LENSEMBER_CHUNK_SLOTS * sizeof(uint64_t)))

/*
 * The type of such memory, where c is a constant: for a static object, a member,
 * or a typedef. It has exactly these bytes.
 */
#define LENSEMBER_POOL_MEMORY(c)                     \
    struct {                                         \
        uint64_t bits[LENSEMBER_CHUNK_BITS * (c)];   \
        uint32_t words[LENSEMBER_CHUNK_WORDS * (c)]; \
        uint64_t slots[LENSEMBER_CHUNK_SLOTS * (c)]; \
    }

/*
 * The pool of c chunks whose records lie in `memory`, nbytes of them. Nothing is
 * read or written: make it fresh, replay a log, or go on with the records that
 * lie there. To save a pool save these bytes; another version may have more of
 * them, so what is to outlive a version is the log.
 *
 * Where c is not 1 to 16, nbytes is not LENSEMBER_POOL_BYTES(c), or memory is
 * null or not a multiple of 8, it is a pool of no chunk, which every call refuses
 * by LENSEMBER_SHAPE; so the answer of malloc need not be looked at before.
 */
static inline struct lensember_pool lensember_pool_at(uint64_t c, void *memory, size_t nbytes)
{
    static uint64_t nothing;
    struct lensember_pool pool;
    unsigned char *start = (unsigned char *)memory;

    if (c < 1 || c > LENSEMBER_MAX_CHUNKS || nbytes != LENSEMBER_POOL_BYTES(c)
            || memory == NULL || (uintptr_t)memory % sizeof nothing != 0) {
        c = 0;
        start = (unsigned char *)&nothing;
    }
    pool.c = c;
    pool.bits = (uint64_t *)(void *)start;
    start += c * LENSEMBER_CHUNK_BITS * sizeof *pool.bits;
    pool.words = (uint32_t *)(void *)start;
    start += c * LENSEMBER_CHUNK_WORDS * sizeof *pool.words;
    pool.slots = (uint64_t *)(void *)start;
    return pool;
}

/* The seven arguments that lend a pool to the calls on plain buffers. */
#define LENSEMBER_LENT(pool)                                  \
    (pool)->c,                                                \
    (pool)->bits, (size_t)(pool)->c * LENSEMBER_CHUNK_BITS,   \
    (pool)->words, (size_t)(pool)->c * LENSEMBER_CHUNK_WORDS, \
    (pool)->slots, (size_t)(pool)->c * LENSEMBER_CHUNK_SLOTS

/*
 * Are these the records of a sound pool of c chunks? Reads only.
 *
 *   LENSEMBER_OK       they are
 *   LENSEMBER_SHAPE    c is not 1 to 16, or a buffer is not of the exact length
 *   LENSEMBER_DAMAGED  the lengths are right and the contents are damaged
 */
uint64_t lensember_check(uint64_t c,
                         const uint64_t *bits, size_t nbits,
                         const uint32_t *words, size_t nwords,
                         const uint64_t *slots, size_t nslots);

static inline uint64_t lensember_pool_check(const struct lensember_pool *pool)
{
    return lensember_check(LENSEMBER_LENT(pool));
}

/*
 * Makes a fresh pool of c chunks: pages 1 to 511 of each chunk are free.
 * All three buffers are written whole, whatever they held before; damaged
 * contents are no reason to refuse.
 *
 *   LENSEMBER_OK     the buffers are those of a fresh pool
 *   LENSEMBER_SHAPE  c is not 1 to 16, or a buffer is not of the exact length;
 *                    nothing is changed
 */
uint64_t lensember_fresh(uint64_t c,
                         uint64_t *bits, size_t nbits,
                         uint32_t *words, size_t nwords,
                         uint64_t *slots, size_t nslots);

static inline uint64_t lensember_pool_fresh(struct lensember_pool *pool)
{
    return lensember_fresh(LENSEMBER_LENT(pool));
}

/*
 * The answer to reserve. Members that do not apply are 0; on a refusal all but
 * `refusal` are 0. Place 0 is never handed out.
 *
 * A place is a byte offset in the pool: chunk times 2,097,152, plus page times
 * 4,096, plus slot times the slot size. The bytes from `place` on, `size` of
 * them, are the caller's until the block is released or resized. The library
 * never reads or writes them; it does not even know where in memory the pool
 * lies.
 */
struct lensember_reserved {
    uint64_t refusal;      /* LENSEMBER_OK, or the number of the refusal */
    uint64_t place;        /* where the block starts */
    uint64_t size;         /* bytes given: those asked for, or a few more */
    uint64_t kind;         /* LENSEMBER_NOTHING, LENSEMBER_SLOT or LENSEMBER_RUN */
    uint64_t class_number; /* of a slot: its size class, 0 to 29 */
    uint64_t first_page;   /* of a slot: its run's first page in its chunk, 1 to 511 */
    uint64_t slot;         /* of a slot: its number in the run, from 0 */
    uint64_t pages;        /* of a page run: how many */
};

/*
 * Reserves a block of at least `size` bytes; any number may be asked for.
 *
 * Up to 3,072 bytes are served by a slot of the smallest class that holds
 * them: the free slot with the lowest place. Where the class has none, a new
 * run of pages is cut into slots. More bytes are served by a run of pages of
 * its own. Pages come from the first chunk that has a gap of that length; in
 * it from the shortest such gap, the lower one on a tie.
 *
 * Where there is no room, the search is made once more on the pool as a sweep
 * would leave it. If it succeeds, all empty runs are swept, not only those in
 * the way, and the block is taken; if not, nothing is swept. A request that is
 * served at once sweeps nothing.
 *
 *   LENSEMBER_OK       the block is taken, and the records say so
 *   LENSEMBER_SHAPE    c is not 1 to 16, or a buffer is not of the exact length
 *   LENSEMBER_DAMAGED  the lengths are right and the contents are damaged
 *   LENSEMBER_TOO_BIG  size is above 2,093,056
 *   LENSEMBER_NO_ROOM  even after a sweep there would be no room. Up to 3,072
 *                      bytes: the class has no free slot, and no chunk has a
 *                      long enough gap for a run of the class; more bytes: no
 *                      chunk has a long enough gap
 *
 * The refusals are checked in this order. A refused call changes nothing.
 */
struct lensember_reserved lensember_reserve(uint64_t c,
                                            uint64_t *bits, size_t nbits,
                                            uint32_t *words, size_t nwords,
                                            uint64_t *slots, size_t nslots,
                                            uint64_t size);

static inline struct lensember_reserved lensember_pool_reserve(struct lensember_pool *pool,
                                                               uint64_t size)
{
    return lensember_reserve(LENSEMBER_LENT(pool), size);
}

/*
 * Gives the block that starts at `place` back; any number may be given. The
 * pages of a page run are free for any request again. A slot is free for its
 * class again. Its run stays with the class, even when all its slots are free,
 * until a sweep.
 *
 *   LENSEMBER_OK         the block is free, and the records say so
 *   LENSEMBER_SHAPE      c is not 1 to 16, or a buffer is not of the exact length
 *   LENSEMBER_DAMAGED    the lengths are right and the contents are damaged
 *   LENSEMBER_NO_BLOCK   no block or slot starts there: the place is outside
 *                        the pool, in the first page of a chunk, in a free page,
 *                        inside a block or slot, or behind a run's last slot
 *   LENSEMBER_FREE_SLOT  a slot starts there and is free
 *
 * The refusals are checked in this order. A refused call changes nothing.
 */
uint64_t lensember_release(uint64_t c,
                           uint64_t *bits, size_t nbits,
                           uint32_t *words, size_t nwords,
                           uint64_t *slots, size_t nslots,
                           uint64_t place);

static inline uint64_t lensember_pool_release(struct lensember_pool *pool, uint64_t place)
{
    return lensember_release(LENSEMBER_LENT(pool), place);
}

/*
 * The answer to resize. On a refusal all but `refusal` are 0. A block that was
 * kept has the place that was given, and no byte to copy.
 */
struct lensember_resized {
    uint64_t refusal; /* LENSEMBER_OK, or the number of the refusal */
    uint64_t place;   /* where the block starts now */
    uint64_t size;    /* bytes that it has now: those asked for, or a few more */
    uint64_t how;     /* LENSEMBER_NOTHING, LENSEMBER_KEPT or LENSEMBER_MOVED */
    uint64_t copy;    /* of a moved block: how many bytes the caller copies */
};

/*
 * Gives the block that starts at `place` at least `size` bytes, more or fewer
 * than it has; any numbers may be given.
 *
 * A block is kept where it can be: a slot whose class is the one for that size;
 * a page run, for 3,073 bytes or more, that has as many pages as are needed, or
 * more, of which the last are free for any request then, or fewer, if the pages
 * right behind it are free and in its chunk. No sweep is made for these.
 *
 * Any other block is moved: a block of that size is reserved, as by a reserve,
 * which may sweep, while the old one is live, and then the old one is released.
 * The bytes are the caller's to copy, `copy` of them from the old place to the
 * new one: the old block's or those asked for, whichever are fewer. The two
 * blocks share none. Copy right after the call: the next one may hand out the
 * old block's bytes again.
 *
 *   LENSEMBER_OK         the block has the size, and the records say so
 *   LENSEMBER_SHAPE      c is not 1 to 16, or a buffer is not of the exact length
 *   LENSEMBER_DAMAGED    the lengths are right and the contents are damaged
 *   LENSEMBER_NO_BLOCK   no block or slot starts there, as for release
 *   LENSEMBER_FREE_SLOT  a slot starts there and is free
 *   LENSEMBER_TOO_BIG    size is above 2,093,056
 *   LENSEMBER_NO_ROOM    the block cannot be kept, and beside it there is no room
 *                        for another one, as for reserve
 *
 * The refusals are checked in this order. A refused call changes nothing: the
 * block is live, and has the size that it had.
 */
struct lensember_resized lensember_resize(uint64_t c,
                                          uint64_t *bits, size_t nbits,
                                          uint32_t *words, size_t nwords,
                                          uint64_t *slots, size_t nslots,
                                          uint64_t place, uint64_t size);

static inline struct lensember_resized lensember_pool_resize(struct lensember_pool *pool,
                                                             uint64_t place, uint64_t size)
{
    return lensember_resize(LENSEMBER_LENT(pool), place, size);
}

/* The answer to a sweep. On a refusal there are no pages. */
struct lensember_swept {
    uint64_t refusal; /* LENSEMBER_OK, or the number of the refusal */
    uint64_t pages;   /* pages gained: free now, and in a run before */
};

/*
 * Gives all empty runs back: the pages of each run of slots that has no taken
 * slot are free for any request again. No block is touched: a census lists the
 * same before and after. That there is no such run is no refusal; then no page
 * is gained and nothing is changed.
 *
 * There is no need to sweep before a reserve or a resize, which do it where they
 * would be refused by LENSEMBER_NO_ROOM otherwise.
 *
 *   LENSEMBER_OK       no empty run is left, and so many pages were gained
 *   LENSEMBER_SHAPE    c is not 1 to 16, or a buffer is not of the exact length
 *   LENSEMBER_DAMAGED  the lengths are right and the contents are damaged
 *
 * The refusals are checked in this order. A refused call changes nothing.
 */
struct lensember_swept lensember_sweep(uint64_t c,
                                       uint64_t *bits, size_t nbits,
                                       uint32_t *words, size_t nwords,
                                       uint64_t *slots, size_t nslots);

static inline struct lensember_swept lensember_pool_sweep(struct lensember_pool *pool)
{
    return lensember_sweep(LENSEMBER_LENT(pool));
}

/* The answer to block size. On a refusal the size is 0. */
struct lensember_sized {
    uint64_t refusal; /* LENSEMBER_OK, or the number of the refusal */
    uint64_t size;    /* bytes that the block was given */
};

/*
 * How many bytes was the block that starts at `place` given? Any number may be
 * given as a place. Reads only.
 *
 *   LENSEMBER_OK         a live block starts there, and this is its size
 *   LENSEMBER_SHAPE      c is not 1 to 16, or a buffer is not of the exact length
 *   LENSEMBER_DAMAGED    the lengths are right and the contents are damaged
 *   LENSEMBER_NO_BLOCK   no block or slot starts there, as for release
 *   LENSEMBER_FREE_SLOT  a slot starts there and is free
 *
 * The refusals are checked in this order.
 */
struct lensember_sized lensember_block_size(uint64_t c,
                                            const uint64_t *bits, size_t nbits,
                                            const uint32_t *words, size_t nwords,
                                            const uint64_t *slots, size_t nslots,
                                            uint64_t place);

static inline struct lensember_sized lensember_pool_block_size(const struct lensember_pool *pool,
                                                               uint64_t place)
{
    return lensember_block_size(LENSEMBER_LENT(pool), place);
}

/*
 * The answer to next. Place 0 is never handed out, so it says that there is no
 * such block, and the size is 0 then. On a refusal both are 0.
 */
struct lensember_found {
    uint64_t refusal; /* LENSEMBER_OK, or the number of the refusal */
    uint64_t place;   /* where the block starts; 0 where there is none */
    uint64_t size;    /* bytes that it was given; 0 where there is none */
};

/*
 * Which is the first live block from `place` on: of those that start there or
 * above, the one with the lowest place? Any number may be given as a place; it
 * need not be that of a block. That no block starts there or above is no
 * refusal. Reads only.
 *
 * From place 0 on it is the first block of the pool. From a block's place plus
 * 1, or plus its size, it is the block behind it, so all blocks can be walked
 * without any room for a list.
 *
 *   LENSEMBER_OK       this is the block, or place 0: there is none
 *   LENSEMBER_SHAPE    c is not 1 to 16, or a buffer is not of the exact length
 *   LENSEMBER_DAMAGED  the lengths are right and the contents are damaged
 */
struct lensember_found lensember_next(uint64_t c,
                                      const uint64_t *bits, size_t nbits,
                                      const uint32_t *words, size_t nwords,
                                      const uint64_t *slots, size_t nslots,
                                      uint64_t place);

static inline struct lensember_found lensember_pool_next(const struct lensember_pool *pool,
                                                         uint64_t place)
{
    return lensember_next(LENSEMBER_LENT(pool), place);
}

/* The answer to a census. On a refusal the count is 0. */
struct lensember_counted {
    uint64_t refusal; /* LENSEMBER_OK, or the number of the refusal */
    uint64_t count;   /* live blocks, each of them listed */
};

/*
 * Lists all live blocks by rising place: two words for each, its place, then
 * the size it was given. The list starts at room[0]; the words of the room
 * behind it are unchanged. The records are only read.
 *
 * The room has nroom words of 64 bits, and is the caller's before and after
 * the call. Two words for each block that totals counts are enough; more may
 * be lent, and none need be lent for a pool without live blocks.
 *
 *   LENSEMBER_OK          the blocks are listed
 *   LENSEMBER_SHAPE       c is not 1 to 16, or a record buffer is not of the
 *                         exact length
 *   LENSEMBER_DAMAGED     the lengths are right and the contents are damaged
 *   LENSEMBER_SHORT_ROOM  nroom is less than two words for each live block
 *
 * The refusals are checked in this order. A refused call writes nothing, not
 * even a part of the list.
 */
struct lensember_counted lensember_census(uint64_t c,
                                          const uint64_t *bits, size_t nbits,
                                          const uint32_t *words, size_t nwords,
                                          const uint64_t *slots, size_t nslots,
                                          uint64_t *room, size_t nroom);

static inline struct lensember_counted lensember_pool_census(const struct lensember_pool *pool,
                                                             uint64_t *room, size_t nroom)
{
    return lensember_census(LENSEMBER_LENT(pool), room, nroom);
}

/* The answer to totals. On a refusal all but `refusal` are 0. */
struct lensember_summed {
    uint64_t refusal;    /* LENSEMBER_OK, or the number of the refusal */
    uint64_t blocks;     /* live blocks */
    uint64_t bytes;      /* bytes given to them, all together */
    uint64_t free_pages; /* pages in no run; the first of a chunk is not free */
};

/*
 * How much is taken, and how much is left? Reads only.
 *
 * The free pages, the pages in runs and one page a chunk are all 512 * c pages
 * of the pool. A run of slots keeps its pages even when all its slots are free,
 * until a sweep, so a pool without live blocks may have fewer free pages than a
 * fresh one. What a sweep would gain is not counted.
 *
 *   LENSEMBER_OK       these are the totals
 *   LENSEMBER_SHAPE    c is not 1 to 16, or a buffer is not of the exact length
 *   LENSEMBER_DAMAGED  the lengths are right and the contents are damaged
 */
struct lensember_summed lensember_totals(uint64_t c,
                                         const uint64_t *bits, size_t nbits,
                                         const uint32_t *words, size_t nwords,
                                         const uint64_t *slots, size_t nslots);

static inline struct lensember_summed lensember_pool_totals(const struct lensember_pool *pool)
{
    return lensember_totals(LENSEMBER_LENT(pool));
}

/*
 * The answer to bytes: a part of the chosen arena. On a refusal it is empty, and
 * both of its numbers are 0; a part that is served has at least one byte.
 */
struct lensember_part {
    uint64_t refusal; /* LENSEMBER_OK, or the number of the refusal */
    uint64_t start;   /* the part's first byte, counted from the arena's */
    uint64_t size;    /* how many bytes it has: those that the block was given */
};

/*
 * Which part of an arena is the block that starts at `place`? Each ear has a
 * pool and an arena, c * LENSEMBER_CHUNK_BYTES bytes that are the caller's. The
 * call is told the ear, lent the records of that ear's pool, and told how many
 * bytes both arenas have; the other arena's length may be anything. Any number
 * may be given as an ear or a place. Reads only, and only the records.
 *
 * The part lies wholly inside the chosen arena: the caller reads and writes the
 * bytes from arena[start] on, `size` of them. Parts of two live blocks share no
 * byte.
 *
 *   LENSEMBER_OK         a live block starts there, and this is its part
 *   LENSEMBER_SHAPE      ear is above 1, the chosen arena is not of
 *                        c * LENSEMBER_CHUNK_BYTES bytes, c is not 1 to 16, or a
 *                        record buffer is not of the exact length
 *   LENSEMBER_DAMAGED    the lengths are right and the contents are damaged
 *   LENSEMBER_NO_BLOCK   no block or slot starts there, as for release
 *   LENSEMBER_FREE_SLOT  a slot starts there and is free
 *
 * The refusals are checked in this order.
 */
struct lensember_part lensember_bytes(uint64_t c,
                                      const uint64_t *bits, size_t nbits,
                                      const uint32_t *words, size_t nwords,
                                      const uint64_t *slots, size_t nslots,
                                      uint64_t ear, uint64_t place,
                                      size_t nleft, size_t nright);

static inline struct lensember_part lensember_pool_bytes(const struct lensember_pool *pool,
                                                         uint64_t ear, uint64_t place,
                                                         size_t nleft, size_t nright)
{
    return lensember_bytes(LENSEMBER_LENT(pool), ear, place, nleft, nright);
}

/*
 * The answer to a replay. The position is that of the offended field's first
 * byte, or the log's length when nothing is left of it; it is 0 for an accepted
 * log and for LENSEMBER_SHAPE.
 */
struct lensember_replayed {
    uint64_t refusal;  /* LENSEMBER_OK, or the number of the refusal */
    uint64_t position; /* where in the log it was refused */
};

/*
 * Replays a request log of nlog bytes: does what its fields say, one after the
 * other, on the lent records.
 *
 * A field is one byte tag, two bytes length and the body; numbers have the high
 * byte first.
 *
 *   tag 1  start    length 1  chunk count, 1 to 16
 *   tag 2  reserve  length 4  size
 *   tag 3  release  length 4  place
 *   tag 4  end      length 0
 *   tag 8  resize   length 8  place, then size, four bytes each
 *
 * Start comes first and once, end comes last. A start makes a fresh pool, so the
 * records may hold anything before it; its count must be c. A reserve, release or
 * resize is that call, with its sweep, and one that is refused does not end the
 * replay. The log is only read.
 *
 *   LENSEMBER_OK         the whole log was replayed
 *   LENSEMBER_SHAPE      c is not 1 to 16, or a record buffer is not of the exact
 *                        length; nothing is changed
 *   LENSEMBER_CUT_LOG    the log ends inside a field, or without an end field
 *   LENSEMBER_BAD_FIELD  a field with another tag or length, or out of its turn; a
 *                        start with a count other than c; a byte after the end
 *
 * The last two leave the records as the fields before the position left them:
 * unchanged where no start was accepted, else those of a sound pool. No replay
 * answers LENSEMBER_DAMAGED.
 */
struct lensember_replayed lensember_replay(uint64_t c,
                                           uint64_t *bits, size_t nbits,
                                           uint32_t *words, size_t nwords,
                                           uint64_t *slots, size_t nslots,
                                           const uint8_t *log, size_t nlog);

static inline struct lensember_replayed lensember_pool_replay(struct lensember_pool *pool,
                                                              const uint8_t *log, size_t nlog)
{
    return lensember_replay(LENSEMBER_LENT(pool), log, nlog);
}

/*
 * The answer to lines: that of the replay, and the length of the text. Where
 * LENSEMBER_SHAPE or LENSEMBER_SHORT_ROOM is answered, there is no text, and both
 * other numbers are 0.
 */
struct lensember_printed {
    uint64_t refusal;  /* LENSEMBER_OK, or the number of the refusal */
    uint64_t position; /* where in the log it was refused, as for replay */
    uint64_t length;   /* bytes of text, from out[0] on */
};

/*
 * Replays a request log, as lensember_replay does, and writes what happened as
 * text: one line for each field that it did, but none for the end, and a last
 * line with the totals or with the log's refusal. Each line ends in one newline;
 * no zero byte is put behind the last one.
 *
 *   pool 1
 *   reserve 24 at 4096 size 24
 *   reserve 3000000 refused 3
 *   resize 4096 20 at 4096 size 24 kept
 *   resize 4096 5000 at 8192 size 8192 moved
 *   resize 4096 10 refused 6
 *   release 8192 ok
 *   release 4100 refused 5
 *   live 0 free pages 510
 *
 * Without its end field that log is cut at byte 65, and the last line reads
 * `log refused 8 at 65`.
 *
 * The text starts at out[0]; the bytes of the room behind it are unchanged. The
 * room has nout bytes, and is the caller's before and after the call.
 * LENSEMBER_LINES_ROOM(nlog) of them are enough for any log of nlog bytes, and
 * fewer are refused, however short the text would be. The log is only read.
 *
 *   LENSEMBER_OK          the whole log was replayed, and the text says so
 *   LENSEMBER_SHAPE       c is not 1 to 16, or a record buffer is not of the exact
 *                         length; nothing is changed
 *   LENSEMBER_SHORT_ROOM  nout is less than LENSEMBER_LINES_ROOM(nlog); nothing is
 *                         changed
 *   LENSEMBER_CUT_LOG     as for replay; the text says where
 *   LENSEMBER_BAD_FIELD   as for replay; the text says where
 *
 * The refusals are checked in this order, the last two field by field.
 */
struct lensember_printed lensember_lines(uint64_t c,
                                         uint64_t *bits, size_t nbits,
                                         uint32_t *words, size_t nwords,
                                         uint64_t *slots, size_t nslots,
                                         const uint8_t *log, size_t nlog,
                                         uint8_t *out, size_t nout);

static inline struct lensember_printed lensember_pool_lines(struct lensember_pool *pool,
                                                            const uint8_t *log, size_t nlog,
                                                            uint8_t *out, size_t nout)
{
    return lensember_lines(LENSEMBER_LENT(pool), log, nlog, out, nout);
}

/* The answer to append. On a refusal the length is 0. */
struct lensember_written {
    uint64_t refusal; /* LENSEMBER_OK, or the number of the refusal */
    uint64_t length;  /* bytes of the log with the new field, from log[0] on */
};

/*
 * Writes one field behind a log so far, the first `length` bytes of log, which
 * has nlog bytes. So a log is written field by field: from length 0 with a
 * start, and then with each answered length, up to the end field. Any numbers
 * may be given.
 *
 * The field is named by its tag, and has the numbers of its body, as for replay:
 *
 *   LENSEMBER_START    first is the count of chunks, 1 to 16
 *   LENSEMBER_RESERVE  first is the size
 *   LENSEMBER_RELEASE  first is the place
 *   LENSEMBER_RESIZE   first is the place, second the size
 *   LENSEMBER_END      no number
 *
 * Numbers that a field has not are not looked at. The field starts at
 * log[length]; the bytes before it and behind it are unchanged. Each call reads
 * the log so far from its first byte on, so that what is written is never part
 * of a bad log.
 *
 *   LENSEMBER_OK          the field is written, and this is the new length
 *   LENSEMBER_SHAPE       length is above nlog
 *   LENSEMBER_BAD_FIELD   the log so far is not a row of good whole fields, each
 *                         in its turn; no field has the tag; the field is not
 *                         due behind them: not a start first, a start later, or
 *                         anything behind the end; the count is not 1 to 16, or
 *                         another number of the field is above 4,294,967,295
 *   LENSEMBER_SHORT_ROOM  nlog is less than the log so far and the field take
 *
 * The refusals are checked in this order. A refused call changes nothing.
 */
struct lensember_written lensember_append(uint8_t *log, size_t nlog, uint64_t length,
                                          uint64_t tag, uint64_t first, uint64_t second);

/* The answer to import. On a refusal the length is 0. */
struct lensember_imported {
    uint64_t refusal; /* LENSEMBER_OK, or the number of the refusal */
    uint64_t line;    /* of LENSEMBER_BAD_LINE: which, counted from 1; else 0 */
    uint64_t length;  /* bytes of the log, from log[0] on */
};

/*
 * Writes the request log of a vendor's text of ntext bytes: a line for each
 * field, the start first, then reserves and releases, and none for the end.
 *
 *   pool 1
 *   +24
 *   -4096
 *
 * starts a pool of one chunk, reserves 24 bytes and releases the block at 4096.
 * Numbers are decimal and without needless zeros, the count 1 to 16, the others
 * at most 4,294,967,295. Each line ends in one newline, the last one too. There
 * is nothing else in it, no blank or carriage return more, and no line for a
 * resize.
 *
 * The log starts at log[0], and its last field is the end; the bytes behind it
 * are unchanged. The room has nlog bytes: LENSEMBER_IMPORT_ROOM(ntext) of them
 * are enough for any text of ntext bytes. The text is only read.
 *
 *   LENSEMBER_OK          the log is written
 *   LENSEMBER_BAD_LINE    the text is not like that; the first line that is not
 *                         is told. A last line without a newline is bad, and so
 *                         is line 1 of an empty text
 *   LENSEMBER_SHORT_ROOM  nlog is less than the log takes
 *
 * The refusals are checked in this order, a bad line anywhere before the room. A
 * refused call changes nothing, not even a part of the log is written.
 */
struct lensember_imported lensember_import(const uint8_t *text, size_t ntext,
                                           uint8_t *log, size_t nlog);

/*
 * The answer to export. On a refusal the length is 0. The position is that of a
 * field's first byte, as for replay.
 */
struct lensember_exported {
    uint64_t refusal;  /* LENSEMBER_OK, or the number of the refusal */
    uint64_t position; /* where in the log it was refused; else 0 */
    uint64_t length;   /* bytes of text, from text[0] on */
};

/*
 * Writes the vendor's text of a request log of nlog bytes, which may start a
 * pool of any count of chunks, 1 to 16. An import of the text is the log again,
 * and an export of an imported text is that text.
 *
 * The text starts at text[0]; the bytes behind it are unchanged, and no zero
 * byte is put there. The room has ntext bytes: LENSEMBER_EXPORT_ROOM(nlog) of
 * them are enough for any log of nlog bytes. The log is only read.
 *
 *   LENSEMBER_OK          the text is written
 *   LENSEMBER_CUT_LOG     the log ends inside a field, or without an end field
 *   LENSEMBER_BAD_FIELD   a field with another tag or length, or out of its turn;
 *                         a start with a count other than 1 to 16; a byte after
 *                         the end. Or else, in a log without such a fault, there
 *                         is a resize, which the text has no line for: the
 *                         position is that of the first one
 *   LENSEMBER_SHORT_ROOM  ntext is less than the text takes; the position is 0
 *
 * A fault anywhere in the log comes before a resize, a resize before the room.
 * A refused call changes nothing, not even a part of the text is written.
 */
struct lensember_exported lensember_export(const uint8_t *log, size_t nlog,
                                           uint8_t *text, size_t ntext);

#ifdef __cplusplus
}
#endif

#endif
