/*
 * Lensember's arena: memory to allocate from, cut by a pool.
 *
 * An arena is a pool with the bytes that its blocks lie in. A program asks for
 * bytes and gets a pointer, as it would from malloc:
 *
 *   static LENSEMBER_POOL_MEMORY(2) records;
 *   static LENSEMBER_ARENA_MEMORY(2) bytes;
 *
 *   struct lensember_arena arena = lensember_arena_at(
 *       lensember_pool_at(2, &records, sizeof records), &bytes, sizeof bytes);
 *   lensember_arena_fresh(&arena);
 *   struct row *row = lensember_alloc(&arena, sizeof *row);
 *
 * There is nothing to link but the library. An alloc is one call on the pool, and
 * so is a free; a realloc is one, and a copy of the bytes where the block is moved.
 *
 * A pointer is the arena's base plus the place of the block. It is aligned for
 * every object whose size was asked for, up to 4,096 and as far as the base is
 * aligned for it. It is not always a multiple of 16, as malloc's are: the pointer
 * to 24 bytes is one of 8. The bytes of a new block hold anything.
 *
 * Mistakes that show. A program that is compiled with -fsanitize=address, or with
 * LENSEMBER_VALGRIND defined (which needs <valgrind/memcheck.h>) and run under
 * valgrind, is watched: the bytes of the arena that are not handed out are out of
 * bounds, and so are those of a block behind the size that was asked for. Whoever
 * reads or writes one is told, with the line. So is whoever gives lensember_free
 * or lensember_realloc a pointer that is not a live block's. To any other program
 * nothing is added. All files that use one arena are compiled alike, watched or
 * not.
 *
 * Threads. Two arenas, two threads. Of one arena only one call may run at a time,
 * and the caller locks, also for those that ask: each call writes `refusal`.
 */
#ifndef LENSEMBER_ARENA_H
#define LENSEMBER_ARENA_H

#include "lensember.h"

#include <string.h>

#if defined(__SANITIZE_ADDRESS__)
#define LENSEMBER_ASAN
#elif defined(__has_feature)
#if __has_feature(address_sanitizer)
#define LENSEMBER_ASAN
#endif
#endif

#if defined(LENSEMBER_ASAN)
#include <sanitizer/asan_interface.h>
#elif defined(LENSEMBER_VALGRIND)
#include <valgrind/memcheck.h>
#endif

#ifdef __cplusplus
extern "C" {
#endif

/* Bytes of the arena of a pool of c chunks. */
#define LENSEMBER_ARENA_BYTES(c) ((size_t)(c) * LENSEMBER_CHUNK_BYTES)

/*
 * The type of such memory, where c is a constant, aligned as malloc would: for a
 * static object, a member, or a typedef.
 */
#define LENSEMBER_ARENA_MEMORY(c)                      \
    union {                                            \
        unsigned char bytes[LENSEMBER_ARENA_BYTES(c)]; \
        uint64_t whole;                                \
        long double real;                              \
        void *pointer;                                 \
        void (*function)(void);                        \
    }

/*
 * An arena, made by lensember_arena_at. All calls on its pool may be made on
 * &arena.pool; behind those that change which blocks are live, fresh, reserve,
 * release, resize, replay and lines, call lensember_arena_sync.
 */
struct lensember_arena {
    struct lensember_pool pool;
    unsigned char *base; /* of LENSEMBER_ARENA_BYTES(pool.c) bytes; place 0 */
    uint64_t refusal;    /* what the last call here answered, LENSEMBER_OK or why not */
};

/* ---- Making an arena ---------------------------------------------------- */

/*
 * The arena of a pool, whose blocks lie in the nbytes bytes from `base` on.
 * Nothing is read or written. Where the pool has live blocks already, sync it.
 *
 * Where nbytes is not LENSEMBER_ARENA_BYTES(pool.c), or base is null or not a
 * multiple of 8, it is an arena without a chunk, which every call refuses by
 * LENSEMBER_SHAPE, as it does an arena of a pool that is none.
 */
static inline struct lensember_arena lensember_arena_at(struct lensember_pool pool, void *base,
                                                        size_t nbytes);

/* Makes the pool a fresh one: no block is live. Answers as lensember_fresh. */
static inline uint64_t lensember_arena_fresh(struct lensember_arena *arena);

/*
 * Takes note of the live blocks of a pool that was loaded, replayed or changed by
 * calls of its own: all bytes that these blocks were given may be used. Only a
 * watched program needs it, in which it takes one lensember_next a block. Answers
 * as lensember_check.
 */
static inline uint64_t lensember_arena_sync(struct lensember_arena *arena);

/*
 * Ends the arena: its bytes are the caller's for anything, as to be given back or
 * to be written to a file as a whole, and every call refuses it. The pool's
 * records stay as they are. Only a watched program needs it.
 */
static inline void lensember_arena_close(struct lensember_arena *arena);

/* ---- Allocating --------------------------------------------------------- */

/*
 * A block of at least n bytes, by lensember_reserve. Null where it is refused:
 * arena->refusal says why. 0 bytes may be asked for, and give a block.
 */
static inline void *lensember_alloc(struct lensember_arena *arena, size_t n);

/*
 * Gives back the block that starts at this pointer. Answers as lensember_release;
 * a null pointer is served, and nothing is done, whatever the arena is.
 */
static inline uint64_t lensember_free(struct lensember_arena *arena, void *start);

/*
 * Gives the block that starts at this pointer at least n bytes, by
 * lensember_resize, and answers where it starts now: there, or elsewhere, and
 * then its bytes are copied. Null where it is refused: arena->refusal says why,
 * and the block is as it was. Of a null pointer it is lensember_alloc. 0 bytes
 * are a size as any other.
 */
static inline void *lensember_realloc(struct lensember_arena *arena, void *start, size_t n);

/* ---- Pointers and places ------------------------------------------------ */

/*
 * Which block starts at this pointer, whatever it points to? Its place and size,
 * or a refusal as of lensember_block_size, and both are 0.
 */
static inline struct lensember_found lensember_place_of(struct lensember_arena *arena,
                                                        const void *start);

/*
 * Where does the block that starts at this place, any number, lie? Null for a
 * refusal, as of lensember_block_size.
 */
static inline void *lensember_pointer_to(struct lensember_arena *arena, uint64_t place);

/*
 * How many bytes was the block that starts at this pointer given? 0 for a
 * refusal. Those behind the size that was asked for can be had by a
 * lensember_realloc to this size, which keeps the block where it is.
 */
static inline size_t lensember_usable_size(struct lensember_arena *arena, const void *start);

/* ---- What AddressSanitizer and valgrind are told ------------------------ */

/*
 * A byte that was asked for, in a live block, is open; all others are shut.
 *
 *   lensember_shut_arena  shuts all bytes: no block is live
 *   lensember_open_arena  opens all bytes: they are the caller's, in no block
 *   lensember_open_new    opens n bytes of a new block
 *   lensember_open_old    opens n bytes of a block that was written before
 *   lensember_open_kept   of a block with `size` bytes n are open now, the others shut
 *   lensember_shut_block  shuts a block of `size` bytes, which is live no longer
 *   lensember_copy        copies `copy` bytes of a block, open or not, to the n of a new one
 *   lensember_no_block    a pointer was given as a live block's, and is not
 *
 * Where nobody watches, copying is all that they do.
 */
#if defined(LENSEMBER_ASAN)

static inline void lensember_shut_arena(const struct lensember_arena *arena)
{
    __asan_poison_memory_region(arena->base, LENSEMBER_ARENA_BYTES(arena->pool.c));
}

static inline void lensember_open_arena(const struct lensember_arena *arena)
{
    __asan_unpoison_memory_region(arena->base, LENSEMBER_ARENA_BYTES(arena->pool.c));
}

static inline void lensember_open_new(const struct lensember_arena *arena, void *start, size_t n)
{
    (void)arena;
    __asan_unpoison_memory_region(start, n);
}

static inline void lensember_open_old(const struct lensember_arena *arena, void *start, size_t n)
{
    lensember_open_new(arena, start, n);
}

static inline void lensember_shut_block(const struct lensember_arena *arena, void *start,
                                        size_t size)
{
    (void)arena;
    __asan_poison_memory_region(start, size);
}

static inline void lensember_open_kept(const struct lensember_arena *arena, void *start,
                                       size_t size, size_t n)
{
    lensember_shut_block(arena, start, size);
    lensember_open_new(arena, start, n);
}

static inline void lensember_copy(void *to, void *from, size_t copy, size_t n)
{
    (void)n;
    __asan_unpoison_memory_region(from, copy);
    memcpy(to, from, copy);
}

/* Not inlined: the report begins where this returns to. */
__attribute__((noinline, unused)) static void
lensember_no_block(const struct lensember_arena *arena, void *start)
{
    (void)arena;
    __asan_report_error(__builtin_return_address(0), __builtin_frame_address(0),
                        __builtin_frame_address(0), start, 1, 1);
}

#elif defined(LENSEMBER_VALGRIND)

static inline void lensember_open_arena(const struct lensember_arena *arena)
{
    if (VALGRIND_MEMPOOL_EXISTS(arena->base))
        VALGRIND_DESTROY_MEMPOOL(arena->base);
    (void)VALGRIND_MAKE_MEM_DEFINED(arena->base, LENSEMBER_ARENA_BYTES(arena->pool.c));
}

static inline void lensember_shut_arena(const struct lensember_arena *arena)
{
    lensember_open_arena(arena);
    VALGRIND_CREATE_MEMPOOL(arena->base, 0, 0);
    (void)VALGRIND_MAKE_MEM_NOACCESS(arena->base, LENSEMBER_ARENA_BYTES(arena->pool.c));
}

static inline void lensember_open_new(const struct lensember_arena *arena, void *start, size_t n)
{
    VALGRIND_MEMPOOL_ALLOC(arena->base, start, n);
}

static inline void lensember_open_old(const struct lensember_arena *arena, void *start, size_t n)
{
    lensember_open_new(arena, start, n);
    (void)VALGRIND_MAKE_MEM_DEFINED(start, n);
}

static inline void lensember_shut_block(const struct lensember_arena *arena, void *start,
                                        size_t size)
{
    (void)size;
    VALGRIND_MEMPOOL_FREE(arena->base, start);
}

/* Of the first n bytes of a block, how many are open? */
static inline size_t lensember_opened(void *start, size_t n)
{
    uintptr_t shut;

    VALGRIND_DISABLE_ERROR_REPORTING;
    shut = (uintptr_t)VALGRIND_CHECK_MEM_IS_ADDRESSABLE(start, n);
    VALGRIND_ENABLE_ERROR_REPORTING;
    return shut == 0 ? n : (size_t)(shut - (uintptr_t)start);
}

static inline void lensember_open_kept(const struct lensember_arena *arena, void *start,
                                       size_t size, size_t n)
{
    size_t opened = lensember_opened(start, size);

    VALGRIND_MEMPOOL_CHANGE(arena->base, start, start, n);
    if (n > opened)
        (void)VALGRIND_MAKE_MEM_UNDEFINED((unsigned char *)start + opened, n - opened);
    else
        (void)VALGRIND_MAKE_MEM_NOACCESS((unsigned char *)start + n, opened - n);
}

/* What was shut counts as not written, as does what is new. */
static inline void lensember_copy(void *to, void *from, size_t copy, size_t n)
{
    size_t opened = lensember_opened(from, copy);

    VALGRIND_DISABLE_ERROR_REPORTING;
    memcpy(to, from, copy);
    VALGRIND_ENABLE_ERROR_REPORTING;
    (void)VALGRIND_MAKE_MEM_UNDEFINED((unsigned char *)to + opened, n - opened);
}

/*
 * Valgrind knows no such block, and reports a bad free. One that it knows, since
 * the pool gave it back without a sync, is dropped first.
 */
static inline void lensember_no_block(const struct lensember_arena *arena, void *start)
{
    VALGRIND_DISABLE_ERROR_REPORTING;
    VALGRIND_MEMPOOL_FREE(arena->base, start);
    VALGRIND_ENABLE_ERROR_REPORTING;
    VALGRIND_MEMPOOL_FREE(arena->base, start);
}

#else

#define LENSEMBER_UNWATCHED

static inline void lensember_shut_arena(const struct lensember_arena *arena)
{
    (void)arena;
}

static inline void lensember_open_arena(const struct lensember_arena *arena)
{
    (void)arena;
}

static inline void lensember_open_new(const struct lensember_arena *arena, void *start, size_t n)
{
    (void)arena, (void)start, (void)n;
}

static inline void lensember_open_kept(const struct lensember_arena *arena, void *start,
                                       size_t size, size_t n)
{
    (void)arena, (void)start, (void)size, (void)n;
}

static inline void lensember_shut_block(const struct lensember_arena *arena, void *start,
                                        size_t size)
{
    (void)arena, (void)start, (void)size;
}

static inline void lensember_copy(void *to, void *from, size_t copy, size_t n)
{
    (void)n;
    memcpy(to, from, copy);
}

#endif

/* ---- How it is done ----------------------------------------------------- */

/* The place of what the pointer points to, if it is in the arena; else one outside its pool. */
static inline uint64_t lensember_offset(const struct lensember_arena *arena, const void *start)
{
    return (uintptr_t)start - (uintptr_t)arena->base;
}

/* The size of a block that is to be given back or resized, where somebody watches. */
static inline size_t lensember_needs_live_block(const struct lensember_arena *arena, void *start)
{
#ifdef LENSEMBER_UNWATCHED
    (void)arena, (void)start;
    return 0;
#else
    struct lensember_sized block =
        lensember_pool_block_size(&arena->pool, lensember_offset(arena, start));

    if (block.refusal == LENSEMBER_NO_BLOCK || block.refusal == LENSEMBER_FREE_SLOT)
        lensember_no_block(arena, start);
    return (size_t)block.size;
#endif
}

/* It has no chunk, and no byte, from now on. */
static inline void lensember_end_arena(struct lensember_arena *arena)
{
    arena->pool = lensember_pool_at(0, NULL, 0);
    arena->base = NULL;
    arena->refusal = LENSEMBER_SHAPE;
}

static inline struct lensember_arena lensember_arena_at(struct lensember_pool pool, void *base,
                                                        size_t nbytes)
{
    struct lensember_arena arena;

    arena.pool = pool;
    arena.base = (unsigned char *)base;
    arena.refusal = LENSEMBER_OK;
    if (pool.c != 0 && nbytes == LENSEMBER_ARENA_BYTES(pool.c) && base != NULL
            && (uintptr_t)base % 8 == 0)
        lensember_shut_arena(&arena);
    else
        lensember_end_arena(&arena);
    return arena;
}

static inline uint64_t lensember_arena_fresh(struct lensember_arena *arena)
{
    arena->refusal = lensember_pool_fresh(&arena->pool);
    if (arena->refusal == LENSEMBER_OK)
        lensember_shut_arena(arena);
    return arena->refusal;
}

static inline uint64_t lensember_arena_sync(struct lensember_arena *arena)
{
    arena->refusal = lensember_pool_check(&arena->pool);
#ifndef LENSEMBER_UNWATCHED
    if (arena->refusal == LENSEMBER_OK) {
        struct lensember_found block = lensember_pool_next(&arena->pool, 0);

        lensember_shut_arena(arena);
        while (block.size != 0) {
            lensember_open_old(arena, arena->base + block.place, (size_t)block.size);
            block = lensember_pool_next(&arena->pool, block.place + block.size);
        }
    }
#endif
    return arena->refusal;
}

static inline void lensember_arena_close(struct lensember_arena *arena)
{
    lensember_open_arena(arena);
    lensember_end_arena(arena);
}

static inline void *lensember_alloc(struct lensember_arena *arena, size_t n)
{
    struct lensember_reserved block = lensember_pool_reserve(&arena->pool, n);
    unsigned char *start;

    arena->refusal = block.refusal;
    if (block.refusal != LENSEMBER_OK)
        return NULL;
    start = arena->base + block.place;
    lensember_open_new(arena, start, n);
    return start;
}

static inline uint64_t lensember_free(struct lensember_arena *arena, void *start)
{
    size_t size;

    arena->refusal = LENSEMBER_OK;
    if (start == NULL)
        return arena->refusal;
    size = lensember_needs_live_block(arena, start);
    arena->refusal = lensember_pool_release(&arena->pool, lensember_offset(arena, start));
    if (arena->refusal == LENSEMBER_OK)
        lensember_shut_block(arena, start, size);
    return arena->refusal;
}

static inline void *lensember_realloc(struct lensember_arena *arena, void *start, size_t n)
{
    struct lensember_resized block;
    unsigned char *moved;
    size_t size;

    if (start == NULL)
        return lensember_alloc(arena, n);
    size = lensember_needs_live_block(arena, start);
    block = lensember_pool_resize(&arena->pool, lensember_offset(arena, start), n);
    arena->refusal = block.refusal;
    if (block.refusal != LENSEMBER_OK)
        return NULL;
    if (block.how == LENSEMBER_KEPT) {
        lensember_open_kept(arena, start, size, n);
        return start;
    }
    moved = arena->base + block.place;
    lensember_open_new(arena, moved, n);
    lensember_copy(moved, start, (size_t)block.copy, n);
    lensember_shut_block(arena, start, size);
    return moved;
}

static inline struct lensember_found lensember_place_of(struct lensember_arena *arena,
                                                        const void *start)
{
    uint64_t place = lensember_offset(arena, start);
    struct lensember_sized block = lensember_pool_block_size(&arena->pool, place);
    struct lensember_found found;

    arena->refusal = block.refusal;
    found.refusal = block.refusal;
    found.place = block.refusal == LENSEMBER_OK ? place : 0;
    found.size = block.size;
    return found;
}

static inline void *lensember_pointer_to(struct lensember_arena *arena, uint64_t place)
{
    arena->refusal = lensember_pool_block_size(&arena->pool, place).refusal;
    return arena->refusal == LENSEMBER_OK ? arena->base + place : NULL;
}

static inline size_t lensember_usable_size(struct lensember_arena *arena, const void *start)
{
    return (size_t)lensember_place_of(arena, start).size;
}

#ifdef __cplusplus
}
#endif

#endif
