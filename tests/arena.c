/*
 * Tests of <lensember_arena.h>, and of the pool as one value, through the C calls.
 *
 * After each call the answer and all records are compared with the independent
 * pool of pool.c, and the bytes of the blocks with what was written into them.
 * This file is compiled three times: as it is, for AddressSanitizer and for
 * valgrind. Where one of these watches, it is also compared which bytes of the
 * arena are open, and with valgrind which of them count as written.
 * One line is printed for each named group, then the count of groups.
 * Usage: arena [SEED [CALLS]]
 * So many calls are made in each random series of one chunk, and fewer in others.
 */
#include "lensember_arena.h"

#include "drafts.h"
#include "draws.h"
#include "groups.h"
#include "lent.h"
#include "logs.h"
#include "memory.h"
#include "recipes.h"
#include "resizes.h"

#include <inttypes.h>
#include <stdio.h>
#include <stdlib.h>
#include <string.h>

/* ---- Who watches ------------------------------------------------------------- */

/*
 * open_at: may this byte be read and written? all_written: do these open bytes all
 * count as written, or else none of them, as far as the watcher knows? shut_own:
 * shuts bytes inside a block, as a program may. A review looks at every byte of an
 * arena of up to so many chunks.
 */
#if defined(LENSEMBER_ASAN)

#define PROGRAM "arena-asan"
enum { WATCHED = 1, CHUNKS_LOOKED_THROUGH = 16 };

static bool open_at(const unsigned char *byte)
{
    return !__asan_address_is_poisoned(byte);
}

static bool all_written(const unsigned char *start, size_t n, bool written)
{
    (void)start, (void)n, (void)written;
    return true;
}

static void shut_own(const unsigned char *start, size_t n)
{
    __asan_poison_memory_region(start, n);
}

#elif defined(LENSEMBER_VALGRIND)

#define PROGRAM "arena-valgrind"
enum { WATCHED = 1, CHUNKS_LOOKED_THROUGH = 1 };

static bool open_at(const unsigned char *byte)
{
    unsigned char bits;

    return VALGRIND_GET_VBITS(byte, &bits, 1) == 1;
}

static bool all_written(const unsigned char *start, size_t n, bool written)
{
    static unsigned char bits[LENSEMBER_CHUNK_BYTES], right[LENSEMBER_CHUNK_BYTES];

    memset(right, written ? 0 : 0xFF, n);
    return VALGRIND_GET_VBITS(start, bits, n) == 1 && memcmp(bits, right, n) == 0;
}

/* They would count as not written. */
static void shut_own(const unsigned char *start, size_t n)
{
    (void)start, (void)n;
}

#else

#define PROGRAM "arena"
enum { WATCHED = 0, CHUNKS_LOOKED_THROUGH = 0 };

static bool open_at(const unsigned char *byte)
{
    (void)byte;
    return true;
}

static bool all_written(const unsigned char *start, size_t n, bool written)
{
    (void)start, (void)n, (void)written;
    return true;
}

static void shut_own(const unsigned char *start, size_t n)
{
    (void)start, (void)n;
}

#endif

/* ---- A yard: an arena, its model, and what its blocks hold ---------------------- */

/* A live block, by its place. */
struct held {
    uint32_t asked;   /* how many bytes */
    uint32_t written; /* how many of these, from the first on */
    uint32_t from;    /* the first one in the grain */
};

/* No two blocks start in the same unit. */
enum { UNIT = 8 };

struct yard {
    struct lensember_arena arena;
    struct lensember_pool pool; /* the arena's, also when it is closed */
    uint8_t *records;           /* the memory of it */
    unsigned char *base;        /* and of the arena, */
    size_t nbytes;              /* with some bytes behind it */
    struct pool model;
    struct records right; /* the model's */
    struct held *held;    /* by place over UNIT */
    unsigned long calls;
};

/* What is written into blocks: into each from another byte of this on. */
enum { GRAINS = 1 << 16 };

static uint8_t grain[GRAINS + LARGEST];

static size_t arena_bytes(const struct yard *yard)
{
    return yard->pool.c * CHUNK_BYTES;
}

static size_t held_bytes(const struct yard *yard)
{
    return arena_bytes(yard) / UNIT * sizeof *yard->held;
}

static unsigned char *at(const struct yard *yard, uint64_t place)
{
    return (unsigned char *)((uintptr_t)yard->base + (uintptr_t)place);
}

static struct held *held_at(const struct yard *yard, uint64_t place)
{
    return &yard->held[place / UNIT];
}

static struct records records_of(const struct lensember_pool *pool)
{
    struct records records = {(size_t)pool->c, pool->bits, pool->words, pool->slots};
    return records;
}

static void yard_open(struct yard *yard)
{
    yard->arena = lensember_arena_at(yard->pool, yard->base, arena_bytes(yard));
    expect(yard->arena.refusal == 0 && yard->arena.base == yard->base, "it is no arena");
}

static void yard_fresh(struct yard *yard)
{
    uint64_t answer = lensember_arena_fresh(&yard->arena);

    expect(answer == 0 && yard->arena.refusal == 0, "fresh answers %" PRIu64, answer);
    pool_fresh(&yard->model, (size_t)yard->pool.c);
    pool_write(&yard->model, &yard->right);
}

/* The arena starts so many bytes behind a multiple of 4,096, and is fresh. */
static struct yard *yard_new(size_t c, size_t shift)
{
    struct yard *yard = grown(NULL, sizeof *yard);

    memset(yard, 0, sizeof *yard);
    yard->records = lent_bytes_new(LENSEMBER_POOL_BYTES(c));
    yard->pool = lensember_pool_at(c, yard->records, LENSEMBER_POOL_BYTES(c));
    yard->nbytes = c * CHUNK_BYTES + (PAGE_BYTES - shift) % PAGE_BYTES;
    yard->base = lent_bytes_new(yard->nbytes);
    yard->right = lent_new(c);
    yard->held = (struct held *)(void *)lent_bytes_new(held_bytes(yard));
    yard_open(yard);
    yard_fresh(yard);
    return yard;
}

static void yard_free(struct yard *yard)
{
    lensember_arena_close(&yard->arena);
    lent_bytes_free((uint8_t *)yard->held, held_bytes(yard));
    lent_free(&yard->right);
    lent_bytes_free(yard->base, yard->nbytes);
    lent_bytes_free(yard->records, LENSEMBER_POOL_BYTES(yard->pool.c));
    pool_end(&yard->model);
    free(yard);
}

/* ---- What is compared ------------------------------------------------------------ */

/* The records are those of the model, which has made the same call. */
static void settle(struct yard *yard, const char *call)
{
    struct records lent = records_of(&yard->pool);
    bool equal;

    pool_write_touched(&yard->model, &yard->right);
    equal = lent_equal(&lent, &yard->right);
    expect(equal, "c %zu call %lu, %s: the records are not the model's", lent.c, yard->calls, call);
    if (!equal)
        lent_copy(&lent, &yard->right); /* else each later call would differ too */
    group.trials++;
    yard->calls++;
}

/* The answer is a pointer to this place, or null for a refusal. */
static void expect_pointer(const struct yard *yard, const char *call, const void *answer,
                           uint64_t refusal, uint64_t place)
{
    expect(answer == (refusal == 0 ? at(yard, place) : NULL) && yard->arena.refusal == refusal,
           "c %zu call %lu, %s: answer %" PRIu64 " at %" PRIu64 ", the model says %" PRIu64
           " at %" PRIu64, yard->model.c, yard->calls, call, yard->arena.refusal,
           answer == NULL ? 0 : (uint64_t)((uintptr_t)answer - (uintptr_t)yard->base), refusal,
           place);
}

/* Of a long stretch both ends are looked at, and one byte in `step` between them. */
enum { EDGE = 128, GLANCE = 61, EVERY_BYTE = 1 };

static void expect_stretch(const struct yard *yard, uint64_t from, uint64_t to, bool open,
                           unsigned step)
{
    uint64_t byte = from;

    while (byte < to && open_at(yard->base + byte) == open)
        byte += byte - from < EDGE || to - byte <= EDGE ? 1 : step;
    expect(byte >= to, "c %zu call %lu: byte %" PRIu64 " is %s", yard->model.c, yard->calls, byte,
           open ? "shut" : "open");
}

/* Open are the bytes that were asked for, in live blocks. No block lies over `from` or `to`. */
static void expect_open(const struct yard *yard, uint64_t from, uint64_t to, unsigned step)
{
    struct pool_found block = pool_next(&yard->model, from);

    if (!WATCHED)
        return;
    while (block.size != 0 && block.place < to) {
        uint64_t end = block.place + held_at(yard, block.place)->asked;
        expect_stretch(yard, from, block.place, false, step);
        expect_stretch(yard, block.place, end, true, step);
        from = end;
        block = pool_next(&yard->model, block.place + 1);
    }
    expect_stretch(yard, from, to, false, step);
}

/* The block holds what was written into it; its other bytes count as not written. */
static void expect_held(const struct yard *yard, uint64_t place)
{
    const struct held *held = held_at(yard, place);
    const unsigned char *start = at(yard, place);

    expect(memcmp(start, grain + held->from, held->written) == 0,
           "c %zu call %lu: the block at %" PRIu64 " does not hold its bytes", yard->model.c,
           yard->calls, place);
    expect(all_written(start, held->written, true)
               && all_written(start + held->written, held->asked - held->written, false),
           "c %zu call %lu: of the block at %" PRIu64 " other bytes than %" PRIu32
           " of %" PRIu32 " are written", yard->model.c, yard->calls, place, held->written,
           held->asked);
}

/* All bytes that are not written yet. */
static void write_all(const struct yard *yard, uint64_t place)
{
    struct held *held = held_at(yard, place);

    memcpy(at(yard, place) + held->written, grain + held->from + held->written,
           held->asked - held->written);
    held->written = held->asked;
}

/* A new block: its bytes are compared, then mostly all are written, else some or none. */
static void hold(const struct yard *yard, uint64_t place, struct held new)
{
    struct held *held = held_at(yard, place);

    *held = new;
    expect_held(yard, place);
    if (rng_below(&rng, 8) == 0) {
        held->asked = held->written + rng_below(&rng, new.asked - held->written + 1);
        write_all(yard, place);
        held->asked = new.asked;
    } else {
        write_all(yard, place);
    }
}

/* A block of which nothing is written. */
static struct held unwritten(uint64_t asked)
{
    struct held held = {(uint32_t)asked, 0, rng_below(&rng, GRAINS)};
    return held;
}

static void expect_all_held(const struct yard *yard)
{
    struct pool_found block = pool_next(&yard->model, 0);

    while (block.size != 0) {
        expect_held(yard, block.place);
        block = pool_next(&yard->model, block.place + 1);
    }
}

static void review(const struct yard *yard)
{
    unsigned step = yard->model.c <= CHUNKS_LOOKED_THROUGH ? EVERY_BYTE : GLANCE;

    expect_all_held(yard);
    expect_open(yard, 0, arena_bytes(yard), step);
    expect(lensember_pool_check(&yard->pool) == 0, "c %zu call %lu: damaged", yard->model.c,
           yard->calls);
    group.trials++;
}

/* ---- Calls ------------------------------------------------------------------------ */

/* Each of these compares all of the above, and answers what the model says. */

static struct pool_reserved try_alloc(struct yard *yard, size_t n)
{
    void *answer = lensember_alloc(&yard->arena, n);
    struct pool_reserved right = pool_reserve(&yard->model, n);

    expect_pointer(yard, "alloc", answer, right.refusal, right.place);
    answers.reserve[right.refusal]++;
    if (right.refusal == 0) {
        hold(yard, right.place, unwritten(n));
        expect_open(yard, right.place, right.place + right.size, GLANCE);
    }
    settle(yard, "alloc");
    return right;
}

static uint64_t try_free(struct yard *yard, uint64_t place)
{
    uint64_t size = pool_block_size(&yard->model, place).size;
    uint64_t answer = lensember_free(&yard->arena, at(yard, place));
    uint64_t right = pool_release(&yard->model, place);

    expect(answer == right && yard->arena.refusal == right,
           "c %zu call %lu, free at %" PRIu64 ": answer %" PRIu64 ", the model says %" PRIu64,
           yard->model.c, yard->calls, place, answer, right);
    answers.release[right]++;
    expect_open(yard, place, place + size, GLANCE);
    settle(yard, "free");
    return right;
}

/* The block that was at a place, with so many bytes, was kept or moved, or its realloc refused. */
static void expect_resized(const struct yard *yard, uint64_t place, uint64_t size, size_t n,
                           const struct pool_resized *right)
{
    struct held held;

    if (right->refusal == 5 || right->refusal == 6)
        return;
    if (right->refusal == 0) {
        held = *held_at(yard, place);
        held.asked = (uint32_t)n;
        held.written = held.written < n ? held.written : (uint32_t)n;
        hold(yard, right->place, held);
        expect_open(yard, right->place, right->place + right->size, GLANCE);
    } else {
        expect_held(yard, place);
    }
    expect_open(yard, place, place + size, GLANCE);
}

static struct pool_resized try_realloc(struct yard *yard, uint64_t place, size_t n)
{
    uint64_t size = pool_block_size(&yard->model, place).size;
    void *answer = lensember_realloc(&yard->arena, at(yard, place), n);
    struct pool_resized right = pool_resize(&yard->model, place, n);

    expect_pointer(yard, "realloc", answer, right.refusal, right.place);
    count_resize(&answers.resizes, &yard->model, &right);
    expect_resized(yard, place, size, n, &right);
    settle(yard, "realloc");
    return right;
}

/* All bytes that the block was given: it is kept then. */
static void try_whole(struct yard *yard, uint64_t place)
{
    size_t size = lensember_usable_size(&yard->arena, at(yard, place));
    struct pool_resized right = try_realloc(yard, place, size);

    expect(right.refusal != 0 || (right.how == RESIZED_KEPT && right.size == size),
           "c %zu call %lu: at %" PRIu64 " not all bytes can be had", yard->model.c, yard->calls,
           place);
}

/* Place, pointer and size are told of live blocks, and of nothing else. */
static struct pool_sized try_asking(struct yard *yard, uint64_t place)
{
    struct pool_sized right = pool_block_size(&yard->model, place);
    struct lensember_found found = lensember_place_of(&yard->arena, at(yard, place));

    expect(found.refusal == right.refusal && found.size == right.size
               && found.place == (right.refusal == 0 ? place : 0)
               && yard->arena.refusal == right.refusal,
           "c %zu call %lu, place of %" PRIu64 ": answer %" PRIu64 " at %" PRIu64 " size %" PRIu64,
           yard->model.c, yard->calls, place, found.refusal, found.place, found.size);
    yard->arena.refusal = UINT64_MAX;
    expect(lensember_usable_size(&yard->arena, at(yard, place)) == right.size
               && yard->arena.refusal == right.refusal,
           "c %zu call %lu, usable size at %" PRIu64 ": not %" PRIu64, yard->model.c, yard->calls,
           place, right.size);
    yard->arena.refusal = UINT64_MAX;
    expect_pointer(yard, "pointer to", lensember_pointer_to(&yard->arena, place), right.refusal,
                   place);
    answers.block_size[right.refusal]++;
    pool_untouch(&yard->model);
    settle(yard, "place of, usable size or pointer to");
    return right;
}

/* On the pool itself: no block is touched. */
static void try_sweep(struct yard *yard)
{
    struct lensember_swept answer = lensember_pool_sweep(&yard->arena.pool);
    uint64_t right = pool_sweep(&yard->model);

    expect(answer.refusal == 0 && answer.pages == right,
           "c %zu call %lu, sweep: %" PRIu64 " pages, the model says %" PRIu64, yard->model.c,
           yard->calls, answer.pages, right);
    settle(yard, "sweep");
}

/*
 * The pool was changed by calls of its own: all bytes of its blocks are open then,
 * and count as written, whatever they hold.
 */
static void try_sync(struct yard *yard)
{
    struct pool_found block = pool_next(&yard->model, 0);
    uint64_t answer = lensember_arena_sync(&yard->arena);

    expect(answer == 0 && yard->arena.refusal == 0, "sync answers %" PRIu64, answer);
    for (; block.size != 0; block = pool_next(&yard->model, block.place + 1)) {
        expect(all_written(at(yard, block.place), block.size, true),
               "the block at %" PRIu64 " is not written", block.place);
        held_at(yard, block.place)->asked = (uint32_t)block.size;
        write_all(yard, block.place);
    }
    pool_untouch(&yard->model);
    settle(yard, "sync");
    review(yard);
}

/* Nobody has written into the blocks. */
static void forget_bytes(struct yard *yard)
{
    struct pool_found block = pool_next(&yard->model, 0);

    for (; block.size != 0; block = pool_next(&yard->model, block.place + 1))
        *held_at(yard, block.place) = unwritten(0);
}

/* Records that come from elsewhere. */
static void copy_records(struct yard *yard, const struct recipe *recipe)
{
    struct records lent = records_of(&yard->pool);

    generate(&yard->right, recipe, &rng);
    lent_copy(&lent, &yard->right);
    pool_read(&yard->model, &yard->right);
    forget_bytes(yard);
}

/* ---- Memory of pools and arenas ----------------------------------------------------- */

/* One type for each count of chunks that is tried. */
static const struct {
    size_t c, records, bytes;
} kinds[] = {
    {1, sizeof(LENSEMBER_POOL_MEMORY(1)), sizeof(LENSEMBER_ARENA_MEMORY(1))},
    {2, sizeof(LENSEMBER_POOL_MEMORY(2)), sizeof(LENSEMBER_ARENA_MEMORY(2))},
    {16, sizeof(LENSEMBER_POOL_MEMORY(16)), sizeof(LENSEMBER_ARENA_MEMORY(16))},
};

/* The three buffers fill the memory, one right behind the other. */
static void expect_no_gap(size_t c)
{
    uint64_t *memory = lent_room_new(LENSEMBER_POOL_BYTES(c) / 8);
    struct lensember_pool pool = lensember_pool_at(c, memory, LENSEMBER_POOL_BYTES(c));
    struct records records = records_of(&pool);

    expect(pool.c == c && pool.bits == memory
               && pool.words == (uint32_t *)(pool.bits + c * BIT_WORDS)
               && pool.slots == (uint64_t *)(void *)(pool.words + c * PAGES)
               && pool.slots + c * SLOT_WORDS == memory + LENSEMBER_POOL_BYTES(c) / 8,
           "c %zu: the records do not fill their memory", c);
    expect(lensember_pool_fresh(&pool) == 0 && model_sound(&records), "c %zu: not fresh", c);
    lent_room_free(memory, LENSEMBER_POOL_BYTES(c) / 8);
    group.trials++;
}

static void test_memory(void)
{
    group_begin("memory", "types-have-the-bytes-of-pool-and-arena");
    for (size_t i = 0; i < COUNT(kinds); i++) {
        size_t c = kinds[i].c;
        expect(kinds[i].records == LENSEMBER_POOL_BYTES(c), "records of %zu chunks", c);
        expect(kinds[i].bytes == LENSEMBER_ARENA_BYTES(c) && kinds[i].bytes == c * CHUNK_BYTES,
               "bytes of %zu chunks", c);
        group.trials++;
    }
    group_end();
    group_begin("memory", "records-without-gap-or-overlap");
    for (size_t c = 1; c <= MAX_CHUNKS; c++)
        expect_no_gap(c);
    group_end();
}

/* ---- Refusals 1 and 2 --------------------------------------------------------------- */

/* Sizes that alone would be served, or refused otherwise. */
static const size_t tried_sizes[] = {0, 24, 5000, 2093057, SIZE_MAX};

/* Of a call that answers a pointer. */
static void expect_null(const struct lensember_arena *arena, const void *answer, uint64_t number)
{
    expect(answer == NULL && arena->refusal == number, "refused %" PRIu64 ", not %" PRIu64,
           arena->refusal, number);
    group.trials++;
}

static void expect_place_refused(struct lensember_arena *arena, uint64_t number, uint64_t place,
                                 void *start)
{
    struct lensember_found found = lensember_place_of(arena, start);

    expect(found.refusal == number && found.place == 0 && found.size == 0, "place of");
    expect_null(arena, lensember_pointer_to(arena, place), number);
    expect(lensember_usable_size(arena, start) == 0 && arena->refusal == number, "usable size");
    expect(lensember_free(arena, start) == number && arena->refusal == number, "free");
}

/* All calls but fresh, sync and close; only null is freed, as everywhere. */
static void expect_refused_all(struct lensember_arena *arena, uint64_t number, unsigned char *base)
{
    static const uint64_t places[] = {0, 1, 4096, 8192, UINT64_C(1) << 25, UINT64_MAX};

    for (size_t i = 0; i < COUNT(tried_sizes); i++) {
        expect_null(arena, lensember_alloc(arena, tried_sizes[i]), number);
        expect_null(arena, lensember_realloc(arena, NULL, tried_sizes[i]), number);
        expect_null(arena, lensember_realloc(arena, base + 4096, tried_sizes[i]), number);
    }
    for (size_t i = 0; i < COUNT(places); i++)
        expect_place_refused(arena, number, places[i],
                             (void *)((uintptr_t)base + (uintptr_t)places[i]));
    expect(lensember_free(arena, NULL) == 0 && arena->refusal == 0, "free of null");
}

static void expect_no_arena(struct lensember_arena arena, unsigned char *base)
{
    expect(arena.pool.c == 0 && arena.refusal == 1, "it is an arena");
    expect(lensember_arena_fresh(&arena) == 1 && arena.refusal == 1, "fresh");
    expect(lensember_arena_sync(&arena) == 1 && arena.refusal == 1, "sync");
    expect_refused_all(&arena, 1, base);
    lensember_arena_close(&arena);
    expect(arena.refusal == 1, "close");
    expect_refused_all(&arena, 1, base);
}

/* As a pool, and as that of an arena, whatever memory this is said to have. */
static void expect_no_pool(struct lensember_pool pool)
{
    static unsigned char base[3 * 4096];
    static const uint8_t log[] = {1, 0, 1, 1, 4, 0, 0};
    uint64_t room[2];
    uint8_t out[LENSEMBER_LINES_ROOM(sizeof log)];
    const uint64_t refusals[] = {
        lensember_pool_check(&pool),
        lensember_pool_fresh(&pool),
        lensember_pool_reserve(&pool, 24).refusal,
        lensember_pool_release(&pool, 4096),
        lensember_pool_resize(&pool, 4096, 24).refusal,
        lensember_pool_sweep(&pool).refusal,
        lensember_pool_block_size(&pool, 4096).refusal,
        lensember_pool_next(&pool, 0).refusal,
        lensember_pool_census(&pool, room, 2).refusal,
        lensember_pool_totals(&pool).refusal,
        lensember_pool_bytes(&pool, 0, 4096, 0, 0).refusal,
        lensember_pool_replay(&pool, log, sizeof log).refusal,
        lensember_pool_lines(&pool, log, sizeof log, out, sizeof out).refusal,
    };

    expect(pool.c == 0, "it is a pool of %" PRIu64 " chunks", pool.c);
    for (size_t i = 0; i < COUNT(refusals); i++)
        expect(refusals[i] == 1, "call %zu is answered %" PRIu64, i, refusals[i]);
    group.trials += COUNT(refusals);
    expect_no_arena(lensember_arena_at(pool, base, 0), base);
    expect_no_arena(lensember_arena_at(pool, base, CHUNK_BYTES), base);
    expect_no_arena(lensember_arena_at(pool, NULL, 0), base);
}

/* With each of the three lengths that might be thought of. */
static void try_counts(unsigned char *memory)
{
    static const uint64_t counts[] = {
        0, 17, 18, 255, UINT64_C(1) << 32, (UINT64_C(1) << 32) + 1, UINT64_C(1) << 43,
        UINT64_C(1) << 63, UINT64_MAX};

    for (size_t i = 0; i < COUNT(counts); i++) {
        expect_no_pool(lensember_pool_at(counts[i], memory, LENSEMBER_POOL_BYTES(counts[i])));
        expect_no_pool(lensember_pool_at(counts[i], memory, LENSEMBER_POOL_BYTES(1)));
        expect_no_pool(lensember_pool_at(counts[i], memory, 0));
    }
}

static void try_memory(unsigned char *memory, size_t c)
{
    size_t exact = LENSEMBER_POOL_BYTES(c);
    const size_t lengths[] = {
        0, exact - 8, exact - 1, exact + 1, exact + 8, LENSEMBER_POOL_BYTES(c - 1),
        LENSEMBER_POOL_BYTES(c + 1), SIZE_MAX};

    for (size_t i = 0; i < COUNT(lengths); i++)
        expect_no_pool(lensember_pool_at(c, memory, lengths[i]));
    for (size_t shift = 1; shift < 8; shift++)
        expect_no_pool(lensember_pool_at(c, memory + shift, exact));
    expect_no_pool(lensember_pool_at(c, NULL, exact));
}

/* Memory for 17 chunks; what it holds is not touched. */
static void test_no_pools(void)
{
    static LENSEMBER_POOL_MEMORY(17) memory, before;
    unsigned char *start = (unsigned char *)&memory;

    lent_fill(start, sizeof memory);
    before = memory;
    group_begin("refused-1", "no-pool-of-so-many-chunks");
    try_counts(start);
    group_end();
    group_begin("refused-1", "no-pool-in-such-memory");
    for (size_t c = 1; c <= MAX_CHUNKS; c++)
        try_memory(start, c);
    expect(memcmp(&memory, &before, sizeof memory) == 0, "the memory was changed");
    group_end();
}

/* The arena beside them stays as it is. */
static void try_arenas(struct yard *yard)
{
    size_t exact = arena_bytes(yard);
    const size_t lengths[] = {
        0, exact - CHUNK_BYTES, exact - 8, exact - 1, exact + 1, exact + 8, exact + CHUNK_BYTES,
        SIZE_MAX};

    try_alloc(yard, 24);
    for (size_t i = 0; i < COUNT(lengths); i++)
        expect_no_arena(lensember_arena_at(yard->pool, yard->base, lengths[i]), yard->base);
    for (size_t shift = 1; shift < 8; shift++)
        expect_no_arena(lensember_arena_at(yard->pool, yard->base + shift, exact), yard->base);
    expect_no_arena(lensember_arena_at(yard->pool, NULL, exact), yard->base);
    review(yard);
    settle(yard, "a call on no arena");
}

/* A test on a fresh yard of each count of chunks. */
static void on_each_kind(void (*test)(struct yard *yard))
{
    for (size_t i = 0; i < COUNT(kinds); i++) {
        struct yard *yard = yard_new(kinds[i].c, 0);
        test(yard);
        yard_free(yard);
    }
}

/* All bytes are the caller's, and hold what they did; the pool is as it was. */
static void expect_closed(struct yard *yard)
{
    struct pool_found block = pool_next(&yard->model, 0);

    lensember_arena_close(&yard->arena);
    expect_no_arena(yard->arena, yard->base);
    if (WATCHED)
        expect_stretch(yard, 0, arena_bytes(yard), true, GLANCE);
    for (; block.size != 0; block = pool_next(&yard->model, block.place + 1)) {
        const struct held *held = held_at(yard, block.place);
        expect(memcmp(at(yard, block.place), grain + held->from, held->written) == 0,
               "the block at %" PRIu64 " has changed", block.place);
    }
    pool_untouch(&yard->model);
    settle(yard, "close");
}

/* Closed, opened again with its blocks, which a sync tells, closed, and opened anew. */
static void try_close(struct yard *yard)
{
    for (unsigned i = 0; i < 30; i++)
        try_alloc(yard, (size_t)draw_filling(0));
    expect_closed(yard);
    yard_open(yard);
    if (WATCHED)
        expect_stretch(yard, 0, arena_bytes(yard), false, GLANCE);
    try_sync(yard);
    expect_closed(yard);
    memset(yard->base, 1, arena_bytes(yard));
    yard_open(yard);
    yard_fresh(yard);
    review(yard);
}

/* A bit in the word of a free page; fresh alone is served then. */
static void try_damage(struct yard *yard)
{
    uint32_t *word = &yard->pool.words[yard->pool.c * PAGES - 1 - rng_below(&rng, 500)];

    try_alloc(yard, 24);
    try_alloc(yard, 5000);
    *word ^= 4;
    expect(lensember_arena_sync(&yard->arena) == 2 && yard->arena.refusal == 2, "sync");
    expect_refused_all(&yard->arena, 2, yard->base);
    *word ^= 4;
    review(yard);
    pool_untouch(&yard->model);
    settle(yard, "a call on damaged records");
    *word ^= 4;
    yard_fresh(yard);
    review(yard);
}

static void test_refused(void)
{
    test_no_pools();
    group_begin("refused-1", "no-arena-in-such-memory");
    on_each_kind(try_arenas);
    group_end();
    group_begin("refused-1", "closed");
    on_each_kind(try_close);
    group_end();
    group_begin("refused-2", "every-call");
    on_each_kind(try_damage);
    group_end();
}

/* ---- Known numbers ------------------------------------------------------------------- */

static void expect_alloc(struct yard *yard, size_t n, uint64_t place)
{
    struct pool_reserved answer = try_alloc(yard, n);

    expect(answer.refusal == 0 && answer.place == place, "%zu bytes are at %" PRIu64, n,
           answer.place);
}

static void expect_realloc(struct yard *yard, uint64_t place, size_t n, uint64_t to)
{
    struct pool_resized answer = try_realloc(yard, place, n);

    expect(answer.refusal == 0 && answer.place == to, "%zu bytes are at %" PRIu64, n,
           answer.place);
}

/* Rows and a table, as in the sample log (RULES 12.3), and then resized. */
static void test_sample(void)
{
    struct yard *yard = yard_new(1, 0);

    group_begin("sample", "rows-and-a-table");
    expect_alloc(yard, 20, 4096);
    expect_alloc(yard, 24, 4120);
    expect_alloc(yard, 5000, 8192);
    expect(lensember_usable_size(&yard->arena, yard->base + 4096) == 24, "a row of 20 bytes");
    expect(lensember_usable_size(&yard->arena, yard->base + 8192) == 8192, "a table of 5000 bytes");
    expect(try_free(yard, 4096) == 0, "free");
    expect_alloc(yard, 10, 16384);
    expect_alloc(yard, 0, 20480);
    expect_alloc(yard, 17, 4096);
    expect_realloc(yard, 4096, 24, 4096);
    expect_realloc(yard, 8192, 8192, 8192);
    expect_realloc(yard, 8192, 8193, 24576);
    expect_realloc(yard, 24576, 4096, 24576);
    expect_realloc(yard, 24576, 12288, 24576);
    expect_realloc(yard, 24576, 24, 4144);
    expect_realloc(yard, 4144, 0, 20488);
    review(yard);
    group_end();
    yard_free(yard);
}

/* What a program has shut inside a block goes with the block when it is moved. */
static void test_shut_own(void)
{
    struct yard *yard = yard_new(1, 0);
    uint64_t place;

    group_begin("sample", "bytes-shut-by-the-program");
    place = try_alloc(yard, 100).place;
    write_all(yard, place);
    shut_own(at(yard, place) + 40, 16);
    expect_realloc(yard, place, 5000, 8192);
    group_end();
    yard_free(yard);
}

/* Of a base that is a multiple of 4,096: the largest power of two up to there that divides n. */
static void expect_aligned(struct yard *yard, size_t n)
{
    uintptr_t power = 1;

    while (power < PAGE_BYTES && n % (2 * power) == 0)
        power *= 2;
    for (unsigned i = 0; i < 4; i++) {
        struct pool_reserved block = try_alloc(yard, n);
        expect((uintptr_t)at(yard, block.place) % power == 0, "%zu bytes at %" PRIu64, n,
               block.place);
    }
}

/* One size in `step`. */
static void test_alignment(size_t step)
{
    struct yard *yard = yard_new(1, 0);

    group_begin("aligned", "sizes-1-to-8192");
    expect((uintptr_t)yard->base % PAGE_BYTES == 0, "the base is not aligned");
    for (size_t n = 1; n <= 8192; n += step) {
        expect_aligned(yard, n);
        while (yard->model.live.count > rng_below(&rng, 8))
            try_free(yard, book_at(&yard->model.live, 0)->place);
    }
    group_end();
    yard_free(yard);
}

/* ---- Bad pointers ---------------------------------------------------------------------- */

/* Another arena with live blocks, whose pointers are none of the one that is tried. */
static struct yard *other_yard;

/* What such a pointer would be here: a place outside the pool. */
static uint64_t place_elsewhere(const struct yard *yard)
{
    const unsigned char *elsewhere = at(other_yard, draw_live_place(&other_yard->model));

    return (uintptr_t)elsewhere - (uintptr_t)yard->base;
}

/* A watched program would be told of free and realloc, and stopped. */
static void expect_bad(struct yard *yard, uint64_t place, uint64_t number)
{
    expect(try_asking(yard, place).refusal == number, "asking for %" PRIu64, place);
    if (WATCHED)
        return;
    expect(try_free(yard, place) == number, "free at %" PRIu64, place);
    for (size_t i = 0; i < COUNT(tried_sizes); i++)
        expect(try_realloc(yard, place, tried_sizes[i]).refusal == number, "realloc at %" PRIu64,
               place);
}

/* Null is no block: served by free, an alloc for realloc, and nothing to ask about. */
static void expect_null_pointer(struct yard *yard)
{
    uint64_t null = 0 - (uint64_t)(uintptr_t)yard->base;
    struct pool_reserved right;
    void *answer;

    expect(at(yard, null) == NULL && try_asking(yard, null).refusal == 5, "asking for null");
    expect(lensember_free(&yard->arena, NULL) == 0 && yard->arena.refusal == 0, "free of null");
    pool_untouch(&yard->model);
    settle(yard, "free of null");
    answer = lensember_realloc(&yard->arena, NULL, 100);
    right = pool_reserve(&yard->model, 100);
    expect_pointer(yard, "realloc of null", answer, right.refusal, right.place);
    hold(yard, right.place, unwritten(100));
    settle(yard, "realloc of null");
    expect(lensember_realloc(&yard->arena, NULL, SIZE_MAX) == NULL && yard->arena.refusal == 3,
           "realloc of null to too much");
}

/* Two rows, the second given back, at 4,096; a table at 8,192; one given back at 16,384. */
static void try_bad_pointers(struct yard *yard)
{
    uint64_t end = arena_bytes(yard), base = (uintptr_t)yard->base;
    const uint64_t outside[] = {
        0 - UINT64_C(1), 0 - UINT64_C(8), 0 - PAGE_BYTES, 0 - CHUNK_BYTES, 0, 1, 8, PAGE_BYTES - 8,
        end - 1, end - PAGE_BYTES, end, end + 1, end + 8, end + PAGE_BYTES, end + CHUNK_BYTES,
        place_elsewhere(yard), place_elsewhere(yard), (uintptr_t)yard->records - base,
        (uintptr_t)&end - base};
    const uint64_t inside[] = {
        4097, 4096 + 8, 4096 + 20, 4096 + 23, 4120 + 8, 4096 + 4080, 4096 + 4088, 8192 - 1,
        8192 + 1, 8192 + 4096, 8192 + 5000, 8192 + 8191, 16384, 16384 + 4096, 24576};
    const uint64_t free_slots[] = {4120, 4096 + 2 * 24, 4096 + 169 * 24};

    expect_alloc(yard, 20, 4096);
    expect_alloc(yard, 24, 4120);
    expect_alloc(yard, 5000, 8192);
    expect_alloc(yard, 6000, 16384);
    try_free(yard, 4120);
    try_free(yard, 16384);
    for (size_t i = 0; i < COUNT(outside); i++)
        expect_bad(yard, outside[i], 5);
    for (size_t i = 0; i < COUNT(inside); i++)
        expect_bad(yard, inside[i], 5);
    for (size_t i = 0; i < COUNT(free_slots); i++)
        expect_bad(yard, free_slots[i], 6);
    review(yard);
    expect_null_pointer(yard);
    review(yard);
}

static void test_bad_pointers(void)
{
    group_begin("bad-pointers", "refused-5-or-6");
    on_each_kind(try_bad_pointers);
    review(other_yard);
    group_end();
}

/* ---- Random series ------------------------------------------------------------------------ */

/* What the calls of a series are like. */
struct mix {
    const char *name;
    uint64_t (*size)(unsigned b);
    unsigned allocs, frees, reallocs; /* of 100 calls; the others ask */
    bool tides;                       /* fill up, then drain, in turn */
};

static const struct mix mixes[] = {
    {"small-sizes", draw_mostly_small, 45, 25, 20, false},
    {"all-sizes", draw_any_size, 40, 25, 25, false},
    {"large-only", draw_large_only, 35, 30, 30, false},
    {"fill-up-then-drain", draw_filling, 50, 15, 30, true},
};

/* A live place, one that was used lately, one of another arena, or one that may be anywhere. */
static uint64_t any_place(const struct yard *yard, const uint64_t recent[16])
{
    switch (rng_below(&rng, 16)) {
    case 0:
    case 1:
        return recent[rng_below(&rng, 16)];
    case 2:
    case 3:
        return draw_hostile_place(&yard->model);
    case 4:
        return place_elsewhere(yard);
    default:
        return draw_live_place(&yard->model);
    }
}

/* Of free and realloc: a live block where somebody watches. */
static uint64_t place_to_give(const struct yard *yard, uint64_t place)
{
    if (!WATCHED || pool_block_size(&yard->model, place).refusal == 0)
        return place;
    return book_at(&yard->model.live, rng_next(&rng) % yard->model.live.count)->place;
}

/* One call of the series; answers the refusal. */
static uint64_t try_call(struct yard *yard, const struct mix *mix, bool filling, uint64_t *place)
{
    unsigned pick = rng_below(&rng, 100);
    struct pool_reserved block;

    if (pick < (filling ? mix->allocs : mix->frees)
        || (pick < mix->allocs + mix->frees + mix->reallocs && yard->model.live.count == 0)) {
        block = try_alloc(yard, (size_t)mix->size(0));
        *place = block.place;
        return block.refusal;
    }
    if (pick < mix->allocs + mix->frees)
        return try_free(yard, place_to_give(yard, *place));
    if (pick < mix->allocs + mix->frees + mix->reallocs) {
        *place = place_to_give(yard, *place);
        if (rng_below(&rng, 16) == 0)
            try_whole(yard, *place);
        return try_realloc(yard, *place, (size_t)draw_new_size(&yard->model, *place)).refusal;
    }
    return try_asking(yard, *place).refusal;
}

static void run_series(struct yard *yard, const struct mix *mix, unsigned long calls,
                       unsigned long calls_a_review)
{
    uint64_t recent[16] = {0};
    bool filling = true;

    for (unsigned long i = 0; i < calls; i++) {
        uint64_t place = any_place(yard, recent);
        uint64_t refusal = try_call(yard, mix, filling, &place);
        recent[i % 16] = place;
        if (rng_below(&rng, 200) == 0)
            try_sweep(yard);
        if (mix->tides)
            filling = next_tide(&yard->model, filling, refusal);
        if (i % calls_a_review == calls_a_review - 1)
            review(yard);
    }
}

/* The more chunks, the longer a call and a review take, and the fewer are made. */
static void run_mix(const struct mix *mix, unsigned long calls)
{
    static const struct {
        size_t c, shift;
        unsigned long share;
    } efforts[] = {{1, 0, 1}, {2, 8, 2}, {16, 0, 8}};

    for (size_t i = 0; i < COUNT(efforts); i++) {
        struct yard *yard = yard_new(efforts[i].c, efforts[i].shift);
        run_series(yard, mix, calls / efforts[i].share, (200 + calls / 50) * efforts[i].c);
        review(yard);
        yard_free(yard);
    }
}

/* Nothing but runs, all of those of slots empty: it is mostly a sweep that makes room. */
static void realloc_among_empty_runs(struct yard *yard)
{
    struct recipe recipe = *recipe_named("classes-empty");

    recipe.large_share = 1;
    recipe.large_max = 1 + rng_below(&rng, 60);
    copy_records(yard, &recipe);
    try_sync(yard);
    for (unsigned i = 0; i < 4 && yard->model.live.count > 0; i++) {
        uint64_t place = place_to_give(yard, draw_live_place(&yard->model));
        try_realloc(yard, place, (size_t)draw_new_size(&yard->model, place));
    }
}

static void run_among_empty_runs(unsigned long rounds)
{
    struct yard *yard = yard_new(1, 0);

    for (unsigned long i = 0; i < rounds; i++)
        realloc_among_empty_runs(yard);
    review(yard);
    yard_free(yard);
}

/* Bad pointers are given to free and realloc only where nobody watches. */
static void expect_enough(unsigned long least)
{
    expect_least(answers.reserve[0], 20 * least, "allocs");
    expect_least(answers.reserve[3], least, "allocs of too much");
    expect_least(answers.reserve[4], least, "allocs without room");
    expect_least(answers.release[0], 20 * least, "frees");
    expect_least(answers.block_size[0], 5 * least, "sizes");
    expect_least(answers.block_size[5], least, "sizes of no block");
    expect_least(answers.block_size[6], least, "sizes of free slots");
    expect_least(answers.resizes.answers[3], least, "reallocs to too much");
    expect_least(answers.resizes.answers[4], least, "reallocs without room");
    expect_each_resize(&answers.resizes, least);
    if (WATCHED)
        return;
    expect_least(answers.release[5], least, "frees of no block");
    expect_least(answers.release[6], least, "frees of free slots");
    expect_least(answers.resizes.answers[5], least, "reallocs of no block");
    expect_least(answers.resizes.answers[6], least, "reallocs of free slots");
}

static void test_series(unsigned long calls)
{
    unsigned long made = 0;

    memset(&answers, 0, sizeof answers);
    for (size_t i = 0; i < COUNT(mixes); i++) {
        group_begin("random", mixes[i].name);
        run_mix(&mixes[i], calls);
        review(other_yard);
        made += group.trials;
        group_end();
    }
    group_begin("random", "among-empty-runs");
    run_among_empty_runs(6 + calls / 200);
    group_end();
    group_begin("random", "enough-of-each-answer");
    group.trials = made;
    expect_enough(1 + calls / 1000);
    group_end();
}

/* Once also where a review does not. */
static void test_every_byte(unsigned long calls)
{
    struct yard *yard = yard_new(MAX_CHUNKS, 0);

    group_begin("random", "every-byte-of-16-chunks");
    run_series(yard, &mixes[1], calls / 8, calls);
    expect_all_held(yard);
    expect_open(yard, 0, arena_bytes(yard), EVERY_BYTE);
    group_end();
    yard_free(yard);
}

/* ---- Calls on the pool itself --------------------------------------------------------------- */

static void reserve_straight(struct yard *yard, uint64_t size)
{
    struct lensember_reserved answer = lensember_pool_reserve(&yard->arena.pool, size);
    struct pool_reserved right = pool_reserve(&yard->model, size);

    expect(answer.refusal == right.refusal && answer.place == right.place, "reserve");
    if (right.refusal == 0)
        *held_at(yard, right.place) = unwritten(0);
    settle(yard, "reserve");
}

static void resize_straight(struct yard *yard, uint64_t place, uint64_t size)
{
    struct lensember_resized answer = lensember_pool_resize(&yard->arena.pool, place, size);
    struct pool_resized right = pool_resize(&yard->model, place, size);

    expect(answer.refusal == right.refusal && answer.place == right.place, "resize");
    if (right.refusal == 0)
        *held_at(yard, right.place) = unwritten(0);
    settle(yard, "resize");
}

static void release_straight(struct yard *yard, uint64_t place)
{
    expect(lensember_pool_release(&yard->arena.pool, place) == pool_release(&yard->model, place),
           "release");
    settle(yard, "release");
}

/* What blocks that were not touched held before, they hold after. */
static void change_by_calls(struct yard *yard)
{
    for (unsigned i = 0; i < 60; i++) {
        uint64_t place = draw_live_place(&yard->model);
        switch (rng_below(&rng, 3)) {
        case 0:
            release_straight(yard, place);
            break;
        case 1:
            resize_straight(yard, place, draw_new_size(&yard->model, place));
            break;
        default:
            reserve_straight(yard, draw_filling(0));
        }
    }
}

static void change_by_log(struct yard *yard)
{
    static struct draft draft;
    struct text lines = {0, 0, NULL};

    draft_clear(&draft);
    draft_log(&draft, yard->model.c, &diets[rng_below(&rng, (unsigned)diet_count)], 200);
    expect(lensember_pool_replay(&yard->arena.pool, draft.bytes, draft.length).refusal == 0,
           "replay");
    log_replay(&yard->model, yard->model.c, draft.bytes, draft.length, &lines);
    text_free(&lines);
    forget_bytes(yard);
}

static void change_by_copy(struct yard *yard)
{
    copy_records(yard, recipe_named(yard->model.c == 1 ? "mixed" : "large-1-to-300"));
}

static const struct {
    const char *name;
    void (*change)(struct yard *yard);
} changes[] = {
    {"calls-on-the-pool", change_by_calls},
    {"a-replayed-log", change_by_log},
    {"copied-records", change_by_copy},
};

static void sync_after(void (*change)(struct yard *yard), size_t c, unsigned long calls)
{
    struct yard *yard = yard_new(c, 0);

    run_series(yard, &mixes[1], calls, calls);
    change(yard);
    pool_write(&yard->model, &yard->right);
    try_sync(yard);
    run_series(yard, &mixes[3], calls, calls);
    yard_fresh(yard);
    review(yard);
    yard_free(yard);
}

static void test_sync(unsigned long calls)
{
    for (size_t i = 0; i < COUNT(changes); i++) {
        group_begin("sync", changes[i].name);
        for (size_t n = 0; n < COUNT(kinds); n++)
            sync_after(changes[i].change, kinds[n].c, 20 + calls / 100);
        group_end();
    }
}

/* ---- The pool as one value ------------------------------------------------------------------ */

/* The same call on both: the answers, which have no gaps, and then the records are the same. */
static void expect_same(const char *call, const void *a, const void *b, size_t bytes)
{
    expect(memcmp(a, b, bytes) == 0, "%s is answered otherwise", call);
    group.trials++;
}

#define EXPECT_SAME(call, type, on_pool, on_buffers) \
    do {                                             \
        type a = on_pool, b = on_buffers;            \
        expect_same(call, &a, &b, sizeof a);         \
    } while (0)

/* The seven arguments that lend records as plain buffers. */
#define PLAIN(r)                                                                   \
    (r)->c, (r)->bits, (r)->c * BIT_WORDS, (r)->words, (r)->c * PAGES, (r)->slots, \
        (r)->c * SLOT_WORDS

static void compare_forms(struct lensember_pool *pool, const struct records *plain, uint64_t place)
{
    uint64_t room[2][64] = {{0}};
    size_t arena = plain->c * CHUNK_BYTES;

    EXPECT_SAME("check", uint64_t, lensember_pool_check(pool), lensember_check(PLAIN(plain)));
    EXPECT_SAME("reserve", struct lensember_reserved, lensember_pool_reserve(pool, 300),
                lensember_reserve(PLAIN(plain), 300));
    EXPECT_SAME("resize", struct lensember_resized, lensember_pool_resize(pool, place, 5000),
                lensember_resize(PLAIN(plain), place, 5000));
    place = lensember_next(PLAIN(plain), 0).place;
    EXPECT_SAME("next", struct lensember_found, lensember_pool_next(pool, place),
                lensember_next(PLAIN(plain), place));
    EXPECT_SAME("block size", struct lensember_sized, lensember_pool_block_size(pool, place),
                lensember_block_size(PLAIN(plain), place));
    EXPECT_SAME("bytes", struct lensember_part, lensember_pool_bytes(pool, 0, place, arena, 1),
                lensember_bytes(PLAIN(plain), 0, place, arena, 1));
    EXPECT_SAME("bytes", struct lensember_part, lensember_pool_bytes(pool, 1, place, 1, arena),
                lensember_bytes(PLAIN(plain), 1, place, 1, arena));
    EXPECT_SAME("totals", struct lensember_summed, lensember_pool_totals(pool),
                lensember_totals(PLAIN(plain)));
    EXPECT_SAME("census", struct lensember_counted, lensember_pool_census(pool, room[0], 64),
                lensember_census(PLAIN(plain), room[1], 64));
    expect_same("census", room[0], room[1], sizeof room[0]);
    EXPECT_SAME("release", uint64_t, lensember_pool_release(pool, place),
                lensember_release(PLAIN(plain), place));
    EXPECT_SAME("sweep", struct lensember_swept, lensember_pool_sweep(pool),
                lensember_sweep(PLAIN(plain)));
}

static void compare_replays(struct lensember_pool *pool, const struct records *plain)
{
    const uint8_t log[] = {1, 0, 1, (uint8_t)plain->c, 2, 0, 4, 0, 0, 0, 24, 4, 0, 0};
    uint8_t out[2][LENSEMBER_LINES_ROOM(sizeof log)] = {{0}};

    EXPECT_SAME("replay", struct lensember_replayed, lensember_pool_replay(pool, log, sizeof log),
                lensember_replay(PLAIN(plain), log, sizeof log));
    EXPECT_SAME("lines", struct lensember_printed,
                lensember_pool_lines(pool, log, sizeof log, out[0], sizeof out[0]),
                lensember_lines(PLAIN(plain), log, sizeof log, out[1], sizeof out[1]));
    expect_same("lines", out[0], out[1], sizeof out[0]);
}

static void test_pool_forms(void)
{
    static LENSEMBER_POOL_MEMORY(2) memory;
    struct lensember_pool pool = lensember_pool_at(2, &memory, sizeof memory);
    struct records lent = records_of(&pool), plain = lent_new(2);
    static struct pool model;

    group_begin("pool", "each-call-as-on-plain-buffers");
    for (size_t i = 0; i < recipe_count; i++) {
        generate(&lent, &recipes[i], &rng);
        lent_copy(&plain, &lent);
        pool_read(&model, &plain);
        compare_forms(&pool, &plain, draw_live_place(&model));
        expect(lent_equal(&lent, &plain), "other records");
        expect(lensember_pool_fresh(&pool) == lensember_fresh(PLAIN(&plain)), "fresh");
        expect(lent_equal(&lent, &plain), "other records of a fresh pool");
        compare_replays(&pool, &plain);
        expect(lent_equal(&lent, &plain), "other records");
    }
    group_end();
    pool_end(&model);
    lent_free(&plain);
}

int main(int argc, char **argv)
{
    unsigned long calls = argc > 2 ? strtoul(argv[2], NULL, 0) : 30000;

    program_begin(argc, argv);
    lent_fill(grain, sizeof grain);
    other_yard = yard_new(1, 0);
    for (unsigned i = 0; i < 40; i++)
        try_alloc(other_yard, (size_t)draw_filling(0));
    test_memory();
    test_pool_forms();
    test_refused();
    test_sample();
    test_shut_own();
    test_alignment(calls < 8192 ? 61 : 1);
    test_bad_pointers();
    test_series(calls);
    test_every_byte(calls);
    test_sync(calls);
    yard_free(other_yard);
    return program_end(PROGRAM);
}
