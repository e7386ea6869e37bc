#include "bytes.h"

#include "calls.h"
#include "draws.h"
#include "groups.h"
#include "twin.h"

#include <inttypes.h>

/* ---- One call ------------------------------------------------------------------ */

static size_t arena_of(const struct twin *twin)
{
    return twin->model.c * CHUNK_BYTES;
}

/* From the book of blocks; only what is not in it is asked of the pool. */
static struct lensember_part model_bytes(const struct twin *twin, uint64_t ear, uint64_t place,
                                         size_t nleft, size_t nright)
{
    size_t chosen = ear == 0 ? nleft : nright;
    const struct booked *block = book_from(&twin->model.live, place);
    struct lensember_part part = {0, 0, 0};

    if (ear > 1 || chosen != arena_of(twin)) {
        part.refusal = 1;
    } else if (block != NULL && block->place == place) {
        part.start = place;
        part.size = block->size;
    } else {
        part.refusal = pool_block_size(&twin->model, place).refusal;
    }
    return part;
}

static struct lensember_part try_bytes(const struct twin *twin, uint64_t ear, uint64_t place,
                                       size_t nleft, size_t nright)
{
    struct lensember_part right = model_bytes(twin, ear, place, nleft, nright);
    struct lensember_part answer = library_bytes(ear, &twin->lent, place, nleft, nright);

    group.trials++;
    expect(answer.refusal == right.refusal && answer.start == right.start
               && answer.size == right.size,
           "c %zu, ear %" PRIu64 " place %" PRIu64 " in %zu and %zu: %" PRIu64 " at %" PRIu64
           " size %" PRIu64 ", the model says %" PRIu64 " at %" PRIu64 " size %" PRIu64,
           twin->model.c, ear, place, nleft, nright, answer.refusal, answer.start, answer.size,
           right.refusal, right.start, right.size);
    return right;
}

/* "Only the chosen arena's length is checked." */
static size_t any_length(const struct twin *twin)
{
    size_t exact = arena_of(twin);

    switch (rng_below(&rng, 10)) {
    case 0:
        return 0;
    case 1:
        return exact - 1;
    case 2:
        return exact + 1;
    case 3:
        return (1 + rng_below(&rng, MAX_CHUNKS)) * CHUNK_BYTES;
    case 4:
        return exact + (UINT64_C(1) << (25 + rng_below(&rng, 39)));
    case 5:
        return SIZE_MAX;
    case 6:
        return (size_t)(rng_next(&rng) >> rng_below(&rng, 64));
    default:
        return exact;
    }
}

/* One ear's part, the other ear's arena being any. */
static struct lensember_part try_ear(const struct twin *twin, uint64_t ear, uint64_t place)
{
    size_t exact = arena_of(twin), other = any_length(twin);

    if (ear == 0)
        return try_bytes(twin, 0, place, exact, other);
    return try_bytes(twin, 1, place, other, exact);
}

/* ---- Pools ----------------------------------------------------------------------- */

/* Parts lie apart, inside the arena and off page 0 of each chunk. */
static uint64_t expect_apart(const struct twin *twin, struct lensember_part part, uint64_t behind)
{
    uint64_t last = part.start + part.size - 1;

    expect(part.refusal == 0 && part.size > 0 && part.start >= behind && last < arena_of(twin)
               && part.start / CHUNK_BYTES == last / CHUNK_BYTES
               && part.start % CHUNK_BYTES >= PAGE_BYTES,
           "c %zu: the part at %" PRIu64 " size %" PRIu64, twin->model.c, part.start, part.size);
    return last + 1;
}

static void bytes_of_live_blocks(struct twin *twin)
{
    unsigned long count = twin->model.live.count;
    unsigned long step = 1 + count * twin->model.c / 1500;
    uint64_t behind = 0;

    for (unsigned long i = 0; i < count; i += step) {
        uint64_t place = book_at(&twin->model.live, i)->place;
        behind = expect_apart(twin, try_ear(twin, i % 2, place), behind);
    }
}

static void bytes_at_hostile_places(struct twin *twin)
{
    for (unsigned i = 0; i < 120; i++)
        try_ear(twin, rng_below(&rng, 2), draw_hostile_place(&twin->model));
}

static void bytes_of_other_ears(struct twin *twin)
{
    static const uint64_t ears[] = {
        2, 3, 255, 256, 257, UINT64_C(1) << 32, (UINT64_C(1) << 32) + 1, UINT64_C(1) << 63,
        UINT64_MAX - 1, UINT64_MAX};
    size_t exact = arena_of(twin);
    uint64_t place = draw_live_place(&twin->model);

    for (size_t i = 0; i < COUNT(ears); i++)
        expect(try_bytes(twin, ears[i], place, exact, exact).refusal == 1, "ear");
    for (uint64_t bit = 1; bit < 64; bit++)
        try_bytes(twin, (UINT64_C(1) << bit) + rng_below(&rng, 2), place, exact, exact);
}

static void bytes_of_other_arenas(struct twin *twin)
{
    for (unsigned i = 0; i < 100; i++) {
        uint64_t place = rng_below(&rng, 4) ? draw_live_place(&twin->model)
                                            : draw_hostile_place(&twin->model);
        try_bytes(twin, rng_below(&rng, 2), place, any_length(twin), any_length(twin));
    }
}

/* All lengths that are near, and those of every other count of chunks. */
static void bytes_of_near_arenas(struct twin *twin)
{
    uint64_t place = draw_live_place(&twin->model);
    size_t exact = arena_of(twin);

    for (size_t k = 0; k <= MAX_CHUNKS + 1; k++) {
        for (int off = -1; off <= 1; off++) {
            size_t length = k * CHUNK_BYTES + (size_t)off;
            try_bytes(twin, 0, place, length, exact);
            try_bytes(twin, 1, place, exact, length);
        }
    }
}

/* Of a block that has just been taken, then of the same place given back. */
static void bytes_in_series(struct twin *twin)
{
    for (unsigned i = 0; i < 60; i++) {
        struct pool_reserved block =
            twin_reserve(twin, rng_below(&rng, 3) ? draw_small_size() : draw_large_size(40));
        struct lensember_part part;
        if (block.refusal != 0)
            continue;
        part = try_ear(twin, i % 2, block.place);
        expect(part.refusal == 0 && part.start == block.place && part.size == block.size, "taken");
        if (rng_below(&rng, 2) == 0)
            continue;
        twin_release(twin, block.place);
        expect(try_ear(twin, i % 2, block.place).refusal == (block.kind == BLOCK_SLOT ? 6u : 5u),
               "given back");
    }
}

/* The blocks of the sample log (RULES 12.3), and the places around them. */
static void test_sample(void)
{
    static const uint64_t rows[][3] = {
        /* place, refusal, size */
        {4096, 0, 24}, {4120, 0, 24}, {8192, 0, 8192}, {16384, 0, 16}, {0, 5, 0}, {4100, 5, 0},
        {4144, 6, 0}, {4096 + 4080, 5, 0}, {12288, 5, 0}, {16400, 6, 0}, {20480, 5, 0},
        {2097152, 5, 0}, {UINT64_MAX, 5, 0}};
    static const uint64_t sizes[] = {24, 24, 5000, 10};
    struct twin *twin = twin_new(1);

    group_begin("bytes", "document-sample");
    for (size_t i = 0; i < COUNT(sizes); i++)
        twin_reserve(twin, sizes[i]);
    for (uint64_t ear = 0; ear <= 1; ear++) {
        for (size_t i = 0; i < COUNT(rows); i++) {
            struct lensember_part part = try_ear(twin, ear, rows[i][0]);
            expect(part.refusal == rows[i][1] && part.size == rows[i][2]
                       && part.start == (rows[i][1] == 0 ? rows[i][0] : 0),
                   "ear %" PRIu64 " place %" PRIu64, ear, rows[i][0]);
        }
    }
    expect_alike(twin);
    group_end();
    twin_free(twin);
}

static const struct {
    const char *name;
    unsigned step; /* one recipe in so many */
    twin_test *run;
} tests[] = {
    {"live-blocks", 3, bytes_of_live_blocks},
    {"hostile-places", 3, bytes_at_hostile_places},
    {"ear-above-1", 7, bytes_of_other_ears},
    {"any-arenas", 3, bytes_of_other_arenas},
    {"near-arenas", 7, bytes_of_near_arenas},
    {"in-series", 5, bytes_in_series},
};

void test_bytes(void)
{
    test_sample();
    for (size_t i = 0; i < COUNT(tests); i++) {
        group_begin("bytes", tests[i].name);
        on_each_recipe(tests[i].step, tests[i].run);
        group_end();
    }
}

/* ---- Refusals 1 and 2 --------------------------------------------------------- */

void expect_bytes_refuse(uint64_t number, uint64_t c, const struct records *r, struct lengths n)
{
    static const uint64_t places[] = {0, 4096, 4100, UINT64_C(1) << 25, UINT64_MAX};
    size_t arena = (size_t)(c * CHUNK_BYTES);

    for (uint64_t ear = 0; ear <= 2; ear++) {
        for (size_t i = 0; i < COUNT(places); i++) {
            struct lensember_part part =
                lensember_bytes(c, r->bits, n.bits, r->words, n.words, r->slots, n.slots,
                                ear, places[i], arena, arena);
            group.trials++;
            expect(part.refusal == (ear == 2 ? 1 : number) && part.start == 0 && part.size == 0,
                   "bytes, ear %" PRIu64 " c %" PRIu64 " place %" PRIu64 ": %" PRIu64, ear, c,
                   places[i], part.refusal);
        }
    }
}
