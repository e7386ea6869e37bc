#include "readers.h"

#include "calls.h"
#include "draws.h"
#include "groups.h"

#include <inttypes.h>
#include <string.h>

/* ---- Known numbers ----------------------------------------------------------- */

void expect_next(struct twin *twin, uint64_t from, uint64_t place, uint64_t size)
{
    struct pool_found found = twin_next(twin, from);

    expect(found.place == place && found.size == size,
           "next from %" PRIu64 ": at %" PRIu64 " size %" PRIu64, from, found.place, found.size);
}

void expect_census(struct twin *twin, size_t nroom, uint64_t number, uint64_t count)
{
    struct pool_counted counted = twin_census(twin, nroom);

    expect(counted.refusal == number && counted.count == count,
           "census in %zu words: %" PRIu64 " count %" PRIu64, nroom, counted.refusal,
           counted.count);
}

void expect_totals(struct twin *twin, uint64_t blocks, uint64_t bytes, uint64_t free_pages)
{
    struct pool_summed totals = twin_totals(twin);

    expect(totals.blocks == blocks && totals.bytes == bytes && totals.free_pages == free_pages,
           "totals: %" PRIu64 " blocks %" PRIu64 " bytes %" PRIu64 " free pages",
           totals.blocks, totals.bytes, totals.free_pages);
}

/* ---- Pools ------------------------------------------------------------------- */

/* Runs of one class only, all slots taken, some or none. */
static void on_each_class(size_t c, twin_test *test)
{
    struct twin *twin = twin_new(c);

    for (unsigned b = 0; b < CLASSES; b++) {
        for (unsigned fill = FILL_RANDOM; fill <= FILL_EMPTY; fill++) {
            struct recipe recipe = recipe_of_class(b, (enum fill)fill);
            recipe.free_share = rng_below(&rng, 2);
            twin_generate(twin, &recipe);
            test(twin);
        }
    }
    twin_free(twin);
}

/* Without any block: fresh, then with runs of slots that are all free. */
static void on_empty_pools(twin_test *test)
{
    for (size_t c = 1; c <= MAX_CHUNKS; c++) {
        struct twin *twin = twin_new(c);
        twin_fresh(twin);
        test(twin);
        twin_generate(twin, recipe_named("classes-empty"));
        test(twin);
        twin_free(twin);
    }
}

/* ---- Next -------------------------------------------------------------------- */

/* From right before a block to right behind it. */
static void next_around(struct twin *twin, struct booked block)
{
    const uint64_t places[] = {
        block.place, block.place - 1, block.place + 1,
        block.place + rng_below(&rng, (unsigned)block.size),
        block.place + block.size - 1, block.place + block.size};

    for (size_t i = 0; i < COUNT(places); i++)
        twin_next(twin, places[i]);
}

static void next_around_some(struct twin *twin)
{
    unsigned count = (unsigned)twin->model.live.count;
    unsigned tries = 40 / (unsigned)twin->model.c + 2;

    if (count == 0)
        return;
    next_around(twin, *book_at(&twin->model.live, 0));
    next_around(twin, *book_at(&twin->model.live, count - 1));
    for (unsigned i = 0; i < tries; i++)
        next_around(twin, *book_at(&twin->model.live, rng_below(&rng, count)));
}

/* Each chunk's page 0 and last page, and what lies behind the pool. */
static void next_at_edges(struct twin *twin)
{
    static const uint64_t steps[] = {0, 1, PAGE_BYTES - 1, PAGE_BYTES, PAGE_BYTES + 1};

    for (size_t k = 0; k <= twin->model.c + 1; k++) {
        for (size_t i = 0; i < COUNT(steps); i++) {
            twin_next(twin, k * CHUNK_BYTES + steps[i]);
            twin_next(twin, k * CHUNK_BYTES - steps[i]); /* for chunk 0: near 2^64 */
        }
    }
}

/* A live block's place, if high bits were dropped, is behind the pool. */
static void next_from_afar(struct twin *twin)
{
    uint64_t live = draw_live_place(&twin->model);

    for (unsigned bit = 25; bit < 64; bit++)
        expect_next(twin, (UINT64_C(1) << bit) + live, 0, 0);
    expect_next(twin, UINT64_MAX, 0, 0);
    expect_next(twin, UINT64_MAX - 4095, 0, 0);
}

static void next_from_anywhere(struct twin *twin)
{
    for (unsigned i = 0; i < 100; i++)
        twin_next(twin, draw_next_place(&twin->model));
}

static void next_finds_none(struct twin *twin)
{
    expect_next(twin, 0, 0, 0);
    expect_next(twin, 4096, 0, 0);
    expect_next(twin, 4097, 0, 0);
    expect_next(twin, twin->model.c * CHUNK_BYTES - 1, 0, 0);
    expect_next(twin, UINT64_MAX, 0, 0);
}

/* From block to block, from a place on, up to so many. */
static void walk(struct twin *twin, uint64_t from, unsigned blocks)
{
    const struct booked *block = book_from(&twin->model.live, from);

    while (block != NULL && blocks-- > 0) {
        struct lensember_found found = library_next(&twin->lent, from);
        group.trials++;
        expect(found.refusal == 0 && found.place == block->place && found.size == block->size,
               "c %zu, a walk from %" PRIu64 ": at %" PRIu64 " size %" PRIu64,
               twin->model.c, from, found.place, found.size);
        from = block->place + (blocks % 2 == 0 ? block->size : 1);
        block = book_from(&twin->model.live, from);
    }
    if (block == NULL)
        twin_next(twin, from); /* there is none, and nothing has changed */
}

static void walk_pool(struct twin *twin)
{
    unsigned blocks = 1200 / (unsigned)twin->model.c;

    walk(twin, 0, blocks);
    walk(twin, draw_next_place(&twin->model), blocks);
}

static void walk_whole_pool(void)
{
    struct twin *twin = twin_new(1);

    twin_generate(twin, recipe_named("parade"));
    walk(twin, 0, UINT32_MAX);
    for (uint64_t place = 0; place < CHUNK_BYTES + PAGE_BYTES; place += 24)
        twin_next(twin, place);
    twin_free(twin);
}

/* Nothing but one slot, the last of its run, in the pool's last pages. */
static void one_slot_alone(struct twin *twin, unsigned b)
{
    const struct size_class *row = &size_classes[b];
    size_t last = twin->model.c - 1;
    unsigned first = PAGES - row->pages;
    uint64_t place = last * CHUNK_BYTES + first * PAGE_BYTES + (row->slots - 1) * row->size;

    pool_fresh(&twin->model, twin->model.c);
    pool_put_class(&twin->model, 0, 1, b);
    pool_take_slot(&twin->model, last, pool_put_class(&twin->model, last, first, b),
                   row->slots - 1);
    twin_settle(twin);
    expect_next(twin, 0, place, row->size);
    expect_next(twin, place, place, row->size);
    expect_next(twin, place + 1, 0, 0);
    expect_census(twin, 2, 0, 1);
    expect_census(twin, 1, 7, 0);
    expect_totals(twin, 1, row->size, 511 * twin->model.c - 2 * row->pages);
}

/* The same of a page run, of which only the first page says anything. */
static void one_run_alone(struct twin *twin, unsigned pages)
{
    size_t last = twin->model.c - 1;
    uint64_t place = last * CHUNK_BYTES + (PAGES - pages) * PAGE_BYTES;

    pool_fresh(&twin->model, twin->model.c);
    pool_put_large(&twin->model, last, PAGES - pages, pages);
    twin_settle(twin);
    expect_next(twin, 0, place, pages * PAGE_BYTES);
    expect_next(twin, place, place, pages * PAGE_BYTES);
    expect_next(twin, place + 1, 0, 0);
    expect_next(twin, place + PAGE_BYTES, 0, 0);
    expect_census(twin, 2, 0, 1);
    expect_totals(twin, 1, pages * PAGE_BYTES, 511 * twin->model.c - pages);
}

static void one_block_alone(void)
{
    static const unsigned lengths[] = {1, 2, 63, 64, 65, 256, 510, 511};

    for (size_t c = 1; c <= MAX_CHUNKS; c++) {
        struct twin *twin = twin_new(c);
        for (unsigned b = 0; b < CLASSES; b++)
            one_slot_alone(twin, b);
        for (size_t i = 0; i < COUNT(lengths); i++)
            one_run_alone(twin, lengths[i]);
        twin_free(twin);
    }
}

static void test_next(void)
{
    group_begin("next", "at-and-around-live-blocks");
    on_each_recipe(2, next_around_some);
    group_end();
    group_begin("next", "at-chunk-edges");
    on_each_recipe(3, next_at_edges);
    group_end();
    group_begin("next", "from-behind-the-pool");
    on_each_recipe(5, next_from_afar);
    group_end();
    group_begin("next", "from-anywhere");
    on_each_recipe(3, next_from_anywhere);
    group_end();
    group_begin("next", "none-in-empty-pool");
    on_empty_pools(next_finds_none);
    group_end();
    group_begin("next", "from-block-to-block");
    on_each_recipe(2, walk_pool);
    group_end();
    group_begin("next", "all-of-one-chunk");
    walk_whole_pool();
    group_end();
    group_begin("next", "last-block-alone");
    one_block_alone();
    group_end();
}

/* ---- Census ------------------------------------------------------------------ */

static size_t exact_room(const struct twin *twin)
{
    return 2 * twin->model.live.count;
}

static void census_in_exact_room(struct twin *twin)
{
    expect_census(twin, exact_room(twin), 0, twin->model.live.count);
}

/* "census buffer shorter than two words a live block" */
static void census_in_short_rooms(struct twin *twin)
{
    size_t exact = exact_room(twin);

    if (exact == 0)
        return;
    expect_census(twin, exact - 1, 7, 0);
    expect_census(twin, exact - 2, 7, 0);
    expect_census(twin, exact / 2, 7, 0); /* a word a block */
    expect_census(twin, rng_below(&rng, (unsigned)exact), 7, 0);
    expect_census(twin, 1, 7, 0);
    expect_census(twin, 0, 7, 0);
}

/* "words behind them are unchanged" */
static void census_in_longer_rooms(struct twin *twin)
{
    size_t exact = exact_room(twin);

    expect_census(twin, exact + 1, 0, twin->model.live.count);
    expect_census(twin, exact + 2, 0, twin->model.live.count);
    expect_census(twin, exact + 3 + rng_below(&rng, 600), 0, twin->model.live.count);
}

static void census_of_no_blocks(struct twin *twin)
{
    struct lensember_counted nowhere =
        library_census(&twin->lent, (uint64_t *)(uintptr_t)8, 0);

    expect(nowhere.refusal == 0 && nowhere.count == 0, "census in an empty room nowhere");
    expect_census(twin, 0, 0, 0);
    expect_census(twin, 1, 0, 0);
    expect_census(twin, 64, 0, 0);
}

static void test_census(void)
{
    group_begin("census", "exact-room");
    on_each_recipe(2, census_in_exact_room);
    on_each_class(1, census_in_exact_room);
    on_each_class(3, census_in_exact_room);
    group_end();
    group_begin("census", "short-rooms");
    on_each_recipe(3, census_in_short_rooms);
    on_each_class(1, census_in_short_rooms);
    group_end();
    group_begin("census", "longer-rooms");
    on_each_recipe(3, census_in_longer_rooms);
    on_each_class(1, census_in_longer_rooms);
    group_end();
    group_begin("census", "no-blocks");
    on_empty_pools(census_of_no_blocks);
    group_end();
}

/* ---- Totals ------------------------------------------------------------------ */

static void totals_once(struct twin *twin)
{
    twin_totals(twin);
}

/* Until none of these sizes is served any more. */
static void fill_and_read(struct twin *twin)
{
    static const uint64_t sizes[] = {24, 3072, 5000, 320, 200000, 4096, 1792};
    size_t refused = 0; /* in a row */

    for (size_t i = 0; refused < COUNT(sizes); i++) {
        bool served = twin_reserve(twin, sizes[i % COUNT(sizes)]).refusal == 0;
        refused = served ? 0 : refused + 1;
        twin_totals(twin);
        if (i % 16 == 0)
            census_in_exact_room(twin);
    }
}

static void drain_and_read(struct twin *twin)
{
    while (twin->model.live.count > 0) {
        twin_release(twin, twin_next(twin, draw_next_place(&twin->model)).place);
        twin_totals(twin);
    }
    census_in_exact_room(twin);
}

static void fill_and_drain(void)
{
    struct twin *twin = twin_new(3);

    expect_totals(twin, 0, 0, 3 * 511);
    fill_and_read(twin);
    drain_and_read(twin);
    twin_free(twin);
}

/* Runs of slots keep their pages until a sweep, page runs give theirs back. */
static void totals_of_released(void)
{
    struct twin *twin = twin_new(1);

    twin_reserve(twin, 5000);
    expect_totals(twin, 1, 8192, 509);
    for (unsigned s = 0; s < 171; s++)
        twin_reserve(twin, 24); /* one more than a run has */
    expect_totals(twin, 172, 8192 + 171 * 24, 507);
    twin_release(twin, 4096);
    expect_totals(twin, 171, 171 * 24, 509);
    for (unsigned s = 0; s < 170; s++)
        twin_release(twin, 3 * PAGE_BYTES + 24 * s);
    expect_totals(twin, 1, 24, 509);
    twin_sweep(twin);
    expect_totals(twin, 1, 24, 510);
    twin_free(twin);
}

static void test_totals(void)
{
    group_begin("totals", "each-recipe");
    on_each_recipe(1, totals_once);
    group_end();
    group_begin("totals", "each-class");
    on_each_class(1, totals_once);
    on_each_class(2, totals_once);
    group_end();
    group_begin("totals", "from-fresh-to-full-and-back");
    fill_and_drain();
    group_end();
    group_begin("totals", "slots-keep-their-pages-until-swept");
    totals_of_released();
    group_end();
}

void test_readers(void)
{
    test_next();
    test_census();
    test_totals();
}

/* ---- Refusals 1 and 2 --------------------------------------------------------- */

static uint64_t *room_of_ones(size_t words)
{
    uint64_t *room = lent_room_new(words);

    memset(room, 0xFF, words * sizeof *room);
    return room;
}

static bool all_ones(const uint64_t *room, size_t words)
{
    uint64_t all = UINT64_MAX;

    for (size_t i = 0; i < words; i++)
        all &= room[i];
    return all == UINT64_MAX;
}

/* From places and in rooms that alone would be served, or refused otherwise. */
static const uint64_t tried_places[] = {0, 4096, 4100, UINT64_C(1) << 25, UINT64_MAX};
static const size_t tried_rooms[] = {0, 1, 2, 63, 64};
enum { LONGEST_TRIED = 64 };

static void expect_next_refuses(uint64_t number, uint64_t c, const struct records *r,
                                struct lengths n)
{
    for (size_t i = 0; i < COUNT(tried_places); i++) {
        struct lensember_found found = lensember_next(
            c, r->bits, n.bits, r->words, n.words, r->slots, n.slots, tried_places[i]);
        expect(found.refusal == number && found.place == 0 && found.size == 0,
               "next from %" PRIu64 ", c %" PRIu64 ": %" PRIu64 " at %" PRIu64 " size %" PRIu64,
               tried_places[i], c, found.refusal, found.place, found.size);
    }
    group.trials += COUNT(tried_places);
}

static void expect_census_refuses(uint64_t number, uint64_t c, const struct records *r,
                                  struct lengths n)
{
    static uint64_t *room;

    if (room == NULL)
        room = room_of_ones(LONGEST_TRIED);
    for (size_t i = 0; i < COUNT(tried_rooms); i++) {
        struct lensember_counted counted = lensember_census(
            c, r->bits, n.bits, r->words, n.words, r->slots, n.slots,
            room + LONGEST_TRIED - tried_rooms[i], tried_rooms[i]);
        expect(counted.refusal == number && counted.count == 0,
               "census in %zu words, c %" PRIu64 ": %" PRIu64 " count %" PRIu64,
               tried_rooms[i], c, counted.refusal, counted.count);
    }
    expect(all_ones(room, LONGEST_TRIED), "a refused census wrote, c %" PRIu64, c);
    memset(room, 0xFF, LONGEST_TRIED * sizeof *room);
    group.trials += COUNT(tried_rooms);
}

static void expect_totals_refuse(uint64_t number, uint64_t c, const struct records *r,
                                 struct lengths n)
{
    struct lensember_summed totals =
        lensember_totals(c, r->bits, n.bits, r->words, n.words, r->slots, n.slots);

    expect(totals.refusal == number && totals.blocks == 0 && totals.bytes == 0
               && totals.free_pages == 0,
           "totals, c %" PRIu64 ": %" PRIu64 ", %" PRIu64 " blocks %" PRIu64 " bytes %" PRIu64
           " free pages",
           c, totals.refusal, totals.blocks, totals.bytes, totals.free_pages);
    group.trials++;
}

void expect_readers_refuse(uint64_t number, uint64_t c, const struct records *r, struct lengths n)
{
    expect_next_refuses(number, c, r, n);
    expect_census_refuses(number, c, r, n);
    expect_totals_refuse(number, c, r, n);
}

void expect_census_refused(const struct records *r, uint64_t number, size_t nroom)
{
    uint64_t *room = room_of_ones(nroom);
    struct lensember_counted counted = library_census(r, room, nroom);

    expect(counted.refusal == number && counted.count == 0,
           "census in %zu words: %" PRIu64 " count %" PRIu64, nroom, counted.refusal,
           counted.count);
    expect(all_ones(room, nroom), "a refused census wrote in %zu words", nroom);
    lent_room_free(room, nroom);
}
