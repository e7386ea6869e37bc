#include "resizes.h"

#include "calls.h"
#include "draws.h"
#include "groups.h"
#include "readers.h"

#include <inttypes.h>
#include <string.h>

/* ---- Known numbers ----------------------------------------------------------- */

static void expect_kept(struct twin *twin, uint64_t place, uint64_t size, uint64_t given)
{
    struct pool_resized answer = twin_resize(twin, place, size);

    expect(answer.refusal == 0 && answer.how == RESIZED_KEPT && answer.place == place
               && answer.size == given && answer.copy == 0,
           "resize %" PRIu64 " to %" PRIu64 ": %" PRIu64 " at %" PRIu64 " size %" PRIu64 ", not kept",
           place, size, answer.refusal, answer.place, answer.size);
}

static void expect_moved(struct twin *twin, uint64_t place, uint64_t size, uint64_t to,
                         uint64_t copy)
{
    struct pool_resized answer = twin_resize(twin, place, size);

    expect(answer.refusal == 0 && answer.how == RESIZED_MOVED && answer.place == to
               && answer.size >= size && answer.copy == copy,
           "resize %" PRIu64 " to %" PRIu64 ": %" PRIu64 " at %" PRIu64 " copy %" PRIu64
           ", not moved to %" PRIu64,
           place, size, answer.refusal, answer.place, answer.copy, to);
}

/* And nothing changes; that the model sees to. */
static void expect_not_resized(struct twin *twin, uint64_t place, uint64_t size, uint64_t number)
{
    struct pool_resized answer = twin_resize(twin, place, size);

    expect(answer.refusal == number && answer.how == RESIZED_NOTHING,
           "resize %" PRIu64 " to %" PRIu64 ": %" PRIu64, place, size, answer.refusal);
}

/* ---- The sample (RULES 12.6) ---------------------------------------------------- */

static void sample_table(struct twin *twin)
{
    expect_served(twin, 5000, 4096, 8192);
    expect_served(twin, 5000, 12288, 8192);
    expect_served(twin, 24, 20480, 24);
    expect_kept(twin, 4096, 8192, 8192);
    expect_kept(twin, 4096, 4096, 4096);
    expect_totals(twin, 3, 4096 + 8192 + 24, 511 - 4);
    expect_kept(twin, 4096, 8000, 8192);
    expect_moved(twin, 4096, 8193, 24576, 8192);
    expect_size(twin, 24576, 0, 12288);
    expect_size(twin, 4096, 5, 0);
}

static void sample_row(struct twin *twin)
{
    static const uint64_t sizes[] = {0, 17, 24, 5000, 2093056, 2093057, UINT64_MAX};

    expect_kept(twin, 20480, 17, 24);
    expect_not_resized(twin, 20480, 2093057, 3);
    for (size_t i = 0; i < COUNT(sizes); i++)
        expect_not_resized(twin, 20481, sizes[i], 5);
    expect_moved(twin, 20480, 25, 4096, 24); /* into the pages that the table left */
    for (size_t i = 0; i < COUNT(sizes); i++)
        expect_not_resized(twin, 20480, sizes[i], 6);
    expect_not_resized(twin, 4096, 2093057, 3);
    expect_census(twin, 6, 0, 3);
    expect_next(twin, 0, 4096, 32);
    expect_next(twin, 4097, 12288, 8192);
    expect_next(twin, 12289, 24576, 12288);
}

static void test_sample(void)
{
    struct twin *twin = twin_new(1);

    group_begin("resize", "sample-of-two-tables-and-a-row");
    sample_table(twin);
    sample_row(twin);
    group_end();
    twin_free(twin);
}

/* ---- Slots ---------------------------------------------------------------------- */

static uint64_t smaller(uint64_t a, uint64_t b)
{
    return a < b ? a : b;
}

/* Slot 0 of the run at page 1 stays where the size is of its class, else goes away and back. */
static void resize_slot(struct twin *twin, unsigned b, uint64_t size)
{
    uint64_t given = size_classes[b].size;
    struct pool_resized answer;

    if (size <= LARGEST_SMALL && class_of_size(size) == b) {
        expect_kept(twin, PAGE_BYTES, size, given);
        return;
    }
    answer = twin_resize(twin, PAGE_BYTES, size);
    expect(answer.how == RESIZED_MOVED && answer.copy == smaller(size, given),
           "class %u to %" PRIu64 " bytes: %" PRIu64 " to copy", b, size, answer.copy);
    expect_moved(twin, answer.place, given, PAGE_BYTES, smaller(answer.size, given));
}

static void test_slots(void)
{
    struct twin *twin = twin_new(1);

    group_begin("resize", "slots-of-each-class-to-every-size-to-3073");
    for (unsigned b = 0; b < CLASSES; b++) {
        twin_fresh(twin);
        expect_served(twin, size_classes[b].size, PAGE_BYTES, size_classes[b].size);
        for (uint64_t size = 0; size <= LARGEST_SMALL + 1; size++)
            resize_slot(twin, b, size);
    }
    group_end();
    twin_free(twin);
}

/* ---- Large runs ------------------------------------------------------------------- */

/* A run, behind it a gap; all other pages of the pool are taken. */
struct niche {
    size_t chunk;
    unsigned first, pages, gap;
};

/* The stretch is taken by a run of slots, one of them taken, and a large one. */
static void fill_stretch(struct pool *model, size_t chunk, unsigned first, unsigned end)
{
    if (first == end)
        return;
    pool_take_slot(model, chunk, pool_put_class(model, chunk, first, 2), 169);
    if (first + 1 < end)
        pool_put_large(model, chunk, first + 1, end - first - 1);
}

static uint64_t make_niche(struct twin *twin, const struct niche *niche)
{
    struct pool *model = &twin->model;

    pool_fresh(model, model->c);
    for (size_t k = 0; k < model->c; k++)
        if (k != niche->chunk)
            pool_put_large(model, k, 1, PAGES - 1);
    fill_stretch(model, niche->chunk, 1, niche->first);
    fill_stretch(model, niche->chunk, niche->first + niche->pages + niche->gap, PAGES);
    pool_put_large(model, niche->chunk, niche->first, niche->pages);
    twin_settle(twin);
    return niche->chunk * CHUNK_BYTES + niche->first * PAGE_BYTES;
}

static void expect_pages(struct twin *twin, uint64_t place, unsigned pages)
{
    expect_kept(twin, place, pages * PAGE_BYTES, pages * PAGE_BYTES);
}

/* Up to the gap's last page and no further; and down again. */
static void try_niche(struct twin *twin, const struct niche *niche)
{
    uint64_t place = make_niche(twin, niche);
    unsigned most = niche->pages + niche->gap;

    expect_kept(twin, place, niche->pages * PAGE_BYTES - 1023, niche->pages * PAGE_BYTES);
    expect_pages(twin, place, most);
    if (most + 1 < PAGES)
        expect_not_resized(twin, place, most * PAGE_BYTES + 1, 4);
    expect_kept(twin, place, 3073, 4096);
    if (most + 1 < PAGES)
        expect_not_resized(twin, place, most * PAGE_BYTES + 1, 4);
    expect_pages(twin, place, most);
    expect_pages(twin, place, niche->pages);
    expect_totals(twin, twin->model.live.count, twin->model.live.bytes, niche->gap);
}

/* "free pages of the same chunk": around each end of a 64-page word, and of the chunk. */
static void test_niches(void)
{
    static const unsigned lengths[] = {1, 2, 63, 64, 65, 130};
    static const unsigned gaps[] = {0, 1, 2, 63, 64, 65, 130};
    struct twin *twin = twin_new(2);
    struct niche niche;

    group_begin("resize", "large-runs-at-every-page");
    for (niche.first = 1; niche.first < PAGES; niche.first++) {
        niche.chunk = niche.first % 2;
        for (size_t i = 0; i < COUNT(lengths); i++) {
            niche.pages = lengths[i];
            for (size_t n = 0; n < COUNT(gaps); n++) {
                niche.gap = gaps[n];
                if (niche.first + niche.pages + niche.gap <= PAGES)
                    try_niche(twin, &niche);
            }
        }
    }
    group_end();
    twin_free(twin);
}

/* Everything behind the run is free, up to the end of the chunk. */
static void test_chunk_ends(void)
{
    struct twin *twin = twin_new(3);
    struct niche niche = {0, 0, 1, 0};

    group_begin("resize", "to-the-chunk-end-and-not-over-it");
    for (niche.chunk = 0; niche.chunk < 3; niche.chunk++) {
        for (niche.first = 1; niche.first < PAGES; niche.first++) {
            niche.gap = PAGES - niche.first - 1;
            try_niche(twin, &niche);
        }
    }
    group_end();
    twin_free(twin);
}

/* One page more each time up to the whole chunk, and one fewer down to one. */
static void resize_through(struct twin *twin, size_t chunk)
{
    struct niche niche = {chunk, 1, 1, PAGES - 2};
    uint64_t place = make_niche(twin, &niche);

    for (unsigned pages = 2; pages < PAGES; pages++)
        expect_pages(twin, place, pages);
    expect_not_resized(twin, place, LARGEST + 1, 3);
    for (unsigned pages = PAGES - 2; pages > 0; pages--)
        expect_pages(twin, place, pages);
}

static void test_every_chunk(void)
{
    static const size_t counts[] = {1, 2, 3, 7, 16};

    group_begin("resize", "to-every-count-of-pages-in-every-chunk");
    for (size_t i = 0; i < COUNT(counts); i++) {
        struct twin *twin = twin_new(counts[i]);
        for (size_t k = 0; k < counts[i]; k++)
            resize_through(twin, k);
        twin_free(twin);
    }
    group_end();
}

/* ---- What stands behind a run ------------------------------------------------------ */

/* A run of 3 pages at page 1, right behind it an empty run of slots; the rest is taken or free. */
static void put_behind(struct twin *twin, unsigned b, bool taken)
{
    unsigned end = 4 + size_classes[b].pages;

    pool_fresh(&twin->model, 1);
    pool_put_large(&twin->model, 0, 1, 3);
    pool_put_class(&twin->model, 0, 4, b);
    if (taken)
        pool_put_large(&twin->model, 0, end, PAGES - end);
    twin_settle(twin);
}

/* The pages of the empty run are had by a move that sweeps, where they are enough for all. */
static void grow_into_empty_run(struct twin *twin, unsigned b, unsigned pages)
{
    put_behind(twin, b, true);
    if (pages <= size_classes[b].pages) {
        expect_moved(twin, PAGE_BYTES, pages * PAGE_BYTES, 4 * PAGE_BYTES, 3 * PAGE_BYTES);
        expect_gain(twin, 0);
    } else {
        expect_not_resized(twin, PAGE_BYTES, pages * PAGE_BYTES, 4);
        expect_gain(twin, size_classes[b].pages);
    }
}

/* Where there is room elsewhere nothing is swept, and the run is moved all the same. */
static void grow_past_empty_run(struct twin *twin, unsigned b)
{
    unsigned end = 4 + size_classes[b].pages;

    put_behind(twin, b, false);
    expect_moved(twin, PAGE_BYTES, 4 * PAGE_BYTES, end * PAGE_BYTES, 3 * PAGE_BYTES);
    expect_size(twin, 4 * PAGE_BYTES, 6, 0);
    expect_gain(twin, size_classes[b].pages);
}

/* "No sweep is made for them." */
static void test_empty_runs_behind(void)
{
    struct twin *twin = twin_new(1);

    group_begin("resize", "no-sweep-for-pages-behind");
    for (unsigned b = 0; b < CLASSES; b++) {
        for (unsigned pages = 4; pages <= 8; pages++)
            grow_into_empty_run(twin, b, pages);
        grow_past_empty_run(twin, b);
    }
    group_end();
    twin_free(twin);
}

/* One page behind a run of one page is taken, all others of the chunk are free. */
static void try_bar(struct twin *twin, unsigned at, unsigned pages)
{
    struct pool *model = &twin->model;

    if (pages == 0 || pages >= PAGES)
        return;
    pool_fresh(model, 1);
    pool_put_large(model, 0, 1, 1);
    if (at % 2 == 0)
        pool_put_large(model, 0, at, 1);
    else
        pool_take_slot(model, 0, pool_put_class(model, 0, at, at % 16), 0);
    twin_settle(twin);
    if (pages < at)
        expect_pages(twin, PAGE_BYTES, pages);
    else if (at + pages < PAGES)
        expect_moved(twin, PAGE_BYTES, pages * PAGE_BYTES, (at + 1) * PAGE_BYTES, PAGE_BYTES);
    else
        expect_not_resized(twin, PAGE_BYTES, pages * PAGE_BYTES, 4);
}

/* Up to it, over it, and so far over it that there is no room anywhere. */
static void test_bars(void)
{
    struct twin *twin = twin_new(1);

    group_begin("resize", "one-taken-page-anywhere-behind");
    for (unsigned at = 2; at < PAGES; at++) {
        const unsigned pages[] = {at - 1, at, at + 1, at + 64, PAGES - 1 - at, PAGES - at, PAGES - 1};
        for (size_t i = 0; i < COUNT(pages); i++)
            try_bar(twin, at, pages[i]);
    }
    group_end();
    twin_free(twin);
}

/* A run at the end of a chunk is moved into the next one; the pages there are no part of it. */
static void test_moves_between_chunks(void)
{
    struct twin *twin = twin_new(2);

    group_begin("resize", "from-the-chunk-end-into-the-next-chunk");
    for (unsigned pages = 1; pages <= 200; pages++) {
        uint64_t place = (PAGES - pages) * PAGE_BYTES;
        pool_fresh(&twin->model, 2);
        pool_put_large(&twin->model, 0, 1, PAGES - pages - 1);
        pool_put_large(&twin->model, 0, PAGES - pages, pages);
        twin_settle(twin);
        expect_moved(twin, place, pages * PAGE_BYTES + 1, CHUNK_BYTES + PAGE_BYTES,
                     pages * PAGE_BYTES);
        expect_size(twin, place, 5, 0);
        expect_moved(twin, CHUNK_BYTES + PAGE_BYTES, 24, place, 24);
    }
    group_end();
    twin_free(twin);
}

/* ---- While the old block is live ------------------------------------------------------ */

/* The last taken slot of a run, and no free page: giving it back first would make room. */
static void refuse_slot(struct twin *twin, unsigned from, unsigned to)
{
    unsigned pages = size_classes[from].pages, slot = rng_below(&rng, size_classes[from].slots);
    struct pool_run *run;

    pool_fresh(&twin->model, 1);
    run = pool_put_class(&twin->model, 0, 1, from);
    pool_take_slot(&twin->model, 0, run, slot);
    pool_put_large(&twin->model, 0, 1 + pages, PAGES - 1 - pages);
    twin_settle(twin);
    expect_not_resized(twin, PAGE_BYTES + slot * size_classes[from].size, size_classes[to].size, 4);
    expect_not_resized(twin, PAGE_BYTES + slot * size_classes[from].size, 3073, 4);
}

/* Free pages before the run, but fewer than are asked for without its own. */
static void refuse_run(struct twin *twin, unsigned before, unsigned pages)
{
    uint64_t place = (1 + before) * PAGE_BYTES;

    pool_fresh(&twin->model, 1);
    pool_put_large(&twin->model, 0, 1 + before, pages);
    pool_put_large(&twin->model, 0, 1 + before + pages, PAGES - 1 - before - pages);
    twin_settle(twin);
    for (unsigned more = pages + 1; more <= before + pages + 1; more++)
        if (more > before)
            expect_not_resized(twin, place, more * PAGE_BYTES, 4);
    if (before == 0)
        expect_not_resized(twin, place, 24, 4);
}

/* "the size is reserved while the old block is live" */
static void test_old_block_is_live(void)
{
    struct twin *twin = twin_new(1);

    group_begin("resize", "room-is-sought-beside-the-old-block");
    for (unsigned from = 0; from < CLASSES; from++)
        for (unsigned to = 0; to < CLASSES; to++)
            if (to != from)
                refuse_slot(twin, from, to);
    for (unsigned before = 0; before < 12; before++)
        for (unsigned pages = 1; pages < 12; pages++)
            refuse_run(twin, before, pages);
    group_end();
    twin_free(twin);
}

/* ---- Places ---------------------------------------------------------------------------- */

/* "5 or 6, as a release of the place is; 3": the size is looked at last. */
static void expect_order(struct twin *twin, uint64_t place, uint64_t too_big)
{
    uint64_t number = pool_block_size(&twin->model, place).refusal;

    expect_not_resized(twin, place, too_big, number == 0 ? 3 : number);
}

static void try_places(struct twin *twin)
{
    for (unsigned i = 0; i < 30; i++) {
        uint64_t too_big = LARGEST + 1 + (rng_next(&rng) >> (8 + rng_below(&rng, 56)));
        expect_order(twin, draw_live_place(&twin->model), too_big);
        expect_order(twin, draw_hostile_place(&twin->model), too_big);
        twin_resize(twin, draw_hostile_place(&twin->model), draw_any_size(0));
    }
}

static void test_places(void)
{
    struct twin *twin = twin_new(1);

    group_begin("resize", "5-and-6-before-3-at-every-eighth-byte");
    twin_generate(twin, recipe_named("parade"));
    for (uint64_t place = 0; place < CHUNK_BYTES + PAGE_BYTES; place += 8)
        expect_order(twin, place, LARGEST + 1);
    group_end();
    twin_free(twin);
    group_begin("resize", "5-and-6-before-3-on-each-recipe");
    on_each_recipe(1, try_places);
    group_end();
}

/* ---- At random ------------------------------------------------------------------------ */

static void resize_some(struct twin *twin)
{
    for (unsigned i = 0; i < 12; i++) {
        uint64_t place = draw_live_place(&twin->model);
        twin_resize(twin, place, draw_new_size(&twin->model, place));
    }
    twin_totals(twin);
    twin_census(twin, 2 * twin->model.live.count);
}

/* Nothing but runs, a third of those of slots empty: it is mostly a sweep that makes room. */
static void resize_among_empty_runs(struct twin *twin)
{
    struct recipe recipe = *recipe_named("classes-any-fill");

    recipe.large_share = 1;
    recipe.large_max = 1 + rng_below(&rng, 60);
    recipe.free_share = rng_below(&rng, 4) == 0;
    twin_generate(twin, &recipe);
    for (unsigned i = 0; i < 4; i++) {
        uint64_t place = draw_live_place(&twin->model);
        twin_resize(twin, place, draw_new_size(&twin->model, place));
    }
}

static void test_at_random(void)
{
    group_begin("resize", "each-recipe");
    on_each_recipe(1, resize_some);
    group_end();
    group_begin("resize", "among-empty-runs");
    memset(&answers, 0, sizeof answers);
    for (unsigned c = 1; c <= MAX_CHUNKS; c++) {
        struct twin *twin = twin_new(c);
        for (unsigned n = 0; n < 20 + 1200 / c; n++)
            resize_among_empty_runs(twin);
        twin_free(twin);
    }
    expect_each_resize(&answers.resizes, 100);
    group_end();
}

void expect_each_resize(const struct resize_counts *counts, unsigned long least)
{
    static const char *const changes[CHANGES] = {
        "slots that stay", "runs that stay", "runs that shrink", "runs that grow",
        "slots to slots", "slots to runs", "runs to slots", "runs to runs"};
    static const char *const bars[BARS] = {
        "not barred", "barred by a chunk's end", "barred by a block", "barred by an empty run"};

    for (unsigned i = 0; i < CHANGES; i++)
        expect_least(counts->changes[i], least, changes[i]);
    for (unsigned i = 0; i < BARS; i++)
        expect_least(counts->bars[i], least, bars[i]);
    expect_least(counts->swept, least, "resizes that sweep");
    expect_least(counts->in_vain, least, "resizes refused in spite of empty runs");
}

void test_resizes(void)
{
    test_sample();
    test_slots();
    test_niches();
    test_chunk_ends();
    test_every_chunk();
    test_bars();
    test_empty_runs_behind();
    test_moves_between_chunks();
    test_old_block_is_live();
    test_places();
    test_at_random();
}

/* ---- Refusals 1 and 2 ------------------------------------------------------------------- */

/* With places and sizes that alone would be served, or refused otherwise. */
void expect_resizes_refuse(uint64_t number, uint64_t c, const struct records *r, struct lengths n)
{
    static const uint64_t tried[][2] = {
        {4096, 24}, {4096, 2093057}, {4100, 5000}, {0, 24}, {UINT64_C(1) << 25, UINT64_MAX},
        {UINT64_MAX, 0}};

    for (size_t i = 0; i < COUNT(tried); i++) {
        struct lensember_resized answer =
            lensember_resize(c, r->bits, n.bits, r->words, n.words, r->slots, n.slots, tried[i][0],
                             tried[i][1]);
        expect(answer.refusal == number && answer.place == 0 && answer.size == 0
                   && answer.how == LENSEMBER_NOTHING && answer.copy == 0,
               "resize %" PRIu64 " to %" PRIu64 ", c %" PRIu64 ": %" PRIu64, tried[i][0],
               tried[i][1], c, answer.refusal);
    }
    group.trials += COUNT(tried);
}
