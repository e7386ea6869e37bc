/*
 * Tests of all calls on an existing pool, through the C calls.
 *
 * Each answer, and after each call all three buffers, are compared with the
 * independent pool of pool.c; the samples (RULES 12) with their own numbers too.
 * One line is printed for each named group, then the count of groups.
 * Usage: series [SEED [CALLS]]
 * With a number of calls only the long random series are made, in rounds, until
 * there were at least so many.
 */
#include "calls.h"
#include "draws.h"
#include "groups.h"
#include "readers.h"
#include "resizes.h"
#include "shapes.h"
#include "trials.h"
#include "twin.h"

#include <inttypes.h>
#include <stdio.h>
#include <stdlib.h>
#include <string.h>

/* ---- The samples (RULES 12) ------------------------------------------------ */

/* "3,073 takes 1 page, 2,093,056 takes 511, 2,093,057 is refused 3" */
static void sample_page_counts(struct twin *twin)
{
    expect(twin_reserve(twin, 3073).pages == 1, "pages of 3073");
    twin_fresh(twin);
    expect(twin_reserve(twin, 2093056).pages == 511, "pages of 2093056");
    expect_refused(twin, 2093057, 3);
    twin_fresh(twin);
    expect_refused(twin, 2093057, 3);
    expect_refused(twin, UINT64_MAX, 3);
}

/* "sizes 0, 8, 9, 64, 65, 320, 321, 3072 have classes 0, 0, 1, 7, 8, 16, 17, 29" */
static void sample_classes(struct twin *twin)
{
    static const unsigned rows[][2] = {
        {0, 0}, {8, 0}, {9, 1}, {64, 7}, {65, 8}, {320, 16}, {321, 17}, {3072, 29}};

    for (size_t i = 0; i < COUNT(rows); i++) {
        struct pool_reserved answer = twin_reserve(twin, rows[i][0]);
        expect(answer.kind == BLOCK_SLOT && answer.class_number == rows[i][1],
               "class of %u", rows[i][0]);
    }
}

static void sample_every_small_size(struct twin *twin)
{
    for (uint64_t size = 0; size <= 3073; size++) {
        struct pool_reserved answer = twin_reserve(twin, size);
        expect(answer.size >= size, "reserve %" PRIu64, size);
        twin_release(twin, answer.place);
    }
}

/* "In a class 2 run slot 169 starts at byte 4056, and byte 4080 is refused 5." */
static void sample_last_row(struct twin *twin)
{
    for (unsigned s = 0; s < 170; s++)
        expect_served(twin, 24, 4096 + 24 * s, 24);
    expect_size(twin, 4096 + 4056, 0, 24);
    expect_size(twin, 4096 + 4080, 5, 0);
    expect_release(twin, 4096 + 4080, 5);
    expect_served(twin, 24, 8192, 24); /* no slot 170: a new run */
    expect_release(twin, 4096 + 4080, 5);
    expect_release(twin, 4096 + 4056, 0);
    expect_size(twin, 4096 + 4056, 6, 0);
    expect_release(twin, 4096 + 4056, 6);
}

/* The sample log (RULES 12.3). */
static void sample_log(struct twin *twin)
{
    expect_served(twin, 24, 4096, 24);
    expect_served(twin, 24, 4120, 24);
    expect_served(twin, 5000, 8192, 8192);
    expect_release(twin, 4096, 0);
    expect_served(twin, 10, 16384, 16);
    expect_served(twin, 20, 4096, 24);
    expect_release(twin, 4100, 5);
    expect(twin->model.live.count == 4, "live blocks");
    expect_totals(twin, 4, 24 + 24 + 8192 + 16, 507);
    expect_next(twin, 0, 4096, 24);
    expect_next(twin, 4097, 4120, 24);
    expect_next(twin, 8192, 8192, 8192);
    expect_next(twin, 8193, 16384, 16);
    expect_next(twin, 16385, 0, 0);
    expect_census(twin, 8, 0, 4);
    expect_census(twin, 7, 7, 0);
}

/* Takes whole chunks, each by one run. */
static void take_chunks(struct twin *twin, size_t chunks)
{
    for (size_t k = 0; k < chunks; k++)
        expect_served(twin, LARGEST, k * CHUNK_BYTES + 4096, LARGEST);
}

/* Leaves the gaps 10 to 13, 40 to 42, 90 to 92 and 200 to 511 in a free chunk. */
static void leave_sample_gaps(struct twin *twin, size_t chunk)
{
    static const unsigned pages[] = {9, 4, 26, 3, 47, 3, 107, 312};
    static const unsigned gaps[] = {10, 40, 90, 200};
    uint64_t place = chunk * CHUNK_BYTES + 4096;

    for (size_t i = 0; i < COUNT(pages); i++) {
        expect_served(twin, pages[i] * PAGE_BYTES, place, pages[i] * PAGE_BYTES);
        place += pages[i] * PAGE_BYTES;
    }
    for (size_t i = 0; i < COUNT(gaps); i++)
        expect_release(twin, chunk * CHUNK_BYTES + gaps[i] * PAGE_BYTES, 0);
}

/* "2 pages start at 40, 4 at 10, 5 at 200, and 313 have no gap": one at a time. */
static void sample_gaps_in(struct twin *twin, size_t chunk)
{
    static const unsigned rows[][2] = {
        {1, 40}, {2, 40}, {3, 40}, {4, 10}, {5, 200}, {64, 200}, {312, 200}};
    uint64_t start = chunk * CHUNK_BYTES;

    take_chunks(twin, chunk);
    leave_sample_gaps(twin, chunk);
    for (size_t i = 0; i < COUNT(rows); i++) {
        uint64_t place = start + rows[i][1] * PAGE_BYTES;
        expect_served(twin, rows[i][0] * PAGE_BYTES, place, rows[i][0] * PAGE_BYTES);
        expect_release(twin, place, 0);
    }
    expect_refused(twin, 313 * PAGE_BYTES, 4);
}

static void sample_gaps(struct twin *twin)
{
    sample_gaps_in(twin, twin->model.c - 1);
}

/* Runs of slots are put into the same gaps: of 1, 2, 3, 4, 5 and 7 pages. */
static void sample_gaps_of_classes(struct twin *twin)
{
    static const unsigned rows[][2] = {
        {24, 40}, {896, 40}, {3072, 40}, {2048, 10}, {320, 200}, {1792, 200}};

    for (size_t i = 0; i < COUNT(rows); i++) {
        twin_fresh(twin);
        leave_sample_gaps(twin, 0);
        expect_served(twin, rows[i][0], rows[i][1] * PAGE_BYTES, rows[i][0]);
    }
}

/* "The best gap over all chunks, in place of the first chunk that has one." */
static void sample_first_chunk(struct twin *twin)
{
    pool_put_large(&twin->model, 0, 1, 100); /* gap 101 to 511 */
    pool_put_large(&twin->model, 1, 3, 509); /* gap 1 to 2 */
    twin_settle(twin);
    expect_served(twin, 2 * PAGE_BYTES, 101 * PAGE_BYTES, 2 * PAGE_BYTES);
    expect_served(twin, 896, 103 * PAGE_BYTES, 896);
    expect_served(twin, 410 * PAGE_BYTES, 2 * CHUNK_BYTES + 4096, 410 * PAGE_BYTES);
}

/* A free slot in the last chunk comes before a new run in the first one. */
static void sample_slot_before_gap(struct twin *twin)
{
    struct pool_run *run = pool_put_class(&twin->model, 2, 7, 5);

    pool_take_slot(&twin->model, 2, run, 0);
    twin_settle(twin);
    expect_served(twin, 48, 2 * CHUNK_BYTES + 7 * PAGE_BYTES + 48, 48);
    expect_served(twin, 49, 4096, 56);
}

/* The lowest place counts, not the run that was cut or freed last. */
static void sample_lowest_slot(struct twin *twin)
{
    for (unsigned s = 0; s < 24; s++)
        twin_reserve(twin, 1024); /* three runs of 8 */
    expect_release(twin, 5 * PAGE_BYTES + 2048, 0);
    expect_release(twin, 1 * PAGE_BYTES + 3072, 0);
    expect_release(twin, 3 * PAGE_BYTES, 0);
    expect_release(twin, 1 * PAGE_BYTES + 7168, 0);
    expect_served(twin, 1000, 1 * PAGE_BYTES + 3072, 1024);
    expect_served(twin, 1000, 1 * PAGE_BYTES + 7168, 1024);
    expect_served(twin, 1000, 3 * PAGE_BYTES, 1024);
    expect_served(twin, 1000, 5 * PAGE_BYTES + 2048, 1024);
    expect_served(twin, 1000, 7 * PAGE_BYTES, 1024);
}

/* "the run stays with its class, even when all its slots are free" until it is swept */
static void sample_empty_run(struct twin *twin)
{
    expect_served(twin, 3072, 4096, 3072);
    expect_release(twin, 4096, 0);
    expect_size(twin, 4096, 6, 0);
    expect_served(twin, 508 * PAGE_BYTES, 4 * PAGE_BYTES, 508 * PAGE_BYTES);
    expect_size(twin, 4096, 6, 0); /* served at the first try: nothing is swept */
    expect_served(twin, 3000, 4096, 3072);
    expect_refused(twin, 24, 4);
    expect_release(twin, 4096, 0);
    expect_served(twin, 24, 4096, 24);
    expect_size(twin, 2 * PAGE_BYTES, 5, 0); /* all three pages were swept */
    expect_served(twin, 3073, 2 * PAGE_BYTES, 4096);
}

/* Blocks of every class, of some of them several runs; answers how many pages the runs have. */
static uint64_t reserve_morning(struct twin *twin)
{
    for (unsigned round = 0; round < 9; round++)
        for (unsigned b = 0; b < CLASSES; b++)
            twin_reserve(twin, size_classes[b].size);
    return pool_run_pages(&twin->model);
}

/* From the last place down, so that runs become empty in another order than they were cut. */
static void drop_down_to(struct twin *twin, unsigned long blocks)
{
    while (twin->model.live.count > blocks)
        expect_release(twin, book_at(&twin->model.live, twin->model.live.count - 1)->place, 0);
}

/* "After a morning of drops a big table was refused 4 with nothing live" */
static void sample_morning(struct twin *twin)
{
    uint64_t pages = reserve_morning(twin);

    drop_down_to(twin, 0);
    expect_totals(twin, 0, 0, 511 - pages);
    expect_served(twin, 2093056, 4096, 2093056);
    expect_totals(twin, 1, 2093056, 0);
    expect_release(twin, 4096, 0);
    expect_totals(twin, 0, 0, 511);
}

/* One row is live still: "if not, the records stay unchanged" */
static void sample_morning_but_one(struct twin *twin)
{
    uint64_t pages = reserve_morning(twin);
    struct records before = lent_new(1);

    drop_down_to(twin, 1);
    lent_copy(&before, &twin->lent);
    expect_refused(twin, 2093056, 4);
    expect(lent_equal(&before, &twin->lent), "refused, and the records are not as they were");
    expect_totals(twin, 1, 8, 511 - pages);
    lent_free(&before);

    expect_gain(twin, pages - 1);
    expect_totals(twin, 1, 8, 510);
    expect_refused(twin, 2093056, 4);
    expect_served(twin, 510 * PAGE_BYTES, 2 * PAGE_BYTES, 510 * PAGE_BYTES);
}

/* "A call of its own sweeps at will and returns the pages gained." */
static void sample_sweep(struct twin *twin)
{
    expect_gain(twin, 0);
    expect_served(twin, 24, 4096, 24);
    expect_served(twin, 320, 2 * PAGE_BYTES, 320);
    expect_served(twin, 5000, 7 * PAGE_BYTES, 8192);
    expect_gain(twin, 0);
    expect_release(twin, 2 * PAGE_BYTES, 0);
    expect_gain(twin, 5);
    expect_gain(twin, 0);
    expect_size(twin, 2 * PAGE_BYTES, 5, 0);
    expect_census(twin, 4, 0, 2);
    expect_release(twin, 4096, 0);
    expect_gain(twin, 1);
    expect_totals(twin, 1, 8192, 509);
    expect_served(twin, 24, 4096, 24);
}

/* All runs are given back, those in other chunks too, though one page would do. */
static void sample_all_are_swept(struct twin *twin)
{
    take_chunks(twin, 3);
    for (size_t k = 0; k < 3; k++) {
        expect_release(twin, k * CHUNK_BYTES + 4096, 0);
        expect_served(twin, size_classes[20 + k].size, k * CHUNK_BYTES + 4096,
                      size_classes[20 + k].size);
        expect_served(twin, (511 - size_classes[20 + k].pages) * PAGE_BYTES,
                      k * CHUNK_BYTES + (1 + size_classes[20 + k].pages) * PAGE_BYTES,
                      (511 - size_classes[20 + k].pages) * PAGE_BYTES);
    }
    for (size_t k = 0; k < 3; k++)
        expect_release(twin, k * CHUNK_BYTES + 4096, 0);
    expect_served(twin, 8, 4096, 8);
    expect_gain(twin, 0);
    expect_totals(twin, 4, 3 * 511 * PAGE_BYTES - (5 + 3 + 2) * PAGE_BYTES + 8, 5 + 3 + 2 - 1);
}

/* "the pages of a freed run count as free for any request" */
static void sample_freed_pages(struct twin *twin)
{
    take_chunks(twin, 1);
    expect_refused(twin, 0, 4);
    expect_refused(twin, 3073, 4);
    expect_release(twin, 4096, 0);
    expect_release(twin, 4096, 5);
    expect_served(twin, 24, 4096, 24);
    expect_served(twin, 510 * PAGE_BYTES, 8192, 510 * PAGE_BYTES);
}

/* "Dividing a place by the slot size inside one page of a five-page run" */
static void sample_five_pages(struct twin *twin)
{
    for (unsigned s = 0; s < 64; s++)
        expect_served(twin, 320, 4096 + 320 * s, 320);
    expect_size(twin, 2 * PAGE_BYTES, 5, 0); /* inside slot 12 */
    expect_size(twin, 2 * PAGE_BYTES + 320, 5, 0);
    expect_size(twin, 4096 + 13 * 320, 0, 320); /* in the second page */
    expect_release(twin, 4096 + 63 * 320, 0);
    expect_size(twin, 4096 + 63 * 320, 6, 0);
    expect_size(twin, 4096 + 64 * 320, 5, 0); /* the next page, free */
}

static const struct {
    const char *name;
    size_t c;
    void (*run)(struct twin *twin);
} samples[] = {
    {"3073-takes-1-page-2093056-takes-511", 1, sample_page_counts},
    {"classes-of-eight-sizes", 1, sample_classes},
    {"every-size-to-3073", 1, sample_every_small_size},
    {"class-2-slot-169-at-4056-not-4080", 1, sample_last_row},
    {"request-log", 1, sample_log},
    {"gaps-2-at-40-4-at-10-5-at-200-not-313", 1, sample_gaps},
    {"gaps-in-last-of-2-chunks", 2, sample_gaps},
    {"gaps-in-last-of-16-chunks", 16, sample_gaps},
    {"gaps-for-class-runs", 1, sample_gaps_of_classes},
    {"first-chunk-not-best-gap-of-all", 3, sample_first_chunk},
    {"free-slot-in-last-chunk-before-new-run", 3, sample_slot_before_gap},
    {"lowest-free-slot-not-last-freed", 1, sample_lowest_slot},
    {"empty-run-stays-until-swept", 1, sample_empty_run},
    {"morning-of-drops-then-a-big-table", 1, sample_morning},
    {"morning-of-drops-but-one-row", 1, sample_morning_but_one},
    {"sweep-tells-the-pages-gained", 1, sample_sweep},
    {"sweep-in-all-chunks", 3, sample_all_are_swept},
    {"freed-pages-serve-any-request", 1, sample_freed_pages},
    {"slots-counted-from-first-of-five-pages", 1, sample_five_pages},
};

static void test_samples(void)
{
    for (size_t i = 0; i < COUNT(samples); i++) {
        struct twin *twin = twin_new(samples[i].c);
        group_begin("sample", samples[i].name);
        samples[i].run(twin);
        group_end();
        twin_free(twin);
    }
}

/* ---- Gaps -------------------------------------------------------------------- */

/* All pages of a chunk are taken but for one gap. */
static void leave_gap(struct twin *twin, size_t chunk, unsigned first, unsigned pages)
{
    unsigned end = first + pages;

    if (first > 1)
        pool_put_large(&twin->model, chunk, 1, first - 1);
    if (end < PAGES)
        pool_put_large(&twin->model, chunk, end, PAGES - end);
}

static void try_one_gap(struct twin *twin, unsigned first, unsigned pages)
{
    uint64_t place = first * PAGE_BYTES;

    pool_fresh(&twin->model, 1);
    leave_gap(twin, 0, first, pages);
    twin_settle(twin);
    if (pages < 511)
        expect_refused(twin, (pages + 1) * PAGE_BYTES, 4);
    expect_served(twin, pages * PAGE_BYTES, place, pages * PAGE_BYTES);
    expect_release(twin, place, 0);
    expect_served(twin, 24, place, 24);
}

/* "Counting a gap only up to the end of its 64-page word." */
static void test_one_gap(void)
{
    static const unsigned lengths[] = {1, 2, 3, 5, 62, 63, 64, 65, 66, 127, 128, 129, 320, 511};
    struct twin *twin = twin_new(1);

    group_begin("gap", "at-every-page");
    for (size_t i = 0; i < COUNT(lengths); i++)
        for (unsigned first = 1; first + lengths[i] <= PAGES; first++)
            try_one_gap(twin, first, lengths[i]);
    group_end();
    twin_free(twin);
}

/* Gaps of these lengths at pages 60, 120 and 180, and no others. */
static void leave_three_gaps(struct twin *twin, const unsigned gaps[3])
{
    pool_fresh(&twin->model, 1);
    pool_put_large(&twin->model, 0, 1, 59);
    pool_put_large(&twin->model, 0, 60 + gaps[0], 60 - gaps[0]);
    pool_put_large(&twin->model, 0, 120 + gaps[1], 60 - gaps[1]);
    pool_put_large(&twin->model, 0, 180 + gaps[2], PAGES - 180 - gaps[2]);
    twin_settle(twin);
}

static void try_three_gaps(struct twin *twin, const unsigned gaps[3])
{
    for (unsigned pages = 1; pages <= 7; pages++) {
        uint64_t size = pages * PAGE_BYTES;
        unsigned best = 3; /* none */
        for (unsigned i = 0; i < 3; i++)
            if (gaps[i] >= pages && (best == 3 || gaps[i] < gaps[best]))
                best = i;
        leave_three_gaps(twin, gaps);
        if (best == 3)
            expect_refused(twin, size, 4);
        else
            expect_served(twin, size, 60 * (best + 1) * PAGE_BYTES, size);
    }
}

/* Every order of three lengths, ties among them. */
static void test_three_gaps(void)
{
    struct twin *twin = twin_new(1);
    unsigned gaps[3];

    group_begin("gap", "shortest-of-three-lower-on-a-tie");
    for (gaps[0] = 1; gaps[0] <= 6; gaps[0]++)
        for (gaps[1] = 1; gaps[1] <= 6; gaps[1]++)
            for (gaps[2] = 1; gaps[2] <= 6; gaps[2]++)
                try_three_gaps(twin, gaps);
    group_end();
    twin_free(twin);
}

/* A gap at the end of one chunk and one at the start of the next are two. */
static void test_gap_at_chunk_end(void)
{
    struct twin *twin = twin_new(2);

    group_begin("gap", "not-over-a-chunk-end");
    for (unsigned pages = 1; pages <= 200; pages++) {
        pool_fresh(&twin->model, 2);
        leave_gap(twin, 0, PAGES - pages, pages);
        leave_gap(twin, 1, 1, pages);
        twin_settle(twin);
        expect_refused(twin, (pages + 1) * PAGE_BYTES, 4);
        expect_served(twin, pages * PAGE_BYTES, (PAGES - pages) * PAGE_BYTES, pages * PAGE_BYTES);
        expect_served(twin, pages * PAGE_BYTES, CHUNK_BYTES + PAGE_BYTES, pages * PAGE_BYTES);
        expect_refused(twin, 0, 4);
    }
    group_end();
    twin_free(twin);
}

/* ---- No room --------------------------------------------------------------------- */

/* One request of each class and of several lengths, whatever they answer. */
static void probe(struct twin *twin)
{
    static const uint64_t sizes[] = {
        3073, 4096, 4097, 8192, 20480, 262144, 266240, 2093056, 2093057, UINT64_MAX};

    for (size_t i = COUNT(sizes); i > 0; i--)
        twin_reserve(twin, sizes[i - 1]);
    for (unsigned b = CLASSES; b > 0; b--)
        twin_reserve(twin, size_classes[b - 1].size);
}

/* Reserves until there is no room; answers how often it was served. */
static unsigned long fill_up(struct twin *twin, uint64_t size)
{
    unsigned long served = 0;

    while (twin_reserve(twin, size).refusal == 0)
        served++;
    return served;
}

/* In a full pool, what is given back is what is handed out again. */
static void give_back_and_take(struct twin *twin, uint64_t size)
{
    for (unsigned i = 0; i < 12; i++) {
        uint64_t place = draw_live_place(&twin->model);
        twin_release(twin, place);
        expect(twin_reserve(twin, size).place == place, "another place than %" PRIu64, place);
        expect_refused(twin, size, 4);
    }
}

/* A pool full of runs of one class, all slots taken but for the last run's. */
static void put_class_everywhere(struct twin *twin, unsigned b)
{
    const struct size_class *row = &size_classes[b];

    pool_fresh(&twin->model, twin->model.c);
    for (size_t k = 0; k < twin->model.c; k++) {
        for (unsigned page = 1; page + row->pages <= PAGES; page += row->pages) {
            bool last = k == twin->model.c - 1 && page + 2 * row->pages > PAGES;
            struct pool_run *run = pool_put_class(&twin->model, k, page, b);
            for (unsigned s = 0; s < row->slots && !last; s++)
                pool_take_slot(&twin->model, k, run, s);
        }
    }
    twin_settle(twin);
}

/* From a fresh pool where that does not take too many calls. */
static void fill_with_class(unsigned b)
{
    const struct size_class *row = &size_classes[b];
    unsigned long slots = (unsigned long)(511 / row->pages) * row->slots;
    bool from_fresh = slots <= 10000;
    struct twin *twin = twin_new(1);

    if (!from_fresh)
        put_class_everywhere(twin, b);
    expect(fill_up(twin, row->size) == (from_fresh ? slots : row->slots), "class %u", b);
    expect(twin->model.live.count == slots, "class %u: live", b);
    give_back_and_take(twin, row->size);
    probe(twin);
    twin_free(twin);
}

static void fill_chunks_with_class(unsigned b, size_t c)
{
    struct twin *twin = twin_new(c);

    put_class_everywhere(twin, b);
    fill_up(twin, size_classes[b].size);
    give_back_and_take(twin, size_classes[b].size);
    probe(twin);
    twin_free(twin);
}

static void test_no_slots(void)
{
    group_begin("no-room", "each-class-in-one-chunk");
    for (unsigned b = 0; b < CLASSES; b++)
        fill_with_class(b);
    group_end();
    group_begin("no-room", "each-class-in-more-chunks");
    for (unsigned b = 0; b < CLASSES; b++) {
        fill_chunks_with_class(b, 2);
        fill_chunks_with_class(b, 3);
    }
    for (unsigned b = 0; b < CLASSES; b += 7)
        fill_chunks_with_class(b, 16);
    group_end();
}

static void fill_with_pages(size_t c, unsigned pages)
{
    struct twin *twin = twin_new(c);
    unsigned long runs = (unsigned long)c * (511 / pages);

    expect(fill_up(twin, pages * PAGE_BYTES) == runs, "c %zu: runs of %u pages", c, pages);
    give_back_and_take(twin, pages * PAGE_BYTES);
    expect_refused(twin, LARGEST + 1, 3);
    probe(twin);
    twin_free(twin);
}

static void test_no_pages(void)
{
    static const unsigned lengths[] = {
        1, 2, 3, 4, 5, 7, 13, 63, 64, 65, 127, 128, 170, 171, 255, 256, 257, 510, 511};
    static const size_t counts[] = {1, 2, 5, 16};

    group_begin("no-room", "large-runs");
    for (size_t n = 0; n < COUNT(counts); n++)
        for (size_t i = 0; i < COUNT(lengths); i++)
            if (counts[n] * 511 / lengths[i] < 3000)
                fill_with_pages(counts[n], lengths[i]);
    group_end();
}

/* ---- Sweeps ---------------------------------------------------------------------- */

/* What the library lists, in a room that the caller frees. */
static uint64_t *listed(const struct twin *twin)
{
    size_t words = 2 * twin->model.live.count;
    uint64_t *room = lent_room_new(words);

    expect(library_census(&twin->lent, room, words).refusal == 0, "census");
    return room;
}

/* "The census is the same before and after a sweep." Another sweep changes nothing. */
static void sweep_once_and_again(struct twin *twin)
{
    size_t words = 2 * twin->model.live.count;
    uint64_t *before = listed(twin), *after;
    uint64_t free_pages = pool_totals(&twin->model).free_pages;
    uint64_t gained = twin_sweep(twin);

    after = listed(twin);
    expect(memcmp(before, after, words * sizeof *before) == 0, "another census after a sweep");
    expect_totals(twin, twin->model.live.count, twin->model.live.bytes, free_pages + gained);
    expect_gain(twin, 0);
    lent_room_free(before, words);
    lent_room_free(after, words);
}

/* Three runs of a class, and of the middle one only this slot is taken: it alone stays. */
static void keep_slot(struct twin *twin, unsigned b, unsigned slot)
{
    unsigned pages = size_classes[b].pages;
    struct pool_run *middle;

    pool_fresh(&twin->model, 1);
    pool_put_class(&twin->model, 0, 1, b);
    middle = pool_put_class(&twin->model, 0, 1 + pages, b);
    pool_put_class(&twin->model, 0, 1 + 2 * pages, b);
    pool_take_slot(&twin->model, 0, middle, slot);
    twin_settle(twin);
    expect_gain(twin, 2 * pages);
    expect_size(twin, run_place(0, middle) + slot * size_classes[b].size, 0,
                size_classes[b].size);
}

static void test_kept_slots(void)
{
    struct twin *twin = twin_new(1);

    group_begin("sweep", "a-run-with-any-one-slot-stays");
    for (unsigned b = 0; b < CLASSES; b++)
        for (unsigned slot = 0; slot < size_classes[b].slots; slot++)
            keep_slot(twin, b, slot);
    group_end();
    twin_free(twin);
}

/* An empty run with these pages before and behind it taken: all of it goes, and no more. */
static void sweep_at(struct twin *twin, size_t chunk, unsigned first, unsigned b)
{
    unsigned pages = size_classes[b].pages, end = first + pages;

    pool_fresh(&twin->model, twin->model.c);
    if (first > 1)
        pool_put_large(&twin->model, chunk, 1, first - 1);
    pool_put_class(&twin->model, chunk, first, b);
    if (end + pages <= PAGES)
        pool_take_slot(&twin->model, chunk, pool_put_class(&twin->model, chunk, end, b), 0);
    twin_settle(twin);
    expect_gain(twin, pages);
}

static void test_sweep_at_every_page(void)
{
    struct twin *twin = twin_new(2);

    group_begin("sweep", "runs-at-every-page");
    for (unsigned b = 0; b < CLASSES; b++)
        for (unsigned first = 1; first + size_classes[b].pages <= PAGES; first++)
            sweep_at(twin, first % 2, first, b);
    group_end();
    twin_free(twin);
}

/* Every page of the pool is in an empty run of the class, but for those that no run fits into. */
static void sweep_whole_pool(struct twin *twin, unsigned b)
{
    struct recipe recipe = recipe_of_class(b, FILL_EMPTY);
    uint64_t c = twin->model.c, pages = 511 / size_classes[b].pages * size_classes[b].pages;

    twin_generate(twin, &recipe);
    expect_gain(twin, c * pages);
    expect_totals(twin, 0, 0, 511 * c);
    twin_generate(twin, &recipe);
    expect_served(twin, LARGEST, 4096, LARGEST);
    expect_totals(twin, 1, LARGEST, 511 * (c - 1));
}

static void test_sweep_each_class(void)
{
    group_begin("sweep", "pools-of-one-empty-class");
    for (size_t c = 1; c <= MAX_CHUNKS; c++) {
        struct twin *twin = twin_new(c);
        for (unsigned b = 0; b < CLASSES; b++)
            sweep_whole_pool(twin, b);
        twin_free(twin);
    }
    group_end();
}

/* Runs only, or also free pages in between. It is mostly the sweep that makes the gaps. */
static void generate_some_empty(struct twin *twin)
{
    struct recipe recipe = *recipe_named("classes-any-fill");

    recipe.large_share = rng_below(&rng, 2);
    recipe.large_max = 1 + rng_below(&rng, 60);
    recipe.free_share = rng_below(&rng, 4) == 0;
    twin_generate(twin, &recipe);
}

static void reserve_by_sweep(struct twin *twin)
{
    unsigned pages = 1 + rng_below(&rng, rng_below(&rng, 2) ? 12 : 511);
    uint64_t size = rng_below(&rng, 3) ? pages * PAGE_BYTES : draw_small_size();

    if (twin_reserve(twin, size).gained > 0)
        expect_gain(twin, 0); /* all are gone, not only those that were in the way */
}

static void test_sweep_and_search(void)
{
    group_begin("sweep", "gaps-among-empty-runs");
    memset(&answers, 0, sizeof answers);
    for (unsigned c = 1; c <= MAX_CHUNKS; c++) {
        struct twin *twin = twin_new(c);
        for (unsigned n = 0; n < 20 + 1200 / c; n++) {
            generate_some_empty(twin);
            reserve_by_sweep(twin);
        }
        twin_free(twin);
    }
    expect_least(answers.reserve_swept, 800, "served by a sweep");
    expect_least(answers.reserve_spared, 400, "that gained more than was taken");
    expect_least(answers.reserve_in_vain, 400, "refused in spite of empty runs");
    expect_least(answers.reserve_unswept, 400, "served beside empty runs");
    group_end();
}

static void test_sweeps(void)
{
    group_begin("sweep", "each-recipe-once-and-again");
    on_each_recipe(1, sweep_once_and_again);
    group_end();
    test_kept_slots();
    test_sweep_at_every_page();
    test_sweep_each_class();
    test_sweep_and_search();
}

/* ---- Long random series ---------------------------------------------------------- */

/* What the calls of a series are like. */
struct mix {
    const char *name;
    void (*start)(struct twin *twin, unsigned b); /* b: a class for the series */
    uint64_t (*size)(unsigned b);
    unsigned reserves, releases, resizes; /* of 100 calls; the others ask for block sizes */
    unsigned calls_a_sweep;      /* one sweep beside so many calls */
    unsigned rounds;             /* series for each count of chunks; the more, the shorter */
    bool tides;                  /* fill up, then drain, in turn */
};

static void start_fresh(struct twin *twin, unsigned b)
{
    (void)b;
    twin_fresh(twin);
}

/* Many chunks are full from the start, else a tide would never turn there. */
static void start_at_a_tide(struct twin *twin, unsigned b)
{
    if (twin->model.c <= 3 || rng_below(&rng, 3) == 0)
        start_fresh(twin, b);
    else
        twin_generate(twin, recipe_named("large-1-to-300"));
}

static void start_anyhow(struct twin *twin, unsigned b)
{
    if (rng_below(&rng, 2))
        start_fresh(twin, b);
    else
        twin_generate(twin, &recipes[rng_below(&rng, (unsigned)recipe_count)]);
}

/* Runs of one class only, or of it and free pages. */
static void start_with_class(struct twin *twin, unsigned b)
{
    struct recipe recipe = recipe_of_class(b, FILL_ANY);

    recipe.free_share = rng_below(&rng, 3);
    if (rng_below(&rng, 3) == 0)
        start_fresh(twin, b);
    else
        twin_generate(twin, &recipe);
}

/* Full or nearly so, then some blocks are given back at random. */
static void start_in_pieces(struct twin *twin, unsigned b)
{
    static const char *const names[] = {
        "large-1-to-20", "large-one-page", "large-1-to-300", "mixed", "stretches", "parade"};
    unsigned back = rng_below(&rng, 200);

    (void)b;
    twin_generate(twin, recipe_named(names[rng_below(&rng, COUNT(names))]));
    for (unsigned i = 0; i < back * twin->model.c; i++)
        pool_release(&twin->model, draw_live_place(&twin->model));
    twin_settle(twin);
}

/* Of some runs of slots, up to so many, one slot is taken. */
static void take_some_slots(struct pool *model, size_t chunk, unsigned most)
{
    const struct pool_chunk *runs = &model->chunks[chunk];

    for (unsigned i = rng_below(&rng, most + 1); i > 0; i--) {
        struct pool_run *run = runs->runs[rng_below(&rng, runs->count)];
        if (run->kind == RUN_CLASS && run->taken_count == 0)
            pool_take_slot(model, chunk, run,
                           rng_below(&rng, size_classes[run->class_number].slots));
    }
}

/* Nothing but runs, and most of these are empty: a morning of drops is over. */
static void start_after_drops(struct twin *twin, unsigned b)
{
    struct recipe recipe = *recipe_named("classes-empty");

    (void)b;
    recipe.large_share = rng_below(&rng, 2);
    recipe.large_max = 1 + rng_below(&rng, 200);
    twin_generate(twin, &recipe);
    for (size_t k = 0; k < twin->model.c; k++)
        take_some_slots(&twin->model, k, 8);
    twin_settle(twin);
}

/* Around the lengths of the gaps that there are. */
static uint64_t piece_size(unsigned b)
{
    if (rng_below(&rng, 4) == 0)
        return draw_size_of_class(16 + rng_below(&rng, 14));
    return rng_below(&rng, 8) ? draw_large_size(12) : draw_any_size(b);
}

/* Rows of all classes, and tables, for which the runs of dropped rows must go. */
static uint64_t row_or_table(unsigned b)
{
    (void)b;
    switch (rng_below(&rng, 6)) {
    case 0:
        return draw_large_size(511);
    case 1:
        return draw_large_size(30);
    default:
        return draw_small_size();
    }
}

static const struct mix mixes[] = {
    {"small-sizes", start_anyhow, draw_mostly_small, 50, 30, 10, 60, 4, false},
    {"all-sizes", start_anyhow, draw_any_size, 45, 35, 10, 60, 4, false},
    {"large-only", start_anyhow, draw_large_only, 43, 37, 10, 60, 4, false},
    {"fill-up-then-drain", start_at_a_tide, draw_filling, 75, 10, 5, 200, 4, true},
    {"one-class-only", start_with_class, draw_mostly_class, 45, 40, 5, 60, 4, false},
    {"fragmented", start_in_pieces, piece_size, 40, 40, 10, 60, 4, false},
    {"after-drops", start_after_drops, row_or_table, 40, 30, 20, 100, 120, false},
    {"resizes", start_anyhow, draw_any_size, 25, 15, 50, 60, 4, false},
};

/* A live place, one that was used lately, or one that may be anywhere. */
static uint64_t any_place(const struct twin *twin, const uint64_t recent[16])
{
    switch (rng_below(&rng, 16)) {
    case 0:
        return recent[rng_below(&rng, 16)];
    case 1:
    case 2:
    case 3:
    case 4:
    case 5:
        return draw_hostile_place(&twin->model);
    default:
        return draw_live_place(&twin->model);
    }
}

/* A census of many blocks takes long and is asked for less often. */
static void read_back(struct twin *twin, unsigned calls)
{
    unsigned a_census = twin->model.live.count <= 2000 ? 16 : 128;

    if (calls % 4 == 1)
        twin_next(twin, draw_next_place(&twin->model));
    if (calls % 16 == 2)
        twin_totals(twin);
    if (calls % a_census == 3)
        twin_census(twin, draw_room(&twin->model));
}

static void run_series(struct twin *twin, const struct mix *mix, unsigned b, unsigned calls)
{
    uint64_t recent[16] = {0};
    bool filling = true;

    mix->start(twin, b);
    for (unsigned i = 0; i < calls; i++) {
        unsigned pick = rng_below(&rng, 100);
        unsigned reserves = filling ? mix->reserves : mix->releases;
        uint64_t place = any_place(twin, recent), refusal = 0;
        if (pick < reserves) {
            struct pool_reserved answer = twin_reserve(twin, mix->size(b));
            refusal = answer.refusal;
            place = answer.place;
        } else if (pick < mix->reserves + mix->releases) {
            twin_release(twin, place);
        } else if (pick < mix->reserves + mix->releases + mix->resizes) {
            refusal = twin_resize(twin, place, draw_new_size(&twin->model, place)).refusal;
        } else {
            twin_block_size(twin, place);
        }
        if (rng_below(&rng, mix->calls_a_sweep) == 0)
            twin_sweep(twin);
        read_back(twin, i);
        recent[i % 16] = place;
        if (mix->tides)
            filling = next_tide(&twin->model, filling, refusal);
    }
}

/* All series of c chunks: the more chunks, the longer a call takes and the fewer are made. */
static unsigned calls_of(unsigned c)
{
    return 3600 + 22400 / c;
}

static void run_mix(const struct mix *mix)
{
    for (unsigned c = 1; c <= MAX_CHUNKS; c++) {
        struct twin *twin = twin_new(c);
        for (unsigned round = 0; round < mix->rounds; round++)
            run_series(twin, mix, (4 * c + round) % CLASSES, calls_of(c) / mix->rounds);
        twin_free(twin);
    }
}

/* Each mix is a group; answers how many calls they made. */
static unsigned long run_mixes(void)
{
    unsigned long calls = 0;

    for (size_t i = 0; i < COUNT(mixes); i++) {
        group_begin("random", mixes[i].name);
        run_mix(&mixes[i]);
        calls += group.trials;
        group_end();
    }
    return calls;
}

static void expect_enough_changes(void)
{
    expect_least(answers.reserve[0], 100000, "served");
    expect_least(answers.reserve[3], 2000, "too big");
    expect_least(answers.reserve[4], 2000, "without room");
    expect_least(answers.release[0], 100000, "released");
    expect_least(answers.release[5], 10000, "at no block");
    expect_least(answers.release[6], 2000, "at free slots");
    expect_least(answers.sweep[0], 5000, "sweeps");
    expect_least(answers.sweep[0] - answers.sweep_none, 1000, "that gained pages");
}

static void expect_enough_resizes(void)
{
    const struct resize_counts *resizes = &answers.resizes;

    expect_least(resizes->answers[0], 50000, "resized");
    expect_least(resizes->answers[3], 500, "to too big a size");
    expect_least(resizes->answers[4], 500, "without room");
    expect_least(resizes->answers[5], 5000, "at no block");
    expect_least(resizes->answers[6], 1000, "at free slots");
    expect_each_resize(resizes, 100);
}

/* Sweeps decide: what is served by them, what is not, and what needs none. */
static void expect_enough_sweeps(void)
{
    expect_least(answers.reserve_swept, 1000, "served by a sweep");
    expect_least(answers.reserve_spared, 500, "that gained more than was taken");
    expect_least(answers.reserve_in_vain, 1000, "refused in spite of empty runs");
    expect_least(answers.reserve_unswept, 10000, "served beside empty runs");
}

static void expect_enough_reads(void)
{
    expect_least(answers.block_size[0], 20000, "sizes");
    expect_least(answers.block_size[5], 4000, "sizes of no block");
    expect_least(answers.block_size[6], 1000, "sizes of free slots");
    expect_least(answers.next[0], 100000, "calls of next");
    expect_least(answers.next_none, 10000, "without a block");
    expect_least(answers.totals[0], 20000, "totals");
    expect_least(answers.census[0], 10000, "censuses");
    expect_least(answers.census[7], 6000, "in short rooms");
}

static void test_random_series(void)
{
    unsigned long calls;

    memset(&answers, 0, sizeof answers);
    calls = run_mixes();
    group_begin("random", "a-million-and-enough-of-each-answer");
    group.trials = calls;
    expect_least(calls, 1000000, "calls");
    expect_enough_changes();
    expect_enough_resizes();
    expect_enough_sweeps();
    expect_enough_reads();
    group_end();
}

static void test_long_series(unsigned long long least)
{
    unsigned long calls = 0;

    while (calls < least) {
        calls += run_mixes();
        printf("%lu calls\n", calls);
        fflush(stdout);
    }
}

/* ---- Places ------------------------------------------------------------------------ */

/* Each place of one chunk at which any slot could start, and some behind it. */
static void test_every_place(void)
{
    struct twin *twin = twin_new(1);

    twin_generate(twin, recipe_named("parade"));
    group_begin("place", "block-size-of-every-eighth-byte");
    for (uint64_t place = 0; place < CHUNK_BYTES + PAGE_BYTES; place += 8)
        twin_block_size(twin, place);
    group_end();
    group_begin("place", "block-size-of-odd-bytes");
    for (uint64_t place = 1; place < CHUNK_BYTES; place += 1 + rng_below(&rng, 64))
        twin_block_size(twin, place);
    group_end();
    group_begin("place", "release-of-every-eighth-byte");
    for (uint64_t place = 0; place < CHUNK_BYTES + PAGE_BYTES; place += 8)
        twin_release(twin, place);
    expect(twin->model.live.count == 0, "%lu blocks are left", twin->model.live.count);
    group_end();
    twin_free(twin);
}

static void expect_run_sizes(struct twin *twin, size_t chunk, const struct pool_run *run)
{
    const struct size_class *row = &size_classes[run->class_number];
    uint64_t place = run_place(chunk, run);

    if (run->kind == RUN_LARGE) {
        expect_size(twin, place, 0, run->pages * PAGE_BYTES);
        return;
    }
    for (unsigned s = 0; s < row->slots; s++)
        if (run->taken[s])
            expect_size(twin, place + s * row->size, 0, row->size);
}

/* All chunks of one pool, one run in so many. */
static void expect_sizes(struct twin *twin, unsigned step)
{
    for (size_t k = 0; k < twin->model.c; k++)
        for (unsigned i = (unsigned)k % step; i < twin->model.chunks[k].count; i += step)
            expect_run_sizes(twin, k, twin->model.chunks[k].runs[i]);
}

static void test_live_sizes(void)
{
    static const struct {
        size_t c;
        unsigned step;
    } efforts[] = {{1, 7}, {2, 31}, {3, 61}, {16, 501}};

    group_begin("place", "block-size-of-live-blocks");
    for (size_t n = 0; n < COUNT(efforts); n++) {
        struct twin *twin = twin_new(efforts[n].c);
        for (size_t i = 0; i < recipe_count; i++) {
            twin_generate(twin, &recipes[i]);
            expect_sizes(twin, recipes[i].class_share > 0 ? efforts[n].step : 1);
        }
        twin_free(twin);
    }
    group_end();
}

/* Places that must be refused, or named no block, on pools of each recipe. */
static void test_hostile_places(void)
{
    group_begin("place", "hostile");
    for (size_t c = 1; c <= MAX_CHUNKS; c += 3) {
        struct twin *twin = twin_new(c);
        for (size_t i = 0; i < recipe_count; i++) {
            twin_generate(twin, &recipes[i]);
            for (unsigned n = 0; n < 60; n++) {
                twin_block_size(twin, draw_hostile_place(&twin->model));
                twin_release(twin, draw_hostile_place(&twin->model));
            }
        }
        twin_free(twin);
    }
    group_end();
}

/* Each page 0, first and last byte, in pools that are full of one-page runs. */
static void test_page_0(void)
{
    static const uint64_t offsets[] = {0, 1, 8, 24, 2048, 4088, 4095};

    group_begin("place", "page-0-of-each-chunk");
    for (size_t c = 1; c <= MAX_CHUNKS; c++) {
        struct twin *twin = twin_new(c);
        twin_generate(twin, recipe_named("large-one-page"));
        for (size_t k = 0; k <= c; k++) {
            for (size_t i = 0; i < COUNT(offsets); i++) {
                expect_size(twin, k * CHUNK_BYTES + offsets[i], 5, 0);
                expect_release(twin, k * CHUNK_BYTES + offsets[i], 5);
            }
        }
        twin_free(twin);
    }
    group_end();
}

/* ---- Refusals 1 and 2 --------------------------------------------------------------- */

/* Nothing but the number, whatever reserve was asked for. */
static bool only_refused(const struct lensember_reserved *answer, uint64_t number)
{
    return answer->refusal == number && answer->place == 0 && answer->size == 0
        && answer->kind == LENSEMBER_NOTHING && answer->class_number == 0
        && answer->first_page == 0 && answer->slot == 0 && answer->pages == 0;
}

/* With sizes and places that alone would be served, or refused otherwise. */
static const uint64_t tried_sizes[] = {24, 3072, 5000, 2093057, UINT64_MAX};
static const uint64_t tried_places[] = {0, 4096, 4100, UINT64_C(1) << 25, UINT64_MAX};

static void expect_sweep_refuses(uint64_t number, uint64_t c, const struct records *r,
                                 struct lengths n)
{
    struct lensember_swept swept =
        lensember_sweep(c, r->bits, n.bits, r->words, n.words, r->slots, n.slots);

    expect(swept.refusal == number && swept.pages == 0,
           "sweep, c %" PRIu64 ": %" PRIu64 ", %" PRIu64 " pages", c, swept.refusal, swept.pages);
    group.trials++;
}

static void expect_calls_refuse(uint64_t number, uint64_t c, const struct records *r,
                                struct lengths n)
{
    for (size_t i = 0; i < COUNT(tried_sizes); i++) {
        struct lensember_reserved answer = lensember_reserve(
            c, r->bits, n.bits, r->words, n.words, r->slots, n.slots, tried_sizes[i]);
        expect(only_refused(&answer, number), "reserve %" PRIu64 ", c %" PRIu64 ": %" PRIu64,
               tried_sizes[i], c, answer.refusal);
    }
    for (size_t i = 0; i < COUNT(tried_places); i++) {
        uint64_t released = lensember_release(
            c, r->bits, n.bits, r->words, n.words, r->slots, n.slots, tried_places[i]);
        struct lensember_sized sized = lensember_block_size(
            c, r->bits, n.bits, r->words, n.words, r->slots, n.slots, tried_places[i]);
        expect(released == number, "release %" PRIu64 ", c %" PRIu64 ": %" PRIu64,
               tried_places[i], c, released);
        expect(sized.refusal == number && sized.size == 0,
               "block size of %" PRIu64 ", c %" PRIu64 ": %" PRIu64 " size %" PRIu64,
               tried_places[i], c, sized.refusal, sized.size);
    }
    group.trials += COUNT(tried_sizes) + 2 * COUNT(tried_places);
    expect_sweep_refuses(number, c, r, n);
    expect_resizes_refuse(number, c, r, n);
    expect_readers_refuse(number, c, r, n);
}

static void expect_shape_refused(uint64_t c, const struct records *r, struct lengths n)
{
    expect_calls_refuse(1, c, r, n);
}

/* A call on the damaged pool; a live block of the sound one is tried too. */
static void expect_damage_refused(const struct trial_pools *pools, size_t chunk, unsigned page,
                                  unsigned variant)
{
    static struct pool model;
    size_t c = pools->lent.c;
    uint64_t live;

    expect_calls_refuse(2, c, &pools->lent, exact_lengths(c));
    pool_read(&model, &pools->sound);
    live = draw_live_place(&model);
    expect(library_release(&pools->lent, live) == 2, "release of a live block");
    expect(library_resize(&pools->lent, live, 24).refusal == 2, "resize of a live block");
    expect(library_block_size(&pools->lent, live).refusal == 2, "block size of a live block");
    expect(library_next(&pools->lent, live).refusal == 2, "next from a live block");
    expect_census_refused(&pools->lent, 2, 2 * model.live.count);
    expect(lent_equal(&pools->lent, &pools->before),
           "c %zu chunk %zu page %u variant %u: a buffer was changed", c, chunk, page, variant);
    pool_end(&model);
}

static void test_damaged_records(void)
{
    static const struct effort efforts[] = {{1, 40, 4}, {2, 16, 4}, {16, 3, 2}};

    try_damage_cases("refused-2", efforts, COUNT(efforts), expect_damage_refused);
}

static void test_all(void)
{
    test_samples();
    test_one_gap();
    test_three_gaps();
    test_gap_at_chunk_end();
    test_no_slots();
    test_no_pages();
    test_sweeps();
    test_resizes();
    test_random_series();
    test_every_place();
    test_live_sizes();
    test_hostile_places();
    test_page_0();
    test_readers();
    try_bad_shapes(expect_shape_refused);
    test_damaged_records();
}

int main(int argc, char **argv)
{
    program_begin(argc, argv);
    if (argc > 2)
        test_long_series(strtoull(argv[2], NULL, 0));
    else
        test_all();
    return program_end("series");
}
