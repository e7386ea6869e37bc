/*
 * The library beside PHP's own memory manager, as Debian's libphp-embed has it.
 * Each request is put to a pool and to a heap of zend_alloc, and the answers
 * are compared where the rules (docs/RULES.md) are PHP's:
 *
 *   - the size given, for every request from 0 to 2,093,056 bytes;
 *   - the place of every run of pages, large runs and runs of slots alike, while
 *     blocks are reserved and released at random;
 *   - the place of every slot of a class of which none was released yet;
 *   - whether a block that gets another size is kept or moved, and its place then;
 *   - the pages that a sweep gains after drops, as long as no slot was taken again.
 *
 * Where the rules differ nothing is compared:
 *
 *   - of several free slots of a class PHP hands out the one freed last, this
 *     house the lowest. Both cut a new run only when there is none, so the runs
 *     lie alike all the same;
 *   - without room PHP takes a new chunk, and a pool sweeps or refuses with 4. A
 *     large run that got a chunk of its own this way counts as refused and is given
 *     back; a slot is not asked for then, since its run would stay, and no resize is;
 *   - a slot that gets just the size of the class below stays with PHP, and is moved
 *     by a pool, so no resize is to such a size;
 *   - PHP sweeps at its memory limit only. By then other runs are empty than the
 *     pool's, since other slots were taken again. So what a sweep gave the pool is
 *     undone and counts as refused; but after drops PHP is told to sweep too;
 *   - PHP never sweeps a run of class 0, so these drops have none;
 *   - a chunk without any run goes back to the system, after a sweep even the first
 *     one, without which a heap is lost, and a pool keeps its chunks. So one run is
 *     left alone in each of several chunks, and where PHP sweeps;
 *   - PHP moves a chunk forward when three others were searched before it for
 *     fewer than 8 pages. So four chunks and more are compared with 8 and more
 *     pages only;
 *   - above 2,093,056 bytes PHP serves whole chunks, and a pool refuses with 3.
 */
#include "calls.h"
#include "draws.h"
#include "groups.h"
#include "lent.h"

#include <inttypes.h>
#include <stdio.h>
#include <stdlib.h>
#include <string.h>

/* ---- PHP's heap --------------------------------------------------------------- */

/* From Zend/zend_alloc.h, for a build that is not for debugging. */
typedef struct _zend_mm_heap zend_mm_heap;
zend_mm_heap *zend_mm_startup(void);
void zend_mm_shutdown(zend_mm_heap *heap, bool full, bool silent);
void *_zend_mm_alloc(zend_mm_heap *heap, size_t size);
void *_zend_mm_realloc(zend_mm_heap *heap, void *block, size_t size);
void _zend_mm_free(zend_mm_heap *heap, void *block);
size_t _zend_mm_block_size(zend_mm_heap *heap, void *block);
size_t zend_mm_gc(zend_mm_heap *heap); /* a sweep: the bytes gained */

/* Chunks start at multiples of their size. */
static uintptr_t chunk_start(const void *block)
{
    return (uintptr_t)block / CHUNK_BYTES * CHUNK_BYTES;
}

/* ---- A pool and a heap, side by side -------------------------------------------- */

enum { MOST_PAIRS = 200000 };

/* One block, as each of the two calls it. */
struct pair {
    uint64_t place;
    void *block;
    unsigned class_number; /* CLASSES for a large run */
};

struct beside {
    struct records pool, before; /* and as it was before a reserve */
    bool both_sweep;             /* else the pool's sweeps are undone */
    zend_mm_heap *heap;
    uintptr_t chunks[MAX_CHUNKS]; /* of the heap, in the order in which it took them */
    size_t known;                 /* how many of these */
    unsigned long free_slots[CLASSES];
    bool released[CLASSES]; /* a slot of the class, ever */
    struct pair *pairs;
    size_t count;
};

static struct beside *beside_new(size_t c)
{
    struct beside *beside = calloc(1, sizeof *beside);

    if (beside != NULL)
        beside->pairs = malloc(MOST_PAIRS * sizeof *beside->pairs);
    if (beside == NULL || beside->pairs == NULL) {
        perror("php");
        exit(2);
    }
    beside->pool = lent_new(c);
    beside->before = lent_new(c);
    library_fresh(&beside->pool);
    beside->heap = zend_mm_startup();
    return beside;
}

static void beside_free(struct beside *beside)
{
    zend_mm_shutdown(beside->heap, true, true);
    lent_free(&beside->pool);
    lent_free(&beside->before);
    free(beside->pairs);
    free(beside);
}

/* The place of a block of the heap, or 0 where it lies in none of its chunks. */
static uint64_t place_of(const struct beside *beside, const void *block)
{
    for (size_t k = 0; k < beside->known; k++)
        if (beside->chunks[k] == chunk_start(block))
            return k * CHUNK_BYTES + ((uintptr_t)block - beside->chunks[k]);
    return 0;
}

/* A chunk of the heap that was not seen before is the pool's next one. */
static void meet_chunk(struct beside *beside, const void *block)
{
    if (place_of(beside, block) == 0 && beside->known < beside->pool.c)
        beside->chunks[beside->known++] = chunk_start(block);
}

static void keep_pair(struct beside *beside, uint64_t place, void *block, unsigned class_number)
{
    struct pair pair = {place, block, class_number};

    if (beside->count == MOST_PAIRS) {
        fprintf(stderr, "php: too many blocks\n");
        exit(2);
    }
    beside->pairs[beside->count++] = pair;
}

/* ---- Calls on both ---------------------------------------------------------------- */

static void compare_sizes(struct beside *beside, uint64_t size, uint64_t given, void *block)
{
    size_t theirs = _zend_mm_block_size(beside->heap, block);

    expect(given == theirs, "%" PRIu64 " bytes: size %" PRIu64 ", PHP's is %zu", size, given,
           theirs);
}

static void compare_places(struct beside *beside, uint64_t size, uint64_t place, void *block)
{
    uint64_t theirs = place_of(beside, block);

    expect(place == theirs, "c %zu, %" PRIu64 " bytes: place %" PRIu64 ", PHP's is %" PRIu64,
           beside->pool.c, size, place, theirs);
}

/* Pages of the runs of slots that were there before, and are no more. */
static uint64_t swept_pages(const struct beside *beside)
{
    uint64_t pages = 0;

    for (size_t g = 0; g < beside->pool.c * PAGES; g++) {
        uint32_t b = beside->before.words[g] - WORD_CLASS(0);
        if (b < CLASSES && beside->pool.words[g] != beside->before.words[g])
            pages += size_classes[b].pages;
    }
    return pages;
}

static unsigned long sweeps; /* that gained pages on both sides, of the group under way */

static void compare_sweeps(struct beside *beside, uint64_t pages)
{
    size_t theirs = zend_mm_gc(beside->heap);

    expect(pages * PAGE_BYTES == theirs, "c %zu: a sweep gains %" PRIu64 " pages, PHP's %zu bytes",
           beside->pool.c, pages, theirs);
    sweeps += pages > 0;
}

/* A reserve of the pool. One that had to sweep counts as refused, or PHP sweeps too. */
static struct lensember_reserved reserve_ours(struct beside *beside, uint64_t size)
{
    static const struct lensember_reserved refused = {.refusal = LENSEMBER_NO_ROOM};
    struct lensember_reserved ours;
    uint64_t pages;

    lent_copy(&beside->before, &beside->pool);
    ours = library_reserve(&beside->pool, size);
    pages = swept_pages(beside);
    if (pages == 0)
        return ours;
    if (beside->both_sweep) {
        compare_sweeps(beside, pages);
        return ours;
    }
    lent_copy(&beside->pool, &beside->before);
    return refused;
}

/* A slot's place is compared where the run is new, or none was ever released. */
static void compare_slots(struct beside *beside, uint64_t size, uint64_t place, void *block,
                          unsigned b)
{
    if (beside->free_slots[b] == 0 || !beside->released[b])
        compare_places(beside, size, place, block);
    if (beside->free_slots[b] == 0)
        beside->free_slots[b] = size_classes[b].slots;
    beside->free_slots[b]--;
}

static void note_release(struct beside *beside, unsigned class_number)
{
    if (class_number == CLASSES)
        return;
    beside->free_slots[class_number]++;
    beside->released[class_number] = true;
}

static void reserve_slot(struct beside *beside, uint64_t size)
{
    struct lensember_reserved ours = reserve_ours(beside, size);
    unsigned b = (unsigned)ours.class_number;
    void *theirs;

    if (ours.refusal != 0) {
        expect(ours.refusal == 4, "%" PRIu64 " bytes: %" PRIu64, size, ours.refusal);
        return;
    }
    theirs = _zend_mm_alloc(beside->heap, size);
    meet_chunk(beside, theirs);
    compare_sizes(beside, size, ours.size, theirs);
    compare_slots(beside, size, ours.place, theirs, b);
    keep_pair(beside, ours.place, theirs, b);
}

static unsigned long without_room; /* large runs of the group under way */

/* Without room PHP's block lies in a chunk more, which is none of the pool's. */
static void reserve_run(struct beside *beside, uint64_t size)
{
    struct lensember_reserved ours = reserve_ours(beside, size);
    void *theirs = _zend_mm_alloc(beside->heap, size);

    meet_chunk(beside, theirs);
    compare_places(beside, size, ours.place, theirs);
    if (ours.refusal == 0) {
        compare_sizes(beside, size, ours.size, theirs);
        keep_pair(beside, ours.place, theirs, CLASSES);
    } else {
        expect(ours.refusal == 4, "%" PRIu64 " bytes: %" PRIu64, size, ours.refusal);
        _zend_mm_free(beside->heap, theirs);
        without_room++;
    }
}

static void reserve(struct beside *beside, uint64_t size)
{
    group.trials++;
    if (size <= LARGEST_SMALL)
        reserve_slot(beside, size);
    else
        reserve_run(beside, size);
}

static void release(struct beside *beside, size_t number)
{
    struct pair pair = beside->pairs[number];
    uint64_t answer = library_release(&beside->pool, pair.place);

    group.trials++;
    expect(answer == 0, "release %" PRIu64 ": %" PRIu64, pair.place, answer);
    _zend_mm_free(beside->heap, pair.block);
    beside->pairs[number] = beside->pairs[--beside->count];
    note_release(beside, pair.class_number);
}

/* A resize of the pool; one that had to sweep counts as refused. */
static struct lensember_resized resize_ours(struct beside *beside, uint64_t place, uint64_t size)
{
    static const struct lensember_resized refused = {.refusal = LENSEMBER_NO_ROOM};
    struct lensember_resized ours;

    lent_copy(&beside->before, &beside->pool);
    ours = library_resize(&beside->pool, place, size);
    if (swept_pages(beside) == 0)
        return ours;
    lent_copy(&beside->pool, &beside->before);
    return refused;
}

/* The block that a moved one has now; the old one is given back behind it. */
static void move_pair(struct beside *beside, struct pair *pair, uint64_t size, uint64_t place,
                      void *block)
{
    unsigned from = pair->class_number;

    pair->place = place;
    pair->block = block;
    pair->class_number = size <= LARGEST_SMALL ? class_of_size(size) : CLASSES;
    if (pair->class_number < CLASSES)
        compare_slots(beside, size, place, block, pair->class_number);
    else
        compare_places(beside, size, place, block);
    note_release(beside, from);
}

static unsigned long kept, moved; /* blocks of the group under way */

static bool is_size_below(const struct pair *pair, uint64_t size)
{
    unsigned b = pair->class_number;

    return b > 0 && b < CLASSES && size == size_classes[b - 1].size;
}

static void resize(struct beside *beside, size_t number, uint64_t size)
{
    struct pair *pair = &beside->pairs[number];
    struct lensember_resized ours;
    bool stays;
    void *theirs;

    if (is_size_below(pair, size))
        return;
    group.trials++;
    ours = resize_ours(beside, pair->place, size);
    if (ours.refusal != 0) {
        expect(ours.refusal == 4, "resize to %" PRIu64 " bytes: %" PRIu64, size, ours.refusal);
        return;
    }
    theirs = _zend_mm_realloc(beside->heap, pair->block, size);
    stays = theirs == pair->block;
    meet_chunk(beside, theirs);
    compare_sizes(beside, size, ours.size, theirs);
    expect((ours.how == LENSEMBER_KEPT) == stays, "%" PRIu64 " to %" PRIu64 " bytes: PHP %s it",
           pair->place, size, stays ? "keeps" : "moves");
    if (!stays)
        move_pair(beside, pair, size, ours.place, theirs);
    kept += stays;
    moved += !stays;
}

/* ---- Sizes ------------------------------------------------------------------------- */

static void test_sizes(void)
{
    struct beside *beside = beside_new(1);

    group_begin("php", "size-of-every-request-to-3072");
    for (uint64_t size = 0; size <= LARGEST_SMALL; size++) {
        reserve(beside, size);
        release(beside, beside->count - 1);
    }
    group_end();
    beside_free(beside);

    beside = beside_new(1);
    group_begin("php", "size-of-every-request-to-2093056");
    for (uint64_t size = LARGEST_SMALL + 1; size <= LARGEST; size++) {
        reserve(beside, size);
        release(beside, beside->count - 1);
    }
    group_end();
    beside_free(beside);
}

/* ---- Slots -------------------------------------------------------------------------- */

/* Requests of all classes in any order until the chunk is full. */
static void test_slots(void)
{
    group_begin("php", "slots-before-any-release");
    for (unsigned round = 0; round < 20; round++) {
        struct beside *beside = beside_new(1);
        for (unsigned i = 0; i < 20000; i++)
            reserve(beside, draw_small_size());
        beside_free(beside);
    }
    group_end();
}

/* From each class to each size that a slot serves, and one more. */
static void test_resized_slots(void)
{
    struct beside *beside = beside_new(1);

    group_begin("php", "slots-of-each-class-to-every-size-to-3073");
    for (unsigned b = 0; b < CLASSES; b++) {
        for (uint64_t size = 0; size <= LARGEST_SMALL + 1; size++) {
            reserve(beside, size_classes[b].size);
            resize(beside, beside->count - 1, size);
            release(beside, beside->count - 1);
        }
    }
    group_end();
    beside_free(beside);
}

/* ---- Runs of pages ------------------------------------------------------------------ */

/* In each chunk a run of 8 pages that is never released; the others are free. */
static void leave_one_run_a_chunk(struct beside *beside)
{
    size_t alone = 0;

    for (size_t k = 0; k < beside->pool.c; k++) {
        unsigned before = 8 + rng_below(&rng, 488);
        reserve(beside, before * PAGE_BYTES);
        reserve(beside, 8 * PAGE_BYTES);
        reserve(beside, (503 - before) * PAGE_BYTES);
    }
    while (alone < beside->count) {
        if (_zend_mm_block_size(beside->heap, beside->pairs[alone].block) == 8 * PAGE_BYTES)
            alone++;
        else
            release(beside, alone);
    }
}

/* What is reserved. */
struct run_series {
    const char *name;
    size_t c;
    unsigned least_pages, most_pages; /* of a large run */
    bool slots;                       /* slots too */
};

static uint64_t draw_size(const struct run_series *series)
{
    uint64_t pages = series->least_pages
                   + rng_below(&rng, series->most_pages - series->least_pages + 1);

    if (series->slots && rng_below(&rng, 2))
        return draw_small_size();
    return pages == 1 ? PAGE_BYTES : pages * PAGE_BYTES - rng_below(&rng, 4096);
}

/* Now more is reserved, now more released, so that chunks are full and nearly empty. */
static void run_series(const struct run_series *series, unsigned calls)
{
    struct beside *beside = beside_new(series->c);
    size_t alone;

    if (series->c > 1)
        leave_one_run_a_chunk(beside);
    alone = beside->count;
    for (unsigned i = 0; i < calls; i++) {
        unsigned reserves = i / 1500 % 2 == 0 ? 65 : 35, pick = rng_below(&rng, 120);
        unsigned others = (unsigned)(beside->count - alone);
        if (pick < reserves)
            reserve(beside, draw_size(series));
        else if (others > 0 && pick < 100)
            release(beside, alone + rng_below(&rng, others));
        else if (others > 0)
            resize(beside, alone + rng_below(&rng, others), draw_size(series));
    }
    beside_free(beside);
}

static const struct run_series all_series[] = {
    {"runs-in-1-chunk", 1, 1, 12, false},
    {"runs-of-any-length-in-1-chunk", 1, 1, 511, false},
    {"runs-and-slots-in-1-chunk", 1, 1, 12, true},
    {"runs-in-2-chunks", 2, 1, 40, false},
    {"runs-and-slots-in-2-chunks", 2, 1, 12, true},
    {"runs-in-3-chunks", 3, 1, 80, false},
    {"runs-and-slots-in-3-chunks", 3, 1, 12, true},
    {"runs-of-8-and-more-in-4-chunks", 4, 8, 60, false},
    {"runs-of-8-and-more-in-16-chunks", 16, 8, 200, false},
};

static void test_runs(void)
{
    for (size_t i = 0; i < COUNT(all_series); i++) {
        group_begin("php", all_series[i].name);
        without_room = kept = moved = 0;
        for (unsigned round = 0; round < 20; round++)
            run_series(&all_series[i], 12000);
        expect_least(without_room, 100, "runs without room");
        expect_least(kept, 2000, "kept");
        expect_least(moved, 1000, "moved");
        group_end();
    }
}

/* ---- Sweeps -------------------------------------------------------------------------- */

/* PHP counts free slots in 9 bits, so it never takes 512 of them for an empty run. */
static uint64_t draw_size_above_class_0(void)
{
    uint64_t size = rng_below(&rng, 8) ? draw_small_size() : draw_large_size(12);

    return size > size_classes[0].size ? size : size_classes[1].size;
}

/* Blocks are reserved, then nearly all dropped: the same runs are empty on both sides. */
static void drop_blocks(struct beside *beside)
{
    size_t alone = beside->count, kept;

    for (unsigned i = rng_below(&rng, 600); i > 0; i--)
        reserve(beside, draw_size_above_class_0());
    kept = alone + rng_below(&rng, 12);
    while (beside->count > kept)
        release(beside, alone + rng_below(&rng, (unsigned)(beside->count - alone)));
}

/* Then come tables for which there is no room but by a sweep, and a sweep of its own. */
static void run_morning(size_t c)
{
    struct beside *beside = beside_new(c);

    leave_one_run_a_chunk(beside);
    drop_blocks(beside);
    beside->both_sweep = true;
    if (rng_below(&rng, 4) == 0)
        compare_sweeps(beside, library_sweep(&beside->pool).pages);
    for (unsigned i = 0; i < 20; i++)
        reserve(beside, draw_large_size(rng_below(&rng, 2) ? 40 : 500));
    compare_sweeps(beside, library_sweep(&beside->pool).pages);
    beside_free(beside);
}

static void test_sweeps(void)
{
    group_begin("php", "sweeps-after-drops");
    sweeps = 0;
    for (unsigned round = 0; round < 600; round++)
        run_morning(1 + round % 3);
    expect_least(sweeps, 300, "sweeps that gain pages");
    group_end();
}

int main(int argc, char **argv)
{
    program_begin(argc, argv);
    test_sizes();
    test_slots();
    test_resized_slots();
    test_runs();
    test_sweeps();
    printf("compared: sizes given; places of page runs and runs of slots; places of slots of\n"
           "classes of which none was released; what a sweep after drops gains; which blocks a\n"
           "resize keeps. Not compared, since the rules differ: which of several free slots is\n"
           "given, and so which runs are empty later; what is done without room or with an empty\n"
           "chunk; the order of four chunks and more for fewer than 8 pages; a slot that gets\n"
           "the size of the class below; requests above 2093056\n");
    return program_end("php");
}
