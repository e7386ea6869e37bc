#include "draws.h"

#include "random.h"

static uint64_t below(uint64_t limit)
{
    return rng_next(&rng) % limit;
}

/* ---- Sizes ----------------------------------------------------------------- */

uint64_t draw_size_of_class(unsigned b)
{
    uint64_t low = b == 0 ? 0 : size_classes[b - 1].size + 1;
    uint64_t high = size_classes[b].size;

    switch (below(4)) {
    case 0:
        return low;
    case 1:
        return high;
    default:
        return low + below(high - low + 1);
    }
}

uint64_t draw_small_size(void)
{
    if (below(3) == 0)
        return below(LARGEST_SMALL + 1);
    return draw_size_of_class((unsigned)below(CLASSES));
}

/* All bytes of the pages, one byte of the last one, all but one, or anything between. */
static uint64_t size_in_pages(uint64_t pages)
{
    uint64_t size = PAGE_BYTES * pages;

    switch (below(4)) {
    case 0:
        break;
    case 1:
        size -= PAGE_BYTES - 1;
        break;
    case 2:
        size -= 1;
        break;
    default:
        size -= below(PAGE_BYTES);
    }
    return size > LARGEST_SMALL ? size : LARGEST_SMALL + 1;
}

uint64_t draw_large_size(unsigned most_pages)
{
    return size_in_pages(1 + below(most_pages));
}

uint64_t draw_hostile_size(void)
{
    static const uint64_t sizes[] = {
        0, 1, 7, 8, 9, 3071, 3072, 3073, 4095, 4096, 4097,
        2093055, 2093056, 2093057, 2097151, 2097152, 2097153,
        UINT64_C(0x7FFFFFFF), UINT64_C(0x80000000), UINT64_C(0xFFFFFFFF),
        UINT64_C(1) << 32, (UINT64_C(1) << 32) + 24, (UINT64_C(1) << 32) + 5000,
        UINT64_C(1) << 44, (UINT64_C(1) << 44) + 4096,
        UINT64_C(1) << 63, (UINT64_C(1) << 63) + 24,
        UINT64_MAX - 4095, UINT64_MAX - 4094, UINT64_MAX - 1, UINT64_MAX,
    };

    if (below(4) == 0)
        return rng_next(&rng) >> below(64);
    return sizes[below(COUNT(sizes))];
}

uint64_t draw_mostly_small(unsigned b)
{
    (void)b;
    return rng_below(&rng, 64) ? draw_small_size() : draw_hostile_size();
}

uint64_t draw_any_size(unsigned b)
{
    switch (rng_below(&rng, 8)) {
    case 0:
        return draw_hostile_size();
    case 1:
        return draw_large_size(511);
    case 2:
    case 3:
        return draw_large_size(40);
    default:
        return draw_mostly_small(b);
    }
}

uint64_t draw_large_only(unsigned b)
{
    static const unsigned most[] = {3, 10, 70, 140, 511};

    (void)b;
    return draw_large_size(most[rng_below(&rng, COUNT(most))]);
}

uint64_t draw_filling(unsigned b)
{
    (void)b;
    return rng_below(&rng, 2) ? draw_size_of_class(20 + rng_below(&rng, 10)) : draw_large_size(30);
}

/* A tide turns when there is no room, or next to nothing is left. */
bool next_tide(const struct pool *pool, bool filling, uint64_t refusal)
{
    if (filling)
        return refusal != 4;
    return pool->live.count < 4;
}

uint64_t draw_mostly_class(unsigned b)
{
    return rng_below(&rng, 64) ? draw_size_of_class(b) : draw_any_size(b);
}

/* Of the slot's class, or up to two classes away. */
static uint64_t near_slot(uint64_t size)
{
    unsigned b = class_of_size(size) + (unsigned)below(5);

    b = b < 2 ? 0 : b - 2;
    return draw_size_of_class(b < CLASSES ? b : CLASSES - 1);
}

/* Few pages more or fewer, around 64 of them, or up to what stands behind the run, and one more. */
static uint64_t near_run(uint64_t pages, uint64_t most)
{
    static const unsigned steps[] = {0, 1, 2, 3, 63, 64, 65};
    unsigned step = steps[below(COUNT(steps))];

    switch (below(4)) {
    case 0:
        pages = most + below(2);
        break;
    case 1:
        pages = pages > step ? pages - step : 1;
        break;
    default:
        pages += step;
    }
    return size_in_pages(pages < PAGES ? pages : PAGES - 1);
}

uint64_t draw_new_size(const struct pool *pool, uint64_t place)
{
    uint64_t size = pool_block_size(pool, place).size;

    if (below(4) == 0)
        return draw_any_size(0);
    if (size <= LARGEST_SMALL)
        return near_slot(size);
    return near_run(size / PAGE_BYTES, pool_most_pages(pool, place));
}

/* ---- Places ------------------------------------------------------------------ */

/* A run of the pool and where it starts. */
struct spot {
    const struct pool_run *run; /* null where no run was found */
    uint64_t place;
};

static uint64_t any_chunk_start(const struct pool *pool)
{
    return below(pool->c) * CHUNK_BYTES;
}

/* From a random chunk on, the first one with runs; of these any. */
static struct spot any_run(const struct pool *pool)
{
    struct spot spot = {NULL, 0};
    size_t start = (size_t)below(pool->c);

    for (size_t i = 0; i < pool->c; i++) {
        size_t k = (start + i) % pool->c;
        unsigned count = pool->chunks[k].count;
        if (count == 0)
            continue;
        spot.run = pool->chunks[k].runs[below(count)];
        spot.place = run_place(k, spot.run);
        return spot;
    }
    return spot;
}

/* Some runs are looked at for one that fits. */
static struct spot any_run_with(const struct pool *pool, bool (*fits)(const struct pool_run *))
{
    struct spot spot = any_run(pool);

    for (unsigned i = 0; i < 20 && spot.run != NULL && !fits(spot.run); i++)
        spot = any_run(pool);
    if (spot.run != NULL && !fits(spot.run))
        spot.run = NULL;
    return spot;
}

static bool is_live(const struct pool_run *run)
{
    return run->kind == RUN_LARGE || run->taken_count > 0;
}

static bool is_class(const struct pool_run *run)
{
    return run->kind == RUN_CLASS;
}

static bool is_long_class(const struct pool_run *run)
{
    return is_class(run) && run->pages > 1;
}

static bool is_long_large(const struct pool_run *run)
{
    return !is_class(run) && run->pages > 1;
}

/* From a random slot on, the first one that is taken. */
static uint64_t taken_slot(const struct pool_run *run)
{
    unsigned slots = size_classes[run->class_number].slots;
    unsigned s = (unsigned)below(slots);

    while (!run->taken[s])
        s = (s + 1) % slots;
    return s;
}

uint64_t draw_live_place(const struct pool *pool)
{
    struct spot spot = any_run_with(pool, is_live);

    if (spot.run == NULL)
        return 0;
    if (spot.run->kind == RUN_LARGE)
        return spot.place;
    return spot.place + taken_slot(spot.run) * size_classes[spot.run->class_number].size;
}

/* A slot of a class run, free or taken. */
static uint64_t at_slot(const struct pool *pool)
{
    struct spot spot = any_run_with(pool, is_class);

    if (spot.run == NULL)
        return any_chunk_start(pool);
    return spot.place + below(size_classes[spot.run->class_number].slots)
                            * size_classes[spot.run->class_number].size;
}

static uint64_t near_live(const struct pool *pool)
{
    static const uint64_t steps[] = {1, 2, 4, 7, 8, 16, 24, 64, 2048, 4095, 4096, 4097};
    uint64_t step = steps[below(COUNT(steps))];

    return draw_live_place(pool) + (below(2) ? step : -step);
}

static uint64_t inside_run(const struct pool *pool)
{
    struct spot spot = any_run(pool);

    if (spot.run == NULL)
        return below(pool->c * CHUNK_BYTES);
    return spot.place + below(spot.run->pages * PAGE_BYTES);
}

static uint64_t inside_slot(const struct pool *pool)
{
    return at_slot(pool) + 8 * (1 + below(12));
}

/*
 * RULES 12.4, "Slips that look right": a page of a run of several pages, and
 * a whole number of slots behind the page's start, not the run's.
 */
static uint64_t page_of_class_run(const struct pool *pool)
{
    struct spot spot = any_run_with(pool, is_long_class);
    uint64_t place, size;

    if (spot.run == NULL)
        return at_slot(pool);
    place = spot.place + below(spot.run->pages) * PAGE_BYTES;
    size = size_classes[spot.run->class_number].size;
    return below(2) ? place : place + size * below(PAGE_BYTES / size + 1);
}

static uint64_t page_of_large_run(const struct pool *pool)
{
    struct spot spot = any_run_with(pool, is_long_large);

    if (spot.run == NULL)
        return any_chunk_start(pool);
    return spot.place + (1 + below(spot.run->pages - 1)) * PAGE_BYTES;
}

static uint64_t behind_last_slot(const struct pool *pool)
{
    struct spot spot = any_run_with(pool, is_class);
    uint64_t size, end;

    if (spot.run == NULL)
        return any_chunk_start(pool);
    size = size_classes[spot.run->class_number].size;
    end = spot.place + size * size_classes[spot.run->class_number].slots;
    switch (below(3)) {
    case 0:
        return end;
    case 1:
        return end + size;
    default:
        return spot.place + PAGE_BYTES * spot.run->pages - 8;
    }
}

static uint64_t in_page_0(const struct pool *pool)
{
    return any_chunk_start(pool) + (below(2) ? 0 : below(PAGE_BYTES));
}

/* Free or not: right behind a run there is often a free page. */
static uint64_t behind_run(const struct pool *pool)
{
    struct spot spot = any_run(pool);

    if (spot.run == NULL)
        return any_chunk_start(pool) + PAGE_BYTES;
    return spot.place + (spot.run->pages + below(3)) * PAGE_BYTES + (below(2) ? 0 : 8 * below(512));
}

static uint64_t any_page(const struct pool *pool)
{
    return below(pool->c * PAGES) * PAGE_BYTES;
}

static uint64_t any_in_pool(const struct pool *pool)
{
    return below(pool->c * CHUNK_BYTES);
}

static uint64_t behind_pool(const struct pool *pool)
{
    uint64_t end = pool->c * CHUNK_BYTES;

    switch (below(4)) {
    case 0:
        return end;
    case 1:
        return end + PAGE_BYTES * below(2 * PAGES);
    case 2:
        return end - 1 - below(16);
    default:
        return end + draw_live_place(pool);
    }
}

/* A live place, if the high half or only some high bits are dropped. */
static uint64_t far_outside(const struct pool *pool)
{
    return draw_live_place(pool) + (UINT64_C(1) << (25 + below(39)));
}

static uint64_t any_number(const struct pool *pool)
{
    (void)pool;
    return rng_next(&rng) >> below(64);
}

static uint64_t (*const hostile_places[])(const struct pool *) = {
    at_slot,           at_slot,          near_live,   inside_run,  inside_slot,
    page_of_class_run, page_of_class_run, page_of_large_run, behind_last_slot,
    in_page_0,         behind_run,       any_page,    any_in_pool, behind_pool,
    far_outside,       any_number,
};

uint64_t draw_hostile_place(const struct pool *pool)
{
    return hostile_places[below(COUNT(hostile_places))](pool);
}

/* Around the start of a chunk, the end of the pool among them. */
static uint64_t chunk_edge(const struct pool *pool)
{
    static const uint64_t steps[] = {0, 1, 8, PAGE_BYTES - 1, PAGE_BYTES, PAGE_BYTES + 1};
    uint64_t start = below(pool->c + 1) * CHUNK_BYTES;
    uint64_t step = steps[below(COUNT(steps))];

    return below(2) ? start + step : start - step;
}

uint64_t draw_next_place(const struct pool *pool)
{
    switch (below(10)) {
    case 0:
        return below(3) ? 0 : UINT64_MAX;
    case 1:
    case 2:
        return draw_live_place(pool);
    case 3:
        return draw_live_place(pool) + 1;
    case 4:
        return draw_live_place(pool) - 1;
    case 5:
        return chunk_edge(pool);
    default:
        return draw_hostile_place(pool);
    }
}

size_t draw_room(const struct pool *pool)
{
    size_t exact = 2 * pool->live.count;

    switch (below(8)) {
    case 0:
        return exact + 1;
    case 1:
        return exact + below(40);
    case 2:
        return exact > 0 ? exact - 1 : 0;
    case 3:
        return exact > 0 ? exact - 2 : 0;
    case 4:
        return below(exact + 1);
    case 5:
        return 0;
    default:
        return exact;
    }
}
