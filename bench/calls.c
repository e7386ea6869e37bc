/*
 * How long do the calls on an existing pool take, against one plain OR over
 * the same records? How it is timed: timing.h.
 *
 * Every call reads all records, for the check.
 */
#include "lensember_arena.h"
#include "recipes.h"
#include "timing.h"

#include <stdio.h>
#include <stdlib.h>
#include <string.h>

enum { ROW = 24, TABLE = 5000, LARGEST_TABLE = 2093056 };

/* The pool is filled by these in turn. */
static const uint64_t sizes[] = {
    200000, 320, TABLE, 1000, ROW, 3000, 40000, TABLE, 64, 1792, TABLE, 3073, ROW};

/* The blocks of the pool, in the order in which they were reserved. */
static struct lensember_reserved blocks[MAX_CHUNKS * 4000];
static size_t count;

/* Where a census lists them. */
static uint64_t room[2 * MAX_CHUNKS * 4000];

/* Blocks whose size is asked for, or that get another one, and the highest place of a block. */
static struct lensember_reserved row, table;
static uint64_t last;

/* A large run with a free page right behind it. */
static struct lensember_reserved open_run;

static struct lensember_reserved reserve(size_t c, uint64_t size)
{
    return lensember_pool_reserve(pool_of(c), size);
}

static uint64_t release(size_t c, uint64_t place)
{
    return lensember_pool_release(pool_of(c), place);
}

static void must(uint64_t answer, const char *what)
{
    if (answer != LENSEMBER_OK) {
        fprintf(stderr, "calls: %s is not answered 0\n", what);
        exit(2);
    }
}

/* ---- Pools --------------------------------------------------------------- */

static bool put(size_t c, uint64_t size)
{
    if (count == sizeof blocks / sizeof blocks[0])
        return false;
    blocks[count] = reserve(c, size);
    if (blocks[count].refusal != LENSEMBER_OK)
        return false;
    count++;
    return true;
}

/* Gives back the block reserved last of this given size; there is one. */
static void take_out_last(size_t c, uint64_t given)
{
    size_t i = count - 1;

    while (blocks[i].size != given)
        i--;
    must(release(c, blocks[i].place), "release");
    blocks[i] = blocks[--count];
}

static bool is_open(const struct lensember_reserved *block)
{
    uint64_t behind = block->place / 4096 + block->pages;

    return block->kind == LENSEMBER_RUN && behind % PAGES != 0
        && !(bits[behind / 64] >> behind % 64 & 1);
}

/* Takes the block in place of one that lies lower, where it is of this kind. */
static void choose(struct lensember_reserved *chosen, const struct lensember_reserved *block,
                   bool fits)
{
    if (fits && block->place > chosen->place)
        *chosen = *block;
}

/* Of each kind the one with the highest place. */
static void choose_blocks(void)
{
    static const struct lensember_reserved none;

    row = table = open_run = none;
    last = 0;
    for (size_t i = 0; i < count; i++) {
        choose(&row, &blocks[i], blocks[i].size == ROW);
        choose(&table, &blocks[i], blocks[i].size == 8192);
        choose(&open_run, &blocks[i], is_open(&blocks[i]));
        if (blocks[i].place > last)
            last = blocks[i].place;
    }
}

/* One row and one table only. */
static void make_fresh(size_t c)
{
    count = 0;
    must(lensember_pool_fresh(pool_of(c)), "fresh");
    put(c, ROW);
    put(c, TABLE);
}

/* Full, but for one row and one table, which are timed. */
static void make_full(size_t c)
{
    bool served = true;

    make_fresh(c);
    while (served) {
        served = false;
        for (size_t i = 0; i < sizeof sizes / sizeof sizes[0]; i++)
            served = put(c, sizes[i]) || served;
    }
    take_out_last(c, ROW);
    take_out_last(c, 8192);
}

/* Of a full pool every second block is given back. */
static void make_half(size_t c)
{
    size_t kept = 0;

    make_full(c);
    for (size_t i = 0; i < count; i++) {
        if (i % 2 == 0)
            blocks[kept++] = blocks[i];
        else
            must(release(c, blocks[i].place), "release");
    }
    count = kept;
}

/* ---- Pools to sweep --------------------------------------------------------- */

/* Page bits and page words as they were made: a sweep changes nothing else. */
static uint64_t made_bits[MAX_CHUNKS * BIT_WORDS];
static uint32_t made_words[MAX_CHUNKS * PAGES];

/* What is answered on the pool: whether a sweep gains pages, and how reserves are refused. */
static struct {
    bool gains;
    uint64_t largest, row;
} right;

static void made(size_t c, bool gains, uint64_t largest, uint64_t row_refusal)
{
    memcpy(made_bits, bits, c * BIT_WORDS * sizeof *bits);
    memcpy(made_words, words, c * PAGES * sizeof *words);
    right.gains = gains;
    right.largest = largest;
    right.row = row_refusal;
}

static void make_by(const struct recipe *recipe, size_t c)
{
    struct records pool = {c, bits, words, slots};
    struct rng rng = {c};

    count = 0;
    generate(&pool, recipe, &rng);
}

static void make_runs_of_class_0(size_t c, enum fill fill)
{
    struct recipe recipe = recipe_of_class(0, fill);

    make_by(&recipe, c);
}

/* The page of the last taken slot of such a pool. */
static size_t lone_page;

static void take_first_slot(size_t page)
{
    slots[SLOT_WORDS / PAGES * page] = 1;
}

/* Of the first run of slots from the middle of each chunk on, one slot is taken. */
static void take_slot_a_chunk(size_t c)
{
    for (size_t k = 0; k < c; k++) {
        lone_page = PAGES * k + PAGES / 2;
        while (words[lone_page] >= UINT32_C(0xC0000000))
            lone_page++;
        take_first_slot(lone_page);
    }
}

/* A full pool of which every block was given back. */
static void make_dropped(size_t c)
{
    make_full(c);
    for (size_t i = 0; i < count; i++)
        must(release(c, blocks[i].place), "release");
    count = 0;
    made(c, true, LENSEMBER_OK, LENSEMBER_OK);
}

/* Nothing but empty runs, of all 30 classes in any order or of the one with the most slots. */
static void make_empty(size_t c)
{
    make_by(recipe_named("classes-empty"), c);
    made(c, true, LENSEMBER_OK, LENSEMBER_OK);
}

static void make_empty_0(size_t c)
{
    make_runs_of_class_0(c, FILL_EMPTY);
    made(c, true, LENSEMBER_OK, LENSEMBER_OK);
}

/* A third of the runs is empty, in any order. */
static void make_some_empty(size_t c)
{
    make_by(recipe_named("classes-any-fill"), c);
    made(c, true, LENSEMBER_NO_ROOM, LENSEMBER_OK);
}

/* Nothing but empty runs and one taken slot: no chunk can be had whole. */
static void make_split(size_t c)
{
    make_by(recipe_named("classes-empty"), c);
    take_slot_a_chunk(c);
    made(c, true, LENSEMBER_NO_ROOM, LENSEMBER_OK);
}

static void make_split_0(size_t c)
{
    make_runs_of_class_0(c, FILL_EMPTY);
    take_slot_a_chunk(c);
    made(c, true, LENSEMBER_NO_ROOM, LENSEMBER_OK);
}

/* Without an empty run, and without room. */
static void make_no_room(size_t c)
{
    make_full(c);
    put(c, ROW);
    put(c, TABLE);
    made(c, false, LENSEMBER_NO_ROOM, LENSEMBER_NO_ROOM);
}

static void make_no_room_0(size_t c)
{
    make_runs_of_class_0(c, FILL_FULL);
    made(c, false, LENSEMBER_NO_ROOM, LENSEMBER_NO_ROOM);
}

/* ---- What is timed --------------------------------------------------------- */

/* Puts a block's bits and word down or away, without a call: so a reserve, a
 * release and a resize can be timed apart. The run of a slot stands. */
static void set_slot(const struct lensember_reserved *block, bool taken)
{
    uint64_t chunk = block->place / (PAGES * 4096);
    uint64_t page = PAGES * chunk + block->first_page;
    uint64_t *word = &slots[SLOT_WORDS / PAGES * page + block->slot / 64];
    uint64_t bit = UINT64_C(1) << block->slot % 64;

    *word = taken ? *word | bit : *word & ~bit;
}

static void set_run(const struct lensember_reserved *block, bool taken)
{
    uint64_t first = block->place / 4096;

    words[first] = taken ? UINT32_C(0x40000000) + (uint32_t)block->pages : 0;
    for (uint64_t g = first; g < first + block->pages; g++) {
        uint64_t bit = UINT64_C(1) << g % 64;

        bits[g / 64] = taken ? bits[g / 64] | bit : bits[g / 64] & ~bit;
    }
}

static void set_block(const struct lensember_reserved *block, bool taken)
{
    if (block->kind == LENSEMBER_SLOT)
        set_slot(block, taken);
    else
        set_run(block, taken);
}

/* What a reserve of a row and of a table gives. */
static struct lensember_reserved next_row, next_table;

static uint64_t reserve_only(size_t c, uint64_t size, struct lensember_reserved *next)
{
    *next = reserve(c, size);
    set_block(next, false);
    return next->refusal;
}

static uint64_t release_only(size_t c, const struct lensember_reserved *next)
{
    set_block(next, true);
    return release(c, next->place);
}

static uint64_t reserve_row(size_t c)
{
    return reserve_only(c, ROW, &next_row);
}

static uint64_t release_row(size_t c)
{
    return release_only(c, &next_row);
}

static uint64_t reserve_table(size_t c)
{
    return reserve_only(c, TABLE, &next_table);
}

static uint64_t release_table(size_t c)
{
    return release_only(c, &next_table);
}

static uint64_t size_row(size_t c)
{
    return lensember_pool_block_size(pool_of(c), row.place).refusal;
}

static uint64_t size_table(size_t c)
{
    return lensember_pool_block_size(pool_of(c), table.place).refusal;
}

static struct lensember_resized resize(size_t c, const struct lensember_reserved *block,
                                       uint64_t size)
{
    return lensember_pool_resize(pool_of(c), block->place, size);
}

static uint64_t keep_row(size_t c)
{
    return resize(c, &row, ROW - 7).how == LENSEMBER_KEPT ? 0 : 1;
}

static uint64_t keep_table(size_t c)
{
    return resize(c, &table, 8000).how == LENSEMBER_KEPT ? 0 : 1;
}

/* To so many pages, and back without a call. */
static uint64_t recut(size_t c, const struct lensember_reserved *block, uint64_t pages)
{
    struct lensember_reserved recut_run = *block;
    bool kept = resize(c, block, 4096 * pages).how == LENSEMBER_KEPT;

    recut_run.pages = pages;
    set_run(&recut_run, false);
    set_run(block, true);
    return kept ? 0 : 1;
}

static uint64_t grow(size_t c)
{
    return recut(c, &open_run, open_run.pages + 1);
}

static uint64_t shrink(size_t c)
{
    return recut(c, &table, 1);
}

/* Into another block, and back without a call. A row's run has one page. */
static uint64_t move(size_t c, const struct lensember_reserved *block, uint64_t size)
{
    struct lensember_resized answer = resize(c, block, size);
    struct lensember_reserved other = {.place = answer.place};

    if (answer.how != LENSEMBER_MOVED)
        return 1;
    other.kind = size == ROW ? LENSEMBER_SLOT : LENSEMBER_RUN;
    other.first_page = answer.place / 4096 % PAGES;
    other.slot = answer.place % 4096 / ROW;
    other.pages = answer.size / 4096;
    set_block(&other, false);
    set_block(block, true);
    return 0;
}

static uint64_t row_to_table(size_t c)
{
    return move(c, &row, TABLE);
}

static uint64_t table_to_row(size_t c)
{
    return move(c, &table, ROW);
}

static uint64_t resize_nothing(size_t c)
{
    return lensember_pool_resize(pool_of(c), 1, ROW).refusal == LENSEMBER_NO_BLOCK ? 0 : 1;
}

/* The first block of the pool. */
static uint64_t next_first(size_t c)
{
    return lensember_pool_next(pool_of(c), 0).refusal;
}

/* None: in a fresh pool nearly all pages are looked at. */
static uint64_t next_none(size_t c)
{
    return lensember_pool_next(pool_of(c), last + 1).refusal;
}

static uint64_t list_blocks(size_t c)
{
    return lensember_pool_census(pool_of(c), room, 2 * count).refusal;
}

/* The check alone, twice: how far two measures of one thing lie apart. */
static uint64_t check(size_t c)
{
    return lensember_pool_check(pool_of(c));
}

static uint64_t total(size_t c)
{
    return lensember_pool_totals(pool_of(c)).refusal;
}

static uint64_t bytes_of_row(size_t c)
{
    return lensember_pool_bytes(pool_of(c), LENSEMBER_LEFT, row.place, LENSEMBER_ARENA_BYTES(c), 0)
        .refusal;
}

/* A row and back, on the pool and by pointers. No byte of the arena is touched. */
static uint64_t reserve_and_release(size_t c)
{
    return release(c, reserve(c, ROW).place);
}

static struct lensember_arena arena_of(size_t c)
{
    static LENSEMBER_ARENA_MEMORY(MAX_CHUNKS) bytes;

    return lensember_arena_at(*pool_of(c), &bytes, LENSEMBER_ARENA_BYTES(c));
}

static uint64_t alloc_and_free(size_t c)
{
    struct lensember_arena arena = arena_of(c);

    return lensember_free(&arena, lensember_alloc(&arena, ROW));
}

static uint64_t realloc_row(size_t c)
{
    struct lensember_arena arena = arena_of(c);
    unsigned char *start = arena.base + row.place;

    return lensember_realloc(&arena, start, ROW - 7) == start ? 0 : 1;
}

/* Whatever the pool is, it has no blocks then. */
static uint64_t fresh(size_t c)
{
    return lensember_pool_fresh(pool_of(c));
}

/* Behind each call that changed something; timed alone too. */
static uint64_t put_back(size_t c)
{
    memcpy(bits, made_bits, c * BIT_WORDS * sizeof *bits);
    memcpy(words, made_words, c * PAGES * sizeof *words);
    return LENSEMBER_OK;
}

static uint64_t sweep(size_t c)
{
    struct lensember_swept swept = lensember_pool_sweep(pool_of(c));

    if (swept.pages > 0)
        put_back(c);
    return swept.refusal == LENSEMBER_OK && (swept.pages > 0) == right.gains ? 0 : 1;
}

static uint64_t reserve_and_put_back(size_t c, uint64_t size, uint64_t refusal)
{
    struct lensember_reserved block = reserve(c, size);

    if (block.refusal == LENSEMBER_OK) {
        if (block.kind == LENSEMBER_SLOT)
            set_slot(&block, false);
        put_back(c);
    }
    return block.refusal == refusal ? 0 : 1;
}

static uint64_t reserve_largest(size_t c)
{
    return reserve_and_put_back(c, LARGEST_TABLE, right.largest);
}

static uint64_t reserve_any_row(size_t c)
{
    return reserve_and_put_back(c, ROW, right.row);
}

static struct lensember_resized resize_lone_slot(size_t c, uint64_t size)
{
    return lensember_pool_resize(pool_of(c), UINT64_C(4096) * lone_page, size);
}

/* Only a sweep makes room for so many pages. */
static uint64_t move_by_sweep(size_t c)
{
    bool moved = resize_lone_slot(c, 800000).how == LENSEMBER_MOVED;

    take_first_slot(lone_page);
    put_back(c);
    return moved ? 0 : 1;
}

static uint64_t move_in_vain(size_t c)
{
    return resize_lone_slot(c, LARGEST_TABLE).refusal == LENSEMBER_NO_ROOM ? 0 : 1;
}

/* ---- What is printed -------------------------------------------------------- */

enum { COLUMNS = 4, POOLS = 8 };

struct pool_kind {
    const char *name;
    void (*make)(size_t c);
};

struct sheet {
    const char *heads[COLUMNS];
    timed_call *calls[COLUMNS + 1]; /* the yardstick first */
    struct pool_kind pools[POOLS];  /* the last ones may be left out */
};

#define FRESH_HALF_FULL {{"fresh", make_fresh}, {"half", make_half}, {"full", make_full}}

static const struct sheet sheets[] = {
    {{"reserve row", "release row", "reserve table", "release table"},
     {call_or, reserve_row, release_row, reserve_table, release_table},
     FRESH_HALF_FULL},
    {{"size of row", "size of table", "next, first", "next, none"},
     {call_or, size_row, size_table, next_first, next_none},
     FRESH_HALF_FULL},
    {{"census", "totals", "check", "check again"},
     {call_or, list_blocks, total, check, check},
     FRESH_HALF_FULL},
    {{"row kept", "table kept", "run grown", "table shrunk"},
     {call_or, keep_row, keep_table, grow, shrink},
     FRESH_HALF_FULL},
    {{"row to table", "table to row", "no block", "check"},
     {call_or, row_to_table, table_to_row, resize_nothing, check},
     FRESH_HALF_FULL},
    {{"bytes of row", "row and back", "alloc, free", "realloc, kept"},
     {call_or, bytes_of_row, reserve_and_release, alloc_and_free, realloc_row},
     FRESH_HALF_FULL},
    {{"fresh", "totals", "next, none", "check"},
     {call_or, fresh, total, next_none, check},
     {{"any", make_fresh}}},
    {{"sweep", "reserve 511", "reserve row", "put back"},
     {call_or, sweep, reserve_largest, reserve_any_row, put_back},
     {{"dropped", make_dropped},
      {"empty runs", make_empty},
      {"of class 0", make_empty_0},
      {"split", make_split},
      {"of class 0", make_split_0},
      {"some empty", make_some_empty},
      {"no room", make_no_room},
      {"of class 0", make_no_room_0}}},
    {{"moved by sweep", "refused 4", "reserve 511", "put back"},
     {call_or, move_by_sweep, move_in_vain, reserve_largest, put_back},
     {{"split", make_split}, {"of class 0", make_split_0}}},
};

static void measure(const struct sheet *sheet, const struct pool_kind *pool, size_t c)
{
    double best[COLUMNS + 1];

    pool->make(c);
    choose_blocks();
    for (unsigned n = 1; n <= COLUMNS; n++)
        must(sheet->calls[n](c), sheet->heads[n - 1]);
    time_calls(sheet->calls, best, COLUMNS + 1, c);
    printf("%-10s %2zu %8.3f", pool->name, c, best[0]);
    for (unsigned n = 1; n <= COLUMNS; n++)
        printf(" %8.3f %6.2f", best[n], best[n] / best[0]);
    printf("\n");
    fflush(stdout);
}

static void measure_sheet(const struct sheet *sheet)
{
    printf("%-10s %2s %8s", "pool", "c", "or us");
    for (unsigned n = 0; n < COLUMNS; n++)
        printf(" %15s", sheet->heads[n]);
    printf("\n");
    for (size_t c = 1; c <= MAX_CHUNKS; c += MAX_CHUNKS - 1)
        for (size_t i = 0; i < POOLS && sheet->pools[i].make != NULL; i++)
            measure(sheet, &sheet->pools[i], c);
}

int main(void)
{
    for (size_t i = 0; i < sizeof sheets / sizeof sheets[0]; i++)
        measure_sheet(&sheets[i]);
    printf("microseconds a chunk, then the multiple of the OR\n"
           "sweeps: a full pool of which all was given back; pools of empty runs, of 30 classes\n"
           "in any order or of class 0; the same with one taken slot in each chunk, so that 511\n"
           "pages are refused after a search in vain; a third of the runs empty; full pools,\n"
           "where both reserves are refused. The last sheet: that slot gets 800,000 bytes, or\n"
           "511 pages. Where a call changed something its time has what puts that back, which\n"
           "the last column has alone\n");
    return 0;
}
