/*
 * A small table editor, to show how a C program keeps its data in Lensember. Each
 * ear has an arena, of records that the library keeps and bytes that are the
 * program's. A band row is a block of 24 bytes; a table is a block that holds the
 * pointers to its rows. What is done to an arena is written to a request log.
 *
 * The editor enters a table, copies it to the other ear, trims and extends it,
 * drops it, lists what is left, survives a damaged record, replays its logs,
 * sweeps, takes the text of another vendor, and says what it did.
 */
#include "lensember_arena.h"

#include <inttypes.h>
#include <stdio.h>
#include <stdlib.h>
#include <string.h>

/* ---- An ear: an arena and its log ------------------------------------------ */

enum { CHUNKS = 2, LOG_BYTES = 32768 };

typedef LENSEMBER_POOL_MEMORY(CHUNKS) pool_memory;

struct ear {
    const char *name;
    struct lensember_arena arena; /* of the next two */
    pool_memory records;
    LENSEMBER_ARENA_MEMORY(CHUNKS) bytes;
    uint8_t log[LOG_BYTES]; /* what was done to the arena */
    uint64_t logged;        /* how many bytes of it are written */
};

static struct ear left, right;

/* Ends the program when a call is refused that should not be. */
static void must(uint64_t refusal, const char *call)
{
    if (refusal == LENSEMBER_OK)
        return;
    fprintf(stderr, "editor: %s is refused %" PRIu64 "\n", call, refusal);
    exit(1);
}

/* Writes a field to the ear's log. */
static void note(struct ear *ear, uint64_t tag, uint64_t first, uint64_t second)
{
    struct lensember_written log =
        lensember_append(ear->log, sizeof ear->log, ear->logged, tag, first, second);

    must(log.refusal, "append");
    ear->logged = log.length;
}

static void open_ear(struct ear *ear, const char *name)
{
    struct lensember_pool pool = lensember_pool_at(CHUNKS, &ear->records, sizeof ear->records);

    ear->name = name;
    ear->arena = lensember_arena_at(pool, &ear->bytes, sizeof ear->bytes);
    must(lensember_arena_fresh(&ear->arena), "fresh");
    note(ear, LENSEMBER_START, CHUNKS, 0);
    printf("%s ear: a fresh pool of %d chunks\n", name, CHUNKS);
}

/* ---- Blocks --------------------------------------------------------------- */

/* A log names blocks by their places, which are the same wherever the arena lies. */
static struct lensember_found block_at(struct ear *ear, const void *start)
{
    struct lensember_found block = lensember_place_of(&ear->arena, start);

    must(block.refusal, "place");
    return block;
}

static void *reserve(struct ear *ear, size_t size)
{
    void *start = lensember_alloc(&ear->arena, size);

    must(ear->arena.refusal, "alloc");
    note(ear, LENSEMBER_RESERVE, size, 0);
    return start;
}

static void release(struct ear *ear, void *start)
{
    uint64_t place = block_at(ear, start).place;

    must(lensember_free(&ear->arena, start), "free");
    note(ear, LENSEMBER_RELEASE, place, 0);
}

/* Answers where the block starts now, with its bytes. The old pointer must not be used. */
static void *resize(struct ear *ear, void *start, size_t size)
{
    uint64_t place = block_at(ear, start).place;
    void *now = lensember_realloc(&ear->arena, start, size);

    must(ear->arena.refusal, "realloc");
    note(ear, LENSEMBER_RESIZE, place, size);
    return now;
}

/* ---- Rows ------------------------------------------------------------------ */

/* 24 bytes, which is a size class: no byte of the slot is spare. */
struct row {
    uint32_t band, hertz;
    int32_t gains[4]; /* for soft, medium, loud and very loud sounds */
};

/* What the booth measured in a band. */
static struct row measured(uint32_t band)
{
    int32_t loss = 20 + 2 * (int32_t)band;
    struct row row = {band, 250 + 250 * band, {loss, loss * 3 / 4, loss / 2, loss / 4}};

    return row;
}

/* ---- Tables ---------------------------------------------------------------- */

struct table {
    struct ear *ear;
    struct row **rows; /* a block that holds the pointers to them */
    unsigned count;
};

/* The rows from this one on are reserved, their bytes not yet written. */
static void reserve_rows(struct table *table, unsigned from)
{
    for (unsigned i = from; i < table->count; i++)
        table->rows[i] = reserve(table->ear, sizeof *table->rows[i]);
}

static void measure_rows(struct table *table, unsigned from)
{
    for (unsigned i = from; i < table->count; i++)
        *table->rows[i] = measured(i);
}

static void release_rows(struct table *table, unsigned from)
{
    for (unsigned i = from; i < table->count; i++)
        release(table->ear, table->rows[i]);
}

static struct table table_of(struct ear *ear, unsigned count)
{
    struct table table = {ear, reserve(ear, count * sizeof *table.rows), count};

    reserve_rows(&table, 0);
    return table;
}

static void tell(const struct table *table, const char *what)
{
    struct lensember_found block = block_at(table->ear, table->rows);

    printf("%s ear: %s, %u rows; the table lies at %" PRIu64 ", size %" PRIu64 "\n",
           table->ear->name, what, table->count, block.place, block.size);
}

static struct table enter(struct ear *ear, unsigned bands)
{
    struct table table = table_of(ear, bands);

    measure_rows(&table, 0);
    tell(&table, "entered");
    return table;
}

static struct table copy(const struct table *from, struct ear *to)
{
    struct table table = table_of(to, from->count);

    for (unsigned i = 0; i < from->count; i++)
        *table.rows[i] = *from->rows[i];
    tell(&table, "copied");
    return table;
}

/* The block that holds the pointers gets the size for so many, where it lies or elsewhere. */
static void resize_table(struct table *table, unsigned count)
{
    table->rows = resize(table->ear, table->rows, count * sizeof *table->rows);
    table->count = count;
}

/* Drops the last rows. */
static void trim(struct table *table, unsigned count)
{
    release_rows(table, count);
    resize_table(table, count);
    tell(table, "trimmed");
}

/* Enters more rows behind the others. */
static void extend(struct table *table, unsigned count)
{
    unsigned from = table->count;

    resize_table(table, count);
    reserve_rows(table, from);
    measure_rows(table, from);
    tell(table, "extended");
}

static void drop(struct table *table)
{
    uint64_t place = block_at(table->ear, table->rows).place;

    release_rows(table, 0);
    release(table->ear, table->rows);
    printf("%s ear: dropped, the table at %" PRIu64 " and its %u rows\n",
           table->ear->name, place, table->count);
}

static void read_out(const struct table *table)
{
    printf("%s ear: the table at %" PRIu64 " reads\n", table->ear->name,
           block_at(table->ear, table->rows).place);
    for (unsigned i = 0; i < table->count; i++) {
        const struct row *row = table->rows[i];
        printf("  band %2" PRIu32 "  %4" PRIu32 " Hz  gains %2" PRId32 " %2" PRId32 " %2" PRId32
               " %2" PRId32 "\n",
               row->band, row->hertz, row->gains[0], row->gains[1], row->gains[2], row->gains[3]);
    }
}

/* ---- What is there ---------------------------------------------------------- */

static struct lensember_summed totals(const struct ear *ear)
{
    struct lensember_summed sums = lensember_pool_totals(&ear->arena.pool);

    must(sums.refusal, "totals");
    return sums;
}

static void print_totals(const struct ear *ear)
{
    struct lensember_summed sums = totals(ear);

    printf("%s ear: %" PRIu64 " blocks, %" PRIu64 " bytes, %" PRIu64 " free pages\n",
           ear->name, sums.blocks, sums.bytes, sums.free_pages);
}

/* The pages of dropped rows are free for anything again, not only for rows. */
static void sweep(struct ear *ear)
{
    struct lensember_swept swept = lensember_pool_sweep(&ear->arena.pool);

    must(swept.refusal, "sweep");
    printf("%s ear: a sweep gains %" PRIu64 " pages\n", ear->name, swept.pages);
}

/* All blocks in one call. Totals say how much room the list needs. */
static void list_by_census(const struct ear *ear)
{
    size_t nroom = 2 * (size_t)totals(ear).blocks;
    uint64_t *room = malloc((nroom + 1) * sizeof *room); /* room for none, too */
    struct lensember_counted blocks;

    if (room == NULL) {
        perror("editor");
        exit(1);
    }
    blocks = lensember_pool_census(&ear->arena.pool, room, nroom);
    must(blocks.refusal, "census");
    printf("%s ear: %" PRIu64 " blocks by census:", ear->name, blocks.count);
    for (uint64_t i = 0; i < blocks.count; i++)
        printf(" %" PRIu64 "+%" PRIu64, room[2 * i], room[2 * i + 1]);
    printf("\n");
    free(room);
}

/* The same without any room: from each block to the one behind it. */
static void list_by_next(const struct ear *ear)
{
    struct lensember_found block = lensember_pool_next(&ear->arena.pool, 0);

    printf("%s ear: block by block:", ear->name);
    while (block.size != 0) {
        printf(" %" PRIu64 "+%" PRIu64, block.place, block.size);
        block = lensember_pool_next(&ear->arena.pool, block.place + block.size);
    }
    must(block.refusal, "next");
    printf("\n");
}

/* ---- Mistakes, and a damaged record ------------------------------------------ */

/*
 * A refused call changes nothing, so a mistake costs nothing. These are made on
 * the pool, by places: of lensember_free a watched program would have a report.
 */
static void make_mistakes(struct ear *ear, uint64_t dropped, uint64_t live)
{
    struct lensember_pool *pool = &ear->arena.pool;

    printf("%s ear: releasing a dropped row again is refused %" PRIu64 "\n", ear->name,
           lensember_pool_release(pool, dropped));
    printf("%s ear: releasing the middle of a row is refused %" PRIu64 "\n", ear->name,
           lensember_pool_release(pool, live + sizeof(struct row) / 2));
    printf("%s ear: reserving 3000000 bytes is refused %" PRIu64 "\n", ear->name,
           lensember_pool_reserve(pool, 3000000).refusal);
    printf("%s ear: resizing a dropped row is refused %" PRIu64 "\n", ear->name,
           lensember_pool_resize(pool, dropped, 2 * sizeof(struct row)).refusal);
}

/* Each of these looks at all records first. */
static void try_all_calls(struct ear *ear, uint64_t live)
{
    struct lensember_pool *pool = &ear->arena.pool;
    uint64_t room[2];

    printf("%s ear: check %" PRIu64 ", reserve %" PRIu64 ", release %" PRIu64
           ", resize %" PRIu64 ", sweep %" PRIu64 ", block size %" PRIu64 ", next %" PRIu64
           ", census %" PRIu64 ", totals %" PRIu64 ", bytes %" PRIu64 "\n",
           ear->name,
           lensember_pool_check(pool),
           lensember_pool_reserve(pool, sizeof(struct row)).refusal,
           lensember_pool_release(pool, live),
           lensember_pool_resize(pool, live, 2 * sizeof(struct row)).refusal,
           lensember_pool_sweep(pool).refusal,
           lensember_pool_block_size(pool, live).refusal,
           lensember_pool_next(pool, 0).refusal,
           lensember_pool_census(pool, room, 2).refusal,
           lensember_pool_totals(pool).refusal,
           lensember_pool_bytes(pool, LENSEMBER_RIGHT, live, sizeof left.bytes,
                                sizeof right.bytes).refusal);
}

static void survive_damage(struct ear *ear, uint64_t live)
{
    static pool_memory saved, damaged;

    saved = ear->records;
    ear->records.words[5] ^= 4;
    damaged = ear->records;
    printf("%s ear: one bit of a page word is turned over\n", ear->name);
    try_all_calls(ear, live);
    printf("%s ear: the refused calls changed %s\n", ear->name,
           memcmp(&ear->records, &damaged, sizeof damaged) == 0 ? "nothing" : "something");
    ear->records = saved;
    printf("%s ear: restored from the saved copy, check answers %" PRIu64 "\n", ear->name,
           lensember_pool_check(&ear->arena.pool));
}

/* ---- Logs, and another vendor's text ----------------------------------------- */

/* Whoever replays the log has the same pool. */
static void close_log(struct ear *ear)
{
    static pool_memory again;
    struct lensember_pool pool = lensember_pool_at(CHUNKS, &again, sizeof again);

    note(ear, LENSEMBER_END, 0, 0);
    must(lensember_pool_replay(&pool, ear->log, (size_t)ear->logged).refusal, "replay");
    printf("%s ear: the log of %" PRIu64 " bytes replays to %s records\n", ear->name, ear->logged,
           memcmp(&again, &ear->records, sizeof again) == 0 ? "the same" : "other");
}

/* The ear's pool becomes the one that the other vendor's text describes, if it is a good one. */
static void take_text(struct ear *ear, const char *text)
{
    static uint8_t taken[LOG_BYTES];
    struct lensember_imported log = lensember_import((const uint8_t *)text, strlen(text), taken,
                                                     sizeof taken);
    struct lensember_replayed replayed;

    if (log.refusal == LENSEMBER_BAD_LINE) {
        printf("%s ear: the text is refused, line %" PRIu64 " is bad\n", ear->name, log.line);
        return;
    }
    must(log.refusal, "import");
    replayed = lensember_pool_replay(&ear->arena.pool, taken, (size_t)log.length);
    if (replayed.refusal == LENSEMBER_BAD_FIELD) {
        printf("%s ear: the text is refused, its pool is not of %d chunks\n", ear->name, CHUNKS);
        return;
    }
    must(replayed.refusal, "replay");
    must(lensember_arena_sync(&ear->arena), "sync");
    memcpy(ear->log, taken, (size_t)log.length);
    ear->logged = log.length;
    printf("%s ear: a pool from a text, by a log of %" PRIu64 " bytes\n", ear->name, ear->logged);
}

/* For the other vendor. There is no line for a resize. */
static void give_text(const struct ear *ear)
{
    static uint8_t text[LENSEMBER_EXPORT_ROOM(LOG_BYTES)];
    struct lensember_exported lines = lensember_export(ear->log, (size_t)ear->logged, text,
                                                       sizeof text);

    if (lines.refusal == LENSEMBER_BAD_FIELD) {
        printf("%s ear: the log has no text, for its field at %" PRIu64 "\n", ear->name,
               lines.position);
        return;
    }
    must(lines.refusal, "export");
    printf("%s ear: the log as text\n%.*s", ear->name, (int)lines.length, (const char *)text);
}

/* ---- A morning ----------------------------------------------------------------- */

int main(void)
{
    struct table day, other, long_one;
    uint64_t gone;

    open_ear(&left, "left");
    open_ear(&right, "right");

    day = enter(&left, 22);
    other = copy(&day, &right);
    long_one = enter(&left, 600); /* its pointers take a run of two pages */
    trim(&long_one, 400);         /* which gives one back, */
    extend(&long_one, 1000);      /* gets it again, */
    extend(&long_one, 1100);      /* moves to where there are three, */
    trim(&long_one, 6);           /* and ends as a slot */
    trim(&other, 8);
    gone = block_at(&left, day.rows[0]).place;
    drop(&day);

    list_by_census(&left);
    list_by_next(&right);
    make_mistakes(&left, gone, block_at(&left, long_one.rows[0]).place);
    survive_damage(&right, block_at(&right, other.rows[0]).place);

    read_out(&long_one);
    read_out(&other);
    print_totals(&left);
    print_totals(&right);
    close_log(&left);
    close_log(&right);
    sweep(&left);
    print_totals(&left);

    give_text(&left);
    take_text(&right, "pool 2\n+24\n+024\n");
    take_text(&right, "pool 3\n+24\n");
    take_text(&right, "pool 2\n+24\n+24\n+8192\n-4096\n");
    print_totals(&right);
    give_text(&right);
    return 0;
}
