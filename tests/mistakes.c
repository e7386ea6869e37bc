/*
 * Mistakes as they are made in an editor, for tests/mistakes.sh: the word on the
 * command line says which, and none is no mistake. Each is on the line that is
 * marked with its word, and with the number of the refusal where it is a call.
 *
 * Rows and tables are volatile, and some functions not inlined, where otherwise the
 * compiler might put the mistake on another line, or leave it out.
 */
#include "lensember_arena.h"

#include <inttypes.h>
#include <stdio.h>
#include <string.h>

/* ---- Ears, rows and tables ---------------------------------------------------- */

struct ear {
    LENSEMBER_POOL_MEMORY(1) records;
    LENSEMBER_ARENA_MEMORY(1) bytes;
    struct lensember_arena arena;
};

static struct ear left, right;

/* 20 bytes, in a slot of 24. */
struct row {
    uint32_t hertz;
    int32_t gains[4];
};

enum { TABLE_BYTES = 5000 }; /* in two pages, 8,192 bytes */

/* What the editor shows. */
static volatile int32_t shown;

static uint64_t open_ear(struct ear *ear)
{
    ear->arena = lensember_arena_at(
        lensember_pool_at(1, &ear->records, sizeof ear->records), &ear->bytes, sizeof ear->bytes);
    return lensember_arena_fresh(&ear->arena);
}

static struct row *enter_row(struct ear *ear)
{
    struct row *row = lensember_alloc(&ear->arena, sizeof *row);

    memset(row, 0, sizeof *row);
    return row;
}

static unsigned char *enter_table(struct ear *ear)
{
    unsigned char *table = lensember_alloc(&ear->arena, TABLE_BYTES);

    memset(table, 1, TABLE_BYTES);
    return table;
}

__attribute__((noinline)) static void drop(struct ear *ear, volatile void *block)
{
    lensember_free(&ear->arena, (void *)block);
}

__attribute__((noinline)) static void *resize(struct ear *ear, volatile void *block, size_t bytes)
{
    return lensember_realloc(&ear->arena, (void *)block, bytes);
}

/* ---- Bytes -------------------------------------------------------------------- */

static uint64_t write_past(void)
{
    volatile unsigned char *row = (unsigned char *)enter_row(&left);

    row[sizeof(struct row) - 1] = 0;
    row[sizeof(struct row)] = 0; /* mistake: write-past */
    return 0;
}

static uint64_t write_past_table(void)
{
    volatile unsigned char *table = enter_table(&left);

    table[0] = 2;
    table[TABLE_BYTES] = 2; /* mistake: write-past-table */
    table[TABLE_BYTES - 1] = 2;
    return 0;
}

static uint64_t read_unreserved(void)
{
    const volatile unsigned char *row = (unsigned char *)enter_row(&left);

    shown = row[0];
    shown = row[9 * LENSEMBER_PAGE_BYTES]; /* mistake: read-unreserved */
    return 0;
}

static uint64_t read_released(void)
{
    volatile unsigned char *table = enter_table(&left);

    drop(&left, table);
    shown = table[17]; /* mistake: read-released */
    return 0;
}

static uint64_t read_past_shrunk(void)
{
    volatile unsigned char *row = lensember_alloc(&left.arena, 24);

    row[23] = 1;
    row = resize(&left, row, 20);
    row[19] = 1;
    shown = row[23]; /* mistake: read-past-shrunk */
    return 0;
}

static uint64_t read_moved(void)
{
    volatile struct row *row = enter_row(&left), *rows = resize(&left, row, 50 * sizeof *row);

    shown = rows->gains[3];
    shown = row->gains[3]; /* mistake: read-moved */
    return 0;
}

/* ---- Calls -------------------------------------------------------------------- */

static uint64_t release_twice(void)
{
    struct row *row = enter_row(&left);

    drop(&left, row);
    lensember_free(&left.arena, row); /* mistake: release-twice, refused 6 */
    return left.arena.refusal;
}

static uint64_t release_inside(void)
{
    struct row *row = enter_row(&left);

    lensember_free(&left.arena, &row->gains[1]); /* mistake: release-inside, refused 5 */
    return left.arena.refusal;
}

static uint64_t release_elsewhere(void)
{
    struct row *row = enter_row(&left);

    lensember_free(&right.arena, row); /* mistake: release-elsewhere, refused 5 */
    return right.arena.refusal;
}

static uint64_t resize_released(void)
{
    struct row *row = enter_row(&left);

    drop(&left, row);
    lensember_realloc(&left.arena, row, 48); /* mistake: resize-released, refused 6 */
    return left.arena.refusal;
}

static uint64_t resize_released_table(void)
{
    unsigned char *table = enter_table(&left);

    drop(&left, table);
    lensember_realloc(&left.arena, table, 48); /* mistake: resize-released-table, refused 5 */
    return left.arena.refusal;
}

/* The pool gave it back, and the arena was not told. */
static uint64_t release_unsynced(void)
{
    struct row *row = enter_row(&left);

    lensember_pool_release(&left.arena.pool, lensember_place_of(&left.arena, row).place);
    lensember_free(&left.arena, row); /* mistake: release-unsynced, refused 6 */
    return left.arena.refusal;
}

/* ---- No mistake ----------------------------------------------------------------- */

/* As many rows as fit; the last answer is null, and the reason no room. */
static uint64_t fill_ear(struct ear *ear)
{
    while (lensember_alloc(&ear->arena, 100 * sizeof(struct row)) != NULL)
        continue;
    return ear->arena.refusal == LENSEMBER_NO_ROOM ? lensember_arena_fresh(&ear->arena) : 1;
}

/* Each block to its last byte, whichever way it got it. */
static uint64_t work_well(void)
{
    struct row *row = enter_row(&left), *other = enter_row(&right);
    unsigned char *table = enter_table(&left);

    *other = *row;
    table = resize(&left, table, lensember_usable_size(&left.arena, table));
    memset(table, 2, 2 * LENSEMBER_PAGE_BYTES);
    table = resize(&left, table, 100);
    shown = table[99];
    row = resize(&left, row, 2 * sizeof *row);
    row[1] = row[0];
    drop(&left, table);
    drop(&left, NULL);
    lensember_pool_release(&left.arena.pool, lensember_place_of(&left.arena, row).place);
    lensember_arena_sync(&left.arena);
    drop(&right, other);
    if (fill_ear(&left) != LENSEMBER_OK)
        return left.arena.refusal;
    lensember_arena_close(&left.arena);
    memset(&left.bytes, 0, sizeof left.bytes);
    return LENSEMBER_OK;
}

static const struct {
    const char *word;
    uint64_t (*run)(void); /* answers the refusal of its last call */
} days[] = {
    {"none", work_well},
    {"write-past", write_past},
    {"write-past-table", write_past_table},
    {"read-unreserved", read_unreserved},
    {"read-released", read_released},
    {"read-past-shrunk", read_past_shrunk},
    {"read-moved", read_moved},
    {"release-twice", release_twice},
    {"release-inside", release_inside},
    {"release-elsewhere", release_elsewhere},
    {"resize-released", resize_released},
    {"resize-released-table", resize_released_table},
    {"release-unsynced", release_unsynced},
};

int main(int argc, char **argv)
{
    uint64_t refusal;

    if (argc != 2 || open_ear(&left) != LENSEMBER_OK || open_ear(&right) != LENSEMBER_OK)
        return 2;
    for (size_t i = 0; i < sizeof days / sizeof days[0]; i++) {
        if (strcmp(argv[1], days[i].word) != 0)
            continue;
        refusal = days[i].run();
        if (refusal != LENSEMBER_OK)
            printf("refused %" PRIu64 "\n", refusal);
        return 0;
    }
    return 2;
}
