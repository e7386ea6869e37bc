/*
 * A program of somebody who has the library installed: an arena and its pool in
 * static memory, and a pool in memory from malloc. It is C99 and C++11. The exit
 * status is 0 where all answers are right.
 */
#include <lensember.h>
#include <lensember_arena.h>

#include <stdlib.h>
#include <string.h>

static LENSEMBER_POOL_MEMORY(2) records;
static LENSEMBER_ARENA_MEMORY(2) bytes;

/* A text outgrows its slot, and its bytes move with it; the slot is free then. */
static int grows(struct lensember_arena *arena)
{
    char *text = (char *)lensember_alloc(arena, sizeof "hello");
    char *grown;

    if (text == NULL)
        return 0;
    memcpy(text, "hello", sizeof "hello");
    grown = (char *)lensember_realloc(arena, text, 5000);
    return grown != NULL && grown != text && strcmp(grown, "hello") == 0
            && lensember_usable_size(arena, grown) == 8192
            && lensember_free(arena, text) == LENSEMBER_FREE_SLOT
            && lensember_free(arena, grown) == LENSEMBER_OK
            && lensember_free(arena, grown) == LENSEMBER_NO_BLOCK;
}

static int has_arena(void)
{
    struct lensember_arena arena = lensember_arena_at(
        lensember_pool_at(2, &records, sizeof records), &bytes, sizeof bytes);

    return lensember_arena_fresh(&arena) == LENSEMBER_OK && grows(&arena)
            && lensember_alloc(&arena, LENSEMBER_CHUNK_BYTES) == NULL
            && arena.refusal == LENSEMBER_TOO_BIG
            && lensember_pool_totals(&arena.pool).blocks == 0;
}

static int reserves(struct lensember_pool *pool)
{
    struct lensember_reserved row = lensember_pool_reserve(pool, 24);

    return row.refusal == LENSEMBER_OK && row.place == LENSEMBER_PAGE_BYTES
            && lensember_pool_release(pool, row.place) == LENSEMBER_OK
            && lensember_pool_release(pool, row.place) == LENSEMBER_FREE_SLOT
            && lensember_pool_check(pool) == LENSEMBER_OK;
}

static int has_pool(void)
{
    void *memory = malloc(LENSEMBER_POOL_BYTES(1));
    struct lensember_pool pool = lensember_pool_at(1, memory, LENSEMBER_POOL_BYTES(1));
    int right = lensember_pool_fresh(&pool) == LENSEMBER_OK && reserves(&pool);

    free(memory);
    return right;
}

int main(void)
{
    return has_arena() && has_pool() ? 0 : 1;
}
