/*
 * A first look at Lensember: make a fresh pool of one chunk, reserve a row and a
 * table, let the table grow, list them, give the row back, sweep, check the
 * records, damage one bit, and see that the check notices.
 */
#include "lensember.h"

#include <inttypes.h>
#include <stdio.h>

/* The program owns the records. The library keeps nothing between calls. */
static LENSEMBER_POOL_MEMORY(1) records;

/* Lent to each call. */
static struct lensember_pool pool;

/* A place counts from the pool's first byte, wherever the program keeps it. */
static struct lensember_reserved reserve(const char *what, uint64_t size)
{
    struct lensember_reserved block = lensember_pool_reserve(&pool, size);

    printf("%s of %" PRIu64 " bytes lies at %" PRIu64 ", size %" PRIu64 "\n",
           what, size, block.place, block.size);
    return block;
}

/* The pages behind the table are free, so it stays where it is, and no byte is to be copied. */
static int grow(uint64_t place, uint64_t size)
{
    struct lensember_resized table = lensember_pool_resize(&pool, place, size);

    printf("the table, now of %" PRIu64 " bytes, lies at %" PRIu64 ", size %" PRIu64 "\n", size,
           table.place, table.size);
    return table.refusal == LENSEMBER_OK && table.how == LENSEMBER_KEPT && table.copy == 0;
}

static int total(void)
{
    struct lensember_summed totals = lensember_pool_totals(&pool);

    printf("totals: %" PRIu64 " blocks, %" PRIu64 " bytes, %" PRIu64 " free pages\n",
           totals.blocks, totals.bytes, totals.free_pages);
    return totals.refusal == LENSEMBER_OK;
}

/* From place 0 on, then from right behind each block. Place 0 says: no more. */
static int walk(void)
{
    struct lensember_found block = lensember_pool_next(&pool, 0);

    while (block.place != 0) {
        printf("next is %" PRIu64 ", size %" PRIu64 "\n", block.place, block.size);
        block = lensember_pool_next(&pool, block.place + block.size);
    }
    return block.refusal == LENSEMBER_OK;
}

/* The same in one call: two words a block, in a room that the program lends. */
static int list(void)
{
    uint64_t room[8];
    struct lensember_counted blocks = lensember_pool_census(&pool, room, 8);

    printf("census of %" PRIu64 ":", blocks.count);
    for (uint64_t i = 0; i < blocks.count; i++)
        printf(" %" PRIu64 " size %" PRIu64 "%s", room[2 * i], room[2 * i + 1],
               i + 1 < blocks.count ? "," : "");
    printf("\n");
    return blocks.refusal == LENSEMBER_OK;
}

/* A row that is given back twice is noticed, and nothing else changes. */
static int release_twice(uint64_t place)
{
    uint64_t once = lensember_pool_release(&pool, place);
    uint64_t again = lensember_pool_release(&pool, place);

    printf("release of the row answers %" PRIu64 ", once more %" PRIu64 "\n", once, again);
    return once == LENSEMBER_OK && again == LENSEMBER_FREE_SLOT;
}

/*
 * The page of the row still belongs to rows of its size. A sweep frees it for
 * any request; a reserve that finds no room sweeps by itself, and then takes it.
 */
static int sweep(void)
{
    struct lensember_swept swept = lensember_pool_sweep(&pool);

    printf("sweep gains %" PRIu64 " page\n", swept.pages);
    return swept.refusal == LENSEMBER_OK && swept.pages == 1;
}

static const char *meaning(uint64_t answer)
{
    switch (answer) {
    case LENSEMBER_OK:
        return "sound";
    case LENSEMBER_SHAPE:
        return "no such pool";
    case LENSEMBER_DAMAGED:
        return "damaged";
    default:
        return "unknown";
    }
}

static uint64_t check(void)
{
    uint64_t answer = lensember_pool_check(&pool);

    printf("check answers %" PRIu64 ": %s\n", answer, meaning(answer));
    return answer;
}

int main(void)
{
    uint64_t fresh, sound, damaged;
    struct lensember_reserved row, table;
    int grown, read, released, swept;

    printf("a pool of 1 chunk: %d bytes in %d pages\n",
           LENSEMBER_CHUNK_BYTES, LENSEMBER_CHUNK_PAGES);

    pool = lensember_pool_at(1, &records, sizeof records);
    fresh = lensember_pool_fresh(&pool);
    printf("fresh answers %" PRIu64 "\n", fresh);

    row = reserve("a row", 24);
    table = reserve("a table", 5000);
    grown = grow(table.place, 9000);
    read = total() && walk() && list();
    released = release_twice(row.place);
    swept = sweep() && total();
    sound = check();

    records.bits[0] ^= UINT64_C(1) << 7;
    printf("page 7 now counts as taken, but no run holds it\n");
    damaged = check();

    return fresh == LENSEMBER_OK && row.kind == LENSEMBER_SLOT
            && table.kind == LENSEMBER_RUN && grown && read && released && swept
            && sound == LENSEMBER_OK && damaged == LENSEMBER_DAMAGED ? 0 : 1;
}
