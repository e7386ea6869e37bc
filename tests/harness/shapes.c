#include "shapes.h"

#include "groups.h"
#include "recipes.h"

#include <inttypes.h>
#include <stdio.h>
#include <string.h>

struct shelf shelf, shelf_before;

struct records shelf_records(struct shelf *s, size_t c)
{
    struct records r = {c, s->bits + GUARD, s->words + GUARD, s->slots + GUARD};
    return r;
}

void shelf_fill_random(void)
{
    for (size_t i = 0; i < COUNT(shelf.bits); i++)
        shelf.bits[i] = rng_next(&rng);
    for (size_t i = 0; i < COUNT(shelf.words); i++)
        shelf.words[i] = (uint32_t)rng_next(&rng);
    for (size_t i = 0; i < COUNT(shelf.slots); i++)
        shelf.slots[i] = rng_next(&rng);
}

/* Sound records for every count of chunks up to 18. */
static void shelf_fill_sound(void)
{
    struct records r = shelf_records(&shelf, ROOM);

    shelf_fill_random();
    generate(&r, recipe_named("mixed"), &rng);
}

struct lengths exact_lengths(size_t c)
{
    struct lengths n = {c * BIT_WORDS, c * PAGES, c * SLOT_WORDS};
    return n;
}

/* One trial on the shelf, which stays as it was, its guards too. */
static void try_on_shelf(uint64_t c, struct lengths n, shape_trial *try_it)
{
    struct records r = shelf_records(&shelf, 0);

    shelf_before = shelf;
    try_it(c, &r, n);
    expect(memcmp(&shelf, &shelf_before, sizeof shelf) == 0,
           "changed, c %" PRIu64 " with %zu %zu %zu", c, n.bits, n.words, n.slots);
    shelf = shelf_before;
}

/* Chunk counts for which 8c, 512c or 4096c wraps around are among these. */
static const uint64_t bad_counts[] = {
    0, 17, 18, 255, 256, 257,
    UINT64_C(1) << 32, (UINT64_C(1) << 32) + 1,
    UINT64_C(1) << 52, (UINT64_C(1) << 52) + 1,
    UINT64_C(1) << 55, (UINT64_C(1) << 55) + 1,
    UINT64_C(1) << 61, (UINT64_C(1) << 61) + 1, (UINT64_C(1) << 61) + 16,
    UINT64_C(1) << 63, (UINT64_C(1) << 63) + 1,
    UINT64_MAX - 15, UINT64_MAX,
};

static void try_bad_counts(shape_trial *try_it)
{
    for (size_t i = 0; i < COUNT(bad_counts); i++)
        for (size_t chunks = 0; chunks <= ROOM; chunks++)
            try_on_shelf(bad_counts[i], exact_lengths(chunks), try_it);
}

/* One short, exact, one long: every mixture but the exact one. */
static void try_off_by_one(size_t c, shape_trial *try_it)
{
    for (int bits = -1; bits <= 1; bits++)
        for (int words = -1; words <= 1; words++)
            for (int slots = -1; slots <= 1; slots++) {
                struct lengths n = exact_lengths(c);
                if (bits == 0 && words == 0 && slots == 0)
                    continue;
                n.bits += (size_t)bits;
                n.words += (size_t)words;
                n.slots += (size_t)slots;
                try_on_shelf(c, n, try_it);
            }
}

/* Each buffer alone with this many chunks' elements (0: empty), then all three. */
static void try_length_of(size_t c, size_t other, shape_trial *try_it)
{
    struct lengths wrong = exact_lengths(other);
    struct lengths n;

    if (other == c)
        return;
    n = exact_lengths(c);
    n.bits = wrong.bits;
    try_on_shelf(c, n, try_it);
    n = exact_lengths(c);
    n.words = wrong.words;
    try_on_shelf(c, n, try_it);
    n = exact_lengths(c);
    n.slots = wrong.slots;
    try_on_shelf(c, n, try_it);
    try_on_shelf(c, wrong, try_it);
}

/* Lengths in bytes, or those of another buffer. */
static void try_mixed_up_lengths(shape_trial *try_it)
{
    struct lengths bytes = {64, 2048, 32768};
    struct lengths swapped = {BIT_WORDS, SLOT_WORDS, PAGES};

    try_on_shelf(1, bytes, try_it);
    try_on_shelf(1, swapped, try_it);
}

static void try_bad_lengths(shape_trial *try_it)
{
    static const size_t counts[] = {1, 2, 3, 16};

    for (size_t i = 0; i < COUNT(counts); i++) {
        try_off_by_one(counts[i], try_it);
        for (size_t other = 0; other <= ROOM; other++)
            try_length_of(counts[i], other, try_it);
    }
    try_mixed_up_lengths(try_it);
}

static void try_empty_buffers(shape_trial *try_it)
{
    static const uint64_t counts[] = {0, 1, 16, UINT64_C(1) << 61};
    struct records nowhere = {0, (uint64_t *)(uintptr_t)8, (uint32_t *)(uintptr_t)4,
                              (uint64_t *)(uintptr_t)8};

    group_begin("refused-1", "empty-buffers-nowhere");
    for (size_t i = 0; i < COUNT(counts); i++)
        try_it(counts[i], &nowhere, exact_lengths(0));
    group_end();
}

/* On records that `fill` puts on the shelf. */
static void try_filled(const char *records, void (*fill)(void), shape_trial *try_it)
{
    char name[40];

    snprintf(name, sizeof name, "chunk-count-%s", records);
    group_begin("refused-1", name);
    fill();
    try_bad_counts(try_it);
    group_end();
    snprintf(name, sizeof name, "length-%s", records);
    group_begin("refused-1", name);
    fill();
    try_bad_lengths(try_it);
    group_end();
}

void try_bad_shapes(shape_trial *try_it)
{
    try_filled("sound-records", shelf_fill_sound, try_it);
    try_filled("damaged-records", shelf_fill_random, try_it);
    try_empty_buffers(try_it);
}
