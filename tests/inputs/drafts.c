#include "drafts.h"

#include "draws.h"
#include "logs.h"
#include "random.h"

#include <string.h>

/* ---- Field by field ---------------------------------------------------------- */

void draft_clear(struct draft *draft)
{
    draft->length = 0;
    draft->count = 0;
    pool_end(&draft->guide);
}

static size_t smaller(size_t a, size_t b)
{
    return a < b ? a : b;
}

void draft_bytes(struct draft *draft, const uint8_t *bytes, size_t count)
{
    count = smaller(count, DRAFT_BYTES - draft->length);
    memcpy(draft->bytes + draft->length, bytes, count);
    draft->length += count;
}

/* Writes a field; answers how many bytes it has. */
static size_t encode(uint8_t *out, unsigned tag, unsigned length, uint64_t number)
{
    out[0] = (uint8_t)tag;
    out[1] = (uint8_t)(length >> 8);
    out[2] = (uint8_t)length;
    for (unsigned i = length; i > 0; i--, number >>= 8)
        out[HEADER_BYTES + i - 1] = (uint8_t)number;
    return HEADER_BYTES + length;
}

void draft_field(struct draft *draft, unsigned tag, unsigned length, uint64_t number)
{
    static uint8_t field[HEADER_BYTES + 65535];

    if (draft->count < DRAFT_FIELDS)
        draft->starts[draft->count++] = draft->length;
    draft_bytes(draft, field, encode(field, tag, length, number));
}

void draft_start(struct draft *draft, size_t c)
{
    draft_field(draft, TAG_START, 1, c);
    pool_fresh(&draft->guide, c);
}

void draft_reserve(struct draft *draft, uint64_t size)
{
    draft_field(draft, TAG_RESERVE, 4, size);
    pool_reserve(&draft->guide, size & UINT32_MAX);
}

void draft_release(struct draft *draft, uint64_t place)
{
    draft_field(draft, TAG_RELEASE, 4, place);
    pool_release(&draft->guide, place & UINT32_MAX);
}

void draft_resize(struct draft *draft, uint64_t place, uint64_t size)
{
    place &= UINT32_MAX;
    size &= UINT32_MAX;
    draft_field(draft, TAG_RESIZE, 8, place << 32 | size);
    pool_resize(&draft->guide, place, size);
}

void draft_end(struct draft *draft)
{
    draft_field(draft, TAG_END, 0, 0);
}

/* ---- At random ---------------------------------------------------------------- */

/* Few fields fill a pool. */
static uint64_t filling_size(unsigned b)
{
    (void)b;
    return rng_below(&rng, 4) ? draw_large_size(90) : draw_size_of_class(20 + rng_below(&rng, 10));
}

static uint64_t any_number(unsigned b)
{
    (void)b;
    return rng_next(&rng) >> rng_below(&rng, 64);
}

const struct diet diets[] = {
    {"small-sizes", draw_mostly_small, 55, 15},
    {"all-sizes", draw_any_size, 45, 20},
    {"large-only", draw_large_only, 42, 20},
    {"filling-up", filling_size, 80, 12},
    {"one-class", draw_mostly_class, 50, 15},
    {"any-numbers", any_number, 40, 20},
    {"resizes", draw_any_size, 30, 55},
};

const size_t diet_count = COUNT(diets);

/* A live place, one of those tried lately, or one that may be anywhere. */
static uint64_t any_place(const struct pool *guide, uint64_t *recent)
{
    uint64_t place;

    switch (rng_below(&rng, 16)) {
    case 0:
    case 1:
        return *recent;
    case 2:
    case 3:
    case 4:
    case 5:
        place = draw_hostile_place(guide);
        break;
    default:
        place = draw_live_place(guide);
    }
    if (rng_below(&rng, 8) == 0)
        *recent = place;
    return place;
}

void draft_log(struct draft *draft, size_t c, const struct diet *diet, unsigned fields)
{
    unsigned b = rng_below(&rng, CLASSES);
    uint64_t recent = PAGE_BYTES;

    draft_clear(draft);
    draft_start(draft, c);
    for (unsigned i = 0; i < fields; i++) {
        unsigned pick = rng_below(&rng, 100);
        uint64_t place = any_place(&draft->guide, &recent);
        if (pick < diet->reserves)
            draft_reserve(draft, diet->size(b));
        else if (pick < diet->reserves + diet->resizes)
            draft_resize(draft, place, rng_below(&rng, 4) ? draw_new_size(&draft->guide, place)
                                                          : diet->size(b));
        else
            draft_release(draft, place);
    }
    draft_end(draft);
}

/* ---- Gone bad ------------------------------------------------------------------ */

static size_t any_below(size_t limit)
{
    return (size_t)(rng_next(&rng) % limit);
}

/* Often one of the first or last fields. */
static size_t any_field(const struct draft *draft)
{
    switch (rng_below(&rng, 6)) {
    case 0:
        return 0;
    case 1:
        return draft->count - 1;
    case 2:
        return smaller(1, draft->count - 1);
    default:
        return any_below(draft->count);
    }
}

static uint8_t *any_header(struct draft *draft)
{
    return draft->bytes + draft->starts[any_field(draft)];
}

/* Puts so many bytes in, or takes so many out, at a position of the log. */
static void insert(struct draft *draft, size_t at, const uint8_t *bytes, size_t count)
{
    if (count > DRAFT_BYTES - draft->length)
        return;
    memmove(draft->bytes + at + count, draft->bytes + at, draft->length - at);
    memcpy(draft->bytes + at, bytes, count);
    draft->length += count;
}

static void take_out(struct draft *draft, size_t at, size_t count)
{
    count = smaller(count, draft->length - at);
    draft->length -= count;
    memmove(draft->bytes + at, draft->bytes + at + count, draft->length - at);
}

static void spoil_by_cut(struct draft *draft)
{
    draft->length = any_below(draft->length);
}

static void spoil_by_cut_near_a_field(struct draft *draft)
{
    size_t cut = draft->starts[any_field(draft)] + rng_below(&rng, 8);

    draft->length = smaller(cut, draft->length);
}

/* Also another tag of the log, so the length or the turn is wrong. */
static void spoil_tag(struct draft *draft)
{
    static const uint8_t tags[] = {0, 1, 2, 3, 4, 5, 6, 7, 8, 9, 16, 128, 129, 130, 131, 136, 255};

    *any_header(draft) = tags[rng_below(&rng, COUNT(tags))];
}

static void spoil_length(struct draft *draft)
{
    uint8_t *header = any_header(draft);

    switch (rng_below(&rng, 4)) {
    case 0:
        header[1] = (uint8_t)(1 + rng_below(&rng, 255));
        break;
    case 1:
        header[1] = header[2]; /* low byte first */
        header[2] = 0;
        break;
    case 2:
        header[2] = (uint8_t)(header[2] + (rng_below(&rng, 2) ? 1 : -1));
        break;
    default:
        header[2] = (uint8_t)rng_next(&rng);
    }
}

static void spoil_start_count(struct draft *draft)
{
    static const uint8_t counts[] = {0, 1, 2, 15, 16, 17, 18, 32, 128, 255};

    draft->bytes[HEADER_BYTES] = counts[rng_below(&rng, COUNT(counts))];
}

static void spoil_by_field(struct draft *draft, unsigned tag, unsigned length, uint64_t number)
{
    uint8_t field[HEADER_BYTES + 12];

    insert(draft, draft->starts[any_field(draft)], field, encode(field, tag, length, number));
}

static void spoil_by_second_start(struct draft *draft)
{
    spoil_by_field(draft, TAG_START, 1, draft->bytes[HEADER_BYTES]);
}

static void spoil_by_early_end(struct draft *draft)
{
    spoil_by_field(draft, TAG_END, 0, 0);
}

static void spoil_by_odd_field(struct draft *draft)
{
    spoil_by_field(draft, rng_below(&rng, 10), rng_below(&rng, 12), rng_next(&rng));
}

static void spoil_by_no_start(struct draft *draft)
{
    take_out(draft, 0, 4);
}

static void spoil_by_no_end(struct draft *draft)
{
    draft->length = draft->starts[draft->count - 1];
}

static void spoil_by_bytes_after_end(struct draft *draft)
{
    uint8_t bytes[9];

    for (size_t i = 0; i < COUNT(bytes); i++)
        bytes[i] = (uint8_t)rng_below(&rng, rng_below(&rng, 2) ? 9 : 256);
    draft_bytes(draft, bytes, 1 + rng_below(&rng, COUNT(bytes)));
}

static void spoil_by_field_after_end(struct draft *draft)
{
    if (rng_below(&rng, 2))
        draft_field(draft, TAG_END, 0, 0);
    else
        draft_field(draft, TAG_RESERVE, 4, 24);
}

static void spoil_byte(struct draft *draft)
{
    draft->bytes[any_below(draft->length)] = (uint8_t)rng_next(&rng);
}

static void spoil_by_byte_more(struct draft *draft)
{
    uint8_t byte = (uint8_t)rng_below(&rng, rng_below(&rng, 2) ? 9 : 256);

    insert(draft, any_below(draft->length), &byte, 1);
}

static void spoil_by_bytes_less(struct draft *draft)
{
    take_out(draft, any_below(draft->length), 1 + rng_below(&rng, 3));
}

static void (*const spoilers[])(struct draft *) = {
    spoil_by_cut,             spoil_by_cut_near_a_field, spoil_by_cut_near_a_field,
    spoil_tag,                spoil_tag,                 spoil_length,
    spoil_length,             spoil_start_count,         spoil_by_second_start,
    spoil_by_early_end,       spoil_by_odd_field,        spoil_by_no_start,
    spoil_by_no_end,          spoil_by_bytes_after_end,  spoil_by_field_after_end,
    spoil_byte,               spoil_by_byte_more,        spoil_by_bytes_less,
};

void draft_spoil(struct draft *draft)
{
    spoilers[rng_below(&rng, COUNT(spoilers))](draft);
}
