#include "records.h"

#include <string.h>

/* RULES 2.1: size, slots, pages. */
const struct size_class size_classes[CLASSES] = {
    {8, 512, 1},   {16, 256, 1},  {24, 170, 1},  {32, 128, 1},  {40, 102, 1},
    {48, 85, 1},   {56, 73, 1},   {64, 64, 1},   {80, 51, 1},   {96, 42, 1},
    {112, 36, 1},  {128, 32, 1},  {160, 25, 1},  {192, 21, 1},  {224, 18, 1},
    {256, 16, 1},  {320, 64, 5},  {384, 32, 3},  {448, 9, 1},   {512, 8, 1},
    {640, 32, 5},  {768, 16, 3},  {896, 9, 2},   {1024, 8, 2},  {1280, 16, 5},
    {1536, 8, 3},  {1792, 16, 7}, {2048, 8, 4},  {2560, 8, 5},  {3072, 4, 3},
};

/* ---- Chunks -------------------------------------------------------------- */

struct chunk chunk_of(const struct records *r, size_t number)
{
    struct chunk chunk;
    chunk.bits = r->bits + number * BIT_WORDS;
    chunk.words = r->words + number * PAGES;
    chunk.slots = r->slots + number * SLOT_WORDS;
    return chunk;
}

void chunk_copy(struct chunk to, struct chunk from)
{
    memcpy(to.bits, from.bits, BIT_WORDS * sizeof *to.bits);
    memcpy(to.words, from.words, PAGES * sizeof *to.words);
    memcpy(to.slots, from.slots, SLOT_WORDS * sizeof *to.slots);
}

void chunk_wipe(struct chunk chunk)
{
    wipe_pages(chunk, 0, PAGES);
}

bool page_bit(struct chunk chunk, unsigned page)
{
    return (chunk.bits[page / 64] >> (page % 64)) & 1;
}

void set_page_bit(struct chunk chunk, unsigned page, bool taken)
{
    uint64_t bit = UINT64_C(1) << (page % 64);
    if (taken)
        chunk.bits[page / 64] |= bit;
    else
        chunk.bits[page / 64] &= ~bit;
}

void flip_slot_bit(struct chunk chunk, unsigned page, unsigned slot)
{
    chunk.slots[PAGE_SLOT_WORDS * page + slot / 64] ^= UINT64_C(1) << (slot % 64);
}

void set_slot_bit(struct chunk chunk, unsigned page, unsigned slot)
{
    chunk.slots[PAGE_SLOT_WORDS * page + slot / 64] |= UINT64_C(1) << (slot % 64);
}

void wipe_pages(struct chunk chunk, unsigned first, unsigned pages)
{
    for (unsigned page = first; page < first + pages; page++) {
        set_page_bit(chunk, page, false);
        chunk.words[page] = WORD_FREE;
    }
    memset(chunk.slots + PAGE_SLOT_WORDS * first, 0,
           pages * PAGE_SLOT_WORDS * sizeof *chunk.slots);
}

/* ---- The check --------------------------------------------------------- */

/* Page words of one kind share their two highest bits. */
enum word_kind { KIND_NONE = 0, KIND_LARGE = 1, KIND_CLASS = 2, KIND_INNER = 3 };

static enum word_kind word_kind(uint32_t word)
{
    return (enum word_kind)(word >> 30);
}

/* The run that a page word claims to start; false if there is none like it. */
static bool claimed_run(uint32_t word, unsigned page, struct run *run)
{
    uint32_t number = word & UINT32_C(0x3FFFFFFF);

    run->first = page;
    if (word_kind(word) == KIND_CLASS) {
        if (number >= CLASSES)
            return false;
        run->kind = RUN_CLASS;
        run->class_number = number;
        run->pages = size_classes[number].pages;
    } else {
        if (number < 1 || number > PAGES - 1)
            return false;
        run->kind = RUN_LARGE;
        run->class_number = 0;
        run->pages = number;
    }
    return page + run->pages <= PAGES; /* "wholly inside the chunk" */
}

bool model_decode(const uint32_t *words, struct run_list *list)
{
    list->count = 0;
    for (unsigned page = 1; page < PAGES; page++) {
        enum word_kind kind = word_kind(words[page]);
        if (kind != KIND_LARGE && kind != KIND_CLASS)
            continue; /* whether it is right here, the comparison will tell */
        if (!claimed_run(words[page], page, &list->runs[list->count]))
            return false;
        list->count++;
    }
    return true;
}

/* Takes the pages of a run; false when one is taken already. */
static bool take_pages(struct chunk out, const struct run *run)
{
    for (unsigned k = 0; k < run->pages; k++) {
        if (page_bit(out, run->first + k))
            return false;
        set_page_bit(out, run->first + k, true);
    }
    return true;
}

/* Sets the bits of slots 0 to count - 1 of the run that starts at a page. */
static void allow_slots(struct chunk out, unsigned page, unsigned count)
{
    uint64_t *word = out.slots + PAGE_SLOT_WORDS * page;

    for (; count >= 64; count -= 64)
        *word++ = UINT64_MAX;
    if (count > 0)
        *word = (UINT64_C(1) << count) - 1;
}

static void write_class_run(struct chunk out, const struct run *run)
{
    unsigned b = run->class_number;

    out.words[run->first] = WORD_CLASS(b);
    for (unsigned k = 1; k < run->pages; k++)
        out.words[run->first + k] = WORD_INNER(k, b);
    allow_slots(out, run->first, size_classes[b].slots);
}

bool model_write(const struct run_list *list, struct chunk out)
{
    memset(out.bits, 0, BIT_WORDS * sizeof *out.bits);
    memset(out.words, 0, PAGES * sizeof *out.words);
    memset(out.slots, 0, SLOT_WORDS * sizeof *out.slots);

    set_page_bit(out, 0, true);
    out.words[0] = WORD_PAGE_0;
    for (unsigned i = 0; i < list->count; i++) {
        const struct run *run = &list->runs[i];
        if (!take_pages(out, run))
            return false;
        if (run->kind == RUN_CLASS)
            write_class_run(out, run);
        else
            out.words[run->first] = WORD_LARGE(run->pages);
    }
    return true;
}

/* Is each 1 among the slot bits lent also a 1 among those allowed? */
static bool slots_allowed(const uint64_t *lent, const uint64_t *allowed)
{
    uint64_t stray = 0;

    for (unsigned i = 0; i < SLOT_WORDS; i++)
        stray |= lent[i] & ~allowed[i];
    return stray == 0;
}

bool model_chunk_sound(struct chunk lent)
{
    static struct run_list list;
    static uint64_t bits[BIT_WORDS], slots[SLOT_WORDS];
    static uint32_t words[PAGES];
    struct chunk right = {bits, words, slots};

    return model_decode(lent.words, &list)
        && model_write(&list, right)
        && memcmp(lent.bits, right.bits, sizeof bits) == 0
        && memcmp(lent.words, right.words, sizeof words) == 0
        && slots_allowed(lent.slots, right.slots);
}

bool model_sound(const struct records *lent)
{
    for (size_t k = 0; k < lent->c; k++)
        if (!model_chunk_sound(chunk_of(lent, k)))
            return false;
    return true;
}

unsigned model_check(const struct records *lent)
{
    return model_sound(lent) ? 0 : 2;
}
