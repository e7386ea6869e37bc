#include "cases.h"

#include "random.h"

#include <string.h>

enum {
    AT_LARGE = AT_LARGE_FIRST | AT_LARGE_INNER,
    AT_CLASS = AT_CLASS_FIRST | AT_CLASS_INNER,
    AT_FIRST = AT_LARGE_FIRST | AT_CLASS_FIRST,
    AT_TAKEN = AT_LARGE | AT_CLASS,
    AT_ANY_BUT_0 = AT_FREE | AT_TAKEN
};

/* ---- The chunk before it is damaged ------------------------------------ */

static void view_run(struct site *site, const struct run *run)
{
    bool large = run->kind == RUN_LARGE;

    for (unsigned k = 0; k < run->pages; k++) {
        struct page_view *view = &site->pages[run->first + k];
        view->run = run;
        view->offset = k;
        if (k == 0)
            view->kind = large ? AT_LARGE_FIRST : AT_CLASS_FIRST;
        else
            view->kind = large ? AT_LARGE_INNER : AT_CLASS_INNER;
    }
}

void site_read(struct site *site, const struct records *r, size_t chunk)
{
    static const struct page_view page_0 = {AT_PAGE_0, NULL, 0};
    static const struct page_view free_page = {AT_FREE, NULL, 0};

    site->here = chunk_of(r, chunk);
    site->has_next = chunk + 1 < r->c;
    site->next = chunk_of(r, site->has_next ? chunk + 1 : chunk);
    model_decode(site->here.words, &site->runs);

    for (unsigned page = 0; page < PAGES; page++)
        site->pages[page] = page == 0 ? page_0 : free_page;
    for (unsigned i = 0; i < site->runs.count; i++)
        view_run(site, &site->runs.runs[i]);
}

/* Frees, as a release would, each run that reaches this page or lies behind. */
static void clear_from(struct site *site, unsigned page)
{
    for (unsigned i = 0; i < site->runs.count; i++) {
        const struct run *run = &site->runs.runs[i];
        if (run->first + run->pages > page)
            wipe_pages(site->here, run->first, run->pages);
    }
}

/* Puts another word, if it is another one. */
static bool put_word(struct site *site, unsigned page, uint32_t word)
{
    if (site->here.words[page] == word)
        return false;
    site->here.words[page] = word;
    return true;
}

static unsigned class_at(const struct site *site, unsigned page)
{
    return site->pages[page].run->class_number;
}

/* ---- Page words that mean nothing -------------------------------------- */

/* The inner words among these may be right in a run, then put_word says so. */
static const uint32_t unknown_words[] = {
    0x00000001, 0x00000002, 0x0000001D, 0x00000200, 0x00010000, 0x3FFFFFFF,
    0x40000000, 0x40000200, 0x40000201, 0x40010001, 0x60000001, 0x7FFFFFFF,
    0x8000001E, 0x8000001F, 0x80000020, 0x80000100, 0x80010000, 0xA0000000,
    0xBFFFFFFF, 0xC0000000, 0xC0000001, 0xC0000010, 0xC000001D, 0xC0010000,
    0xC0010010, 0xC001001E, 0xC0020010, 0xC0080000, 0xFFFF001D, 0xFFFFFFFF,
};

static bool unknown_word(struct site *site, unsigned page, unsigned variant)
{
    return put_word(site, page, unknown_words[variant]);
}

static bool unknown_word_taken(struct site *site, unsigned page, unsigned variant)
{
    set_page_bit(site->here, page, true);
    return put_word(site, page, unknown_words[variant]);
}

/* ---- Runs over the end of their chunk ---------------------------------- */

static const unsigned overshoots[] = {1, 2, 3, 63, 64, 65, 511, 512};

/* A large run that ends so many pages behind the chunk, all else as it would be. */
static void put_long_run(struct site *site, unsigned page, unsigned over)
{
    clear_from(site, page);
    site->here.words[page] = WORD_LARGE(PAGES - page + over);
    for (unsigned p = page; p < PAGES; p++)
        set_page_bit(site->here, p, true);
}

static bool large_past_end(struct site *site, unsigned page, unsigned variant)
{
    put_long_run(site, page, overshoots[variant]);
    return true;
}

/* The next chunk goes along: the run's pages there look like inner ones. */
static bool large_into_next(struct site *site, unsigned page, unsigned variant)
{
    unsigned over = overshoots[variant];

    if (!site->has_next)
        return false;
    put_long_run(site, page, over);
    chunk_wipe(site->next);
    for (unsigned p = 0; p < over; p++)
        set_page_bit(site->next, p, true);
    return true;
}

/* Puts page k of a run of class b. */
static void put_class_page(struct chunk chunk, unsigned page, unsigned k, unsigned b)
{
    chunk.words[page] = k == 0 ? WORD_CLASS(b) : WORD_INNER(k, b);
    set_page_bit(chunk, page, true);
}

static bool class_past_end(struct site *site, unsigned page, unsigned b)
{
    unsigned inside = PAGES - page;

    if (size_classes[b].pages <= inside)
        return false;
    clear_from(site, page);
    for (unsigned k = 0; k < inside; k++)
        put_class_page(site->here, page + k, k, b);
    return true;
}

static bool class_into_next(struct site *site, unsigned page, unsigned b)
{
    unsigned inside = PAGES - page;

    if (!site->has_next || !class_past_end(site, page, b))
        return false;
    chunk_wipe(site->next);
    for (unsigned k = inside; k < size_classes[b].pages; k++)
        put_class_page(site->next, k - inside, k, b);
    return true;
}

/* ---- Pages inside class runs ------------------------------------------- */

static bool inner_offset(struct site *site, unsigned page, unsigned variant)
{
    unsigned k = site->pages[page].offset;
    const unsigned wrong[] = {k - 1, k + 1, 0, k + 8, k + 256, 0x3FFF};

    return put_word(site, page, WORD_INNER(wrong[variant], class_at(site, page)));
}

static bool inner_zero(struct site *site, unsigned page, unsigned variant)
{
    (void)variant;
    return put_word(site, page, WORD_FREE);
}

static bool inner_free(struct site *site, unsigned page, unsigned variant)
{
    set_page_bit(site->here, page, false);
    return inner_zero(site, page, variant);
}

static bool inner_other_class(struct site *site, unsigned page, unsigned b)
{
    return put_word(site, page, WORD_INNER(site->pages[page].offset, b));
}

static bool inner_starts_run(struct site *site, unsigned page, unsigned variant)
{
    const uint32_t starts[] = {
        WORD_CLASS(class_at(site, page)), WORD_CLASS(0), WORD_LARGE(1), WORD_LARGE(2)};

    return put_word(site, page, starts[variant]);
}

/* An inner page too many, right behind the run. */
static bool run_too_long(struct site *site, unsigned page, unsigned variant)
{
    const struct run *before = site->pages[page - 1].run;

    (void)variant;
    if (before == NULL || before->kind != RUN_CLASS)
        return false;
    put_class_page(site->here, page, before->pages, before->class_number);
    return true;
}

/* ---- First pages of class runs ----------------------------------------- */

/* Between two classes of one page only the slots differ: not this case. */
static bool first_other_class(struct site *site, unsigned page, unsigned b)
{
    if (size_classes[class_at(site, page)].pages == 1 && size_classes[b].pages == 1)
        return false;
    return put_word(site, page, WORD_CLASS(b));
}

/* A run of a smaller count of slots than the highest one taken. */
static bool first_fewer_slots(struct site *site, unsigned page, unsigned b)
{
    const struct size_class *now = &size_classes[class_at(site, page)];

    if (now->pages != 1 || size_classes[b].pages != 1 || size_classes[b].slots >= now->slots)
        return false;
    set_slot_bit(site->here, page, now->slots - 1);
    return put_word(site, page, WORD_CLASS(b));
}

static bool first_zero(struct site *site, unsigned page, unsigned variant)
{
    (void)variant;
    return put_word(site, page, WORD_FREE);
}

/* Only the first page is freed; the others are left without their run. */
static bool first_freed(struct site *site, unsigned page, unsigned variant)
{
    (void)variant;
    if (site->pages[page].run->pages == 1)
        return false;
    wipe_pages(site->here, page, 1);
    return true;
}

/* ---- Large runs --------------------------------------------------------- */

static bool large_inner_word(struct site *site, unsigned page, unsigned variant)
{
    const struct page_view *view = &site->pages[page];
    unsigned left = view->run->pages - view->offset;
    const uint32_t words[] = {
        1, WORD_LARGE(1), WORD_LARGE(left), WORD_CLASS(0), WORD_CLASS(7),
        WORD_INNER(view->offset, 0), WORD_INNER(1, 16), WORD_LARGE(0)};

    return put_word(site, page, words[variant]);
}

static bool large_length(struct site *site, unsigned page, unsigned variant)
{
    unsigned n = site->pages[page].run->pages;
    const unsigned lengths[] = {n + 1, n + 2, n + 7, n - 1, n / 2};

    if (lengths[variant] == 0)
        return false;
    return put_word(site, page, WORD_LARGE(lengths[variant]));
}

/* ---- Page bits ----------------------------------------------------------- */

static bool bit_flipped(struct site *site, unsigned page, unsigned variant)
{
    (void)variant;
    set_page_bit(site->here, page, !page_bit(site->here, page));
    return true;
}

static bool run_bits_0(struct site *site, unsigned page, unsigned variant)
{
    const struct run *run = site->pages[page].run;

    (void)variant;
    for (unsigned k = 0; k < run->pages; k++)
        set_page_bit(site->here, page + k, false);
    return true;
}

/* All 64 page bits at once. */
static bool bit_word(struct site *site, unsigned page, unsigned variant)
{
    uint64_t *word = &site->here.bits[page / 64];
    const uint64_t words[] = {0, UINT64_MAX, ~*word, *word << 1, *word >> 1};

    if (page % 64 != 0 || *word == words[variant])
        return false;
    *word = words[variant];
    return true;
}

/* ---- Page 0 --------------------------------------------------------------- */

static const uint32_t page_0_words[] = {
    0x00000000, 0x00000001, 0x40000000, 0x40000002, 0x40000003, 0x400001FF,
    0x40000200, 0x40000201, 0x40010001, 0x80000000, 0x80000001, 0x80000010,
    0x8000001D, 0xC0000000, 0xC0000001, 0xC0010000, 0xC0010010, 0xFFFFFFFF,
};

static bool page_0_word(struct site *site, unsigned page, unsigned variant)
{
    return put_word(site, page, page_0_words[variant]);
}

static bool page_0_free(struct site *site, unsigned page, unsigned variant)
{
    (void)variant;
    wipe_pages(site->here, page, 1);
    return true;
}

/* Page 0 handed out as the first page of a run that is right in itself. */
static bool page_0_large_run(struct site *site, unsigned page, unsigned variant)
{
    static const unsigned lengths[] = {2, 3, 64, 65, 511, 512};

    chunk_wipe(site->here);
    site->here.words[page] = WORD_LARGE(lengths[variant]);
    for (unsigned p = 0; p < lengths[variant]; p++)
        set_page_bit(site->here, p, true);
    return true;
}

static bool page_0_class_run(struct site *site, unsigned page, unsigned b)
{
    chunk_wipe(site->here);
    for (unsigned k = 0; k < size_classes[b].pages; k++)
        put_class_page(site->here, page + k, k, b);
    return true;
}

/* ---- Slot bits ------------------------------------------------------------- */

static unsigned slots_at(const struct site *site, unsigned page)
{
    return size_classes[class_at(site, page)].slots;
}

static bool slot_behind_last(struct site *site, unsigned page, unsigned variant)
{
    (void)variant;
    if (slots_at(site, page) == PAGE_SLOT_BITS)
        return false;
    set_slot_bit(site->here, page, slots_at(site, page));
    return true;
}

static bool slot_last_bit(struct site *site, unsigned page, unsigned variant)
{
    (void)variant;
    if (slots_at(site, page) == PAGE_SLOT_BITS)
        return false;
    set_slot_bit(site->here, page, PAGE_SLOT_BITS - 1);
    return true;
}

/* The first bit of each slot word that holds no slot of the run. */
static bool slot_word_behind(struct site *site, unsigned page, unsigned word)
{
    if (64 * word < slots_at(site, page))
        return false;
    set_slot_bit(site->here, page, 64 * word);
    return true;
}

/* RULES 12.4, "Slips that look right": 171 slots of 24 bytes. */
static bool slot_170_of_class_2(struct site *site, unsigned page, unsigned variant)
{
    (void)variant;
    if (class_at(site, page) != 2)
        return false;
    set_slot_bit(site->here, page, 170);
    return true;
}

/* At a page that no run of slots starts at, each of these bits is stray. */
static const unsigned stray_slots[] = {0, 1, 31, 63, 64, 127, 255, 448, 511};

static bool slot_stray(struct site *site, unsigned page, unsigned variant)
{
    set_slot_bit(site->here, page, stray_slots[variant]);
    return true;
}

/* The pages are freed, a taken slot is left behind. */
static bool slot_left_behind(struct site *site, unsigned page, unsigned variant)
{
    unsigned last = slots_at(site, page) - 1;

    wipe_pages(site->here, page, site->pages[page].run->pages);
    set_slot_bit(site->here, page, variant == 0 ? 0 : last);
    return true;
}

/* ---- A whole chunk --------------------------------------------------------- */

static bool chunk_ruined(struct site *site, unsigned page, unsigned variant)
{
    enum { BITS, WORDS, SLOTS, ALL };
    struct chunk here = site->here;
    int byte = variant % 2 == 0 ? 0x00 : 0xFF;
    unsigned what = variant / 2;

    (void)page;
    if (what == SLOTS && byte == 0)
        return false; /* no slot taken at all is no damage */
    if (what == BITS || what == ALL)
        memset(here.bits, byte, BIT_WORDS * sizeof *here.bits);
    if (what == WORDS || what == ALL)
        memset(here.words, byte, PAGES * sizeof *here.words);
    if (what == SLOTS || what == ALL)
        memset(here.slots, byte, SLOT_WORDS * sizeof *here.slots);
    return true;
}

const struct damage_case damage_cases[] = {
    {"unknown-word-at-free-page", AT_FREE, COUNT(unknown_words), unknown_word},
    {"unknown-word-at-free-page-bit-1", AT_FREE, COUNT(unknown_words), unknown_word_taken},
    {"unknown-word-at-large-first", AT_LARGE_FIRST, COUNT(unknown_words), unknown_word},
    {"unknown-word-at-large-inner", AT_LARGE_INNER, COUNT(unknown_words), unknown_word},
    {"unknown-word-at-class-first", AT_CLASS_FIRST, COUNT(unknown_words), unknown_word},
    {"unknown-word-at-class-inner", AT_CLASS_INNER, COUNT(unknown_words), unknown_word},

    {"large-run-past-chunk-end", AT_ANY_BUT_0, COUNT(overshoots), large_past_end},
    {"large-run-into-next-chunk", AT_ANY_BUT_0, COUNT(overshoots), large_into_next},
    {"class-run-past-chunk-end", AT_ANY_BUT_0, CLASSES, class_past_end},
    {"class-run-into-next-chunk", AT_ANY_BUT_0, CLASSES, class_into_next},

    {"class-inner-offset-wrong", AT_CLASS_INNER, 6, inner_offset},
    {"class-inner-word-0", AT_CLASS_INNER, 1, inner_zero},
    {"class-inner-page-freed", AT_CLASS_INNER, 1, inner_free},
    {"class-inner-of-other-class", AT_CLASS_INNER, CLASSES, inner_other_class},
    {"class-inner-starts-a-run", AT_CLASS_INNER, 4, inner_starts_run},
    {"class-run-one-page-too-long", AT_FREE, 1, run_too_long},
    {"class-first-of-other-class", AT_CLASS_FIRST, CLASSES, first_other_class},
    {"class-first-of-fewer-slots", AT_CLASS_FIRST, CLASSES, first_fewer_slots},
    {"class-first-word-0", AT_CLASS_FIRST, 1, first_zero},
    {"class-first-page-freed", AT_CLASS_FIRST, 1, first_freed},

    {"large-inner-word-not-0", AT_LARGE_INNER, 8, large_inner_word},
    {"large-length-wrong", AT_LARGE_FIRST, 5, large_length},
    {"large-first-word-0", AT_LARGE_FIRST, 1, first_zero},

    {"taken-page-bit-0", AT_TAKEN, 1, bit_flipped},
    {"free-page-bit-1", AT_FREE, 1, bit_flipped},
    {"run-page-bits-0", AT_FIRST, 1, run_bits_0},
    {"page-bit-word-wrong", AT_PAGE_0 | AT_ANY_BUT_0, 5, bit_word},

    {"page-0-bit-0", AT_PAGE_0, 1, bit_flipped},
    {"page-0-other-word", AT_PAGE_0, COUNT(page_0_words), page_0_word},
    {"page-0-free", AT_PAGE_0, 1, page_0_free},
    {"page-0-in-large-run", AT_PAGE_0, 6, page_0_large_run},
    {"page-0-in-class-run", AT_PAGE_0, CLASSES, page_0_class_run},

    {"slot-bit-behind-last-slot", AT_CLASS_FIRST, 1, slot_behind_last},
    {"slot-bit-511", AT_CLASS_FIRST, 1, slot_last_bit},
    {"slot-word-behind-last-slot", AT_CLASS_FIRST, PAGE_SLOT_WORDS, slot_word_behind},
    {"slot-170-of-class-2", AT_CLASS_FIRST, 1, slot_170_of_class_2},
    {"slot-bit-at-free-page", AT_FREE, COUNT(stray_slots), slot_stray},
    {"slot-bit-at-class-inner", AT_CLASS_INNER, COUNT(stray_slots), slot_stray},
    {"slot-bit-at-large-first", AT_LARGE_FIRST, COUNT(stray_slots), slot_stray},
    {"slot-bit-at-large-inner", AT_LARGE_INNER, COUNT(stray_slots), slot_stray},
    {"slot-bit-at-page-0", AT_PAGE_0, COUNT(stray_slots), slot_stray},
    {"slot-bit-of-freed-run", AT_CLASS_FIRST, 2, slot_left_behind},

    {"chunk-all-0-or-all-1", AT_PAGE_0, 8, chunk_ruined},
};

const size_t damage_case_count = COUNT(damage_cases);
