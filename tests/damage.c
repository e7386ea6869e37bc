/*
 * Tests of the record check and of fresh, through the C calls.
 *
 * Each answer of the library is compared with the independent check of
 * records.c. One line is printed for each named group, then the count of groups.
 * Usage: damage [SEED]
 */
#include "calls.h"
#include "groups.h"
#include "shapes.h"
#include "trials.h"

#include <inttypes.h>
#include <string.h>

/* ---- Sound pools --------------------------------------------------------- */

static void expect_sound(struct trial_pools *pools)
{
    size_t c = pools->lent.c;
    uint64_t answer = library_check(&pools->lent);

    group.trials++;
    expect(model_check(&pools->lent) == 0, "c %zu: the model says damaged", c);
    expect(answer == 0, "c %zu: the library says %" PRIu64, c, answer);
    expect(lent_equal(&pools->lent, &pools->before), "c %zu: a buffer was changed", c);
}

static void test_sound_recipe(const struct recipe *recipe, unsigned rounds)
{
    for (size_t c = 1; c <= MAX_CHUNKS; c++) {
        struct trial_pools pools = pools_new(c);
        for (unsigned i = 0; i < rounds; i++) {
            pools_generate(&pools, recipe);
            expect_sound(&pools);
        }
        pools_free(&pools);
    }
}

static void test_sound_pools(void)
{
    for (size_t i = 0; i < recipe_count; i++) {
        group_begin("sound", recipes[i].name);
        test_sound_recipe(&recipes[i], 12);
        group_end();
    }
    group_begin("sound", "each-class-alone");
    for (unsigned b = 0; b < CLASSES; b++) {
        for (unsigned fill = FILL_RANDOM; fill <= FILL_EMPTY; fill++) {
            struct recipe recipe = recipe_of_class(b, (enum fill)fill);
            test_sound_recipe(&recipe, 1);
        }
    }
    group_end();
}

/* The records after the sample log (RULES 12.3). */
static void test_sample(void)
{
    struct trial_pools pools = pools_new(1);
    struct records *r = &pools.sound;

    r->bits[0] = 0x1F;
    r->words[0] = 0x40000001;
    r->words[1] = 0x80000002; /* 24 bytes: slots 0 and 1 */
    r->words[2] = 0x40000002; /* 5000 bytes: pages 2 and 3 */
    r->words[4] = 0x80000001; /* 16 bytes: slot 0 */
    r->slots[8] = 3;
    r->slots[32] = 1;
    lent_copy(&pools.lent, r);
    lent_copy(&pools.before, r);

    group_begin("sound", "document-sample");
    expect_sound(&pools);
    group_end();
    pools_free(&pools);
}

/* The numbers of the header, and the class table as PHP 7 cuts pages. */
static void test_numbers(void)
{
    group_begin("numbers", "header-and-classes");
    group.trials = 1;
    expect(LENSEMBER_CHUNK_BYTES == 2097152, "LENSEMBER_CHUNK_BYTES");
    expect(LENSEMBER_PAGE_BYTES == 4096, "LENSEMBER_PAGE_BYTES");
    expect(LENSEMBER_CHUNK_PAGES == PAGES, "LENSEMBER_CHUNK_PAGES");
    expect(LENSEMBER_MAX_CHUNKS == MAX_CHUNKS, "LENSEMBER_MAX_CHUNKS");
    expect(LENSEMBER_CHUNK_BITS == BIT_WORDS, "LENSEMBER_CHUNK_BITS");
    expect(LENSEMBER_CHUNK_WORDS == PAGES, "LENSEMBER_CHUNK_WORDS");
    expect(LENSEMBER_CHUNK_SLOTS == SLOT_WORDS, "LENSEMBER_CHUNK_SLOTS");
    expect(LENSEMBER_OK == 0 && LENSEMBER_SHAPE == 1 && LENSEMBER_DAMAGED == 2, "answers");
    expect(LENSEMBER_TOO_BIG == 3 && LENSEMBER_NO_ROOM == 4, "answers of reserve");
    expect(LENSEMBER_NO_BLOCK == 5 && LENSEMBER_FREE_SLOT == 6, "answers of release");
    expect(LENSEMBER_SHORT_ROOM == 7, "answer of census and lines");
    expect(LENSEMBER_CUT_LOG == 8 && LENSEMBER_BAD_FIELD == 9, "answers of replay");
    expect(LENSEMBER_LINES_ROOM(2) == 84, "room of lines");
    expect(LENSEMBER_NOTHING == 0 && LENSEMBER_SLOT == 1 && LENSEMBER_RUN == 2, "kinds");
    for (unsigned b = 0; b < CLASSES; b++) {
        const struct size_class *row = &size_classes[b];
        group.trials++;
        expect(row->slots == row->pages * 4096 / row->size, "class %u", b);
        expect(b == 0 || row[-1].size < row->size, "order of class %u", b);
    }
    group_end();
}

/* ---- Named damage --------------------------------------------------------- */

static const struct effort efforts[] = {
    {1, 20000, 100}, {2, 1500, 100}, {3, 400, 5}, {16, 90, 3}};

static void expect_damaged(const struct trial_pools *pools, size_t chunk, unsigned page,
                           unsigned variant)
{
    size_t c = pools->lent.c;
    uint64_t answer = library_check(&pools->lent);

    group.trials++;
    expect(model_check(&pools->lent) == 2,
           "c %zu chunk %zu page %u variant %u: the model says sound",
           c, chunk, page, variant);
    expect(answer == 2,
           "c %zu chunk %zu page %u variant %u: the library says %" PRIu64,
           c, chunk, page, variant, answer);
    expect(lent_equal(&pools->lent, &pools->before),
           "c %zu chunk %zu page %u variant %u: a buffer was changed",
           c, chunk, page, variant);
}

static void test_named_damage(void)
{
    try_damage_cases("damage", efforts, COUNT(efforts), expect_damaged);
}

/* ---- Every single bit ------------------------------------------------------ */

/* One bit of the lent pool is flipped now; the answers must agree. */
static uint64_t compare_answers(const struct records *lent, const char *what, size_t index)
{
    uint64_t answer = library_check(lent);
    unsigned right = model_check(lent);

    group.trials++;
    expect(answer == right, "c %zu %s %zu: the library says %" PRIu64 ", the model %u",
           lent->c, what, index, answer, right);
    return answer;
}

static void flip_page_bits(struct trial_pools *pools, struct chunk chunk)
{
    for (unsigned page = 0; page < PAGES; page++) {
        uint64_t bit = UINT64_C(1) << (page % 64);
        chunk.bits[page / 64] ^= bit;
        expect(compare_answers(&pools->lent, "page bit", page) == 2, "page bit %u", page);
        chunk.bits[page / 64] ^= bit;
        expect(lent_equal(&pools->lent, &pools->sound), "changed at page bit %u", page);
    }
}

static void flip_page_words(struct trial_pools *pools, struct chunk chunk)
{
    for (unsigned page = 0; page < PAGES; page++) {
        for (unsigned bit = 0; bit < 32; bit++) {
            chunk.words[page] ^= UINT32_C(1) << bit;
            compare_answers(&pools->lent, "bit of page word", 32 * page + bit);
            chunk.words[page] ^= UINT32_C(1) << bit;
        }
        expect(lent_equal(&pools->lent, &pools->sound), "changed at page word %u", page);
    }
}

/* A bit that names a slot may be either, and is damage anywhere else. */
static bool names_slot(const struct site *site, unsigned page, unsigned slot)
{
    const struct page_view *view = &site->pages[page];

    return view->kind == AT_CLASS_FIRST && slot < size_classes[view->run->class_number].slots;
}

static void flip_slot_bits(struct trial_pools *pools, const struct site *site, unsigned step)
{
    for (unsigned page = 0; page < PAGES; page++) {
        for (unsigned slot = page % step; slot < PAGE_SLOT_BITS; slot += step) {
            uint64_t right = names_slot(site, page, slot) ? 0 : 2;
            flip_slot_bit(site->here, page, slot);
            expect(compare_answers(&pools->lent, "slot bit", 512 * page + slot) == right,
                   "page %u slot bit %u: not %" PRIu64, page, slot, right);
            flip_slot_bit(site->here, page, slot);
        }
        expect(lent_equal(&pools->lent, &pools->sound), "changed at slots of page %u", page);
    }
}

/* Flips all bits of one chunk, of the slot bits every so many. */
static void flip_chunk(const char *recipe, size_t c, size_t chunk, unsigned slot_step)
{
    static struct site site;
    struct trial_pools pools = pools_new(c);

    pools_generate(&pools, recipe_named(recipe));
    site_read(&site, &pools.lent, chunk);
    flip_page_bits(&pools, site.here);
    flip_page_words(&pools, site.here);
    flip_slot_bits(&pools, &site, slot_step);
    pools_free(&pools);
}

static void test_flips(void)
{
    static const char *const every_bit[] = {"parade", "classes", "free"};

    for (size_t i = 0; i < COUNT(every_bit); i++) {
        group_begin("every-bit", every_bit[i]);
        flip_chunk(every_bit[i], 1, 0, 1);
        group_end();
    }
    for (size_t i = 0; i < recipe_count; i++) {
        group_begin("bits-in-middle-chunk", recipes[i].name);
        flip_chunk(recipes[i].name, 3, 1, 61);
        group_end();
    }
    group_begin("bits-in-last-chunk", "parade");
    flip_chunk("parade", 2, 1, 17);
    group_end();
}

/* ---- Random damage ---------------------------------------------------------- */

static unsigned smaller(unsigned a, unsigned b)
{
    return a < b ? a : b;
}

static struct chunk any_chunk(const struct records *r)
{
    return chunk_of(r, rng_below(&rng, (unsigned)r->c));
}

/* Half the time one of the last pages, where runs may cross the chunk's end. */
static unsigned any_page(void)
{
    return rng_below(&rng, 2) ? rng_below(&rng, PAGES) : PAGES - 1 - rng_below(&rng, 12);
}

static void change_page_bit(struct records *r)
{
    struct chunk chunk = any_chunk(r);
    unsigned page = rng_below(&rng, PAGES);

    set_page_bit(chunk, page, !page_bit(chunk, page));
}

static void change_page_bits_in_a_row(struct records *r)
{
    struct chunk chunk = any_chunk(r);
    unsigned page = rng_below(&rng, PAGES);
    unsigned end = smaller(PAGES, page + 1 + rng_below(&rng, 8));

    for (; page < end; page++)
        set_page_bit(chunk, page, !page_bit(chunk, page));
}

static void change_word_bit(struct records *r)
{
    any_chunk(r).words[rng_below(&rng, PAGES)] ^= UINT32_C(1) << rng_below(&rng, 32);
}

static void change_word_by_one(struct records *r)
{
    static const uint32_t steps[] = {1, 65536, UINT32_MAX, UINT32_MAX - 65535};

    any_chunk(r).words[rng_below(&rng, PAGES)] += steps[rng_below(&rng, COUNT(steps))];
}

/* A word that is right at another page. */
static void change_word_to_another(struct records *r)
{
    struct chunk to = any_chunk(r), from = any_chunk(r);

    to.words[rng_below(&rng, PAGES)] = from.words[rng_below(&rng, PAGES)];
}

static void change_word_to_inner(struct records *r)
{
    any_chunk(r).words[rng_below(&rng, PAGES)] =
        WORD_INNER(rng_below(&rng, 9), rng_below(&rng, CLASSES));
}

static void change_page_0(struct records *r)
{
    any_chunk(r).words[0] = rng_below(&rng, 2) ? WORD_PAGE_0 + rng_below(&rng, 3) : WORD_FREE;
}

static void change_slot_bit(struct records *r)
{
    flip_slot_bit(any_chunk(r), rng_below(&rng, PAGES), rng_below(&rng, PAGE_SLOT_BITS));
}

/* The class of the run that the word of a page starts, or CLASSES. */
static unsigned class_of_word(uint32_t word)
{
    uint32_t number = word - WORD_CLASS(0);

    return number < CLASSES ? number : CLASSES;
}

/* Slots of a run: most of these changes leave the records sound. */
static void change_run_slots(struct records *r)
{
    struct chunk chunk = any_chunk(r);
    unsigned page = rng_below(&rng, PAGES);
    unsigned b = class_of_word(chunk.words[page]);

    if (b < CLASSES)
        flip_slot_bit(chunk, page,
                      smaller(511, rng_below(&rng, size_classes[b].slots + 1)));
}

static void change_slot_behind_last(struct records *r)
{
    struct chunk chunk = any_chunk(r);
    unsigned page = rng_below(&rng, PAGES);
    unsigned b = class_of_word(chunk.words[page]);

    if (b < CLASSES && size_classes[b].slots < PAGE_SLOT_BITS)
        set_slot_bit(chunk, page, size_classes[b].slots);
}

/* Frees some pages, whatever runs they belong to. */
static void change_to_free_pages(struct records *r)
{
    struct chunk chunk = any_chunk(r);
    unsigned page = 1 + rng_below(&rng, PAGES - 1);

    wipe_pages(chunk, page, smaller(PAGES - page, 1 + rng_below(&rng, 70)));
}

/* Frees one whole run, as a release would. */
static void change_by_release(struct records *r)
{
    static struct run_list list;
    struct chunk chunk = any_chunk(r);
    const struct run *run;

    if (!model_decode(chunk.words, &list) || list.count == 0)
        return;
    run = &list.runs[rng_below(&rng, list.count)];
    wipe_pages(chunk, run->first, run->pages);
}

/*
 * Puts a run over whatever was there, to the pool's last page at most. It may
 * cross the end of its chunk.
 */
static void put_pages(struct records *r, size_t at, unsigned pages, unsigned b)
{
    for (unsigned k = 0; k < pages && at + k < r->c * PAGES; k++) {
        struct chunk chunk = chunk_of(r, (at + k) / PAGES);
        unsigned page = (unsigned)((at + k) % PAGES);
        bool page_0_stays = page == 0 && rng_below(&rng, 4) > 0;
        if (page_0_stays)
            continue;
        if (rng_below(&rng, 40) > 0)
            wipe_pages(chunk, page, 1); /* else old slots may be left */
        set_page_bit(chunk, page, true);
        if (b < CLASSES)
            chunk.words[page] = k == 0 ? WORD_CLASS(b) : WORD_INNER(k, b);
        else
            chunk.words[page] = k == 0 ? WORD_LARGE(pages) : WORD_FREE;
    }
}

static size_t any_pool_page(const struct records *r)
{
    return PAGES * (size_t)rng_below(&rng, (unsigned)r->c) + any_page();
}

static void change_to_class_run(struct records *r)
{
    unsigned b = rng_below(&rng, CLASSES);

    put_pages(r, any_pool_page(r), size_classes[b].pages, b);
}

static void change_to_large_run(struct records *r)
{
    unsigned longest = rng_below(&rng, 4) ? 14 : 514;

    put_pages(r, any_pool_page(r), rng_below(&rng, longest), CLASSES);
}

/* Chunks are alike, so a chunk may stand for another one. */
static void change_to_another_chunk(struct records *r)
{
    struct chunk to = any_chunk(r), from = any_chunk(r);

    if (to.bits == from.bits)
        return;
    chunk_copy(to, from);
    if (rng_below(&rng, 2))
        change_slot_bit(r);
}

static void (*const changes[])(struct records *) = {
    change_page_bit,         change_page_bits_in_a_row, change_word_bit,
    change_word_by_one,      change_word_to_another,    change_word_to_inner,
    change_page_0,           change_slot_bit,           change_run_slots,
    change_run_slots,        change_slot_behind_last,   change_to_free_pages,
    change_by_release,       change_by_release,         change_to_class_run,
    change_to_class_run,     change_to_large_run,       change_to_large_run,
    change_to_another_chunk,
};

static void change_pool(struct records *r)
{
    unsigned count = 1 + rng_below(&rng, 4);

    for (unsigned i = 0; i < count; i++)
        changes[rng_below(&rng, COUNT(changes))](r);
}

static const struct recipe *any_recipe(void)
{
    return &recipes[rng_below(&rng, (unsigned)recipe_count)];
}

/* Answers how many of the changed pools were sound. */
static unsigned long random_trials(struct trial_pools *pools, unsigned trials)
{
    unsigned long sound = 0;

    pools_generate(pools, any_recipe());
    for (unsigned i = 0; i < trials; i++) {
        change_pool(&pools->lent);
        lent_copy(&pools->before, &pools->lent);
        sound += compare_answers(&pools->lent, "random trial", i) == 0;
        expect(lent_equal(&pools->lent, &pools->before), "a buffer was changed");
        lent_copy(&pools->lent, &pools->sound);
    }
    return sound;
}

/* The more chunks, the longer a trial takes and the fewer are made. */
static unsigned trials_of(unsigned c)
{
    return 1 + 240 / (c * (c + 1));
}

static void test_random_damage(void)
{
    enum { ROUNDS = 900 };
    struct trial_pools pools[MAX_CHUNKS];
    unsigned long sound = 0;

    for (size_t c = 1; c <= MAX_CHUNKS; c++)
        pools[c - 1] = pools_new(c);
    group_begin("random", "damage");
    for (unsigned round = 0; round < ROUNDS; round++)
        for (unsigned c = 1; c <= MAX_CHUNKS; c++)
            sound += random_trials(&pools[c - 1], trials_of(c));
    expect_least(group.trials, 200000, "trials");
    expect_least(sound, group.trials / 10, "sound pools");
    expect_least(group.trials - sound, group.trials / 2, "damaged pools");
    group_end();
    for (size_t c = 1; c <= MAX_CHUNKS; c++)
        pools_free(&pools[c - 1]);
}

/* ---- Bad input --------------------------------------------------------------- */

/* Both calls answer 1. */
static void expect_shape_refused(uint64_t c, const struct records *r, struct lengths n)
{
    uint64_t checked = lensember_check(c, r->bits, n.bits, r->words, n.words, r->slots, n.slots);
    uint64_t freshed = lensember_fresh(c, r->bits, n.bits, r->words, n.words, r->slots, n.slots);

    group.trials += 2;
    expect(checked == 1, "check, c %" PRIu64 " with %zu %zu %zu: %" PRIu64,
           c, n.bits, n.words, n.slots, checked);
    expect(freshed == 1, "fresh, c %" PRIu64 " with %zu %zu %zu: %" PRIu64,
           c, n.bits, n.words, n.slots, freshed);
}

/* ---- Fresh --------------------------------------------------------------------- */

/* What the whole shelf must be after a fresh call on its first c chunks. */
static void make_fresh(struct shelf *s, size_t c)
{
    static const struct run_list none;
    struct records r = shelf_records(s, c);

    for (size_t k = 0; k < c; k++)
        model_write(&none, chunk_of(&r, k));
}

static void expect_fresh(size_t c)
{
    struct records r = shelf_records(&shelf, c);
    uint64_t freshed, checked;

    shelf_before = shelf;
    make_fresh(&shelf_before, c);
    freshed = library_fresh(&r);
    checked = library_check(&r);
    group.trials++;
    expect(freshed == 0, "c %zu: fresh answers %" PRIu64, c, freshed);
    expect(memcmp(&shelf, &shelf_before, sizeof shelf) == 0,
           "c %zu: not the records of a free pool, or a guard changed", c);
    expect(checked == 0, "c %zu: check answers %" PRIu64, c, checked);
    expect(model_check(&r) == 0, "c %zu: the model says damaged", c);
}

static void test_fresh_on_bytes(const char *name, int byte)
{
    group_begin("fresh", name);
    for (size_t c = 1; c <= MAX_CHUNKS; c++) {
        memset(&shelf, byte, sizeof shelf);
        expect_fresh(c);
    }
    group_end();
}

static void test_fresh_on_garbage(void)
{
    group_begin("fresh", "on-garbage");
    for (size_t c = 1; c <= MAX_CHUNKS; c++) {
        for (unsigned i = 0; i < 4; i++) {
            shelf_fill_random();
            expect_fresh(c);
        }
    }
    group_end();
}

static void test_fresh_on_pool(const char *name, const struct recipe *recipe)
{
    group_begin("fresh", name);
    for (size_t c = 1; c <= MAX_CHUNKS; c++) {
        struct records r = shelf_records(&shelf, c);
        shelf_fill_random();
        generate(&r, recipe, &rng);
        expect_fresh(c);
        expect_fresh(c); /* and once more on the fresh one */
    }
    group_end();
}

static void test_fresh(void)
{
    struct recipe full_slots = recipe_of_class(0, FILL_FULL);

    test_fresh_on_garbage();
    test_fresh_on_bytes("on-all-0", 0x00);
    test_fresh_on_bytes("on-all-1", 0xFF);
    test_fresh_on_pool("on-full-large-runs", recipe_named("large-whole-chunk"));
    test_fresh_on_pool("on-full-slots", &full_slots);
    test_fresh_on_pool("on-mixed-pool", recipe_named("mixed"));
}

int main(int argc, char **argv)
{
    program_begin(argc, argv);
    test_numbers();
    test_sample();
    test_sound_pools();
    test_named_damage();
    test_flips();
    test_random_damage();
    try_bad_shapes(expect_shape_refused);
    test_fresh();
    return program_end("damage");
}
