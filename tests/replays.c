/*
 * Tests of replay, lines and bytes, through the C calls.
 *
 * Each log is replayed by the library and by the independent reading of logs.c
 * on the independent pool of pool.c; refusal, position, all three buffers and
 * the lines are compared. What bytes answers is compared with the book of
 * blocks. One line is printed for each named group, then the count of groups.
 * Usage: replays [SEED]
 */
#include "bytes.h"
#include "calls.h"
#include "drafts.h"
#include "draws.h"
#include "groups.h"
#include "known.h"
#include "resizes.h"
#include "shapes.h"
#include "stage.h"
#include "trials.h"
#include "twin.h"

#include <inttypes.h>
#include <stdio.h>
#include <string.h>

static struct draft draft;

static struct log_outcome try_draft(struct stage *stage)
{
    return stage_try(stage, draft.bytes, draft.length);
}

/* ---- Known logs ------------------------------------------------------------------ */

static void try_known(struct stage *stage, const struct known_log *log)
{
    struct log_outcome outcome = stage_try(stage, log->bytes, log->length);

    expect(outcome.refusal == log->refusal && outcome.position == log->position,
           "the model says %" PRIu64 " at %" PRIu64, outcome.refusal, outcome.position);
    expect(stage->lines.length == strlen(log->lines)
               && memcmp(stage->lines.bytes, log->lines, stage->lines.length) == 0,
           "the model's lines");
}

static void test_known_logs(void)
{
    struct stage *stage = stage_new(1);

    for (size_t i = 0; i < known_log_count; i++) {
        group_begin("known", known_logs[i].name);
        for (unsigned ground = 0; ground < GROUNDS; ground++) {
            stage_prepare(stage, (enum ground)ground);
            try_known(stage, &known_logs[i]);
        }
        group_end();
    }
    stage_free(stage);
}

/* In pools of another count of chunks only a start with that count is accepted. */
static void test_known_logs_elsewhere(void)
{
    group_begin("known", "all-in-other-pools");
    for (size_t c = 2; c <= MAX_CHUNKS; c++) {
        struct stage *stage = stage_new(c);
        stage_prepare_anyhow(stage);
        for (size_t i = 0; i < known_log_count; i++) {
            struct log_outcome outcome =
                stage_try(stage, known_logs[i].bytes, known_logs[i].length);
            expect(!outcome.started || known_logs[i].bytes[3] == c, "%s", known_logs[i].name);
        }
        stage_free(stage);
    }
    group_end();
}

/* ---- Every cut and every byte ------------------------------------------------------ */

/* "cut at any byte": 8 but for the whole log. */
static void test_cuts(void)
{
    group_begin("log", "cut-at-every-byte");
    for (size_t c = 1; c <= MAX_CHUNKS; c++) {
        struct stage *stage = stage_new(c);
        draft_log(&draft, c, &diets[c % diet_count], 4 + 100 / (unsigned)c);
        stage_prepare_anyhow(stage);
        for (size_t cut = 0; cut < draft.length; cut++)
            expect(stage_try(stage, draft.bytes, cut).refusal == 8, "cut at %zu", cut);
        expect(try_draft(stage).refusal == 0, "uncut");
        stage_free(stage);
    }
    group_end();
}

/* Each byte in turn is set to each value. */
static void try_every_byte(struct stage *stage, const struct known_log *log)
{
    for (size_t at = 0; at < log->length; at++) {
        stage_prepare_anyhow(stage);
        for (unsigned value = 0; value < 256; value++) {
            draft_clear(&draft);
            draft_bytes(&draft, log->bytes, log->length);
            draft.bytes[at] = (uint8_t)value;
            try_draft(stage);
        }
    }
}

static void test_every_byte(void)
{
    static const char *const names[] = {"sample", "sample-of-resizes", "resize-that-sweeps"};
    struct stage *stage = stage_new(1);

    for (size_t i = 0; i < COUNT(names); i++) {
        char name[60];
        snprintf(name, sizeof name, "every-value-of-every-byte-of-%s", names[i]);
        group_begin("log", name);
        try_every_byte(stage, known_log_named(names[i]));
        group_end();
    }
    stage_free(stage);
}

/* The log of resizes cut at every byte: 8 but for the whole log, and the fields before it stand. */
static void test_cut_resizes(void)
{
    const struct known_log *log = known_log_named("sample-of-resizes");
    struct stage *stage = stage_new(1);

    group_begin("log", "resizes-cut-at-every-byte");
    stage_prepare_anyhow(stage);
    for (size_t cut = 0; cut <= log->length; cut++)
        expect(stage_try(stage, log->bytes, cut).refusal == (cut < log->length ? 8 : 0),
               "cut at %zu", cut);
    group_end();
    stage_free(stage);
}

/* ---- Headers ------------------------------------------------------------------------ */

static const unsigned tags[] = {0,   1,   2,   3,   4,   5,   6,   7,   8,  9,
                                16,  128, 129, 130, 131, 132, 136, 254, 255};
static const unsigned lengths[] = {0,   1,   2,   3,   4,    5,    6,    7,     8,     9,    12,  255,
                                   256, 257, 259, 260, 261,  263,  264,  265,   512,   1024, 1025,
                                   2048, 32768, 65280, 65535};

/* What stands before the header: nothing, a start, one more field, a whole log. */
static void draft_front(unsigned front, size_t c)
{
    draft_clear(&draft);
    if (front >= 1)
        draft_start(&draft, c);
    if (front >= 2)
        draft_reserve(&draft, 24);
    if (front >= 3)
        draft_end(&draft);
}

/* A body with which the field would be served: the row of the front is given back, or moved. */
static uint64_t body_of(unsigned tag, size_t c)
{
    switch (tag) {
    case TAG_START:
        return c;
    case TAG_RESIZE:
        return PAGE_BYTES << 32 | 5000;
    default:
        return PAGE_BYTES;
    }
}

/* With no body, one byte too few, all of it, and an end behind it. */
static void try_header(struct stage *stage, unsigned front, unsigned tag, unsigned length)
{
    size_t c = stage->before.c, header;

    draft_front(front, c);
    header = draft.length + HEADER_BYTES;
    draft_field(&draft, tag, length, body_of(tag, c));
    stage_try(stage, draft.bytes, header);
    if (length > 0)
        stage_try(stage, draft.bytes, header + length - 1);
    try_draft(stage);
    draft_end(&draft);
    try_draft(stage);
}

static void test_headers(void)
{
    struct stage *stage = stage_new(1);

    group_begin("log", "every-header-at-every-turn");
    for (unsigned front = 0; front <= 3; front++) {
        stage_prepare_anyhow(stage);
        for (size_t t = 0; t < COUNT(tags); t++)
            for (size_t n = 0; n < COUNT(lengths); n++)
                try_header(stage, front, tags[t], lengths[n]);
    }
    group_end();
    stage_free(stage);
}

/* "a start with a count other than c is 9" */
static void test_start_counts(void)
{
    group_begin("log", "every-start-count");
    for (size_t c = 1; c <= MAX_CHUNKS; c++) {
        struct stage *stage = stage_new(c);
        stage_prepare_anyhow(stage);
        for (unsigned count = 0; count < 256; count++) {
            struct log_outcome outcome;
            draft_clear(&draft);
            draft_field(&draft, TAG_START, 1, count);
            draft_reserve(&draft, 24);
            draft_end(&draft);
            outcome = try_draft(stage);
            expect(outcome.refusal == (count == c ? 0 : 9) && outcome.position == 0,
                   "c %zu, start of %u", c, count);
        }
        stage_free(stage);
    }
    group_end();
}

/* Every size that a slot serves, and one more, in one log: three chunks hold them. */
static void test_every_small_size(void)
{
    enum { CHUNKS = 3, MOST_SMALL = 3072 };
    struct stage *stage = stage_new(CHUNKS);
    struct log_outcome outcome;

    group_begin("log", "every-size-to-3073");
    stage_prepare_anyhow(stage);
    draft_clear(&draft);
    draft_start(&draft, CHUNKS);
    for (uint64_t size = 0; size <= MOST_SMALL + 1; size++)
        draft_reserve(&draft, size);
    draft_end(&draft);
    outcome = try_draft(stage);
    expect(outcome.refusal == 0 && outcome.reserves[0] == MOST_SMALL + 2, "not all are served");
    group_end();
    stage_free(stage);
}

/* ---- Random logs ---------------------------------------------------------------------- */

/* The more chunks, the longer a trial takes and the fewer are made. */
static unsigned logs_of(size_t c)
{
    return 1 + 8 / (unsigned)c;
}

static void test_good_logs(void)
{
    for (size_t i = 0; i < diet_count; i++) {
        group_begin("well-formed", diets[i].name);
        for (size_t c = 1; c <= MAX_CHUNKS; c++) {
            struct stage *stage = stage_new(c);
            for (unsigned n = 0; n < logs_of(c); n++) {
                stage_prepare_anyhow(stage);
                draft_log(&draft, c, &diets[i], 1 + rng_below(&rng, 1500));
                expect(try_draft(stage).refusal == 0, "refused");
            }
            stage_free(stage);
        }
        group_end();
    }
}

static void spoil_and_try(struct stage *stage, unsigned most_fields)
{
    const struct diet *diet = &diets[rng_below(&rng, (unsigned)diet_count)];

    draft_log(&draft, stage->before.c, diet, rng_below(&rng, most_fields));
    draft_spoil(&draft);
    try_draft(stage);
}

static void test_spoilt_logs(void)
{
    group_begin("spoilt", "short-logs");
    for (size_t c = 1; c <= MAX_CHUNKS; c++) {
        struct stage *stage = stage_new(c);
        for (unsigned n = 0; n < 3000 / c; n++) {
            if (n % 8 == 0)
                stage_prepare_anyhow(stage);
            spoil_and_try(stage, 12);
        }
        stage_free(stage);
    }
    group_end();
    group_begin("spoilt", "long-logs");
    for (size_t c = 1; c <= MAX_CHUNKS; c++) {
        struct stage *stage = stage_new(c);
        for (unsigned n = 0; n < 4 + 200 / c; n++) {
            stage_prepare_anyhow(stage);
            spoil_and_try(stage, 600);
        }
        stage_free(stage);
    }
    group_end();
}

/* Bytes that often look like headers, with or without a start in front. */
static void draft_noise(size_t c)
{
    unsigned count = rng_below(&rng, 80);

    draft_clear(&draft);
    if (rng_below(&rng, 2))
        draft_start(&draft, c);
    for (unsigned i = 0; i < count; i++) {
        uint8_t byte = (uint8_t)rng_below(&rng, rng_below(&rng, 6) ? 9 : 256);
        draft_bytes(&draft, &byte, 1);
    }
}

static void test_noise(void)
{
    group_begin("spoilt", "noise");
    for (size_t c = 1; c <= MAX_CHUNKS; c++) {
        struct stage *stage = stage_new(c);
        stage_prepare_anyhow(stage);
        for (unsigned n = 0; n < 2000 / c; n++) {
            draft_noise(c);
            try_draft(stage);
        }
        stage_free(stage);
    }
    group_end();
}

/* ---- Full pools ----------------------------------------------------------------------- */

/* Reserves until the pool is full and then some more; some are given back. */
static void draft_full(size_t c, uint64_t size)
{
    unsigned refused = 0;

    draft_clear(&draft);
    draft_start(&draft, c);
    while (refused < 3 && draft.count < DRAFT_FIELDS - 20 && draft.length < DRAFT_BYTES - 200) {
        unsigned long live = draft.guide.live.count;
        draft_reserve(&draft, size);
        refused += draft.guide.live.count == live;
    }
    for (unsigned i = 0; i < 5; i++) {
        draft_release(&draft, draw_live_place(&draft.guide));
        draft_reserve(&draft, size);
        draft_reserve(&draft, size);
    }
    draft_end(&draft);
}

static void test_full_pools(void)
{
    static const struct {
        size_t c;
        uint64_t size;
    } rows[] = {
        {1, 256},   {1, 320},    {1, 512},     {1, 1024},    {1, 1792},    {1, 2048},
        {1, 3072},  {1, 4096},   {1, 8192},    {1, 20480},   {1, 2093056}, {2, 640},
        {2, 2560},  {2, 4096},   {3, 3072},    {3, 12288},   {5, 1536},    {8, 3072},
        {8, 4096},  {16, 4096},  {16, 262144}, {16, 266240}, {16, 2093056}, {16, 3072},
    };

    group_begin("log", "until-the-pool-is-full");
    for (size_t i = 0; i < COUNT(rows); i++) {
        struct stage *stage = stage_new(rows[i].c);
        struct log_outcome outcome;
        draft_full(rows[i].c, rows[i].size);
        stage_prepare_anyhow(stage);
        outcome = try_draft(stage);
        expect(outcome.refusal == 0 && outcome.reserves[4] >= 8, "c %zu size %" PRIu64 ": not full",
               rows[i].c, rows[i].size);
        stage_free(stage);
    }
    group_end();
}

/* ---- Mornings of drops --------------------------------------------------------------- */

/* Rows of all classes and tables are entered, up to so many. */
static void draft_entries(unsigned most)
{
    for (unsigned i = rng_below(&rng, most); i > 0; i--)
        draft_reserve(&draft, rng_below(&rng, 12) ? draw_small_size() : draw_large_size(90));
}

/* Nearly all blocks are dropped, or only most of them. */
static void draft_drops(void)
{
    unsigned long kept = rng_below(&rng, 4) ? rng_below(&rng, 4) : draft.guide.live.count / 4;

    while (draft.guide.live.count > kept && draft.count < DRAFT_FIELDS - 1)
        draft_release(&draft, draw_live_place(&draft.guide));
}

/* The block at any live place gets a size near its own, or any. */
static void draft_new_size(void)
{
    uint64_t place = draw_live_place(&draft.guide);

    draft_resize(&draft, place, draw_new_size(&draft.guide, place));
}

/*
 * Then tables are asked for, and rows, and blocks get other sizes, until there is no room: the
 * empty runs are in the way.
 */
static void draft_tables(void)
{
    unsigned most_pages = rng_below(&rng, 3) ? 60 : 511, refused = 0;

    while (refused < 4 && draft.count < DRAFT_FIELDS - 8) {
        unsigned long live = draft.guide.live.count;
        draft_new_size();
        draft_reserve(&draft, draw_large_size(most_pages));
        refused += draft.guide.live.count == live;
        draft_reserve(&draft, draw_small_size());
        draft_new_size();
    }
}

static void draft_mornings(size_t c, unsigned mornings)
{
    draft_clear(&draft);
    draft_start(&draft, c);
    for (unsigned i = 0; i < mornings; i++) {
        draft_entries(300);
        draft_drops();
        draft_tables();
    }
    draft_end(&draft);
}

static void test_mornings(void)
{
    unsigned long swept = outcomes.swept, in_vain = outcomes.in_vain;
    struct resize_counts resizes = outcomes.resizes;

    group_begin("log", "mornings-of-drops-then-big-tables");
    for (size_t c = 1; c <= MAX_CHUNKS; c++) {
        struct stage *stage = stage_new(c);
        for (unsigned n = 0; n < 12 + 160 / c; n++) {
            stage_prepare_anyhow(stage);
            draft_mornings(c, 1 + rng_below(&rng, 8));
            expect(try_draft(stage).refusal == 0, "refused");
        }
        stage_free(stage);
    }
    expect_least(outcomes.swept - swept, 600, "served by a sweep");
    expect_least(outcomes.in_vain - in_vain, 500, "refused in spite of empty runs");
    expect_least(outcomes.resizes.swept - resizes.swept, 200, "moved by a sweep");
    expect_least(outcomes.resizes.in_vain - resizes.in_vain, 100, "not moved in spite of empty runs");
    group_end();
}

/* ---- Lengths of the buffer for the lines ------------------------------------------------ */

/* Any of these logs, good or bad. */
static void draft_any(size_t c)
{
    draft_log(&draft, c, &diets[rng_below(&rng, (unsigned)diet_count)], rng_below(&rng, 40));
    if (rng_below(&rng, 2))
        draft_spoil(&draft);
}

static void try_rooms(struct stage *stage)
{
    size_t least = room_for(draft.length);
    const size_t rooms[] = {
        0, 1, 59, least / 2, rng_below(&rng, (unsigned)least), least - 12, least - 2, least - 1,
        least, least + 1, least + rng_below(&rng, 900)};

    for (size_t i = 0; i < COUNT(rooms); i++)
        stage_try_lines(stage, draft.bytes, draft.length, rooms[i]);
}

static void test_rooms(void)
{
    group_begin("lines", "short-and-longer-buffers");
    for (size_t c = 1; c <= MAX_CHUNKS; c++) {
        struct stage *stage = stage_new(c);
        for (unsigned n = 0; n < 2 + 60 / c; n++) {
            stage_prepare_anyhow(stage);
            draft_any(c);
            try_rooms(stage);
        }
        stage_free(stage);
    }
    group_end();
}

/* 12 bytes a byte and 60: every length of buffer for the empty log. */
static void test_rooms_of_empty_log(void)
{
    struct stage *stage = stage_new(1);

    group_begin("lines", "every-buffer-for-the-empty-log");
    stage_prepare_anyhow(stage);
    for (size_t nout = 0; nout <= 80; nout++)
        stage_try_lines(stage, draft.bytes, 0, nout);
    group_end();
    stage_free(stage);
}

/* The longest lines there are, field after field, up to the last byte. */
static void test_longest_lines(void)
{
    struct stage *stage = stage_new(16);

    group_begin("lines", "longest");
    draft_clear(&draft);
    draft_start(&draft, 16);
    for (unsigned k = 0; k < 16; k++)
        draft_reserve(&draft, 2093056);
    for (unsigned i = 0; i < 2000; i++) {
        draft_release(&draft, 15 * CHUNK_BYTES + PAGE_BYTES);
        draft_reserve(&draft, 2093056 - rng_below(&rng, 4096));
        draft_reserve(&draft, UINT32_MAX - i);
        draft_release(&draft, UINT32_MAX - i);
        draft_resize(&draft, UINT32_MAX - i, UINT32_MAX - i);
        draft_resize(&draft, 15 * CHUNK_BYTES + PAGE_BYTES, 2093056 - rng_below(&rng, 4096));
    }
    draft_end(&draft);
    stage_prepare_anyhow(stage);
    stage_try_lines(stage, draft.bytes, draft.length, room_for(draft.length));
    stage_try_lines(stage, draft.bytes, draft.length, room_for(draft.length) - 1);
    group_end();
    stage_free(stage);
}

/* ---- Vast logs --------------------------------------------------------------------------- */

/* Lengths that do not fit 32 bits; what is known beforehand is compared. */
static void try_vast(size_t nlog, const char *front, size_t nfront, uint64_t position)
{
    struct records r = lent_new(1), right = lent_new(1);
    const uint8_t *log = lent_vast_new(nlog, (const uint8_t *)front, nfront);
    struct lensember_replayed answer = library_replay(&r, log, nlog);

    if (position > 0)
        library_fresh(&right);
    group.trials++;
    expect(answer.refusal == 9 && answer.position == position,
           "replay of %zu bytes: %" PRIu64 " at %" PRIu64, nlog, answer.refusal, answer.position);
    expect(lent_equal(&r, &right), "replay of %zu bytes: the records", nlog);
    lent_vast_free(log, nlog);
    lent_free(&r);
    lent_free(&right);
}

static void try_vast_lines(size_t nlog, size_t nout)
{
    struct records r = lent_new(1), right = lent_new(1);
    const uint8_t *log = lent_vast_new(nlog, (const uint8_t *)"\x01\x00\x01\x01\x04\x00\x00", 7);
    uint8_t *out = lent_bytes_new(nout);
    struct lensember_printed answer = library_lines(&r, log, nlog, out, nout);

    group.trials++;
    expect(answer.refusal == 7 && answer.position == 0 && answer.length == 0,
           "lines of %zu bytes in %zu: %" PRIu64 " at %" PRIu64 " length %" PRIu64, nlog, nout,
           answer.refusal, answer.position, answer.length);
    expect(lent_equal(&r, &right), "lines of %zu bytes in %zu: the records", nlog, nout);
    for (size_t i = 0; i < nout; i++)
        expect(out[i] == 0, "lines of %zu bytes in %zu: a byte was written", nlog, nout);
    lent_vast_free(log, nlog);
    lent_bytes_free(out, nout);
    lent_free(&r);
    lent_free(&right);
}

static void test_vast_logs(void)
{
    const size_t wrap = (size_t)1 << 32;

    group_begin("log", "longer-than-32-bits");
    try_vast(wrap, "", 0, 0);
    try_vast(wrap + 2, "", 0, 0);
    try_vast(wrap + 4, "\x01\x00\x01\x01", 4, 4);
    try_vast(wrap + 7, "\x01\x00\x01\x01\x04\x00\x00", 7, 7);
    try_vast(wrap + 1000, "\x01\x00\x01\x01\x04\x00\x00", 7, 7);
    group_end();
    group_begin("lines", "room-longer-than-32-bits");
    try_vast_lines(357913942, 68); /* 12 a byte and 60 is 2^32 + 68 */
    try_vast_lines(357913942, 4096);
    try_vast_lines(wrap + 7, 12 * 7 + 60);
    try_vast_lines(wrap + 7, 4096);
    group_end();
}

/* ---- Refusals 1 and 2 ----------------------------------------------------------------- */

/* Replay and lines, of logs good and bad, in a buffer long enough or not. */
static void expect_replays_refuse(uint64_t c, const struct records *r, struct lengths n)
{
    static uint8_t out[2048], out_before[2048];
    static const size_t rooms[] = {0, 59, 60, 2048};

    memset(out, 0xA5, sizeof out);
    memcpy(out_before, out, sizeof out);
    for (size_t i = 0; i < known_log_count; i += 12) {
        const struct known_log *log = &known_logs[i];
        struct lensember_replayed replayed = lensember_replay(
            c, r->bits, n.bits, r->words, n.words, r->slots, n.slots, log->bytes, log->length);
        struct lensember_printed printed = lensember_lines(
            c, r->bits, n.bits, r->words, n.words, r->slots, n.slots, log->bytes, log->length,
            out, rooms[i / 12 % COUNT(rooms)]);
        group.trials += 2;
        expect(replayed.refusal == 1 && replayed.position == 0,
               "replay, c %" PRIu64 " with %zu %zu %zu: %" PRIu64 " at %" PRIu64, c, n.bits,
               n.words, n.slots, replayed.refusal, replayed.position);
        expect(printed.refusal == 1 && printed.position == 0 && printed.length == 0,
               "lines, c %" PRIu64 " with %zu %zu %zu: %" PRIu64 " at %" PRIu64, c, n.bits,
               n.words, n.slots, printed.refusal, printed.position);
    }
    expect(memcmp(out, out_before, sizeof out) == 0, "refused lines were written");
}

static void expect_shape_refused(uint64_t c, const struct records *r, struct lengths n)
{
    expect_replays_refuse(c, r, n);
    expect_bytes_refuse(1, c, r, n);
}

/* An empty log and no room for lines: their pointers need only be non-null. */
static void test_empty_log(void)
{
    struct records r = lent_new(1), right = lent_new(1);
    uint8_t *anywhere = (uint8_t *)(uintptr_t)1;
    struct lensember_replayed replayed;
    struct lensember_printed printed;

    group_begin("log", "empty-log-and-lines-nowhere");
    replayed = library_replay(&r, anywhere, 0);
    printed = library_lines(&r, anywhere, 0, anywhere, 0);
    group.trials += 2;
    expect(replayed.refusal == 8 && replayed.position == 0, "replay");
    expect(printed.refusal == 7 && printed.position == 0 && printed.length == 0, "lines");
    expect(lent_equal(&r, &right), "the records");
    group_end();
    lent_free(&r);
    lent_free(&right);
}

/* Fresh and replay never answer 2 (RULES 4.2); bytes does. */
static void replay_on_damage(const struct trial_pools *pools, size_t chunk, unsigned page,
                             unsigned variant)
{
    static struct stage *stages[MAX_CHUNKS + 1];
    size_t c = pools->lent.c;

    if (stages[c] == NULL)
        stages[c] = stage_new(c);
    lent_copy(&stages[c]->before, &pools->before);
    draft_any(c);
    try_draft(stages[c]);
    stage_try_lines(stages[c], draft.bytes, draft.length, room_for(draft.length) - 1);
    expect_bytes_refuse(2, c, &pools->lent, exact_lengths(c));
    expect(lent_equal(&pools->lent, &pools->before),
           "c %zu chunk %zu page %u variant %u: a buffer was changed", c, chunk, page, variant);
}

static void test_damaged_records(void)
{
    static const struct effort efforts[] = {{1, 12, 4}, {2, 6, 4}, {16, 2, 2}};

    try_damage_cases("on-damage", efforts, COUNT(efforts), replay_on_damage);
}

/* ---- Among other calls --------------------------------------------------------------- */

/* The replay goes on from what the calls before it left, and they from it. */
static void replay_in_series(struct twin *twin)
{
    static struct text lines;
    static uint8_t out[12 * 1024 + 60];
    struct log_outcome right;
    uint64_t refusal, position;

    draft_any(twin->model.c);
    if (rng_below(&rng, 2)) {
        struct lensember_replayed answer = library_replay(&twin->lent, draft.bytes, draft.length);
        refusal = answer.refusal;
        position = answer.position;
    } else {
        struct lensember_printed answer =
            library_lines(&twin->lent, draft.bytes, draft.length, out, sizeof out);
        refusal = answer.refusal;
        position = answer.position;
    }
    right = log_replay(&twin->model, twin->model.c, draft.bytes, draft.length, &lines);
    pool_write(&twin->model, &twin->right);
    group.trials++;
    expect(refusal == right.refusal && position == right.position,
           "c %zu, replay in a series: %" PRIu64 " at %" PRIu64, twin->model.c, refusal, position);
    expect(lent_equal(&twin->lent, &twin->right), "c %zu, replay in a series: the records",
           twin->model.c);
}

/* After each call the census lists the book of demand 3. */
static void call_in_series(struct twin *twin)
{
    uint64_t place = draw_live_place(&twin->model);

    switch (rng_below(&rng, 10)) {
    case 0:
        replay_in_series(twin);
        break;
    case 8:
        twin_sweep(twin);
        break;
    case 9:
        twin_resize(twin, place, draw_new_size(&twin->model, place));
        break;
    case 1:
        twin_next(twin, draw_next_place(&twin->model));
        break;
    case 2:
        twin_block_size(twin, draw_hostile_place(&twin->model));
        break;
    case 3:
    case 4:
        twin_release(twin, place);
        break;
    default:
        twin_reserve(twin, rng_below(&rng, 3) ? draw_small_size() : draw_large_size(40));
    }
    twin_census(twin, 2 * twin->model.live.count);
}

static void test_series(void)
{
    group_begin("series", "replays-among-other-calls");
    for (size_t c = 1; c <= MAX_CHUNKS; c++) {
        struct twin *twin = twin_new(c);
        for (unsigned i = 0; i < 100 + 2000 / c; i++)
            call_in_series(twin);
        twin_totals(twin);
        twin_free(twin);
    }
    group_end();
}

/* ---- Enough -------------------------------------------------------------------------------- */

static void test_enough(void)
{
    group_begin("log", "enough-of-each-answer");
    group.trials = outcomes.fields;
    expect_least(outcomes.fields, 300000, "fields");
    expect_least(outcomes.logs[0], 3000, "good logs");
    expect_least(outcomes.logs[8], 5000, "cut short");
    expect_least(outcomes.logs[9], 10000, "gone wrong");
    expect_least(outcomes.reserves[0], 100000, "served");
    expect_least(outcomes.reserves[3], 1000, "too big");
    expect_least(outcomes.reserves[4], 1000, "without room");
    expect_least(outcomes.swept, 700, "served by a sweep");
    expect_least(outcomes.releases[0], 30000, "released");
    expect_least(outcomes.releases[5], 5000, "at no block");
    expect_least(outcomes.releases[6], 1000, "at free slots");
    expect_least(outcomes.resizes.answers[0], 10000, "resized");
    expect_least(outcomes.resizes.answers[3], 200, "to too big a size");
    expect_least(outcomes.resizes.answers[4], 1000, "without room to grow");
    expect_least(outcomes.resizes.answers[5], 3000, "resizes at no block");
    expect_least(outcomes.resizes.answers[6], 300, "resizes at free slots");
    expect_each_resize(&outcomes.resizes, 100);
    group_end();
}

int main(int argc, char **argv)
{
    program_begin(argc, argv);
    test_known_logs();
    test_known_logs_elsewhere();
    test_cuts();
    test_every_byte();
    test_cut_resizes();
    test_headers();
    test_start_counts();
    test_every_small_size();
    test_good_logs();
    test_spoilt_logs();
    test_noise();
    test_full_pools();
    test_mornings();
    test_rooms();
    test_rooms_of_empty_log();
    test_longest_lines();
    test_vast_logs();
    test_series();
    test_bytes();
    try_bad_shapes(expect_shape_refused);
    test_empty_log();
    test_damaged_records();
    test_enough();
    return program_end("replays");
}
