/*
 * Tests of the programs that draw a pool: they are run on logs, and what they
 * write is compared with the runs that the pool of pool.c has after the log.
 *
 * One line is printed for each named group, then the count of groups.
 * Usage: maps MAP PAINT [SEED], the paths of the two programs, from the
 * repository's root
 */
#include "child.h"
#include "drafts.h"
#include "drawings.h"
#include "groups.h"
#include "known.h"
#include "logs.h"

#include <inttypes.h>
#include <stdio.h>
#include <stdlib.h>
#include <string.h>

/* A program, and what its drawing is held to. */
struct drawer {
    const char *name;
    const char *path;
    void (*expect)(const struct pool *pool, size_t nlog);
};

static struct drawer drawers[] = {
    {"map", NULL, expect_map},
    {"picture", NULL, expect_picture},
};
static struct draft draft;

/* ---- One log --------------------------------------------------------------------- */

static void expect_told(const struct log_outcome *outcome, size_t nlog)
{
    char line[100] = "";

    if (outcome->refusal != 0)
        snprintf(line, sizeof line, "log refused %" PRIu64 " at %" PRIu64 ", drawn as it stood\n",
                 outcome->refusal, outcome->position);
    expect(ran.nerr == strlen(line) && memcmp(ran.err, line, ran.nerr) == 0,
           "log of %zu bytes: standard error '%.*s', refusal %" PRIu64 " at %" PRIu64, nlog,
           (int)strcspn(ran.err, "\n"), ran.err, outcome->refusal, outcome->position);
}

/* Where no start is accepted the pool is drawn fresh. */
static struct log_outcome expect_drawn(const struct drawer *drawer, const uint8_t *bytes,
                                       size_t length)
{
    static struct pool pool;
    static struct text lines;
    struct feed feed = file_of(bytes, length);
    struct log_outcome outcome;

    pool_fresh(&pool, 1);
    outcome = log_replay(&pool, 1, bytes, feed_read(&feed), &lines);
    run_program(drawer->path, &feed, SINK_FILE);
    expect_ended("log", length);
    expect(ran.status == 0, "log of %zu bytes: status %d", length, ran.status);
    drawer->expect(&pool, length);
    expect_told(&outcome, length);
    return outcome;
}

static struct log_outcome expect_draft(const struct drawer *drawer)
{
    return expect_drawn(drawer, draft.bytes, draft.length);
}

/* ---- Logs that are there --------------------------------------------------------- */

static void test_known_logs(const struct drawer *drawer)
{
    group_begin(drawer->name, "known");
    for (size_t i = 0; i < known_log_count; i++) {
        const struct known_log *log = &known_logs[i];
        struct log_outcome outcome = expect_drawn(drawer, log->bytes, log->length);
        expect(outcome.refusal == log->refusal && outcome.position == log->position, "%s",
               log->name);
    }
    group_end();
}

static void read_log(const char *path)
{
    static uint8_t bytes[READ_AT_MOST];
    FILE *file = fopen(path, "rb");

    if (file == NULL) {
        perror(path);
        exit(2);
    }
    draft_clear(&draft);
    draft_bytes(&draft, bytes, fread(bytes, 1, sizeof bytes, file));
    fclose(file);
}

/* Whole, and then cut at every so manieth byte. */
static void test_example(const struct drawer *drawer, const char *path, size_t step)
{
    group_begin(drawer->name, path);
    read_log(path);
    expect(expect_draft(drawer).refusal == 0, "%s is refused", path);
    for (size_t cut = 0; cut < draft.length; cut += step)
        expect(expect_drawn(drawer, draft.bytes, cut).refusal == 8, "cut at %zu", cut);
    group_end();
}

/* ---- Logs that are made ------------------------------------------------------------ */

/* A resize, the longest field; so many of them are read whole, with a start and an end. */
enum { LONGEST_FIELD = 11, READ_WHOLE = (READ_AT_MOST - 7) / LONGEST_FIELD };

static void test_random_logs(const struct drawer *drawer)
{
    for (size_t d = 0; d < diet_count; d++) {
        group_begin(drawer->name, diets[d].name);
        for (unsigned i = 0; i < 200; i++) {
            draft_log(&draft, 1, &diets[d], rng_below(&rng, i % 4 ? 300 : READ_WHOLE));
            expect(expect_draft(drawer).refusal == 0, "a good log is refused");
        }
        group_end();
    }
}

static void test_spoilt_logs(const struct drawer *drawer)
{
    unsigned refused = 0;

    group_begin(drawer->name, "spoilt");
    for (unsigned i = 0; i < 400; i++) {
        draft_log(&draft, 1, &diets[i % diet_count], rng_below(&rng, i % 2 ? 20 : 500));
        draft_spoil(&draft);
        refused += expect_draft(drawer).refusal != 0;
    }
    expect_least(refused, 200, "logs refused");
    group_end();
}

static void test_other_counts(const struct drawer *drawer)
{
    group_begin(drawer->name, "other-chunk-counts");
    for (size_t c = 2; c <= MAX_CHUNKS; c++) {
        struct log_outcome outcome;
        draft_log(&draft, c, &diets[c % diet_count], 100);
        outcome = expect_draft(drawer);
        expect(outcome.refusal == 9 && outcome.position == 0, "%zu chunks are not refused", c);
    }
    group_end();
}

/* The rest counts as missing, whatever it is: also that of a field which has begun. */
static void test_long_logs(const struct drawer *drawer)
{
    group_begin(drawer->name, "longer-than-read");
    for (unsigned i = 0; i < 30; i++) {
        struct log_outcome outcome;
        draft_log(&draft, 1, &diets[i % diet_count], 2340 + rng_below(&rng, i % 2 ? 3 : 3000));
        outcome = expect_draft(drawer);
        expect(outcome.refusal == 8 && outcome.position <= READ_AT_MOST
                   && outcome.position + LONGEST_FIELD > READ_AT_MOST,
               "not cut");
    }
    group_end();
}

/* ---- Every class at every level ------------------------------------------------------ */

/* At so many tenths of the slots, or a slot more or less. */
static unsigned slots_to_take(unsigned b, unsigned tenths, int more)
{
    int slots = (int)size_classes[b].slots;
    int wanted = (slots * (int)tenths + 9) / 10 + more;

    return (unsigned)(wanted < 0 ? 0 : wanted > slots ? slots : wanted);
}

/* A run of each class; where no slot is to be taken, one is and is given back. */
static void draft_levels(unsigned tenths, int more)
{
    draft_clear(&draft);
    draft_start(&draft, 1);
    for (unsigned b = 0; b < CLASSES; b++) {
        unsigned wanted = slots_to_take(b, tenths, more);
        const struct pool_chunk *chunk = &draft.guide.chunks[0];
        for (unsigned n = 0; n < wanted || n == 0; n++)
            draft_reserve(&draft, size_classes[b].size);
        if (wanted == 0)
            draft_release(&draft, run_place(0, chunk->runs[chunk->count - 1]));
    }
    draft_end(&draft);
}

static void test_levels(const struct drawer *drawer)
{
    group_begin(drawer->name, "every-class-at-every-level");
    for (unsigned tenths = 0; tenths <= 10; tenths++) {
        for (int more = -1; more <= 1; more++) {
            draft_levels(tenths, more);
            expect(expect_draft(drawer).refusal == 0, "%u tenths and %d", tenths, more);
        }
    }
    group_end();
}

/* A run from the first page on, and one behind it that takes the rest. */
static void test_large_runs(const struct drawer *drawer)
{
    group_begin(drawer->name, "large-runs-that-fill-the-chunk");
    for (unsigned pages = 1; pages < PAGES; pages += 3) {
        draft_clear(&draft);
        draft_start(&draft, 1);
        draft_reserve(&draft, pages * PAGE_BYTES);
        draft_reserve(&draft, (PAGES - 1 - pages) * PAGE_BYTES);
        draft_end(&draft);
        expect(expect_draft(drawer).refusal == 0, "%u pages", pages);
    }
    group_end();
}

static void test_failing_output(const struct drawer *drawer)
{
    static const enum sink sinks[] = {SINK_FULL, SINK_CLOSED, SINK_BROKEN};

    group_begin(drawer->name, "failing-output");
    for (size_t i = 0; i < COUNT(sinks); i++) {
        struct feed feed = file_of(known_logs[0].bytes, known_logs[0].length);
        expect_failure_told(drawer->path, &feed, sinks[i]);
    }
    group_end();
}

static void test_drawer(const struct drawer *drawer)
{
    test_known_logs(drawer);
    test_example(drawer, "examples/sample.log", 1);
    test_example(drawer, "examples/map.log", 97);
    test_levels(drawer);
    test_large_runs(drawer);
    test_random_logs(drawer);
    test_spoilt_logs(drawer);
    test_other_counts(drawer);
    test_long_logs(drawer);
    test_failing_output(drawer);
}

int main(int argc, char **argv)
{
    if (argc < 3) {
        fprintf(stderr, "usage: maps MAP PAINT [SEED]\n");
        return 2;
    }
    for (size_t i = 0; i < COUNT(drawers); i++) {
        drawers[i].path = argv[1 + i];
        need_program(drawers[i].path);
    }
    program_begin(argc - 2, argv + 2);
    for (size_t i = 0; i < COUNT(drawers); i++)
        test_drawer(&drawers[i]);
    return program_end("maps");
}
