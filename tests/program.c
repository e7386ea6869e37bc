/*
 * Tests of the replay program: it is run on logs, and what it writes is
 * compared with lines that are known by hand or those of logs.c.
 *
 * One line is printed for each named group, then the count of groups.
 * Usage: program PATH [SEED], PATH being that of the replay program
 */
#include "child.h"
#include "drafts.h"
#include "draws.h"
#include "groups.h"
#include "known.h"
#include "logs.h"

#include <inttypes.h>
#include <stdio.h>
#include <string.h>

static const char *path;
static struct draft draft;

/* ---- What is expected ------------------------------------------------------------------ */

static void expect_lines(const char *lines, size_t length, size_t nlog)
{
    expect_ended("log", nlog);
    expect_written(lines, length, nlog);
    expect(ran.nerr == 0, "log of %zu bytes: wrote %zu bytes to standard error", nlog, ran.nerr);
}

static struct log_outcome expect_replayed(struct feed feed, enum sink sink)
{
    static struct pool pool;
    static struct text lines;
    struct log_outcome outcome = log_replay(&pool, 1, feed.bytes, feed_read(&feed), &lines);

    run_program(path, &feed, sink);
    expect_lines(lines.bytes, lines.length, feed.length);
    if (outcome.refusal == 0)
        expect(ran.status == 0, "log of %zu bytes: status %d", feed.length, ran.status);
    return outcome;
}

static struct log_outcome expect_draft(void)
{
    return expect_replayed(file_of(draft.bytes, draft.length), SINK_FILE);
}

/* ---- Logs -------------------------------------------------------------------------------- */

static void test_known_logs(void)
{
    for (size_t i = 0; i < known_log_count; i++) {
        const struct known_log *log = &known_logs[i];
        struct feed feed = file_of(log->bytes, log->length);
        group_begin("known", log->name);
        run_program(path, &feed, SINK_FILE);
        expect_lines(log->lines, strlen(log->lines), log->length);
        group_end();
    }
}

static void expect_cuts(const struct known_log *log)
{
    for (size_t cut = 0; cut <= log->length; cut++) {
        struct log_outcome outcome = expect_replayed(file_of(log->bytes, cut), SINK_FILE);
        expect(outcome.refusal == (cut == log->length ? 0 : 8), "cut at %zu", cut);
    }
}

static void test_cuts(void)
{
    group_begin("log", "samples-cut-at-every-byte");
    expect_cuts(known_log_named("sample"));
    expect_cuts(known_log_named("sample-of-resizes"));
    group_end();
}

static void test_random_logs(void)
{
    group_begin("log", "random");
    for (unsigned i = 0; i < 60; i++) {
        draft_log(&draft, 1, &diets[i % diet_count], rng_below(&rng, 2000));
        expect_draft();
    }
    group_end();
    group_begin("log", "random-spoilt");
    for (unsigned i = 0; i < 120; i++) {
        draft_log(&draft, 1, &diets[i % diet_count], rng_below(&rng, i % 2 ? 20 : 1000));
        draft_spoil(&draft);
        expect_draft();
    }
    group_end();
}

static void test_full_pool(void)
{
    static const uint64_t sizes[] = {1024, 2048, 3072, 4096, 8192, 2093056};

    group_begin("log", "full-pool");
    for (size_t i = 0; i < COUNT(sizes); i++) {
        draft_clear(&draft);
        draft_start(&draft, 1);
        for (unsigned n = 0; n < 2300; n++)
            draft_reserve(&draft, sizes[i]);
        draft_release(&draft, draw_live_place(&draft.guide));
        draft_reserve(&draft, sizes[i]);
        draft_end(&draft);
        expect(expect_draft().reserves[4] > 0, "not full of %" PRIu64, sizes[i]);
    }
    group_end();
}

/* ---- Lengths ------------------------------------------------------------------------------- */

/* A start and so many reserves and releases: 4 bytes and 7 for each. */
static void draft_fields(unsigned fields)
{
    draft_clear(&draft);
    draft_start(&draft, 1);
    for (unsigned i = 0; i < fields; i++) {
        if (i % 3 == 2)
            draft_release(&draft, draw_live_place(&draft.guide));
        else
            draft_reserve(&draft, draw_small_size());
    }
}

static void expect_stop(uint64_t refusal, uint64_t position)
{
    struct log_outcome outcome = expect_draft();

    expect(outcome.refusal == refusal && outcome.position == position,
           "%" PRIu64 " at %" PRIu64, outcome.refusal, outcome.position);
}

static void length_of_longest_log_without_resizes(void)
{
    draft_fields(2339);
    draft_end(&draft);
    expect(draft.length == 16380, "%zu bytes", draft.length);
    expect_stop(0, 0);
}

/* A field of 11 bytes makes up for the four that are left. */
static void length_of_longest_good_log(void)
{
    draft_fields(2338);
    draft_resize(&draft, draw_live_place(&draft.guide), 5000);
    draft_end(&draft);
    expect(draft.length == 16384, "%zu bytes", draft.length);
    expect_stop(0, 0);
}

/* The limit falls inside a resize: seven to two of its bytes are read. */
static void length_that_cuts_a_resize(void)
{
    static const struct {
        unsigned fields, resizes; /* before the last resize */
    } rows[] = {{2339, 0}, {2336, 2}, {2333, 4}, {2330, 6}, {2327, 8}, {2324, 10}};

    for (size_t i = 0; i < COUNT(rows); i++) {
        size_t last;
        draft_fields(rows[i].fields);
        for (unsigned n = 0; n < rows[i].resizes; n++)
            draft_resize(&draft, draw_live_place(&draft.guide), draw_small_size());
        last = draft.length;
        draft_resize(&draft, draw_live_place(&draft.guide), 5000);
        draft_end(&draft);
        expect(last < 16384 && last + 11 > 16384, "%zu bytes before the last field", last);
        expect_stop(8, last);
    }
}

/* One to four bytes after the end are read, and so are refused. */
static void length_up_to_16384(void)
{
    static const uint8_t more[4] = {4, 0, 0, 0};

    for (size_t count = 1; count <= 4; count++) {
        draft_fields(2339);
        draft_end(&draft);
        draft_bytes(&draft, more, count);
        expect_stop(9, 16380);
    }
}

/*
 * Start and 2,340 fields are 16,384 bytes, without an end. So the limit falls
 * between two fields of every log without resizes that is good up to it.
 */
static void length_of_16384(void)
{
    draft_fields(2340);
    expect(draft.length == 16384, "%zu bytes", draft.length);
    expect_stop(8, 16384);
}

static void length_of_16387(void)
{
    draft_fields(2340);
    draft_end(&draft);
    expect(draft.length == 16387, "%zu bytes", draft.length);
    expect_stop(8, 16384);
}

static void length_of_longer_logs(void)
{
    draft_fields(2341);
    draft_end(&draft);
    expect_stop(8, 16384);
    draft_fields(5000);
    draft_end(&draft);
    expect_stop(8, 16384);
    draft_fields(9000);
    expect_stop(8, 16384);
}

/* What lies behind the limit is never looked at, not even an odd field. */
static void length_with_junk_behind(void)
{
    static const uint8_t junk[] = {255, 255, 255, 255, 255, 255, 255, 255};

    draft_fields(2340);
    draft_bytes(&draft, junk, sizeof junk);
    expect_stop(8, 16384);
}

static const struct {
    const char *name;
    void (*run)(void);
} by_length[] = {
    {"16380-the-longest-without-resizes", length_of_longest_log_without_resizes},
    {"16384-the-longest-good-log", length_of_longest_good_log},
    {"a-resize-cut-by-the-limit", length_that_cuts_a_resize},
    {"16381-to-16384-bytes-after-the-end", length_up_to_16384},
    {"16384-without-an-end", length_of_16384},
    {"16387-the-end-counts-as-missing", length_of_16387},
    {"longer", length_of_longer_logs},
    {"longer-with-junk-behind", length_with_junk_behind},
};

static void test_lengths(void)
{
    for (size_t i = 0; i < COUNT(by_length); i++) {
        group_begin("length", by_length[i].name);
        by_length[i].run();
        group_end();
    }
}

/* ---- Input through a pipe -------------------------------------------------------------------- */

static void test_sample_in_pieces(void)
{
    static const size_t pieces[] = {1, 2, 3, 4, 5, 7, 13, 55, 56, 57};
    const struct known_log *sample = &known_logs[0];

    group_begin("input", "sample-in-pieces");
    for (size_t i = 0; i < COUNT(pieces); i++)
        expect_replayed(pieces_of(sample->bytes, sample->length, pieces[i], 500), SINK_FILE);
    group_end();
    group_begin("input", "cut-sample-in-pieces");
    for (size_t cut = 0; cut < sample->length; cut += 3)
        expect_replayed(pieces_of(sample->bytes, cut, 5, 100), SINK_FILE);
    group_end();
}

static void test_long_log_in_pieces(void)
{
    static const struct {
        size_t piece;
        unsigned pause;
    } ways[] = {{16, 1}, {100, 50}, {1000, 500}, {4095, 1000}, {4096, 1000}, {4097, 1000},
                {16383, 2000}, {16384, 2000}, {65536, 0}};

    group_begin("input", "long-logs-in-pieces");
    for (size_t i = 0; i < COUNT(ways); i++) {
        for (unsigned fields = 2339; fields <= 2400; fields += 61) {
            draft_fields(fields);
            draft_end(&draft);
            expect_replayed(pieces_of(draft.bytes, draft.length, ways[i].piece, ways[i].pause),
                            SINK_FILE);
        }
    }
    group_end();
}

/* The writer never stops: the program does. */
static void test_endless_input(void)
{
    struct feed feed;

    group_begin("input", "endless");
    draft_fields(9000);
    feed = pieces_of(draft.bytes, draft.length, 4096, 0);
    feed.endless = true;
    expect_replayed(feed, SINK_FILE);
    group_end();
}

/* ---- Output ---------------------------------------------------------------------------------- */

/* More lines than a pipe holds. */
static void test_output_pipe(void)
{
    group_begin("output", "through-a-pipe");
    expect_replayed(file_of(known_logs[0].bytes, known_logs[0].length), SINK_PIPE);
    draft_clear(&draft);
    draft_start(&draft, 1);
    for (unsigned i = 0; i < 2339; i++)
        draft_reserve(&draft, 1024 - i % 100);
    draft_end(&draft);
    expect_replayed(pieces_of(draft.bytes, draft.length, 1000, 10), SINK_PIPE);
    draft_fields(2339);
    draft_end(&draft);
    expect_replayed(file_of(draft.bytes, draft.length), SINK_PIPE);
    group_end();
}

/* The failure is told on standard error. */
static void expect_told(const char *name, enum sink sink)
{
    static const size_t logs[] = {0, 1, 7}; /* the sample, the empty log, a bad start */

    group_begin("output", name);
    for (size_t i = 0; i < COUNT(logs); i++) {
        const struct known_log *log = &known_logs[logs[i]];
        struct feed feed = file_of(log->bytes, log->length);
        expect_failure_told(path, &feed, sink);
    }
    group_end();
}

static void test_failing_output(void)
{
    expect_told("full", SINK_FULL);
    expect_told("closed", SINK_CLOSED);
    expect_told("nobody-reads", SINK_BROKEN);
}

int main(int argc, char **argv)
{
    if (argc < 2) {
        fprintf(stderr, "usage: program PATH [SEED]\n");
        return 2;
    }
    path = argv[1];
    need_program(path);
    program_begin(argc - 1, argv + 1);
    test_known_logs();
    test_cuts();
    test_random_logs();
    test_full_pool();
    test_lengths();
    test_sample_in_pieces();
    test_long_log_in_pieces();
    test_endless_input();
    test_output_pipe();
    test_failing_output();
    return program_end("program");
}
