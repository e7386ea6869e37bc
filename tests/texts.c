/*
 * Tests of the programs that exchange texts and logs: they are run on texts and
 * logs, and what they write is compared with what the independent reading of
 * model/exchange.c makes of these.
 *
 * One line is printed for each named group, then the count of groups.
 * Usage: texts IMPORT EXPORT [SEED], the paths of the two programs
 */
#include "child.h"
#include "drafts.h"
#include "groups.h"
#include "known.h"
#include "logs.h"
#include "texts.h"

#include <inttypes.h>
#include <stdio.h>
#include <string.h>

/* "They read at most 1,048,576 bytes" */
enum { TAKEN_AT_MOST = 1048576 };

/* A program, what it is given and makes, and how the refusals of it are told. */
struct exchanger {
    const char *name;
    const char *path;
    struct exchanged (*model)(const uint8_t *bytes, size_t count, size_t room);
    const char *too_long, *unwritten;
};

static struct exchanger importer = {
    "import", NULL, model_import,
    "lensember-import: the text is longer than 1048576 bytes\n",
    "lensember-import: the log could not be written\n"};
static struct exchanger exporter = {
    "export", NULL, model_export,
    "lensember-export: the log is longer than 1048576 bytes\n",
    "lensember-export: the text could not be written\n"};

static struct draft draft;
static struct writing input;

/* ---- What is expected ------------------------------------------------------------------ */

static void expect_told(const char *line, size_t given)
{
    expect(ran.nerr == strlen(line) && memcmp(ran.err, line, ran.nerr) == 0,
           "input of %zu bytes: standard error '%.*s', expected '%.*s'", given,
           (int)strcspn(ran.err, "\n"), ran.err, (int)strcspn(line, "\n"), line);
}

static void tell_refusal(char *line, size_t most, const struct exchanger *program,
                         const struct exchanged *right)
{
    if (program == &importer)
        snprintf(line, most, "lensember-import: line %" PRIu64 " refused %" PRIu64 "\n",
                 right->where, right->refusal);
    else
        snprintf(line, most, "lensember-export: log refused %" PRIu64 " at %" PRIu64 "\n",
                 right->refusal, right->where);
}

/* Either the output and not a word besides, or a line of refusal and no output. */
static uint64_t expect_exchanged(const struct exchanger *program, struct feed feed, enum sink sink)
{
    struct exchanged right = program->model(feed.bytes, feed.length, SIZE_MAX);
    uint64_t refusal = right.refusal;
    char line[100] = "";

    if (right.refusal != 0)
        tell_refusal(line, sizeof line, program, &right);
    run_program(program->path, &feed, sink);
    expect_ended("input", feed.length);
    expect_written((const char *)right.out.bytes, right.out.length, feed.length);
    expect_told(line, feed.length);
    writing_free(&right.out);
    return refusal;
}

/* The same where there is one byte more, or many: whatever they are, nothing is written. */
static void expect_too_long(const struct exchanger *program, struct feed feed)
{
    run_program(program->path, &feed, SINK_FILE);
    expect_ended("input", feed.length);
    expect(ran.nout == 0, "input of %zu bytes: wrote %zu", feed.length, ran.nout);
    expect_told(program->too_long, feed.length);
}

static uint64_t expect_file(const struct exchanger *program, const uint8_t *bytes, size_t count)
{
    return expect_exchanged(program, file_of(bytes, count), SINK_FILE);
}

static uint64_t expect_input(const struct exchanger *program)
{
    return expect_file(program, input.bytes, input.length);
}

/* ---- Texts and logs ---------------------------------------------------------------------- */

/* RULES 12.7, both ways. */
static void test_sample(void)
{
    const struct known_text *text = &known_texts[0];
    const struct known_log *log = known_log_named("sample");

    group_begin("import", "sample");
    expect_file(&importer, text->bytes, text->length);
    expect_written((const char *)log->bytes, log->length, text->length);
    group_end();
    group_begin("export", "sample");
    expect_file(&exporter, log->bytes, log->length);
    expect_written((const char *)text->bytes, text->length, log->length);
    group_end();
}

static void test_known(void)
{
    group_begin("import", "known-texts");
    for (size_t i = 0; i < known_text_count; i++)
        expect(expect_file(&importer, known_texts[i].bytes, known_texts[i].length)
                   == (known_texts[i].line == 0 ? 0 : 13), "%s", known_texts[i].name);
    group_end();
    group_begin("import", "bad-lines");
    for (size_t i = 0; i < bad_line_count; i++) {
        draw_text(&input, 1 + rng_below(&rng, 30));
        write_bytes(&input, bad_lines[i].bytes, bad_lines[i].length);
        expect(expect_input(&importer) == 13, "%s", bad_lines[i].name);
    }
    group_end();
    group_begin("export", "known-logs");
    for (size_t i = 0; i < known_log_count; i++)
        expect_file(&exporter, known_logs[i].bytes, known_logs[i].length);
    group_end();
}

static void test_random(void)
{
    unsigned long refused = 0;

    group_begin("import", "random-texts");
    for (unsigned i = 0; i < 40; i++) {
        draw_text(&input, 1 + rng_below(&rng, i % 4 ? 100 : 20000));
        expect(expect_input(&importer) == 0, "refused");
    }
    group_end();
    group_begin("export", "random-logs");
    for (unsigned i = 0; i < 40; i++) {
        draw_log(&input, rng_below(&rng, i % 4 ? 100 : 20000));
        expect(expect_input(&exporter) == 0, "refused");
    }
    group_end();
    group_begin("export", "spoilt-logs-and-resizes");
    for (unsigned i = 0; i < 80; i++) {
        draft_log(&draft, 1 + i % MAX_CHUNKS, &diets[i % diet_count], rng_below(&rng, 60));
        if (i % 2)
            draft_spoil(&draft);
        refused += expect_file(&exporter, draft.bytes, draft.length) != 0;
    }
    expect_least(refused, 40, "refused");
    group_end();
}

/* ---- Lengths ------------------------------------------------------------------------------- */

/* A text of just so many bytes: lines of one digit, the last line longer where it must be. */
static void text_of(size_t bytes)
{
    input.length = 0;
    write_bytes(&input, "pool 9\n", 7);
    while (bytes - input.length >= 6)
        write_bytes(&input, "+1\n", 3);
    write_bytes(&input, bytes - input.length == 3 ? "-1\n" : bytes - input.length == 4 ? "-12\n"
                                                                                      : "-123\n",
                bytes - input.length);
}

/* The longest text becomes the longest log: 7 bytes for each line of 3. */
static void test_longest_text(void)
{
    group_begin("import", "1048576-bytes");
    for (size_t length = TAKEN_AT_MOST - 3; length <= TAKEN_AT_MOST; length++) {
        text_of(length);
        expect(input.length == length && expect_input(&importer) == 0, "%zu bytes", length);
    }
    expect(ran.nout == 349524 * 7, "%zu bytes of log", ran.nout);
    input.bytes[TAKEN_AT_MOST - 1] = '1'; /* no newline */
    expect(expect_input(&importer) == 13, "the last newline is gone");
    group_end();
    group_begin("import", "1048577-bytes-and-more");
    for (size_t more = 1; more < 100000; more *= 7) {
        text_of(TAKEN_AT_MOST + more);
        expect_too_long(&importer, file_of(input.bytes, input.length));
    }
    memset(input.bytes, 'x', input.length); /* what is in it is not told */
    expect_too_long(&importer, file_of(input.bytes, input.length));
    group_end();
}

/* The longest log without resizes has 1,048,572 bytes, and each of its lines is the longest. */
static void log_of(unsigned fields)
{
    struct entry start = {TAG_START, {16, 0}}, end = {TAG_END, {0, 0}};
    struct entry release = {TAG_RELEASE, {4294967295, 0}};

    input.length = 0;
    write_field(&input, &start);
    for (unsigned i = 0; i < fields; i++)
        write_field(&input, &release);
    write_field(&input, &end);
}

static void test_longest_log(void)
{
    static const uint8_t more[4] = {4, 0, 0, 0};

    group_begin("export", "1048576-bytes");
    log_of(149795);
    expect(input.length == 1048572 && expect_input(&exporter) == 0, "%zu bytes", input.length);
    expect(ran.nout == 149795 * 12 + 8, "%zu bytes of text", ran.nout);
    for (size_t count = 1; count <= sizeof more; count++) {
        log_of(149795);
        write_bytes(&input, more, count);
        expect(expect_input(&exporter) == 9, "bytes after the end");
    }
    log_of(150000);
    expect(expect_file(&exporter, input.bytes, TAKEN_AT_MOST) == 8, "cut there");
    group_end();
    group_begin("export", "1048577-bytes-and-more");
    expect_too_long(&exporter, file_of(input.bytes, TAKEN_AT_MOST + 1));
    expect_too_long(&exporter, file_of(input.bytes, input.length));
    memset(input.bytes, 'x', input.length);
    expect_too_long(&exporter, file_of(input.bytes, TAKEN_AT_MOST + 1));
    group_end();
}

/* ---- Input through a pipe -------------------------------------------------------------------- */

static void test_pieces(const struct exchanger *program, const uint8_t *bytes, size_t count)
{
    static const size_t pieces[] = {1, 2, 3, 4, 5, 7, 13, 41, 56};

    group_begin(program->name, "sample-in-pieces");
    for (size_t i = 0; i < COUNT(pieces); i++)
        expect_exchanged(program, pieces_of(bytes, count, pieces[i], 500), SINK_FILE);
    for (size_t cut = 0; cut < count; cut += 5)
        expect_exchanged(program, pieces_of(bytes, cut, 6, 100), SINK_PIPE);
    group_end();
}

/* Of what stands in the input: whole as long as it may be, one byte too long, and without end. */
static void test_long_pieces(const struct exchanger *program, size_t count)
{
    static const size_t pieces[] = {1000, 4096, 65536, 100001};
    struct feed endless = pieces_of(input.bytes, count, 65536, 0);

    group_begin(program->name, "long-input-in-pieces");
    for (size_t i = 0; i < COUNT(pieces); i++)
        expect_exchanged(program, pieces_of(input.bytes, count, pieces[i], i % 2 ? 0 : 1),
                         i % 2 ? SINK_FILE : SINK_PIPE);
    write_bytes(&input, "\n", 1);
    for (size_t i = 0; i < COUNT(pieces); i++)
        expect_too_long(program, pieces_of(input.bytes, TAKEN_AT_MOST + 1, pieces[i], 0));
    group_end();
    group_begin(program->name, "endless-input");
    endless.endless = true;
    endless.bytes = input.bytes;
    expect_too_long(program, endless);
    group_end();
}

/* It counts as ended there: as an empty text, and an empty log. */
static void test_unreadable(void)
{
    group_begin("input", "unreadable");
    expect(expect_exchanged(&importer, unreadable(), SINK_FILE) == 13, "import");
    expect(expect_exchanged(&exporter, unreadable(), SINK_FILE) == 8, "export");
    group_end();
}

static void test_inputs(void)
{
    test_unreadable();
    test_pieces(&importer, known_texts[0].bytes, known_texts[0].length);
    test_pieces(&exporter, known_logs[0].bytes, known_logs[0].length);
    text_of(TAKEN_AT_MOST);
    test_long_pieces(&importer, TAKEN_AT_MOST);
    log_of(149795);
    write_bytes(&input, "\4\0\0\0", 4);
    test_long_pieces(&exporter, TAKEN_AT_MOST);
}

/* ---- Output ---------------------------------------------------------------------------------- */

/* Good input: that its output fails is told. Refused input has no output that could. */
static void test_sink(const struct exchanger *program, enum sink sink, struct feed good,
                      struct feed bad)
{
    struct exchanged right = program->model(bad.bytes, bad.length, SIZE_MAX);
    char line[100];

    expect_failure_told(program->path, &good, sink);
    expect_told(program->unwritten, good.length);
    run_program(program->path, &bad, sink);
    tell_refusal(line, sizeof line, program, &right);
    expect_told(line, bad.length);
}

static void test_failing_output(void)
{
    static const struct {
        const char *name;
        enum sink sink;
    } sinks[] = {{"full", SINK_FULL}, {"closed", SINK_CLOSED}, {"nobody-reads", SINK_BROKEN}};
    const struct known_log *log = known_log_named("sample"), *cut = known_log_named("start-alone");
    const struct known_text *text = &known_texts[0];

    for (size_t i = 0; i < COUNT(sinks); i++) {
        group_begin("output", sinks[i].name);
        test_sink(&importer, sinks[i].sink, file_of(text->bytes, text->length),
                  file_of(text->bytes, text->length - 1));
        test_sink(&exporter, sinks[i].sink, file_of(log->bytes, log->length),
                  file_of(cut->bytes, cut->length));
        group_end();
    }
}

int main(int argc, char **argv)
{
    if (argc < 3) {
        fprintf(stderr, "usage: texts IMPORT EXPORT [SEED]\n");
        return 2;
    }
    importer.path = argv[1];
    exporter.path = argv[2];
    need_program(importer.path);
    need_program(exporter.path);
    program_begin(argc - 2, argv + 2);
    test_sample();
    test_known();
    test_random();
    test_longest_text();
    test_longest_log();
    test_inputs();
    test_failing_output();
    return program_end("texts");
}
