/*
 * Tests of append, import and export, through the C calls.
 *
 * Each call is made by the library and by the independent reading of
 * model/exchange.c; refusal, line, position and length, and all bytes of what
 * is lent are compared. One line is printed for each named group, then the
 * count of groups.
 * Usage: exchange [SEED]
 */
#include "desk.h"
#include "drafts.h"
#include "groups.h"
#include "known.h"
#include "lensember.h"
#include "lent.h"
#include "stage.h"
#include "texts.h"

#include <inttypes.h>
#include <stdio.h>
#include <string.h>

enum { FIELD_BYTES = 11 /* of the longest */, FRONTS = 5 };

static struct draft draft;
static struct writing text, log_bytes;

/* Any field of a log at any numbers. */
static const uint64_t field_tags[] = {TAG_START, TAG_RESERVE, TAG_RELEASE, TAG_END, TAG_RESIZE};

static const uint64_t numbers[] = {
    0, 1, 2, 15, 16, 17, 24, 255, 256, 257, 4096, 65535, 65536, 16777215, 16777216, 0x01020304,
    2147483648, 4294967294, 4294967295, 4294967296, 4294967297, 4294967320, UINT64_C(1) << 40,
    UINT64_C(1) << 63, UINT64_MAX - 1, UINT64_MAX};

static uint64_t any_tag(void)
{
    return field_tags[rng_below(&rng, COUNT(field_tags))];
}

/* Mostly one that can be written. */
static uint64_t any_number(void)
{
    return rng_below(&rng, 4) ? draw_number(1 + rng_below(&rng, 10))
                              : numbers[rng_below(&rng, COUNT(numbers))];
}

/* Any diet, with resizes or without. */
static void draft_any(bool resizes, unsigned fields)
{
    struct diet diet = diets[rng_below(&rng, (unsigned)diet_count)];

    if (!resizes)
        diet.resizes = 0;
    draft_log(&draft, 1 + rng_below(&rng, MAX_CHUNKS), &diet, fields);
}

/* The draft's bytes, then some that a field may be written over. */
static size_t draft_with_room(size_t room)
{
    static const uint8_t zeros[64];
    size_t length = draft.length;

    draft_bytes(&draft, zeros, room);
    lent_fill(draft.bytes + length, draft.length - length);
    return length;
}

/* ---- Append: turns, tags and numbers ------------------------------------------- */

/* A log so far at each turn: nothing, a start, more fields, a resize, the end. */
static size_t draft_front(unsigned front)
{
    draft_clear(&draft);
    if (front >= 1)
        draft_start(&draft, 1 + rng_below(&rng, MAX_CHUNKS));
    if (front >= 2)
        draft_reserve(&draft, 24);
    if (front >= 3)
        draft_resize(&draft, PAGE_BYTES, 5000);
    if (front >= 4)
        draft_end(&draft);
    return draft_with_room(4 * FIELD_BYTES);
}

/* Behind the start and before the end all fields but a start are due. */
static bool is_due_at(unsigned front, uint64_t tag)
{
    if (front == 0)
        return tag == TAG_START;
    return front < 4 && tag != TAG_START;
}

/* Numbers that any field can be written with. */
static void test_turns(void)
{
    group_begin("append", "every-field-at-every-turn");
    for (unsigned front = 0; front < FRONTS; front++) {
        for (size_t i = 0; i < COUNT(field_tags); i++) {
            size_t length = draft_front(front);
            struct exchanged answer =
                desk_append(draft.bytes, draft.length, length, field_tags[i], 7, 8);
            expect(answer.refusal == (is_due_at(front, field_tags[i]) ? 0 : 9),
                   "tag %" PRIu64 " at turn %u: the model says %" PRIu64, field_tags[i], front,
                   answer.refusal);
        }
    }
    group_end();
}

static void test_tags(void)
{
    static const uint64_t far[] = {256, 257, 258, 260, 264, 65537, 65538,
                                   (UINT64_C(1) << 32) + 1, (UINT64_C(1) << 32) + 2,
                                   (UINT64_C(1) << 32) + 8, (UINT64_C(1) << 63) + 2,
                                   UINT64_MAX, UINT64_MAX - 1};

    group_begin("append", "every-tag-at-every-turn");
    for (unsigned front = 0; front < FRONTS; front++) {
        size_t length = draft_front(front);
        for (uint64_t tag = 0; tag < 256; tag++)
            desk_append(draft.bytes, draft.length, length, tag, 5, 6);
        for (size_t i = 0; i < COUNT(far); i++)
            expect(desk_append(draft.bytes, draft.length, length, far[i], 5, 6).refusal == 9,
                   "tag %" PRIu64, far[i]);
    }
    group_end();
}

/* Both numbers run through all: those that a field has not are not looked at. */
static void test_numbers(void)
{
    group_begin("append", "every-number-of-every-field");
    for (unsigned front = 0; front < 2; front++) {
        size_t length = draft_front(front);
        for (size_t t = 0; t < COUNT(field_tags); t++)
            for (size_t i = 0; i < COUNT(numbers); i++)
                for (size_t j = 0; j < COUNT(numbers); j++)
                    desk_append(draft.bytes, draft.length, length, field_tags[t], numbers[i],
                                numbers[j]);
    }
    group_end();
}

/* Of a field without a second number, or without any. */
static void test_unread_numbers(void)
{
    static const uint64_t one_number[] = {TAG_RESERVE, TAG_RELEASE};

    group_begin("append", "numbers-that-a-field-has-not");
    for (size_t i = 0; i < COUNT(numbers); i++) {
        size_t length = draft_front(1);
        for (size_t t = 0; t < COUNT(one_number); t++)
            expect(desk_append(draft.bytes, draft.length, length, one_number[t], 24, numbers[i])
                           .length == length + 7, "second %" PRIu64, numbers[i]);
        expect(desk_append(draft.bytes, draft.length, length, TAG_END, numbers[i], UINT64_MAX)
                       .length == length + 3, "end with %" PRIu64, numbers[i]);
        expect(desk_append(draft.bytes, draft.length, 0, TAG_START, 16, numbers[i]).length == 4,
               "start, second %" PRIu64, numbers[i]);
    }
    group_end();
}

/* "a start's count is not 1 to 16" */
static void test_counts(void)
{
    group_begin("append", "every-start-count");
    draft_front(0);
    for (uint64_t count = 0; count < 600; count++)
        expect(desk_append(draft.bytes, draft.length, 0, TAG_START, count, 0).refusal
                   == (count >= 1 && count <= 16 ? 0 : 9), "count %" PRIu64, count);
    for (unsigned bit = 4; bit < 64; bit++)
        expect(desk_append(draft.bytes, draft.length, 0, TAG_START, (UINT64_C(1) << bit) + 1, 0)
                       .refusal == 9, "count 2^%u + 1", bit);
    group_end();
}

/* ---- Append: lengths -------------------------------------------------------------- */

/* From no byte to some more than the log so far and the field take. */
static void test_append_rooms(void)
{
    group_begin("append", "every-buffer-length");
    for (unsigned front = 0; front < FRONTS; front++) {
        for (size_t t = 0; t < COUNT(field_tags); t++) {
            size_t length = draft_front(front);
            for (size_t nlog = 0; nlog <= length + FIELD_BYTES + 3; nlog++)
                desk_append(draft.bytes, nlog, length, field_tags[t], 3, 4);
        }
    }
    group_end();
}

/* What the length of a longer log so far would be is never asked. */
static void test_long_lengths(void)
{
    static const size_t buffers[] = {0, 1, 4, 7, 11, 22, 40};

    group_begin("append", "lengths-past-the-buffer");
    for (size_t b = 0; b < COUNT(buffers); b++) {
        size_t nlog = buffers[b];
        const uint64_t lengths[] = {nlog + 1, nlog + 2, nlog + 100, UINT64_C(1) << 31,
                                    UINT64_C(1) << 32, (UINT64_C(1) << 32) + 4,
                                    (UINT64_C(1) << 32) + nlog, UINT64_C(1) << 63,
                                    (UINT64_C(1) << 63) + nlog, UINT64_MAX - 3, UINT64_MAX};
        draft_front(3);
        for (size_t i = 0; i < COUNT(lengths); i++)
            for (uint64_t tag = 0; tag < 10; tag++)
                expect(desk_append(draft.bytes, nlog, lengths[i], tag, numbers[tag], 0).refusal
                           == 1, "length %" PRIu64 " of %zu", lengths[i], nlog);
    }
    group_end();
}

/* 1 comes first, then 9, then 7: the later ones hold as well, or nearly all do. */
static void test_append_order(void)
{
    group_begin("append", "order-of-refusals");
    for (unsigned i = 0; i < 4000; i++) {
        size_t length = draft_front(rng_below(&rng, FRONTS));
        size_t nlog = length + rng_below(&rng, FIELD_BYTES + 2);
        if (rng_below(&rng, 3) == 0)
            draft.bytes[rng_below(&rng, (unsigned)length + 1)] ^= (uint8_t)(1u << i % 8);
        desk_append(draft.bytes, nlog, length + rng_below(&rng, 4) / 3 * rng_below(&rng, 14),
                    rng_below(&rng, 10), any_number(), any_number());
    }
    group_end();
}

/* ---- Append: logs so far ------------------------------------------------------------ */

/* The first bytes of a log, whose other bytes stand behind them; any field is tried. */
static void test_cut_logs(void)
{
    group_begin("append", "behind-every-byte-of-logs");
    for (size_t i = 0; i < 3 * diet_count; i++) {
        size_t length;
        draft_log(&draft, 1 + i % MAX_CHUNKS, &diets[i % diet_count], 25);
        length = draft_with_room(FIELD_BYTES);
        for (size_t cut = 0; cut <= length; cut++)
            desk_append(draft.bytes, draft.length, cut, cut == 0 ? TAG_START : any_tag(),
                        1 + rng_below(&rng, 18), any_number());
    }
    group_end();
}

/* Of a good log without its end, a byte is changed and a field tried. */
static void test_spoilt_bytes(void)
{
    unsigned long served = exchange_counts.appends[0];

    group_begin("append", "behind-logs-with-a-byte-changed");
    for (unsigned i = 0; i < 30; i++) {
        size_t length;
        draft_any(true, 12);
        draft.length -= HEADER_BYTES;
        length = draft_with_room(FIELD_BYTES);
        for (size_t at = 0; at < length; at++) {
            uint8_t byte = draft.bytes[at];
            draft.bytes[at] = (uint8_t)(rng_below(&rng, 2) ? rng_below(&rng, 9) : rng_next(&rng));
            desk_append(draft.bytes, draft.length, length, TAG_RESERVE, any_number(), 0);
            draft.bytes[at] = byte;
        }
    }
    expect_least(exchange_counts.appends[0] - served, 500, "served in spite of it");
    group_end();
}

static void test_every_value(void)
{
    const struct known_log *log = known_log_named("sample-of-resizes");

    group_begin("append", "behind-every-value-of-every-byte");
    for (size_t at = 0; at < log->length; at++) {
        for (unsigned value = 0; value < 256; value++) {
            size_t length;
            draft_clear(&draft);
            draft_bytes(&draft, log->bytes, log->length);
            draft.bytes[at] = (uint8_t)value;
            length = draft_with_room(FIELD_BYTES);
            desk_append(draft.bytes, draft.length, length - HEADER_BYTES, any_tag(), 4096, 24);
        }
    }
    group_end();
}

static void test_spoilt_logs(void)
{
    group_begin("append", "behind-spoilt-logs");
    for (unsigned i = 0; i < 6000; i++) {
        size_t length;
        draft_any(true, rng_below(&rng, 12));
        draft_spoil(&draft);
        length = draft_with_room(FIELD_BYTES);
        desk_append(draft.bytes, draft.length, length, any_tag(), any_number(), any_number());
    }
    for (size_t i = 0; i < known_log_count; i++) {
        size_t length;
        draft_clear(&draft);
        draft_bytes(&draft, known_logs[i].bytes, known_logs[i].length);
        length = draft_with_room(FIELD_BYTES);
        for (size_t t = 0; t < COUNT(field_tags); t++)
            desk_append(draft.bytes, draft.length, length, field_tags[t], 12, 34);
    }
    group_end();
}

/* ---- Append: whole logs --------------------------------------------------------------- */

/* Writes the draft's fields one behind the other, in a buffer that the last one just fits. */
static void write_again(uint8_t *buffer, const struct entries *fields, bool beside_model)
{
    uint64_t length = 0;

    lent_fill(buffer, draft.length);
    for (size_t i = 0; i < fields->count; i++) {
        const struct entry *field = &fields->list[i];
        struct lensember_written answer;
        if (beside_model)
            desk_append(buffer, draft.length, length, field->tag, field->numbers[0],
                        field->numbers[1]);
        answer = lensember_append(buffer, draft.length, length, field->tag, field->numbers[0],
                                  field->numbers[1]);
        group.trials++;
        expect(answer.refusal == 0 && answer.length > length && answer.length <= draft.length,
               "field %zu: refused %" PRIu64 " length %" PRIu64, i, answer.refusal, answer.length);
        length = answer.length;
    }
    expect(length == draft.length && memcmp(buffer, draft.bytes, draft.length) == 0,
           "%zu fields: not the bytes of the log", fields->count);
}

/* What was written is replayed by the library and by the model of the pool. */
static void write_and_replay(unsigned fields, bool beside_model)
{
    struct reading reading;
    struct stage *stage;
    uint8_t *buffer;

    draft_any(true, fields);
    reading = read_log(draft.bytes, draft.length);
    buffer = lent_bytes_new(draft.length);
    write_again(buffer, &reading.fields, beside_model);
    stage = stage_new((size_t)reading.fields.list[0].numbers[0]);
    stage_prepare_anyhow(stage);
    expect(stage_try(stage, buffer, draft.length).refusal == 0, "replay of what was written");
    stage_free(stage);
    lent_bytes_free(buffer, draft.length);
    entries_free(&reading.fields);
}

static void test_whole_logs(void)
{
    group_begin("append", "whole-logs-field-by-field");
    for (unsigned i = 0; i < 60; i++)
        write_and_replay(rng_below(&rng, 90), true);
    for (unsigned i = 0; i < 12; i++)
        write_and_replay(500 + rng_below(&rng, 1500), false);
    group_end();
}

/* Nothing is written to an ended log, however good the field is. */
static void test_behind_end(void)
{
    group_begin("append", "nothing-behind-the-end");
    for (unsigned i = 0; i < 200; i++) {
        size_t length;
        draft_any(true, rng_below(&rng, 30));
        length = draft_with_room(FIELD_BYTES + rng_below(&rng, 30));
        for (size_t t = 0; t < COUNT(field_tags); t++)
            expect(desk_append(draft.bytes, draft.length, length, field_tags[t], 1, 2).refusal == 9,
                   "tag %" PRIu64, field_tags[t]);
    }
    group_end();
}

/* ---- Import: known texts ---------------------------------------------------------------- */

static void expect_line(struct exchanged answer, uint64_t line, const char *name)
{
    expect(answer.refusal == (line == 0 ? 0 : 13) && answer.where == line,
           "%s: the model says %" PRIu64 " line %" PRIu64, name, answer.refusal, answer.where);
}

static void test_known_texts(void)
{
    for (size_t i = 0; i < known_text_count; i++) {
        const struct known_text *known = &known_texts[i];
        group_begin("known-text", known->name);
        for (size_t nlog = 0; nlog < 80; nlog++)
            if (known->line != 0 || nlog >= 56)
                expect_line(desk_import(known->bytes, known->length, nlog), known->line,
                            known->name);
        group_end();
    }
}

/* RULES 12.7: the text is that of the log of 12.3, in 41 bytes. */
static void test_sample(void)
{
    const struct known_text *sample = &known_texts[0];
    const struct known_log *log = known_log_named("sample");
    struct exchanged answer;

    group_begin("known-text", "sample-both-ways");
    answer = desk_import(sample->bytes, sample->length, 56);
    expect(answer.length == log->length && memcmp(answer.out.bytes, log->bytes, 56) == 0, "import");
    answer = desk_export(log->bytes, log->length, 41);
    expect(answer.length == 41 && memcmp(answer.out.bytes, sample->bytes, 41) == 0, "export");
    group_end();
}

/* So many good lines in front of the line, and so many behind it. */
static void expect_bad_line(const struct known_line *line, unsigned before, unsigned behind)
{
    struct writing rest = {0, 0, NULL};
    struct exchanged answer;

    text.length = 0;
    if (before > 0)
        draw_text(&text, before);
    draw_text(&rest, 1 + behind);
    write_bytes(&text, line->bytes, line->length);
    for (size_t at = 0; behind > 0 && at < rest.length; at++) {
        if (rest.bytes[at] != '\n')
            continue;
        write_bytes(&text, rest.bytes + at + 1, rest.length - at - 1);
        break;
    }
    answer = desk_import(text.bytes, text.length,
                         rng_below(&rng, 3) ? LENSEMBER_IMPORT_ROOM(text.length) : 0);
    expect_line(answer, before + 1, line->name);
    writing_free(&rest);
}

static void test_bad_lines(void)
{
    for (size_t i = 0; i < bad_line_count; i++) {
        group_begin("bad-line", bad_lines[i].name);
        for (unsigned before = 1; before < 40; before += before < 4 ? 1 : 7)
            for (unsigned behind = 0; behind < 40; behind += behind < 2 ? 1 : 19)
                expect_bad_line(&bad_lines[i], before, behind);
        if (bad_lines[i].bytes[0] != 'p') /* a start is good there */
            expect_bad_line(&bad_lines[i], 0, rng_below(&rng, 3));
        expect_bad_line(&bad_lines[i], 3000, 0);
        expect_bad_line(&bad_lines[i], 1500, 1500);
        group_end();
    }
    for (size_t i = 0; i < bad_first_line_count; i++) {
        group_begin("bad-first-line", bad_first_lines[i].name);
        for (unsigned behind = 0; behind < 5; behind++)
            expect_bad_line(&bad_first_lines[i], 0, behind);
        expect_bad_line(&bad_first_lines[i], 0, 2000);
        group_end();
    }
}

/* ---- Import: random texts ------------------------------------------------------------------ */

/* Into just as much room as it takes, or more. */
static struct exchanged import_text(void)
{
    size_t room = LENSEMBER_IMPORT_ROOM(text.length);

    return desk_import(text.bytes, text.length, room + rng_below(&rng, 2) * rng_below(&rng, 99));
}

/* Import, then export of what it gives: the same text. */
static void there_and_back(void)
{
    struct exchanged answer = import_text();

    expect(answer.refusal == 0, "refused");
    log_bytes.length = 0;
    write_bytes(&log_bytes, answer.out.bytes, answer.out.length);
    answer = desk_export(log_bytes.bytes, log_bytes.length, text.length);
    expect(answer.length == text.length && memcmp(answer.out.bytes, text.bytes, text.length) == 0,
           "a text of %zu bytes does not come back", text.length);
}

static void test_random_texts(void)
{
    group_begin("import", "random-texts-there-and-back");
    for (unsigned i = 0; i < 400; i++) {
        draw_text(&text, 1 + rng_below(&rng, i % 8 ? 30 : 1500));
        there_and_back();
    }
    group_end();
}

/* Every number of up to three digits, and the least and greatest of each count of digits. */
static void test_every_short_number(void)
{
    group_begin("import", "every-number-to-1100-and-each-limit");
    text.length = 0;
    write_bytes(&text, "pool 3\n", 7);
    for (uint64_t n = 0; n < 1100; n++) {
        struct entry entry = {n % 2 ? TAG_RESERVE : TAG_RELEASE, {n, 0}};
        write_line(&text, &entry);
    }
    for (uint64_t n = 1; n <= UINT32_MAX; n *= 10) {
        for (unsigned k = 0; k < 4; k++) {
            struct entry entry = {k % 2 ? TAG_RESERVE : TAG_RELEASE, {n - 2 + k, 0}};
            if (entry.numbers[0] <= UINT32_MAX)
                write_line(&text, &entry);
        }
    }
    there_and_back();
    group_end();
}

/* Room as long as it may need, and none at all: a bad line comes before that. */
static void try_spoilt(const struct writing *spoilt)
{
    size_t room = LENSEMBER_IMPORT_ROOM(spoilt->length);

    desk_import(spoilt->bytes, spoilt->length, room);
    desk_import(spoilt->bytes, spoilt->length, 0);
}

static void test_every_text_byte(void)
{
    group_begin("import", "every-value-of-every-byte");
    for (size_t i = 0; i < 5; i++) {
        const struct known_text *known = &known_texts[i];
        for (size_t at = 0; at < known->length; at++) {
            for (unsigned value = 0; value < 256; value++) {
                text.length = 0;
                write_bytes(&text, known->bytes, known->length);
                text.bytes[at] = (uint8_t)value;
                try_spoilt(&text);
            }
        }
    }
    group_end();
}

/* One byte changed, dropped or doubled, or put in: 0 to 3. */
static void spoil_text(unsigned way, size_t at)
{
    static const char likely[] = "\n\n\r\0 +-0019pol\t";
    char byte = rng_below(&rng, 3) ? likely[rng_below(&rng, sizeof likely)] : (char)rng_next(&rng);
    struct writing spoilt = {0, 0, NULL};

    write_bytes(&spoilt, text.bytes, at + (way == 2 || way == 3));
    if (way == 0 || way == 3)
        write_bytes(&spoilt, &byte, 1);
    write_bytes(&spoilt, text.bytes + at + (way != 2), text.length - at - (way != 2));
    try_spoilt(&spoilt);
    writing_free(&spoilt);
}

static void test_spoilt_texts(void)
{
    static const char *const ways[] = {"changed", "dropped", "doubled", "put-in"};

    for (unsigned way = 0; way < COUNT(ways); way++) {
        group_begin("import-with-a-byte", ways[way]);
        for (unsigned i = 0; i < 20; i++) {
            draw_text(&text, 1 + rng_below(&rng, 25));
            for (size_t at = 0; at < text.length; at++)
                spoil_text(way, at);
        }
        group_end();
    }
}

/* Good where the cut is behind a line: then fewer lines are imported. */
static void test_cut_texts(void)
{
    group_begin("import", "cut-at-every-byte");
    for (unsigned i = 0; i < 20; i++) {
        draw_text(&text, 1 + rng_below(&rng, 40));
        for (size_t cut = 0; cut <= text.length; cut++) {
            bool whole = cut > 0 && text.bytes[cut - 1] == '\n';
            expect(desk_import(text.bytes, cut, LENSEMBER_IMPORT_ROOM(cut)).refusal
                       == (whole ? 0 : 13), "cut at %zu", cut);
        }
    }
    group_end();
}

static void test_import_rooms(void)
{
    group_begin("import", "every-buffer-length");
    for (unsigned i = 0; i < 40; i++) {
        size_t exact;
        draw_text(&text, 1 + rng_below(&rng, 20));
        exact = (size_t)import_text().length;
        expect(exact <= LENSEMBER_IMPORT_ROOM(text.length), "the room of the header");
        for (size_t nlog = 0; nlog <= exact + 2; nlog++)
            expect(desk_import(text.bytes, text.length, nlog).refusal == (nlog < exact ? 7 : 0),
                   "%zu bytes in %zu", exact, nlog);
    }
    group_end();
}

/* ---- Export ------------------------------------------------------------------------------- */

/* Into just as much room as it takes, or more. */
static struct exchanged export_draft(void)
{
    size_t room = LENSEMBER_EXPORT_ROOM(draft.length);

    return desk_export(draft.bytes, draft.length, room + rng_below(&rng, 2) * rng_below(&rng, 99));
}

/* Export, then import of what it gives: the same log. */
static void back_and_there(const uint8_t *log, size_t nlog)
{
    struct exchanged answer = desk_export(log, nlog, LENSEMBER_EXPORT_ROOM(nlog));

    expect(answer.refusal == 0, "refused %" PRIu64 " at %" PRIu64, answer.refusal, answer.where);
    text.length = 0;
    write_bytes(&text, answer.out.bytes, answer.out.length);
    answer = desk_import(text.bytes, text.length, nlog);
    expect(answer.length == nlog && memcmp(answer.out.bytes, log, nlog) == 0,
           "a log of %zu bytes does not come back", nlog);
}

static void test_random_logs(void)
{
    group_begin("export", "random-logs-there-and-back");
    for (unsigned i = 0; i < 150; i++) {
        draft_any(false, rng_below(&rng, i % 8 ? 40 : 1500));
        back_and_there(draft.bytes, draft.length);
        draw_log(&log_bytes, rng_below(&rng, 60));
        back_and_there(log_bytes.bytes, log_bytes.length);
    }
    group_end();
}

/* As for a replay, but that a start of any count from 1 to 16 is good. */
static void test_known_logs(void)
{
    group_begin("export", "known-logs");
    for (size_t i = 0; i < known_log_count; i++) {
        const struct known_log *log = &known_logs[i];
        struct exchanged answer =
            desk_export(log->bytes, log->length, LENSEMBER_EXPORT_ROOM(log->length) + 20);
        bool other_count = log->length > 3 && log->bytes[2] == 1 && log->bytes[3] != 1;
        desk_export(log->bytes, log->length, 0);
        expect(log->refusal == 0 || other_count
                   || (answer.refusal == log->refusal && answer.where == log->position),
               "%s: the model says %" PRIu64 " at %" PRIu64, log->name, answer.refusal,
               answer.where);
    }
    group_end();
}

static void test_start_counts(void)
{
    group_begin("export", "every-start-count");
    for (unsigned count = 0; count < 256; count++) {
        draft_clear(&draft);
        draft_field(&draft, TAG_START, 1, count);
        draft_field(&draft, TAG_RESERVE, 4, 24);
        draft_field(&draft, TAG_END, 0, 0);
        expect(export_draft().refusal == (count >= 1 && count <= 16 ? 0 : 9), "start of %u", count);
    }
    group_end();
}

/* So many reserves and releases, with resizes in so many of the places around them. */
static void draft_resized(unsigned fields, unsigned first_resize)
{
    draft_clear(&draft);
    draft_start(&draft, 1 + rng_below(&rng, MAX_CHUNKS));
    for (unsigned i = 0; i < fields; i++) {
        if (i == first_resize || (i > first_resize && rng_below(&rng, 5) == 0))
            draft_resize(&draft, any_number(), any_number());
        else if (rng_below(&rng, 2))
            draft_reserve(&draft, any_number());
        else
            draft_release(&draft, any_number());
    }
    draft_end(&draft);
}

/* "9, with the position of the first resize, where it has one. Then 7" */
static void test_first_resize(void)
{
    group_begin("export", "first-resize-at-every-field");
    for (unsigned fields = 1; fields < 40; fields++) {
        for (unsigned first = 0; first < fields; first++) {
            struct exchanged answer;
            draft_resized(fields, first);
            answer = desk_export(draft.bytes, draft.length, LENSEMBER_EXPORT_ROOM(draft.length));
            expect(answer.refusal == 9 && answer.where == 4 + 7 * first,
                   "resize at field %u: the model says %" PRIu64, first, answer.where);
            desk_export(draft.bytes, draft.length, 0);
        }
    }
    group_end();
}

/* The reader's own refusal, wherever it is: behind the resizes or in front of them. */
static void test_cut_exports(void)
{
    group_begin("export", "cut-at-every-byte");
    for (unsigned i = 0; i < 30; i++) {
        draft_resized(20, rng_below(&rng, 24));
        for (size_t cut = 0; cut < draft.length; cut++)
            expect(desk_export(draft.bytes, cut, rng_below(&rng, 2) ? draft.length : 0).refusal
                       == 8, "cut at %zu", cut);
    }
    group_end();
}

/* The first resize is at the field of that number, from 0; a fault may lie before or behind it. */
static unsigned long export_every_value(size_t at, unsigned first_resize)
{
    uint8_t byte = draft.bytes[at];
    unsigned long before = 0;

    for (unsigned value = 0; value < 256; value++) {
        struct exchanged answer;
        draft.bytes[at] = (uint8_t)value;
        answer = desk_export(draft.bytes, draft.length, rng_below(&rng, 4) ? draft.length : 0);
        before += answer.where < 4 + 7 * first_resize;
    }
    draft.bytes[at] = byte;
    return before;
}

static void test_every_log_byte(void)
{
    unsigned long before = 0;

    group_begin("export", "every-value-of-every-byte");
    for (unsigned first = 0; first < 6; first++) {
        draft_resized(6, first);
        for (size_t at = 0; at < draft.length; at++)
            before += export_every_value(at, first);
    }
    expect_least(before, 10000, "refused before the first resize");
    group_end();
}

static void test_spoilt_exports(void)
{
    group_begin("export", "spoilt-logs");
    for (unsigned i = 0; i < 6000; i++) {
        draft_any(i % 2, rng_below(&rng, i % 16 ? 12 : 300));
        draft_spoil(&draft);
        export_draft();
        desk_export(draft.bytes, draft.length, 0);
    }
    group_end();
}

/* Log by log the same refusal and position as the model of the replay has. */
static void test_like_replay(void)
{
    static struct pool pool;
    static struct text lines;

    group_begin("export", "refused-where-a-replay-is");
    for (unsigned i = 0; i < 2000; i++) {
        size_t c;
        struct log_outcome replayed;
        struct exchanged answer;
        draft_any(false, rng_below(&rng, 10));
        c = draft.bytes[HEADER_BYTES];
        draft_spoil(&draft);
        if (draft.length > HEADER_BYTES && draft.bytes[HEADER_BYTES] != c)
            continue;
        replayed = log_replay(&pool, c, draft.bytes, draft.length, &lines);
        answer = export_draft();
        expect(replayed.refusal == 0 || (answer.refusal == replayed.refusal
                                         && answer.where == replayed.position),
               "%" PRIu64 " at %" PRIu64 ", a replay %" PRIu64 " at %" PRIu64, answer.refusal,
               answer.where, replayed.refusal, replayed.position);
    }
    group_end();
}

static void test_export_rooms(void)
{
    group_begin("export", "every-buffer-length");
    for (unsigned i = 0; i < 40; i++) {
        size_t exact;
        draft_any(false, rng_below(&rng, 20));
        exact = (size_t)export_draft().length;
        expect(exact <= LENSEMBER_EXPORT_ROOM(draft.length), "the room of the header");
        for (size_t ntext = 0; ntext <= exact + 2; ntext++)
            expect(desk_export(draft.bytes, draft.length, ntext).refusal
                       == (ntext < exact ? 7 : 0), "%zu bytes in %zu", exact, ntext);
    }
    group_end();
}

/* ---- Long ones, and none -------------------------------------------------------------------- */

static void test_long(void)
{
    group_begin("long", "megabytes-there-and-back");
    for (unsigned i = 0; i < 3; i++) {
        draw_text(&text, 250000 + rng_below(&rng, 100000));
        there_and_back();
        draw_log(&log_bytes, 250000 + rng_below(&rng, 100000));
        back_and_there(log_bytes.bytes, log_bytes.length);
    }
    group_end();
    group_begin("long", "bad-line-near-the-end");
    draw_text(&text, 200000);
    write_bytes(&text, "+01\n+1\n", 7);
    expect_line(import_text(), 200001, "needless zero");
    text.length -= 8; /* the newline before it too */
    expect_line(import_text(), 200000, "no newline");
    group_end();
}

/* More bytes than 32 bits count; what is known beforehand is compared. */
static void test_vast(void)
{
    const size_t vast = ((size_t)1 << 32) + 1000;
    const uint8_t *bytes = lent_vast_new(vast, (const uint8_t *)"pool 1\n+24\n", 11);
    uint8_t *out = lent_bytes_new(64);
    struct lensember_imported imported = lensember_import(bytes, vast, out, 64);
    struct lensember_exported exported;

    group_begin("long", "longer-than-32-bits");
    expect(imported.refusal == 13 && imported.line == 3 && imported.length == 0, "import");
    lent_vast_free(bytes, vast);
    bytes = lent_vast_new(vast, (const uint8_t *)"\1\0\1\1\2\0\4\0\0\0\30\4\0\0", 14);
    exported = lensember_export(bytes, vast, out, 64);
    expect(exported.refusal == 9 && exported.position == 14 && exported.length == 0, "export");
    lent_vast_free(bytes, vast);
    for (size_t i = 0; i < 64; i++)
        expect(out[i] == 0, "a byte was written");
    lent_bytes_free(out, 64);
    group.trials += 2;
    group_end();
}

/* Empty buffers: their pointers need only be non-null. */
static void test_nowhere(void)
{
    uint8_t *anywhere = (uint8_t *)(uintptr_t)1;
    struct lensember_written written = lensember_append(anywhere, 0, 0, LENSEMBER_START, 1, 0);
    struct lensember_written past = lensember_append(anywhere, 0, 1, LENSEMBER_START, 1, 0);
    struct lensember_imported imported = lensember_import(anywhere, 0, anywhere, 0);
    struct lensember_exported exported = lensember_export(anywhere, 0, anywhere, 0);
    const struct known_text *sample = &known_texts[0];
    const struct known_log *log = known_log_named("sample");

    group_begin("empty", "buffers-nowhere");
    expect(written.refusal == 7 && written.length == 0, "append");
    expect(past.refusal == 1 && past.length == 0, "append past the end");
    expect(imported.refusal == 13 && imported.line == 1 && imported.length == 0, "import");
    expect(exported.refusal == 8 && exported.position == 0 && exported.length == 0, "export");
    imported = lensember_import(sample->bytes, sample->length, anywhere, 0);
    exported = lensember_export(log->bytes, log->length, anywhere, 0);
    expect(imported.refusal == 7 && imported.line == 0 && imported.length == 0, "no log");
    expect(exported.refusal == 7 && exported.position == 0 && exported.length == 0, "no text");
    group.trials += 6;
    group_end();
}

/* ---- Enough ---------------------------------------------------------------------------------- */

static void test_enough(void)
{
    const struct exchange_counts *counts = &exchange_counts;

    group_begin("exchange", "enough-of-each-answer");
    group.trials = 1;
    expect_least(counts->appends[0], 3000, "fields written");
    for (size_t i = 0; i < COUNT(field_tags); i++)
        expect_least(counts->fields[field_tags[i]], 150, "of a field");
    expect_least(counts->appends[1], 500, "lengths past the buffer");
    expect_least(counts->appends[7], 200, "fields without room");
    expect_least(counts->appends[9], 10000, "fields not due");
    expect_least(counts->imports[0], 2000, "texts imported");
    expect_least(counts->imports[7], 1000, "logs without room");
    expect_least(counts->imports[13], 10000, "bad lines");
    expect_least(counts->exports[0], 1000, "logs exported");
    expect_least(counts->exports[7], 1000, "texts without room");
    expect_least(counts->exports[8], 4000, "logs cut short");
    expect_least(counts->exports[9], 10000, "logs gone wrong");
    expect_least(counts->resizes, 3000, "logs with resizes");
    expect_least(counts->resized_faults, 5000, "logs gone wrong behind a resize");
    group_end();
}

int main(int argc, char **argv)
{
    program_begin(argc, argv);
    test_turns();
    test_tags();
    test_numbers();
    test_unread_numbers();
    test_counts();
    test_append_rooms();
    test_long_lengths();
    test_append_order();
    test_cut_logs();
    test_spoilt_bytes();
    test_every_value();
    test_spoilt_logs();
    test_whole_logs();
    test_behind_end();
    test_known_texts();
    test_sample();
    test_bad_lines();
    test_random_texts();
    test_every_short_number();
    test_every_text_byte();
    test_spoilt_texts();
    test_cut_texts();
    test_import_rooms();
    test_random_logs();
    test_known_logs();
    test_start_counts();
    test_first_resize();
    test_cut_exports();
    test_every_log_byte();
    test_spoilt_exports();
    test_like_replay();
    test_export_rooms();
    test_long();
    test_vast();
    test_nowhere();
    test_enough();
    return program_end("exchange");
}
