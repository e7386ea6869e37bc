#include "desk.h"

#include "groups.h"
#include "lensember.h"
#include "lent.h"

#include <inttypes.h>
#include <string.h>

enum { BYTES_AROUND = 32 };

struct exchange_counts exchange_counts;

/* ---- What is lent ------------------------------------------------------------ */

/* A room, of which a buffer takes the first bytes or the last, and the same as it should be. */
struct tray {
    uint8_t *room, *right;
    size_t from, count; /* the buffer, and the bytes around it that are looked at */
    size_t lent, nlent; /* the buffer */
};

/* One that is read, and one that is written. */
static struct tray reads, writes;

static void tray_place(struct tray *tray, size_t nlent)
{
    bool in_front = rng_below(&rng, 2);

    if (tray->room == NULL) {
        tray->room = lent_bytes_new(MOST_EXCHANGED);
        tray->right = lent_bytes_new(MOST_EXCHANGED);
    }
    tray->nlent = nlent;
    tray->lent = in_front ? 0 : MOST_EXCHANGED - nlent;
    tray->count = nlent + BYTES_AROUND;
    tray->from = in_front ? 0 : tray->lent - BYTES_AROUND;
    lent_fill(tray->right + tray->from, tray->count);
}

/* These bytes stand in the buffer, from a place on; others where there are none. */
static void tray_put(struct tray *tray, size_t at, const uint8_t *bytes, size_t count)
{
    if (count > 0)
        memcpy(tray->right + tray->lent + at, bytes, count);
}

static uint8_t *tray_lend(struct tray *tray)
{
    memcpy(tray->room + tray->from, tray->right + tray->from, tray->count);
    return tray->room + tray->lent;
}

static void lay(struct tray *tray, const uint8_t *bytes, size_t count)
{
    tray_place(tray, count);
    tray_put(tray, 0, bytes, count);
}

static void expect_tray(const struct tray *tray, const char *call, const char *what)
{
    expect(memcmp(tray->room + tray->from, tray->right + tray->from, tray->count) == 0,
           "%s: the %s of %zu bytes is not as the model has it", call, what, tray->nlent);
}

/* ---- One call ------------------------------------------------------------------ */

/* What the model said last; its bytes stay until the next call. */
static struct exchanged last;

static void keep(struct exchanged right)
{
    writing_free(&last.out);
    last = right;
    group.trials++;
}

static void expect_answer(const char *call, size_t given, uint64_t refusal, uint64_t where,
                          uint64_t length)
{
    expect(refusal == last.refusal && where == last.where && length == last.length,
           "%s of %zu bytes into %zu: %" PRIu64 " at %" PRIu64 " length %" PRIu64
           ", the model says %" PRIu64 " at %" PRIu64 " length %" PRIu64,
           call, given, writes.nlent, refusal, where, length, last.refusal, last.where,
           last.length);
}

struct exchanged desk_append(const uint8_t *log, size_t nlog, uint64_t length, uint64_t tag,
                             uint64_t first, uint64_t second)
{
    struct lensember_written answer;

    lay(&writes, log, nlog);
    answer = lensember_append(tray_lend(&writes), nlog, length, tag, first, second);
    keep(model_append(log, nlog, length, tag, first, second));
    tray_put(&writes, last.refusal == 0 ? (size_t)length : 0, last.out.bytes, last.out.length);
    expect_answer("append", (size_t)length, answer.refusal, 0, answer.length);
    expect_tray(&writes, "append", "log");
    exchange_counts.appends[last.refusal]++;
    if (last.refusal == 0)
        exchange_counts.fields[tag]++;
    return last;
}

/* A call that reads one buffer and writes the other. */
struct way {
    const char *call, *from, *to;
    struct exchanged (*library)(const uint8_t *bytes, size_t count, uint8_t *out, size_t room);
    struct exchanged (*model)(const uint8_t *bytes, size_t count, size_t room);
    unsigned long *answers;
};

static struct exchanged library_import(const uint8_t *text, size_t ntext, uint8_t *log, size_t nlog)
{
    struct lensember_imported answer = lensember_import(text, ntext, log, nlog);
    struct exchanged same = {answer.refusal, answer.line, answer.length, {0, 0, NULL}};

    return same;
}

static struct exchanged library_export(const uint8_t *log, size_t nlog, uint8_t *text, size_t ntext)
{
    struct lensember_exported answer = lensember_export(log, nlog, text, ntext);
    struct exchanged same = {answer.refusal, answer.position, answer.length, {0, 0, NULL}};

    return same;
}

static const struct way
    import = {"import", "text", "log", library_import, model_import, exchange_counts.imports},
    export = {"export", "log", "text", library_export, model_export, exchange_counts.exports};

static struct exchanged go(const struct way *way, const uint8_t *bytes, size_t count, size_t room)
{
    struct exchanged answer;

    lay(&reads, bytes, count);
    tray_place(&writes, room);
    answer = way->library(tray_lend(&reads), count, tray_lend(&writes), room);
    keep(way->model(bytes, count, room));
    tray_put(&writes, 0, last.out.bytes, last.out.length);
    expect_answer(way->call, count, answer.refusal, answer.where, answer.length);
    expect_tray(&writes, way->call, way->to);
    expect_tray(&reads, way->call, way->from);
    way->answers[last.refusal]++;
    return last;
}

struct exchanged desk_import(const uint8_t *text, size_t ntext, size_t nlog)
{
    return go(&import, text, ntext, nlog);
}

static void count_resizes(const uint8_t *log, size_t nlog)
{
    struct reading reading = read_log(log, nlog);
    bool resized = false;

    for (size_t i = 0; i < reading.fields.count; i++)
        resized |= reading.fields.list[i].tag == LENSEMBER_RESIZE;
    exchange_counts.resizes += resized && reading.refusal == 0;
    exchange_counts.resized_faults += resized && reading.refusal != 0;
    entries_free(&reading.fields);
}

struct exchanged desk_export(const uint8_t *log, size_t nlog, size_t ntext)
{
    go(&export, log, nlog, ntext);
    count_resizes(log, nlog);
    return last;
}
