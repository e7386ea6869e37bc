#include "stage.h"

#include "calls.h"
#include "groups.h"
#include "recipes.h"

#include <inttypes.h>
#include <stdio.h>
#include <stdlib.h>
#include <string.h>

enum { BYTES_AROUND = 32 };

struct outcomes outcomes;

struct stage *stage_new(size_t c)
{
    struct stage *stage = calloc(1, sizeof *stage);

    if (stage == NULL) {
        perror("stages for the tests");
        exit(2);
    }
    stage->before = lent_new(c);
    stage->lent = lent_new(c);
    stage->right = lent_new(c);
    stage->log = lent_bytes_new(MOST_LOG);
    stage->out = lent_bytes_new(MOST_OUT);
    stage->expected = lent_bytes_new(MOST_OUT);
    return stage;
}

void stage_free(struct stage *stage)
{
    lent_free(&stage->before);
    lent_free(&stage->lent);
    lent_free(&stage->right);
    pool_end(&stage->model);
    text_free(&stage->lines);
    lent_bytes_free(stage->log, MOST_LOG);
    lent_bytes_free(stage->out, MOST_OUT);
    lent_bytes_free(stage->expected, MOST_OUT);
    free(stage);
}

/* ---- What is lent ------------------------------------------------------------ */

static void fill_bytes(struct records *r, int byte)
{
    memset(r->bits, byte, r->c * BIT_WORDS * sizeof *r->bits);
    memset(r->words, byte, r->c * PAGES * sizeof *r->words);
    memset(r->slots, byte, r->c * SLOT_WORDS * sizeof *r->slots);
}

static void fill_garbage(struct records *r)
{
    for (size_t i = 0; i < r->c * BIT_WORDS; i++)
        r->bits[i] = rng_next(&rng);
    for (size_t i = 0; i < r->c * PAGES; i++)
        r->words[i] = (uint32_t)rng_next(&rng);
    for (size_t i = 0; i < r->c * SLOT_WORDS; i++)
        r->slots[i] = rng_next(&rng);
}

static void fill_sound(struct records *r)
{
    generate(r, &recipes[rng_below(&rng, (unsigned)recipe_count)], &rng);
}

/* One page bit is never what the page's word says. */
static void fill_damaged(struct records *r)
{
    fill_sound(r);
    r->bits[rng_below(&rng, (unsigned)r->c * BIT_WORDS)] ^= UINT64_C(1) << rng_below(&rng, 64);
}

void stage_prepare(struct stage *stage, enum ground ground)
{
    switch (ground) {
    case GROUND_ZEROS:
        fill_bytes(&stage->before, 0x00);
        break;
    case GROUND_ONES:
        fill_bytes(&stage->before, 0xFF);
        break;
    case GROUND_SOUND:
        fill_sound(&stage->before);
        break;
    case GROUND_DAMAGED:
        fill_damaged(&stage->before);
        break;
    default:
        fill_garbage(&stage->before);
    }
}

void stage_prepare_anyhow(struct stage *stage)
{
    stage_prepare(stage, (enum ground)rng_below(&rng, GROUNDS));
}

/* ---- One log ------------------------------------------------------------------ */

size_t room_for(size_t nlog)
{
    return 12 * nlog + 60;
}

/* The library may read none but these bytes: right behind them is no memory. */
static const uint8_t *lend_log(struct stage *stage, const uint8_t *log, size_t nlog)
{
    uint8_t *lent = stage->log + MOST_LOG - nlog;

    if (nlog > 0)
        memcpy(lent, log, nlog);
    return lent;
}

/* Records as they should be, and the log as it was. */
static void expect_left(const struct stage *stage, const struct records *right, const char *call,
                        const uint8_t *log, size_t nlog)
{
    expect(lent_equal(&stage->lent, right),
           "c %zu, %s of %zu bytes: the records are not the model's", stage->lent.c, call, nlog);
    expect(nlog == 0 || memcmp(stage->log + MOST_LOG - nlog, log, nlog) == 0,
           "c %zu, %s of %zu bytes: the log was changed", stage->lent.c, call, nlog);
}

static void try_replay(struct stage *stage, const uint8_t *log, size_t nlog,
                       const struct log_outcome *right)
{
    struct lensember_replayed answer;

    lent_copy(&stage->lent, &stage->before);
    answer = library_replay(&stage->lent, lend_log(stage, log, nlog), nlog);
    group.trials++;
    expect(answer.refusal == right->refusal && answer.position == right->position,
           "c %zu, replay of %zu bytes: answer %" PRIu64 " at %" PRIu64 ", the model says %" PRIu64
           " at %" PRIu64,
           stage->lent.c, nlog, answer.refusal, answer.position, right->refusal, right->position);
    expect_left(stage, &stage->right, "replay", log, nlog);
}

/* The buffer and some bytes before it. */
static void fill_outs(struct stage *stage, size_t nout)
{
    size_t count = nout + BYTES_AROUND, from = MOST_OUT - count;

    lent_fill(stage->expected + from, count);
    memcpy(stage->out + from, stage->expected + from, count);
}

static void expect_outs(const struct stage *stage, size_t nlog, size_t nout)
{
    size_t count = nout + BYTES_AROUND, from = MOST_OUT - count;

    expect(memcmp(stage->out + from, stage->expected + from, count) == 0,
           "c %zu, lines of %zu bytes in %zu: the buffer is not what the model makes of it",
           stage->lent.c, nlog, nout);
}

static void expect_printed(const struct stage *stage, struct lensember_printed answer,
                           struct lensember_printed right, size_t nlog, size_t nout)
{
    expect(answer.refusal == right.refusal && answer.position == right.position
               && answer.length == right.length,
           "c %zu, lines of %zu bytes in %zu: answer %" PRIu64 " at %" PRIu64 " length %" PRIu64
           ", the model says %" PRIu64 " at %" PRIu64 " length %" PRIu64,
           stage->lent.c, nlog, nout, answer.refusal, answer.position, answer.length,
           right.refusal, right.position, right.length);
}

static struct lensember_printed print(struct stage *stage, const uint8_t *log, size_t nlog,
                                      size_t nout)
{
    lent_copy(&stage->lent, &stage->before);
    group.trials++;
    return library_lines(&stage->lent, lend_log(stage, log, nlog), nlog,
                         stage->out + MOST_OUT - nout, nout);
}

/* The lines are those that the model wrote last. */
static void try_served_lines(struct stage *stage, const uint8_t *log, size_t nlog, size_t nout,
                             const struct log_outcome *outcome)
{
    struct lensember_printed right = {outcome->refusal, outcome->position, stage->lines.length};

    fill_outs(stage, nout);
    memcpy(stage->expected + MOST_OUT - nout, stage->lines.bytes, stage->lines.length);
    expect_printed(stage, print(stage, log, nlog, nout), right, nlog, nout);
    expect_outs(stage, nlog, nout);
    expect_left(stage, &stage->right, "lines", log, nlog);
}

static void try_short_lines(struct stage *stage, const uint8_t *log, size_t nlog, size_t nout)
{
    struct lensember_printed right = {7, 0, 0};

    fill_outs(stage, nout);
    expect_printed(stage, print(stage, log, nlog, nout), right, nlog, nout);
    expect_outs(stage, nlog, nout);
    expect_left(stage, &stage->before, "lines in a short buffer", log, nlog);
}

/* ---- By the model ----------------------------------------------------------------- */

static void count_outcome(const struct log_outcome *outcome)
{
    outcomes.fields += outcome->fields;
    outcomes.logs[outcome->refusal]++;
    for (unsigned i = 0; i < CALL_ANSWERS; i++) {
        outcomes.reserves[i] += outcome->reserves[i];
        outcomes.releases[i] += outcome->releases[i];
    }
    outcomes.swept += outcome->swept;
    outcomes.in_vain += outcome->in_vain;
    add_resizes(&outcomes.resizes, &outcome->resizes);
}

/* "before an accepted start nothing lent changes" */
static struct log_outcome replay_by_model(struct stage *stage, const uint8_t *log, size_t nlog)
{
    struct log_outcome outcome =
        log_replay(&stage->model, stage->before.c, log, nlog, &stage->lines);

    if (outcome.started)
        pool_write(&stage->model, &stage->right);
    else
        lent_copy(&stage->right, &stage->before);
    count_outcome(&outcome);
    return outcome;
}

struct log_outcome stage_try(struct stage *stage, const uint8_t *log, size_t nlog)
{
    struct log_outcome outcome = replay_by_model(stage, log, nlog);
    size_t spare = rng_below(&rng, 2) ? 0 : rng_below(&rng, 600);

    try_replay(stage, log, nlog, &outcome);
    try_served_lines(stage, log, nlog, room_for(nlog) + spare, &outcome);
    return outcome;
}

void stage_try_lines(struct stage *stage, const uint8_t *log, size_t nlog, size_t nout)
{
    struct log_outcome outcome;

    if (nout < room_for(nlog)) {
        try_short_lines(stage, log, nlog, nout);
        return;
    }
    outcome = replay_by_model(stage, log, nlog);
    try_served_lines(stage, log, nlog, nout, &outcome);
}
