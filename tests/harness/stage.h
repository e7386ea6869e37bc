/*
 * A stage to replay logs on: each log is replayed by the library, once for its
 * answer and once for its lines, and by the model. The answers, all three
 * buffers, the lines and the bytes around them are compared.
 */
#ifndef STAGE_H
#define STAGE_H

#include "lent.h"
#include "logs.h"

struct stage {
    struct records before; /* what the buffers hold when they are lent */
    struct records lent;   /* the library's */
    struct records right;  /* what the model leaves */
    struct pool model;
    struct text lines;
    uint8_t *log;      /* the lent log ends where this room does */
    uint8_t *out;      /* so does the buffer for the lines */
    uint8_t *expected; /* the same, as the model makes it */
};

/* Rooms for logs of up to so many bytes, and for their lines and some more. */
enum { MOST_LOG = 1 << 17, MOST_OUT = 12 * MOST_LOG + 60 + 1024 };

struct stage *stage_new(size_t c);
void stage_free(struct stage *stage);

/* What a replay may find in the buffers. */
enum ground {
    GROUND_GARBAGE,
    GROUND_ZEROS,
    GROUND_ONES,
    GROUND_SOUND,
    GROUND_DAMAGED,
    GROUNDS
};

void stage_prepare(struct stage *stage, enum ground ground);
void stage_prepare_anyhow(struct stage *stage);

/* The least room that lines ask for. */
size_t room_for(size_t nlog);

/* Counts as trials. Answered is what the model says. */
struct log_outcome stage_try(struct stage *stage, const uint8_t *log, size_t nlog);

/* With these bytes for the lines: where they are too few, nothing may change. */
void stage_try_lines(struct stage *stage, const uint8_t *log, size_t nlog, size_t nout);

/* All that was replayed, and how often each answer came. */
struct outcomes {
    unsigned long fields;
    unsigned long logs[10]; /* by refusal */
    unsigned long reserves[CALL_ANSWERS], releases[CALL_ANSWERS];
    unsigned long swept, in_vain; /* as in struct log_outcome */
    struct resize_counts resizes;
};
extern struct outcomes outcomes;

#endif
