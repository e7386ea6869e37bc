/*
 * An independent reading of RULES 7 to 9: the request log, its replay, its lines.
 *
 * The log is first cut into pieces, by the lengths that are written in it and
 * whatever they say. Then the pieces are looked at in turn, up to the first bad
 * one. Only then are those before it worked, on the pool of pool.c, and told
 * in lines.
 */
#ifndef LOGS_H
#define LOGS_H

#include "pool.h"

/* What a log may hold: one byte tag, two bytes length, then the body. */
enum { TAG_START = 1, TAG_RESERVE = 2, TAG_RELEASE = 3, TAG_END = 4, TAG_RESIZE = 8 };
enum { HEADER_BYTES = 3 };

/* Lines as they are written. Starts as zero. */
struct text {
    size_t length, space;
    char *bytes;
};

void text_free(struct text *text);

struct log_outcome {
    uint64_t refusal, position;
    bool started;         /* else nothing lent has changed */
    unsigned long fields; /* that were worked */
    unsigned long reserves[CALL_ANSWERS], releases[CALL_ANSWERS];
    unsigned long swept;   /* reserves that were served, but only after a sweep */
    unsigned long in_vain; /* reserves that were refused 4, and there were empty runs */
    struct resize_counts resizes;
};

/*
 * Replays the log on a pool that is lent with c chunks, and writes the lines
 * of it. Where no start is accepted the pool stays as it was.
 */
struct log_outcome log_replay(struct pool *pool, size_t c, const uint8_t *log, size_t nlog,
                              struct text *lines);

#endif
