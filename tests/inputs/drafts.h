/* Request logs to replay: written field by field, at random, and then spoilt. */
#ifndef DRAFTS_H
#define DRAFTS_H

#include "pool.h"

enum { DRAFT_BYTES = 1 << 17, DRAFT_FIELDS = 1 << 14 };

struct draft {
    size_t length;
    uint8_t bytes[DRAFT_BYTES];
    size_t count;
    size_t starts[DRAFT_FIELDS]; /* first byte of each field, by rising place */
    struct pool guide;           /* what the fields leave: to draw live places from */
};

/* A draft starts as zero. What no longer fits is left out. */
void draft_clear(struct draft *draft);
void draft_bytes(struct draft *draft, const uint8_t *bytes, size_t count);

/* A field with any tag and length; the number's low bytes are the body. */
void draft_field(struct draft *draft, unsigned tag, unsigned length, uint64_t number);

void draft_start(struct draft *draft, size_t c);
void draft_reserve(struct draft *draft, uint64_t size);  /* its low 32 bits */
void draft_release(struct draft *draft, uint64_t place); /* its low 32 bits */
void draft_resize(struct draft *draft, uint64_t place, uint64_t size); /* the low 32 bits of both */
void draft_end(struct draft *draft);

/* What the requests of a log are like. */
struct diet {
    const char *name;
    uint64_t (*size)(unsigned b); /* b: a class for the log */
    unsigned reserves, resizes;   /* of 100 fields; the others are releases */
};

extern const struct diet diets[];
extern const size_t diet_count;

/* A well-formed log with so many fields between start and end. */
void draft_log(struct draft *draft, size_t c, const struct diet *diet, unsigned fields);

/* One way, drawn at random, in which a log may go bad; some leave it good. */
void draft_spoil(struct draft *draft);

#endif
