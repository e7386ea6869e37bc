/*
 * A desk at which logs are written and texts are exchanged: each call is made by
 * the library and by the model. The answers, and all bytes of the lent buffers
 * and around them, are compared. A buffer lies right before or right behind
 * memory that no one may touch.
 */
#ifndef DESK_H
#define DESK_H

#include "exchange.h"

/* Rooms for so many bytes, which are whole pages of the system. */
enum { MOST_EXCHANGED = 1 << 23 };

/*
 * These count as trials. Answered is what the model says, and what it writes,
 * until the next call. A log that is appended to has nlog bytes, as they are
 * before the call; those of other buffers are drawn.
 */
struct exchanged desk_append(const uint8_t *log, size_t nlog, uint64_t length, uint64_t tag,
                             uint64_t first, uint64_t second);
struct exchanged desk_import(const uint8_t *text, size_t ntext, size_t nlog);
struct exchanged desk_export(const uint8_t *log, size_t nlog, size_t ntext);

/* How often each answer came, 0 to 13, and how often each field was written, by its tag. */
enum { EXCHANGE_ANSWERS = 14, EXCHANGE_TAGS = 9 };

struct exchange_counts {
    unsigned long appends[EXCHANGE_ANSWERS], imports[EXCHANGE_ANSWERS], exports[EXCHANGE_ANSWERS];
    unsigned long fields[EXCHANGE_TAGS];
    unsigned long resizes;        /* exports of accepted logs, refused for a resize */
    unsigned long resized_faults; /* exports of other logs, with a resize before the fault */
};
extern struct exchange_counts exchange_counts;

#endif
