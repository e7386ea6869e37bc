/*
 * Records to call on, and how long calls on them take. Calls that are compared
 * are timed in turn in one run, in many short batches, and of each the
 * shortest batch counts: what else the machine does hurts all alike. The same
 * records are read again and again, so caches are warm for all.
 */
#ifndef TIMING_H
#define TIMING_H

#include "lensember.h"
#include "records.h"

extern uint64_t bits[MAX_CHUNKS * BIT_WORDS];
extern uint32_t words[MAX_CHUNKS * PAGES];
extern uint64_t slots[MAX_CHUNKS * SLOT_WORDS];

/* The first c chunks of these records, until the next such question. */
struct lensember_pool *pool_of(size_t c);

typedef uint64_t timed_call(size_t c);

uint64_t call_or(size_t c); /* the yardstick */

/* Of each call, microseconds a chunk in its shortest batch. */
void time_calls(timed_call *const calls[], double best[], unsigned count, size_t c);

#endif
