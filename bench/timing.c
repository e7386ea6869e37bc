#include "timing.h"

#include "clock.h"
#include "or.h"

enum { BATCHES = 300, CALLS_A_BATCH = 192 /* for one chunk; fewer for more */ };

uint64_t bits[MAX_CHUNKS * BIT_WORDS];
uint32_t words[MAX_CHUNKS * PAGES];
uint64_t slots[MAX_CHUNKS * SLOT_WORDS];

/* Results go here, so that no call can be left out. */
static volatile uint64_t sink;

struct lensember_pool *pool_of(size_t c)
{
    static struct lensember_pool pool = {0, bits, words, slots};

    pool.c = c;
    return &pool;
}

uint64_t call_or(size_t c)
{
    return or_records(bits, c * BIT_WORDS, words, c * PAGES, slots, c * SLOT_WORDS);
}

/* Microseconds a chunk of one batch of calls. */
static double time_batch(timed_call *call, size_t c)
{
    size_t calls = CALLS_A_BATCH / c;
    double start = seconds_now();

    for (size_t i = 0; i < calls; i++)
        sink = call(c);
    return (seconds_now() - start) * 1e6 / (double)(calls * c);
}

void time_calls(timed_call *const calls[], double best[], unsigned count, size_t c)
{
    for (unsigned n = 0; n < count; n++)
        best[n] = 1e9;
    for (unsigned i = 0; i < BATCHES; i++) {
        for (unsigned n = 0; n < count; n++) {
            double batch = time_batch(calls[n], c);
            if (batch < best[n])
                best[n] = batch;
        }
    }
}
