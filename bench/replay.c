/*
 * How long does a replay take, against a pool by the same rules that was
 * written in C without a proof (plain.h), and how long does a pair of a
 * release and a reserve in it take, against the allocators that this machine
 * has: PHP's own, where its library is installed, and malloc? All are timed in
 * turn in one run; of each the shortest time counts. Of some logs the pairs are
 * resizes, which no other allocator gets.
 */
#include "clock.h"
#include "lensember.h"
#include "others.h"
#include "plain.h"
#include "records.h"

#include <stdio.h>
#include <stdlib.h>
#include <string.h>

enum { PAIRS = 100000, MOST_LIVE = MAX_CHUNKS * 4000, ROUNDS = 9 };

/* A kind of log: what is reserved first, and what the pairs then do. */
struct kind {
    const char *name;
    unsigned live_a_chunk; /* blocks reserved before the pairs; 0: until the pool is full */
    uint64_t low, high;    /* the sizes, from low to high */
    int holes;             /* whether every second block is given back before the pairs */
    int resizes;           /* whether a resize of a block stands in place of each pair */
};

static const struct kind kinds[] = {
    {"fresh, rows of 1 to 64 bytes", 100, 1, 64, 0, 0},
    {"fresh, rows of 1 to 3,072 bytes", 100, 1, 3072, 0, 0},
    {"half full, rows of 1 to 3,072 bytes", 0, 1, 3072, 1, 0},
    {"half full, rows and tables to 40,000", 0, 1, 40000, 1, 0},
    {"full, rows of 1 to 3,072 bytes", 0, 1, 3072, 0, 0},
    {"full, rows and tables to 40,000", 0, 1, 40000, 0, 0},
    {"fresh, rows of 1 to 64, resized", 100, 1, 64, 0, 1},
    {"half full, to 40,000, resized", 0, 1, 40000, 1, 1},
};

static LENSEMBER_POOL_MEMORY(MAX_CHUNKS) records;
static struct lensember_pool pool;

static uint8_t log_bytes[4 + 7 * (2 * MOST_LIVE + 2 * PAIRS) + 3];
static size_t log_length;
static size_t log_fields;   /* without start and end */
static size_t before_pairs; /* the length of the log that ends before the pairs */

static uint64_t place_of[MOST_LIVE];
static uint64_t size_of[MOST_LIVE];
static size_t live;

/* The pairs, for the allocators: which block is given back, the size of the next. */
static struct pair pairs[PAIRS];
static size_t live_before_pairs;
static uint64_t sizes_before_pairs[MOST_LIVE];

/* ---- The log ------------------------------------------------------------- */

static void write_field(unsigned tag, unsigned length, uint64_t number)
{
    uint8_t *at = log_bytes + log_length;

    at[0] = (uint8_t)tag;
    at[1] = 0;
    at[2] = (uint8_t)length;
    for (unsigned i = 0; i < length; i++)
        at[3 + i] = (uint8_t)(number >> 8 * (length - 1 - i));
    log_length += 3 + length;
    log_fields++;
}

/* A reserve; whether it was served. */
static int put(uint64_t size)
{
    write_field(2, 4, size);
    if (plain_reserve(size, &place_of[live]) != 0)
        return 0;
    size_of[live++] = size;
    return 1;
}

static void take_out(size_t i)
{
    write_field(3, 4, place_of[i]);
    plain_release(place_of[i]);
    live--;
    place_of[i] = place_of[live];
    size_of[i] = size_of[live];
}

static void fill(const struct kind *kind, size_t c)
{
    size_t most = kind->live_a_chunk ? kind->live_a_chunk * c : MOST_LIVE - 1;

    while (live < most && put(draw(kind->low, kind->high)))
        ;
    if (kind->holes)
        for (size_t i = 0; i < live; i++)
            take_out(i);
}

static void end_log(void)
{
    memcpy(log_bytes + log_length, "\4\0\0", 3);
    log_length += 3;
}

/* The same size goes back in where the pool is not fresh, so that it fits. */
static void write_pair(const struct kind *kind, struct pair *pair)
{
    pair->out = draw(0, live - 1);
    pair->size = kind->live_a_chunk ? draw(kind->low, kind->high) : size_of[pair->out];
    take_out(pair->out);
    if (!put(pair->size)) {
        fprintf(stderr, "replay: a pair of %s does not fit\n", kind->name);
        exit(2);
    }
}

/* One that finds no room is refused, and stands in the log all the same. */
static void write_resize(const struct kind *kind)
{
    size_t i = draw(0, live - 1);
    uint64_t size = draw(kind->low, kind->high);

    write_field(8, 8, place_of[i] << 32 | size);
    plain_resize(&place_of[i], size);
}

static void write_log(const struct kind *kind, size_t c)
{
    static const uint8_t start[4] = {1, 0, 1, 0};

    draw_begin();
    live = 0;
    plain_fresh((unsigned)c);
    memcpy(log_bytes, start, sizeof start);
    log_bytes[3] = (uint8_t)c;
    log_length = sizeof start;
    log_fields = 0;
    fill(kind, c);
    before_pairs = log_length;
    live_before_pairs = live;
    memcpy(sizes_before_pairs, size_of, live * sizeof size_of[0]);
    for (size_t i = 0; i < PAIRS; i++) {
        if (kind->resizes)
            write_resize(kind);
        else
            write_pair(kind, &pairs[i]);
    }
    end_log();
}

/* ---- What is timed ------------------------------------------------------- */

/* The shorter log is cut before the pairs, and is refused 8 there. */
static void replay(size_t length)
{
    struct lensember_replayed r = lensember_pool_replay(&pool, log_bytes, length);

    if (r.refusal != (length == log_length ? LENSEMBER_OK : LENSEMBER_CUT_LOG)) {
        fprintf(stderr, "replay: refused %u at %llu\n", (unsigned)r.refusal,
                (unsigned long long)r.position);
        exit(2);
    }
}

static void lines(void)
{
    static uint8_t out[LENSEMBER_LINES_ROOM(sizeof log_bytes)];
    struct lensember_printed r =
        lensember_pool_lines(&pool, log_bytes, log_length, out, sizeof out);

    if (r.refusal != LENSEMBER_OK) {
        fprintf(stderr, "replay: the log has no lines\n");
        exit(2);
    }
}

static void plain(size_t length)
{
    if (plain_replay((unsigned)pool.c, log_bytes, length) != (length == log_length ? 0 : 8)) {
        fprintf(stderr, "replay: the plain pool refuses the log\n");
        exit(2);
    }
}

/* Both pools end with the same blocks. */
static void compare(void)
{
    static uint64_t room[2 * MOST_LIVE];
    uint64_t places, sum = 0;
    struct lensember_counted n;

    replay(log_length);
    plain(log_length);
    n = lensember_pool_census(&pool, room, sizeof room / sizeof room[0]);
    for (size_t i = 0; i < n.count; i++)
        sum += room[2 * i];
    if (n.refusal != LENSEMBER_OK || n.count != plain_live(&places) || sum != places) {
        fprintf(stderr, "replay: the two pools differ\n");
        exit(2);
    }
}

struct times {
    double replay, replay_before; /* the whole log, and the log before the pairs */
    double lines, plain, tuned;
    double php, malloc;           /* the pairs */
};

/* Allocators that get the pairs; a resize of theirs would copy bytes too. */
static void time_others(struct times *best)
{
    double start;

    if (have_php()) {
        hold_php(sizes_before_pairs, live_before_pairs);
        start = seconds_now();
        run_php(pairs, PAIRS, live_before_pairs);
        keep_shortest(&best->php, start);
        drop_php(live_before_pairs);
    }
    hold_malloc(sizes_before_pairs, live_before_pairs);
    start = seconds_now();
    run_malloc(pairs, PAIRS, live_before_pairs);
    keep_shortest(&best->malloc, start);
    drop_malloc(live_before_pairs);
}

static struct times time_all(const struct kind *kind)
{
    struct times best = {1e9, 1e9, 1e9, 1e9, 1e9, 1e9, 1e9};

    for (unsigned i = 0; i < ROUNDS; i++) {
        double start = seconds_now();

        replay(log_length);
        keep_shortest(&best.replay, start);
        start = seconds_now();
        replay(before_pairs);
        keep_shortest(&best.replay_before, start);
        start = seconds_now();
        lines();
        keep_shortest(&best.lines, start);
        plain_tune(0);
        start = seconds_now();
        plain(log_length);
        keep_shortest(&best.plain, start);
        plain_tune(1);
        start = seconds_now();
        plain(log_length);
        keep_shortest(&best.tuned, start);
        if (!kind->resizes)
            time_others(&best);
    }
    return best;
}

/* Seconds of a pair, and how many of these the replay's takes. */
static void print_other(double seconds, double pair, int timed)
{
    if (timed)
        printf(" %6.1f %5.2f", seconds * 1e9, pair / seconds);
    else
        printf(" %6s %5s", "-", "-");
}

static void print_row(const struct kind *kind, size_t c)
{
    struct times t;
    double fields, pair;

    write_log(kind, c);
    pool = lensember_pool_at(c, &records, LENSEMBER_POOL_BYTES(c));
    compare();
    t = time_all(kind);
    fields = (double)log_fields;
    pair = (t.replay - t.replay_before) / PAIRS;
    printf("%-36s %2u %6.1f %6.1f %7.1f %5.2f %6.1f %5.2f %7.1f", kind->name, (unsigned)c,
           t.replay / fields * 1e9, t.lines / fields * 1e9, t.plain / fields * 1e9,
           t.replay / t.plain, t.tuned / fields * 1e9, t.replay / t.tuned, pair * 1e9);
    print_other(t.php / PAIRS, pair, have_php() && !kind->resizes);
    print_other(t.malloc / PAIRS, pair, !kind->resizes);
    printf("\n");
}

int main(void)
{
    printf("%-36s  c  field  lines   plain ratio  tuned ratio    pair    PHP ratio malloc ratio\n",
           "log");
    for (size_t k = 0; k < sizeof kinds / sizeof kinds[0]; k++) {
        print_row(&kinds[k], 1);
        print_row(&kinds[k], MAX_CHUNKS);
    }
    printf("nanoseconds a field, replayed and with its lines, then a pair of a release and a\n"
           "reserve, or a resize; tuned is the plain pool with side tables\n");
    return 0;
}
