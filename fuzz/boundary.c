/*
 * A fuzzing target for the boundary to C. An input is a small program: each
 * letter is a call, the numbers behind it are what it is given. All calls are
 * made on a twin, so every answer and all three buffers are compared with the
 * model of pool.c and logs.c; those without a pool are made at a desk, beside
 * the model of exchange.c. Buffers end right before memory that no one may
 * touch. A difference stops the program.
 *
 * The archive is not built for fuzzing, but the model is, and it goes through
 * the same cases: what is new to it is likely to be new to the library.
 *
 *   c C           another pool, fresh, of 1 + C mod 16 chunks
 *   g R S         a pool by recipe R from the seed S; up to 4 chunks
 *   x             fresh
 *   k             check
 *   r N           reserve
 *   f Q           release
 *   z Q N         resize
 *   w             sweep
 *   b Q           block size
 *   n Q           next
 *   e N           census in a room of N words more than it needs; -N: fewer
 *   t             totals
 *   a E Q L M     bytes for ear E, arenas L and M bytes longer than they should be
 *   p N BYTES     replay of a log of the next N bytes of the input
 *   l W N BYTES   lines of it, in a buffer W bytes longer than they ask for
 *   h W T F S N BYTES
 *                 append of a field of tag T with the numbers F and S to a log so
 *                 far of the next N bytes, in a buffer of W bytes more than any
 *                 field needs; -W: fewer
 *   i W N BYTES   import of a text of the next N bytes, in a buffer of W bytes
 *                 more than the log takes; -W: fewer
 *   o W N BYTES   export of a log, in the same way
 *   d B I J       turns over bit J of element I of buffer B: the records may be
 *                 damaged from here on, and every call has to say so
 *   u             takes back all damage
 *   s C I J K     calls with C chunks and buffers of I, J and K elements
 *
 * A number is decimal, with a minus before it if need be; #N is the place of the
 * Nth live block, and +N behind it is added. Numbers that are not there are 0,
 * and other bytes are passed over.
 */
#include "calls.h"
#include "desk.h"
#include "groups.h"
#include "logs.h"
#include "readers.h"
#include "resizes.h"
#include "twin.h"

#include <inttypes.h>
#include <stdio.h>
#include <stdlib.h>
#include <string.h>

enum { MOST_CALLS = 200, MOST_ROOM = 100000, MOST_GENERATED = 4 };
enum { MOST_LOG = 4096, MOST_MORE = 1000, MOST_OUT = LENSEMBER_LINES_ROOM(MOST_LOG) + MOST_MORE };

/* ---- The input ---------------------------------------------------------------- */

struct input {
    const uint8_t *bytes;
    size_t left;
    const struct twin *twin; /* whose blocks #N names */
};

static bool at(const struct input *input, char what)
{
    return input->left > 0 && *input->bytes == (uint8_t)what;
}

static void skip(struct input *input, size_t count)
{
    input->bytes += count;
    input->left -= count;
}

static bool skip_if(struct input *input, char what)
{
    if (!at(input, what))
        return false;
    skip(input, 1);
    return true;
}

static uint64_t take_digits(struct input *input)
{
    uint64_t number = 0;

    while (input->left > 0 && *input->bytes >= '0' && *input->bytes <= '9') {
        number = 10 * number + (uint64_t)(*input->bytes - '0');
        skip(input, 1);
    }
    return number;
}

/* The place of a live block by its number; 0 where there is none. */
static uint64_t live_place(const struct twin *twin, uint64_t number)
{
    const struct booked *block;

    if (twin->model.live.count == 0)
        return 0;
    block = book_at(&twin->model.live, (unsigned long)(number % twin->model.live.count));
    return block->place;
}

static uint64_t take_number(struct input *input)
{
    uint64_t number;

    while (skip_if(input, ' '))
        continue;
    if (skip_if(input, '-'))
        return -take_digits(input);
    if (skip_if(input, '#'))
        number = live_place(input->twin, take_digits(input));
    else
        number = take_digits(input);
    return skip_if(input, '+') ? number + take_digits(input) : number;
}

/* The next bytes as a log: as many as are asked for, if they are there. */
static size_t take_log(struct input *input, const uint8_t **log)
{
    uint64_t asked = take_number(input);
    size_t length;

    skip_if(input, ' ');
    length = asked < input->left ? (size_t)asked : input->left;
    if (length > MOST_LOG)
        length = MOST_LOG;
    *log = input->bytes;
    skip(input, length);
    return length;
}

/* ---- Pools --------------------------------------------------------------------- */

/* One for each count of chunks, made when it is first asked for. */
static struct twin *fresh_twin(size_t c)
{
    static struct twin *twins[MAX_CHUNKS + 1];

    if (twins[c] == NULL)
        twins[c] = twin_new(c);
    pool_fresh(&twins[c]->model, c);
    twin_settle(twins[c]);
    return twins[c];
}

static void generate_pool(struct twin *twin, uint64_t recipe, uint64_t seed)
{
    if (twin->model.c > MOST_GENERATED)
        return;
    rng.state = seed;
    twin_generate(twin, &recipes[recipe % recipe_count]);
}

/* ---- Damage --------------------------------------------------------------------- */

static void turn_over(struct records *r, uint64_t buffer, uint64_t element, uint64_t bit)
{
    switch (buffer % 3) {
    case 0:
        r->bits[element % (r->c * BIT_WORDS)] ^= UINT64_C(1) << bit % 64;
        break;
    case 1:
        r->words[element % (r->c * PAGES)] ^= UINT32_C(1) << bit % 32;
        break;
    default:
        r->slots[element % (r->c * SLOT_WORDS)] ^= UINT64_C(1) << bit % 64;
    }
}

/* Records that are sound in spite of it are those of another pool. */
static bool damage(struct twin *twin, uint64_t buffer, uint64_t element, uint64_t bit)
{
    unsigned right;

    turn_over(&twin->lent, buffer, element, bit);
    right = model_check(&twin->lent);
    expect(library_check(&twin->lent) == right, "check, the model says %u", right);
    lent_copy(&twin->right, &twin->lent);
    if (right == 0)
        pool_read(&twin->model, &twin->lent);
    return right != 0;
}

static void expect_all_refuse(struct twin *twin, uint64_t number)
{
    uint64_t room[2] = {1, 2};
    uint64_t live = live_place(twin, number);
    const struct records *r = &twin->lent;

    expect(library_check(r) == 2, "check");
    expect(library_reserve(r, number).refusal == 2, "reserve");
    expect(library_release(r, live) == 2, "release");
    expect(library_resize(r, live, number).refusal == 2, "resize");
    expect(library_sweep(r).refusal == 2, "sweep");
    expect(library_block_size(r, live).refusal == 2, "block size");
    expect(library_next(r, number).refusal == 2, "next");
    expect(library_census(r, room, 2).refusal == 2 && room[0] == 1 && room[1] == 2, "census");
    expect(library_totals(r).refusal == 2, "totals");
    expect(library_bytes(0, r, live, r->c * CHUNK_BYTES, 0).refusal == 2, "bytes");
    expect(lent_equal(r, &twin->right), "damaged records were changed");
}

/* ---- Logs --------------------------------------------------------------------------- */

/* Buffers of bytes that end right before memory that no one may touch. */
static uint8_t *lent_log, *lent_out;

static const uint8_t *lend_log(const uint8_t *log, size_t nlog)
{
    if (lent_log == NULL)
        lent_log = lent_bytes_new(MOST_LOG);
    memcpy(lent_log + MOST_LOG - nlog, log, nlog);
    return lent_log + MOST_LOG - nlog;
}

static uint8_t *lend_out(size_t nout)
{
    if (lent_out == NULL)
        lent_out = lent_bytes_new(MOST_OUT);
    memset(lent_out, 0xA5, MOST_OUT);
    return lent_out + MOST_OUT - nout;
}

/* This text in front, and the bytes behind it and before the buffer as they were. */
static bool holds(const uint8_t *out, size_t nout, const char *text, size_t length)
{
    if (length > nout || (length > 0 && memcmp(out, text, length) != 0))
        return false;
    for (const uint8_t *byte = lent_out; byte < lent_out + MOST_OUT; byte++)
        if (*byte != 0xA5 && (byte < out || byte >= out + length))
            return false;
    return true;
}

static struct text right_lines;

/* What the model makes of the log, records and lines. */
static struct log_outcome replay_by_model(struct twin *twin, const uint8_t *log, size_t nlog)
{
    struct log_outcome right =
        log_replay(&twin->model, twin->model.c, log, nlog, &right_lines);

    pool_untouch(&twin->model);
    if (right.started)
        pool_write(&twin->model, &twin->right);
    return right;
}

/* Answers whether a start was accepted: then nothing is damaged any more. */
static bool replay(struct twin *twin, const uint8_t *log, size_t nlog)
{
    struct lensember_replayed answer = library_replay(&twin->lent, lend_log(log, nlog), nlog);
    struct log_outcome right = replay_by_model(twin, log, nlog);

    expect(answer.refusal == right.refusal && answer.position == right.position,
           "replay: %" PRIu64 " at %" PRIu64 ", the model says %" PRIu64 " at %" PRIu64,
           answer.refusal, answer.position, right.refusal, right.position);
    expect(lent_equal(&twin->lent, &twin->right), "replay: records");
    return right.started;
}

/* The same with lines. Too little room is 7, and nothing is done. */
static bool print(struct twin *twin, const uint8_t *log, size_t nlog, size_t nout)
{
    bool enough = nout >= LENSEMBER_LINES_ROOM(nlog);
    uint8_t *out = lend_out(nout);
    struct lensember_printed answer =
        library_lines(&twin->lent, lend_log(log, nlog), nlog, out, nout);
    struct log_outcome right = {.refusal = 7};

    right_lines.length = 0;
    if (enough)
        right = replay_by_model(twin, log, nlog);
    expect(answer.refusal == right.refusal && answer.position == right.position
               && answer.length == right_lines.length,
           "lines: %" PRIu64 " at %" PRIu64 " length %" PRIu64 ", the model says %" PRIu64
           " at %" PRIu64 " length %zu",
           answer.refusal, answer.position, answer.length, right.refusal, right.position,
           right_lines.length);
    expect(holds(out, nout, right_lines.bytes, right_lines.length), "lines: text");
    expect(lent_equal(&twin->lent, &twin->right), "lines: records");
    return right.started;
}

/* ---- Lengths --------------------------------------------------------------------- */

enum { MOST_ELEMENTS = 2 * SLOT_WORDS + 1 };

/* So many elements, the last right before memory that no one may touch. */
static uint64_t *elements(uint64_t **buffer, size_t count)
{
    if (*buffer == NULL) {
        *buffer = lent_room_new(MOST_ELEMENTS);
        memset(*buffer, 0x5A, MOST_ELEMENTS * sizeof **buffer);
    }
    return *buffer + MOST_ELEMENTS - count;
}

static bool is_unchanged(const uint64_t *buffer)
{
    for (size_t i = 0; i < MOST_ELEMENTS; i++)
        if (buffer[i] != UINT64_C(0x5A5A5A5A5A5A5A5A))
            return false;
    return true;
}

/* Every call is refused by 1. The log would be accepted otherwise. */
static void try_shape(uint64_t c, struct lengths n)
{
    static uint64_t *bits, *words, *slots;
    const uint8_t start[] = {TAG_START, 0, 1, (uint8_t)c, TAG_END, 0, 0};
    uint8_t out[LENSEMBER_LINES_ROOM(sizeof start)];
    struct records r;

    if (c >= 1 && c <= MAX_CHUNKS && n.bits == c * BIT_WORDS && n.words == c * PAGES
        && n.slots == c * SLOT_WORDS)
        return; /* nothing is wrong with that */
    r.c = 0;
    r.bits = elements(&bits, n.bits);
    r.words = (uint32_t *)elements(&words, n.words / 2 + n.words % 2) + n.words % 2;
    r.slots = elements(&slots, n.slots);
    expect(lensember_check(c, r.bits, n.bits, r.words, n.words, r.slots, n.slots) == 1, "check");
    expect(lensember_fresh(c, r.bits, n.bits, r.words, n.words, r.slots, n.slots) == 1, "fresh");
    expect(lensember_reserve(c, r.bits, n.bits, r.words, n.words, r.slots, n.slots, 24).refusal
               == 1, "reserve");
    expect(lensember_release(c, r.bits, n.bits, r.words, n.words, r.slots, n.slots, 4096) == 1,
           "release");
    expect(lensember_sweep(c, r.bits, n.bits, r.words, n.words, r.slots, n.slots).refusal == 1,
           "sweep");
    expect(lensember_block_size(c, r.bits, n.bits, r.words, n.words, r.slots, n.slots, 4096).refusal
               == 1, "block size");
    expect(lensember_bytes(c, r.bits, n.bits, r.words, n.words, r.slots, n.slots, 0, 4096,
                           (size_t)(c * CHUNK_BYTES), 0).refusal == 1, "bytes");
    expect(lensember_replay(c, r.bits, n.bits, r.words, n.words, r.slots, n.slots,
                            start, sizeof start).refusal == 1, "replay");
    expect(lensember_lines(c, r.bits, n.bits, r.words, n.words, r.slots, n.slots,
                           start, sizeof start, out, sizeof out).refusal == 1, "lines");
    expect_resizes_refuse(1, c, &r, n);
    expect_readers_refuse(1, c, &r, n);
    expect(is_unchanged(bits) && is_unchanged(words) && is_unchanged(slots), "buffers");
}

/* ---- Calls ------------------------------------------------------------------------- */

struct state {
    struct twin *twin;
    bool damaged;
};

static void census(struct twin *twin, uint64_t more)
{
    uint64_t room = 2 * twin->model.live.count + more;

    if (room > MOST_ROOM)
        room = more > MOST_ROOM ? 0 : MOST_ROOM; /* fewer than none are none */
    twin_census(twin, (size_t)room);
}

/* "Only the chosen arena's length is checked." */
static void bytes(struct twin *twin, uint64_t ear, uint64_t place, size_t nleft, size_t nright)
{
    struct lensember_part answer = library_bytes(ear, &twin->lent, place, nleft, nright);
    struct pool_sized block = pool_block_size(&twin->model, place);
    bool fits = ear <= 1 && (ear == 0 ? nleft : nright) == twin->model.c * CHUNK_BYTES;
    uint64_t refusal = fits ? block.refusal : 1;

    expect(answer.refusal == refusal && answer.size == (refusal == 0 ? block.size : 0)
               && answer.start == (refusal == 0 ? place : 0),
           "bytes of %" PRIu64 ": %" PRIu64 ", the model says %" PRIu64, place, answer.refusal,
           refusal);
    expect(lent_equal(&twin->lent, &twin->right), "bytes: records");
}

static void call_bytes(struct input *input, struct twin *twin)
{
    uint64_t ear = take_number(input), place = take_number(input);
    size_t exact = (size_t)(twin->model.c * CHUNK_BYTES);
    size_t nleft = exact + (size_t)take_number(input);

    bytes(twin, ear, place, nleft, exact + (size_t)take_number(input));
}

/* A room that is longer than what is asked for, or shorter by a number below 0. */
static size_t longer(size_t room, uint64_t more)
{
    return more <= MOST_MORE || -more <= room ? room + (size_t)more : room;
}

static bool call_log(struct input *input, struct twin *twin, bool lines)
{
    const uint8_t *log;
    uint64_t more = lines ? take_number(input) : 0;
    size_t nlog = take_log(input, &log);

    return lines ? print(twin, log, nlog, longer(LENSEMBER_LINES_ROOM(nlog), more))
                 : replay(twin, log, nlog);
}

/* What the log so far has behind it does not matter. */
static void append(struct input *input, uint64_t more)
{
    static uint8_t buffer[MOST_LOG + LENSEMBER_FIELD_ROOM + MOST_MORE];
    uint64_t tag = take_number(input), first = take_number(input), second = take_number(input);
    const uint8_t *log;
    size_t nlog = take_log(input, &log);

    memcpy(buffer, log, nlog);
    desk_append(buffer, longer(nlog + LENSEMBER_FIELD_ROOM, more), nlog, tag, first, second);
}

/* How much is taken is seen first, with room for anything. */
static void exchange(struct input *input, uint64_t more, bool import)
{
    const uint8_t *bytes;
    size_t count = take_log(input, &bytes), taken;

    if (import) {
        taken = (size_t)desk_import(bytes, count, LENSEMBER_IMPORT_ROOM(count)).length;
        desk_import(bytes, count, longer(taken, more));
    } else {
        taken = (size_t)desk_export(bytes, count, LENSEMBER_EXPORT_ROOM(count)).length;
        desk_export(bytes, count, longer(taken, more));
    }
}

/* What needs no pool. */
static bool call_without_pool(struct input *input, uint8_t letter)
{
    if (letter != 'h' && letter != 'i' && letter != 'o')
        return false;
    if (letter == 'h')
        append(input, take_number(input));
    else
        exchange(input, take_number(input), letter == 'i');
    return true;
}

/* What a replay, a fresh call and damage do, whether or not the records are sound. */
static bool call_anyhow(struct input *input, struct state *state, uint8_t letter)
{
    uint64_t c, seed;
    struct lengths n;

    switch (letter) {
    case 'c':
        state->twin = fresh_twin(1 + (size_t)(take_number(input) % MAX_CHUNKS));
        state->damaged = false;
        return true;
    case 'x':
        twin_fresh(state->twin);
        state->damaged = false;
        return true;
    case 'p':
    case 'l':
        if (call_log(input, state->twin, letter == 'l'))
            state->damaged = false;
        return true;
    case 'd':
        c = take_number(input);
        seed = take_number(input);
        state->damaged = damage(state->twin, c, seed, take_number(input));
        return true;
    case 's':
        c = take_number(input);
        n.bits = (size_t)(take_number(input) % MOST_ELEMENTS);
        n.words = (size_t)(take_number(input) % MOST_ELEMENTS);
        n.slots = (size_t)(take_number(input) % MOST_ELEMENTS);
        try_shape(c, n);
        return true;
    default:
        return false;
    }
}

static void call_sound(struct input *input, struct twin *twin, uint8_t letter)
{
    uint64_t number;

    switch (letter) {
    case 'g':
        number = take_number(input);
        generate_pool(twin, number, take_number(input));
        break;
    case 'k':
        expect(library_check(&twin->lent) == 0, "check");
        break;
    case 'r':
        twin_reserve(twin, take_number(input));
        break;
    case 'f':
        twin_release(twin, take_number(input));
        break;
    case 'z':
        number = take_number(input);
        twin_resize(twin, number, take_number(input));
        break;
    case 'w':
        twin_sweep(twin);
        break;
    case 'b':
        twin_block_size(twin, take_number(input));
        break;
    case 'n':
        twin_next(twin, take_number(input));
        break;
    case 'e':
        census(twin, take_number(input));
        break;
    case 't':
        twin_totals(twin);
        break;
    case 'a':
        call_bytes(input, twin);
        break;
    }
}

static void call(struct input *input, struct state *state)
{
    uint8_t letter = *input->bytes;

    skip(input, 1);
    input->twin = state->twin;
    state->twin->calls = 1; /* the model is reviewed at the end, not in between */
    if (call_without_pool(input, letter) || call_anyhow(input, state, letter))
        return;
    if (letter == 'u' && state->damaged) {
        twin_settle(state->twin);
        state->damaged = false;
    } else if (state->damaged) {
        expect_all_refuse(state->twin, letter);
    } else {
        call_sound(input, state->twin, letter);
    }
}

/* The records that were written call by call are those of the runs. */
static void review(struct twin *twin)
{
    pool_write(&twin->model, &twin->anew);
    expect(lent_equal(&twin->anew, &twin->right), "the model's own records differ");
    expect(model_check(&twin->right) == 0 && library_check(&twin->lent) == 0, "sound no more");
}

static void stop_if_wrong(void)
{
    if (group.wrong == 0)
        return;
    fprintf(stderr, "boundary: %s\n", group.first_wrong);
    abort();
}

int LLVMFuzzerTestOneInput(const uint8_t *bytes, size_t size);

int LLVMFuzzerTestOneInput(const uint8_t *bytes, size_t size)
{
    struct state state = {fresh_twin(1), false};
    struct input input = {bytes, size, state.twin};

    rng.state = 0; /* the same for the same input */
    group_begin("fuzz", "boundary");
    for (unsigned i = 0; i < MOST_CALLS && input.left > 0; i++) {
        call(&input, &state);
        stop_if_wrong();
    }
    if (!state.damaged)
        review(state.twin);
    stop_if_wrong();
    return 0;
}
