/*
 * How much stack does each call take?
 *
 * Each call is made on a stack of its own, which was painted before, with inputs
 * that reach its deepest ways. It takes what lies between the frame that makes
 * it, which holds its arguments and its answer, and the lowest byte that is not
 * paint any more. All calls are made once before, and not measured: the dynamic
 * linker finds memset and memcpy at their first call, and takes kilobytes for it.
 * Then they are made on two paints, and the deeper one counts: a byte may be
 * written with the value that the paint has.
 *
 * Usage: stack [README.md]
 * That file has a table of the calls, with the bytes of stack in its last column:
 * they must be enough, and less than 1,024 too many. One line is printed for each
 * call, then their count. Without a file, only what was measured is printed.
 */
#define _XOPEN_SOURCE 600 /* makecontext */

#include "cases.h"
#include "drafts.h"
#include "draws.h"
#include "groups.h"
#include "known.h"
#include "lensember.h"
#include "lent.h"
#include "recipes.h"
#include "texts.h"

#include <ctype.h>
#include <stdio.h>
#include <string.h>
#include <ucontext.h>

/* ---- The calls ------------------------------------------------------------------ */

/* All blocks of the fullest pool, for a census; and the lines of the longest log. */
static uint64_t room[2 * MAX_CHUNKS * PAGES * PAGE_SLOT_BITS];
static uint8_t out[LENSEMBER_LINES_ROOM(DRAFT_BYTES)];

/* What the next call is given. */
static struct {
    struct lensember_pool pool;
    uint64_t place, size, ear;
    const uint8_t *bytes; /* of a log or a text */
    size_t nbytes;
    size_t nroom; /* words of a census, else bytes */
    uint64_t tag, number;
} given;

static uint64_t make_check(void)
{
    return lensember_pool_check(&given.pool);
}

static uint64_t make_fresh(void)
{
    return lensember_pool_fresh(&given.pool);
}

static uint64_t make_reserve(void)
{
    return lensember_pool_reserve(&given.pool, given.size).refusal;
}

static uint64_t make_release(void)
{
    return lensember_pool_release(&given.pool, given.place);
}

static uint64_t make_resize(void)
{
    return lensember_pool_resize(&given.pool, given.place, given.size).refusal;
}

static uint64_t make_sweep(void)
{
    return lensember_pool_sweep(&given.pool).refusal;
}

static uint64_t make_block_size(void)
{
    return lensember_pool_block_size(&given.pool, given.place).refusal;
}

static uint64_t make_next(void)
{
    return lensember_pool_next(&given.pool, given.place).refusal;
}

static uint64_t make_census(void)
{
    return lensember_pool_census(&given.pool, room, given.nroom).refusal;
}

static uint64_t make_totals(void)
{
    return lensember_pool_totals(&given.pool).refusal;
}

static uint64_t make_bytes(void)
{
    size_t arena = (size_t)given.pool.c * LENSEMBER_CHUNK_BYTES;

    return lensember_pool_bytes(&given.pool, given.ear, given.place, arena, arena).refusal;
}

static uint64_t make_replay(void)
{
    return lensember_pool_replay(&given.pool, given.bytes, given.nbytes).refusal;
}

static uint64_t make_lines(void)
{
    return lensember_pool_lines(&given.pool, given.bytes, given.nbytes, out, given.nroom).refusal;
}

static uint64_t make_append(void)
{
    return lensember_append(out, given.nroom, given.nbytes, given.tag, given.number, given.number)
        .refusal;
}

static uint64_t make_import(void)
{
    return lensember_import(given.bytes, given.nbytes, out, given.nroom).refusal;
}

static uint64_t make_export(void)
{
    return lensember_export(given.bytes, given.nbytes, out, given.nroom).refusal;
}

/* What an input is made of. Each call has the inputs of one kind. */
enum input { A_PLACE, A_LOG, A_FIELD, A_TEXT };

struct call {
    const char *form, *name; /* the form is pool_ where the call is made on a pool */
    enum input input;
    uint64_t (*make)(void); /* answers the refusal */
    unsigned due;           /* all answers that it has, a bit each */
    unsigned answers;       /* those that came */
    unsigned long made;
    uint8_t *stack;
    uintptr_t from; /* the frame that makes it */
    size_t deepest; /* bytes below that */
};

#define BIT(answer) (1u << LENSEMBER_##answer)
#define READ (BIT(OK) | BIT(SHAPE) | BIT(DAMAGED))
#define FOUND (READ | BIT(NO_BLOCK) | BIT(FREE_SLOT))
#define RESERVED (BIT(TOO_BIG) | BIT(NO_ROOM))
#define REPLAYED (BIT(OK) | BIT(SHAPE) | BIT(CUT_LOG) | BIT(BAD_FIELD))
#define CALL(form, name, input, due) {form, #name, input, make_##name, due, 0, 0, NULL, 0, 0}

static struct call calls[] = {
    CALL("pool_", check, A_PLACE, READ),
    CALL("pool_", fresh, A_PLACE, BIT(OK) | BIT(SHAPE)),
    CALL("pool_", reserve, A_PLACE, READ | RESERVED),
    CALL("pool_", release, A_PLACE, FOUND),
    CALL("pool_", resize, A_PLACE, FOUND | RESERVED),
    CALL("pool_", sweep, A_PLACE, READ),
    CALL("pool_", block_size, A_PLACE, FOUND),
    CALL("pool_", next, A_PLACE, READ),
    CALL("pool_", census, A_PLACE, READ | BIT(SHORT_ROOM)),
    CALL("pool_", totals, A_PLACE, READ),
    CALL("pool_", bytes, A_PLACE, FOUND),
    CALL("pool_", replay, A_LOG, REPLAYED),
    CALL("pool_", lines, A_LOG, REPLAYED | BIT(SHORT_ROOM)),
    CALL("", append, A_FIELD, BIT(OK) | BIT(SHAPE) | BIT(SHORT_ROOM) | BIT(BAD_FIELD)),
    CALL("", import, A_TEXT, BIT(OK) | BIT(SHORT_ROOM) | BIT(BAD_LINE)),
    CALL("", export, A_LOG, BIT(OK) | BIT(SHORT_ROOM) | BIT(CUT_LOG) | BIT(BAD_FIELD)),
};

/* ---- On their stacks ------------------------------------------------------------- */

enum { STACK_BYTES = 1 << 16, SLACK = 1024 };

static ucontext_t outside, inside;
static struct call *call; /* under way */

/* The byte marks where the frame of the call's maker begins, a few bytes above it. */
static void make_call(void)
{
    volatile uint8_t frame = 0;
    uint64_t answer = call->make();

    call->from = (uintptr_t)&frame;
    call->answers |= 1u << answer % 32;
    call->made++;
}

/* The records as each call finds them, and those that are lent to it. */
static uint8_t *before, *lent;

static void make_on_stack(struct call *next)
{
    memcpy(lent, before, LENSEMBER_POOL_BYTES(given.pool.c));
    call = next;
    getcontext(&inside);
    inside.uc_stack.ss_sp = call->stack;
    inside.uc_stack.ss_size = STACK_BYTES;
    inside.uc_link = &outside;
    makecontext(&inside, make_call, 0);
    swapcontext(&outside, &inside);
}

static void try_calls(enum input input)
{
    for (size_t i = 0; i < COUNT(calls); i++)
        if (calls[i].input == input)
            make_on_stack(&calls[i]);
}

/* ---- Pools and places --------------------------------------------------------------- */

/* Lends a pool of c chunks from now on; answers its records before a call. */
static struct records lend_pool(size_t c)
{
    size_t nbytes = LENSEMBER_POOL_BYTES(c);
    struct lensember_pool pool = lensember_pool_at(c, before, nbytes);
    struct records r = {c, pool.bits, pool.words, pool.slots};

    given.pool = lensember_pool_at(c, lent, nbytes);
    return r;
}

/* A live block or any place; a size near the block's or any. */
static void try_places(const struct records *r, unsigned trials)
{
    static struct pool pool;

    pool_read(&pool, r);
    for (unsigned i = 0; i < trials; i++) {
        given.place = i % 2 ? draw_live_place(&pool) : draw_next_place(&pool);
        given.size = i % 3 ? draw_new_size(&pool, given.place) : draw_any_size(0);
        given.ear = i % 3;
        given.nroom = draw_room(&pool);
        try_calls(A_PLACE);
    }
}

/* Free, mixed and full ones, and such with empty runs: on these, reserves and resizes sweep. */
static void try_pools(size_t c)
{
    struct records r = lend_pool(c);

    for (size_t i = 0; i < recipe_count; i++) {
        generate(&r, &recipes[i], &rng);
        try_places(&r, 8 + 120 / (unsigned)c);
    }
}

/* The first page of the first chunk where it can be done. */
static void damage(const struct records *r, const struct damage_case *way)
{
    static struct site site;
    unsigned page = 0;

    site_read(&site, r, 0);
    while (!(site.pages[page].kind & way->where) || !way->apply(&site, page, 0))
        if (++page == PAGES)
            return;
}

static void try_damaged_pools(size_t c)
{
    struct records r = lend_pool(c);

    for (size_t i = 0; i < damage_case_count; i++) {
        generate(&r, recipe_named("parade"), &rng);
        damage(&r, &damage_cases[i]);
        try_calls(A_PLACE);
    }
}

/* ---- Logs and texts ------------------------------------------------------------------- */

/* With enough room for all that can be written, and with none. */
static void try_bytes(enum input input, const uint8_t *bytes, size_t nbytes)
{
    given.bytes = bytes;
    given.nbytes = nbytes;
    given.nroom = sizeof out;
    try_calls(input);
    given.nroom = 0;
    try_calls(input);
}

/* Each tag and some more, with room for the field, none for it, and less than the log has. */
static void try_fields(const uint8_t *log, size_t nlog)
{
    static const uint64_t numbers[] = {1, PAGE_BYTES, UINT64_MAX};

    memcpy(out, log, nlog);
    for (unsigned i = 0; i < 10 * COUNT(numbers); i++) {
        given.tag = i % 10;
        given.number = numbers[i / 10];
        try_bytes(A_FIELD, log, nlog);
        given.nroom = nlog;
        try_calls(A_FIELD);
    }
}

static void try_log(const uint8_t *log, size_t nlog)
{
    try_bytes(A_LOG, log, nlog);
    try_fields(log, nlog);
}

/* Good ones, cut before their end field, and spoilt. */
static void try_drafts(size_t c)
{
    static struct draft draft;

    lend_pool(c);
    for (size_t i = 0; i < diet_count; i++) {
        draft_log(&draft, c, &diets[i], 400);
        try_log(draft.bytes, draft.length);
        try_log(draft.bytes, draft.starts[draft.count - 1]);
        draft_spoil(&draft);
        try_log(draft.bytes, draft.length);
    }
}

/* Some have reserves and resizes that sweep. */
static void try_known_logs(void)
{
    lend_pool(1);
    for (size_t i = 0; i < known_log_count; i++)
        try_log(known_logs[i].bytes, known_logs[i].length);
}

static void try_texts(void)
{
    static struct writing writing;

    for (size_t i = 0; i < known_text_count; i++)
        try_bytes(A_TEXT, known_texts[i].bytes, known_texts[i].length);
    for (unsigned lines = 1; lines <= 1000; lines *= 10) {
        draw_text(&writing, lines);
        try_bytes(A_TEXT, writing.bytes, writing.length);
        draw_log(&writing, lines);
        try_bytes(A_LOG, writing.bytes, writing.length);
    }
}

/* ---- All of them ------------------------------------------------------------------------ */

/* A pool of no chunk is refused by its shape. */
static void try_no_pool(void)
{
    lend_pool(0);
    try_calls(A_PLACE);
    try_bytes(A_LOG, known_logs[0].bytes, known_logs[0].length);
}

/* The same each time. */
static void try_everything(void)
{
    rng.state = 20260102;
    try_no_pool();
    for (size_t c = 1; c <= MAX_CHUNKS; c += MAX_CHUNKS - 1) {
        try_pools(c);
        try_damaged_pools(c);
        try_drafts(c);
    }
    try_known_logs();
    try_texts();
}

static void look_for(uint8_t paint)
{
    for (size_t i = 0; i < COUNT(calls); i++) {
        const uint8_t *lowest = calls[i].stack;
        size_t deep;
        while (*lowest == paint)
            lowest++;
        deep = calls[i].from - (uintptr_t)lowest;
        if (deep > calls[i].deepest)
            calls[i].deepest = deep;
    }
}

static void measure_on(uint8_t paint)
{
    for (size_t i = 0; i < COUNT(calls); i++)
        memset(calls[i].stack, paint, STACK_BYTES);
    try_everything();
    look_for(paint);
}

static void measure(void)
{
    before = lent_bytes_new(LENSEMBER_POOL_BYTES(MAX_CHUNKS));
    lent = lent_bytes_new(LENSEMBER_POOL_BYTES(MAX_CHUNKS));
    for (size_t i = 0; i < COUNT(calls); i++)
        calls[i].stack = lent_bytes_new(STACK_BYTES);
    try_everything();
    measure_on(0x5A);
    measure_on(0xA5);
}

/* ---- What is stated --------------------------------------------------------------------- */

/* The number in the last column of a row of a table, its commas left out. */
static size_t last_column(char *row)
{
    char *end = strrchr(row, '|'), *column;
    size_t number = 0;

    *end = '\0';
    for (column = strrchr(row, '|'); *column != '\0'; column++)
        if (isdigit((unsigned char)*column))
            number = 10 * number + (size_t)(*column - '0');
    return number;
}

/* How many rows a call has in the table; and what the last of them says. */
static unsigned rows_of(FILE *readme, const struct call *stated, size_t *bytes)
{
    char line[1000], start[60];
    unsigned rows = 0;

    snprintf(start, sizeof start, "| `lensember_%s%s` |", stated->form, stated->name);
    rewind(readme);
    while (fgets(line, sizeof line, readme) != NULL) {
        if (strncmp(line, start, strlen(start)) != 0)
            continue;
        *bytes = last_column(line);
        rows++;
    }
    return rows;
}

/* A number below a million, as README.md writes it. */
static const char *with_comma(char text[8], size_t number)
{
    if (number < 1000)
        snprintf(text, 8, "%u", (unsigned)number);
    else
        snprintf(text, 8, "%u,%03u", (unsigned)(number / 1000) % 1000, (unsigned)(number % 1000));
    return text;
}

static void compare(FILE *readme, const struct call *measured)
{
    char line[80], bytes[8], says[8];
    size_t stated = 0;
    unsigned rows = rows_of(readme, measured, &stated);

    snprintf(line, sizeof line, "%s: %s bytes, README says %s", measured->name,
             with_comma(bytes, measured->deepest), with_comma(says, stated));
    group_begin("stack", line);
    group.trials = measured->made;
    expect(rows == 1, "%u rows in the table", rows);
    expect(measured->deepest <= stated, "it says too little");
    expect(stated < measured->deepest + SLACK, "it says too much");
    expect(measured->answers == measured->due, "answers %#x came, not %#x", measured->answers,
           measured->due);
    group_end();
}

static int compare_all(const char *path)
{
    FILE *readme = fopen(path, "r");

    if (readme == NULL) {
        perror(path);
        return 2;
    }
    for (size_t i = 0; i < COUNT(calls); i++)
        compare(readme, &calls[i]);
    fclose(readme);
    return program_end("stack");
}

int main(int argc, char **argv)
{
    measure();
    if (argc > 1)
        return compare_all(argv[1]);
    for (size_t i = 0; i < COUNT(calls); i++)
        printf("%s %zu\n", calls[i].name, calls[i].deepest);
    return 0;
}
