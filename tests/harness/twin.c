#include "twin.h"

#include "calls.h"
#include "groups.h"

#include <inttypes.h>
#include <stdio.h>
#include <stdlib.h>
#include <string.h>

enum { CALLS_A_REVIEW = 256, WORDS_BEFORE_ROOM = 16 };

struct answers answers;

static void free_rooms(struct twin *twin)
{
    if (twin->room_words == 0)
        return;
    lent_room_free(twin->room, twin->room_words);
    lent_room_free(twin->listed, twin->room_words);
    twin->room_words = 0;
}

static void make_rooms(struct twin *twin, size_t words)
{
    if (words <= twin->room_words)
        return;
    free_rooms(twin);
    twin->room_words = 2 * words;
    twin->room = lent_room_new(twin->room_words);
    twin->listed = lent_room_new(twin->room_words);
}

struct twin *twin_new(size_t c)
{
    struct twin *twin = calloc(1, sizeof *twin);

    if (twin == NULL) {
        perror("pools for the tests");
        exit(2);
    }
    twin->lent = lent_new(c);
    twin->right = lent_new(c);
    twin->anew = lent_new(c);
    pool_fresh(&twin->model, c);
    twin_settle(twin);
    return twin;
}

void twin_free(struct twin *twin)
{
    lent_free(&twin->lent);
    lent_free(&twin->right);
    lent_free(&twin->anew);
    free_rooms(twin);
    pool_end(&twin->model);
    free(twin);
}

void twin_settle(struct twin *twin)
{
    pool_untouch(&twin->model);
    pool_write(&twin->model, &twin->right);
    lent_copy(&twin->lent, &twin->right);
}

void expect_alike(const struct twin *twin)
{
    expect(lent_equal(&twin->lent, &twin->right), "c %zu: a buffer is not as it was",
           twin->model.c);
}

void on_each_recipe(unsigned step, twin_test *test)
{
    for (size_t c = 1; c <= MAX_CHUNKS; c++) {
        struct twin *twin = twin_new(c);
        for (size_t i = rng_below(&rng, step); i < recipe_count; i += step) {
            twin_generate(twin, &recipes[i]);
            test(twin);
            expect_alike(twin);
        }
        twin_free(twin);
    }
}

void twin_generate(struct twin *twin, const struct recipe *recipe)
{
    generate(&twin->lent, recipe, &rng);
    pool_read(&twin->model, &twin->lent);
    pool_write(&twin->model, &twin->right);
    expect(lent_equal(&twin->lent, &twin->right), "the model reads %s wrongly", recipe->name);
    lent_copy(&twin->lent, &twin->right);
}

/* The records so far were written call by call: are they those of the runs? */
static void review(struct twin *twin)
{
    pool_write(&twin->model, &twin->anew);
    expect(lent_equal(&twin->anew, &twin->right), "the model's own records differ");
    expect(model_check(&twin->right) == 0, "the model's records are damaged");
    expect(library_check(&twin->lent) == 0, "the library says damaged");
}

static void compare_records(struct twin *twin, const char *call, uint64_t number)
{
    bool equal;

    pool_write_touched(&twin->model, &twin->right);
    equal = lent_equal(&twin->lent, &twin->right);
    expect(equal, "c %zu call %lu, %s %" PRIu64 ": the records are not the model's",
           twin->model.c, twin->calls, call, number);
    if (!equal)
        lent_copy(&twin->lent, &twin->right); /* else each later call would differ too */
    group.trials++;
    if (++twin->calls % CALLS_A_REVIEW == 0)
        review(twin);
}

static void count_answer(unsigned long counts[ANSWERS], uint64_t answer)
{
    counts[answer < ANSWERS - 1 ? answer : ANSWERS - 1]++;
}

void twin_fresh(struct twin *twin)
{
    uint64_t answer = library_fresh(&twin->lent);

    expect(answer == 0, "fresh answers %" PRIu64, answer);
    pool_fresh(&twin->model, twin->model.c);
    pool_write(&twin->model, &twin->right);
    compare_records(twin, "fresh", twin->model.c);
}

static bool same_reserved(const struct lensember_reserved *a, const struct pool_reserved *b)
{
    return a->refusal == b->refusal && a->place == b->place && a->size == b->size
        && a->kind == (uint64_t)b->kind && a->class_number == b->class_number
        && a->first_page == b->first_page && a->slot == b->slot && a->pages == b->pages;
}

/* Of the run that a sweep made room for. */
static uint64_t pages_taken(const struct pool_reserved *right)
{
    return right->kind == BLOCK_SLOT ? size_classes[right->class_number].pages : right->pages;
}

/* What sweeps have to do with the answer that the model gave last. */
static void count_sweep(const struct pool *model, const struct pool_reserved *right)
{
    bool has_empty_runs = pool_empty_pages(model) > 0;

    answers.reserve_swept += right->gained > 0;
    answers.reserve_spared += right->gained > pages_taken(right);
    answers.reserve_in_vain += right->refusal == 4 && has_empty_runs;
    answers.reserve_unswept += right->refusal == 0 && has_empty_runs;
}

struct pool_reserved twin_reserve(struct twin *twin, uint64_t size)
{
    struct lensember_reserved answer = library_reserve(&twin->lent, size);
    struct pool_reserved right = pool_reserve(&twin->model, size);

    expect(same_reserved(&answer, &right),
           "c %zu call %lu, reserve %" PRIu64 ": answer %" PRIu64 " at %" PRIu64 " size %" PRIu64
           " kind %" PRIu64 " page %" PRIu64 ", the model says %" PRIu64 " at %" PRIu64
           " size %" PRIu64 " kind %d page %" PRIu64,
           twin->model.c, twin->calls, size, answer.refusal, answer.place, answer.size,
           answer.kind, answer.first_page, right.refusal, right.place, right.size,
           (int)right.kind, right.first_page);
    count_answer(answers.reserve, answer.refusal);
    count_sweep(&twin->model, &right);
    compare_records(twin, "reserve", size);
    return right;
}

uint64_t twin_release(struct twin *twin, uint64_t place)
{
    uint64_t answer = library_release(&twin->lent, place);
    uint64_t right = pool_release(&twin->model, place);

    expect(answer == right,
           "c %zu call %lu, release %" PRIu64 ": answer %" PRIu64 ", the model says %" PRIu64,
           twin->model.c, twin->calls, place, answer, right);
    count_answer(answers.release, answer);
    compare_records(twin, "release", place);
    return right;
}

static bool same_resized(const struct lensember_resized *a, const struct pool_resized *b)
{
    return a->refusal == b->refusal && a->place == b->place && a->size == b->size
        && a->how == (uint64_t)b->how && a->copy == b->copy;
}

struct pool_resized twin_resize(struct twin *twin, uint64_t place, uint64_t size)
{
    struct lensember_resized answer = library_resize(&twin->lent, place, size);
    struct pool_resized right = pool_resize(&twin->model, place, size);

    expect(same_resized(&answer, &right),
           "c %zu call %lu, resize %" PRIu64 " to %" PRIu64 ": answer %" PRIu64 " at %" PRIu64
           " size %" PRIu64 " how %" PRIu64 " copy %" PRIu64 ", the model says %" PRIu64 " at %" PRIu64
           " size %" PRIu64 " how %d copy %" PRIu64,
           twin->model.c, twin->calls, place, size, answer.refusal, answer.place, answer.size,
           answer.how, answer.copy, right.refusal, right.place, right.size, (int)right.how,
           right.copy);
    count_resize(&answers.resizes, &twin->model, &right);
    compare_records(twin, "resize", place);
    return right;
}

uint64_t twin_sweep(struct twin *twin)
{
    struct lensember_swept answer = library_sweep(&twin->lent);
    uint64_t right = pool_sweep(&twin->model);

    expect(answer.refusal == 0 && answer.pages == right,
           "c %zu call %lu, sweep: answer %" PRIu64 ", %" PRIu64 " pages, the model says %" PRIu64,
           twin->model.c, twin->calls, answer.refusal, answer.pages, right);
    count_answer(answers.sweep, answer.refusal);
    answers.sweep_none += right == 0;
    compare_records(twin, "sweep", right);
    return right;
}

struct pool_sized twin_block_size(struct twin *twin, uint64_t place)
{
    struct lensember_sized answer = library_block_size(&twin->lent, place);
    struct pool_sized right = pool_block_size(&twin->model, place);

    expect(answer.refusal == right.refusal && answer.size == right.size,
           "c %zu call %lu, block size of %" PRIu64 ": answer %" PRIu64 " size %" PRIu64
           ", the model says %" PRIu64 " size %" PRIu64,
           twin->model.c, twin->calls, place, answer.refusal, answer.size,
           right.refusal, right.size);
    count_answer(answers.block_size, answer.refusal);
    pool_untouch(&twin->model);
    compare_records(twin, "block size of", place);
    return right;
}

struct pool_found twin_next(struct twin *twin, uint64_t place)
{
    struct lensember_found answer = library_next(&twin->lent, place);
    struct pool_found right = pool_next(&twin->model, place);

    expect(answer.refusal == 0 && answer.place == right.place && answer.size == right.size,
           "c %zu call %lu, next from %" PRIu64 ": answer %" PRIu64 " at %" PRIu64 " size %" PRIu64
           ", the model says at %" PRIu64 " size %" PRIu64,
           twin->model.c, twin->calls, place, answer.refusal, answer.place, answer.size,
           right.place, right.size);
    count_answer(answers.next, answer.refusal);
    answers.next_none += answer.refusal == 0 && answer.place == 0;
    pool_untouch(&twin->model);
    compare_records(twin, "next from", place);
    return right;
}

/* No two words are alike, nor are they those of the last time. */
static void fill_rooms(struct twin *twin, size_t words)
{
    uint64_t word = rng_next(&rng);
    size_t before = twin->room_words - words;

    for (size_t i = before; i < twin->room_words; i++)
        twin->room[i] = twin->listed[i] = word += UINT64_C(0x9E3779B97F4A7C15);
}

/* The room, the words behind the list and some before the room are compared. */
struct pool_counted twin_census(struct twin *twin, size_t nroom)
{
    size_t words = WORDS_BEFORE_ROOM + nroom, before;
    struct lensember_counted answer;
    struct pool_counted right;

    make_rooms(twin, words);
    fill_rooms(twin, words);
    before = twin->room_words - words;
    answer = library_census(&twin->lent, twin->room + twin->room_words - nroom, nroom);
    right = pool_census(&twin->model, twin->listed + twin->room_words - nroom, nroom);

    expect(answer.refusal == right.refusal && answer.count == right.count,
           "c %zu call %lu, census in %zu words: answer %" PRIu64 " count %" PRIu64
           ", the model says %" PRIu64 " count %" PRIu64,
           twin->model.c, twin->calls, nroom, answer.refusal, answer.count,
           right.refusal, right.count);
    expect(memcmp(twin->room + before, twin->listed + before, words * sizeof *twin->room) == 0,
           "c %zu call %lu, census in %zu words: the room is not what the model makes of it",
           twin->model.c, twin->calls, nroom);
    count_answer(answers.census, answer.refusal);
    pool_untouch(&twin->model);
    compare_records(twin, "census in words", nroom);
    return right;
}

/* "Free pages plus pages in runs plus c equals 512c." */
static void compare_pages(const struct twin *twin, uint64_t free_pages)
{
    uint64_t c = twin->model.c, in_runs = pool_run_pages(&twin->model);

    expect(free_pages + in_runs + c == 512 * c,
           "c %zu call %lu: %" PRIu64 " free pages and %" PRIu64 " in runs",
           twin->model.c, twin->calls, free_pages, in_runs);
}

struct pool_summed twin_totals(struct twin *twin)
{
    struct lensember_summed answer = library_totals(&twin->lent);
    struct pool_summed right = pool_totals(&twin->model);

    expect(answer.refusal == 0 && answer.blocks == right.blocks && answer.bytes == right.bytes
               && answer.free_pages == right.free_pages,
           "c %zu call %lu, totals: answer %" PRIu64 ", %" PRIu64 " blocks %" PRIu64
           " bytes %" PRIu64 " free pages, the model says %" PRIu64 " %" PRIu64 " %" PRIu64,
           twin->model.c, twin->calls, answer.refusal, answer.blocks, answer.bytes,
           answer.free_pages, right.blocks, right.bytes, right.free_pages);
    compare_pages(twin, answer.free_pages);
    count_answer(answers.totals, answer.refusal);
    pool_untouch(&twin->model);
    compare_records(twin, "totals", twin->model.c);
    return right;
}

/* ---- Known numbers ----------------------------------------------------------- */

void expect_served(struct twin *twin, uint64_t size, uint64_t place, uint64_t given)
{
    struct pool_reserved answer = twin_reserve(twin, size);

    expect(answer.refusal == 0 && answer.place == place && answer.size == given,
           "reserve %" PRIu64 ": %" PRIu64 " at %" PRIu64 " size %" PRIu64,
           size, answer.refusal, answer.place, answer.size);
}

void expect_refused(struct twin *twin, uint64_t size, uint64_t number)
{
    struct pool_reserved answer = twin_reserve(twin, size);

    expect(answer.refusal == number, "reserve %" PRIu64 ": %" PRIu64, size, answer.refusal);
}

void expect_release(struct twin *twin, uint64_t place, uint64_t number)
{
    uint64_t answer = twin_release(twin, place);

    expect(answer == number, "release %" PRIu64 ": %" PRIu64, place, answer);
}

void expect_gain(struct twin *twin, uint64_t pages)
{
    uint64_t gained = twin_sweep(twin);

    expect(gained == pages, "sweep gains %" PRIu64 " pages, not %" PRIu64, gained, pages);
}

void expect_size(struct twin *twin, uint64_t place, uint64_t number, uint64_t size)
{
    struct pool_sized answer = twin_block_size(twin, place);

    expect(answer.refusal == number && answer.size == size,
           "block size of %" PRIu64 ": %" PRIu64 " size %" PRIu64,
           place, answer.refusal, answer.size);
}
