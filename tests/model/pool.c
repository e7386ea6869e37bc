#include "pool.h"

#include <stdio.h>
#include <stdlib.h>
#include <string.h>

/* ---- Runs ---------------------------------------------------------------- */

static struct pool_run *run_new(enum run_kind kind, unsigned first, unsigned pages)
{
    struct pool_run *run = calloc(1, sizeof *run);

    if (run == NULL) {
        perror("runs of the model");
        exit(2);
    }
    run->kind = kind;
    run->first = first;
    run->pages = pages;
    return run;
}

uint64_t run_place(size_t chunk, const struct pool_run *run)
{
    return chunk * CHUNK_BYTES + run->first * PAGE_BYTES;
}

/* Puts a run where it belongs among the others. */
static void insert_run(struct pool_chunk *chunk, struct pool_run *run)
{
    unsigned at = chunk->count;

    for (; at > 0 && chunk->runs[at - 1]->first > run->first; at--)
        chunk->runs[at] = chunk->runs[at - 1];
    chunk->runs[at] = run;
    chunk->count++;
}

static void remove_run(struct pool_chunk *chunk, const struct pool_run *run)
{
    unsigned at = 0;

    while (chunk->runs[at] != run)
        at++;
    free(chunk->runs[at]);
    chunk->count--;
    for (; at < chunk->count; at++)
        chunk->runs[at] = chunk->runs[at + 1];
}

void pool_untouch(struct pool *pool)
{
    pool->touched.count = 0;
    pool->touched.anywhere = false;
}

void pool_end(struct pool *pool)
{
    for (size_t k = 0; k < MAX_CHUNKS; k++) {
        for (unsigned i = 0; i < pool->chunks[k].count; i++)
            free(pool->chunks[k].runs[i]);
        pool->chunks[k].count = 0;
    }
    book_clear(&pool->live);
    pool_untouch(pool);
}

void pool_fresh(struct pool *pool, size_t c)
{
    pool_end(pool);
    pool->c = c;
}

struct pool_run *pool_put_large(struct pool *pool, size_t chunk, unsigned first, unsigned pages)
{
    struct pool_run *run = run_new(RUN_LARGE, first, pages);

    insert_run(&pool->chunks[chunk], run);
    book_put(&pool->live, run_place(chunk, run), pages * PAGE_BYTES);
    return run;
}

struct pool_run *pool_put_class(struct pool *pool, size_t chunk, unsigned first, unsigned b)
{
    struct pool_run *run = run_new(RUN_CLASS, first, size_classes[b].pages);

    run->class_number = b;
    insert_run(&pool->chunks[chunk], run);
    return run;
}

void pool_take_slot(struct pool *pool, size_t chunk, struct pool_run *run, unsigned slot)
{
    uint64_t size = size_classes[run->class_number].size;

    run->taken[slot] = true;
    run->taken_count++;
    book_put(&pool->live, run_place(chunk, run) + slot * size, size);
}

static void read_slots(struct pool *pool, size_t chunk, struct pool_run *run, struct chunk from)
{
    for (unsigned s = 0; s < size_classes[run->class_number].slots; s++)
        if ((from.slots[PAGE_SLOT_WORDS * run->first + s / 64] >> (s % 64)) & 1)
            pool_take_slot(pool, chunk, run, s);
}

void pool_read(struct pool *pool, const struct records *sound)
{
    static struct run_list list;

    pool_fresh(pool, sound->c);
    for (size_t k = 0; k < sound->c; k++) {
        struct chunk from = chunk_of(sound, k);
        model_decode(from.words, &list);
        for (unsigned i = 0; i < list.count; i++) {
            const struct run *run = &list.runs[i];
            if (run->kind == RUN_LARGE)
                pool_put_large(pool, k, run->first, run->pages);
            else
                read_slots(pool, k, pool_put_class(pool, k, run->first, run->class_number), from);
        }
    }
}

/* ---- Sweep ----------------------------------------------------------------- */

typedef bool run_test(const struct pool_run *run);

/* Every run stands in the way of a gap; after a sweep, those that hold a block. */
static bool is_any(const struct pool_run *run)
{
    (void)run;
    return true;
}

static bool is_in_use(const struct pool_run *run)
{
    return run->kind == RUN_LARGE || run->taken_count > 0;
}

/* Answers how many pages they had. */
static uint64_t strike_empty_runs(struct pool *pool)
{
    uint64_t pages = 0;

    for (size_t k = 0; k < pool->c; k++) {
        struct pool_chunk *chunk = &pool->chunks[k];
        for (unsigned i = chunk->count; i > 0; i--) {
            const struct pool_run *run = chunk->runs[i - 1];
            if (is_in_use(run))
                continue;
            pages += run->pages;
            remove_run(chunk, run);
        }
    }
    pool->touched.anywhere = pages > 0;
    return pages;
}

uint64_t pool_sweep(struct pool *pool)
{
    pool_untouch(pool);
    return strike_empty_runs(pool);
}

uint64_t pool_empty_pages(const struct pool *pool)
{
    uint64_t pages = 0;

    for (size_t k = 0; k < pool->c; k++)
        for (unsigned i = 0; i < pool->chunks[k].count; i++)
            if (!is_in_use(pool->chunks[k].runs[i]))
                pages += pool->chunks[k].runs[i]->pages;
    return pages;
}

/* ---- Reserve --------------------------------------------------------------- */

/* "the smallest class that holds it" */
unsigned class_of_size(uint64_t size)
{
    unsigned b = 0;

    while (size_classes[b].size < size)
        b++;
    return b;
}

/* What was swept or touched before, in the same call, stays touched. */
static void touch_pages(struct pool *pool, size_t chunk, unsigned first, unsigned pages)
{
    struct stretch stretch = {chunk, first, pages};

    pool->touched.stretches[pool->touched.count++] = stretch;
}

static void touch(struct pool *pool, size_t chunk, const struct pool_run *run)
{
    touch_pages(pool, chunk, run->first, run->pages);
}

/* "the shortest such gap, the lower one on a tie": its first page, or 0. */
static unsigned find_gap(const struct pool_chunk *chunk, unsigned pages, run_test *stands)
{
    unsigned first = 1; /* behind the run before */
    unsigned shortest = PAGES, found = 0;

    for (unsigned i = 0; i <= chunk->count; i++) {
        unsigned end = i < chunk->count ? chunk->runs[i]->first : PAGES;
        if (i < chunk->count && !stands(chunk->runs[i]))
            continue; /* its pages belong to the gap around them */
        if (end - first >= pages && end - first < shortest) {
            shortest = end - first;
            found = first;
        }
        if (i < chunk->count)
            first = end + chunk->runs[i]->pages;
    }
    return found;
}

/* Where pages were found, and how many a sweep gained to have them. */
struct room {
    bool found;
    size_t chunk;
    unsigned first;
    uint64_t gained;
};

/* "the chunk with the lowest number that has a gap of at least n" */
static struct room find_pages(const struct pool *pool, unsigned pages, run_test *stands)
{
    struct room room = {false, 0, 0, 0};

    for (; room.chunk < pool->c; room.chunk++) {
        room.first = find_gap(&pool->chunks[room.chunk], pages, stands);
        room.found = room.first != 0;
        if (room.found)
            break;
    }
    return room;
}

/* Once more without the empty runs; all of them are swept where that helps. */
static struct room make_room(struct pool *pool, unsigned pages)
{
    struct room room = find_pages(pool, pages, is_any);

    if (room.found)
        return room;
    room = find_pages(pool, pages, is_in_use);
    if (room.found)
        room.gained = strike_empty_runs(pool);
    return room;
}

/* The lowest run of a class that has a free slot, or null. */
static struct pool_run *find_open_run(const struct pool *pool, unsigned b, size_t *chunk)
{
    for (size_t k = 0; k < pool->c; k++) {
        for (unsigned i = 0; i < pool->chunks[k].count; i++) {
            struct pool_run *run = pool->chunks[k].runs[i];
            if (run->kind == RUN_CLASS && run->class_number == b
                && run->taken_count < size_classes[b].slots) {
                *chunk = k;
                return run;
            }
        }
    }
    return NULL;
}

static struct pool_reserved refuse(uint64_t number)
{
    struct pool_reserved refused = {number, 0, 0, BLOCK_NOTHING, 0, 0, 0, 0, 0};
    return refused;
}

static struct pool_reserved reserve_slot(struct pool *pool, unsigned b)
{
    struct pool_reserved answer = refuse(0);
    size_t chunk;
    unsigned slot = 0;
    struct pool_run *run = find_open_run(pool, b, &chunk);

    if (run == NULL) {
        struct room room = make_room(pool, size_classes[b].pages);
        if (!room.found)
            return refuse(4);
        chunk = room.chunk;
        run = pool_put_class(pool, chunk, room.first, b);
        answer.gained = room.gained;
    }
    while (run->taken[slot])
        slot++;
    pool_take_slot(pool, chunk, run, slot);
    touch(pool, chunk, run);

    answer.place = run_place(chunk, run) + slot * size_classes[b].size;
    answer.size = size_classes[b].size;
    answer.kind = BLOCK_SLOT;
    answer.class_number = b;
    answer.first_page = run->first;
    answer.slot = slot;
    return answer;
}

static struct pool_reserved reserve_pages(struct pool *pool, unsigned pages)
{
    struct pool_reserved answer = refuse(0);
    struct room room = make_room(pool, pages);
    struct pool_run *run;

    if (!room.found)
        return refuse(4);
    run = pool_put_large(pool, room.chunk, room.first, pages);
    touch(pool, room.chunk, run);

    answer.place = run_place(room.chunk, run);
    answer.size = pages * PAGE_BYTES;
    answer.kind = BLOCK_RUN;
    answer.pages = pages;
    answer.gained = room.gained;
    return answer;
}

/* "size over 4,096, rounded up" */
static unsigned pages_of_size(uint64_t size)
{
    return (unsigned)((size + PAGE_BYTES - 1) / PAGE_BYTES);
}

/* Up to the largest size. */
static struct pool_reserved take_block(struct pool *pool, uint64_t size)
{
    if (size <= LARGEST_SMALL)
        return reserve_slot(pool, class_of_size(size));
    return reserve_pages(pool, pages_of_size(size));
}

struct pool_reserved pool_reserve(struct pool *pool, uint64_t size)
{
    pool_untouch(pool);
    if (size > LARGEST)
        return refuse(3);
    return take_block(pool, size);
}

/* ---- Release and block size -------------------------------------------------- */

/* What starts at a place. */
struct start {
    uint64_t refusal; /* 0 for a live block, or 5 or 6 */
    size_t chunk;
    struct pool_run *run;
    unsigned slot; /* of a class run */
};

/* Is the start of a slot of this run so many bytes behind the run's start? */
static bool slot_starts(const struct pool_run *run, uint64_t offset)
{
    const struct size_class *row = &size_classes[run->class_number];

    return offset % row->size == 0 && offset / row->size < row->slots;
}

static struct start find_start(const struct pool *pool, uint64_t place)
{
    struct start start = {5, 0, NULL, 0};

    if (place >= pool->c * CHUNK_BYTES)
        return start;
    start.chunk = (size_t)(place / CHUNK_BYTES);
    for (unsigned i = 0; i < pool->chunks[start.chunk].count; i++) {
        struct pool_run *run = pool->chunks[start.chunk].runs[i];
        uint64_t from = run_place(start.chunk, run);
        if (place < from || place >= from + run->pages * PAGE_BYTES)
            continue;
        start.run = run;
        if (run->kind == RUN_LARGE) {
            start.refusal = place == from ? 0 : 5;
        } else if (slot_starts(run, place - from)) {
            start.slot = (unsigned)((place - from) / size_classes[run->class_number].size);
            start.refusal = run->taken[start.slot] ? 0 : 6;
        }
    }
    return start;
}

static void give_back(struct pool *pool, const struct start *start, uint64_t place)
{
    touch(pool, start->chunk, start->run);
    book_take(&pool->live, place);
    if (start->run->kind == RUN_LARGE) {
        remove_run(&pool->chunks[start->chunk], start->run);
    } else {
        start->run->taken[start->slot] = false; /* the run stays, empty or not, until a sweep */
        start->run->taken_count--;
    }
}

uint64_t pool_release(struct pool *pool, uint64_t place)
{
    struct start start = find_start(pool, place);

    pool_untouch(pool);
    if (start.refusal == 0)
        give_back(pool, &start, place);
    return start.refusal;
}

/* Of the block that starts there. */
static uint64_t start_size(const struct start *start)
{
    if (start->run->kind == RUN_LARGE)
        return start->run->pages * PAGE_BYTES;
    return size_classes[start->run->class_number].size;
}

struct pool_sized pool_block_size(const struct pool *pool, uint64_t place)
{
    struct start start = find_start(pool, place);
    struct pool_sized answer = {start.refusal, 0};

    if (start.refusal == 0)
        answer.size = start_size(&start);
    return answer;
}

/* ---- Resize ---------------------------------------------------------------------- */

/* It holds the size, and the class below does not. */
static bool slot_stays(const struct pool_run *run, uint64_t size)
{
    unsigned b = run->class_number;

    return size <= size_classes[b].size && (b == 0 || size > size_classes[b - 1].size);
}

/* The run behind this one in its chunk, or null. */
static const struct pool_run *run_behind(const struct pool_chunk *chunk, const struct pool_run *run)
{
    unsigned at = 0;

    while (chunk->runs[at] != run)
        at++;
    return at + 1 < chunk->count ? chunk->runs[at + 1] : NULL;
}

/* A large run may have all pages up to the next run, of whatever kind, or to the chunk's end. */
static unsigned most_pages(const struct pool *pool, const struct start *start)
{
    const struct pool_run *next = run_behind(&pool->chunks[start->chunk], start->run);

    return (next != NULL ? next->first : PAGES) - start->run->first;
}

unsigned pool_most_pages(const struct pool *pool, uint64_t place)
{
    struct start start = find_start(pool, place);

    if (start.refusal != 0 || start.run->kind != RUN_LARGE)
        return 0;
    return most_pages(pool, &start);
}

static struct pool_resized refuse_resize(uint64_t number)
{
    struct pool_resized refused = {number, 0, 0, RESIZED_NOTHING, 0, CHANGES, BAR_NONE, 0};
    return refused;
}

static struct pool_resized keep(uint64_t place, uint64_t size, enum change change)
{
    struct pool_resized kept = {0, place, size, RESIZED_KEPT, 0, change, BAR_NONE, 0};
    return kept;
}

/* The run gets so many pages: touched are all that it had or has. */
static struct pool_resized cut_anew(struct pool *pool, const struct start *start, uint64_t place,
                                    unsigned pages)
{
    struct pool_run *run = start->run;
    unsigned had = run->pages;

    if (pages == had)
        return keep(place, pages * PAGE_BYTES, RUN_STAYS);
    touch_pages(pool, start->chunk, run->first, pages > had ? pages : had);
    run->pages = pages;
    book_take(&pool->live, place);
    book_put(&pool->live, place, pages * PAGE_BYTES);
    return keep(place, pages * PAGE_BYTES, pages > had ? RUN_GROWS : RUN_SHRINKS);
}

/* Where a large run is asked to grow and cannot. */
static enum bar bar_of(const struct pool *pool, const struct start *start, uint64_t size)
{
    const struct pool_run *next = run_behind(&pool->chunks[start->chunk], start->run);

    if (start->run->kind != RUN_LARGE || size <= LARGEST_SMALL)
        return BAR_NONE;
    if (next == NULL)
        return BAR_CHUNK_END;
    return is_in_use(next) ? BAR_BLOCK : BAR_EMPTY_RUN;
}

/* "reserved while the old block is live": a sweep leaves its run alone. */
static struct pool_resized move(struct pool *pool, const struct start *start, uint64_t place,
                                uint64_t size)
{
    bool from_slot = start->run->kind == RUN_CLASS, to_slot = size <= LARGEST_SMALL;
    struct pool_resized moved = refuse_resize(0);
    struct pool_reserved block;

    moved.bar = bar_of(pool, start, size);
    block = take_block(pool, size);
    moved.refusal = block.refusal;
    if (block.refusal != 0)
        return moved;
    moved.place = block.place;
    moved.size = block.size;
    moved.how = RESIZED_MOVED;
    moved.copy = size < start_size(start) ? size : start_size(start);
    moved.gained = block.gained;
    if (from_slot)
        moved.change = to_slot ? SLOT_TO_SLOT : SLOT_TO_RUN;
    else
        moved.change = to_slot ? RUN_TO_SLOT : RUN_TO_RUN;
    give_back(pool, start, place);
    return moved;
}

struct pool_resized pool_resize(struct pool *pool, uint64_t place, uint64_t size)
{
    struct start start = find_start(pool, place);

    pool_untouch(pool);
    if (start.refusal != 0)
        return refuse_resize(start.refusal);
    if (size > LARGEST)
        return refuse_resize(3);
    if (start.run->kind == RUN_CLASS && slot_stays(start.run, size))
        return keep(place, start_size(&start), SLOT_STAYS);
    if (start.run->kind == RUN_LARGE && size > LARGEST_SMALL
        && pages_of_size(size) <= most_pages(pool, &start))
        return cut_anew(pool, &start, place, pages_of_size(size));
    return move(pool, &start, place, size);
}

void count_resize(struct resize_counts *counts, const struct pool *pool,
                  const struct pool_resized *answer)
{
    counts->answers[answer->refusal]++;
    counts->bars[answer->bar]++;
    if (answer->refusal == 0)
        counts->changes[answer->change]++;
    counts->swept += answer->gained > 0;
    counts->in_vain += answer->refusal == 4 && pool_empty_pages(pool) > 0;
}

void add_resizes(struct resize_counts *counts, const struct resize_counts *more)
{
    for (unsigned i = 0; i < CALL_ANSWERS; i++)
        counts->answers[i] += more->answers[i];
    for (unsigned i = 0; i < CHANGES; i++)
        counts->changes[i] += more->changes[i];
    for (unsigned i = 0; i < BARS; i++)
        counts->bars[i] += more->bars[i];
    counts->swept += more->swept;
    counts->in_vain += more->in_vain;
}

/* ---- Next, census and totals --------------------------------------------------- */

struct pool_found pool_next(const struct pool *pool, uint64_t place)
{
    const struct booked *block = book_from(&pool->live, place);
    struct pool_found found = {0, 0};

    if (block != NULL) {
        found.place = block->place;
        found.size = block->size;
    }
    return found;
}

/* "census buffer shorter than two words a live block" */
struct pool_counted pool_census(const struct pool *pool, uint64_t *room, size_t nroom)
{
    struct pool_counted short_room = {7, 0}, listed = {0, pool->live.count};

    if (nroom < 2 * pool->live.count)
        return short_room;
    book_copy(&pool->live, room);
    return listed;
}

/* What is left of a chunk between its runs, page 0 left out. */
static uint64_t gap_pages(const struct pool_chunk *chunk)
{
    unsigned behind = 1; /* the page behind the run before */
    uint64_t pages = 0;

    for (unsigned i = 0; i < chunk->count; i++) {
        pages += chunk->runs[i]->first - behind;
        behind = chunk->runs[i]->first + chunk->runs[i]->pages;
    }
    return pages + (PAGES - behind);
}

struct pool_summed pool_totals(const struct pool *pool)
{
    struct pool_summed totals = {pool->live.count, pool->live.bytes, 0};

    for (size_t k = 0; k < pool->c; k++)
        totals.free_pages += gap_pages(&pool->chunks[k]);
    return totals;
}

uint64_t pool_run_pages(const struct pool *pool)
{
    uint64_t pages = 0;

    for (size_t k = 0; k < pool->c; k++)
        for (unsigned i = 0; i < pool->chunks[k].count; i++)
            pages += pool->chunks[k].runs[i]->pages;
    return pages;
}

/* ---- The records --------------------------------------------------------------- */

static void write_run(const struct pool_run *run, struct chunk out)
{
    unsigned b = run->class_number;

    for (unsigned k = 0; k < run->pages; k++)
        set_page_bit(out, run->first + k, true);
    if (run->kind == RUN_LARGE) {
        out.words[run->first] = WORD_LARGE(run->pages);
        return;
    }
    out.words[run->first] = WORD_CLASS(b);
    for (unsigned k = 1; k < run->pages; k++)
        out.words[run->first + k] = WORD_INNER(k, b);
    for (unsigned s = 0; s < size_classes[b].slots; s++)
        if (run->taken[s])
            set_slot_bit(out, run->first, s);
}

void pool_write(const struct pool *pool, struct records *out)
{
    for (size_t k = 0; k < pool->c; k++) {
        struct chunk chunk = chunk_of(out, k);
        chunk_wipe(chunk);
        set_page_bit(chunk, 0, true);
        chunk.words[0] = WORD_PAGE_0;
        for (unsigned i = 0; i < pool->chunks[k].count; i++)
            write_run(pool->chunks[k].runs[i], chunk);
    }
}

/* The pages are those of one run, which is still there, perhaps shorter, or has been released. */
static void write_stretch(const struct pool *pool, const struct stretch *stretch,
                          struct records *out)
{
    const struct pool_chunk *chunk = &pool->chunks[stretch->chunk];

    wipe_pages(chunk_of(out, stretch->chunk), stretch->first, stretch->pages);
    for (unsigned i = 0; i < chunk->count; i++)
        if (chunk->runs[i]->first == stretch->first)
            write_run(chunk->runs[i], chunk_of(out, stretch->chunk));
}

void pool_write_touched(const struct pool *pool, struct records *out)
{
    if (pool->touched.anywhere) {
        pool_write(pool, out);
        return;
    }
    for (unsigned i = 0; i < pool->touched.count; i++)
        write_stretch(pool, &pool->touched.stretches[i], out);
}
