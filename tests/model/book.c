#include "book.h"

#include "memory.h"

#include <inttypes.h>
#include <stdio.h>
#include <stdlib.h>
#include <string.h>

/* Half a mebibyte of the pool each; a place behind the last is no block's. */
#define SHEET_BYTES (UINT64_C(1) << 19)

static struct book_sheet *sheet_of(struct book *book, uint64_t place)
{
    if (place >= BOOK_SHEETS * SHEET_BYTES) {
        fprintf(stderr, "book: no pool has a block at %" PRIu64 "\n", place);
        exit(2);
    }
    return &book->sheets[place / SHEET_BYTES];
}

/* How many blocks of a sheet lie below a place. */
static size_t count_below(const struct book_sheet *sheet, uint64_t place)
{
    size_t low = 0, high = sheet->count;

    if (high > 0 && sheet->blocks[high - 1].place < place)
        return high; /* most are put in by rising place */
    while (low < high) {
        size_t middle = low + (high - low) / 2;
        if (sheet->blocks[middle].place < place)
            low = middle + 1;
        else
            high = middle;
    }
    return low;
}

static void make_space(struct book_sheet *sheet)
{
    if (sheet->count < sheet->space)
        return;
    sheet->space = sheet->space == 0 ? 16 : 2 * sheet->space;
    sheet->blocks = grown(sheet->blocks, sheet->space * sizeof *sheet->blocks);
}

void book_put(struct book *book, uint64_t place, uint64_t size)
{
    struct book_sheet *sheet = sheet_of(book, place);
    size_t at = count_below(sheet, place);
    struct booked block = {place, size};

    make_space(sheet);
    memmove(sheet->blocks + at + 1, sheet->blocks + at,
            (sheet->count - at) * sizeof *sheet->blocks);
    sheet->blocks[at] = block;
    sheet->count++;
    book->count++;
    book->bytes += size;
}

void book_take(struct book *book, uint64_t place)
{
    struct book_sheet *sheet = sheet_of(book, place);
    size_t at = count_below(sheet, place);

    if (at == sheet->count || sheet->blocks[at].place != place) {
        fprintf(stderr, "book: there is no block at %" PRIu64 "\n", place);
        exit(2);
    }
    book->bytes -= sheet->blocks[at].size;
    book->count--;
    sheet->count--;
    memmove(sheet->blocks + at, sheet->blocks + at + 1,
            (sheet->count - at) * sizeof *sheet->blocks);
}

void book_clear(struct book *book)
{
    for (size_t i = 0; i < BOOK_SHEETS; i++)
        free(book->sheets[i].blocks);
    memset(book, 0, sizeof *book);
}

const struct booked *book_from(const struct book *book, uint64_t place)
{
    for (uint64_t i = place / SHEET_BYTES; i < BOOK_SHEETS; i++) {
        const struct book_sheet *sheet = &book->sheets[i];
        size_t at = count_below(sheet, place);
        if (at < sheet->count)
            return &sheet->blocks[at];
    }
    return NULL;
}

const struct booked *book_at(const struct book *book, unsigned long number)
{
    for (size_t i = 0; i < BOOK_SHEETS; i++) {
        if (number < book->sheets[i].count)
            return &book->sheets[i].blocks[number];
        number -= book->sheets[i].count;
    }
    return NULL;
}

void book_copy(const struct book *book, uint64_t *out)
{
    for (size_t i = 0; i < BOOK_SHEETS; i++) {
        for (size_t n = 0; n < book->sheets[i].count; n++) {
            *out++ = book->sheets[i].blocks[n].place;
            *out++ = book->sheets[i].blocks[n].size;
        }
    }
}
