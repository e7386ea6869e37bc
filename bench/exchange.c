/*
 * How long do import and export take, against a plain parser and printer of the
 * same text (scribe.h), and how long does an append take by the fields of its log
 * so far? All are timed in turn in one run; of each the shortest time counts.
 */
#include "clock.h"
#include "lensember.h"
#include "scribe.h"

#include <stdio.h>
#include <stdlib.h>
#include <string.h>

enum { TEXT_BYTES = 1 << 20, ROUNDS = 31 };

/* A kind of text: one number in two is from low to high, the others from low to most. */
struct kind {
    const char *name;
    uint64_t low, high, most;
};

static const struct kind kinds[] = {
    {"small numbers, to 3,999", 0, 3999, 3999},
    {"mixed numbers, to 33,554,431", 0, 3999, 33554431},
    {"ten digits", 1000000000, 4294967295, 4294967295},
};

static uint8_t text[TEXT_BYTES + 32];
static size_t ntext;
static uint8_t log_bytes[LENSEMBER_IMPORT_ROOM(sizeof text)];
static size_t nlog;
static uint8_t out[LENSEMBER_IMPORT_ROOM(sizeof text) + sizeof text]; /* a log or a text */

static void write_text(const struct kind *kind)
{
    draw_begin();
    ntext = (size_t)sprintf((char *)text, "pool 16\n");
    while (ntext < TEXT_BYTES) {
        uint64_t number = draw(kind->low, draw(0, 1) ? kind->high : kind->most);
        ntext += (size_t)sprintf((char *)text + ntext, "%c%u\n", draw(0, 1) ? '+' : '-',
                                 (unsigned)number);
    }
}

/* ---- What is timed --------------------------------------------------------- */

static size_t import(void)
{
    return (size_t)lensember_import(text, ntext, out, sizeof out).length;
}

static size_t plain_import(void)
{
    return scribe_import(text, ntext, out, sizeof out);
}

static size_t export(void)
{
    return (size_t)lensember_export(log_bytes, nlog, out, sizeof out).length;
}

static size_t plain_export(void)
{
    return scribe_export(log_bytes, nlog, out, sizeof out);
}

/* The end field, written where it stands. */
static size_t append(void)
{
    return (size_t)lensember_append(log_bytes, nlog, nlog - 3, LENSEMBER_END, 0, 0).length;
}

static size_t (*const timed[])(void) = {import, plain_import, export, plain_export, append};
enum { TIMED = sizeof timed / sizeof timed[0] };

/* Both ways make the same log, and the same text of it. */
static void compare(void)
{
    nlog = import();
    memcpy(log_bytes, out, nlog);
    if (nlog == 0 || plain_import() != nlog || memcmp(out, log_bytes, nlog) != 0
        || export() != ntext || memcmp(out, text, ntext) != 0
        || plain_export() != ntext || memcmp(out, text, ntext) != 0 || append() != nlog) {
        fprintf(stderr, "exchange: the two ways differ\n");
        exit(2);
    }
}

static void time_all(double best[TIMED])
{
    for (unsigned n = 0; n < TIMED; n++)
        best[n] = 1e9;
    for (unsigned i = 0; i < ROUNDS; i++) {
        for (unsigned n = 0; n < TIMED; n++) {
            double start = seconds_now();
            timed[n]();
            keep_shortest(&best[n], start);
        }
    }
}

/* Megabytes of text a second of both, and how many times the plain one's time the library takes. */
static double print_pair(const double best[2])
{
    double bytes = (double)ntext * 1e-6;

    printf(" %7.0f %7.0f %5.2f", bytes / best[0], bytes / best[1], best[0] / best[1]);
    return best[0] / best[1];
}

int main(void)
{
    double highest = 0, best[TIMED];

    printf("%-30s  import   plain ratio  export   plain ratio  append\n", "text");
    for (size_t k = 0; k < sizeof kinds / sizeof kinds[0]; k++) {
        write_text(&kinds[k]);
        compare();
        time_all(best);
        printf("%-30s", kinds[k].name);
        for (unsigned n = 0; n < 4; n += 2) {
            double ratio = print_pair(best + n);
            if (ratio > highest)
                highest = ratio;
        }
        printf(" %7.2f\n", best[4] / (double)(nlog / 7) * 1e9);
    }
    printf("megabytes of text a second; append: nanoseconds a field of the log so far;\n"
           "highest ratio %.2f, which is to be at most 2.00\n", highest);
    return 0;
}
