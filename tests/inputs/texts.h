/* Vendor's texts to import (RULES 9.5): known ones, and drawn at random. */
#ifndef TEXTS_H
#define TEXTS_H

#include "exchange.h"

/* A text, and the line that is refused by hand's count; 0 where it is good. */
struct known_text {
    const char *name;
    const uint8_t *bytes;
    size_t length;
    uint64_t line;
};

/* The first is the sample (RULES 12.7). */
extern const struct known_text known_texts[];
extern const size_t known_text_count;

/*
 * Lines with their newlines that are bad wherever they stand behind the first
 * line, and first lines that are bad.
 */
struct known_line {
    const char *name;
    const char *bytes;
    size_t length;
};

extern const struct known_line bad_lines[], bad_first_lines[];
extern const size_t bad_line_count, bad_first_line_count;

/* A number of so many digits, 1 to 10, at most 4,294,967,295; often the least or greatest. */
uint64_t draw_number(unsigned digits);

/* Writes a good text of so many lines, at least one, in place of what stands there. */
void draw_text(struct writing *text, unsigned lines);

/* The same as a log, without resizes; with so many fields between start and end. */
void draw_log(struct writing *log, unsigned fields);

#endif
