/*
 * An independent reading of RULES 7.4 and 9.5 to 9.7: a field that is written
 * behind a log so far, the vendor's text, and what one becomes as the other.
 *
 * A log is a list of entries here, and so is a text. A log is read byte by byte
 * by an automaton that never looks ahead. A line is not taken apart by its
 * digits: it is a good one exactly when it is what printf writes for the number
 * that strtoull reads in it. Bytes of numbers are written and read as pairs of
 * hexadecimal digits.
 */
#ifndef EXCHANGE_H
#define EXCHANGE_H

#include <stdbool.h>
#include <stddef.h>
#include <stdint.h>

/* A field, with its numbers in the order of its body. */
struct entry {
    unsigned tag;
    uint64_t numbers[2];
};

/* Starts as zero. */
struct entries {
    size_t count, space;
    struct entry *list;
};

/* What the model writes. Starts as zero. */
struct writing {
    size_t length, space;
    uint8_t *bytes;
};

void entries_free(struct entries *entries);
void writing_free(struct writing *writing);

/* Any bytes; those of a field; the line of a field that has one. */
void write_bytes(struct writing *writing, const void *bytes, size_t count);
void write_field(struct writing *log, const struct entry *entry);
void write_line(struct writing *text, const struct entry *entry);

/* How a log reads, from its first byte on: the good whole fields in turn. */
struct reading {
    uint64_t refusal; /* of the whole log: 0, 8 or 9 */
    size_t good;      /* bytes of these fields: so where it is refused */
    struct entries fields;
};

struct reading read_log(const uint8_t *log, size_t nlog);

/* The answer of a call, and the bytes that it writes. */
struct exchanged {
    uint64_t refusal;
    uint64_t where;  /* the line of an import, the position of an export */
    uint64_t length; /* as it is answered */
    struct writing out;
};

struct exchanged model_append(const uint8_t *log, size_t nlog, uint64_t length, uint64_t tag,
                              uint64_t first, uint64_t second);
struct exchanged model_import(const uint8_t *text, size_t ntext, size_t nlog);
struct exchanged model_export(const uint8_t *log, size_t nlog, size_t ntext);

#endif
