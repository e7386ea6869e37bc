/*
 * A reader of XML: elements, quoted attributes that are not empty, and text in
 * elements that hold nothing else. That is all a drawn pool needs; whatever
 * else XML knows is wrong here.
 */
#ifndef MARKUP_H
#define MARKUP_H

#include <stdbool.h>
#include <stddef.h>

enum { MOST_ELEMENTS = 2048, MOST_ATTRIBUTES = 8 };

/* Bytes of what was read, which has to stay. */
struct slice {
    const char *bytes;
    size_t length;
};

bool slice_is(struct slice slice, const char *word);
bool slices_equal(struct slice a, struct slice b);
bool slice_has(struct slice slice, const char *word);

/* What lies behind the first place of the word; empty if it has none. */
struct slice slice_behind(struct slice slice, const char *word);

/* What lies before the first of the marks; all of it if it has none. */
struct slice slice_until(struct slice slice, const char *marks);

/* Take the word, or a number of up to nine digits, off its front; false if it is not there. */
bool slice_takes(struct slice *slice, const char *word);
bool slice_takes_number(struct slice *slice, long *number);

struct attribute {
    struct slice name, value;
};

struct element {
    struct slice name;
    struct element *parent; /* null: this is the root */
    size_t count;
    struct attribute attributes[MOST_ATTRIBUTES];
    struct slice text; /* empty if it is blank */
};

struct markup {
    size_t count;
    struct element elements[MOST_ELEMENTS]; /* by rising start */
    const char *wrong;                      /* null: it is well-formed */
    size_t wrong_at;
};

void markup_read(struct markup *markup, const char *bytes, size_t length);

/* Empty if there is no such attribute. */
struct slice attribute_of(const struct element *element, const char *name);

#endif
