#include "markup.h"

#include <string.h>

/* ---- Slices -------------------------------------------------------------------- */

bool slices_equal(struct slice a, struct slice b)
{
    return a.length == b.length && (a.length == 0 || memcmp(a.bytes, b.bytes, a.length) == 0);
}

static struct slice slice_of(const char *bytes, size_t length)
{
    struct slice slice = {bytes, length};
    return slice;
}

bool slice_is(struct slice slice, const char *word)
{
    return slices_equal(slice, slice_of(word, strlen(word)));
}

static bool slice_starts(struct slice slice, const char *word)
{
    size_t length = strlen(word);

    return slice.length >= length && memcmp(slice.bytes, word, length) == 0;
}

static struct slice slice_from(struct slice slice, size_t start)
{
    return slice_of(slice.bytes + start, slice.length - start);
}

bool slice_takes(struct slice *slice, const char *word)
{
    bool there = slice_starts(*slice, word);

    if (there)
        *slice = slice_from(*slice, strlen(word));
    return there;
}

/* From the first place of the word on; empty if it has none. */
static struct slice seek(struct slice slice, const char *word)
{
    while (slice.length > 0 && !slice_starts(slice, word))
        slice = slice_from(slice, 1);
    return slice;
}

bool slice_has(struct slice slice, const char *word)
{
    return seek(slice, word).length > 0;
}

struct slice slice_behind(struct slice slice, const char *word)
{
    slice = seek(slice, word);
    slice_takes(&slice, word);
    return slice;
}

/* Also false for the zero byte, which strchr finds in every string. */
static bool is_one_of(char byte, const char *marks)
{
    return byte != '\0' && strchr(marks, byte) != NULL;
}

struct slice slice_until(struct slice slice, const char *marks)
{
    size_t length = 0;

    while (length < slice.length && !is_one_of(slice.bytes[length], marks))
        length++;
    return slice_of(slice.bytes, length);
}

/* How many of its first bytes are such marks. */
static size_t span_of(struct slice slice, const char *marks)
{
    size_t length = 0;

    while (length < slice.length && is_one_of(slice.bytes[length], marks))
        length++;
    return length;
}

bool slice_takes_number(struct slice *slice, long *number)
{
    size_t digits = span_of(*slice, "0123456789");

    *number = 0;
    if (digits == 0 || digits > 9)
        return false;
    for (size_t i = 0; i < digits; i++)
        *number = 10 * *number + (slice->bytes[i] - '0');
    *slice = slice_from(*slice, digits);
    return true;
}

/* ---- Elements ------------------------------------------------------------------ */

static const char blanks[] = " \t\n\r";
static const char name_marks[] =
    "abcdefghijklmnopqrstuvwxyzABCDEFGHIJKLMNOPQRSTUVWXYZ0123456789-_:";

struct reader {
    struct markup *markup;
    const char *start;
    struct slice rest;
    struct element *open; /* null: before or behind the root */
};

struct slice attribute_of(const struct element *element, const char *name)
{
    for (size_t i = 0; i < element->count; i++)
        if (slice_is(element->attributes[i].name, name))
            return element->attributes[i].value;
    return slice_of("", 0);
}

/* Only the first wrong thing counts, and nothing is read behind it. */
static void fail(struct reader *reader, const char *wrong)
{
    if (reader->markup->wrong != NULL)
        return;
    reader->markup->wrong = wrong;
    reader->markup->wrong_at = (size_t)(reader->rest.bytes - reader->start);
    reader->rest.length = 0;
}

static struct slice take(struct reader *reader, size_t length)
{
    struct slice taken = slice_of(reader->rest.bytes, length);

    reader->rest = slice_from(reader->rest, length);
    return taken;
}

static void need_word(struct reader *reader, const char *word, const char *wrong)
{
    if (!slice_takes(&reader->rest, word))
        fail(reader, wrong);
}

static struct slice take_while(struct reader *reader, const char *marks)
{
    return take(reader, span_of(reader->rest, marks));
}

static struct slice take_name(struct reader *reader)
{
    struct slice name = take_while(reader, name_marks);

    if (name.length == 0 || is_one_of(name.bytes[0], "0123456789-"))
        fail(reader, "no name");
    return name;
}

/* A drawn pool needs no entities, and no bytes but printable ASCII. */
static bool is_plain(char byte)
{
    return is_one_of(byte, blanks) || (byte >= ' ' && byte <= '~' && byte != '&');
}

static struct slice take_plain(struct reader *reader, const char *ends)
{
    struct slice plain = take(reader, slice_until(reader->rest, ends).length);

    for (size_t i = 0; i < plain.length; i++)
        if (!is_plain(plain.bytes[i]))
            fail(reader, "a byte that is not plain");
    return plain;
}

static bool has_attribute(const struct element *element, struct slice name)
{
    for (size_t i = 0; i < element->count; i++)
        if (slices_equal(element->attributes[i].name, name))
            return true;
    return false;
}

static void read_attribute(struct reader *reader, struct element *element)
{
    struct attribute attribute;

    attribute.name = take_name(reader);
    need_word(reader, "=", "an attribute without a value");
    need_word(reader, "\"", "a value that is not quoted");
    attribute.value = take_plain(reader, "\"<");
    need_word(reader, "\"", "a value that is not ended");
    if (attribute.value.length == 0)
        fail(reader, "an empty value");
    else if (has_attribute(element, attribute.name))
        fail(reader, "an attribute twice");
    else if (element->count == MOST_ATTRIBUTES)
        fail(reader, "too many attributes");
    else
        element->attributes[element->count++] = attribute;
}

static struct element *new_element(struct reader *reader)
{
    struct markup *markup = reader->markup;
    struct element *element = &markup->elements[markup->count];

    if (markup->count == MOST_ELEMENTS || (reader->open == NULL && markup->count > 0)
        || (reader->open != NULL && reader->open->text.length > 0)) {
        fail(reader, "an element that may not stand here");
        return NULL;
    }
    memset(element, 0, sizeof *element);
    element->parent = reader->open;
    markup->count++;
    return element;
}

static void read_start(struct reader *reader)
{
    struct element *element = new_element(reader);

    if (element == NULL)
        return;
    element->name = take_name(reader);
    while (take_while(reader, blanks).length > 0 && !slice_starts(reader->rest, ">")
           && !slice_starts(reader->rest, "/>"))
        read_attribute(reader, element);
    if (slice_takes(&reader->rest, "/>"))
        return;
    need_word(reader, ">", "a tag that is not ended");
    reader->open = element;
}

static void read_end(struct reader *reader)
{
    struct slice name = take_name(reader);

    if (reader->open == NULL || !slices_equal(name, reader->open->name)) {
        fail(reader, "an end of another element");
        return;
    }
    take_while(reader, blanks);
    need_word(reader, ">", "a tag that is not ended");
    reader->open = reader->open->parent;
}

/* Text is the first thing in its element, which must be the last that was started. */
static void read_text(struct reader *reader)
{
    struct markup *markup = reader->markup;
    struct slice text = take_plain(reader, "<");

    if (span_of(text, blanks) == text.length)
        return;
    if (reader->open == NULL || reader->open != &markup->elements[markup->count - 1])
        fail(reader, "text beside elements");
    else
        reader->open->text = text;
}

void markup_read(struct markup *markup, const char *bytes, size_t length)
{
    struct reader reader = {markup, bytes, slice_of(bytes, length), NULL};

    markup->count = 0;
    markup->wrong = NULL;
    while (reader.rest.length > 0) {
        if (slice_takes(&reader.rest, "</"))
            read_end(&reader);
        else if (slice_takes(&reader.rest, "<"))
            read_start(&reader);
        else
            read_text(&reader);
    }
    if (reader.open != NULL || markup->count == 0)
        fail(&reader, "an element that is not ended");
}
