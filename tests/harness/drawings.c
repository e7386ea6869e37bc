#include "drawings.h"

#include "child.h"
#include "groups.h"
#include "markup.h"

#include <inttypes.h>
#include <stdio.h>
#include <string.h>

enum { ROW = 64, TENTHS = 10 };

/* How many tenths of a class run's slots are taken, rounded down. */
static unsigned full_tenths(const struct pool_run *run)
{
    unsigned slots = size_classes[run->class_number].slots, tenths = 0;

    while ((tenths + 1) * slots <= TENTHS * run->taken_count)
        tenths++;
    return tenths;
}

/* ---- The map -------------------------------------------------------------------- */

static char run_mark(const struct pool_run *run)
{
    return run->kind == RUN_LARGE ? 'L' : "0123456789X"[full_tenths(run)];
}

static void mark_pages(const struct pool_chunk *chunk, char marks[PAGES])
{
    memset(marks, '.', PAGES);
    marks[0] = '@';
    for (unsigned i = 0; i < chunk->count; i++) {
        const struct pool_run *run = chunk->runs[i];
        memset(marks + run->first, '=', run->pages);
        marks[run->first] = run_mark(run);
    }
}

void expect_map(const struct pool *pool, size_t nlog)
{
    char marks[PAGES], map[2 * PAGES];
    struct pool_summed totals = pool_totals(pool);
    int length = sprintf(map, "chunk 0\n");

    mark_pages(&pool->chunks[0], marks);
    for (unsigned row = 0; row < PAGES / ROW; row++)
        length += sprintf(map + length, "%.*s\n", ROW, marks + row * ROW);
    length += sprintf(map + length,
                      "@ page 0  . free  L large run  = run goes on\n"
                      "0-9 class run, tenths of its slots taken  X all of them\n"
                      "live %" PRIu64 " bytes %" PRIu64 " free pages %" PRIu64 "\n",
                      totals.blocks, totals.bytes, totals.free_pages);
    expect_written(map, (size_t)length, nlog);
}

/* ---- What a picture has --------------------------------------------------------------- */

/* What a fill says. The first four are said of a page, the last of slots. */
enum meaning { PAGE_0, FREE, LARGE, CLASS, TAKEN, MEANINGS };

/* What is drawn of one page, in this order; bar and label may be null. */
struct drawn {
    const struct element *box, *bar, *label;
};

struct box {
    long x, y, width, height;
};

struct picture {
    size_t nlog;
    const struct element *root, *style, *paper, *heading, *legend; /* null: there is none */
    struct slice fills[MEANINGS];
    size_t count;
    struct drawn pages[PAGES];
    struct box boxes[PAGES];
};

static struct markup markup;

static bool is_a(const struct element *element, const char *name)
{
    return slice_is(element->name, name);
}

/* A length that is left out is 0 in SVG. */
static long number_in(const struct picture *picture, const struct element *element,
                      const char *name)
{
    struct slice value = attribute_of(element, name), rest = value;
    long number = 0;

    if (value.length > 0)
        expect(slice_takes_number(&rest, &number) && rest.length == 0,
               "log of %zu bytes: %s=\"%.*s\"", picture->nlog, name, (int)value.length,
               value.bytes);
    return number;
}

static struct box box_in(const struct picture *picture, const struct element *rect)
{
    struct box box;

    box.x = number_in(picture, rect, "x");
    box.y = number_in(picture, rect, "y");
    box.width = number_in(picture, rect, "width");
    box.height = number_in(picture, rect, "height");
    return box;
}

static long right(struct box box)
{
    return box.x + box.width;
}

static long lower(struct box box)
{
    return box.y + box.height;
}

/* What the style says of the element's class; empty if it says nothing. */
static struct slice styled(const struct picture *picture, const struct element *element,
                           const char *property)
{
    struct slice class = attribute_of(element, "class"), rule;
    char selector[16];

    snprintf(selector, sizeof selector, ".%.*s{", (int)class.length, class.bytes);
    rule = slice_until(slice_behind(picture->style->text, selector), "}");
    return slice_until(slice_behind(rule, property), ";");
}

static struct slice fill_of(const struct picture *picture, const struct element *rect)
{
    return styled(picture, rect, "fill:");
}

static const struct element *element_named(const char *name)
{
    for (size_t i = 0; i < markup.count; i++)
        if (is_a(&markup.elements[i], name))
            return &markup.elements[i];
    return NULL;
}

/* ---- The legend ----------------------------------------------------------------------- */

/* The words behind a box tell its fill; before those of class runs, a bar stands in the box. */
static const struct {
    const char *words;
    unsigned boxes_back;
} told[MEANINGS] = {
    {"page 0", 1}, {"free", 1}, {"large run", 1}, {"class runs", 2}, {"class runs", 1},
};

static const struct element *legend_text(const struct picture *picture, const char *words)
{
    for (size_t i = 0; i < markup.count; i++) {
        const struct element *element = &markup.elements[i];
        if (element->parent == picture->legend && is_a(element, "text")
            && slice_has(element->text, words))
            return element;
    }
    return NULL;
}

/* So many rects back from an element of the legend, or null. */
static const struct element *rect_before(const struct element *element, unsigned back)
{
    const struct element *legend = element->parent;

    while (back > 0 && --element > legend)
        back -= is_a(element, "rect");
    return back == 0 ? element : NULL;
}

static struct slice told_fill(const struct picture *picture, enum meaning meaning)
{
    const struct element *words = legend_text(picture, told[meaning].words);
    const struct element *rect =
        words == NULL ? NULL : rect_before(words, told[meaning].boxes_back);
    struct slice none = {"", 0};

    return rect == NULL ? none : fill_of(picture, rect);
}

static void read_fills(struct picture *picture)
{
    for (unsigned m = 0; m < MEANINGS; m++) {
        picture->fills[m] = told_fill(picture, m);
        expect(picture->fills[m].length > 0, "log of %zu bytes: no fill for '%s'", picture->nlog,
               told[m].words);
        for (unsigned other = 0; other < m; other++)
            expect(!slices_equal(picture->fills[m], picture->fills[other]),
                   "log of %zu bytes: one fill for '%s' and '%s'", picture->nlog, told[m].words,
                   told[other].words);
    }
}

static void expect_totals(const struct picture *picture, const struct pool *pool)
{
    struct pool_summed totals = pool_totals(pool);
    const struct element *text = legend_text(picture, "live blocks");
    struct slice none = {"", 0}, line = text == NULL ? none : text->text, rest = line;
    long blocks, bytes, pages;

    expect(slice_takes_number(&rest, &blocks) && slice_takes(&rest, " live blocks, ")
               && slice_takes_number(&rest, &bytes) && slice_takes(&rest, " bytes given, ")
               && slice_takes_number(&rest, &pages) && slice_is(rest, " free pages")
               && (uint64_t)blocks == totals.blocks && (uint64_t)bytes == totals.bytes
               && (uint64_t)pages == totals.free_pages,
           "log of %zu bytes: totals '%.*s', expected %" PRIu64 ", %" PRIu64 ", %" PRIu64,
           picture->nlog, (int)line.length, line.bytes, totals.blocks, totals.bytes,
           totals.free_pages);
}

/* ---- Vocabulary ------------------------------------------------------------------------ */

/* Any other word could change what is seen. */
static const struct {
    const char *name;
    const char *attributes[5];
} vocabulary[] = {
    {"svg", {"xmlns", "width", "height", "viewBox", NULL}},
    {"style", {NULL, NULL, NULL, NULL, NULL}},
    {"rect", {"class", "x", "y", "width", "height"}},
    {"text", {"class", "x", "y", NULL, NULL}},
    {"g", {"transform", NULL, NULL, NULL, NULL}},
};

static bool has_only(const struct element *element, const char *const *names, size_t count)
{
    size_t known = 0;

    for (size_t i = 0; i < count && names[i] != NULL; i++)
        known += attribute_of(element, names[i]).length > 0;
    return known == element->count;
}

static bool is_known(const struct element *element)
{
    for (size_t i = 0; i < COUNT(vocabulary); i++)
        if (is_a(element, vocabulary[i].name))
            return has_only(element, vocabulary[i].attributes, COUNT(vocabulary[i].attributes));
    return false;
}

/* ---- Collecting ------------------------------------------------------------------------ */

static struct drawn *last_page(struct picture *picture)
{
    return picture->count > 0 ? &picture->pages[picture->count - 1] : NULL;
}

static bool collect_box(struct picture *picture, const struct element *rect)
{
    struct drawn drawn = {rect, NULL, NULL};

    if (picture->count == PAGES)
        return false;
    picture->boxes[picture->count] = box_in(picture, rect);
    picture->pages[picture->count++] = drawn;
    return true;
}

/* On the box before it, and below the label. */
static bool collect_bar(struct picture *picture, const struct element *rect)
{
    struct drawn *page = last_page(picture);

    if (page == NULL || page->bar != NULL || page->label != NULL)
        return false;
    page->bar = rect;
    return true;
}

/* The paper lies below all others. */
static bool collect_rect(struct picture *picture, const struct element *rect)
{
    if (picture->paper == NULL) {
        picture->paper = rect;
        return picture->heading == NULL;
    }
    if (slices_equal(fill_of(picture, rect), picture->fills[TAKEN]))
        return collect_bar(picture, rect);
    return collect_box(picture, rect);
}

/* Before the boxes the chunk's number, on a box its label. */
static bool collect_text(struct picture *picture, const struct element *text)
{
    struct drawn *page = last_page(picture);
    const struct element **place = page == NULL ? &picture->heading : &page->label;

    if (*place != NULL)
        return false;
    *place = text;
    return true;
}

static bool collect(struct picture *picture, const struct element *element)
{
    if (!is_known(element))
        return false;
    if (element == picture->root || element == picture->style || element == picture->legend
        || element->parent == picture->legend)
        return true;
    if (element->parent != picture->root)
        return false;
    if (is_a(element, "rect"))
        return collect_rect(picture, element);
    return is_a(element, "text") && collect_text(picture, element);
}

static void collect_all(struct picture *picture)
{
    for (size_t i = 0; i < markup.count; i++)
        expect(collect(picture, &markup.elements[i]),
               "log of %zu bytes: element %zu, a %.*s, does not belong behind %zu boxes",
               picture->nlog, i, (int)markup.elements[i].name.length,
               markup.elements[i].name.bytes, picture->count);
    expect(picture->count == PAGES, "log of %zu bytes: %zu boxes", picture->nlog, picture->count);
}

/* ---- Pages ----------------------------------------------------------------------------- */

/* The run that each page belongs to, or null. */
static void find_owners(const struct pool_chunk *chunk, const struct pool_run *owners[PAGES])
{
    for (unsigned page = 0; page < PAGES; page++)
        owners[page] = NULL;
    for (unsigned i = 0; i < chunk->count; i++)
        for (unsigned k = 0; k < chunk->runs[i]->pages; k++)
            owners[chunk->runs[i]->first + k] = chunk->runs[i];
}

static enum meaning page_meaning(unsigned page, const struct pool_run *owner)
{
    if (owner == NULL)
        return page == 0 ? PAGE_0 : FREE;
    return owner->kind == RUN_LARGE ? LARGE : CLASS;
}

static void expect_fill(const struct picture *picture, unsigned page, const struct pool_run *owner)
{
    struct slice fill = fill_of(picture, picture->pages[page].box);
    enum meaning meaning = page_meaning(page, owner);

    expect(slices_equal(fill, picture->fills[meaning]),
           "log of %zu bytes: page %u is filled %.*s, not as '%s'", picture->nlog, page,
           (int)fill.length, fill.bytes, told[meaning].words);
}

/*
 * A box stands apart from the one before, as wide as page 0's. One that goes on
 * with a run reaches back to where the box before ends, or would end if there
 * were one in its row. The steps of the grid are those from page 0's box to its
 * neighbours.
 */
static struct box expected_box(const struct picture *picture, unsigned page, bool joined)
{
    struct box first = picture->boxes[0], box = first;
    long across = right(picture->boxes[1]) - right(first);
    long down = picture->boxes[ROW].y - first.y;

    if (joined)
        box.width = across;
    box.x = right(first) + across * (long)(page % ROW) - box.width;
    box.y = first.y + down * (long)(page / ROW);
    return box;
}

static bool boxes_equal(struct box a, struct box b)
{
    return a.x == b.x && a.y == b.y && a.width == b.width && a.height == b.height;
}

static void expect_box(const struct picture *picture, unsigned page, const struct pool_run *owner)
{
    struct box box = picture->boxes[page];
    bool joined = owner != NULL && page != owner->first;

    expect(boxes_equal(box, expected_box(picture, page, joined)),
           "log of %zu bytes: box of page %u, %s, is %ld by %ld at %ld, %ld", picture->nlog, page,
           joined ? "joined" : "not joined", box.width, box.height, box.x, box.y);
}

/* As many tenths of the box as the run is full, from below. */
static void expect_bar(const struct picture *picture, unsigned page, const struct pool_run *owner)
{
    const struct element *bar = picture->pages[page].bar;
    struct box box = picture->boxes[page], filled = {0, 0, 0, 0};
    long tenths = owner != NULL && owner->kind == RUN_CLASS ? (long)full_tenths(owner) : 0;

    expect((bar != NULL) == (tenths > 0), "log of %zu bytes: page %u with %ld tenths has %s bar",
           picture->nlog, page, tenths, bar == NULL ? "no" : "a");
    if (bar == NULL)
        return;
    filled = box_in(picture, bar);
    expect(filled.x == box.x && filled.width == box.width && lower(filled) == lower(box)
               && TENTHS * filled.height == tenths * box.height,
           "log of %zu bytes: bar of page %u, %ld tenths, is %ld by %ld at %ld, %ld", picture->nlog,
           page, tenths, filled.width, filled.height, filled.x, filled.y);
}

/* A run is labelled in its first box. */
static void expect_label(const struct picture *picture, unsigned page, const struct pool_run *owner)
{
    const struct element *label = picture->pages[page].label;
    struct box box = picture->boxes[page];
    struct slice text;
    long number, x, y, expected;

    expect((label != NULL) == (owner != NULL && owner->first == page),
           "log of %zu bytes: page %u has %s label", picture->nlog, page,
           label == NULL ? "no" : "a");
    if (label == NULL || owner == NULL)
        return;
    text = label->text;
    expected = (long)(owner->kind == RUN_LARGE ? owner->pages
                                               : size_classes[owner->class_number].size);
    expect(slice_takes_number(&text, &number) && text.length == 0 && number == expected,
           "log of %zu bytes: label '%.*s' of page %u, expected %ld", picture->nlog,
           (int)label->text.length, label->text.bytes, page, expected);
    x = number_in(picture, label, "x");
    y = number_in(picture, label, "y");
    expect(x >= box.x && x < right(box) && y > box.y && y <= lower(box)
               && styled(picture, label, "font:").length > 0,
           "log of %zu bytes: label of page %u at %ld, %ld or without a font", picture->nlog, page,
           x, y);
}

static void expect_pages(const struct picture *picture, const struct pool *pool)
{
    const struct pool_run *owners[PAGES];

    find_owners(&pool->chunks[0], owners);
    for (unsigned page = 0; page < PAGES; page++) {
        expect_fill(picture, page, owners[page]);
        expect_box(picture, page, owners[page]);
        expect_bar(picture, page, owners[page]);
        expect_label(picture, page, owners[page]);
    }
}

/* ---- The whole picture -------------------------------------------------------------------- */

/* The grid's steps leave space between boxes that are not joined, and between rows. */
static void expect_grid(const struct picture *picture)
{
    struct box first = picture->boxes[0];

    expect(first.width > 0 && first.height > 0 && right(first) < picture->boxes[1].x
               && lower(first) < picture->boxes[ROW].y,
           "log of %zu bytes: boxes of pages 0, 1 and %d overlap", picture->nlog, (int)ROW);
}

/* Where the legend begins, and the lowest line or box of it. */
static void legend_ends(const struct picture *picture, struct box *ends)
{
    struct slice move = attribute_of(picture->legend, "transform"), rest = move;

    memset(ends, 0, sizeof *ends);
    expect(slice_takes(&rest, "translate(") && slice_takes_number(&rest, &ends->x)
               && slice_takes(&rest, " ") && slice_takes_number(&rest, &ends->y)
               && slice_is(rest, ")"),
           "log of %zu bytes: legend's transform=\"%.*s\"", picture->nlog, (int)move.length,
           move.bytes);
    for (size_t i = 0; i < markup.count; i++)
        if (markup.elements[i].parent == picture->legend
            && lower(box_in(picture, &markup.elements[i])) > ends->height)
            ends->height = lower(box_in(picture, &markup.elements[i]));
}

/* "0 0 WIDTH HEIGHT", so that a unit of the picture is a pixel */
static void expect_view(const struct picture *picture, long width, long height)
{
    struct slice view = attribute_of(picture->root, "viewBox"), rest = view;
    long view_width, view_height;

    expect(slice_takes(&rest, "0 0 ") && slice_takes_number(&rest, &view_width)
               && slice_takes(&rest, " ") && slice_takes_number(&rest, &view_height)
               && rest.length == 0 && view_width == width && view_height == height,
           "log of %zu bytes: viewBox=\"%.*s\", %ld by %ld", picture->nlog, (int)view.length,
           view.bytes, width, height);
}

/* It holds all boxes and the legend below them, and no more than a row lies below that. */
static void expect_size(const struct picture *picture)
{
    struct box legend, last = picture->boxes[PAGES - 1];
    long width = number_in(picture, picture->root, "width");
    long height = number_in(picture, picture->root, "height");
    long row = picture->boxes[ROW].y - picture->boxes[0].y;

    expect_view(picture, width, height);
    legend_ends(picture, &legend);
    expect(right(last) <= width && lower(last) < legend.y && lower(legend) <= height
               && height - lower(legend) < row,
           "log of %zu bytes: %ld by %ld, boxes to %ld, %ld, legend from %ld to %ld", picture->nlog,
           width, height, right(last), lower(last), legend.y, lower(legend));
}

static void expect_paper(const struct picture *picture)
{
    const struct element *paper = picture->paper;
    struct slice fill = fill_of(picture, paper);

    expect(slice_is(attribute_of(paper, "width"), "100%")
               && slice_is(attribute_of(paper, "height"), "100%") && fill.length > 0,
           "log of %zu bytes: the first rect is no paper", picture->nlog);
    for (unsigned m = 0; m < MEANINGS; m++)
        expect(!slices_equal(fill, picture->fills[m]),
               "log of %zu bytes: paper is filled as '%s'", picture->nlog, told[m].words);
}

static void expect_heading(const struct picture *picture)
{
    const struct element *heading = picture->heading;

    expect(heading != NULL && slice_is(heading->text, "chunk 0")
               && number_in(picture, heading, "y") < picture->boxes[0].y,
           "log of %zu bytes: no 'chunk 0' above the boxes", picture->nlog);
}

/* Answers whether there is a picture to look at. */
static bool open_picture(struct picture *picture, size_t nlog)
{
    memset(picture, 0, sizeof *picture);
    picture->nlog = nlog;
    markup_read(&markup, ran.out, ran.nout);
    expect(markup.wrong == NULL, "log of %zu bytes: not well-formed at %zu: %s", nlog,
           markup.wrong_at, markup.wrong);
    picture->root = element_named("svg");
    picture->style = element_named("style");
    picture->legend = element_named("g");
    if (markup.wrong != NULL)
        return false;
    expect(picture->root == &markup.elements[0] && picture->style != NULL && picture->legend != NULL
               && slice_is(attribute_of(picture->root, "xmlns"), "http://www.w3.org/2000/svg"),
           "log of %zu bytes: no SVG picture with a style and a legend", nlog);
    return picture->root != NULL && picture->style != NULL && picture->legend != NULL;
}

void expect_picture(const struct pool *pool, size_t nlog)
{
    static struct picture picture;

    if (!open_picture(&picture, nlog))
        return;
    read_fills(&picture);
    collect_all(&picture);
    if (picture.count < PAGES)
        return;
    expect_paper(&picture);
    expect_heading(&picture);
    expect_grid(&picture);
    expect_pages(&picture, pool);
    expect_size(&picture);
    expect_totals(&picture, pool);
}
