/*
 * Every way in which RULES 3.5, "Sound records", can be broken, each by
 * name and each done to one page of one chunk at a time.
 */
#ifndef CASES_H
#define CASES_H

#include "records.h"

/* What a page of a sound chunk is; a case names those it applies to. */
enum page_kind {
    AT_PAGE_0 = 1,
    AT_FREE = 2,
    AT_LARGE_FIRST = 4,
    AT_LARGE_INNER = 8,
    AT_CLASS_FIRST = 16,
    AT_CLASS_INNER = 32
};

struct page_view {
    enum page_kind kind;
    const struct run *run; /* null outside runs */
    unsigned offset;       /* from the run's first page */
};

/* The chunk to be damaged, as it was before, and the chunk behind it. */
struct site {
    struct chunk here;
    bool has_next;
    struct chunk next;
    struct run_list runs;
    struct page_view pages[PAGES];
};

/* Reads the sound chunk of that number of a pool. */
void site_read(struct site *site, const struct records *r, size_t chunk);

struct damage_case {
    const char *name;
    unsigned where;    /* a sum of page kinds */
    unsigned variants; /* ways to do it at one page */
    /* Does it; false, with nothing changed, where that variant is no damage. */
    bool (*apply)(struct site *site, unsigned page, unsigned variant);
};

extern const struct damage_case damage_cases[];
extern const size_t damage_case_count;

#endif
