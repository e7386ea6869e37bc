/*
 * An independent reading of RULES 3, "Records".
 *
 * Records are sound exactly when they are what somebody would write down for
 * some list of runs. So the check does not follow the pages: it collects every
 * page word that claims to start a run, writes the records of that list from
 * scratch, and compares them with what was lent.
 *
 * All numbers are typed in from the rules, none comes from the library.
 */
#ifndef RECORDS_H
#define RECORDS_H

#include <stdbool.h>
#include <stddef.h>
#include <stdint.h>

enum {
    PAGES = 512,         /* pages and page words of a chunk */
    BIT_WORDS = 8,       /* page-bit words of a chunk */
    PAGE_SLOT_WORDS = 8, /* slot-bit words of a page */
    PAGE_SLOT_BITS = 512,
    SLOT_WORDS = 4096, /* slot-bit words of a chunk */
    CLASSES = 30,
    MAX_CHUNKS = 16
};

/* Page words (RULES 3.2). */
#define WORD_FREE UINT32_C(0)
#define WORD_PAGE_0 UINT32_C(0x40000001)
#define WORD_LARGE(n) (UINT32_C(0x40000000) + (uint32_t)(n))
#define WORD_CLASS(b) (UINT32_C(0x80000000) + (uint32_t)(b))
#define WORD_INNER(k, b) \
    (UINT32_C(0xC0000000) + UINT32_C(65536) * (uint32_t)(k) + (uint32_t)(b))

/* The records of a pool of c chunks. The struct owns no buffer. */
struct records {
    size_t c;
    uint64_t *bits;
    uint32_t *words;
    uint64_t *slots;
};

/* What one chunk has of each buffer. */
struct chunk {
    uint64_t *bits;
    uint32_t *words;
    uint64_t *slots;
};

struct chunk chunk_of(const struct records *r, size_t number);
void chunk_copy(struct chunk to, struct chunk from);
void chunk_wipe(struct chunk chunk); /* all zero: page 0 is lost too */

bool page_bit(struct chunk chunk, unsigned page);
void set_page_bit(struct chunk chunk, unsigned page, bool taken);
void flip_slot_bit(struct chunk chunk, unsigned page, unsigned slot);
void set_slot_bit(struct chunk chunk, unsigned page, unsigned slot);
void wipe_pages(struct chunk chunk, unsigned first, unsigned pages);

/* The 30 size classes. */
struct size_class {
    unsigned size, slots, pages;
};
extern const struct size_class size_classes[CLASSES];

/* A run of pages, either large or of a size class. */
enum run_kind { RUN_LARGE, RUN_CLASS };

struct run {
    enum run_kind kind;
    unsigned first, pages;
    unsigned class_number; /* of a class run */
};

struct run_list {
    unsigned count;
    struct run runs[PAGES];
};

/* Collects the runs that the page words claim; false if one is impossible. */
bool model_decode(const uint32_t *words, struct run_list *list);

/*
 * Writes the records of a chunk that holds these runs. In the slot bits, each
 * bit that names a slot is 1. False when two runs claim the same page.
 */
bool model_write(const struct run_list *list, struct chunk out);

bool model_chunk_sound(struct chunk lent);
bool model_sound(const struct records *lent);
unsigned model_check(const struct records *lent); /* 0 sound, 2 damaged */

#endif
