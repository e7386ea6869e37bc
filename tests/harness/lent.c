#define _DEFAULT_SOURCE /* MAP_ANONYMOUS */

#include "lent.h"

#include "random.h"

#include <stdio.h>
#include <stdlib.h>
#include <string.h>
#include <sys/mman.h>
#include <unistd.h>

static size_t system_page(void)
{
    return (size_t)sysconf(_SC_PAGESIZE);
}

/* The bytes of the whole system pages that hold so many bytes. */
static size_t whole_pages(size_t bytes)
{
    return (bytes + system_page() - 1) / system_page() * system_page();
}

static void need(bool there)
{
    if (there)
        return;
    perror("buffers for the tests");
    exit(2);
}

static void *guarded_new(size_t bytes)
{
    size_t usable = whole_pages(bytes), guard = system_page();
    char *before = mmap(NULL, guard + usable + guard, PROT_NONE,
                        MAP_PRIVATE | MAP_ANONYMOUS, -1, 0);

    need(before != MAP_FAILED);
    need(usable == 0 || mprotect(before + guard, usable, PROT_READ | PROT_WRITE) == 0);
    return before + guard + usable - bytes;
}

static void guarded_free(void *buffer, size_t bytes)
{
    size_t usable = whole_pages(bytes), guard = system_page();

    munmap((char *)buffer + bytes - usable - guard, guard + usable + guard);
}

static size_t bits_bytes(size_t c)
{
    return c * BIT_WORDS * sizeof(uint64_t);
}

static size_t words_bytes(size_t c)
{
    return c * PAGES * sizeof(uint32_t);
}

static size_t slots_bytes(size_t c)
{
    return c * SLOT_WORDS * sizeof(uint64_t);
}

struct records lent_new(size_t c)
{
    struct records r;

    r.c = c;
    r.bits = guarded_new(bits_bytes(c));
    r.words = guarded_new(words_bytes(c));
    r.slots = guarded_new(slots_bytes(c));
    return r;
}

void lent_free(struct records *r)
{
    guarded_free(r->bits, bits_bytes(r->c));
    guarded_free(r->words, words_bytes(r->c));
    guarded_free(r->slots, slots_bytes(r->c));
}

uint64_t *lent_room_new(size_t words)
{
    return guarded_new(words * sizeof(uint64_t));
}

void lent_room_free(uint64_t *room, size_t words)
{
    guarded_free(room, words * sizeof(uint64_t));
}

uint8_t *lent_bytes_new(size_t bytes)
{
    return guarded_new(bytes);
}

void lent_bytes_free(uint8_t *buffer, size_t bytes)
{
    guarded_free(buffer, bytes);
}

void lent_fill(uint8_t *buffer, size_t bytes)
{
    uint64_t word = rng_next(&rng);

    for (size_t at = 0; at < bytes; at += sizeof word) {
        size_t left = bytes - at;
        word += UINT64_C(0x9E3779B97F4A7C15);
        memcpy(buffer + at, &word, left < sizeof word ? left : sizeof word);
    }
}

const uint8_t *lent_vast_new(size_t bytes, const uint8_t *front, size_t nfront)
{
    uint8_t *start = mmap(NULL, bytes, PROT_READ, MAP_PRIVATE | MAP_ANONYMOUS | MAP_NORESERVE,
                          -1, 0);

    need(start != MAP_FAILED && mprotect(start, system_page(), PROT_READ | PROT_WRITE) == 0);
    memcpy(start, front, nfront);
    return start;
}

void lent_vast_free(const uint8_t *buffer, size_t bytes)
{
    munmap((void *)(uintptr_t)buffer, bytes);
}

void lent_copy(struct records *to, const struct records *from)
{
    memcpy(to->bits, from->bits, bits_bytes(from->c));
    memcpy(to->words, from->words, words_bytes(from->c));
    memcpy(to->slots, from->slots, slots_bytes(from->c));
}

bool lent_equal(const struct records *a, const struct records *b)
{
    return memcmp(a->bits, b->bits, bits_bytes(a->c)) == 0
        && memcmp(a->words, b->words, words_bytes(a->c)) == 0
        && memcmp(a->slots, b->slots, slots_bytes(a->c)) == 0;
}
