#include "others.h"

#include <stdio.h>
#include <stdlib.h>

#ifdef WITH_PHP
/* PHP's library, as far as it is used; its headers are not C99. */
int php_embed_init(int argc, char **argv);
void *_emalloc(size_t size);
void _efree(void *block);
#endif

enum { MOST_LIVE = 64000 };

static void *block[MOST_LIVE];

static void *must(void *p)
{
    if (p == NULL) {
        fprintf(stderr, "others: out of memory\n");
        exit(2);
    }
    return p;
}

void hold_malloc(const uint64_t *sizes, size_t count)
{
    for (size_t i = 0; i < count; i++)
        block[i] = must(malloc(sizes[i]));
}

void run_malloc(const struct pair *pairs, size_t count, size_t live)
{
    for (size_t i = 0; i < count; i++) {
        free(block[pairs[i].out]);
        block[pairs[i].out] = block[live - 1];
        block[live - 1] = must(malloc(pairs[i].size));
    }
}

void drop_malloc(size_t live)
{
    for (size_t i = 0; i < live; i++)
        free(block[i]);
}

#ifdef WITH_PHP

int have_php(void)
{
    static int started;

    if (!started) {
        php_embed_init(0, NULL);
        started = 1;
    }
    return 1;
}

void hold_php(const uint64_t *sizes, size_t count)
{
    for (size_t i = 0; i < count; i++)
        block[i] = _emalloc(sizes[i]);
}

void run_php(const struct pair *pairs, size_t count, size_t live)
{
    for (size_t i = 0; i < count; i++) {
        _efree(block[pairs[i].out]);
        block[pairs[i].out] = block[live - 1];
        block[live - 1] = _emalloc(pairs[i].size);
    }
}

void drop_php(size_t live)
{
    for (size_t i = 0; i < live; i++)
        _efree(block[i]);
}

#else

int have_php(void)
{
    return 0;
}

void hold_php(const uint64_t *sizes, size_t count)
{
    (void)sizes;
    (void)count;
}

void run_php(const struct pair *pairs, size_t count, size_t live)
{
    (void)pairs;
    (void)count;
    (void)live;
}

void drop_php(size_t live)
{
    (void)live;
}

#endif
