#include "groups.h"

#include <inttypes.h>
#include <stdarg.h>
#include <stdio.h>
#include <stdlib.h>
#include <string.h>

struct group group;

static unsigned groups_passed, groups_failed;

void program_begin(int argc, char **argv)
{
    uint64_t seed = argc > 1 ? strtoull(argv[1], NULL, 0) : UINT64_C(20260102);

    rng.state = seed;
    printf("seed %" PRIu64 "\n", seed);
}

void group_begin(const char *family, const char *name)
{
    memset(&group, 0, sizeof group);
    snprintf(group.name, sizeof group.name, "%s/%s", family, name);
}

/* The first thing that is wrong is kept, the others are counted. */
void expect(bool right, const char *format, ...)
{
    va_list details;

    if (right)
        return;
    if (group.wrong++ > 0)
        return;
    va_start(details, format);
    vsnprintf(group.first_wrong, sizeof group.first_wrong, format, details);
    va_end(details);
}

void expect_least(unsigned long count, unsigned long least, const char *what)
{
    expect(count >= least, "only %lu %s", count, what);
}

void group_end(void)
{
    expect(group.trials > 0, "nothing was tried");
    if (group.wrong == 0) {
        printf("ok %s (%lu)\n", group.name, group.trials);
        groups_passed++;
    } else {
        printf("FAIL %s: %lu wrong in %lu trials, first: %s\n", group.name,
               group.wrong, group.trials, group.first_wrong);
        groups_failed++;
    }
    fflush(stdout);
}

int program_end(const char *program)
{
    printf("%s: %u passed, %u failed\n", program, groups_passed, groups_failed);
    return groups_failed > 0;
}
