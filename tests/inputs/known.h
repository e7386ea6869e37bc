/* Request logs whose lines are known by hand, replayed in a pool of one chunk. */
#ifndef KNOWN_H
#define KNOWN_H

#include <stddef.h>
#include <stdint.h>

struct known_log {
    const char *name;
    const uint8_t *bytes;
    size_t length;
    uint64_t refusal, position;
    const char *lines;
};

/* The first is the sample log (RULES 12.3). */
extern const struct known_log known_logs[];
extern const size_t known_log_count;

const struct known_log *known_log_named(const char *name); /* null if there is none */

#endif
