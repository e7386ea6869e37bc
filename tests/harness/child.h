/* Runs a program on a log as a child process, and keeps what it writes. */
#ifndef CHILD_H
#define CHILD_H

#include <stdbool.h>
#include <stddef.h>
#include <stdint.h>

/* "reads the first 16,384 bytes of standard input; the rest counts as missing" */
enum { READ_AT_MOST = 16384 };

/* More than any program writes, and tells on standard error. */
enum { MOST_WRITTEN = 1 << 22, MOST_TOLD = 1 << 12 };

/* Ends the tests where there is no such program to run. */
void need_program(const char *path);

/* How a log reaches the program: a file, or a pipe that a child fills in pieces. */
struct feed {
    const uint8_t *bytes;
    size_t length;
    size_t piece;    /* bytes a piece; 0: a file */
    unsigned pause;  /* microseconds between two pieces */
    bool endless;    /* over and over again */
    bool unreadable; /* a folder, which opens but cannot be read */
};

struct feed file_of(const uint8_t *bytes, size_t length);
struct feed unreadable(void);
struct feed pieces_of(const uint8_t *bytes, size_t length, size_t piece, unsigned pause);
size_t feed_read(const struct feed *feed); /* how many bytes of it the program reads */

/* Where standard output goes. */
enum sink { SINK_FILE, SINK_PIPE, SINK_FULL, SINK_CLOSED, SINK_BROKEN };

struct ran {
    bool ended; /* by itself, not by a signal */
    int status; /* or the signal */
    size_t nout, nerr;
    char out[MOST_WRITTEN], err[MOST_TOLD]; /* zero bytes behind what was written */
};

/* Of the last run. */
extern struct ran ran;

/* Runs the program once; what came of it stands in `ran`. */
void run_program(const char *path, const struct feed *feed, enum sink sink);

/* No status is asked for: none is promised (RULES 9.3). */
void expect_ended(const char *what, size_t number);

/* Runs the program where its output fails: that is told on standard error, in whole lines. */
void expect_failure_told(const char *path, const struct feed *feed, enum sink sink);

/* Standard output, byte for byte, after a log of nlog bytes. */
void expect_written(const char *bytes, size_t length, size_t nlog);

#endif
