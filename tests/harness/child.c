#define _DEFAULT_SOURCE /* usleep, mkstemp */

#include "child.h"

#include "groups.h"

#include <fcntl.h>
#include <signal.h>
#include <stdio.h>
#include <stdlib.h>
#include <string.h>
#include <sys/wait.h>
#include <unistd.h>

enum { SECONDS = 60, NOT_RUN = 127 }; /* a run may take so long; status without one */

static void need(bool done, const char *what)
{
    if (done)
        return;
    perror(what);
    exit(2);
}

void need_program(const char *path)
{
    need(access(path, X_OK) == 0, path);
}

/* ---- Input ------------------------------------------------------------------------ */

struct feed file_of(const uint8_t *bytes, size_t length)
{
    struct feed feed = {bytes, length, 0, 0, false, false};
    return feed;
}

struct feed unreadable(void)
{
    struct feed feed = {(const uint8_t *)"", 0, 0, 0, false, true};
    return feed;
}

struct feed pieces_of(const uint8_t *bytes, size_t length, size_t piece, unsigned pause)
{
    struct feed feed = {bytes, length, piece, pause, false, false};
    return feed;
}

size_t feed_read(const struct feed *feed)
{
    return feed->length < READ_AT_MOST ? feed->length : READ_AT_MOST;
}

/* A file without a name, which goes with its last descriptor. */
static int temporary(void)
{
    char name[] = P_tmpdir "/lensember-XXXXXX";
    int file = mkstemp(name);

    need(file >= 0 && unlink(name) == 0, "a file for the tests");
    return file;
}

static int open_file(const struct feed *feed)
{
    int in = feed->unreadable ? open("/", O_RDONLY) : temporary();

    need(in >= 0, "input for the tests");
    if (feed->unreadable)
        return in;
    need(write(in, feed->bytes, feed->length) == (ssize_t)feed->length
             && lseek(in, 0, SEEK_SET) == 0,
         "a log for the tests");
    return in;
}

/* Ends when all is written, or nobody reads any more. */
static void write_pieces(const struct feed *feed, int to)
{
    do {
        for (size_t at = 0; at < feed->length; at += feed->piece) {
            size_t left = feed->length - at;
            if (write(to, feed->bytes + at, left < feed->piece ? left : feed->piece) < 0)
                return;
            if (feed->pause > 0)
                usleep(feed->pause);
        }
    } while (feed->endless);
}

static void make_pipe(int ends[2])
{
    need(pipe(ends) == 0, "a pipe");
    for (unsigned i = 0; i < 2; i++)
        need(fcntl(ends[i], F_SETFD, FD_CLOEXEC) == 0, "a pipe");
}

/* Starts the child that writes; answers the end to read from. */
static int open_pipe(const struct feed *feed, pid_t *writer)
{
    int ends[2];

    make_pipe(ends);
    fflush(stdout);
    *writer = fork();
    need(*writer >= 0, "fork");
    if (*writer == 0) {
        close(ends[0]);
        signal(SIGPIPE, SIG_IGN);
        alarm(SECONDS);
        write_pieces(feed, ends[1]);
        _exit(0);
    }
    close(ends[1]);
    return ends[0];
}

/* ---- One run ------------------------------------------------------------------------ */

struct ran ran;

/* Opens what the program writes to, and sets what is read back of it, or -1. */
static int open_sink(enum sink sink, int *back)
{
    int ends[2] = {-1, -1};

    if (sink == SINK_PIPE || sink == SINK_BROKEN)
        make_pipe(ends);
    else
        ends[1] = sink == SINK_FULL ? open("/dev/full", O_WRONLY) : temporary();
    need(ends[1] >= 0, "output for the tests");
    if (sink == SINK_BROKEN) {
        close(ends[0]); /* nobody reads */
        ends[0] = -1;
    }
    if (sink == SINK_FILE)
        ends[0] = dup(ends[1]);
    *back = ends[0];
    return ends[1];
}

static void become_program(const char *path, int in, int out, int err, enum sink sink)
{
    char *const words[] = {(char *)(uintptr_t)path, NULL};

    if (dup2(in, STDIN_FILENO) < 0 || dup2(out, STDOUT_FILENO) < 0 || dup2(err, STDERR_FILENO) < 0)
        _exit(NOT_RUN);
    if (sink == SINK_CLOSED)
        close(STDOUT_FILENO);
    if (sink == SINK_BROKEN)
        signal(SIGPIPE, SIG_IGN);
    alarm(SECONDS);
    execv(path, words);
    _exit(NOT_RUN);
}

/* In small pieces: where it is a pipe, the program has to wait for them. */
static size_t drain(int from, char *bytes, size_t most)
{
    size_t count = 0;
    ssize_t got;

    do {
        size_t left = most - count;
        got = read(from, bytes + count, left < 1000 ? left : 1000);
        count += got > 0 ? (size_t)got : 0;
    } while (got > 0);
    return count;
}

/* Of a file all of it, of a pipe what is still to come. */
static size_t read_back(int from, char *bytes, size_t most)
{
    size_t count;

    if (from < 0)
        return 0;
    (void)lseek(from, 0, SEEK_SET);
    count = drain(from, bytes, most);
    close(from);
    return count;
}

static pid_t start_program(const char *path, int in, int out, int err, enum sink sink)
{
    pid_t program;

    fflush(stdout);
    program = fork();
    need(program >= 0, "fork");
    if (program == 0)
        become_program(path, in, out, err, sink);
    return program;
}

static void wait_program(pid_t program)
{
    int status = 0;

    need(waitpid(program, &status, 0) == program, "the program");
    ran.ended = WIFEXITED(status);
    ran.status = ran.ended ? WEXITSTATUS(status) : WTERMSIG(status);
}

/* Only what the last run wrote has to be wiped. */
static void forget_last(void)
{
    memset(ran.out, 0, ran.nout);
    memset(ran.err, 0, ran.nerr);
    ran.nout = ran.nerr = 0;
}

void run_program(const char *path, const struct feed *feed, enum sink sink)
{
    pid_t writer = 0, program;
    int in = feed->piece > 0 ? open_pipe(feed, &writer) : open_file(feed);
    int back, out = open_sink(sink, &back), err = temporary();

    forget_last();
    program = start_program(path, in, out, err, sink);
    close(in);
    close(out);
    if (sink == SINK_PIPE)
        ran.nout = read_back(back, ran.out, MOST_WRITTEN);
    wait_program(program);
    if (sink == SINK_FILE)
        ran.nout = read_back(back, ran.out, MOST_WRITTEN);
    ran.nerr = read_back(err, ran.err, MOST_TOLD);
    if (writer > 0)
        waitpid(writer, NULL, 0);
    group.trials++;
}

/* ---- What is expected ------------------------------------------------------------------ */

void expect_ended(const char *what, size_t number)
{
    expect(ran.ended && ran.status != NOT_RUN, "%s of %zu bytes: %s %d", what, number,
           ran.ended ? "status" : "signal", ran.status);
}

void expect_failure_told(const char *path, const struct feed *feed, enum sink sink)
{
    run_program(path, feed, sink);
    expect_ended("log", feed->length);
    expect(ran.nerr > 0, "log of %zu bytes: standard error is empty", feed->length);
    expect(ran.nerr > 0 && ran.err[ran.nerr - 1] == '\n', "log of %zu bytes: no whole line",
           feed->length);
}

/* How many bytes are the same from the first on. */
static size_t alike(const char *lines, size_t length)
{
    size_t i = 0;

    while (i < length && i < ran.nout && ran.out[i] == lines[i])
        i++;
    return i;
}

void expect_written(const char *bytes, size_t length, size_t nlog)
{
    size_t same = alike(bytes, length);

    expect(ran.nout == length && same == length,
           "log of %zu bytes: wrote %zu bytes, the first %zu of them right; expected %zu", nlog,
           ran.nout, same, length);
}
