/* What all test programs share: named groups of trials, of which one line each is printed. */
#ifndef GROUPS_H
#define GROUPS_H

#include "random.h"

#include <stdbool.h>

/* The group under way. A test counts its trials itself. */
struct group {
    char name[80];
    unsigned long trials, wrong;
    char first_wrong[200];
};
extern struct group group;

/* Seeds rng, by the command line if it has a number, and prints the seed. */
void program_begin(int argc, char **argv);

void group_begin(const char *family, const char *name);

/* Notes, printf-like, what is wrong if it is not right. */
void expect(bool right, const char *format, ...);

/* So many of what is named, or more. */
void expect_least(unsigned long count, unsigned long least, const char *what);

void group_end(void);

/* Prints 'PROGRAM: N passed, M failed'; answers the exit status. */
int program_end(const char *program);

#endif
