/* How the calls of a run ended, and what stood in the tables it was made on. */
#ifndef SECOND_COUNTS_H
#define SECOND_COUNTS_H

#include <stdbool.h>
#include <stddef.h>
#include <stdint.h>

typedef unsigned long long number;

enum { NUMBERS_END = 31, AT_LEAST = 50, CALLS_AT_LEAST = 50000 };

/* How the cases of one sort ended, by the number of the refusal or 0. */
struct tally {
    number cases, answered[NUMBERS_END];
};

void tally(struct tally *t, unsigned refusal);

/* A call that both answered alike. */
void count_call(unsigned refusal);

/* A table that was asked about, of any kind. */
void note_table(const uint8_t *bytes, size_t n, bool accepted);

/* Parts to be written: a base of this length, header counted, and extended. */
void note_lengths(size_t base, size_t extended);

/* What must be reached so often; where it is not, the run fails at its end. */
void require(const char *what, number reached, number least);

/* A line each: how often a number was reached, of so many generated cases. */
void report(int answer, number reached, number count);
void report_range(const number *answered, int low, int high, number count);

/* One line of how often each of five classes was reached. */
void report_classes(const char *what, const char *const name[5],
                    const number reached[5], number count);

/*
 * The end of the report, of so many generated cases of each sort; false where
 * something came too seldom.
 */
bool report_calls(number count, const char *seed);

#endif
