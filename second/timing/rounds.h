/* Timing in rounds: what is compared takes turns. */
#ifndef SECOND_ROUNDS_H
#define SECOND_ROUNDS_H

#include "subjects.h"

enum { ROUNDS_MAX = 1001 };

/* A program on a subject, and the ns that one call took in each round. */
struct turn {
    int program;
    struct subject *subject;
    uint32_t calls;            /* of a round, some 2 ms */
    double ns[ROUNDS_MAX];
};

/* Times them all in every round, the first of a round another one each time. */
void take_turns(struct turn *turns, int n, int rounds);

double median_ns(const struct turn *t, int rounds);

/*
 * The median of the rounds' own ratios: on a machine that others use too, the
 * times of a round are slow together.
 */
double median_ratio(const struct turn *above, const struct turn *below, int rounds);

/* A cell of a table. */
void print_ns(double ns);

/* The words of a command line: [-r] [ROUNDS].  Ends the program where they are not. */
struct words {
    bool ratios_only;          /* no times are printed */
    int rounds;
};
struct words words_of(int argc, char **argv);

#endif
