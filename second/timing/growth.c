/*
 * growth [-r] [ROUNDS]: how many times as long the library takes for twice as
 * much, call by call; the whole and its half take turns in one process.  The
 * highest last.  With -r no times are printed.  Exit 1 where one is over TOO_MUCH,
 * which a busy machine does not explain.
 */
#include "rounds.h"

#include <stdio.h>

static const double WANTED = 2.1, TOO_MUCH = 3.0;

enum { WHOLE, HALF };

/* A row of the table; answers the growth. */
static double measure(struct subject *s, struct words w)
{
    static struct turn turns[2];

    for (int k = WHOLE; k <= HALF; k++)
        turns[k].program = OURS, turns[k].subject = &s[k];
    take_turns(turns, 2, w.rounds);

    double growth = median_ratio(&turns[WHOLE], &turns[HALF], w.rounds);
    printf("| %-*s |", LABEL_WIDTH, label(s));
    if (!w.ratios_only) {
        print_ns(median_ns(&turns[HALF], w.rounds));
        print_ns(median_ns(&turns[WHOLE], w.rounds));
    }
    printf("   %4.2f |\n", growth);
    return growth;
}

int main(int argc, char **argv)
{
    struct words w = words_of(argc, argv);
    const struct subject *highest = NULL;
    double most = 0;
    size_t over = 0;

    make_doubled();
    printf("%d rounds, the whole and its half taking turns of about 2 ms.  Times are"
           " medians;\nratios are the medians of the rounds' own.\n\n", w.rounds);
    printf("| %-*s |%s growth |\n|---|%s---|\n", LABEL_WIDTH,
           "The library on the whole, and on half of it",
           w.ratios_only ? "" : "    half |   whole |",
           w.ratios_only ? "" : "---|---|");
    for (size_t i = 0; i < subject_count; i += 2) {
        double growth = measure(&subjects[i], w);

        over += growth > WANTED;
        if (growth > most)
            most = growth, highest = &subjects[i];
    }
    printf("\nover %.1f: %zu of %zu rows\n", WANTED, over, subject_count / 2);
    printf("highest growth: %.2f, %s\n", most, label(highest));
    return most > TOO_MUCH;
}
