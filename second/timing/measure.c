/*
 * measure [-r] [ROUNDS]: ns per call of the library and of the plain program (-O2
 * and -O3), all in one process, the three taking turns.  The highest ratio first.
 * With -r no times are printed, just their ratios.  Compiled with BEFORE, the third
 * is an earlier library.
 */
#include "rounds.h"

#include <stdio.h>

/* The goal is a ratio of 1.0 or less; rows over it are counted, and those far over. */
static const double GOAL = 1.0, FAR_OVER = 1.5;

/* What the third is called, at the head of its times and of its ratios too. */
#ifdef BEFORE
#define THIRD_NAME "the library before"
#define THIRD_TIMES "    before"
#define THIRD_RATIOS "before"
#define OF_THEM "theirs"
#else
#define THIRD_NAME "the second program at -O3"
#define THIRD_TIMES "second -O3"
#define THIRD_RATIOS "to -O3"
#define OF_THEM "the second program's"
#endif

static const char *const names[PROGRAMS] = {
    "ours", "the second program at -O2", THIRD_NAME
};

static void measure(struct subject *s, int rounds)
{
    static struct turn turns[PROGRAMS];

    for (int j = 0; j < PROGRAMS; j++)
        turns[j].program = j, turns[j].subject = s;
    take_turns(turns, PROGRAMS, rounds);
    for (int j = 0; j < PROGRAMS; j++) {
        s->ns[j] = median_ns(&turns[j], rounds);
        s->ratio[j] = median_ratio(&turns[OURS], &turns[j], rounds);
    }
}

static void print_highest(int program)
{
    const struct subject *highest = &subjects[0];
    size_t over = 0, far_over = 0;

    for (size_t i = 0; i < subject_count; i++) {
        if (subjects[i].ratio[program] > highest->ratio[program])
            highest = &subjects[i];
        over += subjects[i].ratio[program] > GOAL;
        far_over += subjects[i].ratio[program] > FAR_OVER;
    }
    printf("highest ratio to %s: %.2f, %s\n"
           "  over %.1f: %zu of %zu rows; over %.1f: %zu\n", names[program],
           highest->ratio[program], label(highest), GOAL, over, subject_count,
           FAR_OVER, far_over);
}

/* ---- tables as README.md has them ---- */

static void print_row(const struct subject *s, bool ratios_only)
{
    printf("| %-*s |", LABEL_WIDTH, label(s));
    if (ratios_only) {
        printf("   %4.2f |   %4.2f |\n", s->ratio[PLAIN_O2], s->ratio[THIRD]);
        return;
    }
    print_ns(s->ns[OURS]);
    for (int j = PLAIN_O2; j <= THIRD; j++) {
        printf("   ");
        print_ns(s->ns[j]);
        printf("  %4.2f |", s->ratio[j]);
    }
    printf("\n");
}

static void print_rows(bool ratios_only)
{
    if (ratios_only)
        printf("| %-*s | to -O2 | " THIRD_RATIOS " |\n|---|---|---|\n", LABEL_WIDTH,
               "Our time as a multiple of " OF_THEM);
    else
        printf("| %-*s |    ours | second -O2 | ratio | " THIRD_TIMES " | ratio |\n"
               "|---|---|---|---|---|---|\n", LABEL_WIDTH, "Nanoseconds a call");
    for (size_t i = 0; i < subject_count; i++)
        print_row(&subjects[i], ratios_only);
}

int main(int argc, char **argv)
{
    struct words w = words_of(argc, argv);

    make_subjects();
    for (size_t i = 0; i < subject_count; i++)
        measure(&subjects[i], w.rounds);
    print_highest(PLAIN_O2);
    print_highest(THIRD);
    printf("%d rounds, the programs taking turns of about 2 ms.  Times are medians;"
           "\nratios are the medians of the rounds' own.\n\n", w.rounds);
    print_rows(w.ratios_only);
    return 0;
}
