/* Timing in rounds: what is compared takes turns. */
#define _GNU_SOURCE

#include "rounds.h"

#include <stdio.h>
#include <stdlib.h>
#include <string.h>
#include <time.h>

enum { SLICE_NS = 2000000 };

static volatile uint64_t sink;

/* This thread's own time: others use the machine too. */
static double now_ns(void)
{
    struct timespec t;

    clock_gettime(CLOCK_THREAD_CPUTIME_ID, &t);
    return (double)t.tv_sec * 1e9 + (double)t.tv_nsec;
}

/* call_program() is in another file: nothing of a call is left out. */
static double run(const struct turn *t)
{
    double start = now_ns();

    for (uint32_t i = 0; i < t->calls; i++)
        sink = call_program(t->program, t->subject);
    return now_ns() - start;
}

static void calibrate(struct turn *t)
{
    for (t->calls = 1; ; t->calls *= 2) {
        double ns = run(t);

        if (ns >= SLICE_NS / 4) {
            t->calls = (uint32_t)(t->calls * (SLICE_NS / ns)) + 1;
            return;
        }
    }
}

void take_turns(struct turn *turns, int n, int rounds)
{
    for (int k = 0; k < n; k++)
        calibrate(&turns[k]);
    for (int i = 0; i < rounds; i++)
        for (int k = 0; k < n; k++) {
            struct turn *t = &turns[(i + k) % n];

            t->ns[i] = run(t) / t->calls;
        }
}

static int by_size(const void *a, const void *b)
{
    double x = *(const double *)a, y = *(const double *)b;

    return (x > y) - (x < y);
}

/* Of an even number, the mean of the two in the middle. */
static double median(const double *values, int n)
{
    static double sorted[ROUNDS_MAX];

    memcpy(sorted, values, (size_t)n * sizeof *values);
    qsort(sorted, (size_t)n, sizeof *values, by_size);
    return (sorted[(n - 1) / 2] + sorted[n / 2]) / 2;
}

double median_ns(const struct turn *t, int rounds)
{
    return median(t->ns, rounds);
}

double median_ratio(const struct turn *above, const struct turn *below, int rounds)
{
    static double ratio[ROUNDS_MAX];

    for (int i = 0; i < rounds; i++)
        ratio[i] = above->ns[i] / below->ns[i];
    return median(ratio, rounds);
}

void print_ns(double ns)
{
    unsigned n = (unsigned)(ns + 0.5);

    if (n < 1000)
        printf(" %7u |", n);
    else
        printf(" %3u,%03u |", n / 1000, n % 1000);
}

struct words words_of(int argc, char **argv)
{
    struct words w = { argc > 1 && strcmp(argv[1], "-r") == 0, 41 };
    int at = w.ratios_only ? 2 : 1;

    if (argc > at)
        w.rounds = atoi(argv[at]);
    if (w.rounds < 1 || w.rounds > ROUNDS_MAX) {
        fprintf(stderr, "%s: 1 to %d rounds\n", argv[0], ROUNDS_MAX);
        exit(2);
    }
    return w;
}
