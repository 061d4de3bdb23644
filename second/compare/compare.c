/*
 * compare COUNT SEED [PROGRAM [WORD..]]: every kind of request to the plain program
 * and to the proved one: fixed cases, single faults, and COUNT generated ones of
 * each sort.  PROGRAM answers over a pipe; none where the library is linked.
 * Exit 1 on any difference (the request goes to compare-failed.request), on bytes
 * changed that may not be, or if something was reached too seldom.
 */
#include "compare.h"

#include "driver.h"
#include "ours.h"

#include <stdio.h>
#include <stdlib.h>

enum { THOROUGH = 100000 };   /* COUNT from which on the fixed cases are all made */

bool thorough;

static sort_of_cases *const sorts[] = {
    tables, dumps, parts, edits, queries, entries, slots, numbers, books,
    defaults,
};

int main(int argc, char **argv)
{
    if (argc < 3) {
        fprintf(stderr, "usage: compare COUNT SEED [PROGRAM [WORD..]]\n");
        return 2;
    }
    number count = strtoull(argv[1], NULL, 10);
    struct rng r = { strtoull(argv[2], NULL, 10) };

    thorough = count >= THOROUGH;
    setvbuf(stdout, NULL, _IOLBF, 0);
    start_driver(r.state);
    start_ours(argv + 3);
    for (size_t i = 0; i < sizeof sorts / sizeof sorts[0]; i++)
        sorts[i](&r, count, argv[2]);
    end_ours();
    return report_calls(count, argv[2]) ? 0 : 1;
}
