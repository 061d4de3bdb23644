/*
 * Memory between unreadable pages, and the request under way: what is said and
 * kept of it when something fails.
 */
#ifndef SECOND_ARENA_H
#define SECOND_ARENA_H

#include "request.h"

#include <stdbool.h>

enum { CANARY = 64, ARENA = SLICE_MAX + 65536 };   /* whole pages of any size */

/* ARENA bytes between two such pages. */
uint8_t *make_arena(void);

/* Where n bytes touch the page at an arena's end, or the one at its start. */
static inline uint8_t *at_edge(uint8_t *arena, bool end, size_t n)
{
    return end ? arena + ARENA - n : arena;
}

/* What the requests from now on belong to, and the one that is put now. */
void begin_case(const char *label);
void keep_request(const struct request *q);

/* A request before its slices' bytes. */
void put_head(const struct request *q, uint8_t head[HEAD]);

/*
 * Says what is wrong, with what both sides answered and the number expected, or
 * -1; leaves the request in compare-failed.request, which second/run answers
 * takes, and ends with 1.
 */
_Noreturn void fail(const char *what, const struct reply *plain,
                    const struct reply *ours, int expected);

/* The same where there are no answers to show. */
_Noreturn void fail_case(const char *what);

/* The request is kept where memory outside the arenas is read or written too. */
void catch_faults(void);

#endif
