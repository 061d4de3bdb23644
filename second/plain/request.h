/* A request and its answer, as docs/ANSWERS.md has them. */
#ifndef SECOND_REQUEST_H
#define SECOND_REQUEST_H

#include <stddef.h>
#include <stdint.h>

enum {
    NUMBERS = 8, SLICES = 5, VALUES = 8,
    ROOM = SLICES - 1,       /* the last slice, where a kind writes into one */
    SLICE_MAX = 1 << 21,     /* the first, the last, and those between together */
    HEAD = 1 + 8 * NUMBERS + 4 * SLICES
};

/* What a call may write, it writes in its place. */
struct slice {
    uint8_t *bytes;
    size_t length;
};

struct request {
    uint8_t kind;
    uint64_t number[NUMBERS];
    struct slice slice[SLICES];
};

struct reply {
    unsigned count;
    uint64_t value[VALUES];
};

/* A slice of a request as the arguments of a call. */
#define LENT(q, i) (q)->slice[i].bytes, (q)->slice[i].length

static inline void give(struct reply *a, uint64_t value)
{
    a->value[a->count++] = value;
}

#endif
