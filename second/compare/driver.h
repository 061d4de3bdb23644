/*
 * The driver: puts one request to the plain program and to the proved one, and
 * ends the program where anything differs, or is not as it must be.
 */
#ifndef SECOND_DRIVER_H
#define SECOND_DRIVER_H

#include "request.h"

#include <stdbool.h>

/* The refusals from one number to another, as bits. */
#define REFUSALS(low, high) ((2u << (high)) - (1u << (low)))

/* What a kind may answer and write. */
struct rule {
    uint8_t kind;
    uint32_t refusals, inner;   /* bits; inner ones come with 23 */
    size_t unit;                /* bytes in the room for each of its count */
    size_t (*count)(uint64_t answer);   /* that, where it is not ruxtajma_count */
    bool edits;                 /* it may change its first slice */
};

/* What is known of an answer beforehand, as numbers apart; or -1. */
struct known {
    int refusal, inner;
    int64_t count;      /* where nothing is refused */
    size_t zeroed;      /* bytes of the room that are 0 where something is */
};

static inline struct known knowing(int refusal, int64_t count)
{
    return (struct known){ refusal, -1, count, 0 };
}

/* What both answered, taken apart by the functions of ruxtajma.h. */
struct outcome {
    unsigned refusal, inner;
    size_t count;
    struct reply a;
    const uint8_t *after[SLICES];   /* the slices, until the next request */
};

/* Before the first request; places are drawn from the seed. */
void start_driver(uint64_t seed);

/* A slice; what is lent are copies, so these bytes stay. */
static inline struct slice lent(const void *bytes, size_t n)
{
    return (struct slice){ (uint8_t *)bytes, n };
}

/* A room of a size, full of a pattern, so that every change is seen. */
struct slice room_of(size_t size);

const struct outcome *put(const struct rule *rule, const struct request *q,
                          struct known k);

/* What only the kind itself knows: fails with what was answered last. */
void must(bool holds, const char *what);

#endif
