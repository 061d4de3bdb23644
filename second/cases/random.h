/* Random numbers (splitmix64).  A seed gives the same numbers everywhere. */
#ifndef SECOND_RANDOM_H
#define SECOND_RANDOM_H

#include <stdbool.h>
#include <stddef.h>
#include <stdint.h>

/*
 * C leaves the order of arguments and operands open, so no expression of these
 * files draws two numbers without a sequence point between: a seed then gives
 * the same cases with every compiler.
 */
struct rng {
    uint64_t state;
};

uint64_t rng_next(struct rng *r);
uint8_t rng_byte(struct rng *r);
uint32_t rng_below(struct rng *r, uint32_t n);                  /* 0 to n - 1 */
uint32_t rng_range(struct rng *r, uint32_t low, uint32_t high); /* both in */
bool rng_chance(struct rng *r, uint32_t percent);
void rng_fill(struct rng *r, uint8_t *p, size_t n);

/* A number of any magnitude. */
uint64_t rng_scaled(struct rng *r);

/* A number from 0 to max, mostly small. */
uint32_t rng_few(struct rng *r, uint32_t max);

/* Gives a byte another value. */
void rng_alter(struct rng *r, uint8_t *p);

/* The numbers 0 to 255 in any order. */
void rng_shuffled(struct rng *r, uint8_t id[256]);

#endif
