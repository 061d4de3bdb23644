/* Sets of IDs, for the plain program. */
#ifndef PLAIN_SET_H
#define PLAIN_SET_H

#include <stdbool.h>
#include <stdint.h>

struct set {
    uint64_t word[4];
};

static inline bool in(const struct set *s, uint8_t id)
{
    return s->word[id >> 6] >> (id & 63) & 1;
}

static inline void add(struct set *s, uint8_t id)
{
    s->word[id >> 6] |= (uint64_t)1 << (id & 63);
}

#endif
