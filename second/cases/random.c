/* Random numbers (splitmix64): whole ones, small ones, bytes and chances. */
#include "random.h"

uint64_t rng_next(struct rng *r)
{
    uint64_t z = (r->state += 0x9E3779B97F4A7C15u);

    z = (z ^ z >> 30) * 0xBF58476D1CE4E5B9u;
    z = (z ^ z >> 27) * 0x94D049BB133111EBu;
    return z ^ z >> 31;
}

uint32_t rng_below(struct rng *r, uint32_t n)
{
    return (uint32_t)((rng_next(r) >> 32) * n >> 32);
}

uint32_t rng_range(struct rng *r, uint32_t low, uint32_t high)
{
    return low + rng_below(r, high - low + 1);
}

bool rng_chance(struct rng *r, uint32_t percent)
{
    return rng_below(r, 100) < percent;
}

uint8_t rng_byte(struct rng *r)
{
    return (uint8_t)(rng_next(r) >> 56);
}

void rng_fill(struct rng *r, uint8_t *p, size_t n)
{
    uint64_t v = 0;

    for (size_t i = 0; i < n; i++, v >>= 8) {
        if (i % 8 == 0)
            v = rng_next(r);
        p[i] = (uint8_t)v;
    }
}

uint64_t rng_scaled(struct rng *r)
{
    uint32_t shift = rng_below(r, 64);

    return rng_next(r) >> shift;
}

uint32_t rng_few(struct rng *r, uint32_t max)
{
    uint32_t roll = rng_below(r, 100);
    uint32_t cap = roll < 60 ? 3 : roll < 90 ? max / 4 : max;

    return rng_below(r, (cap < max ? cap : max) + 1);
}

void rng_alter(struct rng *r, uint8_t *p)
{
    *p ^= (uint8_t)rng_range(r, 1, 255);
}

void rng_shuffled(struct rng *r, uint8_t id[256])
{
    for (uint32_t i = 0; i < 256; i++) {
        uint32_t j = rng_below(r, i + 1);
        id[i] = id[j];
        id[j] = (uint8_t)i;
    }
}
