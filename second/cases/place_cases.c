/*
 * Buffers for entry readers, and places in them.  A reader judges nothing, so
 * any lengths may be stated, and any bytes stand where an entry is asked for.
 */
#include "cases.h"

/* A length: small, near the buffer's end, or any. */
static uint32_t any_length(struct rng *r, size_t n)
{
    switch (rng_below(r, 6)) {
    case 0: return rng_below(r, HEADER);
    case 1: return HEADER + rng_below(r, 30);
    case 2: return (uint32_t)n + 10 - rng_below(r, 20);
    case 3: return rng_below(r, (uint32_t)n + 40);
    case 4: return 65535 - rng_below(r, HEADER);
    default: return rng_below(r, 65536);
    }
}

/* A sound table that states other lengths, or is cut, or both. */
static void stating_others(struct rng *r, struct test_case *c)
{
    uint32_t roll = rng_below(r, 100);

    sound_case(r, c);
    if (roll < 50)
        put_le(c->bytes + 4, any_length(r, c->size), 2);
    if (roll >= 30 && roll < 80)
        put_le(c->bytes + 40, any_length(r, c->size), 2);
    if (roll >= 70)
        c->size = rng_below(r, (uint32_t)c->size + 1);
    c->label = "stating other lengths";
    c->expected = -1;
}

void gen_entered(struct rng *r, struct test_case *c)
{
    uint32_t roll = rng_below(r, 100);

    if (roll < 25)
        sound_case(r, c);
    else if (roll < 45)
        rich_case(r, c);
    else if (roll < 55)
        chain_case(r, c);
    else if (roll < 75)
        stating_others(r, c);
    else
        gen_case(r, c);
}

/* Where the header says that a part ends, or the buffer's own end. */
static size_t any_end(struct rng *r, const struct test_case *c)
{
    uint32_t roll = rng_below(r, 3);

    if (c->size < HEADER || roll == 0)
        return c->size;
    return base_of(c->bytes) + (roll == 1 ? 0 : ext_of(c->bytes));
}

size_t gen_place(struct rng *r, const struct test_case *c, size_t entry)
{
    uint32_t roll = rng_below(r, 100), off = rng_below(r, 24);

    if (roll < 40)
        return any_end(r, c) + 2 - off;
    if (roll < 65)
        return entry + 3 - off % 6;
    if (roll < 80)
        return rng_below(r, (uint32_t)c->size + 4);
    if (roll < 92)
        return HEADER + 1 - off % 4;
    /* Places that are good ones in fewer bits. */
    return entry + ((size_t)1 << (roll < 95 ? 16 : roll < 98 ? 32 : 63));
}
