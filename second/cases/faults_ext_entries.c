/* Single faults, rule 18: what the extended entries say. */
#include "faults.h"

#include <string.h>

static bool f18_range(struct rng *r, struct builder *b, const struct fault *f)
{
    uint8_t *e = pick(r, b, 128, any);
    uint64_t base = rng_scaled(r), over = rng_next(r);

    if (e == NULL)
        return false;
    if (base <= 1 || rng_chance(r, 20))
        base = rng_chance(r, 50) ? UINT64_MAX : 2;
    /* The longest sound range is 2^64 - base; go past it by one or more. */
    over = rng_chance(r, 50) ? 1 : 1 + over % (base - 1);
    put_le(e + 4, base, 8);
    put_le(e + 12, (0 - base) + over, 8);
    return true;
}

/* A second link of a bus, to the parent of another link. */
static bool f18_second_other(struct rng *r, struct builder *b,
                             const struct fault *f)
{
    uint8_t *e = pick(r, b, 129, any);
    uint8_t *other = pick_other(r, b, 129, any, e);
    uint8_t copy[8];

    if (e == NULL || other == NULL || other[4] == e[2])
        return false;
    memcpy(copy, e, 8);
    copy[4] = other[4];
    return put_in(b, true, place_of(r, b, 129), copy, 8);
}

static bool linked(const struct builder *b, uint8_t bus, uint8_t *parent)
{
    for (size_t at = 0, size; at < b->ext_len; at += size) {
        size = entry_size(b->ext, b->ext_len, at, true);
        if (size < 2)
            break;
        if (b->ext[at] == 129 && size == 8 && b->ext[at + 2] == bus) {
            *parent = b->ext[at + 4];
            return true;
        }
    }
    return false;
}

static bool f18_self(struct rng *r, struct builder *b, const struct fault *f)
{
    uint8_t *e = pick(r, b, 129, any);

    if (e == NULL)
        return false;
    e[4] = e[2];
    return true;
}

static bool f18_self_added(struct rng *r, struct builder *b, const struct fault *f)
{
    uint8_t *bus = pick(r, b, 1, any);
    uint8_t parent;

    if (bus == NULL || linked(b, bus[1], &parent))
        return false;
    uint8_t e[8] = { 129, 8, bus[1], (uint8_t)rng_below(r, 2), bus[1], 0, 0, 0 };
    return put_in(b, true, place_of(r, b, 129), e, 8);
}

/* Link the top of a climb to a bus the climb came past. */
static bool f18_circle(struct rng *r, struct builder *b, const struct fault *f)
{
    uint8_t *first = pick(r, b, 129, any);

    if (first == NULL)
        return false;
    uint8_t bus = first[2], end = bus, parent;
    bool off_start = rng_chance(r, 50);
    for (int i = 0; i < 256 && linked(b, bus, &parent); i++) {
        bus = parent;
        if (off_start && rng_chance(r, 10))
            end = bus;
    }
    if (linked(b, bus, &parent))
        return false;
    uint8_t e[8] = { 129, 8, bus, (uint8_t)rng_below(r, 2), end, 0, 0, 0 };
    return put_in(b, true, place_of(r, b, 129), e, 8);
}

/* All listed buses in one circle, in place of the links that stand. */
static bool f18_ring(struct rng *r, struct builder *b, const struct fault *f)
{
    struct list buses;
    uint8_t *old;
    bool falling = rng_chance(r, 50);

    list_of(b, 1, any, &buses);
    while ((old = pick(r, b, 129, any)) != NULL) {
        size_t behind = b->ext_len - (size_t)(old - b->ext) - 8;
        memmove(old, old + 8, behind);
        b->ext_len -= 8;
    }
    for (uint32_t i = 0; i < buses.n; i++) {
        uint32_t k = falling ? buses.n - 1 - i : i;
        uint8_t e[8] = { 129, 8, buses.id[k], (uint8_t)rng_below(r, 2),
                         buses.id[(k + 1) % buses.n], 0, 0, 0 };
        if (!put_in(b, true, place_of(r, b, 129), e, 8))
            return false;
    }
    return buses.n > 0;
}

static bool f18_list(struct rng *r, struct builder *b, const struct fault *f)
{
    uint8_t *e = pick(r, b, 130, any);

    if (e == NULL)
        return false;
    put_le(e + 4, rng_chance(r, 30) ? 2
                : rng_chance(r, 60) ? 1u << rng_range(r, 1, 31)
                : (uint32_t)rng_next(r) | 0x100, 4);
    return true;
}

const struct fault ext_entry_faults[] = {
    { 18, "128 bus", unlisted_bus, 128, any, 2 },
    { 18, "129 bus", unlisted_bus, 129, any, 2 },
    { 18, "130 bus", unlisted_bus, 130, any, 2 },
    { 18, "129 parent", unlisted_bus, 129, any, 4 },
    { 18, "address kind", over_limit, 128, any, 3, 50, 3 },
    { 18, "range past 2^64", .entries = f18_range },
    { 18, "second 129, equal", same_entry, 129, any },
    { 18, "second 129, another parent", .entries = f18_second_other },
    { 18, "own parent", .entries = f18_self },
    { 18, "own parent, link added", .entries = f18_self_added },
    { 18, "circle", .entries = f18_circle },
    { 18, "all buses in a circle", .entries = f18_ring },
    { 18, "list over 1", .entries = f18_list },
    { 0 },
};
