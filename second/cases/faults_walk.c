/* Single faults, rules 10 to 12: the walk over the base entries. */
#include "faults.h"

#include <string.h>

/* ---- 10: base type over 4 ---- */

static uint8_t type_over_4(struct rng *r)
{
    return (uint8_t)(rng_chance(r, 30) ? 5 : rng_range(r, 5, 255));
}

static bool f10_put_in(struct rng *r, struct builder *b, const struct fault *f)
{
    uint8_t e[20];

    rng_fill(r, e, sizeof e);
    e[0] = type_over_4(r);
    b->count += rng_below(r, 2);
    size_t place = any_place(r, b, false);
    return put_in(b, false, place, e, rng_chance(r, 70) ? 8 : 20);
}

static bool f10_changed(struct rng *r, struct builder *b, const struct fault *f)
{
    uint8_t *e = pick(r, b, (uint8_t)rng_below(r, 5), any);

    if (e == NULL)
        return false;
    e[0] = type_over_4(r);
    return true;
}

static bool f10_few_bytes(struct rng *r, struct builder *b, const struct fault *f)
{
    uint8_t e[7];

    rng_fill(r, e, sizeof e);
    e[0] = type_over_4(r);
    b->count += rng_below(r, 2);
    return put_in(b, false, b->base_len, e, rng_range(r, 1, 7));
}

/* The first faulty entry decides: type over 4, then one below. */
static bool f10_then_12(struct rng *r, struct builder *b, const struct fault *f)
{
    uint8_t e[28] = { 0 };

    e[0] = type_over_4(r);
    b->count += 2;
    return put_in(b, false, b->base_len, e, sizeof e);
}

/* ---- 11: entry cut by the base end, or count differs after the walk ---- */

static size_t last_entry(const struct builder *b)
{
    size_t last = b->base_len;

    for (size_t at = 0, size; at < b->base_len; at += size) {
        size = entry_size(b->base, b->base_len, at, false);
        if (size < 2)
            break;
        last = at;
    }
    return last;
}

static bool f11_cut(struct rng *r, struct builder *b, const struct fault *f)
{
    size_t last = last_entry(b);

    if (last == b->base_len)
        return false;
    b->base_len = rng_range(r, (uint32_t)last + 1, (uint32_t)b->base_len - 1);
    b->count -= rng_below(r, 2);
    return true;
}

static bool f11_cut_by_one(struct rng *r, struct builder *b, const struct fault *f)
{
    if (b->base_len == 0)
        return false;
    b->base_len--;
    return true;
}

static bool f11_cut_and_below(struct rng *r, struct builder *b,
                              const struct fault *f)
{
    uint8_t e[19] = { 0 };

    b->count += rng_below(r, 2);
    return put_in(b, false, b->base_len, e, rng_range(r, 1, 19));
}

static bool f11_count_off(struct rng *r, struct builder *b, const struct fault *f)
{
    b->count += f->x;
    b->count -= f->y;
    return true;
}

static bool f11_count_any(struct rng *r, struct builder *b, const struct fault *f)
{
    b->count = (b->count & 0xFFFF) ^ rng_range(r, 1, 65535);
    return true;
}

static bool f11_count_high(struct rng *r, struct builder *b, const struct fault *f)
{
    b->count += 256 * rng_range(r, 1, 255);
    return true;
}

/* ---- 12: type below the one before ---- */

/* A sound entry of a lower type at the end. */
static bool below_at_end(struct rng *r, struct builder *b, const struct fault *f)
{
    size_t last = last_entry(b);
    uint8_t e[20] = { 0 };

    if (last == b->base_len || b->base[last] == 0)
        return false;
    uint8_t type = (uint8_t)rng_below(r, b->base[last]);
    uint8_t *model = pick(r, b, type, any);
    if (model != NULL)
        memcpy(e, model, type == 0 ? 20 : 8);
    e[0] = type;
    if (type == 0 || type == 2)
        e[3] = 0;
    b->count++;
    return put_in(b, false, b->base_len, e, type == 0 ? 20 : 8);
}

static bool f12_swapped(struct rng *r, struct builder *b, const struct fault *f)
{
    size_t place = 0, first = 0;
    uint32_t n = 0;

    for (size_t at = 0, size, next; at < b->base_len; at = next) {
        size = entry_size(b->base, b->base_len, at, false);
        next = at + size;
        if (size == 0 || next >= b->base_len)
            break;
        if (b->base[next] > b->base[at] && b->base[next] <= 4
            && next + 8 <= b->base_len && rng_below(r, ++n) == 0)
            place = at, first = size;
    }
    if (n == 0)
        return false;

    uint8_t e[20];
    memcpy(e, b->base + place, first);
    memmove(b->base + place, b->base + place + first, 8);
    memcpy(b->base + place + 8, e, first);
    return true;
}

static bool f12_and_count(struct rng *r, struct builder *b, const struct fault *f)
{
    b->count += rng_range(r, 1, 9);
    return below_at_end(r, b, f);
}

static bool f12_then_10(struct rng *r, struct builder *b, const struct fault *f)
{
    uint8_t e[8] = { 0 };

    e[0] = type_over_4(r);
    return below_at_end(r, b, f)
        && put_in(b, false, b->base_len, e, rng_range(r, 1, 8));
}

static bool f12_then_cut(struct rng *r, struct builder *b, const struct fault *f)
{
    uint8_t e[7] = { 4 };

    return below_at_end(r, b, f)
        && put_in(b, false, b->base_len, e, rng_range(r, 1, 7));
}

const struct fault walk_faults[] = {
    { 10, "type over 4 put in", .entries = f10_put_in },
    { 10, "type over 4 changed", .entries = f10_changed },
    { 10, "type over 4, few bytes left", .entries = f10_few_bytes },
    { 10, "type over 4, then below", .entries = f10_then_12 },
    { 11, "last entry cut", .entries = f11_cut },
    { 11, "last entry cut by one", .entries = f11_cut_by_one },
    { 11, "cut and below", .entries = f11_cut_and_below },
    { 11, "count one more", f11_count_off, .x = 1 },
    { 11, "count one less", f11_count_off, .y = 1 },
    { 11, "count any", .entries = f11_count_any },
    { 11, "count off in the high byte", .entries = f11_count_high },
    { 12, "lower type at the end", .entries = below_at_end },
    { 12, "neighbours swapped", .entries = f12_swapped },
    { 12, "below, count wrong too", .entries = f12_and_count },
    { 12, "below, then type over 4", .entries = f12_then_10 },
    { 12, "below, then cut", .entries = f12_then_cut },
    { 0 },
};
