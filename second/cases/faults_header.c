/* Single faults, rules 5 to 9: the header, and the base part as a whole. */
#include "faults.h"

#include <string.h>

/* ---- 5: 44 header bytes not in one region ---- */

static bool f5_short(struct rng *r, struct test_case *c)
{
    c->size = rng_below(r, HEADER);
    return true;
}

static bool f5_43(struct rng *r, struct test_case *c)
{
    c->size = HEADER - 1;
    return true;
}

/* ---- 6: not "PCMP" ---- */

static bool f6_byte(struct rng *r, struct test_case *c)
{
    uint32_t at = rng_below(r, 4);

    rng_alter(r, &c->bytes[at]);
    mend(c->bytes, c->size);
    return true;
}

static bool f6_case(struct rng *r, struct test_case *c)
{
    c->bytes[rng_below(r, 4)] ^= 0x20;
    mend(c->bytes, c->size);
    return true;
}

/* ---- 7: base length under 44, over 4,096 or past the region ---- */

static bool state_base(struct test_case *c, size_t length)
{
    put_le(c->bytes + 4, length, 2);
    mend(c->bytes, c->size);
    return true;
}

static bool f7_under(struct rng *r, struct test_case *c)
{
    return state_base(c, rng_below(r, HEADER));
}

static bool f7_43(struct rng *r, struct test_case *c)
{
    return state_base(c, HEADER - 1);
}

static bool f7_over_entries(struct rng *r, struct builder *b, const struct fault *f)
{
    size_t goal = rng_chance(r, 50) ? PART_LIMIT - HEADER
                                    : rng_range(r, PART_LIMIT, PART_ROOM - 8);
    uint8_t *last = pick_interrupt(r, b);

    if (last == NULL)
        return false;
    uint8_t e[8];
    memcpy(e, last, 8);
    size_t at = (size_t)(last - b->base);
    while (b->base_len <= goal) {
        memmove(b->base + at + 8, b->base + at, b->base_len - at);
        memcpy(b->base + at, e, 8);
        b->base_len += 8;
        b->count++;
    }
    return true;
}

static bool f7_over_stated(struct rng *r, struct test_case *c)
{
    size_t length = rng_chance(r, 40) ? PART_LIMIT + 1
                                      : rng_range(r, PART_LIMIT + 1, 65535);

    if (c->size < length) {
        rng_fill(r, c->bytes + c->size, length - c->size);
        c->size = length;
    }
    return state_base(c, length);
}

static bool f7_cut(struct rng *r, struct test_case *c)
{
    if (base_of(c->bytes) <= HEADER)
        return false;
    c->size = rng_range(r, HEADER, (uint32_t)base_of(c->bytes) - 1);
    return true;
}

static bool f7_cut_by_one(struct rng *r, struct test_case *c)
{
    c->size = base_of(c->bytes) - 1;
    return c->size >= HEADER;
}

static bool f7_stated_past(struct rng *r, struct test_case *c)
{
    if (c->size >= PART_LIMIT)
        return false;
    return state_base(c, rng_range(r, (uint32_t)c->size + 1, PART_LIMIT));
}

/* ---- 8: base sum ---- */

static bool f8_checksum(struct rng *r, struct test_case *c)
{
    rng_alter(r, &c->bytes[7]);
    return true;
}

static bool f8_byte(struct rng *r, struct test_case *c)
{
    uint32_t at = rng_range(r, 7, (uint32_t)base_of(c->bytes) - 1);

    rng_alter(r, &c->bytes[at]);
    return true;
}

static bool f8_last_byte(struct rng *r, struct test_case *c)
{
    rng_alter(r, &c->bytes[base_of(c->bytes) - 1]);
    return true;
}

static bool f8_header_only(struct rng *r, struct test_case *c)
{
    uint8_t before = c->bytes[7];

    c->bytes[7] = 0;
    c->bytes[7] = (uint8_t)-byte_sum(c->bytes, HEADER);
    return c->bytes[7] != before;
}

static bool f8_with_extended(struct rng *r, struct test_case *c)
{
    uint8_t before = c->bytes[7];

    c->bytes[7] = 0;
    c->bytes[7] = (uint8_t)-byte_sum(c->bytes,
                                     base_of(c->bytes) + ext_of(c->bytes));
    return c->bytes[7] != before;
}

/* ---- 9: table revision not 4 ---- */

static bool f9_revision(struct rng *r, struct builder *b, const struct fault *f)
{
    static const uint8_t near[4] = { 1, 3, 5, 0 };

    b->header[6] = rng_chance(r, 50) ? near[rng_below(r, 4)]
                                     : 4 ^ (uint8_t)rng_range(r, 1, 255);
    return true;
}

const struct fault header_faults[] = {
    { 5, "buffer under 44", .image = f5_short },
    { 5, "buffer of 43", .image = f5_43 },
    { 6, "signature byte", .image = f6_byte },
    { 6, "signature in lower case", .image = f6_case },
    { 7, "base length under 44", .image = f7_under },
    { 7, "base length 43", .image = f7_43 },
    { 7, "base over 4,096, whole entries", .entries = f7_over_entries },
    { 7, "base over 4,096, stated", .image = f7_over_stated },
    { 7, "base past the buffer, cut", .image = f7_cut },
    { 7, "base past the buffer by one", .image = f7_cut_by_one },
    { 7, "base past the buffer, stated", .image = f7_stated_past },
    { 8, "base checksum", .image = f8_checksum },
    { 8, "base byte changed", .image = f8_byte },
    { 8, "last base byte changed", .image = f8_last_byte },
    { 8, "sum of the header only", .image = f8_header_only },
    { 8, "sum with the extended part", .image = f8_with_extended },
    { 9, "revision", .entries = f9_revision },
    { 0 },
};
