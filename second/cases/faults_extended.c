/* Single faults, rule 13: the extended part and the walk over its entries. */
#include "faults.h"

#include <string.h>

static bool f13_over(struct rng *r, struct builder *b, const struct fault *f)
{
    size_t goal = rng_chance(r, 50) ? PART_LIMIT + 1
                                    : rng_range(r, PART_LIMIT + 1, PART_ROOM - 300);

    if (goal - b->ext_len == 1)
        return false;
    while (b->ext_len < goal) {
        size_t left = goal - b->ext_len;
        uint8_t length = left >= 257 ? 255 : left > 255 ? 128 : (uint8_t)left;
        add_unknown(b, 255, length, 0xA5);
    }
    return true;
}

static bool f13_cut_buffer(struct rng *r, struct test_case *c)
{
    if (ext_of(c->bytes) == 0)
        return false;
    c->size = base_of(c->bytes) + rng_below(r, (uint32_t)ext_of(c->bytes));
    return true;
}

static bool f13_cut_buffer_by_one(struct rng *r, struct test_case *c)
{
    if (ext_of(c->bytes) == 0)
        return false;
    c->size = base_of(c->bytes) + ext_of(c->bytes) - 1;
    return true;
}

static bool f13_stated_past(struct rng *r, struct test_case *c)
{
    size_t left = c->size - base_of(c->bytes);

    put_le(c->bytes + 40, rng_chance(r, 40) ? left + 1
                          : rng_range(r, (uint32_t)left + 1, 65535), 2);
    mend(c->bytes, c->size);
    return true;
}

static bool f13_stated_over(struct rng *r, struct test_case *c)
{
    size_t length = rng_chance(r, 40) ? PART_LIMIT + 1
                                      : rng_range(r, PART_LIMIT + 1, 60000);
    size_t size = base_of(c->bytes) + length;

    if (c->size < size) {
        memset(c->bytes + c->size, 0xFF, size - c->size);
        c->size = size;
    }
    put_le(c->bytes + 40, length, 2);
    mend(c->bytes, c->size);
    return true;
}

static void mend_base_only(struct test_case *c)
{
    c->bytes[7] = 0;
    c->bytes[7] = (uint8_t)-byte_sum(c->bytes, base_of(c->bytes));
}

static bool f13_checksum(struct rng *r, struct test_case *c)
{
    if (ext_of(c->bytes) == 0)
        return false;
    rng_alter(r, &c->bytes[42]);
    mend_base_only(c);
    return true;
}

static bool f13_byte_42_alone(struct rng *r, struct builder *b,
                              const struct fault *f)
{
    b->ext_len = 0;
    return true;
}

static bool f13_byte_42_alone_image(struct rng *r, struct test_case *c)
{
    if (ext_of(c->bytes) != 0)
        return false;
    c->bytes[42] = (uint8_t)rng_range(r, 1, 255);
    mend_base_only(c);
    return true;
}

/* A changed byte that decides nothing but the sum: inside an unknown entry. */
static bool f13_sum_of_unknown(struct rng *r, struct test_case *c)
{
    size_t end = base_of(c->bytes) + ext_of(c->bytes);
    size_t found = 0;
    uint32_t n = 0;

    for (size_t at = base_of(c->bytes); at < end; at += c->bytes[at + 1])
        if (c->bytes[at] > 130 && c->bytes[at + 1] > 2 && rng_below(r, ++n) == 0)
            found = at + rng_range(r, 2, c->bytes[at + 1] - 1u);
    if (n == 0)
        return false;
    rng_alter(r, &c->bytes[found]);
    return true;
}

static bool f13_one_byte_over(struct rng *r, struct builder *b,
                              const struct fault *f)
{
    uint8_t e = (uint8_t)rng_range(r, 128, 255);

    if (rng_chance(r, 50))
        e = 255;
    return put_in(b, true, b->ext_len, &e, 1);
}

static bool f13_cut_unknown(struct rng *r, struct builder *b, const struct fault *f)
{
    uint8_t e[255];
    uint8_t length = (uint8_t)rng_range(r, 3, 255);

    rng_fill(r, e, sizeof e);
    e[0] = 255, e[1] = length;
    return put_in(b, true, b->ext_len, e,
                  rng_chance(r, 50) ? length - 1u : rng_range(r, 2, length - 1u));
}

static bool f13_cut_known(struct rng *r, struct builder *b, const struct fault *f)
{
    size_t at = 0, size;

    while (at < b->ext_len) {
        size = entry_size(b->ext, b->ext_len, at, true);
        if (size < 2)
            return false;
        if (at + size == b->ext_len)
            break;
        at += size;
    }
    if (at >= b->ext_len || b->ext[at] > 130)
        return false;
    b->ext_len = rng_range(r, (uint32_t)at + 1, (uint32_t)b->ext_len - 1);
    return true;
}

static bool f13_length_under_2(struct rng *r, struct builder *b,
                               const struct fault *f)
{
    uint8_t e[8] = { 0 };
    size_t n = rng_chance(r, 50) ? 2 : 8;

    e[0] = (uint8_t)(rng_chance(r, 60) ? rng_range(r, 131, 255)
                                       : rng_range(r, 128, 130));
    e[1] = f->x;
    /* After a length of 1 the rest would be a whole entry. */
    e[2] = 2;
    return put_in(b, true, rng_chance(r, 30) ? b->ext_len : place_of(r, b, e[0]),
                  e, n);
}

static bool f13_type_under_128(struct rng *r, struct builder *b,
                               const struct fault *f)
{
    uint8_t e[20] = { 0 };

    e[0] = (uint8_t)(rng_chance(r, 30) ? 127 : rng_below(r, 128));
    e[1] = (uint8_t)rng_range(r, 2, 20);
    return put_in(b, true, rng_chance(r, 60) ? 0 : any_place(r, b, true), e, e[1]);
}

/* The lower entry is unknown too and decides nothing by its content. */
static bool f13_below_unknown(struct rng *r, struct builder *b,
                              const struct fault *f)
{
    uint8_t high = (uint8_t)rng_range(r, 132, 255);
    uint8_t e[4] = { high, 2, (uint8_t)rng_range(r, 131, high - 1u), 2 };

    return put_in(b, true, place_of(r, b, high), e, 4);
}

static bool f13_below_known(struct rng *r, struct builder *b, const struct fault *f)
{
    uint8_t type = (uint8_t)rng_range(r, 128, 130);
    uint8_t *e = pick(r, b, type, any);
    uint8_t moved[2 + 255] = { 0 };   /* another fault may have given it any length */

    if (e == NULL)
        return false;
    /* Move it behind a higher one. */
    size_t size = e[1], at = (size_t)(e - b->ext);
    if (size > b->ext_len - at)
        return false;
    moved[0] = (uint8_t)rng_range(r, 131, 255), moved[1] = 2;
    memcpy(moved + 2, e, size);
    memmove(b->ext + at, b->ext + at + size, b->ext_len - at - size);
    b->ext_len -= size;
    return put_in(b, true, place_of(r, b, moved[0]), moved, size + 2);
}

/* Moved right behind an entry of a higher type, which is known too. */
static bool f13_known_descending(struct rng *r, struct builder *b,
                                 const struct fault *f)
{
    uint8_t *high = pick(r, b, (uint8_t)rng_range(r, 129, 130), any);
    uint8_t moved[255];

    if (high == NULL)
        return false;
    uint8_t *e = pick(r, b, (uint8_t)rng_range(r, 128, high[0] - 1u), any);
    uint8_t *end = high + high[1];
    if (e == NULL || e + e[1] > high || end > b->ext + b->ext_len)
        return false;

    size_t size = e[1];
    memcpy(moved, e, size);
    memmove(e, e + size, (size_t)(end - (e + size)));
    memcpy(end - size, moved, size);
    return true;
}

/* A listed bus and fields that are sound whatever the length. */
static bool f13_other_length(struct rng *r, struct builder *b,
                             const struct fault *f)
{
    uint8_t right = f->type == 128 ? 20 : 8;
    uint8_t wrong = (uint8_t)rng_range(r, 2, 255);

    switch (rng_below(r, 4)) {
    case 0: wrong = (uint8_t)(right - 1); break;
    case 1: wrong = (uint8_t)(right + 1); break;
    case 2: wrong = (uint8_t)(28 - right); break;   /* the other known length */
    }
    uint8_t *bus = pick(r, b, 1, any);
    uint8_t e[255] = { 0 };

    if (wrong == right || bus == NULL)
        return false;
    e[0] = f->type, e[1] = wrong, e[2] = bus[1];
    return put_in(b, true, place_of(r, b, f->type), e, wrong);
}

const struct fault extended_faults[] = {
    { 13, "extended over 4,096, whole entries", .entries = f13_over },
    { 13, "extended over 4,096, stated", .image = f13_stated_over },
    { 13, "extended past the buffer, cut", .image = f13_cut_buffer },
    { 13, "extended past the buffer by one", .image = f13_cut_buffer_by_one },
    { 13, "extended past the buffer, stated", .image = f13_stated_past },
    { 13, "extended checksum", .image = f13_checksum },
    { 13, "byte 42 without extended part", f13_byte_42_alone,
      .image = f13_byte_42_alone_image },
    { 13, "byte of an unknown entry changed", .image = f13_sum_of_unknown },
    { 13, "one byte left over", .entries = f13_one_byte_over },
    { 13, "unknown entry cut", .entries = f13_cut_unknown },
    { 13, "known entry cut", .entries = f13_cut_known },
    { 13, "length 0", f13_length_under_2, .x = 0 },
    { 13, "length 1", f13_length_under_2, .x = 1 },
    { 13, "type under 128", .entries = f13_type_under_128 },
    { 13, "unknown types descending", .entries = f13_below_unknown },
    { 13, "known type after unknown", .entries = f13_below_known },
    { 13, "known types descending", .entries = f13_known_descending },
    { 13, "128 with another length", f13_other_length, .type = 128 },
    { 13, "129 with another length", f13_other_length, .type = 129 },
    { 13, "130 with another length", f13_other_length, .type = 130 },
    { 0 },
};
