/*
 * Cases whose answer is not known beforehand: several faults at once, damage,
 * splices, random bytes, and cut or wrongly measured tables.
 */
#include "faults.h"

#include <string.h>

void several_faults(struct rng *r, struct test_case *c)
{
    struct builder b;
    const struct fault *late = random_fault(r);
    uint32_t n = rng_range(r, 2, 3);

    sound_table(r, &b);
    while (n > 0) {
        const struct fault *f = random_fault(r);

        if (f->rule == 7 || f->entries == NULL)
            n--;
        else if (f->entries(r, &b, f) || rng_chance(r, 20))
            n--;
        if (b.base_len > PART_LIMIT || b.ext_len > PART_LIMIT)
            break;
    }
    c->size = seal(&b, c->bytes);
    if (late->image != NULL && base_of(c->bytes) > HEADER
        && c->size <= 2 * PART_LIMIT && late->rule != 13)
        late->image(r, c);
    c->label = "several faults";
    c->expected = -1;
}

void damaged(struct rng *r, struct test_case *c)
{
    static const uint8_t telling[12] = {
        0, 1, 2, 3, 4, 5, 8, 20, 127, 128, 129, 255
    };

    sound_case(r, c);
    for (uint32_t n = 1 + rng_few(r, 8); n > 0; n--) {
        size_t at = rng_below(r, (uint32_t)c->size);
        if (rng_chance(r, 15))
            at = rng_below(r, HEADER);
        c->bytes[at] = rng_chance(r, 40) ? telling[rng_below(r, 12)]
                     : rng_chance(r, 50) ? c->bytes[at] ^ 1u << rng_below(r, 8)
                     : rng_byte(r);
    }
    if (rng_chance(r, 10))
        c->size = rng_below(r, (uint32_t)c->size + 1);
    c->label = "damaged";
    if (rng_chance(r, 85)) {
        mend(c->bytes, c->size);
        c->label = "damaged and mended";
    }
    c->expected = -1;
}

void spliced(struct rng *r, struct test_case *c)
{
    sound_case(r, c);
    size_t end = c->size;
    size_t unit = rng_chance(r, 70) ? 4 : 1;
    size_t n = unit * rng_range(r, 1, 12);

    if (end > HEADER + 2 * n + 8) {
        size_t span = (end - HEADER - n) / unit;
        size_t from = HEADER + unit * rng_below(r, (uint32_t)span);
        size_t to = HEADER + unit * rng_below(r, (uint32_t)span);
        if (rng_chance(r, 80))
            memmove(c->bytes + to, c->bytes + from, n);
        else
            memset(c->bytes + to, rng_chance(r, 50) ? 0 : 255, n);
    }
    mend(c->bytes, c->size);
    c->label = "spliced";
    c->expected = -1;
}

void random_bytes(struct rng *r, struct test_case *c)
{
    c->size = rng_chance(r, 50) ? rng_below(r, 100) : rng_below(r, 9000);
    rng_fill(r, c->bytes, c->size);
    c->label = "random bytes";
    c->expected = -1;
    if (c->size < HEADER || rng_chance(r, 30))
        return;

    memcpy(c->bytes, "PCMP", 4);
    c->label = "random bytes after PCMP";
    if (rng_chance(r, 20))
        return;
    size_t base = rng_range(r, HEADER, (uint32_t)(c->size < 4096 ? c->size : 4096));
    put_le(c->bytes + 4, rng_chance(r, 50) ? HEADER : base, 2);
    c->bytes[6] = 4;
    if (rng_chance(r, 80))
        put_le(c->bytes + 34, 0, 2);
    put_le(c->bytes + 40, rng_below(r, (uint32_t)(c->size - base) + 1), 2);
    mend(c->bytes, c->size);
}

void ill_measured(struct rng *r, struct test_case *c)
{
    sound_case(r, c);
    size_t end = base_of(c->bytes) + ext_of(c->bytes);
    size_t field = rng_chance(r, 50) ? 4 : 40;
    c->expected = -1;
    switch (rng_below(r, 4)) {
    case 0:
        c->size = rng_below(r, (uint32_t)end);
        c->label = "cut anywhere";
        break;
    case 1:
        put_le(c->bytes + 4, rng_below(r, 65536), 2);
        c->label = "any base length";
        break;
    case 2:
        put_le(c->bytes + 40, rng_below(r, 65536), 2);
        c->label = "any extended length";
        break;
    default:
        /* Near the true values, either way. */
        put_le(c->bytes + field, rng_below(r, (uint32_t)c->size + 40), 2);
        c->label = "another length";
    }
    if (rng_chance(r, 80))
        mend(c->bytes, c->size);
}
