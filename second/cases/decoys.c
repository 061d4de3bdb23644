/* Pointers that don't count, or come too late, beside the one that does. */
#include "draft.h"

#include <string.h>

static bool meets(uint32_t a, uint32_t n, uint32_t b, uint32_t m)
{
    return a < b + m && b < a + n;
}

/* Whether bytes of a region belong to neither the pointer nor the table. */
static bool is_free(const struct draft *d, uint32_t number, uint32_t at, uint32_t n)
{
    if (number == d->home && meets(at, n, d->at, PARAGRAPH))
        return false;
    return d->table_size == 0 || number != d->table_home
        || !meets(at, n, d->table_at, d->table_size);
}

/* Whether a good pointer there would be searched before the one that decides. */
static bool comes_before(const struct draft *d, uint32_t number, uint32_t at)
{
    uint8_t kind = d->piece[number].kind;
    bool ebda = piece_of_kind(d, 1) >= 0;

    if (number == d->home)
        return at < d->at;
    if (d->piece[d->home].kind != 3)
        return false;
    return kind == 1 || (kind == 2 && !ebda);
}

/* A good pointer, with an address or a revision that would change the answer. */
static void put_good(struct rng *r, uint8_t *p)
{
    uint32_t address = rng_chance(r, 50) ? 0 : (uint32_t)rng_next(r);
    uint8_t feature = (uint8_t)rng_below(r, 9), imcr = rng_byte(r);

    put_pointer(p, address, feature, imcr);
    if (rng_chance(r, 30))
        p[9] = rng_byte(r);
    mend_pointer(p);
}

static void spoil(struct rng *r, uint8_t *p)
{
    switch (rng_below(r, 4)) {
    case 0:
        rng_alter(r, p + rng_below(r, 4));   /* the signature */
        mend_pointer(p);
        break;
    case 1:
        rng_alter(r, p + 8);                 /* the length */
        mend_pointer(p);
        break;
    default:
        rng_alter(r, p + 10);                /* the sum, seen most often */
    }
}

/* A decoy off the paragraphs, or cut by the region's end. */
static void put_askew(struct rng *r, struct draft *d, uint32_t number, uint32_t at)
{
    struct piece *p = &d->piece[number];
    uint32_t n = PARAGRAPH;
    uint8_t good[PARAGRAPH];

    at += rng_range(r, 1, 15);
    if (at >= p->length)
        return;
    if (p->length - at < n)
        n = p->length - at;
    put_good(r, good);
    if (is_free(d, number, at, n))
        memcpy(p->body + at, good, n);
}

static void add_decoy(struct rng *r, struct draft *d)
{
    uint32_t number = rng_chance(r, 50) ? d->home : rng_below(r, d->count);
    struct piece *p = &d->piece[number];
    uint32_t at = PARAGRAPH * rng_below(r, p->length / PARAGRAPH + 1);

    /* Early in the region more often: there it stands before the good one. */
    if (number == d->home && rng_chance(r, 60))
        at = PARAGRAPH * rng_below(r, d->at / PARAGRAPH + 1);
    if (rng_chance(r, 15) || at + PARAGRAPH > p->length) {
        put_askew(r, d, number, at);
    } else if (is_free(d, number, at, PARAGRAPH)) {
        put_good(r, p->body + at);
        if (comes_before(d, number, at) || rng_chance(r, 30))
            spoil(r, p->body + at);
    }
}

/* Decoys laid over each other can make a good one; none may come first. */
static void clear_path(struct draft *d)
{
    for (uint32_t i = 0; i < d->count; i++) {
        struct piece *p = &d->piece[i];

        for (uint32_t at = 0; at + PARAGRAPH <= p->length; at += PARAGRAPH)
            if (comes_before(d, i, at) && is_free(d, i, at, PARAGRAPH)
                && memcmp(p->body + at, "_MP_", 4) == 0 && p->body[at + 8] == 1
                && byte_sum(p->body + at, PARAGRAPH) == 0)
                p->body[at]++;
    }
}

void add_decoys(struct rng *r, struct draft *d)
{
    for (uint32_t n = 1 + rng_few(r, 12); n > 0; n--)
        add_decoy(r, d);
    clear_path(d);
}
