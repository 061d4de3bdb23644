/*
 * Parts of tables for a writer: of sound tables, of tables with one fault that
 * a writer cannot mend, of limits met and passed, and random bytes.
 */
#include "faults.h"

#include <string.h>

static size_t least(size_t a, size_t b)
{
    return a < b ? a : b;
}

/* A name as it stands in a header: cut, or filled up with zeros. */
static void fit(uint8_t *field, size_t size, const uint8_t *name, size_t length)
{
    memset(field, 0, size);
    memcpy(field, name, least(length, size));
}

void finish_parts(struct parts_case *c, const char *label, int expected,
                  size_t oem_length, size_t product_length)
{
    struct builder *b = &c->b;

    c->label = label;
    c->expected = expected;
    c->oem = c->name[0], c->oem_length = oem_length;
    c->product = c->name[1], c->product_length = product_length;
    fit(b->header + 8, OEM_ID, c->oem, oem_length);
    fit(b->header + 16, PRODUCT, c->product, product_length);
    c->header = b->header;
    c->base = b->base, c->base_length = b->base_len;
    c->ext = b->ext, c->ext_length = b->ext_len;
    c->image = c->sealed;
    if (expected == 0)
        seal(b, c->sealed);
}

void parts_of(const uint8_t *bytes, size_t n, struct parts_case *c)
{
    size_t base = least(base_of(bytes) < HEADER ? HEADER : base_of(bytes), n);

    c->header = bytes;
    c->oem = bytes + 8, c->oem_length = OEM_ID;
    c->product = bytes + 16, c->product_length = PRODUCT;
    c->base = bytes + HEADER, c->base_length = base - HEADER;
    c->ext = bytes + base, c->ext_length = least(ext_of(bytes), n - base);
    c->image = bytes;
}

/* Names of the right length mostly, and of any. */
static void finish_any(struct rng *r, struct parts_case *c, const char *label,
                       int expected)
{
    size_t oem_length = OEM_ID, product_length = PRODUCT;

    rng_fill(r, c->name[0], NAME_ROOM);
    rng_fill(r, c->name[1], NAME_ROOM);
    if (rng_chance(r, 30))
        oem_length = rng_below(r, rng_chance(r, 50) ? OEM_ID + 2 : NAME_ROOM + 1);
    if (rng_chance(r, 30))
        product_length = rng_below(r, rng_chance(r, 50) ? PRODUCT + 2
                                                        : NAME_ROOM + 1);
    finish_parts(c, label, expected, oem_length, product_length);
}

/* Counts the entries; false where the base is not whole entries. */
static bool recount(struct builder *b)
{
    b->count = 0;
    for (size_t at = 0, size; at < b->base_len; at += size) {
        size = entry_size(b->base, b->base_len, at, false);
        if (size == 0)
            return false;
        b->count++;
    }
    return true;
}

/* ---- one fault ---- */

/* The writer takes no revision and no finished image. */
static bool reaches_writer(const struct fault *f)
{
    return f->entries != NULL && f->image == NULL && f->rule != 9;
}

static void fault_parts(struct rng *r, struct parts_case *c)
{
    const struct fault *f;

    do
        f = random_fault(r);
    while (!reaches_writer(f));
    do
        sound_table(r, &c->b);
    while (!f->entries(r, &c->b, f));
    /* A wrong count alone is no fault: the writer counts by itself. */
    bool counted = recount(&c->b) && f->rule == 11;
    finish_any(r, c, f->name, counted ? 0 : f->rule);
}

/* ---- limits met and passed, and random bytes ---- */

/* What the lengths alone decide. */
static int by_length(const struct builder *b)
{
    return b->base_len > PART_LIMIT - HEADER ? 7
         : b->ext_len > PART_LIMIT ? 13 : -1;
}

static void stretch_base(struct rng *r, struct builder *b, size_t goal)
{
    uint8_t bus = rng_byte(r);
    uint8_t *listed = pick(r, b, 1, any);

    if (listed != NULL)
        bus = listed[1];
    while (b->base_len + 8 <= goal)
        add_interrupt(b, 4, 0, 0, bus, rng_byte(r), 255, 1);
    while (b->base_len < goal)
        b->base[b->base_len++] = 4;
}

static void stretch_ext(struct rng *r, struct builder *b, size_t goal)
{
    while (b->ext_len + 2 <= goal) {
        size_t left = goal - b->ext_len;
        uint8_t length = (uint8_t)(left < 200 ? left : rng_range(r, 2, 190));
        add_unknown(b, 255, length, 0x33);
    }
    while (b->ext_len < goal)
        b->ext[b->ext_len++] = 255;
}

static void edge_parts(struct rng *r, struct parts_case *c)
{
    struct builder *b = &c->b;

    sound_table(r, b);
    uint32_t which = rng_below(r, 3);   /* base, extended, both */
    if (which != 1 && rng_chance(r, 15))
        b->base_len = 0;
    else if (which != 1)
        stretch_base(r, b, PART_LIMIT - HEADER - 2 + rng_below(r, 5));
    if (which != 0)
        stretch_ext(r, b, PART_LIMIT - 2 + rng_below(r, 5));
    finish_any(r, c, "lengths of 44 and around 4,096", by_length(b));
}

/* Random bytes; or such that a walk comes further. */
static size_t random_part(struct rng *r, uint8_t *part, bool ext)
{
    size_t n = rng_below(r, rng_chance(r, 70) ? 100 : PART_LIMIT + 100);
    bool low = !ext && rng_chance(r, 60);

    rng_fill(r, part, n);
    if (low)
        for (size_t i = 0; i < n; i++)
            part[i] %= 5;
    if (ext && n >= 2 && rng_chance(r, 60))
        part[0] |= 128, part[1] = (uint8_t)rng_range(r, 2, (uint32_t)least(n, 255));
    return n;
}

static void random_parts(struct rng *r, struct parts_case *c)
{
    struct builder *b = &c->b;

    sound_table(r, b);
    uint32_t which = rng_below(r, 3);   /* base, extended, both */
    if (which != 1)
        b->base_len = random_part(r, b->base, false);
    if (which != 0)
        b->ext_len = random_part(r, b->ext, true);
    finish_any(r, c, "random bytes as parts", by_length(b));
}

void gen_parts(struct rng *r, struct parts_case *c)
{
    uint32_t roll = rng_below(r, 100);

    if (roll < 47) {
        sound_table(r, &c->b);
        finish_any(r, c, "sound parts", 0);
    } else if (roll < 78) {
        fault_parts(r, c);
    } else if (roll < 91) {
        edge_parts(r, c);
    } else {
        random_parts(r, c);
    }
}
