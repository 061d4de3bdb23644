/*
 * Single faults of rules 2 to 4, and of 5, 7 and 13 where it is the region that
 * ends too early.
 */
#include "faults.h"

#include <string.h>

/* ---- 2: no good floating pointer ---- */

static bool bad_signature(struct rng *r, struct draft *d)
{
    rng_alter(r, pointer_of(d) + rng_below(r, 4));
    mend_pointer(pointer_of(d));
    return true;
}

static bool bad_length(struct rng *r, struct draft *d)
{
    static const uint8_t lengths[4] = { 0, 2, 16, 255 };

    pointer_of(d)[8] = lengths[rng_below(r, 4)];
    mend_pointer(pointer_of(d));
    return true;
}

static bool bad_sum(struct rng *r, struct draft *d)
{
    rng_alter(r, pointer_of(d) + rng_range(r, 4, 15));
    return true;
}

/* Moved by some bytes off the paragraphs. */
static bool off_paragraph(struct rng *r, struct draft *d)
{
    struct piece *p = &d->piece[d->home];
    uint32_t by = rng_chance(r, 40) ? 8 : rng_range(r, 1, 15);

    if (p->length - d->at < PARAGRAPH + by)
        return false;
    memmove(p->body + d->at + by, p->body + d->at, PARAGRAPH);
    memset(p->body + d->at, 0, by);
    return true;
}

/* Cut by its region's end; where the dump allows, the rest comes after. */
static bool cut_pointer(struct rng *r, struct draft *d)
{
    struct piece *p = &d->piece[d->home];
    uint32_t keep = rng_chance(r, 40) ? 15 : rng_below(r, 16);

    p->length = d->at + keep;
    return true;
}

/* A kind that is never searched. */
static bool in_other_memory(struct rng *r, struct draft *d)
{
    d->piece[d->home].kind = 4;
    return true;
}

/* Kind 2 is not searched where a kind 1 is listed, empty or not. */
static bool behind_ebda(struct rng *r, struct draft *d)
{
    if (d->piece[d->home].kind != 2 || d->count >= REGIONS
        || draft_size(d) + RECORD + 40 > DUMP_LIMIT)
        return false;
    struct piece *p = &d->piece[add_piece(d, 1, 0xD0000000u)];
    p->length = rng_chance(r, 60) ? 0 : rng_below(r, 40);
    rng_fill(r, p->body, p->length);
    return true;
}

static bool no_regions(struct rng *r, struct draft *d)
{
    d->count = 0;
    return true;
}

/* ---- 3 and 4 ---- */

static bool bad_revision(struct rng *r, struct draft *d)
{
    uint8_t *p = pointer_of(d);

    if (rng_chance(r, 50))
        p[9] = (uint8_t)(rng_chance(r, 50) ? 1 : rng_chance(r, 50) ? 3 : 5);
    else
        rng_alter(r, p + 9);
    if (rng_chance(r, 30))
        p[11] = rng_byte(r);   /* 3 comes before 4 */
    mend_pointer(p);
    return true;
}

static bool high_feature(struct rng *r, struct draft *d)
{
    uint8_t *p = pointer_of(d);

    p[11] = (uint8_t)(rng_chance(r, 40) ? 8 : rng_range(r, 8, 255));
    if (rng_chance(r, 30))
        put_le(p + 4, 0, 4);
    mend_pointer(p);
    return true;
}

static bool default_with_address(struct rng *r, struct draft *d)
{
    uint8_t *p = pointer_of(d);

    if (d->table_size == 0)
        put_le(p + 4, (uint64_t)1 << rng_below(r, 32), 4);
    else
        p[11] = (uint8_t)rng_range(r, 1, 7);
    mend_pointer(p);
    return true;
}

static bool no_address(struct rng *r, struct draft *d)
{
    uint8_t *p = pointer_of(d);

    p[11] = 0;
    put_le(p + 4, 0, 4);
    mend_pointer(p);
    return true;
}

/* ---- 5, 7 and 13: the region that holds the address ends too early ---- */

static bool no_such_place(struct rng *r, struct draft *d)
{
    uint32_t address = (uint32_t)rng_next(r);
    const struct piece *p = &d->piece[rng_below(r, d->count)];

    if (rng_chance(r, 60))
        address = rng_chance(r, 50) ? p->base + p->length : p->base - 1;
    if (d->table_size == 0 || address == 0)
        return false;
    for (uint32_t i = 0; i < d->count; i++)
        if (address >= d->piece[i].base
            && address - d->piece[i].base < d->piece[i].length)
            return false;
    put_le(pointer_of(d) + 4, address, 4);
    mend_pointer(pointer_of(d));
    return true;
}

/*
 * Parts the table's region in two that touch, at a paragraph.  They are not
 * joined, so what the table lacks before the cut decides.
 */
static bool part_at(struct draft *d, uint32_t cut)
{
    struct piece *low = &d->piece[d->table_home];

    if (d->table_size == 0 || d->home == d->table_home || d->count >= REGIONS
        || cut % PARAGRAPH != 0 || cut >= low->length
        || draft_size(d) + RECORD > DUMP_LIMIT)
        return false;
    struct piece *high = &d->piece[add_piece(d, 4, low->base + cut)];
    high->length = low->length - cut;
    memcpy(high->body, low->body + cut, high->length);
    low->length = cut;
    return true;
}

/* A cut so many bytes into the table that from is in and to is not. */
static bool part_between(struct rng *r, struct draft *d, uint32_t from, uint32_t to)
{
    uint32_t low = (d->table_at + from + PARAGRAPH - 1) / PARAGRAPH;
    uint32_t high = (d->table_at + to - 1) / PARAGRAPH;

    return to > from && low <= high
        && part_at(d, PARAGRAPH * rng_range(r, low, high));
}

static const uint8_t *table_of(const struct draft *d)
{
    return d->piece[d->table_home].body + d->table_at;
}

static bool part_header(struct rng *r, struct draft *d)
{
    return d->table_size != 0 && part_between(r, d, 1, HEADER);
}

static bool part_base(struct rng *r, struct draft *d)
{
    return d->table_size != 0
        && part_between(r, d, HEADER, (uint32_t)base_of(table_of(d)));
}

static bool part_extended(struct rng *r, struct draft *d)
{
    if (d->table_size == 0)
        return false;
    uint32_t base = (uint32_t)base_of(table_of(d));

    return part_between(r, d, base, base + (uint32_t)ext_of(table_of(d)));
}

const struct fault pointer_faults[] = {
    { 2, "pointer's signature", .draft = bad_signature },
    { 2, "pointer's length", .draft = bad_length },
    { 2, "pointer's sum", .draft = bad_sum },
    { 2, "pointer off the paragraphs", .draft = off_paragraph },
    { 2, "pointer cut by its region's end", .draft = cut_pointer },
    { 2, "pointer in kind 4", .draft = in_other_memory },
    { 2, "pointer in kind 2 beside kind 1", .draft = behind_ebda },
    { 2, "no regions", .draft = no_regions },
    { 3, "pointer's revision", .draft = bad_revision },
    { 4, "feature byte over 7", .draft = high_feature },
    { 4, "default with an address", .draft = default_with_address },
    { 4, "neither default nor address", .draft = no_address },
    { 5, "no region at the address", .draft = no_such_place },
    { 5, "header over two touching regions", .draft = part_header },
    { 7, "base over two touching regions", .draft = part_base },
    { 13, "extended part over two touching regions", .draft = part_extended },
    { 0 },
};
