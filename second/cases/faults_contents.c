/* Single faults of rule 1: the dump breaks a rule of its own section. */
#include "faults.h"

#include <string.h>

/* ---- in the draft ---- */

/* One more region, of some bytes, where nothing else is; NULL if all are used. */
static struct piece *one_more(struct rng *r, struct draft *d, uint8_t kind,
                              uint32_t base, uint32_t length)
{
    if (d->count >= REGIONS || draft_size(d) + RECORD + length > DUMP_LIMIT)
        return NULL;

    struct piece *p = &d->piece[add_piece(d, kind, base)];
    p->length = length;
    rng_fill(r, p->body, length);
    return p;
}

static struct piece *random_piece(struct rng *r, struct draft *d)
{
    return &d->piece[rng_below(r, d->count)];
}

static bool nine_regions(struct rng *r, struct draft *d)
{
    if (draft_size(d) + RECORD * (REGIONS + 1 - d->count) > DUMP_LIMIT)
        return false;
    while (d->count < REGIONS + 1)
        add_piece(d, 4, 0xD0000000u);
    return true;
}

static bool bad_kind(struct rng *r, struct draft *d)
{
    static const uint8_t kinds[4] = { 0, 5, 6, 255 };
    uint8_t kind = kinds[rng_below(r, 4)];

    /* Not the pointer's: its kind is needed for nothing else to be wrong. */
    return one_more(r, d, kind, 0xD0000000u, rng_below(r, 40)) != NULL;
}

static bool odd_base(struct rng *r, struct draft *d)
{
    struct piece *p = one_more(r, d, 4, 0xD0000000u, rng_below(r, 40));

    if (p != NULL)
        p->base += rng_chance(r, 50) ? 1u << rng_below(r, 4) : rng_range(r, 1, 15);
    return p != NULL;
}

static bool past_the_top(struct rng *r, struct draft *d)
{
    uint32_t steps = 1 + rng_few(r, 8);
    struct piece *p = one_more(r, d, 4, 0u - PARAGRAPH * steps,
                               PARAGRAPH * steps + 1 + rng_few(r, 40));

    return p != NULL && !crowded(d, d->count - 1);
}

/* Kind 1 or 2 with 1,025 bytes or more; absent before or made longer. */
static bool long_low(struct rng *r, struct draft *d, uint8_t kind)
{
    uint32_t length = 1025 + (rng_chance(r, 50) ? 0 : rng_below(r, 100));
    int k = piece_of_kind(d, kind);

    if (k < 0)
        return one_more(r, d, kind, 0xD0000000u, length) != NULL;
    struct piece *p = &d->piece[k];
    if (draft_size(d) - p->length + length > DUMP_LIMIT)
        return false;
    memset(p->body + p->length, 0, length - p->length);
    p->length = length;
    return !crowded(d, (uint32_t)k);
}

static bool long_ebda(struct rng *r, struct draft *d) { return long_low(r, d, 1); }
static bool long_base(struct rng *r, struct draft *d) { return long_low(r, d, 2); }

static bool low_rom(struct rng *r, struct draft *d)
{
    uint32_t base = rng_chance(r, 70) ? 0xEFFF0 : 0xE0000;

    return piece_of_kind(d, 3) < 0
        && one_more(r, d, 3, base, rng_below(r, 17)) != NULL
        && !crowded(d, d->count - 1);
}

static bool high_rom(struct rng *r, struct draft *d)
{
    uint32_t steps = rng_below(r, 5);
    struct piece *p;

    if (piece_of_kind(d, 3) >= 0)
        return false;
    p = one_more(r, d, 3, 0x100000 - PARAGRAPH * steps, PARAGRAPH * steps + 1);
    if (p != NULL && rng_chance(r, 20))
        p->base = 0x100010, p->length = 0;   /* empty, but past the window */
    return p != NULL && !crowded(d, d->count - 1);
}

static bool twice(struct rng *r, struct draft *d)
{
    uint8_t kind = d->piece[rng_below(r, d->count)].kind;
    uint32_t base = kind == 3 ? 0xF0000 + PARAGRAPH * rng_below(r, 4096) : 0xD0000000u;

    return kind != 4
        && one_more(r, d, kind, base, rng_chance(r, 50) ? 0 : rng_below(r, 40)) != NULL
        && !crowded(d, d->count - 1);
}

static bool two_empty(struct rng *r, struct draft *d)
{
    uint8_t kind = (uint8_t)rng_range(r, 1, 3);
    uint32_t base = kind == 3 ? 0x100000 : 0xD0000000u;

    return piece_of_kind(d, kind) < 0 && one_more(r, d, kind, base, 0) != NULL
        && one_more(r, d, kind, base, 0) != NULL;
}

/* A region over another's last bytes, often its last one only. */
static bool overlap(struct rng *r, struct draft *d)
{
    const struct piece *p = random_piece(r, d);
    uint32_t last = p->length == 0 ? 0 : (p->length - 1) / PARAGRAPH * PARAGRAPH;

    return p->length > 0 && (p->kind == 4 || rng_chance(r, 50))
        && one_more(r, d, 4, p->base + last, 1 + rng_few(r, 40)) != NULL;
}

/* The same where it is the later region's last bytes that are shared. */
static bool overlap_before(struct rng *r, struct draft *d)
{
    const struct piece *p = random_piece(r, d);
    uint32_t steps = rng_below(r, 3);

    return p->length > 0 && p->base >= PARAGRAPH * steps
        && one_more(r, d, 4, p->base - PARAGRAPH * steps,
                    PARAGRAPH * steps + 1 + rng_few(r, 40)) != NULL;
}

/* 65,537 bytes, all of them announced. */
static bool one_too_long(struct rng *r, struct draft *d)
{
    uint32_t length = (uint32_t)(DUMP_LIMIT + 1 - draft_size(d));

    if (d->count >= REGIONS || length < RECORD)
        return false;
    struct piece *p = &d->piece[add_piece(d, 4, 0xD0000000u)];
    p->length = length - RECORD;
    if (rng_chance(r, 50))
        p->length += rng_below(r, 60);
    memset(p->body, 0, p->length);
    return true;
}

/* ---- in the finished dump ---- */

static bool empty_file(struct rng *r, struct test_case *c)
{
    c->size = 0;
    return true;
}

static bool wild_count(struct rng *r, struct test_case *c)
{
    c->bytes[0] = (uint8_t)(rng_chance(r, 50) ? 9 : rng_range(r, 9, 255));
    return true;
}

static bool cut_contents(struct rng *r, struct test_case *c)
{
    c->size = rng_range(r, 1, RECORD * c->bytes[0]);
    return true;
}

static bool cut_bodies(struct rng *r, struct test_case *c)
{
    size_t first = 1 + RECORD * c->bytes[0];

    if (c->size == first)
        return false;
    c->size = rng_chance(r, 50) ? c->size - 1
            : first + rng_below(r, (uint32_t)(c->size - first));
    return true;
}

static bool bytes_behind(struct rng *r, struct test_case *c)
{
    uint32_t n = rng_chance(r, 50) ? 1 : rng_range(r, 1, 60);

    if (c->size + n > DUMP_LIMIT)
        return false;
    rng_fill(r, c->bytes + c->size, n);
    c->size += n;
    return true;
}

static bool other_length(struct rng *r, struct test_case *c)
{
    uint8_t *field = c->bytes + 1 + RECORD * rng_below(r, c->bytes[0]) + 5;
    uint32_t length = get_le(field, 4);

    if (rng_chance(r, 30))
        rng_alter(r, field + rng_below(r, 4));
    else
        put_le(field, rng_chance(r, 50) ? length + 1 : length - 1, 4);
    return true;
}

const struct fault contents_faults[] = {
    { 1, "empty file", .image = empty_file },
    { 1, "nine regions", .draft = nine_regions },
    { 1, "count over 8", .image = wild_count },
    { 1, "contents cut", .image = cut_contents },
    { 1, "bodies cut", .image = cut_bodies },
    { 1, "bytes after the last body", .image = bytes_behind },
    { 1, "a length that differs from its body's", .image = other_length },
    { 1, "over 65,536 bytes", .draft = one_too_long },
    { 1, "no such kind", .draft = bad_kind },
    { 1, "base not a multiple of 16", .draft = odd_base },
    { 1, "past 2^32", .draft = past_the_top },
    { 1, "kind 1 over 1,024", .draft = long_ebda },
    { 1, "kind 2 over 1,024", .draft = long_base },
    { 1, "kind 3 below F0000h", .draft = low_rom },
    { 1, "kind 3 past 100000h", .draft = high_rom },
    { 1, "a kind twice", .draft = twice },
    { 1, "a kind twice, both empty", .draft = two_empty },
    { 1, "regions sharing an address", .draft = overlap },
    { 1, "regions sharing an address, the later below", .draft = overlap_before },
    { 0 },
};
