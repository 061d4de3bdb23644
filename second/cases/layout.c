/*
 * Sound dumps: one to eight regions of all kinds in any order, touching, empty
 * or apart, with the pointer and the table anywhere they may be.
 */
#include "draft.h"

#include <string.h>

enum { KILOBYTE = 1024, ROM_BASE = 0xF0000, ROM_END = 0x100000 };

/* The most bytes a region of a kind gets here; all together stay below the limit. */
static uint32_t limit_of(uint8_t kind)
{
    return kind == 1 || kind == 2 ? KILOBYTE : 32768;
}

static uint32_t round_up(uint32_t v)
{
    return (v + PARAGRAPH - 1) / PARAGRAPH * PARAGRAPH;
}

/* A kind for one more region.  Kind 1 would keep a pointer in kind 2 unseen. */
static uint8_t free_kind(struct rng *r, const struct draft *d, uint8_t pointer)
{
    uint8_t kind = (uint8_t)rng_range(r, 1, 6);

    if (kind > 3 || piece_of_kind(d, kind) >= 0 || (kind == 1 && pointer == 2))
        return 4;
    return kind;
}

/* ---- where pointer and table stand ---- */

/* Only the pointer: some paragraphs, the pointer, some bytes. */
static void arrange_pointer(struct rng *r, struct draft *d)
{
    struct piece *p = &d->piece[d->home];
    uint32_t room = limit_of(p->kind) - PARAGRAPH;

    d->at = PARAGRAPH * rng_few(r, p->kind == 3 ? 200 : 60);
    if (d->at > room)
        d->at = 0;
    p->length = d->at + PARAGRAPH;
    if (rng_chance(r, 60))
        p->length += rng_few(r, limit_of(p->kind) - p->length);
}

/* Only the table, at any byte, up to the region's end or before it. */
static void arrange_table(struct rng *r, struct draft *d, uint32_t size, bool tight)
{
    struct piece *p = &d->piece[d->table_home];
    uint32_t room = limit_of(p->kind) - size;

    d->table_at = rng_few(r, room < 100 ? room : 100);
    p->length = d->table_at + size;
    if (!tight && rng_chance(r, 60)) {
        room = limit_of(p->kind) - p->length;
        p->length += rng_few(r, room < 400 ? room : 400);
    }
}

/*
 * The pointer inside the table, in the sixteen bytes of a processor that decide
 * nothing.  Only for a table that begins with one, which a sound table does.
 */
static void arrange_inside(struct rng *r, struct draft *d, uint32_t size)
{
    struct piece *p = &d->piece[d->home];
    uint32_t inner = HEADER + 4;

    d->table_at = (PARAGRAPH - inner % PARAGRAPH) % PARAGRAPH;
    if (size + 100 < limit_of(p->kind))
        d->table_at += PARAGRAPH * rng_below(r, 4);
    d->at = d->table_at + inner;
    p->length = d->table_at + size;
}

/* Both in one region; the table behind the pointer, before it or around it. */
static void arrange_both(struct rng *r, struct draft *d, uint32_t size, bool tight)
{
    struct piece *p = &d->piece[d->home];
    bool wide = size + 200 < limit_of(p->kind);
    uint32_t gap = wide ? rng_few(r, 40) : 0;
    uint32_t before = wide ? PARAGRAPH * rng_below(r, 4) : 0;

    d->table_home = d->home;
    if (!tight && rng_chance(r, 15)) {
        arrange_inside(r, d, size);
    } else if (tight || rng_chance(r, 60)) {
        d->at = before;
        d->table_at = d->at + PARAGRAPH + gap;
        p->length = d->table_at + size;
    } else {
        d->table_at = gap;
        d->at = round_up(gap + size) + before;
        p->length = d->at + PARAGRAPH;
    }
    if (wide && !tight && rng_chance(r, 50))
        p->length += rng_below(r, 60);
}

static void arrange(struct rng *r, struct draft *d, uint32_t size, bool tight)
{
    uint8_t kind = d->piece[d->home].kind;

    d->table_size = size;
    if (size != 0 && size + 32 <= limit_of(kind) && rng_chance(r, 50)) {
        arrange_both(r, d, size, tight);
        return;
    }
    arrange_pointer(r, d);
    if (size == 0)
        return;

    uint8_t other = free_kind(r, d, kind);
    if (size > limit_of(other))
        other = 4;
    d->table_home = add_piece(d, other, 0);
    arrange_table(r, d, size, tight);
}

/* ---- the other regions ---- */

static void add_others(struct rng *r, struct draft *d)
{
    uint32_t goal = rng_chance(r, 10) ? REGIONS : rng_range(r, 1, REGIONS);

    while (d->count < goal) {
        uint8_t kind = free_kind(r, d, d->piece[d->home].kind);
        struct piece *p = &d->piece[add_piece(d, kind, 0)];

        if (rng_chance(r, 25))
            continue;   /* empty */
        p->length = rng_few(r, rng_chance(r, 20) ? KILOBYTE : 200);
        if (rng_chance(r, 60))
            p->length = round_up(p->length);
    }
}

/* At times the dump has exactly 65,536 bytes. */
static void fill_up(struct rng *r, struct draft *d)
{
    if (d->count >= REGIONS || !rng_chance(r, 4))
        return;

    struct piece *p = &d->piece[add_piece(d, 4, 0)];
    p->length = (uint32_t)(DUMP_LIMIT - draft_size(d));
}

static void fill_bodies(struct rng *r, struct draft *d)
{
    for (uint32_t i = 0; i < d->count; i++) {
        struct piece *p = &d->piece[i];

        switch (rng_below(r, 3)) {
        case 0: memset(p->body, 0, p->length); break;
        case 1: memset(p->body, 0xFF, p->length); break;
        default: rng_fill(r, p->body, p->length);
        }
    }
}

/* ---- addresses ---- */

/* A base where this region may touch another, if that one's end allows. */
static uint64_t beside(struct rng *r, const struct draft *d, uint32_t length)
{
    const struct piece *p = &d->piece[rng_below(r, d->count)];

    if (rng_chance(r, 50) || p->base < length)
        return ((uint64_t)p->base + p->length + 15) & ~(uint64_t)15;
    return (p->base - length) & ~(uint32_t)15;
}

static uint64_t any_base(struct rng *r, const struct draft *d, uint32_t length)
{
    switch (rng_below(r, 6)) {
    case 0: return 0x9FC00;
    case 1: return (0x100000000u - length) & ~(uint64_t)15;   /* the top */
    case 2: return 0;
    case 3: return rng_next(r) & 0xFFFFFFF0;
    default: return beside(r, d, length);
    }
}

static void place_rom(struct rng *r, struct piece *p)
{
    uint32_t steps = (ROM_END - ROM_BASE - p->length) / PARAGRAPH;

    p->base = ROM_BASE + PARAGRAPH * (rng_chance(r, 20) ? steps
            : rng_chance(r, 20) ? 0 : rng_below(r, steps + 1));
}

/* Address 0 means that there is no table. */
static bool table_at_0(const struct draft *d)
{
    return d->table_size != 0 && table_address(d) == 0;
}

static void place(struct rng *r, struct draft *d)
{
    /* Far apart to begin with; then each may move where nothing is in its way. */
    for (uint32_t i = 0; i < d->count; i++) {
        if (d->piece[i].kind == 3)
            place_rom(r, &d->piece[i]);
        else
            d->piece[i].base = 0x10000000u * (i + 1);
    }
    for (uint32_t i = 0; i < d->count; i++) {
        struct piece *p = &d->piece[i];
        uint32_t old = p->base;
        uint64_t base = any_base(r, d, p->length);

        if (p->kind == 3 || base + p->length > 0x100000000u || base > UINT32_MAX)
            continue;
        p->base = (uint32_t)base;
        if (crowded(d, i) || table_at_0(d))
            p->base = old;
    }
}

static void shuffle_order(struct rng *r, struct draft *d)
{
    for (uint32_t i = 1; i < d->count; i++) {
        uint32_t j = rng_below(r, i + 1);
        uint8_t x = d->order[i];

        d->order[i] = d->order[j], d->order[j] = x;
    }
}

/* ---- all of it ---- */

static void put_all(struct rng *r, struct draft *d, const struct test_case *table)
{
    uint8_t feature = table != NULL ? 0 : (uint8_t)rng_range(r, 1, 7);
    uint8_t imcr = rng_chance(r, 40) ? rng_byte(r) : rng_chance(r, 50) ? 0x80 : 0;
    uint8_t *p = pointer_of(d);
    uint8_t *t = d->piece[d->table_home].body + d->table_at;

    if (table != NULL)
        memcpy(t, table->bytes, table->size);
    put_pointer(p, table != NULL ? table_address(d) : 0, feature, imcr);
    if (rng_chance(r, 30))
        rng_fill(r, p + 13, 3);
    mend_pointer(p);
    if (table != NULL && p >= t && p < t + table->size)
        mend(t, table->size);
}

void sound_draft(struct rng *r, struct draft *d, const struct test_case *table,
                 bool tight)
{
    uint8_t kind = (uint8_t)rng_range(r, 1, 3);

    draft_start(d);
    d->home = add_piece(d, kind, 0);
    arrange(r, d, table != NULL ? (uint32_t)table->size : 0, tight);
    add_others(r, d);
    fill_up(r, d);
    fill_bodies(r, d);
    place(r, d);
    if (rng_chance(r, 70))
        shuffle_order(r, d);
    put_all(r, d, table);
}

void sound_dump(struct rng *r, struct draft *d)
{
    static struct test_case table;

    if (rng_chance(r, 10)) {
        sound_draft(r, d, NULL, false);
    } else {
        sound_case(r, &table);
        sound_draft(r, d, &table, false);
    }
    if (rng_chance(r, 60))
        add_decoys(r, d);
}
