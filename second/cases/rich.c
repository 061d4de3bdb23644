/*
 * Sound tables that queries have much to say about.  In most sound tables the
 * interrupts come from many sources, ranges lie apart and climbs are short; so
 * here they are changed, or one long chain of buses is built.
 */
#include "cases.h"

#include <string.h>

uint64_t edge_address(struct rng *r)
{
    static const uint64_t edge[] = {
        0, 0x100, 0x3B0, 0x3BC, 0x3C0, 0x3E0, 0x400, 0x500, 0x7B0, 0x7E0, 0xFC0,
        0xFE0, 0xFC00, 0x10000, 0x10100, 0x103B0, 0x100000100u,
    };
    uint64_t at = edge[rng_below(r, sizeof edge / sizeof edge[0])];

    return at - rng_below(r, 2);   /* 0 less 1 is 2^64 - 1 */
}

/* ---- APICs and interrupts ---- */

static bool is_on(const uint8_t *e) { return e[3] & 1; }

/*
 * Switches off some of the processors or I/O APICs, or nearly all, and gives
 * some that are off the ID of one that is on.
 */
static void switch_off(struct rng *r, struct builder *b, uint8_t type)
{
    static const uint8_t often[4] = { 0, 0, 30, 95 };
    uint32_t off = often[rng_below(r, 4)];
    struct list enabled;

    EACH(b, type, e) {
        bool bootstrap = type == 0 && e[3] & 2;
        if (!bootstrap && rng_chance(r, off))
            e[3] &= 0xFE;
    }
    list_of(b, type, is_on, &enabled);
    EACH(b, type, e)
        if (!is_on(e) && enabled.n > 0 && rng_chance(r, 25))
            e[1] = list_pick(r, &enabled);
}

/* From the same source as another, or differing from it in one thing. */
static void repeat_source(struct rng *r, const struct list *buses,
                          const uint8_t *other, uint8_t *e)
{
    e[1] = other[1], e[4] = other[4], e[5] = other[5];
    if (rng_chance(r, 80))
        return;
    switch (rng_below(r, 3)) {
    case 0: e[1] = (uint8_t)rng_below(r, 4); break;
    case 1: e[4] = list_pick(r, buses); break;
    default: rng_alter(r, &e[5]);
    }
}

/* Interrupts of a type, and the type that they are sent to. */
static void rich_interrupts(struct rng *r, struct builder *b, uint8_t type,
                            uint8_t to)
{
    static const uint8_t often[4] = { 10, 50, 90, 100 };
    uint32_t same = often[rng_below(r, 4)], to_all = often[rng_below(r, 4)];
    const uint8_t *one = pick(r, b, type, any);
    struct list buses, targets;
    uint8_t other[8];

    if (one == NULL)
        return;
    memcpy(other, one, 8);
    list_of(b, 1, any, &buses);
    list_of(b, to, any, &targets);
    EACH(b, type, e) {
        if (rng_chance(r, same))
            repeat_source(r, &buses, other, e);
        e[6] = 255;
        if (targets.n > 0 && !rng_chance(r, to_all))
            e[6] = list_pick(r, &targets);
    }
}

/* ---- extended entries ---- */

/* A range that begins at an edge, and is empty, short, or up to another. */
static void rich_range(struct rng *r, uint8_t *e)
{
    uint64_t base = edge_address(r), end = edge_address(r);
    uint64_t length = rng_below(r, 4);

    if (rng_chance(r, 40) && end >= base)
        length = end - base + rng_below(r, 2);
    if (rng_chance(r, 20))
        length = base == 0 ? UINT64_MAX : 0 - base;   /* up to 2^64 */
    if (base != 0 && length > 0 - base)
        length = 0 - base;
    e[3] = (uint8_t)(rng_chance(r, 60) ? 0 : rng_below(r, 3));
    put_le(e + 4, base, 8);
    put_le(e + 12, length, 8);
}

/* Subtractive all, none, all but one, or as it comes. */
static void set_subtractive(struct rng *r, struct builder *b)
{
    uint32_t roll = rng_below(r, 100);
    uint8_t *one = pick(r, b, 129, any);

    EACH(b, 129, e)
        if (roll < 90)
            e[3] = (uint8_t)((e[3] & 0xFE) | (roll >= 10));
    if (roll >= 70 && one != NULL)
        one[3] &= 0xFE;
}

/* Mappings and modifiers mostly of a few buses, so that they meet. */
static void rich_extended(struct rng *r, struct builder *b)
{
    struct list buses, few = { .n = 0 };

    list_of(b, 1, any, &buses);
    if (buses.n == 0)
        return;
    for (uint32_t n = rng_range(r, 1, 3); n > 0; n--)
        list_add(&few, list_pick(r, &buses));
    EACH(b, 128, e) {
        if (rng_chance(r, 70))
            e[2] = list_pick(r, &few);
        if (rng_chance(r, 70))
            rich_range(r, e);
    }
    EACH(b, 130, e)
        if (rng_chance(r, 70))
            e[2] = list_pick(r, &few);
    if (rng_chance(r, 60))
        set_subtractive(r, b);
}

void rich_case(struct rng *r, struct test_case *c)
{
    struct builder b;
    bool all = rng_chance(r, 50);

    do   /* one with something to ask, or with all there is */
        sound_table(r, &b);
    while (all ? !has_all_types(&b) : pick_interrupt(r, &b) == NULL);
    switch_off(r, &b, 0);
    switch_off(r, &b, 2);
    rich_interrupts(r, &b, 3, 2);
    rich_interrupts(r, &b, 4, 0);
    rich_extended(r, &b);
    finish_case(r, &b, "rich", c);
}

/* ---- chains ---- */

/* A processor and n buses, whose IDs are in another order than the chain's. */
static void chain_base(struct rng *r, struct builder *b, const uint8_t *id,
                       uint32_t n)
{
    uint8_t order[256];

    builder_start(b, 0xFEE00000u);
    add_processor(b, rng_byte(r) & 0x7F, 3);
    rng_shuffled(r, order);
    for (uint32_t i = 0; i < 256; i++)
        if (order[i] < n)
            add_bus(b, id[order[i]], bus_names[rng_below(r, 18)]);
    for (uint32_t i = rng_few(r, 40); i > 0; i--)
        add_interrupt(b, 4, 0, 0, id[rng_below(r, n)], 0, 255, 1);
}

/* One of the chain, mostly far up. */
static uint8_t far_up(struct rng *r, const uint8_t *id, uint32_t n)
{
    uint32_t from = rng_chance(r, 60) ? n - 1 : rng_chance(r, 50) ? n / 2 : 0;

    return id[rng_range(r, from, n - 1)];
}

void chain_case(struct rng *r, struct test_case *c)
{
    struct builder b;
    uint8_t id[256], order[256];
    uint32_t n = rng_chance(r, 35) ? 256
               : rng_range(r, 2, rng_chance(r, 30) ? 12 : 256);
    bool bare = rng_chance(r, 20);
    bool mixed = rng_chance(r, 40), rising = rng_chance(r, 50);

    rng_shuffled(r, id);
    chain_base(r, &b, id, n);
    for (uint32_t i = bare ? 0 : rng_few(r, 60); i > 0; i--) {
        add_mapping(&b, far_up(r, id, n), 0, 0, 0);
        rich_range(r, b.ext + b.ext_len - 20);
    }
    rng_shuffled(r, order);
    for (uint32_t i = 0; i < 256; i++) {
        uint32_t k = mixed ? order[i] : rising ? i : 255 - i;
        if (k + 1 < n)
            add_link(&b, id[k], 1, id[k + 1]);
    }
    set_subtractive(r, &b);
    for (uint32_t i = bare ? 0 : rng_few(r, 60); i > 0; i--) {
        uint8_t bus = far_up(r, id, n), bits = rng_byte(r);
        add_modifier(&b, bus, bits, rng_below(r, 2));
    }
    for (uint32_t i = rng_few(r, 10); i > 0; i--)
        add_unknown(&b, 131, 8, rng_byte(r));
    finish_case(r, &b, "a chain of buses", c);
}
