/*
 * Sound tables for edits of IDs.  In most sound tables an ID is named by many
 * entries or by none; here each is named by one kind of entry, by two or by none,
 * and where one is off, others may have its ID.
 */
#include "cases.h"

#include <string.h>

/* ---- who names an ID ---- */

static void note_destination(struct names *n, uint8_t to, uint8_t id, uint8_t by)
{
    if (id == 255) {
        n->by[to][255] |= BY_ALL;
        return;
    }
    /* The other type's too: where it has the ID, that decides nothing. */
    n->by[0][id] |= by;
    n->by[2][id] |= by;
}

void find_names(struct builder *b, struct names *n)
{
    memset(n, 0, sizeof *n);
    for (uint8_t type = 0; type < 3; type++)
        EACH(b, type, e)
            n->have[type][e[1]][type == 1 || e[3] & 1]++;
    EACH(b, 3, e) {
        n->by[1][e[4]] |= BY_IO;
        note_destination(n, 2, e[6], BY_IO);
    }
    EACH(b, 4, e) {
        n->by[1][e[4]] |= BY_LOCAL;
        note_destination(n, 0, e[6], BY_LOCAL);
    }
    EACH(b, 128, e)
        n->by[1][e[2]] |= BY_MAPPING;
    EACH(b, 129, e) {
        n->by[1][e[2]] |= BY_LINK;
        n->by[1][e[4]] |= AS_PARENT;
    }
    EACH(b, 130, e)
        n->by[1][e[2]] |= BY_MODIFIER;
}

/* ---- tables ---- */

/* The kinds of entries that name buses, links twice. */
enum { IO, LOCAL, MAPPING, LINK, PARENT, MODIFIER, KINDS };

/* What the entries of such a table may name: the buses by those that may. */
struct nameable {
    struct list processors, io_apics;
    struct list buses[KINDS], listed;   /* and all buses */
    uint32_t most;   /* of IDs: 255, or such that those of two types often meet */
};

/* IDs up to n->most in any order, without 255. */
static void draw_ids(struct rng *r, const struct nameable *n, uint8_t id[256])
{
    uint8_t order[256];
    uint32_t count = 0;

    rng_shuffled(r, order);
    for (uint32_t i = 0; i < 256; i++)
        if (order[i] <= n->most && order[i] != 255)
            id[count++] = order[i];
}

/* An ID for one that is off: any, 255, or one that another has. */
static uint8_t idle_id(struct rng *r, const struct list *others, uint8_t own)
{
    uint32_t roll = rng_below(r, 100);

    if (roll < 30)
        return 255;
    return roll < 72 && others->n > 0 ? list_pick(r, others) : own;
}

static void named_processors(struct rng *r, struct builder *b, struct nameable *n,
                             struct list *all)
{
    uint8_t id[256];
    uint32_t count = rng_range(r, 1, 8), boot = rng_below(r, count);

    draw_ids(r, n, id);
    for (uint32_t i = 0; i < count; i++) {
        bool on = i == boot || rng_chance(r, 55);
        uint8_t one = on ? id[i] : idle_id(r, all, id[i]);

        add_processor(b, one, (uint8_t)(on + (i == boot ? 2 : 0)));
        rng_fill(r, b->base + b->base_len - 16, 16);
        list_add(all, one);
        if (rng_chance(r, 50))
            list_add(&n->processors, one);
    }
}

/* Who may name a bus is drawn; the first is one for interrupts. */
static void named_buses(struct rng *r, struct builder *b, struct nameable *n)
{
    static const uint8_t often[5] = { 0, 1, 1, 1, 2 };
    static const uint8_t kind[10] = {
        IO, IO, LOCAL, LOCAL, MAPPING, LINK, LINK, PARENT, PARENT, MODIFIER,
    };
    uint8_t id[256];
    uint32_t count = rng_range(r, 1, 12);

    draw_ids(r, n, id);
    if (rng_chance(r, 40))
        id[rng_below(r, count)] = 255;   /* a bus like any other */
    list_add(&n->buses[IO], id[0]);
    list_add(&n->buses[LOCAL], id[0]);
    for (uint32_t i = 0; i < count; i++) {
        add_bus(b, id[i], bus_names[rng_below(r, 18)]);
        list_add(&n->listed, id[i]);
        for (uint32_t k = i == 0 ? 0 : often[rng_below(r, 5)]; k > 0; k--)
            list_add(&n->buses[kind[rng_below(r, 10)]], id[i]);
    }
}

/* At times one has a processor's ID. */
static void named_io_apics(struct rng *r, struct builder *b, struct nameable *n,
                           const struct list *processors)
{
    uint8_t id[256];
    struct list all = { .n = 0 };

    draw_ids(r, n, id);
    for (uint32_t i = 0, count = rng_below(r, 8); i < count; i++) {
        uint8_t own = rng_chance(r, 40) ? list_pick(r, processors) : id[i];
        bool on = own != 255 && !all.has[own] && rng_chance(r, 55);
        uint8_t one = on ? own : idle_id(r, &all, own);
        uint32_t address = rng_range(r, 1, 0x3FFFFF) << 10;

        add_io_apic(b, one, on, on ? address : rng_below(r, 3));
        list_add(&all, one);
        if (rng_chance(r, 50))
            list_add(&n->io_apics, one);
    }
}

/*
 * One for each bus and each target that these may name.  IRQs are bus IDs too, and
 * name none.
 */
static void named_interrupts(struct rng *r, struct builder *b, uint8_t type,
                             const struct list *buses, const struct list *targets,
                             const struct list *irqs)
{
    uint32_t count = buses->n > targets->n ? buses->n : targets->n;

    count += rng_below(r, 3);
    for (uint32_t i = 0; i < count; i++) {
        uint8_t bus = i < buses->n ? buses->id[i] : list_pick(r, buses);
        uint8_t to = i < targets->n ? targets->id[i]
                   : targets->n == 0 || rng_chance(r, 50) ? 255
                   : list_pick(r, targets);
        uint8_t kind = (uint8_t)rng_below(r, 4);
        uint8_t irq = list_pick(r, irqs);

        add_interrupt(b, type, kind, 0, bus, irq, to, (uint8_t)rng_below(r, 2));
    }
}

/* Each to a parent that stands before it in the base, so that no circle closes. */
static void named_links(struct rng *r, struct builder *b, const struct nameable *n)
{
    const struct list *linked = &n->buses[LINK], *parents = &n->buses[PARENT];
    struct list before = { .n = 0 };

    EACH(b, 1, e) {
        if (linked->has[e[1]] && before.n > 0) {
            uint8_t bits = rng_byte(r);
            add_link(b, e[1], bits, list_pick(r, &before));
        }
        if (parents->has[e[1]])
            list_add(&before, e[1]);
    }
}

void named_case(struct rng *r, struct test_case *c)
{
    struct builder b;
    struct nameable n;
    struct list all = { .n = 0 };

    memset(&n, 0, sizeof n);
    n.most = rng_chance(r, 50) ? 255 : 15;
    builder_start(&b, 0xFEE00000u);
    rng_fill(r, b.header + 8, 20);
    named_processors(r, &b, &n, &all);
    named_buses(r, &b, &n);
    named_io_apics(r, &b, &n, &all);
    named_interrupts(r, &b, 3, &n.buses[IO], &n.io_apics, &n.listed);
    named_interrupts(r, &b, 4, &n.buses[LOCAL], &n.processors, &n.listed);
    for (uint32_t i = 0; i < n.buses[MAPPING].n; i++)
        add_mapping(&b, n.buses[MAPPING].id[i], 0, list_pick(r, &n.listed), 1);
    named_links(r, &b, &n);
    for (uint32_t i = 0; i < n.buses[MODIFIER].n; i++)
        add_modifier(&b, n.buses[MODIFIER].id[i], 0, rng_below(r, 2));
    for (uint32_t i = rng_few(r, 4); i > 0; i--)
        add_unknown(&b, 131, 8, rng_byte(r));
    finish_case(r, &b, "names", c);
}
