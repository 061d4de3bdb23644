/*
 * Questions about a table, and what is to be answered.  The answers are worked
 * out as the paper words them, sentence by sentence, and not as a program would
 * that minds its time.
 */
#include "cases.h"

#include <string.h>

static size_t least(size_t a, size_t b)
{
    return a < b ? a : b;
}

bool gen_asked(struct rng *r, struct test_case *c, struct address_query *q)
{
    uint32_t roll = rng_below(r, 100);
    bool built = roll < 20;

    if (built)
        family_case(r, c, q);
    else if (roll < 54)
        rich_case(r, c);
    else if (roll < 66)
        chain_case(r, c);
    else
        gen_case(r, c);
    return built;
}

static bool is_pci(const uint8_t *e) { return memcmp(e + 2, "PCI   ", 6) == 0; }

/* The parts as the header states them, cut at the buffer's end. */
void start_queries(struct asked *a, const struct test_case *c, bool accepted)
{
    struct builder *b = &a->b;

    a->refusal = c->expected < 0 && accepted ? 0 : c->expected;
    b->base_len = b->ext_len = 0;
    if (c->size > HEADER && base_of(c->bytes) >= HEADER) {
        size_t base = least(least(base_of(c->bytes), c->size), PART_LIMIT);

        b->base_len = base - HEADER;
        b->ext_len = least(least(ext_of(c->bytes), c->size - base), PART_LIMIT);
        memcpy(b->base, c->bytes + HEADER, b->base_len);
        memcpy(b->ext, c->bytes + base, b->ext_len);
    }
    list_of(b, 1, any, &a->buses);
    list_of(b, 1, is_pci, &a->pci);

    memset(a->last, 0, sizeof a->last);
    for (uint8_t type = 128; type <= 130; type++)
        EACH(b, type, e) {
            a->before[e - b->ext] = a->last[e[2]];
            a->last[e[2]] = (uint16_t)(e - b->ext + 1);
        }
    memset(a->below, 0, sizeof a->below);
    EACH(b, 129, e) {
        a->beside[e - b->ext] = a->below[e[4]];
        a->below[e[4]] = (uint16_t)(e - b->ext + 1);
    }
}

/* The extended entries of one bus, backwards. */
#define EACH_OF_BUS(a, bus, e) \
    for (const uint8_t *e = entry_at(a, (a)->last[bus]); e != NULL; \
         e = entry_at(a, (a)->before[e - (a)->b.ext]))

/* The links to a parent, backwards. */
#define EACH_BELOW(a, parent, e) \
    for (const uint8_t *e = entry_at(a, (a)->below[parent]); e != NULL; \
         e = entry_at(a, (a)->beside[e - (a)->b.ext]))

static const uint8_t *entry_at(const struct asked *a, uint16_t place)
{
    return place == 0 ? NULL : a->b.ext + place - 1;
}

/* ---- what is to be answered ---- */

/* "Queries test the table, then 24": of a bus and a number with a limit. */
static int expect_number(const struct asked *a, uint8_t bus, uint8_t number,
                         uint8_t limit)
{
    if (a->refusal != 0)
        return a->refusal;
    return number > limit || !a->buses.has[bus] ? 24 : 0;
}

/* "In each entry every enabled I/O APIC it names, in table order; 255 names all" */
size_t add_pairs(struct builder *b, const uint8_t *e, uint8_t *pairs, size_t count)
{
    uint8_t apics = e[0] == 4 ? 0 : 2;

    EACH(b, apics, to) {
        if (!(to[3] & 1) || (e[6] != 255 && e[6] != to[1]))
            continue;
        pairs[2 * count] = to[1];
        pairs[2 * count++ + 1] = e[7];
    }
    return count;
}

void expect_routes(struct asked *a, struct route_query *q)
{
    uint8_t type = q->local ? 4 : 3;

    q->count = 0;
    q->expected = expect_number(a, q->bus, q->type, 3);
    if (q->expected != 0)
        return;
    EACH(&a->b, type, e)
        if (e[1] == q->type && e[4] == q->bus && e[5] == q->irq)
            q->count = add_pairs(&a->b, e, q->pairs, q->count);
}

/* MPS Table 4-17, as it stands there: a digit X, then one of these. */
static bool predefined(uint32_t list, uint64_t address)
{
    static const uint16_t range[2][8][2] = {
        { { 0x100, 0x3FF }, { 0x500, 0x7FF }, { 0x900, 0xBFF }, { 0xD00, 0xFFF },
          { 1, 0 }, { 1, 0 }, { 1, 0 }, { 1, 0 } },
        { { 0x3B0, 0x3BB }, { 0x3C0, 0x3DF }, { 0x7B0, 0x7BB }, { 0x7C0, 0x7DF },
          { 0xBB0, 0xBBB }, { 0xBC0, 0xBDF }, { 0xFB0, 0xFBB }, { 0xFC0, 0xFDF } },
    };

    for (int i = 0; i < 8 && address <= 0xFFFF; i++)
        if (address % 0x1000 >= range[list][i][0]
            && address % 0x1000 <= range[list][i][1])
            return true;
    return false;
}

static bool covers(const uint8_t *e, uint8_t kind, uint64_t address)
{
    uint64_t base = get_long(e + 4), length = get_long(e + 12);

    return e[3] == kind && address >= base && address - base < length;
}

/* Whether a modifier of the bus does this (1 takes away, 0 adds). */
static bool modified(const struct asked *a, const struct address_query *q,
                     uint8_t bus, uint8_t bit)
{
    EACH_OF_BUS(a, bus, e)
        if (e[0] == 130 && (e[3] & 1) == bit && q->kind == 0
            && predefined(get_le(e + 4, 4), q->address))
            return true;
    return false;
}

static bool covered(const struct asked *a, const struct address_query *q,
                    uint8_t bus)
{
    EACH_OF_BUS(a, bus, e)
        if (e[0] == 128 && covers(e, q->kind, q->address))
            return true;
    return false;
}

static bool subtractive(const struct asked *a, uint8_t bus, uint8_t *parent)
{
    EACH_OF_BUS(a, bus, e)
        if (e[0] == 129) {
            *parent = e[4];
            return e[3] & 1;
        }
    return false;
}

static bool declared(const struct asked *a, uint8_t bus)
{
    EACH_OF_BUS(a, bus, e)
        if (e[0] == 128 || e[0] == 130)
            return true;
    return false;
}

/* "When the parent answers yes, the answer is" that. */
static enum seen left_over(const struct asked *a, struct address_query *q,
                           uint8_t bus, uint8_t parent)
{
    bool silent = false;

    EACH_BELOW(a, parent, e) {
        uint8_t other = e[2];

        if (other == bus)
            continue;
        q->shared = true;
        /* "No if another bus ... declares or adds ... and doesn't take it away" */
        if ((covered(a, q, other) || modified(a, q, other, 0))
            && !modified(a, q, other, 1))
            return NO;
        /* "Neither 128 nor 130 entry and no subtractive bit" */
        if (!declared(a, other) && !(e[3] & 1))
            silent = true;
    }
    /* "Undeclared if none does but some other such bus ...; else yes" */
    return silent ? UNDECLARED : YES;
}

/* The answer of a bus that is so many links up. */
static void answer_of(const struct asked *a, struct address_query *q, uint8_t bus,
                      unsigned links)
{
    uint8_t parent = 0;

    q->links = links;
    if (modified(a, q, bus, 1)) {
        q->seen = NO;
    } else if (covered(a, q, bus) || modified(a, q, bus, 0)) {
        q->seen = YES;
    } else if (subtractive(a, bus, &parent)) {
        answer_of(a, q, parent, links + 1);
        if (q->seen == YES) {
            q->seen = left_over(a, q, bus, parent);
            q->amended = q->seen == YES ? 0 : links + 1;
        }
    } else {
        q->seen = declared(a, bus) ? NO : UNDECLARED;
    }
}

void expect_address(struct asked *a, struct address_query *q)
{
    q->expected = expect_number(a, q->bus, q->kind, 2);
    q->amended = 0;
    q->shared = false;
    if (q->expected == 0)
        answer_of(a, q, q->bus, 0);
}

/* ---- questions ---- */

static uint8_t listed_bus(struct rng *r, const struct asked *a)
{
    return a->buses.n == 0 ? rng_byte(r) : list_pick(r, &a->buses);
}

/* Seldom, what number 24 is for. */
static void spoil(struct rng *r, struct asked *a, uint8_t *bus, uint8_t *number,
                  uint8_t limit)
{
    uint32_t roll = rng_below(r, 100);

    if (roll < 5)
        unlisted(r, &a->b, 1, true, bus);
    if (roll >= 4 && roll < 9)
        *number = (uint8_t)rng_range(r, limit + 1u, rng_chance(r, 40) ? limit + 1u
                                                                      : 255);
}

void gen_route_query(struct rng *r, struct asked *a, struct route_query *q)
{
    const uint8_t *e = pick_interrupt(r, &a->b);

    q->local = e != NULL && rng_chance(r, 95) ? e[0] == 4 : rng_chance(r, 50);
    q->type = (uint8_t)rng_below(r, 4);
    q->bus = listed_bus(r, a);
    q->irq = rng_byte(r);
    if (e != NULL && rng_chance(r, 95)) {
        /* As an entry says, or all but one thing. */
        uint32_t other = rng_below(r, 40);
        if (other != 0)
            q->type = e[1];
        if (other != 1)
            q->bus = e[4];
        if (other != 2)
            q->irq = e[5];
    }
    spoil(r, a, &q->bus, &q->type, 3);
    expect_routes(a, q);
}

/* An address at, beside or in one of the table's ranges. */
static uint64_t range_address(struct rng *r, const uint8_t *mapping)
{
    uint64_t base = get_long(mapping + 4), length = get_long(mapping + 12);

    switch (rng_below(r, 6)) {
    case 0: return base;
    case 1: return base - 1;
    case 2: return base + length;
    case 3: return base + length - 1;
    case 4: return length == 0 ? base : base + rng_next(r) % length;
    default: return base + 1;
    }
}

static uint64_t any_address(struct rng *r, const uint8_t *mapping)
{
    uint32_t roll = rng_below(r, 100);

    if (mapping != NULL && roll < 50)
        return range_address(r, mapping);
    if (roll < 80)
        return edge_address(r);
    return roll < 92 ? rng_below(r, 0x11000) : rng_scaled(r);
}

/* A bus that has a parent and is nobody's: a climb from its start. */
static void start_low(struct rng *r, struct asked *a, uint8_t *bus)
{
    bool parent[256] = { false };
    uint32_t n = 0;

    EACH(&a->b, 129, e)
        parent[e[4]] = true;
    EACH(&a->b, 129, e)
        if (!parent[e[2]] && rng_below(r, ++n) == 0)
            *bus = e[2];
}

/* From a bus down, as long as there are some below and so it falls out. */
static uint8_t walk_down(struct rng *r, const struct asked *a, uint8_t bus)
{
    do {
        uint32_t n = 0;
        uint8_t from = bus;

        EACH_BELOW(a, from, e)
            if (rng_below(r, ++n) == 0)
                bus = e[2];
        if (n == 0)
            break;
    } while (rng_chance(r, 60));
    return bus;
}

/* Where a mapping is, seen from below its bus. */
static void ask_below(struct rng *r, const struct asked *a, const uint8_t *mapping,
                      struct address_query *q)
{
    q->kind = mapping[3];
    q->address = range_address(r, mapping);
    q->bus = walk_down(r, a, mapping[2]);
}

void ask_another(struct rng *r, struct asked *a, struct address_query *q)
{
    q->bus = listed_bus(r, a);
    expect_address(a, q);
}

void gen_address_query(struct rng *r, struct asked *a, struct address_query *q)
{
    const uint8_t *mapping = pick(r, &a->b, 128, any);
    uint8_t type = (uint8_t)rng_range(r, 128, 130);
    const uint8_t *e = pick(r, &a->b, type, any);

    q->address = any_address(r, mapping);
    q->kind = (uint8_t)(rng_chance(r, 60) ? 0 : rng_below(r, 3));
    if (mapping != NULL && rng_chance(r, 40))
        q->kind = mapping[3];
    q->bus = listed_bus(r, a);
    if (e != NULL && rng_chance(r, 75))
        q->bus = e[2];
    if (rng_chance(r, 40))
        start_low(r, a, &q->bus);
    if (a->refusal == 0 && mapping != NULL && rng_chance(r, 25))
        ask_below(r, a, mapping, q);
    spoil(r, a, &q->bus, &q->kind, 2);
    expect_address(a, q);
}
