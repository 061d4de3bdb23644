/*
 * Sound tables: accepted ones of every size and with every freedom the paper
 * leaves, as reserved bits, disabled entries, unknown types and empty ranges.
 */
#include "cases.h"

#include <string.h>

/* Flags with random reserved bits. */
static uint8_t loose(struct rng *r, uint8_t bits, uint8_t mask)
{
    return rng_chance(r, 30) ? (uint8_t)((rng_byte(r) & ~mask) | bits) : bits;
}

/* Bit 0 either way, as of types 129 and 130. */
static uint8_t loose_bit(struct rng *r)
{
    return loose(r, (uint8_t)rng_below(r, 2), 1);
}

struct sketch {
    struct list processors, enabled, buses, apics;
};

static void sound_processors(struct rng *r, struct builder *b, struct sketch *s,
                             size_t goal, bool odd)
{
    uint8_t id[256];
    uint32_t most = (uint32_t)(base_left(b, goal) / 20);
    uint32_t n = 1 + rng_few(r, most > 1 ? most - 1 : 0);
    uint32_t on = 1 + rng_few(r, n - 1);
    uint32_t boot = rng_below(r, on);
    uint32_t next = 0;

    if (odd && n % 2 == 0)
        n--;
    if (on > n)
        on = n, boot = rng_below(r, on);
    rng_shuffled(r, id);
    for (uint32_t i = 0; i < n; i++) {
        uint8_t one;

        /* Spread the enabled ones over the places that are left. */
        if (rng_below(r, n - i) < on) {
            on--;
            if (id[next] == 255)
                next++;
            one = id[next++];
            add_processor(b, one, loose(r, on == boot ? 3 : 1, 3));
            list_add(&s->enabled, one);
        } else {
            one = rng_chance(r, 20) ? 255
                : s->processors.n > 0 && rng_chance(r, 40)
                ? list_pick(r, &s->processors) : rng_byte(r);
            add_processor(b, one, loose(r, 0, 3));
        }
        list_add(&s->processors, one);
        rng_fill(r, b->base + b->base_len - 16, 16);
    }
}

static void sound_buses(struct rng *r, struct builder *b, struct sketch *s,
                        size_t goal, bool needed)
{
    uint8_t id[256];
    uint32_t most = (uint32_t)(base_left(b, goal) / 8);
    uint32_t n = rng_few(r, most < 256 ? most : 256);

    if (needed && n == 0)
        n = 1;
    if (most >= 256 && rng_chance(r, 5))
        n = 256;
    rng_shuffled(r, id);
    for (uint32_t i = 0; i < n && base_left(b, goal) >= 8; i++) {
        add_bus(b, id[i], bus_names[rng_below(r, 18)]);
        list_add(&s->buses, id[i]);
    }
}

/*
 * The IDs of I/O APICs that are on: drawn from those that no enabled processor has,
 * and so often from the others.
 */
struct drawn {
    uint8_t id[256];
    uint32_t next[2];   /* of those, and of the others */
    uint32_t sharing;   /* in 100 */
};

static bool next_id(const struct sketch *s, struct drawn *d, bool shared,
                    uint8_t *one)
{
    uint32_t *k = &d->next[shared];

    while (*k < 256 && (d->id[*k] == 255 || s->enabled.has[d->id[*k]] != shared))
        ++*k;
    if (*k == 256)
        return false;
    *one = d->id[(*k)++];
    return true;
}

static bool draw_id(struct rng *r, const struct sketch *s, struct drawn *d,
                    uint8_t *one)
{
    if (rng_chance(r, d->sharing) && next_id(s, d, true, one))
        return true;
    return next_id(s, d, false, one);
}

static void sound_io_apics(struct rng *r, struct builder *b, struct sketch *s,
                           size_t goal)
{
    static const uint8_t often[4] = { 0, 20, 50, 100 };
    struct drawn d = { .next = { 0, 0 }, .sharing = often[rng_below(r, 4)] };
    uint32_t most = (uint32_t)(base_left(b, goal) / 8);
    uint32_t n = rng_few(r, most < 255 ? most : 255);

    rng_shuffled(r, d.id);
    for (uint32_t i = 0; i < n && base_left(b, goal) >= 8; i++) {
        uint8_t one, flags;
        uint32_t address;

        if (rng_chance(r, 75) && draw_id(r, s, &d, &one)) {
            flags = loose(r, 1, 1);
            address = rng_range(r, 1, 0x3FFFFF) << 10;
        } else {
            one = rng_chance(r, 20) ? 255
                : rng_chance(r, 40) ? list_pick(r, &s->processors) : rng_byte(r);
            flags = loose(r, 0, 1);
            address = rng_chance(r, 30) ? 0 : (uint32_t)rng_next(r);
        }
        add_io_apic(b, one, flags, address);
        list_add(&s->apics, one);
    }
}

static void sound_interrupts(struct rng *r, struct builder *b,
                             const struct sketch *s, size_t goal, bool fill)
{
    static const uint8_t two_bits[3] = { 0, 1, 3 };
    uint32_t most = (uint32_t)(base_left(b, goal) / 8);
    uint32_t n = fill ? most : rng_few(r, most);
    uint32_t local = s->buses.n == 0 ? 0 : rng_few(r, n);

    if (s->buses.n == 0)
        n = 0;
    for (uint32_t i = 0; i < n; i++) {
        uint8_t entry = i + local < n ? 3 : 4;
        const struct list *to = entry == 3 ? &s->apics : &s->processors;
        uint8_t type = (uint8_t)rng_below(r, 4);
        uint8_t polarity = two_bits[rng_below(r, 3)];
        uint8_t trigger = two_bits[rng_below(r, 3)];
        uint8_t flags = loose(r, (uint8_t)(trigger << 2 | polarity), 15);
        uint8_t bus = list_pick(r, &s->buses), irq = rng_byte(r);
        uint8_t dest = to->n == 0 || rng_chance(r, 15) ? 255 : list_pick(r, to);
        uint8_t input = entry == 4 ? (uint8_t)rng_below(r, 2) : rng_byte(r);

        add_interrupt(b, entry, type, flags, bus, irq, dest, input);
        b->base[b->base_len - 5] = loose(r, 0, 0);
    }
}

static void sound_mapping(struct rng *r, struct builder *b, uint8_t bus)
{
    uint64_t base = rng_scaled(r), length = rng_scaled(r);

    switch (rng_below(r, 6)) {
    case 0: length = 0; break;
    case 1: base = UINT64_MAX, length = rng_below(r, 2); break;
    case 2: base = base == 0 ? 1 : base, length = 0 - base; break;
    case 3: base = 0, length = UINT64_MAX; break;
    default:
        if (base != 0 && length > 0 - base)
            length = 0 - base;
    }
    add_mapping(b, bus, (uint8_t)rng_below(r, 3), base, length);
}

/* Links that climb towards the front of a shuffled list of the buses. */
static void sound_links(struct rng *r, struct builder *b, const struct list *buses,
                        size_t goal)
{
    uint8_t pair[256][2], order[256], id[256];
    bool chain = rng_chance(r, 30);
    uint32_t keep = chain ? 100 : rng_range(r, 20, 100);
    uint32_t n = 0;

    memcpy(id, buses->id, buses->n);
    for (uint32_t i = 1; i < buses->n; i++) {
        uint32_t j = rng_below(r, i + 1);
        uint8_t x = id[i];
        id[i] = id[j], id[j] = x;
    }
    for (uint32_t i = 1; i < buses->n; i++) {
        if (!rng_chance(r, keep))
            continue;
        pair[n][0] = id[i];
        pair[n++][1] = id[chain ? i - 1 : rng_below(r, i)];
    }
    bool mixed = rng_chance(r, 60), rising = rng_chance(r, 50);
    rng_shuffled(r, order);
    for (uint32_t i = 0; i < 256 && ext_left(b, goal) >= 8; i++) {
        uint32_t k = mixed ? order[i] : rising ? i : 255 - i;
        if (k < n)
            add_link(b, pair[k][0], loose_bit(r), pair[k][1]);
    }
}

static void sound_unknowns(struct rng *r, struct builder *b, size_t goal, bool fill)
{
    uint8_t type = (uint8_t)rng_range(r, 131, 200);
    uint8_t cap = rng_chance(r, 30) ? 2 : rng_chance(r, 50) ? 17 : 255;
    uint32_t n = fill ? PART_LIMIT : rng_few(r, 60);

    while (n-- > 0 && ext_left(b, goal) >= 2) {
        size_t left = ext_left(b, goal);
        uint8_t length = (uint8_t)rng_range(r, 2, cap);

        if (length > left)
            length = (uint8_t)left;
        if (fill && left - length == 1)
            length = length == 2 ? 3 : (uint8_t)(length - 1);
        add_unknown(b, type, length, rng_byte(r));
        if (rng_chance(r, 30) && type < 255)
            type = (uint8_t)(type + 1 + rng_few(r, 255u - type - 1));
    }
}

static void sound_extended(struct rng *r, struct builder *b,
                           const struct sketch *s, size_t goal, bool fill)
{
    if (s->buses.n > 0) {
        uint32_t n = rng_few(r, (uint32_t)(goal / 20));
        while (n-- > 0 && ext_left(b, goal) >= 20)
            sound_mapping(r, b, list_pick(r, &s->buses));
        if (rng_chance(r, 70))
            sound_links(r, b, &s->buses, goal);
        n = rng_few(r, (uint32_t)(goal / 8));
        while (n-- > 0 && ext_left(b, goal) >= 8) {
            uint8_t bus = list_pick(r, &s->buses), bits = loose_bit(r);
            add_modifier(b, bus, bits, rng_below(r, 2));
        }
    }
    /* A byte left over could not be filled by any entry. */
    if (fill && ext_left(b, goal) != 1)
        sound_unknowns(r, b, goal, true);
    else if (rng_chance(r, 60))
        sound_unknowns(r, b, goal, false);
}

void sound_table(struct rng *r, struct builder *b)
{
    struct sketch s;
    uint32_t roll = rng_below(r, 100);
    bool full = roll < 8;
    size_t goal = full || roll < 20 ? PART_LIMIT
                : roll < 70 ? rng_range(r, HEADER + 20, 400)
                : rng_range(r, HEADER + 20, PART_LIMIT);

    memset(&s, 0, sizeof s);
    builder_start(b, rng_chance(r, 10) ? 0 : (uint32_t)rng_next(r) << 12);
    if (rng_chance(r, 70))
        rng_fill(r, b->header + 8, 26);
    b->header[43] = loose(r, 0, 0);

    /* 4,096 - 44 is 20 p + 8 m only for odd p. */
    sound_processors(r, b, &s, full ? PART_LIMIT - 8 : goal, full);
    sound_buses(r, b, &s, goal, full);
    sound_io_apics(r, b, &s, goal);
    sound_interrupts(r, b, &s, goal, full);

    roll = rng_below(r, 100);
    if (roll < 10)
        sound_extended(r, b, &s, PART_LIMIT, true);
    else if (roll < 60)
        sound_extended(r, b, &s, 300, false);
    else if (roll < 75)
        sound_extended(r, b, &s, PART_LIMIT, false);
}

void slack(struct rng *r, struct test_case *c)
{
    if (rng_chance(r, 25)) {
        size_t n = rng_range(r, 1, 64);
        rng_fill(r, c->bytes + c->size, n);
        c->size += n;
    }
}

void finish_case(struct rng *r, const struct builder *b, const char *label,
                 struct test_case *c)
{
    c->size = seal(b, c->bytes);
    slack(r, c);
    c->label = label;
    c->expected = 0;
}

void sound_case(struct rng *r, struct test_case *c)
{
    struct builder b;

    sound_table(r, &b);
    finish_case(r, &b, "sound", c);
}
