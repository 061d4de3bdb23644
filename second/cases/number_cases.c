/*
 * New numbers for I/O APICs, worked out as the paper words it; and tables of very
 * many APICs, in which the numbers run out or nearly do.
 */
#include "cases.h"

#include <string.h>

/* ---- what is to be answered ---- */

static bool is_on(const uint8_t *e) { return e[3] & 1; }

/* "The lowest free number from 0 to 254"; or 255 where there is none. */
static uint8_t lowest_free(const bool used[256])
{
    uint8_t number = 0;

    while (number < 255 && used[number])
        number++;
    return number;
}

void expect_numbers(struct asked *a, struct numbering *n)
{
    bool processor[256] = { false }, used[256] = { false };

    n->expected = a->refusal;
    n->count = n->given = n->used = 0;
    if (a->refusal != 0)
        return;
    EACH(&a->b, 0, e)
        if (is_on(e))
            processor[e[1]] = used[e[1]] = true;
    /* "The other enabled ones keep theirs", later ones too. */
    EACH(&a->b, 2, e)
        if (is_on(e) && !processor[e[1]])
            used[e[1]] = true;
    EACH(&a->b, 2, e) {
        uint8_t number = e[1];

        if (!is_on(e))
            continue;
        if (processor[e[1]]) {
            number = lowest_free(used);
            n->given++;
            if (number == 255)
                n->expected = 26;
            else
                used[number] = true;
        }
        n->numbers[n->count++] = number;
    }
    for (int i = 0; i < 256; i++)
        n->used += used[i];
}

/* ---- tables ---- */

static uint32_t least(uint32_t a, uint32_t b)
{
    return a < b ? a : b;
}

/*
 * How many are on: processors, and I/O APICs that keep their number or share a
 * processor's; how many are off, and the IDs of those that are on.
 */
struct crowd {
    uint32_t processors, keepers, sharers;
    uint32_t processors_off, io_apics_off;
    uint8_t id[255];           /* the processors', then the keepers', then others */
};

enum {
    ENTRIES = PART_LIMIT - HEADER,
    OTHERS = 3 * 8             /* a bus and interrupts, where there are some */
};

static uint32_t draw_processors(struct rng *r)
{
    static const uint8_t edge[] = { 1, 63, 64, 65, 127, 128, 129, 191, 192, 193 };

    switch (rng_below(r, 4)) {
    case 0: return edge[rng_below(r, sizeof edge)];
    case 1: return 1 + rng_few(r, 198);
    case 2: return rng_range(r, 140, 167);
    default: return rng_range(r, 1, 167);   /* so that all numbers can be used */
    }
}

/* As many I/O APICs that all have 255 numbers, one more or less, or more. */
static uint32_t up_to_all(struct rng *r, const struct crowd *w, uint32_t most)
{
    uint32_t all = 255 - w->processors;
    uint32_t roll = rng_below(r, 100);

    if (roll < 70)
        all += rng_below(r, 5) - 2;
    else
        all += rng_below(r, 60);
    return least(all, most);
}

/* Keepers and sharers: no more than there are IDs for. */
static void draw_io_apics(struct rng *r, struct crowd *w)
{
    uint32_t left = (ENTRIES - OTHERS - 20 * w->processors) / 8;
    uint32_t most = least(left, NUMBERED_MAX);
    uint32_t n = rng_chance(r, 65) ? up_to_all(r, w, most) : rng_few(r, most);
    uint32_t may_share = least(n, w->processors);
    uint32_t may_keep = least(n, 255 - w->processors);

    switch (rng_below(r, 4)) {
    case 0: w->sharers = may_share; break;
    case 1: w->sharers = n - may_keep; break;
    case 2: w->sharers = rng_few(r, may_share); break;
    default: w->sharers = rng_below(r, may_share + 1);
    }
    if (w->sharers < n - may_keep)
        w->sharers = n - may_keep;
    w->keepers = n - w->sharers;
}

static void draw_off(struct rng *r, struct crowd *w)
{
    uint32_t left = ENTRIES - OTHERS - 20 * w->processors
                  - 8 * (w->keepers + w->sharers);

    w->processors_off = rng_chance(r, 50) ? rng_few(r, left / 20) : 0;
    left -= 20 * w->processors_off;
    w->io_apics_off = rng_chance(r, 60) ? rng_few(r, left / 8) : 0;
}

/* In any order, or rising from one of them on; keepers may have the lowest. */
static void draw_ids(struct rng *r, struct crowd *w)
{
    uint8_t any_order[256];
    uint32_t n = 0;

    rng_shuffled(r, any_order);
    for (uint32_t i = 0; i < 256; i++)
        if (any_order[i] != 255)
            w->id[n++] = any_order[i];
    if (rng_chance(r, 40))
        return;

    uint32_t first = rng_chance(r, 40) ? 0
                   : rng_chance(r, 50) ? 255 - w->processors : rng_below(r, 255);
    for (uint32_t i = 0; i < 255; i++)
        w->id[i] = (uint8_t)((first + i) % 255);
}

static void add_processors(struct rng *r, struct builder *b, const struct crowd *w)
{
    uint32_t boot = rng_below(r, w->processors), on = 0;
    uint32_t n = w->processors + w->processors_off;

    for (uint32_t i = 0; i < n; i++) {
        if (rng_below(r, n - i) < w->processors - on) {
            add_processor(b, w->id[on], on == boot ? 3 : 1);
            on++;
        } else {
            add_processor(b, rng_chance(r, 60) ? w->id[rng_below(r, 255)]
                                               : rng_byte(r), 0);
        }
    }
}

/* Of one that is off: any, mostly one that another has. */
static uint8_t off_id(struct rng *r, const struct crowd *w)
{
    uint32_t on = w->processors + w->keepers;

    switch (rng_below(r, 4)) {
    case 0: return 255;
    case 1: return w->id[rng_below(r, w->processors)];
    case 2: return w->id[rng_below(r, on)];
    default: return w->id[rng_below(r, 255)];
    }
}

/* Keepers and sharers mixed, or those or these first, and others in between. */
static void add_io_apics(struct rng *r, struct builder *b, const struct crowd *w)
{
    uint32_t order = rng_below(r, 3), start = rng_below(r, w->processors);
    uint32_t on = w->keepers + w->sharers, n = on + w->io_apics_off;
    uint32_t kept = 0, shared = 0;

    for (uint32_t i = 0; i < n; i++) {
        uint32_t on_left = on - kept - shared, keepers = w->keepers - kept;
        uint32_t address = (i + 1) << 10;
        uint8_t flags = (uint8_t)(rng_chance(r, 20) ? rng_byte(r) | 1 : 1);

        if (rng_below(r, n - i) >= on_left) {
            add_io_apic(b, off_id(r, w), flags & 0xFE, 0);
            continue;
        }
        bool keeps = order == 0 ? rng_below(r, on_left) < keepers
                   : order == 1 ? keepers > 0 : shared == w->sharers;
        if (keeps)
            add_io_apic(b, w->id[w->processors + kept++], flags, address);
        else
            add_io_apic(b, w->id[(start + shared++) % w->processors], flags,
                        address);
    }
}

static void crowded_case(struct rng *r, struct test_case *c)
{
    struct builder b;
    struct crowd w;
    bool wired = rng_chance(r, 40);

    w.processors = draw_processors(r);
    draw_io_apics(r, &w);
    draw_off(r, &w);
    draw_ids(r, &w);
    builder_start(&b, 0xFEE00000u);
    add_processors(r, &b, &w);
    if (wired)
        add_bus(&b, 0, "PCI   ");
    add_io_apics(r, &b, &w);
    if (wired && w.keepers + w.sharers > 0) {
        const uint8_t *to = pick(r, &b, 2, is_on);

        add_interrupt(&b, 3, 0, 0, 0, 1, to[1], rng_byte(r));
        add_interrupt(&b, 3, 0, 0, 0, 1, 255, rng_byte(r));
    }
    finish_case(r, &b, "crowded with IDs", c);
}

void gen_numbered(struct rng *r, struct test_case *c)
{
    uint32_t roll = rng_below(r, 100);

    if (roll < 45)
        crowded_case(r, c);
    else if (roll < 70)
        rich_case(r, c);
    else
        gen_case(r, c);
}
