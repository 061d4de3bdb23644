/*
 * Questions about PCI slots and what is to be answered, worked out as the paper
 * words it; and tables that name the same slots many times, or very many of them.
 */
#include "cases.h"

#include <string.h>

/* ---- what is to be answered ---- */

/* MPS D.3: "bits 0-1 the pin (0 is INTA#), bits 2-6 the device" */
static uint8_t pin_of(const uint8_t *e) { return e[5] % 4; }
static uint8_t device_of(const uint8_t *e) { return e[5] % 128 / 4; }

/* "25, bus listed but not PCI, or device or pin out of range, after 24" */
static int expect_number(const struct asked *a, const struct slot_query *q)
{
    if (a->refusal != 0)
        return a->refusal;
    if (!a->buses.has[q->bus])
        return 24;
    return !a->pci.has[q->bus] || q->device >= 32 || q->pin >= 4 ? 25 : 0;
}

/* "The route pairs of interrupt type INT, bit 7 ignored" */
void expect_slot_routes(struct asked *a, struct slot_query *q)
{
    q->count = 0;
    q->expected = expect_number(a, q);
    if (q->expected != 0)
        return;
    EACH(&a->b, 3, e)
        if (e[1] == 0 && e[4] == q->bus && device_of(e) == q->device
            && pin_of(e) == q->pin)
            q->count = add_pairs(&a->b, e, q->pairs, q->count);
}

/* "Every bus, device and pin on a PCI bus that a type 3 entry names" */
void expect_slots(struct asked *a, struct slot_list *l)
{
    static bool named[256][32][4];
    uint8_t *p = l->slots;

    l->expected = a->refusal;
    l->count = 0;
    if (a->refusal != 0)
        return;
    memset(named, 0, sizeof named);
    EACH(&a->b, 3, e)
        named[e[4]][device_of(e)][pin_of(e)] = a->pci.has[e[4]];
    for (int bus = 0; bus < 256; bus++)
        for (int device = 0; device < 32; device++)
            for (int pin = 0; pin < 4; pin++)
                if (named[bus][device][pin]) {
                    *p++ = (uint8_t)bus, *p++ = (uint8_t)device;
                    *p++ = (uint8_t)pin;
                    l->count++;
                }
}

/* ---- questions ---- */

/* An I/O interrupt on a PCI bus; mostly, where there is one, of type INT. */
static const uint8_t *pick_slot(struct rng *r, struct asked *a)
{
    bool of_int = rng_chance(r, 90);
    const uint8_t *found[2] = { NULL, NULL };
    uint32_t n[2] = { 0, 0 };

    EACH(&a->b, 3, e) {
        bool other = e[1] != 0;
        if (a->pci.has[e[4]] && rng_below(r, ++n[other]) == 0)
            found[other] = e;
    }
    return found[!of_int] != NULL ? found[!of_int] : found[of_int];
}

/* Out of range; at times such that in seven or eight bits it is the slot again. */
static void leave_range(struct rng *r, struct slot_query *q)
{
    switch (rng_below(r, 6)) {
    case 0: q->device = (uint8_t)(q->device + 32); break;
    case 1: q->device = (uint8_t)(q->device + 64 * rng_range(r, 1, 3)); break;
    case 2: q->device = (uint8_t)rng_range(r, 32, rng_chance(r, 40) ? 32 : 255);
            break;
    case 3: q->pin = (uint8_t)rng_range(r, 4, rng_chance(r, 40) ? 4 : 255); break;
    case 4: q->device = 255, q->pin = 255; break;
    default:   /* the device's lowest bits in the pin */
        q->pin = (uint8_t)(q->pin + 4 * (1 + q->device % 8));
        q->device = (uint8_t)(q->device - q->device % 8);
    }
}

/* At times what 24 is for, what 25 is for, or both. */
static void spoil(struct rng *r, struct asked *a, struct slot_query *q)
{
    uint32_t roll = rng_below(r, 100);

    if (roll < 7)
        unlisted(r, &a->b, 1, true, &q->bus);
    if (roll >= 4 && roll < 16)
        leave_range(r, q);
    if (roll >= 14 && roll < 24 && a->buses.n > 0)
        q->bus = list_pick(r, &a->buses);
}

void gen_slot_query(struct rng *r, struct asked *a, struct slot_query *q)
{
    const struct list *buses = a->pci.n > 0 ? &a->pci : &a->buses;
    const uint8_t *e = pick_slot(r, a);
    uint32_t other = rng_below(r, 30);

    q->bus = buses->n > 0 ? list_pick(r, buses) : rng_byte(r);
    q->device = (uint8_t)rng_below(r, 32);
    q->pin = (uint8_t)rng_below(r, 4);
    if (e != NULL) {
        /* As an entry says, or all but one thing. */
        if (other != 0)
            q->bus = e[4];
        if (other != 1)
            q->device = device_of(e);
        if (other != 2)
            q->pin = pin_of(e);
    }
    spoil(r, a, q);
    expect_slot_routes(a, q);
}

/* ---- tables ---- */

/* What the interrupts of a table name, and how often bit 7 is set. */
struct naming {
    struct list buses, slots;
    uint32_t bit_7, of_int;
};

static void draw_naming(struct rng *r, const struct list *buses, struct naming *n)
{
    static const uint8_t often[4] = { 0, 10, 50, 100 };
    static const uint8_t slots[4] = { 1, 2, 12, 128 };
    uint32_t few = rng_range(r, 1, slots[rng_below(r, 4)]);

    memset(n, 0, sizeof *n);
    n->bit_7 = often[rng_below(r, 4)];
    n->of_int = rng_chance(r, 60) ? 90 : rng_below(r, 101);
    while (few-- > 0)
        list_add(&n->slots, rng_byte(r) % 128);
    for (few = rng_range(r, 1, 4); few > 0; few--)
        list_add(&n->buses, list_pick(r, buses));
    if (rng_chance(r, 30))
        n->buses = *buses;
}

/* Gives an interrupt one of these sources. */
static void name_slot(struct rng *r, const struct naming *n, uint8_t *e)
{
    e[1] = (uint8_t)(rng_chance(r, n->of_int) ? 0 : rng_below(r, 4));
    e[4] = list_pick(r, &n->buses);
    e[5] = list_pick(r, &n->slots);
    if (rng_chance(r, n->bit_7))
        e[5] |= 128;
}

/* PCI so often; the others mostly such as stand beside it, or nearly read so. */
static const char *bus_name(struct rng *r, uint32_t pci)
{
    static const char *const others[3] = { "ISA   ", "EISA  ", "PCMCIA" };

    if (rng_chance(r, pci))
        return "PCI   ";
    return rng_chance(r, 60) ? others[rng_below(r, 3)]
                             : bus_names[rng_below(r, 18)];
}

static uint32_t often_pci(struct rng *r)
{
    static const uint8_t often[4] = { 20, 60, 90, 100 };

    return often[rng_below(r, 4)];
}

/* A rich table, most of whose buses are PCI and whose interrupts name slots. */
static void slotted_case(struct rng *r, struct test_case *c)
{
    uint32_t pci = often_pci(r), same = rng_chance(r, 30) ? 100 : rng_below(r, 101);
    struct builder b;
    struct naming n;
    struct list buses;

    do {
        rich_case(r, c);
        unseal(&b, c->bytes);
    } while (next_of(&b, 3, NULL) == NULL);
    EACH(&b, 1, e)
        memcpy(e + 2, bus_name(r, pci), 6);
    list_of(&b, 1, any, &buses);
    draw_naming(r, &buses, &n);
    EACH(&b, 3, e)
        if (rng_chance(r, same))
            name_slot(r, &n, e);
    finish_case(r, &b, "slots", c);
}

/* Some I/O APICs that are on or off, of which some have the ID of another. */
static void some_apics(struct rng *r, struct builder *b, struct list *apics)
{
    for (uint32_t i = 0, n = rng_chance(r, 10) ? 0 : 1 + rng_few(r, 12); i < n;
         i++) {
        bool on = rng_chance(r, 60);
        uint8_t id = (uint8_t)(1 + 7 * i);

        if (!on && apics->n > 0 && rng_chance(r, 40))
            id = list_pick(r, apics);
        add_io_apic(b, id, on, (i + 1) << 12);
        list_add(apics, id);
    }
}

/*
 * Little but buses and I/O interrupts, up to 505 entries: slots drawn from few or
 * from many, or one after the other, on one bus after the other.
 */
static void crowded_case(struct rng *r, struct test_case *c)
{
    static const uint8_t most[4] = { 1, 6, 60, 250 };
    size_t goal = rng_chance(r, 50) ? PART_LIMIT : rng_range(r, 100, PART_LIMIT);
    uint32_t pci = often_pci(r), n_bus = rng_range(r, 1, most[rng_below(r, 4)]);
    uint32_t in_turn = rng_chance(r, 50) ? rng_range(r, 1, 140) : 0;
    uint32_t first = rng_byte(r), to_all = rng_below(r, 101);
    bool mixed = rng_chance(r, 60);
    struct list buses, apics;
    struct builder b;
    struct naming n;
    uint8_t id[256];

    memset(&apics, 0, sizeof apics);
    builder_start(&b, 0xFEE00000u);
    add_processor(&b, 0, 3);
    rng_shuffled(r, id);
    for (uint32_t i = 0; i < n_bus && base_left(&b, goal) >= 16; i++)
        add_bus(&b, mixed ? id[i] : (uint8_t)i, bus_name(r, pci));
    some_apics(r, &b, &apics);
    list_of(&b, 1, any, &buses);
    draw_naming(r, &buses, &n);
    for (uint32_t i = first; base_left(&b, goal) >= 8; i++) {
        uint8_t dest = apics.n == 0 || rng_chance(r, to_all)
                     ? 255 : list_pick(r, &apics);

        add_interrupt(&b, 3, 0, 0, 0, 0, dest, rng_byte(r));
        uint8_t *e = b.base + b.base_len - 8;
        name_slot(r, &n, e);
        if (in_turn > 0) {
            e[4] = buses.id[i / in_turn % buses.n];
            e[5] = (uint8_t)((e[5] & 128) | i % 128);
        }
    }
    finish_case(r, &b, "full of slots", c);
}

void gen_slotted(struct rng *r, struct test_case *c)
{
    uint32_t roll = rng_below(r, 100);

    if (roll < 45)
        slotted_case(r, c);
    else if (roll < 72)
        crowded_case(r, c);
    else
        gen_case(r, c);
}
