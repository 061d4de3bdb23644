/*
 * The plain queries: where an interrupt goes, given its source or a PCI slot, and
 * whether an address is one of a bus.  All judge the table first; what they ask of
 * it then is one pass over the entries concerned.
 */
#include "plain.h"
#include "set.h"

#include <string.h>

/* The entry of a bus; NULL where it is not listed. */
static const uint8_t *entry_of(const struct table *t, uint8_t bus)
{
    for (size_t at = t->base[BUS]; at < t->base[BUS + 1]; at += 8)
        if (t->bytes[at + 1] == bus)
            return t->bytes + at;
    return NULL;
}

static bool listed(const struct table *t, uint8_t bus)
{
    return entry_of(t, bus) != NULL;
}

/* ---- routes ---- */

/* The entries that a route query is about. */
struct side {
    uint8_t interrupts;
    uint8_t apics;
    uint8_t apic_size;
};

static const struct side io_side = { IO_INT, IO_APIC, 8 };
static const struct side local_side = { LOCAL_INT, PROCESSOR, 20 };

struct source {
    uint8_t type, bus, irq;
    uint8_t bits;             /* of the IRQ that count */
};

/*
 * The enabled APICs of a side.  By rules 14 and 16 no two have the same ID and
 * none has 255, so another destination names at most one of them: that it is in
 * the set is all there is to find out.
 */
struct targets {
    struct set set;
    uint8_t pairs[2 * ALL];   /* (ID, 0), in table order */
    size_t n;
};

static inline uint8_t *put_pair(uint8_t *p, uint8_t id, uint8_t input)
{
    p[0] = id;
    p[1] = input;
    return p + 2;
}

static void gather_targets(const struct table *t, const struct side *side,
                           struct targets *to)
{
    size_t end = t->base[side->apics + 1];

    to->set = (struct set){ { 0 } };
    to->n = 0;
    for (size_t at = t->base[side->apics]; at < end; at += side->apic_size) {
        const uint8_t *e = t->bytes + at;

        if (e[3] & ENABLED) {
            add(&to->set, e[1]);
            put_pair(to->pairs + 2 * to->n++, e[1], 0);
        }
    }
}

/* The entries of a source, but for those to an ID that no enabled APIC has. */
struct hits {
    uint8_t pairs[(PART_MAX - HEADER_SIZE) / 8 * 2];   /* (destination, input) */
    size_t n;
    size_t to_all;            /* how many of them go to 255 */
};

/* Type, bus and IRQ where they stand in an entry, its eight bytes as one number. */
static uint64_t place(uint64_t type, uint64_t bus, uint64_t irq)
{
    return type << 8 | bus << 32 | irq << 40;
}

/* Answers how many pairs they make. */
static size_t gather_hits(const struct table *t, const struct side *side,
                          const struct source *from, const struct targets *to,
                          struct hits *h)
{
    uint64_t mask = place(255, 255, from->bits);
    uint64_t want = place(from->type, from->bus, from->irq);
    size_t end = t->base[side->interrupts + 1];
    size_t n = 0, to_all = 0;

    for (size_t at = t->base[side->interrupts]; at < end; at += 8) {
        const uint8_t *e = t->bytes + at;

        if ((get64(e) & mask) != want || (e[6] != ALL && !in(&to->set, e[6])))
            continue;
        put_pair(h->pairs + 2 * n++, e[6], e[7]);
        to_all += e[6] == ALL;
    }
    h->n = n;
    h->to_all = to_all;
    return n - to_all + to_all * to->n;
}

/*
 * The pairs of all targets with one input.  In the gathered ones 0 stands in its
 * place; it goes into four of them at once.
 */
static uint8_t *put_to_all(uint8_t *p, const struct targets *to, uint8_t input)
{
    static const uint8_t ones[8] = { 0, 1, 0, 1, 0, 1, 0, 1 };
    uint64_t inputs, four;
    size_t i = 0;

    memcpy(&inputs, ones, sizeof inputs);
    inputs *= input;
    for (; to->n - i >= 4; i += 4) {
        memcpy(&four, to->pairs + 2 * i, sizeof four);
        four |= inputs;
        memcpy(p + 2 * i, &four, sizeof four);
    }
    for (; i < to->n; i++)
        put_pair(p + 2 * i, to->pairs[2 * i], input);
    return p + 2 * to->n;
}

static void put_pairs(const struct hits *h, const struct targets *to, uint8_t *p)
{
    /* Where none goes to all, the hits are what is asked for. */
    if (h->to_all == 0) {
        memcpy(p, h->pairs, 2 * h->n);
        return;
    }
    for (size_t i = 0; i < h->n; i++) {
        uint8_t id = h->pairs[2 * i], input = h->pairs[2 * i + 1];

        if (id == ALL)
            p = put_to_all(p, to, input);
        else
            p = put_pair(p, id, input);
    }
}

static uint64_t routes_of(const struct table *t, const struct side *side,
                          const struct source *from, uint8_t *room, size_t size)
{
    struct targets to;
    struct hits h;

    /* 19: "answer longer than the lent room" */
    gather_targets(t, side, &to);
    size_t count = gather_hits(t, side, from, &to, &h);
    if (count > size / 2)
        return refused(19);

    if (count > 0)
        put_pairs(&h, &to, room);
    return counted(count);
}

static uint64_t routes(const uint8_t *bytes, size_t n, const struct side *side,
                       const struct source *from, uint8_t *room, size_t size)
{
    struct table t;
    uint8_t refusal;

    /* "Queries test the table, then 24, then 19" */
    if ((refusal = plain_judge_walk(bytes, n, &t)) != 0)
        return refused(refusal);

    /* 24: "bus not listed, ... or interrupt type over 3" */
    if (from->type > 3 || !listed(&t, from->bus))
        return refused(24);

    return routes_of(&t, side, from, room, size);
}

uint64_t plain_io_routes(const uint8_t *t, size_t n, uint8_t type, uint8_t bus,
                         uint8_t irq, uint8_t *room, size_t size)
{
    struct source from = { type, bus, irq, 255 };

    return routes(t, n, &io_side, &from, room, size);
}

uint64_t plain_local_routes(const uint8_t *t, size_t n, uint8_t type, uint8_t bus,
                            uint8_t irq, uint8_t *room, size_t size)
{
    struct source from = { type, bus, irq, 255 };

    return routes(t, n, &local_side, &from, room, size);
}

uint64_t plain_slot_routes(const uint8_t *bytes, size_t n, uint8_t bus,
                           uint8_t device, uint8_t pin, uint8_t *room, size_t size)
{
    struct table t;
    uint8_t refusal;

    /* "25 ..., after 24 and before 19" */
    if ((refusal = plain_judge_walk(bytes, n, &t)) != 0)
        return refused(refusal);

    /* 24: "bus not listed" */
    const uint8_t *entry = entry_of(&t, bus);
    if (entry == NULL)
        return refused(24);

    /* 25: "bus listed but not PCI, or device or pin out of range" */
    if (!is_pci(entry) || device > 31 || pin > 3)
        return refused(25);

    /* "bits 0-1 the pin ..., bits 2-6 the device"; "bit 7 ignored" */
    struct source from = { INT, bus, (uint8_t)(device << 2 | pin), 127 };
    return routes_of(&t, &io_side, &from, room, size);
}

/* ---- addresses ---- */

enum { NO = 0, YES = 1, UNDECLARED = 2 };

struct question {
    uint8_t kind;
    uint64_t address;
};

/* Marks of a bus: what its own entries say, and those of its children. */
enum {
    TAKEN = 1,                /* a modifier takes the address away */
    HELD = 2,                 /* a mapping covers it, or a modifier adds it */
    DECLARED = 4,             /* any mapping or modifier at all */
    SUBTRACTIVE = 8,
    CLAIMED_BELOW = 16,       /* a child holds it, and does not take it away */
    SILENT_BELOW = 32         /* a child declares nothing, nor has the bit */
};

/* What the extended entries say of each bus, as far as a question goes. */
struct claims {
    uint8_t marks[256];
    uint8_t parent[256];      /* of those that have one */
};

static void start_gathering(struct claims *c)
{
    /* In pieces, as the judge does. */
    for (size_t i = 0; i < sizeof c->marks; i += 64)
        memset(c->marks + i, 0, 64);
}

static void gather_mappings(const struct table *t, const struct question *q,
                            struct claims *c)
{
    for (size_t at = t->ext[MAPPING]; at < t->ext[MAPPING + 1]; at += 20) {
        const uint8_t *e = t->bytes + at;
        bool of_kind = e[3] == q->kind;
        /*
         * No range passes 2^64 (18).  So for an address below the base the
         * difference, modulo 2^64, is not below the length.
         */
        bool covers = q->address - get64(e + 4) < get64(e + 12);

        /* By a product: a branch would be on what follows no pattern. */
        c->marks[e[2]] |= DECLARED | (of_kind & covers) * HELD;
    }
}

static void gather_modifiers(const struct table *t, const struct question *q,
                             struct claims *c)
{
    /* "Modifiers touch I/O addresses below 65,536 only" */
    bool touched = q->kind == 0 && q->address < 65536;
    uint32_t low = q->address & 0x3FF;
    /* By list: "ISA when the low ten bits are ...; VGA when they are ..." */
    bool on_list[2] = {
        touched && low >= 0x100,
        touched && ((low >= 0x3B0 && low <= 0x3BB)
                    || (low >= 0x3C0 && low <= 0x3DF)),
    };

    for (size_t at = t->ext[MODIFIER]; at < t->ext[MODIFIER + 1]; at += 8) {
        const uint8_t *e = t->bytes + at;
        uint8_t what = e[3] & 1 ? TAKEN : HELD;

        /* The list is 0 or 1, by rule 18. */
        c->marks[e[2]] |= DECLARED | on_list[e[4]] * what;
    }
}

/*
 * A mark of a parent is stored only where it is new: of many children each would wait
 * for the one before.
 */
static inline void mark_parent(struct claims *c, uint8_t parent, uint8_t what)
{
    if (!(c->marks[parent] & what))
        c->marks[parent] |= what;
}

/*
 * The links, once all else is known of each bus: so the same pass gathers what the
 * children of each parent say.
 */
static void gather_links(const struct table *t, struct claims *c)
{
    for (size_t at = t->ext[LINK]; at < t->ext[LINK + 1]; at += 8) {
        const uint8_t *e = t->bytes + at;
        bool subtractive = e[3] & 1;
        uint8_t own = c->marks[e[2]];

        if (subtractive)
            c->marks[e[2]] = own | SUBTRACTIVE;
        c->parent[e[2]] = e[4];
        /* "Declares or adds the address and doesn't take it away" */
        if ((own & (HELD | TAKEN)) == HELD)
            mark_parent(c, e[4], CLAIMED_BELOW);
        /* "Has neither 128 nor 130 entry and no subtractive bit" */
        else if (!(own & DECLARED) && !subtractive)
            mark_parent(c, e[4], SILENT_BELOW);
    }
}

static uint64_t answer(uint64_t value, uint64_t links)
{
    return links << 24 | value << 16;
}

/*
 * What is left of a parent's yes (document 02): "no if another bus with that parent"
 * claims the address; "undeclared if none does but some other such bus" is silent;
 * "else yes".
 */
static uint64_t left_over(uint8_t marks)
{
    return marks & CLAIMED_BELOW ? NO : marks & SILENT_BELOW ? UNDECLARED : YES;
}

/*
 * "First that applies"; parents are in no circle (18), so the climb ends.
 *
 * A bus that is climbed from does not hold the address and has the bit, so it is
 * not among those of its parent's children that claim it or are silent: these are
 * other buses.  Their parent's yes is amended by them, and the buses below take a no
 * or undeclared over as it is.  So the highest parent that has such children decides.
 * "The link count" stays that of the whole climb.
 */
static uint64_t climb(const struct claims *c, uint8_t bus)
{
    uint8_t below = 0;        /* the marks of the highest such parent yet */

    for (uint64_t links = 0; ; links++) {
        uint8_t marks = c->marks[bus];

        if (marks & TAKEN)
            return answer(NO, links);
        if (marks & HELD)
            return answer(left_over(below), links);
        if (!(marks & SUBTRACTIVE))
            return answer(marks & DECLARED ? NO : UNDECLARED, links);
        bus = c->parent[bus];
        if (c->marks[bus] & (CLAIMED_BELOW | SILENT_BELOW))
            below = c->marks[bus];
    }
}

uint64_t plain_address(const uint8_t *bytes, size_t n, uint8_t bus, uint8_t kind,
                       uint64_t address)
{
    struct question q = { kind, address };
    struct table t;
    struct judge j;
    struct claims c;
    uint8_t refusal;

    if ((refusal = plain_judge_ids(bytes, n, &t, &j)) != 0)
        return refusal;

    /* 24: "bus not listed, address kind over 2" */
    if (kind > 2 || !(j.ids[bus] & A_BUS))
        return 24;

    /* Many boards have no such entries: nothing is declared, and no link leads up. */
    if (t.ext[MAPPING] == t.ext[EXT_TYPES])
        return answer(UNDECLARED, 0);

    start_gathering(&c);
    gather_mappings(&t, &q, &c);
    gather_modifiers(&t, &q, &c);
    gather_links(&t, &c);
    return climb(&c, bus);
}
