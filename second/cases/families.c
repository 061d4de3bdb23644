/*
 * Tables in which buses share their parents, each built around one question.  What
 * a bus says of the address is drawn first, and its entries are made to say it; so
 * the answer is known from the drawing, and no entry is read for it.
 */
#include "cases.h"

/* What a bus has to say, as bits: an entry for each. */
enum {
    COVERS = 1,       /* a mapping of the asked kind, around the address */
    OTHER_KIND = 2,   /* the same of another kind */
    BESIDE = 4,       /* a mapping of the asked kind, up to or behind it, or empty */
    ADDS = 8,         /* a modifier that adds it */
    TAKES = 16,       /* one that takes it away */
    OFF_LIST = 32,    /* one of a list that it is not on */
    SAYINGS = 6
};

/* A bus claims the address by any of these; the bit of its link decides nothing. */
static const uint8_t claiming[] = {
    COVERS, COVERS, ADDS, COVERS | OTHER_KIND, COVERS | BESIDE, COVERS | ADDS,
    COVERS | OFF_LIST, ADDS | OTHER_KIND, ADDS | BESIDE,
};

/* By these it declares something, but not the address. */
static const uint8_t declaring[] = {
    OTHER_KIND, BESIDE, OFF_LIST, OTHER_KIND | OFF_LIST, BESIDE | OTHER_KIND,
};

/* By these it takes the address away, whatever else it says of it. */
static const uint8_t taking[] = {
    TAKES, COVERS | TAKES, ADDS | TAKES, COVERS | ADDS | TAKES, BESIDE | TAKES,
    OTHER_KIND | TAKES,
};

enum { ISA = 1, VGA = 2, ROOT = 256 };

/* A bus, in the place where it stands in the family; parents are places too. */
struct member {
    uint8_t says;
    bool bit;
    uint32_t parent;          /* or ROOT */
};

/*
 * The first ones are the way from the asked bus up to the one that answers, each
 * the child of the next; then the parent of this last one, if it has one; then the
 * others.
 */
struct family {
    uint8_t kind;
    uint64_t address;
    uint8_t lists;            /* that the address is on */
    uint8_t sayable;          /* what can be said of such an address */
    uint32_t links;           /* of the way */
    enum seen at_top;         /* the answer of its last one */
    enum seen others[256];    /* what the other children make of yes, by link */
    size_t left;              /* bytes for mappings and modifiers */
    uint32_t sparing;         /* in 100: those that have the bit alone */
    uint32_t n;
    struct member bus[256];
};

/* ---- the question ---- */

/* The low ten bits, by the lists that they are on. */
static uint32_t low_bits(struct rng *r, uint8_t *lists)
{
    static const struct { uint16_t first, last; uint8_t lists; } span[] = {
        { 0, 0xFF, 0 }, { 0x100, 0x3AF, ISA }, { 0x3B0, 0x3BB, ISA | VGA },
        { 0x3BC, 0x3BF, ISA }, { 0x3C0, 0x3DF, ISA | VGA }, { 0x3E0, 0x3FF, ISA },
    };
    uint32_t k = rng_below(r, sizeof span / sizeof span[0]);

    *lists = span[k].lists;
    switch (rng_below(r, 3)) {
    case 0: return span[k].first;
    case 1: return span[k].last;
    default: return rng_range(r, span[k].first, span[k].last);
    }
}

static void draw_question(struct rng *r, struct family *f)
{
    f->kind = (uint8_t)(rng_chance(r, 65) ? 0 : rng_below(r, 3));
    f->address = low_bits(r, &f->lists);
    f->address += 1024 * rng_below(r, 64);
    if (rng_chance(r, 15))
        f->address += (uint64_t)0x10000 << rng_below(r, 48);
    else if (rng_chance(r, 5))
        f->address = rng_chance(r, 50) ? 0 : UINT64_MAX;
    if (f->kind != 0 || f->address >= 0x10000 || f->address == 0)
        f->lists = 0;
    f->sayable = COVERS | OTHER_KIND | BESIDE;
    if (f->lists != 0)
        f->sayable |= ADDS | TAKES;
    if (f->lists != (ISA | VGA))
        f->sayable |= OFF_LIST;
}

/* ---- who is in the family, and says what ---- */

static size_t cost(uint8_t says)
{
    size_t bytes = 0;

    for (uint8_t one = 1; one < 1 << SAYINGS; one <<= 1)
        if (says & one)
            bytes += one < ADDS ? 20 : 8;
    return bytes;
}

/* A saying of a list that can be said; it fails where there is none, or no room. */
static bool draw_saying(struct rng *r, struct family *f, const uint8_t *list,
                        size_t n, uint8_t *says)
{
    uint32_t left = 0;

    for (size_t i = 0; i < n; i++)
        if (!(list[i] & ~f->sayable) && cost(list[i]) <= f->left
            && rng_below(r, ++left) == 0)
            *says = list[i];
    return left > 0;
}

#define DRAW(r, f, list, says) draw_saying(r, f, list, sizeof list, says)

/* One by which a bus claims nothing, though it is not silent. */
static bool draw_other(struct rng *r, struct family *f, uint8_t *says)
{
    if (rng_chance(r, 40) && DRAW(r, f, taking, says))
        return true;
    return DRAW(r, f, declaring, says);
}

static void add_member(struct family *f, uint8_t says, bool bit, uint32_t parent)
{
    f->bus[f->n++] = (struct member){ says, bit, parent };
    f->left -= cost(says);
}

/* One that makes a parent's yes to this, or leaves it so; it fails without room. */
static bool add_making(struct rng *r, struct family *f, enum seen seen,
                       uint32_t parent)
{
    uint8_t says = 0;
    bool bit = rng_chance(r, 50);

    if (f->n == 256)
        return false;
    if (seen == NO && !DRAW(r, f, claiming, &says))
        return false;
    if (seen == UNDECLARED)
        bit = false;
    if (seen == YES && (rng_chance(r, f->sparing) || !draw_other(r, f, &says)))
        bit = true;           /* and nothing else */
    add_member(f, says, bit, parent);
    return true;
}

/* Below a parent whose other children make this of yes: one that changes nothing. */
static enum seen fitting(struct rng *r, enum seen seen)
{
    if (seen == NO && rng_chance(r, 40))
        return NO;
    return seen != YES && rng_chance(r, 40) ? UNDECLARED : YES;
}

/* The last one of the way answers by itself, whether it has a link or not. */
static void add_top(struct rng *r, struct family *f)
{
    uint32_t roll = rng_below(r, 100);
    bool bit = rng_chance(r, 50);
    uint8_t says = 0;

    if (roll < 80) {
        f->at_top = YES;
        DRAW(r, f, claiming, &says);
    } else if (roll < 87 && DRAW(r, f, taking, &says)) {
        f->at_top = NO;
    } else {
        bit = false;
        f->at_top = roll < 94 ? NO : UNDECLARED;
        if (f->at_top == NO)
            DRAW(r, f, declaring, &says);
    }
    add_member(f, says, bit, ROOT);
    if ((bit || rng_chance(r, 30))
        && add_making(r, f, (enum seen)rng_below(r, 3), ROOT))
        f->bus[f->links].parent = f->links + 1;
}

/* What those of the way have to say beside their bit: nothing of the address. */
static void dress_way(struct rng *r, struct family *f)
{
    for (uint32_t i = 0; i < f->links; i++)
        if (!rng_chance(r, f->sparing) && DRAW(r, f, declaring, &f->bus[i].says))
            f->left -= cost(f->bus[i].says);
}

/* Makes the other children of a parent on the way say something, if they can. */
static void decide(struct rng *r, struct family *f, uint32_t link, enum seen seen)
{
    if (f->others[link] == YES && add_making(r, f, seen, link + 1))
        f->others[link] = seen;
}

/* At no link, at the first, in the middle, at the last, or at some of them. */
static void decide_some(struct rng *r, struct family *f)
{
    uint32_t roll = rng_below(r, 100);
    uint32_t n = roll < 20 ? 0 : roll < 50 ? 1 : 2 + rng_few(r, 30);

    while (f->links > 0 && n-- > 0) {
        uint32_t where = rng_below(r, 100);
        uint32_t link = where < 25 ? 0 : where < 50 ? f->links - 1
                      : rng_below(r, f->links);

        decide(r, f, link, rng_chance(r, 50) ? NO : UNDECLARED);
    }
}

/* One more child of a parent on the way. */
static void add_sibling(struct rng *r, struct family *f, uint32_t link)
{
    enum seen seen = fitting(r, f->others[link]);

    if (!add_making(r, f, seen, link + 1))
        add_making(r, f, YES, link + 1);
}

/*
 * One that has no part in the answer: a child of the asked bus, a child of another
 * child, one beside the bus that answers, or one without a parent.
 */
static void add_stranger(struct rng *r, struct family *f)
{
    enum seen seen = (enum seen)rng_below(r, 3);
    uint32_t first = f->links + 1;
    uint32_t roll = rng_below(r, 4);
    uint32_t parent = ROOT;

    if (roll == 0)
        parent = 0;
    else if (roll == 1)
        parent = f->bus[f->links].parent;
    else if (roll == 2 && f->n > first)
        parent = rng_range(r, first, f->n - 1);
    add_making(r, f, seen, parent);
}

/* Up to 256 buses in all: below one parent, below all of the way, or anywhere. */
static void add_others(struct rng *r, struct family *f)
{
    uint32_t n = rng_chance(r, 30) ? 256 : rng_few(r, 60);
    uint32_t strangers = rng_chance(r, 40) ? 0 : rng_below(r, 60);
    uint32_t one = rng_below(r, f->links + 1);
    bool scattered = rng_chance(r, 50);

    while (n-- > 0 && f->n < 256) {
        uint32_t link = scattered ? rng_below(r, f->links + 1) : one;

        if (link == f->links || rng_chance(r, strangers))
            add_stranger(r, f);
        else
            add_sibling(r, f, link);
    }
}

static void draw_family(struct rng *r, struct family *f)
{
    uint32_t roll = rng_below(r, 100);

    draw_question(r, f);
    f->links = roll < 4 ? 0 : roll < 40 ? 1 : roll < 65 ? rng_range(r, 2, 4)
             : roll < 85 ? rng_range(r, 3, 20) : rng_range(r, 20, 255);
    f->left = PART_LIMIT - 8 * 256;   /* so that every bus can have a link */
    f->sparing = rng_chance(r, 50) ? 20 : 95;
    f->n = 0;
    for (uint32_t i = 0; i < 256; i++)
        f->others[i] = YES;
    for (uint32_t i = 0; i < f->links; i++)
        add_member(f, 0, true, i + 1);
    add_top(r, f);
    decide_some(r, f);
    dress_way(r, f);
    add_others(r, f);
}

/* "When the parent answers yes": from the top down, the first that says otherwise. */
static enum seen known_answer(const struct family *f)
{
    enum seen seen = f->at_top;

    for (uint32_t link = f->links; link-- > 0 && seen == YES; )
        seen = f->others[link];
    return seen;
}

/* ---- the table ---- */

/* How far a range goes in one direction, of so many addresses there. */
static uint64_t reach(struct rng *r, uint64_t most)
{
    uint32_t roll = rng_below(r, 100);
    uint64_t far = roll < 40 ? 0 : roll < 60 ? 1 : roll < 70 ? most : rng_scaled(r);

    return far < most ? far : most;
}

static void add_around(struct rng *r, struct builder *b, uint8_t bus, uint8_t kind,
                       uint64_t address)
{
    uint64_t before = reach(r, address);
    uint64_t behind = reach(r, UINT64_MAX - address);

    if (before + behind == UINT64_MAX && before > 0)
        before--;             /* no length says 2^64 */
    else if (before + behind == UINT64_MAX)
        behind--;
    add_mapping(b, bus, kind, address - before, before + behind + 1);
}

static void add_beside(struct rng *r, struct builder *b, uint8_t bus, uint8_t kind,
                       uint64_t address)
{
    uint64_t before = reach(r, address);
    uint64_t behind = reach(r, UINT64_MAX - address);

    switch (rng_below(r, 3)) {
    case 0: add_mapping(b, bus, kind, address - before, before); break;
    case 1:
        if (address != UINT64_MAX) {
            add_mapping(b, bus, kind, address + 1, behind);
            break;
        }
        /* fall through */
    default: add_mapping(b, bus, kind, address, 0);
    }
}

static void add_mappings(struct rng *r, const struct family *f, struct builder *b,
                         uint8_t bus, uint8_t says)
{
    if (says & BESIDE)
        add_beside(r, b, bus, f->kind, f->address);
    if (says & COVERS)
        add_around(r, b, bus, f->kind, f->address);
    if (says & OTHER_KIND)
        add_around(r, b, bus, (uint8_t)((f->kind + rng_range(r, 1, 2)) % 3),
                   f->address);
}

/* Bit 0 as it is meant, and any others. */
static uint8_t any_bits(struct rng *r, bool bit)
{
    return rng_chance(r, 50) ? bit : (uint8_t)((rng_byte(r) & 0xFE) | bit);
}

/* A list that the address is on, or one that it is not on. */
static uint32_t a_list(struct rng *r, uint8_t lists)
{
    return lists == (ISA | VGA) ? rng_below(r, 2) : lists == ISA ? 0 : 1;
}

static void add_modifiers(struct rng *r, const struct family *f, struct builder *b,
                          uint8_t bus, uint8_t says)
{
    uint8_t order[2] = { ADDS, TAKES };

    if (says & OFF_LIST) {
        uint8_t bits = rng_byte(r);
        add_modifier(b, bus, bits, a_list(r, (uint8_t)((ISA | VGA) & ~f->lists)));
    }
    if (rng_chance(r, 50))
        order[0] = TAKES, order[1] = ADDS;
    for (int i = 0; i < 2; i++)
        if (says & order[i]) {
            uint8_t bits = any_bits(r, order[i] == TAKES);
            add_modifier(b, bus, bits, a_list(r, f->lists));
        }
}

/* The entries of each type in an order of their own. */
static void build(struct rng *r, const struct family *f, const uint8_t *id,
                  struct builder *b)
{
    uint8_t order[256];
    bool mixed = rng_chance(r, 60), rising = rng_chance(r, 50);

    builder_start(b, 0xFEE00000u);
    add_processor(b, rng_byte(r) & 0x7F, 3);
    rng_shuffled(r, order);
    for (uint32_t i = 0; i < 256; i++)
        if (order[i] < f->n)
            add_bus(b, id[order[i]], bus_names[rng_below(r, 18)]);
    rng_shuffled(r, order);
    for (uint32_t i = 0; i < 256; i++)
        if (order[i] < f->n)
            add_mappings(r, f, b, id[order[i]], f->bus[order[i]].says);
    rng_shuffled(r, order);
    for (uint32_t i = 0; i < 256; i++) {
        uint32_t k = mixed ? order[i] : rising ? i : 255 - i;
        if (k < f->n && f->bus[k].parent != ROOT)
            add_link(b, id[k], any_bits(r, f->bus[k].bit), id[f->bus[k].parent]);
    }
    for (uint32_t i = 0; i < 256; i++)
        if (order[i] < f->n)
            add_modifiers(r, f, b, id[order[i]], f->bus[order[i]].says);
}

void family_case(struct rng *r, struct test_case *c, struct address_query *q)
{
    struct family f;
    struct builder b;
    uint8_t id[256];

    draw_family(r, &f);
    rng_shuffled(r, id);
    build(r, &f, id, &b);
    for (uint32_t i = rng_few(r, 10); i > 0 && ext_left(&b, PART_LIMIT) >= 8; i--)
        add_unknown(&b, 131, 8, rng_byte(r));
    finish_case(r, &b, "buses that share their parents", c);
    *q = (struct address_query){
        .bus = id[0], .kind = f.kind, .address = f.address, .expected = 0,
        .seen = known_answer(&f), .links = f.links,
    };
}
