/*
 * Addresses below a parent that others share, as document 02 amends them.  What is
 * to be answered is stated here, and must also be what is worked out.
 */
#include "compare.h"

#include "arena.h"

static struct test_case board;
static struct asked *asked;
static struct builder b;

/* The board in b. */
static void ask_sound(const char *label)
{
    board.size = seal(&b, board.bytes);
    board.label = label;
    board.expected = 0;
    asked = ask_table(&board);
}

static void check_address(uint8_t bus, uint8_t kind, uint64_t address,
                          enum seen seen, unsigned links)
{
    struct address_query q = { .bus = bus, .kind = kind, .address = address };

    expect_address(asked, &q);
    if (q.expected != 0 || q.seen != seen || q.links != links)
        fail_case("another answer is worked out than stated");
    ask_address(&q);
}

enum { HERE = 0x3B0 };   /* on both lists */

/* So many buses, of which bus 0 sees the first kinds below 10000h. */
static void start_family(uint32_t buses, uint8_t kinds)
{
    builder_start(&b, 0xFEE00000u);
    add_processor(&b, 0, 3);
    for (uint32_t i = 0; i < buses; i++)
        add_bus(&b, (uint8_t)i, "PCI   ");
    for (uint8_t kind = 0; kind < kinds; kind++)
        add_mapping(&b, 0, kind, 0, 0x10000);
}

/*
 * Bus 2 beside bus 1, which has the bit: its mapping, the bits of its link, its
 * modifiers; and what bus 1 sees then.
 */
struct other {
    const char *label;
    bool maps;
    uint8_t kind;
    uint64_t base, length;
    uint8_t bits;
    const char *modifiers;    /* adds or takes, ISA or VGA: two letters each */
    enum seen seen[3];        /* by kind */
};

static const struct other others[] = {
    { "says nothing", false, 0, 0, 0, 0, "",
      { UNDECLARED, UNDECLARED, UNDECLARED } },
    { "says nothing, reserved bits", false, 0, 0, 0, 0xFE, "",
      { UNDECLARED, UNDECLARED, UNDECLARED } },
    { "has the bit", false, 0, 0, 0, 1, "", { YES, YES, YES } },
    { "has the bit, reserved bits", false, 0, 0, 0, 0xFF, "", { YES, YES, YES } },
    { "memory", true, 1, 0, 0x1000, 0, "", { YES, NO, YES } },
    { "memory, with the bit", true, 1, 0, 0x1000, 1, "", { YES, NO, YES } },
    { "prefetch", true, 2, 0, 0x1000, 0, "", { YES, YES, NO } },
    { "I/O", true, 0, 0, 0x1000, 0, "", { NO, YES, YES } },
    { "I/O, with the bit", true, 0, 0, 0x1000, 1, "", { NO, YES, YES } },
    { "from here on", true, 1, HERE, 0x1000, 0, "", { YES, NO, YES } },
    { "from behind on", true, 1, HERE + 1, 0x1000, 0, "", { YES, YES, YES } },
    { "up to here", true, 1, 0, HERE + 1, 0, "", { YES, NO, YES } },
    { "up to before", true, 1, 0, HERE, 0, "", { YES, YES, YES } },
    { "an empty range", true, 1, HERE, 0, 0, "", { YES, YES, YES } },
    { "ISA added", false, 0, 0, 0, 0, "AI", { NO, YES, YES } },
    { "VGA added, with the bit", false, 0, 0, 0, 1, "AV", { NO, YES, YES } },
    { "ISA taken away", false, 0, 0, 0, 0, "TI", { YES, YES, YES } },
    { "VGA taken away, with the bit", false, 0, 0, 0, 1, "TV", { YES, YES, YES } },
    { "I/O, taken away", true, 0, 0, 0x1000, 0, "TV", { YES, YES, YES } },
    { "I/O, added", true, 0, 0, 0x1000, 0, "AV", { NO, YES, YES } },
    { "added, taken away", false, 0, 0, 0, 0, "AITV", { YES, YES, YES } },
    { "taken away, added", false, 0, 0, 0, 0, "TVAI", { YES, YES, YES } },
    { "memory, taken away", true, 1, 0, 0x1000, 0, "TI", { YES, NO, YES } },
    { "memory, added", true, 1, 0, 0x1000, 1, "AI", { NO, NO, YES } },
};

static void beside(const struct other *o)
{
    start_family(3, 3);
    if (o->maps)
        add_mapping(&b, 2, o->kind, o->base, o->length);
    add_link(&b, 1, 1, 0);
    add_link(&b, 2, o->bits, 0);
    for (const char *m = o->modifiers; *m != '\0'; m += 2)
        add_modifier(&b, 2, m[0] == 'T', m[1] == 'V');
    ask_sound(o->label);
    for (uint8_t kind = 0; kind < 3; kind++)
        check_address(1, kind, HERE, o->seen[kind], 1);
    check_address(1, 1, 0x10000, NO, 1);   /* the parent's own no */
    check_address(0, 1, HERE, YES, 0);
}

/* Where a list begins and ends, on a bus beside one that has it. */
static void beside_lists(void)
{
    start_family(4, 3);
    add_link(&b, 1, 1, 0);
    add_link(&b, 2, 0, 0);
    add_modifier(&b, 2, 0, 1);
    ask_sound("beside a bus with VGA");
    check_address(1, 0, 0x3AF, YES, 1);
    check_address(1, 0, 0x3B0, NO, 1);
    check_address(1, 0, 0x3BB, NO, 1);
    check_address(1, 0, 0x3BC, YES, 1);
    check_address(1, 0, 0xFFBF, YES, 1);
    check_address(1, 0, 0xFFC0, NO, 1);
    check_address(1, 0, 0xFFDF, NO, 1);
    check_address(1, 0, 0xFFE0, YES, 1);

    b.ext[b.ext_len - 4] = 0;
    ask_sound("beside a bus with ISA");
    check_address(1, 0, 0xFF, YES, 1);
    check_address(1, 0, 0x100, NO, 1);
    check_address(1, 0, 0xFFFF, NO, 1);
    check_address(1, 0, 0x400, YES, 1);
}

/*
 * The steps before the parent's answer, and a parent that does not answer yes.  Buses
 * 1 to 3 are below 0; 6 and 7 below 4, which sees some memory; 8 and 9 below 5, which
 * says nothing.  3, 7 and 9 are silent.
 */
static void nothing_amended(void)
{
    start_family(10, 3);
    add_mapping(&b, 1, 1, HERE, 1);
    add_mapping(&b, 2, 1, HERE, 1);
    add_mapping(&b, 4, 1, 0, HERE);
    for (uint8_t bus = 1; bus <= 3; bus++)
        add_link(&b, bus, bus != 3, 0);
    for (uint8_t bus = 6; bus <= 9; bus++)
        add_link(&b, bus, bus % 2 == 0, bus < 8 ? 4 : 5);
    add_modifier(&b, 1, 1, 0);
    add_modifier(&b, 4, 1, 0);
    ask_sound("nothing to amend");
    check_address(1, 1, HERE, YES, 0);          /* held, as bus 2 holds it */
    check_address(2, 1, HERE, YES, 0);
    check_address(1, 0, HERE, NO, 0);           /* taken away, beside a silent one */
    check_address(3, 1, HERE, UNDECLARED, 0);   /* without the bit */
    check_address(6, 0, HERE, NO, 1);           /* the parent's no */
    check_address(6, 1, HERE, NO, 1);
    check_address(8, 1, HERE, UNDECLARED, 1);
    check_address(2, 0, HERE, UNDECLARED, 1);   /* but this is amended, */
    check_address(6, 1, HERE - 1, UNDECLARED, 1);   /* and this */

    add_modifier(&b, 7, 0, 0);
    add_modifier(&b, 9, 0, 0);
    ask_sound("nothing to amend beside a claim");
    check_address(6, 0, HERE, NO, 1);
    check_address(8, 0, HERE, UNDECLARED, 1);   /* the parent's undeclared */
    check_address(9, 0, HERE, YES, 0);
    check_address(6, 1, HERE - 1, YES, 1);      /* 7 is no longer silent */
}

/*
 * Bus 1 is below 0; 3 too, and claims.  Below 1 are 2, the asked one, and 4; 5 is
 * below 2 and 6 below 4, and both claim; so does 7, which has no parent.
 */
static void who_is_beside(uint8_t bit_of_1)
{
    start_family(8, 3);
    for (uint8_t bus = 3; bus < 8; bus++)
        if (bus != 4)
            add_mapping(&b, bus, 1, 0, 0x2000);
    if (!bit_of_1)
        add_mapping(&b, 1, 1, 0, 0x2000);
    add_link(&b, 6, 0, 4);
    add_link(&b, 5, 1, 2);
    add_link(&b, 4, 1, 1);
    add_link(&b, 3, 0, 0);
    add_link(&b, 2, 1, 1);
    add_link(&b, 1, bit_of_1, 0);
    ask_sound("who is beside a bus");
    check_address(2, 1, HERE, bit_of_1 ? NO : YES, 1u + bit_of_1);
    check_address(4, 1, HERE, bit_of_1 ? NO : YES, 1u + bit_of_1);
    check_address(2, 1, 0x2000, bit_of_1 ? YES : NO, 1u + bit_of_1);
    check_address(1, 1, HERE, bit_of_1 ? NO : YES, bit_of_1);
    check_address(5, 1, 0x2000, bit_of_1 ? YES : NO, 2u + bit_of_1);
}

/*
 * Bus i is below i + 1, up to bus 0, which is above all; beside it, where this is not
 * yes, is bus i + n, which claims or says nothing.  Then the highest decides.
 */
static void beside_chain(unsigned n, const enum seen *says)
{
    start_family(2 * n + 1, 3);
    for (unsigned i = 1; i <= n; i++)
        if (says[i] == NO)
            add_mapping(&b, (uint8_t)(i + n), 1, 0, 0x1000);
    for (unsigned i = 1; i <= n; i++) {
        uint8_t parent = (uint8_t)((i + 1) % (n + 1));

        add_link(&b, (uint8_t)i, 1, parent);
        if (says[i] != YES)
            add_link(&b, (uint8_t)(i + n), says[i] == NO, parent);
    }
    ask_sound("a chain with others beside it");
    enum seen seen = YES;
    for (unsigned i = n; i >= 1; i--) {
        if (seen == YES)
            seen = says[i];
        check_address((uint8_t)i, 1, HERE, seen, n + 1 - i);
    }
}

/* All ways in which one to four links can be decided. */
static void beside_chains(void)
{
    for (unsigned n = 1; n <= 4; n++) {
        enum seen says[5] = { 0 };
        unsigned ways = 1;

        for (unsigned i = 0; i < n; i++)
            ways *= 3;
        for (unsigned way = 0; way < ways; way++) {
            for (unsigned i = 1, left = way; i <= n; i++, left /= 3)
                says[i] = (enum seen)(left % 3);
            beside_chain(n, says);
        }
    }
}

/* 254 links, and the last bus beside one of them. */
static void beside_long_chain(uint8_t link, bool claims)
{
    start_family(256, 3);
    if (claims)
        add_mapping(&b, 255, 1, 0, 0x1000);
    for (int i = 1; i < 255; i++)
        add_link(&b, (uint8_t)i, 1, (uint8_t)((i + 1) % 255));
    add_link(&b, 255, 0, (link + 1) % 255);
    ask_sound("a bus beside a long chain");
    enum seen seen = claims ? NO : UNDECLARED;
    check_address(1, 1, HERE, seen, 254);
    check_address(link, 1, HERE, seen, 255u - link);
    if (link < 254)
        check_address(link + 1, 1, HERE, YES, 254u - link);
    if (claims)
        check_address(1, 1, 0x1000, YES, 254);
}

/* Links of buses 1 to 255 to bus 0, all with the bit but for one. */
static void link_many(bool falling, int silent)
{
    for (int i = 0; i < 255; i++) {
        int bus = falling ? 255 - i : 1 + i;
        add_link(&b, (uint8_t)bus, bus != silent, 0);
    }
}

static void many_below_one(bool falling)
{
    static const uint8_t some[] = { 2, 3, 63, 64, 127, 128, 192, 254, 255 };
    uint8_t last = falling ? 2 : 255;

    start_family(256, 3);
    link_many(falling, 256);
    ask_sound("255 below one, all with the bit");
    check_address(1, 1, HERE, YES, 1);
    check_address(255, 0, HERE, YES, 1);
    for (size_t i = 0; i < sizeof some; i++) {
        start_family(256, 3);
        link_many(falling, some[i]);
        ask_sound("255 below one, one of them silent");
        check_address(1, 1, HERE, UNDECLARED, 1);
        check_address(some[i], 1, HERE, UNDECLARED, 0);

        start_family(256, 3);
        add_mapping(&b, some[i], 1, HERE, 1);
        link_many(falling, last);
        ask_sound("255 below one, one of them claiming");
        check_address(1, 1, HERE, NO, 1);
        check_address(some[i], 1, HERE, YES, 0);
        check_address(1, 0, HERE, some[i] == last ? YES : UNDECLARED, 1);
    }
}

/* All but bus 1 add a list, or take it away, or say nothing at all. */
static void all_below_one(bool entries, bool away, enum seen here)
{
    start_family(256, 1);
    for (int i = 1; i < 256; i++)
        add_link(&b, (uint8_t)i, i == 1, 0);
    for (int i = 2; entries && i < 256; i++)
        add_modifier(&b, (uint8_t)i, away, 1);
    ask_sound("255 below one, all the same");
    check_address(1, 0, HERE, here, 1);
    check_address(1, 0, HERE - 1, entries ? YES : UNDECLARED, 1);
    check_address(2, 0, HERE, !entries ? UNDECLARED : away ? NO : YES, 0);
}

void fixed_families(void)
{
    for (size_t i = 0; i < sizeof others / sizeof others[0]; i++)
        beside(&others[i]);
    beside_lists();
    nothing_amended();
    who_is_beside(0);
    who_is_beside(1);
    beside_chains();
    for (unsigned i = 1; i < 255; i += thorough || i < 3 || i > 251 ? 1 : 50) {
        beside_long_chain((uint8_t)i, true);
        beside_long_chain((uint8_t)i, false);
    }
    many_below_one(false);
    many_below_one(true);
    all_below_one(false, false, UNDECLARED);
    all_below_one(true, false, NO);
    all_below_one(true, true, YES);
}
