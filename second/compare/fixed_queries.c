/*
 * Questions on both sides of a line.  What is to be answered is stated here, and
 * must also be what is worked out for generated questions.
 */
#include "compare.h"

#include "arena.h"

#include <string.h>

enum { INT, NMI, SMI, EXTINT };

static struct rng *r;
static struct test_case board;
static struct asked *asked;
static struct builder b;

static void ask(const char *label, int expected)
{
    board.label = label;
    board.expected = expected;
    asked = ask_table(&board);
}

/* The board in b. */
static void ask_sound(const char *label)
{
    board.size = seal(&b, board.bytes);
    ask(label, 0);
}

/* A question about routes, with the answer that is worked out for it. */
static struct route_query *question(bool local, uint8_t type, uint8_t bus,
                                    uint8_t irq)
{
    static struct route_query q;

    q.local = local, q.type = type, q.bus = bus, q.irq = irq;
    expect_routes(asked, &q);
    return &q;
}

/* How many pairs; and which, if they are given. */
static void check_pairs(const struct route_query *q, const char *pairs,
                        size_t count)
{
    if (q->expected != 0 || q->count != count
        || (pairs != NULL && memcmp(q->pairs, pairs, 2 * count) != 0))
        fail_case("other routes are worked out than stated");
    ask_routes(r, q);
}

#define PAIRS(text) text, (sizeof(text) - 1) / 2

static void check_no_routes(const struct route_query *q, int number)
{
    if (q->expected != number)
        fail_case("another number is worked out than stated");
    ask_routes(r, q);
}

static void check_answer(uint8_t bus, uint8_t kind, uint64_t address,
                         int refusal, enum seen seen, unsigned links)
{
    struct address_query q = { .bus = bus, .kind = kind, .address = address };

    expect_address(asked, &q);
    if (q.expected != refusal
        || (refusal == 0 && (q.seen != seen || q.links != links)))
        fail_case("another answer is worked out than stated");
    ask_address(&q);
}

static void check_address(uint8_t bus, uint8_t kind, uint64_t address,
                          enum seen seen, unsigned links)
{
    check_answer(bus, kind, address, 0, seen, links);
}

static void check_no_address(uint8_t bus, uint8_t kind, int number)
{
    check_answer(bus, kind, 0, number, NO, 0);
}

/* ---- the bench board ---- */

/* P3 and P4, and all else that can be asked there. */
static void the_board(void)
{
    board.size = bench_board(board.bytes);
    ask("bench board", 0);
    check_pairs(question(false, INT, 0, 1), PAIRS("\2\1"));
    check_pairs(question(false, INT, 0, 2), PAIRS(""));
    check_pairs(question(true, EXTINT, 0, 0), PAIRS("\0\0"));
    for (unsigned irq = 0; irq < 256; irq += thorough || irq < 3 ? 1 : 11)
        for (uint8_t type = 0; type < 4; type++) {
            bool io = type == INT && irq == 1, local = type == EXTINT && irq == 0;
            check_pairs(question(false, type, 0, (uint8_t)irq), NULL, io);
            check_pairs(question(true, type, 0, (uint8_t)irq), NULL, local);
        }
    for (unsigned i = 0; i < 256; i += thorough || i < 8 || i > 240 ? 1 : 9) {
        for (int local = 0; local < 2; local++) {
            if (i > 3)
                check_no_routes(question(local, (uint8_t)i, 0, 1), 24);
            if (i > 0)
                check_no_routes(question(local, INT, (uint8_t)i, 1), 24);
        }
        check_answer(0, (uint8_t)i, 0, i > 2 ? 24 : 0, UNDECLARED, 0);
        check_answer((uint8_t)i, 0, 0, i > 0 ? 24 : 0, UNDECLARED, 0);
    }
    for (size_t n = board.size; n-- > 0; ) {
        board.size = n;
        ask("bench board cut", n < HEADER ? 5 : 7);
        check_no_routes(question(n % 2, INT, 0, 1), n < HEADER ? 5 : 7);
        check_no_address(9, 9, n < HEADER ? 5 : 7);
    }
}

/* ---- routes ---- */

static void without_io_apics(void)
{
    small_board(&b);
    add_interrupt(&b, 3, INT, 0, 0, 1, 255, 1);
    ask_sound("destination 255 without I/O APICs");
    check_pairs(question(false, INT, 0, 1), PAIRS(""));
}

/* I/O APICs in no order of IDs, some off, with each other's IDs and 255. */
static void io_side(void)
{
    small_board(&b);
    add_bus(&b, 255, "PCI   ");
    add_io_apic(&b, 9, 1, 0xFEC00000u);
    add_io_apic(&b, 4, 0, 0);
    add_io_apic(&b, 3, 0xFF, 0xFEC01000u);
    add_io_apic(&b, 255, 0, 0);
    add_io_apic(&b, 9, 0, 0);
    add_io_apic(&b, 7, 1, 0xFEC02000u);
    add_interrupt(&b, 3, INT, 0, 0, 1, 255, 20);
    add_interrupt(&b, 3, INT, 0, 0, 1, 4, 21);
    add_interrupt(&b, 3, INT, 0, 0, 1, 9, 22);
    add_interrupt(&b, 3, INT, 0, 0, 1, 3, 23);
    add_interrupt(&b, 3, INT, 0, 0, 1, 3, 23);
    add_interrupt(&b, 3, INT, 0, 0, 2, 255, 255);
    add_interrupt(&b, 3, NMI, 0, 0, 1, 7, 1);
    add_interrupt(&b, 3, INT, 0, 255, 1, 7, 0);
    add_interrupt(&b, 3, INT, 0, 0, 3, 4, 7);
    add_interrupt(&b, 3, INT, 0, 0, 1, 255, 0);
    add_interrupt(&b, 4, INT, 0, 0, 1, 0, 1);
    ask_sound("I/O APICs on and off");
    check_pairs(question(false, INT, 0, 1),
                PAIRS("\x9\x14\x3\x14\x7\x14" "\x9\x16" "\x3\x17" "\x3\x17"
                      "\x9\x0\x3\x0\x7\x0"));
    check_pairs(question(false, INT, 0, 2), PAIRS("\x9\xFF\x3\xFF\x7\xFF"));
    route_in_every_room(question(false, INT, 0, 2), 10);
    check_pairs(question(false, INT, 0, 3), PAIRS(""));
    check_pairs(question(false, NMI, 0, 1), PAIRS("\7\1"));
    check_pairs(question(false, INT, 255, 1), PAIRS("\7\0"));
    check_pairs(question(true, INT, 0, 1), PAIRS("\0\1"));
}

/* Processors in no order of IDs; an I/O APIC takes no part. */
static void local_side(void)
{
    builder_start(&b, 0xFEE00000u);
    add_processor(&b, 6, 0);
    add_processor(&b, 5, 1);
    add_processor(&b, 255, 0);
    add_processor(&b, 2, 3);
    add_processor(&b, 5, 0);
    add_processor(&b, 254, 0xFD);
    add_bus(&b, 0, "EISA  ");
    add_io_apic(&b, 1, 1, 0xFEC00000u);
    add_interrupt(&b, 3, NMI, 0, 0, 0, 1, 9);
    add_interrupt(&b, 4, NMI, 0, 0, 0, 255, 1);
    add_interrupt(&b, 4, NMI, 0, 0, 0, 6, 0);
    add_interrupt(&b, 4, SMI, 0, 0, 0, 5, 1);
    add_interrupt(&b, 4, NMI, 0, 0, 0, 5, 0);
    ask_sound("processors on and off");
    check_pairs(question(true, NMI, 0, 0),
                PAIRS("\x5\x1\x2\x1\xFE\x1" "\x5\x0"));
    route_in_every_room(question(true, NMI, 0, 0), 10);
    check_pairs(question(true, SMI, 0, 0), PAIRS("\5\1"));
    check_pairs(question(false, NMI, 0, 0), PAIRS("\1\x9"));
}

/* All that the base can hold of I/O APICs and interrupts to all of them. */
static void many_pairs(uint32_t on)
{
    small_board(&b);
    for (uint32_t i = 0; i < 251; i++)
        add_io_apic(&b, (uint8_t)(1 + i), i % (251 / on) == 0, (i + 1) << 10);
    while (base_left(&b, PART_LIMIT) > 0)
        add_interrupt(&b, 3, SMI, 0, 0, 77, 255, (uint8_t)b.count);
    ask_sound("252 interrupts to 251 I/O APICs");
    check_pairs(question(false, SMI, 0, 77), NULL, (size_t)252 * on);
}

/* The table's own number first, then 24, then 19. */
static void in_order(void)
{
    board.size = bench_board(board.bytes);
    board.bytes[95] ^= 1;
    ask("bench board, wrong sum", 8);
    check_no_routes(question(false, 4, 9, 0), 8);
    check_no_address(9, 3, 8);

    small_board(&b);
    add_link(&b, 0, 1, 0);
    board.size = seal(&b, board.bytes);
    ask("a lone bus its own parent", 18);
    check_no_routes(question(false, INT, 0, 0), 18);
    check_no_address(0, 0, 18);
}

/* ---- addresses ---- */

/* An address on buses that have either list, added and taken away. */
static void check_lists(uint32_t at)
{
    uint32_t low = at % 1024;
    bool isa = at < 65536 && low >= 0x100;
    bool vga = isa && ((low >= 0x3B0 && low <= 0x3BB)
                       || (low >= 0x3C0 && low <= 0x3DF));

    check_address(1, 0, at, isa ? YES : NO, 0);
    check_address(2, 0, at, vga ? YES : NO, 0);
    check_address(3, 0, at, isa ? NO : YES, 0);
    check_address(4, 0, at, vga ? NO : YES, 0);
}

/* Each of the 1,024 low parts with some high one, and all edges near 65,536. */
static void check_some(void)
{
    static const uint16_t edge[] = {
        0, 0xFF, 0x100, 0x3AF, 0x3B0, 0x3BB, 0x3BC, 0x3BF, 0x3C0, 0x3DF, 0x3E0,
        0x3FF,
    };

    for (uint32_t low = 0; low < 1024; low++)
        check_lists(low + 1024 * rng_below(r, 66));
    for (uint32_t high = 0; high < 66; high += high == 1 ? 61 : 1)
        for (size_t i = 0; i < sizeof edge / sizeof edge[0]; i++)
            check_lists(edge[i] + 1024 * high);
}

/* P8 to P10, and other addresses: in a thorough run, all of both lists. */
static void both_lists(void)
{
    small_board(&b);
    for (uint8_t bus = 1; bus <= 4; bus++)
        add_bus(&b, bus, "PCI   ");
    add_mapping(&b, 3, 0, 0, 0x20000);
    add_mapping(&b, 4, 0, 0, 0x20000);
    for (uint8_t list = 0; list < 2; list++) {
        add_modifier(&b, 1 + list, 0, list);
        add_modifier(&b, 3 + list, 1, list);
    }
    ask_sound("both lists");
    check_address(1, 0, 0xFF, NO, 0);
    check_address(1, 0, 0x100, YES, 0);
    check_address(2, 0, 0x3BB, YES, 0);
    check_address(2, 0, 0x3BC, NO, 0);
    check_address(1, 0, 0x10100, NO, 0);
    check_address(2, 0, 0x103B0, NO, 0);
    check_some();
    for (uint32_t at = 0; thorough && at < 0x10800; at++)
        check_lists(at);
    check_address(1, 0, 0x100000100u, NO, 0);
    check_address(3, 0, 0x100000100u, NO, 0);
}

static void modifiers(void)
{
    small_board(&b);
    add_bus(&b, 1, "PCI   ");
    add_bus(&b, 2, "PCI   ");
    add_mapping(&b, 1, 0, 0x100, 0x300);
    add_mapping(&b, 1, 1, 0x100, 0x300);
    add_modifier(&b, 0, 0, 0);
    add_modifier(&b, 1, 0, 0);
    add_modifier(&b, 1, 1, 1);
    add_modifier(&b, 1, 0, 1);
    add_unknown(&b, 131, 8, 0);
    b.ext[b.ext_len - 6] = 2;   /* as if it added list 0 to bus 2 */
    ask_sound("modifiers");
    for (uint8_t kind = 1; kind < 3; kind++) {
        check_address(0, kind, 0x100, NO, 0);
        check_address(2, kind, 0x100, UNDECLARED, 0);
    }
    check_address(1, 0, 0x3AF, YES, 0);
    check_address(1, 0, 0x3B0, NO, 0);
    check_address(1, 1, 0x3B0, YES, 0);
    check_address(1, 2, 0x3B0, NO, 0);
    check_address(2, 0, 0x3B0, UNDECLARED, 0);
}

static void ranges(void)
{
    small_board(&b);
    for (uint8_t bus = 1; bus <= 4; bus++)
        add_bus(&b, bus, "PCI   ");
    add_mapping(&b, 0, 0, UINT64_MAX, 1);
    add_mapping(&b, 1, 1, 1, UINT64_MAX);
    add_mapping(&b, 2, 2, 0, UINT64_MAX);
    add_mapping(&b, 3, 0, 0x1000, 0);
    add_mapping(&b, 3, 0, UINT64_MAX, 0);
    add_mapping(&b, 4, 1, 0x1000, 0x1000);
    add_unknown(&b, 131, 20, 4);
    ask_sound("ranges");
    check_address(0, 0, UINT64_MAX, YES, 0);
    check_address(0, 0, UINT64_MAX - 1, NO, 0);
    check_address(0, 0, 0, NO, 0);
    check_address(1, 1, UINT64_MAX, YES, 0);
    check_address(1, 1, 1, YES, 0);
    check_address(1, 1, 0, NO, 0);
    check_address(1, 2, 1, NO, 0);
    check_address(2, 2, UINT64_MAX, NO, 0);
    check_address(2, 2, UINT64_MAX - 1, YES, 0);
    check_address(2, 2, 0, YES, 0);
    check_address(3, 0, 0x1000, NO, 0);
    check_address(3, 0, 0xFFF, NO, 0);
    check_address(3, 0, UINT64_MAX, NO, 0);
    check_address(3, 0, 0, NO, 0);
    check_address(4, 1, 0xFFF, NO, 0);
    check_address(4, 1, 0x1000, YES, 0);
    check_address(4, 1, 0x1FFF, YES, 0);
    check_address(4, 1, 0x2000, NO, 0);
    check_address(4, 1, 0x100001000u, NO, 0);
}

/* Bus 0 subtractive below 1, 1 not below 2; 3 has nothing and is below 4. */
static void short_climbs(void)
{
    small_board(&b);
    for (uint8_t bus = 1; bus <= 5; bus++)
        add_bus(&b, bus, "PCI   ");
    add_mapping(&b, 0, 1, 0x1000, 0x1000);
    add_mapping(&b, 1, 1, 0x3000, 0x1000);
    add_mapping(&b, 2, 1, 0, 0x8000);
    add_mapping(&b, 5, 1, 0, 1);
    add_link(&b, 5, 1, 3);
    add_link(&b, 0, 1, 1);
    add_link(&b, 1, 0xFE, 2);
    add_link(&b, 3, 0xFF, 4);
    add_modifier(&b, 0, 1, 0);
    ask_sound("short climbs");
    check_address(0, 1, 0x1000, YES, 0);
    check_address(0, 1, 0x3000, YES, 1);
    check_address(0, 1, 0x5000, NO, 1);
    check_address(0, 0, 0x3000, NO, 1);
    check_address(0, 0, 0x3100, NO, 0);
    check_address(1, 1, 0x1000, NO, 0);
    check_address(2, 1, 0x1000, YES, 0);
    check_address(3, 1, 0, UNDECLARED, 1);
    check_address(4, 1, 0, UNDECLARED, 0);
    check_address(5, 1, 0, YES, 0);
    check_address(5, 1, 1, UNDECLARED, 2);
}

/* Bus i has parent i + 1; asked from bus 0, or from half-way up. */
static void chain_of_256(bool falling)
{
    builder_start(&b, 0);
    add_processor(&b, 0, 3);
    for (int i = 0; i < 256; i++)
        add_bus(&b, (uint8_t)i, "PCI   ");
    add_mapping(&b, 255, 0, 0x1000, 0x1000);
    add_mapping(&b, 254, 1, 0x1000, 0x1000);
    for (int i = 0; i < 255; i++) {
        int k = falling ? 254 - i : i;
        add_link(&b, (uint8_t)k, 1, (uint8_t)(k + 1));
    }
    add_modifier(&b, 128, 1, 1);
    ask_sound("a chain of 256 buses");
    check_address(0, 0, 0x1000, YES, 255);
    check_address(0, 0, 0x2000, NO, 255);
    check_address(0, 0, 0x13C0, NO, 128);
    check_address(129, 0, 0x13C0, YES, 126);
    check_address(0, 1, 0x1000, YES, 254);
    check_address(255, 0, 0x1000, YES, 0);
    check_address(254, 0, 0, NO, 1);

    memmove(b.ext, b.ext + 40, b.ext_len -= 40);   /* without the mappings */
    ask_sound("a chain of 256 buses that says nothing");
    check_address(0, 1, 0, UNDECLARED, 255);
    check_address(1, 2, UINT64_MAX, UNDECLARED, 254);

    EACH(&b, 129, e)
        if (e[2] == 100)
            e[3] = 0xFE;
    ask_sound("a chain of 256 buses, cut at 100");
    check_address(0, 1, 0, UNDECLARED, 100);
    check_address(100, 1, 0, UNDECLARED, 0);
    check_address(101, 0, 0x3B0, NO, 27);
}

void fixed_queries(struct rng *draws)
{
    r = draws;
    the_board();
    without_io_apics();
    io_side();
    local_side();
    many_pairs(251);
    many_pairs(1);
    in_order();
    both_lists();
    modifiers();
    ranges();
    short_climbs();
    chain_of_256(false);
    chain_of_256(true);
    fixed_families();
}
