/*
 * Questions about PCI slots on both sides of a line.  What is to be answered is
 * stated here, and must also be what is worked out for generated questions.
 */
#include "compare.h"

#include "arena.h"

#include <string.h>

enum { INT, NMI, SMI, EXTINT };

/* A source IRQ of a PCI bus. */
#define SLOT(device, pin) ((uint8_t)((device) << 2 | (pin)))
enum { BIT_7 = 128 };

static struct rng *r;
static struct test_case board;
static struct asked *asked;
static struct builder b;

static void ask(const char *label, int expected)
{
    board.label = label;
    board.expected = expected;
    asked = slot_table(&board);
}

/* The board in b. */
static void ask_sound(const char *label)
{
    board.size = seal(&b, board.bytes);
    ask(label, 0);
}

static void a_processor(void)
{
    builder_start(&b, 0xFEE00000u);
    add_processor(&b, 0, 3);
}

/* An interrupt to the first I/O APIC, at an input. */
static void from(uint8_t type, uint8_t bus, uint8_t irq, uint8_t input)
{
    add_interrupt(&b, 3, type, 0, bus, irq, 1, input);
}

/* ---- what is asked ---- */

static struct slot_query *question(uint8_t bus, uint8_t device, uint8_t pin)
{
    static struct slot_query q;

    q.bus = bus, q.device = device, q.pin = pin;
    expect_slot_routes(asked, &q);
    return &q;
}

/* How many pairs; and which, if they are given. */
static void check_pairs(const struct slot_query *q, const char *pairs, size_t count)
{
    if (q->expected != 0 || q->count != count
        || (pairs != NULL && memcmp(q->pairs, pairs, 2 * count) != 0))
        fail_case("other routes are worked out than stated");
    ask_slot(r, q);
}

#define PAIRS(text) text, (sizeof(text) - 1) / 2

static void check_refused(const struct slot_query *q, int number)
{
    if (q->expected != number)
        fail_case("another number is worked out than stated");
    ask_slot(r, q);
}

static struct slot_list *all_slots(void)
{
    static struct slot_list l;

    expect_slots(asked, &l);
    return &l;
}

static void check_slots(const char *slots, size_t count)
{
    const struct slot_list *l = all_slots();

    if (l->expected != 0 || l->count != count
        || (slots != NULL && memcmp(l->slots, slots, 3 * count) != 0))
        fail_case("other slots are worked out than stated");
    ask_slots(r, l);
}

#define SLOTS(text) text, (sizeof(text) - 1) / 3

static void check_no_slots(int number)
{
    const struct slot_list *l = all_slots();

    if (l->expected != number)
        fail_case("another number is worked out than stated");
    ask_slots(r, l);
}

/* Routes as they were: the whole byte is compared. */
static void check_whole(uint8_t bus, uint8_t irq, const char *pairs, size_t count)
{
    static struct route_query q;

    q.local = false, q.type = INT, q.bus = bus, q.irq = irq;
    expect_routes(asked, &q);
    if (q.expected != 0 || q.count != count
        || memcmp(q.pairs, pairs, 2 * count) != 0)
        fail_case("other routes are worked out than stated");
    ask_routes(r, &q);
}

/* ---- small boards ---- */

/* The bench board has one bus, ISA. */
static void the_board(void)
{
    board.size = bench_board(board.bytes);
    ask("bench board", 0);
    check_slots(SLOTS(""));
    slots_in_every_room(all_slots(), 0, 4);
    check_refused(question(0, 0, 1), 25);
    check_refused(question(0, 32, 4), 25);
    for (unsigned i = 1; i < 256; i += thorough || i < 8 || i > 240 ? 1 : 9) {
        check_refused(question((uint8_t)i, 0, 1), 24);
        check_refused(question((uint8_t)i, 255, 255), 24);
    }
    for (size_t n = board.size; n-- > 0; ) {
        board.size = n;
        ask("bench board cut", n < HEADER ? 5 : 7);
        check_refused(question(n % 2, (uint8_t)n, 0), n < HEADER ? 5 : 7);
        check_no_slots(n < HEADER ? 5 : 7);
    }
}

/* The same with PCI for ISA: every device and every pin. */
static void the_board_on_pci(void)
{
    board.size = bench_board(board.bytes);
    unseal(&b, board.bytes);
    EACH(&b, 1, e)
        memcpy(e + 2, "PCI   ", 6);
    ask_sound("bench board on PCI");
    check_slots(SLOTS("\0\0\1"));
    slots_in_every_room(all_slots(), 0, 8);
    check_pairs(question(0, 0, 1), PAIRS("\2\1"));
    slot_in_every_room(question(0, 0, 1), 5);
    for (unsigned device = 0; device < 256;
         device += thorough || device < 33 || device > 250 ? 1 : 31)
        for (unsigned pin = 0; pin < 256; pin += thorough || pin < 6 ? 1 : 50) {
            struct slot_query *q = question(0, (uint8_t)device, (uint8_t)pin);

            if (device > 31 || pin > 3)
                check_refused(q, 25);
            else
                check_pairs(q, NULL, device == 0 && pin == 1);
        }
    for (unsigned bus = 1; bus < 256; bus += 127)
        check_refused(question((uint8_t)bus, 40, 9), 24);
}

/* 05h and 85h are one slot, in table order; routes compare the whole byte. */
static void with_bit_7(void)
{
    a_processor();
    add_bus(&b, 3, "PCI   ");
    add_io_apic(&b, 1, 1, 0xFEC00000u);
    from(INT, 3, SLOT(1, 1) | BIT_7, 10);
    from(INT, 3, SLOT(1, 1), 11);
    from(INT, 3, SLOT(1, 1) | BIT_7, 12);
    from(INT, 3, SLOT(0, 0) | BIT_7, 13);
    from(INT, 3, SLOT(31, 3), 14);
    from(INT, 3, SLOT(31, 3) | BIT_7, 15);
    from(INT, 3, SLOT(31, 2) | BIT_7, 16);
    ask_sound("with bit 7 and without");
    check_pairs(question(3, 1, 1), PAIRS("\1\xA\1\xB\1\xC"));
    check_pairs(question(3, 0, 0), PAIRS("\1\xD"));
    check_pairs(question(3, 31, 3), PAIRS("\1\xE\1\xF"));
    check_pairs(question(3, 31, 2), PAIRS("\1\x10"));
    check_pairs(question(3, 1, 0), PAIRS(""));
    check_pairs(question(3, 2, 1), PAIRS(""));
    check_refused(question(3, 33, 1), 25);
    check_refused(question(3, 65, 1), 25);
    check_refused(question(3, 0, 5), 25);
    check_slots(SLOTS("\3\0\0\3\1\1\3\x1F\2\3\x1F\3"));
    slots_in_every_room(all_slots(), 0, 24);
    check_whole(3, 0x05, PAIRS("\1\xB"));
    check_whole(3, 0x85, PAIRS("\1\xA\1\xC"));
    check_whole(3, 0x00, PAIRS(""));
    check_whole(3, 0x80, PAIRS("\1\xD"));
}

/* Of the four types INT alone is routed, and all are listed. */
static void of_all_types(void)
{
    a_processor();
    add_bus(&b, 0, "PCI   ");
    add_io_apic(&b, 1, 1, 0xFEC00000u);
    for (uint8_t type = INT; type <= EXTINT; type++) {
        from(type, 0, SLOT(4, 2), 20 + type);
        from(type, 0, SLOT(10 + type, type), 30 + type);
    }
    add_interrupt(&b, 4, INT, 0, 0, SLOT(4, 2), 255, 1);
    add_interrupt(&b, 4, INT, 0, 0, SLOT(20, 2), 255, 1);
    ask_sound("interrupts of all types");
    check_pairs(question(0, 4, 2), PAIRS("\1\x14"));
    check_pairs(question(0, 10, 0), PAIRS("\1\x1E"));
    for (uint8_t type = NMI; type <= EXTINT; type++)
        check_pairs(question(0, 10 + type, type), PAIRS(""));
    check_pairs(question(0, 20, 2), PAIRS(""));
    check_slots(SLOTS("\0\4\2\0\xA\0\0\xB\1\0\xC\2\0\xD\3"));
}

/* The same source IRQs on buses of every name, PCI ones in no order of IDs. */
static void on_all_buses(void)
{
    static const uint8_t pci[3] = { 200, 255, 7 };

    a_processor();
    add_bus(&b, pci[0], "PCI   ");
    for (int i = 0; i < 18; i++)
        if (i != 12)
            add_bus(&b, (uint8_t)(20 + i), bus_names[i]);
    add_bus(&b, pci[1], "PCI   ");
    add_bus(&b, pci[2], "PCI   ");
    add_bus(&b, 8, "PCI   ");
    add_io_apic(&b, 1, 1, 0xFEC00000u);
    for (int i = 0; i < 18; i++)
        if (i != 12)
            from(INT, (uint8_t)(20 + i), SLOT(9, 1), (uint8_t)(100 + i));
    for (uint8_t i = 0; i < 3; i++)
        from(INT, pci[i], SLOT(9, 1), i);
    from(INT, pci[1], SLOT(8, 3), 3);
    ask_sound("buses of every name");
    for (int i = 0; i < 18; i++)
        if (i != 12)
            check_refused(question((uint8_t)(20 + i), 9, 1), 25);
    check_pairs(question(200, 9, 1), PAIRS("\1\0"));
    check_pairs(question(255, 9, 1), PAIRS("\1\1"));
    check_pairs(question(7, 9, 1), PAIRS("\1\2"));
    check_pairs(question(8, 9, 1), PAIRS(""));
    check_refused(question(32, 9, 1), 24);
    check_refused(question(9, 9, 1), 24);
    check_slots(SLOTS("\7\x9\1\xC8\x9\1\xFF\x8\3\xFF\x9\1"));
}

/* I/O APICs on and off: an entry that reaches none names its slot all the same. */
static void to_all(void)
{
    a_processor();
    add_bus(&b, 0, "PCI   ");
    add_io_apic(&b, 9, 1, 0xFEC00000u);
    add_io_apic(&b, 4, 0, 0);
    add_io_apic(&b, 3, 0xFF, 0xFEC01000u);
    add_io_apic(&b, 255, 0, 0);
    add_io_apic(&b, 9, 0, 0);
    add_interrupt(&b, 3, INT, 0, 0, SLOT(2, 0), 255, 20);
    add_interrupt(&b, 3, INT, 0, 0, SLOT(2, 0) | BIT_7, 4, 21);
    add_interrupt(&b, 3, INT, 15, 0, SLOT(2, 0) | BIT_7, 9, 22);
    add_interrupt(&b, 3, INT, 0, 0, SLOT(2, 0), 3, 22);
    add_interrupt(&b, 3, INT, 0, 0, SLOT(2, 0), 3, 22);
    add_interrupt(&b, 3, INT, 0, 0, SLOT(3, 3), 4, 7);
    add_interrupt(&b, 3, NMI, 0, 0, SLOT(2, 0), 255, 8);
    add_interrupt(&b, 3, INT, 0, 0, SLOT(2, 0) | BIT_7, 255, 0);
    ask_sound("slots to I/O APICs on and off");
    check_pairs(question(0, 2, 0),
                PAIRS("\x9\x14\x3\x14" "\x9\x16" "\x3\x16" "\x3\x16"
                      "\x9\x0\x3\x0"));
    slot_in_every_room(question(0, 2, 0), 17);
    check_pairs(question(0, 3, 3), PAIRS(""));
    check_slots(SLOTS("\0\2\0\0\3\3"));

    a_processor();
    add_bus(&b, 0, "PCI   ");
    add_interrupt(&b, 3, INT, 0, 0, SLOT(5, 1), 255, 1);
    ask_sound("a slot without I/O APICs");
    check_pairs(question(0, 5, 1), PAIRS(""));
    check_slots(SLOTS("\0\5\1"));
}

/* Number 24 before 25, both before 19, and the table's own before all. */
static void in_order(void)
{
    small_board(&b);
    add_bus(&b, 1, "PCI   ");
    add_io_apic(&b, 1, 1, 0xFEC00000u);
    from(INT, 1, SLOT(1, 1), 1);
    ask_sound("24 and 25");
    check_refused(question(2, 32, 0), 24);
    check_refused(question(2, 1, 4), 24);
    check_refused(question(0, 1, 1), 25);
    check_refused(question(1, 32, 0), 25);
    check_refused(question(1, 0, 4), 25);
    check_refused(question(1, 255, 255), 25);

    board.bytes[board.size - 1] ^= 1;
    ask("24 and 25 of a table with a wrong sum", 8);
    check_refused(question(2, 32, 0), 8);
    check_refused(question(0, 1, 1), 8);
    check_no_slots(8);

    add_link(&b, 0, 1, 0);
    board.size = seal(&b, board.bytes);
    ask("24 and 25 of a table with a bus its own parent", 18);
    check_refused(question(2, 32, 0), 18);
    check_refused(question(1, 1, 1), 18);
    check_no_slots(18);
}

/* ---- full tables ---- */

/* Buses 0 on, falling in the table, and as many interrupts as the base holds. */
static void full_of(uint32_t n_bus, uint32_t n_slot, const char *label,
                    size_t slots)
{
    a_processor();
    for (uint32_t i = n_bus; i-- > 0; )
        add_bus(&b, (uint8_t)i, "PCI   ");
    for (uint32_t i = 0; base_left(&b, PART_LIMIT) >= 8; i++)
        add_interrupt(&b, 3, i % 7 == 0 ? NMI : INT, 0,
                      (uint8_t)(i / n_slot % n_bus),
                      (uint8_t)(127 - i % n_slot + (i % 3 == 0 ? BIT_7 : 0)),
                      255, (uint8_t)i);
    ask_sound(label);
    check_slots(NULL, slots);
    slots_in_every_room(all_slots(), slots < 5 ? 0 : 3 * slots - 12, 3 * slots + 4);
    check_pairs(question(0, 31, 3), PAIRS(""));
}

/* 252 entries of one slot to 251 I/O APICs, with bit 7 or without. */
static void many_pairs(void)
{
    a_processor();
    add_bus(&b, 0, "PCI   ");
    for (uint32_t i = 0; i < 251; i++)
        add_io_apic(&b, (uint8_t)(1 + i), 1, (i + 1) << 10);
    for (uint32_t i = 0; base_left(&b, PART_LIMIT) > 0; i++)
        add_interrupt(&b, 3, INT, 0, 0,
                      (uint8_t)(SLOT(17, 2) | (i % 3 == 0 ? BIT_7 : 0)), 255,
                      (uint8_t)i);
    ask_sound("252 entries of one slot to 251 I/O APICs");
    check_pairs(question(0, 17, 2), NULL, (size_t)252 * 251);
    check_slots(SLOTS("\0\x11\2"));
}

void fixed_slots(struct rng *draws)
{
    r = draws;
    the_board();
    the_board_on_pci();
    with_bit_7();
    of_all_types();
    on_all_buses();
    to_all();
    in_order();
    full_of(1, 1, "503 interrupts of one slot", 1);
    full_of(1, 128, "one PCI bus, all slots", 128);
    full_of(4, 128, "four PCI buses, 500 slots", 500);
    full_of(168, 2, "168 PCI buses, two slots each", 336);
    full_of(252, 1, "252 PCI buses, a slot each", 252);
    many_pairs();
}
