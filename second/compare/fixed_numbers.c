/*
 * New numbers for I/O APICs on both sides of a line.  What is to be answered is
 * stated here, and must also be what is worked out for generated tables.
 */
#include "compare.h"

#include "arena.h"

#include <string.h>

static struct rng *r;
static struct test_case board;
static struct asked *asked;
static struct builder b;

static void ask(const char *label, int expected)
{
    board.label = label;
    board.expected = expected;
    asked = number_table(&board);
}

/* The board in b. */
static void ask_sound(const char *label)
{
    board.size = seal(&b, board.bytes);
    ask(label, 0);
}

/* ---- what is on the board in b ---- */

static void start(void)
{
    builder_start(&b, 0xFEE00000u);
}

/* So many enabled ones from an ID on; the first of the board is the bootstrap. */
static void processors(uint32_t first, uint32_t n)
{
    for (uint32_t i = 0; i < n; i++)
        add_processor(&b, (uint8_t)(first + i), b.count == 0 ? 3 : 1);
}

static void on(uint8_t id)
{
    add_io_apic(&b, id, 1, 0xFEC00000u);
}

static void off(uint8_t id)
{
    add_io_apic(&b, id, 0, 0);
}

static void io_apics(uint32_t first, uint32_t n)
{
    for (uint32_t i = 0; i < n; i++)
        on((uint8_t)(first + i));
}

/* ---- what is answered ---- */

static struct numbering *worked_out(void)
{
    static struct numbering n;

    expect_numbers(asked, &n);
    return &n;
}

/* How many numbers are written and used; and which, if they are given. */
static void check(const char *numbers, size_t count, size_t used)
{
    const struct numbering *n = worked_out();

    if (n->expected != 0 || n->count != count || n->used != used
        || (numbers != NULL && memcmp(n->numbers, numbers, count) != 0))
        fail_case("other numbers are worked out than stated");
    renumber(r, n);
}

#define NUMBERS(text) text, sizeof(text) - 1

/*
 * At 26 count is that of the enabled I/O APICs, for which the room is tested first;
 * at the table's own numbers it is 0.
 */
static void check_refused(int number, size_t count)
{
    const struct numbering *n = worked_out();

    if (n->expected != number || n->count != count)
        fail_case("another number is worked out than stated");
    renumber(r, n);
}

static void check_route(uint8_t bus, uint8_t irq, const char *pairs, size_t count)
{
    static struct route_query q;

    q.local = false, q.type = 0, q.bus = bus, q.irq = irq;
    expect_routes(asked, &q);
    if (q.expected != 0 || q.count != count
        || memcmp(q.pairs, pairs, 2 * count) != 0)
        fail_case("other routes are worked out than stated");
    ask_routes(r, &q);
}

/* ---- small boards ---- */

static void the_board(void)
{
    board.size = bench_board(board.bytes);
    ask("bench board", 0);
    check(NUMBERS("\2"), 2);
    renumber_in_every_room(worked_out(), 5);
    for (size_t n = board.size; n-- > 0; ) {
        board.size = n;
        ask("bench board cut", n < HEADER ? 5 : 7);
        check_refused(n < HEADER ? 5 : 7, 0);
    }
}

/* Its I/O APIC with each ID; the route names what the table has. */
static void the_board_with_ids(void)
{
    for (unsigned id = 0; id < 255; id++) {
        char number = (char)(id == 0 ? 1 : id), pair[2] = { (char)id, 1 };

        board.size = bench_board(board.bytes);
        unseal(&b, board.bytes);
        EACH(&b, 2, e)
            e[1] = (uint8_t)id;
        EACH(&b, 3, e)
            e[6] = (uint8_t)id;
        ask_sound("bench board, its I/O APIC with an ID");
        check(&number, 1, 2);
        if (id < 2 || id > 253)
            check_route(0, 1, pair, 1);
    }
}

/* A processor and an I/O APIC with one ID, each of all. */
static void each_shared(void)
{
    for (unsigned id = 0; id < 255; id++) {
        char number = id == 0;

        start();
        processors(id, 1);
        on((uint8_t)id);
        ask_sound("one ID for both");
        check(&number, 1, 2);
    }
}

static void without_io_apics(void)
{
    start();
    processors(0, 3);
    ask_sound("no I/O APIC");
    check(NUMBERS(""), 3);
    renumber_in_every_room(worked_out(), 2);
    off(0), off(1), off(255), off(7);
    ask_sound("all I/O APICs off");
    check(NUMBERS(""), 3);
    renumber_in_every_room(worked_out(), 2);
}

/* Those that keep their number do so before the first new one is given. */
static void keepers_late(void)
{
    start();
    processors(0, 2);
    on(0), on(1), on(2), on(3);
    ask_sound("keepers behind");
    check(NUMBERS("\4\5\2\3"), 6);
    renumber_in_every_room(worked_out(), 6);
    on(5), on(4);
    ask_sound("two more keepers");
    check(NUMBERS("\6\7\2\3\5\4"), 8);

    start();
    processors(4, 1);
    on(0), on(4), on(1);
    ask_sound("one between keepers");
    check(NUMBERS("\0\2\1"), 4);

    start();
    processors(10, 3);
    on(12), on(10), on(11);
    ask_sound("new numbers in table order, not by ID");
    check(NUMBERS("\0\1\2"), 6);
}

/* Neither side's disabled ones take part, whatever their IDs. */
static void some_off(void)
{
    start();
    add_processor(&b, 5, 0);
    add_processor(&b, 0, 3);
    add_processor(&b, 1, 0);
    add_processor(&b, 255, 0);
    off(2), on(5), off(0), on(0), off(0), off(255), on(3), off(3), off(4);
    ask_sound("some off");
    check(NUMBERS("\5\1\3"), 4);
    renumber_in_every_room(worked_out(), 5);

    start();
    add_processor(&b, 0, 3);
    add_processor(&b, 0, 0);
    add_io_apic(&b, 0, 0xFE, 0xFEC00000u);
    add_io_apic(&b, 0, 0xFF, 0xFEC00000u);
    add_io_apic(&b, 1, 0, 0);
    ask_sound("flags with reserved bits");
    check(NUMBERS("\1"), 2);
}

/* The table's own number, then 19, then 26. */
static void in_order(void)
{
    start();
    processors(0, 1);
    on(0);
    ask_sound("an ID for both");
    board.bytes[board.size - 1] ^= 1;
    ask("an ID for both, and a wrong sum", 8);
    check_refused(8, 0);

    on(0);
    board.size = seal(&b, board.bytes);
    ask("two I/O APICs with a processor's ID", 16);
    check_refused(16, 0);
    b.base[b.base_len - 7] = 255;
    board.size = seal(&b, board.bytes);
    ask("an enabled I/O APIC 255", 16);
    check_refused(16, 0);
}

/* ---- many of them ---- */

/* Processors from 0 on, and one more than fills a word of 8, 16, 32 or 64 bits. */
static void next_word(void)
{
    for (uint32_t n = 1; n <= 200; n += thorough || n % 8 > 5 || n % 8 < 2 ? 1 : 3) {
        char numbers[2] = { (char)n, (char)(n + 1) };

        start();
        processors(0, n);
        on((uint8_t)(n - 1));
        ask_sound("the number behind the processors");
        check(numbers, 1, n + 1);
        if (n < 2)
            continue;
        on(0);
        ask_sound("the two numbers behind the processors");
        check(numbers, 2, n + 2);
    }
}

/*
 * 150 processors and 104 keepers: all but one number.  It goes to the one that
 * shares; a second finds none.  Before 26 the room counts.
 */
static void one_free(uint32_t number)
{
    start();
    processors(0, 150);
    on(149);
    for (uint32_t id = 150; id < 255; id++)
        if (id != number)
            on((uint8_t)id);
    ask_sound("one number free");
    const struct numbering *n = worked_out();
    if (n->numbers[0] != number)
        fail_case("another number is worked out than the one that is free");
    check(NULL, 105, 255);
    if (number == 254)
        renumber_in_every_room(n, 107);

    on(0);
    ask_sound("one number free for two");
    check_refused(26, 106);
    if (number == 254)
        renumber_in_every_room(worked_out(), 108);
}

/* Every number in use: nothing to give, which only matters to one that shares. */
static void none_free(void)
{
    start();
    processors(0, 150);
    io_apics(150, 105);
    ask_sound("no number free, and none needed");
    check(NULL, 105, 255);
    off(0);
    ask_sound("no number free, and one off");
    check(NULL, 105, 255);
    on(77);
    ask_sound("no number free for the last");
    check_refused(26, 106);

    start();
    processors(105, 150);
    on(254);
    io_apics(0, 105);
    ask_sound("no number free for the first");
    check_refused(26, 106);
    renumber_in_every_room(worked_out(), 107);

    start();
    processors(254, 1);
    io_apics(0, 254);
    ask_sound("254 I/O APICs");
    check(NULL, 254, 255);
    on(254);
    ask_sound("255 I/O APICs");
    check_refused(26, 255);
    renumber_in_every_room(worked_out(), 257);
}

/* As many processors as I/O APICs, or others, all of which share: up to 255 in all. */
static void all_share(uint32_t n_processor, uint32_t n_io_apic)
{
    char numbers[256];

    start();
    processors(0, n_processor);
    for (uint32_t i = 0; i < n_io_apic; i++) {
        on((uint8_t)(n_processor - 1 - i));
        numbers[i] = (char)(n_processor + i);
    }
    ask_sound("all I/O APICs share");
    if (n_processor + n_io_apic > 255)
        check_refused(26, n_io_apic);
    else
        check(numbers, n_io_apic, n_processor + n_io_apic);
}

/* In the base of 4,096 bytes, with some that are off between them. */
static void full(void)
{
    start();
    processors(0, 150);
    for (int i = 0; i < 5; i++)
        add_processor(&b, (uint8_t)(200 + i), 0);
    for (uint32_t i = 0; i < 104; i++) {
        on((uint8_t)i);
        if (i % 7 == 0)
            off((uint8_t)(150 + i));
    }
    ask_sound("a base of 4,096");
    if (board.size != PART_LIMIT)
        fail_case("not a base of 4,096");
    check(NULL, 104, 254);
}

void fixed_numbers(struct rng *draws)
{
    r = draws;
    the_board();
    the_board_with_ids();
    each_shared();
    without_io_apics();
    keepers_late();
    some_off();
    in_order();
    next_word();
    for (uint32_t number = 150; number < 255; number += thorough ? 1 : 8)
        one_free(number);
    none_free();
    all_share(127, 127);
    all_share(128, 127);
    all_share(128, 128);
    all_share(150, 105);
    all_share(150, 106);
    all_share(167, 88);
    all_share(167, 89);
    all_share(200, 6);
    full();
}
