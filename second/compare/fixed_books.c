/*
 * Books on both sides of a line.  What is to be answered is stated here, and must
 * also be what is worked out for generated ones.
 */
#include "compare.h"

#include "arena.h"
#include "faults.h"

#include <string.h>

static struct rng *r;
static struct book_case book;
static struct change change;
static struct builder b;

/* ---- the book, and what is done with it ---- */

static void start(void)
{
    book.k.rows = book.k.size = 0;
}

/* The list's book in a room of a size. */
static void open_in(const char *label, size_t size)
{
    finish_book(r, &book, label, size);
    open_book(&book);
}

static void open_bad(const char *label, size_t size)
{
    book.label = label;
    book.expected = 27;
    book.size = size;
    open_book(&book);
    ask_all_of_book(r);
}

/* A table of so many bytes to save, and to keep in the list unasked. */
static void draw_body(size_t size)
{
    sized_table(r, &b, size);
    change.body.size = seal(&b, change.body.bytes);
    change.body.expected = 0;
}

static void board_as_body(void)
{
    change.body.size = bench_board(change.body.bytes);
    change.body.expected = 0;
}

static void keep(uint16_t machine, size_t size)
{
    draw_body(size);
    keep_body(&book.k, machine, change.body.bytes, change.body.size);
}

static void make_change(const char *label, int expected)
{
    change.label = label;
    expect_change(&book.k, book.size, &change);
    if (change.expected != expected)
        fail_case("another number is worked out than stated");
    change_book(r, &change);
}

/* The body drawn last. */
static void save(const char *label, uint16_t machine, uint16_t began, int expected)
{
    change.restores = false;
    change.machine = machine, change.edition = 0, change.latest = began;
    make_change(label, expected);
}

static void restore(const char *label, uint16_t machine, uint16_t edition,
                    uint16_t latest, int expected)
{
    change.restores = true;
    change.machine = machine, change.edition = edition, change.latest = latest;
    make_change(label, expected);
}

/* The bytes of the room from its start. */
static void check_bytes(const uint8_t *bytes, size_t n)
{
    if (memcmp(book.bytes, bytes, n) != 0)
        fail_case("other bytes than stated");
}

/* ---- small books ---- */

static void the_empty_book(void)
{
    static const uint8_t empty[] = { 1, 0, 0 };

    start();
    open_in("the empty book", sizeof empty);
    check_bytes(empty, sizeof empty);
    ask_all_of_book(r);
    history_in_every_room(13);
    ask_latest(r, 0);
    ask_body(r, 0, 0);
    ask_body(r, 0, 1);
    restore("nothing to restore", 0, 0, 0, 28);
    restore("nothing to restore", 0, 1, 0, 28);
    restore("nothing to restore", 0, 1, 1, 28);
    board_as_body();
    save("a new machine from 1", 0, 1, 28);
    save("a new machine in a full room", 0, 0, 29);

    for (size_t size = 0; size < sizeof empty; size++) {
        memcpy(book.bytes, empty, size);
        open_bad("a room under three bytes", size);
    }
    for (int layout = 0; layout < 256; layout++) {
        memcpy(book.bytes, empty, sizeof empty);
        book.bytes[0] = (uint8_t)layout;
        if (layout != 1)
            open_bad("each layout", layout % 2 ? sizeof empty : 20);
    }
    for (size_t size = 3; size < 11; size++) {
        static const uint8_t one_row[10] = { 1, 1, 0, 0, 0, 1, 0, 11, 0, 0 };

        memcpy(book.bytes, one_row, size);
        open_bad("a row past the room", size);
    }
}

/* In every room: 29 until it has 3 + 8 + 96 bytes. */
static void the_first_save(void)
{
    for (size_t size = 3; size < 120; size++) {
        start();
        open_in("the empty book in a room", size);
        board_as_body();
        save("the bench board", 5, 0, size < 107 ? 29 : 0);
    }
}

/* Two editions of a machine and one of another, byte by byte. */
static void the_layout(void)
{
    static const uint8_t one[] = { 1, 1, 0, 0x34, 0x12, 1, 0, 11, 0, 96, 0 };
    static const uint8_t two[] = {
        1, 2, 0, 0x34, 0x12, 1, 0, 19, 0, 96, 0, 0x34, 0x12, 2, 0, 115, 0, 64, 0,
    };
    static const uint8_t three[] = {
        1, 3, 0, 0x34, 0x12, 1, 0, 27, 0, 96, 0, 0x34, 0x12, 2, 0, 123, 0, 64, 0,
        0x12, 0x34, 1, 0, 187, 0, 32, 3,
    };
    static const uint8_t four[] = {
        1, 4, 0, 0x34, 0x12, 1, 0, 35, 0, 96, 0, 0x34, 0x12, 2, 0, 131, 0, 64, 0,
        0x12, 0x34, 1, 0, 195, 0, 32, 3, 0x34, 0x12, 3, 0, 0xE3, 3, 96, 0,
    };

    start();
    open_in("the layout", 2000);
    board_as_body();
    save("the first", 0x1234, 0, 0);
    check_bytes(one, sizeof one);
    draw_body(64);
    save("the second", 0x1234, 1, 0);
    check_bytes(two, sizeof two);
    draw_body(800);
    save("another machine's", 0x3412, 0, 0);
    check_bytes(three, sizeof three);
    restore("the first once more", 0x1234, 1, 2, 0);
    check_bytes(four, sizeof four);
    ask_all_of_book(r);
    history_in_every_room(50);
    for (uint16_t edition = 0; edition < 5; edition++)
        ask_body(r, 0x1234, edition);
}

/* What happened on a Saturday: two begin from one edition. */
static void two_authors(void)
{
    start();
    keep(7, 64);
    open_in("two authors", 1000);
    draw_body(100);
    save("the first author", 7, 1, 0);
    draw_body(120);
    save("the second author", 7, 1, 28);
    save("the second author as a new machine", 7, 0, 28);
    save("the second author from no edition", 7, 3, 28);
    save("the second author from edition 65,535", 7, 65535, 28);
    save("the second author from edition 258", 7, 258, 28);
    save("the second author once more", 7, 2, 0);
    save("another machine from that", 8, 3, 28);
    save("another machine", 8, 0, 0);
}

static void restores(void)
{
    start();
    keep(7, 64), keep(9, 200), keep(7, 90), keep(7, 130), keep(0, 70);
    open_in("restores", 3000);
    restore("an old one", 7, 1, 3, 0);
    restore("the latest itself", 7, 4, 4, 0);
    restore("the latest itself, of one", 0, 1, 1, 0);
    restore("edition 0", 7, 0, 5, 28);
    restore("past the latest", 7, 6, 5, 28);
    restore("edition 256 and 1", 7, 257, 5, 28);
    restore("edition 65,535", 7, 65535, 5, 28);
    restore("before the latest", 7, 1, 4, 28);
    restore("behind the latest", 7, 1, 6, 28);
    restore("from edition 0", 7, 1, 0, 28);
    restore("an unknown machine", 8, 1, 0, 28);
    restore("an unknown machine, edition 1", 8, 1, 1, 28);
    restore("an unknown machine, edition 0", 8, 0, 0, 28);
    restore("a machine in one byte", 7 + 256, 1, 5, 28);
    restore("another machine's editions", 9, 3, 1, 28);
    restore("another machine's latest", 9, 1, 5, 28);
    restore("another machine", 9, 1, 1, 0);
    restore("the one that was restored", 7, 5, 5, 0);
}

/* Every room from one byte less than the book has: 27, 29, then 0. */
static void in_every_room(void)
{
    for (int k = -1; k < 84; k++) {
        start();
        keep(1, 66), keep(2, 70);
        open_in("a small book", book_size(&book.k));
        size_t size = book.size;
        if (k < 0) {
            open_bad("a small book in a room too short", size - 1);
            continue;
        }
        open_in("a small book in a room", size + (size_t)k);
        ask_all_of_book(r);
        restore("stale in any room", 2, 1, 2, 28);
        if (k % 2)
            restore("a restore in a room", 2, 1, 1, k < 78 ? 29 : 0);
        draw_body(70);
        save("stale in any room", 2, 7, 28);
        if (k % 2 == 0)
            save("a save in a room", 3, 0, k < 78 ? 29 : 0);
    }
}

/* ---- bodies that are not taken ---- */

/* The book is good, the edition not the latest, and there is no room. */
static void own_numbers(void)
{
    start();
    keep(3, 64);
    for (int full = 0; full < 2; full++) {
        open_in("a book, and bodies that are not taken", full ? 75 : 20000);
        for (size_t i = 0; fault_at(table_faults, i) != NULL; i++) {
            const struct fault *f = fault_at(table_faults, i);

            fault_case(r, f, &change.body);
            save(f->name, 3, full ? 9 : 1, f->rule);
        }
        draw_body(64);
        change.body.bytes[change.body.size++] = 0;
        save("a byte behind the table", 3, 1, 7);
        save("a byte behind the table, and stale", 3, 2, 7);
        change.body.size += 64;
        save("many bytes behind the table", 3, 1, 7);
        change.body.size = 0;
        change.body.expected = 5;
        save("no body", 3, 1, 5);
        draw_body(64);
        save("stale", 3, 2, 28);
    }
}

/* ---- full books ---- */

/* A book of so many bytes that a save makes 32,768, or one more. */
static void up_to_the_limit(bool small, size_t left, size_t size)
{
    start();
    fill_book(r, &book.k, BOOK_LIMIT - 8 - left, small);
    uint16_t machine = book.k.row[0].machine;
    uint16_t latest = latest_edition(&book.k, machine);

    open_in("nearly full", size);
    ask_rows();
    draw_body(left + 1 + (left == 64));
    save("past 32,768, and stale", machine, (uint16_t)(latest + 1), 28);
    save("past 32,768", machine, latest, 29);
    draw_body(left);
    save("up to 32,768", machine, latest, 0);
    ask_all_of_book(r);
    draw_body(64);
    save("in a full book", machine, (uint16_t)(latest + 1), 29);
    save("stale in a full book", machine, latest, 28);
    restore("in a full book", machine, 1, (uint16_t)(latest + 1), 29);
    restore("stale in a full book", machine, 1, latest, 28);
    restore("no such edition, in a full book", machine, 0, (uint16_t)(latest + 1),
            28);
}

/* The lent room is the limit, or a byte less. */
static void up_to_the_room(void)
{
    for (size_t less = 0; less < 2; less++) {
        start();
        keep(1, 5000), keep(1, 3000), keep(2, 8000);
        open_in("large bodies", book_size(&book.k) + 8 + 5000 - less);
        draw_body(5000);
        save("up to the room", 2, 1, less ? 29 : 0);
        open_in("large bodies", book_size(&book.k) + 8 + 3000 - less);
        restore("up to the room", 1, 2, 2, less ? 29 : 0);
    }
}

/* Restored bodies that make 32,768, or one more; the room is longer. */
static void restored_to_the_limit(void)
{
    for (size_t more = 0; more < 2; more++) {
        start();
        keep(1, 4000 + more);
        fill_book(r, &book.k, BOOK_LIMIT - 8 - 4000, false);
        open_in("nearly full", 40000);
        restore("up to 32,768", 1, 1, latest_edition(&book.k, 1), more ? 29 : 0);
    }
}

/* 32,767 and 32,768 bytes, in rooms just as long, and longer. */
static void just_full(void)
{
    static const size_t sizes[] = { BOOK_LIMIT, BOOK_LIMIT + 1, 40000, 65536, 70000 };

    for (size_t i = 0; i < sizeof sizes / sizeof sizes[0]; i++)
        for (int small = 0; small < 2; small++) {
            start();
            fill_book(r, &book.k, BOOK_LIMIT, small);
            open_in("a book of 32,768 bytes", sizes[i]);
            ask_all_of_book(r);
            if (i == 0)
                open_bad("a book of 32,768 bytes in 32,767", BOOK_LIMIT - 1);
            start();
            fill_book(r, &book.k, BOOK_LIMIT - 1, small);
            open_in("a book of 32,767 bytes", sizes[i] - 1);
            ask_all_of_book(r);
            start();
            fill_book(r, &book.k, BOOK_LIMIT + 1, small);
            finish_book(r, &book, "", sizes[i] + 1);
            open_bad("a book of 32,769 bytes", sizes[i] + 1);
        }
}

/* Three full tables; a fourth has no place, whatever the room. */
static void full_tables(void)
{
    start();
    keep(1, 8192), keep(1, 8192), keep(1, 8192);
    open_in("three full tables", 60000);
    ask_all_of_book(r);
    draw_body(8192);
    save("a fourth full table", 1, 3, 29);
    restore("a fourth full table", 1, 2, 3, 29);
    draw_body(32768 - 3 - 3 * 8200 - 8);
    save("up to 32,768", 1, 3, 0);
}

/* ---- many rows ---- */

/* The editions of a machine from one number to another. */
static void next_editions(uint16_t machine, size_t from, size_t to, size_t size)
{
    start();
    while (book.k.rows < from)
        keep(machine, SMALLEST);
    open_in("one machine", size);
    while (book.k.rows < to) {
        draw_body(SMALLEST);
        save("the next edition", machine, (uint16_t)book.k.rows, 0);
    }
}

/* 455 editions, which is as many as there can be. */
static void one_machine(uint16_t machine, size_t size)
{
    next_editions(machine, thorough ? 1 : 450, 455, size);
    save("a 456th edition", machine, 455, 29);
    save("a 456th edition, stale by 256", machine, 455 - 256, 28);
    restore("a 456th edition", machine, 455, 455, 29);
    restore("a 456th edition, stale", machine, 1, 454, 28);
    ask_all_of_book(r);
    for (int machine_asked = 0; machine_asked < 2; machine_asked++)
        for (uint16_t edition = 0; edition < 460; edition++)
            if (thorough || edition < 3 || edition % 256 < 3 || edition > 452)
                ask_body(r, (uint16_t)(machine + machine_asked), edition);
}

/* So many machines in turn, of numbers so far apart; each is asked about. */
static void many_machines(const char *label, uint32_t n, uint32_t first, uint32_t apart)
{
    start();
    for (uint32_t i = 0; i < 450; i++)
        keep((uint16_t)(first + i % n * apart), SMALLEST);
    open_in(label, BOOK_LIMIT);
    ask_all_of_book(r);
    for (uint32_t i = 0; i <= n; i += thorough || n < 10 ? 1 : n / 8) {
        uint16_t machine = (uint16_t)(first + i * apart);

        ask_latest(r, machine);
        ask_body(r, machine, latest_edition(&book.k, machine));
    }
    uint16_t machine = (uint16_t)(first + (n - 1) * apart);
    draw_body(70);
    save("the last machine", machine, latest_edition(&book.k, machine), 0);
    restore("the first machine", (uint16_t)first, 1,
            latest_edition(&book.k, (uint16_t)first), 0);
    book.k.row[449].edition++;   /* the change before the last two */
    finish_book(r, &book, "", BOOK_LIMIT);
    open_bad("a gap in many machines", BOOK_LIMIT);
}

/* Rows mixed; all machine numbers, or some, are asked about. */
static void mixed_machines(void)
{
    static const uint16_t machine[] = { 0, 65535, 1, 256, 255, 0, 0, 65535, 257, 256 };

    start();
    for (size_t i = 0; i < sizeof machine / sizeof machine[0]; i++)
        keep(machine[i], 64 + 2 * i);
    open_in("machines mixed", 1500);
    ask_all_of_book(r);
    history_in_every_room(12 * 10 + 3);
    for (uint32_t m = 0; m < 65536; m += thorough || m % 256 == 255 ? 1 : 85)
        ask_latest(r, (uint16_t)m);
    for (size_t i = 0; i < sizeof machine / sizeof machine[0]; i++)
        for (uint16_t edition = 0; edition < 5; edition++)
            ask_body(r, machine[i], edition);
    draw_body(64);
    save("machine 0", 0, 3, 0);
    save("machine 65,535", 65535, 2, 0);
    save("machine 65,534", 65534, 0, 0);
    restore("machine 0", 0, 2, 4, 0);
    restore("machine 65,535", 65535, 3, 3, 0);
}

/* ---- faults ---- */

static void each_fault(void)
{
    for (size_t i = 0; ; i++)
        for (int n = 0; n < each(); n++) {
            if (!book_fault_case(r, i, &book))
                return;
            open_book(&book);
            ask_all_of_book(r);
        }
}

/*
 * Of a book of a machine's two rows each byte of head and rows, to other values: with
 * no rows it is good, and with another machine's row one begins at edition 2.
 */
static void every_byte(void)
{
    start();
    keep(1, 64), keep(1, 66);
    size_t size = book_size(&book.k);
    for (size_t at = 0; at < 19; at++)
        for (int by = 1; by < 256; by += thorough ? 1 : 23) {
            finish_book(r, &book, "", size + 10);
            book.bytes[at] = (uint8_t)(book.bytes[at] + by);
            if (book.bytes[1] != 0)
                open_bad("every byte", size + 10);
        }
}

void fixed_books(struct rng *draws)
{
    r = draws;
    the_empty_book();
    the_first_save();
    the_layout();
    two_authors();
    restores();
    in_every_room();
    own_numbers();
    up_to_the_limit(true, 64, BOOK_LIMIT);
    up_to_the_limit(true, 90, 50000);
    up_to_the_limit(false, 8000, BOOK_LIMIT);
    up_to_the_room();
    restored_to_the_limit();
    just_full();
    full_tables();
    next_editions(3, 253, 258, 20000);
    one_machine(0, BOOK_LIMIT);
    one_machine(65535, 40000);
    many_machines("450 machines", 450, 0, 1);
    many_machines("450 machines from 65,535 down", 450, 65535, 65535);
    many_machines("256 machines equal modulo 256", 256, 77, 256);
    many_machines("64 machines equal modulo 1,024", 64, 1023, 1024);
    many_machines("two machines in turn", 2, 32767, 1);
    mixed_machines();
    each_fault();
    every_byte();
}
