/* Dumps that stand on the line between two answers, each with its answer. */
#include "compare.h"

#include "draft.h"

#include <stdio.h>
#include <string.h>

static struct draft d;
static struct dump_case out;

static const char board_listing[] =
    "pointer 000F0000 imcr 0\n"
    "table 000F0010 96 0 5\n"
    "cpu 0 16 on boot\n"
    "bus 0 ISA\n"
    "ioapic 2 17 on FEC00000\n"
    "int INT 0 1 0 0 2 1\n"
    "lint EXTINT 0 0 0 0 255 0\n"
    "end\n";

/* Compares the draft; head is what its listing begins with, or NULL. */
static void check(struct rng *r, const char *label, int expected, const char *head)
{
    out.c.label = label;
    out.c.expected = expected;
    out.c.size = emit(&d, out.c.bytes);
    out.pointer = -1;
    snprintf(out.head, sizeof out.head, "%.90s", head == NULL ? "" : head);
    list_dump(r, &out);
}

/* One region of a kind with the pointer first and the board behind it. */
static void board_in(uint8_t kind, uint32_t base)
{
    struct piece *p;

    draft_start(&d);
    p = &d.piece[add_piece(&d, kind, base)];
    put_pointer(p->body, base + PARAGRAPH, 0, 0);
    p->length = PARAGRAPH + (uint32_t)bench_board(p->body + PARAGRAPH);
    d.table_at = PARAGRAPH;
    d.table_size = p->length - PARAGRAPH;
}

static void resize(uint32_t number, uint32_t length)
{
    struct piece *p = &d.piece[number];

    if (length > p->length)
        memset(p->body + p->length, 0, length - p->length);
    p->length = length;
}

/* The board itself, byte by byte as the paper has it, and cut anywhere. */
static void the_board(struct rng *r)
{
    board_in(3, 0xF0000);
    check(r, "bench board", 0, board_listing);
    list_in_every_room(&out);
    size_t n = out.c.size;

    for (size_t i = 0; i < n; i++) {
        out.c.label = "bench board cut";
        out.c.expected = 1;
        out.c.size = i;
        list_dump(r, &out);
    }
    out.c.size = n;
    for (size_t i = 0; i < n; i++) {
        out.c.label = "bench board, a byte off";
        out.c.expected = -1;
        out.c.bytes[i]++;
        out.head[0] = 0;
        list_dump(r, &out);
        out.c.bytes[i]--;
    }
}

static void empty_regions(struct rng *r)
{
    draft_start(&d);
    check(r, "no regions", 2, NULL);
    add_piece(&d, 3, 0x100000);
    check(r, "empty kind 3 at 100000h", 2, NULL);
    d.piece[0].base += 16;
    check(r, "empty kind 3 at 100010h", 1, NULL);

    board_in(3, 0xF0000);
    add_piece(&d, 4, 0xF0020);
    add_piece(&d, 4, 0xF0020);
    add_piece(&d, 4, 0xFFFFFFF0u);
    check(r, "empty regions inside another", 0, board_listing);
    d.piece[1].base++;
    check(r, "empty region at an odd base", 1, NULL);

    board_in(2, 0x9FC00);
    check(r, "board in kind 2", 0, "pointer 0009FC00 imcr 0\n");
    add_piece(&d, 1, 0x9F800);
    check(r, "board in kind 2 beside an empty kind 1", 2, NULL);
    add_piece(&d, 1, 0x9F800);
    check(r, "two empty kind 1", 1, NULL);
}

/* An empty region of each kind beside the board's, which is of kind 3. */
static void kinds(struct rng *r)
{
    for (int kind = 0; kind < 256; kind += kind < 8 || kind > 250 ? 1 : 9) {
        bool sound = kind == 1 || kind == 2 || kind == 4;

        board_in(3, 0xF0000);
        add_piece(&d, (uint8_t)kind, 0x9FC00);
        check(r, "a region of each kind", sound ? 0 : 1,
              sound ? board_listing : NULL);
    }
}

static void boundaries(struct rng *r)
{
    for (uint8_t kind = 1; kind <= 2; kind++) {
        board_in(kind, 0x9FC00);
        resize(0, 1024);
        check(r, "kinds 1 and 2 of 1,024", 0, "pointer 0009FC00 imcr 0\n");
        resize(0, 1025);
        check(r, "kinds 1 and 2 of 1,025", 1, NULL);
    }
    board_in(3, 0xFFF90);
    check(r, "kind 3 up to 100000h", 0, "pointer 000FFF90 imcr 0\n");
    resize(0, 113);
    check(r, "kind 3 past 100000h by one", 1, NULL);

    board_in(3, 0xF0000);
    resize(add_piece(&d, 4, 0xFFFFFFF0u), 16);
    check(r, "a region up to 2^32", 0, board_listing);
    resize(1, 17);
    check(r, "a region past 2^32 by one", 1, NULL);

    board_in(3, 0xF0000);
    resize(add_piece(&d, 4, 0xF0070), 16);
    check(r, "touching regions", 0, board_listing);
    resize(0, 113);
    check(r, "regions sharing a byte", 1, NULL);

    board_in(3, 0xF0000);
    add_piece(&d, 4, 0);
    resize(1, (uint32_t)(DUMP_LIMIT - draft_size(&d)));
    check(r, "65,536 bytes", 0, board_listing);
    resize(1, d.piece[1].length + 1);
    check(r, "65,537 bytes", 1, NULL);
}

/* Lengths that add to 2^32 and would match if sums were taken in 32 bits. */
static void wrapped_lengths(struct rng *r)
{
    static const uint8_t dump[19] = {
        2, 4, 0, 0, 0, 0, 0, 0, 0, 0x80, 4, 0, 0, 0, 0x80, 0, 0, 0, 0x80,
    };

    memcpy(out.c.bytes, dump, sizeof dump);
    out.c.size = sizeof dump;
    out.c.label = "lengths adding to 2^32";
    out.c.expected = 1;
    out.head[0] = 0;
    list_dump(r, &out);
}

/* Pointers in all searched kinds, in the order of the list and against it. */
static void search_order(struct rng *r)
{
    board_in(3, 0xF0000);
    resize(add_piece(&d, 2, 0x9F800), 16);
    put_pointer(d.piece[1].body, 0, 2, 0);
    check(r, "kind 2 before kind 3", 0, "default 2 imcr 0\n");
    resize(add_piece(&d, 1, 0x9FC00), 32);
    check(r, "kind 2 not searched beside kind 1", 0, board_listing);
    put_pointer(d.piece[2].body + 16, 0, 1, 0x80);
    check(r, "kind 1 before all", 0, "default 1 imcr 1\n");
    put_pointer(d.piece[2].body, 0xF0010, 0, 0);
    d.piece[2].body[10]++;
    check(r, "a bad sum before the good one", 0, "default 1 imcr 1\n");
    mend_pointer(d.piece[2].body);
    check(r, "addresses rising", 0, "pointer 0009FC00 imcr 0\n");
    d.piece[2].body[9] = 1;
    mend_pointer(d.piece[2].body);
    check(r, "a wrong revision ends the search", 3, NULL);
}

static void feature_bytes(struct rng *r)
{
    for (int with = 0; with < 2; with++)
        for (int feature = 0; feature < 256; feature++) {
            char head[32] = "";
            int expected = with ? (feature == 0 ? 0 : 4)
                         : feature >= 1 && feature <= 7 ? 0 : 4;

            board_in(3, 0xF0000);
            put_pointer(d.piece[0].body, with ? 0xF0010 : 0, (uint8_t)feature, 0x7F);
            if (!with)
                snprintf(head, sizeof head, "default %d imcr 0\n", feature);
            check(r, "every feature byte", expected,
                  expected != 0 ? NULL : with ? board_listing : head);
        }
}

/* 38,213 bytes: 503 wide interrupts and 2,048 unknown entries of length 2. */
static void longest(struct rng *r)
{
    static struct builder b;
    struct piece *p;

    builder_start(&b, 0);
    add_processor(&b, 254, 3);
    b.base[2] = 255;
    add_bus(&b, 255, "XPRESS");
    while (base_left(&b, PART_LIMIT) > 0)
        add_interrupt(&b, 3, 3, 15, 255, 255, 255, 255);
    while (ext_left(&b, PART_LIMIT) > 0)
        add_unknown(&b, 255, 2, 0);
    draft_start(&d);
    p = &d.piece[add_piece(&d, 3, 0xF0000)];
    put_pointer(p->body, 0xF0010, 0, 0);
    p->length = PARAGRAPH + (uint32_t)seal(&b, p->body + PARAGRAPH);
    check(r, "the longest listing", 0,
          "pointer 000F0000 imcr 0\ntable 000F0010 4096 4096 505\n");
}

void fixed_dumps(struct rng *r)
{
    the_board(r);
    empty_regions(r);
    kinds(r);
    boundaries(r);
    wrapped_lengths(r);
    search_order(r);
    feature_bytes(r);
    longest(r);
}
