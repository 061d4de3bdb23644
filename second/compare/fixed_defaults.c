/*
 * Default configurations, each with its lengths and some with all lines as they are
 * stated here; every number and room; and dumps of defaults, sound and refused.
 */
#include "compare.h"

#include "arena.h"
#include "draft.h"
#include "plain.h"

#include <string.h>

/* Rooms: for any table or full listing here; for any at all; for one line. */
enum { LARGE = 1024, LARGEST = 65536, ONE_LINE = 17 };

static struct draft d;
static struct dump_case dump;

/* Processors that may have booted, and some that are none. */
static const uint8_t boots[] = { 0, 1, 2, 255 };

#define EACH_BOOT(boot) \
    for (const uint8_t *boot = boots; boot < boots + sizeof boots; boot++)

/* Of 256 values, in a run that is not thorough, low and high ones and single bits. */
static bool is_tried(unsigned value)
{
    return thorough || value < 10 || value > 250 || (value & (value - 1)) == 0;
}

/* ---- tables ---- */

static void every_table(void)
{
    static const struct {
        size_t length;
        uint32_t entries;
    } stated[DEFAULTS] = {
        { 244, 22 }, { 228, 20 }, { 244, 22 }, { 244, 22 }, { 252, 23 }, { 252, 23 },
        { 244, 22 },
    };
    static const size_t rooms[] = {
        LARGEST, 0, 1, 43, 44, 84, 227, 228, 229, 243, 244, 245, 251, 252, 253, LARGE,
    };

    for (unsigned n = 1; n <= DEFAULTS; n++)
        for (unsigned boot = 0; boot < 2; boot++)
            for (size_t i = 0; i < sizeof rooms / sizeof rooms[0]; i++) {
                unsigned number = make_default(n, boot, rooms[i]);

                if (number != (rooms[i] < stated[n - 1].length ? 19 : 0)
                    || made_table()->size != stated[n - 1].length
                    || get_le(made_table()->bytes + 34, 2) != stated[n - 1].entries)
                    fail_case("another length or count than stated");
            }
}

/* 30 comes before 19; of wider numbers the low byte counts. */
static void every_number(void)
{
    for (unsigned n = 0; n < 256; n++)
        for (unsigned boot = 0; boot < 256; boot++) {
            if (!is_tried(n) || !is_tried(boot) || (n > 9 && boot > 2))
                continue;
            make_default(n, boot, 0);
            make_default(n, boot, DEFAULT_IMAGE);
        }
    for (unsigned n = 0; n <= DEFAULTS + 1; n++)
        for (unsigned boot = 0; boot <= 2; boot++) {
            make_default(256 + n, boot, DEFAULT_IMAGE);
            make_default(n, 256 + boot, DEFAULT_IMAGE);
            make_default(n << 8, boot, DEFAULT_IMAGE);
            make_default((uint64_t)1 << 32 | n, (uint64_t)boot << 32, DEFAULT_IMAGE);
        }
}

/* ---- dumps that lead to a default ---- */

/* One region of zeros, and the pointer somewhere in it. */
static void lay_out(uint8_t kind, uint32_t base, uint32_t length, uint32_t at)
{
    struct piece *p;

    draft_start(&d);
    p = &d.piece[add_piece(&d, kind, base)];
    p->length = length;
    memset(p->body, 0, length);
    d.at = at;
}

static void finish(const char *label, int expected)
{
    finish_dump(&d, &dump, label, expected);
}

static void put_default(uint8_t n, uint8_t imcr)
{
    put_pointer(pointer_of(&d), 0, n, imcr);
    finish("a default's dump", 0);
}

/* For each processor rooms at both sides of the listing's length, and of one line. */
static void list_in_rooms(uint8_t n, uint8_t imcr)
{
    char text[DEFAULT_TEXT];

    EACH_BOOT(boot) {
        size_t length = default_listing(n, *boot, pointer_address(&d), imcr >> 7,
                                        text);

        for (size_t i = 0; i < 3; i++)
            list_full_into(&dump, *boot, length - 1 + i);
        list_full_into(&dump, *boot, 0);
        list_full_into(&dump, *boot, ONE_LINE);
        list_full_into(&dump, *boot, LARGEST);
    }
}

/* "The old one-line answer remains": the same dumps by that, one in every room. */
static void every_default(struct rng *r)
{
    static const uint8_t imcrs[] = { 0x00, 0x80, 0x7F, 0xFF };

    for (uint8_t n = 1; n <= DEFAULTS; n++)
        for (size_t i = 0; i < sizeof imcrs; i++) {
            lay_out((uint8_t)(1 + (n + i) % 3), 0xF0000, 64, 16 * (uint32_t)i);
            put_default(n, imcrs[i]);
            list_in_rooms(n, imcrs[i]);
            list_dump(r, &dump);
        }
    list_in_every_room(&dump);
}

/* At a region's first, second and last paragraph, the region of every kind. */
static void every_place(void)
{
    static const struct {
        uint8_t kind;
        uint32_t base, length;
    } homes[] = {
        { 1, 0x9FC00, 1024 }, { 2, 0x9FC00, 1024 }, { 2, 0, 16 }, { 3, 0xFFFF0, 16 },
        { 3, 0xF0000, 65526 }, { 1, 0xFFFFFC00, 1024 },
    };

    for (size_t i = 0; i < sizeof homes / sizeof homes[0]; i++)
        for (uint32_t k = 0; k < 3; k++) {
            uint32_t last = homes[i].length / PARAGRAPH * PARAGRAPH - PARAGRAPH;
            uint32_t at = k == 2 ? last : k * PARAGRAPH;

            if (at > last)
                continue;
            lay_out(homes[i].kind, homes[i].base, homes[i].length, at);
            put_default((uint8_t)(1 + (i + k) % DEFAULTS), 0x80);
            list_in_rooms((uint8_t)(1 + (i + k) % DEFAULTS), 0x80);
        }
}

/* All lines, as they were written down from Intel's pages. */
static void whole_listings(void)
{
    static const struct {
        uint8_t n, boot, imcr;
        const char *text;
    } stated[] = {
        { 2, 1, 0,
          "pointer 000F0010 imcr 0\n" "table 00000000 228 0 20\n"
          "cpu 0 1 on ap\n" "cpu 1 1 on boot\n" "bus 0 EISA\n"
          "ioapic 2 1 on FEC00000\n"
          "int EXTINT 0 0 0 0 2 0\n" "int INT 0 1 0 0 2 1\n" "int INT 0 3 0 0 2 3\n"
          "int INT 0 4 0 0 2 4\n" "int INT 0 5 0 0 2 5\n" "int INT 0 6 0 0 2 6\n"
          "int INT 0 7 0 0 2 7\n" "int INT 0 8 0 0 2 8\n" "int INT 0 9 0 0 2 9\n"
          "int INT 0 10 0 0 2 10\n" "int INT 0 11 0 0 2 11\n"
          "int INT 0 12 0 0 2 12\n" "int INT 0 14 0 0 2 14\n"
          "int INT 0 15 0 0 2 15\n"
          "lint EXTINT 0 0 0 0 255 0\n" "lint NMI 0 0 0 0 255 1\n" "end\n" },
        { 7, 0, 0x80,
          "pointer 000F0010 imcr 1\n" "table 00000000 244 0 22\n"
          "cpu 0 16 on boot\n" "cpu 1 16 on ap\n" "bus 0 MCA\n" "bus 1 PCI\n"
          "ioapic 2 16 on FEC00000\n"
          "int INT 0 1 0 0 2 1\n" "int INT 0 0 0 0 2 2\n" "int INT 0 3 0 0 2 3\n"
          "int INT 0 4 0 0 2 4\n" "int INT 0 5 0 0 2 5\n" "int INT 0 6 0 0 2 6\n"
          "int INT 0 7 0 0 2 7\n" "int INT 0 8 0 0 2 8\n" "int INT 0 9 0 0 2 9\n"
          "int INT 0 10 0 0 2 10\n" "int INT 0 11 0 0 2 11\n"
          "int INT 0 12 0 0 2 12\n" "int INT 0 13 0 0 2 13\n"
          "int INT 0 14 0 0 2 14\n" "int INT 0 15 0 0 2 15\n"
          "lint EXTINT 0 0 0 0 255 0\n" "lint NMI 0 0 0 0 255 1\n" "end\n" },
    };
    char text[DEFAULT_TEXT];

    for (size_t i = 0; i < sizeof stated / sizeof stated[0]; i++) {
        lay_out(3, 0xF0000, 48, 16);
        put_default(stated[i].n, stated[i].imcr);
        default_listing(stated[i].n, stated[i].boot, 0xF0010, stated[i].imcr >> 7,
                        text);
        if (strcmp(text, stated[i].text) != 0)
            fail_case("another listing is worked out than stated");
        list_full_into(&dump, stated[i].boot, strlen(stated[i].text));
    }
}

/* ---- dumps that are refused: the processor and the room decide nothing ---- */

static void refuse(const char *label, int number)
{
    finish(label, number);
    EACH_BOOT(boot) {
        list_full_into(&dump, *boot, 0);
        list_full_into(&dump, *boot, LARGE);
    }
}

/* Changes a byte of the pointer, which is good again but for that. */
static void refuse_byte(const char *label, uint8_t n, uint32_t at, uint8_t value,
                        int number)
{
    lay_out(3, 0xF0000, 48, 16);
    put_pointer(pointer_of(&d), 0, n, 0);
    pointer_of(&d)[at] = value;
    mend_pointer(pointer_of(&d));
    refuse(label, number);
}

static void refused_defaults(uint8_t n)
{
    static const uint8_t revisions[] = { 0, 1, 3, 5, 255 };

    lay_out(3, 0xF0000, 48, 16);
    put_pointer(pointer_of(&d), 0, n, 0);
    d.piece[0].base += 8;
    refuse("a default, base not by 16", 1);
    d.piece[0].base -= 8;
    d.piece[0].kind = 4;
    refuse("a default in kind 4", 2);
    d.piece[0].kind = 3;
    pointer_of(&d)[10]++;
    refuse("a default with a wrong sum", 2);
    refuse_byte("a default of length 2", n, 8, 2, 2);
    for (size_t i = 0; i < sizeof revisions; i++)
        refuse_byte("a default of another revision", n, 9, revisions[i], 3);
    for (uint32_t at = 4; at < 8; at++)
        refuse_byte("a default with an address", n, at, n, 4);
}

static void refused_features(void)
{
    refuse_byte("neither default nor address", 1, 11, 0, 4);
    for (unsigned feature = DEFAULTS + 1; feature < 256; feature++)
        if (is_tried(feature))
            refuse_byte("feature byte over 7", 1, 11, (uint8_t)feature, 4);
}

/* Cut anywhere, and with a byte behind it. */
static void cut_default(void)
{
    lay_out(1, 0x9FC00, 32, 16);
    put_default(5, 0);
    size_t n = dump.c.size;

    dump.c.expected = 1;
    for (size_t i = 0; i <= n; i++) {
        dump.c.size = i < n ? i : n + 1;
        EACH_BOOT(boot)
            list_full_into(&dump, *boot, i % 2 ? 0 : LARGE);
    }
}

/* ---- dumps of a table ---- */

static void lay_out_table(const uint8_t *table, size_t n)
{
    lay_out(3, 0xF0000, PARAGRAPH + (uint32_t)n, 0);
    d.table_at = PARAGRAPH;
    d.table_size = (uint32_t)n;
    memcpy(d.piece[0].body + PARAGRAPH, table, n);
    put_pointer(pointer_of(&d), 0xF0010, 0, 0);
}

/* "A listing tests it only for a default" */
static void any_processor(void)
{
    uint8_t board[96];

    lay_out_table(board, bench_board(board));
    finish("bench board, listed in full", 0);
    for (unsigned boot = 0; boot < 256; boot++) {
        list_full_into(&dump, boot, LARGE);
        list_full_into(&dump, boot, 100);
    }
    d.piece[0].body[PARAGRAPH + 7]++;
    refuse("a table with a wrong sum", 8);
    pointer_of(&d)[5]++;
    mend_pointer(pointer_of(&d));
    refuse("no table at the address", 5);
}

/* What a default stands for is listed alike where it stands in the dump. */
static void made_in_dump(struct rng *r, uint8_t n, uint8_t boot)
{
    static uint8_t listed[DEFAULT_TEXT];
    char text[DEFAULT_TEXT];
    size_t length = default_listing(n, boot, 0xF0000, 0, text);

    make_default(n, boot, DEFAULT_IMAGE);
    lay_out_table(made_table()->bytes, made_table()->size);
    finish("a default's table in a dump", 0);
    list_dump(r, &dump);
    memcpy(strstr(text, "table 00000000") + 6, "000F0010", 8);
    if (plain_list(dump.c.bytes, dump.c.size, listed, sizeof listed) >> 16 != length
        || memcmp(listed, text, length) != 0)
        fail_case("another listing than that of the default");
}

void fixed_defaults(struct rng *r)
{
    every_table();
    every_number();
    every_default(r);
    every_place();
    whole_listings();
    for (uint8_t n = 1; n <= DEFAULTS; n++) {
        refused_defaults(n);
        for (uint8_t boot = 0; boot < 2; boot++) {
            made_in_dump(r, n, boot);
            ask_made(r, n, boot);
        }
    }
    refused_features();
    cut_default();
    any_processor();
}
