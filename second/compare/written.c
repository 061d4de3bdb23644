/* Parts, written into rooms of several sizes; and tables, taken apart again. */
#include "compare.h"

#include "arena.h"
#include "driver.h"
#include "ruxtajma.h"

#include <stdio.h>
#include <string.h>

static const struct rule writing = {
    .kind = 'W', .refusals = REFUSALS(7, 7) | REFUSALS(10, 19), .unit = 1,
};
static const struct rule taking_apart = {
    .kind = 'T', .refusals = REFUSALS(5, 18),
};

static struct tally t;
static number over_13;     /* of 13: by the length, unwritten */
static number rewritten;   /* accepted tables, from their parts */
static number rooms, too_small;

/* ---- taking apart ---- */

/* Both ends, and the fields, are what stands in an accepted table's header. */
static bool as_in_header(const struct reply *a, const uint8_t *table)
{
    uint64_t field[FIELDS];

    put_fields(table, field);
    return a->count == 1 + FIELDS
        && ruxtajma_base_end(a->value[0]) == base_of(table)
        && ruxtajma_extended_end(a->value[0]) == base_of(table) + ext_of(table)
        && memcmp(a->value + 1, field, sizeof field) == 0;
}

/* Answers the number both agree on. */
static unsigned take_apart(const char *label, const uint8_t *bytes, size_t n,
                           int expected)
{
    struct request q = { .slice = { lent(bytes, n) } };

    begin_case(label);
    const struct outcome *o = put(&taking_apart, &q, knowing(expected, -1));
    must(o->refusal == 0 ? as_in_header(&o->a, bytes) : o->a.count == 1,
         "taken apart otherwise than its header says");
    return o->refusal;
}

/* ---- writing ---- */

static size_t image_length(const struct parts_case *c)
{
    return HEADER + c->base_length + c->ext_length;
}

/* What the lengths decide, before anything is written; or 0. */
static int unwritten(const struct parts_case *c, size_t size)
{
    if (HEADER + c->base_length > PART_LIMIT)
        return 7;
    if (c->ext_length > PART_LIMIT)
        return 13;
    return image_length(c) > size ? 19 : 0;
}

/* An image is as long as its parts say; one that is refused later is zero. */
static struct known known_of(const struct parts_case *c, size_t size, int number)
{
    int early = unwritten(c, size);
    struct known k = knowing(early != 0 ? early : number, -1);

    if (early == 0) {
        k.count = (int64_t)image_length(c);
        k.zeroed = image_length(c);
    }
    return k;
}

static const struct outcome *write_into(const struct parts_case *c, size_t size,
                                        int number)
{
    const uint8_t *h = c->header;
    struct request q = {
        .number = { get_le(h + 28, 4), get_le(h + 32, 2), get_le(h + 36, 4), h[43] },
        .slice = {
            lent(c->base, c->base_length), lent(c->ext, c->ext_length),
            lent(c->oem, c->oem_length), lent(c->product, c->product_length),
            room_of(size),
        },
    };
    const struct outcome *o = put(&writing, &q, known_of(c, size, number));

    must(unwritten(c, size) != 0 || (o->refusal != 7 && o->refusal != 19),
         "a number that only lengths have");
    must(o->refusal != 0 || c->expected != 0
         || memcmp(o->after[ROOM], c->image, o->count) == 0,
         "another image than expected");
    rooms++;
    too_small += o->refusal == 19;
    return o;
}

/*
 * One too few, one more room, and exactly enough; 19 where it is too small,
 * whatever the judge would say.  Answers what came last.
 */
static const struct outcome *write_into_rooms(struct rng *r,
                                              const struct parts_case *c)
{
    uint32_t length = (uint32_t)image_length(c);
    uint32_t roll = rng_below(r, 100);
    int number = c->expected;

    write_into(c, length - 1, 19);
    if (roll < 20)
        write_into(c, 0, 19);
    else if (roll < 50)
        write_into(c, rng_below(r, length), 19);
    else if (roll < 90)
        number = (int)write_into(c, length + 1 + rng_below(r, 300), number)->refusal;
    else
        number = (int)write_into(c, 2 * PART_LIMIT + rng_below(r, 4096), number)
                     ->refusal;
    return write_into(c, length, number);
}

static void write_parts(struct rng *r, const struct parts_case *c)
{
    static uint8_t image[2 * PART_LIMIT];
    const struct outcome *o;

    begin_case(c->label);
    if (unwritten(c, 2 * PART_LIMIT) == 0)
        o = write_into_rooms(r, c);
    else   /* the room decides nothing */
        o = write_into(c, rng_below(r, rng_chance(r, 90) ? 100 : 9000),
                       c->expected);
    tally(&t, o->refusal);
    over_13 += o->refusal == 13 && c->ext_length > PART_LIMIT;
    note_lengths(HEADER + c->base_length, c->ext_length);
    if (o->refusal == 0 && rng_chance(r, 50)) {
        memcpy(image, o->after[ROOM], o->count);
        take_apart("written, to be taken apart", image, o->count, 0);
    }
}

/* The parts of a table; an accepted one must come out as it was. */
static void rewrite(struct rng *r, const struct test_case *table)
{
    static struct parts_case c;

    if (table->size < HEADER)
        return;
    parts_of(table->bytes, table->size, &c);
    c.label = table->label;
    c.expected = -1;
    if (take_apart(c.label, table->bytes, table->size, -1) == 0) {
        c.expected = 0;
        rewritten++;
    }
    write_parts(r, &c);
}

/* ---- fixed cases ---- */

static struct parts_case the_parts;

static void fixed(struct rng *r, const char *label, int expected)
{
    finish_parts(&the_parts, label, expected, OEM_ID, PRODUCT);
    write_parts(r, &the_parts);
}

/* The board in every room, cut at each byte, and with names of every length. */
static void the_board(struct rng *r)
{
    static struct test_case board;
    struct builder *b = &the_parts.b;

    board.size = bench_board(board.bytes);
    board.label = "bench board";
    rewrite(r, &board);

    unseal(b, board.bytes);
    memset(the_parts.name, ' ', sizeof the_parts.name);
    fixed(r, "bench board", 0);
    for (size_t size = 0; size <= board.size + 20; size++)
        write_into(&the_parts, size, size < board.size ? 19 : 0);
    for (size_t oem = 0; oem <= OEM_ID + 2; oem++)
        for (size_t product = 0; product <= PRODUCT + 2; product++) {
            finish_parts(&the_parts, "names of every length", 0, oem, product);
            write_parts(r, &the_parts);
        }
    for (size_t i = b->base_len; i-- > 0; ) {
        b->base_len = i;
        b->count = i >= 44 ? 4 : i >= 36 ? 3 : i >= 28 ? 2 : 1;
        fixed(r, "bench board's entries cut", i == 0 ? 14
              : i == 20 || i == 28 || i == 36 || i == 44 ? 0 : 11);
    }
}

/* Both sides of 4,096, of each part and of both. */
static void limits(struct rng *r)
{
    struct builder *b = &the_parts.b;

    small_board(b);
    while (base_left(b, PART_LIMIT) > 0)
        add_interrupt(b, 3, 0, 0, 0, (uint8_t)b->count, 255, 0);
    while (ext_left(b, PART_LIMIT) > 0)
        add_unknown(b, 200, 2, 0);
    fixed(r, "4,096 and 4,096", 0);
    add_unknown(b, 200, 2, 0);
    fixed(r, "extended part of 4,098", 13);
    b->ext_len--;
    fixed(r, "extended part of 4,097", 13);
    add_interrupt(b, 3, 0, 0, 0, 0, 255, 0);
    fixed(r, "base of 4,104, extended part of 4,097", 7);
    b->ext_len--;
    fixed(r, "base of 4,104", 7);
    b->base_len -= 7;
    fixed(r, "base of 4,097", 7);
}

/* Lengths that would be small ones in 16 bits. */
static void wrapped_lengths(struct rng *r)
{
    static const size_t longer[] = { 65536 - HEADER, 65536, SLICE_MAX };
    static uint8_t much[SLICE_MAX];

    small_board(&the_parts.b);
    memcpy(much, the_parts.b.base, the_parts.b.base_len);
    for (size_t i = 0; i < sizeof longer / sizeof longer[0]; i++) {
        finish_parts(&the_parts, "base past 16 bits", 7, OEM_ID, PRODUCT);
        the_parts.base = much;
        the_parts.base_length += longer[i];
        if (the_parts.base_length > SLICE_MAX)
            the_parts.base_length = SLICE_MAX;
        write_parts(r, &the_parts);

        /* Longest where both names have room beside it. */
        finish_parts(&the_parts, "extended part past 16 bits", 13, OEM_ID, PRODUCT);
        the_parts.ext = much;
        the_parts.ext_length = longer[i] - (i == 2 ? OEM_ID + PRODUCT : 0);
        write_parts(r, &the_parts);
    }
}

static void fixed_parts(struct rng *r)
{
    struct builder *b = &the_parts.b;

    the_board(r);
    limits(r);
    wrapped_lengths(r);

    builder_start(b, 0xFEE00000u);
    fixed(r, "no entries", 14);
    small_board(b);
    fixed(r, "a processor and a bus", 0);
    put_le(b->header + 28, 0x12345678, 4);
    put_le(b->header + 32, 0xFEDC, 2);
    put_le(b->header + 36, 0x89ABC000u, 4);
    b->header[43] = 0xEF;
    fixed(r, "every field", 0);
    b->header[37] |= 8;
    fixed(r, "local APIC address not by 4,096", 14);
    small_board(b);
    add_link(b, 0, 0, 0);
    fixed(r, "a lone bus its own parent", 18);
}

/* ---- all of them: parts of any kind, and those of tables of any kind ---- */

void parts(struct rng *r, number count, const char *seed)
{
    static struct test_case table;

    fixed_parts(r);
    number before = t.cases;
    over_13 = rewritten = rooms = too_small = 0;
    for (t = (struct tally){ 0 }; t.cases < count; ) {
        if (rng_chance(r, 85)) {
            gen_parts(r, &the_parts);
            write_parts(r, &the_parts);
        } else {
            gen_case(r, &table);
            rewrite(r, &table);
        }
    }
    printf("parts: %llu fixed, %llu generated, seed %s: no difference\n", before,
           t.cases, seed);
    printf("  0: %llu, of them %llu tables written again\n", t.answered[0],
           rewritten);
    require("tables written", t.answered[0], count / 3);
    require("tables written again", rewritten, count / 100);
    report(7, t.answered[7], count);
    report_range(t.answered, 10, 18, count);
    report(19, too_small, count);
    printf("rooms: %llu; 19 counts rooms, the others parts; of 13, %llu were "
           "unwritten\n", rooms, over_13);
    require("13 unwritten", over_13, count / 1000);
}
