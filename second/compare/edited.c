/*
 * Runs of edits on one table.  Each goes on with what the one before it left; an
 * edited table must be the one that is written afresh from its fields and the
 * entries as edited.
 */
#include "compare.h"

#include "arena.h"
#include "driver.h"
#include "plain.h"

#include <stdio.h>
#include <string.h>

static const struct rule editing = {
    .kind = 'E', .refusals = REFUSALS(5, 18) | REFUSALS(20, 23),
    .inner = REFUSALS(14, 18), .edits = true,
};

static struct tally t;
static number runs, inner[NUMBERS_END];

static struct test_case table;   /* as far as the run has come */
static struct edited now;        /* the same where it is accepted */
static struct edit_case edit;

/* The edit by both; answers its number. */
static unsigned edit_both(void)
{
    bool known = edit.expected >= 0;
    struct request q = {
        .number = { edit.place },
        .slice = {
            lent(table.bytes, table.size), lent(edit.stated, edit.stated_length),
            lent(edit.wanted, edit.wanted_length),
        },
    };
    struct known k = {
        .refusal = known ? edit.expected & 255 : -1,
        .inner = known ? edit.expected >> 8 : -1,
    };

    begin_case(edit.label);
    const struct outcome *o = put(&editing, &q, k);
    tally(&t, o->refusal);
    inner[o->inner]++;
    memcpy(table.bytes, o->after[0], table.size);
    return o->refusal;
}

/* The table as edited, against one of its fields and entries. */
static void test_fresh(const uint8_t *before)
{
    static uint8_t fresh[2 * PART_LIMIT];
    const struct builder *b = &now.b;
    size_t length = HEADER + b->base_len + b->ext_len;
    struct parts p;

    plain_parts(b->header, &p);
    uint64_t answer = plain_write(&p.fields, b->base, b->base_len, b->ext,
                                  b->ext_len, fresh, sizeof fresh);
    must(answer == (uint64_t)length << 16
         && memcmp(table.bytes, fresh, length) == 0, "not the table written afresh");
    must(memcmp(table.bytes + length, before + length, table.size - length) == 0,
         "bytes behind the table changed");
}

/* An ID that no entry of its type would have any more, by who alone names it. */
static const struct {
    uint8_t type, by;
    const char *name;
} ways[] = {
    { 0, 0, "processor by nobody" },
    { 0, BY_LOCAL, "processor by local interrupts" },
    { 0, BY_IO, "processor by I/O interrupts" },
    { 0, BY_ALL, "processor 255" },
    { 1, 0, "bus by nobody" },
    { 1, BY_IO, "bus by I/O interrupts" },
    { 1, BY_LOCAL, "bus by local interrupts" },
    { 1, BY_MAPPING, "bus by 128" },
    { 1, BY_LINK, "bus by 129" },
    { 1, AS_PARENT, "bus by 129 as the parent" },
    { 1, BY_MODIFIER, "bus by 130" },
    { 2, 0, "I/O APIC by nobody" },
    { 2, BY_IO, "I/O APIC by I/O interrupts" },
    { 2, BY_LOCAL, "I/O APIC by local interrupts" },
    { 2, BY_ALL, "I/O APIC 255" },
};

enum { WAYS = sizeof ways / sizeof ways[0] };
static number given_up[WAYS];

static void note_id(void)
{
    static struct names n;
    uint8_t type = edit.stated[0], id = edit.stated[1];

    if (type > 2 || edit.wanted[1] == id)
        return;
    find_names(&now.b, &n);
    if (n.have[type][id][0] + n.have[type][id][1] > 1)
        return;
    for (size_t i = 0; i < WAYS; i++)
        given_up[i] += ways[i].type == type && ways[i].by == n.by[type][id];
}

static void report_ids(number count)
{
    printf("IDs given up, by who alone names them:");
    for (size_t i = 0; i < WAYS; i++) {
        printf(" %s: %llu%s", ways[i].name, given_up[i], i + 1 < WAYS ? "," : "\n");
        require(ways[i].name, given_up[i], count / 2000);
    }
}

/* An edit of the run; what is accepted is kept. */
static void edit_next(void)
{
    static uint8_t before[CASE_ROOM];

    memcpy(before, table.bytes, table.size);
    must(edit.expected >= 0, "the generator knows no answer");
    unsigned number = edit_both();
    if (number == 0 || number == 23)
        note_id();
    if (number != 0)
        return;
    keep_edit(&now, &edit);
    test_fresh(before);
}

/* A run on a table of any kind, or on one for edits of IDs. */
static void edit_table(struct rng *r, bool named)
{
    bool sound = plain_judge(table.bytes, table.size) == 0;

    runs++;
    note_table(table.bytes, table.size, sound);
    if (sound)
        start_edits(&now, table.bytes);
    for (uint32_t n = 1 + rng_few(r, sound ? 60 : 2); n > 0; n--) {
        if (sound) {
            gen_edit(r, &now, named, &edit);
            edit_next();
        } else {
            blind_edit(r, &table, &edit);
            edit_both();
        }
    }
}

const struct test_case *start_run(const struct test_case *c)
{
    table = *c;
    start_edits(&now, table.bytes);
    return &table;
}

void edit_accepted(struct rng *r, const struct test_case *c)
{
    start_run(c);
    edit_table(r, false);
}

/* ---- fixed cases ---- */

static void start_board(void)
{
    table.size = bench_board(table.bytes);
    start_edits(&now, table.bytes);
}

static void start_sealed(const struct builder *b)
{
    table.size = seal(b, table.bytes);
    start_edits(&now, table.bytes);
}

/* What stands at a place, with one byte of it changed. */
static void want_byte(size_t place, size_t at, uint8_t value)
{
    state_entry(&now, place, &edit);
    edit.wanted[at] = value;
}

/* Where -1 is expected it is worked out. */
static void check(const char *label, int expected)
{
    edit.label = label;
    edit.expected = expected;
    if (expected < 0)
        expect_edit(&now, &edit);
    edit_next();
}

void edit_byte(const char *label, size_t place, size_t at, uint8_t value,
               int expected)
{
    want_byte(place, at, value);
    check(label, expected);
}

/* The paper's own: P5 to P7, and each number from 20 on. */
static void the_board(void)
{
    start_board();
    edit_byte("place 3 to input 9", 3, 7, 9, 0);
    must(table.bytes[7] == 0xB8, "byte 7 is not B8h");
    check("the same edit again, still stating input 1", 22);
    edit.place = 5;
    check("place 5", 20);

    edit_byte("bootstrap off", 0, 3, 2, 23 + 256 * 14);
    edit_byte("unknown name", 1, 2, 'J', 23 + 256 * 15);
    edit_byte("address not by 1,024", 2, 5, 1, 23 + 256 * 16);
    edit_byte("I/O APIC that an interrupt names", 2, 1, 0, 23 + 256 * 17);
    edit_byte("interrupt type 4", 3, 1, 4, 23 + 256 * 17);
    edit_byte("local input 2", 4, 7, 2, 23 + 256 * 17);
    edit_byte("bus that interrupts name", 1, 1, 1, 23 + 256 * 17);
    edit_byte("another type", 3, 0, 4, 21);
}

/* Rule 16 as amended: a processor's ID, but no other I/O APIC's. */
static void shared_id(void)
{
    struct builder b;

    builder_start(&b, 0xFEE00000u);
    add_processor(&b, 0, 3);
    add_processor(&b, 7, 1);
    add_io_apic(&b, 2, 1, 0xFEC00000u);
    add_io_apic(&b, 3, 1, 0xFEC01000u);
    add_io_apic(&b, 0, 0, 0xFEC02000u);
    start_sealed(&b);
    edit_byte("I/O APIC with a processor's ID", 2, 1, 0, 0);
    edit_byte("a second one with the same", 3, 1, 0, 23 + 256 * 16);
    edit_byte("a second one with another's", 3, 1, 7, 0);
    edit_byte("a third one with the first's on", 4, 3, 1, 23 + 256 * 16);
    edit_byte("processor with another's ID", 1, 1, 0, 23 + 256 * 14);
    edit_byte("processor whose ID an I/O APIC has, to another", 1, 1, 9, 0);
    edit_byte("processor to an I/O APIC's ID", 1, 1, 7, 0);
    edit_byte("I/O APIC back to its own", 2, 1, 2, 0);
    edit_byte("the third one with a processor's on", 4, 3, 1, 0);
    edit_byte("I/O APIC 255", 2, 1, 255, 23 + 256 * 16);
}

/* Of 256 values, in a run that is not thorough, low and high ones and some. */
static bool is_tried(struct rng *r, int value)
{
    return thorough || value < 6 || value > 251 || rng_chance(r, 5);
}

/* Every byte of every entry of the board, to every value. */
static void every_byte(struct rng *r)
{
    uint8_t e[ENTRY_MAX];

    for (size_t place = 0; place < 5; place++) {
        start_board();
        size_t size = standing(&now, place, e);
        for (size_t at = 0; at < size; at++)
            for (int value = 0; value < 256; value++)
                if (is_tried(r, value))
                    edit_byte("every byte", place, at, (uint8_t)value,
                              at != 0 ? -1 : value == e[0] ? 0 : 21);
    }
}

static void every_length(struct rng *r)
{
    memset(&edit, 0, sizeof edit);
    for (size_t place = 0; place < 5; place++)
        for (size_t stated = 0; stated <= ENTRY_MAX + 2; stated++)
            for (size_t wanted = 0; wanted <= ENTRY_MAX + 2; wanted++) {
                if (!is_tried(r, stated == wanted ? 0 : 100))
                    continue;
                start_board();
                state_entry(&now, place, &edit);
                size_t size = edit.stated_length;
                edit.stated_length = stated;
                edit.wanted_length = wanted;
                check("every length",
                      stated == size && wanted == size ? 0 : 21);
            }
}

/* The board cut at each byte: its own number, whatever the edit. */
static void cut_board(void)
{
    start_board();
    size_t n = table.size;

    for (size_t i = 0; i < n; i++) {
        table.size = i;
        edit_byte("bench board cut", 3, 7, 9, i < HEADER ? 5 : 7);
    }
}

static void extended_bus(void)
{
    struct builder b;

    small_board(&b);
    add_bus(&b, 1, "PCI   ");
    add_bus(&b, 2, "PCI   ");
    add_bus(&b, 3, "PCI   ");
    add_bus(&b, 4, "PCI   ");
    add_mapping(&b, 1, 0, 0, 1);
    add_link(&b, 2, 1, 0);
    add_modifier(&b, 3, 0, 0);
    start_sealed(&b);
    edit_byte("a parent", 1, 1, 9, 23 + 256 * 18);
    edit_byte("bus of a mapping", 2, 1, 9, 23 + 256 * 18);
    edit_byte("bus of a link", 3, 1, 9, 23 + 256 * 18);
    edit_byte("bus of a modifier", 4, 1, 9, 23 + 256 * 18);
    edit_byte("bus that nobody names", 5, 1, 9, 0);
    edit_byte("bus ID twice", 5, 1, 0, 23 + 256 * 15);
}

/*
 * Kind, range and list have a bus's number, but name none.  Generated tables show it
 * only by luck: of some seeds none has such a list, and no other use of that bus.
 */
static void unnamed_bus(void)
{
    struct builder b;

    small_board(&b);
    add_bus(&b, 1, "PCI   ");
    add_bus(&b, 2, "PCI   ");
    add_mapping(&b, 2, 1, 0, 1);
    add_modifier(&b, 2, 0, 0);
    add_modifier(&b, 2, 1, 1);
    start_sealed(&b);
    edit_byte("bus 0, beside a list 0", 1, 1, 9, 0);
    edit_byte("bus 1, beside a kind and a list 1", 2, 1, 10, 0);
}

/* First, last and one past, of 505 entries, with bytes behind the table. */
static void full_table(void)
{
    static struct builder b;

    small_board(&b);
    while (base_left(&b, PART_LIMIT) > 0)
        add_interrupt(&b, 3, 0, 0, 0, 0, 255, 0);
    while (ext_left(&b, PART_LIMIT) > 0)
        add_unknown(&b, 255, 2, 0);
    start_sealed(&b);
    memset(table.bytes + table.size, 0xEE, 100);
    table.size += 100;
    edit_byte("first of 505", 0, 2, 0x99, 0);
    edit_byte("last of 505", 504, 7, 0x99, 0);
    edit_byte("last of 505, type 9", 504, 1, 9, 23 + 256 * 17);
    edit.place = 505;
    check("one past 505", 20);
}

static void fixed_edits(struct rng *r)
{
    the_board();
    shared_id();
    every_byte(r);
    every_length(r);
    cut_board();
    extended_bus();
    unnamed_bus();
    full_table();
}

/* ---- all of them ---- */

void edits(struct rng *r, number count, const char *seed)
{
    fixed_edits(r);
    number fixed = t.cases;
    memset(inner, 0, sizeof inner);
    memset(given_up, 0, sizeof given_up);
    /* Twice as many: more than half of them are on tables for edits of IDs. */
    for (t = (struct tally){ 0 }; t.cases < 2 * count; ) {
        if (rng_chance(r, 5)) {   /* refused as it stands, whatever it would mend */
            runs++;
            mending_edit(r, &table, &edit);
            edit_both();
        } else {
            bool named = rng_chance(r, 45);
            (named ? named_case : gen_case)(r, &table);
            edit_table(r, named);
        }
    }
    printf("edits: %llu fixed, %llu generated in %llu runs, seed %s: no "
           "difference\n", fixed, t.cases, runs, seed);
    printf("  0: %llu\n", t.answered[0]);
    require("edits made", t.answered[0], count / 4);
    report_range(t.answered, 5, 18, count);
    report_range(t.answered, 20, 23, count);
    printf("the inner numbers of 23:\n");
    report_range(inner, 14, 18, count);
    report_ids(count);
}
