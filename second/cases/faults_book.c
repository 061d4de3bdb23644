/*
 * Single faults of a book, each of which is 27: made in its list, which is then laid
 * out as a good one's; or in its bytes.  And damage, of which it is not known.
 */
#include "faults.h"

#include <string.h>

struct book_fault {
    const char *name;
    bool (*list)(struct rng *r, struct book *k, const struct book_fault *f);
    int by;          /* of editions: how far they are shifted; of bodies: the rule */
    bool first;      /* of editions: the first one too */
    bool (*image)(struct rng *r, struct book_case *c, const struct book_fault *f);
};

static struct kept *any_row(struct rng *r, struct book *k)
{
    return &k->row[rng_below(r, (uint32_t)k->rows)];
}

/* ---- editions ---- */

/* Whether each is one more than its machine's rows before. */
static bool editions_run(const struct book *k)
{
    for (size_t i = 0; i < k->rows; i++) {
        unsigned before = 0;

        for (size_t j = 0; j < i; j++)
            before += k->row[j].machine == k->row[i].machine;
        if (k->row[i].edition != before + 1)
            return false;
    }
    return true;
}

/* A row's, and those of the later rows of its machine. */
static bool shifted(struct rng *r, struct book *k, const struct book_fault *f)
{
    struct kept *e = any_row(r, k);
    uint16_t machine = e->machine;

    if ((e->edition == 1) != f->first)
        return false;
    for (; e < k->row + k->rows; e++)
        if (e->machine == machine)
            e->edition = (uint16_t)(e->edition + f->by);
    return true;
}

static bool falling(struct rng *r, struct book *k, const struct book_fault *f)
{
    struct kept *e = any_row(r, k), *other = any_row(r, k);
    uint16_t edition = e->edition;

    if (e == other || e->machine != other->machine)
        return false;
    e->edition = other->edition, other->edition = edition;
    return true;
}

static bool one_edition(struct rng *r, struct book *k, const struct book_fault *f)
{
    struct kept *e = any_row(r, k);

    e->edition = (uint16_t)(e->edition + rng_range(r, 1, 65535));
    return true;
}

static bool edition_bit(struct rng *r, struct book *k, const struct book_fault *f)
{
    uint16_t bit = (uint16_t)(1u << rng_below(r, 16));

    any_row(r, k)->edition ^= bit;
    return true;
}

static bool edition_high(struct rng *r, struct book *k, const struct book_fault *f)
{
    any_row(r, k)->edition ^= 256;
    return true;
}

static bool other_machine(struct rng *r, struct book *k, const struct book_fault *f)
{
    struct kept *e = any_row(r, k);

    e->machine = any_machine(r, k);
    return !editions_run(k);
}

/* Two numbers that are one in fewer bits. */
static bool machine_bit(struct rng *r, struct book *k, const struct book_fault *f)
{
    uint16_t bit = (uint16_t)(1u << rng_below(r, 16));

    any_row(r, k)->machine ^= bit;
    return !editions_run(k);
}

/* ---- bodies ---- */

/* Another body in a row's place, which may be a part of that. */
static bool put_body(struct book *k, struct kept *e, const uint8_t *body, size_t n)
{
    static uint8_t after[BODIES_ROOM];
    size_t end = e->at + e->length, left = k->size - end;

    if (k->size - e->length + n > BOOK_LIMIT - BOOK_HEAD - BOOK_ROW * k->rows)
        return false;
    memcpy(after, k->bodies + end, left);
    memmove(k->bodies + e->at, body, n);
    memcpy(k->bodies + e->at + n, after, left);
    k->size = k->size - e->length + n;
    for (struct kept *later = e + 1; later < k->row + k->rows; later++)
        later->at = later->at - e->length + n;
    e->length = n;
    return true;
}

/* A table that a rule refuses, with nothing behind it. */
static bool refused_body(struct rng *r, struct book *k, const struct book_fault *f)
{
    static struct test_case t;
    const struct fault *rule = fault_of(r, table_faults, (uint8_t)f->by);

    fault_case(r, rule, &t);
    if (t.size > HEADER && base_of(t.bytes) >= HEADER
        && base_of(t.bytes) + ext_of(t.bytes) < t.size)
        t.size = base_of(t.bytes) + ext_of(t.bytes);
    return put_body(k, any_row(r, k), t.bytes, t.size);
}

static bool bytes_behind(struct rng *r, struct book *k, const struct book_fault *f)
{
    static uint8_t longer[2 * PART_LIMIT + 100];
    struct kept *e = any_row(r, k);
    size_t n = rng_chance(r, 60) ? 1 : rng_range(r, 2, 100);

    memcpy(longer, k->bodies + e->at, e->length);
    memset(longer + e->length, 0, n);
    if (rng_chance(r, 60))
        rng_fill(r, longer + e->length, n);
    return put_body(k, e, longer, e->length + n);
}

static bool cut_body(struct rng *r, struct book *k, const struct book_fault *f)
{
    struct kept *e = any_row(r, k);
    size_t n = rng_chance(r, 60) ? 1 : rng_range(r, 1, (uint32_t)e->length);

    return put_body(k, e, k->bodies + e->at, e->length - n);
}

static bool no_body(struct rng *r, struct book *k, const struct book_fault *f)
{
    return put_body(k, any_row(r, k), k->bodies, 0);
}

/* Two tables in one row. */
static bool two_bodies(struct rng *r, struct book *k, const struct book_fault *f)
{
    struct kept *e = k->row + k->rows - 1;

    if (k->rows == 1)
        return false;
    k->rows--;
    e[-1].length += e->length;
    return true;
}

static bool over_limit_by(struct rng *r, struct book *k, const struct book_fault *f)
{
    k->rows = k->size = 0;
    fill_book(r, k, BOOK_LIMIT + (size_t)f->by, rng_chance(r, 50));
    return true;
}

/* ---- the head, and the room ---- */

static bool layout(struct rng *r, struct book_case *c, const struct book_fault *f)
{
    static const uint8_t near[3] = { 0, 2, 255 };

    if (rng_chance(r, 60))
        c->bytes[0] = near[rng_below(r, 3)];
    else
        rng_alter(r, c->bytes);
    return true;
}

static bool no_room(struct rng *r, struct book_case *c, const struct book_fault *f)
{
    c->size = rng_below(r, BOOK_HEAD);
    return true;
}

static bool cut_by_one(struct rng *r, struct book_case *c, const struct book_fault *f)
{
    c->size = book_size(&c->k) - 1;
    return true;
}

static bool cut_rows(struct rng *r, struct book_case *c, const struct book_fault *f)
{
    c->size = BOOK_HEAD + rng_below(r, (uint32_t)(BOOK_ROW * c->k.rows));
    return true;
}

static bool cut_bodies(struct rng *r, struct book_case *c, const struct book_fault *f)
{
    c->size = book_size(&c->k) - rng_range(r, 1, (uint32_t)c->k.size);
    return true;
}

/* Another number of rows; none would be the empty book, and good. */
static bool state_rows(struct book_case *c, size_t rows)
{
    put_le(c->bytes + 1, rows, 2);
    return rows % 65536 != 0 && rows % 65536 != c->k.rows;
}

/* One row more than the room has bytes for. */
static bool rows_past(struct rng *r, struct book_case *c, const struct book_fault *f)
{
    if (rng_chance(r, 40))
        c->size = BOOK_HEAD + rng_below(r, BOOK_ROW);
    size_t rows = (c->size - BOOK_HEAD) / BOOK_ROW + 1;
    return state_rows(c, rng_chance(r, 70) ? rows : 65535);
}

/* Rows of no bodies, right but for that, up to the limit or past it. */
static bool rows_of_none(struct rng *r, struct book_case *c, const struct book_fault *f)
{
    size_t most = (BOOK_LIMIT - BOOK_HEAD) / BOOK_ROW, rows = most + rng_below(r, 3);
    uint8_t *p = c->bytes + BOOK_HEAD;

    state_rows(c, rows);
    for (size_t i = 0; i < rows; i++, p += BOOK_ROW) {
        put_le(p, 7, 2);
        put_le(p + 2, i + 1, 2);
        put_le(p + 4, BOOK_HEAD + BOOK_ROW * rows, 2);
        put_le(p + 6, 0, 2);
    }
    c->size = BOOK_HEAD + BOOK_ROW * rows + rng_below(r, 100);
    return true;
}

static bool more_rows(struct rng *r, struct book_case *c, const struct book_fault *f)
{
    return state_rows(c, c->k.rows + (rng_chance(r, 60) ? 1
                                      : 256 * rng_range(r, 1, 255)));
}

static bool fewer_rows(struct rng *r, struct book_case *c, const struct book_fault *f)
{
    return state_rows(c, c->k.rows - 1);
}

static bool rows_exchanged(struct rng *r, struct book_case *c,
                           const struct book_fault *f)
{
    size_t rows = c->k.rows;

    return state_rows(c, (rows << 8 | rows >> 8) & 65535);
}

/* ---- where the bodies stand ---- */

static size_t any_place_of_row(struct rng *r, const struct book_case *c)
{
    return BOOK_HEAD + BOOK_ROW * rng_below(r, (uint32_t)c->k.rows);
}

static void add_le(uint8_t *p, int by)
{
    put_le(p, get_le(p, 2) + (uint32_t)by, 2);
}

/* One row's offset or length, which the others do not follow. */
static bool offset_by(struct rng *r, struct book_case *c, const struct book_fault *f)
{
    add_le(c->bytes + any_place_of_row(r, c) + 4, f->by);
    return true;
}

static bool offset_any(struct rng *r, struct book_case *c, const struct book_fault *f)
{
    int by = (int)rng_range(r, 1, 65535);

    add_le(c->bytes + any_place_of_row(r, c) + 4, by);
    return true;
}

static bool length_by(struct rng *r, struct book_case *c, const struct book_fault *f)
{
    if (c->size == book_size(&c->k))
        c->bytes[c->size++] = rng_byte(r);
    add_le(c->bytes + any_place_of_row(r, c) + 6, f->by);
    return true;
}

static bool length_past(struct rng *r, struct book_case *c, const struct book_fault *f)
{
    uint8_t *row = c->bytes + BOOK_HEAD + BOOK_ROW * (c->k.rows - 1);
    size_t left = c->size - get_le(row + 4, 2);

    put_le(row + 6, rng_chance(r, 60) && left < 65535 ? left + 1 : 65535, 2);
    return true;
}

/* The rows from one on, counted from 0, say that their bodies are further on. */
static void shift_offsets(struct book_case *c, size_t from, int by)
{
    for (size_t i = from; i < c->k.rows; i++)
        add_le(c->bytes + BOOK_HEAD + BOOK_ROW * i + 4, by);
}

/* Bytes before a body, the first one too, which all rows allow for. */
static bool gap(struct rng *r, struct book_case *c, const struct book_fault *f)
{
    size_t i = rng_chance(r, 40) ? 0 : rng_below(r, (uint32_t)c->k.rows);
    size_t n = rng_chance(r, 60) ? 1 : rng_range(r, 2, 100);
    uint8_t *p = c->bytes + body_start(&c->k, &c->k.row[i]);

    memmove(p + n, p, book_size(&c->k) - (size_t)(p - c->bytes));
    memset(p, 0, n);
    shift_offsets(c, i, (int)n);
    c->size += n;
    return true;
}

/* A body for two rows, which all later rows allow for. */
static bool shared_body(struct rng *r, struct book_case *c, const struct book_fault *f)
{
    size_t i = rng_range(r, 1, (uint32_t)c->k.rows);

    if (i >= c->k.rows)
        return false;

    const struct kept *e = &c->k.row[i];
    uint8_t *row = c->bytes + BOOK_HEAD + BOOK_ROW * i;
    uint8_t *p = c->bytes + body_start(&c->k, e);
    memcpy(row + 4, row - BOOK_ROW + 4, 4);
    memmove(p, p + e->length, book_size(&c->k) - (size_t)(p - c->bytes) - e->length);
    shift_offsets(c, i + 1, -(int)e->length);
    return true;
}

/* Two bodies the other way round than their rows. */
static bool bodies_exchanged(struct rng *r, struct book_case *c,
                             const struct book_fault *f)
{
    uint8_t *one = c->bytes + any_place_of_row(r, c);
    uint8_t *other = c->bytes + any_place_of_row(r, c);
    uint8_t kept[4];

    memcpy(kept, one + 4, 4);
    memcpy(one + 4, other + 4, 4);
    memcpy(other + 4, kept, 4);
    return one != other;
}

/* Offsets that count from the first body, or from the rows. */
static bool from_bodies(struct rng *r, struct book_case *c, const struct book_fault *f)
{
    shift_offsets(c, 0, -(int)(BOOK_HEAD + BOOK_ROW * c->k.rows));
    return true;
}

static bool from_rows(struct rng *r, struct book_case *c, const struct book_fault *f)
{
    shift_offsets(c, 0, -BOOK_HEAD);
    return true;
}

/* As they were before the last save. */
static bool old_offsets(struct rng *r, struct book_case *c, const struct book_fault *f)
{
    shift_offsets(c, 0, -BOOK_ROW);
    return true;
}

/* The end of one body stands in the next row's. */
static bool other_border(struct rng *r, struct book_case *c, const struct book_fault *f)
{
    int by = rng_chance(r, 50) ? 1 : -1;
    uint8_t *row = c->bytes + any_place_of_row(r, c);

    if (row + BOOK_ROW >= c->bytes + BOOK_HEAD + BOOK_ROW * c->k.rows)
        return false;
    add_le(row + 6, by);
    add_le(row + BOOK_ROW + 4, by);
    add_le(row + BOOK_ROW + 6, -by);
    return true;
}

/* ---- all of them ---- */

static const struct book_fault faults[] = {
    { "editions with a gap", .list = shifted, .by = 1 },
    { "editions from 2 on", .list = shifted, .by = 1, .first = true },
    { "editions from 0 on", .list = shifted, .by = -1, .first = true },
    { "an edition twice", .list = shifted, .by = -1 },
    { "editions falling", .list = falling },
    { "one edition", .list = one_edition },
    { "a bit of an edition", .list = edition_bit },
    { "an edition and 256", .list = edition_high },
    { "a row of another machine", .list = other_machine },
    { "a bit of a machine", .list = machine_bit },
    { "a body refused with 5", .list = refused_body, .by = 5 },
    { "a body refused with 6", .list = refused_body, .by = 6 },
    { "a body refused with 7", .list = refused_body, .by = 7 },
    { "a body refused with 8", .list = refused_body, .by = 8 },
    { "a body refused with 9", .list = refused_body, .by = 9 },
    { "a body refused with 10", .list = refused_body, .by = 10 },
    { "a body refused with 11", .list = refused_body, .by = 11 },
    { "a body refused with 12", .list = refused_body, .by = 12 },
    { "a body refused with 13", .list = refused_body, .by = 13 },
    { "a body refused with 14", .list = refused_body, .by = 14 },
    { "a body refused with 15", .list = refused_body, .by = 15 },
    { "a body refused with 16", .list = refused_body, .by = 16 },
    { "a body refused with 17", .list = refused_body, .by = 17 },
    { "a body refused with 18", .list = refused_body, .by = 18 },
    { "bytes behind a body's table", .list = bytes_behind },
    { "a body cut", .list = cut_body },
    { "an empty body", .list = no_body },
    { "two tables in a body", .list = two_bodies },
    { "32,769 bytes", .list = over_limit_by, .by = 1 },
    { "32,900 bytes", .list = over_limit_by, .by = 132 },
    { "40,000 bytes", .list = over_limit_by, .by = 7232 },
    { "another layout", .image = layout },
    { "a room under three bytes", .image = no_room },
    { "a room a byte too short", .image = cut_by_one },
    { "a room that ends in the rows", .image = cut_rows },
    { "a room that ends in the bodies", .image = cut_bodies },
    { "rows past the room", .image = rows_past },
    { "rows of no bodies", .image = rows_of_none },
    { "more rows stated", .image = more_rows },
    { "fewer rows stated", .image = fewer_rows },
    { "the number of rows the other way round", .image = rows_exchanged },
    { "an offset too low", .image = offset_by, .by = -1 },
    { "an offset too high", .image = offset_by, .by = 1 },
    { "an offset and 256", .image = offset_by, .by = 256 },
    { "any offset", .image = offset_any },
    { "a length too low", .image = length_by, .by = -1 },
    { "a length too high", .image = length_by, .by = 1 },
    { "a length and 256", .image = length_by, .by = 256 },
    { "a body past the room", .image = length_past },
    { "a gap before a body", .image = gap },
    { "a body for two rows", .image = shared_body },
    { "two bodies exchanged", .image = bodies_exchanged },
    { "offsets from the bodies on", .image = from_bodies },
    { "offsets from the rows on", .image = from_rows },
    { "offsets of a row less", .image = old_offsets },
    { "a border between two bodies", .image = other_border },
};

enum {
    FAULTS = sizeof faults / sizeof faults[0],
    ROOM_MOST = BOOK_ROOM - 200   /* some of them make it longer */
};

static size_t least(size_t a, size_t b)
{
    return a < b ? a : b;
}

bool book_fault_case(struct rng *r, size_t number, struct book_case *c)
{
    if (number >= FAULTS)
        return false;

    const struct book_fault *f = &faults[number];
    for (;;) {
        do
            good_book(r, c);
        while (c->k.rows == 0);
        size_t behind = c->size - book_size(&c->k);
        if (f->list != NULL && !f->list(r, &c->k, f))
            continue;
        finish_book(r, c, f->name, least(book_size(&c->k) + behind, ROOM_MOST));
        if (f->image != NULL && !f->image(r, c, f))
            continue;
        break;
    }
    c->expected = 27;
    return true;
}

/* Of bytes that are mostly the head's and the rows'. */
static void damaged_book(struct rng *r, struct book_case *c)
{
    good_book(r, c);
    for (uint32_t n = 1 + rng_few(r, 4); n > 0; n--) {
        uint32_t rows = (uint32_t)(BOOK_HEAD + BOOK_ROW * c->k.rows);
        uint8_t *p = c->bytes + rng_below(r, rng_chance(r, 70) ? rows
                                                               : (uint32_t)c->size);
        *p = rng_chance(r, 50) ? (uint8_t)(*p + 1 - 2 * rng_below(r, 2))
                               : rng_byte(r);
    }
    if (rng_chance(r, 10))
        c->size = rng_below(r, (uint32_t)c->size + 1);
    c->label = "a damaged book";
    c->expected = -1;
}

void gen_book(struct rng *r, struct book_case *c)
{
    uint32_t roll = rng_below(r, 100);

    if (roll < 70)
        good_book(r, c);
    else if (roll < 92)
        book_fault_case(r, rng_below(r, FAULTS), c);
    else
        damaged_book(r, c);
}
