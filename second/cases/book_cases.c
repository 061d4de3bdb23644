/*
 * Books of earlier tables as lists, and what is to be answered about them, worked
 * out as the paper words it; good books of all sizes; saves and restores.
 */
#include "faults.h"

#include <string.h>

/* ---- the book of a list ---- */

size_t book_size(const struct book *k)
{
    return BOOK_HEAD + BOOK_ROW * k->rows + k->size;
}

size_t body_start(const struct book *k, const struct kept *e)
{
    return BOOK_HEAD + BOOK_ROW * k->rows + e->at;
}

size_t lay_book(const struct book *k, uint8_t *out)
{
    uint8_t *p = out + BOOK_HEAD;

    out[0] = 1;
    put_le(out + 1, k->rows, 2);
    for (size_t i = 0; i < k->rows; i++, p += BOOK_ROW) {
        put_le(p, k->row[i].machine, 2);
        put_le(p + 2, k->row[i].edition, 2);
        put_le(p + 4, body_start(k, &k->row[i]), 2);
        put_le(p + 6, k->row[i].length, 2);
    }
    memcpy(p, k->bodies, k->size);
    return book_size(k);
}

uint16_t latest_edition(const struct book *k, uint16_t machine)
{
    uint16_t latest = 0;

    for (size_t i = 0; i < k->rows; i++)
        if (k->row[i].machine == machine && k->row[i].edition > latest)
            latest = k->row[i].edition;
    return latest;
}

const struct kept *row_of(const struct book *k, uint16_t machine, uint16_t edition)
{
    for (size_t i = 0; i < k->rows; i++)
        if (k->row[i].machine == machine && k->row[i].edition == edition)
            return &k->row[i];
    return NULL;
}

size_t tell_rows(const struct book *k, uint8_t *out)
{
    for (size_t i = 0; i < k->rows; i++, out += TOLD_ROW) {
        put_le(out, k->row[i].machine, 2);
        put_le(out + 2, k->row[i].edition, 2);
        put_le(out + 4, body_start(k, &k->row[i]), 4);
        put_le(out + 8, k->row[i].length, 4);
    }
    return TOLD_ROW * k->rows;
}

void keep_body(struct book *k, uint16_t machine, const uint8_t *body, size_t n)
{
    uint16_t edition = (uint16_t)(latest_edition(k, machine) + 1);

    k->row[k->rows++] = (struct kept){ machine, edition, k->size, n };
    memmove(k->bodies + k->size, body, n);
    k->size += n;
}

/* ---- what is to be answered ---- */

/* ".. the new body's own number, or 7 if bytes follow the table" */
static int own_number(const struct test_case *body)
{
    if (body->expected != 0)
        return body->expected;
    return body->size > base_of(body->bytes) + ext_of(body->bytes) ? 7 : 0;
}

/* ".. when the book with row and body would pass 32,768 or the lent room" */
static bool fits(const struct book *k, size_t length, size_t size)
{
    size_t grown = book_size(k) + BOOK_ROW + length;

    return grown <= BOOK_LIMIT && grown <= size;
}

void expect_change(const struct book *k, size_t size, struct change *c)
{
    const struct kept *old = row_of(k, c->machine, c->edition);
    bool is_latest = c->latest == latest_edition(k, c->machine);

    if (!c->restores && own_number(&c->body) != 0)
        c->expected = own_number(&c->body);
    else if (!is_latest || (c->restores && old == NULL))
        c->expected = 28;
    else if (!fits(k, c->restores ? old->length : c->body.size, size))
        c->expected = 29;
    else
        c->expected = 0;
}

void keep_change(struct book *k, const struct change *c)
{
    const struct kept *old = row_of(k, c->machine, c->edition);

    if (c->restores)
        keep_body(k, c->machine, k->bodies + old->at, old->length);
    else
        keep_body(k, c->machine, c->body.bytes, c->body.size);
}

/* ---- tables to keep ---- */

/* A lone processor, and any names. */
static void lone_table(struct rng *r, struct builder *b)
{
    builder_start(b, 0xFEE00000u);
    rng_fill(r, b->header + 8, 20);
    add_processor(b, (uint8_t)rng_below(r, 255), 3);
}

void sized_table(struct rng *r, struct builder *b, size_t n)
{
    lone_table(r, b);
    if (n > SMALLEST + PART_LIMIT)
        add_bus(b, 0, "PCI   ");
    while (HEADER + b->base_len + PART_LIMIT < n)
        add_interrupt(b, 3, 0, 0, 0, rng_byte(r), 255, 0);
    while (HEADER + b->base_len + b->ext_len < n) {
        size_t left = n - HEADER - b->base_len - b->ext_len;

        add_unknown(b, 200, (uint8_t)(left < 256 ? left : left == 256 ? 254 : 255),
                    rng_byte(r));
    }
}

/* One that the book holds, with a byte of its names changed. */
static void next_table(struct rng *r, const struct book *k, struct builder *b)
{
    const struct kept *e = &k->row[rng_below(r, (uint32_t)k->rows)];

    unseal(b, k->bodies + e->at);
    rng_alter(r, b->header + rng_range(r, 8, 27));
}

static void draw_table(struct rng *r, const struct book *k, struct builder *b)
{
    uint8_t image[HEADER + 52];
    uint32_t roll = rng_below(r, 100);

    if (roll < 35) {
        lone_table(r, b);
    } else if (roll < 45) {
        bench_board(image);
        unseal(b, image);
    } else if (roll < 65 && k->rows > 0) {
        next_table(r, k, b);
    } else {
        sound_table(r, b);
    }
}

/* ---- good books ---- */

/* One that is not far from a machine with rows: a hash or a byte may be the same. */
static uint16_t near_machine(struct rng *r, const struct book *k)
{
    uint16_t machine = k->row[rng_below(r, (uint32_t)k->rows)].machine;

    switch (rng_below(r, 4)) {
    case 0: return (uint16_t)(machine ^ 1u << rng_below(r, 16));
    case 1: return (uint16_t)(machine + 256 * rng_below(r, 256));
    case 2: return (uint16_t)(machine + 1024 * rng_below(r, 64));
    default: return (uint16_t)(machine << 8 | machine >> 8);
    }
}

uint16_t any_machine(struct rng *r, const struct book *k)
{
    uint32_t roll = rng_below(r, 100);

    if (k->rows > 0 && roll < 65)
        return k->row[rng_below(r, (uint32_t)k->rows)].machine;
    if (k->rows > 0 && roll < 77)
        return near_machine(r, k);
    if (roll < 89)
        return roll < 82 ? 0 : roll < 86 ? 65535 : (uint16_t)rng_below(r, 9);
    return (uint16_t)rng_next(r);
}

/* So many rows at most, and so many bytes. */
static void add_rows(struct rng *r, struct book *k, uint32_t most, size_t goal)
{
    static struct builder b;
    static uint8_t image[2 * PART_ROOM];

    while (k->rows < most) {
        draw_table(r, k, &b);
        size_t n = seal(&b, image);
        if (!fits(k, n, goal))
            return;
        keep_body(k, any_machine(r, k), image, n);
    }
}

/*
 * The next table's length where so many bytes are left for it: all of them, or so
 * few that another row and table can follow.
 */
static size_t next_length(struct rng *r, size_t left, bool small)
{
    size_t most = left - BOOK_ROW - (SMALLEST + 2);

    if (left <= 2 * PART_LIMIT && (left < 300 || (!small && rng_chance(r, 10))))
        return left;
    if (small)
        return SMALLEST;
    return rng_range(r, SMALLEST + 2, most < 2 * PART_LIMIT ? (uint32_t)most
                                                            : 2 * PART_LIMIT);
}

void fill_book(struct rng *r, struct book *k, size_t goal, bool small)
{
    static struct builder b;
    static uint8_t image[2 * PART_LIMIT];

    while (book_size(k) < goal) {
        sized_table(r, &b, next_length(r, goal - book_size(k) - BOOK_ROW, small));
        size_t n = seal(&b, image);
        keep_body(k, any_machine(r, k), image, n);
    }
}

/* Up to the limit or near it: less a row, or a row and a smallest table. */
static size_t any_goal(struct rng *r)
{
    static const uint8_t left[] = { 0, 0, 1, 2, 7, 8, 9, 71, 72, 73, 74, 104 };

    return BOOK_LIMIT - (rng_chance(r, 70) ? left[rng_below(r, sizeof left)]
                                           : rng_below(r, 9000));
}

static void draw_rows(struct rng *r, struct book *k)
{
    uint32_t roll = rng_below(r, 100);
    bool small = rng_chance(r, 40);

    k->rows = k->size = 0;
    if (roll < 8)
        return;
    if (roll < 72)
        add_rows(r, k, rng_range(r, 1, 6), 4000);
    else if (roll < 88)
        add_rows(r, k, rng_range(r, 4, 40), 12000);
    else if (roll < 92)
        add_rows(r, k, 60, BOOK_LIMIT);
    else
        fill_book(r, k, any_goal(r), small);
}

/* Rooms that a save or a restore just fits in, or not quite, among them. */
static size_t draw_room(struct rng *r, const struct book *k)
{
    uint32_t roll = rng_below(r, 100), off = rng_below(r, 3);
    size_t size = book_size(k), length = SMALLEST;

    if (k->rows > 0 && rng_chance(r, 70))
        length = k->row[rng_below(r, (uint32_t)k->rows)].length;
    if (size + 2 * PART_LIMIT > BOOK_LIMIT && roll < 60)
        return BOOK_LIMIT + off * off * 100;
    if (roll < 10)
        return size;
    if (roll < 16)
        return size + 1 + rng_below(r, 20);
    if (roll < 34)
        return size + BOOK_ROW + length + 1 - off;
    if (roll < 90)
        return size + rng_below(r, roll < 50 ? 2000 : 9000);
    return BOOK_LIMIT + (roll < 95 ? 0 : rng_below(r, BOOK_ROOM - BOOK_LIMIT));
}

void finish_book(struct rng *r, struct book_case *c, const char *label, size_t size)
{
    c->label = label;
    c->expected = 0;
    c->size = size;
    rng_fill(r, c->bytes, size);
    lay_book(&c->k, c->bytes);
}

void good_book(struct rng *r, struct book_case *c)
{
    draw_rows(r, &c->k);
    finish_book(r, c, "a good book", draw_room(r, &c->k));
}

/* ---- saves and restores ---- */

uint16_t any_edition(struct rng *r, const struct book *k, uint16_t machine)
{
    uint16_t latest = latest_edition(k, machine);

    switch (rng_below(r, 8)) {
    case 0: return latest;
    case 1: return (uint16_t)(latest + 1);
    case 2: return (uint16_t)(latest - 1);
    case 3: return (uint16_t)(latest ^ 1u << rng_below(r, 16));
    case 4: return rng_chance(r, 50) ? 0 : 65535;
    default: return (uint16_t)rng_range(r, 1, latest + (latest == 0));
    }
}

/* So that the book just fills its room or the limit, or is one byte over or under. */
static bool fitting_table(struct rng *r, const struct book *k, size_t size,
                          struct builder *b)
{
    size_t most = size < BOOK_LIMIT ? size : BOOK_LIMIT;
    size_t n = most + 1 - rng_below(r, 3) - book_size(k) - BOOK_ROW;

    if (n < SMALLEST || n == SMALLEST + 1 || n > 2 * PART_LIMIT)
        return false;
    sized_table(r, b, n);
    return true;
}

static void sound_body(struct rng *r, const struct book *k, size_t size,
                       struct change *c)
{
    static struct builder b;
    uint32_t fitting = size < BOOK_LIMIT ? 25 : 60;

    c->label = "a save";
    if (!rng_chance(r, fitting) || !fitting_table(r, k, size, &b))
        draw_table(r, k, &b);
    c->body.size = seal(&b, c->body.bytes);
    c->body.expected = 0;
}

/* Bytes behind the table. */
static void long_body(struct rng *r, const struct book *k, size_t size,
                      struct change *c)
{
    size_t n = rng_chance(r, 50) ? 1 : rng_range(r, 2, 80);

    sound_body(r, k, size, c);
    c->label = "a save of a table and more";
    rng_fill(r, c->body.bytes + c->body.size, n);
    c->body.size += n;
}

static void draw_save(struct rng *r, const struct book *k, size_t size,
                      struct change *c)
{
    uint32_t roll = rng_below(r, 100);

    if (roll < 70) {
        sound_body(r, k, size, c);
    } else if (roll < 76) {
        long_body(r, k, size, c);
    } else if (roll < 95) {
        fault_case(r, random_fault(r), &c->body);
        c->label = "a save of a table with a fault";
    } else {
        gen_case(r, &c->body);
        c->label = "a save of any table";
    }
}

/* Mostly an edition that is there. */
static void draw_restore(struct rng *r, const struct book *k, struct change *c)
{
    c->label = "a restore";
    c->edition = any_edition(r, k, c->machine);
    if (rng_chance(r, 60))
        c->edition = (uint16_t)rng_range(r, 1, 1 + latest_edition(k, c->machine) / 2);
}

void gen_change(struct rng *r, const struct book *k, size_t size, struct change *c)
{
    c->restores = rng_chance(r, 35);
    c->machine = any_machine(r, k);
    c->edition = 0;
    if (c->restores && k->rows > 0 && rng_chance(r, 60))
        c->machine = k->row[rng_below(r, (uint32_t)k->rows)].machine;
    c->latest = latest_edition(k, c->machine);
    if (rng_chance(r, 20))
        c->latest = any_edition(r, k, c->machine);
    if (c->restores)
        draw_restore(r, k, c);
    else
        draw_save(r, k, size, c);
    expect_change(k, size, c);
}
