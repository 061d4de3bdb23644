/*
 * The plain book of earlier tables, as document 02 has it.  To read one takes three
 * passes: over the rows, where the bodies stand; over them again, which editions
 * they have; and over the bodies, each judged once.
 */
#include "plain.h"

#include <string.h>

enum {
    LAYOUT = 1, BOOK_MAX = 32768,
    ROWS = 3, ROW = 8,                     /* where rows begin, and bytes of each */
    EDITION = 2, OFFSET = 4, LENGTH = 6,   /* places in a row, behind the machine */
    LAST_EDITION = 65535
};

/*
 * A book that was read.  The editions are those of machines that have rows, and of
 * one that is asked about: these alone are emptied, so that a small book costs
 * little, and one of any machine numbers no more than another.
 */
struct book {
    size_t bodies, end;        /* where the bodies begin and end */
    uint16_t latest[65536];    /* the latest edition of each machine */
};

/* "At most 32,768 bytes, at the start of its room" */
static size_t limit(size_t n)
{
    return n < BOOK_MAX ? n : BOOK_MAX;
}

/* ".. then the bodies in row order, with nothing between" */
static bool bodies_in_order(const uint8_t *b, size_t most, struct book *k)
{
    const uint8_t *end = b + k->bodies;
    size_t at = k->bodies;

    for (const uint8_t *row = b + ROWS; row < end; row += ROW) {
        size_t length = get16(row + LENGTH);

        if (get16(row + OFFSET) != at || length > most - at)
            return false;
        at += length;
        k->latest[get16(row)] = 0;
    }
    k->end = at;
    return true;
}

/*
 * "A machine's editions run from 1 without a gap, rising in row order."  The row's
 * own number is stored and not the sum, so that no row waits for the one before.
 */
static bool editions_run(const uint8_t *b, struct book *k)
{
    const uint8_t *end = b + k->bodies;

    for (const uint8_t *row = b + ROWS; row < end; row += ROW) {
        uint16_t *latest = &k->latest[get16(row)];
        uint32_t edition = get16(row + EDITION);

        if (edition != *latest + 1u)
            return false;
        *latest = (uint16_t)edition;
    }
    return true;
}

/* "A body must be an accepted table with no byte after it": its number, or 7. */
static uint8_t judge_body(const uint8_t *body, size_t length)
{
    struct table t;
    uint8_t refusal = plain_judge_walk(body, length, &t);

    return refusal == 0 && t.ext_end != length ? 7 : refusal;
}

static bool bodies_accepted(const uint8_t *b, const struct book *k)
{
    const uint8_t *end = b + k->bodies, *body = end;

    for (const uint8_t *row = b + ROWS; row < end; row += ROW) {
        size_t length = get16(row + LENGTH);

        if (judge_body(body, length) != 0)
            return false;
        body += length;
    }
    return true;
}

/* Whether a good book stands in a room; 27 where none does. */
static bool read_book(const uint8_t *b, size_t n, struct book *k)
{
    size_t most = limit(n);

    if (most < ROWS || b[0] != LAYOUT)
        return false;
    k->bodies = ROWS + ROW * (size_t)get16(b + 1);
    return k->bodies <= most && bodies_in_order(b, most, k) && editions_run(b, k)
        && bodies_accepted(b, k);
}

/* The same, and the latest edition of a machine, which may have no rows. */
static bool read_for(const uint8_t *b, size_t n, uint16_t machine, struct book *k)
{
    k->latest[machine] = 0;
    return read_book(b, n, k);
}

static bool holds(const struct book *k, uint16_t machine, uint16_t edition)
{
    return edition != 0 && edition <= k->latest[machine];
}

/* The row of an edition that the book holds. */
static const uint8_t *find(const uint8_t *b, uint16_t machine, uint16_t edition)
{
    const uint8_t *row = b + ROWS;

    while (get32(row) != (machine | (uint32_t)edition << 16))
        row += ROW;
    return row;
}

static uint64_t two(size_t low, size_t high)
{
    return counted(low) | (uint64_t)high << 32;
}

static uint64_t rows_and_bytes(size_t bodies, size_t end)
{
    return two((bodies - ROWS) / ROW, end);
}

/* ---- reading ---- */

uint64_t plain_book(const uint8_t *b, size_t n)
{
    struct book k;

    return read_book(b, n, &k) ? rows_and_bytes(k.bodies, k.end) : refused(27);
}

uint64_t plain_latest(const uint8_t *b, size_t n, uint16_t machine)
{
    struct book k;

    return read_for(b, n, machine, &k) ? counted(k.latest[machine]) : refused(27);
}

uint64_t plain_body(const uint8_t *b, size_t n, uint16_t machine, uint16_t edition)
{
    struct book k;

    if (!read_for(b, n, machine, &k))
        return refused(27);
    if (!holds(&k, machine, edition))
        return refused(28);

    const uint8_t *row = find(b, machine, edition);
    return two(get16(row + LENGTH), get16(row + OFFSET));
}

uint64_t plain_history(const uint8_t *b, size_t n, uint8_t *room, size_t size)
{
    struct book k;

    if (!read_book(b, n, &k))
        return refused(27);

    size_t rows = (k.bodies - ROWS) / ROW;
    if (rows > size / 12)
        return refused(19);
    for (const uint8_t *row = b + ROWS; row < b + k.bodies; row += ROW, room += 12) {
        memcpy(room, row, 4);   /* machine and edition stand as they are written */
        put32(room + 4, get16(row + OFFSET));
        put32(room + 8, get16(row + LENGTH));
    }
    return counted(rows);
}

/* ---- writing ---- */

/*
 * "A save adds row and body last."  The body may be one of the book's: it is put
 * where nothing stands yet, before all bodies move by a row.
 */
static uint64_t add_edition(uint8_t *b, size_t n, const struct book *k,
                            uint16_t machine, const uint8_t *body, size_t length)
{
    uint32_t edition = k->latest[machine];

    /*
     * 29: "when the book with row and body would pass 32,768 or the lent room, or
     * edition 65,535 is reached"
     */
    if (ROW + length > limit(n) - k->end || edition == LAST_EDITION)
        return refused(29);

    uint8_t *row = b + k->bodies;
    memcpy(b + k->end + ROW, body, length);
    memmove(row + ROW, row, k->end - k->bodies);
    put16(row, machine);
    put16(row + EDITION, edition + 1);
    put16(row + OFFSET, (uint32_t)k->end);   /* not moved yet, as the others' */
    put16(row + LENGTH, (uint32_t)length);
    put16(b + 1, get16(b + 1) + 1);
    for (uint8_t *p = b + ROWS; p <= row; p += ROW)
        put16(p + OFFSET, get16(p + OFFSET) + ROW);
    return rows_and_bytes(k->bodies + ROW, k->end + ROW + length);
}

uint64_t plain_save(uint8_t *b, size_t n, uint16_t machine, uint16_t began,
                    const uint8_t *body, size_t length)
{
    struct book k;
    uint8_t refusal;

    if (!read_for(b, n, machine, &k))
        return refused(27);

    /* ".. then the new body's own number, or 7 if bytes follow the table" */
    if ((refusal = judge_body(body, length)) != 0)
        return refused(refusal);

    /* 28: "taken only if that is still the latest" */
    if (began != k.latest[machine])
        return refused(28);

    return add_edition(b, n, &k, machine, body, length);
}

uint64_t plain_restore(uint8_t *b, size_t n, uint16_t machine, uint16_t edition,
                       uint16_t latest)
{
    struct book k;

    if (!read_for(b, n, machine, &k))
        return refused(27);

    /* 28: "not the latest, or an edition to restore that the book doesn't hold" */
    if (latest != k.latest[machine] || !holds(&k, machine, edition))
        return refused(28);

    const uint8_t *old = find(b, machine, edition);
    return add_edition(b, n, &k, machine, b + get16(old + OFFSET),
                       get16(old + LENGTH));
}
