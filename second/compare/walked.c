/*
 * Entries at places of any buffer, and walks from place to place.  A whole entry
 * lies inside the buffer; a walk over an accepted table ends where the table does,
 * past as many base entries as it counts.
 */
#include "compare.h"

#include "arena.h"
#include "driver.h"
#include "plain.h"

#include <stdio.h>
#include <string.h>

static const struct rule reading = { .kind = 'P' };

static struct tally t;   /* of places */
static number buffers, whole, walks;

static const struct test_case *buffer;

/* Answers whether it is an accepted table. */
static bool start_buffer(const struct test_case *c)
{
    bool accepted = plain_judge(c->bytes, c->size) == 0;

    buffer = c;
    begin_case(c->label);
    note_table(c->bytes, c->size, accepted);
    return accepted;
}

/* The length at a place, which may be known beforehand; else -1. */
static size_t entry_at(size_t place, int64_t known)
{
    struct request q = {
        .number = { place }, .slice = { lent(buffer->bytes, buffer->size) },
    };
    const struct outcome *o = put(&reading, &q, knowing(0, known));
    size_t n = buffer->size;

    must(o->count == 0 || (place >= HEADER && place < n && o->count >= 2
                           && o->count <= n - place), "no such entry");
    tally(&t, 0);
    whole += o->count != 0;
    return o->count;
}

/* At most so many steps from a place on; answers where it comes to stand. */
static size_t walk(size_t from, size_t steps, size_t *passed)
{
    size_t length;

    for (*passed = 0; *passed < steps; ++*passed, from += length) {
        length = entry_at(from, -1);
        if (length == 0)
            break;
    }
    return from;
}

/* All of an accepted table, its base and its extended part. */
static void walk_all(void)
{
    const uint8_t *bytes = buffer->bytes;
    size_t base, extended, end = base_of(bytes);

    must(walk(HEADER, get_le(bytes + 34, 2), &base) == end
         && base == get_le(bytes + 34, 2), "a walk that leaves the base elsewhere");
    must(walk(end, SIZE_MAX, &extended) == end + ext_of(bytes),
         "a walk that ends elsewhere");
    walks++;
}

/* A part of a walk over any buffer, from 44 or from where the base may end. */
static size_t walk_some(struct rng *r)
{
    size_t from = HEADER, passed;

    if (buffer->size >= HEADER && rng_chance(r, 40))
        from = base_of(buffer->bytes);
    return walk(from, 1 + rng_below(r, 12), &passed);
}

static void every_place(void)
{
    for (size_t place = 0; place <= buffer->size + 2; place++)
        entry_at(place, -1);
}

enum { SMALL = 130, SHORT = 420 };   /* bytes of a buffer */

static void walk_buffer(struct rng *r, const struct test_case *c)
{
    bool accepted = start_buffer(c);
    size_t entry = walk_some(r);

    buffers++;
    for (uint32_t n = rng_range(r, 2, 8); n > 0; n--)
        entry_at(gen_place(r, c, entry), -1);
    if (c->size <= SMALL && rng_chance(r, thorough ? 50 : 12))
        every_place();
    if (accepted && rng_chance(r, c->size <= SHORT ? 20 : 1))
        walk_all();
}

/* ---- fixed cases ---- */

static struct test_case fixed;
static struct builder b;

static void start_fixed(const char *label)
{
    fixed.label = label;
    start_buffer(&fixed);
}

static void check(size_t place, size_t length)
{
    entry_at(place, (int64_t)length);
}

static void the_board(void)
{
    static const uint8_t size[5] = { 20, 8, 8, 8, 8 };
    size_t n = bench_board(fixed.bytes), at = HEADER;

    fixed.size = n;
    start_fixed("bench board");
    for (int i = 0; i < 5; at += size[i++])
        check(at, size[i]);
    check(n, 0);
    check(SIZE_MAX, 0);
    for (size_t place = 0; place < HEADER; place++)
        check(place, 0);
    every_place();
    walk_all();
    for (fixed.size = 0; fixed.size < n; fixed.size++) {
        start_fixed("bench board cut");
        check(HEADER, fixed.size < HEADER + 20 ? 0 : 20);
        check(HEADER + 20, fixed.size < HEADER + 28 ? 0 : 8);
    }
}

/* From 44 on: two unknown entries, a mapping of length 2, a type below 128. */
static void in_both_parts(void)
{
    static const uint8_t entry[] = {
        255, 3, 0, 200, 2, 128, 2, 127, 2, 1, 8, 3, 4, 5, 6, 7, 130, 0, 131, 1, 131,
    };

    memset(fixed.bytes, 0, HEADER);
    memcpy(fixed.bytes + HEADER, entry, sizeof entry);
    fixed.size = HEADER + sizeof entry;
    for (uint32_t base = 0; base <= HEADER; base++) {
        put_le(fixed.bytes + 4, base, 2);
        put_le(fixed.bytes + 40, fixed.size - base, 2);
        start_fixed("base length up to 44");
        check(44, 3), check(47, 2), check(49, 2), check(51, 0);
        check(60, 0), check(62, 0), check(64, 0);
        put_le(fixed.bytes + 40, 46 - base, 2);
        start_fixed("extended part of two bytes");
        check(44, 0), check(47, 0);
    }
    put_le(fixed.bytes + 40, 65535, 2);
    start_fixed("extended end past 65,536");
    check(44, 3), check(47, 2);
    put_le(fixed.bytes + 4, 61, 2);
    start_fixed("base end inside, extended end far behind");
    check(44, 0), check(51, 0), check(53, 8), check(54, 0);
    check(61, 0), check(64, 0);
    put_le(fixed.bytes + 4, 60, 2);
    start_fixed("an entry cut by the base end");
    check(53, 0);
    put_le(fixed.bytes + 4, 65535, 2);
    start_fixed("both ends far behind");
    check(53, 8), check(58, 0), check(60, 0);
}

/* The most entries that a table can have, and bytes behind it. */
static void full_table(void)
{
    small_board(&b);
    while (base_left(&b, PART_LIMIT) > 0)
        add_interrupt(&b, 3, 0, 0, 0, 0, 255, 0);
    while (ext_left(&b, PART_LIMIT) > 0)
        add_unknown(&b, 255, 2, 0);
    fixed.size = seal(&b, fixed.bytes);
    memset(fixed.bytes + fixed.size, 131, 100);
    fixed.size += 100;
    start_fixed("505 and 2,048 entries");
    check(2 * PART_LIMIT - 2, 2);
    check(2 * PART_LIMIT, 0);
    walk_all();
}

static void fixed_entries(void)
{
    the_board();
    in_both_parts();
    full_table();
}

/* ---- all of them: four places for each of COUNT ---- */

void entries(struct rng *r, number count, const char *seed)
{
    static struct test_case c;

    fixed_entries();
    number places = t.cases, fixed_walks = walks;
    whole = walks = 0;
    for (t = (struct tally){ 0 }; t.cases < 4 * count; ) {
        gen_entered(r, &c);
        walk_buffer(r, &c);
    }
    printf("entries: %llu fixed places, %llu generated in %llu buffers, seed %s: no "
           "difference\n", places, t.cases, buffers, seed);
    printf("whole entries: %llu; walks from 44 to the end: %llu (fixed: %llu)\n",
           whole, walks, fixed_walks);
    require("whole entries", whole, count);
    require("walks", walks, count / 1000);
}
