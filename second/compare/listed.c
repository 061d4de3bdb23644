/* Dumps, read and listed into rooms of several sizes. */
#include "compare.h"

#include "arena.h"
#include "driver.h"
#include "faults.h"
#include "plain.h"
#include "ruxtajma.h"

#include <stdio.h>
#include <string.h>

enum { LONGEST = 38213 };

static const struct rule reading = { .kind = 'D', .refusals = REFUSALS(1, 18) };
static const struct rule listing = {
    .kind = 'L', .refusals = REFUSALS(1, 19), .unit = 1,
};

static struct tally t;
static number listed, standard, rooms, too_small;
static number in_full, no_processor;   /* 30 */
static size_t longest;

/* What the plain lister says, beforehand. */
static uint8_t text[LONGEST];
static unsigned refusal;
static uint32_t length;

/* ---- listing ---- */

static void list_into(const struct dump_case *d, size_t size, int number)
{
    struct request q = {
        .slice = { [0] = lent(d->c.bytes, d->c.size), [ROOM] = room_of(size) },
    };
    const struct outcome *o = put(&listing, &q, knowing(number, length));

    must(memcmp(o->after[ROOM], text, o->count) == 0, "another text in this room");
    rooms++;
    too_small += number == 19;
}

/* Exactly enough, one too few, and one more room; 19 where it is too small. */
static void list_into_rooms(struct rng *r, const struct dump_case *d)
{
    uint32_t roll = rng_below(r, 100);

    list_into(d, length, 0);
    list_into(d, length - 1, 19);
    if (roll < 20)
        list_into(d, 0, 19);
    else if (roll < 50)
        list_into(d, rng_below(r, length), 19);
    else if (roll < 90)
        list_into(d, length + 1 + rng_below(r, 300), 0);
    else
        list_into(d, LONGEST + rng_below(r, 30000), 0);
}

static void start_listing(const struct dump_case *d)
{
    uint64_t answer = plain_list(d->c.bytes, d->c.size, text, LONGEST);

    begin_case(d->c.label);
    refusal = answer & 255;
    length = (uint32_t)(answer >> 16);
}

/* What was known beforehand must stand in the listing. */
static void test_listing(const struct dump_case *d)
{
    if (d->c.expected >= 0 && refusal != (unsigned)d->c.expected)
        fail("another listing than expected", NULL, NULL, d->c.expected);
    if (refusal == 0 && memcmp(text, d->head, strlen(d->head)) != 0)
        fail("another beginning than expected", NULL, NULL, d->c.expected);
    if (length > longest)
        longest = length;
}

/* ---- reading ---- */

/* The listing begins with what was read, and a table stands where it is said. */
static bool as_listed(uint64_t a, uint64_t at, const uint8_t *dump, size_t n)
{
    char head[HEAD_ROOM];
    struct found f;

    plain_find(dump, n, &f);
    if (ruxtajma_default(a) != 0) {
        snprintf(head, sizeof head, "default %u imcr %u\n", ruxtajma_default(a),
                 ruxtajma_imcr(a));
        return a >> 32 == 0 && at == 0 && memcmp(text, head, strlen(head)) == 0;
    }
    if (dump + ruxtajma_start(a) != f.table || ruxtajma_length(a) != f.left)
        return false;
    snprintf(head, sizeof head, "pointer %08X imcr %u\ntable %08X %u %u %u\n",
             ruxtajma_pointer_address(at), ruxtajma_imcr(a),
             ruxtajma_table_address(at), (unsigned)base_of(f.table),
             (unsigned)ext_of(f.table), (unsigned)get_le(f.table + 34, 2));
    return memcmp(text, head, strlen(head)) == 0;
}

static void read_dump(const struct dump_case *d)
{
    struct request q = { .slice = { lent(d->c.bytes, d->c.size) } };
    const struct outcome *o = put(&reading, &q, knowing((int)refusal, -1));
    uint64_t a = o->a.value[0], at = o->a.value[1];

    if (refusal != 0) {
        must(at == 0, "addresses at a refusal");
        return;
    }
    must(as_listed(a, at, d->c.bytes, d->c.size), "read otherwise than listed");
    listed += ruxtajma_default(a) == 0;
    standard += ruxtajma_default(a) != 0;
    if (ruxtajma_default(a) == 0)
        note_table(d->c.bytes + ruxtajma_start(a), ruxtajma_length(a), true);
}

/* ---- a dump ---- */

/* Drawn apart, so that a seed gives the dumps that it gave before. */
static struct rng processors;

void list_dump(struct rng *r, const struct dump_case *d)
{
    start_listing(d);
    test_listing(d);
    tally(&t, refusal);
    read_dump(d);
    if (refusal == 0)
        list_into_rooms(r, d);
    else   /* the room decides nothing */
        list_into(d, rng_below(r, rng_chance(r, 90) ? 100 : LONGEST), (int)refusal);
    in_full++;
    no_processor += list_in_full(&processors, d) == 30;
}

void list_in_every_room(const struct dump_case *d)
{
    start_listing(d);
    for (size_t size = 0; size <= length + 2; size++)
        list_into(d, size, size < length ? 19 : 0);
    list_into(d, SLICE_MAX, 0);
}

void dumps(struct rng *r, number count, const char *seed)
{
    static struct dump_case d;

    processors.state = ~r->state;
    fixed_dumps(r);
    number fixed = t.cases;
    size_t fixed_longest = longest;
    size_t kinds = 0;
    for (const struct fault *f; (f = fault_at(dump_faults, kinds)); kinds++)
        for (int i = 0; i < each(); i++) {
            dump_fault_case(r, f, &d);
            list_dump(r, &d);
        }
    number single = t.cases - fixed;

    listed = standard = rooms = too_small = longest = in_full = no_processor = 0;
    for (t = (struct tally){ 0 }; t.cases < count; ) {
        gen_dump(r, &d);
        list_dump(r, &d);
    }
    printf("dumps: %llu fixed, %llu single faults (%zu kinds), %llu generated, "
           "seed %s: no difference\n", fixed, single, kinds, count, seed);
    printf("  0: %llu, and %llu defaults\n", listed, standard);
    require("listings", listed, count / 3);
    require("defaults", standard, count / 1000);
    report_range(t.answered, 1, 18, count);
    report(19, too_small, count);
    printf("rooms: %llu; 19 counts rooms, the others dumps, each also read; longest "
           "listing %zu (fixed: %zu)\n", rooms, longest, fixed_longest);
    printf("in full: %llu; 30: %llu\n", in_full, no_processor);
    require("dumps in full refused with 30", no_processor, count / 1000);
}
