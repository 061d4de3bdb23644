/* Tables, asked for new numbers of their I/O APICs. */
#include "compare.h"

#include "driver.h"
#include "ruxtajma.h"

#include <stdio.h>
#include <string.h>

static const struct rule renumbering = {
    .kind = 'N', .refusals = REFUSALS(5, 19) | REFUSALS(26, 26), .unit = 1,
    .count = ruxtajma_numbered,
};

static struct tally numbered;
static number numbered_tables, rooms, too_small;   /* 19 */
static number written[5];     /* 0, 1, up to 10, to 100, more */
static number given[5];       /* new ones: the same */
static number all_used;       /* 255 numbers at the end */

static const struct test_case *table;

struct asked *number_table(const struct test_case *c)
{
    table = c;
    return ask_table(c);
}

static int number_into(const struct numbering *n, size_t size, int number)
{
    struct request request = {
        .slice = { [0] = lent(table->bytes, table->size), [ROOM] = room_of(size) },
    };
    const struct outcome *o = put(&renumbering, &request,
                                  knowing(number, (int64_t)n->count));

    if (o->refusal == 0)
        must(ruxtajma_used(o->a.value[0]) == n->used
             && memcmp(o->after[ROOM], n->numbers, n->count) == 0,
             "other numbers than expected");
    rooms++;
    too_small += o->refusal == 19;
    return (int)o->refusal;
}

/* Rooms that the numbers just fill, and do not fit in: 19, also before 26. */
static void other_rooms(struct rng *r, const struct numbering *n)
{
    uint32_t length = (uint32_t)n->count;

    if (length > 0)
        number_into(n, length - 1, 19);
    if (length > 0 && rng_chance(r, 50))
        number_into(n, rng_chance(r, 30) ? 0 : rng_below(r, length), 19);
    number_into(n, length, n->expected);
    if (rng_chance(r, 20))
        number_into(n, NUMBERED_MAX, n->expected);
    if (rng_chance(r, 5))
        number_into(n, 65536, n->expected);
}

static int class_of(size_t n)
{
    return n < 2 ? (int)n : n <= 10 ? 2 : n <= 100 ? 3 : 4;
}

void renumber(struct rng *r, const struct numbering *n)
{
    uint32_t more = rng_chance(r, 50) ? 3 : 300;
    int number = number_into(n, n->count + rng_below(r, more), n->expected);

    must(number != 19, "19 in a room that is large enough");
    tally(&numbered, (unsigned)number);
    if (number == 0) {
        written[class_of(n->count)]++;
        given[class_of(n->given)]++;
        all_used += n->used == 255;
    }
    if (number == 0 || number == 26)
        other_rooms(r, n);
    else if (rng_chance(r, 30))   /* the room decides nothing */
        number_into(n, rng_chance(r, 50) ? 0 : rng_below(r, 300), number);
}

void renumber_in_every_room(const struct numbering *n, size_t most)
{
    for (size_t size = 0; size <= most; size++)
        number_into(n, size, size < n->count ? 19 : n->expected);
}

/* "Routes keep naming the table's numbers" */
static void ask_route(struct rng *r, struct asked *a)
{
    static struct route_query q;

    gen_route_query(r, a, &q);
    ask_routes(r, &q);
}

static void number_all(struct rng *r, const struct test_case *c)
{
    static struct numbering n;
    struct asked *a = number_table(c);

    numbered_tables++;
    expect_numbers(a, &n);
    renumber(r, &n);
    if (n.expected == 0 && n.given > 0 && rng_chance(r, 20))
        ask_route(r, a);
}

static void report_numbers(number count)
{
    static const char *const some[5] = { "0", "1", "2-10", "11-100", "more" };

    printf("  0: %llu\n", numbered.answered[0]);
    require("numberings", numbered.answered[0], count / 3);
    report_range(numbered.answered, 5, 18, count);
    report(26, numbered.answered[26], count);
    report(19, too_small, count);
    printf("rooms: %llu; 19 counts rooms, the others tables\n", rooms);
    report_classes("numbers", some, written, count);
    report_classes("new ones", some, given, count);
    printf("no number left: %llu\n", all_used);
    require("no number left", all_used, count / 1000);
}

void numbers(struct rng *r, number count, const char *seed)
{
    static struct test_case c;

    fixed_numbers(r);
    number fixed = numbered.cases;
    numbered = (struct tally){ 0 };
    rooms = too_small = all_used = 0;
    memset(written, 0, sizeof written);
    memset(given, 0, sizeof given);
    while (numbered_tables < count) {
        gen_numbered(r, &c);
        number_all(r, &c);
    }
    printf("numbers: %llu fixed, %llu generated, seed %s: no difference\n", fixed,
           numbered_tables, seed);
    report_numbers(count);
}
