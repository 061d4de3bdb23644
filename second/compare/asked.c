/* Tables, asked for routes and addresses. */
#include "compare.h"

#include "arena.h"
#include "driver.h"
#include "plain.h"
#include "ruxtajma.h"

#include <stdio.h>
#include <string.h>

enum { ASKED = REFUSALS(5, 18) | REFUSALS(24, 24) };

static const struct rule routing[2] = {   /* to I/O APICs, to local ones */
    { .kind = 'I', .refusals = ASKED | REFUSALS(19, 19), .unit = 2 },
    { .kind = 'C', .refusals = ASKED | REFUSALS(19, 19), .unit = 2 },
};
static const struct rule addressing = { .kind = 'A', .refusals = ASKED };

static struct tally routed, addressed;
static number asked_tables, rooms, too_small;
static number pairs[5];    /* 0, 1, up to 10, to 255, more */
static number values[3];   /* no, yes, undeclared */
static number links[5];    /* 0, 1, up to 10, to 254, 255 */

/*
 * A parent's yes: kept, where no parent on the way has other children and where one
 * has; made no or undeclared at the first link from the asked bus on, at one
 * between, and at the last of several.
 */
static number kept[5];
static number amended[3];  /* to no, -, to undeclared */

static const struct test_case *table;
static struct asked asked;

struct asked *ask_table(const struct test_case *c)
{
    bool accepted = plain_judge(c->bytes, c->size) == 0;

    table = c;
    begin_case(c->label);
    note_table(c->bytes, c->size, accepted);
    start_queries(&asked, c, accepted);
    return &asked;
}

/* ---- routes ---- */

/* Answers the number; where it is none, all is as worked out beforehand. */
static int route_into(const struct route_query *q, size_t size, int number)
{
    struct request request = {
        .number = { q->type, q->bus, q->irq },
        .slice = { [0] = lent(table->bytes, table->size), [ROOM] = room_of(size) },
    };
    const struct outcome *o = put(&routing[q->local], &request,
                                  knowing(number, (int64_t)q->count));

    must(memcmp(o->after[ROOM], q->pairs, 2 * o->count) == 0,
         "other pairs than expected");
    rooms++;
    too_small += o->refusal == 19;
    return (int)o->refusal;
}

/* Rooms that the pairs just fill, or do not fit in: 19. */
static void other_rooms(struct rng *r, const struct route_query *q)
{
    uint32_t length = 2 * (uint32_t)q->count;

    if (length > 0)
        route_into(q, length - 1, 19);
    if (length > 0 && rng_chance(r, 50))
        route_into(q, rng_chance(r, 50) ? 0 : rng_below(r, length), 19);
    route_into(q, length, 0);
}

void ask_routes(struct rng *r, const struct route_query *q)
{
    size_t n = q->count;
    int number = route_into(q, 2 * n + rng_below(r, 100), q->expected);

    must(number != 19, "19 in a room that is large enough");
    tally(&routed, (unsigned)number);
    if (number == 0) {
        pairs[n < 2 ? n : n <= 10 ? 2 : n <= 255 ? 3 : 4]++;
        other_rooms(r, q);
    } else if (rng_chance(r, 30)) {   /* the room decides nothing */
        route_into(q, rng_chance(r, 50) ? 0 : rng_below(r, 300), number);
    }
}

void route_in_every_room(const struct route_query *q, size_t most)
{
    for (size_t size = 0; size <= most; size++)
        route_into(q, size, size < 2 * q->count ? 19 : 0);
}

/* ---- addresses ---- */

/* One of three, and "at most the listed buses less one". */
static void test_seen(const struct address_query *q, uint64_t answer)
{
    static const unsigned named[3] = {
        [NO] = RUXTAJMA_NO, [YES] = RUXTAJMA_YES,
        [UNDECLARED] = RUXTAJMA_UNDECLARED,
    };
    unsigned n = ruxtajma_links(answer);

    must(q->expected == 0 && ruxtajma_seen(answer) == named[q->seen]
         && n == q->links && n < asked.buses.n, "another answer than expected");
    values[q->seen]++;
    links[n < 2 ? n : n <= 10 ? 2 : n < 255 ? 3 : 4]++;
    if (q->amended > 0) {
        kept[q->amended == 1 ? 2 : q->amended < n ? 3 : 4]++;
        amended[q->seen]++;
    } else if (q->seen == YES && n > 0) {
        kept[q->shared]++;
    }
}

void ask_address(const struct address_query *q)
{
    struct request request = {
        .number = { q->bus, q->kind, q->address },
        .slice = { lent(table->bytes, table->size) },
    };
    const struct outcome *o = put(&addressing, &request, knowing(q->expected, -1));

    tally(&addressed, o->refusal);
    if (o->refusal == 0)
        test_seen(q, o->a.value[0]);
}

/* What a table was built around: the same must be worked out from its entries. */
static void ask_built(struct rng *r, const struct address_query *built)
{
    struct address_query q = *built;

    expect_address(&asked, &q);
    if (q.expected != built->expected || q.seen != built->seen
        || q.links != built->links)
        fail_case("another answer is worked out than the table was built for");
    ask_address(&q);
    ask_another(r, &asked, &q);
    ask_address(&q);
}

/* ---- all of them ---- */

static void ask_all(struct rng *r)
{
    static struct test_case c;
    static struct route_query route;
    struct address_query address;
    bool built = gen_asked(r, &c, &address);

    ask_table(&c);
    asked_tables++;
    if (built)
        ask_built(r, &address);
    gen_route_query(r, &asked, &route);
    ask_routes(r, &route);
    for (int n = asked.refusal == 0 ? 2 : 1; n > 0; n--) {
        gen_address_query(r, &asked, &address);
        ask_address(&address);
    }
}

static void report_asked(const struct tally *t, number count)
{
    report_range(t->answered, 5, 18, count);
    report(24, t->answered[24], count);
}

static void report_queries(number count)
{
    static const char *const some_pairs[5] = { "0", "1", "2-10", "11-255", "more" };
    static const char *const some_links[5] = { "0", "1", "2-10", "11-254", "255" };
    static const char *const whose[5] = {
        "kept alone", "kept beside others", "amended at the first link", "between",
        "at the last",
    };

    printf("routes, %llu questions:\n  0: %llu\n", routed.cases,
           routed.answered[0]);
    require("routes", routed.answered[0], count / 3);
    report_asked(&routed, count);
    report(19, too_small, count);
    printf("rooms: %llu; 19 counts rooms, the others questions\n", rooms);
    report_classes("pairs", some_pairs, pairs, count);

    printf("addresses, %llu questions:\n  0: %llu no, %llu yes, %llu undeclared\n",
           addressed.cases, values[NO], values[YES], values[UNDECLARED]);
    for (int k = 0; k < 3; k++)
        require("no, yes or undeclared", values[k], count / 10);
    report_asked(&addressed, count);
    report_classes("links", some_links, links, count);
    report_classes("a parent's yes", whose, kept, count);
    printf("amended: %llu to no, %llu to undeclared\n", amended[NO],
           amended[UNDECLARED]);
    for (int k = 0; k < 3; k += 2)
        require("a parent's yes amended", amended[k], count / 20);
}

void queries(struct rng *r, number count, const char *seed)
{
    fixed_queries(r);
    number fixed = routed.cases + addressed.cases;
    routed = addressed = (struct tally){ 0 };
    rooms = too_small = 0;
    memset(pairs, 0, sizeof pairs);
    memset(values, 0, sizeof values);
    memset(links, 0, sizeof links);
    memset(kept, 0, sizeof kept);
    memset(amended, 0, sizeof amended);
    while (asked_tables < count)
        ask_all(r);
    printf("queries: %llu fixed, %llu generated about %llu tables, seed %s: no "
           "difference\n", fixed, routed.cases + addressed.cases, asked_tables,
           seed);
    report_queries(count);
}
