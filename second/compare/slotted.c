/* Tables, asked where the interrupts of PCI slots go, and which slots they name. */
#include "compare.h"

#include "driver.h"

#include <stdio.h>
#include <string.h>

static const struct rule routing = {
    .kind = 'R', .refusals = REFUSALS(5, 19) | REFUSALS(24, 25), .unit = 2
};
static const struct rule listing = {
    .kind = 'S', .refusals = REFUSALS(5, 19), .unit = 3
};

static struct tally routed, listed;
static number slotted_tables, route_rooms, list_rooms;
static number routes_too_long, lists_too_long;   /* 19 */
static number pairs[5];    /* 0, 1, up to 10, to 255, more */
static number named[5];    /* 0, 1, up to 10, to 127, more */

static const struct test_case *table;

struct asked *slot_table(const struct test_case *c)
{
    table = c;
    return ask_table(c);
}

/* ---- where a slot goes ---- */

static int route_into(const struct slot_query *q, size_t size, int number)
{
    struct request request = {
        .number = { q->bus, q->device, q->pin },
        .slice = { [0] = lent(table->bytes, table->size), [ROOM] = room_of(size) },
    };
    const struct outcome *o = put(&routing, &request,
                                  knowing(number, (int64_t)q->count));

    must(memcmp(o->after[ROOM], q->pairs, 2 * o->count) == 0,
         "other pairs than expected");
    route_rooms++;
    routes_too_long += o->refusal == 19;
    return (int)o->refusal;
}

/* Rooms that the answer just fills, or does not fit in: 19. */
static void other_route_rooms(struct rng *r, const struct slot_query *q)
{
    uint32_t length = 2 * (uint32_t)q->count;

    if (length > 0)
        route_into(q, length - 1, 19);
    if (length > 0 && rng_chance(r, 50))
        route_into(q, rng_chance(r, 50) ? 0 : rng_below(r, length), 19);
    route_into(q, length, 0);
}

void ask_slot(struct rng *r, const struct slot_query *q)
{
    size_t n = q->count;
    int number = route_into(q, 2 * n + rng_below(r, 100), q->expected);

    must(number != 19, "19 in a room that is large enough");
    tally(&routed, (unsigned)number);
    if (number == 0) {
        pairs[n < 2 ? n : n <= 10 ? 2 : n <= 255 ? 3 : 4]++;
        other_route_rooms(r, q);
    } else if (rng_chance(r, 30)) {   /* the room decides nothing */
        route_into(q, rng_chance(r, 50) ? 0 : rng_below(r, 300), number);
    }
}

void slot_in_every_room(const struct slot_query *q, size_t most)
{
    for (size_t size = 0; size <= most; size++)
        route_into(q, size, size < 2 * q->count ? 19 : 0);
}

/* ---- which slots there are ---- */

static int list_into(const struct slot_list *l, size_t size, int number)
{
    struct request request = {
        .slice = { [0] = lent(table->bytes, table->size), [ROOM] = room_of(size) },
    };
    const struct outcome *o = put(&listing, &request,
                                  knowing(number, (int64_t)l->count));

    must(memcmp(o->after[ROOM], l->slots, 3 * o->count) == 0,
         "other slots than expected");
    list_rooms++;
    lists_too_long += o->refusal == 19;
    return (int)o->refusal;
}

/* Also one that each of all the entries' slots would fit in, and one less. */
static void other_list_rooms(struct rng *r, const struct slot_list *l)
{
    uint32_t length = 3 * (uint32_t)l->count;

    if (length > 0)
        list_into(l, length - 1, 19);
    if (length > 0 && rng_chance(r, 50))
        list_into(l, rng_chance(r, 30) ? 0 : rng_below(r, length), 19);
    list_into(l, length, 0);
    if (rng_chance(r, 20))
        list_into(l, 3 * SLOTS_MAX, 0);
}

void ask_slots(struct rng *r, const struct slot_list *l)
{
    size_t n = l->count;
    uint32_t more = rng_chance(r, 50) ? 6 : 2000;
    int number = list_into(l, 3 * n + rng_below(r, more), l->expected);

    must(number != 19, "19 in a room that is large enough");
    tally(&listed, (unsigned)number);
    if (number == 0) {
        named[n < 2 ? n : n <= 10 ? 2 : n < 128 ? 3 : 4]++;
        other_list_rooms(r, l);
    } else if (rng_chance(r, 30)) {
        list_into(l, rng_chance(r, 50) ? 0 : rng_below(r, 300), number);
    }
}

void slots_in_every_room(const struct slot_list *l, size_t least, size_t most)
{
    for (size_t size = least; size <= most; size++)
        list_into(l, size, size < 3 * l->count ? 19 : 0);
}

/* ---- all of them ---- */

/* "Existing routes still compare the whole byte": with bit 7, and without. */
static void ask_whole_bytes(struct rng *r, struct asked *a,
                            const struct slot_query *slot)
{
    static struct route_query q;

    for (unsigned bit_7 = 0; bit_7 < 256; bit_7 += 128) {
        q.local = false, q.type = 0, q.bus = slot->bus;
        q.irq = (uint8_t)(bit_7 | slot->device << 2 | slot->pin);
        expect_routes(a, &q);
        ask_routes(r, &q);
    }
}

/* Each slot that the listing has can be asked about. */
static void ask_each(struct asked *a, const struct slot_list *l)
{
    static struct slot_query q;

    for (size_t i = 0; i < l->count; i++) {
        const uint8_t *slot = l->slots + 3 * i;

        q.bus = slot[0], q.device = slot[1], q.pin = slot[2];
        expect_slot_routes(a, &q);
        must(q.expected == 0, "a slot in the listing that cannot be asked about");
        route_into(&q, 2 * q.count, 0);
    }
}

enum { FEW = 20 };   /* slots, of which each is asked about */

static void ask_all(struct rng *r, const struct test_case *c)
{
    static struct slot_list slot_list;
    static struct slot_query slot;
    struct asked *a = slot_table(c);

    slotted_tables++;
    expect_slots(a, &slot_list);
    ask_slots(r, &slot_list);
    if (slot_list.count <= FEW && rng_chance(r, thorough ? 30 : 5))
        ask_each(a, &slot_list);
    gen_slot_query(r, a, &slot);
    ask_slot(r, &slot);
    if (slot.expected == 0 && rng_chance(r, 10))
        ask_whole_bytes(r, a, &slot);
}

static void report_slots(number count)
{
    static const char *const some_pairs[5] = { "0", "1", "2-10", "11-255", "more" };
    static const char *const some_slots[5] = { "0", "1", "2-10", "11-127", "more" };

    printf("routes of slots, %llu questions:\n  0: %llu\n", routed.cases,
           routed.answered[0]);
    require("routes of slots", routed.answered[0], count / 3);
    report_range(routed.answered, 5, 18, count);
    report_range(routed.answered, 24, 25, count);
    report(19, routes_too_long, count);
    printf("rooms: %llu; 19 counts rooms, the others questions\n", route_rooms);
    report_classes("pairs", some_pairs, pairs, count);

    printf("listings of slots, %llu:\n  0: %llu\n", listed.cases,
           listed.answered[0]);
    require("listings of slots", listed.answered[0], count / 3);
    report_range(listed.answered, 5, 18, count);
    report(19, lists_too_long, count);
    printf("rooms: %llu; 19 counts rooms, the others listings\n", list_rooms);
    report_classes("slots", some_slots, named, count);
}

void slots(struct rng *r, number count, const char *seed)
{
    static struct test_case c;

    fixed_slots(r);
    number fixed = routed.cases + listed.cases;
    routed = listed = (struct tally){ 0 };
    route_rooms = list_rooms = routes_too_long = lists_too_long = 0;
    memset(pairs, 0, sizeof pairs);
    memset(named, 0, sizeof named);
    while (slotted_tables < count) {
        gen_slotted(r, &c);
        ask_all(r, &c);
    }
    printf("slots: %llu fixed, %llu generated about %llu tables, seed %s: no "
           "difference\n", fixed, routed.cases + listed.cases, slotted_tables, seed);
    report_slots(count);
}
