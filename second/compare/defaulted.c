/* Default configurations: their tables, made in rooms; and dumps, listed in full. */
#include "compare.h"

#include "arena.h"
#include "driver.h"
#include "plain.h"

#include <stdio.h>
#include <string.h>

enum { LONGEST = 38213 };

static const struct rule making = {
    .kind = 'U', .refusals = REFUSALS(19, 19) | REFUSALS(30, 30), .unit = 1,
};
static const struct rule listing = {
    .kind = 'F', .refusals = REFUSALS(1, 19) | REFUSALS(30, 30), .unit = 1,
};

/* All calls, each with its room. */
static struct tally made, listed;
static number made_of[DEFAULTS], runs;

/* ---- tables ---- */

static struct test_case table = { .label = "a default's table" };

const struct test_case *made_table(void)
{
    return &table;
}

unsigned make_default(uint64_t configuration, uint64_t boot, size_t size)
{
    uint8_t image[DEFAULT_IMAGE], n = (uint8_t)configuration;
    int number = expect_default(n, (uint8_t)boot);
    size_t length = number != 0 ? 0 : default_image(n, (uint8_t)boot, image);
    struct request q = {
        .number = { configuration, boot }, .slice = { [ROOM] = room_of(size) },
    };

    begin_case(table.label);
    if (length > size)
        number = 19;
    const struct outcome *o = put(&making, &q, knowing(number, (int64_t)length));
    must(memcmp(o->after[ROOM], image, o->count) == 0,
         "another table than Intel's pages give");
    tally(&made, o->refusal);
    if (o->refusal == 0) {
        made_of[n - 1]++;
        table.size = o->count;
        memcpy(table.bytes, o->after[ROOM], o->count);
    }
    return o->refusal;
}

/* ---- listings ---- */

/* What a full listing must be. */
struct full {
    unsigned refusal;
    size_t length;
    const void *text;
};

/* That of the one-line answer; where this is of a default, all lines of its table. */
static struct full expect_full(const struct dump_case *d, uint8_t boot)
{
    static uint8_t line[LONGEST];
    static char text[DEFAULT_TEXT];
    uint64_t answer = plain_list(d->c.bytes, d->c.size, line, LONGEST);
    struct full e = { answer & 255, (size_t)(answer >> 16), line };
    struct found f;

    if (d->c.expected >= 0 && e.refusal != (unsigned)d->c.expected)
        fail("another listing than expected", NULL, NULL, d->c.expected);
    if (e.refusal != 0)
        return e;
    plain_find(d->c.bytes, d->c.size, &f);
    if (memcmp(line, d->head, strlen(d->head)) != 0
        || (d->pointer >= 0 && f.pointer != d->pointer))
        fail("another beginning than expected", NULL, NULL, d->c.expected);
    if (f.standard == 0)
        return e;
    e.text = text;
    e.refusal = (unsigned)expect_default(f.standard, boot);
    e.length = e.refusal != 0 ? 0 : default_listing(f.standard, boot, f.pointer,
                                                    f.imcr, text);
    return e;
}

static unsigned put_listing(const struct dump_case *d, uint64_t boot, size_t size,
                            const struct full *e)
{
    struct request q = {
        .number = { boot },
        .slice = { [0] = lent(d->c.bytes, d->c.size), [ROOM] = room_of(size) },
    };
    unsigned number = e->refusal != 0 ? e->refusal : e->length > size ? 19 : 0;
    const struct outcome *o = put(&listing, &q,
                                  knowing((int)number, (int64_t)e->length));

    must(memcmp(o->after[ROOM], e->text, o->count) == 0,
         "another text than expected");
    tally(&listed, o->refusal);
    return o->refusal;
}

unsigned list_full_into(const struct dump_case *d, uint64_t boot, size_t size)
{
    begin_case(d->c.label);
    struct full e = expect_full(d, (uint8_t)boot);
    return put_listing(d, boot, size, &e);
}

/* Just enough, a byte too few, none, too few or more; at a refusal any. */
static size_t draw_room(struct rng *r, const struct full *e)
{
    uint32_t length = e->length > 0 ? (uint32_t)e->length
                                    : 1 + rng_below(r, DEFAULT_TEXT);
    uint32_t roll = rng_below(r, 100);

    if (roll < 55)
        return length - (roll < 25);
    if (roll < 65)
        return 0;
    return roll < 75 ? rng_below(r, length) : length + rng_below(r, 300);
}

unsigned list_in_full(struct rng *r, const struct dump_case *d)
{
    uint64_t boot = gen_boot(r);

    begin_case(d->c.label);
    struct full e = expect_full(d, (uint8_t)boot);
    return put_listing(d, boot, draw_room(r, &e), &e);
}

/* ---- all of them ---- */

static void make_any(struct rng *r)
{
    uint64_t configuration = gen_configuration(r);
    uint64_t boot = gen_boot(r);

    if (make_default(configuration, boot, DEFAULT_IMAGE + rng_below(r, 300)) != 0) {
        make_default(configuration, boot, rng_chance(r, 40) ? 0 : rng_below(r, 400));
        return;
    }
    uint32_t length = (uint32_t)table.size;
    make_default(configuration, boot, length);
    make_default(configuration, boot, length - 1);
    make_default(configuration, boot, rng_chance(r, 20) ? 0 : rng_below(r, length));
    if (rng_chance(r, 8)) {
        runs++;
        edit_accepted(r, &table);
    }
}

static void list_any(struct rng *r)
{
    static struct dump_case d;

    gen_default_dump(r, &d);
    for (int n = 0; n < 3; n++)
        list_in_full(r, &d);
}

static void report_defaults(number count)
{
    printf("tables, %llu calls:\n  0: %llu, of each configuration", made.cases,
           made.answered[0]);
    for (int k = 0; k < DEFAULTS; k++) {
        printf("%s %llu", k > 0 ? "," : "", made_of[k]);
        require("tables of a configuration", made_of[k], count / 100);
    }
    printf("; edited: %llu\n", runs);
    require("edited tables of defaults", runs, count / 1000);
    report(19, made.answered[19], count);
    report(30, made.answered[30], count);

    printf("full listings, %llu calls:\n  0: %llu\n", listed.cases,
           listed.answered[0]);
    require("full listings of defaults", listed.answered[0], count / 10);
    report_range(listed.answered, 1, 4, count);
    report(19, listed.answered[19], count);
    report(30, listed.answered[30], count);
}

/* The sort of dumps has made listings too. */
static void start_counting(void)
{
    made = listed = (struct tally){ 0 };
    memset(made_of, 0, sizeof made_of);
    runs = 0;
}

void defaults(struct rng *r, number count, const char *seed)
{
    start_counting();
    fixed_defaults(r);
    number fixed = made.cases + listed.cases;
    start_counting();
    for (number n = 0; n < count; n++) {
        if (rng_chance(r, 50))
            make_any(r);
        else
            list_any(r);
    }
    printf("defaults: %llu fixed, %llu generated, seed %s: no difference\n", fixed,
           count, seed);
    report_defaults(count);
}
