/*
 * Books of earlier tables, asked; and runs of saves and restores on one.  Each goes
 * on with what the one before it left; after an accepted one the whole room must be
 * the book of the list as changed, laid out afresh, with the bytes behind it as they
 * were.
 */
#include "compare.h"

#include "arena.h"
#include "driver.h"
#include "ruxtajma.h"

#include <stdio.h>
#include <string.h>

static size_t edition_in(uint64_t answer)
{
    return ruxtajma_edition(answer);
}

enum asking { TELL, DATE, FIND, RECITE, SAVE, RESTORE, ASKINGS };

static const struct rule rules[ASKINGS] = {
    [TELL] = { .kind = 'B', .refusals = REFUSALS(27, 27), .count = ruxtajma_rows },
    [DATE] = { .kind = 'M', .refusals = REFUSALS(27, 27), .count = edition_in },
    [FIND] = { .kind = 'G', .refusals = REFUSALS(27, 28),
               .count = ruxtajma_body_size },
    [RECITE] = { .kind = 'H', .refusals = REFUSALS(19, 19) | REFUSALS(27, 27),
                 .unit = TOLD_ROW },
    [SAVE] = { .kind = 'K', .refusals = REFUSALS(5, 18) | REFUSALS(27, 29),
               .count = ruxtajma_rows, .edits = true },
    [RESTORE] = { .kind = 'O', .refusals = REFUSALS(27, 29),
                  .count = ruxtajma_rows, .edits = true },
};

static struct tally asked[ASKINGS];
static number books_opened, rows[5];   /* 0, 1, up to 10, to 100, more */
static number filled;                  /* changes after which a book has 32,768 */

static struct book_case *now;

static int class_of(size_t n)
{
    return n < 2 ? (int)n : n <= 10 ? 2 : n <= 100 ? 3 : 4;
}

void open_book(struct book_case *c)
{
    now = c;
    begin_case(c->label);
    books_opened++;
    if (c->expected == 0)
        rows[class_of(c->k.rows)]++;
}

/* One request about the book; what is answered of a good one is known. */
static const struct outcome *ask(enum asking what, struct request q, int number,
                                 size_t count)
{
    q.slice[0] = lent(now->bytes, now->size);
    if (now->expected != 0)
        number = now->expected;

    const struct outcome *o = put(&rules[what], &q, knowing(number, number == 0
                                                            ? (int64_t)count : -1));
    tally(&asked[what], o->refusal);
    return o;
}

/* Two bytes of a number are taken. */
static uint64_t wide(struct rng *r, uint16_t number)
{
    return rng_chance(r, 10) ? number | rng_next(r) << 16 : number;
}

/* ---- questions ---- */

void ask_rows(void)
{
    const struct outcome *o = ask(TELL, (struct request){ 0 }, 0, now->k.rows);

    if (now->expected == 0)
        must(ruxtajma_book_size(o->a.value[0]) == book_size(&now->k),
             "another size than expected");
}

void ask_latest(struct rng *r, uint16_t machine)
{
    struct request q = { .number = { wide(r, machine) } };

    ask(DATE, q, 0, latest_edition(&now->k, machine));
}

void ask_body(struct rng *r, uint16_t machine, uint16_t edition)
{
    const struct kept *e = row_of(&now->k, machine, edition);
    struct request q = { 0 };

    q.number[0] = wide(r, machine);
    q.number[1] = wide(r, edition);
    const struct outcome *o = ask(FIND, q, e == NULL ? 28 : 0,
                                  e == NULL ? 0 : e->length);
    if (now->expected == 0 && o->refusal == 0)
        must(ruxtajma_body_start(o->a.value[0]) == body_start(&now->k, e)
             && memcmp(now->bytes + ruxtajma_body_start(o->a.value[0]),
                       now->k.bodies + e->at, e->length) == 0,
             "another body than expected");
}

static void recite(size_t size, int number)
{
    static uint8_t told[TOLD_ROW * KEPT_MAX];
    struct request q = { .slice = { [ROOM] = room_of(size) } };
    const struct outcome *o = ask(RECITE, q, number, now->k.rows);

    if (now->expected == 0 && o->refusal == 0)
        must(memcmp(o->after[ROOM], told, tell_rows(&now->k, told)) == 0,
             "another history than expected");
}

/* Rooms that the rows just fill, and do not fit in. */
void ask_history(struct rng *r)
{
    uint32_t length = (uint32_t)(TOLD_ROW * now->k.rows);
    uint32_t more = rng_chance(r, 70) ? 30 : 2000;

    recite(length, 0);
    recite(length + rng_below(r, more), 0);
    if (length > 0)
        recite(length - 1, 19);
    if (length > 0 && rng_chance(r, 50))
        recite(rng_chance(r, 40) ? 0 : rng_below(r, length), 19);
}

void history_in_every_room(size_t most)
{
    for (size_t size = 0; size <= most; size++)
        recite(size, size < TOLD_ROW * now->k.rows ? 19 : 0);
}

/* ---- saves and restores ---- */

/* What an accepted one leaves, if its book was known. */
static void test_fresh(const struct outcome *o, const struct change *c)
{
    static uint8_t fresh[BOOK_ROOM];

    must(c->restores || c->body.size <= 2 * PART_LIMIT, "more than a table saved");
    keep_change(&now->k, c);
    must(ruxtajma_book_size(o->a.value[0]) == book_size(&now->k),
         "another size than expected");
    memcpy(fresh, now->bytes, now->size);
    lay_book(&now->k, fresh);
    must(memcmp(o->after[0], fresh, now->size) == 0, "not the book laid out afresh");
    filled += book_size(&now->k) == BOOK_LIMIT;
}

void change_book(struct rng *r, const struct change *c)
{
    struct request q = { 0 };

    begin_case(c->label);
    q.number[0] = wide(r, c->machine);
    q.number[1] = wide(r, c->restores ? c->edition : c->latest);
    if (c->restores)
        q.number[2] = wide(r, c->latest);
    else
        q.slice[1] = lent(c->body.bytes, c->body.size);

    const struct outcome *o = ask(c->restores ? RESTORE : SAVE, q, c->expected,
                                  now->k.rows + 1);
    if (o->refusal != 0)
        return;
    if (now->expected == 0)
        test_fresh(o, c);
    memcpy(now->bytes, o->after[0], now->size);
}

/* ---- all of them ---- */

static void ask_one(struct rng *r)
{
    uint16_t machine = any_machine(r, &now->k);

    begin_case(now->label);
    switch (rng_below(r, 5)) {
    case 0: ask_rows(); break;
    case 1: ask_latest(r, machine); break;
    case 2: ask_history(r); break;
    default: ask_body(r, machine, any_edition(r, &now->k, machine));
    }
}

/* Of a bad book nothing is known but its rows, and they may be wrong. */
static void change_bad(struct rng *r)
{
    static const struct book none;
    static struct change c;

    for (int restores = 0; restores < 2; restores++) {
        do
            gen_change(r, &none, BOOK_LIMIT, &c);
        while (c.restores != restores);
        c.machine = any_machine(r, &now->k);
        c.edition = 1;
        c.latest = latest_edition(&now->k, c.machine);
        if (rng_chance(r, 30))
            c.latest = any_edition(r, &now->k, c.machine);
        c.expected = -1;
        change_book(r, &c);
    }
}

void ask_all_of_book(struct rng *r)
{
    uint16_t machine = any_machine(r, &now->k);

    ask_rows();
    ask_latest(r, machine);
    ask_body(r, machine, any_edition(r, &now->k, machine));
    if (now->expected == 0)
        ask_history(r);
    else
        recite(rng_chance(r, 50) ? 0 : TOLD_ROW * KEPT_MAX, -1);
    if (now->expected != 0)
        change_bad(r);
}

static void run_on(struct rng *r)
{
    static struct change c;

    for (uint32_t n = 1 + rng_few(r, 24); n > 0; n--) {
        gen_change(r, &now->k, now->size, &c);
        change_book(r, &c);
        if (rng_chance(r, 40))
            ask_one(r);
    }
}

static void report_kind(enum asking what, const char *name, number count)
{
    const number *answered = asked[what].answered;

    printf("%s: %llu\n  0: %llu\n", name, asked[what].cases, answered[0]);
    require(name, answered[0], count / 20);
    for (int k = 1; k < NUMBERS_END; k++)
        if (rules[what].refusals >> k & 1)
            report(k, answered[k], count);
}

static void report_books(number count)
{
    static const char *const some[5] = { "0", "1", "2-10", "11-100", "more" };

    report_kind(TELL, "rows and bytes", count);
    report_kind(DATE, "latest editions", count);
    report_kind(FIND, "bodies", count);
    report_kind(RECITE, "histories", count);
    report_kind(SAVE, "saves", count);
    report_kind(RESTORE, "restores", count);
    report_classes("rows of good books", some, rows, count);
    printf("books of 32,768 bytes after a change: %llu\n", filled);
    require("books of 32,768 bytes", filled, count / 1000);
}

static number all_cases(void)
{
    number cases = 0;

    for (int k = 0; k < ASKINGS; k++)
        cases += asked[k].cases;
    return cases;
}

void books(struct rng *r, number count, const char *seed)
{
    static struct book_case c;

    fixed_books(r);
    number fixed = all_cases();
    memset(asked, 0, sizeof asked);
    memset(rows, 0, sizeof rows);
    books_opened = filled = 0;
    while (asked[SAVE].cases + asked[RESTORE].cases < count) {
        gen_book(r, &c);
        open_book(&c);
        ask_all_of_book(r);
        if (c.expected == 0)
            run_on(r);
    }
    printf("books: %llu fixed, %llu generated about %llu books, seed %s: no "
           "difference\n", fixed, all_cases(), books_opened, seed);
    report_books(count);
}
