/*
 * One request to both.  Each side is lent copies of the five slices, each touching
 * an unreadable page and with a mark on its other side.
 */
#include "driver.h"

#include "arena.h"
#include "calls.h"
#include "counts.h"
#include "ours.h"
#include "random.h"
#include "ruxtajma.h"

#include <string.h>

enum { PATTERN = SLICE_MAX + 65536 };

static const uint8_t mark[CANARY] = { 0xC5, 0x5C, 0xC5 };
static uint8_t pattern[PATTERN];
static struct rng places;

/* A program that answers: its memory, what it is lent, and its answer. */
static struct side {
    uint8_t *arena[SLICES], *mark[SLICES];
    struct request q;
    struct reply a;
} plain, ours;

static struct outcome out;

void start_driver(uint64_t seed)
{
    places.state = ~seed;
    rng_fill(&places, pattern, PATTERN);
    for (int i = 0; i < SLICES; i++) {
        plain.arena[i] = make_arena();
        ours.arena[i] = make_arena();
    }
    catch_faults();
}

struct slice room_of(size_t size)
{
    return lent(pattern + rng_below(&places, (uint32_t)(PATTERN - size)), size);
}

static void lend(struct side *s, const struct request *q, uint32_t ends)
{
    s->q = *q;
    s->a.count = 0;
    for (int i = 0; i < SLICES; i++) {
        size_t n = q->slice[i].length;
        bool end = ends >> i & 1;
        uint8_t *place = at_edge(s->arena[i], end, n);

        if (n > 0)
            memcpy(place, q->slice[i].bytes, n);
        s->q.slice[i].bytes = place;
        s->mark[i] = end ? place - CANARY : place + n;
        memcpy(s->mark[i], mark, CANARY);
    }
}

static void check_marks(const struct side *s, const char *what)
{
    for (int i = 0; i < SLICES; i++)
        if (memcmp(s->mark[i], mark, CANARY) != 0)
            fail(what, &plain.a, &ours.a, -1);
}

void must(bool holds, const char *what)
{
    if (!holds)
        fail(what, &plain.a, &ours.a, -1);
}

static bool same_bytes(const struct slice *a, const uint8_t *b, size_t from)
{
    return a->length == from
        || memcmp(a->bytes + from, b + from, a->length - from) == 0;
}

static void compare(int expected)
{
    if (plain.a.count != ours.a.count
        || memcmp(plain.a.value, ours.a.value, 8 * plain.a.count) != 0)
        fail("different answers", &plain.a, &ours.a, expected);
    for (int i = 0; i < SLICES; i++)
        if (!same_bytes(&plain.q.slice[i], ours.q.slice[i].bytes, 0))
            fail("different bytes", &plain.a, &ours.a, expected);
    check_marks(&plain, "plain wrote outside its slices");
    check_marks(&ours, "ours wrote outside its slices");
}

/* A refusal's number, with 23 an inner one, and no values; or values alone. */
static bool right_form(const struct rule *rule, uint64_t answer)
{
    if (out.refusal == 0)
        return out.inner == 0;
    return out.refusal < 32 && rule->refusals >> out.refusal & 1
        && (out.refusal == 23 ? out.inner < 32 && rule->inner >> out.inner & 1
                              : out.inner == 0)
        && answer == out.refusal + 256 * out.inner;
}

static void test_known(const struct known *k)
{
    if ((k->refusal >= 0 && out.refusal != (unsigned)k->refusal)
        || (k->inner >= 0 && out.refusal == 23 && out.inner != (unsigned)k->inner)
        || (k->count >= 0 && out.refusal == 0 && out.count != (uint64_t)k->count))
        fail("another answer than expected", &plain.a, &ours.a, k->refusal);
}

static bool all_zero(const uint8_t *p, size_t n)
{
    while (n > 0 && *p == 0)
        p++, n--;
    return n == 0;
}

/* How many bytes of the room may have changed. */
static size_t written(const struct rule *rule, const struct known *k)
{
    size_t n = out.refusal != 0 ? k->zeroed : rule->unit * out.count;

    must(n <= plain.q.slice[ROOM].length, "more written than the room has");
    must(out.refusal == 0 || all_zero(out.after[ROOM], n), "bytes that are not 0");
    return n;
}

static void test_slices(const struct rule *rule, const struct request *q,
                        const struct known *k)
{
    for (int i = 0; i < SLICES; i++)
        if (i != 0 || !rule->edits || out.refusal != 0)
            must(same_bytes(&q->slice[i], out.after[i],
                            i == ROOM ? written(rule, k) : 0),
                 "bytes changed that must stay");
}

static void take_outcome(const struct rule *rule)
{
    uint64_t answer = plain.a.value[0];

    out.a = plain.a;
    out.refusal = ruxtajma_refusal(answer);
    out.inner = ruxtajma_inner(answer);
    out.count = rule->count != NULL ? rule->count(answer) : ruxtajma_count(answer);
    for (int i = 0; i < SLICES; i++)
        out.after[i] = plain.q.slice[i].bytes;
}

const struct outcome *put(const struct rule *rule, const struct request *given,
                          struct known k)
{
    uint32_t ends = rng_below(&places, 1u << SLICES);
    struct request q = *given;

    q.kind = rule->kind;
    keep_request(&q);
    lend(&plain, &q, ends);
    lend(&ours, &q, ends);
    plain_call_of(q.kind)(&plain.q, &plain.a);
    our_call(&ours.q, &ours.a);
    compare(k.refusal);
    take_outcome(rule);
    must(right_form(rule, out.a.value[0]), "no such answer");
    test_known(&k);
    test_slices(rule, &q, &k);
    count_call(out.refusal);
    return &out;
}
