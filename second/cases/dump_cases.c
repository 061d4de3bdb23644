/* Dumps of every kind, and how often which one is generated. */
#include "faults.h"

#include <stdio.h>
#include <string.h>

/* Larger ones would not leave room for the other regions. */
enum { TABLE_ROOM = 20000 };

static struct draft the_draft;
static struct test_case the_table;

/* The lines known beforehand: which pointer and which table decide. */
static void say_head(struct draft *d, char *head)
{
    const uint8_t *p = pointer_of(d);
    const uint8_t *t = d->piece[d->table_home].body + d->table_at;
    unsigned imcr = p[12] >> 7;

    if (d->table_size == 0)
        snprintf(head, HEAD_ROOM, "default %u imcr %u\n", p[11], imcr);
    else
        snprintf(head, HEAD_ROOM, "pointer %08X imcr %u\ntable %08X %u %u %u\n",
                 (unsigned)pointer_address(d), imcr, (unsigned)table_address(d),
                 (unsigned)base_of(t), (unsigned)ext_of(t),
                 (unsigned)get_le(t + 34, 2));
}

void finish_dump(struct draft *d, struct dump_case *out, const char *label,
                 int expected)
{
    out->c.label = label;
    out->c.expected = expected;
    out->c.size = emit(d, out->c.bytes);
    out->head[0] = 0;
    out->pointer = -1;
    if (expected == 0) {
        say_head(d, out->head);
        out->pointer = pointer_address(d);
    }
}

/* ---- single faults ---- */

/*
 * Decoys would answer in the place of a pointer that is no longer good, but a
 * revision or a feature byte at fault ends the search.
 */
static bool bears_decoys(const struct fault *f)
{
    return f->rule == 3 || f->rule == 4;
}

/* In a dump of this table, or of a default; false where there is no place for it. */
static bool put_fault(struct rng *r, const struct fault *f,
                      const struct test_case *table, struct dump_case *out)
{
    sound_draft(r, &the_draft, table, false);
    if (bears_decoys(f) && rng_chance(r, 50))
        add_decoys(r, &the_draft);
    if (f->draft != NULL && !f->draft(r, &the_draft))
        return false;
    finish_dump(&the_draft, out, f->name, f->rule);
    return f->image == NULL || f->image(r, &out->c);
}

void dump_fault_case(struct rng *r, const struct fault *f, struct dump_case *out)
{
    bool none;

    do {
        none = rng_chance(r, 10);
        if (!none)
            sound_case(r, &the_table);
    } while (!put_fault(r, f, none ? NULL : &the_table, out));
}

/* Each rule is as likely as another, then each fault of that rule. */
static const struct fault *random_dump_fault(struct rng *r)
{
    static const uint8_t rules[7] = { 1, 2, 3, 4, 5, 7, 13 };

    return fault_of(r, dump_faults, rules[rng_below(r, 7)]);
}

/* ---- dumps around tables of any kind, and damage ---- */

static void around_any_table(struct rng *r, struct dump_case *out)
{
    do
        gen_case(r, &the_table);
    while (the_table.size == 0 || the_table.size > TABLE_ROOM);
    sound_draft(r, &the_draft, &the_table, true);
    if (rng_chance(r, 40))
        add_decoys(r, &the_draft);
    finish_dump(&the_draft, out, the_table.label, the_table.expected);
}

static void around_fault(struct rng *r, struct dump_case *out)
{
    do
        fault_case(r, random_fault(r), &the_table);
    while (the_table.size == 0 || the_table.size > TABLE_ROOM);
    sound_draft(r, &the_draft, &the_table, true);
    finish_dump(&the_draft, out, the_table.label, the_table.expected);
}

/* Bytes changed, in the contents more often than their share. */
static void damage_dump(struct rng *r, struct dump_case *out)
{
    uint32_t contents = 1 + RECORD * out->c.bytes[0];

    for (uint32_t n = 1 + rng_few(r, 6); n > 0; n--) {
        uint32_t at = rng_below(r, rng_chance(r, 40) ? contents
                                                     : (uint32_t)out->c.size);
        out->c.bytes[at] = rng_chance(r, 50)
                         ? out->c.bytes[at] ^ 1u << rng_below(r, 8) : rng_byte(r);
    }
    if (rng_chance(r, 15))
        out->c.size = rng_below(r, (uint32_t)out->c.size + 1);
}

/* The draft, which was sound. */
static void damage_draft(struct rng *r, struct dump_case *out)
{
    /* Pointer and table, mended, so that what comes after the sums is reached. */
    if (rng_chance(r, 40)) {
        rng_alter(r, pointer_of(&the_draft) + rng_range(r, 4, 12));
        mend_pointer(pointer_of(&the_draft));
        finish_dump(&the_draft, out, "pointer damaged and mended", -1);
        return;
    }
    finish_dump(&the_draft, out, "damaged dump", -1);
    damage_dump(r, out);
}

static void sound_default(struct rng *r)
{
    sound_draft(r, &the_draft, NULL, false);
    if (rng_chance(r, 60))
        add_decoys(r, &the_draft);
}

static void random_dump(struct rng *r, struct dump_case *out)
{
    struct test_case *c = &out->c;

    c->label = "random dump";
    c->expected = -1;
    c->size = rng_below(r, rng_chance(r, 50) ? 100 : 3000);
    rng_fill(r, c->bytes, c->size);
    if (c->size > 0 && rng_chance(r, 80))
        c->bytes[0] = (uint8_t)rng_below(r, 10);
    out->head[0] = 0;
    out->pointer = -1;
}

void gen_dump(struct rng *r, struct dump_case *out)
{
    uint32_t roll = rng_below(r, 100);

    if (roll < 52) {
        sound_dump(r, &the_draft);
        finish_dump(&the_draft, out, "sound dump", 0);
    } else if (roll < 64) {
        around_fault(r, out);
    } else if (roll < 76) {
        dump_fault_case(r, random_dump_fault(r), out);
    } else if (roll < 88) {
        around_any_table(r, out);
    } else if (roll < 97) {
        sound_dump(r, &the_draft);
        damage_draft(r, out);
    } else {
        random_dump(r, out);
    }
}

void gen_default_dump(struct rng *r, struct dump_case *out)
{
    uint32_t roll = rng_below(r, 100);

    if (roll < 60) {
        sound_default(r);
        finish_dump(&the_draft, out, "a default's dump", 0);
    } else if (roll < 88) {
        const struct fault *f;

        do
            f = fault_of(r, dump_faults, (uint8_t)rng_range(r, 1, 4));
        while (!put_fault(r, f, NULL, out));
    } else {
        sound_default(r);
        damage_draft(r, out);
    }
}
