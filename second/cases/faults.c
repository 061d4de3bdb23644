/* All single faults in one row, and cases made from them. */
#include "faults.h"

#include <string.h>

const struct fault *const table_faults[] = {
    header_faults, walk_faults, extended_faults, entry_faults, ext_entry_faults,
    NULL,
};

const struct fault *const dump_faults[] = { contents_faults, pointer_faults, NULL };

const struct fault *fault_at(const struct fault *const *lists, size_t number)
{
    for (; *lists != NULL; lists++)
        for (const struct fault *f = *lists; f->rule != 0; f++)
            if (number-- == 0)
                return f;
    return NULL;
}

const struct fault *fault_of(struct rng *r, const struct fault *const *lists,
                             uint8_t rule)
{
    const struct fault *found = NULL;
    uint32_t n = 0;

    for (; *lists != NULL; lists++)
        for (const struct fault *f = *lists; f->rule != 0; f++)
            if (f->rule == rule && rng_below(r, ++n) == 0)
                found = f;
    return found;
}

const struct fault *random_fault(struct rng *r)
{
    return fault_of(r, table_faults, (uint8_t)rng_range(r, 5, 18));
}

void fault_case(struct rng *r, const struct fault *f, struct test_case *c)
{
    struct builder b;

    for (;;) {
        sound_table(r, &b);
        if (f->entries != NULL && !f->entries(r, &b, f))
            continue;
        c->size = seal(&b, c->bytes);
        /* Slack would hide what runs past the buffer by one. */
        if (f->image == NULL)
            slack(r, c);
        if (f->image != NULL && !f->image(r, c))
            continue;
        break;
    }
    c->label = f->name;
    c->expected = f->rule;
}

/* ---- made alike ---- */

uint8_t *pick_for(struct rng *r, struct builder *b, const struct fault *f)
{
    return f->suits == NULL ? pick_interrupt(r, b) : pick(r, b, f->type, f->suits);
}

bool change_bits(struct rng *r, struct builder *b, const struct fault *f)
{
    uint8_t *e = pick_for(r, b, f);

    if (e != NULL)
        e[f->at] = (uint8_t)((e[f->at] & ~f->x) | f->y);
    return e != NULL;
}

bool same_id(struct rng *r, struct builder *b, const struct fault *f)
{
    uint8_t *e = pick_for(r, b, f);
    uint8_t *other = pick_other(r, b, f->type, f->suits, e);

    if (e == NULL || other == NULL)
        return false;
    other[1] = e[1];
    return true;
}

bool same_entry(struct rng *r, struct builder *b, const struct fault *f)
{
    uint8_t *e = pick_for(r, b, f);
    uint8_t copy[8];

    if (e == NULL)
        return false;
    memcpy(copy, e, 8);
    b->count += f->type < 128;
    return put_in(b, f->type >= 128, place_of(r, b, f->type), copy, 8);
}

bool over_limit(struct rng *r, struct builder *b, const struct fault *f)
{
    uint8_t *e = pick_for(r, b, f);

    if (e != NULL)
        e[f->at] = (uint8_t)(rng_chance(r, f->x) ? f->y : rng_range(r, f->y, 255));
    return e != NULL;
}

bool unlisted_bus(struct rng *r, struct builder *b, const struct fault *f)
{
    uint8_t *e = pick_for(r, b, f);

    return e != NULL && unlisted(r, b, 1, true, &e[f->at]);
}
