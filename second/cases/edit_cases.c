/*
 * Edits of one table, accepted and refused: sound changes, changes back, stale
 * statements, other lengths, types and places, changes that break a rule, and IDs
 * that others name.
 */
#include "faults.h"

#include <string.h>

static size_t size_of_type(uint8_t type)
{
    return type == 0 ? 20 : 8;
}

/* Where the entry of a number starts among the base bytes. */
static size_t offset_of(const struct builder *b, size_t place)
{
    size_t at = 0;

    while (place-- > 0)
        at += size_of_type(b->base[at]);
    return at;
}

size_t standing(const struct edited *t, size_t place, uint8_t *entry)
{
    const uint8_t *e = t->b.base + offset_of(&t->b, place);
    size_t size = size_of_type(e[0]);

    memcpy(entry, e, size);
    return size;
}

void start_edits(struct edited *t, const uint8_t *table)
{
    unseal(&t->b, table);
    t->size = 0;
}

void keep_edit(struct edited *t, const struct edit_case *e)
{
    t->changed = e->place;
    t->size = e->stated_length;
    memcpy(t->former, e->stated, t->size);
    memcpy(t->b.base + offset_of(&t->b, e->place), e->wanted, t->size);
}

void state_entry(const struct edited *t, size_t place, struct edit_case *e)
{
    e->place = place;
    e->stated_length = e->wanted_length = standing(t, place, e->stated);
    memcpy(e->wanted, e->stated, e->stated_length);
}

/* The same of an entry, given where it stands. */
static void state_this(const struct edited *t, const uint8_t *entry,
                       struct edit_case *e)
{
    size_t place = 0;

    for (size_t at = 0; t->b.base + at < entry; at += size_of_type(t->b.base[at]))
        place++;
    state_entry(t, place, e);
}

/* The same of any entry. */
static void state_any(struct rng *r, const struct edited *t, struct edit_case *e)
{
    uint32_t count = t->b.count;
    size_t place = rng_below(r, count);

    if (rng_chance(r, 15))
        place = rng_chance(r, 50) ? 0 : count - 1;
    state_entry(t, place, e);
}

void expect_edit(struct edited *t, struct edit_case *e)
{
    uint8_t *entry = t->b.base + offset_of(&t->b, e->place);

    memcpy(entry, e->wanted, e->wanted_length);
    int rule = broken_rule(&t->b);
    memcpy(entry, e->stated, e->stated_length);
    e->expected = rule == 0 ? 0 : 23 + 256 * rule;
}

/* ---- accepted ---- */

/* The ID of a listed entry of a type; 255 where there is none. */
static uint8_t listed_id(struct rng *r, struct builder *b, uint8_t type)
{
    uint8_t *e = pick(r, b, type, any);

    return e == NULL ? 255 : e[1];
}

static void change_processor(struct rng *r, uint8_t *e)
{
    if (rng_chance(r, 30))
        e[3] ^= (uint8_t)(rng_byte(r) & 0xFC);
    else
        rng_alter(r, e + (rng_chance(r, 30) ? 2 : rng_range(r, 4, 19)));
}

static void change_io_apic(struct rng *r, uint8_t *e)
{
    switch (rng_below(r, 3)) {
    case 0: rng_alter(r, e + 2); break;
    case 1: e[3] ^= (uint8_t)(rng_byte(r) & 0xFE); break;
    default: put_le(e + 4, rng_range(r, 1, 0x3FFFFF) << 10, 4);
    }
}

static void change_interrupt(struct rng *r, struct builder *b, uint8_t *e)
{
    static const uint8_t two_bits[3] = { 0, 1, 3 };

    switch (rng_below(r, 8)) {
    case 0: e[1] = (uint8_t)rng_below(r, 4); break;
    case 1: e[2] = (uint8_t)((e[2] & 0xFC) | two_bits[rng_below(r, 3)]); break;
    case 2: e[2] = (uint8_t)((e[2] & 0xF3) | two_bits[rng_below(r, 3)] << 2); break;
    case 3: e[4] = listed_id(r, b, 1); break;
    case 4: e[6] = listed_id(r, b, e[0] == 3 ? 2 : 0); break;
    case 5: e[6] = 255; break;
    case 6: e[7] = e[0] == 3 ? rng_byte(r) : (uint8_t)rng_below(r, 2); break;
    default: rng_alter(r, e + (rng_chance(r, 30) ? 3 : 5));
    }
}

/* Changes what no rule limits, or within its limits. */
static void change(struct rng *r, struct builder *b, uint8_t *e)
{
    switch (e[0]) {
    case 0: change_processor(r, e); break;
    case 1: memcpy(e + 2, bus_names[rng_below(r, 18)], 6); break;
    case 2: change_io_apic(r, e); break;
    default: change_interrupt(r, b, e);
    }
}

static bool sound_edit(struct rng *r, struct edited *t, struct edit_case *e)
{
    state_any(r, t, e);
    change(r, &t->b, e->wanted);
    return true;
}

static bool equal_edit(struct rng *r, struct edited *t, struct edit_case *e)
{
    state_any(r, t, e);
    return true;
}

static bool back_edit(struct rng *r, struct edited *t, struct edit_case *e)
{
    if (t->size == 0)
        return false;
    state_entry(t, t->changed, e);
    memcpy(e->wanted, t->former, t->size);
    return true;
}

/* Any bytes behind the type. */
static bool any_edit(struct rng *r, struct edited *t, struct edit_case *e)
{
    state_any(r, t, e);
    for (uint32_t n = 1 + rng_few(r, 6); n > 0; n--) {
        uint32_t at = rng_range(r, 1, (uint32_t)e->wanted_length - 1);

        e->wanted[at] = rng_chance(r, 50) ? e->wanted[at] ^ 1u << rng_below(r, 8)
                                          : rng_byte(r);
    }
    expect_edit(t, e);
    return true;
}

/* Another ID, or the enabled and bootstrap bits. */
static bool telling_edit(struct rng *r, struct edited *t, struct edit_case *e)
{
    state_any(r, t, e);
    switch (rng_below(r, 3)) {
    case 0: e->wanted[1] = rng_byte(r); break;
    case 1: unlisted(r, &t->b, e->wanted[0], true, &e->wanted[1]); break;
    default: e->wanted[3] ^= (uint8_t)rng_range(r, 1, 3);
    }
    expect_edit(t, e);
    return true;
}

/* ---- the checksum ---- */

/*
 * It becomes 0 or 255, by a byte that no rule speaks of; or it stays, though two
 * bytes change places: two such or, of an I/O APIC, the upper ones of its address.
 * A bus has neither.
 */
static bool sum_edit(struct rng *r, struct edited *t, struct edit_case *e)
{
    static const uint8_t places[5][3] = {
        [0] = { 2, 4, 19 }, [2] = { 2, 6, 7 }, [3] = { 5, 3, 5 }, [4] = { 5, 3, 5 },
    };
    static uint8_t image[2 * PART_LIMIT];

    state_any(r, t, e);
    const uint8_t *at = places[e->stated[0]];
    uint8_t *w = e->wanted, first = w[at[1]];

    if (w[0] == 1)
        return false;
    seal(&t->b, image);
    switch (rng_below(r, 3)) {
    case 0: w[at[0]] = (uint8_t)(w[at[0]] + image[7]); break;
    case 1: w[at[0]] = (uint8_t)(w[at[0]] + image[7] + 1); break;
    default: w[at[1]] = w[at[2]], w[at[2]] = first;
    }
    return memcmp(w, e->stated, e->wanted_length) != 0;
}

/* ---- IDs, by who names them and who else has them ---- */

static bool is_on(const uint8_t *e) { return e[0] == 1 || e[3] & 1; }

/*
 * How an entry stands to the others: who names its ID, whether another has it that
 * is on or off, and whether it is on itself.
 */
enum { HAD_ON = NAMERS, HAD_OFF = 2 * NAMERS, ON = 4 * NAMERS, WAYS = 8 * NAMERS };

static uint32_t way_of(const struct names *n, const uint8_t *e)
{
    const uint16_t *have = n->have[e[0]][e[1]];
    bool on = is_on(e);

    return n->by[e[0]][e[1]] + (have[1] > on ? HAD_ON : 0)
         + (have[0] > !on ? HAD_OFF : 0) + (on ? ON : 0);
}

/* An entry of a type, each way being as likely as another; or NULL. */
static uint8_t *pick_way(struct rng *r, struct builder *b, uint8_t type)
{
    static struct names names;
    bool seen[WAYS] = { false };
    uint32_t way = 0, n = 0;
    uint8_t *found = NULL;

    find_names(b, &names);
    EACH(b, type, e) {
        uint32_t one = way_of(&names, e);
        if (!seen[one] && rng_below(r, ++n) == 0)
            way = one;
        seen[one] = true;
    }
    n = 0;
    EACH(b, type, e)
        if (way_of(&names, e) == way && rng_below(r, ++n) == 0)
            found = e;
    return found;
}

/* What its own rule forbids, or not: the bootstrap, a name, an address. */
static void spoil(struct rng *r, uint8_t *e)
{
    switch (e[0]) {
    case 0: e[3] ^= 2; break;
    case 1: rng_alter(r, e + 2 + rng_below(r, 6)); break;
    default: put_le(e + 4, rng_chance(r, 50) ? 0 : rng_next(r), 4);
    }
}

/* Another ID: one that nobody has, or one of those that are on, or 255. */
static void change_id(struct rng *r, struct builder *b, const uint8_t *entry,
                      uint8_t *w)
{
    uint32_t roll = rng_below(r, 100);
    uint8_t type = w[0] == 2 && roll < 14 ? 0 : w[0];   /* that a processor has */
    const uint8_t *other = pick_other(r, b, type, is_on, entry);

    if (roll < 28 && other != NULL)
        w[1] = other[1];
    else if (roll < 36)
        w[1] = 255;
    else
        unlisted(r, b, w[0], true, &w[1]);
}

/* Another ID, or on or off, and at times what its own rule forbids as well. */
static bool id_edit(struct rng *r, struct edited *t, struct edit_case *e)
{
    const uint8_t *entry = pick_way(r, &t->b, (uint8_t)rng_below(r, 3));
    uint32_t roll = rng_below(r, 100);

    if (entry == NULL)
        return false;
    state_this(t, entry, e);
    if (roll < 75 || entry[0] == 1)
        change_id(r, &t->b, entry, e->wanted);
    else
        e->wanted[3] ^= 1;
    if (roll >= 65 && roll < 80)
        spoil(r, e->wanted);
    if (rng_chance(r, 15))
        change(r, &t->b, e->wanted);
    expect_edit(t, e);
    return true;
}

/* ---- interrupts, by what rule 17 says of them ---- */

static bool interrupt_edit(struct rng *r, struct edited *t, struct edit_case *e)
{
    const uint8_t *entry = pick_interrupt(r, &t->b);
    uint8_t *w = e->wanted;

    if (entry == NULL)
        return false;
    state_this(t, entry, e);
    uint8_t to = w[0] == 3 ? 2 : 0;
    switch (rng_below(r, 10)) {
    case 0: w[1] = (uint8_t)rng_range(r, 4, rng_chance(r, 50) ? 4 : 255); break;
    case 1: w[2] = (uint8_t)((w[2] & 0xFC) | 2); break;
    case 2: w[2] = (uint8_t)((w[2] & 0xF3) | 8); break;
    case 3: unlisted(r, &t->b, 1, true, &w[4]); break;
    case 4: unlisted(r, &t->b, to, false, &w[6]); break;
    case 5: w[6] = listed_id(r, &t->b, 2 - to); break;   /* of the other side */
    case 6: w[6] = 255; break;
    case 7: w[4] = w[6]; break;
    case 8: w[4] = 255; break;
    default: w[7] = (uint8_t)rng_range(r, 1, 3);
    }
    expect_edit(t, e);
    return true;
}

/* ---- 20: edit place not below the entry count ---- */

static bool place_edit(struct rng *r, struct edited *t, struct edit_case *e)
{
    static const uint8_t shift[4] = { 8, 16, 32, 63 };

    state_any(r, t, e);
    size_t far = (size_t)1 << shift[rng_below(r, 4)];
    switch (rng_below(r, 4)) {
    case 0: e->place += far; break;   /* right in its low bits */
    case 1: e->place = SIZE_MAX - rng_below(r, 2); break;
    case 2: e->place = t->b.count + rng_below(r, 9); break;
    default: e->place = t->b.count;
    }
    if (e->place < t->b.count)
        e->place = t->b.count;
    if (rng_chance(r, 20))
        e->stated_length = rng_below(r, EDIT_ROOM);
    if (rng_chance(r, 20))
        rng_alter(r, &e->wanted[0]);
    return true;
}

/* ---- 21: either length differs, or the wanted type ---- */

static size_t other_length(struct rng *r, size_t size)
{
    size_t other = rng_below(r, EDIT_ROOM);

    switch (rng_below(r, 5)) {
    case 0: other = 0; break;
    case 1: other = size - 1; break;
    case 2: other = size + 1; break;
    case 3: other = 28 - size; break;   /* of the other entries */
    }
    return other == size ? size + 1 : other;
}

static bool length_edit(struct rng *r, struct edited *t, struct edit_case *e)
{
    memset(e->stated, 0, EDIT_ROOM);
    memset(e->wanted, 0, EDIT_ROOM);
    state_any(r, t, e);
    size_t other = other_length(r, e->stated_length);
    uint32_t which = rng_below(r, 3);   /* stated, wanted, both */

    if (rng_chance(r, 50))
        change(r, &t->b, e->wanted);
    if (rng_chance(r, 20))
        rng_alter(r, &e->stated[1]);
    if (which != 1)
        e->stated_length = other;
    if (which != 0)
        e->wanted_length = other;
    return true;
}

static bool type_edit(struct rng *r, struct edited *t, struct edit_case *e)
{
    state_any(r, t, e);
    uint8_t type = e->wanted[0];

    while (e->wanted[0] == type)
        e->wanted[0] = rng_chance(r, 70) ? (uint8_t)rng_below(r, 5) : rng_byte(r);
    if (rng_chance(r, 30))
        rng_alter(r, &e->stated[rng_below(r, (uint32_t)e->stated_length)]);
    if (rng_chance(r, 30))
        e->stated[0] = e->wanted[0];
    return true;
}

/* ---- 22: stated bytes differ from the standing ones ---- */

static bool stale_edit(struct rng *r, struct edited *t, struct edit_case *e)
{
    state_any(r, t, e);
    size_t last = e->stated_length - 1;
    size_t at = rng_chance(r, 20) ? 0 : rng_chance(r, 20) ? last
              : rng_below(r, (uint32_t)last + 1);

    if (rng_chance(r, 60))
        change(r, &t->b, e->wanted);
    else
        e->wanted[1 + rng_below(r, (uint32_t)last)] = 255;
    if (rng_chance(r, 50))   /* all but one byte as wanted */
        memcpy(e->stated, e->wanted, last + 1);
    uint8_t now[ENTRY_MAX];
    standing(t, e->place, now);
    while (memcmp(e->stated, now, last + 1) == 0)
        rng_alter(r, &e->stated[at]);
    return true;
}

/* What another entry of the same type has. */
static bool neighbour_edit(struct rng *r, struct edited *t, struct edit_case *e)
{
    state_any(r, t, e);
    uint8_t *other = pick(r, &t->b, e->stated[0], any);

    if (memcmp(other, e->stated, e->stated_length) == 0)
        return false;
    memcpy(e->stated, other, e->stated_length);
    return true;
}

/* The last edit once more, stating what stood before it. */
static bool again_edit(struct rng *r, struct edited *t, struct edit_case *e)
{
    if (t->size == 0)
        return false;
    state_entry(t, t->changed, e);
    if (memcmp(t->former, e->stated, t->size) == 0)
        return false;
    memcpy(e->stated, t->former, t->size);
    return true;
}

/* ---- 23: the edited table would be refused ---- */

/* The one entry in which two tables differ; false where it is not just one. */
static bool only_change(const struct builder *old, const struct builder *new,
                        size_t *place)
{
    uint32_t found = 0;

    if (old->base_len != new->base_len
        || memcmp(old->header, new->header, HEADER) != 0)
        return false;
    for (size_t at = 0, i = 0, size; at < old->base_len; at += size, i++) {
        size = size_of_type(old->base[at]);
        if (memcmp(old->base + at, new->base + at, size) != 0)
            *place = i, found++;
    }
    return found == 1;
}

/* A copy with the fault in one entry; false where the fault is another. */
static bool break_entry(struct rng *r, const struct builder *b,
                        const struct fault *f, struct builder *broken,
                        size_t *place)
{
    *broken = *b;
    return f->entries(r, broken, f) && only_change(b, broken, place);
}

static bool break_rule(struct rng *r, struct edited *t, uint8_t rule,
                       struct edit_case *e)
{
    static struct builder broken;
    const struct fault *f = fault_of(r, table_faults, rule);
    size_t place;

    if (!break_entry(r, &t->b, f, &broken, &place))
        return false;
    state_entry(t, place, e);
    memcpy(e->wanted, broken.base + offset_of(&broken, place), e->wanted_length);
    e->label = f->name;
    return true;
}

static bool bus_of_interrupt(const struct builder *b, uint8_t bus)
{
    for (size_t at = 0; at < b->base_len; at += size_of_type(b->base[at]))
        if (b->base[at] >= 3 && b->base[at + 4] == bus)
            return true;
    return false;
}

static bool bus_of_extended(const struct builder *b, uint8_t bus)
{
    for (size_t at = 0; at < b->ext_len && b->ext[at] <= 130; at += b->ext[at + 1])
        if (b->ext[at + 2] == bus || (b->ext[at] == 129 && b->ext[at + 4] == bus))
            return true;
    return false;
}

/* 18: another ID for a bus that extended entries alone name. */
static bool break_18(struct rng *r, struct edited *t, struct edit_case *e)
{
    const struct builder *b = &t->b;
    uint32_t n = 0;
    size_t found = 0;

    for (size_t at = 0, i = 0; i < b->count; at += size_of_type(b->base[at]), i++)
        if (b->base[at] == 1 && !bus_of_interrupt(b, b->base[at + 1])
            && bus_of_extended(b, b->base[at + 1]) && rng_below(r, ++n) == 0)
            found = i;
    if (n == 0)
        return false;
    state_entry(t, found, e);
    e->label = "a bus that extended entries name";
    return unlisted(r, &t->b, 1, true, &e->wanted[1]);
}

static bool break_edit(struct rng *r, struct edited *t, struct edit_case *e)
{
    uint8_t rule = (uint8_t)rng_range(r, 14, 18);

    e->expected = 23 + 256 * rule;
    return rule == 18 ? break_18(r, t, e) : break_rule(r, t, rule, e);
}

/* ---- all of these ---- */

static const struct {
    uint32_t share[2];   /* in 100: on any table, and on a named_case() */
    const char *label;
    int expected;        /* -1: it is worked out */
    bool (*make)(struct rng *r, struct edited *t, struct edit_case *e);
} kinds[] = {
    { { 24, 9 }, "sound edit", 0, sound_edit },
    { { 3, 2 }, "wanted equal to standing", 0, equal_edit },
    { { 6, 4 }, "changed back", 0, back_edit },
    { { 7, 2 }, "any bytes", -1, any_edit },
    { { 5, 2 }, "another ID or other flags", -1, telling_edit },
    { { 3, 5 }, "checksum 0, 255 or as it was", 0, sum_edit },
    { { 6, 45 }, "an ID by who names it", -1, id_edit },
    { { 3, 14 }, "an interrupt by rule 17", -1, interrupt_edit },
    { { 4, 1 }, "place past the last entry", 20, place_edit },
    { { 4, 1 }, "another length", 21, length_edit },
    { { 3, 1 }, "another type", 21, type_edit },
    { { 5, 1 }, "stated bytes differ", 22, stale_edit },
    { { 2, 1 }, "another entry stated", 22, neighbour_edit },
    { { 3, 2 }, "the same edit again", 22, again_edit },
    { { 22, 10 }, "a rule broken", -1, break_edit },
};

/* Where the table has no place for one, another is taken. */
void gen_edit(struct rng *r, struct edited *t, bool named, struct edit_case *e)
{
    size_t k;

    do {
        uint32_t roll = rng_below(r, 100);

        for (k = 0; roll >= kinds[k].share[named]; k++)
            roll -= kinds[k].share[named];
        e->label = kinds[k].label;
        e->expected = kinds[k].expected;
    } while (!kinds[k].make(r, t, e));
}

/* ---- edits of tables that are refused as they stand ---- */

/* The entry that a walk comes to, if that stays inside the buffer. */
static void state_blindly(const struct test_case *c, size_t goal,
                          struct edit_case *e)
{
    size_t at = HEADER, size = 8;

    for (e->place = 0; at < c->size; e->place++, at += size) {
        size = size_of_type(c->bytes[at]);
        if (size > c->size - at)
            break;
        memcpy(e->stated, c->bytes + at, size);
        if (e->place == goal)
            break;
    }
    e->stated_length = e->wanted_length = size;
    memcpy(e->wanted, e->stated, EDIT_ROOM);
}

void blind_edit(struct rng *r, const struct test_case *c, struct edit_case *e)
{
    rng_fill(r, e->stated, EDIT_ROOM);
    state_blindly(c, rng_few(r, 200), e);
    if (rng_chance(r, 50))
        rng_alter(r, &e->wanted[rng_range(r, 1, 7)]);
    if (rng_chance(r, 15))
        e->place = rng_chance(r, 50) ? SIZE_MAX : 600;
    if (rng_chance(r, 15))
        e->wanted_length = rng_below(r, EDIT_ROOM);
    if (rng_chance(r, 15))
        rng_alter(r, &e->stated[1]);
    e->label = c->label;
    e->expected = c->expected;
}

void mending_edit(struct rng *r, struct test_case *c, struct edit_case *e)
{
    static struct builder sound, broken;
    const struct fault *f;
    size_t place;

    do {
        f = fault_of(r, table_faults, (uint8_t)rng_range(r, 14, 17));
        sound_table(r, &sound);
    } while (!break_entry(r, &sound, f, &broken, &place));
    c->size = seal(&broken, c->bytes);
    c->label = f->name;
    c->expected = f->rule;

    size_t at = offset_of(&sound, place);
    e->place = place;
    e->stated_length = e->wanted_length = size_of_type(sound.base[at]);
    memcpy(e->stated, broken.base + at, e->stated_length);
    memcpy(e->wanted, sound.base + at, e->wanted_length);
    e->label = "a fault mended";
    e->expected = f->rule;
}
