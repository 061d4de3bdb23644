/*
 * Entries of a table under construction: finding one to be changed, and places
 * and IDs for another.  Where several would do, one of them by chance.
 */
#include "within.h"

#include <string.h>

void list_add(struct list *l, uint8_t id)
{
    if (!l->has[id] && l->n < 256)
        l->id[l->n++] = id;
    l->has[id] = true;
}

uint8_t list_pick(struct rng *r, const struct list *l)
{
    return l->id[rng_below(r, l->n)];
}

size_t entry_size(const uint8_t *part, size_t len, size_t at, bool ext)
{
    size_t size;

    if (ext)
        size = len - at < 2 ? 0 : part[at + 1];
    else
        size = part[at] == 0 ? 20 : part[at] <= 4 ? 8 : 0;
    return size <= len - at ? size : 0;
}

uint8_t *next_of(struct builder *b, uint8_t type, const uint8_t *behind)
{
    bool ext = type >= 128;
    uint8_t *part = ext ? b->ext : b->base;
    size_t len = ext ? b->ext_len : b->base_len;
    size_t at = 0, size = 0;

    if (behind != NULL) {
        at = (size_t)(behind - part);
        size = entry_size(part, len, at, ext);
    }
    for (at += size; at < len; at += size) {
        size = entry_size(part, len, at, ext);
        if (size < 2)
            break;
        if (part[at] == type && size >= (type == 128 || type == 0 ? 20u : 8u))
            return part + at;
    }
    return NULL;
}

bool has_all_types(struct builder *b)
{
    static const uint8_t type[] = { 0, 1, 2, 3, 4, 128, 129, 130 };

    for (size_t i = 0; i < sizeof type; i++)
        if (next_of(b, type[i], NULL) == NULL)
            return false;
    return true;
}

bool any(const uint8_t *e) { (void)e; return true; }

bool known_name(const uint8_t *name)
{
    for (size_t i = 0; i < 18; i++)
        if (memcmp(name, bus_names[i], 6) == 0)
            return true;
    return false;
}

uint8_t *pick_other(struct rng *r, struct builder *b, uint8_t type,
                    want *suits, const uint8_t *not_this)
{
    uint8_t *found = NULL;
    uint32_t n = 0;

    EACH(b, type, e)
        if (e != not_this && suits(e) && rng_below(r, ++n) == 0)
            found = e;
    return found;
}

uint8_t *pick(struct rng *r, struct builder *b, uint8_t type, want *suits)
{
    return pick_other(r, b, type, suits, NULL);
}

uint8_t *pick_interrupt(struct rng *r, struct builder *b)
{
    uint8_t first = (uint8_t)rng_range(r, 3, 4);
    uint8_t *e = pick(r, b, first, any);

    return e != NULL ? e : pick(r, b, (uint8_t)(7 - first), any);
}

size_t place_of(struct rng *r, const struct builder *b, uint8_t type)
{
    bool ext = type >= 128;
    const uint8_t *part = ext ? b->ext : b->base;
    size_t len = ext ? b->ext_len : b->base_len;
    size_t place = 0;
    uint32_t n = 1;

    for (size_t at = 0, size; at < len; at += size) {
        size = entry_size(part, len, at, ext);
        if (size < 2 || part[at] > type)
            break;
        if (part[at] < type)
            place = at + size, n = 1;
        else if (rng_below(r, ++n) == 0)
            place = at + size;
    }
    return place;
}

size_t any_place(struct rng *r, const struct builder *b, bool ext)
{
    const uint8_t *part = ext ? b->ext : b->base;
    size_t len = ext ? b->ext_len : b->base_len;
    size_t place = 0;
    uint32_t n = 1;

    for (size_t at = 0, size; at < len; ) {
        size = entry_size(part, len, at, ext);
        if (size < 2)
            break;
        at += size;
        if (rng_below(r, ++n) == 0)
            place = at;
    }
    return place;
}

bool put_in(struct builder *b, bool ext, size_t at, const uint8_t *e, size_t n)
{
    uint8_t *part = ext ? b->ext : b->base;
    size_t *len = ext ? &b->ext_len : &b->base_len;

    if (*len + n > (size_t)(ext ? PART_LIMIT : PART_LIMIT - HEADER))
        return false;
    memmove(part + at + n, part + at, *len - at);
    memcpy(part + at, e, n);
    *len += n;
    return true;
}

void list_of(struct builder *b, uint8_t type, want *suits, struct list *l)
{
    memset(l, 0, sizeof *l);
    for (size_t at = 0, size; at < b->base_len; at += size) {
        size = entry_size(b->base, b->base_len, at, false);
        if (size < 2)
            break;
        if (b->base[at] == type && suits(b->base + at))
            list_add(l, b->base[at + 1]);
    }
}

bool unlisted(struct rng *r, struct builder *b, uint8_t type, bool with_255,
              uint8_t *id)
{
    struct list l;
    uint32_t n = 0;

    list_of(b, type, any, &l);
    for (uint32_t i = 0; i < (with_255 ? 256u : 255u); i++)
        if (!l.has[i] && rng_below(r, ++n) == 0)
            *id = (uint8_t)i;
    return n > 0;
}
