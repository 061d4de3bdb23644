/* A dump under construction.  It does not ask whether the dump is sound. */
#include "draft.h"

#include <string.h>

void draft_start(struct draft *d)
{
    d->count = 0;
    d->home = d->at = 0;
    d->table_home = d->table_at = d->table_size = 0;
}

uint32_t add_piece(struct draft *d, uint8_t kind, uint32_t base)
{
    struct piece *p = &d->piece[d->count];

    p->kind = kind;
    p->base = base;
    p->length = 0;
    d->order[d->count] = (uint8_t)d->count;
    return d->count++;
}

int piece_of_kind(const struct draft *d, uint8_t kind)
{
    for (uint32_t i = 0; i < d->count; i++)
        if (d->piece[i].kind == kind)
            return (int)i;
    return -1;
}

size_t draft_size(const struct draft *d)
{
    size_t n = 1 + RECORD * d->count;

    for (uint32_t i = 0; i < d->count; i++)
        n += d->piece[i].length;
    return n;
}

bool sharing(const struct piece *a, const struct piece *b)
{
    uint64_t low = a->base > b->base ? a->base : b->base;

    return a->length > 0 && b->length > 0
        && low < (uint64_t)a->base + a->length
        && low < (uint64_t)b->base + b->length;
}

bool crowded(const struct draft *d, uint32_t number)
{
    for (uint32_t i = 0; i < d->count; i++)
        if (i != number && sharing(&d->piece[i], &d->piece[number]))
            return true;
    return false;
}

void mend_pointer(uint8_t *p)
{
    p[10] = 0;
    p[10] = (uint8_t)-byte_sum(p, PARAGRAPH);
}

void put_pointer(uint8_t *p, uint32_t address, uint8_t feature, uint8_t imcr)
{
    memset(p, 0, PARAGRAPH);
    memcpy(p, "_MP_", 4);
    put_le(p + 4, address, 4);
    p[8] = 1, p[9] = 4, p[11] = feature, p[12] = imcr;
    mend_pointer(p);
}

uint8_t *pointer_of(struct draft *d)
{
    return d->piece[d->home].body + d->at;
}

uint32_t pointer_address(const struct draft *d)
{
    return d->piece[d->home].base + d->at;
}

uint32_t table_address(const struct draft *d)
{
    return d->piece[d->table_home].base + d->table_at;
}

size_t emit(const struct draft *d, uint8_t *out)
{
    size_t n = 1 + RECORD * d->count;

    out[0] = (uint8_t)d->count;
    for (uint32_t i = 0; i < d->count; i++) {
        const struct piece *p = &d->piece[d->order[i]];
        uint8_t *record = out + 1 + RECORD * i;

        record[0] = p->kind;
        put_le(record + 1, p->base, 4);
        put_le(record + 5, p->length, 4);
        memcpy(out + n, p->body, p->length);
        n += p->length;
    }
    return n;
}
