/*
 * One timed call on a subject, as TIMED of one program: compiled for the library
 * with LIBRARY, and for the plain program at each level of optimisation.  For an
 * earlier library, with LIBRARY and its calls by other names.
 */
#include "subjects.h"

#include "builder.h"
#include "ruxtajma.h"

#include <string.h>

#ifdef LIBRARY
#define CALL(name) ruxtajma_##name
static uint64_t write_table(const struct fields *f, const uint8_t *base,
                            size_t base_length, const uint8_t *ext,
                            size_t ext_length, uint8_t *to, size_t size)
{
    return ruxtajma_write(f->oem_id, sizeof f->oem_id,
                          f->product, sizeof f->product, f->oem_pointer,
                          f->oem_size, f->local_apic, f->reserved,
                          base, base_length, ext, ext_length, to, size);
}
#define take_apart ruxtajma_parts
#else
#define CALL(name) plain_##name
#define write_table plain_write
static uint64_t take_apart(const uint8_t *t, size_t n)
{
    struct parts p;

    return plain_take_apart(t, n, &p);
}
#endif

static uint64_t edit(struct subject *s)
{
    uint64_t answer = CALL(edit)(s->bytes, s->size, s->place,
                                 s->entry[s->turn], s->entry_size,
                                 s->entry[!s->turn], s->entry_size);

    s->turn ^= ruxtajma_refusal(answer) == 0;
    return answer;
}

/* Answers where the last entry ends. */
static uint64_t walk(const struct subject *s)
{
    size_t at = HEADER, length;

    while ((length = ruxtajma_count(CALL(entry)(s->bytes, s->size, at))) != 0)
        at += length;
    return (uint64_t)at << 16;
}

/* The book as it was, in a room. */
static uint8_t *copied(const struct subject *s)
{
    memcpy(room, s->bytes, s->book);
    return room;
}

uint64_t TIMED(struct subject *s)
{
    switch (s->work) {
    case JUDGE: return CALL(judge)(s->bytes, s->size);
    case PARTS: return take_apart(s->bytes, s->size);
    case READ: return CALL(read)(s->bytes, s->size);
    case ADDRESSES: return CALL(addresses)(s->bytes, s->size);
    case LIST: case LIST_FITTING:
        return CALL(list)(s->bytes, s->size, room, s->room);
    case LIST_FULL:
        return CALL(list_full)(s->bytes, s->size, s->boot, room, s->room);
    case MAKE_DEFAULT:
        return CALL(default_table)(s->configuration, s->boot, room, s->room);
    case WRITE:
        return write_table(&s->fields, s->bytes + HEADER, s->base_end - HEADER,
                           s->bytes + s->base_end, s->ext_end - s->base_end,
                           room, s->room);
    case ROUTES:
        return CALL(io_routes)(s->bytes, s->size, s->type, s->bus, s->irq,
                               room, s->room);
    case LOCAL_ROUTES:
        return CALL(local_routes)(s->bytes, s->size, s->type, s->bus, s->irq,
                                  room, s->room);
    case SLOT_ROUTES:
        return CALL(slot_routes)(s->bytes, s->size, s->bus, s->device, s->pin,
                                 room, s->room);
    case SLOTS: return CALL(slots)(s->bytes, s->size, room, s->room);
    case RENUMBER: return CALL(renumber)(s->bytes, s->size, room, s->room);
    case ADDRESS: case IO_ADDRESS:
        return CALL(address)(s->bytes, s->size, s->bus, s->kind, s->address);
    case WALK: return walk(s);
    case BOOK: return CALL(book)(s->bytes, s->size);
    case LATEST: return CALL(latest)(s->bytes, s->size, s->machine);
    case BODY: return CALL(body)(s->bytes, s->size, s->machine, s->edition);
    case HISTORY: return CALL(history)(s->bytes, s->size, room, s->room);
    case SAVE:
        return CALL(save)(copied(s), s->size, s->machine, s->latest,
                          s->saved, s->table);
    case SAVE_REFUSED:
        return CALL(save)(s->bytes, s->size, s->machine,
                          (uint16_t)(s->latest + 1), s->saved, s->table);
    case RESTORE:
        return CALL(restore)(copied(s), s->size, s->machine, s->edition, s->latest);
    default: return edit(s);
    }
}
