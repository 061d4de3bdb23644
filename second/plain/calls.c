/* The kinds of docs/ANSWERS.md, each by a call of the plain program. */
#include "calls.h"

#include "plain.h"

#include <string.h>

static void judge(const struct request *q, struct reply *a)
{
    give(a, plain_judge(LENT(q, 0)));
}

static void read_dump(const struct request *q, struct reply *a)
{
    give(a, plain_read(LENT(q, 0)));
    give(a, plain_addresses(LENT(q, 0)));
}

static void list(const struct request *q, struct reply *a)
{
    give(a, plain_list(LENT(q, 0), LENT(q, ROOM)));
}

static void list_full(const struct request *q, struct reply *a)
{
    give(a, plain_list_full(LENT(q, 0), (uint8_t)q->number[0], LENT(q, ROOM)));
}

static void default_table(const struct request *q, struct reply *a)
{
    give(a, plain_default_table((uint8_t)q->number[0], (uint8_t)q->number[1],
                                LENT(q, ROOM)));
}

/* "0 where there are fewer" */
static void take_name(uint8_t *field, size_t size, const struct slice *name)
{
    memset(field, 0, size);
    memcpy(field, name->bytes, name->length < size ? name->length : size);
}

static void write_table(const struct request *q, struct reply *a)
{
    struct fields f = {
        .oem_pointer = (uint32_t)q->number[0], .oem_size = (uint16_t)q->number[1],
        .local_apic = (uint32_t)q->number[2], .reserved = (uint8_t)q->number[3],
    };

    take_name(f.oem_id, sizeof f.oem_id, &q->slice[2]);
    take_name(f.product, sizeof f.product, &q->slice[3]);
    give(a, plain_write(&f, LENT(q, 0), LENT(q, 1), LENT(q, ROOM)));
}

static void take_apart(const struct request *q, struct reply *a)
{
    struct parts p;
    uint64_t answer = plain_take_apart(LENT(q, 0), &p);

    give(a, answer);
    if ((answer & 255) != 0)
        return;
    give(a, get64(p.fields.oem_id));
    give(a, get64(p.fields.product));
    give(a, get32(p.fields.product + 8));
    give(a, p.fields.oem_pointer);
    give(a, p.fields.oem_size);
    give(a, p.fields.local_apic);
    give(a, p.fields.reserved);
}

static void edit(const struct request *q, struct reply *a)
{
    give(a, plain_edit(LENT(q, 0), q->number[0], LENT(q, 1), LENT(q, 2)));
}

static void entry(const struct request *q, struct reply *a)
{
    give(a, plain_entry(LENT(q, 0), q->number[0]));
}

static void io_routes(const struct request *q, struct reply *a)
{
    give(a, plain_io_routes(LENT(q, 0), (uint8_t)q->number[0],
                            (uint8_t)q->number[1], (uint8_t)q->number[2],
                            LENT(q, ROOM)));
}

static void local_routes(const struct request *q, struct reply *a)
{
    give(a, plain_local_routes(LENT(q, 0), (uint8_t)q->number[0],
                               (uint8_t)q->number[1], (uint8_t)q->number[2],
                               LENT(q, ROOM)));
}

static void slot_routes(const struct request *q, struct reply *a)
{
    give(a, plain_slot_routes(LENT(q, 0), (uint8_t)q->number[0],
                              (uint8_t)q->number[1], (uint8_t)q->number[2],
                              LENT(q, ROOM)));
}

static void slots(const struct request *q, struct reply *a)
{
    give(a, plain_slots(LENT(q, 0), LENT(q, ROOM)));
}

static void renumber(const struct request *q, struct reply *a)
{
    give(a, plain_renumber(LENT(q, 0), LENT(q, ROOM)));
}

static void address(const struct request *q, struct reply *a)
{
    give(a, plain_address(LENT(q, 0), (uint8_t)q->number[0],
                          (uint8_t)q->number[1], q->number[2]));
}

/* ---- the book; machines and editions have two bytes ---- */

static void book(const struct request *q, struct reply *a)
{
    give(a, plain_book(LENT(q, 0)));
}

static void latest(const struct request *q, struct reply *a)
{
    give(a, plain_latest(LENT(q, 0), (uint16_t)q->number[0]));
}

static void body(const struct request *q, struct reply *a)
{
    give(a, plain_body(LENT(q, 0), (uint16_t)q->number[0],
                       (uint16_t)q->number[1]));
}

static void history(const struct request *q, struct reply *a)
{
    give(a, plain_history(LENT(q, 0), LENT(q, ROOM)));
}

static void save(const struct request *q, struct reply *a)
{
    give(a, plain_save(LENT(q, 0), (uint16_t)q->number[0],
                       (uint16_t)q->number[1], LENT(q, 1)));
}

static void restore(const struct request *q, struct reply *a)
{
    give(a, plain_restore(LENT(q, 0), (uint16_t)q->number[0],
                          (uint16_t)q->number[1], (uint16_t)q->number[2]));
}

static plain_call *const calls[256] = {
    ['J'] = judge, ['D'] = read_dump, ['L'] = list, ['W'] = write_table,
    ['T'] = take_apart, ['E'] = edit, ['P'] = entry, ['I'] = io_routes,
    ['C'] = local_routes, ['R'] = slot_routes, ['S'] = slots, ['N'] = renumber,
    ['A'] = address, ['B'] = book, ['M'] = latest, ['G'] = body, ['H'] = history,
    ['K'] = save, ['O'] = restore, ['F'] = list_full, ['U'] = default_table,
};

plain_call *plain_call_of(uint8_t kind)
{
    return calls[kind];
}
