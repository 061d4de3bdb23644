/*
 * The plain table writer: lays the image out, works out lengths, count and
 * checksums, and has it judged.
 */
#include "plain.h"

#include <string.h>

/*
 * How many entries the base bytes are walked into: processors come first, and all
 * others have eight bytes.  Where that is not so, the judge's own walk finds a
 * faulty entry, and no count is looked at.
 */
static uint32_t count_entries(const uint8_t *base, size_t length)
{
    size_t at = 0;

    while (at + 20 <= length && base[at] == PROCESSOR)
        at += 20;
    return (uint32_t)(at / 20 + (length - at) / 8);
}

/* All but the checksums, which are 0 here and are set when the rest stands. */
static void put_header(uint8_t *t, const struct fields *f, size_t base_end,
                       uint32_t count, size_t ext_length)
{
    memcpy(t, "PCMP", 4);
    put16(t + 4, (uint32_t)base_end);
    t[6] = 4;   /* "the revision it writes is 4" */
    t[7] = 0;
    memcpy(t + 8, f->oem_id, 8);
    memcpy(t + 16, f->product, 12);
    put32(t + 28, f->oem_pointer);
    put16(t + 32, f->oem_size);
    put16(t + 34, count);
    put32(t + 36, f->local_apic);
    put16(t + 40, (uint32_t)ext_length);
    t[42] = 0;
    t[43] = f->reserved;
}

uint64_t plain_write_walk(const struct fields *f,
                          const uint8_t *base, size_t base_length,
                          const uint8_t *ext, size_t ext_length,
                          uint8_t *room, size_t size, struct table *walked)
{
    /* "It refuses 7 if the base would pass 4,096, ... */
    if (base_length > PART_MAX - HEADER_SIZE)
        return refused(7);

    /* ... 13 if the extended part would, ... */
    if (ext_length > PART_MAX)
        return refused(13);

    /* ... then 19, all unwritten" */
    size_t base_end = HEADER_SIZE + base_length;
    size_t length = base_end + ext_length;
    if (length > size)
        return refused(19);

    put_header(room, f, base_end, count_entries(base, base_length), ext_length);
    memcpy(room + HEADER_SIZE, base, base_length);
    memcpy(room + base_end, ext, ext_length);
    /* Byte 42 belongs to the base, so it comes first. */
    room[42] = (uint8_t)-sum(room + base_end, ext_length);
    room[7] = (uint8_t)-sum(room, base_end);

    /* "Then the finished image is judged, and a refusal leaves its bytes zero" */
    uint8_t refusal = plain_judge_walk(room, length, walked);
    if (refusal != 0) {
        memset(room, 0, length);
        return refused(refusal);
    }
    return counted(length);
}

uint64_t plain_write(const struct fields *f,
                     const uint8_t *base, size_t base_length,
                     const uint8_t *ext, size_t ext_length,
                     uint8_t *room, size_t size)
{
    struct table walked;

    return plain_write_walk(f, base, base_length, ext, ext_length, room, size,
                            &walked);
}

void plain_parts(const uint8_t *t, struct parts *p)
{
    struct fields *f = &p->fields;

    memcpy(f->oem_id, t + 8, 8);
    memcpy(f->product, t + 16, 12);
    f->oem_pointer = get32(t + 28);
    f->oem_size = (uint16_t)get16(t + 32);
    f->local_apic = get32(t + 36);
    f->reserved = t[43];
    p->base_end = get16(t + 4);
    p->ext_end = p->base_end + get16(t + 40);
}
