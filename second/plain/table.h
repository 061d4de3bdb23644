/* The layout of an MP table (document 01, "The table"), for the plain program. */
#ifndef PLAIN_TABLE_H
#define PLAIN_TABLE_H

#include <stdbool.h>
#include <stddef.h>
#include <stdint.h>

enum {
    HEADER_SIZE = 44,
    PART_MAX = 4096,   /* of the base and of the extended part */
    ALL = 255,         /* the destination that names every APIC */

    PROCESSOR = 0, BUS = 1, IO_APIC = 2, IO_INT = 3, LOCAL_INT = 4,
    BASE_TYPES = 5,

    MAPPING = 0, LINK = 1, MODIFIER = 2,   /* 128, 129 and 130 */
    EXT_FIRST = 128,
    EXT_TYPES = 3,

    ENABLED = 1, BOOTSTRAP = 2,

    INT = 0            /* the interrupt type */
};

/*
 * A table whose parts have been walked.  Types ascend, so the entries of one
 * type stand together: those of base type k at base[k] up to base[k + 1],
 * those of extended type 128 + k at ext[k] up to ext[k + 1], and those of the
 * other extended types from there to ext_end.
 */
struct table {
    const uint8_t *bytes;
    size_t base_end;
    size_t ext_end;
    size_t base[BASE_TYPES + 1];
    size_t ext[EXT_TYPES + 1];
};

static inline uint32_t get16(const uint8_t *p)
{
    return p[0] | (uint32_t)p[1] << 8;
}

static inline uint32_t get32(const uint8_t *p)
{
    return get16(p) | get16(p + 2) << 16;
}

static inline uint64_t get64(const uint8_t *p)
{
    return get32(p) | (uint64_t)get32(p + 4) << 32;
}

/* Whether a bus entry names PCI: the upper six of its eight bytes, "PCI   ". */
static inline bool is_pci(const uint8_t *e)
{
    return get64(e) >> 16 == UINT64_C(0x202020494350);
}

static inline void put16(uint8_t *p, uint32_t v)
{
    p[0] = (uint8_t)v;
    p[1] = (uint8_t)(v >> 8);
}

static inline void put32(uint8_t *p, uint32_t v)
{
    put16(p, v);
    put16(p + 2, v >> 16);
}

/*
 * "Sums taken modulo 256": sixteen of them side by side, which a compiler can add
 * by one instruction.
 */
static inline uint8_t sum(const uint8_t *p, size_t n)
{
    uint8_t part[16] = { 0 };
    uint8_t s = 0;
    size_t i = 0;

    for (; n - i >= 16; i += 16)
        for (size_t k = 0; k < 16; k++)
            part[k] += p[i + k];
    for (size_t k = 0; k < 16; k++)
        s += part[k];
    for (; i < n; i++)
        s += p[i];
    return s;
}

#endif
