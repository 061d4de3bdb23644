/*
 * The default configurations: the tables that they stand for, made by the writer,
 * and dumps listed with them.  What chapter 5 of the MPS leaves open is chosen as
 * docs/DEFAULTS.md says.
 */
#include "plain.h"

#include <string.h>

enum {
    APIC_ID = 2,                      /* of the I/O APIC */
    NMI = 1, EXT_INT = 3,             /* the interrupt types */
    INPUTS = 16,
    ENTRIES_MAX = DEFAULT_MAX - HEADER_SIZE
};

#define NO_INPUT(n) (1u << (n))

/* Tables 5-1 and 5-2: the buses, the versions, and which inputs are "N/C". */
static const struct configuration {
    char bus[7];
    bool pci;
    uint8_t version;                  /* of all APICs, by their type */
    uint32_t unconnected;
} configurations[] = {
    { "ISA   ", false, 0x01, 0 },
    { "EISA  ", false, 0x01, NO_INPUT(2) | NO_INPUT(13) },
    { "EISA  ", false, 0x01, 0 },
    { "MCA   ", false, 0x01, 0 },
    { "ISA   ", true, 0x10, 0 },
    { "EISA  ", true, 0x10, 0 },
    { "MCA   ", true, 0x10, NO_INPUT(0) },
};

/* Table 5-2, an entry for each input: "8259A INTR" is external, IRQ0 is at 2. */
#define FROM(type, irq, input) { IO_INT, type, 0, 0, 0, irq, APIC_ID, input }
static const uint8_t inputs[INPUTS][8] = {
    FROM(EXT_INT, 0, 0), FROM(INT, 1, 1), FROM(INT, 0, 2), FROM(INT, 3, 3),
    FROM(INT, 4, 4), FROM(INT, 5, 5), FROM(INT, 6, 6), FROM(INT, 7, 7),
    FROM(INT, 8, 8), FROM(INT, 9, 9), FROM(INT, 10, 10), FROM(INT, 11, 11),
    FROM(INT, 12, 12), FROM(INT, 13, 13), FROM(INT, 14, 14), FROM(INT, 15, 15),
};

/* Table 5-3, "All Local APICs". */
static const uint8_t local_inputs[2][8] = {
    { LOCAL_INT, EXT_INT, 0, 0, 0, 0, ALL, 0 },
    { LOCAL_INT, NMI, 0, 0, 0, 0, ALL, 1 },
};

#define SPACES ' ', ' ', ' ', ' '
static const struct fields header = {
    .oem_id = { SPACES, SPACES }, .product = { SPACES, SPACES, SPACES },
    .local_apic = 0xFEE00000,
};

static uint8_t *put_processor(uint8_t *p, uint8_t id, uint8_t version, uint8_t boot)
{
    memset(p, 0, 20);
    p[1] = id;
    p[2] = version;
    p[3] = id == boot ? ENABLED | BOOTSTRAP : ENABLED;
    return p + 20;
}

static uint8_t *put_bus(uint8_t *p, uint8_t id, const char *name)
{
    p[0] = BUS;
    p[1] = id;
    memcpy(p + 2, name, 6);
    return p + 8;
}

static uint8_t *put_io_apic(uint8_t *p, uint8_t version)
{
    p[0] = IO_APIC;
    p[1] = APIC_ID;
    p[2] = version;
    p[3] = ENABLED;
    put32(p + 4, 0xFEC00000);
    return p + 8;
}

/* All are put down; the place of one that is not connected goes to the next. */
static uint8_t *put_inputs(uint8_t *p, uint32_t unconnected)
{
    for (uint32_t i = 0; i < INPUTS; i++) {
        memcpy(p, inputs[i], 8);
        p += 8 * (~unconnected >> i & 1);
    }
    memcpy(p, local_inputs, sizeof local_inputs);
    return p + sizeof local_inputs;
}

/* The base entries; answers how many bytes they have. */
static size_t put_entries(uint8_t *base, const struct configuration *c,
                          uint8_t boot)
{
    uint8_t *p = base;

    p = put_processor(p, 0, c->version, boot);
    p = put_processor(p, 1, c->version, boot);
    p = put_bus(p, 0, c->bus);
    if (c->pci)
        p = put_bus(p, 1, "PCI   ");
    p = put_io_apic(p, c->version);
    p = put_inputs(p, c->unconnected);
    return (size_t)(p - base);
}

uint64_t plain_default_walk(uint8_t n, uint8_t boot, uint8_t *room, size_t size,
                            struct table *walked)
{
    uint8_t base[ENTRIES_MAX];

    /* 30: "number not 1 to 7 or boot processor not 0 or 1, ... and before 19" */
    if (n < 1 || n > 7 || boot > 1)
        return refused(30);

    size_t length = put_entries(base, &configurations[n - 1], boot);
    return plain_write_walk(&header, base, length, base, 0, room, size, walked);
}

uint64_t plain_default_table(uint8_t n, uint8_t boot, uint8_t *room, size_t size)
{
    struct table walked;

    return plain_default_walk(n, boot, room, size, &walked);
}

/*
 * "The pointer line stands as ever and the table's address is written 00000000":
 * 0 is the address that a default's pointer has, by rule 4.
 */
uint64_t plain_list_full(const uint8_t *dump, size_t n, uint8_t boot,
                         uint8_t *room, size_t size)
{
    struct found f;
    struct table t;
    uint8_t made[DEFAULT_MAX];
    uint64_t refusal = plain_find(dump, n, &f);

    if (refusal != 0)
        return refused(refusal);
    if (f.standard == 0)
        refusal = plain_judge_walk(f.table, f.left, &t);
    else
        refusal = plain_default_walk(f.standard, boot, made, sizeof made, &t) & 255;
    if (refusal != 0)
        return refused(refusal);
    return plain_list_walked(&f, &t, room, size);
}
