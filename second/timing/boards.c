/* Tables to measure with: typical ones, and full ones that stress one thing. */
#include "boards.h"

#include <stdio.h>
#include <stdlib.h>
#include <string.h>

static void processors(struct builder *b, uint32_t on, uint32_t off)
{
    for (uint32_t i = 0; i < on; i++)
        add_processor(b, (uint8_t)i, i == 0 ? 3 : 1);
    for (uint32_t i = 0; i < off; i++)
        add_processor(b, 255, 0);
}

/* Of all names in turn. */
static void buses(struct builder *b, uint32_t n)
{
    for (uint32_t i = 0; i < n; i++)
        add_bus(b, (uint8_t)i, bus_names[i * 7 % 18]);
}

/* The last is ISA. */
static void pci_buses(struct builder *b, uint32_t n)
{
    for (uint32_t i = 0; i < n; i++)
        add_bus(b, (uint8_t)i, i < n - 1 ? "PCI   " : "ISA   ");
}

static void io_apics(struct builder *b, uint32_t first, uint32_t n)
{
    for (uint32_t i = 0; i < n; i++)
        add_io_apic(b, (uint8_t)(first + i), 1, 0xFEC00000u + (i << 12));
}

/* From all of the buses in turn, to one destination after the other and to all. */
static void interrupts(struct builder *b, uint8_t entry, uint32_t n, uint32_t n_bus,
                       uint32_t first, uint32_t n_to)
{
    static const uint8_t flags[4] = { 0, 5, 15, 13 };

    for (uint32_t i = 0; i < n; i++)
        add_interrupt(b, entry, i % 5 == 0 ? 3 : 0, flags[i % 4],
                      (uint8_t)(i % n_bus), (uint8_t)i,
                      (uint8_t)(i % 11 == 0 ? 255 : first + i % n_to),
                      (uint8_t)(entry == 4 ? i & 1 : i % 24));
}

static void mappings(struct builder *b, uint32_t n, uint32_t n_bus)
{
    for (uint32_t i = 0; i < n; i++)
        add_mapping(b, (uint8_t)(i % n_bus), (uint8_t)(i % 3),
                    (uint64_t)i << 24, 1u << (12 + i % 12));
}

/* A tree, of which every other bus is subtractive. */
static void tree(struct builder *b, uint32_t n_bus)
{
    for (uint32_t i = n_bus - 1; i > 0; i--)
        add_link(b, (uint8_t)i, i & 1, (uint8_t)(i / 2));
}

static void modifiers(struct builder *b, uint32_t n, uint32_t n_bus)
{
    for (uint32_t i = 0; i < n; i++)
        add_modifier(b, (uint8_t)(i % n_bus), i & 1, i / 2 & 1);
}

/* Fills the extended part with unknown types of a length. */
static void unknowns(struct builder *b, size_t goal, uint8_t length)
{
    size_t n = (goal - b->ext_len) / length;

    for (size_t i = 0; b->ext_len < goal; i++) {
        size_t left = goal - b->ext_len;
        add_unknown(b, (uint8_t)(131 + i * 120 / n),
                    left < length ? (uint8_t)left : length, 0x5A);
    }
}

/* Both parts have just the bytes that were meant. */
static void must_be_full(const struct builder *b, size_t goal, size_t ext_goal)
{
    if (base_left(b, goal) == 0 && ext_left(b, ext_goal) == 0)
        return;
    fprintf(stderr, "%zu + %zu bytes, not %zu + %zu\n", HEADER + b->base_len,
            b->ext_len, goal, ext_goal);
    exit(2);
}

/*
 * Full, but for so many bytes of the extended part.  With spare 1, the last of the
 * processors, of the buses and of the I/O APICs is named by nothing else.
 */
static void mixed(struct builder *b, uint32_t part, size_t less, uint32_t spare)
{
    size_t goal = PART_LIMIT / part;

    /* 16 enabled ones, and a disabled or spare one: 4,096 needs an odd number. */
    processors(b, 16 / part + spare, 1 - spare);
    buses(b, 32 / part + spare);
    io_apics(b, 16, 8 / part + spare);

    uint32_t n = (uint32_t)(base_left(b, goal) / 8);
    interrupts(b, 3, n - n / 8, 32 / part, 16, 8 / part);
    interrupts(b, 4, n / 8, 32 / part, 0, 16 / part);
    mappings(b, 150 / part, 32 / part);
    tree(b, 32 / part);
    modifiers(b, 20 / part, 32 / part);
    unknowns(b, goal - less, 16);
    must_be_full(b, goal, goal - less);
}

void make_mixed(struct builder *b, uint32_t part)
{
    mixed(b, part, 0, 0);
}

void make_large(struct builder *b, uint32_t part)
{
    mixed(b, part, 16, 0);
}

void make_spare(struct builder *b, uint32_t part)
{
    mixed(b, part, 0, 1);
}

void make_smallest(struct builder *b, uint32_t part)
{
    (void)part;
    processors(b, 1, 0);
}

void make_processors(struct builder *b, uint32_t part)
{
    processors(b, 200 / part, 0);
}

void make_buses(struct builder *b, uint32_t part)
{
    processors(b, 1, 0);
    buses(b, 256 / part);
}

void make_pci_buses(struct builder *b, uint32_t part)
{
    processors(b, 1, 0);
    pci_buses(b, 256 / part);
}

void make_io_apics(struct builder *b, uint32_t part)
{
    small_board(b);
    io_apics(b, 1, 250 / part);
}

void make_interrupts(struct builder *b, uint32_t part)
{
    small_board(b);
    io_apics(b, 1, 1);
    interrupts(b, 3, 500 / part, 1, 1, 1);
}

void make_local_interrupts(struct builder *b, uint32_t part)
{
    small_board(b);
    interrupts(b, 4, 500 / part, 1, 0, 1);
}

void make_mappings(struct builder *b, uint32_t part)
{
    small_board(b);
    mappings(b, 204 / part, 1);
}

static void chain(struct builder *b, uint32_t n, bool root_first)
{
    processors(b, 1, 0);
    buses(b, n + 1);
    for (uint32_t i = 1; i <= n; i++) {
        uint32_t bus = root_first ? i : n + 1 - i;

        add_link(b, (uint8_t)bus, 1, (uint8_t)(bus - 1));
    }
}

void make_chain(struct builder *b, uint32_t part)
{
    chain(b, 254 / part, false);
}

void make_rising_chain(struct builder *b, uint32_t part)
{
    chain(b, 254 / part, true);
}

/* Memory that the other boards leave undeclared. */
static void high_memory(struct builder *b, uint32_t bus)
{
    add_mapping(b, (uint8_t)bus, 1, (uint64_t)1 << 63, (uint64_t)1 << 62);
}

/* What the root has comes down the whole chain: nobody stands beside it. */
void make_seen_chain(struct builder *b, uint32_t part)
{
    uint32_t n = 255 / part;

    processors(b, 1, 0);
    buses(b, n + 1);
    high_memory(b, 0);
    for (uint32_t bus = n; bus > 0; bus--)
        add_link(b, (uint8_t)bus, 1, (uint8_t)(bus - 1));
}

/* All hang on bus 0, and what it has each of them could claim. */
void make_siblings(struct builder *b, uint32_t part)
{
    uint32_t n = 255 / part;

    processors(b, 1, 0);
    buses(b, n + 1);
    high_memory(b, 0);
    for (uint32_t bus = 1; bus <= n; bus++)
        add_link(b, (uint8_t)bus, 1, 0);
}

void make_modifiers(struct builder *b, uint32_t part)
{
    small_board(b);
    modifiers(b, 512 / part, 1);
}

void make_unknowns(struct builder *b, uint32_t part)
{
    small_board(b);
    unknowns(b, PART_LIMIT / part, 2);
}

/* All of one source to all; each answer has 16 pairs for an interrupt. */
void make_sixteen(struct builder *b, uint32_t part)
{
    processors(b, 16, 0);
    buses(b, 1);
    io_apics(b, 16, 16);
    for (uint32_t i = 0; i < 220 / part; i++)
        add_interrupt(b, 3, 0, 0, 0, 1, 255, (uint8_t)i);
    for (uint32_t i = 0; i < 220 / part; i++)
        add_interrupt(b, 4, 0, 0, 0, 1, 255, (uint8_t)(i & 1));
}

/* Half of the base I/O APICs, half interrupts of one source to all of them. */
static void one_source(struct builder *b, uint32_t on)
{
    small_board(b);
    io_apics(b, 1, on);
    for (uint32_t i = on; i < 250; i++)
        add_io_apic(b, (uint8_t)(1 + i), 0, 0);
    while (base_left(b, PART_LIMIT) > 0)
        add_interrupt(b, 3, 0, 0, 0, 1, 255, (uint8_t)b->count);
}

void make_few_targets(struct builder *b, uint32_t part)
{
    (void)part;
    one_source(b, 2);
}

void make_many_targets(struct builder *b, uint32_t part)
{
    (void)part;
    one_source(b, 250);
}

void make_pci_slots(struct builder *b, uint32_t part)
{
    uint32_t n = 168 / part;

    processors(b, 1, 0);
    pci_buses(b, n);
    io_apics(b, 1, 1);
    for (uint32_t i = 0; i < 2 * n - 1; i++)
        add_interrupt(b, 3, 0, 0, (uint8_t)(i / 2),
                      (uint8_t)((i & 1 ? 0x94 : 0x08) + i / 2 % 4), 1,
                      (uint8_t)i);
}

/* So many interrupts, of so many slots of bus 0 in turn, which lie so far apart. */
static void slots(struct builder *b, uint32_t n, uint32_t n_slot, uint32_t apart)
{
    processors(b, 1, 0);
    pci_buses(b, 2);
    io_apics(b, 1, 1);
    for (uint32_t i = 0; i < n; i++)
        add_interrupt(b, 3, 0, 0, 0,
                      (uint8_t)(i % n_slot * apart | (i / n_slot & 1) << 7), 1,
                      (uint8_t)i);
}

void make_all_slots(struct builder *b, uint32_t part)
{
    slots(b, 501 / part, 128 / part, part);
}

void make_one_slot(struct builder *b, uint32_t part)
{
    slots(b, 501 / part, 1, 0);
}

void make_few_sharing(struct builder *b, uint32_t part)
{
    processors(b, 200 / part, 0);
    io_apics(b, 0, 6 / part);
}

void make_all_sharing(struct builder *b, uint32_t part)
{
    processors(b, 150 / part, 0);
    io_apics(b, 0, 105 / part);
}

/* Of two that follow each other one shares, the first or the second. */
void make_half_sharing(struct builder *b, uint32_t part)
{
    uint32_t n = 120 / part;

    processors(b, n, 0);
    for (uint32_t i = 0; i < n; i++) {
        uint32_t which = i / 2 * 2654435761u >> 13;

        io_apics(b, (i ^ which) & 1 ? i : n + i, 1);
    }
}

void make_bench(struct builder *b, uint32_t part)
{
    uint8_t board[HEADER + 52];

    (void)part;
    bench_board(board);
    unseal(b, board);
}

void make_pci_bench(struct builder *b, uint32_t part)
{
    make_bench(b, part);
    memcpy(b->base + 20 + 2, "PCI   ", 6);   /* behind the processor */
}

static void typical(struct builder *b, uint32_t first)
{
    processors(b, 4, 0);
    pci_buses(b, 4);
    io_apics(b, first, 2);
    interrupts(b, 3, 21, 4, first, 2);
    interrupts(b, 4, 3, 4, 0, 4);
    mappings(b, 4, 4);
    tree(b, 3);
    modifiers(b, 2, 4);
}

void make_typical(struct builder *b, uint32_t part)
{
    (void)part;
    typical(b, 4);
}

void make_shared(struct builder *b, uint32_t part)
{
    (void)part;
    typical(b, 0);
}

enum { BODY = 10 };   /* where the body of a dump's only region begins */

/* A region of zeros; the length is as needed, or makes the dump so long. */
static size_t lay_out_region(size_t needed, size_t size, uint8_t *out)
{
    size_t length = size > BODY ? size - BODY : needed;

    memset(out, 0, BODY + length);
    out[0] = 1, out[1] = 3;
    put_le(out + 2, 0xF0000, 4);
    put_le(out + 6, length, 4);
    return length;
}

static void put_pointer(uint8_t *p, uint32_t address, uint8_t feature)
{
    memcpy(p, "_MP_", 4);
    put_le(p + 4, address, 4);
    p[8] = 1, p[9] = 4, p[11] = feature;
    p[10] = (uint8_t)-byte_sum(p, 16);
}

static uint8_t *last_paragraph(uint8_t *out, size_t length)
{
    return out + BODY + length / 16 * 16 - 16;
}

size_t dump_around(const struct builder *b, size_t size, enum pointer pointer,
                   uint8_t *out)
{
    size_t needed = HEADER + b->base_len + b->ext_len + 16;
    size_t length = lay_out_region(needed, size, out);

    seal(b, out + BODY + 16);
    if (pointer != NOWHERE)
        put_pointer(pointer == LAST ? last_paragraph(out, length) : out + BODY,
                    0xF0010, 0);
    return BODY + length;
}

size_t dump_of_default(uint8_t configuration, size_t size, uint8_t *out)
{
    size_t length = lay_out_region(16, size, out);

    put_pointer(last_paragraph(out, length), 0, configuration);
    return BODY + length;
}
