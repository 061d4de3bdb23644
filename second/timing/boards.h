/* Tables to measure with, and dumps around them. */
#ifndef SECOND_BOARDS_H
#define SECOND_BOARDS_H

#include "builder.h"

#include <stdbool.h>

/* Fills a started builder; with part 2, half of what is meant. */
typedef void make_board(struct builder *b, uint32_t part);

/*
 * Both parts full, entries of all types in them; 16 bytes less; and full again, with
 * a processor, a bus and an I/O APIC that nothing names, each the last of its type.
 */
make_board make_mixed, make_large, make_spare;

/*
 * Little but so many entries of one type.  The buses have all names in turn, or
 * are PCI and the last one ISA; the unknown entries have two bytes; all buses of
 * the chain are subtractive, and its links come from the far end on, or from the
 * root on.  The chain that is seen, and the siblings, have memory at the root.
 */
make_board make_processors, make_buses, make_pci_buses, make_io_apics,
           make_interrupts, make_local_interrupts, make_mappings, make_chain,
           make_rising_chain, make_seen_chain, make_siblings, make_modifiers,
           make_unknowns;

/* 220 interrupts of one source to all of 16 I/O APICs, and to all of 16 processors. */
make_board make_sixteen;

/*
 * Full of interrupts of PCI slots, to one I/O APIC: of two slots on each of 167
 * buses, of all 128 slots of a bus, and of one slot.  Bit 7 is set in some.
 */
make_board make_pci_slots, make_all_slots, make_one_slot;

/*
 * Processors, and I/O APICs that have an ID of theirs: 200 and 6; 150 and 105, which
 * leaves no number over; 120 and 120, of which half keep a number of their own, in
 * no regular order.
 */
make_board make_few_sharing, make_all_sharing, make_half_sharing;

/*
 * 253 interrupts of one source to all of 250 I/O APICs, of which two are on, or
 * all.  These have one size, and so do
 */
make_board make_few_targets, make_many_targets;

/*
 * the bench board, it with a PCI bus for its ISA bus, some 40 entries on PCI and
 * ISA, as boards of the day have, and the same with processors' IDs for its I/O APICs.
 */
make_board make_bench, make_pci_bench, make_typical, make_shared;

/* A lone processor: no table has fewer bytes. */
make_board make_smallest;

/* Where the floating pointer of a dump stands; and the table in it. */
enum pointer { FIRST, LAST, NOWHERE };
enum { TABLE_IN_DUMP = 1 + 9 + 16 };

/*
 * A dump of one kind 3 region at F0000h, the table at F0010h as on the bench
 * board.  The pointer stands before it, in the last paragraph, or nowhere.  A
 * size makes the dump so long, 0 as long as needed.  Answers its length.
 */
size_t dump_around(const struct builder *b, size_t size, enum pointer pointer,
                   uint8_t *out);

/* The same of a default configuration: no table, the pointer in the last paragraph. */
size_t dump_of_default(uint8_t configuration, size_t size, uint8_t *out);

#endif
