/*
 * The plain program's calls, by document 01 and its refusal numbers.  Each answers
 * one number, as include/ruxtajma.h has it: a refusal's number in the low byte,
 * values from bit 16 on.
 */
#ifndef PLAIN_PLAIN_H
#define PLAIN_PLAIN_H

#include "table.h"

static inline uint64_t refused(uint32_t number)
{
    return number;
}

static inline uint64_t counted(size_t count)
{
    return (uint64_t)count << 16;
}

/* ---- judging a table: 5 to 18 ---- */

/*
 * Judges a bare MP configuration table at the start of a buffer of n bytes.
 * Answers 0 (accepted) or the refusal number 5 to 18.  Bytes after the table
 * are allowed.  Reads only t[0] to t[n - 1]; t may be NULL if n is 0.
 */
uint64_t plain_judge(const uint8_t *t, size_t n);

/* The same; where it answers 0, it also tells where the entries stand. */
uint8_t plain_judge_walk(const uint8_t *t, size_t n, struct table *walked);

/* Marks of an ID: an enabled processor has it, an enabled I/O APIC, a bus. */
enum { PROCESSOR_ON = ENABLED, IO_APIC_ON = 2, A_BUS = 16 };

/* What a judge knows of the entries that it has passed. */
struct judge {
    struct table *table;
    uint8_t ids[256];      /* the marks of each, and others; 255 has the first two */
    uint32_t processors;   /* how many processors are enabled, */
    uint32_t io_apics;     /* and how many I/O APICs */
    uint8_t later;         /* the first of 14 to 18 that is broken, or 0 */
};

/* The same; where it answers 0, *j has all entries. */
uint8_t plain_judge_ids(const uint8_t *t, size_t n, struct table *walked,
                        struct judge *j);

/*
 * Judges such a table again, where one of its entries has been changed but for
 * type and length and the base bytes still add to 0: 0, or 14 to 18.
 */
uint8_t plain_judge_again(struct table *walked);

/* ---- reading a dump: 1 to 4; with the table in it judged: 1 to 18 ---- */

/* What a sound dump leads to. */
struct found {
    uint32_t pointer;       /* the floating pointer's address */
    uint8_t imcr;           /* 0 or 1 */
    uint8_t standard;       /* default configuration 1 to 7; 0: a table */
    uint32_t address;       /* the table's */
    const uint8_t *table;   /* its bytes, up to the end of their region; */
    size_t left;            /* 0 where no region holds the address */
};

/*
 * Reads a dump of n bytes.  Answers 0 and fills *f, or answers the refusal
 * number 1 to 4.  Whether a table stands at the address is the judge's matter:
 * with left under 44 it answers 5.  dump may be NULL if n is 0.
 */
uint8_t plain_find(const uint8_t *dump, size_t n, struct found *f);

/*
 * Reads a dump and judges the table in it.  Answers a refusal's number 1 to 18;
 * or from bit 16 on the default configuration's number, or 0, and from bit 24 on
 * the IMCR bit; of an accepted table also where it begins in the dump (bit 32)
 * and how many bytes lie from there to the end of its region (bit 48).
 */
uint64_t plain_read(const uint8_t *dump, size_t n);

/*
 * The floating pointer's address in the high half and the table's in the low
 * one, of a dump that holds an accepted table; 0 for any other.
 */
uint64_t plain_addresses(const uint8_t *dump, size_t n);

/* ---- listing a dump: 1 to 19 ---- */

/*
 * Lists a dump of n bytes into a room.  Answers how many bytes it wrote there,
 * from bit 16 on, or the refusal number; then nothing was written.  What
 * lies past the listing stays.  The two may not overlap; each may be NULL if
 * its length is 0.
 */
uint64_t plain_list(const uint8_t *dump, size_t n, uint8_t *room, size_t size);

/* The same of what a dump was found to lead to, a table that was accepted: 19. */
uint64_t plain_list_walked(const struct found *f, const struct table *walked,
                           uint8_t *room, size_t size);

/* ---- writing a table: 7, 13, 19 and the judge's; taking it apart: 5 to 18 ---- */

/* The header fields that the writer takes; it works out the others. */
struct fields {
    uint8_t oem_id[8];
    uint8_t product[12];
    uint32_t oem_pointer;
    uint16_t oem_size;
    uint32_t local_apic;
    uint8_t reserved;      /* byte 43 */
};

/*
 * Writes a table of these fields, base entries and extended entries at the
 * room's first byte.  Answers how many bytes it has, from bit 16 on, or the
 * refusal number: 7, 13 or 19, then nothing was written, or what the judge says
 * of the finished image, then its bytes are zero.  What lies past the
 * image stays.  The room may not overlap the entries; nothing may be NULL.
 */
uint64_t plain_write(const struct fields *f,
                     const uint8_t *base, size_t base_length,
                     const uint8_t *ext, size_t ext_length,
                     uint8_t *room, size_t size);

/* The same; of a table that was written it also tells where the entries stand. */
uint64_t plain_write_walk(const struct fields *f,
                          const uint8_t *base, size_t base_length,
                          const uint8_t *ext, size_t ext_length,
                          uint8_t *room, size_t size, struct table *walked);

/* What an accepted table was written from. */
struct parts {
    struct fields fields;
    size_t base_end;       /* base entries stand from byte 44 to here, */
    size_t ext_end;        /* and extended ones from there to here */
};

/* Takes an accepted table apart.  Reads its header only. */
void plain_parts(const uint8_t *t, struct parts *p);

/*
 * Judges a table and takes an accepted one apart.  Answers a refusal's number 5
 * to 18; or from bit 16 on where the base ends and from bit 32 on where the
 * extended part ends, and *p has these and the header fields.
 */
uint64_t plain_take_apart(const uint8_t *t, size_t n, struct parts *p);

/* ---- the default configurations, document 02: 30, 19; of a dump 1 to 18 ---- */

enum { DEFAULT_MAX = 252 };   /* bytes of the longest */

/*
 * Writes the table of a default configuration, 1 to 7, at the room's first byte, as
 * it is where processor 0 or 1 booted.  Answers how many bytes it has, from bit 16
 * on, or the refusal number, 30 or 19; then nothing was written.  What lies past the
 * table stays.  room may be NULL if its length is 0.
 */
uint64_t plain_default_table(uint8_t n, uint8_t boot, uint8_t *room, size_t size);

/* The same; where it is written it also tells where the entries stand. */
uint64_t plain_default_walk(uint8_t n, uint8_t boot, uint8_t *room, size_t size,
                            struct table *walked);

/*
 * As plain_list, but of a default configuration it lists that table, with the
 * address 0: 1 to 4, 30, 19.  Of any other dump boot decides nothing.
 */
uint64_t plain_list_full(const uint8_t *dump, size_t n, uint8_t boot,
                         uint8_t *room, size_t size);

/* ---- editing an entry: 5 to 18 and 20 to 23 ---- */

/*
 * Puts the wanted bytes in the place of a base entry of the table at the start
 * of a buffer of n bytes, and sets the base checksum right.  The place is the
 * entry's number, from 0; stated are the bytes that its author saw there.
 * Answers 0, or the refusal number, and with 23 in the second byte the number
 * of the edited table.  At a refusal every byte is as it was; what lies past
 * the table always is.  Nothing may overlap or be NULL.
 */
uint64_t plain_edit(uint8_t *t, size_t n, size_t place,
                    const uint8_t *stated, size_t stated_length,
                    const uint8_t *wanted, size_t wanted_length);

/* ---- asking a table: 5 to 18, 24, 25, 19 and 26 ---- */

/*
 * Where interrupts of a type from a bus and IRQ go, by the table at the start
 * of a buffer of n bytes.  Writes pairs (ID, input), two bytes each, from the
 * room's first byte: entries in table order, and for each entry the enabled
 * I/O APICs (of the other query: enabled processors) that it names, in table
 * order.  Answers how many pairs it wrote, from bit 16 on, or the refusal number;
 * then nothing was written.  What lies past the pairs stays.  Table
 * and room may not overlap; each may be NULL if its length is 0.
 */
uint64_t plain_io_routes(const uint8_t *t, size_t n, uint8_t type, uint8_t bus,
                         uint8_t irq, uint8_t *room, size_t size);
uint64_t plain_local_routes(const uint8_t *t, size_t n, uint8_t type, uint8_t bus,
                            uint8_t irq, uint8_t *room, size_t size);

/*
 * The same of a PCI slot: a bus, a device 0 to 31 and a pin 0 to 3 (INTA# to
 * INTD#).  The entries are the I/O interrupts of type INT whose source IRQ has the
 * pin in bits 0 and 1 and the device in bits 2 to 6; bit 7 decides nothing.
 */
uint64_t plain_slot_routes(const uint8_t *t, size_t n, uint8_t bus, uint8_t device,
                           uint8_t pin, uint8_t *room, size_t size);

/*
 * The slots that I/O interrupts of any type name on PCI buses.  Writes each once,
 * rising, as bus, device and pin, a byte each, from the room's first byte.  Answers
 * how many it wrote, from bit 16 on, or the refusal number, 5 to 18 or 19; then
 * nothing was written.  What lies past them stays.  Table and room may not overlap;
 * each may be NULL if its length is 0.
 */
uint64_t plain_slots(const uint8_t *t, size_t n, uint8_t *room, size_t size);

/*
 * New numbers for the I/O APICs: for each enabled one a byte, in table order, from
 * the room's first byte.  One that has an enabled processor's ID gets the lowest
 * free number from 0 to 254, any other keeps its own.  Answers how many it wrote,
 * from bit 16 on, and how many numbers are used then, enabled processors counted,
 * from bit 32 on; or the refusal number, 5 to 18, 19, or 26 where no number is free
 * for one, and nothing was written.  What lies past them stays.  Table and room may
 * not overlap; each may be NULL if its length is 0.
 */
uint64_t plain_renumber(const uint8_t *t, size_t n, uint8_t *room, size_t size);

/*
 * Whether an address of a kind (0 I/O, 1 memory, 2 prefetch) is one of a bus.
 * Answers the refusal number; or from bit 16 on 0 for no, 1 for yes, 2 for
 * undeclared, and from bit 24 on how many links to parents were climbed.
 */
uint64_t plain_address(const uint8_t *t, size_t n, uint8_t bus, uint8_t kind,
                       uint64_t address);

/* ---- the book of earlier tables, document 02: 27; 19, 28 and 29 ---- */

/*
 * A book stands at the start of a room of n bytes; what follows it is not read.
 * Each call reads all of it and judges every body, and answers 27 where it is bad.
 * Then nothing was written, nor at any other refusal.
 */

/* From bit 16 on how many rows it has, and from bit 32 on how many bytes. */
uint64_t plain_book(const uint8_t *b, size_t n);

/* The latest edition of a machine, from bit 16 on; 0 where it has none. */
uint64_t plain_latest(const uint8_t *b, size_t n, uint16_t machine);

/*
 * How many bytes the body of an edition has, from bit 16 on, and where it begins,
 * from bit 32 on; 28 where the book does not hold it.
 */
uint64_t plain_body(const uint8_t *b, size_t n, uint16_t machine, uint16_t edition);

/*
 * Writes every row from another room's first byte: machine and edition in two bytes
 * each, where its body begins and how long that is in four each.  Answers how many
 * rows, from bit 16 on; 19 where the room is too small.  What lies past them stays.
 */
uint64_t plain_history(const uint8_t *b, size_t n, uint8_t *room, size_t size);

/*
 * Adds a body as the next edition of a machine, and answers as plain_book.  began
 * is the edition that its author began from, 0 of a new machine.  5 to 18 of the
 * body, 7 also where bytes follow its table; 28 where another is the latest; 29
 * where there is no room.  What lies past the book stays.  The body may not overlap
 * the room.
 */
uint64_t plain_save(uint8_t *b, size_t n, uint16_t machine, uint16_t began,
                    const uint8_t *body, size_t length);

/*
 * The same with the body of an edition that the book holds; 28 also where it does
 * not hold it.
 */
uint64_t plain_restore(uint8_t *b, size_t n, uint16_t machine, uint16_t edition,
                       uint16_t latest);

/* ---- reading entries: document 01, "a reader that holds the lent table" ---- */

/*
 * The entry at a place, a byte offset, of any buffer of n bytes, judged or not.
 * Answers how many bytes it has, from bit 16 on; 0 where no whole one stands.
 */
uint64_t plain_entry(const uint8_t *t, size_t n, size_t place);

#endif
