/*
 * Ruxtajma's calls for C and for any language that can call C.  The library is
 * x86-64; `command/prove lib exports_c` proves it and writes target/staticlib/libexports.a.
 *
 * A slice is a pointer and a length.  The caller lends that many readable bytes
 * for the time of the call, writable ones where the pointer is not const, at any
 * alignment.  What may be written overlaps no other slice of its call: the stated
 * bytes of an edit are a copy, never those of the table itself, and the body of a
 * save is no part of its room.  A pointer is not null, even where the length is 0.
 * Any bytes may be lent.  Nothing is allocated, and nothing is kept between two
 * calls: calls that lend different memory may run at once.  Until a call returns
 * nobody else writes what is lent to it, nor reads what it may write.
 *
 * Every call but ruxtajma_addresses answers one number of this form.  Its low byte
 * is the refusal's number, 0 where there is none; its second byte is the inner
 * number where the first is 23, else 0; the 48 bits above are the values of the
 * answer, 0 at a refusal.  A refusal leaves every byte as it was, but for
 * ruxtajma_write where the finished table breaks a rule.
 *
 * The numbers.  A call tests them in the order in which its comment names them;
 * of 10 to 12 the first faulty entry decides, then the lower number.
 *   1  the dump breaks a rule of its own     16  I/O APICs
 *   2  no good floating pointer              17  interrupts
 *   3  the pointer's revision is not 4       18  address spaces, links, modifiers
 *   4  feature byte 1 and address            19  answer longer than the room
 *   5  no 44 bytes of header in one region   20  no such place
 *   6  not "PCMP"                            21  length or type of an edit
 *   7  base length, or bytes behind a body   22  changed meanwhile: not as stated
 *   8  base sum                              23  the edited table would be refused
 *   9  the table's revision is not 4         24  a query about an unlisted bus, or
 *  10  a base type over 4                        of an unknown kind or type
 *  11  a cut entry, or the count             25  a slot of a bus that is not PCI,
 *  12  base types not ascending                  or no such device or pin
 *  13  the extended part                     26  no number is free for an I/O APIC
 *  14  local APIC address, processors        27  a bad book, or a bad body in it
 *  15  buses                                 28  not the latest edition, or one that
 *                                                the book does not hold
 *                                            29  no room for one edition more
 *                                            30  no such default configuration, or
 *                                                no such boot processor
 */
#ifndef RUXTAJMA_H
#define RUXTAJMA_H

#include <stddef.h>
#include <stdint.h>

#ifdef __cplusplus
extern "C" {
#endif

/* ---- what stands in an answer ---- */

/* The number of the refusal, or 0. */
static inline unsigned ruxtajma_refusal(uint64_t answer)
{
    return (unsigned)(answer & 255);
}

/* At 23: the number that the edited table would be refused with. */
static inline unsigned ruxtajma_inner(uint64_t answer)
{
    return (unsigned)(answer >> 8 & 255);
}

/*
 * How many bytes, pairs, slots or rows were written; or how long an entry is.  Not
 * of the calls that answer two values, which have functions of their own for them.
 */
static inline size_t ruxtajma_count(uint64_t answer)
{
    return (size_t)(answer >> 16);
}

/* ---- the calls ---- */

/* Judges a bare table.  5 to 18, or accepted.  Writes nothing. */
uint64_t ruxtajma_judge(const uint8_t *table, size_t table_length);

/*
 * What a dump holds.  1 to 18; or a default configuration, whose number, 1 to 7,
 * ruxtajma_default() takes out; or an accepted table, of which that is 0: it
 * begins at ruxtajma_start() in the dump, and ruxtajma_length() bytes lie from
 * there to the end of its region.  Of both, ruxtajma_imcr() is the IMCR bit, 0 or
 * 1.  Writes nothing.
 */
uint64_t ruxtajma_read(const uint8_t *dump, size_t dump_length);

static inline unsigned ruxtajma_default(uint64_t answer)
{
    return (unsigned)(answer >> 16 & 255);
}

static inline unsigned ruxtajma_imcr(uint64_t answer)
{
    return (unsigned)(answer >> 24 & 255);
}

static inline size_t ruxtajma_start(uint64_t answer)
{
    return (size_t)(answer >> 32 & 65535);
}

static inline size_t ruxtajma_length(uint64_t answer)
{
    return (size_t)(answer >> 48);
}

/*
 * The physical addresses in a dump that holds an accepted table, and 0 for any
 * other dump: this is the one answer with no refusal in it.  Writes nothing.
 */
uint64_t ruxtajma_addresses(const uint8_t *dump, size_t dump_length);

static inline uint32_t ruxtajma_pointer_address(uint64_t answer)
{
    return (uint32_t)(answer >> 32);
}

static inline uint32_t ruxtajma_table_address(uint64_t answer)
{
    return (uint32_t)answer;
}

/*
 * Lists a dump: the text stands in the room from its first byte on, with no zero
 * behind it, and what lies past it stays.  1 to 19, or the count of bytes.  A room
 * of 65,536 bytes holds every listing.
 */
uint64_t ruxtajma_list(const uint8_t *dump, size_t dump_length,
                       uint8_t *room, size_t room_length);

/*
 * Lists a dump in full.  Of a default configuration the table that it stands for
 * is listed, as it is when processor `boot` booted, 0 or 1: the pointer's line as
 * ever, then the table's with the address 00000000, its entries and the end.  1 to
 * 4; 30 where `boot` is neither 0 nor 1; 19; or the count of bytes.  Of any other
 * dump `boot` decides nothing, and all is as of ruxtajma_list.  A room of 65,536
 * bytes holds every full listing.
 */
uint64_t ruxtajma_list_full(const uint8_t *dump, size_t dump_length,
                            uint8_t boot, uint8_t *room, size_t room_length);

/*
 * Writes the full table of a default configuration, 1 to 7 (MPS chapter 5), as it
 * is when processor `boot` booted, 0 or 1: it stands in the room from its first
 * byte on, and what lies past it stays.  It is accepted, and may be asked, edited
 * and saved as any other; ruxtajma_list_full lists it.  30 where there is no such
 * configuration or processor, then 19: the room stays as it was.  Else the count
 * of its bytes; a room of 252 holds each of them.
 */
uint64_t ruxtajma_default_table(uint8_t number, uint8_t boot,
                                uint8_t *room, size_t room_length);

/*
 * Writes a new table from its parts: it stands in the room from its first byte
 * on, and what lies past it stays.  7 where the base entries are over 4,052 bytes,
 * 13 where the extended ones are over 4,096, 19: all of the room stays.  Then 10
 * to 18 where the finished table breaks a rule: just its bytes are 0.  Else the
 * count of its bytes; a room of 8,192 holds every table.  Eight bytes are taken of
 * the OEM ID and twelve of the product, 0 where there are fewer.
 */
uint64_t ruxtajma_write(const uint8_t *oem, size_t oem_length,
                        const uint8_t *product, size_t product_length,
                        uint32_t oem_pointer, uint16_t oem_size,
                        uint32_t local_apic, uint8_t reserved,
                        const uint8_t *base, size_t base_length,
                        const uint8_t *extended, size_t extended_length,
                        uint8_t *room, size_t room_length);

/*
 * Where the parts of a table stand.  5 to 18; or its base entries are the bytes
 * from 44 to ruxtajma_base_end(), its extended entries those from there to
 * ruxtajma_extended_end().  The header fields that the writer takes stand at 8
 * (OEM ID), 16 (product), 28 (OEM pointer), 32 (OEM size), 36 (local APIC address)
 * and 43 (reserved).  Writes nothing.
 */
uint64_t ruxtajma_parts(const uint8_t *table, size_t table_length);

static inline size_t ruxtajma_base_end(uint64_t answer)
{
    return (size_t)(answer >> 16 & 65535);
}

static inline size_t ruxtajma_extended_end(uint64_t answer)
{
    return (size_t)(answer >> 32);
}

/*
 * Replaces the base entry at a place, counted from 0: the wanted bytes stand in
 * the table, and the base checksum for them; every other byte is as it was.  5 to
 * 18, 20 to 22, or 23 with an inner number: every byte is as it was.
 */
uint64_t ruxtajma_edit(uint8_t *table, size_t table_length, size_t place,
                       const uint8_t *stated, size_t stated_length,
                       const uint8_t *wanted, size_t wanted_length);

/*
 * The entry at a place, a byte offset, of any buffer: the count of its bytes, 0
 * where no whole entry stands.  The next one is that many bytes further.  It
 * refuses nothing and writes nothing.
 */
uint64_t ruxtajma_entry(const uint8_t *table, size_t table_length, size_t place);

/*
 * Where an interrupt line goes, given its type (0 INT, 1 NMI, 2 SMI, 3 ExtINT), bus
 * and IRQ: pairs of an ID and an input, two bytes each, from the room's first byte
 * on, and what lies past them stays.  5 to 18, 24 or 19, or the count of pairs.  To
 * I/O APICs, and to local APICs.
 */
uint64_t ruxtajma_io_routes(const uint8_t *table, size_t table_length,
                            uint8_t type, uint8_t bus, uint8_t irq,
                            uint8_t *room, size_t room_length);
uint64_t ruxtajma_local_routes(const uint8_t *table, size_t table_length,
                               uint8_t type, uint8_t bus, uint8_t irq,
                               uint8_t *room, size_t room_length);

/*
 * Where the interrupt of a PCI slot goes, given bus, device (0 to 31) and pin (0
 * INTA# to 3 INTD#): the pairs of the I/O interrupts of type INT whose source IRQ
 * has that device in bits 2 to 6 and that pin in bits 0 and 1, whatever its bit 7
 * is; written as by ruxtajma_io_routes.  5 to 18, 24, 25 or 19, or the count of
 * pairs.
 */
uint64_t ruxtajma_slot_routes(const uint8_t *table, size_t table_length,
                              uint8_t bus, uint8_t device, uint8_t pin,
                              uint8_t *room, size_t room_length);

/*
 * The slots that the I/O interrupts of PCI buses name, whatever their type: each
 * once, rising, as its bus, device and pin, a byte each, from the room's first
 * byte on, and what lies past them stays.  5 to 18 or 19, or the count of slots.
 * A room of 1,518 bytes holds them all.
 */
uint64_t ruxtajma_slots(const uint8_t *table, size_t table_length,
                        uint8_t *room, size_t room_length);

/*
 * New numbers for the I/O APICs: a byte for each enabled one, in table order, from
 * the room's first byte on, and what lies past them stays.  One that shares an
 * enabled processor's ID gets the lowest number from 0 to 254 that is free; every
 * other enabled one keeps its own, and that is free to none.  5 to 18 or 19, 26
 * where one that needs a number finds none free; or ruxtajma_numbered() bytes were
 * written, and ruxtajma_used() numbers are in use then, those of the enabled
 * processors counted.  A room of 255 bytes holds them all.  The table stays as it
 * is, and routes name the table's numbers.
 */
uint64_t ruxtajma_renumber(const uint8_t *table, size_t table_length,
                           uint8_t *room, size_t room_length);

static inline size_t ruxtajma_numbered(uint64_t answer)
{
    return (size_t)(answer >> 16 & 65535);
}

static inline size_t ruxtajma_used(uint64_t answer)
{
    return (size_t)(answer >> 32);
}

/*
 * Whether a bus sees an address of a kind (0 I/O, 1 memory, 2 prefetch).  5 to 18
 * or 24; or ruxtajma_seen(), one of the three, and ruxtajma_links() of how many
 * links to parents were climbed.  Writes nothing.
 *
 * The first that applies: no, if a modifier takes it away; yes, if a 128 entry of
 * that kind covers it or a modifier adds it; the parent's answer, if the bus has
 * the subtractive bit; no, if it has any 128 or 130 entry; else undeclared.  But
 * when the parent answers yes, the answer is no if another bus with that parent
 * declares or adds the address and does not take it away; undeclared if none does
 * but some other such bus has neither a 128 nor a 130 entry and no subtractive
 * bit; else yes.  The links are those climbed, whichever of these it is.
 *
 * So who is in the way can be asked, too: of a listed bus of an accepted table and
 * a kind 0 to 2, yes with 0 links is given exactly when the bus declares or adds
 * the address and does not take it away, and undeclared with 0 links exactly when
 * it has neither a 128 nor a 130 entry and no subtractive bit.
 */
uint64_t ruxtajma_address(const uint8_t *table, size_t table_length,
                          uint8_t bus, uint8_t kind, uint64_t address);

enum { RUXTAJMA_NO, RUXTAJMA_YES, RUXTAJMA_UNDECLARED };

static inline unsigned ruxtajma_seen(uint64_t answer)
{
    return (unsigned)(answer >> 16 & 255);
}

static inline unsigned ruxtajma_links(uint64_t answer)
{
    return (unsigned)(answer >> 24);
}

/* ---- the book of earlier tables ---- */

/*
 * A book holds tables of several machines, each with its number, any of 16 bits,
 * and its edition, 1, 2, 3 and so on.  It stands at the start of a room, which may
 * be longer; what follows it is not read, and 32,768 bytes hold any book.  The
 * empty one has three bytes: 1 (the layout), 0 and 0 (no rows).  Every call below
 * tests the whole book first, 27, each body in it too.
 */

/*
 * How many rows a book has, ruxtajma_rows(), and how many bytes,
 * ruxtajma_book_size(); or 27.  Writes nothing.
 */
uint64_t ruxtajma_book(const uint8_t *book, size_t book_length);

static inline size_t ruxtajma_rows(uint64_t answer)
{
    return (size_t)(answer >> 16 & 65535);
}

static inline size_t ruxtajma_book_size(uint64_t answer)
{
    return (size_t)(answer >> 32);
}

/*
 * The latest edition of a machine, ruxtajma_edition(), 0 where the book has none;
 * or 27.  Writes nothing.
 */
uint64_t ruxtajma_latest(const uint8_t *book, size_t book_length, uint16_t machine);

static inline unsigned ruxtajma_edition(uint64_t answer)
{
    return (unsigned)(answer >> 16 & 65535);
}

/*
 * Where the body of an edition stands: ruxtajma_body_size() bytes of the book from
 * ruxtajma_body_start() on, an accepted table with nothing behind it.  27, or 28
 * where the book does not hold it.  Writes nothing.
 */
uint64_t ruxtajma_body(const uint8_t *book, size_t book_length,
                       uint16_t machine, uint16_t edition);

static inline size_t ruxtajma_body_size(uint64_t answer)
{
    return (size_t)(answer >> 16 & 65535);
}

static inline size_t ruxtajma_body_start(uint64_t answer)
{
    return (size_t)(answer >> 32);
}

/*
 * Every row of a book, in its order: machine and edition, two bytes each, where its
 * body begins and how many bytes that has, four bytes each, the low byte first;
 * from the room's first byte on, and what lies past them stays.  27 or 19, or the
 * count of rows, twelve bytes each.  A room of 7,560 bytes holds them all.
 */
uint64_t ruxtajma_history(const uint8_t *book, size_t book_length,
                          uint8_t *room, size_t room_length);

/*
 * Saves a table as the next edition of a machine: its row stands behind all rows
 * and its bytes behind all bodies; every edition that the book held it holds still.
 * `began` is the edition that its author began from, 0 for a new machine.  27; the
 * body's own number, 5 to 18, or 7 where bytes follow its table; 28 where `began`
 * is not the machine's latest edition now, 0 where it has none; 29 where the book
 * would have more than 32,768 bytes or more than the room, or where the latest
 * edition is 65,535: every byte is as it was.  Else the book's ruxtajma_rows() and
 * ruxtajma_book_size() now; what lies past it stays.
 */
uint64_t ruxtajma_save(uint8_t *room, size_t room_length,
                       uint16_t machine, uint16_t began,
                       const uint8_t *body, size_t body_length);

/*
 * Saves an old edition of a machine once more, as its next one.  `latest` is the
 * edition that is the latest now.  27; 28 where the book does not hold the old one,
 * or another is the latest; 29 as of a save: every byte is as it was.  Else as
 * ruxtajma_save.
 */
uint64_t ruxtajma_restore(uint8_t *room, size_t room_length,
                          uint16_t machine, uint16_t edition, uint16_t latest);

#ifdef __cplusplus
}
#endif

#endif
