/*
 * The plain table judge.  Each rule quotes its row of document 01.
 *
 * Types ascend, so the entries of one type stand together: each type has a loop
 * that passes over its entries and tests their own rule on the way.  Rules 14 to
 * 18 count only where 10 to 13 are kept, which is known at the end; until then
 * the first of them that is broken is kept in mind.
 */
#include "plain.h"

#include <stdbool.h>
#include <string.h>

static const uint8_t base_size[BASE_TYPES] = { 20, 8, 8, 8, 8 };

/*
 * Six letters as a number, and the 18 names, each at the place that its number
 * gives it.  The factor was found by trying: no two names have the same place
 * (the compiler would warn of it).  Place 0 is taken, so six zeros are no name.
 */
#define NAME(a, b, c, d, e, f) \
    ((uint64_t)(a) | (uint64_t)(b) << 8 | (uint64_t)(c) << 16 \
     | (uint64_t)(d) << 24 | (uint64_t)(e) << 32 | (uint64_t)(f) << 40)
#define PLACE(name) ((name) * UINT64_C(0xC64239FA24BA) >> 59)
#define KNOWN(...) [PLACE(NAME(__VA_ARGS__))] = NAME(__VA_ARGS__)

static const uint64_t bus_names[32] = {
    KNOWN('C','B','U','S',' ',' '), KNOWN('C','B','U','S','I','I'),
    KNOWN('E','I','S','A',' ',' '), KNOWN('F','U','T','U','R','E'),
    KNOWN('I','N','T','E','R','N'), KNOWN('I','S','A',' ',' ',' '),
    KNOWN('M','B','I',' ',' ',' '), KNOWN('M','B','I','I',' ',' '),
    KNOWN('M','C','A',' ',' ',' '), KNOWN('M','P','I',' ',' ',' '),
    KNOWN('M','P','S','A',' ',' '), KNOWN('N','U','B','U','S',' '),
    KNOWN('P','C','I',' ',' ',' '), KNOWN('P','C','M','C','I','A'),
    KNOWN('T','C',' ',' ',' ',' '), KNOWN('V','L',' ',' ',' ',' '),
    KNOWN('V','M','E',' ',' ',' '), KNOWN('X','P','R','E','S','S'),
};

/* Marks of an ID beside those in plain.h, of enabled APICs and of buses. */
enum {
    A_PROCESSOR = 4, AN_IO_APIC = 8,   /* listed, enabled or not */
    LINKED = 32, SEEN = 64             /* see in_a_circle() */
};

static void start_judging(struct judge *j, struct table *t)
{
    j->table = t;
    j->later = 0;
    /* In pieces: gcc clears more at once by an instruction that starts slowly. */
    for (size_t i = 0; i < sizeof j->ids; i += 64)
        memset(j->ids + i, 0, 64);
    /* 255 is a destination on every board, and no enabled APIC may have it. */
    j->ids[ALL] = A_PROCESSOR | AN_IO_APIC | PROCESSOR_ON | IO_APIC_ON;
}

/* The loops come in the order of their rules, so the first number stays. */
static void keep_in_mind(struct judge *j, bool broken, uint8_t number)
{
    if (broken && j->later == 0)
        j->later = number;
}

/* Rules 5 to 9: the header, and the base part as a whole. */
static uint8_t judge_header(const uint8_t *t, size_t n)
{
    /* 5: "44 header bytes not in one region" */
    if (n < HEADER_SIZE)
        return 5;

    /* 6: "not "PCMP"" */
    if (memcmp(t, "PCMP", 4) != 0)
        return 6;

    /* 7: "base length under 44, over 4,096 or past the region" */
    size_t base_length = get16(t + 4);
    if (base_length < HEADER_SIZE || base_length > PART_MAX || base_length > n)
        return 7;

    /* 8: "base sum" */
    if (sum(t, base_length) != 0)
        return 8;

    /* 9: "table revision not 4" */
    if (t[6] != 4)
        return 9;

    return 0;
}

/* ---- base entries: each loop answers where the next type begins ---- */

/*
 * 14: "local APIC address not a multiple of 4,096; not exactly one bootstrap
 * entry, or that one disabled; an enabled processor with ID 255 or another
 * enabled one's ID"
 */
static size_t pass_processors(struct judge *j, size_t at)
{
    const uint8_t *b = j->table->bytes;
    size_t end = j->table->base_end;
    uint32_t bootstraps = 0, off = 0;
    uint8_t before = 0;   /* the marks that enabled ones found at their IDs */
    bool broken = get32(b + 36) % 4096 != 0;

    for (; at + 20 <= end && b[at] == PROCESSOR; at += 20) {
        uint8_t *id = &j->ids[b[at + 1]];
        uint8_t flags = b[at + 3];

        if (flags & BOOTSTRAP) {
            bootstraps++;
            if (!(flags & ENABLED))
                broken = true;
        }
        if (flags & ENABLED) {
            before |= *id;
            *id |= A_PROCESSOR | PROCESSOR_ON;
        } else {
            *id |= A_PROCESSOR;
            off++;
        }
    }
    j->processors = (uint32_t)(at - HEADER_SIZE) / 20 - off;
    keep_in_mind(j, broken || before & PROCESSOR_ON || bootstraps != 1, 14);
    return at;
}

/* 15: "bus ID twice, or name unknown" */
static size_t pass_buses(struct judge *j, size_t at)
{
    const uint8_t *b = j->table->bytes;
    size_t end = j->table->base_end;
    bool broken = false;

    for (; at + 8 <= end && b[at] == BUS; at += 8) {
        uint8_t *id = &j->ids[b[at + 1]];
        uint64_t name = get16(b + at + 2) | (uint64_t)get32(b + at + 4) << 16;

        if (*id & A_BUS || name != bus_names[PLACE(name)])
            broken = true;
        *id |= A_BUS;
    }
    keep_in_mind(j, broken, 15);
    return at;
}

/*
 * 16: "enabled I/O APIC: ID 255, ID of another enabled I/O APIC ..., address 0 or
 * not a multiple of 1,024".  Document 02: "an ID shared with an enabled processor
 * is no longer a fault".
 */
static size_t pass_io_apics(struct judge *j, size_t at)
{
    const uint8_t *b = j->table->bytes;
    size_t end = j->table->base_end;
    size_t first = at;
    uint32_t off = 0;
    uint8_t before = 0;   /* as of processors */
    bool broken = false;

    for (; at + 8 <= end && b[at] == IO_APIC; at += 8) {
        uint8_t *id = &j->ids[b[at + 1]];
        uint32_t address = get32(b + at + 4);

        if (b[at + 3] & ENABLED) {
            if (address == 0 || address % 1024 != 0)
                broken = true;
            before |= *id;
            *id |= AN_IO_APIC | IO_APIC_ON;
        } else {
            *id |= AN_IO_APIC;
            off++;
        }
    }
    j->io_apics = (uint32_t)(at - first) / 8 - off;
    keep_in_mind(j, broken || before & IO_APIC_ON, 16);
    return at;
}

/*
 * 17: "interrupt type over 3; reserved polarity or trigger; bus not listed;
 * destination neither 255 nor the ID of a listed I/O APIC (type 3) or
 * processor (type 4), enabled or not; local input over 1"
 */
static inline size_t pass_interrupts(struct judge *j, size_t at, uint8_t type,
                                     uint8_t destination, uint8_t last_input)
{
    const uint8_t *b = j->table->bytes;
    size_t end = j->table->base_end;
    bool broken = false;

    for (; at + 8 <= end && b[at] == type; at += 8) {
        const uint8_t *e = b + at;
        uint8_t polarity = e[2] & 3;
        uint8_t trigger = e[2] >> 2 & 3;

        if (e[1] > 3 || polarity == 2 || trigger == 2
            || !(j->ids[e[4]] & A_BUS) || !(j->ids[e[6]] & destination)
            || e[7] > last_input)
            broken = true;
    }
    keep_in_mind(j, broken, 17);
    return at;
}

/*
 * Rules 10 to 12: "the first faulty entry decides, then the lower number; the
 * count is compared only where no entry is faulty".
 */
static uint8_t walk_base(struct judge *j)
{
    struct table *t = j->table;
    size_t at = HEADER_SIZE;

    t->base[PROCESSOR] = at;
    t->base[BUS] = at = pass_processors(j, at);
    t->base[IO_APIC] = at = pass_buses(j, at);
    t->base[IO_INT] = at = pass_io_apics(j, at);
    t->base[LOCAL_INT] = at = pass_interrupts(j, at, IO_INT, AN_IO_APIC, 255);
    t->base[BASE_TYPES] = at = pass_interrupts(j, at, LOCAL_INT, A_PROCESSOR, 1);

    if (at < t->base_end) {
        uint8_t type = t->bytes[at];

        /* 10: "base type over 4" */
        if (type >= BASE_TYPES)
            return 10;

        /* 11: "entry cut by the base end, ..." */
        if (base_size[type] > t->base_end - at)
            return 11;

        /* 12: "type below the one before": else its own loop had passed it */
        return 12;
    }

    /* 11: "... or count differs after the walk" */
    size_t count = (t->base[BUS] - HEADER_SIZE) / 20 + (at - t->base[BUS]) / 8;
    return count == get16(t->bytes + 34) ? 0 : 11;
}

/* ---- extended entries: the same ---- */

/* Whether an entry of a known type stands there, with its length. */
static inline bool stands(const uint8_t *b, size_t at, size_t end, uint8_t type,
                          uint8_t size)
{
    return at + size <= end && b[at] == EXT_FIRST + type && b[at + 1] == size;
}

/* 18, type 128: "extended bus ... not listed; kind over 2; range past 2^64" */
static size_t pass_mappings(struct judge *j, size_t at)
{
    const uint8_t *b = j->table->bytes;
    size_t end = j->table->ext_end;
    bool broken = false;

    for (; stands(b, at, end, MAPPING, 20); at += 20) {
        const uint8_t *e = b + at;
        uint64_t base = get64(e + 4);
        uint64_t length = get64(e + 12);

        if (!(j->ids[e[2]] & A_BUS) || e[3] > 2)
            broken = true;
        /* The last address, base + length - 1, is at most 2^64 - 1. */
        if (length != 0 && length - 1 > UINT64_MAX - base)
            broken = true;
    }
    keep_in_mind(j, broken, 18);
    return at;
}

/*
 * Climb from each linked bus to the first bus that has no parent or was seen
 * before.  A bus seen earlier in the same climb closes a circle.  Every bus is
 * stepped over once in all.
 */
static bool in_a_circle(const uint8_t *link, const uint8_t *end, uint8_t *ids,
                        const uint8_t *parent)
{
    uint8_t climb[256];   /* set for the seen ones: who came past */

    for (; link < end; link += 8) {
        uint8_t start = link[2];
        uint8_t bus = start;

        if (ids[start] & SEEN)
            continue;
        while ((ids[bus] & (LINKED | SEEN)) == LINKED) {
            ids[bus] |= SEEN;
            climb[bus] = start;
            bus = parent[bus];
        }
        if (ids[bus] & SEEN && climb[bus] == start)
            return true;
    }
    return false;
}

/*
 * 18, type 129: "extended bus or parent not listed; ... second type 129 entry
 * for a bus; parents in a circle (self too)"
 */
static size_t pass_links(struct judge *j, size_t at)
{
    const uint8_t *b = j->table->bytes;
    size_t end = j->table->ext_end;
    size_t first = at;
    uint8_t parent[256];   /* set for the linked ones */
    bool broken = false;

    for (; stands(b, at, end, LINK, 8); at += 8) {
        const uint8_t *e = b + at;
        uint8_t *bus = &j->ids[e[2]];

        if (!(*bus & A_BUS) || !(j->ids[e[4]] & A_BUS) || *bus & LINKED)
            broken = true;
        *bus |= LINKED;
        parent[e[2]] = e[4];
    }
    keep_in_mind(j, broken || in_a_circle(b + first, b + at, j->ids,
                                              parent), 18);
    return at;
}

/* 18, type 130: "extended bus ... not listed; ... list over 1" */
static size_t pass_modifiers(struct judge *j, size_t at)
{
    const uint8_t *b = j->table->bytes;
    size_t end = j->table->ext_end;
    bool broken = false;

    for (; stands(b, at, end, MODIFIER, 8); at += 8) {
        const uint8_t *e = b + at;

        if (!(j->ids[e[2]] & A_BUS) || get32(e + 4) > 1)
            broken = true;
    }
    keep_in_mind(j, broken, 18);
    return at;
}

/* "Other types are skipped by their length." */
static size_t pass_others(const struct table *t, size_t at)
{
    const uint8_t *b = t->bytes;
    uint8_t last = EXT_FIRST + EXT_TYPES;

    while (at + 2 <= t->ext_end && b[at] >= last
           && b[at + 1] >= 2 && at + b[at + 1] <= t->ext_end) {
        last = b[at];
        at += b[at + 1];
    }
    return at;
}

/* 13: "extended part over 4,096, past the region, wrong sum, ..." */
static uint8_t judge_extended_part(struct table *t, size_t n)
{
    size_t length = get16(t->bytes + 40);

    if (length > PART_MAX || length > n - t->base_end)
        return 13;
    /* Byte 42 belongs to the sum, so it is 0 where no bytes follow. */
    if ((uint8_t)(sum(t->bytes + t->base_end, length) + t->bytes[42]) != 0)
        return 13;
    t->ext_end = t->base_end + length;
    return 0;
}

/*
 * 13: "... cut entry, length under 2, type under 128 or descending, or 128 to
 * 130 with another length than theirs": at such an entry no loop goes on.
 */
static uint8_t walk_extended(struct judge *j)
{
    struct table *t = j->table;
    size_t at = t->base_end;

    t->ext[MAPPING] = at;
    t->ext[LINK] = at = pass_mappings(j, at);
    t->ext[MODIFIER] = at = pass_links(j, at);
    t->ext[EXT_TYPES] = at = pass_modifiers(j, at);
    return pass_others(t, at) == t->ext_end ? 0 : 13;
}

uint8_t plain_judge_ids(const uint8_t *bytes, size_t n, struct table *t,
                        struct judge *j)
{
    uint8_t refusal;

    if ((refusal = judge_header(bytes, n)) != 0)
        return refusal;

    t->bytes = bytes;
    t->base_end = get16(bytes + 4);
    start_judging(j, t);
    if ((refusal = walk_base(j)) != 0
        || (refusal = judge_extended_part(t, n)) != 0
        || (refusal = walk_extended(j)) != 0)
        return refusal;
    return j->later;
}

uint8_t plain_judge_walk(const uint8_t *bytes, size_t n, struct table *t)
{
    struct judge j;

    return plain_judge_ids(bytes, n, t, &j);
}

uint8_t plain_judge_again(struct table *t)
{
    struct judge j;

    start_judging(&j, t);
    walk_base(&j);
    if (j.later == 0)
        walk_extended(&j);
    return j.later;
}

uint64_t plain_judge(const uint8_t *bytes, size_t n)
{
    struct table walked;

    return plain_judge_walk(bytes, n, &walked);
}
