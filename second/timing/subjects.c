/* The tables, dumps and books that are measured.  All programs must agree on each. */
#include "subjects.h"

#include "books.h"
#include "ruxtajma.h"

#include <stdio.h>
#include <stdlib.h>
#include <string.h>

struct subject subjects[SUBJECTS_MAX];
size_t subject_count;

uint8_t room[ROOM_SIZE];

static struct builder b;

static timed *const programs[PROGRAMS] = {
    [OURS] = timed_library, [PLAIN_O2] = timed_plain, [THIRD] = timed_third,
};

uint64_t call_program(int program, struct subject *s)
{
    return programs[program](s);
}

/* ---- boards ---- */

struct board {
    const char *name;
    make_board *make;
    size_t dump;             /* the dump has so many bytes; 0: as many as needed */
    enum pointer pointer;
    unsigned rows;           /* what speed does with it, */
    unsigned doubled;        /* and growth, with half of it too */
};

enum {
    CHANGES = BIT(EDIT_ENTRY) | BIT(EDIT_ID) | BIT(EDIT_ID_REFUSED),
    OF_DEFAULTS = BIT(MAKE_DEFAULT) | BIT(LIST_FULL),
    /* All that is not done with books or defaults, nor to an entry of one type. */
    EVERY = (BIT(BOOK) - 1) & ~(CHANGES | OF_DEFAULTS),
    REFUSED = BIT(EDIT_REFUSED) | BIT(EDIT_ID_REFUSED),
    DUMPS = BIT(READ) | BIT(ADDRESSES) | BIT(LIST) | BIT(LIST_FITTING),
    LISTS = BIT(JUDGE) | BIT(LIST) | BIT(LIST_FITTING),
    BOTH_ROUTES = BIT(ROUTES) | BIT(LOCAL_ROUTES),
    BOTH_SLOTS = BIT(SLOT_ROUTES) | BIT(SLOTS)
};

static const struct board boards[] = {
    /* It has no slot to ask about. */
    { "bench board", make_bench, 0, FIRST,
      (EVERY & ~BIT(SLOT_ROUTES)) | BIT(EDIT_ENTRY), 0 },
    { "bench board on PCI", make_pci_bench, 0, FIRST, BOTH_SLOTS, 0 },
    { "a typical board, 42 entries", make_typical, 0, FIRST,
      EVERY | BIT(EDIT_ENTRY), 0 },
    { "full table, all entry types", make_mixed, 0, FIRST,
      EVERY | BIT(EDIT_ENTRY) | BIT(EDIT_ID_REFUSED), EVERY | BIT(EDIT_ID_REFUSED) },
    { "full table, some IDs unnamed", make_spare, 0, FIRST, BIT(EDIT_ID),
      BIT(EDIT_ID) },
    { "full table in 65,536 bytes", make_mixed, SUBJECT_ROOM, LAST, EVERY, DUMPS },
    { "65,536 bytes, pointer in the last paragraph", make_typical, SUBJECT_ROOM,
      LAST, BIT(READ) | BIT(LIST) | BIT(LIST_FITTING), 0 },
    { "65,536 bytes, no pointer", make_typical, SUBJECT_ROOM, NOWHERE,
      BIT(READ) | BIT(LIST), BIT(READ) },
    { "a typical board, IDs shared", make_shared, 0, FIRST, BIT(RENUMBER), 0 },
    { "200 processors", make_processors, 0, FIRST, BIT(JUDGE), BIT(JUDGE) },
    { "256 buses", make_buses, 0, FIRST, BIT(JUDGE), LISTS },
    { "256 buses, PCI and ISA", make_pci_buses, 0, FIRST, BIT(JUDGE), 0 },
    { "250 I/O APICs", make_io_apics, 0, FIRST, BIT(JUDGE) | BIT(RENUMBER),
      BIT(JUDGE) | BIT(RENUMBER) },
    { "500 interrupts", make_interrupts, 0, FIRST, BIT(JUDGE),
      LISTS | BIT(EDIT) | BIT(WRITE) },
    { "500 local interrupts", make_local_interrupts, 0, FIRST, BIT(JUDGE),
      BIT(JUDGE) },
    { "204 mappings", make_mappings, 0, FIRST, BIT(JUDGE), LISTS | BIT(ADDRESS) },
    { "a chain of 254 links", make_chain, 0, FIRST, BIT(JUDGE) | BIT(ADDRESS),
      BIT(JUDGE) | BIT(ADDRESS) },
    { "a chain of 254 links, root first", make_rising_chain, 0, FIRST, BIT(JUDGE),
      BIT(JUDGE) },
    { "a chain of 255 links, seen", make_seen_chain, 0, FIRST, BIT(ADDRESS),
      BIT(ADDRESS) },
    { "255 buses with one parent", make_siblings, 0, FIRST, BIT(JUDGE) | BIT(ADDRESS),
      BIT(JUDGE) | BIT(ADDRESS) },
    { "512 modifiers", make_modifiers, 0, FIRST, BIT(JUDGE),
      BIT(JUDGE) | BIT(IO_ADDRESS) },
    { "2,048 unknown entries", make_unknowns, 0, FIRST, LISTS,
      LISTS | BIT(WRITE) | BIT(WALK) },
    { "220 entries to all of 16", make_sixteen, 0, FIRST, BOTH_ROUTES,
      BOTH_ROUTES },
    { "253 entries to all of 250, two on", make_few_targets, 0, FIRST, BIT(ROUTES),
      0 },
    { "253 entries to all of 250", make_many_targets, 0, FIRST, BIT(ROUTES), 0 },
    { "167 PCI buses of two slots", make_pci_slots, 0, FIRST, BOTH_SLOTS,
      BOTH_SLOTS },
    { "a PCI bus of 128 slots", make_all_slots, 0, FIRST, BOTH_SLOTS, BOTH_SLOTS },
    { "501 entries of one slot", make_one_slot, 0, FIRST, BOTH_SLOTS, BOTH_SLOTS },
    { "200 processors, 6 sharing", make_few_sharing, 0, FIRST, BIT(RENUMBER),
      BIT(RENUMBER) },
    { "150 processors, 105 sharing", make_all_sharing, 0, FIRST, BIT(RENUMBER),
      BIT(RENUMBER) },
    { "120 processors, 60 of 120 sharing", make_half_sharing, 0, FIRST,
      BIT(RENUMBER), BIT(RENUMBER) },
};

/* ---- default configurations ---- */

struct standard {
    const char *name;
    uint8_t configuration;
    size_t dump;             /* as of a board, with the pointer last */
    unsigned rows, doubled;
};

/* With one bus; with two inputs not connected; with two buses, the longest. */
static const struct standard standards[] = {
    { "configuration 1", 1, 0, BIT(MAKE_DEFAULT), 0 },
    { "configuration 2", 2, 0, BIT(MAKE_DEFAULT), 0 },
    { "configuration 5", 5, 0, OF_DEFAULTS, 0 },
    { "configuration 5 at the end of 65,536 bytes", 5, SUBJECT_ROOM, BIT(LIST_FULL),
      BIT(LIST_FULL) },
};

/* ---- edits of a certain type ---- */

/*
 * What of an entry is changed, and to what.  Which rules have to be tested again
 * depends on the type, and on whether an ID changes that others may name.  The ID
 * 200 is free on the boards in question.
 */
struct change {
    const char *what;
    enum work work;
    uint8_t type, at;
    const char *bytes;
};

static const struct change changes[] = {
    { "edit a processor", EDIT_ENTRY, 0, 8, "\1" },      /* a feature flag */
    { "edit a bus", EDIT_ENTRY, 1, 2, "EISA  " },
    { "edit an I/O APIC", EDIT_ENTRY, 2, 2, "\x20" },    /* its version */
    { "edit a processor's ID", EDIT_ID, 0, 1, "\xC8" },
    { "edit a bus's ID", EDIT_ID, 1, 1, "\xC8" },
    { "edit an I/O APIC's ID", EDIT_ID, 2, 1, "\xC8" },
    { "edit a bus's ID, refused with 23", EDIT_ID_REFUSED, 1, 1, "\xC8" },
};

/* ---- what is asked of the board in b ---- */

static size_t entry_length(const uint8_t *entry)
{
    return entry[0] == 0 ? 20 : 8;
}

/* The entry at a place, twice: what is wanted there is still to be changed. */
static void ask_place(struct subject *s, size_t place)
{
    size_t at = 0;

    s->place = place;
    for (size_t i = 0; i < s->place; i++)
        at += entry_length(b.base + at);
    s->entry_size = entry_length(b.base + at);
    memcpy(s->entry[0], b.base + at, s->entry_size);
    memcpy(s->entry[1], b.base + at, s->entry_size);
}

/*
 * The last entry, an interrupt on every board: its IRQ decides nothing, and its
 * type 4 is refused with 17.
 */
static void ask_edit(struct subject *s)
{
    ask_place(s, b.count - 1);
    if (s->work == EDIT_REFUSED)
        s->entry[1][1] = 4;
    else
        s->entry[1][5] ^= 1;
}

/* How many entries have a type below this one. */
static size_t count_below(unsigned type)
{
    size_t n = 0;

    for (size_t at = 0; at < b.base_len && b.base[at] < type; n++)
        at += entry_length(b.base + at);
    return n;
}

/*
 * The entry in the middle of its type, where the ID stays; else the last of its
 * type: on the board with some IDs unnamed nothing names it; on the full table an
 * interrupt does, and that is refused with 17.
 */
static void ask_change(struct subject *s, const struct change *c)
{
    size_t first = count_below(c->type), end = count_below(c->type + 1u);

    ask_place(s, s->work == EDIT_ENTRY ? (first + end) / 2 : end - 1);
    memcpy(s->entry[1] + c->at, c->bytes, strlen(c->bytes));
    if (s->entry[0][0] != c->type
        || memcmp(s->entry[0], s->entry[1], s->entry_size) == 0) {
        fprintf(stderr, "%s: nothing to change\n", label(s));
        exit(2);
    }
}

static void ask_write(struct subject *s)
{
    struct fields *f = &s->fields;

    memcpy(f->oem_id, b.header + 8, sizeof f->oem_id);
    memcpy(f->product, b.header + 16, sizeof f->product);
    f->oem_pointer = get_le(b.header + 28, 4);
    f->oem_size = (uint16_t)get_le(b.header + 32, 2);
    f->local_apic = get_le(b.header + 36, 4);
    f->reserved = b.header[43];
    s->base_end = HEADER + b.base_len;
    s->ext_end = s->base_end + b.ext_len;
}

/* The interrupt in the middle of them. */
static const uint8_t *middle(uint8_t entry)
{
    size_t first = 0, last = b.base_len;

    while (b.base[first] != entry)
        first += entry_length(b.base + first);
    while (b.base[last - 8] != entry)
        last -= 8;
    return b.base + first + (last - first) / 16 * 8;
}

static void ask_routes(struct subject *s, uint8_t entry)
{
    const uint8_t *e = middle(entry);

    s->type = e[1], s->bus = e[4], s->irq = e[5];
}

static bool on_pci(uint8_t bus)
{
    for (size_t at = 0; at < b.base_len; at += entry_length(b.base + at))
        if (b.base[at] == 1 && b.base[at + 1] == bus)
            return memcmp(b.base + at + 2, "PCI   ", 6) == 0;
    return false;
}

/* The slot of an interrupt in the middle, or of the next one that is routed. */
static void ask_slot(struct subject *s)
{
    const uint8_t *e = middle(3);

    while (e[0] == 3 && (e[1] != 0 || !on_pci(e[4])))
        e += 8;
    if (e[0] != 3) {
        fprintf(stderr, "%s: no slot to ask about\n", s->name);
        exit(2);
    }
    s->bus = e[4], s->device = e[5] >> 2 & 31, s->pin = e[5] & 3;
}

/*
 * An address that no bus has, but for the boards made for it; asked on the first bus
 * that climbs.
 */
static void ask_address(struct subject *s)
{
    s->bus = 0;
    s->kind = 1;
    s->address = (uint64_t)1 << 63;
    for (size_t at = 0; at < b.ext_len; at += b.ext[at + 1])
        if (b.ext[at] == 129 && b.ext[at + 3] & 1) {
            s->bus = b.ext[at + 2];
            return;
        }
}

/* One that is on both lists, on the first bus that has a modifier. */
static void ask_io_address(struct subject *s)
{
    s->bus = 0;
    s->kind = 0;
    s->address = 0x3B0;
    for (size_t at = 0; at < b.ext_len; at += b.ext[at + 1])
        if (b.ext[at] == 130) {
            s->bus = b.ext[at + 2];
            return;
        }
}

/* ---- subjects ---- */

static const char *const works[WORKS] = {
    [JUDGE] = "judge", [PARTS] = "take apart", [READ] = "read a dump",
    [ADDRESSES] = "addresses in a dump", [LIST] = "list",
    [LIST_FITTING] = "list, room just fits", [LIST_FULL] = "list in full",
    [EDIT] = "edit", [EDIT_REFUSED] = "edit refused with 23", [WRITE] = "write",
    [MAKE_DEFAULT] = "make a default's table",
    [ROUTES] = "route", [LOCAL_ROUTES] = "local route",
    [SLOT_ROUTES] = "slot route", [SLOTS] = "slots", [RENUMBER] = "renumber",
    [ADDRESS] = "address", [IO_ADDRESS] = "I/O address",
    [WALK] = "walk the entries", [BOOK] = "book", [LATEST] = "latest edition",
    [BODY] = "body", [HISTORY] = "history", [SAVE] = "save",
    [SAVE_REFUSED] = "save refused with 28", [RESTORE] = "restore",
};

const char *label(const struct subject *s)
{
    static char text[2 * LABEL_WIDTH];
    int n = snprintf(text, sizeof text, "%s: %s", s->what, s->name);

    if (BIT(s->work) & (BOTH_ROUTES | BIT(SLOT_ROUTES)))
        snprintf(text + n, sizeof text - (size_t)n, ", pairs %zu",
                 ruxtajma_count(s->answer));
    if (s->work == SLOTS)
        snprintf(text + n, sizeof text - (size_t)n, ", slots %zu",
                 ruxtajma_count(s->answer));
    if (s->work == RENUMBER)
        snprintf(text + n, sizeof text - (size_t)n, ", numbers %zu",
                 ruxtajma_numbered(s->answer));
    if (s->work == ADDRESS || s->work == IO_ADDRESS)
        snprintf(text + n, sizeof text - (size_t)n, ", links %u",
                 ruxtajma_links(s->answer));
    return text;
}

/* What is meant to be refused is refused so, and the rest is not. */
static bool expected(enum pointer pointer, enum work work, uint64_t answer)
{
    if (work == ADDRESSES)
        return answer != 0;
    return (answer & 0xFFFF) == (BIT(work) & REFUSED ? 23 | 17 << 8
                                 : work == SAVE_REFUSED ? 28
                                 : pointer == NOWHERE ? 2 : 0);
}

/* In a room that has nothing of the call before: what stands there is its own. */
static uint64_t call_afresh(int program, struct subject *s)
{
    memset(room, 0x5A, sizeof room);
    return call_program(program, s);
}

/* All answer the same, and leave the same in the room. */
static void check(enum pointer pointer, struct subject *s)
{
    static uint8_t left[ROOM_SIZE];

    s->answer = call_afresh(PLAIN_O2, s);
    memcpy(left, room, sizeof left);
    for (int j = 0; j < PROGRAMS; j++) {
        uint64_t answer = call_afresh(j, s);

        if (answer != s->answer || !expected(pointer, s->work, answer)) {
            fprintf(stderr, "%s, %zu bytes: program %d answers %llX\n", label(s),
                    s->size, j, (unsigned long long)answer);
            exit(2);
        }
        if (memcmp(room, left, sizeof left) != 0) {
            fprintf(stderr, "%s, %zu bytes: program %d leaves another room\n",
                    label(s), s->size, j);
            exit(2);
        }
    }
}

/* A dump; or a table, with what lies behind it in the region of such a dump. */
static void lay_out(const struct board *k, struct subject *s, uint32_t part)
{
    if (BIT(s->work) & DUMPS) {
        s->size = dump_around(&b, k->dump / part, k->pointer, s->bytes);
        return;
    }
    s->size = seal(&b, s->bytes);
    if (k->dump > 0)
        s->size = k->dump / part - TABLE_IN_DUMP;
}

static struct subject *new_subject(const char *name, enum work work)
{
    struct subject *s = &subjects[subject_count++];

    if (subject_count > SUBJECTS_MAX) {
        fprintf(stderr, "more than %d subjects\n", SUBJECTS_MAX);
        exit(2);
    }
    s->what = works[work];
    s->name = name;
    s->work = work;
    s->room = sizeof room;
    return s;
}

/* Puts a board in b. */
static void start_board(make_board *make, uint32_t part)
{
    builder_start(&b, 0xFEE00000u);
    make(&b, part);
}

static void make_subject(const struct board *k, enum work work,
                         const struct change *c, uint32_t part)
{
    struct subject *s = new_subject(k->name, work);

    if (c != NULL)
        s->what = c->what;
    start_board(k->make, part);
    lay_out(k, s, part);
    switch (work) {
    case EDIT: case EDIT_REFUSED: ask_edit(s); break;
    case EDIT_ENTRY: case EDIT_ID: case EDIT_ID_REFUSED: ask_change(s, c); break;
    case WRITE: ask_write(s); break;
    case ROUTES: ask_routes(s, 3); break;
    case LOCAL_ROUTES: ask_routes(s, 4); break;
    case SLOT_ROUTES: ask_slot(s); break;
    case ADDRESS: ask_address(s); break;
    case IO_ADDRESS: ask_io_address(s); break;
    default: break;
    }
    check(k->pointer, s);
    if (work == LIST_FITTING) {
        s->room = ruxtajma_count(s->answer);
        check(k->pointer, s);
    }
}

/* Half of a book has half of the rows, of the same table. */
static void make_book(const struct volume *v, enum work work, uint32_t part)
{
    struct subject *s = new_subject(v->name, work);

    start_board(v->table, 1);
    lay_out_book(v, &b, part, s);
    check(FIRST, s);
}

static void make_standard(const struct standard *k, enum work work, uint32_t part)
{
    struct subject *s = new_subject(k->name, work);

    s->configuration = k->configuration;
    s->boot = 0;
    s->size = dump_of_default(k->configuration, k->dump / part, s->bytes);
    check(LAST, s);
}

/* NULL for the change where the work is none. */
static void make_of_boards(enum work work, const struct change *c, bool doubled)
{
    for (size_t i = 0; i < sizeof boards / sizeof boards[0]; i++) {
        const struct board *k = &boards[i];

        if (!((doubled ? k->doubled : k->rows) & BIT(work)))
            continue;
        make_subject(k, work, c, 1);
        if (doubled)
            make_subject(k, work, c, 2);
    }
}

static void make_of_changes(enum work work, bool doubled)
{
    for (size_t i = 0; i < sizeof changes / sizeof changes[0]; i++)
        if (changes[i].work == work)
            make_of_boards(work, &changes[i], doubled);
}

static void make_of_volumes(enum work work, bool doubled)
{
    for (const struct volume *v = volumes; v->name != NULL; v++) {
        if (!((doubled ? v->doubled : v->works) & BIT(work)))
            continue;
        make_book(v, work, 1);
        if (doubled)
            make_book(v, work, 2);
    }
}

static void make_of_standards(enum work work, bool doubled)
{
    for (size_t i = 0; i < sizeof standards / sizeof standards[0]; i++) {
        const struct standard *k = &standards[i];

        if (!((doubled ? k->doubled : k->rows) & BIT(work)))
            continue;
        make_standard(k, work, 1);
        if (doubled)
            make_standard(k, work, 2);
    }
}

static void make_all(bool doubled)
{
    for (enum work work = 0; work < WORKS; work++) {
        if (BIT(work) & CHANGES)
            make_of_changes(work, doubled);
        else
            make_of_boards(work, NULL, doubled);
        make_of_volumes(work, doubled);
        make_of_standards(work, doubled);
    }
}

void make_subjects(void)
{
    make_all(false);
}

void make_doubled(void)
{
    make_all(true);
}
