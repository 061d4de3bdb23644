/* What the generator makes: cases, and what is to be answered where it is known. */
#ifndef SECOND_CASES_H
#define SECOND_CASES_H

#include "within.h"

struct draft;   /* draft.h */
struct fault;   /* faults.h */
struct address_query;

/* ---- tables, for judges ---- */

enum { CASE_ROOM = 65536 + 4096 };

struct test_case {
    const char *label;
    int expected;            /* 0, 5 to 18, or -1 where not known beforehand */
    size_t size;
    uint8_t bytes[CASE_ROOM];
};

/* A case of any kind. */
void gen_case(struct rng *r, struct test_case *c);

/* An accepted table, from a lone processor up to 4,096 + 4,096 bytes. */
void sound_table(struct rng *r, struct builder *b);
void sound_case(struct rng *r, struct test_case *c);

/* At times, some random bytes behind the table. */
void slack(struct rng *r, struct test_case *c);

/* The builder's table, which is sound, and slack. */
void finish_case(struct rng *r, const struct builder *b, const char *label,
                 struct test_case *c);

/* Two or three faults at once: the order of the tests. */
void several_faults(struct rng *r, struct test_case *c);

/* A few bytes changed, with or without mended sums. */
void damaged(struct rng *r, struct test_case *c);

/* Runs of bytes moved, doubled or cleared inside the parts, mended. */
void spliced(struct rng *r, struct test_case *c);

/* Random bytes, bare or behind a header that gets them looked at. */
void random_bytes(struct rng *r, struct test_case *c);

/* A sound table in a buffer cut anywhere, or stating any lengths. */
void ill_measured(struct rng *r, struct test_case *c);

/* ---- tables that queries have much to say about ---- */

/* Repeated sources, APICs that are off or share an ID, ranges at edges. */
void rich_case(struct rng *r, struct test_case *c);

/* A chain of parents, of up to 256 buses. */
void chain_case(struct rng *r, struct test_case *c);

/*
 * Buses that share their parents, up to 255 of them one; and a question about them,
 * whose answer is known from how the table was built.
 */
void family_case(struct rng *r, struct test_case *c, struct address_query *q);

/* An address where one of the paper's ranges begins or ends, or beside that. */
uint64_t edge_address(struct rng *r);

/* ---- dumps, for readers and listers ---- */

enum { HEAD_ROOM = 96 };

/*
 * expected as in struct test_case, but 0, 1 to 18, or -1; where it is 0 the
 * listing starts with head, so that which pointer decides is known beforehand.
 */
struct dump_case {
    struct test_case c;
    char head[HEAD_ROOM];
    int64_t pointer;   /* that one's address, which head may not have; or -1 */
};

/*
 * Lays a sound dump out around a table.  NULL gives a default configuration.
 * tight: the table's region ends with the buffer of the case, as for a bare
 * table; else bytes may follow.
 */
void sound_draft(struct rng *r, struct draft *d, const struct test_case *table,
                 bool tight);

/* Puts pointers that don't count, or come too late, beside the one that does. */
void add_decoys(struct rng *r, struct draft *d);

/* Writes the dump and what is known of its listing. */
void finish_dump(struct draft *d, struct dump_case *out, const char *label,
                 int expected);

/* A sound dump of an accepted table or of a default configuration. */
void sound_dump(struct rng *r, struct draft *d);

/* A sound dump with a fault in it. */
void dump_fault_case(struct rng *r, const struct fault *f, struct dump_case *out);

/* A dump of any kind; and one of a default configuration, sound or not. */
void gen_dump(struct rng *r, struct dump_case *out);
void gen_default_dump(struct rng *r, struct dump_case *out);

/* ---- default configurations ---- */

enum {
    DEFAULTS = 7,
    DEFAULT_IMAGE = 252,   /* bytes of the longest table */
    DEFAULT_TEXT = 1024    /* more than any full listing has */
};

/* "30, number not 1 to 7 or boot processor not 0 or 1"; else 0. */
int expect_default(uint8_t configuration, uint8_t boot);

/*
 * MPS Table 5-2: the input that an IRQ, or the 8259A's INTR, is connected to; -1
 * where there is none.
 */
enum { INTR_8259A = -2 };
int input_of(uint8_t configuration, int source);

/* The buses, by their numbers: names with no padding, NULL for one that is not. */
const char *bus_of(uint8_t configuration, unsigned number);

/* The table; answers its length. */
size_t default_image(uint8_t configuration, uint8_t boot, uint8_t *image);

/* All lines of a full listing; answers how many bytes they have. */
size_t default_listing(uint8_t configuration, uint8_t boot, uint32_t pointer,
                       unsigned imcr, char text[DEFAULT_TEXT]);

/* Numbers mostly good, at times not, of which the low byte alone is to count. */
uint64_t gen_configuration(struct rng *r);
uint64_t gen_boot(struct rng *r);

/* ---- the parts of a table, for writers ---- */

enum {
    OEM_ID = 8, PRODUCT = 12,   /* bytes of the two names in a header */
    NAME_ROOM = 32              /* they may be lent longer */
};

struct parts_case {
    const char *label;
    int expected;            /* in a large room: 0, 7, 10 to 18, or -1 */
    const uint8_t *image;    /* where it is 0: all that is to be written */
    const uint8_t *header;   /* the fields; both names as they come out */
    const uint8_t *oem, *product;                /* as they are lent */
    size_t oem_length, product_length;
    const uint8_t *base, *ext;
    size_t base_length, ext_length;

    /* What these mostly point to. */
    struct builder b;
    uint8_t name[2][NAME_ROOM];
    uint8_t sealed[2 * PART_LIMIT];
};

/* Parts of any kind. */
void gen_parts(struct rng *r, struct parts_case *c);

/*
 * The builder's parts: names of a length each, from name[]; where 0 is expected
 * the image too.  The parts point into the case.
 */
void finish_parts(struct parts_case *c, const char *label, int expected,
                  size_t oem_length, size_t product_length);

/*
 * A buffer cut into parts as a header states them, sound or not; from 44 bytes.
 * The parts point into the buffer.
 */
void parts_of(const uint8_t *bytes, size_t n, struct parts_case *c);

/* ---- edits of a table, for editors ---- */

enum {
    ENTRY_MAX = 20,
    EDIT_ROOM = 48   /* stated and wanted bytes may be more than an entry's */
};

struct edit_case {
    const char *label;
    int expected;    /* 0, 5 to 18, 20 to 22, 23 and 256 x inner, or -1 */
    size_t place;
    uint8_t stated[EDIT_ROOM], wanted[EDIT_ROOM];
    size_t stated_length, wanted_length;
};

/* An accepted table in a run of edits, as far as the run has come. */
struct edited {
    struct builder b;
    size_t changed;              /* the place of the last accepted edit, */
    size_t size;                 /* the size of that entry, 0 before the first, */
    uint8_t former[ENTRY_MAX];   /* and what stood there before it */
};

void start_edits(struct edited *t, const uint8_t *table);

/* What stands at a place below the count; answers its size. */
size_t standing(const struct edited *t, size_t place, uint8_t *entry);

/* An edit that states what stands at a place and wants the same. */
void state_entry(const struct edited *t, size_t place, struct edit_case *e);

/*
 * The next edit of the run, of any kind, on a named_case() mostly about IDs; where
 * it was accepted, keep_edit().
 */
void gen_edit(struct rng *r, struct edited *t, bool named, struct edit_case *e);
void keep_edit(struct edited *t, const struct edit_case *e);

/* An edit of a table that need not be sound: its own number is the answer. */
void blind_edit(struct rng *r, const struct test_case *c, struct edit_case *e);

/* What rules 14 to 18 say of an edited table: the first that it breaks, or 0. */
int broken_rule(struct builder *b);

/* The answer to an edit that states what stands there, of the same type. */
void expect_edit(struct edited *t, struct edit_case *e);

/*
 * Who names an ID, as bits.  BY_ALL: it is 255, which as a destination names no
 * single one.  Of processors and I/O APICs the destinations of both sides count.
 */
enum {
    BY_IO = 1, BY_LOCAL = 2, BY_MAPPING = 4, BY_LINK = 8, AS_PARENT = 16,
    BY_MODIFIER = 32, BY_ALL = 64, NAMERS = 128
};

struct names {
    uint8_t by[3][256];          /* of types 0 to 2 */
    uint16_t have[3][256][2];    /* how many entries have it that are off, and on */
};

void find_names(struct builder *b, struct names *n);

/* A sound table in which each ID is named by one kind of entry, by two or by none. */
void named_case(struct rng *r, struct test_case *c);

/* A table with one faulty entry, and the edit that would mend it. */
void mending_edit(struct rng *r, struct test_case *c, struct edit_case *e);

/* ---- questions about a table ---- */

enum { PAIRS_MAX = 63252 };   /* 251 I/O APICs x 252 interrupts */

/* A table to ask, as far as it can be walked. */
struct asked {
    int refusal;               /* 0, 5 to 18, or -1 where not known */
    struct builder b;
    struct list buses, pci;    /* all, and those that are PCI */

    /* The extended entries of each bus, as places from 1: its last one, and */
    uint16_t last[256];
    uint16_t before[PART_LIMIT];   /* the one before each, 0 where none is */

    /* And the links to each parent: the last, and the one before each. */
    uint16_t below[256], beside[PART_LIMIT];
};

struct route_query {
    bool local;
    uint8_t type, bus, irq;
    int expected;              /* in a large room: 0, 5 to 18, 24, or -1 */
    size_t count;              /* where it is 0: the pairs */
    uint8_t pairs[2 * PAIRS_MAX];
};

enum seen { NO, YES, UNDECLARED };

struct address_query {
    uint8_t bus, kind;
    uint64_t address;
    int expected;              /* 0, 5 to 18, 24, or -1 */
    enum seen seen;            /* where it is 0: the answer, and the climb */
    unsigned links;

    /* Where the climb ended at a yes: the link that made it something else, */
    unsigned amended;          /* from 1 at the asked bus; 0 where none did; */
    bool shared;               /* and whether one of its parents has other children */
};

/*
 * A table of any kind, mostly one that has much to say.  True where it was built
 * around a question: then q is that, with the answer.
 */
bool gen_asked(struct rng *r, struct test_case *c, struct address_query *q);

/* Before the questions about a table; accepted is what its judge says. */
void start_queries(struct asked *a, const struct test_case *c, bool accepted);

/* Questions mostly about what the table's own entries say. */
void gen_route_query(struct rng *r, struct asked *a, struct route_query *q);
void gen_address_query(struct rng *r, struct asked *a, struct address_query *q);

/* The same question about another bus. */
void ask_another(struct rng *r, struct asked *a, struct address_query *q);

/* Work out what is to be answered, word by word from the paper. */
void expect_routes(struct asked *a, struct route_query *q);
void expect_address(struct asked *a, struct address_query *q);

/* The pairs that an interrupt adds to so many; answers how many there are then. */
size_t add_pairs(struct builder *b, const uint8_t *e, uint8_t *pairs, size_t count);

/* ---- questions about the PCI slots of a table ---- */

enum { SLOTS_MAX = 506 };     /* no base has more entries */

struct slot_query {
    uint8_t bus, device, pin;
    int expected;              /* in a large room: 0, 5 to 18, 24, 25, or -1 */
    size_t count;              /* where it is 0: the pairs */
    uint8_t pairs[2 * PAIRS_MAX];
};

/* What a listing of the slots has. */
struct slot_list {
    int expected;              /* in a large room: 0, 5 to 18, or -1 */
    size_t count;              /* where it is 0: the slots */
    uint8_t slots[3 * SLOTS_MAX];
};

/* A table of any kind, mostly one with PCI buses and many interrupts on them. */
void gen_slotted(struct rng *r, struct test_case *c);

/* A question mostly about a slot that the table names. */
void gen_slot_query(struct rng *r, struct asked *a, struct slot_query *q);

/* Work out what is to be answered, word by word from the paper. */
void expect_slot_routes(struct asked *a, struct slot_query *q);
void expect_slots(struct asked *a, struct slot_list *l);

/* ---- new numbers for the I/O APICs of a table ---- */

enum { NUMBERED_MAX = 255 };   /* enabled I/O APICs; each has an ID of its own */

struct numbering {
    int expected;              /* in a large room: 0, 5 to 18, 26, or -1 */
    size_t count;              /* where it is 0 or 26: the enabled I/O APICs, */
    size_t given;              /* and those that share a processor's ID */
    size_t used;               /* where it is 0: how many numbers are used, */
    uint8_t numbers[NUMBERED_MAX];   /* and the new numbers */
};

/* A table of any kind, mostly one with shared IDs, often with nearly too many. */
void gen_numbered(struct rng *r, struct test_case *c);

/* Works out what is to be answered, word by word from the paper. */
void expect_numbers(struct asked *a, struct numbering *n);

/* ---- books of earlier tables ---- */

enum {
    BOOK_LIMIT = 32768,
    BOOK_HEAD = 3, BOOK_ROW = 8,     /* bytes before the rows, and of each */
    SMALLEST = HEADER + 20,          /* a table: its header and a processor */
    KEPT_MAX = 640,                  /* rows; no good book has more than 455 */
    TOLD_ROW = 12,                   /* bytes of a row in a history */
    BODIES_ROOM = 2 * BOOK_LIMIT,    /* a bad one can pass the limit */
    BOOK_ROOM = 73728
};

/* A book as a list: offsets and the number of rows are worked out from it. */
struct book {
    size_t rows, size;               /* and how many bytes all bodies have */
    struct kept {
        uint16_t machine, edition;
        size_t at, length;           /* of its body among these */
    } row[KEPT_MAX];
    uint8_t bodies[BODIES_ROOM];
};

/* A book at the start of a room. */
struct book_case {
    const char *label;
    int expected;                    /* 0, 27, or -1 where not known beforehand */
    struct book k;                   /* where it is 0 */
    size_t size;                     /* of the room */
    uint8_t bytes[BOOK_ROOM];
};

/* How many bytes the book of a list has; and the book itself. */
size_t book_size(const struct book *k);
size_t lay_book(const struct book *k, uint8_t *out);

/* Where a row's body begins in it. */
size_t body_start(const struct book *k, const struct kept *e);

/* The highest edition of a machine, or 0; and the row of an edition, or NULL. */
uint16_t latest_edition(const struct book *k, uint16_t machine);
const struct kept *row_of(const struct book *k, uint16_t machine, uint16_t edition);

/* All rows as a history has them; answers how many bytes. */
size_t tell_rows(const struct book *k, uint8_t *out);

/* Adds a body as the next edition of a machine. */
void keep_body(struct book *k, uint16_t machine, const uint8_t *body, size_t n);

/* A save, or a restore. */
struct change {
    const char *label;
    bool restores;
    uint16_t machine;
    uint16_t edition;                /* to restore */
    uint16_t latest;                 /* by its author: began from, or the latest */
    struct test_case body;           /* to save */
    int expected;                    /* 0, 5 to 18, 28, 29, or -1 */
};

/* Works out its answer in a room of a size, word by word from the paper. */
void expect_change(const struct book *k, size_t size, struct change *c);

/* One that was accepted. */
void keep_change(struct book *k, const struct change *c);

/* A change of any kind of a good book in a room of a size; what it names. */
void gen_change(struct rng *r, const struct book *k, size_t size, struct change *c);
uint16_t any_machine(struct rng *r, const struct book *k);
uint16_t any_edition(struct rng *r, const struct book *k, uint16_t machine);

/* A table of just so many bytes: 64, or 66 to 8,192. */
void sized_table(struct rng *r, struct builder *b, size_t n);

/* Adds rows until the book has just so many bytes, of small tables or of large. */
void fill_book(struct rng *r, struct book *k, size_t goal, bool small);

/* The list's book, which is good, in a room with any bytes behind it. */
void finish_book(struct rng *r, struct book_case *c, const char *label, size_t size);

/* Books: a good one; one with a fault, by its number, false past the last; any. */
void good_book(struct rng *r, struct book_case *c);
bool book_fault_case(struct rng *r, size_t number, struct book_case *c);
void gen_book(struct rng *r, struct book_case *c);

/* ---- buffers that state any lengths, and places in them, for entry readers ---- */

/* A table of any kind, sound more often than not. */
void gen_entered(struct rng *r, struct test_case *c);

/* A place: at or beside an end, beside an entry, in the header, or anywhere. */
size_t gen_place(struct rng *r, const struct test_case *c, size_t entry);

#endif
