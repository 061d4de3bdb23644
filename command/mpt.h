/*
 * mpt: the command at the bench, over the proved library (include/ruxtajma.h).
 * It carries bytes between people, files and the library's calls, and decides nothing
 * about tables and books: every answer, refusal and changed byte is a call's.  Its own are
 * four: the three bytes of an empty book, that what stands behind a book in its file is
 * moved behind the new one, what differs between two tables, by the bytes of their
 * entries, and which bus is in another's way, by what the call answers of each.  A process
 * serves one call of the command and ends, so nothing is freed.
 */
#ifndef MPT_H
#define MPT_H

#define _DEFAULT_SOURCE
#include "ruxtajma.h"

#include <stdbool.h>
#include <stdio.h>
#include <stdnoreturn.h>
#include <sys/stat.h>

/* What the command ends with. */
enum { ANSWER, REFUSAL, TROUBLE };

enum {
    DUMP_MOST = 65537,          /* one byte more than a dump may have */
    FILE_MOST = 64 << 20,       /* more is no table, text, book or log */
    HEADER = 44,                /* where a table's first entry stands */
    REGIONS = 8                 /* of a dump; as many options of one name are taken */
};

struct bytes {
    uint8_t *at;
    size_t length;
};

/* A call of the command: the words behind its verb, and its options. */
struct call {
    char **word;
    int words;
    bool io, local, table, dump;
    const char *out, *first, *memory, *began, *latest, *boot;
    struct { const char *at[REGIONS + 1]; int count; } set, region;
};

/* An accepted table in its file, and where its base and all of it end. */
struct table {
    struct bytes file;
    size_t base_end, end;
};

/* An entry of a table, and its words for people. */
struct entry {
    struct bytes bytes;
    char *words;
};

/* A line of a log: when and who, whether its change never came about, and what that was. */
struct line {
    const char *time, *who;
    bool never;
    union {
        struct { size_t place; struct bytes before, after; };           /* an edit */
        struct { uint16_t machine, edition, restored; };                /* a save; 0: nothing restored */
    };
};

struct log {
    struct line *at;
    size_t count;
    size_t bad;                 /* the number of the first line that is none of ours, or 0 */
    struct bytes rest;          /* what stands behind the last whole line, but zeros at its end */
};

/* The form of a log's lines, by the sort of file that it is of. */
struct form {
    const char *file, *see;     /* its name, and the words that tell of a log that does not fit */
    const char *signs;          /* of a line's last two words, */
    size_t least, most;         /* and how many each has */
    bool (*is_told)(char *const *word, struct line *line);      /* by a line's last three words */
    bool (*came_about)(const struct line *last, struct bytes file);
    size_t (*misfit)(struct bytes file, const struct log *log); /* the number of a line, or 0 */
};

/* A file that several people change: its names, its bytes before and after, and its log. */
struct target {
    const char *path, *log_name, *new_name;
    const struct form *form;
    struct stat as;             /* the mode and owner that files made beside it take */
    struct bytes was, is;
    int log;
    int closed;                 /* why the log cannot be opened, if it is there */
    struct bytes told;          /* a log that is only read: its bytes, and its lock is freed */
};

/* words.c: what people write and read. */
noreturn void wrong(const char *format, ...);
noreturn void failed(const char *name);
void *need(size_t size);
char *joined(const char *name, const char *ending);
const char *words_of(unsigned number);
int refused(uint64_t answer);
bool is_number(const char *word, int base, uint64_t most, uint64_t *number);
uint64_t number_of(const char *what, const char *word, int base, uint64_t most);
uint16_t number16(const char *what, const char *word);
uint8_t choice_of(const char *what, const char *word, const char *const *names);
uint8_t type_of(const char *word);
bool is_hexadecimal(const char *word, struct bytes *bytes);
struct bytes bytes_of(const char *what, const char *word);
char *hexadecimal(struct bytes bytes);

/* files.c: whole files in and out. */
struct bytes copied(struct bytes bytes);
bool same(struct bytes a, struct bytes b);
void keep_within(const char *name, size_t length);
struct bytes taken_from(int file, const char *name, size_t most);
struct bytes taken(const char *name, size_t most);
bool put_all(int file, struct bytes bytes);
int put_new(const char *name, struct bytes bytes);
int given_out(const struct call *call, struct bytes bytes, bool text);

/* table.c: a table, its entries and their lines of the listing. */
bool is_table(struct bytes file, struct table *table);
bool table_of(const struct call *call, struct table *table);
struct bytes entry_from(const struct table *table, size_t at);
char *first_line(const struct table *table);
char *next_line(char *line);
const char *line_at(const struct table *table, size_t place);
size_t entries_of(const struct table *table, struct entry **all);

/* boot.c: the table that a verb is about, of its own file or of a dump. */
uint8_t boot_of(const struct call *call);
bool dump_has_table(const struct call *call, struct bytes *table);
bool has_table(const struct call *call, struct bytes *table);

/* parts.c: the fields of a table's header that differ. */
void tell_fields(const uint8_t *before, const uint8_t *after);

/* compare.c: all that differs between two tables. */
void tell_changes(struct bytes before, struct bytes after);

/*
 * ask.c: the pairs of a query.  It is about type, bus and IRQ of an interrupt line, or about
 * bus, device and pin of a PCI slot.
 */
typedef uint64_t query(const uint8_t *table, size_t length, uint8_t, uint8_t, uint8_t,
                       uint8_t *room, size_t room_length);
int ask(query *asked, const char *apic, struct bytes table, const uint8_t about[3],
        const char *between, const char *none);

/* why.c: the bus in the way of one that does not see an address. */
void tell_in_the_way(struct bytes file, uint8_t bus, uint8_t kind, uint64_t address, uint64_t answer);

/* fields.c: an entry with some of its fields set. */
struct bytes with_fields(struct bytes entry, const struct call *call);

/* log.c: who changed what, when. */
const char *who(void);
char *log_line(const char *by, const char *what);
bool has_log(const struct target *p, struct log *log);
bool made_ready(const struct target *p);

/* changes.c: the log of a table. */
extern const struct form edits;
char *change_words(size_t place, struct bytes before, struct bytes after);
void tell_who(const struct target *p, size_t place, struct bytes standing);

/* saves.c: the log of a book. */
extern const struct form saves;
char *save_words(unsigned machine, unsigned edition, unsigned restored);
void tell_saver(const struct target *p, unsigned machine, unsigned edition);

/*
 * disk.c: the lock and the exchange.  What is tried on a file's bytes is a call of the
 * library: its answer, and the file's new bytes.
 */
typedef uint64_t attempt(struct bytes was, struct bytes *is, const void *asked);
struct target target_of(const char *name, const struct form *form);
void read_locked(struct target *p);
uint64_t tried(struct target *p, attempt *try, const void *asked, unsigned overtaken);
void exchange(const struct target *p, const char *by, const char *what);
int told_of(const struct target *p);

/* The verbs. */
int list(const struct call *call);
int judge(const struct call *call);
int table(const struct call *call);
int entries(const struct call *call);
int routes(const struct call *call);
int slots(const struct call *call);
int slot(const struct call *call);
int renumber(const struct call *call);
int sees(const struct call *call);
int edit(const struct call *call);
int parts(const struct call *call);
int make(const struct call *call);
int dump(const struct call *call);
int history(const struct call *call);
int book_new(const struct call *call);
int book_save(const struct call *call);
int book_restore(const struct call *call);
int book_history(const struct call *call);
int book_show(const struct call *call);
int book_diff(const struct call *call);

#endif
