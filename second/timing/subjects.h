/* What is measured: tables to judge, edit, write and ask, dumps to list, books. */
#ifndef SECOND_SUBJECTS_H
#define SECOND_SUBJECTS_H

#include "plain.h"

#include <stdbool.h>

/* The third is the plain program at -O3 or, in its place, an earlier library. */
enum { OURS, PLAIN_O2, THIRD, PROGRAMS };
enum {
    SUBJECTS_MAX = 170, SUBJECT_ROOM = 65536, ROOM_SIZE = 1 << 17,
    LABEL_WIDTH = 67
};

enum work {
    JUDGE, PARTS, READ, ADDRESSES, LIST, LIST_FITTING, LIST_FULL, EDIT, EDIT_ENTRY,
    EDIT_ID, EDIT_REFUSED, EDIT_ID_REFUSED, WRITE, MAKE_DEFAULT, ROUTES,
    LOCAL_ROUTES, SLOT_ROUTES, SLOTS, RENUMBER, ADDRESS, IO_ADDRESS, WALK, BOOK,
    LATEST, BODY, HISTORY, SAVE, SAVE_REFUSED, RESTORE,
    WORKS
};

#define BIT(work) (1u << (work))

struct subject {
    const char *what, *name;   /* what is done, and the board or book */
    enum work work;
    size_t size;
    uint64_t answer;
    uint8_t bytes[SUBJECT_ROOM];

    size_t room;               /* how much of the room is lent */

    /* Of an edit: what stands there first, and what is put in its place. */
    size_t place, entry_size;
    uint8_t entry[2][20];
    bool turn;                 /* the other way round */

    struct fields fields;      /* of a table to write */
    size_t base_end, ext_end;

    uint8_t configuration, boot;   /* of a default's table, and its dump */

    /* Of a table to ask: where the interrupt comes from, a slot, or the address. */
    uint8_t type, bus, irq, device, pin, kind;
    uint64_t address;

    /* Of a book, which stands at the start of bytes: its own length, */
    size_t book;
    uint16_t machine, edition, latest;   /* a row in the middle, and what is saved */
    size_t table;
    uint8_t saved[2 * PART_MAX];

    double ns[PROGRAMS];       /* of a call, median */
    double ratio[PROGRAMS];    /* of our time to this program's, median */
};

extern struct subject subjects[SUBJECTS_MAX];
extern size_t subject_count;

/*
 * The rows of speed; or those of growth, each subject before its half.  Ends the
 * program with 2 where a subject is wrong, or the programs do not agree on it.
 */
void make_subjects(void);
void make_doubled(void);

/* What is done, to what; and how much the answer of a query holds. */
const char *label(const struct subject *s);

/* Where listings, images, pairs, slots, numbers, histories and saves go. */
extern uint8_t room[ROOM_SIZE];

/*
 * One call of a program on a subject; a walk is one for each entry.  Each
 * accepted edit takes back the one before it, whoever made that; a save or a
 * restore is made in a copy of the book, and the copying is timed with it.
 */
uint64_t call_program(int program, struct subject *s);

/* The same of each program: timed.c, compiled three times. */
typedef uint64_t timed(struct subject *s);
timed timed_library, timed_plain, timed_third;

#endif
