/* Books to measure with. */
#ifndef SECOND_BOOKS_H
#define SECOND_BOOKS_H

#include "boards.h"
#include "subjects.h"

/* So many rows of one table, of so many machines in turn, whose numbers lie apart. */
struct volume {
    const char *name;
    make_board *table;
    uint32_t rows, machines, apart;
    unsigned works, doubled;   /* what speed does with it, and growth */
};

/* The last has no name. */
extern const struct volume volumes[];

/*
 * A book of the table in b, in a room of 32,768 bytes; with part 2, of half the rows.
 * The row in the middle is asked about, and gets another edition.
 */
void lay_out_book(const struct volume *v, const struct builder *b, uint32_t part,
                  struct subject *s);

#endif
