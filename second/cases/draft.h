/* A dump under construction: its regions, the pointer and the table in them. */
#ifndef SECOND_DRAFT_H
#define SECOND_DRAFT_H

#include "cases.h"

enum {
    DUMP_LIMIT = 65536,
    RECORD = 9,             /* bytes of contents for a region */
    PARAGRAPH = 16,
    REGIONS = 8,
    PIECES = REGIONS + 2,   /* the draft itself can pass the limit */
    BODY_ROOM = DUMP_LIMIT + 64
};

/* A region; what it states as its length is its body's length. */
struct piece {
    uint8_t kind;
    uint32_t base;
    uint32_t length;
    uint8_t body[BODY_ROOM];
};

struct draft {
    uint32_t count;
    struct piece piece[PIECES];
    uint8_t order[PIECES];   /* in which the dump lists them */
    uint32_t home;           /* the piece that holds the pointer, */
    uint32_t at;             /* and where in its body */
    uint32_t table_home;     /* the same of the table; */
    uint32_t table_at;
    uint32_t table_size;     /* 0: a default configuration */
};

void draft_start(struct draft *d);

/* Adds an empty region, last in the order; answers its number. */
uint32_t add_piece(struct draft *d, uint8_t kind, uint32_t base);

/* The number of the region of a kind from 1 to 3; -1 if there is none. */
int piece_of_kind(const struct draft *d, uint8_t kind);

/* How many bytes the dump would have. */
size_t draft_size(const struct draft *d);

/* Whether two regions share an address, each of them not empty. */
bool sharing(const struct piece *a, const struct piece *b);

/* Whether a region shares an address with any other of the draft. */
bool crowded(const struct draft *d, uint32_t number);

/* Writes a floating pointer whose bytes add to 0. */
void put_pointer(uint8_t *p, uint32_t address, uint8_t feature, uint8_t imcr);

/* Sets byte 10 so that the 16 bytes add to 0. */
void mend_pointer(uint8_t *p);

uint8_t *pointer_of(struct draft *d);
uint32_t pointer_address(const struct draft *d);
uint32_t table_address(const struct draft *d);

/* Writes the dump; answers its length. */
size_t emit(const struct draft *d, uint8_t *out);

#endif
