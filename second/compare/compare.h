/*
 * The sorts of cases.  Each makes fixed cases and COUNT generated ones, has them
 * put to both programs, and reports how they ended.
 */
#ifndef SECOND_COMPARE_H
#define SECOND_COMPARE_H

#include "cases.h"
#include "counts.h"

/* In a thorough run the fixed cases have every value, else edges and some. */
extern bool thorough;

/* How often every single fault, whatever COUNT is. */
static inline int each(void)
{
    return thorough ? 20 : 3;
}

typedef void sort_of_cases(struct rng *r, number count, const char *seed);

sort_of_cases tables, dumps, parts, edits, queries, entries, slots, numbers,
              books, defaults;

/* Reads one dump, and lists it into rooms of several sizes. */
void list_dump(struct rng *r, const struct dump_case *d);

/* Lists one into every room up to one with two bytes over, and the largest. */
void list_in_every_room(const struct dump_case *d);

/* The bench board's eight lines, boundaries of every rule, and others. */
void fixed_dumps(struct rng *r);

/* A table to edit as it stands then; and one byte of an entry, with the answer. */
const struct test_case *start_run(const struct test_case *c);
void edit_byte(const char *label, size_t place, size_t at, uint8_t value,
               int expected);

/* A run of edits of any kind on an accepted table. */
void edit_accepted(struct rng *r, const struct test_case *c);

/* A table; the questions that follow are about it. */
struct asked *ask_table(const struct test_case *c);

/* One question; routes in rooms of several sizes. */
void ask_routes(struct rng *r, const struct route_query *q);
void ask_address(const struct address_query *q);

/* The same question in every room from 0 bytes to so many. */
void route_in_every_room(const struct route_query *q, size_t most);

/* The bench board, addresses of both lists, long climbs, and others. */
void fixed_queries(struct rng *r);

/* Of these, addresses that buses with the same parent have between them. */
void fixed_families(void);

/* A table; the questions that follow are about its slots, or others about it. */
struct asked *slot_table(const struct test_case *c);

/* Where a slot goes, and which slots there are, in rooms of several sizes. */
void ask_slot(struct rng *r, const struct slot_query *q);
void ask_slots(struct rng *r, const struct slot_list *l);

/* The same in every room from 0 bytes, or from so many, to so many. */
void slot_in_every_room(const struct slot_query *q, size_t most);
void slots_in_every_room(const struct slot_list *l, size_t least, size_t most);

/* The bench board, bit 7, buses of every name, full tables, and others. */
void fixed_slots(struct rng *r);

/* A table; the numberings that follow are of it, or other questions about it. */
struct asked *number_table(const struct test_case *c);

/* New numbers, in rooms of several sizes; or in every one from 0 bytes to so many. */
void renumber(struct rng *r, const struct numbering *n);
void renumber_in_every_room(const struct numbering *n, size_t most);

/* The bench board, keepers late, APICs that are off, no number free, and others. */
void fixed_numbers(struct rng *r);

/* A book in its room: what follows is about it, as accepted changes leave it. */
void open_book(struct book_case *c);

/* Its rows and bytes; the latest edition of a machine; the body of an edition. */
void ask_rows(void);
void ask_latest(struct rng *r, uint16_t machine);
void ask_body(struct rng *r, uint16_t machine, uint16_t edition);

/* Its history, in rooms of several sizes; or in every one from 0 bytes to so many. */
void ask_history(struct rng *r);
void history_in_every_room(size_t most);

/* A save or a restore. */
void change_book(struct rng *r, const struct change *c);

/* One question of each kind, and of a bad book also a save and a restore. */
void ask_all_of_book(struct rng *r);

/* The empty book, each fault, full ones, machines of all numbers, and others. */
void fixed_books(struct rng *r);

/*
 * Makes a default's table in a room, which is it or stays as it was; the low bytes
 * of both numbers count.  Answers the refusal's number or 0.
 */
unsigned make_default(uint64_t configuration, uint64_t boot, size_t size);

/* What was made last. */
const struct test_case *made_table(void);

/* Lists a dump in full, into a room; the same for any processor and any room. */
unsigned list_full_into(const struct dump_case *d, uint64_t boot, size_t size);
unsigned list_in_full(struct rng *r, const struct dump_case *d);

/* Every configuration, number and room; and dumps of defaults, sound or refused. */
void fixed_defaults(struct rng *r);

/* Of these, what is asked of a table. */
void ask_made(struct rng *r, uint8_t configuration, uint8_t boot);

#endif
