/* Single faults: each breaks one rule of an otherwise sound table or dump. */
#ifndef SECOND_FAULTS_H
#define SECOND_FAULTS_H

#include "draft.h"

/*
 * A fault is made either in the entries, before seal() works out lengths,
 * count and sums, or in the finished image; in a dump, in the draft or in the
 * finished one.  It answers false where there is no place for it.
 */
struct fault {
    uint8_t rule;
    const char *name;
    bool (*entries)(struct rng *r, struct builder *b, const struct fault *f);

    /* For entries that are made alike: their type, a byte of theirs, numbers. */
    uint8_t type;
    want *suits;   /* NULL: any of types 3 and 4 */
    uint8_t at, x, y;

    bool (*image)(struct rng *r, struct test_case *c);
    bool (*draft)(struct rng *r, struct draft *d);
};

/* One that the fault is for; or NULL. */
uint8_t *pick_for(struct rng *r, struct builder *b, const struct fault *f);

/* Made alike: bits x of a byte cleared and y set; an ID twice; an entry twice; */
bool change_bits(struct rng *r, struct builder *b, const struct fault *f);
bool same_id(struct rng *r, struct builder *b, const struct fault *f);
bool same_entry(struct rng *r, struct builder *b, const struct fault *f);

/* a byte from y on, in x of 100 just that; a byte that names no listed bus. */
bool over_limit(struct rng *r, struct builder *b, const struct fault *f);
bool unlisted_bus(struct rng *r, struct builder *b, const struct fault *f);

/* By rule, each list in a file of its own; rule 0 ends a list. */
extern const struct fault header_faults[];      /* 5 to 9 */
extern const struct fault walk_faults[];        /* 10 to 12 */
extern const struct fault extended_faults[];    /* 13 */
extern const struct fault entry_faults[];       /* 14 to 17 */
extern const struct fault ext_entry_faults[];   /* 18 */
extern const struct fault contents_faults[];    /* of a dump: 1 */
extern const struct fault pointer_faults[];     /* 2 to 5, and 7 and 13 by regions */

/* All of tables, and all of dumps, in the order of the rules; NULL ends both. */
extern const struct fault *const table_faults[];
extern const struct fault *const dump_faults[];

/* The one of a number, from 0; NULL past the last. */
const struct fault *fault_at(const struct fault *const *lists, size_t number);

/* Any of a rule. */
const struct fault *fault_of(struct rng *r, const struct fault *const *lists,
                             uint8_t rule);

/* Each rule is as likely as another, then each fault of that rule. */
const struct fault *random_fault(struct rng *r);

/* A sound table with the fault in it. */
void fault_case(struct rng *r, const struct fault *f, struct test_case *c);

#endif
