/* Entries of a table under construction: lists of IDs, finding, putting in. */
#ifndef SECOND_ENTRIES_H
#define SECOND_ENTRIES_H

#include "builder.h"
#include "random.h"

/* The IDs a table lists, in order, for others to name. */
struct list {
    uint8_t id[256];
    uint32_t n;       /* how many of id[] are filled */
    bool has[256];
};

typedef bool want(const uint8_t *e);

bool any(const uint8_t *e);

/* Whether six bytes are the name of a bus. */
bool known_name(const uint8_t *name);

void list_add(struct list *l, uint8_t id);

/* One of them; the list is not empty. */
uint8_t list_pick(struct rng *r, const struct list *l);

/* The IDs of the base entries of a type that suit. */
void list_of(struct builder *b, uint8_t type, want *suits, struct list *l);

/* An ID that no entry of a type has; false where all are listed. */
bool unlisted(struct rng *r, struct builder *b, uint8_t type, bool with_255,
              uint8_t *id);

/* The size of the entry that starts there; 0 if it has none or is cut. */
size_t entry_size(const uint8_t *part, size_t len, size_t at, bool ext);

/* The first entry of a type, or the next one behind another; or NULL. */
uint8_t *next_of(struct builder *b, uint8_t type, const uint8_t *behind);

#define EACH(b, type, e) \
    for (uint8_t *e = next_of(b, type, NULL); e != NULL; e = next_of(b, type, e))

/* Whether entries of all types 0 to 4 and 128 to 130 stand in it. */
bool has_all_types(struct builder *b);

/* A random entry of a type that suits; or NULL. */
uint8_t *pick(struct rng *r, struct builder *b, uint8_t type, want *suits);

/* The same, but not the one given. */
uint8_t *pick_other(struct rng *r, struct builder *b, uint8_t type,
                    want *suits, const uint8_t *not_this);

/* A random entry of type 3 or 4; or NULL. */
uint8_t *pick_interrupt(struct rng *r, struct builder *b);

/* Where entries of a type may be put in without breaking the order. */
size_t place_of(struct rng *r, const struct builder *b, uint8_t type);

/* A random boundary between entries; the end too. */
size_t any_place(struct rng *r, const struct builder *b, bool ext);

/* Puts bytes in; fails where the part would pass 4,096 bytes. */
bool put_in(struct builder *b, bool ext, size_t at, const uint8_t *e, size_t n);

#endif
