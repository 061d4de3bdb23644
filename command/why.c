/*
 * Why a bus with the subtractive bit does not see what its parent sees (MPS 4.4.2): another
 * bus with that parent claims the address, or declares nothing, so that it may claim it.
 */
#include "mpt.h"

enum {
    LINK = 129,                 /* the type of an entry that has a bus, at 2, and its parent, at 4 */
    LINKS_MOST = 256            /* no bus has two (18) */
};

struct link {
    uint8_t bus, parent;
};

/* An address, and the table that is asked about it, with its links in their order. */
struct asked {
    struct table table;
    uint8_t kind;
    uint64_t address;
    struct link link[LINKS_MOST];
    size_t links;
};

static void take_links(struct asked *a)
{
    struct bytes entry;

    for (size_t at = a->table.base_end; at < a->table.end; at += entry.length) {
        entry = entry_from(&a->table, at);
        if (entry.at[0] == LINK)
            a->link[a->links++] = (struct link){ entry.at[2], entry.at[4] };
    }
}

static uint64_t answer_of(const struct asked *a, uint8_t bus)
{
    return ruxtajma_address(a->table.file.at, a->table.file.length, bus, a->kind, a->address);
}

/* Whether a bus answers so by its own entries: no link was climbed. */
static bool says(const struct asked *a, uint8_t bus, unsigned seen)
{
    uint64_t answer = answer_of(a, bus);

    return ruxtajma_seen(answer) == seen && ruxtajma_links(answer) == 0;
}

static const struct link *link_of(const struct asked *a, uint8_t bus)
{
    for (const struct link *link = a->link; link < a->link + a->links; link++)
        if (link->bus == bus)
            return link;
    return NULL;
}

/*
 * Of the links climbed from a bus that does not see the address, the first whose parent does:
 * below it every bus has taken over a no or an undeclared.  None, where the bus at the end of
 * the climb does not see it either.
 */
static const struct link *lost_at(const struct asked *a, uint8_t bus, unsigned climbed)
{
    const struct link *link;

    for (; climbed > 0 && (link = link_of(a, bus)) != NULL; climbed--, bus = link->parent)
        if (ruxtajma_seen(answer_of(a, link->parent)) == RUXTAJMA_YES)
            return link;
    return NULL;
}

/* The first other bus with the same parent that answers so by its own entries. */
static const struct link *beside(const struct asked *a, const struct link *link, unsigned seen)
{
    for (const struct link *other = a->link; other < a->link + a->links; other++)
        if (other != link && other->parent == link->parent && says(a, other->bus, seen))
            return other;
    return NULL;
}

/*
 * Says behind the answer which bus stands in the way, if one does.  A bus that declares or adds
 * the address and does not take it away is one that says yes itself, and one that has no entry
 * of addresses and no subtractive bit says undeclared.  None is asked twice.
 */
void tell_in_the_way(struct bytes file, uint8_t bus, uint8_t kind, uint64_t address, uint64_t answer)
{
    struct asked a = { .kind = kind, .address = address };
    bool no = ruxtajma_seen(answer) == RUXTAJMA_NO;
    const struct link *link, *other;

    if (ruxtajma_seen(answer) == RUXTAJMA_YES || !is_table(file, &a.table))
        return;
    take_links(&a);
    if ((link = lost_at(&a, bus, ruxtajma_links(answer))) != NULL
        && (other = beside(&a, link, no ? RUXTAJMA_YES : RUXTAJMA_UNDECLARED)) != NULL)
        printf(": on bus %u, bus %u %s", other->parent, other->bus, no ? "claims it" : "declares nothing");
}
