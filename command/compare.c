/*
 * What differs between two tables: the fields of their headers as `parts` writes them, and
 * their entries as `entries` does.  A table is made of these (`make`), so where none
 * differs the tables are the same.
 */
#include "mpt.h"

struct side {
    struct entry *at;
    size_t count;
};

static struct side side_of(const struct table *t)
{
    struct side s;

    s.count = entries_of(t, &s.at);
    return s;
}

/*
 * Of the entries from two places on, how many can stay at most, in their order: so one that
 * is put in or taken out makes no other one differ.
 */
static uint16_t *staying(const struct side *a, const struct side *b)
{
    size_t width = b->count + 1;
    uint16_t *most = need((a->count + 1) * width * sizeof *most);

    for (size_t n = (a->count + 1) * width; n-- > 0; ) {
        size_t i = n / width, j = n % width;
        if (i == a->count || j == b->count)
            most[n] = 0;
        else if (same(a->at[i].bytes, b->at[j].bytes))
            most[n] = (uint16_t)(most[n + width + 1] + 1);
        else
            most[n] = most[n + width] > most[n + 1] ? most[n + width] : most[n + 1];
    }
    return most;
}

static void tell_entries(const struct side *a, const struct side *b)
{
    const uint16_t *most = staying(a, b);
    size_t width = b->count + 1;

    for (size_t i = 0, j = 0; i < a->count || j < b->count; ) {
        const uint16_t *here = most + i * width + j;
        if (i < a->count && j < b->count && same(a->at[i].bytes, b->at[j].bytes))
            i++, j++;
        else if (i < a->count && (j == b->count || here[width] >= here[1]))
            printf("-%s\n", a->at[i++].words);
        else
            printf("+%s\n", b->at[j++].words);
    }
}

void tell_changes(struct bytes before, struct bytes after)
{
    struct table a, b;

    if (!is_table(before, &a) || !is_table(after, &b))
        return;
    if (same(before, after))
        printf("nothing differs\n");
    tell_fields(before.at, after.at);
    struct side old = side_of(&a), new = side_of(&b);
    tell_entries(&old, &new);
}
