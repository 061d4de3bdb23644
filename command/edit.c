/* One entry replaced, in the file of a table. */
#include "mpt.h"

enum { CHANGED = 22 };

struct replacement {
    size_t place;
    struct bytes stated, wanted;
};

static uint64_t replaced(struct bytes was, struct bytes *is, const void *asked)
{
    const struct replacement *r = asked;

    *is = copied(was);
    return ruxtajma_edit(is->at, is->length, r->place, r->stated.at, r->stated.length,
                         r->wanted.at, r->wanted.length);
}

static void say(size_t place, const char *is, struct bytes entry, const struct table *t)
{
    printf("entry %zu %s %s  %s\n", place, is, hexadecimal(entry), line_at(t, place));
}

/* Of bytes that somebody changed, what stands there now and who put it there. */
static void say_changed(const struct target *p, size_t place)
{
    struct table t;
    struct bytes entry;

    if (!is_table(p->was, &t))
        return;
    entry = entry_from(&t, HEADER);
    for (size_t i = 0; i < place; i++)
        entry = entry_from(&t, (size_t)(entry.at + entry.length - p->was.at));
    say(place, "is ", entry, &t);
    tell_who(p, place, entry);
}

static int done(const struct target *p, const struct replacement *r)
{
    struct table before, after;

    if (is_table(p->was, &before))
        say(r->place, "was", r->stated, &before);
    if (is_table(p->is, &after))
        say(r->place, "is ", r->wanted, &after);
    return told_of(p);
}

int edit(const struct call *call)
{
    struct replacement r = { .place = (size_t)number_of("place", call->word[1], 10, SIZE_MAX),
                             .stated = bytes_of("stated", call->word[2]) };
    const char *by = who();

    if ((call->words == 4) == (call->set.count > 0))
        wrong("edit: either WANTED or --set FIELD=VALUE");
    r.wanted = call->words == 4 ? bytes_of("wanted", call->word[3]) : with_fields(r.stated, call);
    struct target p = target_of(call->word[0], &edits);
    uint64_t answer = tried(&p, replaced, &r, CHANGED);
    if (refused(answer)) {
        if (ruxtajma_refusal(answer) == CHANGED)
            say_changed(&p, r.place);
        return REFUSAL;
    }
    exchange(&p, by, change_words(r.place, r.stated, r.wanted));
    return done(&p, &r);
}
