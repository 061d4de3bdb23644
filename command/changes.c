/*
 * The log of a table: a line's last three words are the place of an edit and the entry's
 * bytes before and after it.  Whether it fits the table the proved editor tells, which
 * takes its lines out again and puts them in.
 */
#include "mpt.h"

#include <string.h>

char *change_words(size_t place, struct bytes before, struct bytes after)
{
    char *words = need(24 + 2 * before.length + 2 * after.length);

    sprintf(words, "%zu %s %s", place, hexadecimal(before), hexadecimal(after));
    return words;
}

static bool is_change(char *const *word, struct line *line)
{
    uint64_t place;

    if (!is_number(word[0], 10, SIZE_MAX, &place))
        return false;
    line->place = (size_t)place;
    return is_hexadecimal(word[1], &line->before) && is_hexadecimal(word[2], &line->after) &&
           line->before.length == line->after.length;
}

/* Whether the proved editor has put this in. */
static bool put_in(struct bytes table, size_t place, struct bytes stated, struct bytes wanted)
{
    return ruxtajma_edit(table.at, table.length, place, stated.at, stated.length, wanted.at,
                         wanted.length) == 0;
}

/* Under the lock a line's "before" stood there: so it came about where its "after" does. */
static bool stands_there(const struct line *line, struct bytes table)
{
    return put_in(table, line->place, line->after, line->after);
}

/*
 * From the table as it is back to the first: the line that cannot be taken out, or 0.  One
 * that never came about is put in before, so that it is seen to fit there too.
 */
static size_t back(struct bytes table, const struct log *log)
{
    for (size_t i = log->count; i > 0; i--) {
        const struct line *c = &log->at[i - 1];
        if ((c->never && !put_in(table, c->place, c->before, c->after)) ||
            !put_in(table, c->place, c->after, c->before))
            return i;
    }
    return 0;
}

static size_t not_taken_out(struct bytes table, const struct log *log)
{
    return back(copied(table), log);
}

const struct form edits = {
    .file = "table", .see = "mpt log",
    .signs = "0123456789ABCDEF", .least = 2 * 8, .most = 2 * 20,        /* of an entry */
    .is_told = is_change, .came_about = stands_there, .misfit = not_taken_out
};

/* ---- beside an edit ---- */

/* The last change of a place that came about. */
static const struct line *last_of(const struct log *log, size_t place)
{
    for (const struct line *c = log->at + log->count; c-- > log->at; )
        if (c->place == place && !c->never)
            return c;
    return NULL;
}

/* By the log, who put there what stands at a place. */
void tell_who(const struct target *p, size_t place, struct bytes standing)
{
    struct log log;

    if (!has_log(p, &log))
        return;
    const struct line *last = log.bad == 0 ? last_of(&log, place) : NULL;
    if (log.bad != 0 || (last != NULL && !same(last->after, standing)))
        printf("the log does not fit what stands there: see 'mpt log'\n");
    else if (last == NULL)
        printf("the log does not say who put it there\n");
    else
        printf("put there by %s, %s\n", last->who, last->time);
}

/* ---- the history of a table ---- */

/* Where the lines of the listing do not tell the two apart, their bytes do. */
static void show(const struct line *c, const char *before, const char *after)
{
    bool alike = strcmp(before, after) == 0;

    printf("%s  %s  entry %zu: %s -> %s%s\n", c->time, c->who, c->place,
           alike ? hexadecimal(c->before) : before, alike ? hexadecimal(c->after) : after,
           c->never ? "  (never came about)" : "");
}

/* From a first table on: the line that cannot be put in, or 0. */
static size_t forth(const struct table *t, const struct log *log, bool shown)
{
    for (size_t i = 0; i < log->count; i++) {
        const struct line *c = &log->at[i];
        char *before = shown ? joined(line_at(t, c->place), "") : NULL;
        if (!put_in(t->file, c->place, c->before, c->after))
            return i + 1;
        if (shown)
            show(c, before, line_at(t, c->place));
        if (c->never && !put_in(t->file, c->place, c->after, c->before))
            return i + 1;
    }
    return 0;
}

/* The lines from a number on, by their bytes, and which of them does not fit. */
static int misfit(const struct log *log, size_t from, const char *table, size_t line,
                  const char *why)
{
    for (size_t i = from; i < log->count && i + 1 != log->bad; i++)
        show(&log->at[i], "", "");
    printf("the log does not fit %s: line %zu %s\n", table, line, why);
    return REFUSAL;
}

/* Back to the first table, and from there, or from the one that was given, on again. */
static int told(struct table t, const struct log *log, const struct call *call)
{
    struct bytes now = copied(t.file);
    size_t never = 0, line;
    bool shown = call->first == NULL;

    if (log->bad != 0)
        return misfit(log, 0, call->word[0], log->bad, "is no line of a log");
    if ((line = back(t.file, log)) != 0)
        return misfit(log, 0, call->word[0], line, "cannot be taken out of it");
    if (!shown && !is_table(taken(call->first, FILE_MOST + 1), &t))
        return REFUSAL;
    if ((line = forth(&t, log, shown)) != 0)
        return misfit(log, shown ? line - 1 : 0, shown ? call->word[0] : call->first, line,
                      "cannot be put in");
    if (log->rest.length > 0)
        printf("a last line is cut short: its change never came about\n");
    for (size_t i = 0; i < log->count; i++)
        never += log->at[i].never;
    bool gives = shown || same(t.file, now);
    if (shown)
        printf("the log fits the table");
    else
        printf("the log %s: its edits put into %s %s %s", gives ? "fits" : "does not fit",
               call->first, gives ? "give" : "do not give", call->word[0]);
    printf(" (edits: %zu, never came about: %zu)\n", log->count, never);
    return gives ? ANSWER : REFUSAL;
}

int history(const struct call *call)
{
    struct target p = target_of(call->word[0], &edits);
    struct table t;
    struct log log;

    read_locked(&p);
    if (!is_table(p.was, &t) || !has_log(&p, &log))
        return REFUSAL;
    if (log.count == 0 && log.rest.length == 0 && call->first == NULL) {
        printf("no edit is logged\n");
        return ANSWER;
    }
    return told(t, &log, call);
}
