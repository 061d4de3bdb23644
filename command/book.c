/*
 * The book of earlier tables, as a file.  Whether it is good, which edition is the latest,
 * where a body stands and what a save makes of it are answers of the library.  There are no
 * names in a book: who saved is told by its log, and the book alone decides.
 */
#include "mpt.h"

#include <string.h>

enum {
    BOOK_MOST = 32768,
    BASE_LENGTH = 7, OVERTAKEN = 28     /* the refusals of which more is said */
};

static unsigned latest_of(struct bytes book, uint16_t machine)
{
    return ruxtajma_edition(ruxtajma_latest(book.at, book.length, machine));
}

/* The answer, and where that is no refusal the body of an edition. */
static uint64_t body_of(struct bytes book, unsigned machine, unsigned edition, struct bytes *body)
{
    uint64_t answer = ruxtajma_body(book.at, book.length, (uint16_t)machine, (uint16_t)edition);

    *body = (struct bytes){ book.at + ruxtajma_body_start(answer), ruxtajma_body_size(answer) };
    return answer;
}

static bool has_edition(struct bytes book, unsigned machine, unsigned edition, struct bytes *body)
{
    return ruxtajma_refusal(body_of(book, machine, edition, body)) == 0;
}

/* ---- an edition ---- */

static void tell_none(unsigned machine)
{
    printf("machine %u: the book has no edition of it\n", machine);
}

static void tell_editions(struct bytes book, uint16_t machine)
{
    unsigned latest = latest_of(book, machine);

    if (latest == 0)
        tell_none(machine);
    else
        printf("machine %u: the book has editions 1 to %u\n", machine, latest);
}

/* A refusal is said, and which editions there are. */
static bool is_edition(struct bytes book, uint16_t machine, uint16_t edition, struct bytes *body)
{
    uint64_t answer = body_of(book, machine, edition, body);

    if (!refused(answer))
        return true;
    if (ruxtajma_refusal(answer) == OVERTAKEN)
        tell_editions(book, machine);
    return false;
}

int book_show(const struct call *call)
{
    uint16_t machine = number16("machine", call->word[1]);
    uint16_t edition = number16("edition", call->word[2]);
    struct bytes book = taken(call->word[0], FILE_MOST + 1), body;

    return is_edition(book, machine, edition, &body) ? given_out(call, body, false) : REFUSAL;
}

int book_diff(const struct call *call)
{
    uint16_t machine = number16("machine", call->word[1]);
    uint16_t from = number16("edition", call->word[2]), to = number16("edition", call->word[3]);
    struct bytes book = taken(call->word[0], FILE_MOST + 1), before, after;

    if (!is_edition(book, machine, from, &before) || !is_edition(book, machine, to, &after))
        return REFUSAL;
    tell_changes(before, after);
    return ANSWER;
}

/* ---- one edition more ---- */

/* A body to be saved, or where there is none an old edition to be restored. */
struct addition {
    uint16_t machine, latest, old;
    const struct bytes *body;
};

/*
 * The book is judged as its file has it: in the longer room one that is cut short could be
 * good.  What stands behind it in the file is no part of it, and stands behind the new one.
 */
static uint64_t added(struct bytes was, struct bytes *is, const void *asked)
{
    const struct addition *a = asked;
    uint64_t answer = ruxtajma_book(was.at, was.length);
    size_t size = ruxtajma_book_size(answer);

    if (ruxtajma_refusal(answer) != 0)
        return answer;
    is->at = memcpy(need(BOOK_MOST + was.length - size), was.at, size);
    answer = a->body != NULL
        ? ruxtajma_save(is->at, BOOK_MOST, a->machine, a->latest, a->body->at, a->body->length)
        : ruxtajma_restore(is->at, BOOK_MOST, a->machine, a->old, a->latest);
    if (ruxtajma_refusal(answer) != 0)
        return answer;
    is->length = ruxtajma_book_size(answer) + was.length - size;
    memcpy(is->at + ruxtajma_book_size(answer), was.at + size, was.length - size);
    return answer;
}

/* Where another edition is the latest: whose it is, and what differs from the stated one. */
static void tell_overtaken(const struct target *p, const struct addition *a)
{
    unsigned latest = latest_of(p->was, a->machine);
    struct bytes before, after;

    if (latest == 0) {
        tell_none(a->machine);
        return;
    }
    if (a->body == NULL && !has_edition(p->was, a->machine, a->old, &before))
        printf("machine %u: the book has no edition %u of it\n", a->machine, a->old);
    if (a->latest == latest)
        return;
    printf("machine %u: edition %u is the latest, and not %u\n", a->machine, latest, a->latest);
    tell_saver(p, a->machine, latest);
    if (has_edition(p->was, a->machine, a->latest, &before) &&
        has_edition(p->was, a->machine, latest, &after)) {
        printf("from edition %u to edition %u:\n", a->latest, latest);
        tell_changes(before, after);
    }
}

/* Of a table in a longer file, which its own rules allow. */
static void tell_behind(const struct bytes *body)
{
    uint64_t answer = ruxtajma_parts(body->at, body->length);

    if (ruxtajma_refusal(answer) == 0)
        printf("the table has %zu bytes, and the file has %zu: a book takes no bytes behind a table\n",
               ruxtajma_extended_end(answer), body->length);
}

static int done(const struct target *p, const struct addition *a, unsigned edition,
                uint64_t answer)
{
    printf("machine %u: edition %u is ", a->machine, edition);
    if (a->body != NULL)
        printf("saved");
    else
        printf("edition %u again", a->old);
    printf(" (rows: %zu, bytes: %zu of %d)\n", ruxtajma_rows(answer), ruxtajma_book_size(answer),
           BOOK_MOST);
    return told_of(p);
}

static int add(const char *name, const struct addition *a)
{
    const char *by = who();
    struct target p = target_of(name, &saves);
    uint64_t answer = tried(&p, added, a, OVERTAKEN);

    if (refused(answer)) {
        if (ruxtajma_refusal(answer) == OVERTAKEN)
            tell_overtaken(&p, a);
        if (ruxtajma_refusal(answer) == BASE_LENGTH)
            tell_behind(a->body);
        return REFUSAL;
    }
    unsigned edition = latest_of(p.is, a->machine);
    exchange(&p, by, save_words(a->machine, edition, a->old));
    return done(&p, a, edition, answer);
}

int book_save(const struct call *call)
{
    struct addition a = { .machine = number16("machine", call->word[1]) };

    if (call->began == NULL)
        wrong("book save: --began N, the edition that you began from, 0 for a new machine");
    a.latest = number16("--began", call->began);
    struct bytes body = taken(call->word[2], FILE_MOST + 1);
    a.body = &body;
    return add(call->word[0], &a);
}

int book_restore(const struct call *call)
{
    struct addition a = { .machine = number16("machine", call->word[1]),
                          .old = number16("edition", call->word[2]) };

    if (call->latest == NULL)
        wrong("book restore: --latest N, the edition that is the latest now");
    a.latest = number16("--latest", call->latest);
    return add(call->word[0], &a);
}

/* A log that was left by a book which was moved away would never fit the new one. */
static void want_no_log(const char *name)
{
    const char *log = joined(name, ".log");
    struct stat there;

    if (lstat(name, &there) != 0 && lstat(log, &there) == 0)
        wrong("%s: it would be the new book's log, and is there already: put it away", log);
}

int book_new(const struct call *call)
{
    uint8_t empty[] = { 1, 0, 0 };      /* the layout, and no rows */

    want_no_log(call->word[0]);
    return put_new(call->word[0], (struct bytes){ empty, sizeof empty });
}
