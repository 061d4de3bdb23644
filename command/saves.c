/*
 * The log of a book: a line's last three words are the machine, the edition that was saved,
 * and the old edition that it restores, or 0.
 */
#include "mpt.h"

#include <string.h>

/* Of the library's history: the bytes of a row, the rows of any book, and the bytes of all. */
enum { ROW = 12, ROWS_MOST = 630, HISTORY_MOST = ROWS_MOST * ROW };

/* ---- the rows ---- */

/*
 * The rows of a book, and the line that tells of each, or NULL: rows that others than this
 * command saved have none.
 */
struct rows {
    uint8_t at[HISTORY_MOST];
    const struct line *of[ROWS_MOST];
    size_t count;
    size_t misfit;              /* the number of the first line that is of no row, or 0 */
};

struct row {
    uint16_t machine, edition;
    uint32_t length;
};

static struct row row_of(const struct rows *rows, size_t number)
{
    const uint8_t *r = rows->at + ROW * number;

    return (struct row){ (uint16_t)(r[0] | r[1] << 8), (uint16_t)(r[2] | r[3] << 8),
                         r[8] | (uint32_t)r[9] << 8 | (uint32_t)r[10] << 16 | (uint32_t)r[11] << 24 };
}

/* The number of the row of an edition, from 1, among so many; or 0. */
static size_t place_of(const struct rows *rows, size_t among, unsigned machine, unsigned edition)
{
    for (; among > 0; among--) {
        struct row r = row_of(rows, among - 1);
        if (r.machine == machine && r.edition == edition)
            return among;
    }
    return 0;
}

/* ---- the lines ---- */

char *save_words(unsigned machine, unsigned edition, unsigned restored)
{
    char *words = need(sizeof "65535 65535 65535");

    sprintf(words, "%u %u %u", machine, edition, restored);
    return words;
}

static bool is_save(char *const *word, struct line *line)
{
    uint64_t machine, edition, restored;

    if (!is_number(word[0], 10, UINT16_MAX, &machine) ||
        !is_number(word[1], 10, UINT16_MAX, &edition) ||
        !is_number(word[2], 10, UINT16_MAX, &restored))
        return false;
    line->machine = (uint16_t)machine;
    line->edition = (uint16_t)edition;
    line->restored = (uint16_t)restored;
    return true;
}

/* Under the lock the edition was to come: so its save came about where the book has it. */
static bool is_held(const struct line *line, struct bytes book)
{
    return ruxtajma_refusal(ruxtajma_body(book.at, book.length, line->machine, line->edition)) == 0;
}

/*
 * Rows and lines are in one order, and of two lines of one edition the last counts: the
 * other is of a book that somebody has put away.  What stands behind a line that is none of
 * ours tells nothing.
 */
static void put_lines(struct rows *rows, const struct log *log)
{
    size_t end = rows->count;

    for (size_t i = log->bad != 0 ? log->bad - 1 : log->count; i > 0; i--) {
        const struct line *line = &log->at[i - 1];
        size_t row = line->never ? 0 : place_of(rows, end, line->machine, line->edition);
        if (row > 0)
            rows->of[end = row - 1] = line;
        else if (!line->never)
            rows->misfit = i;
    }
}

/* Of a good book; a refusal of another is said. */
static bool has_rows(struct bytes book, const struct log *log, struct rows *rows)
{
    uint64_t answer = ruxtajma_history(book.at, book.length, rows->at, sizeof rows->at);

    if (refused(answer))
        return false;
    memset(rows->of, 0, sizeof rows->of);
    rows->count = ruxtajma_count(answer);
    rows->misfit = 0;
    put_lines(rows, log);
    return true;
}

static size_t of_no_row(struct bytes book, const struct log *log)
{
    struct rows rows;

    return has_rows(book, log, &rows) ? rows.misfit : 0;
}

const struct form saves = {
    .file = "book", .see = "mpt book history",
    .signs = "0123456789", .least = 1, .most = 5,                       /* of an edition */
    .is_told = is_save, .came_about = is_held, .misfit = of_no_row
};

/* ---- beside a save ---- */

/*
 * By the log, who saved an edition that the book has.  Lines of editions that it has no
 * more, since an older copy was put back, take nothing from those that it has.
 */
void tell_saver(const struct target *p, unsigned machine, unsigned edition)
{
    struct rows rows;
    struct log log;

    if (!has_log(p, &log) || !has_rows(p->was, &log, &rows))
        return;
    const struct line *line = rows.of[place_of(&rows, rows.count, machine, edition) - 1];
    if (log.bad != 0 || (line == NULL && rows.misfit != 0))
        printf("the log does not fit the book: see 'mpt book history'\n");
    else if (line == NULL)
        printf("the log does not say who saved it\n");
    else if (line->restored != 0)
        printf("edition %u restored by %s, %s\n", line->restored, line->who, line->time);
    else
        printf("saved by %s, %s\n", line->who, line->time);
}

/* ---- the history of a book ---- */

static void show_row(struct row row, const struct line *line)
{
    printf("machine %-5u  edition %-5u  %5u bytes  ", row.machine, row.edition, row.length);
    if (line == NULL)
        printf("not in the log\n");
    else if (line->restored != 0)
        printf("%s  %s  edition %u restored\n", line->time, line->who, line->restored);
    else
        printf("%s  %s\n", line->time, line->who);
}

/* Of one machine, or of all. */
static void show_rows(const struct rows *rows, const uint16_t *machine)
{
    size_t shown = 0;

    for (size_t i = 0; i < rows->count; i++) {
        struct row row = row_of(rows, i);
        if (machine != NULL && row.machine != *machine)
            continue;
        show_row(row, rows->of[i]);
        shown++;
    }
    if (shown == 0 && machine != NULL)
        printf("no editions of machine %u\n", *machine);
    else if (shown == 0)
        printf("no editions: the book is empty\n");
}

int book_history(const struct call *call)
{
    bool one = call->words == 2;
    uint16_t machine = one ? number16("machine", call->word[1]) : 0;
    struct target p = target_of(call->word[0], &saves);
    struct rows rows;
    struct log log;

    read_locked(&p);
    if (!has_log(&p, &log) || !has_rows(p.was, &log, &rows))
        return REFUSAL;
    show_rows(&rows, one ? &machine : NULL);
    if (rows.misfit == 0 && log.bad == 0)
        return ANSWER;
    printf("the log does not fit %s: line %zu is %s\n", call->word[0],
           rows.misfit != 0 ? rows.misfit : log.bad,
           rows.misfit != 0 ? "of no edition in it, or out of order" : "no line of a log");
    return REFUSAL;
}
