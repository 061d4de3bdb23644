/*
 * FILE.log: a line for each change of a file, five words: its time, who made it, and three
 * that tell what it was, in the form of a table's edits or of a book's saves.  The words
 * are on the disk before the change is; the end of the line is written behind it.  So a
 * line that has its end came about, but for one with a sixth word, "never": of a last line
 * without its end the file itself tells, and so the next change ends it.
 */
#include "mpt.h"

#include <ctype.h>
#include <errno.h>
#include <pwd.h>
#include <stdlib.h>
#include <string.h>
#include <time.h>
#include <unistd.h>

enum { TIME = 20 };             /* the length of a time */

/* ---- a line ---- */

/* Who is at the bench, as one word, whatever the account or the machine is called. */
const char *who(void)
{
    static char name[160];
    char host[65] = "";
    const struct passwd *account = getpwuid(getuid());
    const char *user = getenv("MPT_USER");

    if (user == NULL || *user == '\0')
        user = account != NULL ? account->pw_name : "unknown";
    gethostname(host, sizeof host - 1);
    snprintf(name, sizeof name, "%.64s@%s", user, host);
    for (char *c = name; *c != '\0'; c++)
        if ((unsigned char)*c <= ' ' || *c == 127)
            *c = '_';
    return name;
}

/* The five words, without the line's end. */
char *log_line(const char *by, const char *what)
{
    char *line = need(300 + strlen(what)), when[32];
    time_t now = time(NULL);

    strftime(when, sizeof when, "%Y-%m-%dT%H:%M:%SZ", gmtime(&now));
    sprintf(line, "%s %s %s", when, by, what);
    return line;
}

/* How much of the form of a time a text begins with. */
static size_t time_in(const char *text)
{
    static const char form[] = "0000-00-00T00:00:00Z";
    size_t n = 0;

    while (form[n] != '\0' && (form[n] == '0' ? isdigit((unsigned char)text[n]) : text[n] == form[n]))
        n++;
    return n;
}

/* So a table's line is no line of a book's log, nor the other way round. */
static bool has_length(const struct form *form, const char *word)
{
    size_t length = strlen(word);

    return length >= form->least && length <= form->most;
}

/* Takes a line of ours apart in its place. */
static bool is_line(const struct form *form, struct bytes text, struct line *line)
{
    char *word[6], *rest = (char *)text.at;
    int words = 0;

    for (size_t i = 0; i < text.length; i++)
        if (text.at[i] < ' ' || text.at[i] == 127)
            return false;
    while (rest != NULL && words < 6)
        word[words++] = strsep(&rest, " ");
    if (words < 5 || rest != NULL || (words == 6 && strcmp(word[5], "never") != 0) ||
        time_in(word[0]) != TIME || word[0][TIME] != '\0' || strchr(word[1], '@') == NULL ||
        !has_length(form, word[3]) || !has_length(form, word[4]))
        return false;
    *line = (struct line){ .time = word[0], .who = word[1], .never = words == 6 };
    return form->is_told(word + 2, line);
}

/* ---- a log ---- */

static struct log parsed(const struct form *form, struct bytes file)
{
    struct log log = { .rest = file };

    file.at[file.length] = '\0';        /* `taken` has room for it */
    for (size_t i = 0; i < file.length; i++)
        log.count += file.at[i] == '\n';
    log.at = need((log.count + 1) * sizeof *log.at);    /* one more: see `with_last` */
    for (size_t i = 0; i < log.count; i++) {
        uint8_t *line = log.rest.at, *end = memchr(line, '\n', log.rest.length);
        *end = '\0';
        if (!is_line(form, (struct bytes){ line, (size_t)(end - line) }, &log.at[i]) && log.bad == 0)
            log.bad = i + 1;
        log.rest = (struct bytes){ end + 1, log.rest.length - (size_t)(end + 1 - line) };
    }
    while (log.rest.length > 0 && log.rest.at[log.rest.length - 1] == '\0')
        log.rest.length--;      /* a machine that went down may leave them */
    return log;
}

/*
 * The words of a line behind its name, as far as they go: a number, two of the form's, and
 * "never".  Only the last that is there may have too few signs.
 */
static bool are_begun(const struct form *form, const char *text, size_t length)
{
    size_t end = 0;

    for (int word = 0; word < 3 && text[end] == ' '; word++) {
        size_t signs = strspn(text + end + 1, word == 0 ? "0123456789" : form->signs);
        end += 1 + signs;
        if (word > 0 && (signs > form->most || (signs < form->least && end < length)))
            return false;
    }
    return length - end <= strlen(" never") && memcmp(text + end, " never", length - end) == 0;
}

/* The beginning of a line of ours: a time, a name with @, and what its form has behind. */
static bool is_cut_short(const struct form *form, struct bytes rest)
{
    const char *line = (const char *)rest.at;
    size_t time = time_in(line);

    if (time < TIME || line[TIME] != ' ')
        return time == rest.length;
    size_t name = TIME + 1 + strcspn(line + TIME + 1, " ");
    return name == rest.length || (memchr(line, '@', name) != NULL &&
           are_begun(form, line + name, rest.length - name));
}

/*
 * A whole line without its end counts too: whether its change came about the file tells.
 * One that was cut short does not: its change comes behind the line.
 */
static struct log with_last(struct log log, const struct form *form, struct bytes file)
{
    struct line *last = &log.at[log.count];
    struct bytes copy = { memcpy(need(log.rest.length), log.rest.at, log.rest.length + 1),
                          log.rest.length };

    if (is_line(form, copy, last) && !last->never) {
        last->never = !form->came_about(last, file);
        log.count++;
        log.rest.length = 0;
    } else if (log.bad == 0 && !is_cut_short(form, log.rest)) {
        log.bad = log.count + 1;
    }
    return log;
}

/* The log as far as there is one, from under the lock; where it cannot be read, why is said. */
bool has_log(const struct target *p, struct log *log)
{
    if (p->log < 0 && p->closed != ENOENT) {
        printf("the log cannot be read: %s\n", strerror(p->closed));
        return false;
    }
    *log = with_last(parsed(p->form, p->told), p->form, p->was);
    return true;
}

/*
 * The log made ready for the next line: the last one gets its end, or what was cut short
 * goes.  Nothing else is touched: a file that is no log of ours is not written to.
 */
bool made_ready(const struct target *p)
{
    struct bytes all = taken_from(p->log, p->log_name, FILE_MOST + 1);
    struct log log = parsed(p->form, all), whole = with_last(log, p->form, p->was);

    if (whole.bad != 0)
        wrong("%s: line %zu is no line of a log", p->log_name, whole.bad);
    if (p->form->misfit(p->was, &whole) != 0)
        fprintf(stderr, "mpt: note: the log does not fit the %s: see '%s'\n", p->form->file,
                p->form->see);
    bool ended = whole.count > log.count;
    const char *ending = !ended ? "" : whole.at[log.count].never ? " never\n" : "\n";
    size_t end = (size_t)(log.rest.at - all.at) + (ended ? log.rest.length : 0);
    return (end == all.length || ftruncate(p->log, (off_t)end) == 0) &&
           put_all(p->log, (struct bytes){ (uint8_t *)ending, strlen(ending) });
}
