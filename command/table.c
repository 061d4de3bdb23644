/* A table, its entries and their lines of the listing; and the verbs that show them. */
#include "mpt.h"

#include <string.h>

static char text[65536 + 1];            /* holds every listing */

/* Whether it is an accepted table; a refusal is said. */
bool is_table(struct bytes file, struct table *table)
{
    uint64_t answer = ruxtajma_parts(file.at, file.length);

    *table = (struct table){ file, ruxtajma_base_end(answer), ruxtajma_extended_end(answer) };
    return refused(answer) == ANSWER;
}

/* The table that a verb is about, if it is accepted. */
bool table_of(const struct call *call, struct table *table)
{
    struct bytes file;

    return has_table(call, &file) && is_table(file, table);
}

struct bytes entry_from(const struct table *table, size_t at)
{
    uint64_t answer = ruxtajma_entry(table->file.at, table->file.length, at);

    return (struct bytes){ table->file.at + at, ruxtajma_count(answer) };
}

/* Ends a line in its place; answers the one behind it. */
char *next_line(char *line)
{
    char *end = line + strcspn(line, "\n");

    if (*end == '\0')
        return end;
    *end = '\0';
    return end + 1;
}

/*
 * The line of the first entry.  The library lists dumps, so one is made around the
 * table: one region, with the bench board's pointer in front.  The pointer and the
 * table have a line each before the entries.
 */
char *first_line(const struct table *table)
{
    static const uint8_t front[] = {
        1, 3, 0x00, 0x00, 0x0F, 0x00, 0, 0, 0, 0,
        '_', 'M', 'P', '_', 0x10, 0x00, 0x0F, 0x00, 1, 4, 0x81, 0, 0, 0, 0, 0
    };
    static uint8_t dump[DUMP_MOST];
    size_t length = sizeof front + table->end;

    memcpy(dump, front, sizeof front);
    dump[6] = (uint8_t)(length - 10);
    dump[7] = (uint8_t)((length - 10) >> 8);
    memcpy(dump + sizeof front, table->file.at, table->end);
    text[ruxtajma_count(ruxtajma_list(dump, length, (uint8_t *)text, sizeof text - 1))] = '\0';
    return next_line(next_line(text));
}

/* The line of the entry of a number. */
const char *line_at(const struct table *table, size_t place)
{
    char *line = first_line(table);

    for (; place > 0 && *line != '\0'; place--)
        line = next_line(line);
    next_line(line);
    return line;
}

/* Every entry with its words: its place, which one of the extended part has not, its bytes and its line. */
size_t entries_of(const struct table *t, struct entry **all)
{
    char *line = first_line(t), *next, place[24];
    size_t count = 0;

    *all = need(t->end * sizeof **all);
    for (size_t at = HEADER; at < t->end; at += (*all)[count++].bytes.length, line = next) {
        struct bytes bytes = entry_from(t, at);
        char *words = need(60 + 2 * bytes.length + strcspn(line, "\n"));
        next = next_line(line);
        sprintf(place, at < t->base_end ? "%zu" : "-", count);
        sprintf(words, "%5s  %-40s  %s", place, hexadecimal(bytes), line);
        (*all)[count] = (struct entry){ bytes, words };
    }
    return count;
}

int entries(const struct call *call)
{
    struct table t;
    struct entry *all;

    if (!table_of(call, &t))
        return REFUSAL;
    for (size_t i = 0, count = entries_of(&t, &all); i < count; i++)
        puts(all[i].words);
    return ANSWER;
}

int list(const struct call *call)
{
    uint8_t boot = boot_of(call), *room = (uint8_t *)text;
    struct bytes dump = taken(call->word[0], DUMP_MOST);
    uint64_t answer = call->boot != NULL
        ? ruxtajma_list_full(dump.at, dump.length, boot, room, sizeof text)
        : ruxtajma_list(dump.at, dump.length, room, sizeof text);

    if (refused(answer))
        return REFUSAL;
    fwrite(text, 1, ruxtajma_count(answer), stdout);
    return ANSWER;
}

static int judge_dump(struct bytes dump)
{
    uint64_t answer = ruxtajma_read(dump.at, dump.length);
    uint64_t where = ruxtajma_addresses(dump.at, dump.length);

    if (refused(answer))
        return REFUSAL;
    if (ruxtajma_default(answer) != 0)
        printf("accepted: a dump of default configuration %u\n", ruxtajma_default(answer));
    else
        printf("accepted: a dump with a table at %08X, its pointer at %08X\n",
               ruxtajma_table_address(where), ruxtajma_pointer_address(where));
    return ANSWER;
}

/*
 * A dump begins with a number up to 8, and no table does.  More bytes than of a dump are
 * not wanted of a table either: what lies behind one decides nothing.
 */
int judge(const struct call *call)
{
    struct bytes file = taken(call->word[0], DUMP_MOST);
    struct table t;

    if (call->dump && call->table)
        wrong("judge: either --table or --dump");
    if (call->dump || (!call->table && (file.length == 0 || file.at[0] <= REGIONS)))
        return judge_dump(file);
    if (!is_table(file, &t))
        return REFUSAL;
    printf("accepted: a table of %zu bytes\n", t.end);
    return ANSWER;
}

int table(const struct call *call)
{
    struct bytes table;

    return dump_has_table(call, &table) ? given_out(call, table, false) : REFUSAL;
}
