/* A table as a text that a person can edit, and the table that the writer makes of it. */
#include "mpt.h"

#include <string.h>

/* The header fields that the writer takes (document 01, "The table"). */
static const struct field {
    const char *name;
    uint8_t at, length;
    bool text;                  /* else a number, its low byte first */
} fields[] = {
    { "oem-id", 8, 8, true },        { "product", 16, 12, true },
    { "oem-pointer", 28, 4, false }, { "oem-size", 32, 2, false },
    { "local-apic", 36, 4, false },  { "reserved", 43, 1, false },
};
enum { FIELDS = sizeof fields / sizeof *fields, SECTIONS = 3 };

/* What stands behind a table in its file is no part of it, and comes back as it is. */
static const char *const sections[SECTIONS] = { "base", "extended", "behind" };

static uint32_t number_in(const uint8_t *header, const struct field *f)
{
    uint32_t number = 0;

    for (int i = f->length; i-- > 0; )
        number = number << 8 | header[f->at + i];
    return number;
}

/* ---- parts ---- */

/* In quotes a byte that is not plain, or that ends something, has its number. */
static void put_field(FILE *to, const struct field *f, const uint8_t *header)
{
    if (!f->text) {
        fprintf(to, "%-11s %0*X\n", f->name, 2 * f->length, number_in(header, f));
        return;
    }
    fprintf(to, "%-11s \"", f->name);
    for (const uint8_t *c = header + f->at; c < header + f->at + f->length; c++)
        fprintf(to, *c < ' ' || *c > '~' || strchr("\"\\#", *c) ? "\\x%02X" : "%c", *c);
    fprintf(to, "\"\n");
}

/* The fields in which two headers differ. */
void tell_fields(const uint8_t *before, const uint8_t *after)
{
    for (const struct field *f = fields; f < fields + FIELDS; f++)
        if (memcmp(before + f->at, after + f->at, f->length) != 0) {
            printf("- ");
            put_field(stdout, f, before);
            printf("+ ");
            put_field(stdout, f, after);
        }
}

int parts(const struct call *call)
{
    struct table t;
    struct bytes made, some;

    if (!table_of(call, &t))
        return REFUSAL;
    FILE *to = open_memstream((char **)&made.at, &made.length);
    if (to == NULL)
        failed("memory");
    fprintf(to, "# The parts of a table: 'mpt make' makes the table of them.\n");
    for (int i = 0; i < FIELDS; i++)
        put_field(to, &fields[i], t.file.at);
    fprintf(to, "%s\n", sections[0]);
    char *line = first_line(&t), *next;
    for (size_t at = HEADER; at < t.end; at += some.length, line = next) {
        if (at == t.base_end)
            fprintf(to, "%s\n", sections[1]);
        some = entry_from(&t, at);
        next = next_line(line);
        fprintf(to, "%s  # %s\n", hexadecimal(some), line);
    }
    if (t.base_end == t.end)
        fprintf(to, "%s\n", sections[1]);
    for (size_t at = t.end; at < t.file.length; at += some.length) {
        if (at == t.end)
            fprintf(to, "%s\n", sections[2]);
        some = (struct bytes){ t.file.at + at, t.file.length - at < 32 ? t.file.length - at : 32 };
        fprintf(to, "%s\n", hexadecimal(some));
    }
    if (fclose(to) != 0)
        failed("memory");
    return given_out(call, made, true);
}

/* ---- make ---- */

/* What a text has given so far. */
struct reading {
    uint8_t header[HEADER];
    bool given[FIELDS];
    struct bytes part[SECTIONS], *section;
};

static const char *take_number(const struct field *f, uint8_t *to, const char *text)
{
    uint64_t number;

    if (!is_number(text, 16, UINT64_MAX >> (64 - 8 * f->length), &number))
        return "a hexadecimal number is wanted, no wider than the field";
    for (int i = 0; i < f->length; i++)
        to[i] = (uint8_t)(number >> 8 * i);
    return NULL;
}

static const char *take_text(const struct field *f, uint8_t *to, const char *text)
{
    struct bytes one;
    int i = 0;

    if (*text++ != '"')
        return "text in quotes is wanted";
    for (; i < f->length && *text != '"' && *text != '\0'; i++, text++) {
        to[i] = (uint8_t)*text;
        if (*text != '\\')
            continue;
        char pair[3] = { 0 };
        strncpy(pair, text[1] == 'x' ? text + 2 : "", 2);
        if (!is_hexadecimal(pair, &one) || one.length != 1)
            return "a byte in quotes is itself or \\x and two hexadecimal digits";
        to[i] = *one.at;
        text += 3;
    }
    return i == f->length && strcmp(text, "\"") == 0 ? NULL
        : "an oem-id has eight bytes, a product twelve: spaces fill it up, and \\x23 is #";
}

/* Why a line is none, or NULL. */
static const char *take_line(struct reading *r, char *text)
{
    struct bytes more;
    size_t word = strcspn(text, " \t");

    for (int i = 0; i < FIELDS; i++)
        if (strlen(fields[i].name) == word && strncmp(text, fields[i].name, word) == 0) {
            text += word + strspn(text + word, " \t");
            if (r->given[i])
                return "this field was given before";
            r->given[i] = true;
            return (fields[i].text ? take_text : take_number)(&fields[i],
                                                              r->header + fields[i].at, text);
        }
    for (int i = 0; i < SECTIONS; i++)
        if (strcmp(text, sections[i]) == 0) {
            r->section = &r->part[i];
            return NULL;
        }
    if (!is_hexadecimal(text, &more))
        return "no field, no section and no bytes in hexadecimal";
    if (more.length > 0 && r->section == NULL)
        return "bytes stand behind 'base', 'extended' or 'behind'";
    for (size_t i = 0; i < more.length; i++)
        r->section->at[r->section->length++] = more.at[i];
    return NULL;
}

static void read_parts(struct reading *r, const char *name)
{
    struct bytes file = taken(name, FILE_MOST + 1);
    char *rest = (char *)file.at, *line;

    rest[file.length] = '\0';
    if (strlen(rest) != file.length)
        wrong("%s: a byte 0: this is no text", name);
    for (int i = 0; i < SECTIONS; i++)
        r->part[i].at = need(file.length);
    for (int number = 1; (line = strsep(&rest, "\n")) != NULL; number++) {
        size_t end = strcspn(line, "#\r");      /* a comment, or another system's line */
        while (end > 0 && strchr(" \t", line[end - 1]) != NULL)
            end--;
        line[end] = '\0';
        const char *why = take_line(r, line + strspn(line, " \t"));
        if (why != NULL)
            wrong("%s:%d: %s", name, number, why);
    }
    for (int i = 0; i < FIELDS; i++)
        if (!r->given[i])
            wrong("%s: %s is missing", name, fields[i].name);
}

int make(const struct call *call)
{
    enum { MOST = 65536 };              /* holds every table */
    struct reading r = { .section = NULL };
    struct bytes *base = &r.part[0], *extended = &r.part[1], *behind = &r.part[2];
    const uint8_t *h = r.header;

    read_parts(&r, call->word[0]);
    uint8_t *room = need(MOST + behind->length);
    uint64_t answer = ruxtajma_write(h + fields[0].at, fields[0].length, h + fields[1].at,
                                     fields[1].length, number_in(h, &fields[2]),
                                     (uint16_t)number_in(h, &fields[3]),
                                     number_in(h, &fields[4]), (uint8_t)number_in(h, &fields[5]),
                                     base->at, base->length, extended->at, extended->length,
                                     room, MOST);
    if (refused(answer))
        return REFUSAL;
    size_t length = ruxtajma_count(answer);
    memcpy(room + length, behind->at, behind->length);
    return given_out(call, (struct bytes){ room, length + behind->length }, false);
}
