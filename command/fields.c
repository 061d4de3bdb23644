/*
 * An entry with some of its fields set, by their names in document 01.  That is only
 * what the user wants; whether it may stand is the editor's to say.
 */
#include "mpt.h"

#include <string.h>
#include <strings.h>

enum { NAME = 6 };              /* a bus name, which is text; the others are numbers */

static const struct field {
    const char *name;
    uint8_t first, last;        /* of the types of entries that have it */
    uint8_t at, shift, bits;
} fields[] = {
    { "id", 0, 2, 1, 0, 8 },       { "version", 0, 0, 2, 0, 8 },   { "enabled", 0, 0, 3, 0, 1 },
    { "boot", 0, 0, 3, 1, 1 },     { "signature", 0, 0, 4, 0, 32 }, { "features", 0, 0, 8, 0, 32 },
    { "name", 1, 1, 2, 0, 8 * NAME },
    { "version", 2, 2, 2, 0, 8 },  { "enabled", 2, 2, 3, 0, 1 },   { "address", 2, 2, 4, 0, 32 },
    { "type", 3, 4, 1, 0, 8 },     { "polarity", 3, 4, 2, 0, 2 },  { "trigger", 3, 4, 2, 2, 2 },
    { "bus", 3, 4, 4, 0, 8 },      { "irq", 3, 4, 5, 0, 8 },
    { "destination", 3, 4, 6, 0, 8 }, { "input", 3, 4, 7, 0, 8 },
};

static const struct field *field_of(struct bytes e, const char *name, size_t length)
{
    for (const struct field *f = fields; f < fields + sizeof fields / sizeof *fields; f++)
        if (strlen(f->name) == length && strncasecmp(f->name, name, length) == 0 &&
            e.length >= f->at + (f->bits + 7u) / 8 && f->first <= e.at[0] && e.at[0] <= f->last)
            return f;
    wrong("--set %s: the stated entry has no such field", name);
}

static uint64_t value_of(const struct field *f, const char *word)
{
    if (strcmp(f->name, "type") == 0)
        return type_of(word);
    if (f->bits == 1 && (strcasecmp(word, "on") == 0 || strcasecmp(word, "off") == 0))
        return strcasecmp(word, "on") == 0;
    return number_of(f->name, word, f->bits > 8 ? 16 : 10, (UINT64_C(1) << f->bits) - 1);
}

static void set_name(uint8_t *at, const char *word)
{
    if (strlen(word) > NAME)
        wrong("name: '%s' has more than six letters", word);
    for (int i = 0; i < NAME; i++)
        at[i] = *word != '\0' ? (uint8_t)*word++ : ' ';
}

/* Low byte first; bits beside a field of less than a byte stay. */
static void set_number(uint8_t *at, const struct field *f, uint64_t value)
{
    unsigned mask = (f->bits < 8 ? (1u << f->bits) - 1 : 255) << f->shift;

    for (unsigned bit = 0; bit < f->bits; bit += 8, at++)
        *at = (uint8_t)((*at & ~mask) | (value >> bit << f->shift & mask));
}

/* The stated entry, with what each --set names. */
struct bytes with_fields(struct bytes entry, const struct call *call)
{
    struct bytes made = copied(entry);

    for (int i = 0; i < call->set.count; i++) {
        const char *name = call->set.at[i], *value = strchr(name, '=');
        if (value++ == NULL)
            wrong("--set %s: no FIELD=VALUE", name);
        const struct field *f = field_of(entry, name, (size_t)(value - 1 - name));
        if (f->bits == 8 * NAME)
            set_name(made.at + f->at, value);
        else
            set_number(made.at + f->at, f, value_of(f, value));
    }
    return made;
}
