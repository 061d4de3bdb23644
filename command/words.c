/* What people write and read: numbers, bytes in hexadecimal, and refusals. */
#include "mpt.h"

#include <ctype.h>
#include <errno.h>
#include <stdarg.h>
#include <stdlib.h>
#include <string.h>
#include <strings.h>

/* The papers' numbers, for who keeps a board; docs/USING.md has what to look for. */
static const char *const says[] = {
    "a number without words",
    "it is no dump: its regions, their kinds, places or lengths; at most 65,536 bytes",
    "no good floating pointer: no \"_MP_\" of length 1 and sum 0 where one is looked for",
    "the floating pointer's revision is not 4",
    "the floating pointer's feature byte 1 and its table address do not go together",
    "no 44 bytes of a header where the table should begin",
    "no table begins there: not \"PCMP\" (is it a dump? 'mpt table' takes its table out)",
    "the base length is under 44, over 4,096, or past the end; or, of a save, bytes stand behind the table",
    "the base bytes do not add to 0",
    "the table's revision is not 4",
    "a base entry's type is over 4",
    "a base entry is cut short, or there are not as many as the header counts",
    "the base entries are out of order: a type below the one before",
    "the extended part: its length, its sum, or the form of its entries",
    "the processors (one enabled boot processor, no enabled ID 255 or twice) or the local APIC address",
    "the buses: an ID twice, or an unknown name",
    "an enabled I/O APIC: ID 255 or that of another one, address 0 or no multiple of 1,024",
    "an interrupt: its type, polarity or trigger, or a bus, APIC or local input that is not there",
    "an extended entry: a bus not listed, a wrong kind, range or list, a second link, a circle",
    "the answer is longer than the room for it",
    "no entry has this place",
    "another length than the entry's, or what is wanted has another type",
    "other bytes stand there now",
    "the edited table would be refused",
    "a bus that is not listed, or no such kind or type",
    "no such PCI slot: the bus is not PCI, or it has no such device or pin",
    "no number is free for an I/O APIC that has a processor's: all of 0 to 254 are in use",
    "it is no good book: its layout, its rows, the order of the editions, or a table in it",
    "another edition is the latest, or the book has no such edition",
    "no room for one edition more: a book has at most 32,768 bytes, a machine 65,535 editions",
    "no such default configuration (1 to 7), or no such boot processor (0 or 1)",
};

/* Wrong words of the user's. */
noreturn void wrong(const char *format, ...)
{
    va_list rest;

    fflush(stdout);
    fputs("mpt: ", stderr);
    va_start(rest, format);
    vfprintf(stderr, format, rest);
    va_end(rest);
    fputc('\n', stderr);
    exit(TROUBLE);
}

/* The system's reason, of a file. */
noreturn void failed(const char *name)
{
    wrong("%s: %s", name, strerror(errno));
}

/* One byte more, so that it is never null and a text has room for its end. */
void *need(size_t size)
{
    void *room = malloc(size + 1);

    if (room == NULL)
        failed("memory");
    return room;
}

char *joined(const char *name, const char *ending)
{
    return strcat(strcpy(need(strlen(name) + strlen(ending)), name), ending);
}

const char *words_of(unsigned number)
{
    return says[number < sizeof says / sizeof *says ? number : 0];
}

/* What the command ends with; a refusal is said. */
int refused(uint64_t answer)
{
    unsigned number = ruxtajma_refusal(answer), inner = ruxtajma_inner(answer);

    if (number == 0)
        return ANSWER;
    printf("refused %u: %s", number, words_of(number));
    if (inner != 0)
        printf(", with %u: %s", inner, words_of(inner));
    putchar('\n');
    return REFUSAL;
}

/* With 0x it is hexadecimal in either base. */
bool is_number(const char *word, int base, uint64_t most, uint64_t *number)
{
    if (word[0] == '0' && (word[1] == 'x' || word[1] == 'X')) {
        word += 2;
        base = 16;
    }
    if (*word == '\0' || word[strspn(word, "0123456789abcdefABCDEF")] != '\0')
        return false;
    char *end;
    errno = 0;
    *number = strtoull(word, &end, base);
    return *end == '\0' && errno == 0 && *number <= most;
}

uint64_t number_of(const char *what, const char *word, int base, uint64_t most)
{
    uint64_t number;

    if (!is_number(word, base, most, &number))
        wrong("%s: '%s' is no %snumber from 0 to %llu", what, word,
              base == 16 ? "hexadecimal " : "", (unsigned long long)most);
    return number;
}

uint16_t number16(const char *what, const char *word)
{
    return (uint16_t)number_of(what, word, 10, UINT16_MAX);
}

/* A number, by its name or as it is. */
uint8_t choice_of(const char *what, const char *word, const char *const *names)
{
    for (uint8_t i = 0; names[i] != NULL; i++)
        if (strcasecmp(word, names[i]) == 0)
            return i;
    return (uint8_t)number_of(what, word, 10, 255);
}

uint8_t type_of(const char *word)
{
    static const char *const types[] = { "INT", "NMI", "SMI", "EXTINT", NULL };

    return choice_of("interrupt type", word, types);
}

static int digit(char c)
{
    return isdigit((unsigned char)c) ? c - '0'
        : isxdigit((unsigned char)c) ? tolower((unsigned char)c) - 'a' + 10 : -1;
}

/* Pairs of digits, with or without spaces between the pairs. */
bool is_hexadecimal(const char *word, struct bytes *bytes)
{
    *bytes = (struct bytes){ need(strlen(word)), 0 };
    for (; *word != '\0'; word++) {
        if (*word == ' ')
            continue;
        if (digit(word[0]) < 0 || digit(word[1]) < 0)
            return false;
        bytes->at[bytes->length++] = (uint8_t)(digit(word[0]) << 4 | digit(word[1]));
        word++;
    }
    return true;
}

struct bytes bytes_of(const char *what, const char *word)
{
    struct bytes bytes;

    if (!is_hexadecimal(word, &bytes))
        wrong("%s: '%s' are no bytes in hexadecimal", what, word);
    return bytes;
}

char *hexadecimal(struct bytes bytes)
{
    static const char digits[] = "0123456789ABCDEF";
    char *text = need(2 * bytes.length), *put = text;

    for (size_t i = 0; i < bytes.length; i++) {
        *put++ = digits[bytes.at[i] >> 4];
        *put++ = digits[bytes.at[i] & 15];
    }
    *put = '\0';
    return text;
}
