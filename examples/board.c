/*
 * board [DUMP]: a day's work on a board at a museum, in C.  Reads a dump from a
 * file or from standard input and lists it; then walks the table's entries, asks
 * where its first I/O interrupt goes, and moves that to input 9, twice: the second
 * edit still states what the first one saw, and is refused.
 */
#include "ruxtajma.h"

#include <stdio.h>
#include <string.h>

enum { HEADER = 44, IO_INTERRUPT = 3, LENGTH = 8, IO = 0 };

static uint8_t dump[65537];    /* one byte more than a dump may have */
static uint8_t room[131072];   /* holds every listing, and the pairs of any line */

/* Whether the answer is a refusal, which is said then. */
static int refused(uint64_t answer)
{
    unsigned number = ruxtajma_refusal(answer);

    if (number == 23)
        printf("refused 23, inner %u\n", ruxtajma_inner(answer));
    else if (number != 0)
        printf("refused %u\n", number);
    return number != 0;
}

static void list(size_t length)
{
    uint64_t answer = ruxtajma_list(dump, length, room, sizeof room);

    if (!refused(answer))
        fwrite(room, 1, ruxtajma_count(answer), stdout);
}

/* Where the first I/O interrupt stands, or 0; and its number among the entries. */
static size_t walk(const uint8_t *table, size_t length, size_t *number)
{
    size_t found = 0, size;

    for (size_t at = HEADER, i = 0; ; at += size, i++) {
        size = ruxtajma_count(ruxtajma_entry(table, length, at));
        if (size == 0)
            return found;
        printf("entry at %zu: type %u, %zu bytes\n", at, table[at], size);
        if (found == 0 && table[at] == IO_INTERRUPT)
            found = at, *number = i;
    }
}

static void ask_route(const uint8_t *table, size_t length, const uint8_t *e)
{
    uint64_t answer = ruxtajma_io_routes(table, length, e[1], e[4], e[5],
                                         room, sizeof room);

    if (refused(answer))
        return;
    printf("interrupt type %u, bus %u, IRQ %u:", e[1], e[4], e[5]);
    for (size_t i = 0; i < ruxtajma_count(answer); i++)
        printf(" (%u,%u)", room[2 * i], room[2 * i + 1]);
    printf("\n");
}

static void ask_address(const uint8_t *table, size_t length, uint8_t bus)
{
    static const char *const word[] = { "no", "yes", "undeclared" };
    uint64_t answer = ruxtajma_address(table, length, bus, IO, 0x100);

    if (!refused(answer))
        printf("I/O address 100h, bus %u: %s, links %u\n", bus,
               word[ruxtajma_seen(answer)], ruxtajma_links(answer));
}

/* The stated bytes are a copy: they may not be those of the table itself. */
static void edit(uint8_t *table, size_t length, size_t number,
                 const uint8_t *stated)
{
    uint8_t wanted[LENGTH];

    memcpy(wanted, stated, LENGTH);
    wanted[7] = 9;
    printf("entry %zu to input 9: ", number);
    if (!refused(ruxtajma_edit(table, length, number, stated, LENGTH,
                               wanted, LENGTH)))
        printf("done, byte 7 is %02Xh\n", table[7]);
}

static void work_on(uint8_t *table, size_t length)
{
    size_t number = 0, at = walk(table, length, &number);
    uint8_t seen[LENGTH];

    if (at == 0)
        return;
    memcpy(seen, table + at, LENGTH);
    ask_route(table, length, seen);
    ask_address(table, length, seen[4]);
    edit(table, length, number, seen);
    edit(table, length, number, seen);
}

int main(int argc, char **argv)
{
    FILE *from = argc > 1 ? fopen(argv[1], "rb") : stdin;
    size_t length = from != NULL ? fread(dump, 1, sizeof dump, from) : 0;

    if (from == NULL || ferror(from)) {
        fprintf(stderr, "board: cannot read the dump\n");
        return 2;
    }
    list(length);

    uint64_t answer = ruxtajma_read(dump, length);
    if (ruxtajma_refusal(answer) == 0 && ruxtajma_default(answer) == 0)
        work_on(dump + ruxtajma_start(answer), ruxtajma_length(answer));
    return 0;
}
