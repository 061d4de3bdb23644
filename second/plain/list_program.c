/*
 * list [BOOT]: the dump on standard input, the listing or `refused n` on standard
 * output; with the number of the processor that booted, in full.  Exit 0 where one
 * of these was written, 2 where that failed or BOOT is no number.
 */
#include "plain.h"
#include "ruxtajma.h"

#include <stdio.h>
#include <stdlib.h>

/* The longest dump and a byte more, so that a longer one is seen (refused 1). */
static uint8_t dump[65536 + 1];

/* The longest listing has 38,213 bytes. */
static uint8_t room[65536];

/* The number of a processor; a wider one is as little 0 or 1 as 255 is. */
static uint8_t processor(const char *word)
{
    char *end;
    unsigned long number = strtoul(word, &end, 10);

    if (end == word || *end != 0) {
        fprintf(stderr, "list: '%s' is no number\n", word);
        exit(2);
    }
    return number > 255 ? 255 : (uint8_t)number;
}

int main(int argc, char **argv)
{
    size_t n = fread(dump, 1, sizeof dump, stdin);
    uint64_t answer = argc < 2 ? plain_list(dump, n, room, sizeof room)
        : plain_list_full(dump, n, processor(argv[1]), room, sizeof room);
    unsigned refusal = ruxtajma_refusal(answer);

    if (ferror(stdin)) {
        perror("list: standard input");
        return 2;
    }
    if (refusal != 0)
        printf("refused %u\n", refusal);
    else
        fwrite(room, 1, ruxtajma_count(answer), stdout);
    if (fflush(stdout) != 0 || ferror(stdout)) {
        perror("list: standard output");
        return 2;
    }
    return 0;
}
