/* New numbers for the I/O APICs that have a processor's (MPS 3.6.6). */
#include "mpt.h"

#include <string.h>

/* 0 to 254, as 255 names all; so many bytes are never too few (19). */
enum { NUMBERS = 255 };

/* An I/O APIC by its line of the listing, as in "ioapic 2 17 on FEC00000". */
struct io_apic {
    unsigned number;
    char state[sizeof "off"], address[sizeof "FEC00000"];
};

static bool is_io_apic(const char *line, struct io_apic *apic)
{
    return sscanf(line, "ioapic %u %*u %3s %8s", &apic->number, apic->state, apic->address) == 3;
}

/*
 * A line of one; answers whether the number is its own: one that is off has none.
 * That one which gets a new number gets another than it had is proved (new-other).
 */
static bool told(size_t place, const struct io_apic *apic, const uint8_t *number)
{
    bool on = strcmp(apic->state, "on") == 0;

    printf("entry %-3zu  ioapic %-3u  at %s  ", place, apic->number, apic->address);
    if (on)
        printf("%s %u\n", *number == apic->number ? "keeps" : "gets", *number);
    else
        printf("%s (takes no part)\n", apic->state);
    return on;
}

int renumber(const struct call *call)
{
    static uint8_t numbers[NUMBERS];
    struct bytes file;
    struct table t;
    struct io_apic apic;

    if (!has_table(call, &file) || !is_table(file, &t))
        return REFUSAL;
    uint64_t answer = ruxtajma_renumber(t.file.at, t.file.length, numbers, sizeof numbers);
    if (refused(answer))
        return REFUSAL;
    size_t place = 0, apics = 0, numbered = 0;
    for (char *line = first_line(&t), *next; *line != '\0'; line = next, place++) {
        next = next_line(line);
        if (!is_io_apic(line, &apic))
            continue;
        apics++;
        numbered += told(place, &apic, numbers + numbered);
    }
    if (apics == 0)
        printf("no I/O APICs: the table lists none\n");
    printf("numbers in use: %zu of %d\n", ruxtajma_used(answer), NUMBERS);
    return ANSWER;
}
