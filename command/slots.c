/* PCI slots, each by its bus, device and pin (MPS D.3): where one goes, and all of a table. */
#include "mpt.h"

#include <ctype.h>
#include <string.h>
#include <strings.h>

enum {
    NO_SLOT = 25,               /* the refusal of which more is said */
    LAST_DEVICE = 31,
    LAST_PIN = 3,
    SLOTS_MOST = 1518           /* the bytes of all slots of any table */
};

/* A letter as boards print it, A, INTA or INTA#; or a number. */
static uint8_t pin_of(const char *word)
{
    const char *letter = strncasecmp(word, "INT", 3) == 0 ? word + 3 : word;
    int pin = toupper((unsigned char)letter[0]) - 'A';
    uint64_t number;

    if (pin >= 0 && pin <= LAST_PIN && (letter[1] == '\0' || strcmp(letter + 1, "#") == 0))
        return (uint8_t)pin;
    if (!is_number(word, 10, 255, &number))
        wrong("pin: '%s' is neither a letter from A to D nor a number from 0 to 255", word);
    return (uint8_t)number;
}

/* The room is tested last, so none is needed to ask. */
static bool is_no_slot(struct bytes table, uint8_t bus, uint8_t device, uint8_t pin)
{
    uint8_t room;

    return ruxtajma_refusal(ruxtajma_slot_routes(table.at, table.length, bus, device, pin, &room, 0))
        == NO_SLOT;
}

/* The line of a bus of an accepted table. */
static const char *line_of_bus(struct bytes file, uint8_t bus)
{
    struct table t;
    char start[sizeof "bus 255 "], *next;

    is_table(file, &t);
    sprintf(start, "bus %u ", bus);
    for (char *line = first_line(&t);; line = next) {
        next = next_line(line);
        if (*line == '\0' || strncmp(line, start, strlen(start)) == 0)
            return line;
    }
}

/* What is wrong with a slot; its bus, where device 0 and pin 0 of it are no slot either. */
static void tell_why(struct bytes table, uint8_t bus, uint8_t device, uint8_t pin)
{
    if (is_no_slot(table, bus, 0, 0))
        printf("%s: not a PCI bus\n", line_of_bus(table, bus));
    if (device > LAST_DEVICE)
        printf("device %u: a PCI bus has devices 0 to %d\n", device, LAST_DEVICE);
    if (pin > LAST_PIN)
        printf("pin %u: a PCI device has pins 0 (INTA#) to %d (INTD#)\n", pin, LAST_PIN);
}

int slot(const struct call *call)
{
    uint8_t asked[3] = { (uint8_t)number_of("bus", call->word[1], 10, 255),
                         (uint8_t)number_of("device", call->word[2], 10, 255),
                         pin_of(call->word[3]) };
    struct bytes table;

    if (!has_table(call, &table))
        return REFUSAL;
    int status = ask(ruxtajma_slot_routes, "ioapic", table, asked, "\n", "none");
    if (status == REFUSAL && is_no_slot(table, asked[0], asked[1], asked[2]))
        tell_why(table, asked[0], asked[1], asked[2]);
    return status;
}

int slots(const struct call *call)
{
    static uint8_t all[SLOTS_MOST];
    struct bytes table;

    if (!has_table(call, &table))
        return REFUSAL;
    uint64_t answer = ruxtajma_slots(table.at, table.length, all, sizeof all);
    int status = refused(answer);
    if (status == ANSWER && ruxtajma_count(answer) == 0)
        printf("no slots: no interrupt line to an I/O APIC comes from a PCI bus\n");
    for (size_t i = 0; status == ANSWER && i < ruxtajma_count(answer); i++) {
        const uint8_t *one = all + 3 * i;
        printf("bus %-3u  device %-2u  INT%c#  ", one[0], one[1], 'A' + one[2]);
        status = ask(ruxtajma_slot_routes, "ioapic", table, one, ", ",
                     "none: no line of type INT to an I/O APIC that is on");
    }
    return status;
}
