/* Questions about a table: where an interrupt line goes, and what a bus sees. */
#include "mpt.h"

/* The pairs that a query gives, with `between` between two of them, or the word for none. */
int ask(query *asked, const char *apic, struct bytes table, const uint8_t about[3],
        const char *between, const char *none)
{
    static uint8_t room[1 << 20];       /* holds the pairs of any query */
    uint64_t answer = asked(table.at, table.length, about[0], about[1], about[2], room, sizeof room);

    if (refused(answer))
        return REFUSAL;
    if (ruxtajma_count(answer) == 0)
        printf("%s %s", apic, none);
    for (size_t i = 0; i < ruxtajma_count(answer); i++)
        printf("%s%s %u input %u", i == 0 ? "" : between, apic, room[2 * i], room[2 * i + 1]);
    putchar('\n');
    return ANSWER;
}

int routes(const struct call *call)
{
    uint8_t line[3] = { type_of(call->word[1]),
                        (uint8_t)number_of("bus", call->word[2], 10, 255),
                        (uint8_t)number_of("IRQ", call->word[3], 10, 255) };
    struct bytes table;

    if (call->io && call->local)
        wrong("either --io or --local, or neither for both");
    if (!has_table(call, &table))
        return REFUSAL;
    int status = call->local ? ANSWER : ask(ruxtajma_io_routes, "ioapic", table, line, "\n", "none");
    if (status != ANSWER || call->io)
        return status;
    return ask(ruxtajma_local_routes, "cpu", table, line, "\n", "none");
}

int sees(const struct call *call)
{
    static const char *const kinds[] = { "io", "memory", "prefetch", NULL };
    static const char *const seen[] = { "no", "yes", "undeclared" };
    uint8_t bus = (uint8_t)number_of("bus", call->word[1], 10, 255);
    uint8_t kind = choice_of("kind", call->word[2], kinds);
    uint64_t address = number_of("address", call->word[3], 16, UINT64_MAX);
    struct bytes table;

    if (!has_table(call, &table))
        return REFUSAL;
    uint64_t answer = ruxtajma_address(table.at, table.length, bus, kind, address);
    unsigned links = ruxtajma_links(answer);
    if (refused(answer))
        return REFUSAL;
    printf("%s, %u link%s climbed", seen[ruxtajma_seen(answer)], links, links == 1 ? "" : "s");
    tell_in_the_way(table, bus, kind, address, answer);
    putchar('\n');
    return ANSWER;
}
