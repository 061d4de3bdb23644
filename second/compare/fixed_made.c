/*
 * What is asked of a default's table.  What is to be answered is stated here, of
 * each input by Intel's Table 5-2, and must also be what is worked out from the
 * table's entries.
 */
#include "compare.h"

#include "arena.h"

#include <string.h>

enum { INT, NMI, SMI, EXTINT };
enum { APIC = 2 };             /* the I/O APIC's ID */
enum { IRQS = 18 };            /* sixteen, and two that are none */

static struct rng *r;
static uint8_t n;              /* the configuration */
static struct asked *asked;

/* ---- routes ---- */

enum side { IO, LOCAL };

static const struct route_query *question(enum side side, uint8_t type, uint8_t bus,
                                          uint8_t irq)
{
    static struct route_query q;

    q.local = side == LOCAL, q.type = type, q.bus = bus, q.irq = irq;
    expect_routes(asked, &q);
    return &q;
}

static void check_pairs(const struct route_query *q, const uint8_t *pairs,
                        size_t count)
{
    if (q->expected != 0 || q->count != count
        || memcmp(q->pairs, pairs, 2 * count) != 0)
        fail_case("other routes are worked out than stated");
    ask_routes(r, q);
}

/* No pairs: 24, or 0 where the bus is listed and nothing comes from it. */
static void check_none(const struct route_query *q, int number)
{
    if (q->expected != number || q->count != 0)
        fail_case("another answer is worked out than stated");
    ask_routes(r, q);
}

/* Where an I/O interrupt of bus 0 goes, by Table 5-2; -1 is nowhere. */
static int stated_input(uint8_t type, uint8_t irq)
{
    if (type == INT)
        return input_of(n, irq);
    return type == EXTINT && irq == 0 ? input_of(n, INTR_8259A) : -1;
}

static void io_routes(void)
{
    for (uint8_t type = INT; type <= EXTINT; type++)
        for (unsigned irq = 0; irq < 256; irq += thorough || irq < IRQS ? 1 : 17) {
            int input = stated_input(type, (uint8_t)irq);
            uint8_t pair[2] = { APIC, (uint8_t)input };

            check_pairs(question(IO, type, 0, (uint8_t)irq), pair, input >= 0);
        }
}

/* Table 5-3: to "All Local APICs", whichever processor booted. */
static void local_routes(void)
{
    static const uint8_t pairs[4][4] = {
        [EXTINT] = { 0, 0, 1, 0 }, [NMI] = { 0, 1, 1, 1 },
    };

    for (uint8_t type = INT; type <= EXTINT; type++)
        for (uint8_t irq = 0; irq < IRQS; irq++) {
            bool wired = irq == 0 && (type == EXTINT || type == NMI);

            check_pairs(question(LOCAL, type, 0, irq), pairs[type], wired ? 2 : 0);
        }
}

/* "No I/O interrupt assignment entries are declared for PCI interrupts" */
static void other_buses(void)
{
    static const uint8_t buses[] = { 1, 2, 255 };

    for (size_t i = 0; i < sizeof buses; i++) {
        int number = bus_of(n, buses[i]) != NULL ? 0 : 24;

        for (uint8_t irq = 0; irq < IRQS; irq++) {
            check_none(question(IO, INT, buses[i], irq), number);
            check_none(question(LOCAL, NMI, buses[i], irq), number);
        }
    }
    check_none(question(IO, EXTINT + 1, 0, 0), 24);
    check_none(question(LOCAL, EXTINT + 1, 0, 0), 24);
}

/* ---- slots, addresses and numbers ---- */

static void slots_of(const struct test_case *c)
{
    static struct slot_query q;
    static struct slot_list l;

    asked = slot_table(c);
    expect_slots(asked, &l);
    if (l.expected != 0 || l.count != 0)
        fail_case("other slots are worked out than stated");
    ask_slots(r, &l);
    for (q.bus = 0; q.bus < 3; q.bus++) {
        const char *name = bus_of(n, q.bus);
        int number = name == NULL ? 24 : strcmp(name, "PCI") == 0 ? 0 : 25;

        q.device = q.bus, q.pin = 0;
        expect_slot_routes(asked, &q);
        if (q.expected != number || q.count != 0)
            fail_case("other routes of slots are worked out than stated");
        ask_slot(r, &q);
    }
}

/* There is no extended part: "else undeclared" */
static void addresses(void)
{
    static const uint64_t some[] = { 0, 0x3B0, 0xFEC00000, 0xFEE00000, UINT64_MAX };

    for (uint8_t bus = 0; bus < 3; bus++)
        for (uint8_t kind = 0; kind < 4; kind++)
            for (size_t i = 0; i < sizeof some / sizeof some[0]; i++) {
                struct address_query q = {
                    .bus = bus, .kind = kind, .address = some[i],
                };
                int number = kind > 2 || bus_of(n, bus) == NULL ? 24 : 0;

                expect_address(asked, &q);
                if (q.expected != number
                    || (number == 0 && (q.seen != UNDECLARED || q.links != 0)))
                    fail_case("another answer is worked out than stated");
                ask_address(&q);
            }
}

/* 2 is no processor's: it stays, and three numbers are in use. */
static void numbers_of(const struct test_case *c)
{
    static struct numbering w;

    asked = number_table(c);
    expect_numbers(asked, &w);
    if (w.expected != 0 || w.count != 1 || w.numbers[0] != APIC || w.used != 3)
        fail_case("other numbers are worked out than stated");
    renumber(r, &w);
}

/* ---- edits ---- */

/* Entries before the first input: processors, buses and the I/O APIC. */
static size_t first_input(void)
{
    return 2 + (bus_of(n, 1) != NULL ? 2 : 1) + 1;
}

/* What is refused shows which processor booted; the routes follow what is not. */
static void edits_of(const struct test_case *c, uint8_t boot)
{
    const struct test_case *edited = start_run(c);
    uint8_t other = !boot, pair[2] = { APIC, 20 }, left[2] = { boot, 1 };
    size_t irq_1 = first_input() + (input_of(n, INTR_8259A) < 0 ? 0 : 1);

    edit_byte("a default's second bootstrap", other, 3, 3, 23 + 256 * 14);
    edit_byte("a default's bootstrap taken away", boot, 3, 1, 23 + 256 * 14);
    edit_byte("a default's bootstrap off", boot, 3, 2, 23 + 256 * 14);
    edit_byte("a default's processor ID twice", other, 1, boot, 23 + 256 * 14);
    edit_byte("a default's bus", 2, 1, 9, 23 + 256 * 17);
    edit_byte("a default's I/O APIC", first_input() - 1, 1, 3, 23 + 256 * 17);
    edit_byte("a default's IRQ1 to input 20", irq_1, 7, 20, 0);
    edit_byte("a default's other processor off", other, 3, 0, 0);
    asked = ask_table(edited);
    check_pairs(question(IO, INT, 0, 1), pair, 1);
    check_pairs(question(LOCAL, NMI, 0, 0), left, 1);
}

void ask_made(struct rng *rng, uint8_t configuration, uint8_t boot)
{
    const struct test_case *c = made_table();

    r = rng, n = configuration;
    make_default(n, boot, DEFAULT_IMAGE);
    asked = ask_table(c);
    io_routes();
    local_routes();
    other_buses();
    addresses();
    slots_of(c);
    numbers_of(c);
    edits_of(c, boot);
}
