/*
 * The default configurations: Intel's tables 5-1 to 5-3 as they are printed, and
 * what a table and a listing of each must be.  What they leave open is as in
 * docs/DEFAULTS.md.
 */
#include "cases.h"

#include <stdarg.h>
#include <stdio.h>
#include <string.h>

/* ---- MPS chapter 5 ---- */

/* Table 5-1: "Bus Type" and "APIC Type". */
static const struct {
    const char *bus[2];
    bool integrated;
} printed_5_1[DEFAULTS] = {
    { { "ISA", NULL }, false },
    { { "EISA", NULL }, false },
    { { "EISA", NULL }, false },
    { { "MCA", NULL }, false },
    { { "ISA", "PCI" }, true },
    { { "EISA", "PCI" }, true },
    { { "MCA", "PCI" }, true },
};

/* Table 5-2: a line for each INTIN, a column for each configuration. */
enum { NC = -1, INTR = INTR_8259A, INTINS = 16 };
static const int8_t printed_5_2[INTINS][DEFAULTS] = {
    { INTR, INTR, INTR, INTR, INTR, INTR, NC },
    { 1, 1, 1, 1, 1, 1, 1 },
    { 0, NC, 0, 0, 0, 0, 0 },
    { 3, 3, 3, 3, 3, 3, 3 },
    { 4, 4, 4, 4, 4, 4, 4 },
    { 5, 5, 5, 5, 5, 5, 5 },
    { 6, 6, 6, 6, 6, 6, 6 },
    { 7, 7, 7, 7, 7, 7, 7 },
    { 8, 8, 8, 8, 8, 8, 8 },
    { 9, 9, 9, 9, 9, 9, 9 },
    { 10, 10, 10, 10, 10, 10, 10 },
    { 11, 11, 11, 11, 11, 11, 11 },
    { 12, 12, 12, 12, 12, 12, 12 },
    { 13, NC, 13, 13, 13, 13, 13 },
    { 14, 14, 14, 14, 14, 14, 14 },
    { 15, 15, 15, 15, 15, 15, 15 },
};

int expect_default(uint8_t configuration, uint8_t boot)
{
    return configuration == 0 || configuration > DEFAULTS || boot > 1 ? 30 : 0;
}

int input_of(uint8_t configuration, int source)
{
    for (int i = 0; i < INTINS; i++)
        if (printed_5_2[i][configuration - 1] == source)
            return i;
    return -1;
}

const char *bus_of(uint8_t configuration, unsigned number)
{
    return number < 2 ? printed_5_1[configuration - 1].bus[number] : NULL;
}

/* "0x" of the 82489DX and "1x" of the integrated APIC (Table 3-2). */
static uint8_t version_of(uint8_t configuration)
{
    return printed_5_1[configuration - 1].integrated ? 0x10 : 0x01;
}

/* ---- the table ---- */

static void put_processor(struct builder *b, uint8_t configuration, uint8_t id,
                          uint8_t boot)
{
    add_processor(b, id, id == boot ? 3 : 1);
    b->base[b->base_len - 20 + 2] = version_of(configuration);
}

static void put_buses(struct builder *b, uint8_t configuration)
{
    const char *name;

    for (uint8_t i = 0; (name = bus_of(configuration, i)) != NULL; i++) {
        char padded[7];

        snprintf(padded, sizeof padded, "%-6s", name);
        add_bus(b, i, padded);
    }
}

static void put_inputs(struct builder *b, uint8_t configuration)
{
    for (uint8_t i = 0; i < INTINS; i++) {
        int source = printed_5_2[i][configuration - 1];

        if (source == INTR)
            add_interrupt(b, 3, 3, 0, 0, 0, 2, i);
        else if (source != NC)
            add_interrupt(b, 3, 0, 0, 0, (uint8_t)source, 2, i);
    }
}

size_t default_image(uint8_t configuration, uint8_t boot, uint8_t *image)
{
    static struct builder b;

    builder_start(&b, 0xFEE00000u);
    put_processor(&b, configuration, 0, boot);
    put_processor(&b, configuration, 1, boot);
    put_buses(&b, configuration);
    add_io_apic(&b, 2, 1, 0xFEC00000u);
    b.base[b.base_len - 8 + 2] = version_of(configuration);
    put_inputs(&b, configuration);
    /* Table 5-3, the same of all: "All Local APICs" */
    add_interrupt(&b, 4, 3, 0, 0, 0, 255, 0);
    add_interrupt(&b, 4, 1, 0, 0, 0, 255, 1);
    return seal(&b, image);
}

/* ---- its listing ---- */

struct text {
    char *at;
    size_t length;
};

static void say(struct text *t, const char *format, ...)
{
    va_list values;

    va_start(values, format);
    t->length += (size_t)vsnprintf(t->at + t->length, DEFAULT_TEXT - t->length,
                                   format, values);
    va_end(values);
}

static void say_inputs(struct text *t, uint8_t configuration)
{
    for (int i = 0; i < INTINS; i++) {
        int source = printed_5_2[i][configuration - 1];

        if (source == INTR)
            say(t, "int EXTINT 0 0 0 0 2 %d\n", i);
        else if (source != NC)
            say(t, "int INT 0 %d 0 0 2 %d\n", source, i);
    }
}

/* Two processors, the I/O APIC, two local interrupts; the buses and the inputs. */
static unsigned entries_of(uint8_t configuration)
{
    unsigned n = 5;

    for (unsigned i = 0; bus_of(configuration, i) != NULL; i++)
        n++;
    for (int i = 0; i < INTINS; i++)
        n += printed_5_2[i][configuration - 1] != NC;
    return n;
}

size_t default_listing(uint8_t configuration, uint8_t boot, uint32_t pointer,
                       unsigned imcr, char text[DEFAULT_TEXT])
{
    struct text t = { text, 0 };
    unsigned version = version_of(configuration), n = entries_of(configuration);

    say(&t, "pointer %08X imcr %u\n", (unsigned)pointer, imcr);
    say(&t, "table 00000000 %u 0 %u\n", HEADER + 2 * 20 + 8 * (n - 2), n);
    say(&t, "cpu 0 %u on %s\n", version, boot == 0 ? "boot" : "ap");
    say(&t, "cpu 1 %u on %s\n", version, boot == 1 ? "boot" : "ap");
    for (unsigned i = 0; bus_of(configuration, i) != NULL; i++)
        say(&t, "bus %u %s\n", i, bus_of(configuration, i));
    say(&t, "ioapic 2 %u on FEC00000\n", version);
    say_inputs(&t, configuration);
    say(&t, "lint EXTINT 0 0 0 0 255 0\nlint NMI 0 0 0 0 255 1\nend\n");
    return t.length;
}

/* ---- numbers ---- */

/* Any number that has this low byte, or just that. */
static uint64_t widen(struct rng *r, uint8_t low)
{
    return rng_chance(r, 15) ? rng_scaled(r) << 8 | low : low;
}

uint64_t gen_configuration(struct rng *r)
{
    static const uint8_t near[] = { 0, 8, 9, 15, 16, 127, 128, 129, 135, 255 };
    uint32_t roll = rng_below(r, 100);

    if (roll < 75)
        return widen(r, (uint8_t)rng_range(r, 1, DEFAULTS));
    return widen(r, roll < 90 ? near[rng_below(r, sizeof near)] : rng_byte(r));
}

uint64_t gen_boot(struct rng *r)
{
    static const uint8_t near[] = { 2, 3, 127, 128, 129, 254, 255 };
    uint32_t roll = rng_below(r, 100);

    if (roll < 70)
        return widen(r, (uint8_t)rng_below(r, 2));
    return widen(r, roll < 90 ? near[rng_below(r, sizeof near)] : rng_byte(r));
}
