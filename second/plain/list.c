/*
 * The plain listing: one pass to judge, one to write, and where the room could be
 * too small one between them to measure.  Each line has a function that says how
 * wide it is and one that writes it.
 */
#include "plain.h"

#include <string.h>

/*
 * A room of at least this size holds every listing: no line has more than seven
 * times the bytes of its entry, and a table has at most 8,192.
 */
enum { LONGEST = 65536 };

/* ---- words and numbers ---- */

/* The width of a decimal; no number of a listing has more than four digits. */
static inline size_t width(uint32_t v)
{
    return 1u + (v > 9) + (v > 99) + (v > 999);
}

static inline uint8_t *put_number(uint8_t *p, uint32_t v)
{
    if (v > 999)
        *p++ = (uint8_t)('0' + v / 1000);
    if (v > 99)
        *p++ = (uint8_t)('0' + v / 100 % 10);
    if (v > 9)
        *p++ = (uint8_t)('0' + v / 10 % 10);
    *p++ = (uint8_t)('0' + v % 10);
    return p;
}

/* A space and a decimal. */
static inline uint8_t *put_next(uint8_t *p, uint32_t v)
{
    *p++ = ' ';
    return put_number(p, v);
}

/* A space and a number of one digit. */
static inline uint8_t *put_digit(uint8_t *p, uint32_t v)
{
    *p++ = ' ';
    *p++ = (uint8_t)('0' + v);
    return p;
}

/* A space and a number in n upper-case hex digits. */
static inline uint8_t *put_hex(uint8_t *p, uint64_t v, uint32_t n)
{
    *p++ = ' ';
    for (uint32_t i = n; i-- > 0; v >>= 4)
        p[i] = (uint8_t)"0123456789ABCDEF"[v & 15];
    return p + n;
}

static inline uint8_t *put_bytes(uint8_t *p, const void *s, size_t n)
{
    memcpy(p, s, n);
    return p + n;
}

#define WIDTH(text) (sizeof(text) - 1)
#define PUT(p, text) put_bytes(p, text, WIDTH(text))

static inline uint8_t *put_end_of_line(uint8_t *p)
{
    *p++ = '\n';
    return p;
}

/* ---- the first two lines, and that of a default ---- */

static size_t head_width(const struct table *t)
{
    return WIDTH("pointer 000F0000 imcr 0\n") + WIDTH("table 000F0010   \n")
         + width((uint32_t)t->base_end)
         + width((uint32_t)(t->ext_end - t->base_end))
         + width(get16(t->bytes + 34));
}

static uint8_t *put_head(uint8_t *p, const struct found *f,
                         const struct table *t)
{
    p = PUT(p, "pointer");
    p = put_hex(p, f->pointer, 8);
    p = PUT(p, " imcr");
    p = put_digit(p, f->imcr);
    p = PUT(p, "\ntable");
    p = put_hex(p, f->address, 8);
    p = put_next(p, (uint32_t)t->base_end);
    p = put_next(p, (uint32_t)(t->ext_end - t->base_end));
    p = put_next(p, get16(t->bytes + 34));
    return put_end_of_line(p);
}

static uint8_t *put_default(uint8_t *p, const struct found *f)
{
    p = PUT(p, "default");
    p = put_digit(p, f->standard);
    p = PUT(p, " imcr");
    p = put_digit(p, f->imcr);
    return put_end_of_line(p);
}

/* ---- base entries ---- */

static inline size_t on_off_width(uint8_t flags)
{
    return flags & ENABLED ? WIDTH(" on") : WIDTH(" off");
}

static inline uint8_t *put_on_off(uint8_t *p, uint8_t flags)
{
    return flags & ENABLED ? PUT(p, " on") : PUT(p, " off");
}

static size_t processor_width(const uint8_t *e)
{
    return WIDTH("cpu  ") + width(e[1]) + width(e[2]) + on_off_width(e[3])
         + (e[3] & BOOTSTRAP ? WIDTH(" boot\n") : WIDTH(" ap\n"));
}

static uint8_t *put_processor(uint8_t *p, const uint8_t *e)
{
    p = PUT(p, "cpu");
    p = put_next(p, e[1]);
    p = put_next(p, e[2]);
    p = put_on_off(p, e[3]);
    return e[3] & BOOTSTRAP ? PUT(p, " boot\n") : PUT(p, " ap\n");
}

/* "Bus names lose their padding"; an accepted one has no other space. */
static size_t name_width(const uint8_t *e)
{
    size_t n = 6;

    while (e[2 + n - 1] == ' ')
        n--;
    return n;
}

static size_t bus_width(const uint8_t *e)
{
    return WIDTH("bus  \n") + width(e[1]) + name_width(e);
}

static uint8_t *put_bus(uint8_t *p, const uint8_t *e)
{
    p = PUT(p, "bus");
    p = put_next(p, e[1]);
    *p++ = ' ';
    for (size_t i = 0; i < 6 && e[2 + i] != ' '; i++)
        *p++ = e[2 + i];
    return put_end_of_line(p);
}

static size_t io_apic_width(const uint8_t *e)
{
    return WIDTH("ioapic   FEC00000\n") + width(e[1]) + width(e[2])
         + on_off_width(e[3]);
}

static uint8_t *put_io_apic(uint8_t *p, const uint8_t *e)
{
    p = PUT(p, "ioapic");
    p = put_next(p, e[1]);
    p = put_next(p, e[2]);
    p = put_on_off(p, e[3]);
    p = put_hex(p, get32(e + 4), 8);
    return put_end_of_line(p);
}

/* The fields after the first word, which differs between types 3 and 4. */
static size_t interrupt_width(const uint8_t *e)
{
    return (e[1] == 3 ? WIDTH(" EXTINT") : WIDTH(" INT"))
         + WIDTH("   0 0  \n")
         + width(e[4]) + width(e[5]) + width(e[6]) + width(e[7]);
}

static uint8_t *put_interrupt(uint8_t *p, const uint8_t *e)
{
    static const char name[3][4] = { " INT", " NMI", " SMI" };

    p = e[1] == 3 ? PUT(p, " EXTINT") : put_bytes(p, name[e[1]], 4);
    p = put_next(p, e[4]);
    p = put_next(p, e[5]);
    p = put_digit(p, e[2] & 3);
    p = put_digit(p, e[2] >> 2 & 3);
    p = put_next(p, e[6]);
    p = put_next(p, e[7]);
    return put_end_of_line(p);
}

/* ---- extended entries ---- */

static size_t mapping_width(const uint8_t *e)
{
    return WIDTH("map  0 0123456789ABCDEF 0123456789ABCDEF\n") + width(e[2]);
}

static uint8_t *put_mapping(uint8_t *p, const uint8_t *e)
{
    p = PUT(p, "map");
    p = put_next(p, e[2]);
    p = put_digit(p, e[3]);
    p = put_hex(p, get64(e + 4), 16);
    p = put_hex(p, get64(e + 12), 16);
    return put_end_of_line(p);
}

static size_t link_width(const uint8_t *e)
{
    return WIDTH("tree   0\n") + width(e[2]) + width(e[4]);
}

static uint8_t *put_link(uint8_t *p, const uint8_t *e)
{
    p = PUT(p, "tree");
    p = put_next(p, e[2]);
    p = put_next(p, e[4]);
    p = put_digit(p, e[3] & 1);
    return put_end_of_line(p);
}

static size_t modifier_width(const uint8_t *e)
{
    return WIDTH("mod  0 0\n") + width(e[2]);
}

static uint8_t *put_modifier(uint8_t *p, const uint8_t *e)
{
    p = PUT(p, "mod");
    p = put_next(p, e[2]);
    p = put_digit(p, e[3] & 1);
    p = put_digit(p, get32(e + 4));
    return put_end_of_line(p);
}

static size_t skipped_width(const uint8_t *e)
{
    return WIDTH("skip  \n") + width(e[0]) + width(e[1]);
}

static uint8_t *put_skipped(uint8_t *p, const uint8_t *e)
{
    p = PUT(p, "skip");
    p = put_next(p, e[0]);
    p = put_next(p, e[1]);
    return put_end_of_line(p);
}

/* ---- all lines, in table order: types ascend ---- */

#define EACH_BASE(at, t, k, size) \
    for (size_t at = (t)->base[k]; at < (t)->base[(k) + 1]; at += (size))
#define EACH_EXT(at, t, k, size) \
    for (size_t at = (t)->ext[k]; at < (t)->ext[(k) + 1]; at += (size))
#define EACH_OTHER(at, t) \
    for (size_t at = (t)->ext[EXT_TYPES]; at < (t)->ext_end; at += (t)->bytes[at + 1])

static size_t measure(const struct table *t)
{
    const uint8_t *b = t->bytes;
    size_t n = head_width(t) + WIDTH("end\n");

    EACH_BASE(at, t, PROCESSOR, 20)
        n += processor_width(b + at);
    EACH_BASE(at, t, BUS, 8)
        n += bus_width(b + at);
    EACH_BASE(at, t, IO_APIC, 8)
        n += io_apic_width(b + at);
    EACH_BASE(at, t, IO_INT, 8)
        n += WIDTH("int") + interrupt_width(b + at);
    EACH_BASE(at, t, LOCAL_INT, 8)
        n += WIDTH("lint") + interrupt_width(b + at);
    EACH_EXT(at, t, MAPPING, 20)
        n += mapping_width(b + at);
    EACH_EXT(at, t, LINK, 8)
        n += link_width(b + at);
    EACH_EXT(at, t, MODIFIER, 8)
        n += modifier_width(b + at);
    EACH_OTHER(at, t)
        n += skipped_width(b + at);
    return n;
}

static uint8_t *write_all(uint8_t *p, const struct found *f, const struct table *t)
{
    const uint8_t *b = t->bytes;

    p = put_head(p, f, t);
    EACH_BASE(at, t, PROCESSOR, 20)
        p = put_processor(p, b + at);
    EACH_BASE(at, t, BUS, 8)
        p = put_bus(p, b + at);
    EACH_BASE(at, t, IO_APIC, 8)
        p = put_io_apic(p, b + at);
    EACH_BASE(at, t, IO_INT, 8)
        p = put_interrupt(PUT(p, "int"), b + at);
    EACH_BASE(at, t, LOCAL_INT, 8)
        p = put_interrupt(PUT(p, "lint"), b + at);
    EACH_EXT(at, t, MAPPING, 20)
        p = put_mapping(p, b + at);
    EACH_EXT(at, t, LINK, 8)
        p = put_link(p, b + at);
    EACH_EXT(at, t, MODIFIER, 8)
        p = put_modifier(p, b + at);
    EACH_OTHER(at, t)
        p = put_skipped(p, b + at);
    return PUT(p, "end\n");
}

static uint64_t list_default(const struct found *f, uint8_t *room, size_t size)
{
    if (size < WIDTH("default 0 imcr 0\n"))
        return refused(19);
    return counted((size_t)(put_default(room, f) - room));
}

uint64_t plain_list_walked(const struct found *f, const struct table *t,
                           uint8_t *room, size_t size)
{
    /* 19: "answer longer than the lent room" */
    if (size < LONGEST && measure(t) > size)
        return refused(19);
    return counted((size_t)(write_all(room, f, t) - room));
}

uint64_t plain_list(const uint8_t *dump, size_t n, uint8_t *room, size_t size)
{
    struct found f;
    struct table t;
    uint32_t refusal;

    if ((refusal = plain_find(dump, n, &f)) != 0)
        return refused(refusal);
    if (f.standard != 0)
        return list_default(&f, room, size);
    if ((refusal = plain_judge_walk(f.table, f.left, &t)) != 0)
        return refused(refusal);
    return plain_list_walked(&f, &t, room, size);
}
