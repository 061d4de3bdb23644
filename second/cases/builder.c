/*
 * The builder: puts a bare MP table together entry by entry, then works out its
 * lengths, count and checksums.  It does not ask whether the table is sound.
 */
#include "builder.h"

#include <string.h>

const char bus_names[18][7] = {
    "CBUS  ", "CBUSII", "EISA  ", "FUTURE", "INTERN", "ISA   ", "MBI   ",
    "MBII  ", "MCA   ", "MPI   ", "MPSA  ", "NUBUS ", "PCI   ", "PCMCIA",
    "TC    ", "VL    ", "VME   ", "XPRESS",
};

void put_le(uint8_t *p, uint64_t v, size_t n)
{
    for (size_t i = 0; i < n; i++, v >>= 8)
        p[i] = (uint8_t)v;
}

uint32_t get_le(const uint8_t *p, size_t n)
{
    uint32_t v = 0;

    while (n-- > 0)
        v = v << 8 | p[n];
    return v;
}

uint64_t get_long(const uint8_t *p)
{
    return get_le(p, 4) | (uint64_t)get_le(p + 4, 4) << 32;
}

uint8_t byte_sum(const uint8_t *p, size_t n)
{
    uint8_t s = 0;

    while (n-- > 0)
        s = (uint8_t)(s + *p++);
    return s;
}

static uint8_t *grow_base(struct builder *b, size_t n)
{
    uint8_t *e = b->base + b->base_len;

    memset(e, 0, n);
    b->base_len += n;
    b->count++;
    return e;
}

static uint8_t *grow_ext(struct builder *b, size_t n)
{
    uint8_t *e = b->ext + b->ext_len;

    memset(e, 0, n);
    b->ext_len += n;
    return e;
}

size_t base_left(const struct builder *b, size_t goal)
{
    size_t used = HEADER + b->base_len;

    return used < goal ? goal - used : 0;
}

size_t ext_left(const struct builder *b, size_t goal)
{
    return b->ext_len < goal ? goal - b->ext_len : 0;
}

void builder_start(struct builder *b, uint32_t local_apic)
{
    b->base_len = b->ext_len = 0;
    b->count = 0;
    memset(b->header, 0, HEADER);
    memcpy(b->header, "PCMP", 4);
    b->header[6] = 4;
    memset(b->header + 8, ' ', 20);
    put_le(b->header + 36, local_apic, 4);
}

void add_processor(struct builder *b, uint8_t id, uint8_t flags)
{
    uint8_t *e = grow_base(b, 20);

    e[0] = 0, e[1] = id, e[2] = 0x10, e[3] = flags;
}

void add_bus(struct builder *b, uint8_t id, const char *name)
{
    uint8_t *e = grow_base(b, 8);

    e[0] = 1, e[1] = id;
    memcpy(e + 2, name, 6);
}

void add_io_apic(struct builder *b, uint8_t id, uint8_t flags, uint32_t address)
{
    uint8_t *e = grow_base(b, 8);

    e[0] = 2, e[1] = id, e[2] = 0x11, e[3] = flags;
    put_le(e + 4, address, 4);
}

void add_interrupt(struct builder *b, uint8_t entry, uint8_t type, uint8_t flags,
                   uint8_t bus, uint8_t irq, uint8_t destination, uint8_t input)
{
    uint8_t *e = grow_base(b, 8);

    e[0] = entry, e[1] = type, e[2] = flags;
    e[4] = bus, e[5] = irq, e[6] = destination, e[7] = input;
}

void add_mapping(struct builder *b, uint8_t bus, uint8_t kind, uint64_t base,
                 uint64_t length)
{
    uint8_t *e = grow_ext(b, 20);

    e[0] = 128, e[1] = 20, e[2] = bus, e[3] = kind;
    put_le(e + 4, base, 8);
    put_le(e + 12, length, 8);
}

void add_link(struct builder *b, uint8_t bus, uint8_t bits, uint8_t parent)
{
    uint8_t *e = grow_ext(b, 8);

    e[0] = 129, e[1] = 8, e[2] = bus, e[3] = bits, e[4] = parent;
}

void add_modifier(struct builder *b, uint8_t bus, uint8_t bits, uint32_t list)
{
    uint8_t *e = grow_ext(b, 8);

    e[0] = 130, e[1] = 8, e[2] = bus, e[3] = bits;
    put_le(e + 4, list, 4);
}

void add_unknown(struct builder *b, uint8_t type, uint8_t length, uint8_t fill)
{
    uint8_t *e = grow_ext(b, length);

    memset(e, fill, length);
    e[0] = type, e[1] = length;
}

void put_fields(const uint8_t *header, uint64_t field[FIELDS])
{
    field[0] = get_long(header + 8);
    field[1] = get_long(header + 16);
    field[2] = get_le(header + 24, 4);
    field[3] = get_le(header + 28, 4);
    field[4] = get_le(header + 32, 2);
    field[5] = get_le(header + 36, 4);
    field[6] = header[43];
}

size_t base_of(const uint8_t *image) { return get_le(image + 4, 2); }
size_t ext_of(const uint8_t *image) { return get_le(image + 40, 2); }

void mend(uint8_t *image, size_t n)
{
    if (n < HEADER)
        return;

    size_t base = base_of(image);
    size_t ext = ext_of(image);

    if (base <= n && ext <= n - base) {
        image[42] = 0;
        image[42] = (uint8_t)-byte_sum(image + base, ext);
    }
    if (base <= n) {
        image[7] = 0;
        image[7] = (uint8_t)-byte_sum(image, base);
    }
}

size_t seal(const struct builder *b, uint8_t *out)
{
    size_t base = HEADER + b->base_len;
    size_t n = base + b->ext_len;

    memcpy(out, b->header, HEADER);
    memcpy(out + HEADER, b->base, b->base_len);
    memcpy(out + base, b->ext, b->ext_len);
    put_le(out + 4, base, 2);
    put_le(out + 34, b->count, 2);
    put_le(out + 40, b->ext_len, 2);
    mend(out, n);
    return n;
}

void unseal(struct builder *b, const uint8_t *image)
{
    memcpy(b->header, image, HEADER);
    b->base_len = base_of(image) - HEADER;
    b->count = get_le(image + 34, 2);
    b->ext_len = ext_of(image);
    memcpy(b->base, image + HEADER, b->base_len);
    memcpy(b->ext, image + HEADER + b->base_len, b->ext_len);
}

void small_board(struct builder *b)
{
    builder_start(b, 0xFEE00000u);
    add_processor(b, 0, 3);
    add_bus(b, 0, "ISA   ");
}

size_t bench_board(uint8_t *out)
{
    static const uint8_t board[96] = {
        0x50, 0x43, 0x4D, 0x50, 0x60, 0x00, 0x04, 0xC0,
        0x20, 0x20, 0x20, 0x20, 0x20, 0x20, 0x20, 0x20, 0x20, 0x20,
        0x20, 0x20, 0x20, 0x20, 0x20, 0x20, 0x20, 0x20, 0x20, 0x20,
        0x00, 0x00, 0x00, 0x00, 0x00, 0x00, 0x05, 0x00,
        0x00, 0x00, 0xE0, 0xFE, 0x00, 0x00, 0x00, 0x00,
        0x00, 0x00, 0x10, 0x03, 0x12, 0x05, 0x00, 0x00,
        0, 0, 0, 0, 0, 0, 0, 0, 0, 0, 0, 0,
        0x01, 0x00, 0x49, 0x53, 0x41, 0x20, 0x20, 0x20,
        0x02, 0x02, 0x11, 0x01, 0x00, 0x00, 0xC0, 0xFE,
        0x03, 0x00, 0x00, 0x00, 0x00, 0x01, 0x02, 0x01,
        0x04, 0x03, 0x00, 0x00, 0x00, 0x00, 0xFF, 0x00,
    };

    memcpy(out, board, sizeof board);
    return sizeof board;
}
