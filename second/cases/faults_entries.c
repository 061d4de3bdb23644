/* Single faults, rules 14 to 17: what the base entries say. */
#include "faults.h"

#include <string.h>

static bool enabled(const uint8_t *e) { return e[3] & 1; }
static bool bootstrap(const uint8_t *e) { return e[3] & 2; }
static bool plain_on(const uint8_t *e) { return (e[3] & 3) == 1; }
static bool plain_off(const uint8_t *e) { return (e[3] & 3) == 0; }

/* ---- 14: processors ---- */

static bool f14_local_apic(struct rng *r, struct builder *b, const struct fault *f)
{
    static const uint16_t low[5] = { 1, 0x400, 0x800, 0xFFF, 0x100 };
    uint32_t x = rng_chance(r, 50) ? low[rng_below(r, 5)] : rng_range(r, 1, 0xFFF);

    put_le(b->header + 36, (get_le(b->header + 36, 4) & 0xFFFFF000u) | x, 4);
    return true;
}

static bool f14_no_processor(struct rng *r, struct builder *b,
                             const struct fault *f)
{
    while (b->base_len >= 20 && b->base[0] == 0) {
        b->base_len -= 20;
        b->count--;
        memmove(b->base, b->base + 20, b->base_len);
    }
    return true;
}

static bool f14_no_entries(struct rng *r, struct builder *b, const struct fault *f)
{
    b->base_len = 0;
    b->count = 0;
    return true;
}

static bool f14_moved_off(struct rng *r, struct builder *b,
                                    const struct fault *f)
{
    uint8_t *e = pick(r, b, 0, bootstrap);
    uint8_t *off = pick(r, b, 0, plain_off);

    if (e == NULL || off == NULL)
        return false;
    e[3] &= 0xFD;
    off[3] |= 2;
    return true;
}

/* ---- 15: name unknown ---- */

static bool f15_name(struct rng *r, struct builder *b, const struct fault *f)
{
    static const char near[10][7] = {
        "ISA\0\0\0", "isa   ", " ISA  ", "PCI-X ", "PCIE  ", "AGP   ",
        "XPRES ", "CBUSI ", "      ", "\0\0\0\0\0\0",
    };
    uint8_t *e = pick(r, b, 1, any);

    if (e == NULL)
        return false;
    uint8_t *letter = e + 2 + rng_below(r, 6);
    switch (rng_below(r, 4)) {
    case 0: memcpy(e + 2, near[rng_below(r, 10)], 6); break;
    case 1: rng_alter(r, letter); break;
    case 2: *letter ^= 0x20; break;
    default: rng_alter(r, e + 7); break;
    }
    return !known_name(e + 2);
}

/* ---- 16: enabled I/O APICs ---- */

/* One of them may have a processor's ID, but not two. */
static bool f16_both_share(struct rng *r, struct builder *b, const struct fault *f)
{
    uint8_t *e = pick(r, b, 2, enabled);
    uint8_t *other = pick_other(r, b, 2, enabled, e);
    uint8_t *p = pick(r, b, 0, enabled);

    if (e == NULL || other == NULL || p == NULL)
        return false;
    e[1] = other[1] = p[1];
    return true;
}

static bool f16_address_0(struct rng *r, struct builder *b, const struct fault *f)
{
    uint8_t *e = pick(r, b, 2, enabled);

    if (e == NULL)
        return false;
    put_le(e + 4, 0, 4);
    return true;
}

static bool f16_address_odd(struct rng *r, struct builder *b, const struct fault *f)
{
    uint8_t *e = pick(r, b, 2, enabled);

    if (e == NULL)
        return false;
    uint32_t low = rng_chance(r, 60) ? 1u << rng_below(r, 10)
                                     : rng_range(r, 1, 1023);
    put_le(e + 4, (get_le(e + 4, 4) & 0xFFFFFC00u) | low, 4);
    return true;
}

/* ---- 17: interrupts ---- */

static bool f17_destination(struct rng *r, struct builder *b, const struct fault *f)
{
    uint8_t *e = pick_for(r, b, f);

    return e != NULL && unlisted(r, b, f->type == 3 ? 2 : 0, false, &e[6]);
}

/* An ID that is listed, but only on the other side. */
static bool f17_other_side(struct rng *r, struct builder *b, const struct fault *f)
{
    uint8_t *e = pick_for(r, b, f);
    struct list mine, other;
    uint32_t n = 0;

    if (e == NULL)
        return false;
    list_of(b, f->type == 3 ? 2 : 0, any, &mine);
    list_of(b, f->type == 3 ? 0 : 2, any, &other);
    for (uint32_t i = 0; i < 255; i++)
        if (other.has[i] && !mine.has[i] && rng_below(r, ++n) == 0)
            e[6] = (uint8_t)i;
    return n > 0;
}

const struct fault entry_faults[] = {
    { 14, "local APIC address", .entries = f14_local_apic },
    { 14, "no processor", .entries = f14_no_processor },
    { 14, "no entries, a base of 44", .entries = f14_no_entries },
    { 14, "no bootstrap", change_bits, 0, bootstrap, 3, 2, 0 },
    { 14, "bootstrap disabled", change_bits, 0, bootstrap, 3, 1, 0 },
    { 14, "bootstrap bit on a disabled one only", .entries = f14_moved_off },
    { 14, "second bootstrap, enabled", change_bits, 0, plain_on, 3, 0, 2 },
    { 14, "second bootstrap, disabled", change_bits, 0, plain_off, 3, 0, 2 },
    { 14, "enabled processor 255", change_bits, 0, enabled, 1, 0, 255 },
    { 14, "enabled processor twice", same_id, 0, enabled },
    { 15, "bus ID twice", same_id, 1, any },
    { 15, "bus entry again", same_entry, 1, any },
    { 15, "bus name", .entries = f15_name },
    { 16, "enabled I/O APIC 255", change_bits, 2, enabled, 1, 0, 255 },
    { 16, "enabled I/O APIC twice", same_id, 2, enabled },
    { 16, "two I/O APICs with a processor's ID", .entries = f16_both_share },
    { 16, "I/O APIC address 0", .entries = f16_address_0 },
    { 16, "I/O APIC address not by 1,024", .entries = f16_address_odd },
    { 17, "interrupt type", over_limit, 3, NULL, 1, 40, 4 },
    { 17, "reserved polarity", change_bits, 3, NULL, 2, 3, 2 },
    { 17, "reserved trigger", change_bits, 3, NULL, 2, 12, 8 },
    { 17, "interrupt bus", unlisted_bus, 3, NULL, 4 },
    { 17, "I/O destination", f17_destination, 3, any },
    { 17, "local destination", f17_destination, 4, any },
    { 17, "I/O destination a processor", f17_other_side, 3, any },
    { 17, "local destination an I/O APIC", f17_other_side, 4, any },
    { 17, "local input", over_limit, 4, any, 7, 50, 2 },
    { 0 },
};
