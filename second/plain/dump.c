/* The plain dump reader.  Each rule quotes document 01. */
#include "plain.h"

#include <stdbool.h>
#include <string.h>

enum {
    DUMP_MAX = 65536,
    REGIONS_MAX = 8,
    RECORD = 9,          /* bytes of contents for a region */
    PARAGRAPH = 16,      /* a floating pointer, and its alignment */
    KILOBYTE = 1024,

    EBDA = 1, BASE_MEMORY = 2, ROM = 3, OTHER = 4
};

struct region {
    uint8_t kind;
    uint32_t base;
    uint32_t length;
    const uint8_t *body;
};

struct regions {
    uint32_t count;
    struct region at[REGIONS_MAX];
};

/* One more than the last address; up to 2^32, so in 64 bits. */
static uint64_t end_of(const struct region *r)
{
    return (uint64_t)r->base + r->length;
}

/*
 * "Bases are multiples of 16; base plus length is at most 2^32; kinds 1 and 2
 * have at most 1,024 bytes; kind 3 has its base at F0000h or above and base
 * plus length at most 100000h"
 */
static bool sound_alone(const struct region *r)
{
    if (r->base % PARAGRAPH != 0 || end_of(r) > (uint64_t)1 << 32)
        return false;
    switch (r->kind) {
    case EBDA:
    case BASE_MEMORY:
        return r->length <= KILOBYTE;
    case ROM:
        return r->base >= 0xF0000 && end_of(r) <= 0x100000;
    case OTHER:
        return true;
    default:
        return false;
    }
}

/*
 * "kinds 1 to 3 occur at most once; no two regions share an address.  Length 0
 * is allowed and overlaps nothing."
 */
static bool sound_together(const struct region *a, const struct region *b)
{
    if (a->kind == b->kind && a->kind != OTHER)
        return false;
    if (a->length == 0 || b->length == 0)
        return true;
    return end_of(a) <= b->base || end_of(b) <= a->base;
}

/* "Byte 0 is the number of regions, 0 to 8.  Then nine bytes a region" */
static bool read_contents(const uint8_t *dump, size_t n, struct regions *rs)
{
    if (n == 0 || n > DUMP_MAX || dump[0] > REGIONS_MAX)
        return false;
    rs->count = dump[0];

    size_t at = 1 + RECORD * rs->count;
    if (at > n)
        return false;
    for (uint32_t i = 0; i < rs->count; i++) {
        const uint8_t *record = dump + 1 + RECORD * i;
        struct region *r = &rs->at[i];

        r->kind = record[0];
        r->base = get32(record + 1);
        r->length = get32(record + 5);
        r->body = dump + at;
        if (r->length > n - at)
            return false;
        at += r->length;
    }
    /* "the dump ends with the last" */
    return at == n;
}

static bool sound_regions(const struct regions *rs)
{
    for (uint32_t i = 0; i < rs->count; i++) {
        if (!sound_alone(&rs->at[i]))
            return false;
        for (uint32_t k = 0; k < i; k++)
            if (!sound_together(&rs->at[k], &rs->at[i]))
                return false;
    }
    return true;
}

static const struct region *of_kind(const struct regions *rs, uint8_t kind)
{
    for (uint32_t i = 0; i < rs->count; i++)
        if (rs->at[i].kind == kind)
            return &rs->at[i];
    return NULL;
}

/* ""_MP_"; ... length 1 at 8; ... The bytes add to 0" */
static bool good_pointer(const uint8_t *p)
{
    uint8_t sum = 0;

    if (memcmp(p, "_MP_", 4) != 0 || p[8] != 1)
        return false;
    for (size_t i = 0; i < PARAGRAPH; i++)
        sum += p[i];
    return sum == 0;
}

/* The first good pointer in a region, or NULL; its base is a multiple of 16. */
static const uint8_t *search(const struct region *r, uint32_t *address)
{
    if (r == NULL)
        return NULL;
    for (uint32_t at = 0; r->length - at >= PARAGRAPH; at += PARAGRAPH)
        if (good_pointer(r->body + at)) {
            *address = r->base + at;
            return r->body + at;
        }
    return NULL;
}

/*
 * "Search kind 1, then kind 2 only if no kind 1 region is listed (even an empty
 * one counts as listed), then kind 3"
 */
static const uint8_t *find_pointer(const struct regions *rs, uint32_t *address)
{
    const struct region *low = of_kind(rs, EBDA);
    const uint8_t *p;

    if (low == NULL)
        low = of_kind(rs, BASE_MEMORY);
    p = search(low, address);
    return p != NULL ? p : search(of_kind(rs, ROM), address);
}

/* "searched for the one that holds an address; regions that touch aren't joined" */
static void locate(const struct regions *rs, struct found *f)
{
    f->table = NULL;
    f->left = 0;
    for (uint32_t i = 0; i < rs->count; i++) {
        const struct region *r = &rs->at[i];

        if (f->address >= r->base && f->address - r->base < r->length) {
            f->table = r->body + (f->address - r->base);
            f->left = r->length - (f->address - r->base);
            return;
        }
    }
}

uint8_t plain_find(const uint8_t *dump, size_t n, struct found *f)
{
    struct regions rs;

    /* 1: "the dump breaks a rule of its section (an empty file too)" */
    if (!read_contents(dump, n, &rs) || !sound_regions(&rs))
        return 1;

    /* 2: "no good floating pointer" */
    const uint8_t *p = find_pointer(&rs, &f->pointer);
    if (p == NULL)
        return 2;

    /* 3: "pointer revision not 4" */
    if (p[9] != 4)
        return 3;

    /* 4: "feature byte over 7; 1 to 7 with nonzero address; 0 with address 0" */
    f->imcr = p[12] >> 7;
    f->standard = p[11];
    f->address = get32(p + 4);
    if (f->standard > 7 || (f->standard == 0) == (f->address == 0))
        return 4;

    locate(&rs, f);
    return 0;
}
