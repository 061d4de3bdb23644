/*
 * A dump made from raw images.  Where the pointer stands and how long the table is are
 * answers of the library: it is asked of one paragraph after the other, in the order in
 * which document 01 searches, whether a good pointer is in it.
 */
#include "mpt.h"

#include <string.h>

enum { EBDA = 1, BASE, ROM, OTHER };            /* the kinds of regions */
enum { NO_DUMP = 1, NO_POINTER = 2, PARAGRAPH = 16, KILOBYTE = 1024, TABLE_MOST = 8192 };

struct region {
    uint8_t kind;
    uint64_t base;
    struct bytes body;
};

static void put_number(uint8_t *at, uint64_t number)
{
    for (int i = 0; i < 4; i++)
        at[i] = (uint8_t)(number >> 8 * i);
}

/* Contents first, then bodies. */
static struct bytes dump_of(const struct region *r, int count)
{
    struct bytes dump = { NULL, 1 + 9 * (size_t)count };

    for (int i = 0; i < count; i++)
        dump.length += r[i].body.length;
    dump.at = need(dump.length);
    dump.at[0] = (uint8_t)count;
    uint8_t *row = dump.at + 1, *body = row + 9 * count;
    for (int i = 0; i < count; body += r[i].body.length, row += 9, i++) {
        row[0] = r[i].kind;
        put_number(row + 1, r[i].base);
        put_number(row + 5, r[i].body.length);
        memcpy(body, r[i].body.at, r[i].body.length);
    }
    return dump;
}

/* What is no dump is refused; of a dump that is refused for something else a note. */
static int give(const struct call *call, const struct region *r, int count)
{
    struct bytes dump = dump_of(r, count);
    uint64_t answer = ruxtajma_read(dump.at, dump.length);
    unsigned number = ruxtajma_refusal(answer);

    if (number == NO_DUMP)
        return refused(answer);
    if (number != 0)
        fprintf(stderr, "mpt: note: this dump is refused %u: %s\n", number, words_of(number));
    return given_out(call, dump, false);
}

/* ---- from a memory ---- */

/* What the image has from an address on, up to so many bytes. */
static struct bytes part_of(struct bytes image, uint64_t from, uint64_t length)
{
    uint64_t there = from < image.length ? image.length - from : 0;

    return (struct bytes){ image.at + (there > 0 ? from : 0), length < there ? length : there };
}

static uint64_t number_at(struct bytes image, uint64_t at, int length)
{
    struct bytes b = part_of(image, at, (uint64_t)length);

    return b.length == 0 ? 0 : b.at[0] | number_at(image, at + 1, length - 1) << 8;
}

/* The first good pointer between two addresses: the region of its paragraph alone. */
static bool is_pointer_in(struct bytes image, uint8_t kind, uint64_t from, uint64_t end,
                          struct region *pointer)
{
    for (; from < end; from += PARAGRAPH) {
        *pointer = (struct region){ kind, from, part_of(image, from, PARAGRAPH) };
        struct bytes dump = dump_of(pointer, 1);
        if (ruxtajma_refusal(ruxtajma_read(dump.at, dump.length)) != NO_POINTER)
            return true;
    }
    return false;
}

/*
 * The table that a pointer names, from its paragraph on: a region's base is a multiple
 * of 16.  One that is refused has no length to be relied on, so all it could have, up to
 * its pointer where that stands behind it.
 */
static struct region table_by(struct bytes image, const struct region *pointer)
{
    uint64_t at = number_at(image, pointer->base + 4, 4), before = at % PARAGRAPH;
    struct bytes rest = part_of(image, at, at == 0 ? 0 : TABLE_MOST);
    uint64_t answer = ruxtajma_parts(rest.at, rest.length);
    size_t length = ruxtajma_extended_end(answer);

    if (ruxtajma_refusal(answer) != 0)
        length = pointer->base > at && pointer->base - at < rest.length ? pointer->base - at
                                                                        : rest.length;
    return (struct region){ OTHER, at - before,
                            part_of(image, at - before, length == 0 ? 0 : before + length) };
}

/* A table around its pointer is one region with it; where the image has none, the pointer. */
static int give_both(const struct call *call, struct bytes image, struct region pointer)
{
    struct region r[2] = { pointer, table_by(image, &pointer) };

    if (r[1].base <= pointer.base && pointer.base < r[1].base + r[1].body.length) {
        r[1].kind = pointer.kind;
        return give(call, r + 1, 1);
    }
    return give(call, r, r[1].body.length == 0 ? 1 : 2);
}

/* The EBDA is where the word at 40Eh says; 413h has how many kilobytes the base memory has. */
static int from_memory(const struct call *call)
{
    struct bytes image = taken(call->memory, FILE_MOST + 1);
    uint64_t ebda = number_at(image, 0x40E, 2) * PARAGRAPH;
    uint64_t base = number_at(image, 0x413, 2) * KILOBYTE;
    struct region pointer;

    if ((ebda != 0 && is_pointer_in(image, EBDA, ebda, ebda + KILOBYTE, &pointer)) ||
        (ebda == 0 && base != 0 && is_pointer_in(image, BASE, base - KILOBYTE, base, &pointer)) ||
        is_pointer_in(image, ROM, 0xF0000, 0x100000, &pointer))
        return give_both(call, image, pointer);
    return refused(NO_POINTER);
}

/* ---- by hand ---- */

/* KIND:BASE:FILE */
static struct region region_of(const char *text)
{
    static const char *const kinds[] = { "0", "ebda", "base", "rom", "other", NULL };
    char *kind = joined(text, ""), *base = strchr(kind, ':');
    char *file = base != NULL ? strchr(base + 1, ':') : NULL;

    if (file == NULL)
        wrong("--region %s: no KIND:BASE:FILE", text);
    *base++ = *file++ = '\0';
    return (struct region){ choice_of("kind", kind, kinds),
                            number_of("base", base, 16, UINT32_MAX), taken(file, DUMP_MOST) };
}

int dump(const struct call *call)
{
    struct region r[REGIONS];

    if ((call->memory != NULL) == (call->region.count > 0))
        wrong("dump: either --memory IMAGE or --region KIND:BASE:FILE");
    if (call->memory != NULL)
        return from_memory(call);
    for (int i = 0; i < call->region.count; i++)
        r[i] = region_of(call->region.at[i]);
    return give(call, r, call->region.count);
}
