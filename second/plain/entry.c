/* The plain entry reader.  It trusts nothing but the buffer's own length. */
#include "plain.h"

static size_t least(size_t a, size_t b)
{
    return a < b ? a : b;
}

/* "From 44 to the base end an entry has its type's length" */
static size_t base_entry(const uint8_t *e, size_t left)
{
    size_t size = e[0] == PROCESSOR ? 20 : 8;

    return e[0] < BASE_TYPES && size <= left ? size : 0;
}

/*
 * "from there to the extended end its length byte's, with type at least 128 and
 * length at least 2"
 */
static size_t extended_entry(const uint8_t *e, size_t left)
{
    if (left < 2 || e[0] < EXT_FIRST || e[1] < 2 || e[1] > left)
        return 0;
    return e[1];
}

uint64_t plain_entry(const uint8_t *t, size_t n, size_t place)
{
    /* "A place below 44 ...; so does any place in a buffer under 44 bytes" */
    if (n < HEADER_SIZE || place < HEADER_SIZE)
        return counted(0);

    /* "The ends are the header's, cut at the buffer's" */
    size_t base_end = least(get16(t + 4), n);
    size_t ext_end = least(get16(t + 4) + get16(t + 40), n);

    if (place < base_end)
        return counted(base_entry(t + place, base_end - place));
    if (place < ext_end)
        return counted(extended_entry(t + place, ext_end - place));
    return counted(0);
}
