/*
 * The plain renumbering of I/O APICs.  The judge has marked the IDs of enabled
 * processors and of enabled I/O APICs, and counted both; what is left is one pass
 * over the I/O APICs, which writes.
 */
#include "plain.h"

enum { NUMBERS = 255 };   /* "from 0 to 254" */

/*
 * The free numbers among eight IDs, as the lowest bits of eight bytes.  "Held by no
 * enabled processor, no I/O APIC that keeps its number": an enabled I/O APIC that
 * does not keep its number has a processor's, so where one of the two marks stands
 * the number is used, and where none does it is free.  255 has both.
 */
static inline uint64_t free_among(const uint8_t *ids)
{
    uint64_t marks = get64(ids);

    return ~(marks | marks >> 1) & UINT64_C(0x0101010101010101);
}

/*
 * "Gets the lowest free number": those given before are all lower, so the free ones
 * are passed over once.  There are enough.
 */
static void put_numbers(const struct table *t, const uint8_t *ids, uint8_t *p)
{
    const uint8_t *e = t->bytes + t->base[IO_APIC];
    const uint8_t *end = t->bytes + t->base[IO_APIC + 1];
    uint64_t free = 0;         /* of the last eight IDs looked at */
    unsigned looked_at = 0;

    for (; e < end; e += 8) {
        uint8_t number = e[1];

        if (!(e[3] & ENABLED))
            continue;
        if (ids[number] & PROCESSOR_ON) {
            while (free == 0) {
                free = free_among(ids + looked_at);
                looked_at += 8;
            }
            number = (uint8_t)(looked_at - 8 + __builtin_ctzll(free) / 8);
            free &= free - 1;
        }
        *p++ = number;
    }
}

uint64_t plain_renumber(const uint8_t *bytes, size_t n, uint8_t *room, size_t size)
{
    struct table t;
    struct judge j;
    uint8_t refusal;

    if ((refusal = plain_judge_ids(bytes, n, &t, &j)) != 0)
        return refused(refusal);

    /* 19: "a byte for each enabled one" */
    if (j.io_apics > size)
        return refused(19);

    /*
     * 26: "exactly when one that needs a number finds none free".  At the end every
     * enabled processor and I/O APIC has a number of its own, so as many are used as
     * there are of these.  The processors and those that keep theirs have one each
     * by rules 14 and 16: where it is too many, it is so for one that needs one.
     */
    uint32_t used = j.processors + j.io_apics;
    if (used > NUMBERS)
        return refused(26);

    put_numbers(&t, j.ids, room);
    return (uint64_t)used << 32 | counted(j.io_apics);
}
