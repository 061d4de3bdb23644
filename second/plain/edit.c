/* The plain entry editor: judge, find the entry, put in, judge again. */
#include "plain.h"

#include <string.h>

/* Where an entry stands: types ascend, and only processors have 20 bytes. */
static size_t find(const struct table *t, size_t place)
{
    size_t processors = (t->base[BUS] - t->base[PROCESSOR]) / 20;

    if (place < processors)
        return t->base[PROCESSOR] + 20 * place;
    return t->base[BUS] + 8 * (place - processors);
}

/* Puts new bytes in the place of old ones; the base bytes add up as before. */
static void exchange(uint8_t *t, size_t at, const uint8_t *old,
                     const uint8_t *new, size_t size)
{
    t[7] = (uint8_t)(t[7] + sum(old, size) - sum(new, size));
    memcpy(t + at, new, size);
}

uint64_t plain_edit(uint8_t *t, size_t n, size_t place,
                    const uint8_t *stated, size_t stated_length,
                    const uint8_t *wanted, size_t wanted_length)
{
    struct table walked;
    uint64_t refusal;

    /* "Edits test the table, then 20 to 23" */
    if ((refusal = plain_judge_walk(t, n, &walked)) != 0)
        return refusal;

    /* 20: "edit place not below the entry count" */
    if (place >= get16(t + 34))
        return 20;

    /*
     * 21: "either stated or wanted length differs from the standing entry's, or
     * wanted type differs"
     */
    size_t at = find(&walked, place);
    size_t size = t[at] == PROCESSOR ? 20 : 8;
    if (stated_length != size || wanted_length != size || wanted[0] != t[at])
        return 21;

    /* 22: "stated bytes differ from the standing ones" */
    if (memcmp(stated, t + at, size) != 0)
        return 22;

    /*
     * 23: "the edited table would be refused; the inner number is given too".
     * Lengths, types and sums are as before, so rules 5 to 13 are kept.
     */
    exchange(t, at, stated, wanted, size);
    if ((refusal = plain_judge_again(&walked)) != 0) {
        exchange(t, at, wanted, stated, size);
        return 23 | refusal << 8;
    }
    return 0;
}
