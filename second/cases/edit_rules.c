/*
 * What rules 14 to 18 say of a table after an edit, word by word from the paper and
 * over the whole table, whatever was exchanged in it.  The header, lengths,
 * types and the extended part are as before, so what else they forbid is not there.
 */
#include "cases.h"

static bool is_on(const uint8_t *e) { return e[3] & 1; }

/* Whether two entries of a type that suit have one ID. */
static bool id_twice(struct builder *b, uint8_t type, want *suits)
{
    bool seen[256] = { false };

    EACH(b, type, e) {
        if (!suits(e))
            continue;
        if (seen[e[1]])
            return true;
        seen[e[1]] = true;
    }
    return false;
}

/* Enabled ones "with ID 255 or another enabled one's ID" */
static bool wrong_ids(struct builder *b, uint8_t type)
{
    struct list on;

    list_of(b, type, is_on, &on);
    return on.has[255] || id_twice(b, type, is_on);
}

/* "Not exactly one bootstrap entry, or that one disabled" */
static bool breaks_14(struct builder *b)
{
    uint32_t bootstraps = 0, off = 0;

    EACH(b, 0, e)
        if (e[3] & 2) {
            bootstraps++;
            off += !is_on(e);
        }
    return bootstraps != 1 || off != 0 || wrong_ids(b, 0);
}

/* "Bus ID twice, or name unknown" */
static bool breaks_15(struct builder *b)
{
    EACH(b, 1, e)
        if (!known_name(e + 2))
            return true;
    return id_twice(b, 1, any);
}

/*
 * "Address 0 or not a multiple of 1,024"; that a processor has the ID is no fault
 * (document 02)
 */
static bool breaks_16(struct builder *b)
{
    EACH(b, 2, e) {
        uint32_t address = get_le(e + 4, 4);

        if (is_on(e) && (address == 0 || address % 1024 != 0))
            return true;
    }
    return wrong_ids(b, 2);
}

/* Interrupts of a type, and the type that they are sent to. */
static bool wrong_interrupts(struct builder *b, uint8_t type, uint8_t to)
{
    struct list buses, targets;

    list_of(b, 1, any, &buses);
    list_of(b, to, any, &targets);   /* "enabled or not" */
    EACH(b, type, e) {
        uint8_t polarity = e[2] & 3, trigger = e[2] >> 2 & 3;

        if (e[1] > 3 || polarity == 2 || trigger == 2 || !buses.has[e[4]]
            || (e[6] != 255 && !targets.has[e[6]]) || (type == 4 && e[7] > 1))
            return true;
    }
    return false;
}

static bool breaks_17(struct builder *b)
{
    return wrong_interrupts(b, 3, 2) || wrong_interrupts(b, 4, 0);
}

/* "Extended bus or parent not listed" */
static bool breaks_18(struct builder *b)
{
    struct list buses;

    list_of(b, 1, any, &buses);
    for (uint8_t type = 128; type <= 130; type++)
        EACH(b, type, e)
            if (!buses.has[e[2]] || (type == 129 && !buses.has[e[4]]))
                return true;
    return false;
}

int broken_rule(struct builder *b)
{
    static bool (*const breaks[5])(struct builder *b) = {
        breaks_14, breaks_15, breaks_16, breaks_17, breaks_18,
    };

    for (int i = 0; i < 5; i++)
        if (breaks[i](b))
            return 14 + i;
    return 0;
}
