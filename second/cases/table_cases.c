/* How often which kind of case is generated. */
#include "faults.h"

void gen_case(struct rng *r, struct test_case *c)
{
    struct address_query unasked;
    uint32_t roll = rng_below(r, 100);

    if (roll < 35)
        sound_case(r, c);
    else if (roll < 47)
        rich_case(r, c);
    else if (roll < 51)
        chain_case(r, c);
    else if (roll < 54)
        family_case(r, c, &unasked);
    else if (roll < 77)
        fault_case(r, random_fault(r), c);
    else if (roll < 83)
        several_faults(r, c);
    else if (roll < 91)
        damaged(r, c);
    else if (roll < 93)
        spliced(r, c);
    else if (roll < 96)
        random_bytes(r, c);
    else
        ill_measured(r, c);
}
