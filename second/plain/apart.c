/* Taking a table apart: judged first, so that its header can be trusted. */
#include "plain.h"

uint64_t plain_take_apart(const uint8_t *t, size_t n, struct parts *p)
{
    uint64_t refusal = plain_judge(t, n);

    if (refusal != 0)
        return refusal;
    plain_parts(t, p);
    return (uint64_t)p->base_end << 16 | (uint64_t)p->ext_end << 32;
}
