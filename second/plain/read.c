/* What a dump holds: the reader finds the table, the judge has the last word. */
#include "plain.h"

/* 1 to 18, or 0 and *f is filled. */
static uint8_t read_dump(const uint8_t *dump, size_t n, struct found *f)
{
    uint8_t refusal = plain_find(dump, n, f);

    if (refusal != 0 || f->standard != 0)
        return refusal;
    return (uint8_t)plain_judge(f->table, f->left);
}

uint64_t plain_read(const uint8_t *dump, size_t n)
{
    struct found f;
    uint8_t refusal = read_dump(dump, n, &f);

    if (refusal != 0)
        return refused(refusal);

    uint64_t answer = (uint64_t)f.standard << 16 | (uint64_t)f.imcr << 24;
    if (f.standard != 0)
        return answer;
    return answer | (uint64_t)(f.table - dump) << 32 | (uint64_t)f.left << 48;
}

uint64_t plain_addresses(const uint8_t *dump, size_t n)
{
    struct found f;

    if (read_dump(dump, n, &f) != 0 || f.standard != 0)
        return 0;
    return (uint64_t)f.pointer << 32 | f.address;
}
