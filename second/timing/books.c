/* Books to measure with: small, typical and full ones, and machines of any numbers. */
#include "books.h"

#include <string.h>

enum {
    LIMIT = 32768, HEAD = 3, ROW = 8,
    ALL_WORKS = BIT(WORKS) - BIT(BOOK), SOME_WORKS = BIT(BOOK) | BIT(SAVE)
};

/* Of the smallest tables 454 leave room for one more, of 8,176 bytes three. */
const struct volume volumes[] = {
    { "3 bench boards", make_bench, 3, 1, 1, ALL_WORKS, 0 },
    { "20 typical boards of 4 machines", make_typical, 20, 4, 1, ALL_WORKS,
      SOME_WORKS | BIT(RESTORE) },
    { "454 smallest tables of 8 machines", make_smallest, 454, 8, 1, ALL_WORKS,
      ALL_WORKS },
    { "3 tables of 8,176 bytes", make_large, 3, 1, 1, ALL_WORKS, 0 },
    { "454 rows of one machine", make_smallest, 454, 1, 1, SOME_WORKS, SOME_WORKS },
    { "454 machines", make_smallest, 454, 454, 1, SOME_WORKS, SOME_WORKS },
    { "64 machines equal modulo 1,024", make_smallest, 454, 64, 1024, SOME_WORKS,
      SOME_WORKS },
    { "16 machines equal modulo 4,096", make_smallest, 454, 16, 4096, SOME_WORKS,
      SOME_WORKS },
    { 0 },
};

static uint32_t machine_of(const struct volume *v, uint32_t i)
{
    return 7 + i % v->machines * v->apart;
}

static void put_row(const struct volume *v, uint32_t rows, uint32_t i,
                    struct subject *s)
{
    uint8_t *row = s->bytes + HEAD + ROW * i;
    size_t at = HEAD + ROW * rows + i * s->table;

    put_le(row, machine_of(v, i), 2);
    put_le(row + 2, 1 + i / v->machines, 2);
    put_le(row + 4, at, 2);
    put_le(row + 6, s->table, 2);
    memcpy(s->bytes + at, s->saved, s->table);
}

static void ask_middle(const struct volume *v, uint32_t rows, struct subject *s)
{
    uint32_t i = rows / 2, last = i;

    while (last + v->machines < rows)
        last += v->machines;
    s->machine = (uint16_t)machine_of(v, i);
    s->edition = (uint16_t)(1 + i / v->machines);
    s->latest = (uint16_t)(1 + last / v->machines);
}

void lay_out_book(const struct volume *v, const struct builder *b, uint32_t part,
                  struct subject *s)
{
    uint32_t rows = v->rows / part;

    s->table = seal(b, s->saved);
    s->book = HEAD + rows * (ROW + s->table);
    s->size = LIMIT;
    s->bytes[0] = 1;
    put_le(s->bytes + 1, rows, 2);
    for (uint32_t i = 0; i < rows; i++)
        put_row(v, rows, i, s);
    ask_middle(v, rows, s);
}
