/* Tables, judged. */
#include "compare.h"

#include "arena.h"
#include "driver.h"
#include "faults.h"
#include "plain.h"

#include <stdio.h>
#include <string.h>

static const struct rule judging = { .kind = 'J', .refusals = REFUSALS(5, 18) };

static struct tally t;

static void judge(const char *label, const uint8_t *bytes, size_t n, int expected)
{
    struct request q = { .slice = { lent(bytes, n) } };

    begin_case(label);
    unsigned refusal = put(&judging, &q, knowing(expected, 0))->refusal;
    note_table(bytes, n, refusal == 0);
    tally(&t, refusal);
}

/* ---- fixed cases ---- */

static uint8_t image[CASE_ROOM];

static void fixed(const char *label, const struct builder *b, int expected)
{
    judge(label, image, seal(b, image), expected);
}

/* 4,096 bytes: a processor, a bus and 503 interrupts to all I/O APICs. */
static void base_4096(struct builder *b)
{
    small_board(b);
    while (b->base_len < PART_LIMIT - HEADER)
        add_interrupt(b, 3, 0, 0, 0, (uint8_t)b->count, 255, 0);
}

/* 256 buses; bus i has parent i + 1, and 255 the one given, if any. */
static void chain_of_256(struct builder *b, bool falling, int last)
{
    builder_start(b, 0);
    add_processor(b, 0, 3);
    for (int i = 0; i < 256; i++)
        add_bus(b, (uint8_t)i, "PCI   ");
    for (int i = 0; i < 256; i++) {
        int k = falling ? 255 - i : i;
        if (k < 255 || last >= 0)
            add_link(b, (uint8_t)k, 1, (uint8_t)(k < 255 ? k + 1 : last));
    }
}

/* Whole, cut at each byte, and with a byte off. */
static void the_board(void)
{
    size_t n = bench_board(image);

    judge("bench board", image, n, 0);
    memset(image + n, 0xEE, 100);
    judge("bench board, bytes behind", image, n + 100, 0);
    for (size_t i = 0; i < n; i++)
        judge("bench board cut", image, i, i < HEADER ? 5 : 7);
    for (size_t i = 0; i < n; i++) {
        image[i]++;
        judge("bench board, a byte off", image, n,
              i < 4 ? 6 : i == 4 || i == 5 ? 7 : 8);
        image[i]--;
    }
}

/* Both sides of 44 and of 4,096. */
static void lengths(void)
{
    struct builder b;
    size_t n;

    builder_start(&b, 0xFEE00000u);
    fixed("sound header of length 44, no entries", &b, 14);

    base_4096(&b);
    fixed("base 4,096", &b, 0);
    n = seal(&b, image);
    image[n] = 0;
    image[4]++;               /* 4,097, the byte more is there */
    mend(image, n + 1);
    judge("base 4,097", image, n + 1, 7);
    judge("base 4,097, buffer of 4,096", image, n, 7);
    while (b.ext_len < PART_LIMIT - 16)
        add_mapping(&b, 0, 0, 0, 0);
    add_modifier(&b, 0, 0, 0);
    add_modifier(&b, 0, 1, 1);
    fixed("base 4,096 and extended 4,096", &b, 0);
    add_unknown(&b, 131, 2, 0);
    fixed("base 4,096 and extended 4,098", &b, 13);
}

static void chains(void)
{
    struct builder b;

    small_board(&b);
    add_link(&b, 0, 0, 0);
    fixed("a lone bus its own parent", &b, 18);
    b.ext_len = 0;
    add_link(&b, 0, 1, 0);
    fixed("a lone bus its own parent, subtractive", &b, 18);

    for (int falling = 0; falling < 2; falling++) {
        chain_of_256(&b, falling, -1);
        fixed("a chain of 256 buses", &b, 0);
        chain_of_256(&b, falling, 0);
        fixed("a circle of 256 buses", &b, 18);
        chain_of_256(&b, falling, 255);
        fixed("a chain of 256 buses, the last its own parent", &b, 18);
        chain_of_256(&b, falling, 100);
        fixed("a chain of 256 buses, half of it a circle", &b, 18);
    }
}

static void destinations(void)
{
    struct builder b;

    small_board(&b);
    add_interrupt(&b, 3, 0, 0, 0, 1, 255, 1);
    fixed("destination 255 without I/O APICs", &b, 0);
    add_interrupt(&b, 4, 3, 0, 0, 0, 255, 1);
    fixed("local destination 255", &b, 0);
}

/* Rule 16 as amended. */
static void shared_ids(void)
{
    struct builder b;

    builder_start(&b, 0xFEE00000u);
    add_processor(&b, 0, 3);
    add_processor(&b, 4, 1);
    add_processor(&b, 5, 0);
    add_io_apic(&b, 4, 1, 0xFEC00000u);
    fixed("I/O APIC with a processor's ID", &b, 0);
    add_io_apic(&b, 4, 0, 0);
    add_io_apic(&b, 5, 1, 0xFEC01000u);
    add_io_apic(&b, 0, 1, 0xFEC02000u);
    fixed("others with processors' IDs, one off", &b, 0);
    add_io_apic(&b, 5, 1, 0xFEC03000u);
    fixed("two I/O APICs with the ID of a processor that is off", &b, 16);
    b.base[b.base_len - 7] = 4;
    fixed("two I/O APICs with the ID of a processor", &b, 16);
    b.base[b.base_len - 7] = 255;
    fixed("I/O APIC 255 beside shared IDs", &b, 16);
    b.base[b.base_len - 7] = 6, b.base[b.base_len - 3] = 2;
    fixed("an address not by 1,024 beside shared IDs", &b, 16);
    b.base[b.base_len - 5] = 0;
    fixed("the same off", &b, 0);

    builder_start(&b, 0xFEE00000u);
    for (int i = 0; i < 127; i++)
        add_processor(&b, (uint8_t)(2 * i), i == 0 ? 3 : 1);
    for (int i = 126; i >= 0; i--)
        add_io_apic(&b, (uint8_t)(2 * i), 1, 0xFEC00000u);
    fixed("127 I/O APICs with the IDs of 127 processors", &b, 0);
    add_io_apic(&b, 100, 1, 0xFEC00000u);
    fixed("128 with 127 IDs", &b, 16);
}

static void ranges(void)
{
    struct builder b;

    small_board(&b);
    add_mapping(&b, 0, 2, UINT64_MAX, 1);
    add_mapping(&b, 0, 0, 1, UINT64_MAX);
    add_mapping(&b, 0, 0, UINT64_MAX, 0);
    fixed("ranges up to 2^64", &b, 0);
    add_mapping(&b, 0, 1, 2, UINT64_MAX);
    fixed("range to 2^64 + 1", &b, 18);
}

static void long_buffers(struct rng *r)
{
    static uint8_t noise[SLICE_MAX];
    size_t some = 1 << 17;

    rng_fill(r, noise, some);
    judge("131,072 random bytes", noise, some, -1);
    bench_board(noise);
    judge("bench board and random bytes behind", noise, some, 0);
    judge("bench board, the longest slice", noise, SLICE_MAX, 0);
}

static void fixed_tables(struct rng *r)
{
    if (plain_judge(NULL, 0) != 5)
        fail_case("the plain judge of NULL, 0");
    judge("empty slice", image, 0, 5);
    the_board();
    lengths();
    chains();
    destinations();
    shared_ids();
    ranges();
    long_buffers(r);
}

/* ---- all of them ---- */

static struct test_case c;

static void judge_case(void)
{
    judge(c.label, c.bytes, c.size, c.expected);
}

void tables(struct rng *r, number count, const char *seed)
{
    fixed_tables(r);
    number fixed = t.cases;
    size_t kinds = 0;
    for (const struct fault *f; (f = fault_at(table_faults, kinds)); kinds++)
        for (int i = 0; i < each(); i++) {
            fault_case(r, f, &c);
            judge_case();
        }
    number single = t.cases - fixed;

    for (t = (struct tally){ 0 }; t.cases < count; ) {
        gen_case(r, &c);
        judge_case();
    }
    printf("tables: %llu fixed, %llu single faults (%zu kinds), %llu generated, "
           "seed %s: no difference\n", fixed, single, kinds, count, seed);
    report(0, t.answered[0], count);
    report_range(t.answered, 5, 18, count);
}
