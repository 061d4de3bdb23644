/* How the calls of a run ended, and what stood in the tables it was made on. */
#include "counts.h"

#include "builder.h"
#include "within.h"

#include <stdio.h>
#include <string.h>

static number ended[NUMBERS_END];
static bool enough = true;

void tally(struct tally *t, unsigned refusal)
{
    t->cases++;
    t->answered[refusal]++;
}

void count_call(unsigned refusal)
{
    ended[refusal]++;
}

/* ---- what stood in the tables ---- */

enum feature {
    SOUND, ALL_TYPES, CPU_OFF, APIC_OFF, SHARED_ID, TO_ALL, CHAIN, FAMILY, UNKNOWN,
    BASE_FULL, EXT_FULL,
    BASE_44, BASE_4096, BASE_4097, EXT_4096, EXT_4097, FEATURES
};

static const char *const named[FEATURES] = {
    [SOUND] = "accepted",
    [ALL_TYPES] = "all base types and 128 to 130",
    [CPU_OFF] = "a processor that is off",
    [APIC_OFF] = "an I/O APIC that is off",
    [SHARED_ID] = "an I/O APIC on with the ID of a processor on",
    [TO_ALL] = "destination 255",
    [CHAIN] = "3 links to parents in a row",
    [FAMILY] = "100 links to one parent",
    [UNKNOWN] = "unknown extended types",
    [BASE_FULL] = "a base of 4,096",
    [EXT_FULL] = "an extended part of 4,096",
    [BASE_44] = "a base of 44",
    [BASE_4096] = "a base of 4,096",
    [BASE_4097] = "a base of 4,097",
    [EXT_4096] = "an extended part of 4,096",
    [EXT_4097] = "an extended part of 4,097",
};

static number noted[FEATURES];

void note_lengths(size_t base, size_t extended)
{
    noted[BASE_44] += base == HEADER;
    noted[BASE_4096] += base == PART_LIMIT;
    noted[BASE_4097] += base == PART_LIMIT + 1;
    noted[EXT_4096] += extended == PART_LIMIT;
    noted[EXT_4097] += extended == PART_LIMIT + 1;
}

/* Whether any bus has so many links above it; there is no circle. */
static bool has_chain(struct builder *b, int links)
{
    int parent[256];

    memset(parent, -1, sizeof parent);
    EACH(b, 129, e)
        parent[e[2]] = e[4];
    for (int bus = 0; bus < 256; bus++) {
        int at = bus, n = 0;

        while (n < links && parent[at] >= 0)
            at = parent[at], n++;
        if (n == links)
            return true;
    }
    return false;
}

static bool has_family(struct builder *b, unsigned links)
{
    unsigned below[256] = { 0 };

    EACH(b, 129, e)
        if (++below[e[4]] == links)
            return true;
    return false;
}

static bool is_on(const uint8_t *e) { return e[3] & 1; }
static bool is_off(const uint8_t *e) { return !(e[3] & 1); }
static bool to_all(const uint8_t *e) { return e[6] == 255; }

static bool has(struct builder *b, uint8_t type, want *suits)
{
    EACH(b, type, e)
        if (suits(e))
            return true;
    return false;
}

static bool has_shared_id(struct builder *b)
{
    struct list processors;

    list_of(b, 0, is_on, &processors);
    EACH(b, 2, e)
        if (is_on(e) && processors.has[e[1]])
            return true;
    return false;
}

/* The last type is the highest. */
static bool has_unknown(const struct builder *b)
{
    uint8_t last = 0;

    for (size_t at = 0; at < b->ext_len; at += b->ext[at + 1])
        last = b->ext[at];
    return last > 130;
}

static void note_sound(const uint8_t *bytes)
{
    static struct builder b;

    unseal(&b, bytes);
    noted[SOUND]++;
    noted[ALL_TYPES] += has_all_types(&b);
    noted[CPU_OFF] += has(&b, 0, is_off);
    noted[APIC_OFF] += has(&b, 2, is_off);
    noted[SHARED_ID] += has_shared_id(&b);
    noted[TO_ALL] += has(&b, 3, to_all) || has(&b, 4, to_all);
    noted[CHAIN] += has_chain(&b, 3);
    noted[FAMILY] += has_family(&b, 100);
    noted[UNKNOWN] += has_unknown(&b);
    noted[BASE_FULL] += base_of(bytes) == PART_LIMIT;
    noted[EXT_FULL] += ext_of(bytes) == PART_LIMIT;
}

void note_table(const uint8_t *bytes, size_t n, bool accepted)
{
    if (n >= HEADER)
        note_lengths(base_of(bytes), ext_of(bytes));
    if (accepted)
        note_sound(bytes);
}

/* ---- the report ---- */

void require(const char *what, number reached, number least)
{
    if (reached >= least)
        return;
    printf("FAILED: too seldom: %s: %llu, fewer than %llu\n", what, reached, least);
    enough = false;
}

void report(int answer, number reached, number count)
{
    char name[16];

    snprintf(name, sizeof name, "%3d", answer);
    printf("%s: %llu\n", name, reached);
    require(name, reached, count / 1000);
}

void report_range(const number *answered, int low, int high, number count)
{
    for (int k = low; k <= high; k++)
        report(k, answered[k], count);
}

void report_classes(const char *what, const char *const name[5],
                    const number reached[5], number count)
{
    printf("%s:", what);
    for (int k = 0; k < 5; k++) {
        printf(" %s: %llu%s", name[k], reached[k], k < 4 ? "," : "\n");
        require(what, reached[k], count / 1000);
    }
}

static void report_features(number count)
{
    printf("tables %s: %llu; with", named[SOUND], noted[SOUND]);
    for (int k = ALL_TYPES; k <= EXT_FULL; k++)
        printf(" %s: %llu%s", named[k], noted[k], k < EXT_FULL ? "," : "\n");
    printf("tables and parts of any kind with");
    for (int k = BASE_44; k < FEATURES; k++)
        printf(" %s: %llu%s", named[k], noted[k], k + 1 < FEATURES ? "," : "\n");
    for (int k = 0; k < FEATURES; k++)
        require(named[k], noted[k], count / 200);
}

bool report_calls(number count, const char *seed)
{
    number calls = 0;

    report_features(count);
    printf("calls by the number they ended with:\n");
    for (int k = 0; k < NUMBERS_END; k++) {
        printf("%4d: %-8llu%s", k, ended[k],
               k % 5 == 4 || k + 1 == NUMBERS_END ? "\n" : "");
        calls += ended[k];
    }
    for (int k = 1; k < NUMBERS_END; k++) {
        char name[32];

        snprintf(name, sizeof name, "calls ended with %d", k);
        require(name, ended[k], AT_LEAST);
    }
    require("calls", calls, CALLS_AT_LEAST);
    printf("calls: %llu in all, seed %s\n", calls, seed);
    return enough;
}
