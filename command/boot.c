/*
 * The table that a verb is about: that of a table's file or, with --boot, that of a dump.  A dump
 * of a default configuration holds none; the one that it stands for (MPS chapter 5) is a call's,
 * by which processor booted.
 */
#include "mpt.h"

enum { MADE_MOST = 252 };       /* holds the table of any default configuration */

/* 0 where none is given.  Whether there is such a processor is the call's to say. */
uint8_t boot_of(const struct call *call)
{
    return call->boot == NULL ? 0 : (uint8_t)number_of("--boot", call->boot, 10, 255);
}

static bool is_made(unsigned configuration, uint8_t boot, struct bytes *table)
{
    static uint8_t room[MADE_MOST];
    uint64_t answer = ruxtajma_default_table((uint8_t)configuration, boot, room, sizeof room);

    *table = (struct bytes){ room, ruxtajma_count(answer) };
    return refused(answer) == ANSWER;
}

/*
 * The table of a dump, without what stands behind it there; where there is none, why is said.  Of a
 * file that is no dump, its bytes.
 */
bool dump_has_table(const struct call *call, struct bytes *table)
{
    uint8_t boot = boot_of(call);
    struct bytes dump = *table = taken(call->word[0], DUMP_MOST);
    uint64_t answer = ruxtajma_read(dump.at, dump.length);
    unsigned configuration = ruxtajma_default(answer);
    struct table held;

    if (refused(answer))
        return false;
    if (configuration != 0 && call->boot != NULL)
        return is_made(configuration, boot, table);
    if (configuration != 0) {
        printf("no table: default configuration %u\n", configuration);
        return false;
    }
    if (!is_table((struct bytes){ dump.at + ruxtajma_start(answer), ruxtajma_length(answer) }, &held))
        return false;
    *table = (struct bytes){ held.file.at, held.end };
    return true;
}

/*
 * The table that a verb asks about, if it is accepted.  Nothing is both a table and a dump: where a
 * dump was to be one and is a table, that is said.
 */
bool has_table(const struct call *call, struct bytes *table)
{
    if (call->boot == NULL) {
        *table = taken(call->word[0], FILE_MOST + 1);
        return refused(ruxtajma_judge(table->at, table->length)) == ANSWER;
    }
    if (dump_has_table(call, table))
        return true;
    if (ruxtajma_refusal(ruxtajma_judge(table->at, table->length)) == 0)
        printf("it is a table: leave out --boot\n");
    return false;
}
