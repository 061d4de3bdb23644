/* The proved library in this process: each kind of request by its C call. */
#include "ours.h"

#include "builder.h"
#include "ruxtajma.h"

#include <stdio.h>
#include <stdlib.h>

void start_ours(char *const words[])
{
    if (words[0] != NULL) {
        fprintf(stderr, "compare: the library is linked, no program is started\n");
        exit(2);
    }
}

void end_ours(void)
{
}

/* The library says where the parts end; the fields are the header's bytes. */
static void parts(const struct request *q, struct reply *a)
{
    uint64_t answer = ruxtajma_parts(LENT(q, 0));

    give(a, answer);
    if (ruxtajma_refusal(answer) == 0) {
        put_fields(q->slice[0].bytes, a->value + a->count);
        a->count += FIELDS;
    }
}

/* The numbers, as wide as a call takes them. */
#define BYTE(i) (uint8_t)q->number[i]
#define SHORT(i) (uint16_t)q->number[i]
#define WORD(i) (uint32_t)q->number[i]

void our_call(const struct request *q, struct reply *a)
{
    switch (q->kind) {
    case 'J':
        give(a, ruxtajma_judge(LENT(q, 0)));
        break;
    case 'D':
        give(a, ruxtajma_read(LENT(q, 0)));
        give(a, ruxtajma_addresses(LENT(q, 0)));
        break;
    case 'L':
        give(a, ruxtajma_list(LENT(q, 0), LENT(q, ROOM)));
        break;
    case 'F':
        give(a, ruxtajma_list_full(LENT(q, 0), BYTE(0), LENT(q, ROOM)));
        break;
    case 'U':
        give(a, ruxtajma_default_table(BYTE(0), BYTE(1), LENT(q, ROOM)));
        break;
    case 'W':
        give(a, ruxtajma_write(LENT(q, 2), LENT(q, 3), WORD(0), SHORT(1), WORD(2),
                               BYTE(3), LENT(q, 0), LENT(q, 1), LENT(q, ROOM)));
        break;
    case 'T':
        parts(q, a);
        break;
    case 'E':
        give(a, ruxtajma_edit(LENT(q, 0), q->number[0], LENT(q, 1), LENT(q, 2)));
        break;
    case 'P':
        give(a, ruxtajma_entry(LENT(q, 0), q->number[0]));
        break;
    case 'I':
        give(a, ruxtajma_io_routes(LENT(q, 0), BYTE(0), BYTE(1), BYTE(2),
                                   LENT(q, ROOM)));
        break;
    case 'C':
        give(a, ruxtajma_local_routes(LENT(q, 0), BYTE(0), BYTE(1), BYTE(2),
                                      LENT(q, ROOM)));
        break;
    case 'R':
        give(a, ruxtajma_slot_routes(LENT(q, 0), BYTE(0), BYTE(1), BYTE(2),
                                     LENT(q, ROOM)));
        break;
    case 'S':
        give(a, ruxtajma_slots(LENT(q, 0), LENT(q, ROOM)));
        break;
    case 'N':
        give(a, ruxtajma_renumber(LENT(q, 0), LENT(q, ROOM)));
        break;
    case 'A':
        give(a, ruxtajma_address(LENT(q, 0), BYTE(0), BYTE(1), q->number[2]));
        break;
    case 'B':
        give(a, ruxtajma_book(LENT(q, 0)));
        break;
    case 'M':
        give(a, ruxtajma_latest(LENT(q, 0), SHORT(0)));
        break;
    case 'G':
        give(a, ruxtajma_body(LENT(q, 0), SHORT(0), SHORT(1)));
        break;
    case 'H':
        give(a, ruxtajma_history(LENT(q, 0), LENT(q, ROOM)));
        break;
    case 'K':
        give(a, ruxtajma_save(LENT(q, 0), SHORT(0), SHORT(1), LENT(q, 1)));
        break;
    case 'O':
        give(a, ruxtajma_restore(LENT(q, 0), SHORT(0), SHORT(1), SHORT(2)));
        break;
    default:
        break;
    }
}
