/*
 * answers: the plain program over a stream of requests on standard input, as
 * docs/ANSWERS.md has it.  Exit 0 where the input ends between two requests; 1,
 * with a line on standard error, where it ends inside one or one is not sound,
 * or where an answer cannot be written.
 */
#include "calls.h"
#include "table.h"

#include <stdbool.h>
#include <stdio.h>
#include <stdlib.h>

static struct request q;
static uint8_t first[SLICE_MAX], between[SLICE_MAX], last[SLICE_MAX];
static unsigned long long count;   /* of requests begun */

static _Noreturn void stop(const char *what)
{
    fprintf(stderr, "answers: request %llu %s\n", count, what);
    exit(1);
}

/* "The three in the middle together" */
static void place_slices(void)
{
    size_t used = 0;

    q.slice[0].bytes = first;
    for (int i = 1; i < ROOM; i++) {
        if (q.slice[i].length > SLICE_MAX - used)
            stop("has a slice that is too long");
        q.slice[i].bytes = between + used;
        used += q.slice[i].length;
    }
    q.slice[ROOM].bytes = last;
    if (q.slice[0].length > SLICE_MAX || q.slice[ROOM].length > SLICE_MAX)
        stop("has a slice that is too long");
}

/* False at the end of the input; else a whole request stands in q. */
static bool take_request(void)
{
    uint8_t head[HEAD];
    size_t n = fread(head, 1, HEAD, stdin);

    if (n == 0 && feof(stdin))
        return false;
    count++;
    if (n < HEAD)
        stop("is cut short");
    q.kind = head[0];
    if (plain_call_of(q.kind) == NULL)
        stop("is of an unknown kind");
    for (int i = 0; i < NUMBERS; i++)
        q.number[i] = get64(head + 1 + 8 * i);
    for (int i = 0; i < SLICES; i++)
        q.slice[i].length = get32(head + 1 + 8 * NUMBERS + 4 * i);
    place_slices();
    for (int i = 0; i < SLICES; i++)
        if (fread(q.slice[i].bytes, 1, q.slice[i].length, stdin)
            != q.slice[i].length)
            stop("is cut short");
    return true;
}

static void write_bytes(const uint8_t *p, size_t n)
{
    if (fwrite(p, 1, n, stdout) != n) {
        fprintf(stderr, "answers: cannot write\n");
        exit(1);
    }
}

static void write_number(uint64_t v, size_t n)
{
    uint8_t bytes[8];

    for (size_t i = 0; i < n; i++)
        bytes[i] = (uint8_t)(v >> 8 * i);
    write_bytes(bytes, n);
}

static void write_answer(const struct reply *a)
{
    write_number(a->count, 1);
    for (unsigned i = 0; i < a->count; i++)
        write_number(a->value[i], 8);
    for (int i = 0; i < SLICES; i++)
        write_number(q.slice[i].length, 4);
    for (int i = 0; i < SLICES; i++)
        write_bytes(LENT(&q, i));
    if (fflush(stdout) != 0) {
        fprintf(stderr, "answers: cannot write\n");
        exit(1);
    }
}

int main(void)
{
    while (take_request()) {
        struct reply a = { 0 };

        plain_call_of(q.kind)(&q, &a);
        write_answer(&a);
    }
    return 0;
}
