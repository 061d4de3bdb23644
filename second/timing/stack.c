/*
 * The proved library in this process as linked.c has it, each of its calls on a
 * stack of its own, which is filled with a pattern before the first.  What is gone
 * of the pattern after the last is the most that a request of the run took.  The
 * dynamic linker has found memcpy and memset before: its own use is not in it.
 */
#define our_call linked_call
#define end_ours end_linked
#include "linked.c"
#undef our_call
#undef end_ours

#include <stdbool.h>
#include <string.h>
#include <ucontext.h>

enum {
    STACK = 1 << 18, FILL = 0xA7,
    KNOWN = 4096,        /* bytes that this file itself writes on a stack */
    SLACK = 256,         /* at most, of what is counted, the caller's own */
    LINKS = 255          /* the longest climb must have been among the requests */
};

typedef void asking(const struct request *q, struct reply *a);

/* A request for a dump makes two calls; here each has its stack. */
static void ask_read(const struct request *q, struct reply *a)
{
    give(a, ruxtajma_read(LENT(q, 0)));
}

static void ask_addresses(const struct request *q, struct reply *a)
{
    give(a, ruxtajma_addresses(LENT(q, 0)));
}

static void take_known(const struct request *q, struct reply *a)
{
    volatile uint8_t bytes[KNOWN];

    (void)q, (void)a;
    for (size_t i = 0; i < KNOWN; i++)
        bytes[i] = 0;
    (void)bytes[0];
}

static struct call {
    const char *name;
    uint8_t kind;
    asking *ask;
    unsigned long made;
    const uint8_t *frame;              /* the caller's, on the stack */
    _Alignas(64) uint8_t stack[STACK];
} calls[] = {
    { .name = "judge", .kind = 'J', .ask = linked_call },
    { .name = "read", .kind = 'D', .ask = ask_read },
    { .name = "addresses", .kind = 'D', .ask = ask_addresses },
    { .name = "list", .kind = 'L', .ask = linked_call },
    { .name = "list_full", .kind = 'F', .ask = linked_call },
    { .name = "default_table", .kind = 'U', .ask = linked_call },
    { .name = "write", .kind = 'W', .ask = linked_call },
    { .name = "parts", .kind = 'T', .ask = linked_call },
    { .name = "edit", .kind = 'E', .ask = linked_call },
    { .name = "entry", .kind = 'P', .ask = linked_call },
    { .name = "io_routes", .kind = 'I', .ask = linked_call },
    { .name = "local_routes", .kind = 'C', .ask = linked_call },
    { .name = "slot_routes", .kind = 'R', .ask = linked_call },
    { .name = "slots", .kind = 'S', .ask = linked_call },
    { .name = "renumber", .kind = 'N', .ask = linked_call },
    { .name = "address", .kind = 'A', .ask = linked_call },
    { .name = "book", .kind = 'B', .ask = linked_call },
    { .name = "latest", .kind = 'M', .ask = linked_call },
    { .name = "body", .kind = 'G', .ask = linked_call },
    { .name = "history", .kind = 'H', .ask = linked_call },
    { .name = "save", .kind = 'K', .ask = linked_call },
    { .name = "restore", .kind = 'O', .ask = linked_call },
}, known = { .name = "(known)", .ask = take_known };

static ucontext_t here, there;
static struct call *now;
static const struct request *question;
static struct reply *answer;
static unsigned links;

static void step(void)
{
    now->frame = __builtin_frame_address(0);
    now->ask(question, answer);
    now = NULL;                        /* so that no jump takes the call's place */
}

static void on_its_stack(struct call *c, const struct request *q, struct reply *a)
{
    if (c->made++ == 0)
        memset(c->stack, FILL, STACK);
    now = c, question = q, answer = a;
    getcontext(&there);
    there.uc_stack.ss_sp = c->stack;
    there.uc_stack.ss_size = STACK;
    there.uc_link = &here;
    makecontext(&there, step, 0);
    swapcontext(&here, &there);
}

void our_call(const struct request *q, struct reply *a)
{
    for (size_t i = 0; i < sizeof calls / sizeof calls[0]; i++)
        if (calls[i].kind == q->kind)
            on_its_stack(&calls[i], q, a);
    if (q->kind == 'A' && ruxtajma_links(a->value[0]) > links)
        links = ruxtajma_links(a->value[0]);
}

/* From the caller's frame to the lowest byte that was written. */
static size_t taken(const struct call *c)
{
    size_t left = 0;

    while (left < STACK && c->stack[left] == FILL)
        left++;
    return (size_t)(c->frame - (c->stack + left));
}

/* A known number of bytes comes out, and the hardest request was there. */
static bool right(void)
{
    on_its_stack(&known, NULL, NULL);
    return taken(&known) >= KNOWN && taken(&known) <= KNOWN + SLACK
        && links == LINKS;
}

void end_ours(void)
{
    bool good = right();

    printf("the most bytes of stack that a call took, from its caller's frame on; "
           "climbs of up to %u links\n", links);
    for (size_t i = 0; i < sizeof calls / sizeof calls[0]; i++) {
        printf("  ruxtajma_%-13s %6zu, in %lu calls\n", calls[i].name,
               taken(&calls[i]), calls[i].made);
        good = good && calls[i].made > 0 && taken(&calls[i]) < STACK / 2;
    }
    if (!good) {
        fprintf(stderr, "FAILED: the stack is not measured right\n");
        exit(1);
    }
}
