/* Memory between unreadable pages, and what is left of a failed request. */
#define _GNU_SOURCE

#include "arena.h"
#include "builder.h"

#include <fcntl.h>
#include <signal.h>
#include <stdio.h>
#include <stdlib.h>
#include <string.h>
#include <sys/mman.h>
#include <unistd.h>

static const char kept_name[] = "compare-failed.request";

static const char *label = "none";
static struct request now;

void begin_case(const char *name)
{
    label = name;
}

void keep_request(const struct request *q)
{
    now = *q;
}

void put_head(const struct request *q, uint8_t head[HEAD])
{
    uint8_t *p = head;

    *p++ = q->kind;
    for (int i = 0; i < NUMBERS; i++, p += 8)
        put_le(p, q->number[i], 8);
    for (int i = 0; i < SLICES; i++, p += 4)
        put_le(p, q->slice[i].length, 4);
}

static void say(int fd, const void *bytes, size_t n)
{
    for (const uint8_t *p = bytes; n > 0; ) {
        ssize_t k = write(fd, p, n);

        if (k <= 0)
            return;
        p += k;
        n -= (size_t)k;
    }
}

/* Only write(): it is called from the signal handler too. */
static void leave_request(void)
{
    int fd = open(kept_name, O_WRONLY | O_CREAT | O_TRUNC, 0644);
    uint8_t head[HEAD];

    if (fd < 0)
        return;
    put_head(&now, head);
    say(fd, head, HEAD);
    for (int i = 0; i < SLICES; i++)
        say(fd, LENT(&now, i));
    close(fd);
}

static void print_answer(const char *who, const struct reply *a)
{
    fprintf(stderr, "; %s", who);
    for (unsigned i = 0; i < a->count; i++)
        fprintf(stderr, " %llX", (unsigned long long)a->value[i]);
}

static void print_request(const char *what)
{
    fprintf(stderr, "FAILED: %s; %s: request %c, numbers", what, label,
            now.kind == 0 ? '-' : now.kind);
    for (int i = 0; i < NUMBERS; i++)
        fprintf(stderr, " %llu", (unsigned long long)now.number[i]);
    fprintf(stderr, ", slices of");
    for (int i = 0; i < SLICES; i++)
        fprintf(stderr, " %zu", now.slice[i].length);
}

_Noreturn void fail(const char *what, const struct reply *plain,
                    const struct reply *ours, int expected)
{
    print_request(what);
    if (plain != NULL)
        print_answer("plain", plain);
    if (ours != NULL)
        print_answer("ours", ours);
    fprintf(stderr, "; expected %d; bytes in %s\n", expected, kept_name);
    leave_request();
    exit(1);
}

_Noreturn void fail_case(const char *what)
{
    fail(what, NULL, NULL, -1);
}

static void on_fault(int signal)
{
    static const char text[] = "FAILED: read or write outside the slices, or "
                               "another fault; in compare-failed.request: ";

    (void)signal;
    say(2, text, sizeof text - 1);
    say(2, label, strlen(label));
    say(2, "\n", 1);
    leave_request();
    _exit(1);
}

void catch_faults(void)
{
    struct sigaction on = { .sa_handler = on_fault };

    sigaction(SIGSEGV, &on, NULL);
    sigaction(SIGBUS, &on, NULL);
}

uint8_t *make_arena(void)
{
    size_t page = (size_t)sysconf(_SC_PAGESIZE);
    uint8_t *p = mmap(NULL, ARENA + 2 * page, PROT_READ | PROT_WRITE,
                      MAP_PRIVATE | MAP_ANONYMOUS, -1, 0);

    if (p == MAP_FAILED || mprotect(p, page, PROT_NONE) != 0
        || mprotect(p + page + ARENA, page, PROT_NONE) != 0) {
        perror("mmap");
        exit(2);
    }
    return p + page;
}
