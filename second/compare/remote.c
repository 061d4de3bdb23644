/*
 * The proved program answers over a pipe.  It reads a whole request before it
 * answers, so all of one is sent before any of the other is read.  All slices come
 * back over the lent ones.  What is no answer fails the request.
 */
#define _POSIX_C_SOURCE 200809L

#include "ours.h"

#include "arena.h"
#include "builder.h"

#include <errno.h>
#include <signal.h>
#include <stdio.h>
#include <stdlib.h>
#include <string.h>
#include <sys/wait.h>
#include <unistd.h>

enum { LENGTHS = 4 * SLICES, BODY = 3 * SLICE_MAX };

static uint8_t out[HEAD + BODY];
static uint8_t in[1 + 8 * VALUES + LENGTHS + BODY];
static size_t stand;   /* bytes in it */
static int to_child, from_child;
static pid_t child;

/* ---- the program ---- */

static _Noreturn void no_start(const char *what)
{
    perror(what);
    exit(2);
}

static _Noreturn void become(char *const words[], const int in_pipe[2],
                             const int out_pipe[2])
{
    dup2(in_pipe[0], 0);
    dup2(out_pipe[1], 1);
    close(in_pipe[0]), close(in_pipe[1]);
    close(out_pipe[0]), close(out_pipe[1]);
    signal(SIGPIPE, SIG_DFL);
    execvp(words[0], words);
    perror(words[0]);
    _exit(127);
}

void start_ours(char *const words[])
{
    int in_pipe[2], out_pipe[2];

    if (words[0] == NULL) {
        fprintf(stderr, "compare: no program is named that answers\n");
        exit(2);
    }
    if (pipe(in_pipe) != 0 || pipe(out_pipe) != 0)
        no_start("pipe");
    signal(SIGPIPE, SIG_IGN);
    child = fork();
    if (child < 0)
        no_start("fork");
    if (child == 0)
        become(words, in_pipe, out_pipe);
    close(in_pipe[0]), close(out_pipe[1]);
    to_child = in_pipe[1], from_child = out_pipe[0];
}

void end_ours(void)
{
    int status;

    close(to_child);
    if (read(from_child, in, 1) != 0)
        fail_case("bytes behind the program's last answer");
    if (waitpid(child, &status, 0) != child || !WIFEXITED(status)
        || WEXITSTATUS(status) != 0)
        fail_case("the program did not end well");
}

/* ---- a request and its answer ---- */

static void send_all(size_t n)
{
    for (size_t sent = 0; sent < n; ) {
        ssize_t k = write(to_child, out + sent, n - sent);

        if (k > 0)
            sent += (size_t)k;
        else if (errno != EINTR)
            fail_case("the program takes no request");
    }
}

static void receive(size_t n)
{
    while (stand < n) {
        ssize_t k = read(from_child, in + stand, sizeof in - stand);

        if (k > 0)
            stand += (size_t)k;
        else if (k == 0 || errno != EINTR)
            fail_case("the program ended without an answer");
    }
}

static size_t put_request(const struct request *q)
{
    uint8_t *p = out + HEAD;

    put_head(q, out);
    for (int i = 0; i < SLICES; i++) {
        memcpy(p, q->slice[i].bytes, q->slice[i].length);
        p += q->slice[i].length;
    }
    return (size_t)(p - out);
}

/* The count of values, the values, and the lengths; answers where they end. */
static size_t take_values(const struct request *q, struct reply *a)
{
    size_t at = 1;

    receive(1);
    if (in[0] > VALUES)
        fail_case("more values than any kind has");
    receive(1 + 8u * in[0] + LENGTHS);
    while (a->count < in[0])
        give(a, get_long(in + at)), at += 8;
    for (int i = 0; i < SLICES; i++, at += 4)
        if (get_le(in + at, 4) != q->slice[i].length)
            fail_case("a slice of another length");
    return at;
}

void our_call(const struct request *q, struct reply *a)
{
    stand = 0;
    send_all(put_request(q));
    size_t at = take_values(q, a);
    for (int i = 0; i < SLICES; at += q->slice[i++].length) {
        receive(at + q->slice[i].length);
        memcpy(q->slice[i].bytes, in + at, q->slice[i].length);
    }
    if (stand != at)
        fail_case("bytes behind the program's answer");
}
