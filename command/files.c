/* Whole files in and out. */
#include "mpt.h"

#include <errno.h>
#include <fcntl.h>
#include <string.h>
#include <unistd.h>

struct bytes copied(struct bytes bytes)
{
    return (struct bytes){ memcpy(need(bytes.length), bytes.at, bytes.length), bytes.length };
}

bool same(struct bytes a, struct bytes b)
{
    return a.length == b.length && memcmp(a.at, b.at, a.length) == 0;
}

/* No verb reads a longer file: so no edit or save makes a table or a book of more. */
void keep_within(const char *name, size_t length)
{
    if (length > FILE_MOST)
        wrong("%s: more than 64 MiB", name);
}

/* Up to `most` bytes: whoever asks for one more than he takes sees a longer file. */
struct bytes taken_from(int file, const char *name, size_t most)
{
    struct bytes all = { need(most), 0 };

    for (ssize_t got = 1; got > 0 && all.length < most; all.length += (size_t)got)
        if ((got = read(file, all.at + all.length, most - all.length)) < 0)
            failed(name);
    keep_within(name, all.length);
    return all;
}

/* A file by its name, or standard input. */
struct bytes taken(const char *name, size_t most)
{
    bool piped = strcmp(name, "-") == 0;
    int file = piped ? STDIN_FILENO : open(name, O_RDONLY | O_CLOEXEC);

    if (file < 0)
        failed(name);
    struct bytes all = taken_from(file, piped ? "standard input" : name, most);
    if (!piped)
        close(file);
    return all;
}

bool put_all(int file, struct bytes bytes)
{
    for (ssize_t put; bytes.length > 0; bytes.at += put, bytes.length -= (size_t)put)
        if ((put = write(file, bytes.at, bytes.length)) < 0)
            return false;
    return true;
}

/* A new file, told of: one that is there is nobody's to write over. */
int put_new(const char *name, struct bytes bytes)
{
    int file = open(name, O_WRONLY | O_CREAT | O_EXCL | O_CLOEXEC, 0666);

    if (file < 0)
        failed(name);
    if (!put_all(file, bytes) || fsync(file) != 0 || close(file) != 0) {
        int why = errno;
        unlink(name);
        errno = why;
        failed(name);
    }
    printf("%s: %zu bytes\n", name, bytes.length);
    return ANSWER;
}

/* To standard output, or to -o FILE. */
int given_out(const struct call *call, struct bytes bytes, bool text)
{
    if (call->out != NULL)
        return put_new(call->out, bytes);
    if (!text && isatty(STDOUT_FILENO))
        wrong("these bytes are not for a terminal: give -o FILE");
    fwrite(bytes.at, 1, bytes.length, stdout);
    return ANSWER;
}
