/*
 * kill_at: a library that a test preloads.  It stands in front of the calls by which a
 * program touches files, counts them, and lets something happen at one of them.
 *
 * KILL_AT=N      which call, counted from 1; 0 is none of them
 * KILL_HOW=      kill   the process is killed before it
 *                half   a write stores half of its bytes, then the process is killed
 *                fail   the call is not made, and fails with the error KILL_ERROR
 *                gone   it fails so, and every call behind it: a disk that is gone
 *                short  from it on a read or a write moves seven bytes at most
 *                stop   the process stands still before it, until it is continued
 * KILL_TRACE=FILE  a line for each call is appended to FILE: its name
 *
 * Only what a program calls itself is seen, not what libc does inside of a call.
 */
#define _GNU_SOURCE
#include <dlfcn.h>
#include <errno.h>
#include <fcntl.h>
#include <signal.h>
#include <stdarg.h>
#include <stdlib.h>
#include <string.h>
#include <sys/stat.h>
#include <sys/syscall.h>
#include <unistd.h>

static long number, calls;
static int error, trace = -1;
static const char *how = "";

__attribute__((constructor)) static void begin(void)
{
    const char *at = getenv("KILL_AT"), *with = getenv("KILL_ERROR"), *file = getenv("KILL_TRACE");

    number = at != NULL ? atol(at) : 0;
    error = with != NULL ? atoi(with) : EIO;
    if (getenv("KILL_HOW") != NULL)
        how = getenv("KILL_HOW");
    if (file != NULL)
        trace = (int)syscall(SYS_openat, AT_FDCWD, file, O_WRONLY | O_CREAT | O_APPEND | O_CLOEXEC, 0600);
}

static int is(const char *word)
{
    return strcmp(how, word) == 0;
}

/* Counts a call.  Whether it fails, with errno set. */
static int fails(const char *name)
{
    calls++;
    if (trace >= 0) {
        syscall(SYS_write, trace, name, strlen(name));
        syscall(SYS_write, trace, "\n", 1L);
    }
    if (number == 0 || calls < number)
        return 0;
    if (calls == number && (is("kill") || is("half")))
        raise(SIGKILL);
    if (calls == number && is("stop"))
        raise(SIGSTOP);
    if ((calls == number && is("fail")) || is("gone")) {
        errno = error;
        return 1;
    }
    return 0;
}

/* How many bytes of so many a read or a write is to move. */
static size_t moved(size_t length)
{
    return number > 0 && calls >= number && is("short") && length > 7 ? 7 : length;
}

/* The call itself, in libc. */
static void *libc(const char *name)
{
    void *found = dlsym(RTLD_NEXT, name);

    if (found == NULL)
        abort();
    return found;
}

#define CALL(name, parameters, arguments)                            \
    int name parameters                                              \
    {                                                                \
        if (fails(#name))                                            \
            return -1;                                               \
        return ((int (*) parameters)libc(#name)) arguments;          \
    }

CALL(close, (int file), (file))
CALL(fsync, (int file), (file))
CALL(fdatasync, (int file), (file))
CALL(ftruncate, (int file, off_t length), (file, length))
CALL(rename, (const char *from, const char *to), (from, to))
CALL(renameat, (int a, const char *from, int b, const char *to), (a, from, b, to))
CALL(renameat2, (int a, const char *from, int b, const char *to, unsigned flags), (a, from, b, to, flags))
CALL(link, (const char *from, const char *to), (from, to))
CALL(unlink, (const char *name), (name))
CALL(unlinkat, (int folder, const char *name, int flags), (folder, name, flags))
CALL(chmod, (const char *name, mode_t mode), (name, mode))
CALL(fchmod, (int file, mode_t mode), (file, mode))
CALL(chown, (const char *name, uid_t user, gid_t group), (name, user, group))
CALL(fchown, (int file, uid_t user, gid_t group), (file, user, group))
CALL(access, (const char *name, int mode), (name, mode))
CALL(stat, (const char *restrict name, struct stat *restrict as), (name, as))
CALL(lstat, (const char *restrict name, struct stat *restrict as), (name, as))
CALL(fstat, (int file, struct stat *as), (file, as))

off_t lseek(int file, off_t at, int from)
{
    return fails("lseek") ? -1 : ((off_t (*)(int, off_t, int))libc("lseek"))(file, at, from);
}

ssize_t read(int file, void *to, size_t length)
{
    return fails("read") ? -1 : ((ssize_t (*)(int, void *, size_t))libc("read"))(file, to, moved(length));
}

ssize_t pread(int file, void *to, size_t length, off_t at)
{
    return fails("pread") ? -1 : ((ssize_t (*)(int, void *, size_t, off_t))libc("pread"))(file, to, moved(length), at);
}

ssize_t write(int file, const void *from, size_t length)
{
    if (is("half") && calls + 1 == number)
        syscall(SYS_write, file, from, length / 2);
    return fails("write") ? -1 : ((ssize_t (*)(int, const void *, size_t))libc("write"))(file, from, moved(length));
}

ssize_t pwrite(int file, const void *from, size_t length, off_t at)
{
    if (is("half") && calls + 1 == number)
        syscall(SYS_pwrite64, file, from, length / 2, at);
    return fails("pwrite") ? -1 : ((ssize_t (*)(int, const void *, size_t, off_t))libc("pwrite"))(file, from, moved(length), at);
}

/* The mode stands behind the flags only where a file may be made. */
#define MODE(flags, mode)                                            \
    if ((flags) & (O_CREAT | O_TMPFILE)) {                           \
        va_list list;                                                \
        va_start(list, flags);                                       \
        mode = va_arg(list, mode_t);                                 \
        va_end(list);                                                \
    }

int open(const char *name, int flags, ...)
{
    mode_t mode = 0;

    MODE(flags, mode)
    return fails("open") ? -1 : ((int (*)(const char *, int, ...))libc("open"))(name, flags, mode);
}

int openat(int folder, const char *name, int flags, ...)
{
    mode_t mode = 0;

    MODE(flags, mode)
    return fails("openat") ? -1 : ((int (*)(int, const char *, int, ...))libc("openat"))(folder, name, flags, mode);
}

/* Its third word is a number, a pointer or nothing: all pass as a pointer does. */
int fcntl(int file, int what, ...)
{
    va_list list;

    va_start(list, what);
    void *with = va_arg(list, void *);
    va_end(list);
    return fails("fcntl") ? -1 : ((int (*)(int, int, ...))libc("fcntl"))(file, what, with);
}
