/*
 * A file on a shared disk that several people change: a table, or a book.
 *
 * Whoever changes it holds a lock on FILE.log, which is never renamed: so the lock outlives
 * the exchange of the file, and who waited changes the one that is there then.  It is a
 * POSIX record lock, which the system frees when the process ends and which NFS and SMB
 * know; its byte lies past any log, so that where locks are mandatory no reader is shut
 * out.  docs/DECISIONS.md says where it does not work.
 */
#include "mpt.h"

#include <errno.h>
#include <fcntl.h>
#include <stdlib.h>
#include <string.h>
#include <unistd.h>

enum { LOCK_BYTE = 1 << 30 };

struct target target_of(const char *name, const struct form *form)
{
    char *path = realpath(name, NULL);

    if (path == NULL)
        failed(name);
    return (struct target){ .path = path, .log_name = joined(path, ".log"),
                            .new_name = joined(path, ".mpt-new"), .form = form, .log = -1 };
}

/* ---- the lock ---- */

static bool locked(int file, short how)
{
    struct flock byte = { .l_type = how, .l_whence = SEEK_SET, .l_start = LOCK_BYTE, .l_len = 1 };

    if (fcntl(file, F_SETLK, &byte) == 0)
        return true;
    if ((errno == EAGAIN || errno == EACCES) && isatty(STDERR_FILENO))
        fprintf(stderr, "mpt: another change is under way: waiting\n");
    return fcntl(file, F_SETLKW, &byte) == 0;
}

/* Whether a file still has its name: the lock of one that was taken away holds nobody off. */
static bool is_there(int file, const char *name)
{
    struct stat held, there;

    errno = ESTALE;
    return fstat(file, &held) == 0 && stat(name, &there) == 0 &&
           there.st_dev == held.st_dev && there.st_ino == held.st_ino;
}

/*
 * The log, opened and locked; -1 with the reason in errno.  It is read by this descriptor
 * alone: to close another one of the same file would free the lock.
 */
static int locked_log(const char *name, int flags, short how)
{
    struct stat held;

    for (;;) {
        int file = open(name, flags | O_NOFOLLOW | O_NONBLOCK | O_NOCTTY | O_CLOEXEC, 0666);
        if (file < 0 || fstat(file, &held) != 0)
            return -1;
        errno = EINVAL;
        if (!S_ISREG(held.st_mode) || !locked(file, how))
            return -1;
        if (is_there(file, name))
            return file;
        close(file);
    }
}

/*
 * A file of the same mode, group and owner, as far as the system lets one: only an
 * administrator may give a file away, and it is the group that lets the others in.
 */
static bool made_like(int file, const struct stat *as, mode_t mode)
{
    struct stat made;

    if (fstat(file, &made) != 0)
        return false;
    if ((made.st_uid != as->st_uid || made.st_gid != as->st_gid) &&
        fchown(file, as->st_uid, as->st_gid) != 0 &&
        made.st_gid != as->st_gid && fchown(file, (uid_t)-1, as->st_gid) != 0)
        return false;
    return (made.st_mode & 07777) == mode || fchmod(file, mode) == 0;
}

/* Whoever may change the file may write to its log: so from the log's first moment on. */
static int opened_log(const struct target *p)
{
    struct stat made;

    umask(~p->as.st_mode & 0777);
    int log = locked_log(p->log_name, O_RDWR | O_CREAT | O_APPEND, F_WRLCK);
    if (log < 0 || fstat(log, &made) != 0)
        failed(p->log_name);
    if (made.st_size == 0 && made.st_uid == geteuid() &&
        !made_like(log, &p->as, p->as.st_mode & 0666)) {
        int why = errno;
        unlink(p->log_name);
        errno = why;
        failed(p->log_name);
    }
    return log;
}

/* What the log has, and its lock is freed: whoever reads on at leisure holds nobody off. */
static void take_log(struct target *p)
{
    p->told = (struct bytes){ need(0), 0 };
    if (p->log >= 0) {
        p->told = taken_from(p->log, p->log_name, FILE_MOST + 1);
        close(p->log);
    }
}

/*
 * Where there was no log to lock, whether there is one now: the first change that is logged
 * has come in between, and the file may be the one that it made.
 */
static bool came_meanwhile(const struct target *p)
{
    return p->log < 0 && p->closed == ENOENT && access(p->log_name, F_OK) == 0;
}

/* The file and then its log, under one lock: so no change is seen half done. */
void read_locked(struct target *p)
{
    do {
        p->log = locked_log(p->log_name, O_RDONLY, F_RDLCK);
        p->closed = errno;
        if (p->log < 0 && p->closed != ENOENT)
            failed(p->log_name);
        p->was = taken(p->path, FILE_MOST + 1);
    } while (came_meanwhile(p));
    take_log(p);
}

/* ---- the attempt ---- */

static struct bytes read_file(struct target *p)
{
    int file = open(p->path, O_RDWR | O_NONBLOCK | O_NOCTTY | O_CLOEXEC);

    if (file < 0 || fstat(file, &p->as) != 0)
        failed(p->path);
    if (!S_ISREG(p->as.st_mode))
        wrong("%s: not a regular file", p->path);
    if (p->as.st_nlink > 1)
        wrong("%s: a hard link: its other names would keep the old %s", p->path, p->form->file);
    struct bytes all = taken_from(file, p->path, FILE_MOST + 1);
    close(file);
    return all;
}

/*
 * First on what is there, with no lock: a refusal of a whole file is a true answer, and
 * makes no log.  Then under the lock on what is there by then: where somebody else was
 * first, to tell who, and else to exchange the file.  Any other refusal names nobody, and
 * so no log can stand in its way.
 */
uint64_t tried(struct target *p, attempt *try, const void *asked, unsigned overtaken)
{
    for (int how = F_UNLCK; ; ) {
        p->was = read_file(p);
        uint64_t answer = try(p->was, &p->is, asked);
        unsigned number = ruxtajma_refusal(answer);
        if (number == 0)
            keep_within(p->path, p->is.length);
        if (number == 0 && how == F_WRLCK)
            return answer;
        if (number == overtaken && how != F_UNLCK && !came_meanwhile(p)) {
            take_log(p);
            return answer;
        }
        if (p->log >= 0)
            close(p->log);
        if (number != 0 && number != overtaken)
            return answer;
        how = number == overtaken ? F_RDLCK : F_WRLCK;
        p->log = number == overtaken ? locked_log(p->log_name, O_RDONLY, F_RDLCK) : opened_log(p);
        p->closed = errno;
    }
}

/* ---- the exchange ---- */

static bool written(const struct target *p)
{
    unlink(p->new_name);        /* what a process that died has left */
    int file = open(p->new_name, O_WRONLY | O_CREAT | O_EXCL | O_CLOEXEC, 0600);

    return file >= 0 && put_all(file, p->is) && made_like(file, &p->as, p->as.st_mode & 07777) &&
           fsync(file) == 0 && close(file) == 0;
}

/* Some network disks cannot sync a folder, and say so. */
static bool synced_folder(const char *path)
{
    char *folder = joined(path, "");

    strrchr(folder, '/')[1] = '\0';
    int file = open(folder, O_RDONLY | O_DIRECTORY | O_CLOEXEC);
    return file >= 0 && (fsync(file) == 0 || errno == EINVAL) && close(file) == 0;
}

static noreturn void given_up(const struct target *p, const char *name)
{
    int why = errno;

    unlink(p->new_name);
    errno = why;
    failed(name);
}

/*
 * No change is ever without its line: the line's words are on the disk before it.  Where
 * they do not all get there they are cut off again.  But once the rename was tried they
 * stay: a network disk may report a failure of what it has done, and the bytes will tell.
 */
void exchange(const struct target *p, const char *by, const char *what)
{
    if (!made_ready(p))
        failed(p->log_name);
    char *line = log_line(by, what);
    off_t length = lseek(p->log, 0, SEEK_END);
    struct stat now;

    if (length < 0 || !written(p))
        given_up(p, p->new_name);
    if (!put_all(p->log, (struct bytes){ (uint8_t *)line, strlen(line) }) || fsync(p->log) != 0 ||
        (length == 0 && !synced_folder(p->path)) || !is_there(p->log, p->log_name)) {
        int why = errno;
        errno = ftruncate(p->log, length) == 0 ? why : errno;
        given_up(p, p->log_name);
    }
    if (rename(p->new_name, p->path) != 0)
        given_up(p, p->path);
    if (!synced_folder(p->path))
        wrong("%s: changed, but its folder is not synced: %s", p->path, strerror(errno));
    bool kept = stat(p->path, &now) != 0 || now.st_uid == p->as.st_uid;
    put_all(p->log, (struct bytes){ (uint8_t *)"\n", 1 });      /* else the next change does */
    close(p->log);
    if (!kept)
        fprintf(stderr, "mpt: note: the file is yours now: its owner could not be kept\n");
}

/* What was done is done, whether or not it can be told. */
int told_of(const struct target *p)
{
    if (fflush(stdout) != 0)
        wrong("%s: changed, but standard output failed: %s", p->path, strerror(errno));
    return ANSWER;
}
