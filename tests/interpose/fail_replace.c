/* Comes between a program and the C library's calls that replace a file. It adds a letter for each to the file REPLACE_LOG: o for an open, c for one
   that makes a file, l for flock, w for a write to a file, h for fchown, m for fchmod, y for fsync of a file and Y of a folder, n for rename, and u
   for unlink. A rename to the name REPLACE_BUSY fails with EBUSY, as where something is mounted. The call of the number in REPLACE_FAIL, from 1 on,
   isn't made and fails with the error REPLACE_ERROR, or EIO; so do all from the number in REPLACE_FROM on. The process ends before the call of the
   number in REPLACE_END. Before the call of the number in REPLACE_SWAP another program comes: it renames REPLACE_SWAP_BY to REPLACE_SWAP_TO. The
   write of the number in REPLACE_PART is made for half of its bytes. Writes to files take REPLACE_ROOM bytes in all, and then ENOSPC. To be loaded
   ahead of the C library, with LD_PRELOAD. */
#define _GNU_SOURCE
#include <dlfcn.h>
#include <errno.h>
#include <fcntl.h>
#include <signal.h>
#include <stdarg.h>
#include <stdio.h>
#include <stdlib.h>
#include <string.h>
#include <sys/stat.h>
#include <unistd.h>

#define NEXT(name) ((__typeof__(&name))dlsym(RTLD_NEXT, #name))

static long number_of(const char *name, long otherwise)
{
    const char *text = getenv(name);
    return text == NULL ? otherwise : atol(text);
}

/* The calls so far. */
static long calls;

/* Logs a call, and returns whether it fails. */
static int fails(char letter)
{
    static int log = -1;
    const char *path = getenv("REPLACE_LOG");
    if (path == NULL)
        return 0;
    if (log < 0)
        log = NEXT(open)(path, O_WRONLY | O_CREAT | O_APPEND | O_CLOEXEC, 0600);
    if (log < 0 || NEXT(write)(log, &letter, 1) != 1)
        abort();
    calls++;
    if (calls == number_of("REPLACE_END", 0))
        kill(getpid(), SIGKILL);
    if (calls == number_of("REPLACE_SWAP", 0) && NEXT(rename)(getenv("REPLACE_SWAP_BY"), getenv("REPLACE_SWAP_TO")) != 0)
        abort();
    long from = number_of("REPLACE_FROM", 0);
    if (calls != number_of("REPLACE_FAIL", 0) && (from == 0 || calls < from))
        return 0;
    errno = (int)number_of("REPLACE_ERROR", EIO);
    return 1;
}

/* The mode that follows the flags of an open, if it makes a file. */
#define MODE_OF(mode, flags) \
    mode_t mode = 0; \
    if ((flags) & O_CREAT) { \
        va_list rest; \
        va_start(rest, flags); \
        mode = va_arg(rest, mode_t); \
        va_end(rest); \
    }

int open(const char *path, int flags, ...)
{
    MODE_OF(mode, flags)
    return fails(flags & O_CREAT ? 'c' : 'o') ? -1 : NEXT(open)(path, flags, mode);
}

int openat(int folder, const char *path, int flags, ...)
{
    MODE_OF(mode, flags)
    return fails(flags & O_CREAT ? 'c' : 'o') ? -1 : NEXT(openat)(folder, path, flags, mode);
}

int flock(int file, int how)
{
    return fails('l') ? -1 : NEXT(flock)(file, how);
}

/* How many of these bytes a write to a file takes, or -1. */
static ssize_t taken(size_t count)
{
    static long room = -1;
    if (room < 0)
        room = number_of("REPLACE_ROOM", 0x7fffffff);
    if (calls == number_of("REPLACE_PART", 0))
        count = (count + 1) / 2;
    if (room == 0 && count > 0) {
        errno = ENOSPC;
        return -1;
    }
    if ((long)count > room)
        count = (size_t)room;
    room -= (long)count;
    return (ssize_t)count;
}

ssize_t write(int file, const void *bytes, size_t count)
{
    if (file <= STDERR_FILENO)
        return NEXT(write)(file, bytes, count);
    if (fails('w'))
        return -1;
    ssize_t most = taken(count);
    return most < 0 ? -1 : NEXT(write)(file, bytes, (size_t)most);
}

int fchown(int file, uid_t user, gid_t group)
{
    return fails('h') ? -1 : NEXT(fchown)(file, user, group);
}

int fchmod(int file, mode_t mode)
{
    return fails('m') ? -1 : NEXT(fchmod)(file, mode);
}

int fsync(int file)
{
    struct stat what;
    int is_folder = fstat(file, &what) == 0 && S_ISDIR(what.st_mode);
    return fails(is_folder ? 'Y' : 'y') ? -1 : NEXT(fsync)(file);
}

int rename(const char *from, const char *to)
{
    const char *busy = getenv("REPLACE_BUSY");
    if (fails('n'))
        return -1;
    if (busy != NULL && strcmp(to, busy) == 0) {
        errno = EBUSY;
        return -1;
    }
    return NEXT(rename)(from, to);
}

int unlink(const char *path)
{
    return fails('u') ? -1 : NEXT(unlink)(path);
}
