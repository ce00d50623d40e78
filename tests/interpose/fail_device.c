/* Comes between a program and the C library's calls on open files. It adds a letter for each to the file DEVICE_LOG: s for statx, r for
   pread, w for pwrite, c for ftruncate, y for fsync; capital ones for the calls on the file DEVICE_JOURNAL. The call of the number in DEVICE_FAIL,
   from 1 on, isn't made and fails with EIO; that of the number in DEVICE_SHORT, a read or a write, is made for half of its bytes; before that of
   the number in DEVICE_CUT the file is cut to DEVICE_LENGTH bytes. With DEVICE_READ_ONLY no file can be opened to be written. To be loaded ahead of the C library, with LD_PRELOAD. */
#define _GNU_SOURCE
#include <ctype.h>
#include <dlfcn.h>
#include <errno.h>
#include <fcntl.h>
#include <stdarg.h>
#include <stdlib.h>
#include <string.h>
#include <sys/stat.h>
#include <unistd.h>

static int (*next_cut)(int, off_t);

static long number_of(const char *name)
{
    const char *text = getenv(name);
    return text == NULL ? 0 : atol(text);
}

/* Whether this open file is the journal. */
static int is_journal(int file)
{
    struct stat open_file, journal;
    const char *path = getenv("DEVICE_JOURNAL");
    return path != NULL && fstat(file, &open_file) == 0 && stat(path, &journal) == 0 && open_file.st_ino == journal.st_ino;
}

/* The calls so far. */
static long calls;

/* Logs a call on a file, and returns whether it fails. */
static int fails(int file, char letter)
{
    static int log = -1;
    const char *path = getenv("DEVICE_LOG");
    if (log < 0 && path != NULL)
        log = open(path, O_WRONLY | O_CREAT | O_APPEND | O_CLOEXEC, 0600);
    if (is_journal(file))
        letter = (char)toupper(letter);
    if (log < 0 || write(log, &letter, 1) != 1)
        abort();
    calls++;
    if (calls == number_of("DEVICE_CUT")) {
        if (next_cut == NULL)
            next_cut = (int (*)(int, off_t))dlsym(RTLD_NEXT, "ftruncate");
        next_cut(file, number_of("DEVICE_LENGTH"));
    }
    if (calls != number_of("DEVICE_FAIL"))
        return 0;
    errno = EIO;
    return 1;
}

/* How many bytes the call that was logged last reads or writes, of these that are asked for. */
static size_t taken(size_t count)
{
    return calls == number_of("DEVICE_SHORT") ? (count + 1) / 2 : count;
}

int open(const char *path, int flags, ...)
{
    static int (*next)(const char *, int, ...);
    const char *log = getenv("DEVICE_LOG");
    va_list others;
    mode_t mode;
    if (next == NULL)
        next = (int (*)(const char *, int, ...))dlsym(RTLD_NEXT, "open");
    va_start(others, flags);
    mode = flags & O_CREAT ? va_arg(others, mode_t) : 0;
    va_end(others);
    if ((flags & O_ACCMODE) != O_RDONLY && getenv("DEVICE_READ_ONLY") != NULL && (log == NULL || strcmp(path, log) != 0)) {
        errno = EACCES;
        return -1;
    }
    return next(path, flags, mode);
}

int statx(int file, const char *restrict path, int flags, unsigned int mask, struct statx *restrict buffer)
{
    static int (*next)(int, const char *restrict, int, unsigned int, struct statx *restrict);
    if (next == NULL)
        next = (int (*)(int, const char *restrict, int, unsigned int, struct statx *restrict))dlsym(RTLD_NEXT, "statx");
    /* with a path it isn't asked of an open file */
    if (path != NULL && path[0] != '\0')
        return next(file, path, flags, mask, buffer);
    return fails(file, 's') ? -1 : next(file, path, flags, mask, buffer);
}

ssize_t pread(int file, void *buffer, size_t count, off_t at)
{
    static ssize_t (*next)(int, void *, size_t, off_t);
    if (next == NULL)
        next = (ssize_t (*)(int, void *, size_t, off_t))dlsym(RTLD_NEXT, "pread");
    return fails(file, 'r') ? -1 : next(file, buffer, taken(count), at);
}

ssize_t pwrite(int file, const void *buffer, size_t count, off_t at)
{
    static ssize_t (*next)(int, const void *, size_t, off_t);
    if (next == NULL)
        next = (ssize_t (*)(int, const void *, size_t, off_t))dlsym(RTLD_NEXT, "pwrite");
    return fails(file, 'w') ? -1 : next(file, buffer, taken(count), at);
}

int ftruncate(int file, off_t length)
{
    if (next_cut == NULL)
        next_cut = (int (*)(int, off_t))dlsym(RTLD_NEXT, "ftruncate");
    return fails(file, 'c') ? -1 : next_cut(file, length);
}

int fsync(int file)
{
    static int (*next)(int);
    if (next == NULL)
        next = (int (*)(int))dlsym(RTLD_NEXT, "fsync");
    return fails(file, 'y') ? -1 : next(file);
}
