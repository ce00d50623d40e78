/* Comes between a program and the C library's read of standard input and write to standard output. Where STREAM_GIVES is set, the input gives that many
   bytes, and each read after them fails with the error STREAM_ERROR, or gives none where that is 0; STREAM_TAKES does the same to the output. With
   STREAM_ONCE only the first of these calls fails, and those after it go on. With STREAM_STEP each call gives or takes that many bytes at most. The
   file STREAM_LOG gets a line for each call: r or w, and how many bytes it wants. To be loaded ahead of the C library, with LD_PRELOAD. */
#define _GNU_SOURCE
#include <dlfcn.h>
#include <errno.h>
#include <fcntl.h>
#include <stdio.h>
#include <stdlib.h>
#include <unistd.h>

static size_t number_of(const char *name, size_t otherwise)
{
    const char *text = getenv(name);
    return text == NULL ? otherwise : (size_t)atol(text);
}

/* Logs a call that wants so many bytes. */
static void log_call(char letter, size_t wanted)
{
    static int log = -1;
    const char *path = getenv("STREAM_LOG");
    if (path == NULL)
        return;
    if (log < 0)
        log = open(path, O_WRONLY | O_CREAT | O_APPEND | O_CLOEXEC, 0600);
    if (log < 0 || dprintf(log, "%c%zu\n", letter, wanted) < 0)
        abort();
}

/* How many of the bytes that a call wants it may have, after those that were done; 0 or -1, with the error, where the limit of this name is reached. */
static ssize_t allowed(const char *limit, size_t done, size_t wanted, int *failed)
{
    size_t step = number_of("STREAM_STEP", wanted);
    size_t count = wanted < step ? wanted : step;
    size_t left = *failed && getenv("STREAM_ONCE") != NULL ? count : number_of(limit, done + count) - done;
    if (left == 0 && count > 0) {
        *failed = 1;
        errno = (int)number_of("STREAM_ERROR", 0);
        return errno == 0 ? 0 : -1;
    }
    return (ssize_t)(count < left ? count : left);
}

ssize_t read(int file, void *buffer, size_t count)
{
    static ssize_t (*next)(int, void *, size_t);
    static size_t given;
    static int failed;
    if (next == NULL)
        next = (ssize_t (*)(int, void *, size_t))dlsym(RTLD_NEXT, "read");
    if (file != STDIN_FILENO)
        return next(file, buffer, count);
    log_call('r', count);
    ssize_t most = allowed("STREAM_GIVES", given, count, &failed);
    ssize_t done = most > 0 ? next(file, buffer, (size_t)most) : most;
    given += done > 0 ? (size_t)done : 0;
    return done;
}

ssize_t write(int file, const void *buffer, size_t count)
{
    static ssize_t (*next)(int, const void *, size_t);
    static size_t taken;
    static int failed;
    if (next == NULL)
        next = (ssize_t (*)(int, const void *, size_t))dlsym(RTLD_NEXT, "write");
    if (file != STDOUT_FILENO)
        return next(file, buffer, count);
    log_call('w', count);
    ssize_t most = allowed("STREAM_TAKES", taken, count, &failed);
    ssize_t done = most > 0 ? next(file, buffer, (size_t)most) : most;
    taken += done > 0 ? (size_t)done : 0;
    return done;
}
