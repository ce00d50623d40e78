/* Comes between a program and the C library's malloc and realloc, and refuses the request of the number in REFUSE_AT, from 1 on.
   Where that request comes, the file REFUSE_TELL is made. To be loaded ahead of the C library, with LD_PRELOAD. */
#define _GNU_SOURCE
#include <dlfcn.h>
#include <errno.h>
#include <fcntl.h>
#include <stdlib.h>
#include <unistd.h>

static int is_refused(void)
{
    static long requests;
    const char *at = getenv("REFUSE_AT");
    const char *tell = getenv("REFUSE_TELL");
    if (at == NULL || tell == NULL || ++requests != atol(at))
        return 0;
    int file = open(tell, O_WRONLY | O_CREAT, 0600);
    if (file >= 0)
        close(file);
    errno = ENOMEM;
    return 1;
}

void *malloc(size_t size)
{
    static void *(*next)(size_t);
    if (next == NULL)
        next = (void *(*)(size_t))dlsym(RTLD_NEXT, "malloc");
    return is_refused() ? NULL : next(size);
}

void *realloc(void *old, size_t size)
{
    static void *(*next)(void *, size_t);
    if (next == NULL)
        next = (void *(*)(void *, size_t))dlsym(RTLD_NEXT, "realloc");
    return is_refused() ? NULL : next(old, size);
}
