/* Runs a program, and says what it took: `measure FD SECONDS BYTES PROGRAM WORD..`. After so many seconds of processor time the program is ended by
   SIGXCPU, or by SIGALRM where it only waits, and it gets no more than so many bytes of memory. The line that is written to the descriptor FD has its
   status as wait gives it, the milliseconds of processor time, and the most kilobytes of memory that it had at once. The kernel counts the memory from
   before the exec too, so what starts the program has to be small, as this is. */
#include <stdio.h>
#include <stdlib.h>
#include <sys/resource.h>
#include <sys/wait.h>
#include <unistd.h>

/* The seconds after which a program that waits is ended, on a machine on which many others are at work. */
#define WAITS 120

static long milliseconds(struct timeval time)
{
    return time.tv_sec * 1000L + time.tv_usec / 1000;
}

static void bound(int what, long long most)
{
    struct rlimit limit = {(rlim_t)most, (rlim_t)most + (what == RLIMIT_CPU)};
    setrlimit(what, &limit);
}

int main(int count, char **words)
{
    struct rusage took;
    int status;
    if (count < 5)
        return 125;
    int line = atoi(words[1]);
    pid_t child = fork();
    if (child == 0) {
        close(line);
        bound(RLIMIT_AS, atoll(words[3]));
        bound(RLIMIT_CPU, atoll(words[2]));
        alarm(WAITS);
        execv(words[4], words + 4);
        _exit(126);
    }
    if (child < 0 || wait4(child, &status, 0, &took) < 0)
        return 125;
    dprintf(line, "%d %ld %ld\n", status, milliseconds(took.ru_utime) + milliseconds(took.ru_stime), took.ru_maxrss);
    return 0;
}
