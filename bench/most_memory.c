/* Runs a program, `most_memory PROGRAM WORD..`, and prints on standard error how many kilobytes of memory it had at most. What a process had
 * before it became another program counts as well, and so a large one can't measure this of a program that it starts itself. */
#include <stdio.h>
#include <sys/resource.h>
#include <sys/wait.h>
#include <unistd.h>

int main(int words, char **word) {
    int status;
    struct rusage used;
    pid_t child = words > 1 ? fork() : -1;
    if (child == 0) {
        execv(word[1], word + 1);
        _exit(127);
    }
    if (child < 0 || wait4(child, &status, 0, &used) < 0) return 1;
    fprintf(stderr, "%ld\n", used.ru_maxrss);
    return WIFEXITED(status) ? WEXITSTATUS(status) : 1;
}
