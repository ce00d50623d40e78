/* How the tests of the library compare what C gets with what is expected. */
#ifndef CHECKS_H
#define CHECKS_H

#include <inttypes.h>
#include <stdio.h>
#include <stdlib.h>

/* How many comparisons were made, and how many of them differed. */
static int checks, faults;

/* Compares, and prints a line where the two differ. After twenty of these the program ends. */
static void same(int line, const char *what, int64_t is, int64_t wanted) {
    checks++;
    if (is == wanted) return;
    printf("line %d: %s is %" PRId64 ", not %" PRId64 "\n", line, what, is, wanted);
    if (++faults >= 20) exit(1);
}
#define IS(what, wanted) same(__LINE__, #what, (int64_t)(what), (wanted))

/* Where the random numbers are that a test takes. */
static uint64_t seed = 1;

/* The next random number below another. */
static inline uint32_t below(uint32_t most) {
    seed = seed * 6364136223846793005u + 1442695040888963407u;
    return (uint32_t)(seed >> 33) % most;
}

#endif
