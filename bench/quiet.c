/* Shows how fast a processor runs a loop like that of an update that is too big, in nanoseconds a row: a list of handles is gone
   through, and how many bytes each has is read from a table. What else runs on the other half of the same core shows here, as it does
   in the program; in a chain of additions, each of which waits for the one before, it doesn't. bench/quiet.py builds it. */
#include <stdint.h>
#include <stdio.h>
#include <time.h>

enum { ROWS = 5458, PLACES = 262144, ROUNDS = 4000 };

static struct {
    uint32_t is_changed, handle;
} rows[ROWS];
static uint16_t lengths[PLACES];
static volatile uint32_t base = 1024;

static uint64_t bytes_of_rows(void) {
    uint64_t total = 0;
    for (int i = 0; i < ROWS; i++) {
        uint32_t offset = rows[i].handle - base;
        if (rows[i].is_changed && offset % 4 == 0 && offset / 4 < PLACES && lengths[offset / 4] != 0)
            total += 4 + lengths[offset / 4] - 1;
    }
    return total;
}

int main(void) {
    struct timespec begin, end;
    uint64_t total = 0;
    for (int i = 0; i < ROWS; i++) {
        rows[i].is_changed = 1;
        rows[i].handle = base + 4 * (i * 2503 % ROWS);
        lengths[i] = 9;
    }
    clock_gettime(CLOCK_MONOTONIC, &begin);
    for (int round = 0; round < ROUNDS; round++)
        total += bytes_of_rows();
    clock_gettime(CLOCK_MONOTONIC, &end);
    printf("%.2f\n", ((end.tv_sec - begin.tv_sec) * 1e9 + (end.tv_nsec - begin.tv_nsec)) / ((double)ROUNDS * ROWS));
    return total != 12ull * ROWS * ROUNDS;
}
