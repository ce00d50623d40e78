/* Measures whole traps on a zone in memory of the host: the zone wakes, a call is made, and it sleeps again. It prints the nanoseconds
 * of a trap, the best of some rounds: where all headers are compared, and where the host says that nothing was written, or one page.
 * The handles lie in a row, all of one size, or were resized to sizes of their own, so that free blocks lie among them; then a plain
 * walk over the same headers and master pointers is measured, too. Last comes a compaction, alone and with mh_sleep. */
#define _POSIX_C_SOURCE 200809L
#include "macheap.h"

#include <stdio.h>
#include <time.h>

enum { ROUNDS = 40, TRAPS = 500, BASE = 0x100000, LIMIT = 0xE00000, SMALL = 0x100000, FIRST = 52, MOST = 20000, LARGEST = 8388608 };

static uint8_t ram[LIMIT];
static MhZone zone;
static MhAsleep asleep;
static MhMemory memory;
static uint32_t handles[MOST], count, number, bytes;

static MhErr nothing(void) { return MH_NO_ERR; }
static MhErr get_handle_size(void) { return mh_get_handle_size(&zone, handles[count / 2], &number); }
static MhErr hlock(void) { return mh_hlock(&zone, handles[count / 2]); }
static MhErr hunlock(void) { return mh_hunlock(&zone, handles[count / 2]); }
static MhErr new_handle(void) { return mh_new_handle(&zone, 100, &number); }
static MhErr dispose_handle(void) { return mh_dispose_handle(&zone, number); }

/* The code of waking in which way: 0 compares all headers, 1 none, 2 those in a page. */
static MhErr wake(int way) {
    MhWritten page = {bytes / 2, 4096};
    return way == 0 ? mh_wake(&zone, &asleep, &memory) : mh_wake_written(&zone, &asleep, &memory, &page, (size_t)way - 1);
}

static double now(void) {
    struct timespec time;
    clock_gettime(CLOCK_PROCESS_CPUTIME_ID, &time);
    return time.tv_sec * 1e9 + time.tv_nsec;
}

/* The nanoseconds of a trap, half of them with one call and half with the other, or below 0 where one is refused. */
static double measured(int way, MhErr (*one)(void), MhErr (*other)(void)) {
    double best = 1e12;
    for (int round = 0; round < ROUNDS; round++) {
        int refused = 0;
        double start = now();
        for (int n = 0; n < TRAPS; n++) {
            refused |= wake(way);
            refused |= n % 2 == 0 ? one() : other();
            refused |= mh_sleep(&zone, &asleep, &memory);
        }
        double taken = (now() - start) / TRAPS;
        if (refused) return -1;
        if (taken < best) best = taken;
    }
    return best;
}

/* The number of four bytes in the host's memory. */
static uint32_t word(uint32_t at) { return (uint32_t)ram[at] << 24 | (uint32_t)ram[at + 1] << 16 | (uint32_t)ram[at + 2] << 8 | ram[at + 3]; }

/* How many blocks of handles have a master pointer that leads elsewhere, in a walk over all headers of a zone with 24 bits. */
static uint32_t walked(void) {
    uint32_t wrong = 0;
    for (uint32_t at = FIRST; at < bytes;) {
        uint32_t size = word(at) & 0xFFFFFF;
        if (ram[at] >> 6 == 2) wrong += (word(word(at + 4)) & 0xFFFFFF) != BASE + at + 8;
        if (size == 0) return 1;
        at += size;
    }
    return wrong;
}

/* The nanoseconds of such a walk, or below 0 where it finds something wrong. */
static double measured_walk(void) {
    double best = 1e12;
    for (int round = 0; round < ROUNDS; round++) {
        uint32_t wrong = 0;
        double start = now();
        for (int n = 0; n < TRAPS / 10; n++) wrong |= walked();
        double taken = (now() - start) / (TRAPS / 10);
        if (wrong) return -1;
        if (taken < best) best = taken;
    }
    return best;
}

/* A sleeping zone of this mode with so many handles, each of 300 bytes, or resized to a size of its own below that. */
static int is_made(uint32_t mode, uint32_t most, int resized) {
    bytes = most * 400 < SMALL ? SMALL : LIMIT;
    zone = (MhZone)MH_NO_ZONE, asleep = (MhAsleep)MH_NO_ASLEEP, memory = (MhMemory){ram, bytes, true};
    if (mh_make_zone_at(&asleep, &memory, BASE, bytes, bytes, mode) != MH_NO_ERR || wake(0) != MH_NO_ERR) return 0;
    for (count = 0; count < most; count++)
        if (mh_new_handle(&zone, 300, &handles[count]) != MH_NO_ERR) return 0;
    for (uint32_t n = 0; resized && n < most; n++)
        if (mh_set_handle_size(&zone, handles[n], 16 + n * 7919 % 240) != MH_NO_ERR) return 0;
    return mh_sleep(&zone, &asleep, &memory) == MH_NO_ERR;
}

/* Measures traps in a zone of this mode with so many handles. Status 1 where a call is refused. */
static int measure(uint32_t mode, uint32_t most, int resized) {
    static const struct {
        const char *name;
        MhErr (*one)(void), (*other)(void);
    } calls[] = {{"no call", nothing, nothing},
                 {"GetHandleSize", get_handle_size, get_handle_size},
                 {"HLock, HUnlock", hlock, hunlock},
                 {"NewHandle, DisposeHandle", new_handle, dispose_handle}};
    if (!is_made(mode, most, resized)) return 1;
    int refused = 0;
    printf("mode %u, %u handles%s: all compared, nothing written, a page written\n", (unsigned)mode, (unsigned)count, resized ? " among free blocks" : "");
    for (size_t n = 0; n < sizeof calls / sizeof calls[0]; n++) {
        printf("%-25s", calls[n].name);
        for (int way = 0; way < 3; way++) {
            double taken = measured(way, calls[n].one, calls[n].other);
            printf(" %8.0f ns", taken);
            refused |= taken < 0;
        }
        printf("\n");
    }
    if (mode == 24) {
        double taken = measured_walk();
        printf("%-25s %8.0f ns\n", "a plain walk", taken);
        refused |= taken < 0;
    }
    return refused || mh_end_asleep(&asleep) != MH_NO_ERR;
}

/* Measures the compaction of so many blocks, and what mh_sleep takes after it. */
static int compact(uint32_t mode, uint32_t most) {
    double best = 1e12, slept = 1e12;
    for (int round = 0; round < ROUNDS / 4; round++) {
        if (!is_made(mode, most, 1) || wake(0) != MH_NO_ERR) return 1;
        double start = now();
        if (mh_compact_mem(&zone, LARGEST, &number) != MH_NO_ERR) return 1;
        double done = now();
        if (mh_sleep(&zone, &asleep, &memory) != MH_NO_ERR) return 1;
        double end = now();
        if (done - start < best) best = done - start;
        if (end - done < slept) slept = end - done;
        if (mh_end_asleep(&asleep) != MH_NO_ERR) return 1;
    }
    printf("mode %u, compaction of %u blocks: %8.0f ns, and %8.0f ns for mh_sleep after it\n", (unsigned)mode, (unsigned)most, best, slept);
    return 0;
}

int main(void) {
    return measure(24, 2000, 0) | measure(32, 2000, 0) | measure(24, 20, 0) | measure(24, 2000, 1) | measure(32, 2000, 1) |
           measure(24, 20000, 1) | compact(24, 8000) | compact(32, 8000);
}
