/* Measures calls on a zone of 64 MB with more and more blocks, up to a million: the mean of each kind, and the longest one. Next, how long
 * it takes to make a zone of 1 MB and of 64 MB, and to make one of 4 MB of its bytes again, with more and more blocks. bench/border.sh builds
 * and runs it. */
#define _POSIX_C_SOURCE 200809L
#include "macheap.h"

#include <stdio.h>
#include <stdlib.h>
#include <time.h>

enum { BASE = 0x100000, LIMIT = 64 << 20, MOST = 1000000, CALLS = 20000, PART = 4 << 20 };

static MhZone zone = MH_NO_ZONE;
static uint32_t handles[MOST], count;
static uint64_t state = 1;

static uint32_t below(uint32_t most) {
    state = state * 6364136223846793005u + 1442695040888963407u;
    return (uint32_t)(state >> 33) % most;
}

static double now(void) {
    struct timespec time;
    clock_gettime(CLOCK_MONOTONIC, &time);
    return time.tv_sec * 1e6 + time.tv_nsec / 1e3;
}

static void told(const char *what, MhErr code) {
    if (code == MH_NO_ERR) return;
    printf("%s is %d\n", what, code);
    exit(1);
}
#define DO(call) told(#call, call)

/* The mean and the longest of some calls, in microseconds. */
typedef struct Taken {
    const char *name;
    double all, longest;
    uint32_t calls;
} Taken;

static void took(Taken *taken, double start) {
    double time = now() - start;
    taken->all += time;
    taken->calls++;
    if (time > taken->longest) taken->longest = time;
}

static Taken taken[] = {{"NewHandle", 0, 0, 0},     {"DisposeHandle", 0, 0, 0}, {"SetHandleSize", 0, 0, 0}, {"HLock", 0, 0, 0},
                        {"HUnlock", 0, 0, 0},       {"HPurge", 0, 0, 0},        {"HNoPurge", 0, 0, 0},      {"GetHandleSize", 0, 0, 0},
                        {"RecoverHandle", 0, 0, 0}, {"MaxBlock", 0, 0, 0},      {"PurgeSpace", 0, 0, 0}};
enum { KINDS = sizeof taken / sizeof *taken };

/* One call of a kind, on one of the handles. Where one goes, a new one is made. */
static void call(int kind) {
    uint32_t *handle = &handles[below(count)], address = 0, number = 0, other = 0;
    DO(mh_deref(&zone, *handle, &address));
    if (kind == 0) DO(mh_dispose_handle(&zone, *handle));
    double start = now();
    switch (kind) {
    case 0: DO(mh_new_handle(&zone, 36, handle)); break;
    case 1: DO(mh_dispose_handle(&zone, *handle)); break;
    case 2: DO(mh_set_handle_size(&zone, *handle, 33 + below(4))); break;
    case 3: DO(mh_hlock(&zone, *handle)); break;
    case 4: DO(mh_hunlock(&zone, *handle)); break;
    case 5: DO(mh_hpurge(&zone, *handle)); break;
    case 6: DO(mh_hno_purge(&zone, *handle)); break;
    case 7: DO(mh_get_handle_size(&zone, *handle, &number)); break;
    case 8: DO(mh_recover_handle(&zone, address, &number)); break;
    case 9: DO(mh_max_block(&zone, &number)); break;
    default: DO(mh_purge_space(&zone, &number, &other));
    }
    took(&taken[kind], start);
    if (kind == 1) DO(mh_new_handle(&zone, 36, handle));
    if (kind == 3) DO(mh_hunlock(&zone, *handle));
    if (kind == 5) DO(mh_hno_purge(&zone, *handle));
}

static void show(uint32_t blocks) {
    printf("%u blocks\n", blocks);
    for (int kind = 0; kind < KINDS; kind++) {
        taken[kind].all = taken[kind].longest = taken[kind].calls = 0;
        for (int n = 0; n < CALLS; n++) call(kind);
        printf("  %-14s %8.2f us, longest %8.0f\n", taken[kind].name, taken[kind].all / taken[kind].calls, taken[kind].longest);
    }
}

/* How long it takes to make a zone of a size. */
static double making(uint32_t size) {
    MhZone made = MH_NO_ZONE;
    double start = now();
    DO(mh_make_zone_large(&made, BASE, size, size, 32));
    double time = now() - start;
    DO(mh_end_zone(&made));
    return time;
}

/* How long it takes to make a zone again of its bytes, which has so many handles. */
static double attaching(uint32_t blocks) {
    static uint8_t ram[PART];
    MhAsleep asleep = MH_NO_ASLEEP;
    MhMemory memory = {ram, PART, true};
    MhZone made = MH_NO_ZONE;
    uint32_t handle = 0;
    DO(mh_make_zone_at(&asleep, &memory, BASE, PART, PART, 32));
    DO(mh_wake(&made, &asleep, &memory));
    for (uint32_t n = 0; n < blocks; n++) DO(mh_new_handle(&made, 20 + below(40), &handle));
    DO(mh_sleep(&made, &asleep, &memory));
    DO(mh_end_asleep(&asleep));
    double start = now();
    DO(mh_attach(&asleep, &memory, BASE, PART, PART, 32));
    double time = now() - start;
    DO(mh_end_asleep(&asleep));
    return time;
}

int main(void) {
    DO(mh_make_zone_large(&zone, BASE, LIMIT, LIMIT, 32));
    for (uint32_t next = 1000; count < MOST; next *= 10) {
        while (count < next && count < MOST) DO(mh_new_handle(&zone, 36, &handles[count++]));
        show(count);
    }
    DO(mh_end_zone(&zone));
    printf("making a zone of 1 MB %.0f us, of 64 MB %.0f\n", making(1 << 20), making(64 << 20));
    for (uint32_t blocks = 500; blocks <= 64000; blocks *= 4) printf("attaching 4 MB with %5u handles %.0f us\n", blocks, attaching(blocks));
    return 0;
}
