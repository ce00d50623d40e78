/* Measures whole calls of the library for C that do little in the zone. It prints the nanoseconds of a call, of each the best of some
 * rounds. The first does nothing but go from C to the Memory Manager and back; status 1 where it takes more than 20. */
#define _POSIX_C_SOURCE 200809L
#include "macheap.h"

#include <stdio.h>
#include <time.h>

enum { ROUNDS = 200, CALLS = 50000 };

static MhZone zone = MH_NO_ZONE;
static uint32_t handle, number;

static MhErr first_block(void) { return mh_first_block(&zone, &number); }
static MhErr free_mem(void) { return mh_free_mem(&zone, &number); }
static MhErr get_handle_size(void) { return mh_get_handle_size(&zone, handle, &number); }
static MhErr hget_state(void) { return mh_hget_state(&zone, handle, &number); }
static MhErr hset_rbit(void) { return mh_hset_rbit(&zone, handle); }
static MhErr deref(void) { return mh_deref(&zone, handle, &number); }

static double now(void) {
    struct timespec time;
    clock_gettime(CLOCK_PROCESS_CPUTIME_ID, &time);
    return time.tv_sec * 1e9 + time.tv_nsec;
}

/* The nanoseconds of a call, or below 0 where one is refused. */
static double measured(MhErr (*call)(void)) {
    double best = 1e9;
    for (int round = 0; round < ROUNDS; round++) {
        int refused = 0;
        double start = now();
        for (int n = 0; n < CALLS; n++) refused |= call() != MH_NO_ERR;
        double taken = (now() - start) / CALLS;
        if (refused) return -1;
        if (taken < best) best = taken;
    }
    return best;
}

int main(void) {
    static const struct {
        const char *name;
        MhErr (*call)(void);
    } calls[] = {
        {"mh_first_block", first_block}, {"mh_free_mem", free_mem}, {"mh_hget_state", hget_state},
        {"mh_get_handle_size", get_handle_size}, {"mh_deref", deref}, {"mh_hset_rbit", hset_rbit},
    };
    int slow = 0;
    if (mh_make_zone(&zone, 0x100000, 65536, 65536, 24) != MH_NO_ERR || mh_new_handle(&zone, 100, &handle) != MH_NO_ERR) return 2;
    for (size_t n = 0; n < sizeof calls / sizeof calls[0]; n++) {
        double taken = measured(calls[n].call);
        printf("%-18s %5.1f ns\n", calls[n].name, taken);
        slow |= taken < 0 || (n == 0 && taken > 20);
    }
    return mh_end_zone(&zone) != MH_NO_ERR || slow;
}
