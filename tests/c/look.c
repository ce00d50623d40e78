/* mh_look at the library's own zones: after each of 4,000 random calls, in both modes, it finds what mh_block shows of the zone awake, and
 * no fault; with fewer rows it counts all the same; and it names a block that leaves the zone. It prints a line for each answer that
 * differs from what is expected, and ends with status 1 then. */
#include "checks.h"
#include "macheap.h"

#include <string.h>

enum { BASE = 0x100000, SIZE = 2048, LIMIT = 4096, CALLS = 2000, MOST = 400, HANDLES = 24 };

static uint8_t ram[LIMIT];
static MhBlock blocks[MOST], walked[MOST];

/* How many blocks a walk over a zone awake shows. */
static size_t walk(MhZone *zone) {
    uint32_t at = 0;
    size_t count = 0;
    IS(mh_first_block(zone, &at), MH_NO_ERR);
    while (count < MOST && mh_block(zone, at, &walked[count]) == MH_NO_ERR) at += walked[count++].size;
    return count;
}

/* Compares what is found in the bytes of a zone that sleeps with what a walk showed. */
static void looked(size_t wanted, uint32_t mode) {
    MhWrong wrong = {0, 0, 0, 0};
    size_t count = 0;
    IS(mh_look(ram, LIMIT, BASE, mode, blocks, MOST, &count, &wrong), MH_NO_ERR);
    IS(count, (int64_t)wanted);
    IS(memcmp(blocks, walked, wanted * sizeof *blocks), 0);
    IS(mh_look(ram, LIMIT, BASE, mode, blocks, 1, &count, &wrong), MH_NO_ERR);
    IS(count, (int64_t)wanted);
}

static void random_call(MhZone *zone, uint32_t *handles) {
    uint32_t *handle = &handles[below(HANDLES)], flags = 0;
    if (*handle == 0) {
        mh_new_handle(zone, below(90), handle);
    } else if (mh_hget_state(zone, *handle, &flags) != MH_NO_ERR) {
        if (mh_reallocate_handle(zone, *handle, below(90)) != MH_NO_ERR) {
            mh_dispose_handle(zone, *handle);
            *handle = 0;
        }
    } else {
        switch (below(5)) {
        case 0: mh_set_handle_size(zone, *handle, below(120)); break;
        case 1: mh_hset_state(zone, *handle, below(8) << 5); break;
        case 2: mh_empty_handle(zone, *handle); break;
        case 3: mh_new_ptr(zone, below(20), &flags); break;
        default:
            mh_dispose_handle(zone, *handle);
            *handle = 0;
        }
    }
}

static void mode_looked(uint32_t mode) {
    MhZone zone = MH_NO_ZONE;
    MhAsleep asleep = MH_NO_ASLEEP;
    MhMemory memory = {ram, LIMIT, true};
    uint32_t handles[HANDLES] = {0};
    MhWrong wrong = {0, 0, 0, 0};
    size_t count = 0;
    IS(mh_make_zone_at(&asleep, &memory, BASE, SIZE, LIMIT, mode), MH_NO_ERR);
    for (int i = 0; i < CALLS; i++) {
        IS(mh_wake(&zone, &asleep, &memory), MH_NO_ERR);
        random_call(&zone, handles);
        size_t wanted = walk(&zone);
        IS(mh_sleep(&zone, &asleep, &memory), MH_NO_ERR);
        looked(wanted, mode);
    }
    IS(mh_end_asleep(&asleep), MH_NO_ERR);
    /* the first block's size, in the three bytes after its tag, or in a word */
    ram[mode == 24 ? 53 : 57] = 0x7F;
    IS(mh_look(ram, LIMIT, BASE, mode, blocks, MOST, &count, &wrong), MH_DAMAGED);
    IS(count, 0);
    IS(wrong.problem, MH_LEAVES_ZONE);
    IS(wrong.place, BASE + 52);
}

int main(void) {
    mode_looked(24);
    mode_looked(32);
    printf("%d comparisons, %d differ\n", checks, faults);
    return faults != 0;
}
