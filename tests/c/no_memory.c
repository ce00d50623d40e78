/* Each allocation of mh_make_zone fails in turn: the answer is memFullErr, there is no zone, and nothing is kept. So do those of
 * mh_make_zone_of and mh_attach, which leave their bytes; and those of calls on resource files: nothing has changed then, and the call
 * succeeds once there is memory; and mh_wake and mh_check. It is linked with -Wl,--wrap=malloc. */
#include "macheap.h"
#include "resman.h"

#include <stdio.h>
#include <stdlib.h>

/* so many more allocations succeed, and all where it is below 0 */
static int left = -1;

void *__real_malloc(size_t size);

void *__wrap_malloc(size_t size) {
    if (left == 0) return NULL;
    if (left > 0) left--;
    return __real_malloc(size);
}

enum { TEXT = 0x54455854, MOST = 4096 };

/* It must be so, or the program ends. */
static void must(int at, bool holds) {
    if (holds) return;
    printf("line %d: it isn't so\n", at);
    exit(1);
}
#define MUST(holds) must(__LINE__, holds)

/* A call on resource files. */
typedef MhErr Makes(MrFiles *, MhZone *);

static uint8_t fork[MOST];
static size_t length;
static uint32_t number;

static MhErr begins(MrFiles *files, MhZone *zone) {
    (void)zone;
    return mr_begin(files);
}
static MhErr opens(MrFiles *files, MhZone *zone) { return mr_open(files, zone, fork, length, &number); }
static MhErr adds(MrFiles *files, MhZone *zone) {
    static const uint8_t name[] = "name";
    return mr_add_resource(files, zone, number, TEXT, 128, name, 4);
}
static MhErr updates(MrFiles *files, MhZone *zone) { return mr_update_res_file(files, zone, 1); }
static MhErr sizes(MrFiles *files, MhZone *zone) { return mr_set_resource_size(files, zone, number, 900); }

static uint8_t saved[2 * MOST];
static size_t count_saved;
static MhErr saves(MrFiles *files, MhZone *zone) {
    MhErr code = mr_save_size(files, zone, &count_saved);
    MUST(count_saved <= sizeof saved);
    return code == MH_NO_ERR ? mr_save(files, zone, saved, count_saved) : code;
}
static MhErr loads(MrFiles *files, MhZone *zone) {
    MrFiles again = MR_NO_FILES;
    (void)files;
    MhErr code = mr_load(&again, zone, saved, count_saved);
    MUST(mr_end(&again) == (code == MH_NO_ERR ? MH_NO_ERR : MH_NOT_THERE));
    return code;
}

/* The call with each of its allocations failing in turn, after those before it. */
static void in_turn(Makes *const *before, size_t some, Makes *call) {
    MhErr code = MH_MEM_FULL_ERR;
    bool writes = call == updates || call == sizes;
    int count = 0;
    for (; code == MH_MEM_FULL_ERR && count < 1000; count++) {
        MhZone zone = MH_NO_ZONE;
        MrFiles files = MR_NO_FILES;
        MUST(mh_make_zone(&zone, 0x100000, 4096, 4096, 24) == MH_NO_ERR);
        for (size_t at = 0; at < some; at++) MUST(before[at](&files, &zone) == MH_NO_ERR);
        if (call == adds) MUST(mh_new_handle(&zone, 60, &number) == MH_NO_ERR);
        left = count;
        code = call(&files, &zone);
        left = -1;
        if (code == MH_MEM_FULL_ERR) MUST(call(&files, &zone) == MH_NO_ERR);
        else MUST(code == MH_NO_ERR || (writes && code == MR_IO_ERR));
        if (writes && code == MR_IO_ERR) code = MH_MEM_FULL_ERR;
        if (call == updates && code == MH_NO_ERR) {
            MUST(mr_fork_size(&files, 1, &length) == MH_NO_ERR && length <= MOST);
            MUST(mr_fork(&files, 1, fork, length) == MH_NO_ERR);
        }
        MUST(mr_end(&files) == MH_NO_ERR && mh_end_zone(&zone) == MH_NO_ERR);
    }
    MUST(code == MH_NO_ERR && count > 1);
}

/* A new handle, for the resource that is added. */
static MhErr makes(MrFiles *files, MhZone *zone) {
    (void)files;
    return mh_new_handle(zone, 60, &number);
}

static void files_in_turn(void) {
    Makes *const steps[] = {begins, opens, makes, adds, saves};
    in_turn(steps, 0, begins);
    in_turn(steps, 2, adds);
    in_turn(steps, 4, sizes);
    in_turn(steps, 4, updates);
    in_turn(steps, 1, opens);
    in_turn(steps, 4, saves);
    in_turn(steps, 5, loads);
}

/* Zones made of bytes. */
static void bytes_in_turn(void) {
    static uint8_t image[4096], bytes[4096];
    MhZone zone = MH_NO_ZONE;
    MhErr codes[2] = {MH_MEM_FULL_ERR, MH_MEM_FULL_ERR};
    int count = 0;
    MUST(mh_make_zone(&zone, 0x100000, 4096, 4096, 24) == MH_NO_ERR);
    MUST(mh_image(&zone, image, 4096) == MH_NO_ERR && mh_end_zone(&zone) == MH_NO_ERR);
    for (; (codes[0] || codes[1]) && count < 1000; count++) {
        MhAsleep asleep = MH_NO_ASLEEP;
        MhMemory memory = {bytes, 4096, true};
        for (int at = 0; at < 4096; at++) bytes[at] = image[at];
        left = count;
        codes[0] = mh_make_zone_of(&zone, 0x100000, 4096, 4096, 24, image, 4096);
        left = count;
        codes[1] = mh_attach(&asleep, &memory, 0x100000, 4096, 4096, 24);
        left = -1;
        MUST(mh_end_zone(&zone) == (codes[0] ? MH_NOT_THERE : MH_NO_ERR));
        MUST(mh_end_asleep(&asleep) == (codes[1] ? MH_NOT_THERE : MH_NO_ERR));
        for (int n = 0; n < 2; n++) MUST(codes[n] == MH_NO_ERR || codes[n] == MH_MEM_FULL_ERR);
        MUST(memory.start == bytes && memory.here);
        for (int at = 0; at < 4096; at++) MUST(bytes[at] == image[at]);
    }
    MUST(count > 2 && count < 1000);
}

/* A zone wakes without memory of the host. Where a guest set flags in an empty handle's master pointer it takes some: else nothing has
 * changed. */
static void nil_flags(void) {
    static uint8_t ram[4096];
    MhZone zone = MH_NO_ZONE;
    MhAsleep asleep = MH_NO_ASLEEP;
    MhMemory memory = {ram, 4096, true};
    MhFault fault = {7, 7};
    uint32_t handle = 0;
    MUST(mh_make_zone_at(&asleep, &memory, 0x100000, 4096, 4096, 24) == MH_NO_ERR && mh_wake(&zone, &asleep, &memory) == MH_NO_ERR);
    MUST(mh_new_empty_handle(&zone, &handle) == MH_NO_ERR && mh_sleep(&zone, &asleep, &memory) == MH_NO_ERR);
    left = 0;
    MUST(mh_check(&asleep, &memory, &fault) == MH_NO_ERR);
    MUST(mh_wake(&zone, &asleep, &memory) == MH_NO_ERR && mh_sleep(&zone, &asleep, &memory) == MH_NO_ERR);
    ram[handle - 0x100000] = MH_LOCK;
    MUST(mh_check(&asleep, &memory, &fault) == MH_MEM_FULL_ERR && fault.offset == 7);
    MUST(mh_wake(&zone, &asleep, &memory) == MH_MEM_FULL_ERR && memory.here && ram[handle - 0x100000] == MH_LOCK);
    left = -1;
    MUST(mh_check(&asleep, &memory, &fault) == MH_NO_ERR && ram[handle - 0x100000] == MH_LOCK);
    MUST(mh_wake(&zone, &asleep, &memory) == MH_NO_ERR && mh_sleep(&zone, &asleep, &memory) == MH_NO_ERR && !ram[handle - 0x100000]);
    MUST(mh_end_asleep(&asleep) == MH_NO_ERR);
}

int main(void) {
    MhErr code = MH_MEM_FULL_ERR;
    int count = 0;
    for (; code == MH_MEM_FULL_ERR && count < 1000; count++) {
        MhZone zone = MH_NO_ZONE;
        left = count;
        code = mh_make_zone(&zone, 0x100000, 4096, 4096, 24);
        left = -1;
        if (mh_end_zone(&zone) != (code == MH_NO_ERR ? MH_NO_ERR : MH_NOT_THERE)) {
            printf("a zone that was refused is there, or one that was made isn't\n");
            return 1;
        }
    }
    if (code != MH_NO_ERR || count < 2) printf("the last code is %d, behind %d trials\n", code, count);
    bytes_in_turn();
    files_in_turn();
    nil_flags();
    return code != MH_NO_ERR || count < 2;
}
