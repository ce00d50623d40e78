/* Some of the bytes of resources, read from their forks and written there, and other sizes, by arrays of what each resource has in its
 * fork and in memory (Inside Macintosh: More Macintosh Toolbox, chapter 1, "Reading and Writing Partial Resources"). It compares what C
 * gets, and forks that are opened once more, with these, prints a line for each that differs, and ends with status 1 then. */
#include "checks.h"
#include "macheap_fork.h"
#include "resman.h"

#include <string.h>

enum { BASE = 0x100000, SIZE = 0x40000, FORK = 0x10000, TEXT = 0x54455854, COUNT = 20, MOST = 300, CALLS = 20000, CHANGED = 2 };
/* the most bytes that a fork has: 4 MB */
enum { MOST_OF_FORK = 0x400000 };

static MhZone zone = MH_NO_ZONE;
static MrFiles files = MR_NO_FILES;
static uint8_t fork[FORK], data[COUNT * MOST], before[SIZE], after[SIZE];
static MfRow rows[COUNT];
/* A resource 'TEXT' of this id: its handle, whether that has a block, whether it is to be written, what it has in its fork, and what it
 * has in memory. */
typedef struct Has {
    int16_t id;
    uint32_t handle, size, here_size;
    bool in_memory, changed;
    uint8_t bytes[MOST], here[MOST];
} Has;

static Has all[COUNT];
static size_t count;

/* Opens a file on a fork of resources with these bytes, and gets each, empty. */
static void open_it(void) {
    static const MfExtra extra;
    size_t length = 0, whole = 0;
    uint32_t file = 0;
    memset(rows, 0, sizeof rows);
    for (size_t n = 0; n < count; n++) {
        memcpy(rows[n].kind, "TEXT", 4);
        rows[n].id = all[n].id;
        rows[n].data_length = all[n].size;
        memcpy(data + whole, all[n].bytes, all[n].size);
        whole += all[n].size;
    }
    IS(mf_written_length(rows, count, data, 0, data, whole, &extra, &length), MF_NO_ERR);
    IS(length <= FORK, true);
    IS(mf_write(rows, count, data, 0, data, whole, &extra, fork, length), MF_NO_ERR);
    IS(mr_open(&files, &zone, fork, length, &file), MH_NO_ERR);
    IS(file, 1);
    IS(mr_set_res_load(&files, &zone, 0), MH_NO_ERR);
    for (size_t n = 0; n < count; n++) {
        IS(mr_get_resource(&files, &zone, TEXT, all[n].id, &all[n].handle), MH_NO_ERR);
        all[n].in_memory = false;
        all[n].changed = false;
    }
    IS(mr_set_res_load(&files, &zone, 1), MH_NO_ERR);
}

/* Reads so many bytes from an offset on into the middle of others, which stay, as all do where none are read. */
static void reads(int line, const Has *it, uint32_t offset, uint32_t length) {
    uint8_t bytes[MOST + 20], wanted[MOST + 20];
    bool there = (uint64_t)offset + length <= it->size;
    for (size_t n = 0; n < sizeof bytes; n++) bytes[n] = (uint8_t)below(256);
    memcpy(wanted, bytes, sizeof bytes);
    if (there) memcpy(wanted + 10, it->bytes + offset, length);
    MhErr code = mr_read_partial_resource(&files, &zone, it->handle, offset, bytes + 10, length);
    same(line, "the code", code, there ? (it->in_memory ? MR_RESOURCE_IN_MEMORY : MH_NO_ERR) : MR_INPUT_OUT_OF_BOUNDS);
    same(line, "the bytes", memcmp(bytes, wanted, sizeof bytes), 0);
}
#define READS(it, offset, length) reads(__LINE__, it, offset, length)

/* The zone as it is now. */
static void keeps_zone(uint8_t *bytes) { IS(mh_image(&zone, bytes, SIZE), MH_NO_ERR); }

/* Sets how many bytes it has in its fork: the first of those that it had, and then zeros. */
static void sizes(int line, Has *it, uint32_t size) {
    same(line, "the code", mr_set_resource_size(&files, &zone, it->handle, size), MH_NO_ERR);
    if (size > it->size) memset(it->bytes + it->size, 0, size - it->size);
    it->size = size;
}
#define SIZES(it, size) sizes(__LINE__, it, size)

/* Writes so many bytes over those that it has in its fork, from an offset on, where these begin at its end or before. */
static void writes(int line, Has *it, uint32_t offset, const uint8_t *bytes, uint32_t length) {
    bool there = offset <= it->size;
    MhErr code = mr_write_partial_resource(&files, &zone, it->handle, offset, bytes, length);
    same(line, "the code", code, there ? (it->in_memory ? MR_RESOURCE_IN_MEMORY : MH_NO_ERR) : MR_INPUT_OUT_OF_BOUNDS);
    if (!there) return;
    memcpy(it->bytes + offset, bytes, length);
    if (offset + length > it->size) it->size = offset + length;
}
#define WRITES(it, offset, bytes, length) writes(__LINE__, it, offset, (const uint8_t *)(bytes), length)

/* How many bytes the fork has, and these. */
static size_t takes_fork(void) {
    size_t length = 0;
    IS(mr_fork_size(&files, 1, &length), MH_NO_ERR);
    IS(length <= FORK, true);
    IS(mr_fork(&files, 1, fork, length), MH_NO_ERR);
    return length;
}

/* The fork is opened once more, by other files and over another zone. Each resource has there what it has here in its fork. Whether it is
 * marked as changed stays here, and isn't said there. */
static void reopens(int line) {
    MhZone other = MH_NO_ZONE;
    MrFiles copy = MR_NO_FILES;
    uint32_t file = 0, number = 0;
    size_t length = takes_fork();
    IS(mh_make_zone(&other, BASE, SIZE, SIZE, 24), MH_NO_ERR);
    IS(mr_begin(&copy), MH_NO_ERR);
    IS(mr_open(&copy, &other, fork, length, &file), MH_NO_ERR);
    IS(mr_count1_resources(&copy, &other, TEXT, &number), MH_NO_ERR);
    same(line, "how many resources the fork has", number, count);
    for (size_t n = 0; n < count; n++) {
        uint8_t bytes[MOST] = {0};
        uint32_t handle = 0;
        IS(mr_get1_resource(&copy, &other, TEXT, all[n].id, &handle), MH_NO_ERR);
        IS(mh_get_handle_size(&other, handle, &number), MH_NO_ERR);
        same(line, "the size in the fork", number, all[n].size);
        if (number != all[n].size) continue;
        IS(mh_peek(&other, handle, 0, bytes, number), MH_NO_ERR);
        same(line, "the bytes in the fork", memcmp(bytes, all[n].bytes, number), 0);
        IS(mr_get_res_attrs(&copy, &other, handle, &number), MH_NO_ERR);
        same(line, "the mark in the fork", number & CHANGED, 0);
        IS(mr_size_resource(&files, &zone, all[n].handle, &number), MH_NO_ERR);
        same(line, "the size here", number, all[n].size);
        IS(mr_get_res_attrs(&files, &zone, all[n].handle, &number), MH_NO_ERR);
        same(line, "the mark here", (number & CHANGED) != 0, all[n].changed);
    }
    IS(mr_end(&copy), MH_NO_ERR);
    IS(mh_end_zone(&other), MH_NO_ERR);
}
#define REOPENS() reopens(__LINE__)

/* What is refused, and changes nothing, where the files have so many resources: handles of none, and what no fork can hold. */
static void refuses(void) {
    static uint8_t large[MOST_OF_FORK];
    uint32_t handle = 0, size = all[0].size;
    size_t length = takes_fork(), now = 0;
    uint32_t room = (uint32_t)(MOST_OF_FORK - length) + size;
    IS(mh_new_handle(&zone, 4, &handle), MH_NO_ERR);
    keeps_zone(before);
    IS(mr_set_resource_size(&files, &zone, 12345, 4), MR_RES_NOT_FOUND);
    IS(mr_set_resource_size(&files, &zone, handle, 4), MR_RES_NOT_FOUND);
    IS(mr_write_partial_resource(&files, &zone, 12345, 0, large, 4), MR_RES_NOT_FOUND);
    IS(mr_write_partial_resource(&files, &zone, handle, 0, large, 4), MR_RES_NOT_FOUND);
    IS(mr_write_partial_resource(&files, &zone, handle, UINT32_MAX, large, 4), MR_RES_NOT_FOUND);
    IS(mr_set_resource_size(&files, &zone, all[0].handle, room + 1), MR_DSK_FUL_ERR);
    IS(mr_set_resource_size(&files, &zone, all[0].handle, MOST_OF_FORK), MR_DSK_FUL_ERR);
    IS(mr_set_resource_size(&files, &zone, all[0].handle, UINT32_MAX), MR_DSK_FUL_ERR);
    IS(mr_write_partial_resource(&files, &zone, all[0].handle, 0, large, room + 1), MR_DSK_FUL_ERR);
    IS(mr_write_partial_resource(&files, &zone, all[0].handle, size, large, MOST_OF_FORK), MR_DSK_FUL_ERR);
    IS(mr_write_partial_resource(&files, &zone, all[0].handle, size + 1, large, MOST_OF_FORK), MR_INPUT_OUT_OF_BOUNDS);
    REOPENS();
    /* a fork of 4 MB, and back */
    IS(mr_set_resource_size(&files, &zone, all[0].handle, room), MH_NO_ERR);
    IS(mr_fork_size(&files, 1, &now), MH_NO_ERR);
    IS(now, MOST_OF_FORK);
    IS(mr_write_partial_resource(&files, &zone, all[0].handle, room, large, 1), MR_DSK_FUL_ERR);
    IS(mr_set_resource_size(&files, &zone, all[0].handle, size), MH_NO_ERR);
    keeps_zone(after);
    IS(memcmp(before, after, SIZE), 0);
    REOPENS();
    IS(mh_dispose_handle(&zone, handle), MH_NO_ERR);
}

/* Where there are no files, or none is open. */
static void without_a_file(MhErr code) {
    uint8_t bytes[4] = {9, 9, 9, 9};
    IS(mr_read_partial_resource(&files, &zone, 0, 0, bytes, 4), code);
    IS(mr_write_partial_resource(&files, &zone, 0, 0, bytes, 4), code);
    IS(mr_set_resource_size(&files, &zone, 0, 4), code);
    IS(memcmp(bytes, "\x09\x09\x09\x09", 4), 0);
}

static void patched_by_hand(void) {
    static const Has text = {.id = 128, .size = 10, .bytes = "0123456789"}, none = {.id = 129};
    uint32_t handle = 0;
    all[0] = text;
    all[1] = none;
    count = 2;
    open_it();
    keeps_zone(before);
    WRITES(&all[0], 3, "abc", 3);
    IS(memcmp(all[0].bytes, "012abc6789", 10), 0);
    WRITES(&all[0], 8, "xyz", 3);
    WRITES(&all[0], 11, "!", 1);
    IS(memcmp(all[0].bytes, "012abc67xyz!", 12), 0);
    READS(&all[0], 0, 12);
    REOPENS();
    WRITES(&all[0], 13, "?", 1);
    WRITES(&all[0], UINT32_MAX, "?", 1);
    WRITES(&all[0], 12, "", 0);
    WRITES(&all[0], 0, "", 0);
    WRITES(&all[0], 13, "", 0);
    WRITES(&all[1], 1, "a", 1);
    WRITES(&all[1], 0, "a", 1);
    REOPENS();
    SIZES(&all[0], 5);
    SIZES(&all[0], 7);
    IS(memcmp(all[0].bytes, "012ab\0\0", 7), 0);
    READS(&all[0], 0, 7);
    READS(&all[0], 0, 8);
    REOPENS();
    SIZES(&all[0], 0);
    SIZES(&all[1], 1);
    READS(&all[0], 0, 1);
    REOPENS();
    WRITES(&all[0], 0, "0123456789", 10);
    /* the handles are as they were, and have no blocks */
    keeps_zone(after);
    IS(memcmp(before, after, SIZE), 0);
    /* in memory it has its own bytes, and keeps its mark; they are written by an update */
    IS(mr_load_resource(&files, &zone, all[0].handle), MH_NO_ERR);
    all[0].in_memory = true;
    IS(mh_poke(&zone, all[0].handle, 0, (const uint8_t *)"abcdefghij", 10), MH_NO_ERR);
    IS(mr_changed_resource(&files, &zone, all[0].handle), MH_NO_ERR);
    all[0].changed = true;
    keeps_zone(before);
    WRITES(&all[0], 8, "XYZ", 3);
    SIZES(&all[0], 12);
    IS(memcmp(all[0].bytes, "01234567XYZ\0", 12), 0);
    keeps_zone(after);
    IS(memcmp(before, after, SIZE), 0);
    REOPENS();
    IS(mr_update_res_file(&files, &zone, 1), MH_NO_ERR);
    all[0].size = 10;
    all[0].changed = false;
    memcpy(all[0].bytes, "abcdefghij", 10);
    REOPENS();
    /* one that was added has no bytes in its fork before an update, but is in the fork then */
    IS(mh_new_handle(&zone, 4, &handle), MH_NO_ERR);
    IS(mh_poke(&zone, handle, 0, (const uint8_t *)"wxyz", 4), MH_NO_ERR);
    IS(mr_add_resource(&files, &zone, handle, TEXT, 130, data, 0), MH_NO_ERR);
    all[2] = (Has){.id = 130, .handle = handle, .in_memory = true, .changed = true};
    count = 3;
    WRITES(&all[2], 1, "a", 1);
    WRITES(&all[2], 0, "ab", 2);
    REOPENS();
    SIZES(&all[2], 3);
    REOPENS();
    IS(mr_write_resource(&files, &zone, handle), MH_NO_ERR);
    all[2].changed = false;
    all[2].size = 4;
    memcpy(all[2].bytes, "wxyz", 4);
    REOPENS();
    refuses();
    IS(mr_close_res_file(&files, &zone, 1), MH_NO_ERR);
    without_a_file(MR_RES_F_NOT_FOUND);
}

static void by_hand(void) {
    static const Has text = {.id = 128, .size = 10, .bytes = "0123456789"}, none = {.id = 129};
    uint8_t bytes[4] = {9, 9, 9, 9};
    uint32_t handle = 0, size = 0;
    without_a_file(MH_NOT_THERE);
    IS(mr_begin(&files), MH_NO_ERR);
    without_a_file(MR_RES_F_NOT_FOUND);
    all[0] = text;
    all[1] = none;
    count = 2;
    open_it();
    READS(&all[0], 0, 10);
    READS(&all[0], 3, 4);
    READS(&all[0], 9, 1);
    READS(&all[0], 10, 0);
    READS(&all[0], 11, 0);
    READS(&all[0], 0, 11);
    READS(&all[0], 7, 4);
    READS(&all[0], UINT32_MAX, 1);
    READS(&all[0], UINT32_MAX - 2, 4);
    READS(&all[1], 0, 0);
    READS(&all[1], 0, 1);
    /* the handles are as they were */
    IS(mh_get_handle_size(&zone, all[0].handle, &size), MH_NIL_HANDLE_ERR);
    IS(mr_read_partial_resource(&files, &zone, 12345, 0, bytes, 4), MR_RES_NOT_FOUND);
    IS(mh_new_handle(&zone, 4, &handle), MH_NO_ERR);
    IS(mr_read_partial_resource(&files, &zone, handle, 0, bytes, 4), MR_RES_NOT_FOUND);
    IS(memcmp(bytes, "\x09\x09\x09\x09", 4), 0);
    /* in memory it has other bytes, and is longer; the fork has them after an update */
    IS(mr_load_resource(&files, &zone, all[0].handle), MH_NO_ERR);
    all[0].in_memory = true;
    READS(&all[0], 0, 10);
    IS(mh_set_handle_size(&zone, all[0].handle, 12), MH_NO_ERR);
    IS(mh_poke(&zone, all[0].handle, 0, (const uint8_t *)"abcdefghijkl", 12), MH_NO_ERR);
    READS(&all[0], 0, 10);
    READS(&all[0], 8, 4);
    IS(mr_changed_resource(&files, &zone, all[0].handle), MH_NO_ERR);
    READS(&all[0], 2, 8);
    IS(mr_update_res_file(&files, &zone, 1), MH_NO_ERR);
    all[0].size = 12;
    memcpy(all[0].bytes, "abcdefghijkl", 12);
    READS(&all[0], 0, 12);
    READS(&all[0], 8, 5);
    /* one that was added has no bytes before an update */
    IS(mh_poke(&zone, handle, 0, (const uint8_t *)"wxyz", 4), MH_NO_ERR);
    IS(mr_add_resource(&files, &zone, handle, TEXT, 130, data, 0), MH_NO_ERR);
    all[2] = (Has){.id = 130, .handle = handle, .in_memory = true};
    READS(&all[2], 0, 0);
    READS(&all[2], 0, 1);
    IS(mr_write_resource(&files, &zone, handle), MH_NO_ERR);
    all[2].size = 4;
    memcpy(all[2].bytes, "wxyz", 4);
    READS(&all[2], 1, 3);
    IS(mh_empty_handle(&zone, handle), MH_NO_ERR);
    all[2].in_memory = false;
    READS(&all[2], 0, 4);
    IS(mr_release_resource(&files, &zone, all[0].handle), MH_NO_ERR);
    IS(mr_read_partial_resource(&files, &zone, all[0].handle, 0, bytes, 4), MR_RES_NOT_FOUND);
    IS(mr_close_res_file(&files, &zone, 1), MH_NO_ERR);
    IS(mr_read_partial_resource(&files, &zone, handle, 0, bytes, 4), MR_RES_F_NOT_FOUND);
}

static void some_bytes(uint8_t *bytes, uint32_t size) {
    for (uint32_t n = 0; n < size; n++) bytes[n] = (uint8_t)below(256);
}

/* The file is written: each resource that was changed has in its fork what it has in memory. */
static void update(void) {
    IS(mr_update_res_file(&files, &zone, 1), MH_NO_ERR);
    for (size_t n = 0; n < count; n++) {
        if (!all[n].changed) continue;
        all[n].changed = false;
        all[n].size = all[n].here_size;
        memcpy(all[n].bytes, all[n].here, all[n].here_size);
    }
}

static void load(Has *it) {
    IS(mr_load_resource(&files, &zone, it->handle), MH_NO_ERR);
    if (it->in_memory) return;
    it->in_memory = true;
    it->here_size = it->size;
    memcpy(it->here, it->bytes, it->size);
}

/* Another size and other bytes in memory, of one that is there. */
static void edit(Has *it) {
    if (!it->in_memory) return;
    it->here_size = below(MOST + 1);
    some_bytes(it->here, it->here_size);
    IS(mh_set_handle_size(&zone, it->handle, it->here_size), MH_NO_ERR);
    IS(mh_poke(&zone, it->handle, 0, it->here, it->here_size), MH_NO_ERR);
    if (!below(2)) return;
    IS(mr_changed_resource(&files, &zone, it->handle), MH_NO_ERR);
    it->changed = true;
}

static void drop(Has *it) {
    if (it->changed) return;
    IS(mh_empty_handle(&zone, it->handle), MH_NO_ERR);
    it->in_memory = false;
}

/* Other bytes in its fork, some of them from an offset above its end. */
static void patch(Has *it) {
    uint8_t bytes[MOST];
    uint32_t offset = below(4) ? below(it->size + 1) : below(MOST + 1);
    uint32_t length = below(MOST + 1 - offset);
    some_bytes(bytes, length);
    WRITES(it, offset, bytes, length);
}

static void by_chance(void) {
    count = COUNT;
    for (size_t n = 0; n < count; n++) {
        all[n].id = (int16_t)(n * 3);
        all[n].size = below(4) ? below(MOST + 1) : 0;
        some_bytes(all[n].bytes, all[n].size);
    }
    open_it();
    for (int call = 0; call < CALLS; call++) {
        Has *it = &all[below(COUNT)];
        switch (below(20)) {
        case 0: update(); break;
        case 1: load(it); break;
        case 2: edit(it); break;
        case 3: drop(it); break;
        case 4: patch(it); break;
        case 5: SIZES(it, below(4) ? below(MOST + 1) : 0); break;
        case 6:
            if (!below(10)) REOPENS();
            break;
        default: {
            uint32_t offset = below(2) ? below(MOST + 1) : below(it->size + 1);
            READS(it, offset, below(2) || offset > it->size ? below(MOST + 1) : below(it->size - offset + 1));
        }
        }
    }
    REOPENS();
    IS(mr_close_res_file(&files, &zone, 1), MH_NO_ERR);
}

int main(void) {
    IS(mh_make_zone(&zone, BASE, SIZE, SIZE, 32), MH_NO_ERR);
    by_hand();
    patched_by_hand();
    by_chance();
    IS(mr_end(&files), MH_NO_ERR);
    IS(mh_end_zone(&zone), MH_NO_ERR);
    return faults != 0;
}
