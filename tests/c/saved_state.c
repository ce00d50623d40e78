/* Save states of a guest with resources. Two programs make the same random calls on two resource files, and one of them pauses now and
 * then: it saves the zone and the files, ends both, and makes them again of the bytes. Each answer is compared with that of the other, and
 * so are zones and forks in the end. Then a saved state is damaged: with each byte changed and cut to each length it is refused, or the
 * files of it are saved as just these bytes; over a zone without the handles, with a handle of two resources, and with bytes outside a
 * fork it is refused. It prints a line for each that differs, and ends with status 1 then. */
#include "checks.h"
#include "macheap_fork.h"
#include "resman.h"

#include <string.h>

enum { BASE = 0x100000, SIZE = 0x20000, LIMIT = 0x40000, MODE = 24, FORK = 0x40000, CALLS = 20000, MOST = 200, KINDS = 3, IDS = 12 };

/* A program: its zone and files. */
typedef struct World {
    MhZone zone;
    MrFiles files;
} World;

static World plain = {MH_NO_ZONE, MR_NO_FILES}, paused = {MH_NO_ZONE, MR_NO_FILES};
static uint8_t fork[FORK], other[FORK], data[KINDS * IDS * MOST], names[KINDS * IDS * 8], image[LIMIT], saved[8 * FORK], again[8 * FORK];
static const uint32_t kinds[KINDS] = {0x54455854, 0x434F4445, 0x53545220};

/* The handles that were given out, live or not. */
static uint32_t handles[CALLS];
static size_t given;
static uint32_t a_handle(void) { return given == 0 || below(40) == 0 ? below(SIZE) + BASE : handles[below((uint32_t)given)]; }

/* A fork of some resources: how many bytes it has. */
static size_t make_fork(void) {
    static const MfExtra extra = {.bytes = {1, 2, 3}, .map_attributes = 128};
    MfRow rows[KINDS * IDS];
    size_t count = 0, whole = 0, called = 0, length = 0;
    memset(rows, 0, sizeof rows);
    for (int kind = 0; kind < KINDS; kind++) {
        for (int id = 0; id < IDS; id += 1 + (int)below(3)) {
            MfRow *row = &rows[count++];
            for (int n = 0; n < 4; n++) row->kind[n] = (uint8_t)(kinds[kind] >> (24 - 8 * n));
            row->id = (int16_t)(id - 2);
            row->attributes = (uint8_t)(below(4) == 0 ? 32 : below(4) == 0 ? 16 : 0);
            row->has_name = below(3) == 0;
            row->name_length = row->has_name ? below(8) : 0;
            row->data_length = below(MOST);
            for (size_t n = 0; n < row->name_length; n++) names[called++] = (uint8_t)('a' + below(26));
            for (size_t n = 0; n < row->data_length; n++) data[whole++] = (uint8_t)below(256);
        }
    }
    IS(mf_written_length(rows, count, names, called, data, whole, &extra, &length), MF_NO_ERR);
    IS(length <= FORK, true);
    IS(mf_write(rows, count, names, called, data, whole, &extra, fork, length), MF_NO_ERR);
    return length;
}

/* One random call, which takes the same random numbers in each world: its code, and what it gives. */
static MhErr call(World *world, uint32_t which, uint32_t one, uint32_t two, uint32_t three, uint32_t *gives) {
    MhZone *zone = &world->zone;
    MrFiles *files = &world->files;
    uint8_t bytes[MOST];
    uint32_t kind = kinds[two % KINDS];
    int16_t id = (int16_t)(three % (2 * IDS) - 4);
    memset(bytes, (int)(three % 251), sizeof bytes);
    MrInfo info = {0, 0, 0};
    MhErr code;
    switch (which) {
        case 0: case 1: case 2: case 3: return mr_get_resource(files, zone, kind, id, gives);
        case 4: return mr_get1_resource(files, zone, kind, id, gives);
        case 5: return mr_get1_ind_resource(files, zone, kind, three % IDS, gives);
        case 6: return mr_load_resource(files, zone, one);
        case 7: return mr_release_resource(files, zone, one);
        case 8: return mr_detach_resource(files, zone, one);
        case 9: case 10: return mr_changed_resource(files, zone, one);
        case 11: return mr_set_res_attrs(files, zone, one, three % 256);
        case 12: return mr_add_resource(files, zone, one, kind, id, bytes, three % 4);
        case 13: return mr_rmve_resource(files, zone, one);
        case 14: return mr_set_res_info(files, one, id, bytes, three % 5);
        case 15: return mr_write_resource(files, zone, one);
        case 16: return three % 4 ? MH_NO_ERR : mr_update_res_file(files, zone, 1 + two % 3);
        case 17: return mr_use_res_file(files, zone, 1 + two % 3);
        case 18: return mr_set_res_load(files, zone, three % 3);
        case 19: return mr_cur_res_file(files, zone, gives);
        case 20: return mr_home_res_file(files, zone, one, gives);
        case 21: return mr_get_res_attrs(files, zone, one, gives);
        case 22: return mr_size_resource(files, zone, one, gives);
        case 23: return mr_unique_id(files, zone, kind, gives);
        case 24: return mr_count_types(files, zone, gives);
        case 25: return mr_count_resources(files, zone, kind, gives);
        case 26: return mr_get1_ind_type(files, zone, three % 5, gives);
        case 27: case 28: return mh_new_handle(zone, three % MOST, gives);
        case 29: return mh_poke(zone, one, 0, bytes, three % 40);
        case 30: return mh_set_handle_size(zone, one, three % MOST);
        case 31: return mh_empty_handle(zone, one);
        case 32: return mh_hpurge(zone, one);
        case 33: return mh_hno_purge(zone, one);
        case 34: return three % 20 ? MH_NO_ERR : mh_purge_mem(zone, SIZE);
        case 35: return mr_dispose_handle(files, zone, one);
        case 36: return mh_get_handle_size(zone, one, gives);
        case 37: return mr_read_partial_resource(files, zone, one, three % 9, (uint8_t *)gives, 4);
        case 38:
            code = mr_get_named_resource(files, zone, kind, bytes, 1, gives);
            return code;
        case 39: {
            uint8_t name[255] = {0};
            code = mr_get_res_info(files, zone, one, &info, name, sizeof name);
            *gives = info.kind + (uint32_t)info.id + info.name_length + name[0];
            return code;
        }
        case 40: return three % 50 ? MH_NO_ERR : mr_set_resource_size(files, zone, one, three % MOST);
        default: return three % 60 ? MH_NO_ERR : mr_close_res_file(files, zone, 2 + two % 2);
    }
}

/* How many bytes the zone has, and these. */
static size_t takes_image(MhZone *zone, uint8_t *bytes) {
    size_t length = 0;
    IS(mh_image_size(zone, &length), MH_NO_ERR);
    IS(length <= LIMIT, true);
    IS(mh_image(zone, bytes, length), MH_NO_ERR);
    return length;
}

/* How many bytes files are saved as over a zone, and these. */
static size_t saves(MrFiles *files, MhZone *zone, uint8_t *bytes) {
    size_t length = 0;
    IS(mr_save_size(files, zone, &length), MH_NO_ERR);
    IS(length <= sizeof saved, true);
    IS(mr_save(files, zone, bytes, length + 1), MH_BAD_NUMBER);
    IS(mr_save(files, zone, bytes, length - 1), MH_BAD_NUMBER);
    IS(mr_save(files, zone, bytes, length), MH_NO_ERR);
    return length;
}

/* A pause: all is saved, ended, and made again. */
static void pauses(World *world) {
    size_t length = takes_image(&world->zone, image), count = saves(&world->files, &world->zone, saved);
    IS(mr_end(&world->files), MH_NO_ERR);
    IS(mh_end_zone(&world->zone), MH_NO_ERR);
    IS(mr_load(&world->files, &world->zone, saved, count), MH_NOT_THERE);
    IS(mh_make_zone_of(&world->zone, BASE, (uint32_t)length, LIMIT, MODE, image, length), MH_NO_ERR);
    IS(mr_load(&world->files, &world->zone, saved, count), MH_NO_ERR);
    IS(mr_load(&world->files, &world->zone, saved, count), MH_IN_USE);
    IS(saves(&world->files, &world->zone, again), count);
    IS(memcmp(saved, again, count), 0);
}

/* Both worlds have the same zone, and the same forks. */
static void are_same(void) {
    static uint8_t second[LIMIT];
    size_t length = takes_image(&plain.zone, image);
    IS(takes_image(&paused.zone, second), length);
    IS(memcmp(image, second, length), 0);
    for (uint32_t file = 1; file <= 3; file++) {
        size_t one = 0, two = 0;
        IS(mr_fork_size(&plain.files, file, &one), MH_NO_ERR);
        IS(mr_fork_size(&paused.files, file, &two), MH_NO_ERR);
        IS(one, two);
        IS(one <= FORK, true);
        IS(mr_fork(&plain.files, file, fork, one), MH_NO_ERR);
        IS(mr_fork(&paused.files, file, other, one), MH_NO_ERR);
        IS(memcmp(fork, other, one), 0);
    }
}

/* Opens a file on this fork in both worlds, once at most. */
static void opens(size_t length) {
    uint32_t one = 0, two = 0;
    MhErr code = mr_open(&plain.files, &plain.zone, fork, length, &one);
    IS(mr_open(&paused.files, &paused.zone, fork, length, &two), code);
    IS(one, two);
}

static void random_calls(void) {
    for (int n = 0; n < CALLS; n++) {
        uint32_t which = below(42), one = a_handle(), two = below(1000), three = below(1u << 30), first = 0, second = 0;
        MhErr code = call(&plain, which, one, two, three, &first);
        IS(call(&paused, which, one, two, three, &second), code);
        IS(first, second);
        if (first != 0 && (which <= 5 || which == 27 || which == 28)) handles[given++] = first;
        if (below(200) == 0) pauses(&paused);
        if (below(2000) == 0) opens(make_fork());
    }
    pauses(&paused);
    are_same();
}

/* Bytes are refused over a zone, or they are what the files of them are saved as. */
static int loads(MhZone *zone, const uint8_t *bytes, size_t count) {
    MrFiles files = MR_NO_FILES;
    MhErr code = mr_load(&files, zone, bytes, count);
    if (code != MH_NO_ERR) {
        IS(code, MR_BAD_STATE);
        IS(files.live, false);
        return 0;
    }
    IS(saves(&files, zone, again), count);
    IS(memcmp(bytes, again, count), 0);
    IS(mr_end(&files), MH_NO_ERR);
    return 1;
}

/* Where four bytes are that have a number. */
static size_t place_of(const uint8_t *bytes, size_t count, uint32_t number, size_t from) {
    for (size_t at = from; at + 4 <= count; at++) {
        if ((uint32_t)bytes[at] << 24 == (number & 0xFF000000) && bytes[at + 1] == (uint8_t)(number >> 16)
            && bytes[at + 2] == (uint8_t)(number >> 8) && bytes[at + 3] == (uint8_t)number)
            return at;
    }
    return count;
}

/* A state of two files, with handles of resources, one of them changed. */
static void hostile(void) {
    World world = {MH_NO_ZONE, MR_NO_FILES};
    MhZone empty = MH_NO_ZONE;
    uint32_t file = 0, first = 0, second = 0, stray = 0;
    static const uint8_t word[4] = {1, 2, 3, 4};
    IS(mh_make_zone(&world.zone, BASE, SIZE, LIMIT, MODE), MH_NO_ERR);
    IS(mh_make_zone(&empty, BASE, SIZE, LIMIT, MODE), MH_NO_ERR);
    IS(mr_begin(&world.files), MH_NO_ERR);
    for (int n = 0; n < 2; n++) IS(mr_open(&world.files, &world.zone, fork, 0, &file), MH_NO_ERR);
    size_t count = saves(&world.files, &world.zone, saved);
    IS(loads(&world.zone, saved, count), 1);
    IS(loads(&empty, saved, count), 1);
    IS(mh_new_handle(&world.zone, 4, &first), MH_NO_ERR);
    IS(mh_new_handle(&world.zone, 4, &second), MH_NO_ERR);
    IS(mh_new_handle(&world.zone, 4, &stray), MH_NO_ERR);
    IS(mh_poke(&world.zone, first, 0, word, 4), MH_NO_ERR);
    IS(mr_add_resource(&world.files, &world.zone, first, kinds[0], 1, word, 4), MH_NO_ERR);
    IS(mr_update_res_file(&world.files, &world.zone, 2), MH_NO_ERR);
    IS(mr_use_res_file(&world.files, &world.zone, 1), MH_NO_ERR);
    IS(mr_add_resource(&world.files, &world.zone, second, kinds[1], 2, word, 0), MH_NO_ERR);
    count = saves(&world.files, &world.zone, saved);
    IS(loads(&world.zone, saved, count), 1);
    IS(loads(&empty, saved, count), 0);
    for (size_t at = 0; at < count; at++) {
        uint8_t was = saved[at];
        saved[at] ^= (uint8_t)(1 + below(255));
        loads(&world.zone, saved, count);
        saved[at] = was;
    }
    for (size_t length = 0; length < count; length++) IS(loads(&world.zone, saved, length), 0);
    saved[count] = 0;
    IS(loads(&world.zone, saved, count + 1), 0);
    /* handles: that of another resource, one of none, and one that isn't live */
    size_t at = place_of(saved, count, second, 0), where = place_of(saved, count, first, 0);
    IS(at < count && where < count, true);
    for (int n = 0; n < 4; n++) saved[at + (size_t)n] = (uint8_t)(first >> (24 - 8 * n));
    IS(loads(&world.zone, saved, count), 0);
    for (int n = 0; n < 4; n++) saved[at + (size_t)n] = (uint8_t)(stray >> (24 - 8 * n));
    IS(loads(&world.zone, saved, count), 1);
    for (int n = 0; n < 4; n++) saved[at + (size_t)n] = (uint8_t)((stray + 1) >> (24 - 8 * n));
    IS(loads(&world.zone, saved, count), 0);
    for (int n = 0; n < 4; n++) saved[at + (size_t)n] = (uint8_t)(second >> (24 - 8 * n));
    IS(loads(&world.zone, saved, count), 1);
    /* the number of bytes of the resource in the fork of file 2: a fork of 1,000,000 bytes would be too short */
    saved[where - 3] ^= 0x0F;
    IS(loads(&world.zone, saved, count), 0);
    saved[where - 3] ^= 0x0F;
    /* files that can't be saved: a handle was disposed of, and they don't know it */
    IS(mh_dispose_handle(&world.zone, second), MH_NO_ERR);
    IS(mr_save_size(&world.files, &world.zone, &count), MR_BAD_STATE);
    IS(mr_save(&world.files, &world.zone, again, 100), MR_BAD_STATE);
    IS(mr_end(&world.files), MH_NO_ERR);
    IS(mr_save_size(&world.files, &world.zone, &count), MH_NOT_THERE);
    IS(mh_end_zone(&world.zone), MH_NO_ERR);
    IS(mr_save_size(&world.files, &world.zone, &count), MH_NOT_THERE);
    IS(mh_end_zone(&empty), MH_NO_ERR);
}

int main(void) {
    IS(mh_make_zone(&plain.zone, BASE, SIZE, LIMIT, MODE), MH_NO_ERR);
    IS(mh_make_zone(&paused.zone, BASE, SIZE, LIMIT, MODE), MH_NO_ERR);
    IS(mr_begin(&plain.files), MH_NO_ERR);
    IS(mr_begin(&paused.files), MH_NO_ERR);
    for (int n = 0; n < 2; n++) opens(make_fork());
    random_calls();
    hostile();
    IS(mr_end(&plain.files), MH_NO_ERR);
    IS(mr_end(&paused.files), MH_NO_ERR);
    IS(mh_end_zone(&plain.zone), MH_NO_ERR);
    IS(mh_end_zone(&paused.zone), MH_NO_ERR);
    printf("saved_state: %d comparisons, %d faults\n", checks, faults);
    return faults != 0;
}
