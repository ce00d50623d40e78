/* Several zones for one set of files: the system's, and two of applications, whose blocks have headers of 8 and of 12 bytes. 100,000 random
 * calls, each over a zone that is picked at random, are compared with a model that is written from the rules: each resource has its bytes
 * in its fork, and perhaps a handle, bytes and a mark in the zone where it was loaded; a call over another one is MR_OTHER_ZONE, names the
 * handle and changes nothing. Amid them handles are disposed of, zones end and begin anew, blocks are purged, at once or in turn, files are
 * updated, closed and opened again, and all is saved and loaded. Then each call that a zone can be wrong for is made over a wrong one. It
 * prints a line for each that differs, and ends with status 1 then. */
#include "checks.h"
#include "macheap_fork.h"
#include "resman.h"

#include <string.h>

enum { ZONES = 3, FILES = 3, IDS = 10, MOST = 120, SYS_HEAP = 64, FORK = 0x10000, CALLS = 100000 };
#define KIND 0x54455854u

/* A resource of the model: its bytes in the fork, and in the zone that has its handle, if any has. */
typedef struct Resource {
    bool there, changed, full, purgeable;
    uint8_t attributes;
    int zone;
    uint32_t handle;
    size_t fork_length, length;
    uint8_t fork[MOST], bytes[MOST];
} Resource;

static const uint32_t bases[ZONES] = {0x1000, 0x40000, 0x100000}, modes[ZONES] = {24, 24, 32};
enum { SIZE = 0x8000, LIMIT = 0x10000 };
static MhZone zones[ZONES] = {MH_NO_ZONE, MH_NO_ZONE, MH_NO_ZONE};
static MrFiles files = MR_NO_FILES;
static Resource model[FILES + 1][IDS];
static int rows_in[FILES + 1][IDS], row_count[FILES + 1];
static int order[FILES], opened, current;
static bool system_known;

static int zone_of(uint32_t address) {
    for (int zone = 0; zone < ZONES; zone++) {
        if (bases[zone] <= address && address < bases[zone] + LIMIT) return zone;
    }
    return -1;
}

static void make_zone(int zone) { IS(mh_make_zone(&zones[zone], bases[zone], SIZE, LIMIT, modes[zone]), MH_NO_ERR); }

/* The address in another zone that the last call named. */
static uint32_t other(void) {
    uint32_t address = 0;
    IS(mr_other_zone(&files, &address), MH_NO_ERR);
    return address;
}

/* Where the resource of an id is found from the current file on: its file, or 0. */
static int found(int id) {
    int at = opened - 1;
    while (at >= 0 && order[at] != current) at--;
    for (; at >= 0; at--) {
        if (model[order[at]][id].there) return order[at];
    }
    return 0;
}

/* The bytes of a resource that has a block are those of the model. */
static void shows(const Resource *own) {
    uint8_t bytes[MOST];
    uint32_t size = 0;
    if (!own->handle || !own->full) return;
    IS(mh_get_handle_size(&zones[own->zone], own->handle, &size), MH_NO_ERR);
    IS(size, (int64_t)own->length);
    IS(mh_peek(&zones[own->zone], own->handle, 0, bytes, own->length), MH_NO_ERR);
    IS(memcmp(bytes, own->bytes, own->length), 0);
}

/* A resource's own bytes are those of its fork: it was loaded, or never had others. */
static void loads(Resource *own) {
    own->full = true;
    own->purgeable = false;
    own->length = own->fork_length;
    memcpy(own->bytes, own->fork, own->fork_length);
}

/* A resource without a handle. */
static void forgets(Resource *own) {
    own->handle = 0;
    own->full = false;
}

/* GetResource over a zone, and over the one that it names. */
static void gets(int zone, int id) {
    uint32_t handle = 0;
    int file = found(id);
    MhErr code = mr_get_resource(&files, &zones[zone], KIND, (int16_t)id, &handle);
    if (!file) {
        IS(code, opened ? MR_RES_NOT_FOUND : MR_RES_F_NOT_FOUND);
        return;
    }
    Resource *own = &model[file][id];
    int home = own->handle ? own->zone : own->attributes & SYS_HEAP && system_known ? 0 : zone;
    if (home != zone) {
        IS(code, MR_OTHER_ZONE);
        IS(handle, 0);
        uint32_t address = other();
        IS(address, own->handle ? own->handle : bases[0]);
        IS(zone_of(address), home);
        code = mr_get_resource(&files, &zones[home], KIND, (int16_t)id, &handle);
    }
    IS(code, MH_NO_ERR);
    IS(zone_of(handle), home);
    if (own->handle) IS(handle, own->handle);
    if (!own->handle || !own->full) loads(own);
    own->handle = handle;
    own->zone = home;
    shows(own);
}

/* A call on a handle over a zone: whether it was made, or the right zone was named. */
static bool is_here(MhErr code, int zone, const Resource *own, MhErr wanted) {
    if (zone == own->zone) {
        IS(code, wanted);
        return true;
    }
    IS(code, MR_OTHER_ZONE);
    IS(other(), own->handle);
    return false;
}

/* A changed resource is written: its fork has the bytes of its block, and none where it has no block. */
static void writes(Resource *own) {
    if (!own->changed) return;
    own->changed = false;
    own->fork_length = own->handle && own->full ? own->length : 0;
    memcpy(own->fork, own->bytes, own->fork_length);
}

/* The first resource of a file that is in another zone than this, of the changed ones or of all, or null. */
static Resource *first_elsewhere(int file, int zone, bool changed) {
    for (int n = 0; n < row_count[file]; n++) {
        Resource *own = &model[file][rows_in[file][n]];
        if (own->handle && own->zone != zone && (own->changed || !changed)) return own;
    }
    return NULL;
}

/* The fork of a file has the resources of the model, with their bytes there. */
static void fork_shows(int file) {
    static uint8_t fork[FORK], names[256], data[FORK];
    MfRow rows[IDS];
    size_t length = 0, at = 0;
    MfSizes sizes;
    IS(mr_fork_size(&files, (uint32_t)file, &length), MH_NO_ERR);
    IS(length <= sizeof fork, true);
    IS(mr_fork(&files, (uint32_t)file, fork, length), MH_NO_ERR);
    IS(mf_sizes(fork, length, &sizes), MF_NO_ERR);
    IS(sizes.rows <= IDS && sizes.names <= sizeof names && sizes.data <= sizeof data, true);
    IS(mf_rows(fork, length, rows, sizes.rows, names, sizes.names, data, sizes.data), MF_NO_ERR);
    IS(sizes.rows, row_count[file]);
    for (size_t n = 0; n < sizes.rows; n++) {
        const Resource *own = &model[file][rows[n].id];
        IS(rows[n].id, rows_in[file][n]);
        IS(rows[n].data_length, (int64_t)own->fork_length);
        IS(memcmp(data + at, own->fork, own->fork_length), 0);
        at += rows[n].data_length;
    }
}

/* UpdateResFile over a zone, once each changed resource in another one is written over its own. */
static void updates(int file, int zone) {
    const Resource *away;
    while ((away = first_elsewhere(file, zone, true))) {
        IS(mr_update_res_file(&files, &zones[zone], (uint32_t)file), MR_OTHER_ZONE);
        IS(other(), away->handle);
        IS(mr_write_resource(&files, &zones[away->zone], away->handle), MH_NO_ERR);
        writes((Resource *)away);
    }
    IS(mr_update_res_file(&files, &zones[zone], (uint32_t)file), MH_NO_ERR);
    for (int n = 0; n < row_count[file]; n++) writes(&model[file][rows_in[file][n]]);
    fork_shows(file);
}

/* CloseResFile over a zone, once each resource in another one is given up over its own; and the file is opened again. */
static void closes(int file, int zone) {
    Resource *away;
    static uint8_t fork[FORK];
    size_t length = 0;
    uint32_t number = 0;
    while ((away = first_elsewhere(file, zone, false))) {
        IS(mr_close_res_file(&files, &zones[zone], (uint32_t)file), MR_OTHER_ZONE);
        IS(other(), away->handle);
        IS(mr_write_resource(&files, &zones[away->zone], away->handle), MH_NO_ERR);
        writes(away);
        IS(mr_release_resource(&files, &zones[away->zone], away->handle), MH_NO_ERR);
        forgets(away);
    }
    IS(mr_close_res_file(&files, &zones[zone], (uint32_t)file), MH_NO_ERR);
    for (int n = 0; n < row_count[file]; n++) {
        Resource *own = &model[file][rows_in[file][n]];
        writes(own);
        if (own->handle) IS(mh_dispose_handle(&zones[own->zone], own->handle), MH_MEM_WZ_ERR);
        forgets(own);
    }
    fork_shows(file);
    IS(mr_fork_size(&files, (uint32_t)file, &length), MH_NO_ERR);
    IS(mr_fork(&files, (uint32_t)file, fork, length), MH_NO_ERR);
    IS(mr_open(&files, &zones[zone], fork, length, &number), MH_NO_ERR);
    IS(number, file);
    int at = 0;
    while (order[at] != file) at++;
    for (; at + 1 < FILES; at++) order[at] = order[at + 1];
    order[FILES - 1] = current = file;
}

/* A zone ends, once no resource has a handle there, and another begins in its place. */
static void ends(int zone) {
    uint32_t handle = 0;
    for (int file = 1; file <= FILES; file++) {
        for (int n = 0; n < row_count[file]; n++) {
            Resource *own = &model[file][rows_in[file][n]];
            if (!own->handle || own->zone != zone) continue;
            IS(mr_first_loaded(&files, &zones[zone], &handle), MH_NO_ERR);
            IS(handle, own->handle);
            IS(mr_dispose_handle(&files, &zones[zone], handle), MH_NO_ERR);
            forgets(own);
        }
    }
    handle = 7;
    IS(mr_first_loaded(&files, &zones[zone], &handle), MH_NONE_SUCH);
    IS(handle, 7);
    IS(mh_end_zone(&zones[zone]), MH_NO_ERR);
    make_zone(zone);
}

/* All is saved over one zone, and loaded again. */
static void saves(int zone) {
    static uint8_t bytes[0x100000], again[0x100000];
    size_t length = 0, later = 0;
    IS(mr_save_size(&files, &zones[zone], &length), MH_NO_ERR);
    IS(length <= sizeof bytes, true);
    IS(mr_save(&files, &zones[zone], bytes, length), MH_NO_ERR);
    IS(mr_end(&files), MH_NO_ERR);
    IS(mr_load(&files, &zones[zone], bytes, length), MH_NO_ERR);
    for (int over = 0; over < ZONES; over++) {
        IS(mr_save_size(&files, &zones[over], &later), MH_NO_ERR);
        IS(later, (int64_t)length);
        IS(mr_save(&files, &zones[over], again, length), MH_NO_ERR);
        IS(memcmp(bytes, again, length), 0);
    }
    uint32_t address = 7;
    IS(mr_other_zone(&files, &address), MH_NONE_SUCH);
    IS(address, 7);
    IS(mr_set_system_zone(&files, system_known ? bases[0] : 0), MH_NO_ERR);
}

/* The resource of a handle, or null. */
static Resource *of_handle(uint32_t handle) {
    for (int file = 1; file <= FILES; file++) {
        for (int id = 0; id < IDS; id++) {
            if (model[file][id].there && model[file][id].handle == handle) return &model[file][id];
        }
    }
    return NULL;
}

/* All that may be purged in a zone is, perhaps one by one, since purges are held. */
static void purges(int zone) {
    uint32_t handle = 0, handles[FILES * IDS], count = 0, wanted = 0;
    MhErr code;
    for (int file = 1; file <= FILES; file++) {
        for (int id = 0; id < IDS; id++) {
            const Resource *own = &model[file][id];
            wanted += own->there && own->handle && own->zone == zone && own->full && own->purgeable;
        }
    }
    bool holds = below(2) != 0;
    IS(mh_hold_purges(&zones[zone], holds), MH_NO_ERR);
    while ((code = mh_purge_mem(&zones[zone], 0x800000)) == MH_WOULD_PURGE && wanted-- > 0) {
        IS(holds, true);
        IS(mh_would_purge(&zones[zone], &handle), MH_NO_ERR);
        Resource *own = of_handle(handle);
        IS(own && own->zone == zone && own->full && own->purgeable, true);
        IS(mh_empty_handle(&zones[zone], handle), MH_NO_ERR);
        own->full = false;
    }
    IS(code, MH_MEM_FULL_ERR);
    IS(mh_purged(&zones[zone], handles, FILES * IDS, &count), MH_NO_ERR);
    IS(count, holds ? 0 : wanted);
    for (uint32_t n = 0; n < count; n++) {
        Resource *own = of_handle(handles[n]);
        IS(own && own->zone == zone && own->full && own->purgeable, true);
        own->full = false;
    }
    IS(mh_hold_purges(&zones[zone], 0), MH_NO_ERR);
}

/* A resource with a handle, or null. */
static Resource *any_loaded(int *file) {
    *file = 1 + (int)below(FILES);
    Resource *own = row_count[*file] ? &model[*file][rows_in[*file][below((uint32_t)row_count[*file])]] : NULL;
    return own && own->handle ? own : NULL;
}

/* A new resource of the current file, made of a block of a zone. */
static void adds(int zone, int id) {
    uint8_t bytes[MOST];
    uint32_t handle = 0;
    size_t length = below(MOST);
    for (size_t n = 0; n < length; n++) bytes[n] = (uint8_t)below(256);
    IS(mh_new_handle_of(&zones[zone], bytes, length, &handle), MH_NO_ERR);
    Resource *own = &model[current][id];
    if (own->there) {
        IS(mh_dispose_handle(&zones[zone], handle), MH_NO_ERR);
        return;
    }
    IS(mr_add_resource(&files, &zones[zone], handle, KIND, (int16_t)id, bytes, 0), MH_NO_ERR);
    *own = (Resource){.there = true, .changed = true, .full = true, .zone = zone, .handle = handle, .length = length};
    memcpy(own->bytes, bytes, length);
    rows_in[current][row_count[current]++] = id;
}

/* A resource is no more; its handle is disposed of. */
static void removes(int file, Resource *own, int zone) {
    int id = (int)(own - model[file]), n = 0;
    if (!is_here(mr_rmve_resource(&files, &zones[zone], own->handle), zone, own, MH_NO_ERR)) return;
    IS(mh_dispose_handle(&zones[zone], own->handle), MH_NO_ERR);
    while (rows_in[file][n] != id) n++;
    for (row_count[file]--; n < row_count[file]; n++) rows_in[file][n] = rows_in[file][n + 1];
    *own = (Resource){0};
}

/* Other bytes in the block of a resource, which is marked. */
static void changes(Resource *own, int zone) {
    if (!own->full) return;
    own->length = below(MOST);
    IS(mh_set_handle_size(&zones[own->zone], own->handle, (uint32_t)own->length), MH_NO_ERR);
    for (size_t n = 0; n < own->length; n++) own->bytes[n] = (uint8_t)below(256);
    IS(mh_poke(&zones[own->zone], own->handle, 0, own->bytes, own->length), MH_NO_ERR);
    IS(mr_changed_resource(&files, &zones[zone], own->handle), MH_NO_ERR);
    own->changed = true;
}

/* A random call on a resource that has a handle, over a zone. */
static void uses(int file, Resource *own, int zone) {
    uint32_t handle = own->handle;
    uint8_t bytes[MOST];
    switch (below(11)) {
        case 0:
            if (is_here(mr_write_resource(&files, &zones[zone], handle), zone, own, MH_NO_ERR)) writes(own);
            return;
        case 1:
            if (is_here(mr_release_resource(&files, &zones[zone], handle), zone, own, MH_NO_ERR) && !own->changed) forgets(own);
            return;
        case 2:
            if (!is_here(mr_detach_resource(&files, &zones[zone], handle), zone, own, own->changed ? MR_RES_ATTR_ERR : MH_NO_ERR) || own->changed) return;
            IS(mh_dispose_handle(&zones[zone], handle), MH_NO_ERR);
            forgets(own);
            return;
        case 3:
            if (below(4) == 0) removes(file, own, zone);
            return;
        case 4:
            if (own->changed) return;
            IS(mh_empty_handle(&zones[own->zone], handle), MH_NO_ERR);
            own->full = false;
            return;
        case 5:
            if (is_here(mr_load_resource(&files, &zones[zone], handle), zone, own, MH_NO_ERR) && !own->full) loads(own);
            return;
        case 6:
            own->attributes ^= SYS_HEAP;
            IS(mr_set_res_attrs(&files, &zones[zone], handle, own->attributes), MH_NO_ERR);
            return;
        case 7:
            if (is_here(mr_read_partial_resource(&files, &zones[zone], handle, 0, bytes, own->fork_length), zone, own, own->full ? MR_RESOURCE_IN_MEMORY : MH_NO_ERR)) {
                IS(memcmp(bytes, own->fork, own->fork_length), 0);
            }
            return;
        case 8:
            bytes[0] = (uint8_t)below(256);
            if (own->fork_length == 0) return;
            if (is_here(mr_write_partial_resource(&files, &zones[zone], handle, 0, bytes, 1), zone, own, own->full ? MR_RESOURCE_IN_MEMORY : MH_NO_ERR)) own->fork[0] = bytes[0];
            return;
        case 9:
            if (!own->full) return;
            own->purgeable = !own->purgeable;
            IS((own->purgeable ? mh_hpurge : mh_hno_purge)(&zones[own->zone], handle), MH_NO_ERR);
            return;
        default: changes(own, zone);
    }
}

static void random_call(void) {
    int zone = (int)below(ZONES), id = (int)below(IDS), file;
    uint32_t which = below(400), largest = 0;
    if (which < 160) gets(zone, id);
    else if (which < 200) adds(zone, id);
    else if (which < 380) {
        Resource *own = any_loaded(&file);
        if (own) uses(file, own, zone);
    } else if (which < 386) updates(1 + (int)below(FILES), zone);
    else if (which < 388) closes(1 + (int)below(FILES), zone);
    else if (which < 390) ends(zone);
    else if (which < 392) saves(zone);
    else if (which < 394) IS(mh_compact_mem(&zones[zone], LIMIT, &largest), MH_NO_ERR);
    else if (which < 396) {
        current = 1 + (int)below(FILES);
        IS(mr_use_res_file(&files, &zones[zone], (uint32_t)current), MH_NO_ERR);
    } else if (which < 398) purges(zone);
    else if (which < 399) {
        system_known = !system_known;
        IS(mr_set_system_zone(&files, system_known ? bases[0] : 0), MH_NO_ERR);
    }
    Resource *own = any_loaded(&file);
    if (own) shows(own);
}

/* Each call that a zone can be wrong for, over a wrong one; and those that need none. */
static void wrong_zones(void) {
    MhZone *right = &zones[1], *wrong = &zones[2];
    uint32_t handle = 0, number = 0;
    uint8_t byte = 5;
    system_known = false;
    IS(mr_set_system_zone(&files, 0), MH_NO_ERR);
    closes(current, 0);
    Resource *own = &model[current][0];
    if (own->there) gets(1, 0);
    else adds(1, 0);
    handle = own->handle;
    IS(mr_write_resource(&files, right, handle), MH_NO_ERR);
    IS(mr_get1_resource(&files, wrong, KIND, 0, &number), MR_OTHER_ZONE);
    IS(mr_load_resource(&files, wrong, handle), MR_OTHER_ZONE);
    IS(mr_write_resource(&files, wrong, handle), MR_OTHER_ZONE);
    IS(mr_release_resource(&files, wrong, handle), MR_OTHER_ZONE);
    IS(mr_detach_resource(&files, wrong, handle), MR_OTHER_ZONE);
    IS(mr_rmve_resource(&files, wrong, handle), MR_OTHER_ZONE);
    IS(mr_read_partial_resource(&files, wrong, handle, 0, &byte, 0), MR_OTHER_ZONE);
    IS(mr_set_resource_size(&files, wrong, handle, 1), MR_OTHER_ZONE);
    IS(mr_write_partial_resource(&files, wrong, handle, 0, &byte, 1), MR_OTHER_ZONE);
    IS(number, 0);
    IS(other(), handle);
    IS(mr_home_res_file(&files, wrong, handle, &number), MH_NO_ERR);
    IS(mr_size_resource(&files, wrong, handle, &number), MH_NO_ERR);
    IS(mr_get_res_attrs(&files, wrong, handle, &number), MH_NO_ERR);
    IS(mr_dispose_handle(&files, wrong, handle), MH_MEM_WZ_ERR);
    /* A handle that is disposed of without the files' knowledge is seen over its own zone alone. */
    size_t size = 0;
    IS(mh_dispose_handle(right, handle), MH_NO_ERR);
    IS(mr_save_size(&files, wrong, &size), MH_NO_ERR);
    IS(mr_save_size(&files, right, &size), MR_BAD_STATE);
}

int main(void) {
    uint32_t number = 0, address = 3;
    IS(mr_set_system_zone(&files, 1), MH_NOT_THERE);
    IS(mr_other_zone(&files, &address), MH_NOT_THERE);
    IS(mr_begin(&files), MH_NO_ERR);
    for (int zone = 0; zone < ZONES; zone++) make_zone(zone);
    for (int file = 1; file <= FILES; file++) {
        IS(mr_open(&files, &zones[file % ZONES], (const uint8_t *)"", 0, &number), MH_NO_ERR);
        IS(number, file);
        order[opened++] = current = file;
    }
    for (int call = 0; call < CALLS; call++) random_call();
    wrong_zones();
    IS(mr_end(&files), MH_NO_ERR);
    for (int zone = 0; zone < ZONES; zone++) IS(mh_end_zone(&zones[zone]), MH_NO_ERR);
    return faults != 0;
}
