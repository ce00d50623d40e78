/* What all open resource files have together, however they were opened and closed and whichever is the current one, by plain arrays of
 * what each file has (Inside Macintosh: More Macintosh Toolbox, chapter 1, "Counting and Listing Resource Types" and "Getting a Unique
 * Resource ID"). It compares what C gets with these, prints a line for each that differs, and ends with status 1 then. */
#include "checks.h"
#include "macheap_fork.h"
#include "resman.h"

#include <string.h>

enum { BASE = 0x100000, SIZE = 0x400000, FORK = 0x80000, FILES = 8, KINDS = 5, MOST = 6000, CASES = 4000, LARGEST = 32767 };

static const uint32_t KIND[KINDS] = {0x54455854, 0x53545220, 0x4D454E55, 0x00000000, 0xFFFFFFFF};

static MhZone zone = MH_NO_ZONE;
static MrFiles files = MR_NO_FILES;
static uint8_t fork[FORK], data[64 * MOST];
static MfRow rows[MOST];
/* A resource, and a file: its number, and what it has, those of each type in order. */
typedef struct Has {
    uint32_t kind, size;
    int16_t id;
} Has;
typedef struct Open {
    uint32_t number;
    size_t count;
    Has has[MOST];
} Open;

/* The open files, in the order of opening, and the number of the current one. */
static Open open[FILES];
static size_t opened;
static uint32_t current;

static bool has(const Open *file, uint32_t kind, int32_t id) {
    for (size_t n = 0; n < file->count; n++) {
        if (file->has[n].kind == kind && file->has[n].id == id) return true;
    }
    return false;
}

/* Opens a file on a fork with what is in `open[opened]`, whose resources of a type are together. */
static void open_it(void) {
    static const MfExtra extra;
    Open *file = &open[opened];
    size_t length = 0, bytes = 0;
    memset(rows, 0, sizeof *rows * file->count);
    for (size_t n = 0; n < file->count; n++) {
        for (int at = 0; at < 4; at++) rows[n].kind[at] = (uint8_t)(file->has[n].kind >> (24 - 8 * at));
        rows[n].id = file->has[n].id;
        rows[n].data_length = file->has[n].size;
        bytes += file->has[n].size;
    }
    IS(mf_written_length(rows, file->count, data, 0, data, bytes, &extra, &length), MF_NO_ERR);
    IS(mf_write(rows, file->count, data, 0, data, bytes, &extra, fork, length), MF_NO_ERR);
    IS(mr_open(&files, &zone, fork, length, &file->number), MH_NO_ERR);
    current = file->number;
    opened++;
}

/* A file with some resources of some types, in any order of types. */
static void open_some(void) {
    Open *file = &open[opened];
    file->count = 0;
    uint32_t first = below(KINDS), step = 1 + below(KINDS - 1);
    for (uint32_t k = 0; k < KINDS; k++) {
        uint32_t kind = KIND[(first + k * step) % KINDS];
        for (uint32_t left = below(3) ? below(5) : 0; left; left--) {
            int16_t id = below(4) ? (int16_t)(126 + below(9)) : (int16_t)(below(4) - 2);
            if (!has(file, kind, id)) file->has[file->count++] = (Has){kind, 1 + below(40), id};
        }
    }
    open_it();
}

static void close_one(size_t which) {
    IS(mr_close_res_file(&files, &zone, open[which].number), MH_NO_ERR);
    bool was = open[which].number == current;
    memmove(&open[which], &open[which + 1], (--opened - which) * sizeof *open);
    if (was) current = opened ? open[opened - 1].number : 0;
}

static Open *current_file(void) {
    for (size_t n = 0; n < opened; n++) {
        if (open[n].number == current) return &open[n];
    }
    /* the current file is always open */
    exit(2);
}

/* A new resource comes after the others of its type, or last. */
static void add_one(void) {
    Open *file = current_file();
    Has new = {KIND[below(KINDS)], below(40), (int16_t)(126 + below(9))};
    if (has(file, new.kind, new.id)) return;
    uint32_t handle = 0;
    IS(mh_new_handle_of(&zone, data, new.size, &handle), MH_NO_ERR);
    IS(mr_add_resource(&files, &zone, handle, new.kind, new.id, data, 0), MH_NO_ERR);
    size_t at = file->count;
    for (size_t n = 0; n < file->count; n++) {
        if (file->has[n].kind == new.kind) at = n + 1;
    }
    memmove(&file->has[at + 1], &file->has[at], (file->count++ - at) * sizeof new);
    file->has[at] = new;
}

static void remove_one(void) {
    Open *file = current_file();
    if (!file->count) return;
    size_t at = below((uint32_t)file->count);
    uint32_t handle = 0;
    IS(mr_get1_resource(&files, &zone, file->has[at].kind, file->has[at].id, &handle), MH_NO_ERR);
    IS(mr_rmve_resource(&files, &zone, handle), MH_NO_ERR);
    IS(mr_dispose_handle(&files, &zone, handle), MH_NO_ERR);
    memmove(&file->has[at], &file->has[at + 1], (--file->count - at) * sizeof *file->has);
}

/* How many resources of a type the open files have. */
static uint32_t count_of(uint32_t kind) {
    uint32_t count = 0;
    for (size_t n = 0; n < opened; n++) {
        for (size_t at = 0; at < open[n].count; at++) count += open[n].has[at].kind == kind;
    }
    return count;
}

/* The resources of a type: those of the file that was opened last, then those of the one before it, and so on. */
static void indexed(uint32_t kind) {
    uint32_t index = 1, handle = 7, number = 0;
    IS(mr_get_ind_resource(&files, &zone, kind, 0, &handle), MR_RES_NOT_FOUND);
    for (size_t n = opened; n-- > 0;) {
        for (size_t at = 0; at < open[n].count; at++) {
            const Has *wanted = &open[n].has[at];
            if (wanted->kind != kind) continue;
            MrInfo info = {0, 0, 0};
            uint8_t name[255];
            IS(mr_get_ind_resource(&files, &zone, kind, index++, &handle), MH_NO_ERR);
            IS(mr_get_res_info(&files, &zone, handle, &info, name, sizeof name), MH_NO_ERR);
            IS(info.kind, kind);
            IS(info.id, wanted->id);
            IS(mr_home_res_file(&files, &zone, handle, &number), MH_NO_ERR);
            IS(number, open[n].number);
            IS(mh_get_handle_size(&zone, handle, &number), MH_NO_ERR);
            IS(number, wanted->size);
        }
    }
    handle = 7;
    IS(mr_get_ind_resource(&files, &zone, kind, index, &handle), MR_RES_NOT_FOUND);
    IS(mr_get_ind_resource(&files, &zone, kind, UINT32_MAX, &handle), MR_RES_NOT_FOUND);
    IS(handle, 7);
}

/* The least id from 128 on that no file has for the type. */
static void unique(uint32_t kind) {
    int32_t id = 128;
    for (size_t n = 0; n < opened && id <= LARGEST;) {
        if (has(&open[n], kind, id)) {
            id++;
            n = 0;
        } else {
            n++;
        }
    }
    uint32_t number = 7;
    if (id > LARGEST) {
        IS(mr_unique_id(&files, &zone, kind, &number), MR_ADD_RES_FAILED);
        IS(number, 7);
    } else {
        IS(mr_unique_id(&files, &zone, kind, &number), MH_NO_ERR);
        IS(number, id);
    }
}

/* So many types are there, and each comes once, in any order. */
static void types_are(uint32_t types) {
    uint32_t number = 7, kind = 7, seen[KINDS] = {0};
    IS(mr_count_types(&files, &zone, &number), MH_NO_ERR);
    IS(number, types);
    for (uint32_t index = 1; index <= types; index++) {
        IS(mr_get_ind_type(&files, &zone, index, &kind), MH_NO_ERR);
        for (int k = 0; k < KINDS; k++) seen[k] += KIND[k] == kind;
    }
    for (int k = 0; k < KINDS; k++) IS(seen[k], count_of(KIND[k]) > 0);
    kind = 7;
    IS(mr_get_ind_type(&files, &zone, 0, &kind), MR_RES_NOT_FOUND);
    IS(mr_get_ind_type(&files, &zone, types + 1, &kind), MR_RES_NOT_FOUND);
    IS(kind, 7);
}

static void compare(void) {
    uint32_t number = 7, types = 0, before = current;
    if (opened && below(2)) {
        current = open[below((uint32_t)opened)].number;
        IS(mr_use_res_file(&files, &zone, current), MH_NO_ERR);
    }
    if (!opened) {
        IS(mr_count_types(&files, &zone, &number), MR_RES_F_NOT_FOUND);
        IS(mr_get_ind_type(&files, &zone, 1, &number), MR_RES_F_NOT_FOUND);
        IS(mr_count_resources(&files, &zone, KIND[0], &number), MR_RES_F_NOT_FOUND);
        IS(mr_get_ind_resource(&files, &zone, KIND[0], 1, &number), MR_RES_F_NOT_FOUND);
        IS(mr_unique_id(&files, &zone, KIND[0], &number), MR_RES_F_NOT_FOUND);
        IS(number, 7);
        return;
    }
    for (int k = 0; k < KINDS; k++) {
        IS(mr_count_resources(&files, &zone, KIND[k], &number), MH_NO_ERR);
        IS(number, count_of(KIND[k]));
        types += number > 0;
        indexed(KIND[k]);
        unique(KIND[k]);
    }
    IS(mr_count_resources(&files, &zone, 0x20202020, &number), MH_NO_ERR);
    IS(number, 0);
    types_are(types);
    /* which file is the current one isn't changed by it */
    IS(mr_cur_res_file(&files, &zone, &number), MH_NO_ERR);
    IS(number, current);
    IS(mr_use_res_file(&files, &zone, before), MH_NO_ERR);
    current = before;
}

/* Six files take all ids from 128 on, in turn or in parts. Until the sixth is open, the first of its ids is free. */
static void many_ids(bool in_turn) {
    enum { PART = (LARGEST - 127) / 6 };
    uint32_t number = 7;
    for (int part = 0; part < 6; part++) {
        Open *file = &open[opened];
        file->count = PART;
        for (int n = 0; n < PART; n++) file->has[n] = (Has){KIND[0], 0, (int16_t)(128 + (in_turn ? 6 * n + part : PART * part + n))};
        open_it();
        if (part < 5) {
            IS(mr_unique_id(&files, &zone, KIND[0], &number), MH_NO_ERR);
            IS(number, in_turn ? 129 + part : 128 + PART * (part + 1));
        }
    }
    number = 7;
    IS(mr_unique_id(&files, &zone, KIND[0], &number), MR_ADD_RES_FAILED);
    IS(number, 7);
    IS(mr_unique_id(&files, &zone, KIND[1], &number), MH_NO_ERR);
    IS(number, 128);
    IS(mr_count_resources(&files, &zone, KIND[0], &number), MH_NO_ERR);
    IS(number, 6 * PART);
    close_one(2);
    IS(mr_unique_id(&files, &zone, KIND[0], &number), MH_NO_ERR);
    IS(number, in_turn ? 130 : 128 + 2 * PART);
    while (opened) close_one(0);
}

int main(void) {
    uint32_t number = 7;
    IS(mr_count_types(&files, &zone, &number), MH_NOT_THERE);
    IS(mh_make_zone_large(&zone, BASE, SIZE, SIZE, 32), MH_NO_ERR);
    IS(mr_count_types(&files, &zone, &number), MH_NOT_THERE);
    IS(mr_count_resources(&files, &zone, KIND[0], &number), MH_NOT_THERE);
    IS(mr_get_ind_type(&files, &zone, 1, &number), MH_NOT_THERE);
    IS(mr_unique_id(&files, &zone, KIND[0], &number), MH_NOT_THERE);
    IS(mr_get_ind_resource(&files, &zone, KIND[0], 1, &number), MH_NOT_THERE);
    IS(number, 7);
    IS(mr_begin(&files), MH_NO_ERR);
    compare();
    for (int n = 0; n < CASES; n++) {
        switch (below(6)) {
        case 0:
            if (opened < FILES) open_some();
            break;
        case 1:
            if (opened && below(2)) close_one(below((uint32_t)opened));
            break;
        case 2:
            if (opened) {
                current = open[below((uint32_t)opened)].number;
                IS(mr_use_res_file(&files, &zone, current), MH_NO_ERR);
            }
            break;
        case 3:
            if (opened) remove_one();
            break;
        default:
            if (opened) add_one();
        }
        compare();
    }
    while (opened) close_one(opened - 1);
    compare();
    many_ids(false);
    many_ids(true);
    IS(mr_end(&files), MH_NO_ERR);
    IS(mh_end_zone(&zone), MH_NO_ERR);
    return faults > 0;
}
