/* As many resource files as can be open, each with a resource of its own and one that all have. It compares what C gets with what is
 * expected, prints a line for each that differs, and ends with status 1 then. */
#include "checks.h"
#include "macheap_fork.h"
#include "resman.h"

#include <string.h>

enum { BASE = 0x100000, SIZE = 0x100000, FILES = 255, ROOM = 512, OWN = 0x54455854, SHARED = 0x53545220 };

static MhZone zone = MH_NO_ZONE;
static MrFiles files = MR_NO_FILES;
static uint8_t fork[ROOM], now[ROOM];

/* Writes a fork with the resources 'TEXT' n and 'STR ' 1, whose bytes say n. */
static size_t fork_of(uint32_t n) {
    static const MfExtra extra;
    const uint8_t data[4] = {(uint8_t)(n >> 8), (uint8_t)n, (uint8_t)(n >> 8), (uint8_t)n};
    const MfRow rows[2] = {{{'T', 'E', 'X', 'T'}, (int16_t)n, 0, false, 0, 2}, {{'S', 'T', 'R', ' '}, 1, 0, false, 0, 2}};
    size_t length = 0;
    IS(mf_written_length(rows, 2, data, 0, data, 4, &extra, &length), MF_NO_ERR);
    IS(length <= ROOM, true);
    IS(mf_write(rows, 2, data, 0, data, 4, &extra, fork, length), MF_NO_ERR);
    return length;
}

/* Opens a file on the fork of n: the answer, or the file's number. */
static int64_t opened(uint32_t n) {
    uint32_t file = 1000;
    MhErr code = mr_open(&files, &zone, fork, fork_of(n), &file);
    if (code == MH_NO_ERR) return file;
    IS(file, 1000);
    return code;
}

static uint32_t current(void) {
    uint32_t number = 0;
    IS(mr_cur_res_file(&files, &zone, &number), MH_NO_ERR);
    return number;
}

/* The file of a resource, whose bytes say n: or why there is none. */
static int64_t file_of(uint32_t kind, int16_t id, uint32_t n) {
    uint32_t handle = 0, home = 0;
    uint8_t bytes[2] = {0, 0};
    MhErr code = mr_get_resource(&files, &zone, kind, id, &handle);
    if (code != MH_NO_ERR) return code;
    IS(mr_home_res_file(&files, &zone, handle, &home), MH_NO_ERR);
    IS(mh_peek(&zone, handle, 0, bytes, 2), MH_NO_ERR);
    IS(bytes[0] << 8 | bytes[1], n);
    return home;
}

/* The fork of a file is that of n. */
static void has_fork(uint32_t file, uint32_t n) {
    size_t length = 0, wanted = fork_of(n);
    IS(mr_fork_size(&files, file, &length), MH_NO_ERR);
    IS(length, (int64_t)wanted);
    IS(mr_fork(&files, file, now, wanted), MH_NO_ERR);
    IS(memcmp(now, fork, wanted), 0);
}

/* Each is opened under the next number, and the latest is the current one. One more is refused, and changes nothing. */
static void opens_all(void) {
    for (uint32_t n = 1; n <= FILES; n++) IS(opened(n), n);
    IS(opened(FILES + 1), MR_TMFO_ERR);
    IS(current(), FILES);
    for (uint32_t n = 1; n <= FILES; n++) has_fork(n, n);
    for (uint32_t n = 1; n <= FILES; n++) IS(file_of(OWN, (int16_t)n, n), n);
    IS(file_of(OWN, FILES + 1, 0), MR_RES_NOT_FOUND);
}

/* A resource is looked for from the current file back to the first. */
static void looks_back(void) {
    IS(file_of(SHARED, 1, FILES), FILES);
    for (uint32_t n = FILES; n > 0; n--) {
        IS(mr_use_res_file(&files, &zone, n), MH_NO_ERR);
        IS(file_of(SHARED, 1, n), n);
        IS(file_of(OWN, 1, 1), 1);
        if (n < FILES) IS(file_of(OWN, (int16_t)(n + 1), n + 1), MR_RES_NOT_FOUND);
    }
    IS(mr_use_res_file(&files, &zone, FILES), MH_NO_ERR);
    IS(mr_use_res_file(&files, &zone, FILES + 1), MR_RES_F_NOT_FOUND);
}

/* A file that is closed leaves its number to the next that is opened, which is looked in first. */
static void closes_some(void) {
    IS(mr_close_res_file(&files, &zone, 100), MH_NO_ERR);
    IS(file_of(OWN, 100, 100), MR_RES_NOT_FOUND);
    has_fork(100, 100);
    IS(opened(300), 100);
    IS(opened(301), MR_TMFO_ERR);
    IS(current(), 100);
    has_fork(100, 300);
    IS(file_of(SHARED, 1, 300), 100);
    IS(file_of(OWN, 300, 300), 100);
    IS(mr_close_res_file(&files, &zone, 200), MH_NO_ERR);
    IS(mr_close_res_file(&files, &zone, 7), MH_NO_ERR);
    IS(opened(302), 7);
    IS(opened(303), 200);
    IS(opened(304), MR_TMFO_ERR);
    IS(file_of(SHARED, 1, 303), 200);
}

/* A resource of the last file is changed, and written to its fork, while all others keep theirs. */
static void writes_last(void) {
    static const uint8_t other[2] = {0x7F, 0x7F};
    uint32_t handle = 0;
    size_t length = fork_of(FILES);
    IS(mr_get_resource(&files, &zone, OWN, FILES, &handle), MH_NO_ERR);
    IS(mh_poke(&zone, handle, 0, other, 2), MH_NO_ERR);
    IS(mr_changed_resource(&files, &zone, handle), MH_NO_ERR);
    IS(mr_update_res_file(&files, &zone, FILES), MH_NO_ERR);
    IS(mr_fork(&files, FILES, now, length), MH_NO_ERR);
    IS(memcmp(now, fork, length) != 0, true);
    for (uint32_t n = 1; n < FILES; n++) has_fork(n, n == 7 ? 302 : n == 100 ? 300 : n == 200 ? 303 : n);
}

int main(void) {
    IS(mh_make_zone(&zone, BASE, SIZE, SIZE, 32), MH_NO_ERR);
    IS(mr_begin(&files), MH_NO_ERR);
    opens_all();
    looks_back();
    closes_some();
    writes_last();
    for (uint32_t n = 1; n <= FILES; n++) IS(mr_close_res_file(&files, &zone, n), MH_NO_ERR);
    IS(opened(1), 1);
    IS(mr_end(&files), MH_NO_ERR);
    IS(mh_end_zone(&zone), MH_NO_ERR);
    return faults > 0;
}
