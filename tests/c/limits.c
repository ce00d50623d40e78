/* Forks at macheap's limits, and past them: these have a code of their own, and damage has another. It compares what C gets with what is
 * expected, prints a line for each that differs, and ends with status 1 then. */
#include "checks.h"
#include "macheap_fork.h"
#include "resman.h"

#include <string.h>

enum { BASE = 0x100000, SIZE = 0x10000, MOST = 4194304, ROWS = 8192, PIECE = MOST / 4 - 4, DATA = 256, OUTSIDE = 0xFFF0 };

static MhZone zone = MH_NO_ZONE;
static MrFiles files = MR_NO_FILES;
static uint8_t fork[MOST + 1];

/* A number of so many bytes at a place of the fork. */
static void number(size_t at, size_t count, size_t value) {
    for (; count > 0; value >>= 8) fork[at + --count] = (uint8_t)value;
}

/* Makes a fork of so many resources without names that are one datum of so many bytes: how many bytes the fork has. */
static size_t shared(size_t count, size_t datum) {
    size_t map = DATA + 4 + datum, list = map + 38, end = list + 12 * count;
    memset(fork, 0, sizeof fork);
    number(0, 4, DATA);
    number(4, 4, map);
    number(8, 4, 4 + datum);
    number(12, 4, end - map);
    number(DATA, 4, datum);
    number(map + 24, 2, 28);
    number(map + 26, 2, 0xFFFF);
    memcpy(fork + map + 30, "TEXT", 4);
    number(map + 34, 2, count - 1);
    number(map + 36, 2, 10);
    for (size_t n = 0; n < count; n++) {
        number(list + 12 * n, 2, n);
        number(list + 12 * n + 2, 2, 0xFFFF);
    }
    return end;
}

/* Each call that reads the fork answers so, and writes nothing where it refuses it. */
static void is(size_t length, MfErr code) {
    size_t count = 77;
    uint32_t file = 77;
    MfSizes sizes = {77, 77, 77};
    MfRow row = {{0}, 77, 0, false, 0, 0};
    MfExtra extra = {{0}, 77};
    IS(mf_count(fork, length, &count), code);
    IS(count == 77, code != MF_NO_ERR);
    IS(mf_sizes(fork, length, &sizes), code);
    IS(sizes.rows == 77, code != MF_NO_ERR);
    IS(mf_row(fork, length, 0, &row), code);
    IS(row.id == 77, code != MF_NO_ERR);
    IS(mf_extra(fork, length, &extra), code);
    IS(extra.map_attributes == 77, code != MF_NO_ERR);
    IS(mr_open(&files, &zone, fork, length, &file), code);
    IS(file == 77, code != MF_NO_ERR);
    /* written anew, resources that share their bytes may have more than a fork may have, so closing may answer dskFulErr */
    if (code == MF_NO_ERR) (void)mr_close_res_file(&files, &zone, file);
}

int main(void) {
    IS(mh_make_zone(&zone, BASE, SIZE, SIZE, 32), MH_NO_ERR);
    IS(mr_begin(&files), MH_NO_ERR);
    IS(MR_TOO_BIG, MF_TOO_BIG);
    is(shared(ROWS, 0), MF_NO_ERR);
    is(shared(ROWS + 1, 0), MF_TOO_BIG);
    is(shared(4, PIECE), MF_NO_ERR);
    is(shared(4, PIECE + 1), MF_TOO_BIG);
    shared(1, 0);
    is(15, MF_EOF_ERR);
    is(MOST, MF_NO_ERR);
    is(MOST + 1, MF_TOO_BIG);
    /* the map ends outside, which is found after a fork that is too long, and before too many resources */
    number(12, 4, MOST);
    is(MOST, MF_MAP_READ_ERR);
    is(MOST + 1, MF_TOO_BIG);
    is(shared(ROWS + 1, 0) - 1, MF_MAP_READ_ERR);
    /* a name ends outside, which is found after too many resources, and before too many bytes, as is a datum */
    for (size_t count = ROWS; count <= ROWS + 1; count++) {
        size_t length = shared(count, 0);
        number(DATA + 4 + 38 + 2, 2, OUTSIDE);
        is(length, count > ROWS ? MF_TOO_BIG : MF_MAP_READ_ERR);
    }
    size_t length = shared(4, PIECE + 1);
    number(DATA, 4, PIECE + 2);
    is(length, MF_MAP_READ_ERR);
    IS(mr_end(&files), MH_NO_ERR);
    IS(mh_end_zone(&zone), MH_NO_ERR);
    return faults > 0;
}
