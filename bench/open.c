/* Opens forks of 1,282 and 5,458 resources by `mr_open` of the library for C, beside a plain parse in C that copies the fork and fills a list
 * of its resources, and looks at the ends of none; prints the best microseconds of each, and their ratio. Next it gets each resource of the
 * fork by its id, and prints the nanoseconds of a call. bench/border.sh builds and runs it. */
#define _POSIX_C_SOURCE 200809L
#include "fork.h"
#include "resman.h"

#include <stdio.h>
#include <stdlib.h>
#include <string.h>

enum { RUNS = 40, TEXT = 0x54455854, ZONE = 16 << 20 };

typedef struct Row {
    uint32_t kind, length, start, name;
    int16_t id;
    uint8_t attributes;
} Row;

static MhZone zone = MH_NO_ZONE;
static MrFiles files = MR_NO_FILES;

/* The plain parse: how many rows there are. */
static size_t parse(const uint8_t *given, size_t length, uint8_t *fork, Row *rows) {
    size_t found = 0;
    memcpy(fork, given, length);
    const uint8_t *data = fork + number(fork, 4), *map = fork + number(fork + 4, 4), *types = map + number(map + 24, 2);
    uint32_t type_count = (number(types, 2) + 1) & 0xFFFF;
    for (uint32_t t = 0; t < type_count; t++) {
        const uint8_t *type = types + 2 + 8 * t, *row = types + number(type + 6, 2);
        for (uint32_t count = (number(type + 4, 2) + 1) & 0xFFFF; count--; row += 12) {
            uint32_t start = number(row + 5, 3);
            rows[found++] = (Row){number(type, 4), number(data + start, 4), start + 4, number(row + 2, 2), (int16_t)number(row, 2), row[4]};
        }
    }
    return found;
}

static void measure(uint32_t count, uint32_t size) {
    size_t length = 0;
    uint8_t *fork = fork_of(count, size, 8, &length), *copy = malloc(length);
    Row *rows = calloc(count, sizeof *rows);
    double ours = 1e9, theirs = 1e9;
    uint32_t file = 0, handle = 0;
    for (int run = 0; run < RUNS; run++) {
        double start = now();
        if (mr_open(&files, &zone, fork, length, &file)) exit(1);
        double middle = now();
        if (parse(fork, length, copy, rows) != count) exit(1);
        double end = now();
        if (middle - start < ours) ours = middle - start;
        if (end - middle < theirs) theirs = end - middle;
        if (run + 1 < RUNS && mr_close_res_file(&files, &zone, file)) exit(1);
    }
    double start = now();
    for (uint32_t id = 0; id < count; id++)
        if (mr_get_resource(&files, &zone, TEXT, (int16_t)id, &handle)) exit(1);
    double got = (now() - start) * 1000 / count;
    start = now();
    for (uint32_t id = 0; id < count; id++)
        if (mr_get_resource(&files, &zone, TEXT, (int16_t)id, &handle)) exit(1);
    printf("%9u %10zu %10.0f %10.0f %8.2f %10.0f %10.0f\n", count, length, ours, theirs, ours / theirs, got, (now() - start) * 1000 / count);
    if (mr_close_res_file(&files, &zone, file)) exit(1);
    free(fork), free(copy), free(rows);
}

int main(void) {
    if (mh_make_zone_large(&zone, 0x100000, ZONE, ZONE, 32) || mr_begin(&files)) return 1;
    printf("resources      bytes    mr_open    C parse    ratio (microseconds), GetResource at first and again (nanoseconds)\n");
    measure(1282, 560);
    measure(5458, 0);
    measure(5458, 128);
    measure(5458, 730);
    measure(5458, 2000);
    return 0;
}
