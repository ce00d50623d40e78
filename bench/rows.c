/* Lists all resources of a fork by `mf_rows` of the library for C, and by a plain loop that fills the same three lists and looks at the ends of
 * none, on forks of 5,458 and 1,282 resources; prints the best microseconds of a call, and their ratio. bench/rows.sh builds and runs it. */
#include "fork.h"
#include <macheap_fork.h>

#include <malloc.h>
#include <stdio.h>
#include <stdlib.h>
#include <string.h>

enum { RUNS = 60 };

/* the same by a plain loop */
static void loop(const uint8_t *fork, MfRow *rows, uint8_t *names, uint8_t *bytes) {
    const uint8_t *data = fork + number(fork, 4), *map = fork + number(fork + 4, 4);
    const uint8_t *types = map + number(map + 24, 2), *texts = map + number(map + 26, 2);
    uint32_t type_count = (number(types, 2) + 1) & 0xFFFF;
    for (uint32_t t = 0; t < type_count; t++) {
        const uint8_t *type = types + 2 + 8 * t, *row = types + number(type + 6, 2);
        for (uint32_t count = (number(type + 4, 2) + 1) & 0xFFFF; count--; row += 12, rows++) {
            const uint8_t *datum = data + number(row + 5, 3);
            uint32_t name = number(row + 2, 2), length = number(datum, 4);
            memcpy(rows->kind, type, 4);
            rows->id = (int16_t)number(row, 2);
            rows->attributes = row[4];
            rows->has_name = name != 0xFFFF;
            rows->name_length = rows->has_name ? texts[name] : 0;
            rows->data_length = length;
            if (rows->has_name) memcpy(names, texts + name + 1, rows->name_length), names += rows->name_length;
            memcpy(bytes, datum + 4, length), bytes += length;
        }
    }
}

static void measure(uint32_t count, uint32_t size, uint32_t name) {
    size_t length;
    uint8_t *fork = fork_of(count, size, name, &length);
    MfSizes sizes;
    if (mf_sizes(fork, length, &sizes) || sizes.rows != count) exit(1);
    MfRow *rows = calloc(sizes.rows, sizeof *rows), *others = calloc(sizes.rows, sizeof *rows);
    uint8_t *names = malloc(sizes.names + 1), *bytes = malloc(sizes.data + 1), *other_names = malloc(sizes.names + 1), *other_bytes = malloc(sizes.data + 1);
    double ours = 1e9, theirs = 1e9, sized = 1e9;
    for (int run = 0; run < RUNS; run++) {
        double start = now();
        if (mf_rows(fork, length, rows, sizes.rows, names, sizes.names, bytes, sizes.data)) exit(1);
        double middle = now();
        loop(fork, others, other_names, other_bytes);
        double end = now();
        if (mf_sizes(fork, length, &sizes)) exit(1);
        double last = now();
        if (middle - start < ours) ours = middle - start;
        if (end - middle < theirs) theirs = end - middle;
        if (last - end < sized) sized = last - end;
    }
    if (memcmp(names, other_names, sizes.names) || memcmp(bytes, other_bytes, sizes.data)) exit(1);
    for (uint32_t i = 0; i < count; i++)
        if (rows[i].id != others[i].id || rows[i].data_length != others[i].data_length || rows[i].name_length != others[i].name_length) exit(1);
    printf("%9u %10zu %10.0f %10.0f %10.0f %8.2f\n", count, length, sized, ours, theirs, ours / theirs);
}

int main(void) {
    printf("resources      bytes   mf_sizes    mf_rows     C loop    ratio   (microseconds)\n");
    /* so that malloc gives large blocks back to the system at no call */
    mallopt(M_MMAP_THRESHOLD, 1 << 30);
    mallopt(M_TRIM_THRESHOLD, 1 << 30);
    measure(1282, 560, 12);
    measure(5458, 0, 0);
    measure(5458, 128, 0);
    measure(5458, 128, 8);
    measure(5458, 730, 8);
    return 0;
}
