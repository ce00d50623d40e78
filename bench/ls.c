/* Lists a resource fork as `resfork ls` does, in plain C, to be compared with it: the file is read whole, the map is walked, and each line is
 * written by printf. Nothing but the ends of the lists is checked. bench/ls.sh compiles and runs it. */
#include <stdint.h>
#include <stdio.h>
#include <stdlib.h>
#include <string.h>
#include <sys/stat.h>

static uint32_t number(const uint8_t *at, int count) {
    uint32_t n = 0;
    while (count--) n = n << 8 | *at++;
    return n;
}

int main(int words, char **word) {
    static const char *const names[8] = {"bit7", "sysHeap", "purgeable", "locked", "protected", "preload", "changed", "bit0"};
    struct stat about;
    FILE *file = words == 2 ? fopen(word[1], "rb") : NULL;
    if (!file || fstat(fileno(file), &about)) return 4;
    uint8_t *fork = malloc(about.st_size + 1);
    if (!fork || fread(fork, 1, about.st_size, file) != (size_t)about.st_size || about.st_size < 16) return 4;
    const uint8_t *data = fork + number(fork, 4), *map = fork + number(fork + 4, 4), *end = fork + about.st_size;
    if (map + 28 > end) return 3;
    const uint8_t *types = map + number(map + 24, 2), *texts = map + number(map + 26, 2);
    uint32_t type_count = (number(types, 2) + 1) & 0xFFFF;
    for (uint32_t t = 0; t < type_count; t++) {
        const uint8_t *type = types + 2 + 8 * t, *row = types + number(type + 6, 2);
        uint32_t count = (number(type + 4, 2) + 1) & 0xFFFF;
        for (; count--; row += 12) {
            if (row + 12 > end) return 3;
            const uint8_t *datum = data + number(row + 5, 3);
            if (datum + 4 > end) return 3;
            printf("%.4s %6d %8u ", (const char *)type, (int16_t)number(row, 2), (unsigned)number(datum, 4));
            const char *comma = "";
            for (int bit = 0; bit < 8; bit++)
                if (row[4] & 128 >> bit) {
                    printf("%s%s", comma, names[bit]);
                    comma = ",";
                }
            if (!row[4]) putchar('-');
            uint32_t name = number(row + 2, 2);
            if (name != 0xFFFF) printf(" \"%.*s\"", texts[name], (const char *)texts + name + 1);
            putchar('\n');
        }
    }
    return 0;
}
