/* Forks that are measured, the numbers in them, and the time. */
#include <stdint.h>
#include <stdlib.h>
#include <string.h>
#include <time.h>

static uint32_t number(const uint8_t *at, int count) {
    uint32_t n = 0;
    while (count--) n = n << 8 | *at++;
    return n;
}

static uint8_t *put(uint8_t *at, uint32_t n, int count) {
    for (int i = count; i--;) *at++ = (uint8_t)(n >> 8 * i);
    return at;
}

/* a fork of so many resources of one type, of so many bytes, and with names of eight bytes where they fit */
static uint8_t *fork_of(uint32_t count, uint32_t size, uint32_t name, size_t *length) {
    uint32_t data = count * (size + 4), map = 38 + 12 * count + count * name;
    *length = 256 + data + map;
    uint8_t *fork = calloc(*length, 1), *at = put(put(put(put(fork, 256, 4), 256 + data, 4), data, 4), map, 4);
    for (uint32_t i = 0; i < count; i++) put(fork + 256 + i * (size + 4), size, 4);
    at = put(put(fork + 256 + data + 24, 28, 2), 38 + 12 * count, 2);
    at = put(put(put(put(at, 0, 2), 0x54455854, 4), count - 1, 2), 10, 2);
    for (uint32_t i = 0; i < count; i++) {
        at = put(put(put(at, i, 2), name ? i * name : 0xFFFF, 2), 0, 1);
        at = put(put(at, i * (size + 4), 3), 0, 4);
    }
    for (uint32_t i = 0; name && i < count; i++) at = memset(put(at, name - 1, 1), 'n', name - 1), at += name - 1;
    return fork;
}

/* microseconds */
static double now(void) {
    struct timespec t;
    clock_gettime(CLOCK_MONOTONIC, &t);
    return t.tv_sec * 1e6 + t.tv_nsec / 1e3;
}
