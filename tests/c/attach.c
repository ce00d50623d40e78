/* Zones made of bytes that others wrote. mh_attach and mh_make_zone_of are given a zone that is written by hand, random bytes, and
 * zones with a changed byte; which of them are zones says a check here, by the form that docs/DIFFERENCES.md describes. Zones that are
 * made anew of their bytes again and again have to go on like one that isn't. It prints a line for each thing that differs, and ends
 * with status 1 then. */
#include "checks.h"
#include "macheap.h"

#include <string.h>

enum { BASE = 0x100000, LIMIT = 0x40000, EDGE = 64, HEADER = 52, SLOTS = 64, HANDLES = 2048 };

/* the bytes that are attached, with bytes around them that nothing may touch, and what a test compares them with */
static uint8_t room[EDGE + LIMIT + EDGE], before[LIMIT];
static uint8_t *const ram = room + EDGE;

static uint32_t word(const uint8_t *at) {
    return (uint32_t)at[0] << 24 | (uint32_t)at[1] << 16 | (uint32_t)at[2] << 8 | at[3];
}

static void put(uint8_t *at, uint32_t number) {
    for (int n = 0; n < 4; n++) at[n] = (uint8_t)(number >> (24 - 8 * n));
}

/* a block, read off its header */
typedef struct Block {
    uint32_t size, kind, length, word;
} Block;

/* The block at an offset. It is possible: its size is, its header is just what it says, and less than a smallest block is over. */
static bool block_at(const uint8_t *bytes, uint32_t at, uint32_t size, uint32_t mode, Block *block) {
    uint32_t head = mode == 24 ? 8 : 12, least = head + 4, first, low, need;
    if (size - at < least) return false;
    first = word(bytes + at);
    block->size = mode == 24 ? first & 0xFFFFFF : word(bytes + at + 4);
    block->word = word(bytes + at + head - 4);
    low = mode == 24 ? first >> 24 & 15 : first & 0xFF;
    if (mode == 32 && (first & 0x0F00FF00 || first & 0x1F0000)) return false;
    if (block->size % 4 || block->size < least || block->size > size - at || low > block->size - head) return false;
    block->length = block->size - head - low;
    need = (head + block->length + 3) / 4 * 4;
    if (need < least) need = least;
    if (block->size - need >= least) return false;
    switch (first >> 28) {
    case 0: block->kind = MH_FREE; return low == 0 && block->word == 0 && (mode == 24 || !(first & 0xFF0000));
    case 4: block->kind = MH_PTR; return block->word == BASE && (mode == 24 || !(first & 0xFF0000));
    case 5: block->kind = MH_MASTER; return block->word == BASE && block->length == 4 * SLOTS && (mode == 24 || !(first & 0xFF0000));
    case 8: block->kind = MH_REL; return true;
    default: return false;
    }
}

/* what a master pointer says: the next free one plus 1; 0; or where contents begin. ~0 where it says nothing. */
static uint32_t said(uint32_t master, uint32_t mode) {
    if (mode == 32) return master;
    if (master >> 24 == 1) return (master & 0xFFFFFF) + 1;
    return master == 0 || (!(master & 0x1F000000) && master & 0xFFFFFF) ? master & 0xFFFFFF : ~0u;
}

/* by offset: the offset of the contents of the block whose handle it is, and which master pointers there are */
static uint32_t contents[LIMIT];
static uint8_t is_slot[LIMIT];

/* Whether each handle's block has a master pointer of its own, which leads to it, and free master pointers follow one another. */
static bool are_linked(const uint8_t *bytes, uint32_t size, uint32_t mode) {
    uint32_t free_ones = 0, next = word(bytes + 8), at;
    for (at = 0; at < size; at += 4) {
        uint32_t says = is_slot[at] ? said(word(bytes + at), mode) : 0;
        if (says == ~0u) return false;
        free_ones += says % 2;
        if (says % 2) says = 0;
        if (says != (contents[at] ? BASE + contents[at] : 0)) return false;
    }
    for (; next; free_ones--) {
        at = next - BASE;
        if (!free_ones || at >= size || at % 4 || !is_slot[at] || said(word(bytes + at), mode) % 2 == 0) return false;
        next = said(word(bytes + at), mode) - 1;
    }
    return free_ones == 0;
}

/* Whether bytes are those of a zone that begins at BASE and has this size. */
static bool is_zone(const uint8_t *bytes, uint32_t size, uint32_t mode) {
    uint8_t header[HEADER];
    uint32_t at, free_bytes = 0, lowest = 0, head = mode == 24 ? 8 : 12;
    bool was_free = false;
    Block block;
    memset(contents, 0, size * sizeof contents[0]);
    memset(is_slot, 0, size);
    for (at = HEADER; at < size; at += block.size) {
        if (!block_at(bytes, at, size, mode, &block) || (was_free && block.kind == MH_FREE)) return false;
        was_free = block.kind == MH_FREE;
        if (was_free) free_bytes += block.size;
        if (was_free && !lowest) lowest = BASE + at;
        if (block.kind == MH_MASTER) for (uint32_t n = 0; n < SLOTS; n++) is_slot[at + head + 4 * n] = 1;
        if (block.kind != MH_REL) continue;
        if (block.word >= size || contents[block.word]) return false;
        contents[block.word] = at + head;
    }
    for (at = 0; at < size; at++) if (contents[at] && !is_slot[at]) return false;
    /* all but bkLim, hFstFree, zcbFree and allocPtr is the guest's */
    memcpy(header, bytes, HEADER);
    put(header, BASE + size);
    put(header + 12, free_bytes);
    put(header + 48, lowest);
    return memcmp(header, bytes, HEADER) == 0 && are_linked(bytes, size, mode);
}

/* The bytes in `ram` are attached just where they are a zone, and are as they were. What is attached wakes in them. */
static bool attached(int line, uint32_t size, uint32_t limit, uint32_t mode) {
    bool wanted = is_zone(ram, size, mode);
    MhZone zone = MH_NO_ZONE;
    MhAsleep asleep = MH_NO_ASLEEP;
    MhMemory memory = {ram, limit, true};
    memset(room, 0xE5, EDGE);
    memset(ram + limit, 0xE5, EDGE);
    memcpy(before, ram, limit);
    same(line, "the code of mh_attach", mh_attach(&asleep, &memory, BASE, size, limit, mode), wanted ? MH_NO_ERR : MH_DAMAGED);
    same(line, "the bytes' place", memory.start == ram && memory.length == limit && memory.here, true);
    same(line, "the code of mh_make_zone_of", mh_make_zone_of(&zone, BASE, size, limit, mode, ram, size), wanted ? MH_NO_ERR : MH_DAMAGED);
    same(line, "the code of mh_end_zone", mh_end_zone(&zone), wanted ? MH_NO_ERR : MH_NOT_THERE);
    if (wanted) same(line, "the code of mh_wake", mh_wake(&zone, &asleep, &memory), MH_NO_ERR);
    if (wanted) same(line, "the code of mh_sleep", mh_sleep(&zone, &asleep, &memory), MH_NO_ERR);
    same(line, "the code of mh_end_asleep", mh_end_asleep(&asleep), wanted ? MH_NO_ERR : MH_NOT_THERE);
    same(line, "the bytes", memcmp(before, ram, limit), 0);
    for (int at = 0; at < EDGE; at++) if (room[at] != 0xE5 || ram[limit + (uint32_t)at] != 0xE5) same(line, "an edge", 0, 1);
    return wanted;
}
#define ATTACHED(size, limit, mode) attached(__LINE__, size, limit, mode)

/* The bytes of a zone are copied to `ram`, with zeros up to its limit. */
static uint32_t copied(int line, MhZone *zone, uint32_t limit) {
    size_t size = 0;
    memset(ram, 0, limit);
    same(line, "the code of mh_image_size", mh_image_size(zone, &size), MH_NO_ERR);
    same(line, "the code of mh_image", mh_image(zone, ram, size), MH_NO_ERR);
    return (uint32_t)size;
}
#define COPIED(zone, limit) copied(__LINE__, zone, limit)

/* The zone of 4096 bytes in docs/DESIGN.md after NewHandle 100, written by hand: it has that handle. */
static void by_hand(void) {
    MhZone zone = MH_NO_ZONE;
    uint32_t number = 0;
    memset(ram, 0, 4096);
    put(ram, 0x101000);
    put(ram + 0x08, 0x100040);
    put(ram + 0x0C, 0xE58);
    ram[0x15] = 0x40;
    put(ram + 0x30, 0x1001A8);
    put(ram + 0x34, 0x50000108);
    put(ram + 0x38, 0x100000);
    put(ram + 0x3C, 0x100144);
    for (uint32_t at = 0x40; at < 0x138; at += 4) put(ram + at, 0x01100000 + at + 4);
    put(ram + 0x138, 0x01000000);
    put(ram + 0x13C, 0x8000006C);
    put(ram + 0x140, 0x3C);
    memcpy(ram + 0x144, "by hand", 7);
    put(ram + 0x1A8, 0xE58);
    IS(ATTACHED(4096, 4096, 24), true);
    IS(mh_make_zone_of(&zone, BASE, 4096, 8192, 24, ram, 4096), MH_NO_ERR);
    IS(mh_get_handle_size(&zone, 0x10003C, &number), MH_NO_ERR);
    IS(number, 100);
    IS(mh_peek(&zone, 0x10003C, 0, before, 7), MH_NO_ERR);
    IS(memcmp(before, "by hand", 7), 0);
    IS(mh_free_mem(&zone, &number), MH_NO_ERR);
    IS(number, 0xE58);
    IS(mh_end_zone(&zone), MH_NO_ERR);
}

/* A zone with a bit of all. */
static MhZone varied(uint32_t mode, uint32_t size, uint32_t limit) {
    MhZone zone = MH_NO_ZONE;
    uint32_t handle = 0, first = 0;
    IS(mh_make_zone(&zone, BASE, size, limit, mode), MH_NO_ERR);
    IS(mh_new_handle(&zone, 12, &first), MH_NO_ERR);
    IS(mh_new_handle(&zone, 30, &handle), MH_NO_ERR);
    IS(mh_hlock(&zone, handle), MH_NO_ERR);
    IS(mh_new_handle(&zone, 40, &handle), MH_NO_ERR);
    IS(mh_empty_handle(&zone, handle), MH_NO_ERR);
    IS(mh_new_handle(&zone, 50, &handle), MH_NO_ERR);
    IS(mh_hpurge(&zone, handle), MH_NO_ERR);
    IS(mh_new_ptr(&zone, 20, &handle), MH_NO_ERR);
    IS(mh_new_handle(&zone, 0, &handle), MH_NO_ERR);
    IS(mh_dispose_handle(&zone, first), MH_NO_ERR);
    return zone;
}

/* Random bytes: all of them; after a right header; or a run of them within a zone. */
static void random_bytes(uint32_t zones) {
    uint32_t refused = 0;
    for (uint32_t n = 0; n < zones; n++) {
        uint32_t mode = n & 1 ? 24 : 32, size = 1024 + 4 * below(65), from = 0, to = size;
        MhZone zone = varied(mode, size, size);
        IS(COPIED(&zone, size), size);
        IS(mh_end_zone(&zone), MH_NO_ERR);
        if (n % 3) from = HEADER;
        if (n % 3 == 2) from = below(size), to = from + 1 + below(size - from < 16 ? size - from : 16);
        for (uint32_t at = from; at < to; at++) ram[at] = (uint8_t)below(256);
        refused += !ATTACHED(size, size, mode);
    }
    IS(refused > zones / 3 * 2, true);
}

/* Each byte of a small zone, in some bits. */
static void each_byte(uint32_t mode) {
    MhZone zone = varied(mode, 1024, 1280);
    IS(COPIED(&zone, 1280), 1024);
    IS(mh_end_zone(&zone), MH_NO_ERR);
    IS(ATTACHED(1024, 1280, mode), true);
    for (uint32_t at = 0; at < 1280; at++) {
        for (uint32_t change = 1; change <= 0x100; change <<= 1) {
            uint8_t bits = (uint8_t)(change == 0x100 ? 0xFF : change);
            ram[at] ^= bits;
            ATTACHED(1024, 1280, mode);
            ram[at] ^= bits;
        }
    }
}

/* Zones of 20 to 2,000 blocks: a byte of a header or a master block is changed, and right again. */
static void damages(uint32_t zones) {
    static uint32_t handles[HANDLES], places[LIMIT / 4];
    for (uint32_t n = 0; n < zones; n++) {
        MhZone zone = MH_NO_ZONE;
        uint32_t count = 20 + below(n % 10 ? 200 : 1980), mode = n & 1 ? 24 : 32, head = mode == 24 ? 8 : 12, at = 0, some = HEADER;
        MhBlock block;
        IS(mh_make_zone(&zone, BASE, LIMIT, LIMIT, mode), MH_NO_ERR);
        for (uint32_t i = 0; i < count; i++) IS(mh_new_handle(&zone, below(80), &handles[i]), MH_NO_ERR);
        for (uint32_t i = 0; i < count; i += 1 + below(4)) IS(mh_dispose_handle(&zone, handles[i]), MH_NO_ERR);
        for (uint32_t i = 0; i < HEADER; i++) places[i] = i;
        IS(mh_first_block(&zone, &at), MH_NO_ERR);
        for (; mh_block(&zone, at, &block) == MH_NO_ERR; at += block.size) {
            uint32_t bytes = block.kind == MH_MASTER ? head + block.length : head;
            for (uint32_t i = 0; i < bytes && some < LIMIT / 4; i++) places[some++] = at - BASE + i;
        }
        IS(COPIED(&zone, LIMIT), LIMIT);
        IS(mh_end_zone(&zone), MH_NO_ERR);
        at = places[below(some)];
        uint8_t was = ram[at];
        ram[at] ^= (uint8_t)(1 + below(255));
        ATTACHED(LIMIT, LIMIT, mode);
        ram[at] = was;
        IS(ATTACHED(LIMIT, LIMIT, mode), true);
    }
}

/* The zone ends, and another one is made of its bytes. */
static void restored(MhZone *zone, uint32_t limit, uint32_t mode) {
    static uint8_t bytes[LIMIT];
    size_t size = 0;
    IS(mh_image_size(zone, &size), MH_NO_ERR);
    IS(mh_image(zone, bytes, size), MH_NO_ERR);
    IS(mh_end_zone(zone), MH_NO_ERR);
    IS(mh_make_zone_of(zone, BASE, (uint32_t)size, limit, mode, bytes, size), MH_NO_ERR);
}

/* The zone, which is awake in `ram`, falls asleep and ends, and another one is made of its bytes, in which it wakes. */
static void attached_again(MhZone *zone, uint32_t limit, uint32_t mode) {
    MhAsleep asleep = MH_NO_ASLEEP, other = MH_NO_ASLEEP;
    MhMemory memory = {NULL, 0, false};
    size_t size = 0;
    IS(mh_image_size(zone, &size), MH_NO_ERR);
    IS(mh_sleep(zone, &asleep, &memory), MH_NO_ERR);
    IS(mh_attach(&other, &memory, BASE, (uint32_t)size, limit, mode), MH_NO_ERR);
    IS(mh_end_asleep(&asleep), MH_NO_ERR);
    IS(mh_wake(zone, &other, &memory), MH_NO_ERR);
    IS(mh_end_asleep(&other), MH_NOT_THERE);
}

/* One call: which it is, and its operands. */
typedef struct Call {
    uint32_t kind, handle, size, state;
} Call;

static MhErr made(MhZone *zone, const Call *call, uint32_t *number) {
    switch (call->kind) {
    case 0: return mh_new_handle(zone, call->size, number);
    case 1: return call->handle ? mh_dispose_handle(zone, call->handle) : mh_new_handle(zone, call->size, number);
    case 2: return mh_set_handle_size(zone, call->handle, call->size);
    case 3: return mh_hset_state(zone, call->handle, call->state);
    case 4: return mh_empty_handle(zone, call->handle);
    case 5: return mh_compact_mem(zone, call->size, number);
    case 6: return mh_reallocate_handle(zone, call->handle, call->size);
    case 7: return mh_new_ptr(zone, call->size / 8, number);
    case 8: return mh_dispose_ptr(zone, call->handle);
    case 9: return mh_move_hhi(zone, call->handle);
    case 10: return mh_purge_space(zone, number, number + 1);
    default: return mh_poke(zone, call->handle, call->size / 2, (const uint8_t *)call, sizeof *call);
    }
}

/* Calls at random on three zones: one as it is; one that is made anew of its bytes now and then, and one in `ram` that is attached anew.
 * They answer the same, and have the same bytes. */
static void random_calls(uint32_t mode, uint32_t calls) {
    enum { SIZE = 0x2000, MOST = 0x4000, LIVE = 64 };
    static uint8_t images[3][LIMIT];
    uint32_t live[LIVE] = {0};
    MhZone zones[3] = {MH_NO_ZONE, MH_NO_ZONE, MH_NO_ZONE};
    MhAsleep asleep = MH_NO_ASLEEP;
    MhMemory memory = {ram, MOST, true};
    memset(ram, 0, MOST);
    IS(mh_make_zone(&zones[0], BASE, SIZE, MOST, mode), MH_NO_ERR);
    IS(mh_make_zone(&zones[1], BASE, SIZE, MOST, mode), MH_NO_ERR);
    IS(mh_make_zone_at(&asleep, &memory, BASE, SIZE, MOST, mode), MH_NO_ERR);
    IS(mh_wake(&zones[2], &asleep, &memory), MH_NO_ERR);
    IS(mh_end_asleep(&asleep), MH_NOT_THERE);
    for (uint32_t n = 0; n < calls; n++) {
        uint32_t *one = &live[below(LIVE)], numbers[3][2] = {{0}};
        Call call = {below(12), *one, below(900), below(8) * 32};
        MhErr codes[3];
        size_t sizes[3] = {0};
        if (below(4) == 0) restored(&zones[1], MOST, mode);
        if (below(4) == 0) attached_again(&zones[2], MOST, mode);
        for (int z = 0; z < 3; z++) {
            codes[z] = made(&zones[z], &call, numbers[z]);
            IS(mh_image_size(&zones[z], &sizes[z]), MH_NO_ERR);
            IS(mh_image(&zones[z], images[z], sizes[z]), MH_NO_ERR);
        }
        for (int z = 1; z < 3; z++) {
            IS(codes[z], codes[0]);
            IS(memcmp(numbers[z], numbers[0], sizeof numbers[0]), 0);
            IS(sizes[z], (int64_t)sizes[0]);
            IS(memcmp(images[z], images[0], sizes[0]), 0);
        }
        if (codes[0] == MH_NO_ERR && (call.kind == 0 || call.kind == 7 || (call.kind == 1 && !*one))) *one = numbers[0][0];
        else if (codes[0] == MH_NO_ERR && (call.kind == 1 || call.kind == 8)) *one = 0;
    }
    IS(mh_sleep(&zones[2], &asleep, &memory), MH_NO_ERR);
    IS(mh_end_asleep(&asleep), MH_NO_ERR);
    IS(mh_end_zone(&zones[0]), MH_NO_ERR);
    IS(mh_end_zone(&zones[1]), MH_NO_ERR);
}

/* What can't be done, and changes nothing. */
static void misuse(void) {
    MhZone zone = varied(24, 4096, 4096), other = MH_NO_ZONE;
    MhAsleep asleep = MH_NO_ASLEEP;
    MhMemory memory = {ram, 4096, true}, gone = {NULL, 0, false};
    uint32_t number = 0;
    IS(COPIED(&zone, 4096), 4096);
    IS(mh_attach(&asleep, &gone, BASE, 4096, 4096, 24), MH_NOT_THERE);
    IS(gone.start == NULL && gone.length == 0 && !gone.here, true);
    IS(mh_attach(&asleep, &memory, BASE, 4096, 4096, 25), MH_BAD_NUMBER);
    IS(mh_attach(&asleep, &memory, BASE, 4096, 8192, 24), MH_BAD_NUMBER);
    IS(mh_attach(&asleep, &memory, BASE + 2, 4096, 4096, 24), MH_BAD_NUMBER);
    IS(mh_attach(&asleep, &memory, BASE, 4096, 4096, 32), MH_DAMAGED);
    IS(mh_attach(&asleep, &memory, BASE, 4080, 4096, 24), MH_DAMAGED);
    IS(mh_attach(&asleep, &memory, BASE + 4, 4096, 4096, 24), MH_DAMAGED);
    IS(mh_end_asleep(&asleep), MH_NOT_THERE);
    IS(mh_attach(&asleep, &memory, BASE, 4096, 4096, 24), MH_NO_ERR);
    IS(mh_attach(&asleep, &memory, BASE, 4096, 4096, 24), MH_IN_USE);
    IS(memory.start == ram && memory.length == 4096 && memory.here, true);
    IS(mh_end_asleep(&asleep), MH_NO_ERR);
    IS(mh_make_zone_of(&zone, BASE, 4096, 4096, 24, ram, 4096), MH_IN_USE);
    IS(mh_make_zone_of(&other, BASE, 4096, 4096, 24, ram, 4092), MH_BAD_NUMBER);
    IS(mh_make_zone_of(&other, BASE, 4096, 4092, 24, ram, 4096), MH_BAD_NUMBER);
    IS(mh_make_zone_of(&other, BASE, 4096, 4096, 0, ram, 4096), MH_BAD_NUMBER);
    IS(mh_make_zone_of(&other, BASE, 4096, 4096, 32, ram, 4096), MH_DAMAGED);
    IS(mh_free_mem(&other, &number), MH_NOT_THERE);
    IS(mh_end_zone(&zone), MH_NO_ERR);
}

int main(void) {
    by_hand();
    misuse();
    random_bytes(100000);
    for (uint32_t mode = 24; mode <= 32; mode += 8) {
        each_byte(mode);
        random_calls(mode, 20000);
    }
    damages(600);
    return faults != 0;
}
