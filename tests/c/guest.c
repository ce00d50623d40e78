/* A zone in memory of the host that a guest writes: makes calls on it, each between mh_wake or mh_wake_written and
 * mh_sleep, and compares what C gets, and the bytes, with what is expected. It prints a line for each that differs, and
 * ends with status 1 then. With the word `time` it prints how long such a call takes, and how long zones of many
 * megabytes take to make. */
#include "checks.h"
#include "macheap.h"

#include <string.h>
#include <time.h>

enum { BASE = 0x100000, LIMIT = 0x40000, EDGE = 64, HANDLES = 2048 };

/* the guest's RAM, with bytes around it that nothing may touch, and what a test compares it with */
static uint8_t room[EDGE + LIMIT + EDGE], before[LIMIT];
static uint8_t *const ram = room + EDGE;

typedef struct Guest {
    MhZone zone;
    MhAsleep asleep;
    MhMemory memory;
    uint32_t mode;
} Guest;

static Guest made(uint32_t size, uint32_t limit, uint32_t mode) {
    Guest guest = {MH_NO_ZONE, MH_NO_ASLEEP, {ram, limit, true}, mode};
    memset(room, 0xE5, EDGE);
    memset(room + EDGE + limit, 0xE5, EDGE);
    IS(mh_make_zone_at(&guest.asleep, &guest.memory, BASE, size, limit, mode), MH_NO_ERR);
    return guest;
}

static void woken(int line, Guest *guest) {
    same(line, "the code of mh_wake", mh_wake(&guest->zone, &guest->asleep, &guest->memory), MH_NO_ERR);
}
#define WAKE(guest) woken(__LINE__, guest)

static void slept(int line, Guest *guest) {
    same(line, "the code of mh_sleep", mh_sleep(&guest->zone, &guest->asleep, &guest->memory), MH_NO_ERR);
    same(line, "the bytes' place", guest->memory.start == ram && guest->memory.here, true);
}
#define SLEEP(guest) slept(__LINE__, guest)

static void ended(Guest *guest) {
    uint32_t limit = (uint32_t)guest->memory.length;
    IS(mh_end_asleep(&guest->asleep), MH_NO_ERR);
    IS(mh_end_asleep(&guest->asleep), MH_NOT_THERE);
    for (int at = 0; at < EDGE; at++) IS(room[at] == 0xE5 && room[EDGE + limit + at] == 0xE5, true);
}

static uint32_t word(uint32_t address) {
    const uint8_t *at = ram + (address - BASE);
    return (uint32_t)at[0] << 24 | (uint32_t)at[1] << 16 | (uint32_t)at[2] << 8 | at[3];
}

/* where the guest finds a handle's bytes */
static uint8_t *bytes_of(const Guest *guest, uint32_t handle) {
    uint32_t master = word(handle);
    return ram + ((guest->mode == 24 ? master & 0xFFFFFF : master) - BASE);
}

/* Which bits of each byte are structure: all of headers and master blocks, but for the guest's fields of the zone's header,
 * and the flags of full master pointers of mode 24. */
static void mark(Guest *guest, uint8_t *bits) {
    uint32_t head = guest->mode == 24 ? 8 : 12, at = 0;
    MhBlock block;
    memset(bits, 0, LIMIT);
    IS(mh_first_block(&guest->zone, &at), MH_NO_ERR);
    memset(bits, 0xFF, at - BASE);
    memset(bits + 4, 0, 4);
    memset(bits + 16, 0, 32);
    for (; mh_block(&guest->zone, at, &block) == MH_NO_ERR; at += block.size) {
        memset(bits + (at - BASE), 0xFF, block.kind == MH_MASTER ? head + block.length : head);
        if (block.kind == MH_REL && guest->mode == 24) bits[block.owner - BASE] = 0x1F;
    }
}

/* an empty handle whose flags a guest sets, or 0 */
static uint32_t empty;

/* One byte differs in some bits: the zone wakes where none of them is structure, and where all are flags of an empty handle,
 * which fall away. Else the code is MH_DAMAGED, and no byte has changed. */
static void changed(Guest *guest, const uint8_t *bits, uint32_t at, uint8_t change) {
    bool falls = empty == BASE + at && guest->mode == 24 && !(change & 0x1F), harmless = falls || !(bits[at] & change);
    uint8_t was = ram[at];
    ram[at] ^= change;
    memcpy(before, ram, guest->memory.length);
    IS(mh_wake(&guest->zone, &guest->asleep, &guest->memory), harmless ? MH_NO_ERR : MH_DAMAGED);
    if (harmless) SLEEP(guest);
    if (falls) before[at] = 0;
    IS(guest->memory.start == ram && guest->memory.here, true);
    IS(memcmp(before, ram, guest->memory.length), 0);
    ram[at] = was;
}

/* A guest that follows master pointers, reads and writes. */
static void lives(uint32_t mode) {
    uint8_t text[5];
    uint32_t handle = 0, pointer = 0, number = 0;
    Guest guest = made(4096, 4096, mode);
    WAKE(&guest);
    IS(mh_new_handle(&guest.zone, 5, &handle), MH_NO_ERR);
    IS(mh_new_ptr(&guest.zone, 8, &pointer), MH_NO_ERR);
    IS(mh_poke(&guest.zone, handle, 0, (const uint8_t *)"hello", 5), MH_NO_ERR);
    SLEEP(&guest);
    IS(memcmp(bytes_of(&guest, handle), "hello", 5), 0);
    memcpy(bytes_of(&guest, handle), "guest", 5);
    memcpy(ram + (pointer - BASE), "12345678", 8);
    WAKE(&guest);
    IS(mh_peek(&guest.zone, handle, 0, text, 5), MH_NO_ERR);
    IS(memcmp(text, "guest", 5), 0);
    IS(mh_get_handle_size(&guest.zone, handle, &number), MH_NO_ERR);
    IS(number, 5);
    IS(mh_set_handle_size(&guest.zone, handle, 900), MH_NO_ERR);
    IS(mh_deref(&guest.zone, handle, &number), MH_NO_ERR);
    SLEEP(&guest);
    IS(ram + (number - BASE) == bytes_of(&guest, handle), true);
    IS(memcmp(bytes_of(&guest, handle), "guest", 5), 0);
    IS(memcmp(ram + (pointer - BASE), "12345678", 8), 0);
    ended(&guest);
}

/* The guest sets and clears flags by the bits of master pointers. */
static void flags(void) {
    uint32_t first = 0, second = 0, number = 0, place;
    Guest guest = made(4096, 4096, 24);
    WAKE(&guest);
    IS(mh_new_handle(&guest.zone, 100, &first), MH_NO_ERR);
    IS(mh_new_handle(&guest.zone, 100, &second), MH_NO_ERR);
    SLEEP(&guest);
    place = word(second);
    ram[second - BASE] |= MH_LOCK;
    WAKE(&guest);
    IS(mh_hget_state(&guest.zone, second, &number), MH_NO_ERR);
    IS(number, MH_LOCK);
    IS(mh_dispose_handle(&guest.zone, first), MH_NO_ERR);
    IS(mh_compact_mem(&guest.zone, 4096, &number), MH_NO_ERR);
    SLEEP(&guest);
    IS(word(second), (int64_t)(place | 0x80000000));
    ram[second - BASE] = MH_PURGE;
    WAKE(&guest);
    IS(mh_compact_mem(&guest.zone, 4096, &number), MH_NO_ERR);
    IS(mh_hget_state(&guest.zone, second, &number), MH_NO_ERR);
    IS(number, MH_PURGE);
    IS(mh_deref(&guest.zone, second, &number), MH_NO_ERR);
    IS((number & 0xFFFFFF) < place, true);
    IS(mh_compact_mem(&guest.zone, 4096, &number), MH_NO_ERR);
    IS(mh_purge_mem(&guest.zone, number + 50), MH_NO_ERR);
    SLEEP(&guest);
    IS(word(second), 0);
    ended(&guest);
}

/* A guest sets flags by BSET, also in the master pointer of a handle that is empty: they say nothing there. The zone wakes, the
 * pointer is nil again, and the handle's next block has no flag. Where the zone doesn't wake they stay. */
static void flags_of_nil(void) {
    enum { MANY = 300 };
    static uint32_t handles[MANY];
    MhFault fault = {7, 7};
    uint32_t number = 0, full = 0;
    Guest guest = made(LIMIT, LIMIT, 24);
    WAKE(&guest);
    IS(mh_new_handle(&guest.zone, 100, &full), MH_NO_ERR);
    for (int i = 0; i < MANY; i++) IS(mh_new_empty_handle(&guest.zone, &handles[i]), MH_NO_ERR);
    SLEEP(&guest);
    for (int told = 0; told < 2; told++) {
        static MhWritten written[MANY];
        for (uint32_t i = 0; i < MANY; i++) {
            ram[handles[i] - BASE] |= (uint8_t)((1 + i % 7) << 5);
            written[i] = (MhWritten){handles[i] - BASE, 1};
        }
        ram[full - BASE] |= MH_LOCK;
        written[0] = (MhWritten){0, LIMIT};
        ram[full - BASE + 3] ^= 4;
        memcpy(before, ram, LIMIT);
        IS(mh_check(&guest.asleep, &guest.memory, &fault), MH_DAMAGED);
        IS(fault.offset, full - BASE + 3);
        IS(mh_wake(&guest.zone, &guest.asleep, &guest.memory), MH_DAMAGED);
        IS(mh_wake_written(&guest.zone, &guest.asleep, &guest.memory, written, 1), MH_DAMAGED);
        IS(memcmp(before, ram, LIMIT), 0);
        ram[full - BASE + 3] ^= 4;
        before[full - BASE + 3] ^= 4;
        IS(mh_check(&guest.asleep, &guest.memory, &fault), MH_NO_ERR);
        IS(memcmp(before, ram, LIMIT), 0);
        written[0] = (MhWritten){handles[0] - BASE, 1};
        if (told) IS(mh_wake_written(&guest.zone, &guest.asleep, &guest.memory, written, MANY), MH_NO_ERR);
        else WAKE(&guest);
        IS(mh_hget_state(&guest.zone, handles[0], &number), MH_NIL_HANDLE_ERR);
        IS(mh_reallocate_handle(&guest.zone, handles[1], 10), MH_NO_ERR);
        IS(mh_hget_state(&guest.zone, handles[1], &number), MH_NO_ERR);
        IS(number, 0);
        IS(mh_empty_handle(&guest.zone, handles[1]), MH_NO_ERR);
        SLEEP(&guest);
        for (int i = 0; i < MANY; i++) IS(word(handles[i]), 0);
        IS(word(full) >> 24, MH_LOCK);
    }
    ended(&guest);
}

/* The fields of the zone's header that are the guest's, as Inside Macintosh has them: each name, offset and length. */
static const struct { const char *name; uint32_t at, count; } fields[] = {
    {"purgePtr", 4, 4}, {"gzProc", 16, 4}, {"moreMast", 20, 2}, {"flags", 22, 2}, {"cntRel", 24, 2}, {"maxRel", 26, 2}, {"cntNRel", 28, 2},
    {"maxNRel", 30, 2}, {"cntEmpty", 32, 2}, {"cntHandles", 34, 2}, {"minCBFree", 36, 4}, {"purgeProc", 40, 4}, {"sparePtr", 44, 4}};
enum { FIELDS = sizeof fields / sizeof fields[0], HEADER = 52 };

/* The header is as it was, but for the zcbFree and allocPtr that a call may change. */
static void kept(int line, const uint8_t *now, const uint8_t *then) {
    for (int f = 0; f < FIELDS; f++) same(line, fields[f].name, memcmp(now + fields[f].at, then + fields[f].at, fields[f].count), 0);
}
#define KEPT(now, then) kept(__LINE__, now, then)

/* A guest writes its fields of the header, one after another and all at random, between calls: each is kept, as it left it, whatever the
 * calls do, by mh_sleep, mh_image, mh_make_zone_of, mh_attach, mh_check and mh_repair. In a new zone they are zero, but for moreMast. */
static void guest_fields(uint32_t mode) {
    static const MhWritten first = {0, HEADER};
    static uint8_t image[LIMIT];
    uint8_t then[HEADER] = {0};
    uint32_t handles[8] = {0}, number = 0;
    size_t count = 0;
    MhFault fault = {77, 77};
    MhZone plain = MH_NO_ZONE;
    Guest guest = made(4096, 8192, mode);
    then[21] = 64;
    KEPT(ram, then);
    for (uint32_t n = 0; n < 200; n++) {
        const uint32_t f = n % FIELDS;
        for (uint32_t i = 0; n < 100 && i < fields[f].count; i++) ram[fields[f].at + i] = (uint8_t)below(256);
        for (int all = 0; n >= 100 && all < FIELDS; all++)
            for (uint32_t i = 0; i < fields[all].count; i++) ram[fields[all].at + i] = (uint8_t)below(256);
        memcpy(then, ram, HEADER);
        IS(mh_check(&guest.asleep, &guest.memory, &fault), MH_NO_ERR);
        IS(memcmp(then, ram, HEADER), 0);
        if (n % 2) WAKE(&guest);
        else IS(mh_wake_written(&guest.zone, &guest.asleep, &guest.memory, &first, n % 4 / 2), MH_NO_ERR);
        uint32_t *handle = &handles[below(8)];
        if (!*handle) IS(mh_new_handle(&guest.zone, below(300), handle), MH_NO_ERR);
        else if (mh_dispose_handle(&guest.zone, *handle) == MH_NO_ERR) *handle = 0;
        if (n == 150) mh_max_appl_zone(&guest.zone);
        IS(mh_compact_mem(&guest.zone, 4096, &number), MH_NO_ERR);
        IS(mh_image_size(&guest.zone, &count), MH_NO_ERR);
        IS(mh_image(&guest.zone, image, count), MH_NO_ERR);
        KEPT(image, then);
        SLEEP(&guest);
        KEPT(ram, then);
        IS(memcmp(ram, image, count), 0);
        IS(mh_make_zone_of(&plain, BASE, (uint32_t)count, 8192, mode, image, count), MH_NO_ERR);
        memset(image, 0, count);
        IS(mh_image(&plain, image, count), MH_NO_ERR);
        IS(memcmp(ram, image, count), 0);
        IS(mh_end_zone(&plain), MH_NO_ERR);
        MhAsleep other = MH_NO_ASLEEP;
        IS(mh_attach(&other, &guest.memory, BASE, (uint32_t)count, 8192, mode), MH_NO_ERR);
        IS(memcmp(ram, image, count), 0);
        IS(mh_end_asleep(&guest.asleep), MH_NO_ERR);
        guest.asleep = other;
        ram[n % 4] ^= 0x11;
        IS(mh_wake(&guest.zone, &guest.asleep, &guest.memory), MH_DAMAGED);
        KEPT(ram, then);
        IS(mh_check(&guest.asleep, &guest.memory, &fault), MH_DAMAGED);
        IS(fault.offset == n % 4 && fault.part == MH_ZONE_HEADER, true);
        IS(mh_repair(&guest.asleep, &guest.memory), MH_NO_ERR);
        IS(memcmp(ram, image, count), 0);
    }
    ended(&guest);
}

/* A guest locks a handle by its master pointer, and damages the zone. mh_repair keeps the lock, so the block stays where it is; a master
 * pointer that leads elsewhere gets the flags that the handle had. */
static void locks_kept(void) {
    uint32_t low = 0, locked = 0, purged = 0, number = 0, place;
    Guest guest = made(4096, 4096, 24);
    WAKE(&guest);
    IS(mh_new_handle(&guest.zone, 100, &low), MH_NO_ERR);
    IS(mh_new_handle(&guest.zone, 100, &locked), MH_NO_ERR);
    IS(mh_new_handle(&guest.zone, 100, &purged), MH_NO_ERR);
    IS(mh_hpurge(&guest.zone, purged), MH_NO_ERR);
    SLEEP(&guest);
    place = word(locked);
    ram[locked - BASE] |= MH_LOCK;
    ram[purged - BASE] = MH_LOCK | MH_RESOURCE;
    ram[purged - BASE + 3] ^= 4;
    ram[48] ^= 1;
    IS(mh_wake(&guest.zone, &guest.asleep, &guest.memory), MH_DAMAGED);
    IS(mh_repair(&guest.asleep, &guest.memory), MH_NO_ERR);
    IS(word(locked), (int64_t)(place | 0x80000000));
    WAKE(&guest);
    IS(mh_hget_state(&guest.zone, locked, &number), MH_NO_ERR);
    IS(number, MH_LOCK);
    IS(mh_hget_state(&guest.zone, purged, &number), MH_NO_ERR);
    IS(number, MH_PURGE);
    IS(mh_dispose_handle(&guest.zone, low), MH_NO_ERR);
    IS(mh_compact_mem(&guest.zone, 4096, &number), MH_NO_ERR);
    SLEEP(&guest);
    IS(word(locked), (int64_t)(place | 0x80000000));
    ram[locked - BASE] ^= MH_LOCK | 0x10;
    IS(mh_wake(&guest.zone, &guest.asleep, &guest.memory), MH_DAMAGED);
    IS(mh_repair(&guest.asleep, &guest.memory), MH_NO_ERR);
    IS(word(locked), place);
    WAKE(&guest);
    IS(mh_compact_mem(&guest.zone, 4096, &number), MH_NO_ERR);
    SLEEP(&guest);
    IS(word(locked) < place, true);
    ended(&guest);
}

/* Each byte of a small zone, in some bits. */
static void each_byte(uint32_t mode) {
    static uint8_t bits[LIMIT];
    uint32_t handle = 0, number = 0;
    Guest guest = made(1024, 1280, mode);
    WAKE(&guest);
    IS(mh_new_handle(&guest.zone, 30, &handle), MH_NO_ERR);
    IS(mh_hlock(&guest.zone, handle), MH_NO_ERR);
    IS(mh_new_handle(&guest.zone, 40, &handle), MH_NO_ERR);
    IS(mh_empty_handle(&guest.zone, handle), MH_NO_ERR);
    empty = handle;
    IS(mh_new_handle(&guest.zone, 50, &handle), MH_NO_ERR);
    IS(mh_hpurge(&guest.zone, handle), MH_NO_ERR);
    IS(mh_new_ptr(&guest.zone, 20, &number), MH_NO_ERR);
    mark(&guest, bits);
    SLEEP(&guest);
    for (uint32_t at = 0; at < guest.memory.length; at++) {
        for (uint8_t change = 1; change; change = (uint8_t)(change << 1)) changed(&guest, bits, at, change);
        changed(&guest, bits, at, 0xFF);
    }
    empty = 0;
    memset(ram, 0, guest.memory.length);
    IS(mh_wake(&guest.zone, &guest.asleep, &guest.memory), MH_DAMAGED);
    ended(&guest);
}

/* Calls at random on a zone in the guest's RAM, each between mh_wake and mh_sleep, and on one like it of the library's
 * own. */
static void random_calls(uint32_t mode, uint32_t calls) {
    static uint8_t image[LIMIT], others[LIMIT];
    uint32_t handles[64] = {0};
    MhZone plain = MH_NO_ZONE;
    memset(ram, 0, LIMIT);
    Guest guest = made(0x4000, 0x4000, mode);
    IS(mh_make_zone(&plain, BASE, 0x4000, 0x4000, mode), MH_NO_ERR);
    for (uint32_t n = 0; n < calls; n++) {
        uint32_t *handle = &handles[below(64)], size = below(900), kind = below(8), one = 0, other = 0;
        uint32_t state = below(8) * 32;
        MhErr code = 0, wanted = 0;
        WAKE(&guest);
        MhZone *zones[] = {&guest.zone, &plain};
        for (int z = 0; z < 2; z++) {
            uint32_t *number = z ? &other : &one;
            wanted = code;
            if (kind < 2 && !*handle) code = mh_new_handle(zones[z], size, number);
            else if (kind == 2) code = mh_dispose_handle(zones[z], *handle);
            else if (kind == 3) code = mh_set_handle_size(zones[z], *handle, size);
            else if (kind == 4) code = mh_hset_state(zones[z], *handle, state);
            else if (kind == 5) code = mh_empty_handle(zones[z], *handle);
            else if (kind == 6) code = mh_compact_mem(zones[z], size, number);
            else code = mh_reallocate_handle(zones[z], *handle, size);
        }
        IS(code, wanted);
        IS(one, other);
        if (code == 0 && kind < 2 && !*handle) *handle = one;
        if (code == 0 && kind == 2) *handle = 0;
        size_t count = 0, as_many = 0;
        IS(mh_image_size(&guest.zone, &count), MH_NO_ERR);
        IS(mh_image_size(&plain, &as_many), MH_NO_ERR);
        IS(count, (int64_t)as_many);
        IS(mh_image(&guest.zone, image, count), MH_NO_ERR);
        IS(mh_image(&plain, others, count), MH_NO_ERR);
        IS(memcmp(image, others, count), 0);
        SLEEP(&guest);
        IS(memcmp(image, ram, count), 0);
    }
    IS(mh_end_zone(&plain), MH_NO_ERR);
    ended(&guest);
}

/* One bit of structure inside a range is changed: the zone doesn't wake, and no byte has changed. */
static void refused(Guest *guest, const uint8_t *bits, const MhWritten *written, uint32_t count) {
    const MhWritten *range = &written[below(count)];
    uint8_t change = (uint8_t)(1 << below(8));
    uint32_t at = range->from + below(range->count);
    if (at >= guest->memory.length || !(bits[at] & change)) return;
    if (change >= 0x20 && at % 4 == 0 && !word(BASE + at)) return; /* it may be an empty handle's */
    ram[at] ^= change;
    memcpy(before, ram, guest->memory.length);
    IS(mh_wake_written(&guest->zone, &guest->asleep, &guest->memory, written, count), MH_DAMAGED);
    IS(guest->memory.start == ram && guest->memory.here, true);
    IS(memcmp(before, ram, guest->memory.length), 0);
    ram[at] ^= change;
}

/* The zone falls asleep: each byte that differs from what it was when it woke is in one of so many ranges at most, which are in order. */
static void slept_telling(int line, Guest *guest, const uint8_t *woken, size_t room) {
    MhWritten ranges[20];
    size_t count = 77, end = 0;
    same(line, "the code of mh_sleep_wrote", mh_sleep_wrote(&guest->zone, &guest->asleep, &guest->memory, ranges, room, &count), MH_NO_ERR);
    same(line, "the bytes' place", guest->memory.start == ram && guest->memory.here, true);
    same(line, "so many ranges", count <= room, true);
    for (size_t r = 0; r < count; end = ranges[r].from + ranges[r].count, r++) {
        same(line, "ranges in order", ranges[r].from >= end && ranges[r].count > 0 && ranges[r].from + ranges[r].count <= guest->memory.length, true);
        same(line, "bytes outside", memcmp(ram + end, woken + end, ranges[r].from - end), 0);
    }
    same(line, "bytes outside", memcmp(ram + end, woken + end, guest->memory.length - end), 0);
}
#define SLEEP_TELLING(guest, room) slept_telling(__LINE__, guest, before, room)

/* A guest that writes contents and flags at random, and says where: the zone wakes by these ranges alone, with its bytes
 * and flags just as they are. */
static void told_writes(uint32_t mode, uint32_t calls) {
    enum { RANGES = 6, SIZE = 0x4000, ODD = 3 };
    /* no bytes, and bytes that the zone hasn't */
    static const MhWritten odd[ODD] = {{7, 0}, {UINT32_MAX, UINT32_MAX}, {SIZE + 5, 9}};
    static uint8_t bits[LIMIT], image[LIMIT];
    uint32_t handles[64] = {0};
    memset(ram, 0, LIMIT);
    Guest guest = made(SIZE, SIZE, mode);
    WAKE(&guest);
    mark(&guest, bits);
    SLEEP(&guest);
    for (uint32_t n = 0; n < calls; n++) {
        MhWritten written[RANGES + ODD];
        uint32_t count = below(RANGES), one = below(64), size = below(900), kind = below(6), number = 0;
        for (uint32_t r = 0; r < count; r++) {
            written[r] = (MhWritten){below(SIZE), 1 + below(64)};
            for (uint32_t at = written[r].from; at < SIZE && at < written[r].from + written[r].count; at++)
                ram[at] ^= (uint8_t)(below(256) & ~(uint32_t)bits[at]);
        }
        if (count) refused(&guest, bits, written, count);
        memcpy(before, ram, SIZE);
        memcpy(&written[count], odd, sizeof odd);
        IS(mh_wake_written(&guest.zone, &guest.asleep, &guest.memory, written, count + below(ODD + 1)), MH_NO_ERR);
        size_t length = 0;
        IS(mh_image_size(&guest.zone, &length), MH_NO_ERR);
        IS(mh_image(&guest.zone, image, length), MH_NO_ERR);
        IS(memcmp(image, before, length), 0);
        for (uint32_t i = 0; i < 64; i++) {
            if (mode != 24 || !handles[i] || mh_hget_state(&guest.zone, handles[i], &number) != MH_NO_ERR) continue;
            IS(number, before[handles[i] - BASE] & 0xE0);
        }
        if (kind < 2 && !handles[one]) mh_new_handle(&guest.zone, size, &handles[one]);
        else if (kind == 2 && mh_dispose_handle(&guest.zone, handles[one]) == MH_NO_ERR) handles[one] = 0;
        else if (kind == 3) mh_set_handle_size(&guest.zone, handles[one], size);
        else if (kind == 4) mh_compact_mem(&guest.zone, size, &number);
        else mh_reallocate_handle(&guest.zone, handles[one], size);
        mark(&guest, bits);
        if (n % 2) SLEEP(&guest);
        else SLEEP_TELLING(&guest, 1 + below(20));
    }
    ended(&guest);
}

/* Which bytes a call wrote: of a copy from block to block only the second's; none of another block's; all where the room is small. */
static void what_was_written(uint32_t mode) {
    enum { SIZE = 0x8000, BLOCK = 1000 };
    uint32_t handles[20], number = 0;
    MhWritten ranges[16];
    size_t count = 77;
    MhWindow window = {NULL, 0};
    memset(ram, 0, LIMIT);
    Guest guest = made(SIZE, SIZE, mode);
    WAKE(&guest);
    for (int i = 0; i < 20; i++) IS(mh_new_handle(&guest.zone, BLOCK, &handles[i]), MH_NO_ERR);
    SLEEP(&guest);
    memcpy(before, ram, SIZE);
    WAKE(&guest);
    IS(mh_sleep_wrote(&guest.zone, &guest.asleep, &guest.memory, ranges, 0, &count), MH_BAD_NUMBER);
    IS(count, 77);
    IS(mh_hlock(&guest.zone, handles[19]), MH_NO_ERR);
    SLEEP_TELLING(&guest, 16);
    for (int way = 0; way < 3; way++) {
        memcpy(before, ram, SIZE);
        WAKE(&guest);
        if (way == 0) IS(mh_block_move(&guest.zone, handles[2], 0, handles[12], 0, BLOCK), MH_NO_ERR);
        if (way == 1) IS(mh_poke(&guest.zone, handles[12], 100, (const uint8_t *)"poke", 4), MH_NO_ERR);
        if (way == 2) IS(mh_set_handle_size(&guest.zone, handles[12], 10), MH_NO_ERR);
        IS(mh_sleep_wrote(&guest.zone, &guest.asleep, &guest.memory, ranges, 16, &count), MH_NO_ERR);
        uint32_t place = (uint32_t)(bytes_of(&guest, handles[12]) - ram), all = 0;
        for (size_t r = 0; r < count; r++) {
            all += ranges[r].count;
            IS(ranges[r].from + ranges[r].count <= 52 || (ranges[r].from + 200 > place && ranges[r].from + ranges[r].count < place + BLOCK + 200), true);
        }
        IS(all < BLOCK + 300, true);
    }
    memcpy(before, ram, SIZE);
    WAKE(&guest);
    IS(mh_lend(&guest.zone, handles[19]), MH_NO_ERR);
    IS(mh_window(&guest.zone, handles[19], &window), MH_NO_ERR);
    memset(window.start, 0x77, window.length);
    SLEEP_TELLING(&guest, 16);
    memcpy(before, ram, SIZE);
    WAKE(&guest);
    IS(mh_return(&guest.zone, handles[19]), MH_NO_ERR);
    for (int i = 0; i < 19; i += 2) IS(mh_dispose_handle(&guest.zone, handles[i]), MH_NO_ERR);
    IS(mh_sleep_wrote(&guest.zone, &guest.asleep, &guest.memory, ranges, 1, &count), MH_NO_ERR);
    IS(count == 1 && ranges[0].from == 0 && ranges[0].count == SIZE, true);
    memcpy(before, ram, SIZE);
    WAKE(&guest);
    IS(mh_compact_mem(&guest.zone, SIZE, &number), MH_NO_ERR);
    SLEEP_TELLING(&guest, 16);
    ended(&guest);
}

/* Zones of up to 2,000 blocks: one byte of structure is changed, and right again. */
static void damages(uint32_t zones) {
    static uint8_t bits[LIMIT];
    static uint32_t handles[HANDLES];
    for (uint32_t n = 0; n < zones; n++) {
        uint32_t count = 1 + below(n % 10 ? 200 : 2000), at;
        Guest guest = made(LIMIT, LIMIT, n & 1 ? 24 : 32);
        WAKE(&guest);
        for (uint32_t i = 0; i < count; i++) IS(mh_new_handle(&guest.zone, below(80), &handles[i]), MH_NO_ERR);
        for (uint32_t i = 0; i < count; i += 1 + below(4)) IS(mh_dispose_handle(&guest.zone, handles[i]), MH_NO_ERR);
        mark(&guest, bits);
        SLEEP(&guest);
        do at = below(LIMIT);
        while (bits[at] != 0xFF);
        changed(&guest, bits, at, (uint8_t)(1 + below(255)));
        at = below(LIMIT);
        if (!bits[at]) changed(&guest, bits, at, 0xFF);
        WAKE(&guest);
        SLEEP(&guest);
        ended(&guest);
    }
}

/* A lent block where a zone wakes: C has its bytes as the guest left them, and each call on it is refused. */
static void still_lent(Guest *guest, uint32_t block, const MhWindow *window, const uint8_t *wanted, uint32_t count) {
    static uint8_t bytes[LIMIT];
    MhWindow now = {NULL, 0};
    IS(mh_window(&guest->zone, block, &now), MH_NO_ERR);
    IS(now.start == window->start && now.length == count, true);
    IS(memcmp(now.start, wanted, count), 0);
    IS(mh_lent_peek(&guest->zone, block, 0, bytes, count), MH_NO_ERR);
    IS(memcmp(bytes, wanted, count), 0);
    IS(mh_peek(&guest->zone, block, 0, bytes, 1), MH_MEM_LOCKED_ERR);
    IS(mh_poke(&guest->zone, block, 0, bytes, 1), MH_MEM_LOCKED_ERR);
    IS(mh_lend(&guest->zone, block), MH_MEM_LOCKED_ERR);
}

/* A guest unlocks a handle that is lent: the zone sleeps on, and no byte has changed. */
static void unlocked(Guest *guest, uint32_t handle) {
    static const MhWritten all = {0, LIMIT};
    ram[handle - BASE] &= (uint8_t)~MH_LOCK;
    memcpy(before, ram, guest->memory.length);
    IS(mh_wake(&guest->zone, &guest->asleep, &guest->memory), MH_MEM_LOCKED_ERR);
    IS(mh_wake_written(&guest->zone, &guest->asleep, &guest->memory, &all, 1), MH_MEM_LOCKED_ERR);
    IS(guest->memory.start == ram && guest->memory.here, true);
    IS(memcmp(before, ram, guest->memory.length), 0);
    ram[0] ^= 1;
    IS(mh_wake(&guest->zone, &guest->asleep, &guest->memory), MH_DAMAGED);
    ram[0] ^= 1;
    ram[handle - BASE] |= MH_LOCK;
}

/* A pointer's block and a locked handle's stay lent over many sleeps. C writes in them through its windows, awake and
 * asleep, and the guest writes at random. */
static void lent_asleep(uint32_t mode, uint32_t calls) {
    enum { SIZE = 0x4000, LENT = 600 };
    static uint8_t bits[LIMIT], wanted[2][LENT];
    uint32_t handles[32] = {0}, lent[2] = {0, 0}, place[2] = {0, 0}, number = 0;
    MhWindow windows[2] = {{NULL, 0}, {NULL, 0}};
    memset(ram, 0, LIMIT);
    Guest guest = made(SIZE, SIZE, mode);
    WAKE(&guest);
    for (uint32_t n = 0; n < 8; n++) IS(mh_new_handle(&guest.zone, 100, &handles[n]), MH_NO_ERR);
    IS(mh_new_handle(&guest.zone, LENT, &lent[0]), MH_NO_ERR);
    IS(mh_new_ptr(&guest.zone, LENT, &lent[1]), MH_NO_ERR);
    IS(mh_hlock(&guest.zone, lent[0]), MH_NO_ERR);
    for (int b = 0; b < 2; b++) IS(mh_lend(&guest.zone, lent[b]), MH_NO_ERR);
    for (int b = 0; b < 2; b++) IS(mh_window(&guest.zone, lent[b], &windows[b]), MH_NO_ERR);
    IS(mh_deref(&guest.zone, lent[0], &place[0]), MH_NO_ERR);
    place[0] = (mode == 24 ? place[0] & 0xFFFFFF : place[0]) - BASE;
    place[1] = lent[1] - BASE;
    for (int b = 0; b < 2; b++) IS(windows[b].start == ram + place[b] && windows[b].length == LENT, true);
    for (uint32_t n = 0; n < calls; n++) {
        uint32_t *handle = &handles[below(32)], size = below(400), kind = below(5);
        for (int b = 0; b < 2; b++) {
            memcpy(wanted[b], windows[b].start, LENT);
            windows[b].start[size] = wanted[b][size] = (uint8_t)below(256);
        }
        if (kind < 2 && !*handle) mh_new_handle(&guest.zone, size, handle);
        else if (kind == 2 && mh_dispose_handle(&guest.zone, *handle) == MH_NO_ERR) *handle = 0;
        else if (kind == 3) mh_set_handle_size(&guest.zone, *handle, size);
        else IS(mh_compact_mem(&guest.zone, SIZE, &number), MH_NO_ERR);
        IS(mh_hunlock(&guest.zone, lent[0]), MH_MEM_LOCKED_ERR);
        IS(mh_dispose_handle(&guest.zone, lent[0]), MH_MEM_LOCKED_ERR);
        IS(mh_set_handle_size(&guest.zone, lent[0], size), MH_MEM_LOCKED_ERR);
        IS(mh_dispose_ptr(&guest.zone, lent[1]), MH_MEM_LOCKED_ERR);
        mark(&guest, bits);
        SLEEP(&guest);
        for (int b = 0; b < 2; b++) IS(memcmp(ram + place[b], wanted[b], LENT), 0);
        for (uint32_t w = below(64); w > 0; w--) {
            uint32_t at = below(SIZE);
            ram[at] ^= (uint8_t)(below(256) & ~(uint32_t)bits[at]);
            windows[w & 1].start[below(LENT)] = (uint8_t)below(256);
        }
        if (mode == 24) ram[lent[0] - BASE] |= MH_LOCK;
        for (int b = 0; b < 2; b++) memcpy(wanted[b], ram + place[b], LENT);
        if (mode == 24 && below(4) == 0) unlocked(&guest, lent[0]);
        WAKE(&guest);
        for (int b = 0; b < 2; b++) still_lent(&guest, lent[b], &windows[b], wanted[b], LENT);
    }
    for (int b = 0; b < 2; b++) {
        static uint8_t bytes[LENT];
        IS(mh_return(&guest.zone, lent[b]), MH_NO_ERR);
        IS(mh_peek(&guest.zone, lent[b], 0, bytes, LENT), MH_NO_ERR);
        IS(memcmp(bytes, wanted[b], LENT), 0);
    }
    SLEEP(&guest);
    if (mode == 24) ram[lent[0] - BASE] &= (uint8_t)~MH_LOCK;
    WAKE(&guest);
    IS(mh_lend(&guest.zone, lent[1]), MH_NO_ERR);
    SLEEP(&guest);
    ended(&guest);
}

/* Eight blocks are lent, and wake in other memory: there C has their bytes. */
static void lent_elsewhere(void) {
    static uint8_t elsewhere[4096];
    uint32_t pointers[8] = {0}, ninth = 0;
    MhWindow window = {NULL, 0};
    Guest guest = made(4096, 4096, 24);
    WAKE(&guest);
    for (int n = 0; n < 8; n++) {
        IS(mh_new_ptr(&guest.zone, 20, &pointers[n]), MH_NO_ERR);
        IS(mh_poke(&guest.zone, pointers[n], 0, (const uint8_t *)"lent", 4), MH_NO_ERR);
    }
    for (int n = 8; n-- > 0;) IS(mh_lend(&guest.zone, pointers[n]), MH_NO_ERR);
    IS(mh_new_ptr(&guest.zone, 20, &ninth), MH_NO_ERR);
    SLEEP(&guest);
    memcpy(elsewhere, ram, 4096);
    MhMemory moved = {elsewhere, 4096, true};
    IS(mh_wake(&guest.zone, &guest.asleep, &moved), MH_NO_ERR);
    for (int n = 0; n < 8; n++) {
        IS(mh_window(&guest.zone, pointers[n], &window), MH_NO_ERR);
        IS(window.start == elsewhere + (pointers[n] - BASE) && window.length == 20, true);
        IS(memcmp(window.start, "lent", 4), 0);
    }
    IS(mh_lend(&guest.zone, ninth), MH_PARAM_ERR);
    IS(mh_return(&guest.zone, pointers[3]), MH_NO_ERR);
    IS(mh_lend(&guest.zone, ninth), MH_NO_ERR);
    IS(mh_sleep(&guest.zone, &guest.asleep, &moved), MH_NO_ERR);
    memcpy(ram, elsewhere, 4096);
    WAKE(&guest);
    IS(mh_return(&guest.zone, pointers[3]), MH_PARAM_ERR);
    for (int n = 0; n < 8; n++) if (n != 3) IS(mh_return(&guest.zone, pointers[n]), MH_NO_ERR);
    IS(mh_return(&guest.zone, ninth), MH_NO_ERR);
    SLEEP(&guest);
    ended(&guest);
}

/* A guest's grow-zone procedure empties one handle a call, which frees about 800 bytes, and the guest wants 40,000: the
 * call is made again until it has them, 44 times, or until the procedure has nothing left. */
static void patient(uint32_t mode) {
    enum { MANY = 75, SIZE = 0x10000 };
    uint32_t handles[MANY] = {0}, wanted = 0, emptied = 0, asks = 0;
    Guest guest = made(SIZE, SIZE, mode);
    WAKE(&guest);
    for (int n = 0; n < MANY; n++) IS(mh_new_handle(&guest.zone, 792, &handles[n]), MH_NO_ERR);
    SLEEP(&guest);
    for (int is_last = 0; is_last < 2; is_last++) {
        MhErr code;
        for (;;) {
            uint32_t count = 0;
            MhAsk ask = {0, 0, 0, 0};
            WAKE(&guest);
            code = mh_new_handle(&guest.zone, 40000, &wanted);
            IS(mh_asked(&guest.zone, &count), MH_NO_ERR);
            IS(count, code == MH_NO_ERR ? 0 : 1);
            if (count) IS(mh_ask(&guest.zone, 0, &ask), MH_NO_ERR);
            SLEEP(&guest);
            if (!count) break;
            IS(ask.needed, mode == 24 ? 40008 : 40012);
            IS(ask.answered, 0);
            asks++;
            if (emptied == MANY) break;
            WAKE(&guest);
            IS(mh_empty_handle(&guest.zone, handles[emptied++]), MH_NO_ERR);
            SLEEP(&guest);
        }
        IS(code, is_last ? MH_MEM_FULL_ERR : MH_NO_ERR);
        IS(asks, is_last ? MANY + 1 : 44);
    }
    ended(&guest);
}

/* What can't be done, and changes nothing. */
static void misuse(void) {
    static uint8_t elsewhere[4096];
    uint32_t handle = 0;
    MhZone plain = MH_NO_ZONE;
    Guest none = {MH_NO_ZONE, MH_NO_ASLEEP, {elsewhere, 4096, true}, 24};
    IS(mh_wake(&none.zone, &none.asleep, &none.memory), MH_NOT_THERE);
    IS(mh_sleep(&none.zone, &none.asleep, &none.memory), MH_IN_USE);
    IS(mh_make_zone_at(&none.asleep, &none.memory, BASE, 4096, 8192, 24), MH_BAD_NUMBER);
    IS(mh_make_zone_at(&none.asleep, &none.memory, BASE, 4096, 4096, 25), MH_BAD_NUMBER);
    IS(none.memory.start == elsewhere && none.memory.length == 4096 && none.memory.here, true);
    Guest guest = made(4096, 4096, 24);
    IS(mh_make_zone_at(&guest.asleep, &guest.memory, BASE, 4096, 4096, 24), MH_IN_USE);
    IS(mh_new_handle(&guest.zone, 10, &handle), MH_NOT_THERE);
    IS(mh_get_handle_size(&guest.zone, 0, &handle), MH_NOT_THERE);
    IS(mh_lend(&guest.zone, BASE), MH_NOT_THERE);
    IS(mh_end_zone(&guest.zone), MH_NOT_THERE);
    guest.memory.length = 4092;
    IS(mh_wake(&guest.zone, &guest.asleep, &guest.memory), MH_BAD_NUMBER);
    guest.memory.length = 4096;
    IS(mh_make_zone(&plain, BASE, 4096, 4096, 24), MH_NO_ERR);
    IS(mh_wake(&plain, &guest.asleep, &guest.memory), MH_IN_USE);
    IS(mh_sleep(&plain, &none.asleep, &guest.memory), MH_IN_USE);
    WAKE(&guest);
    IS(guest.memory.start == NULL && guest.memory.length == 0 && !guest.memory.here, true);
    IS(mh_sleep(&plain, &guest.asleep, &guest.memory), MH_NOT_THERE);
    IS(mh_wake(&guest.zone, &guest.asleep, &guest.memory), MH_IN_USE);
    IS(mh_sleep(&guest.zone, &guest.asleep, &none.memory), MH_IN_USE);
    IS(mh_new_ptr(&guest.zone, 10, &handle), MH_NO_ERR);
    SLEEP(&guest);
    IS(mh_sleep(&guest.zone, &guest.asleep, &guest.memory), MH_IN_USE);
    memcpy(elsewhere, ram, 4096);
    MhMemory moved = {elsewhere, 4096, true};
    IS(mh_wake(&guest.zone, &guest.asleep, &moved), MH_NO_ERR);
    IS(mh_poke(&guest.zone, handle, 0, (const uint8_t *)"moved", 5), MH_NO_ERR);
    IS(mh_sleep(&guest.zone, &guest.asleep, &moved), MH_NO_ERR);
    IS(moved.start == elsewhere && memcmp(elsewhere + (handle - BASE), "moved", 5) == 0, true);
    IS(mh_end_zone(&plain), MH_NO_ERR);
    ended(&guest);
}

static double seconds(void) {
    struct timespec now;
    timespec_get(&now, TIME_UTC);
    return (double)now.tv_sec + (double)now.tv_nsec * 1e-9;
}

static int timed(void) {
    enum { MEGABYTE = 0x100000, LARGE = 64 * MEGABYTE, BLOCKS = 2000, CALLS = 20000 };
    uint8_t *bytes = calloc(LARGE, 1);
    uint32_t handle = 0, number = 0;
    MhZone zone = MH_NO_ZONE;
    MhAsleep asleep = MH_NO_ASLEEP;
    MhMemory memory = {bytes, MEGABYTE, true};
    if (!bytes || mh_make_zone_at(&asleep, &memory, BASE, MEGABYTE, MEGABYTE, 24)) return 1;
    if (mh_wake(&zone, &asleep, &memory)) return 1;
    for (int n = 0; n < BLOCKS; n++) if (mh_new_handle(&zone, 400, &handle)) return 1;
    if (mh_sleep(&zone, &asleep, &memory)) return 1;
    double start = seconds();
    for (int n = 0; n < CALLS; n++) {
        if (mh_wake(&zone, &asleep, &memory) || mh_get_handle_size(&zone, handle, &number)) return 1;
        if (mh_sleep(&zone, &asleep, &memory)) return 1;
    }
    double all = seconds() - start;
    if (mh_wake(&zone, &asleep, &memory)) return 1;
    start = seconds();
    for (int n = 0; n < CALLS; n++) if (mh_get_handle_size(&zone, handle, &number)) return 1;
    double call = seconds() - start;
    printf("wake, GetHandleSize, sleep: %.2f us; GetHandleSize: %.3f us\n", all / CALLS * 1e6, call / CALLS * 1e6);
    if (mh_sleep(&zone, &asleep, &memory) || mh_end_asleep(&asleep)) return 1;
    for (uint32_t limit = MEGABYTE; limit <= LARGE; limit *= 8) {
        memory = (MhMemory){bytes, limit, true};
        start = seconds();
        if (mh_make_zone_at(&asleep, &memory, BASE, limit, limit, 32)) return 1;
        printf("a zone of %u MB is made in %.2f ms\n", limit / MEGABYTE, (seconds() - start) * 1e3);
        if (mh_end_asleep(&asleep)) return 1;
    }
    free(bytes);
    return 0;
}

int main(int count, char **words) {
    if (count > 1 && strcmp(words[1], "time") == 0) return timed();
    for (uint32_t mode = 24; mode <= 32; mode += 8) {
        lives(mode);
        guest_fields(mode);
        each_byte(mode);
        random_calls(mode, 20000);
        told_writes(mode, 20000);
        what_was_written(mode);
        lent_asleep(mode, 20000);
        patient(mode);
    }
    flags();
    flags_of_nil();
    locks_kept();
    damages(600);
    lent_elsewhere();
    misuse();
    return faults != 0;
}
