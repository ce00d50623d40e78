/* Has handles purged, and compares which, in which order, and what is left, with what is expected: worked by hand from the rule that as
 * few are purged as serve, the lowest first. The same calls are made while purges are held: each that would purge is, and is made again
 * once the handle that it names is emptied, or is unpurgeable. Next it makes 80,000 random calls on two zones that begin alike, in one of
 * which purges are held. Both have to give the same answers and to have the same bytes throughout, and what the one purges is what calls of
 * the other were held for. It prints a line for each that differs, and ends with status 1 then. */
#include "checks.h"
#include "macheap.h"

#include <string.h>

/* A zone of 4096 bytes has 52 bytes of its header, a master block of 264, and 3780 after them. A block of 24-bit headers has 8 bytes and
 * its contents. */
enum { BASE = 0x100000, SIZE = 4096, ROOM = 8, MAX = 8388608 };

static MhZone sized(uint32_t size, uint32_t limit, uint32_t mode) {
    MhZone zone = MH_NO_ZONE;
    IS(mh_make_zone(&zone, BASE, size, limit, mode), MH_NO_ERR);
    return zone;
}

static MhZone fresh(void) { return sized(SIZE, SIZE, 24); }

static void ended(MhZone *zone) { IS(mh_end_zone(zone), MH_NO_ERR); }

static uint32_t new_handle(MhZone *zone, uint32_t size, bool purgeable) {
    uint32_t h = 0;
    IS(mh_new_handle(zone, size, &h), MH_NO_ERR);
    if (purgeable) IS(mh_hpurge(zone, h), MH_NO_ERR);
    return h;
}

/* The last call purged just these handles, in this order. */
static void purged(int line, MhZone *zone, const uint32_t *wanted, uint32_t count) {
    uint32_t found[ROOM] = {0}, were = 99;
    same(line, "the code of mh_purged", mh_purged(zone, found, ROOM, &were), MH_NO_ERR);
    same(line, "how many were purged", were, count);
    for (uint32_t n = 0; n < ROOM; n++) same(line, "the purged handle", found[n], n < count ? wanted[n] : 0);
}
#define PURGED(zone, ...) purged(__LINE__, zone, (uint32_t[]){__VA_ARGS__}, sizeof((uint32_t[]){__VA_ARGS__}) / sizeof(uint32_t))
#define PURGED_NONE(zone) purged(__LINE__, zone, NULL, 0)

/* The last call was held for this handle. */
static void waits(int line, MhZone *zone, uint32_t wanted) {
    uint32_t handle = 0;
    same(line, "the code of mh_would_purge", mh_would_purge(zone, &handle), MH_NO_ERR);
    same(line, "the handle that would be purged", handle, wanted);
    purged(line, zone, NULL, 0);
}
#define WAITS(zone, wanted) waits(__LINE__, zone, wanted)

static void not_held(int line, MhZone *zone) {
    uint32_t handle = 7;
    same(line, "the code of mh_would_purge", mh_would_purge(zone, &handle), MH_NONE_SUCH);
    same(line, "the handle that is left", handle, 7);
}
#define NOT_HELD(zone) not_held(__LINE__, zone)

/* The zone's bytes. */
static size_t image(MhZone *zone, uint8_t *bytes) {
    size_t size = 0;
    IS(mh_image_size(zone, &size), MH_NO_ERR);
    IS(mh_image(zone, bytes, size), MH_NO_ERR);
    return size;
}

static void alike(int line, MhZone *one, MhZone *other) {
    static uint8_t bytes[2][4 * SIZE];
    size_t first = image(one, bytes[0]), second = image(other, bytes[1]);
    same(line, "the size of the zone", (int64_t)first, (int64_t)second);
    same(line, "whether the zones have the same bytes", memcmp(bytes[0], bytes[1], first), 0);
}
#define ALIKE(one, other) alike(__LINE__, one, other)

/* a is purgeable, b isn't, c is purgeable and locked, d is purgeable; each has 808 bytes, and 548 are free after them. 1308 bytes are
 * found once a is purged, which doesn't help, and then d, which does: 808 + 548. */
static void four(MhZone *zone, uint32_t *handles) {
    *zone = fresh();
    for (int n = 0; n < 4; n++) handles[n] = new_handle(zone, 800, n != 1);
    IS(mh_hlock(zone, handles[2]), MH_NO_ERR);
}

static void in_order(void) {
    MhZone plain, held, before;
    uint32_t a[4], h = 0, k = 7, asked = 0, room = 0;
    four(&plain, a);
    four(&held, a);
    four(&before, a);
    IS(mh_new_handle(&plain, 1300, &h), MH_NO_ERR);
    PURGED(&plain, a[0], a[3]);
    NOT_HELD(&plain);
    /* Held: nothing has changed, and no result is given. */
    IS(mh_hold_purges(&held, 1), MH_NO_ERR);
    IS(mh_new_handle(&held, 1300, &k), MH_WOULD_PURGE);
    IS(k, 7);
    WAITS(&held, a[0]);
    ALIKE(&held, &before);
    IS(mh_new_handle(&held, 1300, &k), MH_WOULD_PURGE);
    WAITS(&held, a[0]);
    IS(mh_empty_handle(&held, a[0]), MH_NO_ERR);
    NOT_HELD(&held);
    IS(mh_new_handle(&held, 1300, &k), MH_WOULD_PURGE);
    WAITS(&held, a[3]);
    IS(mh_empty_handle(&held, a[3]), MH_NO_ERR);
    IS(mh_new_handle(&held, 1300, &k), MH_NO_ERR);
    IS(k, h);
    PURGED_NONE(&held);
    NOT_HELD(&held);
    ALIKE(&held, &plain);
    ended(&held);
    /* Made unpurgeable, they are passed over, and then there is no room: the call asks for 1308 bytes. */
    IS(mh_hold_purges(&before, 2), MH_NO_ERR);
    IS(mh_new_handle(&before, 1300, &k), MH_WOULD_PURGE);
    IS(mh_hno_purge(&before, a[0]), MH_NO_ERR);
    IS(mh_new_handle(&before, 1300, &k), MH_WOULD_PURGE);
    WAITS(&before, a[3]);
    IS(mh_hno_purge(&before, a[3]), MH_NO_ERR);
    IS(mh_new_handle(&before, 1300, &k), MH_MEM_FULL_ERR);
    IS(mh_asked(&before, &asked), MH_NO_ERR);
    IS(asked, 1);
    /* No more held, a is purged where it is purgeable again, for 708 bytes in its gap. */
    IS(mh_hpurge(&before, a[0]), MH_NO_ERR);
    IS(mh_hold_purges(&before, 0), MH_NO_ERR);
    IS(mh_new_handle(&before, 700, &k), MH_NO_ERR);
    PURGED(&before, a[0]);
    IS(mh_free_mem(&before, &room), MH_NO_ERR);
    IS(room, 808 + 548 - 708);
    PURGED_NONE(&before);
    ended(&before);
    ended(&plain);
}

/* Three handles of 508 bytes are purgeable, and 2256 bytes are free after them. */
static void purge_mem(void) {
    MhZone zone = fresh();
    uint32_t x = new_handle(&zone, 500, true), y = new_handle(&zone, 500, true), z = new_handle(&zone, 500, true), count = 0, growth = 0;
    uint32_t found[3] = {9, 9, 9};
    IS(mh_purge_mem(&zone, 2256), MH_NO_ERR);
    PURGED_NONE(&zone);
    IS(mh_hold_purges(&zone, 1), MH_NO_ERR);
    IS(mh_purge_mem(&zone, 2256), MH_NO_ERR);
    IS(mh_purge_mem(&zone, 2260), MH_WOULD_PURGE);
    WAITS(&zone, x);
    IS(mh_max_mem(&zone, &count, &growth), MH_WOULD_PURGE);
    WAITS(&zone, x);
    IS(mh_compact_mem(&zone, 2260, &count), MH_NO_ERR);
    IS(count, 2256);
    NOT_HELD(&zone);
    /* A call that is refused is not held. */
    IS(mh_new_handle(&zone, MAX + 1, &count), MH_PARAM_ERR);
    NOT_HELD(&zone);
    IS(mh_hold_purges(&zone, 0), MH_NO_ERR);
    IS(mh_purge_mem(&zone, 2260), MH_NO_ERR);
    PURGED(&zone, x, y, z);
    IS(mh_purged(&zone, found, 2, &count), MH_NO_ERR);
    IS(count, 3);
    IS(found[0], x);
    IS(found[1], y);
    IS(found[2], 9);
    ended(&zone);
    /* MaxMem purges all, and so a gap between two is no matter. */
    zone = fresh();
    x = new_handle(&zone, 500, true);
    y = new_handle(&zone, 500, false);
    z = new_handle(&zone, 500, true);
    IS(mh_max_mem(&zone, &count, &growth), MH_NO_ERR);
    IS(count, 3780 - 508);
    PURGED(&zone, x, z);
    ended(&zone);
}

/* The operand of a call is never purged for it: h has 808 bytes, k as many, and 2164 are free. */
static void operands(void) {
    MhZone zone = fresh();
    uint32_t h = new_handle(&zone, 800, true), k = new_handle(&zone, 800, true), length = 0;
    IS(mh_hold_purges(&zone, 1), MH_NO_ERR);
    IS(mh_set_handle_size(&zone, h, 2964), MH_NO_ERR);
    IS(mh_set_handle_size(&zone, h, 2968), MH_WOULD_PURGE);
    WAITS(&zone, k);
    IS(mh_hand_to_hand(&zone, k, &length), MH_WOULD_PURGE);
    WAITS(&zone, h);
    IS(mh_hold_purges(&zone, 0), MH_NO_ERR);
    IS(mh_set_handle_size(&zone, h, 2968), MH_NO_ERR);
    PURGED(&zone, k);
    IS(mh_get_handle_size(&zone, h, &length), MH_NO_ERR);
    IS(length, 2968);
    ended(&zone);
}

/* A call that is held has grown the zone where it found no room: p has 3708 bytes, and 72 are free. */
static void grows(void) {
    MhZone zone = sized(SIZE, 2 * SIZE, 24);
    uint32_t p = new_handle(&zone, 3700, true), h = 0;
    static uint8_t bytes[2 * SIZE];
    IS(mh_hold_purges(&zone, 1), MH_NO_ERR);
    IS(mh_new_handle(&zone, 64, &h), MH_NO_ERR);
    IS(image(&zone, bytes), SIZE);
    IS(mh_new_handle(&zone, 4089, &h), MH_WOULD_PURGE);
    WAITS(&zone, p);
    IS(image(&zone, bytes), 2 * SIZE);
    IS(mh_new_handle(&zone, 4088, &h), MH_NO_ERR);
    ended(&zone);
}

static uint32_t masters(MhZone *zone) {
    MhBlock block = {0};
    uint32_t found = 0, at = 0;
    IS(mh_first_block(zone, &at), MH_NO_ERR);
    while (mh_block(zone, at, &block) == MH_NO_ERR) {
        found += block.kind == MH_MASTER;
        at += block.size;
    }
    return found;
}

/* All 64 master pointers are used. Where 72 bytes are free, a call that makes a handle is held before it makes a master block, of 264 bytes;
 * where 372 are, after it. */
static void lacks(uint32_t size, uint32_t made) {
    MhZone zone = fresh();
    uint32_t p = new_handle(&zone, size, true), h = 0;
    for (int n = 1; n < 64; n++) IS(mh_new_empty_handle(&zone, &h), MH_NO_ERR);
    IS(mh_hold_purges(&zone, 1), MH_NO_ERR);
    IS(mh_new_handle(&zone, 200, &h), MH_WOULD_PURGE);
    WAITS(&zone, p);
    IS(masters(&zone), made);
    IS(mh_empty_handle(&zone, p), MH_NO_ERR);
    IS(mh_new_handle(&zone, 200, &h), MH_NO_ERR);
    IS(masters(&zone), 2);
    PURGED_NONE(&zone);
    ended(&zone);
}

static void without_zone(void) {
    MhZone zone = MH_NO_ZONE;
    uint32_t out = 7, found[2] = {7, 7};
    IS(mh_hold_purges(&zone, 1), MH_NOT_THERE);
    IS(mh_would_purge(&zone, &out), MH_NOT_THERE);
    IS(mh_purged(&zone, found, 2, &out), MH_NOT_THERE);
    IS(out, 7);
    IS(found[0], 7);
    zone = fresh();
    NOT_HELD(&zone);
    PURGED_NONE(&zone);
    ended(&zone);
}

/* Of more handles than are noted the first 1024 are shown: 2000 of 20 bytes each are purged for the whole zone, in the order of their
 * blocks. */
static void many(void) {
    MhZone zone = sized(65536, 65536, 24);
    static uint32_t handles[2000], found[2000];
    uint32_t count = 0, growth = 0, at = 0, known = 0;
    MhBlock block = {0};
    for (int n = 0; n < 2000; n++) new_handle(&zone, 12, true);
    IS(mh_first_block(&zone, &at), MH_NO_ERR);
    for (; known < 2000 && mh_block(&zone, at, &block) == MH_NO_ERR; at += block.size)
        if (block.kind == MH_REL) handles[known++] = block.owner;
    IS(known, 2000);
    IS(mh_max_mem(&zone, &count, &growth), MH_NO_ERR);
    memset(found, 0, sizeof found);
    IS(mh_purged(&zone, found, 2000, &count), MH_NO_ERR);
    IS(count, 2000);
    IS(memcmp(found, handles, 1024 * sizeof *found), 0);
    IS(found[1024], 0);
    ended(&zone);
}

/* ---- random calls */

enum { KEPT = 24 };
static uint32_t kept[KEPT];

typedef struct Call {
    uint32_t kind, at, size;
    uint8_t bytes[64];
} Call;

/* Makes a call, and returns its code and its result. */
static MhErr make(MhZone *zone, const Call *call, uint32_t *out) {
    uint32_t other = 0;
    switch (call->kind) {
    case 0: case 1: case 2: return mh_new_handle(zone, call->size, out);
    case 3: return mh_new_ptr(zone, call->size, out);
    case 4: return mh_dispose_handle(zone, call->at);
    case 5: return mh_set_handle_size(zone, call->at, call->size);
    case 6: case 7: case 8: return mh_hpurge(zone, call->at);
    case 9: return mh_hno_purge(zone, call->at);
    case 10: return mh_hlock(zone, call->at);
    case 11: case 12: return mh_hunlock(zone, call->at);
    case 13: return mh_reallocate_handle(zone, call->at, call->size);
    case 14: return mh_hand_to_hand(zone, call->at, out);
    case 15: return mh_reserve_mem(zone, call->size);
    case 16: return mh_purge_mem(zone, call->size);
    case 17: return call->size < 40 ? mh_max_mem(zone, out, &other) : MH_NO_ERR;
    case 18: return mh_new_handle_of(zone, call->bytes, sizeof call->bytes, out);
    case 19: return mh_append(zone, call->at, call->bytes, sizeof call->bytes);
    case 20: return mh_dispose_ptr(zone, call->at);
    case 21: return mh_new_empty_handle(zone, out);
    case 22: return mh_set_ptr_size(zone, call->at, call->size);
    case 23: return call->size < 20 ? mh_more_masters(zone) : MH_NO_ERR;
    default: return mh_hand_and_hand(zone, call->at, kept[call->size % KEPT]);
    }
}

/* Makes it until it isn't held, and empties the handle that it names each time. */
static MhErr made_again(MhZone *zone, const Call *call, uint32_t *out, uint32_t *named, uint32_t *count) {
    for (*count = 0;; ++*count) {
        MhErr code = make(zone, call, out);
        if (code != MH_WOULD_PURGE) return code;
        IS(mh_would_purge(zone, &named[*count]), MH_NO_ERR);
        IS(mh_empty_handle(zone, named[*count]), MH_NO_ERR);
    }
}

static void random_calls(uint32_t mode, uint32_t limit, uint32_t calls) {
    MhZone held = sized(SIZE, limit, mode), plain = sized(SIZE, limit, mode);
    uint32_t held_calls = 0;
    IS(mh_hold_purges(&held, 1), MH_NO_ERR);
    memset(kept, 0, sizeof kept);
    for (uint32_t n = 0; n < calls; n++) {
        Call call = {.kind = below(25), .at = kept[below(KEPT)], .size = below(8) ? below(900) : below(3500)};
        uint32_t given[2] = {0, 0}, named[KEPT * 8], found[KEPT * 8], count = 0, were = 0;
        for (size_t b = 0; b < sizeof call.bytes; b++) call.bytes[b] = (uint8_t)below(256);
        MhErr code = made_again(&held, &call, &given[0], named, &count);
        IS(make(&plain, &call, &given[1]), code);
        IS(given[1], given[0]);
        if (call.kind != 17 && call.kind != 23) {
            IS(mh_purged(&plain, found, KEPT * 8, &were), MH_NO_ERR);
            IS(were, count);
            IS(memcmp(found, named, count * sizeof *named), 0);
        }
        held_calls += count;
        ALIKE(&held, &plain);
        bool makes = call.kind <= 3 || call.kind == 14 || call.kind == 18 || call.kind == 21;
        if (code == MH_NO_ERR && makes) {
            uint32_t place = below(KEPT);
            if (kept[place] && mh_dispose_handle(&held, kept[place]) == MH_NO_ERR) IS(mh_dispose_handle(&plain, kept[place]), MH_NO_ERR);
            else if (kept[place] && mh_dispose_ptr(&held, kept[place]) == MH_NO_ERR) IS(mh_dispose_ptr(&plain, kept[place]), MH_NO_ERR);
            kept[place] = given[0];
        }
    }
    IS(held_calls > calls / 100, 1);
    ended(&held);
    ended(&plain);
}

int main(void) {
    in_order();
    purge_mem();
    operands();
    grows();
    lacks(3700, 1);
    lacks(3400, 2);
    without_zone();
    many();
    for (uint32_t mode = 24; mode <= 32; mode += 8) {
        random_calls(mode, SIZE, 20000);
        random_calls(mode, 2 * SIZE, 20000);
    }
    printf("%d checks of what is purged differ\n", faults);
    return faults != 0;
}
