/* Makes the calls that bring bytes from outside the zone, and compares what C gets with what is expected. Next it makes 20,000
 * random calls in each mode on two zones that begin alike: in the one bytes come from outside, in the other the same bytes from a
 * pointer's block. Both have to give the same answers, and to have the same bytes throughout; and each handle those that were put there
 * last. It prints a line for each that differs, and ends with status 1 then. */
#include "checks.h"
#include "macheap.h"

#include <string.h>

enum { BASE = 0x100000, MAX = 8388608 };

static MhZone sized(uint32_t size, uint32_t limit, uint32_t mode) {
    MhZone zone = MH_NO_ZONE;
    IS(mh_make_zone(&zone, BASE, size, limit, mode), MH_NO_ERR);
    return zone;
}

static MhZone fresh(void) { return sized(4096, 4096, 24); }

static void ended(MhZone *zone) { IS(mh_end_zone(zone), MH_NO_ERR); }

static MhErr new_handle_of(MhZone *zone, const char *text, uint32_t *handle) { return mh_new_handle_of(zone, (const uint8_t *)text, strlen(text), handle); }

static MhErr set_handle_to(MhZone *zone, uint32_t handle, const char *text) { return mh_set_handle_to(zone, handle, (const uint8_t *)text, strlen(text)); }

static MhErr append(MhZone *zone, uint32_t handle, const char *text) { return mh_append(zone, handle, (const uint8_t *)text, strlen(text)); }

/* The handle's block has just these bytes. */
static void has(int line, MhZone *zone, uint32_t handle, const uint8_t *wanted, uint32_t count) {
    static uint8_t bytes[4096];
    uint32_t length = 0;
    same(line, "the code of mh_get_handle_size", mh_get_handle_size(zone, handle, &length), MH_NO_ERR);
    same(line, "how many bytes it has", length, count);
    same(line, "the code of mh_peek", mh_peek(zone, handle, 0, bytes, count), MH_NO_ERR);
    same(line, "whether these are its bytes", memcmp(bytes, wanted, count), 0);
}
#define HAS(zone, handle, text) has(__LINE__, zone, handle, (const uint8_t *)(text), (uint32_t)strlen(text))

/* The block whose header is at an address. */
static void stands(int line, MhZone *zone, MhBlock wanted) {
    MhBlock block = {0};
    same(line, "the code of mh_block", mh_block(zone, wanted.address, &block), MH_NO_ERR);
    same(line, "the size of the block", block.size, wanted.size);
    same(line, "its kind", block.kind, wanted.kind);
    same(line, "its owner", block.owner, wanted.owner);
    same(line, "the length of its contents", block.length, wanted.length);
    same(line, "its flags", block.flags, wanted.flags);
}
#define STANDS(zone, ...) stands(__LINE__, zone, (MhBlock){__VA_ARGS__})

/* A block of 24-bit headers has 8 bytes and its contents, rounded up to a multiple of 4, and the first begins at 52 + 264. It grows and
 * shrinks where it is while what follows is free. */
static void lengths(void) {
    MhZone zone = fresh();
    uint32_t h = 0, k = 0;
    IS(new_handle_of(&zone, "abc", &h), MH_NO_ERR);
    IS(h, 0x10003C);
    HAS(&zone, h, "abc");
    STANDS(&zone, 0x10013C, 12, MH_REL, h, 3, 0);
    STANDS(&zone, 0x100148, 3768, MH_FREE, 0, 0, 0);
    IS(mh_hpurge(&zone, h), MH_NO_ERR);
    IS(append(&zone, h, "defghijklmnopqrstuvwxyz0123456789ABCD"), MH_NO_ERR);
    HAS(&zone, h, "abcdefghijklmnopqrstuvwxyz0123456789ABCD");
    STANDS(&zone, 0x10013C, 48, MH_REL, h, 40, MH_PURGE);
    STANDS(&zone, 0x10016C, 3732, MH_FREE, 0, 0, 0);
    IS(set_handle_to(&zone, h, "xy"), MH_NO_ERR);
    HAS(&zone, h, "xy");
    STANDS(&zone, 0x10013C, 12, MH_REL, h, 2, MH_PURGE);
    STANDS(&zone, 0x100148, 3768, MH_FREE, 0, 0, 0);
    /* no bytes at all */
    IS(new_handle_of(&zone, "", &k), MH_NO_ERR);
    IS(k, 0x100040);
    HAS(&zone, k, "");
    STANDS(&zone, 0x100148, 12, MH_REL, k, 0, 0);
    IS(append(&zone, h, ""), MH_NO_ERR);
    HAS(&zone, h, "xy");
    IS(append(&zone, k, "k"), MH_NO_ERR);
    /* the first needs more room than it has before the second */
    IS(append(&zone, h, "z, and more"), MH_NO_ERR);
    HAS(&zone, h, "xyz, and more");
    HAS(&zone, k, "k");
    IS(set_handle_to(&zone, h, ""), MH_NO_ERR);
    HAS(&zone, h, "");
    ended(&zone);
}

/* A refused call writes nothing, and all stays. */
static void refused(void) {
    static uint8_t many[MAX + 1];
    MhZone zone = MH_NO_ZONE;
    uint32_t out = 7, h = 0, e = 0;
    IS(new_handle_of(&zone, "a", &out), MH_NOT_THERE);
    IS(set_handle_to(&zone, 0x10003C, "a"), MH_NOT_THERE);
    IS(append(&zone, 0x10003C, "a"), MH_NOT_THERE);
    zone = fresh();
    IS(new_handle_of(&zone, "stays", &h), MH_NO_ERR);
    IS(mh_new_empty_handle(&zone, &e), MH_NO_ERR);
    IS(mh_new_handle_of(&zone, many, MAX + 1, &out), MH_PARAM_ERR);
    IS(mh_new_handle_of(&zone, many, MAX, &out), MH_MEM_FULL_ERR);
    IS(out, 7);
    MhErr (*const calls[])(MhZone *, uint32_t, const uint8_t *, size_t) = {mh_set_handle_to, mh_append};
    for (int c = 0; c < 2; c++) {
        IS(calls[c](&zone, 0, many, 1), MH_NIL_HANDLE_ERR);
        IS(calls[c](&zone, e, many, 1), MH_NIL_HANDLE_ERR);
        IS(calls[c](&zone, h + 1, many, 1), MH_MEM_WZ_ERR);
        IS(calls[c](&zone, h + 8, many, 1), MH_MEM_WZ_ERR);
        IS(calls[c](&zone, h, many, MAX + 1), MH_PARAM_ERR);
        IS(calls[c](&zone, h, many, MAX), MH_MEM_FULL_ERR);
        IS(calls[c](&zone, h, many, 4000), MH_MEM_FULL_ERR);
        IS(mh_hlock(&zone, h), MH_NO_ERR);
        IS(mh_lend(&zone, h), MH_NO_ERR);
        IS(calls[c](&zone, h, many, 1), MH_MEM_LOCKED_ERR);
        IS(calls[c](&zone, h, many, MAX + 1), MH_MEM_LOCKED_ERR);
        IS(mh_return(&zone, h), MH_NO_ERR);
        /* a locked handle keeps its place: a fixed block follows it */
        uint32_t p = 0;
        IS(mh_new_ptr(&zone, 4, &p), MH_NO_ERR);
        IS(calls[c](&zone, h, many, 20), MH_MEM_FULL_ERR);
        IS(mh_dispose_ptr(&zone, p), MH_NO_ERR);
        IS(mh_hunlock(&zone, h), MH_NO_ERR);
        HAS(&zone, h, "stays");
    }
    ended(&zone);
}

static void asks(int line, MhZone *zone, uint32_t index, uint32_t needed, uint32_t value, uint32_t carried) {
    MhAsk ask = {0};
    same(line, "the code of an ask", mh_ask(zone, index, &ask), MH_NO_ERR);
    same(line, "needed", ask.needed, needed);
    same(line, "value", ask.value, value);
    same(line, "carried", ask.carried, carried);
}
#define ASKS(zone, index, needed, value, carried) asks(__LINE__, zone, index, needed, value, carried)

/* Where there is no room, other handles are purged, and then the grow-zone procedure is asked. The handle itself is kept. */
static void growing(void) {
    static uint8_t many[3800];
    memset(many, 'm', sizeof many);
    MhZone zone = fresh();
    uint32_t h = 0, r = 0, count = 0, out = 0;
    IS(mh_new_handle(&zone, 2000, &r), MH_NO_ERR);
    IS(mh_queue_answer(&zone, &(MhAnswer){1, {{MH_DISPOSE_HANDLE, r}}}), MH_NO_ERR);
    IS(mh_new_handle_of(&zone, many, 3000, &h), MH_NO_ERR);
    IS(h, r);
    ASKS(&zone, 0, 3008, 1, 1);
    has(__LINE__, &zone, h, many, 3000);
    /* answers on the handle that grows are skipped */
    IS(mh_queue_answer(&zone, &(MhAnswer){40, {{MH_DISPOSE_HANDLE, h}}}), MH_NO_ERR);
    IS(mh_queue_answer(&zone, &(MhAnswer){.value = 0}), MH_NO_ERR);
    IS(mh_set_handle_to(&zone, h, many, 3800), MH_MEM_FULL_ERR);
    IS(mh_asked(&zone, &count), MH_NO_ERR);
    IS(count, 2);
    ASKS(&zone, 0, 3808, 40, 0);
    ASKS(&zone, 1, 3808, 0, 0);
    IS(mh_queue_answer(&zone, &(MhAnswer){0, {{MH_EMPTY_HANDLE, h}}}), MH_NO_ERR);
    IS(mh_append(&zone, h, many, 1000), MH_MEM_FULL_ERR);
    ASKS(&zone, 0, 4008, 0, 0);
    has(__LINE__, &zone, h, many, 3000);
    ended(&zone);
    /* a purgeable handle isn't purged for its own bytes; another is */
    zone = fresh();
    IS(mh_new_handle(&zone, 2000, &r), MH_NO_ERR);
    IS(mh_new_handle_of(&zone, many, 1000, &h), MH_NO_ERR);
    IS(mh_hpurge(&zone, r), MH_NO_ERR);
    IS(mh_hpurge(&zone, h), MH_NO_ERR);
    IS(mh_append(&zone, h, many, 1000), MH_NO_ERR);
    has(__LINE__, &zone, h, many, 2000);
    IS(mh_get_handle_size(&zone, r, &out), MH_NIL_HANDLE_ERR);
    ended(&zone);
}

/* ---- Random calls on two zones. */

enum { SIZE = 8192, LIMIT = 12288, KEPT = 40, MOST = 700, LONG = 4000 };

static MhZone zones[2];
static uint32_t sources[2];
/* a handle, and the bytes last put there */
typedef struct Kept {
    uint32_t handle, length;
    uint8_t bytes[LONG];
} Kept;
static Kept kept[KEPT];

/* A call on one operand answers the same in both zones. */
typedef MhErr OneOperand(MhZone *, uint32_t);
static MhErr both(int line, OneOperand *call, uint32_t operand) {
    MhErr code = call(&zones[0], operand);
    same(line, "the code in the other zone", call(&zones[1], operand), code);
    return code;
}
#define BOTH(call, operand) both(__LINE__, call, operand)

/* Both have the same answer, which gives up a handle or two. */
static void answers(void) {
    MhAnswer answer = {.value = below(3), .calls = {{MH_DISPOSE_HANDLE + 2 * below(2), kept[below(KEPT)].handle}, {MH_EMPTY_HANDLE, kept[below(KEPT)].handle}}};
    MhErr code = mh_queue_answer(&zones[0], &answer);
    IS(mh_queue_answer(&zones[1], &answer), code);
}

/* Bytes come into the handle at a place: in the one zone from outside, in the other from the source. */
static void brings(Kept *at) {
    static uint8_t bytes[MOST];
    uint32_t count = below(4) ? below(60) : below(MOST), number[2] = {0, 0};
    for (uint32_t n = 0; n < count; n++) bytes[n] = (uint8_t)below(256);
    for (int z = 0; z < 2; z++) IS(mh_poke(&zones[z], sources[z], 0, bytes, count), MH_NO_ERR);
    if (at->handle == 0) {
        MhErr code = mh_new_handle_of(&zones[0], bytes, count, &number[0]);
        IS(mh_ptr_to_hand(&zones[1], sources[1], count, &number[1]), code);
        IS(number[1], number[0]);
        if (code != MH_NO_ERR) return;
        /* an answer may have given up the handle that had this number */
        for (int k = 0; k < KEPT; k++) {
            if (kept[k].handle == number[0]) kept[k].handle = 0;
        }
        at->handle = number[0], at->length = 0;
    } else {
        bool appends = below(2) && at->length + count <= LONG;
        uint32_t handle = below(50) ? at->handle : at->handle + below(9);
        MhErr code = (appends ? mh_append : mh_set_handle_to)(&zones[0], handle, bytes, count);
        IS(appends ? mh_ptr_and_hand(&zones[1], sources[1], handle, count) : mh_ptr_to_xhand(&zones[1], sources[1], handle, count), code);
        if (code != MH_NO_ERR) return;
        if (handle != at->handle) {
            for (at = kept; at < kept + KEPT && at->handle != handle; at++) {}
            if (at == kept + KEPT) return;
            if (appends && at->length + count > LONG) {
                at->handle = 0;
                return;
            }
        }
        if (!appends) at->length = 0;
    }
    memcpy(at->bytes + at->length, bytes, count);
    at->length += count;
}

/* What else happens to a handle. */
static void happens(Kept *at) {
    static OneOperand *const calls[] = {mh_hpurge, mh_hpurge, mh_hno_purge, mh_hlock, mh_hunlock, mh_hunlock, mh_empty_handle, mh_move_hhi};
    uint32_t which = below(10);
    if (which < 8) {
        BOTH(calls[which], at->handle);
    } else if (BOTH(mh_dispose_handle, at->handle) == MH_NO_ERR) {
        at->handle = 0;
    }
}

/* Each handle that has a block has the bytes last put there; one that was given up is forgotten. */
static void looks(Kept *at) {
    uint32_t length = 0;
    MhErr code = mh_get_handle_size(&zones[0], at->handle, &length);
    if (code == MH_MEM_WZ_ERR) at->handle = 0;
    if (code == MH_NO_ERR) has(__LINE__, &zones[0], at->handle, at->bytes, at->length);
}

static void alike(void) {
    static uint8_t images[2][LIMIT];
    size_t sizes[2] = {0, 0};
    for (int z = 0; z < 2; z++) {
        IS(mh_image_size(&zones[z], &sizes[z]), MH_NO_ERR);
        IS(mh_image(&zones[z], images[z], sizes[z]), MH_NO_ERR);
    }
    IS(sizes[1], (int64_t)sizes[0]);
    IS(memcmp(images[0], images[1], sizes[0]), 0);
}

static void random_calls(uint32_t mode, uint32_t calls) {
    for (int z = 0; z < 2; z++) {
        zones[z] = sized(SIZE, LIMIT, mode);
        IS(mh_new_ptr(&zones[z], MOST, &sources[z]), MH_NO_ERR);
    }
    memset(kept, 0, sizeof kept);
    for (uint32_t n = 0; n < calls; n++) {
        Kept *at = &kept[below(KEPT)];
        if (below(8) == 0) answers();
        if (at->handle == 0 || below(3)) {
            brings(at);
        } else {
            happens(at);
        }
        for (int k = 0; k < KEPT; k++) {
            if (kept[k].handle) looks(&kept[k]);
        }
        alike();
    }
    for (int z = 0; z < 2; z++) ended(&zones[z]);
}

int main(void) {
    lengths();
    refused();
    growing();
    for (uint32_t mode = 24; mode <= 32; mode += 8) random_calls(mode, 20000);
    printf("%d checks of bytes from outside differ\n", faults);
    return faults != 0;
}
