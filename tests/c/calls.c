/* Makes calls of the library in C, and compares what C gets with what is expected. It prints a line for each that
 * differs, and ends with status 1 then. */
#include "checks.h"
#include "macheap.h"

#include <string.h>

enum { BASE = 0x100000 };

static MhZone sized(uint32_t size, uint32_t limit, uint32_t mode) {
    MhZone zone = MH_NO_ZONE;
    IS(mh_make_zone(&zone, BASE, size, limit, mode), MH_NO_ERR);
    return zone;
}

static MhZone fresh(void) { return sized(4096, 4096, 24); }

static void ended(MhZone *zone) { IS(mh_end_zone(zone), MH_NO_ERR); }

static uint32_t new_handle(MhZone *zone, uint32_t size) {
    uint32_t handle = 0;
    IS(mh_new_handle(zone, size, &handle), MH_NO_ERR);
    return handle;
}

static uint32_t new_ptr(MhZone *zone, uint32_t size) {
    uint32_t pointer = 0;
    IS(mh_new_ptr(zone, size, &pointer), MH_NO_ERR);
    return pointer;
}

static void poke(MhZone *zone, uint32_t block, const char *text) {
    IS(mh_poke(zone, block, 0, (const uint8_t *)text, strlen(text)), MH_NO_ERR);
}

static void peeks(int line, MhZone *zone, uint32_t block, uint32_t offset, const char *wanted) {
    uint8_t bytes[64];
    size_t count = strlen(wanted);
    same(line, "the code of a peek", mh_peek(zone, block, offset, bytes, count), MH_NO_ERR);
    same(line, "what is peeked", memcmp(bytes, wanted, count), 0);
}
#define PEEKS(zone, block, offset, wanted) peeks(__LINE__, zone, block, offset, wanted)

/* The zone's blocks are these. */
static void maps(int line, MhZone *zone, const MhBlock *wanted, uint32_t count) {
    uint32_t at = 0, n = 0;
    MhBlock block;
    same(line, "the code of the first block", mh_first_block(zone, &at), MH_NO_ERR);
    for (; mh_block(zone, at, &block) == MH_NO_ERR; at += block.size, n++) {
        if (n >= count) continue;
        same(line, "address", block.address, wanted[n].address);
        same(line, "size", block.size, wanted[n].size);
        same(line, "kind", block.kind, wanted[n].kind);
        same(line, "owner", block.owner, wanted[n].owner);
        same(line, "length", block.length, wanted[n].length);
        same(line, "flags", block.flags, wanted[n].flags);
    }
    same(line, "count of blocks", n, count);
    same(line, "code behind the last block", mh_block(zone, at, &block), MH_MEM_WZ_ERR);
}
#define MAPS(zone, ...) \
    do { \
        const MhBlock wanted[] = {__VA_ARGS__}; \
        maps(__LINE__, zone, wanted, sizeof wanted / sizeof wanted[0]); \
    } while (0)

/* No zone: each call says so, and writes nothing. Then what can't be a zone. */
static void misuse(void) {
    MhZone zone = MH_NO_ZONE;
    uint32_t out = 7, other = 8;
    uint8_t byte = 9;
    size_t size = 10;
    MhBlock block = {1, 2, 3, 4, 5, 6};
    MhAnswer answer = {.value = 1};
    MhAsk ask = {.needed = 11};
    MhCarried carried = {.kind = 12};
    MhWindow window = {&byte, 13};
    for (int round = 0; round < 2; round++) {
        IS(mh_end_zone(&zone), MH_NOT_THERE);
        IS(mh_new_handle(&zone, 6, &out), MH_NOT_THERE);
        IS(mh_new_ptr(&zone, 6, &out), MH_NOT_THERE);
        IS(mh_dispose_handle(&zone, BASE + 0x3C), MH_NOT_THERE);
        IS(mh_set_handle_size(&zone, BASE + 0x3C, 10), MH_NOT_THERE);
        IS(mh_get_handle_size(&zone, BASE + 0x3C, &out), MH_NOT_THERE);
        IS(mh_free_mem(&zone, &out), MH_NOT_THERE);
        IS(mh_max_mem(&zone, &out, &other), MH_NOT_THERE);
        IS(mh_hlock(&zone, BASE + 0x3C), MH_NOT_THERE);
        IS(mh_peek(&zone, BASE + 0x3C, 0, &byte, 1), MH_NOT_THERE);
        IS(mh_poke(&zone, BASE + 0x3C, 0, &byte, 1), MH_NOT_THERE);
        IS(mh_first_block(&zone, &out), MH_NOT_THERE);
        IS(mh_block(&zone, BASE + 0x34, &block), MH_NOT_THERE);
        IS(mh_image_size(&zone, &size), MH_NOT_THERE);
        IS(mh_image(&zone, &byte, 1), MH_NOT_THERE);
        IS(mh_queue_answer(&zone, &answer), MH_NOT_THERE);
        IS(mh_asked(&zone, &out), MH_NOT_THERE);
        IS(mh_ask(&zone, 0, &ask), MH_NOT_THERE);
        IS(mh_carried(&zone, 0, 0, &carried), MH_NOT_THERE);
        IS(mh_window(&zone, BASE + 0x3C, &window), MH_NOT_THERE);
        if (round == 0) { /* once more after a zone that has ended */
            zone = fresh();
            ended(&zone);
        }
    }
    IS(mh_make_zone(&zone, BASE, 4096, 4096, 16), MH_BAD_NUMBER);
    IS(mh_make_zone(&zone, BASE, 508, 4096, 24), MH_BAD_NUMBER);
    IS(mh_make_zone(&zone, BASE, 510, 4096, 24), MH_BAD_NUMBER);
    IS(mh_make_zone(&zone, BASE, 513, 4096, 24), MH_BAD_NUMBER);
    IS(mh_make_zone(&zone, BASE, 4096, 4097, 24), MH_BAD_NUMBER);
    IS(mh_make_zone(&zone, BASE + 2, 4096, 4096, 24), MH_BAD_NUMBER);
    IS(mh_make_zone(&zone, BASE, 4096, 4104, 24), MH_BAD_NUMBER);
    IS(mh_make_zone(&zone, BASE, UINT32_MAX, UINT32_MAX, 32), MH_BAD_NUMBER);
    IS(out, 7);
    IS(other, 8);
    IS(byte, 9);
    IS(size, 10);
    IS(block.address + block.flags, 7);
    IS(ask.needed + carried.kind, 23);
    IS(window.start == &byte, 1);
    IS(window.length, 13);
    zone = fresh();
    uint32_t h = new_handle(&zone, 6);
    IS(mh_make_zone(&zone, BASE, 4096, 4096, 24), MH_IN_USE);
    IS(mh_get_handle_size(&zone, h, &out), MH_NO_ERR);
    IS(out, 6);
    ended(&zone);
}

/* Refused calls write nothing through their pointers. */
static void refused(void) {
    MhZone zone = fresh();
    uint32_t h = new_handle(&zone, 6), out = 7;
    uint8_t bytes[4] = {1, 2, 3, 4};
    IS(mh_new_handle(&zone, 4000, &out), MH_MEM_FULL_ERR);
    IS(mh_new_handle(&zone, 8388609, &out), MH_PARAM_ERR);
    IS(mh_get_handle_size(&zone, 0, &out), MH_NIL_HANDLE_ERR);
    IS(mh_get_handle_size(&zone, h + 1, &out), MH_MEM_WZ_ERR);
    IS(mh_get_ptr_size(&zone, h, &out), MH_MEM_WZ_ERR);
    IS(mh_recover_handle(&zone, 5, &out), MH_MEM_BC_ERR);
    IS(mh_ask(&zone, 0, &(MhAsk){0}), MH_NONE_SUCH);
    IS(out, 7);
    IS(mh_peek(&zone, h, 3, bytes, 4), MH_PARAM_ERR);
    IS(mh_peek(&zone, h, UINT32_MAX, bytes, 4), MH_PARAM_ERR);
    IS(mh_poke(&zone, h, 6, bytes, 1), MH_PARAM_ERR);
    IS(mh_poke(&zone, 0, 0, bytes, 0), MH_NIL_HANDLE_ERR);
    IS(memcmp(bytes, "\1\2\3\4", 4), 0);
    IS(mh_dispose_handle(&zone, h), MH_NO_ERR);
    IS(mh_dispose_handle(&zone, h), MH_MEM_WZ_ERR);
    ended(&zone);
}

static void blocks(void) {
    MhZone zone = fresh();
    IS(new_handle(&zone, 100), 0x10003C);
    MAPS(&zone, {0x100034, 264, MH_MASTER, 0, 256, 0}, {0x10013C, 108, MH_REL, 0x10003C, 100, 0}, {0x1001A8, 3672, MH_FREE, 0, 0, 0});
    ended(&zone);
    zone = fresh();
    new_handle(&zone, 0);
    MAPS(&zone, {0x100034, 264, MH_MASTER, 0, 256, 0}, {0x10013C, 12, MH_REL, 0x10003C, 0, 0}, {0x100148, 3768, MH_FREE, 0, 0, 0});
    ended(&zone);
    zone = fresh();
    uint32_t out = 7;
    IS(mh_new_handle(&zone, 3773, &out), MH_MEM_FULL_ERR);
    IS(new_handle(&zone, 3772), 0x10003C);
    ended(&zone);
    zone = fresh();
    new_handle(&zone, 3764);
    MAPS(&zone, {0x100034, 264, MH_MASTER, 0, 256, 0}, {0x10013C, 3780, MH_REL, 0x10003C, 3764, 0});
    ended(&zone);
    zone = fresh();
    uint32_t p = new_ptr(&zone, 200);
    IS(p, 0x100144);
    IS(new_ptr(&zone, 100), 0x100214);
    IS(mh_dispose_ptr(&zone, p), MH_NO_ERR);
    uint32_t h = new_handle(&zone, 50);
    IS(mh_move_hhi(&zone, h), MH_NO_ERR);
    IS(mh_hlock(&zone, h), MH_NO_ERR);
    IS(mh_move_hhi(&zone, h), MH_MEM_LOCKED_ERR);
    MAPS(&zone, {0x100034, 264, MH_MASTER, 0, 256, 0}, {0x10013C, 148, MH_FREE, 0, 0, 0}, {0x1001D0, 60, MH_REL, 0x10003C, 50, MH_LOCK},
         {0x10020C, 108, MH_PTR, 0x100214, 100, 0}, {0x100278, 3464, MH_FREE, 0, 0, 0});
    ended(&zone);
}

/* Blocks move to make room; a locked one doesn't. */
static void moving(void) {
    MhZone zone = fresh();
    uint32_t a = new_handle(&zone, 1000), b = new_handle(&zone, 1000), out = 7;
    new_handle(&zone, 1000);
    poke(&zone, b, "BB");
    IS(mh_dispose_handle(&zone, a), MH_NO_ERR);
    IS(new_handle(&zone, 1500), 0x10003C);
    PEEKS(&zone, b, 0, "BB");
    MAPS(&zone, {0x100034, 264, MH_MASTER, 0, 256, 0}, {0x10013C, 1008, MH_REL, 0x100040, 1000, 0}, {0x10052C, 1008, MH_REL, 0x100044, 1000, 0},
         {0x10091C, 1508, MH_REL, 0x10003C, 1500, 0}, {0x100F00, 256, MH_FREE, 0, 0, 0});
    ended(&zone);
    zone = fresh();
    a = new_handle(&zone, 1000), b = new_handle(&zone, 1000);
    new_handle(&zone, 1000);
    IS(mh_hlock(&zone, b), MH_NO_ERR);
    IS(mh_dispose_handle(&zone, a), MH_NO_ERR);
    IS(mh_new_handle(&zone, 1500, &out), MH_MEM_FULL_ERR);
    IS(out, 7);
    ended(&zone);
}

static void purging(void) {
    MhZone zone = fresh();
    uint32_t a = new_handle(&zone, 1000), out = 0, total = 0, contiguous = 0;
    new_handle(&zone, 1000);
    uint32_t c = new_handle(&zone, 1000);
    IS(mh_hpurge(&zone, a), MH_NO_ERR);
    IS(mh_hpurge(&zone, c), MH_NO_ERR);
    IS(new_handle(&zone, 1500), 0x100048);
    IS(mh_get_handle_size(&zone, a, &out), MH_NIL_HANDLE_ERR);
    IS(mh_get_handle_size(&zone, c, &out), MH_NO_ERR);
    IS(out, 1000);
    ended(&zone);
    zone = fresh();
    uint32_t h = new_handle(&zone, 1000);
    IS(mh_hpurge(&zone, h), MH_NO_ERR);
    IS(mh_purge_space(&zone, &total, &contiguous), MH_NO_ERR);
    IS(total, 3780);
    IS(contiguous, 3780);
    IS(mh_max_block(&zone, &out), MH_NO_ERR);
    IS(out, 2772);
    IS(mh_purge_mem(&zone, 3000), MH_NO_ERR);
    IS(mh_purge_mem(&zone, 3781), MH_MEM_FULL_ERR);
    ended(&zone);
    zone = sized(1024, 4096, 24);
    a = new_handle(&zone, 500);
    IS(mh_hpurge(&zone, a), MH_NO_ERR);
    uint32_t b = new_handle(&zone, 1000);
    IS(mh_get_handle_size(&zone, a, &out), MH_NO_ERR);
    IS(out, 500);
    MAPS(&zone, {0x100034, 264, MH_MASTER, 0, 256, 0}, {0x10013C, 508, MH_REL, a, 500, MH_PURGE}, {0x100338, 1008, MH_REL, b, 1000, 0},
         {0x100728, 2264, MH_FREE, 0, 0, 0});
    ended(&zone);
}

static void copying(void) {
    MhZone zone = fresh();
    uint32_t h = new_handle(&zone, 2), e = 0, out = 0;
    poke(&zone, h, "ab");
    IS(mh_hand_and_hand(&zone, h, h), MH_NO_ERR);
    PEEKS(&zone, h, 0, "abab");
    IS(mh_new_empty_handle(&zone, &e), MH_NO_ERR);
    IS(e, 0x100040);
    IS(mh_hand_and_hand(&zone, e, h), MH_NIL_HANDLE_ERR);
    IS(mh_get_handle_size(&zone, h, &out), MH_NO_ERR);
    IS(out, 4);
    ended(&zone);
    zone = fresh();
    uint32_t p = new_ptr(&zone, 4), k = 0, largest = 7, growth = 7;
    poke(&zone, p, "abcd");
    IS(mh_ptr_to_hand(&zone, p, 3, &h), MH_NO_ERR);
    IS(mh_ptr_and_hand(&zone, p, h, 2), MH_NO_ERR);
    PEEKS(&zone, h, 0, "abcab");
    IS(mh_ptr_to_xhand(&zone, p, h, 1), MH_NO_ERR);
    IS(mh_hand_to_hand(&zone, h, &k), MH_NO_ERR);
    IS(k, 0x100040);
    PEEKS(&zone, k, 0, "a");
    IS(mh_set_handle_size(&zone, h, 300), MH_NO_ERR);
    IS(mh_set_ptr_size(&zone, p, 40), MH_NO_ERR);
    IS(mh_reallocate_handle(&zone, k, 10), MH_NO_ERR);
    IS(mh_more_masters(&zone), MH_NO_ERR);
    IS(mh_reserve_mem(&zone, 500), MH_NO_ERR);
    IS(mh_purge_mem(&zone, 100), MH_NO_ERR);
    IS(mh_compact_mem(&zone, 4000, &out), MH_NO_ERR);
    IS(out, 3140);
    IS(mh_max_mem(&zone, &largest, &growth), MH_NO_ERR);
    IS(largest, 3140);
    IS(growth, 0);
    IS(mh_free_mem(&zone, &out), MH_NO_ERR);
    IS(out, 3140);
    MAPS(&zone, {0x100034, 264, MH_MASTER, 0, 256, 0}, {0x10013C, 48, MH_PTR, 0x100144, 40, 0}, {0x10016C, 264, MH_MASTER, 0, 256, 0},
         {0x100274, 20, MH_REL, 0x100040, 10, 0}, {0x100288, 308, MH_REL, 0x10003C, 300, 0}, {0x1003BC, 3140, MH_FREE, 0, 0, 0});
    ended(&zone);
}

static void places(void) {
    MhZone zone = fresh();
    uint32_t h = new_handle(&zone, 100), a = 0, r = 0;
    IS(new_ptr(&zone, 20), 0x100144);
    IS(mh_deref(&zone, h, &a), MH_NO_ERR);
    IS(a, 0x100F9C);
    ended(&zone);
    zone = fresh();
    h = new_handle(&zone, 8);
    IS(mh_deref(&zone, h, &a), MH_NO_ERR);
    IS(a, 0x100144);
    IS(mh_recover_handle(&zone, a, &r), MH_NO_ERR);
    IS(r, 0x10003C);
    IS(mh_dispose_handle(&zone, h), MH_NO_ERR);
    IS(mh_dispose_handle(&zone, h), MH_MEM_WZ_ERR);
    IS(mh_recover_handle(&zone, a, &r), MH_MEM_BC_ERR);
    IS(mh_hlock(&zone, 0), MH_NIL_HANDLE_ERR);
    IS(new_handle(&zone, 8), 0x10003C);
    IS(mh_get_handle_size(&zone, h, &r), MH_NO_ERR);
    IS(r, 8);
    ended(&zone);
    zone = fresh();
    h = new_handle(&zone, 100);
    uint8_t bytes[20];
    IS(mh_peek(&zone, h, 90, bytes, 20), MH_PARAM_ERR);
    IS(mh_hlock(&zone, h), MH_NO_ERR);
    IS(mh_empty_handle(&zone, h), MH_MEM_PUR_ERR);
    IS(mh_reallocate_handle(&zone, h, 4), MH_MEM_PUR_ERR);
    IS(mh_new_handle(&zone, 8388608, &r), MH_MEM_FULL_ERR);
    IS(mh_new_handle(&zone, 8388609, &r), MH_PARAM_ERR);
    ended(&zone);
}

static void asks(int line, MhZone *zone, uint32_t index, uint32_t needed, uint32_t value, uint32_t carried) {
    MhAsk ask;
    same(line, "the code of an ask", mh_ask(zone, index, &ask), MH_NO_ERR);
    same(line, "needed", ask.needed, needed);
    same(line, "answered", ask.answered, 1);
    same(line, "value", ask.value, value);
    same(line, "carried", ask.carried, carried);
}
#define ASKS(zone, index, needed, value, carried) asks(__LINE__, zone, index, needed, value, carried)

static void growing(void) {
    MhZone zone = fresh();
    uint32_t h = new_handle(&zone, 3000), count = 0, out = 0;
    MhAsk ask = {0};
    MhCarried carried = {0};
    /* The answer's call is on the handle that grows, so it is skipped. */
    IS(mh_queue_answer(&zone, &(MhAnswer){40, {{MH_DISPOSE_HANDLE, h}}}), MH_NO_ERR);
    IS(mh_queue_answer(&zone, &(MhAnswer){.value = 0}), MH_NO_ERR);
    IS(mh_set_handle_size(&zone, h, 3800), MH_MEM_FULL_ERR);
    IS(mh_asked(&zone, &count), MH_NO_ERR);
    IS(count, 2);
    ASKS(&zone, 0, 3808, 40, 0);
    ASKS(&zone, 1, 3808, 0, 0);
    IS(mh_ask(&zone, 2, &ask), MH_NONE_SUCH);
    IS(mh_get_handle_size(&zone, h, &out), MH_NO_ERR);
    IS(out, 3000);
    IS(mh_asked(&zone, &count), MH_NO_ERR);
    IS(count, 0);
    ended(&zone);
    /* Sixteen answers may wait, and all are asked for. */
    zone = fresh();
    for (int n = 0; n < 16; n++) IS(mh_queue_answer(&zone, &(MhAnswer){.value = 1}), MH_NO_ERR);
    IS(mh_queue_answer(&zone, &(MhAnswer){.value = 1}), MH_IN_USE);
    IS(mh_new_handle(&zone, 4000, &out), MH_MEM_FULL_ERR);
    IS(mh_asked(&zone, &count), MH_NO_ERR);
    IS(count, 16);
    for (uint32_t n = 0; n < 16; n++) ASKS(&zone, n, 4008, 1, 0);
    ended(&zone);
    /* A handle is given up, and the call is served. */
    zone = fresh();
    uint32_t r = new_handle(&zone, 2000);
    IS(mh_queue_answer(&zone, &(MhAnswer){1, {{MH_NO_CALL, 9}, {MH_DISPOSE_HANDLE, r}}}), MH_NO_ERR);
    IS(mh_queue_answer(&zone, &(MhAnswer){1, {{4, r}}}), MH_BAD_NUMBER);
    IS(new_handle(&zone, 3000), 0x10003C);
    ASKS(&zone, 0, 3008, 1, 1);
    IS(mh_carried(&zone, 0, 0, &carried), MH_NO_ERR);
    IS(carried.kind, MH_DISPOSE_HANDLE);
    IS(carried.operand, r);
    IS(carried.code, MH_NO_ERR);
    IS(mh_carried(&zone, 0, 1, &carried), MH_NONE_SUCH);
    IS(mh_carried(&zone, 1, 0, &carried), MH_NONE_SUCH);
    /* With no answer left there is no procedure. */
    IS(mh_new_handle(&zone, 3000, &out), MH_MEM_FULL_ERR);
    IS(mh_ask(&zone, 0, &ask), MH_NO_ERR);
    IS(ask.needed, 3008);
    IS(ask.answered, 0);
    ended(&zone);
}

/* A lent block stays where it is, and its bytes are C's until it comes back. */
static void lending(void) {
    MhZone zone = fresh();
    uint32_t a = new_handle(&zone, 1000), b = new_handle(&zone, 4), out = 0;
    uint8_t bytes[4] = {0};
    (void)a;
    IS(mh_lend(&zone, b), MH_PARAM_ERR);
    IS(mh_hlock(&zone, b), MH_NO_ERR);
    IS(mh_return(&zone, b), MH_PARAM_ERR);
    IS(mh_lent_peek(&zone, b, 0, bytes, 4), MH_PARAM_ERR);
    IS(mh_lend(&zone, b), MH_NO_ERR);
    IS(mh_lend(&zone, b), MH_MEM_LOCKED_ERR);
    IS(mh_lent_poke(&zone, b, 0, (const uint8_t *)"wxyz", 4), MH_NO_ERR);
    IS(mh_lent_poke(&zone, b, 1, (const uint8_t *)"wxyz", 4), MH_PARAM_ERR);
    uint32_t c = new_handle(&zone, 1000), d = new_handle(&zone, 1000);
    IS(mh_dispose_handle(&zone, c), MH_NO_ERR);
    IS(new_handle(&zone, 1500), 0x100044);
    IS(mh_peek(&zone, b, 0, bytes, 4), MH_MEM_LOCKED_ERR);
    IS(mh_hunlock(&zone, b), MH_MEM_LOCKED_ERR);
    IS(mh_lent_peek(&zone, b, 2, bytes, 2), MH_NO_ERR);
    IS(memcmp(bytes, "yz", 2), 0);
    IS(mh_return(&zone, b), MH_NO_ERR);
    IS(mh_return(&zone, b), MH_PARAM_ERR);
    PEEKS(&zone, b, 0, "wxyz");
    IS(mh_deref(&zone, b, &out), MH_NO_ERR);
    IS(out, 0x100534);
    IS(mh_deref(&zone, d, &out), MH_NO_ERR);
    IS(out, 0x100540);
    ended(&zone);
    /* Eight may be lent, and the zone may end with them. */
    zone = fresh();
    for (int n = 0; n < 8; n++) IS(mh_lend(&zone, new_ptr(&zone, 4)), MH_NO_ERR);
    IS(mh_lend(&zone, new_ptr(&zone, 4)), MH_PARAM_ERR);
    ended(&zone);
    IS(mh_lend(&zone, b), MH_NOT_THERE);
    IS(mh_return(&zone, b), MH_NOT_THERE);
}

/* The code of mh_window, which writes nothing. */
static MhErr no_window(int line, MhZone *zone, uint32_t block) {
    uint8_t byte = 0;
    MhWindow window = {&byte, 5};
    MhErr code = mh_window(zone, block, &window);
    same(line, "the address that stays", window.start == &byte, 1);
    same(line, "the length that stays", (int64_t)window.length, 5);
    return code;
}
#define NO_WINDOW(zone, block) no_window(__LINE__, zone, block)

/* What C writes through a window is what the block has, whatever other calls are made meanwhile. */
static void windows(uint32_t mode) {
    MhZone zone = sized(4096, 8192, mode);
    uint32_t a = new_handle(&zone, 1000), b = new_handle(&zone, 6), p = new_ptr(&zone, 4), e = 0, n = 0;
    uint8_t bytes[6] = {0};
    MhWindow window = {NULL, 0}, again = {NULL, 0}, other = {NULL, 0};
    poke(&zone, b, "before");
    IS(NO_WINDOW(&zone, b), MH_PARAM_ERR);
    IS(NO_WINDOW(&zone, 0), MH_NIL_HANDLE_ERR);
    IS(NO_WINDOW(&zone, b + 1), MH_MEM_WZ_ERR);
    IS(mh_new_empty_handle(&zone, &e), MH_NO_ERR);
    IS(NO_WINDOW(&zone, e), MH_PARAM_ERR);
    IS(mh_hlock(&zone, b), MH_NO_ERR);
    IS(NO_WINDOW(&zone, b), MH_PARAM_ERR);
    IS(mh_lend(&zone, b), MH_NO_ERR);
    IS(mh_lend(&zone, p), MH_NO_ERR);
    IS(mh_window(&zone, b, &window), MH_NO_ERR);
    IS(window.length, 6);
    IS(memcmp(window.start, "before", 6), 0);
    IS(mh_window(&zone, p, &other), MH_NO_ERR);
    IS(other.length, 4);
    IS(memcmp(other.start, "\0\0\0\0", 4), 0);
    memcpy(window.start, "window", 6);
    memcpy(other.start, "ptr.", 4);
    IS(mh_dispose_ptr(&zone, p), MH_MEM_LOCKED_ERR);
    IS(mh_dispose_handle(&zone, b), MH_MEM_LOCKED_ERR);
    IS(mh_hunlock(&zone, b), MH_MEM_LOCKED_ERR);
    IS(mh_poke(&zone, b, 0, bytes, 6), MH_MEM_LOCKED_ERR);
    /* Other blocks come, move, go and are purged, and the zone grows. */
    IS(mh_hpurge(&zone, a), MH_NO_ERR);
    uint32_t c = new_handle(&zone, 1500), d = new_handle(&zone, 1000);
    poke(&zone, c, "other block");
    IS(mh_dispose_handle(&zone, c), MH_NO_ERR);
    IS(mh_set_handle_size(&zone, d, 4000), MH_NO_ERR);
    IS(mh_compact_mem(&zone, 8388608, &n), MH_NO_ERR);
    IS(memcmp(window.start, "window", 6), 0);
    IS(mh_lent_peek(&zone, b, 0, bytes, 6), MH_NO_ERR);
    IS(memcmp(bytes, "window", 6), 0);
    IS(mh_lent_poke(&zone, b, 2, (const uint8_t *)"ll", 2), MH_NO_ERR);
    IS(memcmp(window.start, "willow", 6), 0);
    IS(mh_window(&zone, b, &again), MH_NO_ERR);
    IS(again.start == window.start, 1);
    IS(again.length, 6);
    again.start[5] = 's';
    IS(mh_return(&zone, b), MH_NO_ERR);
    PEEKS(&zone, b, 0, "willos");
    IS(NO_WINDOW(&zone, b), MH_PARAM_ERR);
    IS(mh_return(&zone, p), MH_NO_ERR);
    PEEKS(&zone, p, 0, "ptr.");
    /* Bytes of a loan are those of the zone, where its addresses say. */
    size_t size = 0;
    static uint8_t image[8192];
    IS(mh_image_size(&zone, &size), MH_NO_ERR);
    IS(mh_image(&zone, image, size), MH_NO_ERR);
    IS(mh_deref(&zone, b, &n), MH_NO_ERR);
    IS(memcmp(image + (n - BASE), "willos", 6), 0);
    IS(other.start - window.start, (int64_t)p - (int64_t)n);
    ended(&zone);
    IS(NO_WINDOW(&zone, b), MH_NOT_THERE);
    /* A block without bytes has a window too, and a zone may end with one. */
    zone = sized(4096, 4096, mode);
    p = new_ptr(&zone, 0);
    IS(mh_lend(&zone, p), MH_NO_ERR);
    IS(mh_window(&zone, p, &window), MH_NO_ERR);
    IS(window.length, 0);
    IS(window.start != NULL, 1);
    ended(&zone);
}

/* A word of a zone's bytes: its offset, and what it says. */
typedef struct {
    uint32_t at, says;
} Word;

static void put(uint8_t *bytes, uint32_t at, uint32_t word) {
    for (int n = 0; n < 4; n++) bytes[at + n] = (uint8_t)(word >> (24 - 8 * n));
}

/* The zone has 4096 bytes: these words, so many free slots from `first` on, of which each but the last says `more` and its own offset, and
 * zeros. */
static void has_bytes(int line, MhZone *zone, const Word *words, uint32_t count, uint32_t first, uint32_t slots, uint32_t more, uint32_t last) {
    static uint8_t wanted[4096], bytes[4097];
    size_t size = 0;
    memset(wanted, 0, sizeof wanted);
    for (uint32_t n = 0; n < count; n++) put(wanted, words[n].at, words[n].says);
    for (uint32_t n = 0; n < slots; n++) put(wanted, first + 4 * n, n + 1 < slots ? more + first + 4 * n : last);
    same(line, "the code of mh_image_size", mh_image_size(zone, &size), MH_NO_ERR);
    same(line, "the size of the zone's bytes", (int64_t)size, 4096);
    memset(bytes, 0xEE, sizeof bytes);
    same(line, "the code of mh_image with too little room", mh_image(zone, bytes, 4095), MH_BAD_NUMBER);
    same(line, "the code of mh_image with too much room", mh_image(zone, bytes, 4097), MH_BAD_NUMBER);
    same(line, "the first byte, not written", bytes[0], 0xEE);
    same(line, "the code of mh_image", mh_image(zone, bytes, 4096), MH_NO_ERR);
    for (uint32_t n = 0; n < 4096; n++) {
        if (bytes[n] != wanted[n]) printf("offset %03" PRIX32 ": ", n), same(line, "a byte of the zone", bytes[n], wanted[n]);
    }
    same(line, "the byte behind", bytes[4096], 0xEE);
}
#define HAS_BYTES(zone, first, slots, more, last, ...) \
    do { \
        const Word words[] = {__VA_ARGS__}; \
        has_bytes(__LINE__, zone, words, sizeof words / sizeof words[0], first, slots, more, last); \
    } while (0)

/* The bytes of a zone with one handle, of 24-bit blocks and of 32-bit blocks, before and after it is locked. While a block is lent there are none. */
static void images(void) {
    MhZone zone = fresh();
    IS(mh_hlock(&zone, new_handle(&zone, 100)), MH_NO_ERR);
    HAS_BYTES(&zone, 0x40, 63, 0x01100004, 0x01000000, {0x00, 0x00101000}, {0x08, 0x00100040}, {0x0C, 0x00000E58}, {0x14, 0x00400000},
              {0x30, 0x001001A8}, {0x34, 0x50000108}, {0x38, 0x00100000}, {0x3C, 0x80100144}, {0x13C, 0x8000006C}, {0x140, 0x0000003C},
              {0x1A8, 0x00000E58});
    IS(mh_hunlock(&zone, 0x10003C), MH_NO_ERR);
    HAS_BYTES(&zone, 0x40, 63, 0x01100004, 0x01000000, {0x00, 0x00101000}, {0x08, 0x00100040}, {0x0C, 0x00000E58}, {0x14, 0x00400000},
              {0x30, 0x001001A8}, {0x34, 0x50000108}, {0x38, 0x00100000}, {0x3C, 0x00100144}, {0x13C, 0x8000006C}, {0x140, 0x0000003C},
              {0x1A8, 0x00000E58});
    ended(&zone);
    /* Of three handles the first is disposed of: its slot is the next to be given, and its block the lowest free one. */
    zone = fresh();
    uint32_t first = new_handle(&zone, 1000), second = new_handle(&zone, 1000);
    new_handle(&zone, 1000);
    IS(mh_poke(&zone, second, 0, (const uint8_t *)"BB", 2), MH_NO_ERR);
    IS(mh_dispose_handle(&zone, first), MH_NO_ERR);
    HAS_BYTES(&zone, 0x48, 61, 0x01100004, 0x01000000, {0x00, 0x00101000}, {0x08, 0x0010003C}, {0x0C, 0x000006E4}, {0x14, 0x00400000},
              {0x30, 0x0010013C}, {0x34, 0x50000108}, {0x38, 0x00100000}, {0x3C, 0x01100048}, {0x40, 0x00100534}, {0x44, 0x00100924},
              {0x13C, 0x000003F0}, {0x52C, 0x800003F0}, {0x530, 0x00000040}, {0x534, 0x42420000}, {0x91C, 0x800003F0}, {0x920, 0x00000044},
              {0xD0C, 0x000002F4});
    ended(&zone);
    /* The next handle moves the second block down: it takes the first slot, and the lowest free block comes last. */
    zone = fresh();
    first = new_handle(&zone, 1000), second = new_handle(&zone, 1000);
    new_handle(&zone, 1000);
    poke(&zone, second, "BB");
    IS(mh_dispose_handle(&zone, first), MH_NO_ERR);
    IS(new_handle(&zone, 1500), first);
    HAS_BYTES(&zone, 0x48, 61, 0x01100004, 0x01000000, {0x00, 0x00101000}, {0x08, 0x00100048}, {0x0C, 0x00000100}, {0x14, 0x00400000},
              {0x30, 0x00100F00}, {0x34, 0x50000108}, {0x38, 0x00100000}, {0x3C, 0x00100924}, {0x40, 0x00100144}, {0x44, 0x00100534},
              {0x13C, 0x800003F0}, {0x140, 0x00000040}, {0x144, 0x42420000}, {0x52C, 0x800003F0}, {0x530, 0x00000044},
              {0x91C, 0x800005E4}, {0x920, 0x0000003C}, {0xF00, 0x00000100});
    ended(&zone);
    /* A block that takes all that is free: no lowest free block is there. */
    zone = fresh();
    new_handle(&zone, 3772);
    HAS_BYTES(&zone, 0x40, 63, 0x01100004, 0x01000000, {0x00, 0x00101000}, {0x08, 0x00100040}, {0x14, 0x00400000}, {0x34, 0x50000108},
              {0x38, 0x00100000}, {0x3C, 0x00100144}, {0x13C, 0x80000EC4}, {0x140, 0x0000003C});
    ended(&zone);
    zone = sized(4096, 4096, 32);
    uint32_t h = new_handle(&zone, 100), p = 0;
    HAS_BYTES(&zone, 0x44, 63, 0x00100005, 0x00000001, {0x00, 0x00101000}, {0x08, 0x00100044}, {0x0C, 0x00000E50}, {0x14, 0x00400000},
              {0x30, 0x001001B0}, {0x34, 0x50000000}, {0x38, 0x0000010C}, {0x3C, 0x00100000}, {0x40, 0x0010014C}, {0x140, 0x80000000},
              {0x144, 0x00000070}, {0x148, 0x00000040}, {0x1B4, 0x00000E50});
    IS(mh_hlock(&zone, h), MH_NO_ERR);
    p = new_ptr(&zone, 4);
    IS(mh_lend(&zone, p), MH_NO_ERR);
    size_t size = 7;
    uint8_t bytes[4096];
    IS(mh_image_size(&zone, &size), MH_MEM_LOCKED_ERR);
    IS(size, 7);
    IS(mh_image(&zone, bytes, sizeof bytes), MH_MEM_LOCKED_ERR);
    IS(mh_return(&zone, p), MH_NO_ERR);
    IS(mh_image_size(&zone, &size), MH_NO_ERR);
    IS(size, 4096);
    IS(mh_image(&zone, bytes, sizeof bytes), MH_NO_ERR);
    IS(bytes[0x140] << 8 | bytes[0x141], 0x8080);
    ended(&zone);
}

/* The smallest zones, and sizes that are no multiple of 4: a master block, and what is left of 512 bytes or of 1,024 after the zone's
 * header of 52. */
static void small_zones(void) {
    for (uint32_t size = 512; size < 516; size += 2) {
        MhZone zone = sized(size, size, 24);
        MAPS(&zone, {BASE + 52, 264, MH_MASTER, 0, 256, 0}, {BASE + 316, 196, MH_FREE, 0, 0, 0});
        ended(&zone);
        zone = sized(size, 1024 + 2, 32);
        MAPS(&zone, {BASE + 52, 268, MH_MASTER, 0, 256, 0}, {BASE + 320, 192, MH_FREE, 0, 0, 0});
        IS(new_handle(&zone, 300), BASE + 0x40);
        MAPS(&zone, {BASE + 52, 268, MH_MASTER, 0, 256, 0}, {BASE + 320, 312, MH_REL, BASE + 0x40, 300, 0}, {BASE + 632, 392, MH_FREE, 0, 0, 0});
        ended(&zone);
    }
    MhZone zone = MH_NO_ZONE;
    IS(mh_make_zone_large(&zone, BASE, 514, 0x1000002, 32), MH_NO_ERR);
    MAPS(&zone, {BASE + 52, 268, MH_MASTER, 0, 256, 0}, {BASE + 320, 192, MH_FREE, 0, 0, 0});
    ended(&zone);
}

/* Two zones know nothing of each other. */
static void two_zones(void) {
    MhZone one = fresh(), other = sized(4096, 4096, 32);
    uint32_t h = new_handle(&one, 6), k = new_handle(&other, 6);
    poke(&one, h, "onexyz");
    poke(&other, k, "other.");
    ended(&one);
    PEEKS(&other, k, 0, "other.");
    ended(&other);
}

/* Large zones, with blocks of several megabytes: one of 24-bit blocks that ends where their addresses do, and one of 64 MB of
 * 32-bit blocks that ends at the last multiple of 4. A block has its bytes and 8 or 12 more, and begins where the one before it
 * ends; the first has the zone's address and 52. */
static void large(void) {
    enum { MAX = 8388608 };
    const uint32_t low = 0x1000, high = 0xFBFFFFFC;
    MhZone zone = MH_NO_ZONE;
    uint32_t out = 7;
    IS(mh_make_zone(&zone, low, 0xFFF000, 0xFFF000, 24), MH_BAD_NUMBER);
    IS(mh_make_zone(&zone, high, 0x4000000, 0x4000000, 32), MH_BAD_NUMBER);
    IS(mh_make_zone_large(&zone, low, 0xFFF000, 0xFFF004, 24), MH_BAD_NUMBER);
    IS(mh_make_zone_large(&zone, low, 4096, 0xFFF004, 24), MH_BAD_NUMBER);
    IS(mh_make_zone_large(&zone, high, 4096, 0x4000004, 32), MH_BAD_NUMBER);
    IS(mh_make_zone_large(&zone, low, 4096, 0x40000004, 32), MH_BAD_NUMBER);
    IS(mh_make_zone_large(&zone, low, 4096, 4096, 16), MH_BAD_NUMBER);
    IS(mh_end_zone(&zone), MH_NOT_THERE);
    IS(mh_make_zone_large(&zone, low, 0xFFF000, 0xFFF000, 24), MH_NO_ERR);
    IS(mh_make_zone_large(&zone, low, 0xFFF000, 0xFFF000, 24), MH_IN_USE);
    uint32_t a = new_handle(&zone, 5000000), b = new_handle(&zone, 4000000), c = new_handle(&zone, 6000000);
    poke(&zone, b, "move");
    IS(mh_dispose_handle(&zone, a), MH_NO_ERR);
    IS(new_handle(&zone, 6000000), 0x103C);
    IS(mh_hlock(&zone, b), MH_NO_ERR);
    IS(mh_hpurge(&zone, c), MH_NO_ERR);
    IS(new_handle(&zone, 6500000), 0x1048);
    IS(mh_get_handle_size(&zone, c, &out), MH_NIL_HANDLE_ERR);
    IS(mh_move_hhi(&zone, 0x103C), MH_NO_ERR);
    PEEKS(&zone, b, 0, "move");
    MAPS(&zone, {0x1034, 264, MH_MASTER, 0, 256, 0}, {0x113C, 4000008, MH_REL, 0x1040, 4000000, MH_LOCK}, {0x3D1A44, 6500008, MH_REL, 0x1048, 6500000, 0},
         {0xA048EC, 272780, MH_FREE, 0, 0, 0}, {0xA47278, 6000008, MH_REL, 0x103C, 6000000, 0});
    ended(&zone);
    IS(mh_make_zone_large(&zone, high, 0x4000000, 0x4000000, 32), MH_NO_ERR);
    uint32_t p = new_ptr(&zone, MAX);
    IS(p, 0xFC000148);
    IS(new_handle(&zone, MAX), 0xFC00003C);
    IS(mh_new_handle(&zone, MAX + 1, &out), MH_PARAM_ERR);
    IS(mh_set_handle_size(&zone, 0xFC00003C, 8), MH_NO_ERR);
    IS(mh_move_hhi(&zone, 0xFC00003C), MH_NO_ERR);
    IS(mh_deref(&zone, 0xFC00003C, &out), MH_NO_ERR);
    IS(out, 0xFFFFFFF4);
    poke(&zone, 0xFC00003C, "the last");
    PEEKS(&zone, 0xFC00003C, 0, "the last");
    MAPS(&zone, {0xFC000030, 268, MH_MASTER, 0, 256, 0}, {0xFC00013C, MAX + 12, MH_PTR, p, MAX, 0}, {0xFC800148, 58719904, MH_FREE, 0, 0, 0},
         {0xFFFFFFE8, 20, MH_REL, 0xFC00003C, 8, 0});
    ended(&zone);
}

int main(void) {
    misuse();
    refused();
    blocks();
    moving();
    purging();
    copying();
    places();
    growing();
    lending();
    windows(24);
    windows(32);
    images();
    small_zones();
    two_zones();
    large();
    printf("%d of %d checks differ\n", faults, checks);
    return faults != 0;
}
