/* A zone whose bytes a guest damages: for each byte of its structure, that mh_check names it and what it is in, and that
 * mh_repair mends it and no other; and which block has each address. It prints a line for each answer that differs from what is
 * expected, and ends with status 1 then. */
#include "checks.h"
#include "macheap.h"

#include <string.h>

enum { BASE = 0x100000, SIZE = 2048, LIMIT = 2560, NOTHING = 0 };

static uint8_t ram[LIMIT], right[LIMIT];
/* what part of the structure each byte is in, which of its bits may be other ones, and the block that has it */
static uint32_t part[LIMIT];
static uint8_t loose[LIMIT];
/* the empty handle */
static uint32_t empty;
static MhBlock holder[LIMIT];

typedef struct Guest {
    MhZone zone;
    MhAsleep asleep;
    MhMemory memory;
} Guest;

static void wakes(int line, Guest *guest) {
    same(line, "the code of mh_wake", mh_wake(&guest->zone, &guest->asleep, &guest->memory), MH_NO_ERR);
}
#define WAKE(guest) wakes(__LINE__, guest)

static void sleeps(int line, Guest *guest) {
    same(line, "the code of mh_sleep", mh_sleep(&guest->zone, &guest->asleep, &guest->memory), MH_NO_ERR);
}
#define SLEEP(guest) sleeps(__LINE__, guest)

/* A zone with blocks of all kinds, and what each of its bytes is, by a walk over the blocks. */
static void made(Guest *guest, uint32_t mode) {
    uint32_t head = mode == 24 ? 8 : 12, handle = 0, locked = 0, pointer = 0, gone = 0, at = 0;
    MhBlock block;
    *guest = (Guest){MH_NO_ZONE, MH_NO_ASLEEP, {ram, LIMIT, true}};
    for (uint32_t i = 0; i < LIMIT; i++) ram[i] = (uint8_t)(i * 7);
    IS(mh_make_zone_at(&guest->asleep, &guest->memory, BASE, SIZE, LIMIT, mode), MH_NO_ERR);
    WAKE(guest);
    IS(mh_new_handle(&guest->zone, 101, &handle), MH_NO_ERR);
    IS(mh_new_ptr(&guest->zone, 30, &pointer), MH_NO_ERR);
    IS(mh_new_handle(&guest->zone, 40, &gone), MH_NO_ERR);
    IS(mh_new_handle(&guest->zone, 50, &locked), MH_NO_ERR);
    IS(mh_hlock(&guest->zone, locked), MH_NO_ERR);
    IS(mh_dispose_handle(&guest->zone, gone), MH_NO_ERR);
    IS(mh_new_empty_handle(&guest->zone, &gone), MH_NO_ERR);
    memset(part, 0, sizeof part);
    memset(loose, 0, sizeof loose);
    memset(holder, 0, sizeof holder);
    IS(mh_first_block(&guest->zone, &at), MH_NO_ERR);
    for (uint32_t i = 0; i < at - BASE; i++) part[i] = i / 4 == 1 || (i >= 16 && i < 48) ? NOTHING : MH_ZONE_HEADER;
    for (; mh_block(&guest->zone, at, &block) == MH_NO_ERR; at += block.size) {
        for (uint32_t i = 0; i < block.size; i++) {
            uint32_t place = at - BASE + i;
            holder[place] = block;
            if (i < head) part[place] = MH_BLOCK_HEADER;
            else if (block.kind == MH_MASTER && i < head + 256) part[place] = MH_MASTER_POINTER;
        }
    }
    IS(at, BASE + SIZE);
    if (mode == 24) loose[handle - BASE] = loose[locked - BASE] = loose[gone - BASE] = MH_LOCK | MH_PURGE | MH_RESOURCE;
    empty = gone;
    SLEEP(guest);
    memcpy(right, ram, LIMIT);
}

/* Which block has each address. */
static void held(Guest *guest) {
    MhBlock block;
    WAKE(guest);
    for (uint32_t i = 0; i < LIMIT; i++) {
        bool is_there = holder[i].size != 0;
        memset(&block, 0xEE, sizeof block);
        IS(mh_holder(&guest->zone, BASE + i, &block), is_there ? MH_NO_ERR : MH_MEM_WZ_ERR);
        if (is_there) IS(memcmp(&block, &holder[i], sizeof block), 0);
        else IS(block.address, 0xEEEEEEEE);
    }
    IS(mh_holder(&guest->zone, 0, &block), MH_MEM_WZ_ERR);
    IS(mh_holder(&guest->zone, BASE - 1, &block), MH_MEM_WZ_ERR);
    IS(mh_holder(&guest->zone, UINT32_MAX, &block), MH_MEM_WZ_ERR);
    SLEEP(guest);
    IS(mh_holder(&guest->zone, BASE, &block), MH_NOT_THERE);
}

/* One byte differs in some bits, and all contents and the guest's fields of the zone's header are others: mh_check says so where one of
 * the bits is structure, and after mh_repair the structure alone is as it was, with the flags that the guest set, and the zone wakes. */
static void damaged(Guest *guest, uint32_t at, uint8_t change) {
    bool is_wrong = part[at] != NOTHING && (change & ~loose[at]);
    MhFault fault = {77, 77};
    for (uint32_t i = 0; i < LIMIT; i++) ram[i] = part[i] == NOTHING ? (uint8_t)(i * 3 + at) : right[i];
    ram[at] ^= change;
    IS(mh_check(&guest->asleep, &guest->memory, &fault), is_wrong ? MH_DAMAGED : MH_NO_ERR);
    IS(fault.offset, is_wrong ? at : 77);
    IS(fault.part, is_wrong ? part[at] : 77);
    IS(mh_repair(&guest->asleep, &guest->memory), MH_NO_ERR);
    IS(guest->memory.start == ram && guest->memory.length == LIMIT && guest->memory.here, true);
    if (part[at] == NOTHING) ram[at] ^= change;
    for (uint32_t i = 0; i < LIMIT; i++) {
        uint8_t flags = i == at && BASE + i != empty ? change & loose[i] : 0;
        IS(ram[i], part[i] == NOTHING ? (uint8_t)(i * 3 + at) : right[i] ^ flags);
    }
    IS(mh_check(&guest->asleep, &guest->memory, &fault), MH_NO_ERR);
    WAKE(guest);
    SLEEP(guest);
    memcpy(ram, right, LIMIT);
    WAKE(guest);
    SLEEP(guest);
}

/* What is refused. */
static void refused(Guest *guest) {
    MhFault fault = {77, 77};
    MhAsleep none = MH_NO_ASLEEP;
    MhMemory fewer = {ram, LIMIT - 1, true}, gone = {NULL, 0, false};
    IS(mh_check(&none, &guest->memory, &fault), MH_NOT_THERE);
    IS(mh_check(&guest->asleep, &fewer, &fault), MH_BAD_NUMBER);
    IS(mh_check(&guest->asleep, &gone, &fault), MH_NOT_THERE);
    IS(mh_repair(&none, &guest->memory), MH_NOT_THERE);
    IS(mh_repair(&guest->asleep, &fewer), MH_BAD_NUMBER);
    IS(mh_repair(&guest->asleep, &gone), MH_NOT_THERE);
    IS(fault.offset == 77 && fault.part == 77 && fewer.here && fewer.length == LIMIT - 1 && !gone.here, true);
    WAKE(guest);
    IS(mh_check(&guest->asleep, &guest->memory, &fault), MH_NOT_THERE);
    IS(mh_repair(&guest->asleep, &guest->memory), MH_NOT_THERE);
    SLEEP(guest);
}

int main(void) {
    for (uint32_t mode = 24; mode <= 32; mode += 8) {
        Guest guest;
        made(&guest, mode);
        held(&guest);
        for (uint32_t at = 0; at < LIMIT; at++) {
            damaged(&guest, at, 0x40);
            damaged(&guest, at, 0xFF);
        }
        refused(&guest);
        IS(mh_end_asleep(&guest.asleep), MH_NO_ERR);
    }
    return faults != 0;
}
