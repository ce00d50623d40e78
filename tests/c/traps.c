/* Answers every trap of the table in macheap_traps.h as an emulator does, by what its row says: operands are read where
 * a program put them, and results written where it looks for them. Then it makes each trap, and compares what a program
 * finds with what the calls are known to give. It ends with status 1 where one differs, or where a row was never
 * reached. */
#include "checks.h"
#include "macheap_traps.h"
#include "resman.h"

#include <string.h>

enum { BASE = 0x100000, SIZE = 0x10000, STACK = 0xF00, TEXT = 0x54455854 };

/* A processor as far as traps see it: three registers, its stack, and low memory. */
typedef struct Machine {
    MhZone zone;
    MrFiles files;
    uint32_t a0, a1, d0, sp, grow_zone;
    uint8_t memory[0x1000];
} Machine;

/* What a call takes and gives, in the order of its row: results through addresses first. */
typedef struct Call {
    uint32_t takes[4], gives[5];
    uint8_t name[255]; /* a name that it gives */
    uint32_t length;
} Call;

static Machine machine = {MH_NO_ZONE, MR_NO_FILES, 0, 0, 0, STACK, 0, {0}};
static bool reached[MH_TRAPS_COUNT];

static uint32_t peek(uint32_t at, int bytes) {
    uint32_t value = 0;
    for (int n = 0; n < bytes; n++) value = value << 8 | machine.memory[at + (uint32_t)n];
    return value;
}

static void poke(uint32_t at, int bytes, uint32_t value) {
    for (int n = bytes; n-- > 0; value >>= 8) machine.memory[at + (uint32_t)n] = (uint8_t)value;
}

static void push(int bytes, uint32_t value) { poke(machine.sp -= (uint32_t)bytes, bytes, value); }

static uint32_t pop(int bytes) {
    machine.sp += (uint32_t)bytes;
    return peek(machine.sp - (uint32_t)bytes, bytes);
}

static uint32_t taken(const MhTrapPlace *operand) {
    switch (operand->place) {
    case MH_NOWHERE: return 0;
    case MH_A0: return machine.a0;
    case MH_A1: return machine.a1;
    case MH_D0: return machine.d0;
    case MH_D0_BYTE: return machine.d0 & 0xFF;
    case MH_WORD: return pop(2);
    case MH_BOOLEAN: return pop(2) >> 8;
    }
    return pop(4);
}

static void give(const MhTrapPlace *result, uint32_t value) {
    switch (result->place) {
    case MH_A0: machine.a0 = value; break;
    case MH_A1: machine.a1 = value; break;
    case MH_D0: machine.d0 = value; break;
    case MH_D0_BYTE: machine.d0 = (machine.d0 & 0xFFFFFF00) | value; break;
    case MH_WORD: poke(machine.sp, 2, value); break;
    case MH_LONG: poke(machine.sp, 4, value); break;
    }
}

/* Writes what a call gives through an address that was an operand, and returns whether the operand is one. */
static bool give_through(const MhTrapPlace *operand, uint32_t at, uint32_t value, const Call *call) {
    if (operand->place == MH_VAR_WORD) poke(at, 2, value);
    else if (operand->place == MH_VAR_LONG) poke(at, 4, value);
    else if (operand->place == MH_VAR_TEXT) {
        poke(at, 1, call->length);
        memcpy(&machine.memory[at + 1], call->name, call->length);
    } else return false;
    return true;
}

/* BlockMove takes addresses: each is in a block that the zone finds. */
static MhErr block_move(const uint32_t *takes) {
    enum { HEAD = 8 };
    MhBlock from, to;
    MhErr code = mh_holder(&machine.zone, takes[0], &from);
    if (code == MH_NO_ERR) code = mh_holder(&machine.zone, takes[1], &to);
    if (code != MH_NO_ERR) return code;
    uint32_t start = takes[0] - from.address - HEAD, offset = takes[1] - to.address - HEAD;
    return mh_block_move(&machine.zone, from.owner, start, to.owner, offset, takes[2]);
}

static MhErr memory_call(uint16_t word, const uint32_t *takes, uint32_t *gives) {
    MhZone *zone = &machine.zone;
    switch (word) {
    case MH_TRAP_FREE_MEM: return mh_free_mem(zone, gives);
    case MH_TRAP_DISPOSE_PTR: return mh_dispose_ptr(zone, takes[0]);
    case MH_TRAP_SET_PTR_SIZE: return mh_set_ptr_size(zone, takes[0], takes[1]);
    case MH_TRAP_GET_PTR_SIZE: return mh_get_ptr_size(zone, takes[0], gives);
    case MH_TRAP_DISPOSE_HANDLE: return mr_dispose_handle(&machine.files, zone, takes[0]);
    case MH_TRAP_SET_HANDLE_SIZE: return mh_set_handle_size(zone, takes[0], takes[1]);
    case MH_TRAP_GET_HANDLE_SIZE: return mh_get_handle_size(zone, takes[0], gives);
    case MH_TRAP_REALLOC_HANDLE: return mh_reallocate_handle(zone, takes[0], takes[1]);
    case MH_TRAP_H_LOCK: return mh_hlock(zone, takes[0]);
    case MH_TRAP_H_UNLOCK: return mh_hunlock(zone, takes[0]);
    case MH_TRAP_EMPTY_HANDLE: return mh_empty_handle(zone, takes[0]);
    case MH_TRAP_BLOCK_MOVE: return block_move(takes);
    case MH_TRAP_MORE_MASTERS: return mh_more_masters(zone);
    case MH_TRAP_RESRV_MEM: return mh_reserve_mem(zone, takes[0]);
    case MH_TRAP_H_PURGE: return mh_hpurge(zone, takes[0]);
    case MH_TRAP_H_NO_PURGE: return mh_hno_purge(zone, takes[0]);
    case MH_TRAP_SET_GROW_ZONE: machine.grow_zone = takes[0]; return MH_NO_ERR;
    case MH_TRAP_COMPACT_MEM: return mh_compact_mem(zone, takes[0], gives);
    case MH_TRAP_PURGE_MEM: return mh_purge_mem(zone, takes[0]);
    case MH_TRAP_MAX_BLOCK: return mh_max_block(zone, gives);
    case MH_TRAP_MAX_APPL_ZONE: return mh_max_appl_zone(zone);
    case MH_TRAP_MOVE_H_HI: return mh_move_hhi(zone, takes[0]);
    case MH_TRAP_H_SET_R_BIT: return mh_hset_rbit(zone, takes[0]);
    case MH_TRAP_H_CLR_R_BIT: return mh_hclr_rbit(zone, takes[0]);
    case MH_TRAP_H_GET_STATE: return mh_hget_state(zone, takes[0], gives);
    case MH_TRAP_H_SET_STATE: return mh_hset_state(zone, takes[0], takes[1]);
    case MH_TRAP_MAX_MEM: return mh_max_mem(zone, &gives[0], &gives[1]);
    case MH_TRAP_NEW_PTR: return mh_new_ptr(zone, takes[0], gives);
    case MH_TRAP_NEW_HANDLE: return mh_new_handle(zone, takes[0], gives);
    case MH_TRAP_RECOVER_HANDLE: return mh_recover_handle(zone, takes[0], gives);
    case MH_TRAP_PURGE_SPACE: return mh_purge_space(zone, &gives[0], &gives[1]);
    case MH_TRAP_NEW_EMPTY_HANDLE: return mh_new_empty_handle(zone, gives);
    case MH_TRAP_HAND_TO_HAND: return mh_hand_to_hand(zone, takes[0], gives);
    case MH_TRAP_PTR_TO_HAND: return mh_ptr_to_hand(zone, takes[0], takes[1], gives);
    case MH_TRAP_PTR_TO_X_HAND: gives[0] = takes[1]; return mh_ptr_to_xhand(zone, takes[0], takes[1], takes[2]);
    case MH_TRAP_HAND_AND_HAND: gives[0] = takes[1]; return mh_hand_and_hand(zone, takes[0], takes[1]);
    case MH_TRAP_PTR_AND_HAND: gives[0] = takes[1]; return mh_ptr_and_hand(zone, takes[0], takes[1], takes[2]);
    }
    return MH_PARAM_ERR;
}

static MhErr info_call(Call *call) {
    MrInfo info = {0, 0, 0};
    MhErr code = mr_get_res_info(&machine.files, &machine.zone, call->takes[0], &info, call->name, sizeof call->name);
    call->gives[0] = (uint16_t)info.id;
    call->gives[1] = info.kind;
    call->length = info.name_length;
    return code;
}

/* The text at an address; where an operand is another number it isn't looked at. */
static const uint8_t *text_at(uint32_t address) { return &machine.memory[address % (sizeof machine.memory - 256)]; }

static MhErr resource_call(uint16_t word, Call *call) {
    MrFiles *files = &machine.files;
    MhZone *zone = &machine.zone;
    const uint32_t *takes = call->takes;
    uint32_t *gives = call->gives, kind = takes[0];
    int16_t id = (int16_t)takes[1];
    const uint8_t *name = text_at(takes[1]), *new_name = text_at(takes[2]), *last = text_at(takes[3]);
    switch (word) {
    case MH_TRAP_COUNT1_RESOURCES: return mr_count1_resources(files, zone, kind, gives);
    case MH_TRAP_GET1_IX_RESOURCE: return mr_get1_ind_resource(files, zone, kind, takes[1], gives);
    case MH_TRAP_GET1_IX_TYPE: return mr_get1_ind_type(files, zone, takes[1], gives);
    case MH_TRAP_UNIQUE1_ID: return mr_unique1_id(files, zone, kind, gives);
    case MH_TRAP_COUNT1_TYPES: return mr_count1_types(files, zone, gives);
    case MH_TRAP_GET1_RESOURCE: return mr_get1_resource(files, zone, kind, id, gives);
    case MH_TRAP_GET1_NAMED_RESOURCE: return mr_get1_named_resource(files, zone, kind, name + 1, name[0], gives);
    case MH_TRAP_DETACH_RESOURCE: return mr_detach_resource(files, zone, takes[0]);
    case MH_TRAP_CUR_RES_FILE: return mr_cur_res_file(files, zone, gives);
    /* the file of each name is empty here */
    case MH_TRAP_OPEN_RES_FILE: return mr_open(files, zone, (const uint8_t *)"", 0, gives);
    case MH_TRAP_USE_RES_FILE: return mr_use_res_file(files, zone, takes[0]);
    case MH_TRAP_UPDATE_RES_FILE: return mr_update_res_file(files, zone, takes[0]);
    case MH_TRAP_CLOSE_RES_FILE: return mr_close_res_file(files, zone, takes[0]);
    case MH_TRAP_SET_RES_LOAD: return mr_set_res_load(files, zone, takes[0]);
    case MH_TRAP_COUNT_RESOURCES: return mr_count_resources(files, zone, kind, gives);
    case MH_TRAP_GET_IND_RESOURCE: return mr_get_ind_resource(files, zone, kind, takes[1], gives);
    case MH_TRAP_COUNT_TYPES: return mr_count_types(files, zone, gives);
    case MH_TRAP_GET_IND_TYPE: return mr_get_ind_type(files, zone, takes[1], gives);
    case MH_TRAP_GET_RESOURCE: return mr_get_resource(files, zone, kind, id, gives);
    case MH_TRAP_GET_NAMED_RESOURCE: return mr_get_named_resource(files, zone, kind, name + 1, name[0], gives);
    case MH_TRAP_LOAD_RESOURCE: return mr_load_resource(files, zone, takes[0]);
    case MH_TRAP_RELEASE_RESOURCE: return mr_release_resource(files, zone, takes[0]);
    case MH_TRAP_HOME_RES_FILE: return mr_home_res_file(files, zone, takes[0], gives);
    case MH_TRAP_SIZE_RSRC: return mr_size_resource(files, zone, takes[0], gives);
    case MH_TRAP_GET_RES_ATTRS: return mr_get_res_attrs(files, zone, takes[0], gives);
    case MH_TRAP_SET_RES_ATTRS: return mr_set_res_attrs(files, zone, takes[0], takes[1]);
    case MH_TRAP_GET_RES_INFO: return info_call(call);
    case MH_TRAP_SET_RES_INFO: return mr_set_res_info(files, takes[0], id, new_name + 1, new_name[0]);
    case MH_TRAP_CHANGED_RESOURCE: return mr_changed_resource(files, zone, takes[0]);
    case MH_TRAP_ADD_RESOURCE:
        return mr_add_resource(files, zone, takes[0], takes[1], (int16_t)takes[2], last + 1, last[0]);
    case MH_TRAP_RMVE_RESOURCE: return mr_rmve_resource(files, zone, takes[0]);
    case MH_TRAP_RES_ERROR: gives[0] = peek(MH_LOW_RES_ERR, 2); return (MhErr)gives[0];
    case MH_TRAP_WRITE_RESOURCE: return mr_write_resource(files, zone, takes[0]);
    case MH_TRAP_UNIQUE_ID: return mr_unique_id(files, zone, kind, gives);
    }
    return MH_PARAM_ERR;
}

/* What an emulator does at a trap. */
static void trap(uint16_t word) {
    const MhTrap *row = mh_find_trap(word);
    Call call = {{0}, {0}, {0}, 0};
    uint32_t through = 0;
    if (!row) { printf("$%04X has no row\n", word); exit(1); }
    reached[row - MH_TRAPS] = true;
    for (int n = 4; n-- > 0;) call.takes[n] = taken(&row->operands[n]);
    MhErr code = row->on_stack ? resource_call(row->word, &call) : memory_call(row->word, call.takes, call.gives);
    poke(row->on_stack ? MH_LOW_RES_ERR : MH_LOW_MEM_ERR, 2, (uint32_t)(int32_t)code);
    if (!row->on_stack) machine.d0 = (uint32_t)(int32_t)code;
    if (code != MH_NO_ERR && !row->on_stack) return;
    for (int n = 0; n < 4; n++)
        if (give_through(&row->operands[n], call.takes[n], call.gives[through], &call)) through++;
    for (int n = 0; n < 2; n++) give(&row->results[n], call.gives[through + (uint32_t)n]);
}

/* ---- what programs do */

/* A trap whose operands are in registers: returns the code. */
static int32_t os(uint16_t word, uint32_t a0, uint32_t a1, uint32_t d0) {
    machine.a0 = a0;
    machine.a1 = a1;
    machine.d0 = d0;
    trap(word);
    return (int16_t)peek(MH_LOW_MEM_ERR, 2);
}

/* A trap whose operands were pushed, after room for a result: returns the result. */
static uint32_t toolbox(uint16_t word, int bytes) {
    trap(word);
    uint32_t result = pop(bytes);
    IS(machine.sp, STACK);
    return result;
}

static int32_t res_error(void) {
    push(2, 0);
    return (int16_t)toolbox(MH_TRAP_RES_ERROR, 2);
}

/* Where a handle's bytes are. */
static uint32_t at(uint32_t handle) {
    uint32_t address = 0;
    IS(mh_deref(&machine.zone, handle, &address), MH_NO_ERR);
    return address & 0xFFFFFF;
}

/* The bytes of a handle's block. */
static void has(int line, uint32_t handle, const char *text) {
    uint8_t bytes[64] = {0};
    uint32_t size = 0;
    mh_get_handle_size(&machine.zone, handle, &size);
    same(line, "the handle's size", size, (int64_t)strlen(text));
    if (size < sizeof bytes) mh_peek(&machine.zone, handle, 0, bytes, size);
    same(line, "the handle's bytes differ", memcmp(bytes, text, strlen(text)), 0);
}
#define HAS(handle, text) has(__LINE__, handle, text)

static uint32_t handle_of(const char *text) {
    IS(os(MH_TRAP_NEW_HANDLE, 0, 0, (uint32_t)strlen(text)), MH_NO_ERR);
    IS(mh_poke(&machine.zone, machine.a0, 0, (const uint8_t *)text, strlen(text)), MH_NO_ERR);
    return machine.a0;
}

static void blocks(void) {
    IS(os(MH_TRAP_NEW_HANDLE | MH_TRAP_CLEAR | MH_TRAP_SYS, 0, 0, 100), MH_NO_ERR);
    uint32_t handle = machine.a0;
    IS(os(MH_TRAP_GET_HANDLE_SIZE, handle, 0, 0), MH_NO_ERR);
    IS(machine.d0, 100);
    IS(os(MH_TRAP_SET_HANDLE_SIZE, handle, 0, 200), MH_NO_ERR);
    IS(machine.a0, handle);
    IS(os(MH_TRAP_RECOVER_HANDLE, at(handle), 0, 0), MH_NO_ERR);
    IS(machine.a0, handle);
    IS(os(MH_TRAP_MOVE_H_HI, handle, 0, 0), MH_NO_ERR);
    IS(at(handle) + 200, BASE + SIZE);
    IS(os(MH_TRAP_REALLOC_HANDLE, handle, 0, 50), MH_NO_ERR);
    IS(os(MH_TRAP_EMPTY_HANDLE, handle, 0, 0), MH_NO_ERR);
    IS(os(MH_TRAP_GET_HANDLE_SIZE, handle, 0, 0), MH_NIL_HANDLE_ERR);
    IS((int32_t)machine.d0, MH_NIL_HANDLE_ERR);
    IS(os(MH_TRAP_DISPOSE_HANDLE, handle, 0, 0), MH_NO_ERR);
    IS(os(MH_TRAP_NEW_EMPTY_HANDLE, 0, 0, 0), MH_NO_ERR);
    IS(machine.a0, handle);
    IS(os(MH_TRAP_DISPOSE_HANDLE, handle, 0, 0), MH_NO_ERR);
    IS(os(MH_TRAP_NEW_EMPTY_HANDLE & ~MH_TRAP_A0, 0, 0, 0), MH_NO_ERR);
    IS(machine.a0, handle);
    IS(os(MH_TRAP_DISPOSE_HANDLE, handle, 0, 0), MH_NO_ERR);
    IS(os(MH_TRAP_NEW_PTR, 0, 0, 60), MH_NO_ERR);
    uint32_t pointer = machine.a0;
    IS(os(MH_TRAP_SET_PTR_SIZE, pointer, 0, 40), MH_NO_ERR);
    IS(os(MH_TRAP_GET_PTR_SIZE, pointer, 0, 0), MH_NO_ERR);
    IS(machine.d0, 40);
    IS(os(MH_TRAP_DISPOSE_PTR, pointer, 0, 0), MH_NO_ERR);
    IS(os(MH_TRAP_DISPOSE_PTR, pointer, 0, 0), MH_MEM_WZ_ERR);
}

static void flags(void) {
    static const struct { uint16_t word; uint32_t state; } turns[] = {
        {MH_TRAP_H_LOCK, 128}, {MH_TRAP_H_PURGE, 192}, {MH_TRAP_H_SET_R_BIT, 224}, {MH_TRAP_H_UNLOCK, 96},
        {MH_TRAP_H_NO_PURGE, 32}, {MH_TRAP_H_CLR_R_BIT, 0},
    };
    uint32_t handle = handle_of("flags");
    for (size_t n = 0; n < sizeof turns / sizeof turns[0]; n++) {
        IS(os(turns[n].word, handle, 0, 0), MH_NO_ERR);
        IS(os(MH_TRAP_H_GET_STATE, handle, 0, 0), MH_NO_ERR);
        IS(machine.d0 & 0xFF, turns[n].state);
    }
    IS(os(MH_TRAP_H_SET_STATE, handle, 0, 0x12345640), MH_NO_ERR);
    IS(os(MH_TRAP_H_GET_STATE, handle, 0, 0), MH_NO_ERR);
    IS(machine.d0 & 0xFF, 64);
    IS(os(MH_TRAP_DISPOSE_HANDLE, handle, 0, 0), MH_NO_ERR);
}

static void copies(void) {
    uint32_t one = handle_of("one"), other = handle_of("other");
    IS(os(MH_TRAP_HAND_AND_HAND, one, other, 0), MH_NO_ERR);
    IS(machine.a0, other);
    HAS(other, "otherone");
    IS(os(MH_TRAP_HAND_TO_HAND, other, 0, 0), MH_NO_ERR);
    uint32_t copy = machine.a0;
    HAS(copy, "otherone");
    IS(os(MH_TRAP_NEW_PTR, 0, 0, 8), MH_NO_ERR);
    uint32_t pointer = machine.a0;
    IS(os(MH_TRAP_BLOCK_MOVE, at(other) + 5, pointer + 1, 3), MH_NO_ERR);
    IS(os(MH_TRAP_BLOCK_MOVE, pointer + 1, at(copy), 3), MH_NO_ERR);
    HAS(copy, "oneerone");
    IS(os(MH_TRAP_BLOCK_MOVE, at(other), pointer, 8), MH_NO_ERR);
    IS(os(MH_TRAP_PTR_TO_HAND, pointer, 0, 5), MH_NO_ERR);
    HAS(machine.a0, "other");
    IS(os(MH_TRAP_PTR_AND_HAND, pointer, one, 2), MH_NO_ERR);
    IS(machine.a0, one);
    HAS(one, "oneot");
    IS(os(MH_TRAP_PTR_TO_X_HAND, pointer, one, 4), MH_NO_ERR);
    IS(machine.a0, one);
    HAS(one, "othe");
}

static void room(void) {
    IS(os(MH_TRAP_MORE_MASTERS, 0, 0, 0), MH_NO_ERR);
    IS(os(MH_TRAP_RESRV_MEM, 0, 0, 1000), MH_NO_ERR);
    IS(os(MH_TRAP_MAX_APPL_ZONE, 0, 0, 0), MH_NO_ERR);
    IS(os(MH_TRAP_PURGE_MEM, 0, 0, 1000), MH_NO_ERR);
    IS(os(MH_TRAP_COMPACT_MEM, 0, 0, 0x7FFFFF), MH_NO_ERR);
    uint32_t largest = machine.d0;
    IS(os(MH_TRAP_FREE_MEM, 0, 0, 0), MH_NO_ERR);
    IS(machine.d0, largest);
    IS(os(MH_TRAP_MAX_BLOCK, 0, 0, 0), MH_NO_ERR);
    IS(machine.d0, largest);
    IS(os(MH_TRAP_PURGE_SPACE & ~MH_TRAP_A0, 0, 0, 0), MH_NO_ERR);
    IS(machine.d0, largest);
    IS(machine.a0, largest);
    IS(os(MH_TRAP_MAX_MEM, 99, 0, 0), MH_NO_ERR);
    IS(machine.d0, largest);
    IS(machine.a0, 0);
    IS(os(MH_TRAP_NEW_HANDLE, 99, 0, SIZE), MH_MEM_FULL_ERR);
    IS((int32_t)machine.d0, MH_MEM_FULL_ERR);
    IS(os(MH_TRAP_SET_GROW_ZONE, 0x8000, 0, 0), MH_NO_ERR);
    IS(machine.grow_zone, 0x8000);
}

/* A text of Pascal at an address, which it returns. */
static uint32_t text(uint32_t address, const char *bytes) {
    poke(address, 1, (uint32_t)strlen(bytes));
    memcpy(&machine.memory[address + 1], bytes, strlen(bytes));
    return address;
}

static void add(uint32_t handle, uint32_t kind, int16_t id, const char *name) {
    push(4, handle);
    push(4, kind);
    push(2, (uint16_t)id);
    push(4, text(0x200, name));
    toolbox(MH_TRAP_ADD_RESOURCE, 0);
    IS(res_error(), MH_NO_ERR);
}

/* Traps that take a resource's handle and give a word, or nothing. */
static uint32_t of_handle(uint16_t word, uint32_t handle, int bytes) {
    push(bytes, 0);
    push(4, handle);
    uint32_t result = toolbox(word, bytes);
    IS(res_error(), MH_NO_ERR);
    return result;
}

/* Traps that take a type, and an id or an index or a name, and give a handle or a word. */
static uint32_t of_type(uint16_t word, int bytes, int more, uint32_t operand) {
    push(bytes, 0);
    push(4, TEXT);
    push(more, operand);
    return toolbox(word, bytes);
}

static uint32_t plain(uint16_t word) {
    push(2, 0);
    return toolbox(word, 2);
}

static uint32_t indexed_type(uint16_t word, uint32_t index) {
    push(4, 0x300);
    push(2, index);
    toolbox(word, 0);
    return peek(0x300, 4);
}

static void of_file(uint16_t word, uint32_t file) {
    push(2, file);
    toolbox(word, 0);
    IS(res_error(), MH_NO_ERR);
}

static void looked_at(uint32_t one, uint32_t other) {
    IS(of_type(MH_TRAP_COUNT_RESOURCES, 2, 0, 0), 2);
    IS(of_type(MH_TRAP_COUNT1_RESOURCES, 2, 0, 0), 2);
    IS(of_type(MH_TRAP_UNIQUE_ID, 2, 0, 0), 130);
    IS(of_type(MH_TRAP_UNIQUE1_ID, 2, 0, 0), 130);
    IS(of_type(MH_TRAP_GET_IND_RESOURCE, 4, 2, 2), other);
    IS(of_type(MH_TRAP_GET1_IX_RESOURCE, 4, 2, 1), one);
    IS(of_type(MH_TRAP_GET_RESOURCE, 4, 2, 128), one);
    IS(of_type(MH_TRAP_GET1_RESOURCE, 4, 2, 129), other);
    IS(of_type(MH_TRAP_GET_NAMED_RESOURCE, 4, 4, text(0x200, "second")), other);
    IS(of_type(MH_TRAP_GET1_NAMED_RESOURCE, 4, 4, text(0x200, "First")), one);
    IS(of_type(MH_TRAP_GET_RESOURCE, 4, 2, 99), 0);
    IS(res_error(), MR_RES_NOT_FOUND);
    IS(plain(MH_TRAP_COUNT_TYPES), 1);
    IS(plain(MH_TRAP_COUNT1_TYPES), 1);
    IS(indexed_type(MH_TRAP_GET_IND_TYPE, 1), TEXT);
    IS(indexed_type(MH_TRAP_GET1_IX_TYPE, 1), TEXT);
}

static void resources(void) {
    uint32_t one = handle_of("one"), other = handle_of("other");
    push(2, 0);
    push(4, text(0x200, "a file"));
    IS(toolbox(MH_TRAP_OPEN_RES_FILE, 2), 1);
    IS(plain(MH_TRAP_CUR_RES_FILE), 1);
    add(one, TEXT, 128, "First");
    add(other, TEXT, 129, "Second");
    looked_at(one, other);
    IS(of_handle(MH_TRAP_HOME_RES_FILE, one, 2), 1);
    of_handle(MH_TRAP_WRITE_RESOURCE, one, 0);
    of_file(MH_TRAP_UPDATE_RES_FILE, 1);
    IS(of_handle(MH_TRAP_SIZE_RSRC, other, 4), 5);
    push(4, one);
    push(2, 32);
    toolbox(MH_TRAP_SET_RES_ATTRS, 0);
    IS(of_handle(MH_TRAP_GET_RES_ATTRS, one, 2), 32);
    push(4, one);
    push(2, (uint16_t)-5);
    push(4, text(0x200, "Third"));
    toolbox(MH_TRAP_SET_RES_INFO, 0);
    for (uint32_t n = 0; n < 3; n++) push(4, n ? 0x300 + 8 * n : one);
    push(4, 0x400);
    toolbox(MH_TRAP_GET_RES_INFO, 0);
    IS((int16_t)peek(0x308, 2), -5);
    IS(peek(0x310, 4), TEXT);
    IS(memcmp(&machine.memory[0x400], "\5Third", 6), 0);
    of_handle(MH_TRAP_CHANGED_RESOURCE, one, 0);
    of_file(MH_TRAP_UPDATE_RES_FILE, 1);
    of_handle(MH_TRAP_RELEASE_RESOURCE, one, 0);
    /* the high byte of a boolean counts */
    push(2, 0x00FF);
    toolbox(MH_TRAP_SET_RES_LOAD, 0);
    one = of_type(MH_TRAP_GET_RESOURCE, 4, 2, (uint16_t)-5);
    IS(os(MH_TRAP_GET_HANDLE_SIZE, one, 0, 0), MH_NIL_HANDLE_ERR);
    push(2, 0x0100);
    toolbox(MH_TRAP_SET_RES_LOAD, 0);
    of_handle(MH_TRAP_LOAD_RESOURCE, one, 0);
    HAS(one, "one");
    of_handle(MH_TRAP_DETACH_RESOURCE, one, 0);
    of_handle(MH_TRAP_RMVE_RESOURCE, other, 0);
    IS(of_type(MH_TRAP_COUNT_RESOURCES, 2, 0, 0), 1);
    of_file(MH_TRAP_USE_RES_FILE, 1);
    of_file(MH_TRAP_CLOSE_RES_FILE, 1);
    IS(plain(MH_TRAP_CUR_RES_FILE), 0);
}

int main(void) {
    IS(mh_make_zone(&machine.zone, BASE, SIZE, SIZE, 24), MH_NO_ERR);
    IS(mr_begin(&machine.files), MH_NO_ERR);
    blocks();
    flags();
    copies();
    room();
    resources();
    IS(mh_find_trap(0xA001) == NULL, true);
    IS(mh_find_trap(MH_TRAP_HAND_TO_HAND ^ 0x0800) == NULL, true);
    for (int n = 0; n < MH_TRAPS_COUNT; n++) {
        if (!reached[n]) printf("no program made %s\n", MH_TRAPS[n].name);
        IS(reached[n], true);
    }
    IS(mr_end(&machine.files), MH_NO_ERR);
    IS(mh_end_zone(&machine.zone), MH_NO_ERR);
    return faults != 0;
}
