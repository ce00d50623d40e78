/* The traps of the classic Macintosh Memory Manager and Resource Manager, for an emulator: their words, where a program
 * puts the operands, and where it finds the results. tools/traps.py makes this file of tools/traps.txt, which has the
 * sources.
 *
 * A word is $A0xx to $A7xx for a trap of the operating system. Its low byte is the trap's number, and bits 8 to 10 are
 * flags: MH_TRAP_A0 where A0 has a result, MH_TRAP_CLEAR where new bytes are zero, and MH_TRAP_SYS for the system zone.
 * Other traps have $A8xx to $ABxx. mh_find_trap finds the row of a word, whatever its flags.
 *
 * A trap whose operands are in registers leaves its code in D0, sign-extended, but a result there where the code is 0;
 * MemErr has the code of the Memory Manager's calls, too, and ResErr that of the Resource Manager's. A trap whose
 * operands are on the stack takes them off, and its result is what lies there then.
 */
#ifndef MACHEAP_TRAPS_H
#define MACHEAP_TRAPS_H

#include <stdbool.h>
#include <stddef.h>
#include <stdint.h>

#ifdef __cplusplus
extern "C" {
#endif

/* Flags of the operating system's traps. */
enum { MH_TRAP_A0 = 0x0100, MH_TRAP_CLEAR = 0x0200, MH_TRAP_SYS = 0x0400 };

/* The words, as programs have them without the flags CLEAR and SYS. */
enum {
    MH_TRAP_FREE_MEM = 0xA01C,
    MH_TRAP_DISPOSE_PTR = 0xA01F,
    MH_TRAP_SET_PTR_SIZE = 0xA020,
    MH_TRAP_GET_PTR_SIZE = 0xA021,
    MH_TRAP_DISPOSE_HANDLE = 0xA023,
    MH_TRAP_SET_HANDLE_SIZE = 0xA024,
    MH_TRAP_GET_HANDLE_SIZE = 0xA025,
    MH_TRAP_REALLOC_HANDLE = 0xA027,
    MH_TRAP_H_LOCK = 0xA029,
    MH_TRAP_H_UNLOCK = 0xA02A,
    MH_TRAP_EMPTY_HANDLE = 0xA02B,
    MH_TRAP_BLOCK_MOVE = 0xA02E,
    MH_TRAP_MORE_MASTERS = 0xA036,
    MH_TRAP_RESRV_MEM = 0xA040,
    MH_TRAP_H_PURGE = 0xA049,
    MH_TRAP_H_NO_PURGE = 0xA04A,
    MH_TRAP_SET_GROW_ZONE = 0xA04B,
    MH_TRAP_COMPACT_MEM = 0xA04C,
    MH_TRAP_PURGE_MEM = 0xA04D,
    MH_TRAP_MAX_BLOCK = 0xA061,
    MH_TRAP_MAX_APPL_ZONE = 0xA063,
    MH_TRAP_MOVE_H_HI = 0xA064,
    MH_TRAP_H_SET_R_BIT = 0xA067,
    MH_TRAP_H_CLR_R_BIT = 0xA068,
    MH_TRAP_H_GET_STATE = 0xA069,
    MH_TRAP_H_SET_STATE = 0xA06A,
    MH_TRAP_MAX_MEM = 0xA11D,
    MH_TRAP_NEW_PTR = 0xA11E,
    MH_TRAP_NEW_HANDLE = 0xA122,
    MH_TRAP_RECOVER_HANDLE = 0xA128,
    MH_TRAP_PURGE_SPACE = 0xA162,
    MH_TRAP_NEW_EMPTY_HANDLE = 0xA166,
    MH_TRAP_COUNT1_RESOURCES = 0xA80D,
    MH_TRAP_GET1_IX_RESOURCE = 0xA80E,
    MH_TRAP_GET1_IX_TYPE = 0xA80F,
    MH_TRAP_UNIQUE1_ID = 0xA810,
    MH_TRAP_COUNT1_TYPES = 0xA81C,
    MH_TRAP_GET1_RESOURCE = 0xA81F,
    MH_TRAP_GET1_NAMED_RESOURCE = 0xA820,
    MH_TRAP_DETACH_RESOURCE = 0xA992,
    MH_TRAP_CUR_RES_FILE = 0xA994,
    MH_TRAP_OPEN_RES_FILE = 0xA997,
    MH_TRAP_USE_RES_FILE = 0xA998,
    MH_TRAP_UPDATE_RES_FILE = 0xA999,
    MH_TRAP_CLOSE_RES_FILE = 0xA99A,
    MH_TRAP_SET_RES_LOAD = 0xA99B,
    MH_TRAP_COUNT_RESOURCES = 0xA99C,
    MH_TRAP_GET_IND_RESOURCE = 0xA99D,
    MH_TRAP_COUNT_TYPES = 0xA99E,
    MH_TRAP_GET_IND_TYPE = 0xA99F,
    MH_TRAP_GET_RESOURCE = 0xA9A0,
    MH_TRAP_GET_NAMED_RESOURCE = 0xA9A1,
    MH_TRAP_LOAD_RESOURCE = 0xA9A2,
    MH_TRAP_RELEASE_RESOURCE = 0xA9A3,
    MH_TRAP_HOME_RES_FILE = 0xA9A4,
    MH_TRAP_SIZE_RSRC = 0xA9A5,
    MH_TRAP_GET_RES_ATTRS = 0xA9A6,
    MH_TRAP_SET_RES_ATTRS = 0xA9A7,
    MH_TRAP_GET_RES_INFO = 0xA9A8,
    MH_TRAP_SET_RES_INFO = 0xA9A9,
    MH_TRAP_CHANGED_RESOURCE = 0xA9AA,
    MH_TRAP_ADD_RESOURCE = 0xA9AB,
    MH_TRAP_RMVE_RESOURCE = 0xA9AD,
    MH_TRAP_RES_ERROR = 0xA9AF,
    MH_TRAP_WRITE_RESOURCE = 0xA9B0,
    MH_TRAP_UNIQUE_ID = 0xA9C1,
    MH_TRAP_HAND_TO_HAND = 0xA9E1,
    MH_TRAP_PTR_TO_X_HAND = 0xA9E2,
    MH_TRAP_PTR_TO_HAND = 0xA9E3,
    MH_TRAP_HAND_AND_HAND = 0xA9E4,
    MH_TRAP_PTR_AND_HAND = 0xA9EF
};

/* Globals in low memory, of 4 bytes but where it says so. */
enum {
    MH_LOW_BUF_PTR = 0x010C,       /* the end of what programs may use */
    MH_LOW_HEAP_END = 0x0114,      /* the end of the application zone */
    MH_LOW_THE_ZONE = 0x0118,      /* the current zone */
    MH_LOW_APPL_LIMIT = 0x0130,    /* how far the application zone may grow */
    MH_LOW_MEM_ERR = 0x0220,       /* the code of the Memory Manager's last call (a word) */
    MH_LOW_SYS_ZONE = 0x02A6,      /* the system zone */
    MH_LOW_APPL_ZONE = 0x02AA,     /* the application zone */
    MH_LOW_TOP_MAP_HNDL = 0x0A50,  /* the handle of the map of the file that was opened last */
    MH_LOW_SYS_MAP_HNDL = 0x0A54,  /* the handle of the system file's map */
    MH_LOW_SYS_MAP = 0x0A58,       /* the system file's number (a word) */
    MH_LOW_CUR_MAP = 0x0A5A,       /* the current file's number (a word) */
    MH_LOW_RES_LOAD = 0x0A5E,      /* whether resources are loaded (a word) */
    MH_LOW_RES_ERR = 0x0A60        /* the code of the Resource Manager's last call (a word) */
};

/* Where an operand or a result is. */
enum {
    MH_NOWHERE = 0, /* there is none */
    MH_A0,
    MH_A1,
    MH_D0,
    MH_D0_BYTE,  /* the low byte of D0 */
    MH_WORD,     /* on the stack, 2 bytes */
    MH_LONG,     /* on the stack, 4 bytes */
    MH_BOOLEAN,  /* on the stack, 2 bytes, of which the first counts */
    MH_TEXT,     /* on the stack, the address of a length byte and as many bytes */
    MH_VAR_WORD, /* on the stack, the address of 2 bytes where a result is written */
    MH_VAR_LONG, /* the same of 4 bytes */
    MH_VAR_TEXT  /* the same of a length byte and as many bytes */
};
typedef struct MhTrapPlace {
    uint8_t place;
    const char *name; /* as the function's header has it; NULL where there is none */
} MhTrapPlace;

/* A trap. Operands on the stack are pushed in this order. `function` makes its call, and is NULL where an emulator
 * answers the trap itself. "a+b" in a place is two operands of that function. */
typedef struct MhTrap {
    uint16_t word;
    bool on_stack; /* where its operands and its result are; else they are in registers */
    const char *name;
    const char *function;
    MhTrapPlace operands[4];
    MhTrapPlace results[2];
} MhTrap;

/* The row of the trap that a word makes, or NULL. */
static inline const MhTrap *mh_find_trap(uint16_t word);

/* All of them, in the order of their words. */
enum { MH_TRAPS_COUNT = 71 };
static const MhTrap MH_TRAPS[MH_TRAPS_COUNT] = {
    {0xA01C, false, "FreeMem", "mh_free_mem", {{MH_NOWHERE, NULL}}, {{MH_D0, "number"}}},
    {0xA01F, false, "DisposePtr", "mh_dispose_ptr", {{MH_A0, "pointer"}}, {{MH_NOWHERE, NULL}}},
    {0xA020, false, "SetPtrSize", "mh_set_ptr_size", {{MH_A0, "pointer"}, {MH_D0, "size"}}, {{MH_NOWHERE, NULL}}},
    {0xA021, false, "GetPtrSize", "mh_get_ptr_size", {{MH_A0, "pointer"}}, {{MH_D0, "number"}}},
    {0xA023, false, "DisposeHandle", "mh_dispose_handle", {{MH_A0, "handle"}}, {{MH_NOWHERE, NULL}}},
    {0xA024, false, "SetHandleSize", "mh_set_handle_size", {{MH_A0, "handle"}, {MH_D0, "size"}}, {{MH_NOWHERE, NULL}}},
    {0xA025, false, "GetHandleSize", "mh_get_handle_size", {{MH_A0, "handle"}}, {{MH_D0, "number"}}},
    {0xA027, false, "ReallocHandle", "mh_reallocate_handle", {{MH_A0, "handle"}, {MH_D0, "size"}},
     {{MH_NOWHERE, NULL}}},
    {0xA029, false, "HLock", "mh_hlock", {{MH_A0, "handle"}}, {{MH_NOWHERE, NULL}}},
    {0xA02A, false, "HUnlock", "mh_hunlock", {{MH_A0, "handle"}}, {{MH_NOWHERE, NULL}}},
    {0xA02B, false, "EmptyHandle", "mh_empty_handle", {{MH_A0, "handle"}}, {{MH_NOWHERE, NULL}}},
    {0xA02E, false, "BlockMove", "mh_block_move", {{MH_A0, "from+start"}, {MH_A1, "to+offset"}, {MH_D0, "count"}},
     {{MH_NOWHERE, NULL}}},
    {0xA036, false, "MoreMasters", "mh_more_masters", {{MH_NOWHERE, NULL}}, {{MH_NOWHERE, NULL}}},
    {0xA040, false, "ResrvMem", "mh_reserve_mem", {{MH_D0, "size"}}, {{MH_NOWHERE, NULL}}},
    {0xA049, false, "HPurge", "mh_hpurge", {{MH_A0, "handle"}}, {{MH_NOWHERE, NULL}}},
    {0xA04A, false, "HNoPurge", "mh_hno_purge", {{MH_A0, "handle"}}, {{MH_NOWHERE, NULL}}},
    {0xA04B, false, "SetGrowZone", NULL, {{MH_A0, "procedure"}}, {{MH_NOWHERE, NULL}}},
    {0xA04C, false, "CompactMem", "mh_compact_mem", {{MH_D0, "size"}}, {{MH_D0, "number"}}},
    {0xA04D, false, "PurgeMem", "mh_purge_mem", {{MH_D0, "size"}}, {{MH_NOWHERE, NULL}}},
    {0xA061, false, "MaxBlock", "mh_max_block", {{MH_NOWHERE, NULL}}, {{MH_D0, "number"}}},
    {0xA063, false, "MaxApplZone", "mh_max_appl_zone", {{MH_NOWHERE, NULL}}, {{MH_NOWHERE, NULL}}},
    {0xA064, false, "MoveHHi", "mh_move_hhi", {{MH_A0, "handle"}}, {{MH_NOWHERE, NULL}}},
    {0xA067, false, "HSetRBit", "mh_hset_rbit", {{MH_A0, "handle"}}, {{MH_NOWHERE, NULL}}},
    {0xA068, false, "HClrRBit", "mh_hclr_rbit", {{MH_A0, "handle"}}, {{MH_NOWHERE, NULL}}},
    {0xA069, false, "HGetState", "mh_hget_state", {{MH_A0, "handle"}}, {{MH_D0_BYTE, "number"}}},
    {0xA06A, false, "HSetState", "mh_hset_state", {{MH_A0, "handle"}, {MH_D0_BYTE, "state"}}, {{MH_NOWHERE, NULL}}},
    {0xA11D, false, "MaxMem", "mh_max_mem", {{MH_NOWHERE, NULL}}, {{MH_D0, "largest"}, {MH_A0, "growth"}}},
    {0xA11E, false, "NewPtr", "mh_new_ptr", {{MH_D0, "size"}}, {{MH_A0, "pointer"}}},
    {0xA122, false, "NewHandle", "mh_new_handle", {{MH_D0, "size"}}, {{MH_A0, "handle"}}},
    {0xA128, false, "RecoverHandle", "mh_recover_handle", {{MH_A0, "address"}}, {{MH_A0, "handle"}}},
    {0xA162, false, "PurgeSpace", "mh_purge_space", {{MH_NOWHERE, NULL}}, {{MH_D0, "total"}, {MH_A0, "contiguous"}}},
    {0xA166, false, "NewEmptyHandle", "mh_new_empty_handle", {{MH_NOWHERE, NULL}}, {{MH_A0, "handle"}}},
    {0xA80D, true, "Count1Resources", "mr_count1_resources", {{MH_LONG, "kind"}}, {{MH_WORD, "number"}}},
    {0xA80E, true, "Get1IxResource", "mr_get1_ind_resource", {{MH_LONG, "kind"}, {MH_WORD, "index"}},
     {{MH_LONG, "handle"}}},
    {0xA80F, true, "Get1IxType", "mr_get1_ind_type", {{MH_VAR_LONG, "kind"}, {MH_WORD, "index"}}, {{MH_NOWHERE, NULL}}},
    {0xA810, true, "Unique1ID", "mr_unique1_id", {{MH_LONG, "kind"}}, {{MH_WORD, "number"}}},
    {0xA81C, true, "Count1Types", "mr_count1_types", {{MH_NOWHERE, NULL}}, {{MH_WORD, "number"}}},
    {0xA81F, true, "Get1Resource", "mr_get1_resource", {{MH_LONG, "kind"}, {MH_WORD, "id"}}, {{MH_LONG, "handle"}}},
    {0xA820, true, "Get1NamedResource", "mr_get1_named_resource", {{MH_LONG, "kind"}, {MH_TEXT, "name+length"}},
     {{MH_LONG, "handle"}}},
    {0xA992, true, "DetachResource", "mr_detach_resource", {{MH_LONG, "handle"}}, {{MH_NOWHERE, NULL}}},
    {0xA994, true, "CurResFile", "mr_cur_res_file", {{MH_NOWHERE, NULL}}, {{MH_WORD, "number"}}},
    {0xA997, true, "OpenResFile", "mr_open", {{MH_TEXT, "fork+length"}}, {{MH_WORD, "file"}}},
    {0xA998, true, "UseResFile", "mr_use_res_file", {{MH_WORD, "file"}}, {{MH_NOWHERE, NULL}}},
    {0xA999, true, "UpdateResFile", "mr_update_res_file", {{MH_WORD, "file"}}, {{MH_NOWHERE, NULL}}},
    {0xA99A, true, "CloseResFile", "mr_close_res_file", {{MH_WORD, "file"}}, {{MH_NOWHERE, NULL}}},
    {0xA99B, true, "SetResLoad", "mr_set_res_load", {{MH_BOOLEAN, "load"}}, {{MH_NOWHERE, NULL}}},
    {0xA99C, true, "CountResources", "mr_count_resources", {{MH_LONG, "kind"}}, {{MH_WORD, "number"}}},
    {0xA99D, true, "GetIndResource", "mr_get_ind_resource", {{MH_LONG, "kind"}, {MH_WORD, "index"}},
     {{MH_LONG, "handle"}}},
    {0xA99E, true, "CountTypes", "mr_count_types", {{MH_NOWHERE, NULL}}, {{MH_WORD, "number"}}},
    {0xA99F, true, "GetIndType", "mr_get_ind_type", {{MH_VAR_LONG, "kind"}, {MH_WORD, "index"}}, {{MH_NOWHERE, NULL}}},
    {0xA9A0, true, "GetResource", "mr_get_resource", {{MH_LONG, "kind"}, {MH_WORD, "id"}}, {{MH_LONG, "handle"}}},
    {0xA9A1, true, "GetNamedResource", "mr_get_named_resource", {{MH_LONG, "kind"}, {MH_TEXT, "name+length"}},
     {{MH_LONG, "handle"}}},
    {0xA9A2, true, "LoadResource", "mr_load_resource", {{MH_LONG, "handle"}}, {{MH_NOWHERE, NULL}}},
    {0xA9A3, true, "ReleaseResource", "mr_release_resource", {{MH_LONG, "handle"}}, {{MH_NOWHERE, NULL}}},
    {0xA9A4, true, "HomeResFile", "mr_home_res_file", {{MH_LONG, "handle"}}, {{MH_WORD, "number"}}},
    {0xA9A5, true, "SizeRsrc", "mr_size_resource", {{MH_LONG, "handle"}}, {{MH_LONG, "number"}}},
    {0xA9A6, true, "GetResAttrs", "mr_get_res_attrs", {{MH_LONG, "handle"}}, {{MH_WORD, "number"}}},
    {0xA9A7, true, "SetResAttrs", "mr_set_res_attrs", {{MH_LONG, "handle"}, {MH_WORD, "attributes"}},
     {{MH_NOWHERE, NULL}}},
    {0xA9A8, true, "GetResInfo", "mr_get_res_info", {{MH_LONG, "handle"}, {MH_VAR_WORD, "id"}, {MH_VAR_LONG, "kind"},
     {MH_VAR_TEXT, "name+name_length"}}, {{MH_NOWHERE, NULL}}},
    {0xA9A9, true, "SetResInfo", "mr_set_res_info", {{MH_LONG, "handle"}, {MH_WORD, "id"}, {MH_TEXT, "name+length"}},
     {{MH_NOWHERE, NULL}}},
    {0xA9AA, true, "ChangedResource", "mr_changed_resource", {{MH_LONG, "handle"}}, {{MH_NOWHERE, NULL}}},
    {0xA9AB, true, "AddResource", "mr_add_resource", {{MH_LONG, "handle"}, {MH_LONG, "kind"}, {MH_WORD, "id"},
     {MH_TEXT, "name+length"}}, {{MH_NOWHERE, NULL}}},
    {0xA9AD, true, "RmveResource", "mr_rmve_resource", {{MH_LONG, "handle"}}, {{MH_NOWHERE, NULL}}},
    {0xA9AF, true, "ResError", NULL, {{MH_NOWHERE, NULL}}, {{MH_WORD, "code"}}},
    {0xA9B0, true, "WriteResource", "mr_write_resource", {{MH_LONG, "handle"}}, {{MH_NOWHERE, NULL}}},
    {0xA9C1, true, "UniqueID", "mr_unique_id", {{MH_LONG, "kind"}}, {{MH_WORD, "number"}}},
    {0xA9E1, false, "HandToHand", "mh_hand_to_hand", {{MH_A0, "handle"}}, {{MH_A0, "new_handle"}}},
    {0xA9E2, false, "PtrToXHand", "mh_ptr_to_xhand", {{MH_A0, "pointer"}, {MH_A1, "handle"}, {MH_D0, "count"}},
     {{MH_A0, "handle"}}},
    {0xA9E3, false, "PtrToHand", "mh_ptr_to_hand", {{MH_A0, "pointer"}, {MH_D0, "count"}}, {{MH_A0, "handle"}}},
    {0xA9E4, false, "HandAndHand", "mh_hand_and_hand", {{MH_A0, "one"}, {MH_A1, "other"}}, {{MH_A0, "other"}}},
    {0xA9EF, false, "PtrAndHand", "mh_ptr_and_hand", {{MH_A0, "pointer"}, {MH_A1, "handle"}, {MH_D0, "count"}},
     {{MH_A0, "handle"}}},
};

static inline const MhTrap *mh_find_trap(uint16_t word) {
    uint16_t same = word & 0x0800 ? 0xFFFF : 0xF8FF;
    for (int at = 0; at < MH_TRAPS_COUNT; at++)
        if (((MH_TRAPS[at].word ^ word) & same) == 0) return &MH_TRAPS[at];
    return NULL;
}

#ifdef __cplusplus
}
#endif
#endif
