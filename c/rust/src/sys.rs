//! What macheap.h and resman.h declare beside their functions, and those functions that make, end, wake or put to sleep something, or are
//! given an array.
use crate::resources::ResType;
use std::ptr;

/// A zone, or none. It may be moved, but no copy of one with a zone is used.
#[repr(C)]
pub struct MhZone {
    live: bool,
    held: *mut u8,
}

pub const MH_NO_ZONE: MhZone = MhZone { live: false, held: ptr::null_mut() };

/// A zone that sleeps, or none. It may be moved, but no copy of one with a zone is used.
#[repr(C)]
pub struct MhAsleep {
    pub zone: MhZone,
}

pub const MH_NO_ASLEEP: MhAsleep = MhAsleep { zone: MH_NO_ZONE };

/// Bytes of the host, for a zone to wake in.
#[repr(C)]
pub struct MhMemory {
    pub start: *mut u8,
    pub length: usize,
    pub here: bool,
}

/// Resource files, or none. They may be moved, but no copy of some is used.
#[repr(C)]
pub struct MrFiles {
    live: bool,
    held: *mut u8,
}

pub const MR_NO_FILES: MrFiles = MrFiles { live: false, held: ptr::null_mut() };

pub const MR_DSK_FUL_ERR: i16 = -34;
pub const MR_IO_ERR: i16 = -36;
pub const MR_EOF_ERR: i16 = -39;
pub const MR_TMFO_ERR: i16 = -42;
pub const MR_RESOURCE_IN_MEMORY: i16 = -188;
pub const MR_INPUT_OUT_OF_BOUNDS: i16 = -190;
pub const MR_RES_NOT_FOUND: i16 = -192;
pub const MR_RES_F_NOT_FOUND: i16 = -193;
pub const MR_ADD_RES_FAILED: i16 = -194;
pub const MR_RMV_RES_FAILED: i16 = -196;
pub const MR_RES_ATTR_ERR: i16 = -198;
pub const MR_MAP_READ_ERR: i16 = -199;
pub const MR_TOO_BIG: i16 = -1001;
pub const MR_BAD_STATE: i16 = -1003;
pub const MR_OTHER_ZONE: i16 = -1004;
pub const MH_PARAM_ERR: i16 = -50;
pub const MH_MEM_FULL_ERR: i16 = -108;
pub const MH_NIL_HANDLE_ERR: i16 = -109;
pub const MH_MEM_WZ_ERR: i16 = -111;
pub const MH_MEM_PUR_ERR: i16 = -112;
pub const MH_MEM_BC_ERR: i16 = -115;
pub const MH_DAMAGED: i16 = -116;
pub const MH_MEM_LOCKED_ERR: i16 = -117;
pub const MH_NOT_THERE: i16 = -1000;
pub const MH_WOULD_PURGE: i16 = -1002;
pub const MH_IN_USE: i16 = -1005;
pub const MH_BAD_NUMBER: i16 = -1006;
pub const MH_NONE_SUCH: i16 = -1007;
pub const MH_LOCK: u32 = 128;
pub const MH_PURGE: u32 = 64;
pub const MH_RESOURCE: u32 = 32;
pub const MH_FREE: u32 = 0;
pub const MH_MASTER: u32 = 1;
pub const MH_PTR: u32 = 2;
pub const MH_REL: u32 = 3;
pub const MH_ZONE_HEADER: u32 = 1;
pub const MH_BLOCK_HEADER: u32 = 2;
pub const MH_MASTER_POINTER: u32 = 3;
pub const MH_NO_CALL: u32 = 0;
pub const MH_DISPOSE_HANDLE: u32 = 1;
pub const MH_DISPOSE_PTR: u32 = 2;
pub const MH_EMPTY_HANDLE: u32 = 3;

#[repr(C)]
pub struct MhWindow {
    pub start: *mut u8,
    pub length: usize,
}

#[repr(C)]
#[derive(Clone, Copy, Debug, Default)]
pub struct MhBlock {
    pub address: u32,
    pub size: u32,
    pub kind: u32,
    pub owner: u32,
    pub length: u32,
    pub flags: u32,
}

#[repr(C)]
#[derive(Clone, Copy, Debug, Default)]
pub struct MhRelease {
    pub kind: u32,
    pub operand: u32,
}

#[repr(C)]
#[derive(Clone, Copy, Debug, Default)]
pub struct MhAnswer {
    pub value: u32,
    pub calls: [MhRelease; 8],
}

#[repr(C)]
#[derive(Clone, Copy, Debug, Default)]
pub struct MhAsk {
    pub needed: u32,
    pub answered: u32,
    pub value: u32,
    pub carried: u32,
}

#[repr(C)]
#[derive(Clone, Copy, Debug, Default)]
pub struct MhCarried {
    pub kind: u32,
    pub operand: u32,
    pub code: i16,
}

#[repr(C)]
#[derive(Clone, Copy, Debug, Default, PartialEq, Eq)]
pub struct MhFault {
    pub offset: u32,
    pub part: u32,
}

#[repr(C)]
#[derive(Clone, Copy, Debug, Default)]
pub struct MrInfo {
    pub kind: ResType,
    pub id: i16,
    pub name_length: u32,
}

/// What is wrong with a zone that is looked at.
#[repr(C)]
#[derive(Clone, Copy, Debug, Default, PartialEq, Eq)]
pub struct MhWrong {
    pub problem: u32,
    pub place: u32,
    pub found: u32,
    pub wanted: u32,
}

/// Bytes of a zone, so many from an offset from its start on.
#[repr(C)]
#[derive(Clone, Copy, Debug, Default)]
pub struct MhWritten {
    pub from: u32,
    pub count: u32,
}

unsafe extern "C" {
    pub fn mh_make_zone(zone: &mut MhZone, base: u32, size: u32, limit: u32, mode: u32) -> i16;
    pub fn mh_make_zone_of(zone: &mut MhZone, base: u32, size: u32, limit: u32, mode: u32, bytes: *const u8, count: usize) -> i16;
    pub fn mh_end_zone(zone: &mut MhZone) -> i16;
    pub fn mh_make_zone_at(asleep: &mut MhAsleep, memory: &mut MhMemory, base: u32, size: u32, limit: u32, mode: u32) -> i16;
    pub fn mh_attach(asleep: &mut MhAsleep, memory: &mut MhMemory, base: u32, size: u32, limit: u32, mode: u32) -> i16;
    pub fn mh_wake(zone: &mut MhZone, asleep: &mut MhAsleep, memory: &mut MhMemory) -> i16;
    pub fn mh_wake_written(zone: &mut MhZone, asleep: &mut MhAsleep, memory: &mut MhMemory, written: *const MhWritten, count: usize) -> i16;
    pub fn mh_sleep_wrote(zone: &mut MhZone, asleep: &mut MhAsleep, memory: &mut MhMemory, ranges: *mut MhWritten, count: usize, written: &mut usize) -> i16;
    pub fn mh_sleep(zone: &mut MhZone, asleep: &mut MhAsleep, memory: &mut MhMemory) -> i16;
    pub fn mh_check(asleep: &mut MhAsleep, memory: &mut MhMemory, fault: &mut MhFault) -> i16;
    pub fn mh_look(bytes: *const u8, length: usize, base: u32, mode: u32, blocks: *mut MhBlock, room: usize, count: &mut usize, wrong: &mut MhWrong) -> i16;
    pub fn mh_repair(asleep: &mut MhAsleep, memory: &mut MhMemory) -> i16;
    pub fn mh_end_asleep(asleep: &mut MhAsleep) -> i16;
    pub fn mh_peek(zone: &mut MhZone, block: u32, offset: u32, bytes: *mut u8, count: usize) -> i16;
    pub fn mh_poke(zone: &mut MhZone, block: u32, offset: u32, bytes: *const u8, count: usize) -> i16;
    pub fn mh_new_handle_of(zone: &mut MhZone, bytes: *const u8, count: usize, handle: &mut u32) -> i16;
    pub fn mh_set_handle_to(zone: &mut MhZone, handle: u32, bytes: *const u8, count: usize) -> i16;
    pub fn mh_append(zone: &mut MhZone, handle: u32, bytes: *const u8, count: usize) -> i16;
    pub fn mh_image(zone: &mut MhZone, bytes: *mut u8, count: usize) -> i16;
    pub fn mh_purged(zone: &mut MhZone, handles: *mut u32, room: usize, count: &mut u32) -> i16;
    pub fn mh_window(zone: &mut MhZone, block: u32, window: &mut MhWindow) -> i16;
    pub fn mr_begin(files: &mut MrFiles) -> i16;
    pub fn mr_end(files: &mut MrFiles) -> i16;
    pub fn mr_open(files: &mut MrFiles, zone: &mut MhZone, fork: *const u8, length: usize, file: &mut u32) -> i16;
    pub fn mr_fork_size(files: &mut MrFiles, file: u32, length: &mut usize) -> i16;
    pub fn mr_fork(files: &mut MrFiles, file: u32, fork: *mut u8, length: usize) -> i16;
    pub fn mr_save_size(files: &mut MrFiles, zone: &mut MhZone, size: &mut usize) -> i16;
    pub fn mr_save(files: &mut MrFiles, zone: &mut MhZone, bytes: *mut u8, count: usize) -> i16;
    pub fn mr_load(files: &mut MrFiles, zone: &mut MhZone, bytes: *const u8, count: usize) -> i16;
    pub fn mr_other_zone(files: &mut MrFiles, address: &mut u32) -> i16;
    pub fn mr_set_system_zone(files: &mut MrFiles, address: u32) -> i16;
    pub fn mr_first_loaded(files: &mut MrFiles, zone: &mut MhZone, handle: &mut u32) -> i16;
    pub fn mr_get_named_resource(files: &mut MrFiles, zone: &mut MhZone, kind: ResType, name: *const u8, length: usize, handle: &mut u32) -> i16;
    pub fn mr_get1_named_resource(files: &mut MrFiles, zone: &mut MhZone, kind: ResType, name: *const u8, length: usize, handle: &mut u32) -> i16;
    pub fn mr_get_res_info(files: &mut MrFiles, zone: &mut MhZone, handle: u32, info: &mut MrInfo, name: *mut u8, room: usize) -> i16;
    pub fn mr_read_partial_resource(files: &mut MrFiles, zone: &mut MhZone, handle: u32, offset: u32, bytes: *mut u8, count: usize) -> i16;
    pub fn mr_write_partial_resource(files: &mut MrFiles, zone: &mut MhZone, handle: u32, offset: u32, bytes: *const u8, count: usize) -> i16;
    pub fn mr_add_resource(files: &mut MrFiles, zone: &mut MhZone, handle: u32, kind: ResType, id: i16, name: *const u8, length: usize) -> i16;
    pub fn mr_set_res_info(files: &mut MrFiles, handle: u32, id: i16, name: *const u8, length: usize) -> i16;
}
