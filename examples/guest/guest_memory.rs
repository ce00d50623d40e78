//! The host of guest_memory.c in Rust, over the same 68000 (m68k.c) and the same programs of the guest (guest.h): it prints the same.
use macheap::resources::{Files, ResType};
use macheap::{Asleep, OsErr, Result, Zone, sys};
use std::ffi::{CStr, c_char, c_void};
use std::process::ExitCode;
use std::{ptr, slice};

/// Where things are in the guest's memory.
const MEM_ERR: u32 = 0x220;
const RES_ERR: u32 = 0xA60;
const MMU_32_BIT: usize = 0xCB2;
const CODE: u32 = 0x8000;
const STACK: u32 = 0xF0000;
const ZONE: u32 = 0x10_0000;

/// The traps that the guest's programs make.
const NEW_HANDLE: u16 = 0xA122;
const DISPOSE_HANDLE: u16 = 0xA023;
const SET_HANDLE_SIZE: u16 = 0xA024;
const GET_HANDLE_SIZE: u16 = 0xA025;
const H_LOCK: u16 = 0xA029;
const H_UNLOCK: u16 = 0xA02A;
const EMPTY_HANDLE: u16 = 0xA02B;
const H_PURGE: u16 = 0xA049;
const SET_GROW_ZONE: u16 = 0xA04B;
const COMPACT_MEM: u16 = 0xA04C;
const RECOVER_HANDLE: u16 = 0xA128;
const UPDATE_RES_FILE: u16 = 0xA999;
const GET_RESOURCE: u16 = 0xA9A0;
const RELEASE_RESOURCE: u16 = 0xA9A3;
const CHANGED_RESOURCE: u16 = 0xA9AA;
const ADD_RESOURCE: u16 = 0xA9AB;
const SHOW: u16 = 0xAFFF;

/// The processor of m68k.h.
#[repr(C)]
#[derive(Clone)]
struct Cpu {
    d: [u32; 8],
    a: [u32; 8],
    pc: u32,
    flags: [bool; 4],
    mask: u32,
    memory: *mut u8,
    size: u32,
    trap: extern "C" fn(&mut Cpu, u16),
    /// A `Host`.
    host: *mut c_void,
    fault: *const c_char,
}

unsafe extern "C" {
    safe fn m68k_read(cpu: &mut Cpu, address: u32, bytes: u32) -> u32;
    safe fn m68k_write(cpu: &mut Cpu, address: u32, bytes: u32, value: u32);
    safe fn m68k_push(cpu: &mut Cpu, bytes: u32, value: u32);
    safe fn m68k_pop(cpu: &mut Cpu, bytes: u32) -> u32;
    safe fn m68k_call(cpu: &mut Cpu, address: u32);
}

/// What the host has beside the processor.
struct Host {
    /// The zone, while the guest runs.
    asleep: Asleep,
    files: Files,
    /// The guest's grow-zone procedure, or 0.
    grow_zone: u32,
    /// Whether it runs: its own traps don't ask it.
    growing: bool,
}

impl Cpu {
    fn host(&mut self) -> &mut Host {
        // Nothing else refers to the host while the guest runs.
        unsafe { &mut *self.host.cast() }
    }

    /// Makes calls on the zone, which is awake for them in the guest's memory. None, and the guest stops, where it is damaged.
    fn with_zone<T>(&mut self, calls: impl FnOnce(&mut Cpu, &mut Zone) -> T) -> Option<T> {
        // The guest's memory has the zone's bytes from ZONE on, and the guest doesn't run while the zone is awake.
        let bytes = unsafe { slice::from_raw_parts_mut(self.memory.add(ZONE as usize), (self.size - ZONE) as usize) };
        match unsafe { &mut *self.host.cast::<Host>() }.asleep.wake(bytes) {
            Ok(mut zone) => Some(calls(self, &mut zone)),
            Err(_) => {
                self.fault = c"the zone is damaged".as_ptr();
                None
            }
        }
    }
}

fn sign_extended(code: i16) -> u32 {
    i32::from(code) as u32
}

/// Makes the call of a trap whose operands are in registers, and returns a handle or a number, or 0. The high byte of a 24-bit address
/// says nothing.
fn memory_call(files: &mut Files, zone: &mut Zone, cpu: &Cpu, word: u16) -> Result<u32> {
    let (handle, size) = (cpu.a[0] & cpu.mask, cpu.d[0]);
    match word {
        NEW_HANDLE => zone.new_handle(size),
        // it may be a resource's
        DISPOSE_HANDLE => files.dispose_handle(zone, handle).map(|()| 0),
        SET_HANDLE_SIZE => zone.set_handle_size(handle, size).map(|()| 0),
        GET_HANDLE_SIZE => zone.get_handle_size(handle),
        H_LOCK => zone.hlock(handle).map(|()| 0),
        H_UNLOCK => zone.hunlock(handle).map(|()| 0),
        EMPTY_HANDLE => zone.empty_handle(handle).map(|()| 0),
        H_PURGE => zone.hpurge(handle).map(|()| 0),
        COMPACT_MEM => zone.compact_mem(size),
        RECOVER_HANDLE => zone.recover_handle(handle),
        _ => Err(OsErr(sys::MH_PARAM_ERR)),
    }
}

/// How many bytes the zone's last call asked the grow-zone procedure for at its end; 0 if it didn't ask.
fn bytes_asked(zone: &mut Zone) -> u32 {
    let last = zone.asked().unwrap_or(0).checked_sub(1);
    last.and_then(|last| zone.ask(last).ok()).map_or(0, |ask| ask.needed)
}

/// Runs the guest's grow-zone procedure, FUNCTION (cbNeeded: Size): LongInt. Its own traps find the zone asleep, and wake it.
fn grow_zone(cpu: &mut Cpu, procedure: u32, needed: u32) -> u32 {
    let before = cpu.clone();
    m68k_push(cpu, 4, 0);
    m68k_push(cpu, 4, needed);
    cpu.host().growing = true;
    m68k_call(cpu, procedure);
    cpu.host().growing = false;
    let released = m68k_pop(cpu, 4);
    *cpu = Cpu { fault: cpu.fault, ..before };
    if cpu.fault.is_null() { released } else { 0 }
}

/// Makes the call of a trap whose operands a Pascal program pushed one after the other.
fn resource_call(files: &mut Files, zone: &mut Zone, cpu: &mut Cpu, word: u16) -> Result<u32> {
    match word {
        GET_RESOURCE => {
            let (id, kind) = (m68k_pop(cpu, 2) as i16, popped_type(cpu));
            let got = files.get_resource(zone, kind, id);
            // where the program left room for the result
            m68k_write(cpu, cpu.a[7], 4, got.unwrap_or(0));
            got
        }
        ADD_RESOURCE => {
            // its name: the programs here give none
            m68k_pop(cpu, 4);
            let (id, kind) = (m68k_pop(cpu, 2) as i16, popped_type(cpu));
            files.add_resource(zone, popped_handle(cpu), kind, id, b"").map(|()| 0)
        }
        RELEASE_RESOURCE => files.release_resource(zone, popped_handle(cpu)).map(|()| 0),
        CHANGED_RESOURCE => files.changed_resource(zone, popped_handle(cpu)).map(|()| 0),
        UPDATE_RES_FILE => files.update_res_file(zone, m68k_pop(cpu, 2)).map(|()| 0),
        _ => Err(OsErr(sys::MH_PARAM_ERR)),
    }
}

fn popped_type(cpu: &mut Cpu) -> ResType {
    ResType::new(&m68k_pop(cpu, 4).to_be_bytes())
}

fn popped_handle(cpu: &mut Cpu) -> u32 {
    m68k_pop(cpu, 4) & cpu.mask
}

/// Whether a trap's operands are on the stack, and not in registers.
fn is_on_stack(word: u16) -> bool {
    word & 0x800 != 0
}

/// The zone wakes in the guest's bytes, the call is made, and it sleeps again. A call that finds no room is made again until the grow-zone
/// procedure answers 0: each answer but the last says that it released something. None where the zone is damaged.
fn made(cpu: &mut Cpu, word: u16) -> Option<Result<u32>> {
    let operands = cpu.a[7];
    loop {
        let (given, needed) = cpu.with_zone(|cpu, zone| {
            // The files aren't those of `with_zone`, which has the zone alone.
            let files = unsafe { &mut (*cpu.host.cast::<Host>()).files };
            let given = if is_on_stack(word) { resource_call(files, zone, cpu, word) } else { memory_call(files, zone, cpu, word) };
            (given, if given == Err(OsErr(sys::MH_MEM_FULL_ERR)) { bytes_asked(zone) } else { 0 })
        })?;
        let (procedure, is_growing, after) = (cpu.host().grow_zone, cpu.host().growing, cpu.a[7]);
        if needed == 0 || procedure == 0 || is_growing {
            return Some(given);
        }
        // the procedure leaves them where they are
        cpu.a[7] = operands;
        if grow_zone(cpu, procedure, needed) == 0 {
            cpu.a[7] = after;
            return Some(given);
        }
    }
}

/// Makes a trap's call, and leaves its code, and its results in registers, where the program looks for them. A code of the host's own
/// isn't for the guest, which stops.
fn answer(cpu: &mut Cpu, word: u16) {
    let Some(given) = made(cpu, word) else { return };
    if given.is_err_and(OsErr::is_hosts) {
        cpu.fault = c"the host made a mistake".as_ptr();
        return;
    }
    let code = given.map_or_else(|code| sign_extended(code.0), |_| 0);
    m68k_write(cpu, if is_on_stack(word) { RES_ERR } else { MEM_ERR }, 2, code);
    if is_on_stack(word) {
        return;
    }
    if word == NEW_HANDLE || word == RECOVER_HANDLE {
        cpu.a[0] = given.unwrap_or(0);
        cpu.d[0] = code;
    } else {
        cpu.d[0] = given.unwrap_or(code);
    }
}

fn show(cpu: &mut Cpu) {
    let mut text = Vec::new();
    for at in cpu.a[0].. {
        match m68k_read(cpu, at, 1) {
            0 => break,
            byte => text.push(byte as u8),
        }
    }
    println!("{}: {}", String::from_utf8_lossy(&text), cpu.d[1] as i32);
}

extern "C" fn trap(cpu: &mut Cpu, word: u16) {
    match word {
        SHOW => show(cpu),
        SET_GROW_ZONE => {
            cpu.host().grow_zone = cpu.a[0] & cpu.mask;
            cpu.d[0] = 0;
        }
        word => answer(cpu, word),
    }
}

/// Shows the data of the first resource in file 1, as the guest left it, if it has one.
fn show_file(files: &mut Files) -> Result<()> {
    let fork = files.fork(1)?;
    let (mut zone, mut read) = (Zone::new(ZONE, 0x10000, 0x10000, 24)?, Files::new()?);
    read.open(&mut zone, &fork)?;
    let kind = read.get1_ind_type(&mut zone, 1)?;
    let handle = read.get1_ind_resource(&mut zone, kind, 1)?;
    let mut data = vec![0; zone.get_handle_size(handle)? as usize];
    zone.peek(handle, 0, &mut data)?;
    println!("in the file: {}", String::from_utf8_lossy(&data));
    Ok(())
}

/// The bytes that guest.h writes out.
fn guest() -> Vec<u8> {
    let words = include_str!("guest.h").split(|it: char| it.is_whitespace() || it == ',');
    words.filter_map(|word| word.strip_prefix("0x")).map(|byte| u8::from_str_radix(byte, 16).expect("a byte of guest.h")).collect()
}

/// Runs a program of the guest over a new zone.
fn run(name: &str, program: u32, mode: u32, limit: u32) -> Result<()> {
    println!("{name}, {mode} bits, {} KB", limit / 1024);
    let mut memory = vec![0; (ZONE + limit) as usize];
    let code = guest();
    memory[CODE as usize..CODE as usize + code.len()].copy_from_slice(&code);
    memory[MMU_32_BIT] = u8::from(mode == 32);
    let mut asleep = Asleep::new(&mut memory[ZONE as usize..], ZONE, limit, mode)?;
    let mut files = Files::new()?;
    files.open(&mut asleep.wake(&mut memory[ZONE as usize..])?, b"")?;
    let mut host = Host { asleep, files, grow_zone: 0, growing: false };
    let mut cpu = Cpu {
        d: [0; 8],
        a: [0, 0, 0, 0, 0, 0, 0, STACK],
        pc: 0,
        flags: [false; 4],
        mask: if mode == 24 { 0xFF_FFFF } else { u32::MAX },
        memory: memory.as_mut_ptr(),
        size: ZONE + limit,
        trap,
        host: (&raw mut host).cast(),
        fault: ptr::null(),
    };
    let start = m68k_read(&mut cpu, CODE + 4 * program, 4);
    m68k_call(&mut cpu, start);
    if !cpu.fault.is_null() {
        // m68k.c and `with_zone` leave text that stays there
        println!("stopped at ${:06X}: {}", cpu.pc, unsafe { CStr::from_ptr(cpu.fault) }.to_string_lossy());
    }
    // there may be no resource
    let _ = show_file(&mut host.files);
    Ok(())
}

fn all() -> Result<()> {
    for mode in [24, 32] {
        run("pointers", 0, mode, 0x10000)?;
        run("purged", 1, mode, 0x10000)?;
        run("growing", 2, mode, 0x6000)?;
        run("list", 3, mode, 0x10000)?;
        run("resources", 4, mode, 0x10000)?;
        run("overrun", 5, mode, 0x10000)?;
        run("patient", 6, mode, 0x10000)?;
    }
    run("list", 3, 24, 0x80_0000)?;
    run("list", 3, 32, 0x200_0000)
}

fn main() -> ExitCode {
    match all() {
        Ok(()) => ExitCode::SUCCESS,
        Err(code) => {
            eprintln!("{code}");
            ExitCode::FAILURE
        }
    }
}
