//! The classic Macintosh's Memory Manager over one heap zone, and its Resource Manager over resource forks in memory. macheap(3) says
//! what each call does, and resman(3) for `resources`.
pub mod resources;
pub mod sys;

use std::marker::PhantomData;
use std::{error, fmt, ptr, slice};
use sys::{MH_NO_ASLEEP, MH_NO_ZONE, MhAnswer, MhAsk, MhAsleep, MhBlock, MhCarried, MhFault, MhMemory, MhWindow, MhWritten, MhWrong, MhZone};

/// The code of a call that was refused, which has changed nothing else.
#[derive(Clone, Copy, Debug, PartialEq, Eq)]
pub struct OsErr(pub i16);

impl OsErr {
    /// Whether the code is the host's own, as `MH_NOT_THERE`: no Macintosh has it, so it isn't for a guest.
    pub fn is_hosts(self) -> bool {
        self.0 <= -1000
    }
}

impl fmt::Display for OsErr {
    fn fmt(&self, f: &mut fmt::Formatter) -> fmt::Result {
        write!(f, "OSErr {}", self.0)
    }
}

impl error::Error for OsErr {}

pub type Result<T> = std::result::Result<T, OsErr>;

fn told(code: i16) -> Result<()> {
    if code == 0 { Ok(()) } else { Err(OsErr(code)) }
}

/// A zone: of memory of its own, and then it ends when it is dropped; or awake in bytes of the caller, and then it sleeps again, with
/// what is lent. Handles, pointers and addresses are numbers of its own; any number may be given.
pub struct Zone<'a>(MhZone, Option<&'a mut MhAsleep>, PhantomData<&'a mut [u8]>);

// What these point to is memory of malloc, or bytes that they borrow alone, and no call keeps anything of its thread.
unsafe impl Send for Zone<'_> {}
unsafe impl Send for Asleep {}
unsafe impl Send for resources::Files {}

// In each `unsafe` below the zone is this one alone, and each pointer leads to a value or to bytes of its own.
impl Zone<'static> {
    pub fn new(base: u32, size: u32, limit: u32, mode: u32) -> Result<Zone<'static>> {
        let mut zone = Zone(MH_NO_ZONE, None, PhantomData);
        told(unsafe { sys::mh_make_zone(&mut zone.0, base, size, limit, mode) })?;
        Ok(zone)
    }

    /// Makes a zone again of the bytes that `image` copied. `MH_DAMAGED` if they are those of no zone that begins there.
    pub fn of_image(image: &[u8], base: u32, limit: u32, mode: u32) -> Result<Zone<'static>> {
        let mut zone = Zone(MH_NO_ZONE, None, PhantomData);
        let size = size_of_bytes(image)?;
        told(unsafe { sys::mh_make_zone_of(&mut zone.0, base, size, limit, mode, image.as_ptr(), image.len()) })?;
        Ok(zone)
    }
}

impl Zone<'_> {
    pub fn peek(&mut self, block: u32, offset: u32, bytes: &mut [u8]) -> Result<()> {
        told(unsafe { sys::mh_peek(&mut self.0, block, offset, bytes.as_mut_ptr(), bytes.len()) })
    }

    pub fn poke(&mut self, block: u32, offset: u32, bytes: &[u8]) -> Result<()> {
        told(unsafe { sys::mh_poke(&mut self.0, block, offset, bytes.as_ptr(), bytes.len()) })
    }

    pub fn new_handle_of(&mut self, bytes: &[u8]) -> Result<u32> {
        let mut handle = 0;
        told(unsafe { sys::mh_new_handle_of(&mut self.0, bytes.as_ptr(), bytes.len(), &mut handle) })?;
        Ok(handle)
    }

    pub fn set_handle_to(&mut self, handle: u32, bytes: &[u8]) -> Result<()> {
        told(unsafe { sys::mh_set_handle_to(&mut self.0, handle, bytes.as_ptr(), bytes.len()) })
    }

    pub fn append(&mut self, handle: u32, bytes: &[u8]) -> Result<()> {
        told(unsafe { sys::mh_append(&mut self.0, handle, bytes.as_ptr(), bytes.len()) })
    }

    pub fn image(&mut self, bytes: &mut [u8]) -> Result<()> {
        told(unsafe { sys::mh_image(&mut self.0, bytes.as_mut_ptr(), bytes.len()) })
    }

    /// Lets a zone of `Asleep::wake` sleep again. How many ranges of its bytes, the first of these, were written since it woke.
    pub fn sleep_wrote(mut self, ranges: &mut [MhWritten]) -> Result<usize> {
        let mut gone = MhMemory { start: ptr::null_mut(), length: 0, here: false };
        let mut written = 0;
        let asleep = self.1.as_mut().ok_or(OsErr(sys::MH_NOT_THERE))?;
        let (at, count) = (ranges.as_mut_ptr(), ranges.len());
        told(unsafe { sys::mh_sleep_wrote(&mut self.0, asleep, &mut gone, at, count, &mut written) })?;
        Ok(written)
    }

    /// Writes the handles that the last call purged, in order, as many of the first as there is room for. Gives how many
    /// they were.
    pub fn purged(&mut self, handles: &mut [u32]) -> Result<u32> {
        let mut count = 0;
        told(unsafe { sys::mh_purged(&mut self.0, handles.as_mut_ptr(), handles.len(), &mut count) })?;
        Ok(count)
    }

    /// The bytes of a lent block. No call is made on the zone while they are held.
    pub fn window(&mut self, block: u32) -> Result<&mut [u8]> {
        let mut window = MhWindow { start: ptr::null_mut(), length: 0 };
        told(unsafe { sys::mh_window(&mut self.0, block, &mut window) })?;
        Ok(unsafe { slice::from_raw_parts_mut(window.start, window.length) })
    }
}

impl Drop for Zone<'_> {
    fn drop(&mut self) {
        let mut gone = MhMemory { start: ptr::null_mut(), length: 0, here: false };
        let sleeps = match &mut self.1 {
            Some(asleep) => unsafe { sys::mh_sleep(&mut self.0, asleep, &mut gone) == 0 },
            None => false,
        };
        if !sleeps {
            unsafe { sys::mh_end_zone(&mut self.0) };
        }
    }
}

/// A zone that sleeps, and wakes in bytes that others may write meanwhile. It ends when it is dropped.
pub struct Asleep(MhAsleep);

fn size_of_bytes(bytes: &[u8]) -> Result<u32> {
    u32::try_from(bytes.len()).map_err(|_| OsErr(sys::MH_BAD_NUMBER))
}

fn handed_over(bytes: &mut [u8]) -> MhMemory {
    MhMemory { start: bytes.as_mut_ptr(), length: bytes.len(), here: true }
}

impl Asleep {
    /// Makes a zone in these bytes, as many as its limit.
    pub fn new(bytes: &mut [u8], base: u32, size: u32, mode: u32) -> Result<Asleep> {
        let mut asleep = Asleep(MH_NO_ASLEEP);
        let limit = size_of_bytes(bytes)?;
        told(unsafe { sys::mh_make_zone_at(&mut asleep.0, &mut handed_over(bytes), base, size, limit, mode) })?;
        Ok(asleep)
    }

    /// Makes a zone of these bytes as they are, as many as its limit. `MH_DAMAGED` if no zone of this size is in them.
    pub fn attach(bytes: &mut [u8], base: u32, size: u32, mode: u32) -> Result<Asleep> {
        let mut asleep = Asleep(MH_NO_ASLEEP);
        let limit = size_of_bytes(bytes)?;
        told(unsafe { sys::mh_attach(&mut asleep.0, &mut handed_over(bytes), base, size, limit, mode) })?;
        Ok(asleep)
    }

    /// Wakes the zone in these bytes, as long as they are borrowed. `MH_DAMAGED` if they haven't the structure that it left.
    pub fn wake<'a>(&'a mut self, bytes: &'a mut [u8]) -> Result<Zone<'a>> {
        let mut zone = MH_NO_ZONE;
        told(unsafe { sys::mh_wake(&mut zone, &mut self.0, &mut handed_over(bytes)) })?;
        Ok(Zone(zone, Some(&mut self.0), PhantomData))
    }

    /// Wakes the zone as `wake` does, and looks only at the bytes that were written.
    ///
    /// # Safety
    /// Since the zone fell asleep, or was made, attached or repaired, no byte was written but in these ranges.
    pub unsafe fn wake_written<'a>(&'a mut self, bytes: &'a mut [u8], written: &[MhWritten]) -> Result<Zone<'a>> {
        let mut zone = MH_NO_ZONE;
        let (at, count) = (written.as_ptr(), written.len());
        told(unsafe { sys::mh_wake_written(&mut zone, &mut self.0, &mut handed_over(bytes), at, count) })?;
        Ok(Zone(zone, Some(&mut self.0), PhantomData))
    }

    /// The first of these bytes that isn't as the zone's structure calls for, if one isn't.
    pub fn check(&mut self, bytes: &mut [u8]) -> Result<Option<MhFault>> {
        let mut fault = MhFault::default();
        match unsafe { sys::mh_check(&mut self.0, &mut handed_over(bytes), &mut fault) } {
            sys::MH_DAMAGED => Ok(Some(fault)),
            code => told(code).map(|()| None),
        }
    }

    /// Writes the zone's structure into these bytes again, but for flags in master pointers that lead where they should. No other of them
    /// changes.
    pub fn repair(&mut self, bytes: &mut [u8]) -> Result<()> {
        told(unsafe { sys::mh_repair(&mut self.0, &mut handed_over(bytes)) })
    }
}

impl Drop for Asleep {
    fn drop(&mut self) {
        unsafe { sys::mh_end_asleep(&mut self.0) };
    }
}

/// Looks at memory from the start of a zone on, whoever made that: its blocks, up to the first thing that is wrong, and that.
pub fn look(bytes: &[u8], base: u32, mode: u32) -> Result<(Vec<MhBlock>, Option<MhWrong>)> {
    let (mut blocks, mut count, mut wrong) = (Vec::new(), 0, MhWrong::default());
    loop {
        let (from, length, room) = (bytes.as_ptr(), bytes.len(), blocks.len());
        let code = unsafe { sys::mh_look(from, length, base, mode, blocks.as_mut_ptr(), room, &mut count, &mut wrong) };
        let is_damaged = code == sys::MH_DAMAGED;
        if !is_damaged {
            told(code)?;
        }
        if count == room {
            return Ok((blocks, is_damaged.then_some(wrong)));
        }
        blocks.resize(count, MhBlock::default());
    }
}

/// Declares functions of macheap.h, and makes a method of each: it returns the results, or the code if that isn't 0.
macro_rules! calls {
    ($($call:ident is $name:ident($($operand:ident: $kind:ty),*) $(-> $($result:ident: $type:ty),+)?;)*) => {
        unsafe extern "C" {
            $(fn $call(zone: &mut MhZone, $($operand: $kind,)* $($($result: &mut $type),+)?) -> i16;)*
        }
        #[allow(unused_parens)]
        impl Zone<'_> {$(
            pub fn $name(&mut self, $($operand: $kind),*) -> Result<($($($type),+)?)> {
                $($(let mut $result = <$type>::default();)+)?
                told(unsafe { $call(&mut self.0, $($operand,)* $($(&mut $result),+)?) })?;
                Ok(($($($result),+)?))
            }
        )*}
    };
}

calls! {
    mh_new_handle is new_handle(size: u32) -> handle: u32;
    mh_new_empty_handle is new_empty_handle() -> handle: u32;
    mh_new_ptr is new_ptr(size: u32) -> pointer: u32;
    mh_dispose_handle is dispose_handle(handle: u32);
    mh_dispose_ptr is dispose_ptr(pointer: u32);
    mh_empty_handle is empty_handle(handle: u32);
    mh_set_handle_size is set_handle_size(handle: u32, size: u32);
    mh_get_handle_size is get_handle_size(handle: u32) -> number: u32;
    mh_set_ptr_size is set_ptr_size(pointer: u32, size: u32);
    mh_get_ptr_size is get_ptr_size(pointer: u32) -> number: u32;
    mh_reallocate_handle is reallocate_handle(handle: u32, size: u32);
    mh_hlock is hlock(handle: u32);
    mh_hunlock is hunlock(handle: u32);
    mh_hpurge is hpurge(handle: u32);
    mh_hno_purge is hno_purge(handle: u32);
    mh_hset_rbit is hset_rbit(handle: u32);
    mh_hclr_rbit is hclr_rbit(handle: u32);
    mh_hget_state is hget_state(handle: u32) -> number: u32;
    mh_hset_state is hset_state(handle: u32, state: u32);
    mh_deref is deref(handle: u32) -> address: u32;
    mh_move_hhi is move_hhi(handle: u32);
    mh_hlock_hi is hlock_hi(handle: u32);
    mh_recover_handle is recover_handle(address: u32) -> handle: u32;
    mh_reserve_mem is reserve_mem(size: u32);
    mh_more_masters is more_masters();
    mh_compact_mem is compact_mem(size: u32) -> number: u32;
    mh_purge_mem is purge_mem(size: u32);
    mh_max_mem is max_mem() -> largest: u32, growth: u32;
    mh_purge_space is purge_space() -> total: u32, contiguous: u32;
    mh_max_block is max_block() -> number: u32;
    mh_free_mem is free_mem() -> number: u32;
    mh_max_appl_zone is max_appl_zone();
    mh_hand_to_hand is hand_to_hand(handle: u32) -> new_handle: u32;
    mh_ptr_to_hand is ptr_to_hand(pointer: u32, count: u32) -> handle: u32;
    mh_ptr_to_xhand is ptr_to_xhand(pointer: u32, handle: u32, count: u32);
    mh_ptr_and_hand is ptr_and_hand(pointer: u32, handle: u32, count: u32);
    mh_hand_and_hand is hand_and_hand(one: u32, other: u32);
    mh_block_move is block_move(from: u32, start: u32, to: u32, offset: u32, count: u32);
    mh_lend is lend(block: u32);
    mh_return is give_back(block: u32);
    mh_first_block is first_block() -> at: u32;
    mh_block is block(at: u32) -> block: MhBlock;
    mh_holder is holder(at: u32) -> block: MhBlock;
    mh_image_size is image_size() -> size: usize;
    mh_queue_answer is queue_answer(answer: &MhAnswer);
    mh_asked is asked() -> count: u32;
    mh_ask is ask(index: u32) -> ask: MhAsk;
    mh_carried is carried(index: u32, place: u32) -> carried: MhCarried;
    mh_hold_purges is hold_purges(on: u32);
    mh_would_purge is would_purge() -> handle: u32;
}
