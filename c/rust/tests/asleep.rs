//! A zone that wakes in bytes of the caller, which reads and writes them while it sleeps.
use macheap::sys::{MhFault, MhWritten};
use macheap::{Asleep, OsErr, Zone, sys};

const BASE: u32 = 0x10_0000;

fn long(ram: &[u8], address: u32) -> u32 {
    let at = (address - BASE) as usize;
    u32::from_be_bytes(ram[at..at + 4].try_into().unwrap())
}

#[test]
fn bytes_written_through_a_master_pointer_are_the_handles() {
    let mut ram = vec![0; 65536];
    let mut asleep = Asleep::new(&mut ram, BASE, 65536, 24).unwrap();
    let handle = asleep.wake(&mut ram).unwrap().new_handle(2).unwrap();
    // what the book says: the handle is the address of the master pointer, which has the address of the contents
    let contents = (long(&ram, handle) & 0xFF_FFFF) - BASE;
    ram[contents as usize..contents as usize + 2].copy_from_slice(b"Hi");
    // the lock bit, as programs set it
    ram[(handle - BASE) as usize] |= 0x80;
    let mut zone = asleep.wake(&mut ram).unwrap();
    let mut seen = [0; 2];
    zone.peek(handle, 0, &mut seen).unwrap();
    assert_eq!(&seen, b"Hi");
    assert_eq!(zone.hget_state(handle), Ok(sys::MH_LOCK));
}

#[test]
fn a_zone_whose_header_changed_sleeps_on() {
    let mut ram = vec![0; 65536];
    let mut asleep = Asleep::new(&mut ram, BASE, 65536, 32).unwrap();
    ram[3] ^= 1;
    assert_eq!(asleep.wake(&mut ram).err(), Some(OsErr(sys::MH_DAMAGED)));
    ram[3] ^= 1;
    assert_eq!(asleep.wake(&mut ram).unwrap().new_handle(0).map(|_| ()), Ok(()));
}

#[test]
fn a_header_that_was_written_over_is_found_and_mended() {
    let mut ram = vec![0; 65536];
    let mut asleep = Asleep::new(&mut ram, BASE, 65536, 24).unwrap();
    let handle = asleep.wake(&mut ram).unwrap().new_handle(100).unwrap();
    let contents = (long(&ram, handle) & 0xFF_FFFF) - BASE;
    assert_eq!(asleep.check(&mut ram), Ok(None));
    // a guest that begins four bytes too early
    ram[contents as usize - 4..contents as usize + 2].copy_from_slice(b"....Hi");
    assert_eq!(asleep.check(&mut ram), Ok(Some(MhFault { offset: contents - 4, part: sys::MH_BLOCK_HEADER })));
    asleep.repair(&mut ram).unwrap();
    let mut zone = asleep.wake(&mut ram).unwrap();
    let mut seen = [0; 2];
    zone.peek(handle, 0, &mut seen).unwrap();
    assert_eq!(&seen, b"Hi");
    assert_eq!(zone.holder(BASE + contents + 99).map(|block| block.owner), Ok(handle));
}

#[test]
fn only_what_was_written_is_looked_at() {
    let mut ram = vec![0; 65536];
    let mut asleep = Asleep::new(&mut ram, BASE, 65536, 24).unwrap();
    let handle = asleep.wake(&mut ram).unwrap().new_handle(2).unwrap();
    let contents = (long(&ram, handle) & 0xFF_FFFF) - BASE;
    ram[contents as usize] = b'H';
    ram[(handle - BASE) as usize] |= 0x80;
    let written = [MhWritten { from: contents, count: 1 }, MhWritten { from: handle - BASE, count: 4 }];
    // these two ranges are all that was written since the zone fell asleep
    let mut zone = unsafe { asleep.wake_written(&mut ram, &written) }.unwrap();
    assert_eq!(zone.hget_state(handle), Ok(sys::MH_LOCK));
    drop(zone);
    ram[contents as usize - 1] ^= 1;
    let written = [MhWritten { from: contents - 1, count: 1 }];
    assert_eq!(unsafe { asleep.wake_written(&mut ram, &written) }.err(), Some(OsErr(sys::MH_DAMAGED)));
    ram[contents as usize - 1] ^= 1;
    let mut zone = unsafe { asleep.wake_written(&mut ram, &written) }.unwrap();
    let mut seen = [0];
    zone.peek(handle, 0, &mut seen).unwrap();
    assert_eq!(&seen, b"H");
}

#[test]
fn what_is_lent_stays_lent_while_the_zone_sleeps() {
    let mut ram = vec![0; 65536];
    let mut asleep = Asleep::new(&mut ram, BASE, 65536, 24).unwrap();
    let mut zone = asleep.wake(&mut ram).unwrap();
    let handle = zone.new_handle(2).unwrap();
    zone.hlock(handle).unwrap();
    zone.lend(handle).unwrap();
    zone.window(handle).unwrap().copy_from_slice(b"Hi");
    drop(zone);
    let contents = ((long(&ram, handle) & 0xFF_FFFF) - BASE) as usize;
    assert_eq!(&ram[contents..contents + 2], b"Hi");
    ram[contents + 1] = b'o';
    let mut zone = asleep.wake(&mut ram).unwrap();
    assert_eq!(zone.window(handle).unwrap(), b"Ho");
    assert_eq!(zone.hunlock(handle), Err(OsErr(sys::MH_MEM_LOCKED_ERR)));
    drop(zone);
    // a guest that unlocks it
    ram[(handle - BASE) as usize] &= 0x7F;
    assert_eq!(asleep.wake(&mut ram).err(), Some(OsErr(sys::MH_MEM_LOCKED_ERR)));
    ram[(handle - BASE) as usize] |= 0x80;
    let mut zone = asleep.wake(&mut ram).unwrap();
    zone.give_back(handle).unwrap();
    assert_eq!(zone.hunlock(handle), Ok(()));
}

#[test]
fn mistakes_of_the_host_have_codes_of_their_own() {
    let zone = Zone::new(BASE, 4096, 4096, 24).unwrap();
    let refused = zone.sleep_wrote(&mut [MhWritten::default(); 4]).unwrap_err();
    assert_eq!(refused, OsErr(sys::MH_NOT_THERE));
    assert!(refused.is_hosts());
    assert_eq!(Asleep::new(&mut [0; 4092], BASE, 4096, 24).err(), Some(OsErr(sys::MH_BAD_NUMBER)));
    let mut zone = Zone::new(BASE, 4096, 4096, 24).unwrap();
    assert_eq!(zone.new_handle(8_388_609).map_err(OsErr::is_hosts), Err(false));
}
