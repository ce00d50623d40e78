//! Zones made again of their bytes.
use macheap::{Asleep, OsErr, Zone, sys};

const BASE: u32 = 0x10_0000;

#[test]
fn a_save_state_of_ram_is_attached() {
    let mut ram = vec![0; 65536];
    let mut asleep = Asleep::new(&mut ram, BASE, 65536, 24).unwrap();
    let handle = asleep.wake(&mut ram).unwrap().new_handle(500).unwrap();
    drop(asleep);
    let mut saved = ram.clone();
    let mut asleep = Asleep::attach(&mut saved, BASE, 65536, 24).unwrap();
    assert_eq!(saved, ram);
    assert_eq!(asleep.wake(&mut saved).unwrap().get_handle_size(handle), Ok(500));
}

#[test]
fn a_zone_is_made_of_its_image() {
    let mut zone = Zone::new(BASE, 4096, 8192, 32).unwrap();
    let handle = zone.new_handle(3).unwrap();
    zone.poke(handle, 0, b"Mac").unwrap();
    let mut image = vec![0; zone.image_size().unwrap()];
    zone.image(&mut image).unwrap();
    drop(zone);
    let mut zone = Zone::of_image(&image, BASE, 8192, 32).unwrap();
    let mut seen = [0; 3];
    zone.peek(handle, 0, &mut seen).unwrap();
    assert_eq!(&seen, b"Mac");
    assert_eq!(zone.dispose_handle(handle), Ok(()));
}

#[test]
fn other_bytes_are_no_zone() {
    let mut bytes = vec![0xA5; 4096];
    assert_eq!(Asleep::attach(&mut bytes, BASE, 4096, 24).err(), Some(OsErr(sys::MH_DAMAGED)));
    assert_eq!(Zone::of_image(&bytes, BASE, 4096, 24).err(), Some(OsErr(sys::MH_DAMAGED)));
    assert_eq!(bytes, vec![0xA5; 4096]);
}
