//! A zone, awake or asleep, and its files go to another thread, and come back.
use macheap::{Asleep, Zone};
use macheap::resources::{Files, ResType};
use std::thread;

#[test]
fn a_zone_and_its_files_go_to_another_thread() {
    let text = ResType::new(b"TEXT");
    let mut zone = Zone::new(0x10_0000, 4096, 8192, 24).unwrap();
    let mut files = Files::new().unwrap();
    files.open(&mut zone, &[]).unwrap();
    let handle = zone.new_handle_of(b"Mac").unwrap();
    let thread = thread::spawn(move || {
        files.add_resource(&mut zone, handle, text, 128, b"").unwrap();
        zone.append(handle, b"intosh").unwrap();
        (zone, files)
    });
    let (mut zone, mut files) = thread.join().unwrap();
    assert_eq!(files.get_resource(&mut zone, text, 128), Ok(handle));
    let mut seen = [0; 9];
    zone.peek(handle, 0, &mut seen).unwrap();
    assert_eq!(&seen, b"Macintosh");
}

#[test]
fn a_zone_that_sleeps_wakes_in_another_thread() {
    let mut ram = vec![0; 65536];
    let mut asleep = Asleep::new(&mut ram, 0x10_0000, 65536, 24).unwrap();
    let mut zone = asleep.wake(&mut ram).unwrap();
    let handle = zone.new_handle_of(b"Mac").unwrap();
    thread::scope(|scope| scope.spawn(move || zone.append(handle, b"intosh")).join()).unwrap().unwrap();
    thread::scope(|scope| scope.spawn(|| asleep.wake(&mut ram).unwrap().append(handle, b" SE")).join()).unwrap().unwrap();
    let mut seen = [0; 12];
    asleep.wake(&mut ram).unwrap().peek(handle, 0, &mut seen).unwrap();
    assert_eq!(&seen, b"Macintosh SE");
}
