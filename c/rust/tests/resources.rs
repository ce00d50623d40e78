//! Resources that are added, written, and got again of the fork.
use macheap::resources::{Files, ResInfo, ResType};
use macheap::{OsErr, Zone, sys};

const TEXT: ResType = ResType::new(b"TEXT");
const STR: ResType = ResType::new(b"STR ");

fn zone() -> Zone<'static> {
    Zone::new(0x10_0000, 65536, 65536, 24).unwrap()
}

fn bytes_of(zone: &mut Zone, handle: u32) -> Vec<u8> {
    let mut bytes = vec![0; zone.get_handle_size(handle).unwrap() as usize];
    zone.peek(handle, 0, &mut bytes).unwrap();
    bytes
}

/// The fork of a file with these resources, each with its id, name and bytes.
fn fork_with(rows: &[(ResType, i16, &[u8], &[u8])]) -> Vec<u8> {
    let (mut zone, mut files) = (zone(), Files::new().unwrap());
    let file = files.open(&mut zone, &[]).unwrap();
    for (kind, id, name, bytes) in rows {
        let handle = zone.new_handle_of(bytes).unwrap();
        files.add_resource(&mut zone, handle, *kind, *id, name).unwrap();
    }
    files.update_res_file(&mut zone, file).unwrap();
    files.fork(file).unwrap()
}

#[test]
fn what_is_added_is_read_again() {
    let fork = fork_with(&[(TEXT, 128, b"Read Me", b"Hello"), (STR, -5, b"", b"\x03Mac")]);
    let (mut zone, mut files) = (zone(), Files::new().unwrap());
    assert_eq!(files.get_resource(&mut zone, TEXT, 128), Err(OsErr(sys::MR_RES_F_NOT_FOUND)));
    let file = files.open(&mut zone, &fork).unwrap();
    let text = files.get_resource(&mut zone, TEXT, 128).unwrap();
    assert_eq!(bytes_of(&mut zone, text), b"Hello");
    assert_eq!(files.get_named_resource(&mut zone, TEXT, b"read me"), Ok(text));
    let info = ResInfo { kind: TEXT, id: 128, name: b"Read Me".to_vec() };
    assert_eq!(files.get_res_info(&mut zone, text), Ok(info));
    let string = files.get1_ind_resource(&mut zone, STR, 1).unwrap();
    assert_eq!(bytes_of(&mut zone, string), b"\x03Mac");
    assert_eq!(files.home_res_file(&mut zone, string), Ok(file));
    files.set_res_info(string, 200, b"Three").unwrap();
    files.changed_resource(&mut zone, string).unwrap();
    files.update_res_file(&mut zone, file).unwrap();
    let fork = files.fork(file).unwrap();
    files.close_res_file(&mut zone, file).unwrap();
    files.open(&mut zone, &fork).unwrap();
    let string = files.get1_named_resource(&mut zone, STR, b"THREE").unwrap();
    assert_eq!(files.get1_resource(&mut zone, STR, 200), Ok(string));
    assert_eq!(files.get1_resource(&mut zone, STR, -5), Err(OsErr(sys::MR_RES_NOT_FOUND)));
}

#[test]
fn all_open_files_are_looked_at() {
    let older = fork_with(&[(TEXT, 128, b"", b"a"), (TEXT, 129, b"", b"b"), (STR, 1, b"", b"c")]);
    let newer = fork_with(&[(TEXT, 128, b"", b"d")]);
    let (mut zone, mut files) = (zone(), Files::new().unwrap());
    let first = files.open(&mut zone, &older).unwrap();
    files.open(&mut zone, &newer).unwrap();
    files.use_res_file(&mut zone, first).unwrap();
    assert_eq!(files.count_types(&mut zone), Ok(2));
    assert_eq!(files.count_resources(&mut zone, TEXT), Ok(3));
    assert_eq!(files.count1_resources(&mut zone, TEXT), Ok(2));
    let found: Vec<u32> = (1..=3).map(|index| files.get_ind_resource(&mut zone, TEXT, index).unwrap()).collect();
    let bytes: Vec<Vec<u8>> = found.iter().map(|handle| bytes_of(&mut zone, *handle)).collect();
    assert_eq!(bytes, [b"d", b"a", b"b"]);
    assert_eq!(files.get_ind_resource(&mut zone, TEXT, 4), Err(OsErr(sys::MR_RES_NOT_FOUND)));
    assert_eq!(files.unique_id(&mut zone, TEXT), Ok(130));
    assert_eq!(files.get_ind_type(&mut zone, 3), Err(OsErr(sys::MR_RES_NOT_FOUND)));
}

#[test]
fn bytes_that_are_no_fork_are_refused() {
    let (mut zone, mut files) = (zone(), Files::new().unwrap());
    assert_eq!(files.open(&mut zone, &[0; 10]).err(), Some(OsErr(sys::MR_EOF_ERR)));
    assert_eq!(files.cur_res_file(&mut zone), Ok(0));
}

#[test]
fn some_bytes_are_read_from_the_fork() {
    let fork = fork_with(&[(TEXT, 128, b"", b"0123456789")]);
    let (mut zone, mut files) = (zone(), Files::new().unwrap());
    files.open(&mut zone, &fork).unwrap();
    let text = files.get_resource(&mut zone, TEXT, 128).unwrap();
    zone.poke(text, 0, b"abc").unwrap();
    let mut bytes = [0; 4];
    assert_eq!(files.read_partial_resource(&mut zone, text, 1, &mut bytes), Ok(true));
    assert_eq!(&bytes, b"1234");
    zone.empty_handle(text).unwrap();
    assert_eq!(files.read_partial_resource(&mut zone, text, 6, &mut bytes), Ok(false));
    assert_eq!(&bytes, b"6789");
    assert_eq!(files.read_partial_resource(&mut zone, text, 7, &mut bytes), Err(OsErr(sys::MR_INPUT_OUT_OF_BOUNDS)));
}

#[test]
fn some_bytes_are_written_to_the_fork() {
    let fork = fork_with(&[(TEXT, 128, b"", b"0123456789")]);
    let (mut zone, mut files) = (zone(), Files::new().unwrap());
    let file = files.open(&mut zone, &fork).unwrap();
    let text = files.get_resource(&mut zone, TEXT, 128).unwrap();
    assert_eq!(files.write_partial_resource(&mut zone, text, 8, b"abc"), Ok(true));
    assert_eq!(bytes_of(&mut zone, text), b"0123456789");
    zone.empty_handle(text).unwrap();
    assert_eq!(files.write_partial_resource(&mut zone, text, 12, b"d"), Err(OsErr(sys::MR_INPUT_OUT_OF_BOUNDS)));
    assert_eq!(files.write_partial_resource(&mut zone, text, 0, b"X"), Ok(false));
    files.set_resource_size(&mut zone, text, 12).unwrap();
    assert_eq!(files.set_resource_size(&mut zone, text, u32::MAX), Err(OsErr(sys::MR_DSK_FUL_ERR)));
    let fork = files.fork(file).unwrap();
    files.close_res_file(&mut zone, file).unwrap();
    files.open(&mut zone, &fork).unwrap();
    let text = files.get_resource(&mut zone, TEXT, 128).unwrap();
    assert_eq!(bytes_of(&mut zone, text), b"X1234567abc\0");
}

#[test]
fn resources_are_in_several_zones() {
    let fork = fork_with(&[(TEXT, 128, b"Read Me", b"Hello"), (STR, -5, b"", b"\x03Mac")]);
    let (mut one, mut files) = (zone(), Files::new().unwrap());
    let mut other = Zone::new(0x40000, 4096, 4096, 24).unwrap();
    files.open(&mut one, &fork).unwrap();
    assert_eq!(files.other_zone(), Err(OsErr(sys::MH_NONE_SUCH)));
    let text = files.get_resource(&mut other, TEXT, 128).unwrap();
    assert_eq!(files.get_resource(&mut one, TEXT, 128), Err(OsErr(sys::MR_OTHER_ZONE)));
    assert_eq!(files.other_zone(), Ok(text));
    assert_eq!((files.first_loaded(&mut one), files.first_loaded(&mut other)), (None, Some(text)));
    files.set_system_zone(0x40000).unwrap();
    assert!(files.get_resource(&mut one, STR, -5).is_ok());
}

#[test]
fn files_are_saved_and_loaded() {
    let fork = fork_with(&[(TEXT, 128, b"Read Me", b"Hello"), (STR, -5, b"", b"\x03Mac")]);
    let (mut zone, mut files) = (zone(), Files::new().unwrap());
    let file = files.open(&mut zone, &fork).unwrap();
    let text = files.get_resource(&mut zone, TEXT, 128).unwrap();
    files.changed_resource(&mut zone, text).unwrap();
    let bytes = files.save(&mut zone).unwrap();
    drop(files);
    let mut other = self::zone();
    assert_eq!(Files::load(&mut other, &bytes).err(), Some(OsErr(sys::MR_BAD_STATE)));
    let mut files = Files::load(&mut zone, &bytes).unwrap();
    assert_eq!(files.get_resource(&mut zone, TEXT, 128), Ok(text));
    assert_eq!(files.home_res_file(&mut zone, text), Ok(file));
    zone.poke(text, 0, b"J").unwrap();
    files.update_res_file(&mut zone, file).unwrap();
    let changed = fork_with(&[(TEXT, 128, b"Read Me", b"Jello"), (STR, -5, b"", b"\x03Mac")]);
    assert_eq!(files.fork(file).unwrap(), changed);
}
