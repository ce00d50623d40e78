//! Times the reading and the writing of forks beside a copy of the fork's bytes by Rust's own, and prints the best runs.

use std::hint::black_box;
use std::time::Instant;

const RUNS: usize = 40;

/// A resource as C sees it.
#[repr(C)]
#[derive(Clone)]
struct MfRow {
    kind: [u8; 4],
    id: i16,
    attributes: u8,
    has_name: bool,
    name_length: usize,
    data_length: usize,
}

/// What a fork has beside its resources.
#[repr(C)]
struct MfExtra {
    bytes: [u8; 240],
    map_attributes: u16,
}

unsafe extern "C" {
    fn mf_count(fork: *const u8, fork_length: usize, count: &mut usize) -> i16;
    fn mf_written_length(
        rows: *const MfRow,
        count: usize,
        names: *const u8,
        names_length: usize,
        data: *const u8,
        data_length: usize,
        extra: &MfExtra,
        length: &mut usize,
    ) -> i16;
    fn mf_write(
        rows: *const MfRow,
        count: usize,
        names: *const u8,
        names_length: usize,
        data: *const u8,
        data_length: usize,
        extra: &MfExtra,
        fork: *mut u8,
        fork_length: usize,
    ) -> i16;
}

/// How many rows, and how many bytes each has: forks of 1 KB to 4 MB.
const FORKS: [(u16, u32); 14] = [
    (1, 700),
    (10, 60),
    (100, 60),
    (1, 700_000),
    (500, 1_400),
    (5_458, 0),
    (5_458, 128),
    (1, 4_000_000),
    (400, 10_000),
    (5_458, 730),
    (6_500, 0),
    (8_192, 0),
    (8_192, 60),
    (8_192, 490),
];

/// The most rows that are written; more are read alone.
const MOST_WRITTEN: u16 = 5_458;

/// A fork of 700 KB, which is held against moves of its bytes in place, too.
const PLAIN: (u16, u32) = (500, 1_400);

fn seconds(work: &mut dyn FnMut(u32), times: u32) -> f64 {
    let start = Instant::now();
    work(times);
    start.elapsed().as_secs_f64()
}

/// The nanoseconds of one turn: the best of some runs, less a run of no turn.
fn best(times: u32, mut work: impl FnMut(u32)) -> f64 {
    let (mut none, mut all) = (f64::MAX, f64::MAX);
    for _ in 0..RUNS {
        none = none.min(seconds(&mut work, 0));
        all = all.min(seconds(&mut work, times));
    }
    (all - none) * 1e9 / f64::from(times)
}

/// The bytes of a fork of so many rows of one type, each of so many bytes, without names. More rows than can be written are read.
fn fork_of(rows: u16, length: u32) -> Vec<u8> {
    let data = u32::from(rows) * (length + 4);
    let mut fork = Vec::new();
    for number in [256, 256 + data, data, 38 + 12 * u32::from(rows)] {
        fork.extend_from_slice(&number.to_be_bytes());
    }
    fork.resize(256, 0);
    for _ in 0..rows {
        fork.extend_from_slice(&length.to_be_bytes());
        fork.resize(fork.len() + length as usize, 0x55);
    }
    fork.resize(fork.len() + 24, 0);
    let names = if rows > MOST_WRITTEN { 0xffff } else { 38 + 12 * rows };
    fork.extend_from_slice(&28u16.to_be_bytes());
    fork.extend_from_slice(&names.to_be_bytes());
    fork.extend_from_slice(b"\0\0DATA");
    fork.extend_from_slice(&(rows - 1).to_be_bytes());
    fork.extend_from_slice(&10u16.to_be_bytes());
    for id in 0..rows {
        fork.extend_from_slice(&id.to_be_bytes());
        fork.extend_from_slice(b"\xff\xff");
        fork.extend_from_slice(&(u32::from(id) * (length + 4)).to_be_bytes());
        fork.extend_from_slice(&[0; 4]);
    }
    fork
}

/// The nanoseconds of one reading.
fn reading(times: u32, fork: &[u8], rows: u16) -> f64 {
    best(times, |times| {
        for _ in 0..times {
            let mut count = 0;
            let code = unsafe { mf_count(black_box(fork.as_ptr()), fork.len(), &mut count) };
            assert!(code == 0 && count == usize::from(rows), "all rows are read");
        }
    })
}

/// The nanoseconds of one writing of rows with a name of four bytes, where so many rows can be written: the rows are taken from C, the
/// fork is made, and its bytes are copied to C.
fn writing(times: u32, rows: u16, length: u32) -> Option<f64> {
    if rows > MOST_WRITTEN {
        return None;
    }
    let row = MfRow { kind: *b"DATA", id: 0, attributes: 0, has_name: true, name_length: 4, data_length: length as usize };
    let list: Vec<MfRow> = (0..rows).map(|id| MfRow { id: id as i16, ..row.clone() }).collect();
    let names = b"name".repeat(usize::from(rows));
    let data = vec![0x55u8; usize::from(rows) * length as usize];
    let extra = MfExtra { bytes: [0; 240], map_attributes: 0 };
    let (mut bytes, mut fork) = (0, Vec::new());
    let code = unsafe { mf_written_length(list.as_ptr(), list.len(), names.as_ptr(), names.len(), data.as_ptr(), data.len(), &extra, &mut bytes) };
    assert!(code == 0, "so many rows can be written");
    fork.resize(bytes, 0u8);
    Some(best(times, |times| {
        for _ in 0..times {
            let (names, data) = (black_box(&names[..]), &data[..]);
            let code = unsafe {
                mf_write(list.as_ptr(), list.len(), names.as_ptr(), names.len(), data.as_ptr(), data.len(), &extra, fork.as_mut_ptr(), bytes)
            };
            assert!(code == 0, "all bytes are written");
        }
    }))
}

/// The nanoseconds of one copy of so many bytes, into new memory and in place.
fn copying(times: u32, bytes: usize) -> (f64, f64) {
    let source = vec![0x55u8; bytes];
    let copy = best(times, |times| {
        for _ in 0..times {
            black_box(black_box(&source[..]).to_vec());
        }
    });
    let mut places = vec![0x55u8; 2 * bytes];
    let within = best(times, |times| {
        for _ in 0..times {
            black_box(&mut places[..]).copy_within(..bytes, bytes);
        }
    });
    (copy, within)
}

/// Whether reading so many rows takes three copies and a microsecond for each row at most. Says so where it takes more.
fn is_quick(read: f64, copy: f64, rows: u16, copies: &str) -> bool {
    let most = 3.0 * copy + 1000.0 * f64::from(rows);
    if read > most {
        println!("       reading takes more than three copies {copies} and a microsecond for each row: {most:.0} ns");
    }
    read <= most
}

fn main() {
    println!(
        "{:>6} {:>10} {:>12} {:>12} {:>12} {:>12} {:>10} {:>10}",
        "rows", "bytes", "read, ns", "write, ns", "copy, ns", "within, ns", "read/row", "write/row"
    );
    let mut good = true;
    for (rows, length) in FORKS {
        let fork = fork_of(rows, length);
        let bytes = fork.len();
        let times = (20_000_000 / (bytes + 100 * usize::from(rows))).clamp(1, 2000) as u32;
        let read = reading(times, &fork, rows);
        let write = writing(times, rows, length);
        let (copy, within) = copying(times, bytes);
        let each = 1.0 / f64::from(rows);
        let (write, write_each) = match write {
            Some(write) => (format!("{write:.0}"), format!("{:.1}", write * each)),
            None => ("-".to_string(), "-".to_string()),
        };
        println!(
            "{rows:>6} {bytes:>10} {read:>12.0} {write:>12} {copy:>12.0} {within:>12.0} {:>10.1} {write_each:>10}",
            read * each
        );
        good &= is_quick(read, copy, rows, "into new memory");
        if (rows, length) == PLAIN {
            good &= is_quick(read, within, rows, "in place");
        }
    }
    if !good {
        std::process::exit(1);
    }
}
