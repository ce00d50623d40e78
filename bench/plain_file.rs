//! A plain program over a resource file: `plain_file read|write|list|load|update FILE TIMES`. `read` reads the file whole, once and then so many
//! times; `write` reads it whole, and so many times writes its bytes over it and syncs it. The others make the calls on the file, so many times, that
//! the Resource Manager makes where all resources are listed, or loaded, or one is changed and the file updated: a read for the header, one for
//! the map, one for the length of each resource, one for the bytes of each, and one write and a sync.

use std::env::args;
use std::fs::{File, OpenOptions, read};
use std::hint::black_box;
use std::io::{Error, Write};
use std::os::unix::fs::FileExt;

fn write(path: &str, bytes: &[u8]) -> Result<(), Error> {
    let mut file: File = OpenOptions::new().write(true).open(path)?;
    file.write_all(bytes)?;
    file.set_len(bytes.len() as u64)?;
    file.sync_all()
}

fn number(bytes: &[u8], at: usize) -> u64 {
    u64::from(u32::from_be_bytes([bytes[at], bytes[at + 1], bytes[at + 2], bytes[at + 3]]))
}

/// Where each resource's bytes are, and how many they are.
fn list(file: &File) -> Result<Vec<(u64, usize)>, Error> {
    let mut header = [0; 256];
    file.read_exact_at(&mut header, 0)?;
    let (start, data) = (number(&header, 0), number(&header, 8));
    let mut map = vec![0; number(&header, 12) as usize];
    file.read_exact_at(&mut map, number(&header, 4))?;
    black_box(map);
    let (mut at, mut places) = (start, Vec::new());
    while at < start + data {
        let mut length = [0; 4];
        file.read_exact_at(&mut length, at)?;
        places.push((at + 4, number(&length, 0) as usize));
        at += 4 + number(&length, 0);
    }
    Ok(places)
}

fn load(file: &File, places: &[(u64, usize)]) -> Result<(), Error> {
    for &(at, length) in places {
        let mut bytes = vec![0; length];
        file.read_exact_at(&mut bytes, at)?;
        black_box(bytes);
    }
    Ok(())
}

/// The file's bytes, of which those of each resource are read by a call of their own.
fn gather(file: &File, places: &[(u64, usize)]) -> Result<Vec<u8>, Error> {
    let mut bytes = vec![0; file.metadata()?.len() as usize];
    file.read_exact_at(&mut bytes[..256], 0)?;
    let map = number(&bytes, 4);
    file.read_exact_at(&mut bytes[map as usize..], map)?;
    for &(at, length) in places {
        let at_here = at as usize;
        bytes[at_here - 4..at_here].copy_from_slice(&(length as u32).to_be_bytes());
        file.read_exact_at(&mut bytes[at_here..at_here + length], at)?;
    }
    Ok(bytes)
}

fn make(what: &str, path: &str) -> Result<(), Error> {
    let file = File::open(path)?;
    let places = list(&file)?;
    match what {
        "list" => Ok(()),
        "load" => load(&file, &places),
        _ => write(path, black_box(&gather(&file, &places)?)),
    }
}

fn main() -> Result<(), Error> {
    let words: Vec<String> = args().collect();
    let [_, what, path, times] = &words[..] else {
        panic!("plain_file read|write|list|load|update FILE TIMES");
    };
    let times: u32 = times.parse().expect("TIMES is a number");
    match what.as_str() {
        "read" => {
            for _ in 0..=times {
                drop(black_box(read(path)?));
            }
        }
        "write" => {
            let bytes = read(path)?;
            for _ in 0..times {
                write(path, black_box(&bytes))?;
            }
        }
        "list" | "load" | "update" => {
            for _ in 0..times {
                make(what, path)?;
            }
        }
        _ => panic!("read, write, list, load or update"),
    }
    Ok(())
}
