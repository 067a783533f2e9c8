// SPDX-License-Identifier: MIT
//! Compares the disks of images with raw files, and prints where their bytes are:
//! disks IMAGE RAW [IMAGE RAW ..]
//!
//! A line `image IMAGE` comes before those of its places: offset, length, kind, file and offset
//! there, as `include/imago.h` has them.
use imago_c::image::{Disk, Format, Source};
use std::io::{self, Read, Seek, SeekFrom};

fn print_map(path: &str, disk: &mut Disk) -> io::Result<()> {
    println!("image {path}");
    let mut at = 0;
    while at < disk.size() {
        let place = disk.map(at, disk.size() - at)?;
        let (kind, file, offset) = match place.source {
            Source::Zero => (0, 0, 0),
            Source::Stored { file, offset } => (1, file + 1, offset),
            Source::Compressed(of) => (2, of.file + 1, of.offset),
        };
        println!("{} {} {kind} {file} {offset}", place.at, place.count);
        at += place.count;
    }
    Ok(())
}

fn main() -> io::Result<()> {
    let words: Vec<String> = std::env::args().skip(1).collect();
    for pair in words.chunks(2) {
        let raw = std::fs::read(&pair[1])?;
        let mut disk = Disk::open(&pair[0], Format::Unknown)?;
        let mut mine = Vec::new();
        disk.read_to_end(&mut mine)?;
        assert!(disk.size() == raw.len() as u64 && mine == raw, "{} differs", pair[0]);
        let end = raw.len() as u64 / 2;
        assert_eq!(disk.seek(SeekFrom::Start(end))?, end);
        let mut rest = Vec::new();
        disk.read_to_end(&mut rest)?;
        assert!(rest == raw[end as usize..], "{} differs from {end} on", pair[0]);
        print_map(&pair[0], &mut disk)?;
    }
    Ok(())
}
