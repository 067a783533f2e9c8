// SPDX-License-Identifier: MIT
//! Disks of images, scripts on images in memory, and what the descriptors of VMDK images say.
//!
//! This is safe Rust over the static library of `crates/imago_c`, which is proved. What each call
//! does stands in `include/imago.h`.

mod calls;
pub mod image;

use calls::{Counts, Record};
use std::error::Error;
use std::fmt::{self, Display, Formatter};

/// What a call was refused for.
#[derive(Clone, Copy, Debug, PartialEq, Eq)]
pub enum Refusal {
    ReadOnly,
    BeyondDisk,
    RangeOverflow,
    WrapAround,
    InvalidData,
    Unsupported,
    NoAccess,
    Device,
    Memory,
    ForeignMapping,
    Denied,
    NotFound,
}

impl Display for Refusal {
    fn fmt(&self, f: &mut Formatter<'_>) -> fmt::Result {
        f.write_str(match self {
            Refusal::ReadOnly => "the image is read-only",
            Refusal::BeyondDisk => "the range passes the end of the disk",
            Refusal::RangeOverflow => "the end of the range passes the greatest possible offset",
            Refusal::WrapAround => "the request wraps around at the end of the storage's address space",
            Refusal::InvalidData => "the image's data is invalid",
            Refusal::Unsupported => "the driver or storage does not support this operation",
            Refusal::NoAccess => "this part of the disk may not be accessed",
            Refusal::Device => "the storage failed",
            Refusal::Memory => "out of memory",
            Refusal::ForeignMapping => "the prepared mapping does not belong to this image",
            Refusal::Denied => "opening further storages is denied",
            Refusal::NotFound => "there is no storage of that name",
        })
    }
}

impl Error for Refusal {}

/// The refusals by their numbers, from 1 on.
const REFUSALS: [Refusal; 12] = [
    Refusal::ReadOnly,
    Refusal::BeyondDisk,
    Refusal::RangeOverflow,
    Refusal::WrapAround,
    Refusal::InvalidData,
    Refusal::Unsupported,
    Refusal::NoAccess,
    Refusal::Device,
    Refusal::Memory,
    Refusal::ForeignMapping,
    Refusal::Denied,
    Refusal::NotFound,
];

/// The answer that a number stands for.
fn answer(code: u32) -> Result<(), Refusal> {
    match code {
        0 => Ok(()),
        code => Err(REFUSALS[code as usize - 1]),
    }
}

/// How a script ended.
#[derive(Clone, Copy, Debug, PartialEq, Eq)]
pub enum Status {
    /// Each line was done.
    Done,
    /// There was no memory for the script itself.
    Memory,
    /// A line is malformed, which the last line printed says.
    BadLine,
}

/// Runs a script. Answers how it ended, and what it printed.
pub fn script(text: &[u8]) -> (Status, Vec<u8>) {
    let mut output = vec![0; 16 * text.len() + 4096];
    loop {
        let (code, printed) = calls::script(text, &mut output);
        if printed <= output.len() {
            output.truncate(printed);
            let status = match code {
                0 => Status::Done,
                1 => Status::Memory,
                _ => Status::BadLine,
            };
            return (status, output);
        }
        output = vec![0; printed];
    }
}

/// Whether these bytes look like a VMDK image's.
pub fn vmdk_probe(text: &[u8]) -> bool {
    calls::vmdk_probe(text)
}

/// The size in bytes of the disk that a descriptor describes.
pub fn vmdk_size(text: &[u8], accept_unknown_keys: bool) -> Result<u64, Refusal> {
    let mut size = 0;
    answer(calls::vmdk_size(text, accept_unknown_keys, &mut size))?;
    Ok(size)
}

/// A part of a disk. A sector has 512 bytes.
#[derive(Clone, Debug, PartialEq, Eq)]
pub enum Extent {
    /// Explicit zeroes.
    Zero { sectors: u64 },
    /// A part that may not be read.
    NoAccess { sectors: u64 },
    /// Bytes of a file.
    Flat {
        sectors: u64,
        /// The file's name.
        name: Vec<u8>,
        /// Where they begin in the file, in sectors.
        offset: u64,
        writable: bool,
    },
}

/// The extent that a record tells, whose name stands in the text of names.
fn extent_of(record: &Record, names: &[u8]) -> Extent {
    let sectors = record.sectors;
    match record.kind {
        0 => Extent::Zero { sectors },
        1 => Extent::NoAccess { sectors },
        _ => {
            let start = record.name_start as usize;
            Extent::Flat {
                sectors,
                name: names[start..start + record.name_length as usize].to_vec(),
                offset: record.offset,
                writable: record.writable == 1,
            }
        }
    }
}

/// The extents of a descriptor, in the order in which the disk has them.
pub fn vmdk_extents(text: &[u8], accept_unknown_keys: bool) -> Result<Vec<Extent>, Refusal> {
    let mut counts = Counts::default();
    answer(calls::vmdk_extents(text, accept_unknown_keys, &mut [], &mut [], &mut counts))?;
    let mut records = vec![Record::default(); counts.extents as usize];
    let mut names = vec![0; counts.names as usize];
    answer(calls::vmdk_extents(text, accept_unknown_keys, &mut records, &mut names, &mut counts))?;
    Ok(records.iter().map(|record| extent_of(record, &names)).collect())
}

/// Where bytes of a disk stand.
#[derive(Clone, Copy, Debug, PartialEq, Eq)]
pub enum Source {
    /// In no file: they are zero.
    Zero,
    /// In the file of a FLAT extent.
    File {
        /// Which of the FLAT extents it is, counted from 0.
        index: usize,
        /// Where they begin in the file, in bytes.
        offset: u64,
    },
}

/// Bytes of a disk that stand in one place. Offsets and counts are in bytes.
#[derive(Clone, Copy, Debug, PartialEq, Eq)]
pub struct Piece {
    /// The first byte's offset on the disk.
    pub at: u64,
    pub count: u64,
    pub source: Source,
}

/// The piece that a record tells.
fn piece_of(record: &calls::Piece) -> Piece {
    let source = match record.file {
        0 => Source::Zero,
        file => Source::File {
            index: file as usize - 1,
            offset: record.offset,
        },
    };
    Piece {
        at: record.at,
        count: record.count,
        source,
    }
}

/// Where the bytes of the disk stand that a descriptor describes: pieces in order, without gap or overlap.
pub fn vmdk_plan(text: &[u8], accept_unknown_keys: bool) -> Result<Vec<Piece>, Refusal> {
    let mut count = 0;
    answer(calls::vmdk_plan(text, accept_unknown_keys, &mut [], &mut count))?;
    let mut records = vec![calls::Piece::default(); count as usize];
    answer(calls::vmdk_plan(text, accept_unknown_keys, &mut records, &mut count))?;
    Ok(records.iter().map(piece_of).collect())
}
