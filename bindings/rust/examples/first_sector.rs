// SPDX-License-Identifier: MIT
//! Prints the first sector of the disk of a qcow2 image.
use imago_c::image::{Disk, Format};
use std::io::{self, Write};

fn main() -> io::Result<()> {
    let path = std::env::args().nth(1).expect("the path of an image");
    let mut disk = Disk::open(path, Format::Qcow2)?;
    let mut sector = [0; 512];
    let count = disk.read_at(&mut sector, 0)?;
    io::stdout().write_all(&sector[..count])
}
