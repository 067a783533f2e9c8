// SPDX-License-Identifier: MIT
//! Makes each call with good and with bad input. What it expects is worked out by hand.

use imago_c::{
    Extent, Piece, Refusal, Source, Status, script, vmdk_extents, vmdk_plan, vmdk_probe, vmdk_size,
};

const TWO: &[u8] = b"version=1\nRW 1 FLAT \"disk-flat.vmdk\" 3\nNOACCESS 4\n";

/// A file's name is used for two extents: each has a number of its own. The second one has no bytes.
const PIECES: &[u8] =
    b"version=1\nRW 2 FLAT \"a\" 3\nRW 0 FLAT \"b\"\nRW 1 ZERO\nRDONLY 1 FLAT \"a\"\n";

/// Texts that are no descriptors that are offered, and their refusals.
const REFUSED: [(&[u8], Refusal); 6] = [
    (b"", Refusal::InvalidData),
    (b"version=1\n\xff\n", Refusal::InvalidData),
    (b"version=1\nencoding=\"UTF-8\"\n", Refusal::InvalidData),
    (b"version=1\nRW 36028797018963968 ZERO\n", Refusal::InvalidData),
    (b"version=4\n", Refusal::Unsupported),
    (b"KDMV and more", Refusal::Unsupported),
];

/// The size of a disk, by a function that passes any error on.
fn size_of(text: &[u8]) -> Result<u64, Box<dyn std::error::Error>> {
    Ok(vmdk_size(text, true)?)
}

fn main() {
    assert_eq!(size_of(TWO).ok(), Some(5 * 512));
    let refused = size_of(b"version=4\n").map_err(|error| error.to_string());
    assert_eq!(refused, Err("the driver or storage does not support this operation".to_string()));
    let (status, printed) = script(b"mem a 16 00 1 1\nopen raw a rw\nwrite 3 0102\nread 0 6\n");
    assert_eq!((status, printed.as_slice()), (Status::Done, &b"ok\nok\nok\nok 000000010200\n"[..]));
    let (status, printed) = script(b"read 0 x\n\0");
    assert_eq!((status, printed.as_slice()), (Status::BadLine, &b"bad line 1\n"[..]));
    let (status, printed) = script(b"");
    assert_eq!((status, printed.len()), (Status::Done, 0));
    let long = script(b"mem a 100000 ab 1 1\nopen raw a ro\nread 0 100000\n");
    assert_eq!(long.1.len(), b"ok\nok\nok \n".len() + 200000);

    assert!(vmdk_probe(TWO));
    assert_eq!(vmdk_size(TWO, false), Ok(5 * 512));
    let flat = Extent::Flat {
        sectors: 1,
        name: b"disk-flat.vmdk".to_vec(),
        offset: 3,
        writable: true,
    };
    assert_eq!(vmdk_extents(TWO, false), Ok(vec![flat, Extent::NoAccess { sectors: 4 }]));
    assert_eq!(vmdk_plan(TWO, false), Err(Refusal::NoAccess));
    let pieces = [
        (0, 1024, Source::File { index: 0, offset: 1536 }),
        (1024, 512, Source::Zero),
        (1536, 512, Source::File { index: 2, offset: 0 }),
    ];
    assert_eq!(vmdk_plan(PIECES, false), Ok(pieces.map(|(at, count, source)| Piece { at, count, source }).to_vec()));
    assert_eq!(vmdk_plan(b"version=1", false), Ok(vec![]));
    for (text, refusal) in REFUSED {
        assert_eq!(vmdk_size(text, false), Err(refusal));
        assert_eq!(vmdk_plan(text, false), Err(refusal));
        assert_eq!(vmdk_extents(text, false), Err(refusal));
    }
    assert_eq!(vmdk_size(b"version=1\nencoding=\"UTF-8\"\n", true), Ok(0));
    println!("Rust: each call answers as expected");
}
