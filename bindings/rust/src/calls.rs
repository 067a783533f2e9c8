// SPDX-License-Identifier: MIT
//! The calls of `include/imago.h`. Nothing compares these declarations with those of `crates/imago_c`, but the examples that run.

/// `struct imago_extent`.
#[repr(C)]
#[derive(Clone, Copy, Debug, Default, PartialEq, Eq)]
pub struct Record {
    pub sectors: u64,
    pub offset: u64,
    pub name_start: u64,
    pub name_length: u64,
    pub kind: u32,
    pub writable: u32,
}

/// `struct imago_extent_counts`.
#[repr(C)]
#[derive(Clone, Copy, Debug, Default, PartialEq, Eq)]
pub struct Counts {
    pub extents: u64,
    pub names: u64,
}

/// `struct imago_piece`.
#[repr(C)]
#[derive(Clone, Copy, Debug, Default, PartialEq, Eq)]
pub struct Piece {
    pub at: u64,
    pub count: u64,
    pub file: u64,
    pub offset: u64,
}

unsafe extern "C" {
    fn imago_script(
        text: *const u8,
        text_length: usize,
        output: *mut u8,
        output_length: usize,
        printed: *mut usize,
    ) -> u32;

    fn imago_vmdk_probe(text: *const u8, text_length: usize) -> bool;

    fn imago_vmdk_size(text: *const u8, text_length: usize, accept: bool, size: *mut u64) -> u32;

    fn imago_vmdk_extents(
        text: *const u8,
        text_length: usize,
        accept: bool,
        extents: *mut Record,
        extents_length: usize,
        names: *mut u8,
        names_length: usize,
        counts: *mut Counts,
    ) -> u32;

    fn imago_vmdk_plan(
        text: *const u8,
        text_length: usize,
        accept: bool,
        pieces: *mut Piece,
        pieces_length: usize,
        count: *mut u64,
    ) -> u32;
}

/// Answers the status, and how many bytes are printed.
pub fn script(text: &[u8], output: &mut [u8]) -> (u32, usize) {
    let mut printed = 0;
    // SAFETY: each pointer and length are those of a slice that is borrowed for the call, and no call requires more.
    let code = unsafe {
        imago_script(text.as_ptr(), text.len(), output.as_mut_ptr(), output.len(), &mut printed)
    };
    (code, printed)
}

pub fn vmdk_probe(text: &[u8]) -> bool {
    // SAFETY: as above.
    unsafe { imago_vmdk_probe(text.as_ptr(), text.len()) }
}

pub fn vmdk_size(text: &[u8], accept: bool, size: &mut u64) -> u32 {
    // SAFETY: as above.
    unsafe { imago_vmdk_size(text.as_ptr(), text.len(), accept, size) }
}

pub fn vmdk_extents(
    text: &[u8],
    accept: bool,
    extents: &mut [Record],
    names: &mut [u8],
    counts: &mut Counts,
) -> u32 {
    // SAFETY: as above.
    unsafe {
        imago_vmdk_extents(
            text.as_ptr(),
            text.len(),
            accept,
            extents.as_mut_ptr(),
            extents.len(),
            names.as_mut_ptr(),
            names.len(),
            counts,
        )
    }
}

pub fn vmdk_plan(text: &[u8], accept: bool, pieces: &mut [Piece], count: &mut u64) -> u32 {
    // SAFETY: as above.
    unsafe {
        imago_vmdk_plan(
            text.as_ptr(),
            text.len(),
            accept,
            pieces.as_mut_ptr(),
            pieces.len(),
            count,
        )
    }
}

/// `struct imago_image`.
#[repr(C)]
#[derive(Debug)]
pub struct RawImage {
    is_open: bool,
    at: *mut u8,
}

impl RawImage {
    pub const CLOSED: RawImage = RawImage { is_open: false, at: std::ptr::null_mut() };
}

/// `struct imago_want`.
#[repr(C)]
#[derive(Clone, Copy, Debug, Default)]
pub struct Want {
    pub file: u64,
    pub offset: u64,
    pub count: u64,
    pub kind: u32,
    pub unused: u32,
}

/// `struct imago_place`.
#[repr(C)]
#[derive(Clone, Copy, Debug, Default)]
pub struct Place {
    pub at: u64,
    pub count: u64,
    pub file: u64,
    pub offset: u64,
    pub stream: u64,
    pub cluster: u64,
    pub skip: u64,
    pub kind: u32,
    pub unused: u32,
}

unsafe extern "C" {
    fn imago_image_open_within(
        image: *mut RawImage,
        length: u64,
        format: u32,
        strict: bool,
        tables: u64,
    ) -> u32;
    fn imago_image_want(image: *mut RawImage, want: *mut Want) -> u32;
    fn imago_image_give(image: *mut RawImage, bytes: *const u8, count: usize) -> u32;
    fn imago_image_name(
        image: *mut RawImage,
        name: *mut u8,
        room: usize,
        length: *mut usize,
    ) -> u32;
    fn imago_image_format_name(
        image: *mut RawImage,
        name: *mut u8,
        room: usize,
        length: *mut usize,
    ) -> u32;
    fn imago_image_give_file(image: *mut RawImage, length: u64, format: u32) -> u32;
    fn imago_image_size(image: *mut RawImage, size: *mut u64) -> u32;
    fn imago_image_map(image: *mut RawImage, offset: u64, most: u64, place: *mut Place) -> u32;
    fn imago_image_close(image: *mut RawImage);
    fn imago_unpack_cluster(
        stream: *const u8,
        stream_length: usize,
        cluster: *mut u8,
        cluster_length: usize,
    ) -> u32;
}

pub fn image_open_within(image: &mut RawImage, length: u64, format: u32, tables: u64) -> u32 {
    // SAFETY: a `RawImage` is made of zeroes and is changed by these calls alone, to which it is
    // lent for as long as they take. It can't be copied, and isn't `Send`. The calls below are
    // called in the same way.
    unsafe { imago_image_open_within(image, length, format, false, tables) }
}

pub fn image_want(image: &mut RawImage, want: &mut Want) -> u32 {
    // SAFETY: as above.
    unsafe { imago_image_want(image, want) }
}

pub fn image_give(image: &mut RawImage, bytes: &[u8]) -> u32 {
    // SAFETY: as above.
    unsafe { imago_image_give(image, bytes.as_ptr(), bytes.len()) }
}

pub fn image_name(image: &mut RawImage, name: &mut [u8], length: &mut usize) -> u32 {
    // SAFETY: as above.
    unsafe { imago_image_name(image, name.as_mut_ptr(), name.len(), length) }
}

pub fn image_format_name(image: &mut RawImage, name: &mut [u8], length: &mut usize) -> u32 {
    // SAFETY: as above.
    unsafe { imago_image_format_name(image, name.as_mut_ptr(), name.len(), length) }
}

pub fn image_give_file(image: &mut RawImage, length: u64, format: u32) -> u32 {
    // SAFETY: as above.
    unsafe { imago_image_give_file(image, length, format) }
}

pub fn image_size(image: &mut RawImage, size: &mut u64) -> u32 {
    // SAFETY: as above.
    unsafe { imago_image_size(image, size) }
}

pub fn image_map(image: &mut RawImage, offset: u64, most: u64, place: &mut Place) -> u32 {
    // SAFETY: as above.
    unsafe { imago_image_map(image, offset, most, place) }
}

pub fn unpack_cluster(stream: &[u8], cluster: &mut [u8]) -> u32 {
    // SAFETY: each pointer and length are those of a slice that is borrowed for the call.
    unsafe {
        imago_unpack_cluster(
            stream.as_ptr(),
            stream.len(),
            cluster.as_mut_ptr(),
            cluster.len(),
        )
    }
}

pub fn image_close(image: &mut RawImage) {
    // SAFETY: as above.
    unsafe { imago_image_close(image) }
}
