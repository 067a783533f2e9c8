// SPDX-License-Identifier: MIT
//! Images by a handle: the library asks for bytes, and says where each byte of the disk stands.
//!
//! [`Image`] is the handle, in safe Rust. [`Disk`] is an image with its files: those of the system,
//! or any that can be read at an offset ([`ReadAt`]). Its loops aren't proved. Neither is `Send`: a
//! handle stays on the thread that opened it.

use crate::calls::{self, Place as RawPlace, RawImage, Want as RawWant};
use crate::{answer, Refusal};
use std::fs::{File, OpenOptions};
use std::io::{self, Read, Seek, SeekFrom};
use std::os::unix::fs::{FileExt, FileTypeExt, OpenOptionsExt};
use std::path::{Path, PathBuf};

/// The format of a file.
#[derive(Clone, Copy, Debug, Default, PartialEq, Eq)]
pub enum Format {
    /// What the file is recognised as by its first 512 bytes, or else by its last ones: a qcow2
    /// image; a VMDK descriptor, by `# Disk DescriptorFile`; or a raw disk, if it is recognised as
    /// nothing. A file that is recognised as something else, such as a VHDX image or an archive,
    /// is refused: say `Raw` if its bytes are those of the disk all the same.
    #[default]
    Unknown,
    Raw,
    Vmdk,
    Qcow2,
}

impl Format {
    /// The format of that name, if one has it. `file` is an old name of `raw`, which headers may have
    /// for a backing file.
    pub fn named(name: &[u8]) -> Option<Format> {
        match name {
            b"raw" | b"file" => Some(Format::Raw),
            b"vmdk" => Some(Format::Vmdk),
            b"qcow2" => Some(Format::Qcow2),
            _ => None,
        }
    }
}

/// What an image asks for. Files are numbered in the order in which they are asked for: the top one
/// is 0.
#[derive(Clone, Copy, Debug, PartialEq, Eq)]
pub enum Want {
    /// Nothing: it is open.
    Nothing,
    /// So many bytes of a file, all inside it.
    Bytes { file: u64, offset: u64, count: u64 },
    /// The backing file of the last file that was given.
    Backing,
    /// The file of an extent.
    Extent,
}

/// What bytes of the disk are. Files are named by their numbers.
#[derive(Clone, Copy, Debug, PartialEq, Eq)]
pub enum Source {
    /// Zeroes, in no file.
    Zero,
    /// Bytes of a file from that offset on, as they are read there.
    Stored { file: usize, offset: u64 },
    /// A part of a compressed cluster.
    Compressed(Compressed),
}

/// A part of a compressed cluster. [`Compressed::unpack`] makes the cluster of its stream.
#[derive(Clone, Copy, Debug, PartialEq, Eq)]
pub struct Compressed {
    /// The number of the file that has the stream.
    pub file: usize,
    /// Where the stream begins in that file.
    pub offset: u64,
    /// How many bytes of the file the stream may have. Those past the file's end are zeroes.
    pub stream: usize,
    /// How many bytes the cluster has.
    pub cluster: usize,
    /// How many bytes of the cluster come before the first one.
    pub skip: usize,
}

impl Compressed {
    /// Makes the whole cluster of its stream. A faulty stream is [`Refusal::InvalidData`].
    pub fn unpack(&self, stream: &[u8]) -> Result<Vec<u8>, Refusal> {
        let mut cluster = vec![0; self.cluster];
        answer(calls::unpack_cluster(stream, &mut cluster))?;
        Ok(cluster)
    }
}

/// Bytes of the disk that stand in one place, or are a part of a compressed cluster.
#[derive(Clone, Copy, Debug, PartialEq, Eq)]
pub struct Place {
    /// The first byte's offset on the disk.
    pub at: u64,
    /// How many bytes there are, at least 1.
    pub count: u64,
    /// What they are.
    pub source: Source,
}

impl From<RawPlace> for Place {
    fn from(place: RawPlace) -> Place {
        let (file, offset) = (place.file.saturating_sub(1) as usize, place.offset);
        let source = match place.kind {
            0 => Source::Zero,
            1 => Source::Stored { file, offset },
            _ => Source::Compressed(Compressed {
                file,
                offset,
                stream: place.stream as usize,
                cluster: place.cluster as usize,
                skip: place.skip as usize,
            }),
        };
        Place { at: place.at, count: place.count, source }
    }
}

/// How many bytes the tables of each qcow2 file of an image may have, unless its caller says
/// otherwise: 256 MiB, which are enough for a disk of less than 2 TiB in clusters of 64 KiB.
pub const USUAL_TABLES: u64 = 256 << 20;

/// An image that is being opened, or is open. It has no file: it asks for bytes, and is given them.
#[derive(Debug)]
pub struct Image {
    raw: RawImage,
}

impl Image {
    /// Begins with the top file, which has that many bytes. The tables of each qcow2 file may have
    /// [`USUAL_TABLES`] bytes.
    pub fn new(length: u64, format: Format) -> Result<Image, Refusal> {
        Image::within(length, format, USUAL_TABLES)
    }

    /// Begins with the top file, which has that many bytes, where the tables of each qcow2 file may
    /// have `tables` bytes: 8 for each entry of the L1 table that its disk needs, and a cluster for
    /// each L2 table. A file that needs more is [`Refusal::Unsupported`] before one of its L2
    /// tables is asked for.
    pub fn within(length: u64, format: Format, tables: u64) -> Result<Image, Refusal> {
        let mut image = Image { raw: RawImage::CLOSED };
        answer(calls::image_open_within(&mut image.raw, length, format as u32, tables))?;
        Ok(image)
    }

    /// What is asked for.
    pub fn want(&mut self) -> Result<Want, Refusal> {
        let mut want = RawWant::default();
        answer(calls::image_want(&mut self.raw, &mut want))?;
        Ok(match want.kind {
            0 => Want::Nothing,
            1 => Want::Bytes { file: want.file, offset: want.offset, count: want.count },
            2 => Want::Backing,
            _ => Want::Extent,
        })
    }

    /// Gives the bytes that are asked for.
    pub fn give(&mut self, bytes: &[u8]) -> Result<(), Refusal> {
        answer(calls::image_give(&mut self.raw, bytes))
    }

    /// The name of the file that is asked for.
    pub fn name(&mut self) -> Result<Vec<u8>, Refusal> {
        whole(|name, length| calls::image_name(&mut self.raw, name, length))
    }

    /// The name of the format that the file is said to have.
    pub fn format_name(&mut self) -> Result<Vec<u8>, Refusal> {
        whole(|name, length| calls::image_format_name(&mut self.raw, name, length))
    }

    /// Gives the file that is asked for.
    pub fn give_file(&mut self, length: u64, format: Format) -> Result<(), Refusal> {
        answer(calls::image_give_file(&mut self.raw, length, format as u32))
    }

    /// The size of the disk in bytes.
    pub fn size(&mut self) -> Result<u64, Refusal> {
        let mut size = 0;
        answer(calls::image_size(&mut self.raw, &mut size))?;
        Ok(size)
    }

    /// Where the bytes of the disk are from an offset on: at most that many, at least one.
    pub fn map(&mut self, offset: u64, most: u64) -> Result<Place, Refusal> {
        let mut place = RawPlace::default();
        answer(calls::image_map(&mut self.raw, offset, most, &mut place))?;
        Ok(place.into())
    }
}

impl Drop for Image {
    fn drop(&mut self) {
        calls::image_close(&mut self.raw);
    }
}

/// All of a text that a call tells.
fn whole(mut tell: impl FnMut(&mut [u8], &mut usize) -> u32) -> Result<Vec<u8>, Refusal> {
    let (mut text, mut length) = (vec![0; 1024], 0);
    loop {
        answer(tell(&mut text, &mut length))?;
        if length <= text.len() {
            text.truncate(length);
            return Ok(text);
        }
        text = vec![0; length];
    }
}

/// A file that can be read at any offset.
pub trait ReadAt {
    /// Reads some bytes from the offset on, none only at the end.
    fn read_at(&self, buf: &mut [u8], offset: u64) -> io::Result<usize>;

    /// Its length in bytes.
    fn length(&self) -> io::Result<u64>;
}

impl ReadAt for File {
    fn read_at(&self, buf: &mut [u8], offset: u64) -> io::Result<usize> {
        FileExt::read_at(self, buf, offset)
    }

    fn length(&self) -> io::Result<u64> {
        let mut file = self;
        file.seek(SeekFrom::End(0))
    }
}

/// Another file that an image names.
#[derive(Clone, Copy, Debug)]
pub struct Named<'a> {
    /// The number of the file that names it.
    pub above: usize,
    /// The name, as it stands there.
    pub name: &'a [u8],
    /// Whether it is an extent's file, and no backing file.
    pub is_extent: bool,
}

/// The disk of an image, with its files.
#[derive(Debug)]
pub struct Disk<F = File> {
    image: Image,
    files: Vec<F>,
    size: u64,
    at: u64,
    /// The compressed cluster that was made last.
    unpacked: Option<(Compressed, Vec<u8>)>,
}

fn refused(refusal: Refusal) -> io::Error {
    io::Error::other(refusal)
}

/// Fills the buffer with bytes of a file, with zeroes past its end.
fn fill<F: ReadAt>(file: &F, mut buf: &mut [u8], mut offset: u64) -> io::Result<()> {
    while !buf.is_empty() {
        match file.read_at(buf, offset) {
            Ok(0) => {
                buf.fill(0);
                break;
            }
            Ok(count) => {
                offset += count as u64;
                buf = &mut buf[count..];
            }
            Err(error) if error.kind() == io::ErrorKind::Interrupted => {}
            Err(error) => return Err(error),
        }
    }
    Ok(())
}

/// Opens a file of the system for reading, if it is a plain one or a block device.
fn open_file(path: &Path) -> io::Result<File> {
    const O_NONBLOCK: i32 = 0o4000;
    let file = OpenOptions::new().read(true).custom_flags(O_NONBLOCK).open(path)?;
    let kind = file.metadata()?.file_type();
    if kind.is_file() || kind.is_block_device() {
        return Ok(file);
    }
    Err(io::Error::new(io::ErrorKind::InvalidInput, format!("{} is no file", path.display())))
}

impl Disk<File> {
    /// Opens the image of a path. A file that it names has to stand beside the one that names it.
    pub fn open(path: impl AsRef<Path>, format: Format) -> io::Result<Disk<File>> {
        Disk::open_with(path, format, |above, named| {
            let name = std::str::from_utf8(named.name).map_err(|_| io::ErrorKind::InvalidFilename)?;
            if name.is_empty() || name.contains(['/', '\0']) {
                let text = format!("{name:?} isn't beside {}", above.display());
                return Err(io::Error::new(io::ErrorKind::PermissionDenied, text));
            }
            Ok(above.with_file_name(name))
        })
    }

    /// Opens the image of a path. `others` is asked for the path of each file that it names, with
    /// the path of the file above.
    pub fn open_with(
        path: impl AsRef<Path>,
        format: Format,
        mut others: impl FnMut(&Path, Named) -> io::Result<PathBuf>,
    ) -> io::Result<Disk<File>> {
        let mut paths = vec![path.as_ref().to_path_buf()];
        let top = open_file(&paths[0])?;
        Disk::over(top, format, |named| {
            let path = others(&paths[named.above], named)?;
            let file = open_file(&path)?;
            paths.push(path);
            Ok(file)
        })
    }
}

impl<F: ReadAt> Disk<F> {
    /// Opens the image whose top file this is. `others` opens each file that it names.
    pub fn over(
        top: F,
        format: Format,
        mut others: impl FnMut(Named) -> io::Result<F>,
    ) -> io::Result<Disk<F>> {
        let mut image = Image::new(top.length()?, format).map_err(refused)?;
        let (mut files, mut above) = (vec![top], 0);
        loop {
            let is_extent = match image.want().map_err(refused)? {
                Want::Nothing => break,
                Want::Bytes { file, offset, count } => {
                    let mut bytes = vec![0; count as usize];
                    fill(&files[file as usize], &mut bytes, offset)?;
                    image.give(&bytes).map_err(refused)?;
                    continue;
                }
                Want::Backing => false,
                Want::Extent => true,
            };
            let format = match image.format_name() {
                Ok(name) => Format::named(&name).ok_or(Refusal::Unsupported).map_err(refused)?,
                Err(_) => Format::Unknown,
            };
            let name = image.name().map_err(refused)?;
            let file = others(Named { above, name: &name, is_extent })?;
            image.give_file(file.length()?, format).map_err(refused)?;
            files.push(file);
            above = if is_extent { above } else { files.len() - 1 };
        }
        let size = image.size().map_err(refused)?;
        Ok(Disk { image, files, size, at: 0, unpacked: None })
    }

    /// The size of the disk in bytes.
    pub fn size(&self) -> u64 {
        self.size
    }

    /// Where the bytes of the disk are from an offset on: at most that many, at least one.
    pub fn map(&mut self, offset: u64, most: u64) -> io::Result<Place> {
        self.image.map(offset, most).map_err(refused)
    }

    /// The compressed cluster of a part, which is made unless it is the one that was made last.
    fn unpacked(&mut self, part: &Compressed) -> io::Result<&[u8]> {
        let is_there = |made: &(Compressed, Vec<u8>)| {
            made.0.file == part.file && made.0.offset == part.offset
        };
        if !self.unpacked.as_ref().is_some_and(is_there) {
            let mut stream = vec![0; part.stream];
            fill(&self.files[part.file], &mut stream, part.offset)?;
            self.unpacked = Some((*part, part.unpack(&stream).map_err(refused)?));
        }
        Ok(self.unpacked.as_ref().map_or(&[], |made| &made.1))
    }

    /// Reads bytes of the disk: fewer than the buffer has room for only at its end.
    pub fn read_at(&mut self, buf: &mut [u8], offset: u64) -> io::Result<usize> {
        let count = (buf.len() as u64).min(self.size.saturating_sub(offset)) as usize;
        let mut done = 0;
        while done < count {
            let place = self.map(offset + done as u64, (count - done) as u64)?;
            let part = &mut buf[done..done + place.count as usize];
            match &place.source {
                Source::Zero => part.fill(0),
                Source::Stored { file, offset } => fill(&self.files[*file], part, *offset)?,
                Source::Compressed(of) => {
                    let end = of.skip + part.len();
                    part.copy_from_slice(&self.unpacked(of)?[of.skip..end]);
                }
            }
            done += place.count as usize;
        }
        Ok(count)
    }
}

impl<F: ReadAt> Read for Disk<F> {
    fn read(&mut self, buf: &mut [u8]) -> io::Result<usize> {
        let count = self.read_at(buf, self.at)?;
        self.at += count as u64;
        Ok(count)
    }
}

impl<F> Seek for Disk<F> {
    fn seek(&mut self, to: SeekFrom) -> io::Result<u64> {
        let at = match to {
            SeekFrom::Start(at) => Some(at),
            SeekFrom::Current(by) => self.at.checked_add_signed(by),
            SeekFrom::End(by) => self.size.checked_add_signed(by),
        };
        self.at = at.ok_or(io::ErrorKind::InvalidInput)?;
        Ok(self.at)
    }
}
