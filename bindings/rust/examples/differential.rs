// SPDX-License-Identifier: MIT
//! Makes random calls on images through the library, and the same on a `Vec<u8>`: the two must not differ.
//!
//!     cargo run --example differential [CALLS [SEED]]
//!
//! Images are raw, or copy-on-write disks over a raw one, over storages with any alignment. Every byte of the disk is read after each
//! hundred calls. What a discard to backing leaves is compared with both bytes that it may leave, and is known from then on.

use imago_c::{Status, script};
use std::fmt::Write;

/// Numbers that look random, from a seed.
struct Random(u64);

impl Random {
    /// One below that number.
    fn below(&mut self, bound: u64) -> u64 {
        self.0 ^= self.0 << 13;
        self.0 ^= self.0 >> 7;
        self.0 ^= self.0 << 17;
        (self.0 >> 11) % bound.max(1)
    }

    /// A range that mostly lies in a disk of that size.
    fn range(&mut self, size: u64) -> (u64, u64) {
        let offset = self.below(size + 3);
        let length = match self.below(3) {
            0 => self.below(9),
            1 => self.below(70),
            _ => self.below(size + 2 - offset.min(size)),
        };
        (offset, length)
    }
}

/// What a line of the script must print.
enum Wanted {
    /// This.
    Text(String),
    /// The disk's bytes, of which each is the first or the second.
    Either(Vec<(u8, u8)>),
}

/// The disk, byte by byte: what it may show, and what stands below it.
struct Model {
    bytes: Vec<(u8, u8)>,
    below: Option<Vec<u8>>,
}

/// A script of one image, and what its lines must print.
#[derive(Default)]
struct Lines {
    text: String,
    wanted: Vec<Wanted>,
}

impl Lines {
    fn add(&mut self, line: &str, wanted: Wanted) {
        self.text.push_str(line);
        self.text.push('\n');
        self.wanted.push(wanted);
    }

    fn done(&mut self, line: &str, answer: &str) {
        self.add(line, Wanted::Text(answer.to_string()));
    }
}

/// Bytes in hexadecimal, or `-`.
fn digits(bytes: &[u8]) -> String {
    if bytes.is_empty() {
        return "-".to_string();
    }
    bytes.iter().fold(String::new(), |mut text, byte| {
        write!(text, "{byte:02x}").expect("a string grows");
        text
    })
}

impl Model {
    /// Changes a range that lies in the disk. Answers what the call prints: a range past the disk's end is refused.
    fn change(&mut self, offset: u64, length: u64, value: impl Fn(usize, (u8, u8)) -> (u8, u8)) -> &'static str {
        if offset + length > self.bytes.len() as u64 {
            return "err UnexpectedEof";
        }
        let start = offset as usize;
        for (k, byte) in self.bytes[start..start + length as usize].iter_mut().enumerate() {
            *byte = value(k, *byte);
        }
        "ok"
    }

    /// What stands below an offset.
    fn lower(&self, offset: usize) -> u8 {
        self.below.as_ref().and_then(|below| below.get(offset)).copied().unwrap_or(0)
    }

    /// The whole disk is read, and a byte past its end.
    fn read_all(&self, lines: &mut Lines) {
        let mut either = self.bytes.clone();
        either.push((0, 0));
        lines.add(&format!("read 0 {}", either.len()), Wanted::Either(either));
    }

    /// Sets the disk's size. New bytes are zero by mode `zero`, and else those that stand below.
    fn resize(&mut self, size: u64, zero: bool) {
        let kept = self.bytes.len();
        self.bytes.resize(size as usize, (0, 0));
        for offset in kept..size as usize {
            let byte = if zero { 0 } else { self.lower(offset) };
            self.bytes[offset] = (byte, byte);
        }
    }
}

/// Makes one random call of an image, and the same of its model.
fn call(random: &mut Random, model: &mut Model, lines: &mut Lines) {
    let size = model.bytes.len() as u64;
    let (offset, length) = random.range(size);
    match random.below(12) {
        0..=4 => {
            let bytes: Vec<u8> = (0..length).map(|_| random.below(256) as u8).collect();
            let answer = model.change(offset, length, |k, _| (bytes[k], bytes[k]));
            lines.done(&format!("write {offset} {}", digits(&bytes)), answer);
        }
        5 => {
            let answer = model.change(offset, length, |_, _| (0, 0));
            lines.done(&format!("zero {offset} {length}"), answer);
        }
        6 => {
            let answer = model.change(offset, length, |_, _| (0, 0));
            lines.done(&format!("discard zero {offset} {length}"), answer);
        }
        7 if model.bytes.iter().all(|(a, b)| a == b) => {
            let lower: Vec<u8> = (0..length).map(|k| model.lower((offset + k) as usize)).collect();
            let answer = model.change(offset, length, |k, old| (old.0, lower[k]));
            lines.done(&format!("discard backing {offset} {length}"), answer);
        }
        8 => {
            let new = random.below(600);
            let zero = random.below(2) == 0;
            model.resize(new, zero);
            lines.done(&format!("resize {new} {}", if zero { "zero" } else { "full" }), "ok");
        }
        9 => lines.done("flush", "ok"),
        10 => lines.done("size", &format!("ok {size}")),
        _ => {
            let read = (0..length).map(|k| model.bytes.get((offset + k) as usize).copied().unwrap_or((0, 0)));
            let either = read.collect();
            lines.add(&format!("read {offset} {length}"), Wanted::Either(either));
        }
    }
}

/// Opens an image of random bytes: a raw one, or a disk over one.
fn open(random: &mut Random, lines: &mut Lines) -> Model {
    let bytes: Vec<u8> = (0..random.below(500)).map(|_| random.below(256) as u8).collect();
    let align = 1 << random.below(7);
    let cow = random.below(3) > 0;
    if cow {
        lines.done(&format!("hex a {}", digits(&bytes)), "ok");
        lines.done("open raw a ro", "ok");
        lines.done(&format!("mem b 40 77 {align} {align}"), "ok");
        lines.done(&format!("open cow b {}", 1 << random.below(8)), "ok");
    } else {
        lines.done(&format!("mem a {} 3c {align} {align}", bytes.len()), "ok");
        lines.done("open raw a rw", "ok");
        lines.done(&format!("write 0 {}", digits(&bytes)), "ok");
    }
    Model {
        bytes: bytes.iter().map(|&byte| (byte, byte)).collect(),
        below: cow.then_some(bytes),
    }
}

/// Whether a printed line is as it must be.
fn is_so(printed: &str, wanted: &Wanted) -> bool {
    let either = match wanted {
        Wanted::Text(text) => return printed == text,
        Wanted::Either(either) => either,
    };
    let Some(shown) = printed.strip_prefix("ok ") else {
        return false;
    };
    let shown = if shown == "-" { "" } else { shown };
    shown.len() == 2 * either.len()
        && either.iter().enumerate().all(|(k, (a, b))| {
            u8::from_str_radix(&shown[2 * k..2 * k + 2], 16).is_ok_and(|byte| byte == *a || byte == *b)
        })
}

/// How many lines of a script differ from what they must print.
fn differing(lines: &Lines) -> usize {
    let (status, printed) = script(lines.text.as_bytes());
    let printed = String::from_utf8(printed).expect("a script prints ASCII");
    let shown: Vec<&str> = printed.lines().collect();
    let same_count = shown.len() == lines.wanted.len();
    let each = shown.iter().zip(&lines.wanted).zip(lines.text.lines());
    let wrong = each.filter(|((shown, wanted), line)| {
        let right = is_so(shown, wanted);
        if !right {
            println!("{line}: {shown}");
        }
        !right
    });
    wrong.count() + usize::from(!same_count) + usize::from(status != Status::Done)
}

fn main() {
    let mut arguments = std::env::args().skip(1).map(|word| word.parse().expect("a number"));
    let count: u64 = arguments.next().unwrap_or(100_000);
    let seed: u64 = arguments.next().unwrap_or(1);
    let mut random = Random(seed.wrapping_mul(0x9e37_79b9_7f4a_7c15) | 1);
    let (mut made, mut images, mut wrong) = (0, 0, 0);
    while made < count {
        let mut lines = Lines::default();
        let mut model = open(&mut random, &mut lines);
        for _ in 0..10.min((count - made).div_ceil(100)) {
            for _ in 0..100.min(count - made) {
                call(&mut random, &mut model, &mut lines);
                made += 1;
            }
            model.read_all(&mut lines);
        }
        wrong += differing(&lines);
        images += 1;
    }
    println!("{made} calls on {images} images: {wrong} differ");
    assert_eq!(wrong, 0);
}
