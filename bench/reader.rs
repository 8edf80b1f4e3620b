//! Measures the reader of the library `wasm_bench`. It decodes a code section into a list of
//! bodies, and visits its instructions one by one; a straight decoder that keeps nothing is the
//! comparison. The section is made here, or is that of a module in a file. See README.md.

mod leb128;

use leb128::{signed, unsigned};
use std::env;
use std::fs;
use std::hint::black_box;
use std::time::{Duration, Instant};

// Slices are passed as a pointer and a length.
#[rustfmt::skip]
/// The workloads in the build by rustc.
#[cfg(feature = "rust")]
extern crate dolzhytik_bench as _;

unsafe extern "C" {
    fn wb_read(section: *const u8, section_len: usize) -> u64;
    fn wb_walk(body: *const u8, body_len: usize) -> u64;
}

const SIZES: [usize; 3] = [10_000, 100_000, 1_000_000];
const INSTRUCTIONS_OF_A_FUNCTION: usize = 50;
const WINDOW: Duration = Duration::from_secs(2);

fn read(section: &[u8]) -> u64 {
    unsafe { wb_read(section.as_ptr(), section.len()) }
}

fn walk(body: &[u8]) -> u64 {
    unsafe { wb_walk(body.as_ptr(), body.len()) }
}

// ---- the input

struct Numbers(u64);

impl Numbers {
    fn next(&mut self) -> u64 {
        self.0 ^= self.0 << 13;
        self.0 ^= self.0 >> 7;
        self.0 ^= self.0 << 17;
        self.0
    }

    /// Of 16 indices 12 have one byte, 3 mostly two, and one up to four.
    fn index(&mut self) -> u64 {
        let n = self.next();
        match n % 16 {
            0 => n >> 37,
            1..=3 => (n >> 8) % 16384,
            _ => (n >> 8) % 128,
        }
    }
}

fn instruction(bytes: &mut Vec<u8>, numbers: &mut Numbers) {
    match numbers.next() % 10 {
        0..=2 => {
            bytes.push(0x20);
            unsigned(bytes, numbers.index());
        }
        3 => {
            bytes.push(0x21);
            unsigned(bytes, numbers.index());
        }
        4 | 5 => {
            bytes.push(0x41);
            let n = numbers.index() as i64;
            signed(bytes, if n % 2 == 0 { n } else { -n });
        }
        6 | 7 => bytes.push(0x6A),
        8 => {
            bytes.push(0x10);
            unsigned(bytes, numbers.index());
        }
        _ => {
            bytes.extend([0x28, 0x02]);
            unsigned(bytes, numbers.index());
        }
    }
}

/// The bodies of functions of this many instructions in all, without their sizes.
fn bodies(items: usize) -> Vec<Vec<u8>> {
    let mut numbers = Numbers(0x9E37_79B9_7F4A_7C15);
    let mut bodies = Vec::new();
    for _ in 0..items / INSTRUCTIONS_OF_A_FUNCTION {
        let mut body = vec![2, 2, 0x7F, 1, 0x7C];
        for _ in 1..INSTRUCTIONS_OF_A_FUNCTION {
            instruction(&mut body, &mut numbers);
        }
        body.push(0x0B);
        bodies.push(body);
    }
    bodies
}

fn section(bodies: &[Vec<u8>]) -> Vec<u8> {
    let mut content = Vec::new();
    unsigned(&mut content, bodies.len() as u64);
    for body in bodies {
        unsigned(&mut content, body.len() as u64);
        content.extend(body);
    }
    let mut section = Vec::new();
    unsigned(&mut section, content.len() as u64);
    section.extend(content);
    section
}

/// The bodies of the code section of a module, without their sizes.
fn bodies_of(module: &[u8]) -> Option<Vec<Vec<u8>>> {
    let mut rest = module.strip_prefix(b"\0asm\x01\0\0\0")?;
    while let Some((&id, after)) = rest.split_first() {
        rest = after;
        let mut content = framed(&mut rest)?;
        if id == 10 {
            let count = number(&mut content, 32)?;
            return (0..count)
                .map(|_| Some(framed(&mut content)?.to_vec()))
                .collect();
        }
    }
    None
}

/// The payload after a size prefix.
fn framed<'a>(bytes: &mut &'a [u8]) -> Option<&'a [u8]> {
    let size = number(bytes, 32)?;
    let (content, rest) = bytes.split_at_checked(usize::try_from(size).ok()?)?;
    *bytes = rest;
    Some(content)
}

/// The bodies of a number of instructions, or of a file.
fn input(words: &str) -> Vec<Vec<u8>> {
    match words.parse() {
        Ok(items) => bodies(items),
        Err(_) => {
            bodies_of(&fs::read(words).expect("a file")).expect("a module with a code section")
        }
    }
}

// ---- the straight decoder

/// A number of at most 32 bits in LEB128, padded or not.
fn number(bytes: &mut &[u8], bits: u32) -> Option<u64> {
    let mut value = 0;
    let mut shift = 0;
    loop {
        let (&byte, rest) = bytes.split_first()?;
        *bytes = rest;
        value |= u64::from(byte & 0x7F) << shift;
        shift += 7;
        if byte < 0x80 {
            return (shift <= bits || value >> bits == 0).then_some(value);
        }
        if shift > bits {
            return None;
        }
    }
}

/// A signed number of 32 bits.
fn signed_number(bytes: &mut &[u8]) -> Option<()> {
    for group in 0..5 {
        let (&byte, rest) = bytes.split_first()?;
        *bytes = rest;
        if byte < 0x80 {
            return (group < 4 || matches!(byte, 0..=0x07 | 0x78..=0x7F)).then_some(());
        }
    }
    None
}

/// The number of instructions in a body.
#[inline(never)]
pub fn straight(body: &[u8]) -> Option<u64> {
    let mut rest = body;
    for _ in 0..number(&mut rest, 32)? {
        number(&mut rest, 32)?;
        let (&ty, after) = rest.split_first()?;
        matches!(ty, 0x7B..=0x7F).then_some(())?;
        rest = after;
    }
    let mut count = 0;
    while let Some((&op, after)) = rest.split_first() {
        rest = after;
        match op {
            0x0B | 0x6A => {}
            0x10 | 0x20 | 0x21 => {
                number(&mut rest, 32)?;
            }
            0x28 => {
                number(&mut rest, 32)?;
                number(&mut rest, 64)?;
            }
            0x41 => signed_number(&mut rest)?,
            _ => return None,
        }
        count += 1;
    }
    Some(count)
}

// ---- runs

fn all(bodies: &[Vec<u8>], count: impl Fn(&[u8]) -> u64) -> u64 {
    bodies.iter().map(|body| count(body)).sum()
}

/// The shortest of many runs, in seconds.
fn best(run: impl Fn() -> u64) -> f64 {
    let begun = Instant::now();
    let mut best = f64::INFINITY;
    while begun.elapsed() < WINDOW {
        let one = Instant::now();
        black_box(run());
        best = best.min(one.elapsed().as_secs_f64());
    }
    best
}

fn measure(items: usize) {
    let bodies = bodies(items);
    let section = section(&bodies);
    let count = all(&bodies, |body| straight(body).unwrap_or(0));
    assert_eq!((read(&section), all(&bodies, walk)), (count, count));
    assert_eq!(read(&section[..section.len() - 1]), u64::MAX);
    assert_eq!(walk(&[0, 0x16]), u64::MAX);
    let runs = [
        ("read", best(|| read(&section))),
        ("walk", best(|| all(&bodies, walk))),
        (
            "straight",
            best(|| all(&bodies, |body| straight(body).unwrap_or(0))),
        ),
    ];
    for (name, seconds) in runs {
        let megabytes = section.len() as f64 / seconds / 1e6;
        let nanoseconds = seconds * 1e9 / items as f64;
        println!("| {name} | {items} | {nanoseconds:.2} | {megabytes:.0} |");
    }
}

/// One run of a workload alone, for a profiler.
fn once(name: &str, words: &str) -> u64 {
    let bodies = input(words);
    match name {
        "read" => read(&section(&bodies)),
        "walk" => all(&bodies, walk),
        "straight" => all(&bodies, |body| straight(body).unwrap_or(0)),
        _ => section(&bodies).len() as u64,
    }
}

fn main() {
    let args: Vec<String> = env::args().collect();
    if let [_, once_word, name, words] = &args[..] {
        assert_eq!(once_word, "once");
        println!("{}", once(name, words));
        return;
    }
    println!("| workload | instructions | ns each | MB/s |");
    println!("|---|---|---|---|");
    for items in SIZES {
        measure(items);
    }
}
