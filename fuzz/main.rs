//! Compares the proved reader with a plain one: random and changed sections of every kind, by
//! `dz_shorten`. See README.md.

mod grammar;
mod maker;
#[allow(dead_code)] // package.rs uses more of it
mod plain;

use grammar::{Grammar, KINDS};
use maker::{Random, input};
use plain::shortened;
use std::env;
use std::process::ExitCode;
use std::time::Instant;

// Slices are passed as a pointer and a length.
#[rustfmt::skip]
unsafe extern "C" {
    fn dz_shorten(kind: u32, bytes: *const u8, bytes_len: usize, out: *mut u8, out_len: usize, taken: *mut u64, cause: *mut u32) -> u64;
}

const NO_ANSWER: u64 = u64::MAX;

/// The grammars of inputs: most of those in the builders' grammar are sections.
const GRAMMARS: [Grammar; 4] = [
    Grammar::Builders,
    Grammar::Builders,
    Grammar::Builders,
    Grammar::Standard,
];

/// The bytes of the output that the library must not write.
const BLANK: u8 = 0xA5;

/// Returns the length of the minimal encoding that the library writes, and the number of decoded
/// bytes. `Err` is the number of a cause, or 0 if the outputs contradict each other.
fn by_library(kind: u32, bytes: &[u8], room: &mut [u8]) -> Result<(usize, u64), u32> {
    let (mut taken, mut cause) = (7, 7);
    let answer = unsafe {
        dz_shorten(
            kind,
            bytes.as_ptr(),
            bytes.len(),
            room.as_mut_ptr(),
            room.len(),
            &mut taken,
            &mut cause,
        )
    };
    match (answer, taken, cause) {
        (NO_ANSWER, 0, cause) => Err(if room.iter().all(|byte| *byte == BLANK) {
            cause
        } else {
            0
        }),
        (answer, taken, 0) => Ok((answer as usize, taken)),
        _ => Err(0),
    }
}

/// Whether both readers return the same, and whether there was a section.
fn agree(kind: u32, bytes: &[u8]) -> (bool, bool) {
    let mut room = vec![BLANK; bytes.len()];
    let library = by_library(kind, bytes, &mut room);
    match (
        shortened(
            bytes,
            KINDS[kind as usize],
            Grammar::Builders,
            Grammar::Builders,
        ),
        library,
    ) {
        (Some((encoding, taken)), Ok((length, by))) => (
            taken as u64 == by
                && length == encoding.len()
                && room[..length] == encoding[..]
                && room[length..].iter().all(|byte| *byte == BLANK),
            true,
        ),
        // Padded LEB128 is no error, and allocations do not fail.
        (None, Err(cause)) => ((1..=7).contains(&cause) && cause != 2, false),
        _ => (false, false),
    }
}

fn show(bytes: &[u8]) -> String {
    bytes.iter().map(|byte| format!("{byte:02x}")).collect()
}

fn main() -> ExitCode {
    let args: Vec<u64> = env::args()
        .skip(1)
        .map(|arg| arg.parse().expect("numbers: a seed, and how many inputs"))
        .collect();
    let [seed, count] = args[..] else {
        eprintln!("usage: fuzz SEED INPUTS");
        return ExitCode::from(2);
    };
    let begun = Instant::now();
    let mut random = Random::new(seed);
    let (mut sections, mut differences, mut bytes) = ([0u64; KINDS.len()], 0, 0);
    for number in 0..count {
        let kind = (number % KINDS.len() as u64) as u32;
        let grammar = random.one_of(&GRAMMARS);
        let input = input(&mut random, KINDS[kind as usize], grammar);
        let (is_same, is_section) = agree(kind, &input);
        sections[kind as usize] += u64::from(is_section);
        bytes += input.len();
        if !is_same {
            differences += 1;
            println!("{} {}", KINDS[kind as usize], show(&input));
        }
    }
    for (kind, sections) in KINDS.iter().zip(sections) {
        println!(
            "{kind}: {sections} sections of {}",
            count / KINDS.len() as u64
        );
    }
    println!(
        "seed {seed}: {count} inputs of {bytes} bytes, {differences} differences, {} s",
        begun.elapsed().as_secs()
    );
    if differences == 0 {
        ExitCode::SUCCESS
    } else {
        ExitCode::FAILURE
    }
}
