// Written by tools/to-rust from crates/wasm_bench/src/decoding.rt: change that.
// The workloads that decode code sections and bodies.

use crate::calls::answers::NO_ANSWER;
use dolzhytik::fallible::Global;
use dolzhytik::reader::DecodeError;
use dolzhytik::reader::{Body, Instructions};
use dolzhytik::reader::{Items, SectionKind, read_section};

/// Returns the number of instructions in all bodies together, or `None` if it does not fit 64 bits.
///
/// # Proved
///
/// ```text
/// ensures { MatchOption result ⊤ (λ n. n ≡ instructions_in (map body_view bodies.now)) }
/// ```
fn instructions(bodies: &[Body]) -> Option<u64> {
    let mut count: u64 = 0;
    for body in bodies {
        count = count.checked_add(body.code.len() as u64)?;
    }
    Some(count)
}

/// Decodes a code section, whose bytes begin at its size prefix, into a list of its bodies, and
/// returns the number of their instructions.
///
/// # Proved
///
/// ```text
/// ensures { (result ≡ no_answer) ⊎ HasRead section.now result }
/// ```
pub fn wb_read(alloc: Global, section: &[u8]) -> u64 {
    match read_section(alloc, SectionKind::Bodies, section) {
        Ok((Items::Bodies(bodies), _)) => instructions(&bodies).unwrap_or(NO_ANSWER),
        _ => NO_ANSWER,
    }
}

/// Returns the number of instructions that a visitor visits.
///
/// # Proved
///
/// ```text
/// ensures { IfOk result (λ n. HasWalked body.now n) }
/// ```
fn walked(alloc: Global, body: &[u8]) -> Result<u64, DecodeError> {
    let (_runs, mut walk) = Instructions::of_body(body, alloc)?;
    let mut count = 0;
    while let Some(_step) = walk.next()? {
        count += 1;
    }
    Ok(count)
}

/// Visits the instructions of a body, whose bytes are those without its size prefix, and returns
/// their number.
///
/// # Proved
///
/// ```text
/// ensures { (result ≡ no_answer) ⊎ HasWalked body.now result }
/// ```
pub fn wb_walk(alloc: Global, body: &[u8]) -> u64 {
    walked(alloc, body).unwrap_or(NO_ANSWER)
}
