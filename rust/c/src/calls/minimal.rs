// Written by tools/to-rust from crates/wasm_c/src/minimal.rt: change that.
// Minimal encodings of sections, for C.

use dolzhytik::fallible::Vec;
use crate::calls::NO_ANSWER;
use crate::calls::listing::number_of;
use crate::calls::recipes::copied;
use dolzhytik::fallible::Global;
use dolzhytik::reader::{SectionKind, shorten};

/// The number of the cause of a kind that does not exist.
const NO_KIND: u32 = 9;

/// Writes the minimal encoding of the section of a kind at the front of the bytes; both begin at
/// the section's size prefix. Returns its length in bytes.
///
/// `taken` is the length of the section in the input, in bytes. On an error, `cause` is the number
/// of the error; on success it is 0.
///
/// # Proved
///
/// ```text
/// ensures { Outcome kind bytes.now out.old out.new taken.new cause.new result }
/// ```
pub fn dz_shorten(
    alloc: Global,
    kind: u32,
    bytes: &[u8],
    out: &mut [u8],
    taken: &mut u64,
    cause: &mut u32,
) -> u64 {
    *taken = 0;
    *cause = 0;
    let Some(kind) = SectionKind::numbered(kind) else {
        *cause = NO_KIND;
        return NO_ANSWER;
    };
    let mut text = Vec::new(alloc);
    match shorten(kind, bytes, &mut text) {
        Ok(count) => {
            *taken = count as u64;
            copied(&text, out)
        }
        Err(fault) => {
            *cause = number_of(fault);
            NO_ANSWER
        }
    }
}
