// Written by tools/to-rust from crates/wasm_c/src/listing.rt: change that.
// Lists of sections, for C.

use crate::calls::NO_ANSWER;
use dolzhytik::fallible::Global;
use dolzhytik::reader::ReadFault;
use dolzhytik::reader::{Listed, list_module};

/// A section in the listing of a module.
#[derive(Clone, Copy)]
#[repr(C)]
pub struct DzSection {
    /// The number of its items, or [`NO_ANSWER`] if they are not counted.
    pub items: u64,
    /// The length of its payload, in bytes.
    pub size: u32,
    pub id: u32,
}

/// Returns the number of an error.
///
/// # Proved
///
/// ```text
/// ensures { result ≡ fault_number fault }
/// ```
pub(crate) fn number_of(fault: ReadFault) -> u32 {
    match fault {
        ReadFault::Ended => 1,
        ReadFault::NotShortest => 2,
        ReadFault::TooLarge => 3,
        ReadFault::UnknownTag => 4,
        ReadFault::UnknownOpcode => 5,
        ReadFault::NotUtf8 => 6,
        ReadFault::SizeMismatch => 7,
        ReadFault::Memory => 8,
        _ => unreachable!("the library has no other case"),
    }
}

/// # Proved
///
/// ```text
/// ensures { result ≡ section_of line.now }
/// ```
fn section(line: &Listed) -> DzSection {
    DzSection {
        items: match line.items {
            Some(items) => u64::from(items),
            None => NO_ANSWER,
        },
        size: line.size,
        id: u32::from(line.id),
    }
}

/// Copies a section for each line to the front of `out`, if `out` holds all of them, and returns
/// their number.
///
/// # Proved
///
/// ```text
/// ensures { Gives (map section_of lines.now) out.old out.new result }
/// ```
fn put(lines: &[Listed], out: &mut [DzSection]) -> u64 {
    let count = lines.len();
    if count <= out.len() {
        for i in 0..count {
            out[i] = section(&lines[i]);
        }
    }
    count as u64
}

/// Lists the sections of a module, in order. Returns their number.
///
/// On an error, `place` is the number of the section at which the bytes stop being a module,
/// counted from 1. It is 0 if they do not begin with the header. `cause` is the number of the
/// error, which may be a failed allocation. On success both are 0.
///
/// # Proved
///
/// ```text
/// ensures { Outcome bytes.now out.old out.new place.new cause.new result }
/// ```
pub fn dz_list(
    alloc: Global,
    bytes: &[u8],
    out: &mut [DzSection],
    place: &mut u64,
    cause: &mut u32,
) -> u64 {
    *place = 0;
    *cause = 0;
    match list_module(alloc, bytes) {
        Ok(lines) => put(&lines, out),
        Err((number, fault)) => {
            *place = number as u64;
            *cause = number_of(fault);
            NO_ANSWER
        }
    }
}
