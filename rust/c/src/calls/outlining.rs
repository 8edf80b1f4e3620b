// Written by tools/to-rust from crates/wasm_c/src/outlining.rt: change that.
// Outlines of modules, for C.

use crate::calls::NO_ANSWER;
use crate::calls::listing::number_of;
use dolzhytik::fallible::Global;
use dolzhytik::reader::{Outlined, outline};

/// A section in the outline of a module.
#[derive(Clone, Copy)]
#[repr(C)]
pub struct DzOutlined {
    /// The number of its items, or [`NO_ANSWER`] if it does not decode as its kind, or its items
    /// are not counted.
    pub items: u64,
    /// The offset of the payload in the module, in bytes.
    pub offset: u64,
    /// The offset of a custom section's name in the module, in bytes, or [`NO_ANSWER`] if the
    /// payload does not begin with a name.
    pub name_offset: u64,
    /// The length of the name in bytes, or [`NO_ANSWER`].
    pub name_size: u64,
    /// The length of the payload, in bytes.
    pub size: u32,
    pub id: u32,
}

/// Returns the offset after the LEB128 number at this offset.
///
/// # Asks
///
/// ```text
/// requires { behind_number bytes.now place ≤ length bytes.now }
/// ```
///
/// # Proved
///
/// ```text
/// ensures { result ≡ behind_number bytes.now place }
/// ```
fn end_of_number(bytes: &[u8], place: usize) -> usize {
    let mut last = place;
    while bytes[last] >= 0x80 {
        last += 1;
    }
    last + 1
}

/// # Asks
///
/// ```text
/// requires { IsNamed bytes.now line.now }
/// ```
///
/// # Proved
///
/// ```text
/// ensures { result ≡ section_of bytes.now line.now }
/// ```
fn section(bytes: &[u8], line: &Outlined<'_>) -> DzOutlined {
    let (name_offset, name_size) = match line.name {
        Some(name) => (end_of_number(bytes, line.offset) as u64, name.len() as u64),
        None => (NO_ANSWER, NO_ANSWER),
    };
    DzOutlined {
        items: match line.items {
            Some(items) => u64::from(items),
            None => NO_ANSWER,
        },
        offset: line.offset as u64,
        name_offset,
        name_size,
        size: line.size,
        id: u32::from(line.id),
    }
}

/// Copies a section for each line to the front of `out`, if `out` holds all of them, and returns
/// their number.
///
/// # Asks
///
/// ```text
/// requires { All (IsNamed bytes.now) lines.now }
/// ```
///
/// # Proved
///
/// ```text
/// ensures { Gives (map (section_of bytes.now) lines.now) out.old out.new result }
/// ```
fn put(bytes: &[u8], lines: &[Outlined<'_>], out: &mut [DzOutlined]) -> u64 {
    let count = lines.len();
    if count <= out.len() {
        for i in 0..count {
            out[i] = section(bytes, &lines[i]);
        }
    }
    count as u64
}

/// Lists the sections of a module, whatever their payloads are. Returns their number.
///
/// On an error, `place` is the number of the first section that is not an id and a size-prefixed
/// payload, counted from 1. It is 0 if the bytes do not begin with the header. `cause` is the
/// number of the error, which may be a failed allocation. On success both are 0.
///
/// # Proved
///
/// ```text
/// ensures { Outcome bytes.now out.old out.new place.new cause.new result }
/// ```
pub fn dz_outline(
    alloc: Global,
    bytes: &[u8],
    out: &mut [DzOutlined],
    place: &mut u64,
    cause: &mut u32,
) -> u64 {
    *place = 0;
    *cause = 0;
    match outline(alloc, bytes) {
        Ok(lines) => put(bytes, &lines, out),
        Err((number, fault)) => {
            *place = number as u64;
            *cause = number_of(fault);
            NO_ANSWER
        }
    }
}
