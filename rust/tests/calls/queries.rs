// Written by tools/to-rust from crates/calls/src/queries.rt: change that.
//! Queries of builders: counts and entries.

use dolzhytik::fallible::Allocator;
use dolzhytik::fallible::Pieces;
use dolzhytik::fallible::CodeSection;
use dolzhytik::fallible::{NameMap, NameSection};
use dolzhytik::fallible::TypeSection;

/// Returns the number of bodies.
///
/// # Proved
///
/// ```text
/// ensures { result ≡ length code.now }
/// ```
pub fn count_of_bodies<A: Allocator>(code: &CodeSection<A>) -> u32 {
    code.len()
}

/// Returns the first body, with its size prefix.
///
/// # Proved
///
/// ```text
/// ensures { option_copied result ≡ slice_get code.now 0 }
/// ```
pub fn first_body<A: Allocator>(code: &CodeSection<A>) -> Option<&[u8]> {
    code.piece(0)
}

/// Returns `true` if no type is defined.
///
/// # Proved
///
/// ```text
/// ensures { IsTrue result ↔ (length types.now ≡ 0) }
/// ```
pub fn has_no_types<A: Allocator>(types: &TypeSection<A>) -> bool {
    types.is_empty()
}

/// Returns `true` if there are no subsections.
///
/// # Proved
///
/// ```text
/// ensures { IsTrue result ↔ (length names.now ≡ 0) }
/// ```
pub fn has_no_names<A: Allocator>(names: &NameSection<A>) -> bool {
    names.is_empty()
}

/// Returns the number of names in a map.
///
/// # Proved
///
/// ```text
/// ensures { result ≡ length map.now }
/// ```
pub fn count_of_names<A: Allocator>(map: &NameMap<A>) -> u32 {
    map.len()
}

/// Returns `true` if a map has no names.
///
/// # Proved
///
/// ```text
/// ensures { IsTrue result ↔ (length map.now ≡ 0) }
/// ```
pub fn is_without_names<A: Allocator>(map: &NameMap<A>) -> bool {
    map.is_empty()
}

/// Returns the number of bytes of all entries.
///
/// # Proved
///
/// ```text
/// ensures { result ≡ length (joined pieces.now) }
/// ```
pub fn length_of_pieces<A: Allocator>(pieces: &Pieces<A>) -> usize {
    pieces.raw_len()
}
