// Written by tools/to-rust from crates/calls/src/raw_segments.rt: change that.
//! Entries that are already encoded: a segment, and a type.

use dolzhytik::fallible::Allocator;
use dolzhytik::fallible::Result;
use dolzhytik::fallible::ElementSection;
use dolzhytik::fallible::TypeSection;

/// Adds an element segment of these bytes.
///
/// # Proved
///
/// ```text
/// ensures { OnOk result (section.new ≡ section.old ++ segment.now ∷ []) }
/// ```
pub fn add_raw_elements<A: Allocator>(section: &mut ElementSection<A>, segment: &[u8]) -> Result<()> {
    section.raw(segment)
}

/// Adds a type of these bytes.
///
/// # Proved
///
/// ```text
/// ensures { OnOk result (section.new ≡ section.old ++ entry.now ∷ []) }
/// ```
pub fn add_raw_type<A: Allocator>(section: &mut TypeSection<A>, entry: &[u8]) -> Result<()> {
    section.raw(entry)
}
