// Written by tools/to-rust from crates/calls/src/segments.rt: change that.
//! Copies of data segments, with the bytes of the original.

use dolzhytik::fallible::Vec;
use dolzhytik::fallible::Result;
use dolzhytik::fallible::DataSegment;

/// Returns a copy of a segment whose bytes are an array.
///
/// # Proved
///
/// ```text
/// ensures { IfOk result (λ copy. copy ≡ segment.now) }
/// ```
pub fn copy_of_array<'a>(segment: &DataSegment<'a, [u8; 3]>) -> Result<DataSegment<'a, [u8; 3]>> {
    segment.clone()
}

/// Returns a copy of a segment whose bytes are a slice.
///
/// # Proved
///
/// ```text
/// ensures { IfOk result (λ copy. copy ≡ segment.now) }
/// ```
pub fn copy_of_slice<'a, 'b>(
    segment: &DataSegment<'a, &'b [u8]>,
) -> Result<DataSegment<'a, &'b [u8]>> {
    segment.clone()
}

/// Returns a copy of a segment whose bytes are a vector. The copy has memory of its own.
///
/// # Proved
///
/// ```text
/// ensures mode { IfOk result (λ copy. copy.mode ≡ segment.now.mode) }
/// ensures bytes { IfOk result (λ copy. copy.bytes.items ≡ segment.now.bytes.items) }
/// ```
pub fn copy_of_vector<'a>(segment: &DataSegment<'a, std::vec::Vec<u8>>) -> Result<DataSegment<'a, std::vec::Vec<u8>>> {
    segment.clone()
}
