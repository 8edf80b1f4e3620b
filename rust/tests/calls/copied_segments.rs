// Written by tools/to-rust from crates/calls/src/copied_segments.rt: change that.
//! Copies of entries of core sections.

use dolzhytik::fallible::Allocator;
use dolzhytik::fallible::Result;
use dolzhytik::fallible::{DataSegmentMode, ElementMode, ElementSegment, Elements, FunctionSection, Imports};

/// Returns a function section of the same entries.
///
/// # Proved
///
/// ```text
/// ensures { IfOk result (λ copy. copy ≡ functions.now) }
/// ```
pub fn copied_functions<A: Allocator + Copy>(
    functions: &FunctionSection<A>,
) -> Result<FunctionSection<A>> {
    functions.clone()
}

/// Returns the same import or group of imports.
///
/// # Proved
///
/// ```text
/// ensures { IfOk result (λ copy. imports_item copy ≡ imports_item imports.now) }
/// ```
pub fn copied_imports<'a, A: Allocator + Copy>(imports: &Imports<'a, A>) -> Result<Imports<'a, A>> {
    imports.clone()
}

/// Returns the same mode of a data segment.
///
/// # Proved
///
/// ```text
/// ensures { IfOk result (λ copy. copy ≡ mode.now) }
/// ```
pub fn copied_data_mode<'a, A: Allocator>(
    mode: &DataSegmentMode<'a, A>,
) -> Result<DataSegmentMode<'a, A>> {
    mode.clone()
}

/// Returns the same mode of an element segment.
///
/// # Proved
///
/// ```text
/// ensures { IfOk result (λ copy. copy ≡ offset.now) }
/// ```
pub fn copied_element_mode<'a, A: Allocator>(
    offset: &ElementMode<'a, A>,
) -> Result<ElementMode<'a, A>> {
    offset.clone()
}

/// Returns references to the same functions, or by the same expressions.
///
/// # Proved
///
/// ```text
/// ensures { IfOk result (λ copy. list_in copy ≡ list_in elements.now) }
/// ```
pub fn copied_elements<'a, A: Allocator + Copy>(
    elements: &Elements<'a, A>,
) -> Result<Elements<'a, A>> {
    elements.clone()
}

/// Returns a segment of the same mode and references.
///
/// # Proved
///
/// ```text
/// ensures { IfOk result (λ copy. segment_in copy ≡ segment_in segment.now) }
/// ```
pub fn copied_element_segment<'a, A: Allocator + Copy>(
    segment: &ElementSegment<'a, A>,
) -> Result<ElementSegment<'a, A>> {
    segment.clone()
}
