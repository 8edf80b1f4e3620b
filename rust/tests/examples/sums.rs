// Written by tools/to-rust from crates/examples/src/sums.rt: change that.
// Global sections whose initializer is a sum.

use dolzhytik::fallible::Vec;
use dolzhytik::fallible::Allocator;
use dolzhytik::fallible::{Encode, Result, ValType};
use dolzhytik::fallible::ConstExpr;
use dolzhytik::fallible::{GlobalSection, GlobalType};

const CONSTANT: GlobalType = GlobalType {
    val_type: ValType::I32,
    mutable: false,
    shared: false,
};

/// Returns the sum of the global of this index and 5.
///
/// # Proved
///
/// ```text
/// ensures { IfOk result (λ init. StoresInstructions init (sum_code index)) }
/// ```
fn sum_of<A: Allocator + Copy>(alloc: A, index: u32) -> Result<ConstExpr<A>> {
    let both = ConstExpr::global_get(alloc, index)?.with_i32_const(5)?;
    let sum = both.with_i32_add()?;
    Ok(sum)
}

/// Appends a global section of one global, whose initializer is the sum of the global of this index
/// and 5.
///
/// # Proved
///
/// ```text
/// ensures { OnOk result (GainsDecoding (counted_format global_item) (sum_global index ∷ []) sink.old.items sink.new.items) }
/// ```
pub fn encode_sum<A: Allocator + Copy>(sink: &mut Vec<u8, A>, index: u32) -> Result<()> {
    let alloc = *sink.allocator();
    let mut section = GlobalSection::new(alloc);
    section.global(CONSTANT, &sum_of(alloc, index)?)?;
    section.encode(sink)
}

/// Appends a global section of that global, and of one that is already encoded, whose number is
/// padded.
///
/// # Proved
///
/// ```text
/// ensures { OnOk result (GainsDecodingPadded (counted_format global_item) (sum_global index ∷ number (pos 0) ∷ []) sink.old.items sink.new.items) }
/// ```
pub fn encode_sum_and_padded<A: Allocator + Copy>(sink: &mut Vec<u8, A>, index: u32) -> Result<()> {
    let alloc = *sink.allocator();
    let mut section = GlobalSection::new(alloc);
    section.global(CONSTANT, &sum_of(alloc, index)?)?;
    section.raw(&[0x7F, 0x00, 0x41, 0x80, 0x00, 0x0B])?;
    section.encode(sink)
}
