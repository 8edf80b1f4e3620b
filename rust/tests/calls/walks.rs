// Written by tools/to-rust from crates/calls/src/walks.rt: change that.
//! Callers of the instruction visitor, which prove their results.

use dolzhytik::fallible::Allocator;
use dolzhytik::reader::{DecodeError, ReadFault};
use dolzhytik::reader::Instructions;
use dolzhytik::fallible::laws::code as laws;

/// Returns the number of instructions in a body. The bytes are those of the body without its size
/// prefix.
///
/// # Proved
///
/// ```text
/// ensures found { IfOk result (λ n. (x : Body) × body padded bytes.now x × (length x.code ≡ n)) }
/// ensures none { IfErr result (λ e. e.cause ≢ Memory → RejectsWhole body padded bytes.now) }
/// ```
pub fn count_instructions<A: Allocator + Copy>(bytes: &[u8], alloc: A) -> Result<usize, DecodeError> {
    let (_runs, mut instructions) = Instructions::of_body(bytes, alloc)?;
    let mut count = 0;
    while let Some(_step) = instructions.next()? {
        count += 1;
    }
    Ok(count)
}

/// Returns the offset after the first `count` instructions of a body. `Function::byte_len` returns
/// the same after these are added. The bytes are those of the body without its size prefix.
///
/// # Proved
///
/// ```text
/// ensures { IfOk result (λ offset. (front more : List ℕ) (x : Body) → body padded front x → length x.code ≡ count → bytes.now ≡ front ++ more → offset ≡ length front) }
/// ```
pub fn offset_after<A: Allocator + Copy>(
    bytes: &[u8],
    count: usize,
    alloc: A,
) -> Result<usize, DecodeError> {
    let (_runs, mut instructions) = Instructions::of_body(bytes, alloc)?;
    laws::offsets();
    for _taken in 0..count {
        let Some(_step) = instructions.next()? else {
            return Err(ReadFault::Ended.at(instructions.rest()));
        };
    }
    Ok(instructions.offset())
}
