// Written by tools/to-rust from crates/calls/src/operands.rt: change that.
//! Callers of the instruction visitor that read operands, and prove their results.

use dolzhytik::fallible::Vec;
use dolzhytik::fallible::Allocator;
use dolzhytik::reader::DecodeError;
use dolzhytik::fallible::Result;
use dolzhytik::reader::{Decoded, Instructions, Members};
use dolzhytik::fallible::Op;
use dolzhytik::reader::Operands;

/// Returns whether the instruction is a call of this function.
///
/// # Proved
///
/// ```text
/// ensures { (xs : List Argument) → AreOperands decoded.entry.operands xs → result ≡ is_call function (record { op = decoded.entry.op; arguments = xs }) }
/// ```
fn is_call_of(decoded: Decoded, function: u32) -> bool {
    match (decoded.op, decoded.operands) {
        (Op::Byte(0x10), Operands::U32(index)) => index == function,
        _ => false,
    }
}

/// Returns how many instructions of a body are calls of this function. The bytes are those of the
/// body without its size prefix.
///
/// # Proved
///
/// ```text
/// ensures found { IfOk result (λ n. (x : Body) × body padded bytes.now x × (count_by (is_call function) x.code ≡ n)) }
/// ensures none { IfErr result (λ e. e.cause ≢ Memory → RejectsWhole body padded bytes.now) }
/// ```
pub fn count_calls<A: Allocator + Copy>(
    bytes: &[u8],
    function: u32,
    alloc: A,
) -> Result<usize, DecodeError> {
    let (_runs, mut instructions) = Instructions::of_body(bytes, alloc)?;
    let mut count = 0;
    while let Some(decoded) = instructions.next()? {
        if is_call_of(decoded, function) {
            count += 1;
        }
    }
    Ok(count)
}

/// Returns the labels at the front of the operands of `br_table`, and the bytes after them.
///
/// # Proved
///
/// ```text
/// ensures found { IfOk result (λ x. Decodes (vec u32) standard bytes.now x.0.items x.1.now) }
/// ensures none { IfErr result (λ e. e.cause ≢ Memory → Rejects (vec u32) standard bytes.now) }
/// ```
pub fn labels_of<'a, A: Allocator + Copy>(
    bytes: &'a [u8],
    alloc: A,
) -> Result<(Vec<u32, A>, &'a [u8]), DecodeError> {
    let mut members = Members::<u32, A>::new(bytes, alloc)?;
    let mut labels = Vec::new(alloc);
    while let Some(label) = members.next() {
        labels.push(label?)?;
    }
    Ok((labels, members.rest()))
}
