// Written by tools/to-rust from crates/calls/src/grammars.rt: change that.
//! Callers that decode one byte in each of the two grammars.

use dolzhytik::fallible::Allocator;
use dolzhytik::reader::{DecodeError, Padded, Readable, Standard};
use dolzhytik::fallible::RefType;
use dolzhytik::fallible::laws::base as laws;
use dolzhytik::fallible::MemArg;

/// Decodes the byte 69 in the standard's grammar, where it is `exnref`.
///
/// # Proved
///
/// ```text
/// ensures { IfOk result (λ ty. ty ≡ nullable_abstract Exn) }
/// ```
pub fn exception_reference<A: Allocator + Copy>(alloc: A) -> Result<RefType, DecodeError> {
    laws::types();
    laws::standard_types();
    let (ty, _rest) = <RefType as Readable<'_, A, Standard>>::read(&[0x69], alloc)?;
    Ok(ty)
}

/// Decodes a memory argument that states memory 0, in the standard's grammar: the alignment with
/// bit 6, the index, and the offset.
///
/// # Proved
///
/// ```text
/// ensures { IfOk result (λ memory. memory ≡ memory_0 2 5) }
/// ```
pub fn explicit_memory<A: Allocator + Copy>(alloc: A) -> Result<MemArg, DecodeError> {
    dolzhytik::fallible::laws::immediates::immediates();
    dolzhytik::fallible::laws::immediates::standard();
    let (memory, _rest) = <MemArg as Readable<'_, A, Standard>>::read(&[0x42, 0x00, 0x05], alloc)?;
    Ok(memory)
}

/// Decodes the byte 69 in the builders' grammar, where it is no type.
///
/// # Proved
///
/// ```text
/// ensures { IfOk result (λ _. ⊥) }
/// ```
pub fn no_exception_reference<A: Allocator + Copy>(alloc: A) -> Result<RefType, DecodeError> {
    laws::standard_types();
    let (ty, _rest) = <RefType as Readable<'_, A, Padded>>::read(&[0x69], alloc)?;
    Ok(ty)
}
