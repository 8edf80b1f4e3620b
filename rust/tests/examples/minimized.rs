// Written by tools/to-rust from crates/examples/src/minimized.rt: change that.
//! Callers that minimize values while they are decoded.

use dolzhytik::fallible::{Sink, Vec};
use dolzhytik::fallible::Allocator;
use dolzhytik::reader::{DecodeError, Standard, Walk};
use dolzhytik::fallible::RefType;
use dolzhytik::reader::shorten_body;
use dolzhytik::reader::{ReadError, Section};

/// Minimizes a reference type in the standard's grammar. A nullable reference to an abstract type
/// becomes one byte, whether it had one byte or two.
///
/// # Proved
///
/// ```text
/// ensures one { OnOk result ((ty : AbstractHeapType) (rest : List ℕ) → Decodes ref_type standard bytes.now (nullable_to (Abstract false ty)) rest → sink.new.items ≡ sink.old.items ++ abstract_code ty ∷ []) }
/// ensures accepted { IfErr result (λ e. e.cause ≢ Memory → (r : Reference) (rest : List ℕ) → Decodes ref_type standard bytes.now r rest → ⊥) }
/// ```
pub fn one_byte_reference<A: Allocator + Copy>(
    alloc: A,
    bytes: &[u8],
    sink: &mut Vec<u8, A>,
) -> Result<(), DecodeError> {
    let _rest = <RefType as Walk<Standard>>::walk(bytes, alloc, sink)?;
    Ok(())
}

/// Minimizes a function body. The output is the one minimal encoding of the body that the bytes
/// encode, with its size prefix.
///
/// # Proved
///
/// ```text
/// ensures same { OnOk result ((x : Body) (encoding : List ℕ) → body padded bytes.now x → size_prefixed body minimal encoding x → sink.new.items ≡ sink.old.items ++ encoding) }
/// ensures accepted { IfErr result (λ e. e.cause ≢ Memory → (x : Body) → body padded bytes.now x → ⊥) }
/// ensures err { OnErr result (sink.new.items ≡ sink.old.items) }
/// ```
pub fn minimal_body<A: Allocator + Copy>(
    alloc: A,
    bytes: &[u8],
    sink: &mut Vec<u8, A>,
) -> Result<(), DecodeError> {
    shorten_body(bytes, alloc, sink)
}

/// Minimizes the payload of a section. The output decodes to the same items of the section's kind.
///
/// # Asks
///
/// ```text
/// requires { sink.old.items ≡ [] }
/// ```
///
/// # Proved
///
/// ```text
/// ensures same { OnOk result ((x : Contents) → content (section_kind_of section.now.section) standard section.now.section.payload x → content (section_kind_of section.now.section) standard sink.new.items x) }
/// ensures accepted { IfErr result (λ e. e.cause ≢ Memory → (x : Contents) → content (section_kind_of section.now.section) standard section.now.section.payload x → ⊥) }
/// ensures err { OnErr result (sink.new.items ≡ []) }
/// ```
pub fn minimal_payload<A: Allocator + Copy, B: Sink>(
    section: &Section<'_, A>,
    sink: &mut B,
) -> Result<(), ReadError> {
    section.minimize(sink)
}
