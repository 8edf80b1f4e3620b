// Written by tools/to-rust from crates/calls/src/instructions.rt: change that.
//! Callers of the sink: the contracts state each byte that they append.

use dolzhytik::fallible::{Sink, Vec};
use dolzhytik::fallible::Allocator;
use dolzhytik::fallible::Result;
use dolzhytik::fallible::{BlockType, Buffer, InstructionSink};

/// Appends the sum of two locals, to any buffer.
///
/// # Proved
///
/// ```text
/// ensures same_reference { sink.new.sink.ghost_name ≡ sink.old.sink.ghost_name }
/// ensures bytes { OnOk result (B.written sink.new.sink.now ≡ B.written sink.old.sink.now ++ 0x20 ∷ 0 ∷ 0x20 ∷ 1 ∷ 0x6A ∷ []) }
/// ```
pub fn sum<B: Buffer>(sink: &mut InstructionSink<'_, B>) -> Result<()> {
    sink.local_get(0)?;
    sink.local_get(1)?;
    sink.i32_add()
}

/// Appends the body of a function of two numbers.
///
/// # Proved
///
/// ```text
/// ensures { OnOk result (bytes.new.items ≡ bytes.old.items ++ 0x20 ∷ 0 ∷ 0x20 ∷ 1 ∷ 0x6A ∷ 0x0B ∷ []) }
/// ```
pub fn append_sum<A: Sink>(bytes: &mut A) -> Result<()> {
    let mut sink = InstructionSink::new(bytes);
    sum(&mut sink)?;
    sink.end()
}

/// Returns a block, in bytes of their own.
///
/// # Proved
///
/// ```text
/// ensures { IfOk result (λ bytes. bytes.items ≡ 0x02 ∷ 0x40 ∷ 0x01 ∷ 0x0B ∷ []) }
/// ```
pub fn block<A: Allocator>(alloc: A) -> Result<Vec<u8, A>> {
    let mut bytes = Vec::new(alloc);
    let mut sink = InstructionSink::new(&mut bytes);
    sink.block(BlockType::Empty)?;
    sink.nop()?;
    sink.end()?;
    Ok(bytes)
}

/// Appends `End`. On an error, the bytes are unchanged.
///
/// # Proved
///
/// ```text
/// ensures ok { OnOk result (bytes.new.items ≡ bytes.old.items ++ 0x0B ∷ []) }
/// ensures err { OnErr result (bytes.new.items ≡ bytes.old.items) }
/// ```
pub fn append_end<A: Sink>(bytes: &mut A) -> Result<()> {
    InstructionSink::new(bytes).end()
}

/// Appends a call through a table. The encoding has the index of the type, and then that of the
/// table.
///
/// # Proved
///
/// ```text
/// ensures { OnOk result (bytes.new.items ≡ bytes.old.items ++ 0x11 ∷ 1 ∷ 2 ∷ []) }
/// ```
pub fn append_call<A: Sink>(bytes: &mut A) -> Result<()> {
    InstructionSink::new(bytes).call_indirect(2, 1)
}
