// Written by tools/to-rust from crates/read_back/src/instructions.rt: change that.
//! A caller that encodes a decoded instruction again.

use dolzhytik::fallible::Sink;
use dolzhytik::fallible::Allocator;
use dolzhytik::fallible::{Encode, Result};
use dolzhytik::reader::Plain;
use dolzhytik::reader::instruction_of;

/// Appends the encoding of a decoded instruction, as that of the value that builders take. Returns
/// whether the opcode and its arguments are an instruction.
///
/// # Proved
///
/// ```text
/// ensures appended { IfOk result (λ is. is ≡ true → sink.new.items ≡ sink.old.items ++ plain_encoding (plain_view plain.now)) }
/// ensures other { IfOk result (λ is. is ≡ false → IsNoInstruction plain.now.op (plain_view plain.now).arguments) }
/// ```
pub fn append_again<A: Allocator, B: Sink>(
    plain: &Plain<A>,
    sink: &mut B,
) -> Result<bool> {
    let Some(instruction) = instruction_of(plain.op, &plain.args) else {
        return Ok(false);
    };
    instruction.encode(sink)?;
    Ok(true)
}
