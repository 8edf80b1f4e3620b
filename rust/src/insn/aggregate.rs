// Written by tools/to-rust from crates/wasm_insn/src/aggregate.rt: change that.
// Written by tools/instructions from tools/instructions.tsv: do not edit.
// Instructions on aggregates and references without immediates: those after the prefix FB.

use crate::insn::instruction::Instruction;
use crate::insn::op::Op;

/// Instructions on aggregates and references without immediates: those after the prefix FB.
///
/// It is a case of [`Instruction`](crate::fallible::Instruction), which has a constant for
/// each.
///
/// # Examples
///
/// ```
/// use dolzhytik::fallible::{Aggregate, Encode, Instruction};
///
/// let instruction: Instruction = Instruction::Aggregate(Aggregate::ArrayLen);
/// let mut bytes = Vec::new();
/// instruction.encode(&mut bytes)?;
/// assert_eq!(bytes, [0xFB, 15]);
/// # Ok::<(), dolzhytik::fallible::Refused>(())
/// ```
#[derive(Clone, Copy, Debug)]
#[non_exhaustive]
pub enum Aggregate {
    /// `array.len` (opcode 0xFB 15), an aggregate instruction that returns the number of elements
    /// of an array.
    ArrayLen = 15,
    /// `any.convert_extern` (opcode 0xFB 26), an aggregate instruction that converts an external
    /// reference to an internal one.
    AnyConvertExtern = 26,
    /// `extern.convert_any` (opcode 0xFB 27), an aggregate instruction that converts an internal
    /// reference to an external one.
    ExternConvertAny = 27,
    /// `ref.i31` (opcode 0xFB 28), an aggregate instruction that makes a reference of the lower 31
    /// bits of an integer.
    RefI31 = 28,
    /// `i31.get_s` (opcode 0xFB 29), an aggregate instruction that reads the integer of 31 bits of
    /// a reference, sign-extended.
    I31GetS = 29,
    /// `i31.get_u` (opcode 0xFB 30), an aggregate instruction that reads the integer of 31 bits of
    /// a reference, zero-extended.
    I31GetU = 30,
}

impl Aggregate {
    /// Returns the opcode, as in the opcode table.
    ///
    /// # Proved
    ///
    /// ```text
    /// ensures { result ≡ Op.Prefixed 0xFB (aggregate_number self) }
    /// ```
    ///
    /// Definitions: [`aggregate_number`](crate::definitions::insn::aggregate::aggregate_number). [How to read clauses](crate::definitions).
    pub fn op(self) -> Op {
        Op::Prefixed(0xFB, self as u32)
    }
}

/// The same instructions as constants of `Instruction`.
impl Instruction<'static> {
    /// `array.len` (opcode 0xFB 15), an aggregate instruction that returns the number of elements
    /// of an array.
    pub const ArrayLen: Self = Instruction::Aggregate(Aggregate::ArrayLen);

    /// `any.convert_extern` (opcode 0xFB 26), an aggregate instruction that converts an external
    /// reference to an internal one.
    pub const AnyConvertExtern: Self = Instruction::Aggregate(Aggregate::AnyConvertExtern);

    /// `extern.convert_any` (opcode 0xFB 27), an aggregate instruction that converts an internal
    /// reference to an external one.
    pub const ExternConvertAny: Self = Instruction::Aggregate(Aggregate::ExternConvertAny);

    /// `ref.i31` (opcode 0xFB 28), an aggregate instruction that makes a reference of the lower 31
    /// bits of an integer.
    pub const RefI31: Self = Instruction::Aggregate(Aggregate::RefI31);

    /// `i31.get_s` (opcode 0xFB 29), an aggregate instruction that reads the integer of 31 bits of
    /// a reference, sign-extended.
    pub const I31GetS: Self = Instruction::Aggregate(Aggregate::I31GetS);

    /// `i31.get_u` (opcode 0xFB 30), an aggregate instruction that reads the integer of 31 bits of
    /// a reference, zero-extended.
    pub const I31GetU: Self = Instruction::Aggregate(Aggregate::I31GetU);
}
