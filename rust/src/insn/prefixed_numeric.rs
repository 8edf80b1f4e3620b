// Written by tools/to-rust from crates/wasm_insn/src/prefixed_numeric.rt: change that.
// Written by tools/instructions from tools/instructions.tsv: do not edit.
// Numeric instructions after the prefix FC: truncations that saturate, and wide arithmetic.

use crate::insn::instruction::Instruction;
use crate::insn::op::Op;

/// Numeric instructions after the prefix FC: truncations that saturate, and wide arithmetic.
///
/// It is a case of [`Instruction`](crate::fallible::Instruction), which has a constant for
/// each.
///
/// # Examples
///
/// ```
/// use dolzhytik::fallible::{Encode, Instruction, PrefixedNumeric};
///
/// let instruction: Instruction =
///     Instruction::PrefixedNumeric(PrefixedNumeric::I32TruncSatF64U);
/// let mut bytes = Vec::new();
/// instruction.encode(&mut bytes)?;
/// assert_eq!(bytes, [0xFC, 3]);
/// # Ok::<(), dolzhytik::fallible::Refused>(())
/// ```
#[derive(Clone, Copy, Debug)]
#[non_exhaustive]
pub enum PrefixedNumeric {
    /// `i32.trunc_sat_f32_s` (opcode 0xFC 0), a numeric instruction that converts a float to an
    /// integer, and saturates.
    I32TruncSatF32S = 0,
    /// `i32.trunc_sat_f32_u` (opcode 0xFC 1), a numeric instruction that converts a float to an
    /// integer, and saturates.
    I32TruncSatF32U = 1,
    /// `i32.trunc_sat_f64_s` (opcode 0xFC 2), a numeric instruction that converts a float to an
    /// integer, and saturates.
    I32TruncSatF64S = 2,
    /// `i32.trunc_sat_f64_u` (opcode 0xFC 3), a numeric instruction that converts a float to an
    /// integer, and saturates.
    I32TruncSatF64U = 3,
    /// `i64.trunc_sat_f32_s` (opcode 0xFC 4), a numeric instruction that converts a float to an
    /// integer, and saturates.
    I64TruncSatF32S = 4,
    /// `i64.trunc_sat_f32_u` (opcode 0xFC 5), a numeric instruction that converts a float to an
    /// integer, and saturates.
    I64TruncSatF32U = 5,
    /// `i64.trunc_sat_f64_s` (opcode 0xFC 6), a numeric instruction that converts a float to an
    /// integer, and saturates.
    I64TruncSatF64S = 6,
    /// `i64.trunc_sat_f64_u` (opcode 0xFC 7), a numeric instruction that converts a float to an
    /// integer, and saturates.
    I64TruncSatF64U = 7,
    /// `i64.add128` (opcode 0xFC 19), a numeric instruction of the wide arithmetic proposal that
    /// adds two integers of 128 bits.
    I64Add128 = 19,
    /// `i64.sub128` (opcode 0xFC 20), a numeric instruction of the wide arithmetic proposal that
    /// subtracts two integers of 128 bits.
    I64Sub128 = 20,
    /// `i64.mul_wide_s` (opcode 0xFC 21), a numeric instruction of the wide arithmetic proposal
    /// that multiplies two integers to 128 bits.
    I64MulWideS = 21,
    /// `i64.mul_wide_u` (opcode 0xFC 22), a numeric instruction of the wide arithmetic proposal
    /// that multiplies two integers to 128 bits.
    I64MulWideU = 22,
}

impl PrefixedNumeric {
    /// Returns the opcode, as in the opcode table.
    ///
    /// # Proved
    ///
    /// ```text
    /// ensures { result ≡ Op.Prefixed 0xFC (prefixed_numeric_number self) }
    /// ```
    ///
    /// Definitions: [`prefixed_numeric_number`](crate::definitions::insn::prefixed_numeric::prefixed_numeric_number). [How to read clauses](crate::definitions).
    pub fn op(self) -> Op {
        Op::Prefixed(0xFC, self as u32)
    }
}

/// The same instructions as constants of `Instruction`.
impl Instruction<'static> {
    /// `i32.trunc_sat_f32_s` (opcode 0xFC 0), a numeric instruction that converts a float to an
    /// integer, and saturates.
    pub const I32TruncSatF32S: Self = Instruction::PrefixedNumeric(
        PrefixedNumeric::I32TruncSatF32S,
    );

    /// `i32.trunc_sat_f32_u` (opcode 0xFC 1), a numeric instruction that converts a float to an
    /// integer, and saturates.
    pub const I32TruncSatF32U: Self = Instruction::PrefixedNumeric(
        PrefixedNumeric::I32TruncSatF32U,
    );

    /// `i32.trunc_sat_f64_s` (opcode 0xFC 2), a numeric instruction that converts a float to an
    /// integer, and saturates.
    pub const I32TruncSatF64S: Self = Instruction::PrefixedNumeric(
        PrefixedNumeric::I32TruncSatF64S,
    );

    /// `i32.trunc_sat_f64_u` (opcode 0xFC 3), a numeric instruction that converts a float to an
    /// integer, and saturates.
    pub const I32TruncSatF64U: Self = Instruction::PrefixedNumeric(
        PrefixedNumeric::I32TruncSatF64U,
    );

    /// `i64.trunc_sat_f32_s` (opcode 0xFC 4), a numeric instruction that converts a float to an
    /// integer, and saturates.
    pub const I64TruncSatF32S: Self = Instruction::PrefixedNumeric(
        PrefixedNumeric::I64TruncSatF32S,
    );

    /// `i64.trunc_sat_f32_u` (opcode 0xFC 5), a numeric instruction that converts a float to an
    /// integer, and saturates.
    pub const I64TruncSatF32U: Self = Instruction::PrefixedNumeric(
        PrefixedNumeric::I64TruncSatF32U,
    );

    /// `i64.trunc_sat_f64_s` (opcode 0xFC 6), a numeric instruction that converts a float to an
    /// integer, and saturates.
    pub const I64TruncSatF64S: Self = Instruction::PrefixedNumeric(
        PrefixedNumeric::I64TruncSatF64S,
    );

    /// `i64.trunc_sat_f64_u` (opcode 0xFC 7), a numeric instruction that converts a float to an
    /// integer, and saturates.
    pub const I64TruncSatF64U: Self = Instruction::PrefixedNumeric(
        PrefixedNumeric::I64TruncSatF64U,
    );

    /// `i64.add128` (opcode 0xFC 19), a numeric instruction of the wide arithmetic proposal that
    /// adds two integers of 128 bits.
    pub const I64Add128: Self = Instruction::PrefixedNumeric(PrefixedNumeric::I64Add128);

    /// `i64.sub128` (opcode 0xFC 20), a numeric instruction of the wide arithmetic proposal that
    /// subtracts two integers of 128 bits.
    pub const I64Sub128: Self = Instruction::PrefixedNumeric(PrefixedNumeric::I64Sub128);

    /// `i64.mul_wide_s` (opcode 0xFC 21), a numeric instruction of the wide arithmetic proposal
    /// that multiplies two integers to 128 bits.
    pub const I64MulWideS: Self = Instruction::PrefixedNumeric(PrefixedNumeric::I64MulWideS);

    /// `i64.mul_wide_u` (opcode 0xFC 22), a numeric instruction of the wide arithmetic proposal
    /// that multiplies two integers to 128 bits.
    pub const I64MulWideU: Self = Instruction::PrefixedNumeric(PrefixedNumeric::I64MulWideU);
}
