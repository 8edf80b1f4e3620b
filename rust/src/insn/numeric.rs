// Written by tools/to-rust from crates/wasm_insn/src/numeric.rt: change that.
// Written by tools/instructions from tools/instructions.tsv: do not edit.
// Numeric instructions: the one-byte opcodes 45 to C4.

use crate::insn::instruction::Instruction;
use crate::insn::op::Op;

/// Numeric instructions: the one-byte opcodes 45 to C4.
///
/// It is a case of [`Instruction`](crate::fallible::Instruction), which has a constant for
/// each.
///
/// # Examples
///
/// ```
/// use dolzhytik::fallible::{Encode, Instruction, Numeric};
///
/// let add: Instruction = Instruction::Numeric(Numeric::I32Add);
/// let mut bytes = Vec::new();
/// add.encode(&mut bytes)?;
/// Instruction::I32Add.encode(&mut bytes)?;
/// assert_eq!(bytes, [0x6A, 0x6A]);
/// # Ok::<(), dolzhytik::fallible::Refused>(())
/// ```
#[derive(Clone, Copy, Debug)]
#[non_exhaustive]
pub enum Numeric {
    /// `i32.eqz` (opcode 0x45), a numeric instruction that tests whether an integer is zero.
    I32Eqz = 0x45,
    /// `i32.eq` (opcode 0x46), a numeric instruction that compares two numbers.
    I32Eq = 0x46,
    /// `i32.ne` (opcode 0x47), a numeric instruction that compares two numbers.
    I32Ne = 0x47,
    /// `i32.lt_s` (opcode 0x48), a numeric instruction that compares two numbers.
    I32LtS = 0x48,
    /// `i32.lt_u` (opcode 0x49), a numeric instruction that compares two numbers.
    I32LtU = 0x49,
    /// `i32.gt_s` (opcode 0x4A), a numeric instruction that compares two numbers.
    I32GtS = 0x4A,
    /// `i32.gt_u` (opcode 0x4B), a numeric instruction that compares two numbers.
    I32GtU = 0x4B,
    /// `i32.le_s` (opcode 0x4C), a numeric instruction that compares two numbers.
    I32LeS = 0x4C,
    /// `i32.le_u` (opcode 0x4D), a numeric instruction that compares two numbers.
    I32LeU = 0x4D,
    /// `i32.ge_s` (opcode 0x4E), a numeric instruction that compares two numbers.
    I32GeS = 0x4E,
    /// `i32.ge_u` (opcode 0x4F), a numeric instruction that compares two numbers.
    I32GeU = 0x4F,
    /// `i64.eqz` (opcode 0x50), a numeric instruction that tests whether an integer is zero.
    I64Eqz = 0x50,
    /// `i64.eq` (opcode 0x51), a numeric instruction that compares two numbers.
    I64Eq = 0x51,
    /// `i64.ne` (opcode 0x52), a numeric instruction that compares two numbers.
    I64Ne = 0x52,
    /// `i64.lt_s` (opcode 0x53), a numeric instruction that compares two numbers.
    I64LtS = 0x53,
    /// `i64.lt_u` (opcode 0x54), a numeric instruction that compares two numbers.
    I64LtU = 0x54,
    /// `i64.gt_s` (opcode 0x55), a numeric instruction that compares two numbers.
    I64GtS = 0x55,
    /// `i64.gt_u` (opcode 0x56), a numeric instruction that compares two numbers.
    I64GtU = 0x56,
    /// `i64.le_s` (opcode 0x57), a numeric instruction that compares two numbers.
    I64LeS = 0x57,
    /// `i64.le_u` (opcode 0x58), a numeric instruction that compares two numbers.
    I64LeU = 0x58,
    /// `i64.ge_s` (opcode 0x59), a numeric instruction that compares two numbers.
    I64GeS = 0x59,
    /// `i64.ge_u` (opcode 0x5A), a numeric instruction that compares two numbers.
    I64GeU = 0x5A,
    /// `f32.eq` (opcode 0x5B), a numeric instruction that compares two numbers.
    F32Eq = 0x5B,
    /// `f32.ne` (opcode 0x5C), a numeric instruction that compares two numbers.
    F32Ne = 0x5C,
    /// `f32.lt` (opcode 0x5D), a numeric instruction that compares two numbers.
    F32Lt = 0x5D,
    /// `f32.gt` (opcode 0x5E), a numeric instruction that compares two numbers.
    F32Gt = 0x5E,
    /// `f32.le` (opcode 0x5F), a numeric instruction that compares two numbers.
    F32Le = 0x5F,
    /// `f32.ge` (opcode 0x60), a numeric instruction that compares two numbers.
    F32Ge = 0x60,
    /// `f64.eq` (opcode 0x61), a numeric instruction that compares two numbers.
    F64Eq = 0x61,
    /// `f64.ne` (opcode 0x62), a numeric instruction that compares two numbers.
    F64Ne = 0x62,
    /// `f64.lt` (opcode 0x63), a numeric instruction that compares two numbers.
    F64Lt = 0x63,
    /// `f64.gt` (opcode 0x64), a numeric instruction that compares two numbers.
    F64Gt = 0x64,
    /// `f64.le` (opcode 0x65), a numeric instruction that compares two numbers.
    F64Le = 0x65,
    /// `f64.ge` (opcode 0x66), a numeric instruction that compares two numbers.
    F64Ge = 0x66,
    /// `i32.clz` (opcode 0x67), a numeric instruction that counts the leading zero bits of an
    /// integer.
    I32Clz = 0x67,
    /// `i32.ctz` (opcode 0x68), a numeric instruction that counts the trailing zero bits of an
    /// integer.
    I32Ctz = 0x68,
    /// `i32.popcnt` (opcode 0x69), a numeric instruction that counts the one bits of an integer.
    I32Popcnt = 0x69,
    /// `i32.add` (opcode 0x6A), a numeric instruction that adds two integers.
    I32Add = 0x6A,
    /// `i32.sub` (opcode 0x6B), a numeric instruction that subtracts two integers.
    I32Sub = 0x6B,
    /// `i32.mul` (opcode 0x6C), a numeric instruction that multiplies two integers.
    I32Mul = 0x6C,
    /// `i32.div_s` (opcode 0x6D), a numeric instruction that divides two integers.
    I32DivS = 0x6D,
    /// `i32.div_u` (opcode 0x6E), a numeric instruction that divides two integers.
    I32DivU = 0x6E,
    /// `i32.rem_s` (opcode 0x6F), a numeric instruction that computes the remainder of two
    /// integers.
    I32RemS = 0x6F,
    /// `i32.rem_u` (opcode 0x70), a numeric instruction that computes the remainder of two
    /// integers.
    I32RemU = 0x70,
    /// `i32.and` (opcode 0x71), a numeric instruction that computes the bitwise and of two
    /// integers.
    I32And = 0x71,
    /// `i32.or` (opcode 0x72), a numeric instruction that computes the bitwise or of two integers.
    I32Or = 0x72,
    /// `i32.xor` (opcode 0x73), a numeric instruction that computes the bitwise exclusive or of two
    /// integers.
    I32Xor = 0x73,
    /// `i32.shl` (opcode 0x74), a numeric instruction that shifts an integer to the left.
    I32Shl = 0x74,
    /// `i32.shr_s` (opcode 0x75), a numeric instruction that shifts an integer to the right.
    I32ShrS = 0x75,
    /// `i32.shr_u` (opcode 0x76), a numeric instruction that shifts an integer to the right.
    I32ShrU = 0x76,
    /// `i32.rotl` (opcode 0x77), a numeric instruction that rotates an integer to the left.
    I32Rotl = 0x77,
    /// `i32.rotr` (opcode 0x78), a numeric instruction that rotates an integer to the right.
    I32Rotr = 0x78,
    /// `i64.clz` (opcode 0x79), a numeric instruction that counts the leading zero bits of an
    /// integer.
    I64Clz = 0x79,
    /// `i64.ctz` (opcode 0x7A), a numeric instruction that counts the trailing zero bits of an
    /// integer.
    I64Ctz = 0x7A,
    /// `i64.popcnt` (opcode 0x7B), a numeric instruction that counts the one bits of an integer.
    I64Popcnt = 0x7B,
    /// `i64.add` (opcode 0x7C), a numeric instruction that adds two integers.
    I64Add = 0x7C,
    /// `i64.sub` (opcode 0x7D), a numeric instruction that subtracts two integers.
    I64Sub = 0x7D,
    /// `i64.mul` (opcode 0x7E), a numeric instruction that multiplies two integers.
    I64Mul = 0x7E,
    /// `i64.div_s` (opcode 0x7F), a numeric instruction that divides two integers.
    I64DivS = 0x7F,
    /// `i64.div_u` (opcode 0x80), a numeric instruction that divides two integers.
    I64DivU = 0x80,
    /// `i64.rem_s` (opcode 0x81), a numeric instruction that computes the remainder of two
    /// integers.
    I64RemS = 0x81,
    /// `i64.rem_u` (opcode 0x82), a numeric instruction that computes the remainder of two
    /// integers.
    I64RemU = 0x82,
    /// `i64.and` (opcode 0x83), a numeric instruction that computes the bitwise and of two
    /// integers.
    I64And = 0x83,
    /// `i64.or` (opcode 0x84), a numeric instruction that computes the bitwise or of two integers.
    I64Or = 0x84,
    /// `i64.xor` (opcode 0x85), a numeric instruction that computes the bitwise exclusive or of two
    /// integers.
    I64Xor = 0x85,
    /// `i64.shl` (opcode 0x86), a numeric instruction that shifts an integer to the left.
    I64Shl = 0x86,
    /// `i64.shr_s` (opcode 0x87), a numeric instruction that shifts an integer to the right.
    I64ShrS = 0x87,
    /// `i64.shr_u` (opcode 0x88), a numeric instruction that shifts an integer to the right.
    I64ShrU = 0x88,
    /// `i64.rotl` (opcode 0x89), a numeric instruction that rotates an integer to the left.
    I64Rotl = 0x89,
    /// `i64.rotr` (opcode 0x8A), a numeric instruction that rotates an integer to the right.
    I64Rotr = 0x8A,
    /// `f32.abs` (opcode 0x8B), a numeric instruction that computes the absolute value of a float.
    F32Abs = 0x8B,
    /// `f32.neg` (opcode 0x8C), a numeric instruction that negates a float.
    F32Neg = 0x8C,
    /// `f32.ceil` (opcode 0x8D), a numeric instruction that rounds a float up.
    F32Ceil = 0x8D,
    /// `f32.floor` (opcode 0x8E), a numeric instruction that rounds a float down.
    F32Floor = 0x8E,
    /// `f32.trunc` (opcode 0x8F), a numeric instruction that rounds a float towards zero.
    F32Trunc = 0x8F,
    /// `f32.nearest` (opcode 0x90), a numeric instruction that rounds a float to the nearest
    /// integer.
    F32Nearest = 0x90,
    /// `f32.sqrt` (opcode 0x91), a numeric instruction that computes the square root of a float.
    F32Sqrt = 0x91,
    /// `f32.add` (opcode 0x92), a numeric instruction that adds two floats.
    F32Add = 0x92,
    /// `f32.sub` (opcode 0x93), a numeric instruction that subtracts two floats.
    F32Sub = 0x93,
    /// `f32.mul` (opcode 0x94), a numeric instruction that multiplies two floats.
    F32Mul = 0x94,
    /// `f32.div` (opcode 0x95), a numeric instruction that divides two floats.
    F32Div = 0x95,
    /// `f32.min` (opcode 0x96), a numeric instruction that computes the minimum of two floats.
    F32Min = 0x96,
    /// `f32.max` (opcode 0x97), a numeric instruction that computes the maximum of two floats.
    F32Max = 0x97,
    /// `f32.copysign` (opcode 0x98), a numeric instruction that copies the sign of a float to
    /// another.
    F32Copysign = 0x98,
    /// `f64.abs` (opcode 0x99), a numeric instruction that computes the absolute value of a float.
    F64Abs = 0x99,
    /// `f64.neg` (opcode 0x9A), a numeric instruction that negates a float.
    F64Neg = 0x9A,
    /// `f64.ceil` (opcode 0x9B), a numeric instruction that rounds a float up.
    F64Ceil = 0x9B,
    /// `f64.floor` (opcode 0x9C), a numeric instruction that rounds a float down.
    F64Floor = 0x9C,
    /// `f64.trunc` (opcode 0x9D), a numeric instruction that rounds a float towards zero.
    F64Trunc = 0x9D,
    /// `f64.nearest` (opcode 0x9E), a numeric instruction that rounds a float to the nearest
    /// integer.
    F64Nearest = 0x9E,
    /// `f64.sqrt` (opcode 0x9F), a numeric instruction that computes the square root of a float.
    F64Sqrt = 0x9F,
    /// `f64.add` (opcode 0xA0), a numeric instruction that adds two floats.
    F64Add = 0xA0,
    /// `f64.sub` (opcode 0xA1), a numeric instruction that subtracts two floats.
    F64Sub = 0xA1,
    /// `f64.mul` (opcode 0xA2), a numeric instruction that multiplies two floats.
    F64Mul = 0xA2,
    /// `f64.div` (opcode 0xA3), a numeric instruction that divides two floats.
    F64Div = 0xA3,
    /// `f64.min` (opcode 0xA4), a numeric instruction that computes the minimum of two floats.
    F64Min = 0xA4,
    /// `f64.max` (opcode 0xA5), a numeric instruction that computes the maximum of two floats.
    F64Max = 0xA5,
    /// `f64.copysign` (opcode 0xA6), a numeric instruction that copies the sign of a float to
    /// another.
    F64Copysign = 0xA6,
    /// `i32.wrap_i64` (opcode 0xA7), a numeric instruction that takes the lower 32 bits of an
    /// integer.
    I32WrapI64 = 0xA7,
    /// `i32.trunc_f32_s` (opcode 0xA8), a numeric instruction that converts a float to an integer,
    /// or traps.
    I32TruncF32S = 0xA8,
    /// `i32.trunc_f32_u` (opcode 0xA9), a numeric instruction that converts a float to an integer,
    /// or traps.
    I32TruncF32U = 0xA9,
    /// `i32.trunc_f64_s` (opcode 0xAA), a numeric instruction that converts a float to an integer,
    /// or traps.
    I32TruncF64S = 0xAA,
    /// `i32.trunc_f64_u` (opcode 0xAB), a numeric instruction that converts a float to an integer,
    /// or traps.
    I32TruncF64U = 0xAB,
    /// `i64.extend_i32_s` (opcode 0xAC), a numeric instruction that extends an integer to 64 bits.
    I64ExtendI32S = 0xAC,
    /// `i64.extend_i32_u` (opcode 0xAD), a numeric instruction that extends an integer to 64 bits.
    I64ExtendI32U = 0xAD,
    /// `i64.trunc_f32_s` (opcode 0xAE), a numeric instruction that converts a float to an integer,
    /// or traps.
    I64TruncF32S = 0xAE,
    /// `i64.trunc_f32_u` (opcode 0xAF), a numeric instruction that converts a float to an integer,
    /// or traps.
    I64TruncF32U = 0xAF,
    /// `i64.trunc_f64_s` (opcode 0xB0), a numeric instruction that converts a float to an integer,
    /// or traps.
    I64TruncF64S = 0xB0,
    /// `i64.trunc_f64_u` (opcode 0xB1), a numeric instruction that converts a float to an integer,
    /// or traps.
    I64TruncF64U = 0xB1,
    /// `f32.convert_i32_s` (opcode 0xB2), a numeric instruction that converts an integer to a
    /// float.
    F32ConvertI32S = 0xB2,
    /// `f32.convert_i32_u` (opcode 0xB3), a numeric instruction that converts an integer to a
    /// float.
    F32ConvertI32U = 0xB3,
    /// `f32.convert_i64_s` (opcode 0xB4), a numeric instruction that converts an integer to a
    /// float.
    F32ConvertI64S = 0xB4,
    /// `f32.convert_i64_u` (opcode 0xB5), a numeric instruction that converts an integer to a
    /// float.
    F32ConvertI64U = 0xB5,
    /// `f32.demote_f64` (opcode 0xB6), a numeric instruction that rounds a float to 32 bits.
    F32DemoteF64 = 0xB6,
    /// `f64.convert_i32_s` (opcode 0xB7), a numeric instruction that converts an integer to a
    /// float.
    F64ConvertI32S = 0xB7,
    /// `f64.convert_i32_u` (opcode 0xB8), a numeric instruction that converts an integer to a
    /// float.
    F64ConvertI32U = 0xB8,
    /// `f64.convert_i64_s` (opcode 0xB9), a numeric instruction that converts an integer to a
    /// float.
    F64ConvertI64S = 0xB9,
    /// `f64.convert_i64_u` (opcode 0xBA), a numeric instruction that converts an integer to a
    /// float.
    F64ConvertI64U = 0xBA,
    /// `f64.promote_f32` (opcode 0xBB), a numeric instruction that converts a float to 64 bits.
    F64PromoteF32 = 0xBB,
    /// `i32.reinterpret_f32` (opcode 0xBC), a numeric instruction that takes the bits of a number
    /// as another type.
    I32ReinterpretF32 = 0xBC,
    /// `i64.reinterpret_f64` (opcode 0xBD), a numeric instruction that takes the bits of a number
    /// as another type.
    I64ReinterpretF64 = 0xBD,
    /// `f32.reinterpret_i32` (opcode 0xBE), a numeric instruction that takes the bits of a number
    /// as another type.
    F32ReinterpretI32 = 0xBE,
    /// `f64.reinterpret_i64` (opcode 0xBF), a numeric instruction that takes the bits of a number
    /// as another type.
    F64ReinterpretI64 = 0xBF,
    /// `i32.extend8_s` (opcode 0xC0), a numeric instruction that sign-extends the lower 8 bits of
    /// an integer.
    I32Extend8S = 0xC0,
    /// `i32.extend16_s` (opcode 0xC1), a numeric instruction that sign-extends the lower 16 bits of
    /// an integer.
    I32Extend16S = 0xC1,
    /// `i64.extend8_s` (opcode 0xC2), a numeric instruction that sign-extends the lower 8 bits of
    /// an integer.
    I64Extend8S = 0xC2,
    /// `i64.extend16_s` (opcode 0xC3), a numeric instruction that sign-extends the lower 16 bits of
    /// an integer.
    I64Extend16S = 0xC3,
    /// `i64.extend32_s` (opcode 0xC4), a numeric instruction that sign-extends the lower 32 bits of
    /// an integer.
    I64Extend32S = 0xC4,
}

impl Numeric {
    /// Returns the opcode, as in the opcode table.
    ///
    /// # Proved
    ///
    /// ```text
    /// ensures { result ≡ Op.Byte (numeric_number self) }
    /// ```
    ///
    /// Definitions: [`numeric_number`](crate::definitions::insn::numeric::numeric_number). [How to read clauses](crate::definitions).
    pub fn op(self) -> Op {
        Op::Byte(self as u8)
    }
}

/// The same instructions as constants of `Instruction`.
impl Instruction<'static> {
    /// `i32.eqz` (opcode 0x45), a numeric instruction that tests whether an integer is zero.
    pub const I32Eqz: Self = Instruction::Numeric(Numeric::I32Eqz);

    /// `i32.eq` (opcode 0x46), a numeric instruction that compares two numbers.
    pub const I32Eq: Self = Instruction::Numeric(Numeric::I32Eq);

    /// `i32.ne` (opcode 0x47), a numeric instruction that compares two numbers.
    pub const I32Ne: Self = Instruction::Numeric(Numeric::I32Ne);

    /// `i32.lt_s` (opcode 0x48), a numeric instruction that compares two numbers.
    pub const I32LtS: Self = Instruction::Numeric(Numeric::I32LtS);

    /// `i32.lt_u` (opcode 0x49), a numeric instruction that compares two numbers.
    pub const I32LtU: Self = Instruction::Numeric(Numeric::I32LtU);

    /// `i32.gt_s` (opcode 0x4A), a numeric instruction that compares two numbers.
    pub const I32GtS: Self = Instruction::Numeric(Numeric::I32GtS);

    /// `i32.gt_u` (opcode 0x4B), a numeric instruction that compares two numbers.
    pub const I32GtU: Self = Instruction::Numeric(Numeric::I32GtU);

    /// `i32.le_s` (opcode 0x4C), a numeric instruction that compares two numbers.
    pub const I32LeS: Self = Instruction::Numeric(Numeric::I32LeS);

    /// `i32.le_u` (opcode 0x4D), a numeric instruction that compares two numbers.
    pub const I32LeU: Self = Instruction::Numeric(Numeric::I32LeU);

    /// `i32.ge_s` (opcode 0x4E), a numeric instruction that compares two numbers.
    pub const I32GeS: Self = Instruction::Numeric(Numeric::I32GeS);

    /// `i32.ge_u` (opcode 0x4F), a numeric instruction that compares two numbers.
    pub const I32GeU: Self = Instruction::Numeric(Numeric::I32GeU);

    /// `i64.eqz` (opcode 0x50), a numeric instruction that tests whether an integer is zero.
    pub const I64Eqz: Self = Instruction::Numeric(Numeric::I64Eqz);

    /// `i64.eq` (opcode 0x51), a numeric instruction that compares two numbers.
    pub const I64Eq: Self = Instruction::Numeric(Numeric::I64Eq);

    /// `i64.ne` (opcode 0x52), a numeric instruction that compares two numbers.
    pub const I64Ne: Self = Instruction::Numeric(Numeric::I64Ne);

    /// `i64.lt_s` (opcode 0x53), a numeric instruction that compares two numbers.
    pub const I64LtS: Self = Instruction::Numeric(Numeric::I64LtS);

    /// `i64.lt_u` (opcode 0x54), a numeric instruction that compares two numbers.
    pub const I64LtU: Self = Instruction::Numeric(Numeric::I64LtU);

    /// `i64.gt_s` (opcode 0x55), a numeric instruction that compares two numbers.
    pub const I64GtS: Self = Instruction::Numeric(Numeric::I64GtS);

    /// `i64.gt_u` (opcode 0x56), a numeric instruction that compares two numbers.
    pub const I64GtU: Self = Instruction::Numeric(Numeric::I64GtU);

    /// `i64.le_s` (opcode 0x57), a numeric instruction that compares two numbers.
    pub const I64LeS: Self = Instruction::Numeric(Numeric::I64LeS);

    /// `i64.le_u` (opcode 0x58), a numeric instruction that compares two numbers.
    pub const I64LeU: Self = Instruction::Numeric(Numeric::I64LeU);

    /// `i64.ge_s` (opcode 0x59), a numeric instruction that compares two numbers.
    pub const I64GeS: Self = Instruction::Numeric(Numeric::I64GeS);

    /// `i64.ge_u` (opcode 0x5A), a numeric instruction that compares two numbers.
    pub const I64GeU: Self = Instruction::Numeric(Numeric::I64GeU);

    /// `f32.eq` (opcode 0x5B), a numeric instruction that compares two numbers.
    pub const F32Eq: Self = Instruction::Numeric(Numeric::F32Eq);

    /// `f32.ne` (opcode 0x5C), a numeric instruction that compares two numbers.
    pub const F32Ne: Self = Instruction::Numeric(Numeric::F32Ne);

    /// `f32.lt` (opcode 0x5D), a numeric instruction that compares two numbers.
    pub const F32Lt: Self = Instruction::Numeric(Numeric::F32Lt);

    /// `f32.gt` (opcode 0x5E), a numeric instruction that compares two numbers.
    pub const F32Gt: Self = Instruction::Numeric(Numeric::F32Gt);

    /// `f32.le` (opcode 0x5F), a numeric instruction that compares two numbers.
    pub const F32Le: Self = Instruction::Numeric(Numeric::F32Le);

    /// `f32.ge` (opcode 0x60), a numeric instruction that compares two numbers.
    pub const F32Ge: Self = Instruction::Numeric(Numeric::F32Ge);

    /// `f64.eq` (opcode 0x61), a numeric instruction that compares two numbers.
    pub const F64Eq: Self = Instruction::Numeric(Numeric::F64Eq);

    /// `f64.ne` (opcode 0x62), a numeric instruction that compares two numbers.
    pub const F64Ne: Self = Instruction::Numeric(Numeric::F64Ne);

    /// `f64.lt` (opcode 0x63), a numeric instruction that compares two numbers.
    pub const F64Lt: Self = Instruction::Numeric(Numeric::F64Lt);

    /// `f64.gt` (opcode 0x64), a numeric instruction that compares two numbers.
    pub const F64Gt: Self = Instruction::Numeric(Numeric::F64Gt);

    /// `f64.le` (opcode 0x65), a numeric instruction that compares two numbers.
    pub const F64Le: Self = Instruction::Numeric(Numeric::F64Le);

    /// `f64.ge` (opcode 0x66), a numeric instruction that compares two numbers.
    pub const F64Ge: Self = Instruction::Numeric(Numeric::F64Ge);

    /// `i32.clz` (opcode 0x67), a numeric instruction that counts the leading zero bits of an
    /// integer.
    pub const I32Clz: Self = Instruction::Numeric(Numeric::I32Clz);

    /// `i32.ctz` (opcode 0x68), a numeric instruction that counts the trailing zero bits of an
    /// integer.
    pub const I32Ctz: Self = Instruction::Numeric(Numeric::I32Ctz);

    /// `i32.popcnt` (opcode 0x69), a numeric instruction that counts the one bits of an integer.
    pub const I32Popcnt: Self = Instruction::Numeric(Numeric::I32Popcnt);

    /// `i32.add` (opcode 0x6A), a numeric instruction that adds two integers.
    pub const I32Add: Self = Instruction::Numeric(Numeric::I32Add);

    /// `i32.sub` (opcode 0x6B), a numeric instruction that subtracts two integers.
    pub const I32Sub: Self = Instruction::Numeric(Numeric::I32Sub);

    /// `i32.mul` (opcode 0x6C), a numeric instruction that multiplies two integers.
    pub const I32Mul: Self = Instruction::Numeric(Numeric::I32Mul);

    /// `i32.div_s` (opcode 0x6D), a numeric instruction that divides two integers.
    pub const I32DivS: Self = Instruction::Numeric(Numeric::I32DivS);

    /// `i32.div_u` (opcode 0x6E), a numeric instruction that divides two integers.
    pub const I32DivU: Self = Instruction::Numeric(Numeric::I32DivU);

    /// `i32.rem_s` (opcode 0x6F), a numeric instruction that computes the remainder of two
    /// integers.
    pub const I32RemS: Self = Instruction::Numeric(Numeric::I32RemS);

    /// `i32.rem_u` (opcode 0x70), a numeric instruction that computes the remainder of two
    /// integers.
    pub const I32RemU: Self = Instruction::Numeric(Numeric::I32RemU);

    /// `i32.and` (opcode 0x71), a numeric instruction that computes the bitwise and of two
    /// integers.
    pub const I32And: Self = Instruction::Numeric(Numeric::I32And);

    /// `i32.or` (opcode 0x72), a numeric instruction that computes the bitwise or of two integers.
    pub const I32Or: Self = Instruction::Numeric(Numeric::I32Or);

    /// `i32.xor` (opcode 0x73), a numeric instruction that computes the bitwise exclusive or of two
    /// integers.
    pub const I32Xor: Self = Instruction::Numeric(Numeric::I32Xor);

    /// `i32.shl` (opcode 0x74), a numeric instruction that shifts an integer to the left.
    pub const I32Shl: Self = Instruction::Numeric(Numeric::I32Shl);

    /// `i32.shr_s` (opcode 0x75), a numeric instruction that shifts an integer to the right.
    pub const I32ShrS: Self = Instruction::Numeric(Numeric::I32ShrS);

    /// `i32.shr_u` (opcode 0x76), a numeric instruction that shifts an integer to the right.
    pub const I32ShrU: Self = Instruction::Numeric(Numeric::I32ShrU);

    /// `i32.rotl` (opcode 0x77), a numeric instruction that rotates an integer to the left.
    pub const I32Rotl: Self = Instruction::Numeric(Numeric::I32Rotl);

    /// `i32.rotr` (opcode 0x78), a numeric instruction that rotates an integer to the right.
    pub const I32Rotr: Self = Instruction::Numeric(Numeric::I32Rotr);

    /// `i64.clz` (opcode 0x79), a numeric instruction that counts the leading zero bits of an
    /// integer.
    pub const I64Clz: Self = Instruction::Numeric(Numeric::I64Clz);

    /// `i64.ctz` (opcode 0x7A), a numeric instruction that counts the trailing zero bits of an
    /// integer.
    pub const I64Ctz: Self = Instruction::Numeric(Numeric::I64Ctz);

    /// `i64.popcnt` (opcode 0x7B), a numeric instruction that counts the one bits of an integer.
    pub const I64Popcnt: Self = Instruction::Numeric(Numeric::I64Popcnt);

    /// `i64.add` (opcode 0x7C), a numeric instruction that adds two integers.
    pub const I64Add: Self = Instruction::Numeric(Numeric::I64Add);

    /// `i64.sub` (opcode 0x7D), a numeric instruction that subtracts two integers.
    pub const I64Sub: Self = Instruction::Numeric(Numeric::I64Sub);

    /// `i64.mul` (opcode 0x7E), a numeric instruction that multiplies two integers.
    pub const I64Mul: Self = Instruction::Numeric(Numeric::I64Mul);

    /// `i64.div_s` (opcode 0x7F), a numeric instruction that divides two integers.
    pub const I64DivS: Self = Instruction::Numeric(Numeric::I64DivS);

    /// `i64.div_u` (opcode 0x80), a numeric instruction that divides two integers.
    pub const I64DivU: Self = Instruction::Numeric(Numeric::I64DivU);

    /// `i64.rem_s` (opcode 0x81), a numeric instruction that computes the remainder of two
    /// integers.
    pub const I64RemS: Self = Instruction::Numeric(Numeric::I64RemS);

    /// `i64.rem_u` (opcode 0x82), a numeric instruction that computes the remainder of two
    /// integers.
    pub const I64RemU: Self = Instruction::Numeric(Numeric::I64RemU);

    /// `i64.and` (opcode 0x83), a numeric instruction that computes the bitwise and of two
    /// integers.
    pub const I64And: Self = Instruction::Numeric(Numeric::I64And);

    /// `i64.or` (opcode 0x84), a numeric instruction that computes the bitwise or of two integers.
    pub const I64Or: Self = Instruction::Numeric(Numeric::I64Or);

    /// `i64.xor` (opcode 0x85), a numeric instruction that computes the bitwise exclusive or of two
    /// integers.
    pub const I64Xor: Self = Instruction::Numeric(Numeric::I64Xor);

    /// `i64.shl` (opcode 0x86), a numeric instruction that shifts an integer to the left.
    pub const I64Shl: Self = Instruction::Numeric(Numeric::I64Shl);

    /// `i64.shr_s` (opcode 0x87), a numeric instruction that shifts an integer to the right.
    pub const I64ShrS: Self = Instruction::Numeric(Numeric::I64ShrS);

    /// `i64.shr_u` (opcode 0x88), a numeric instruction that shifts an integer to the right.
    pub const I64ShrU: Self = Instruction::Numeric(Numeric::I64ShrU);

    /// `i64.rotl` (opcode 0x89), a numeric instruction that rotates an integer to the left.
    pub const I64Rotl: Self = Instruction::Numeric(Numeric::I64Rotl);

    /// `i64.rotr` (opcode 0x8A), a numeric instruction that rotates an integer to the right.
    pub const I64Rotr: Self = Instruction::Numeric(Numeric::I64Rotr);

    /// `f32.abs` (opcode 0x8B), a numeric instruction that computes the absolute value of a float.
    pub const F32Abs: Self = Instruction::Numeric(Numeric::F32Abs);

    /// `f32.neg` (opcode 0x8C), a numeric instruction that negates a float.
    pub const F32Neg: Self = Instruction::Numeric(Numeric::F32Neg);

    /// `f32.ceil` (opcode 0x8D), a numeric instruction that rounds a float up.
    pub const F32Ceil: Self = Instruction::Numeric(Numeric::F32Ceil);

    /// `f32.floor` (opcode 0x8E), a numeric instruction that rounds a float down.
    pub const F32Floor: Self = Instruction::Numeric(Numeric::F32Floor);

    /// `f32.trunc` (opcode 0x8F), a numeric instruction that rounds a float towards zero.
    pub const F32Trunc: Self = Instruction::Numeric(Numeric::F32Trunc);

    /// `f32.nearest` (opcode 0x90), a numeric instruction that rounds a float to the nearest
    /// integer.
    pub const F32Nearest: Self = Instruction::Numeric(Numeric::F32Nearest);

    /// `f32.sqrt` (opcode 0x91), a numeric instruction that computes the square root of a float.
    pub const F32Sqrt: Self = Instruction::Numeric(Numeric::F32Sqrt);

    /// `f32.add` (opcode 0x92), a numeric instruction that adds two floats.
    pub const F32Add: Self = Instruction::Numeric(Numeric::F32Add);

    /// `f32.sub` (opcode 0x93), a numeric instruction that subtracts two floats.
    pub const F32Sub: Self = Instruction::Numeric(Numeric::F32Sub);

    /// `f32.mul` (opcode 0x94), a numeric instruction that multiplies two floats.
    pub const F32Mul: Self = Instruction::Numeric(Numeric::F32Mul);

    /// `f32.div` (opcode 0x95), a numeric instruction that divides two floats.
    pub const F32Div: Self = Instruction::Numeric(Numeric::F32Div);

    /// `f32.min` (opcode 0x96), a numeric instruction that computes the minimum of two floats.
    pub const F32Min: Self = Instruction::Numeric(Numeric::F32Min);

    /// `f32.max` (opcode 0x97), a numeric instruction that computes the maximum of two floats.
    pub const F32Max: Self = Instruction::Numeric(Numeric::F32Max);

    /// `f32.copysign` (opcode 0x98), a numeric instruction that copies the sign of a float to
    /// another.
    pub const F32Copysign: Self = Instruction::Numeric(Numeric::F32Copysign);

    /// `f64.abs` (opcode 0x99), a numeric instruction that computes the absolute value of a float.
    pub const F64Abs: Self = Instruction::Numeric(Numeric::F64Abs);

    /// `f64.neg` (opcode 0x9A), a numeric instruction that negates a float.
    pub const F64Neg: Self = Instruction::Numeric(Numeric::F64Neg);

    /// `f64.ceil` (opcode 0x9B), a numeric instruction that rounds a float up.
    pub const F64Ceil: Self = Instruction::Numeric(Numeric::F64Ceil);

    /// `f64.floor` (opcode 0x9C), a numeric instruction that rounds a float down.
    pub const F64Floor: Self = Instruction::Numeric(Numeric::F64Floor);

    /// `f64.trunc` (opcode 0x9D), a numeric instruction that rounds a float towards zero.
    pub const F64Trunc: Self = Instruction::Numeric(Numeric::F64Trunc);

    /// `f64.nearest` (opcode 0x9E), a numeric instruction that rounds a float to the nearest
    /// integer.
    pub const F64Nearest: Self = Instruction::Numeric(Numeric::F64Nearest);

    /// `f64.sqrt` (opcode 0x9F), a numeric instruction that computes the square root of a float.
    pub const F64Sqrt: Self = Instruction::Numeric(Numeric::F64Sqrt);

    /// `f64.add` (opcode 0xA0), a numeric instruction that adds two floats.
    pub const F64Add: Self = Instruction::Numeric(Numeric::F64Add);

    /// `f64.sub` (opcode 0xA1), a numeric instruction that subtracts two floats.
    pub const F64Sub: Self = Instruction::Numeric(Numeric::F64Sub);

    /// `f64.mul` (opcode 0xA2), a numeric instruction that multiplies two floats.
    pub const F64Mul: Self = Instruction::Numeric(Numeric::F64Mul);

    /// `f64.div` (opcode 0xA3), a numeric instruction that divides two floats.
    pub const F64Div: Self = Instruction::Numeric(Numeric::F64Div);

    /// `f64.min` (opcode 0xA4), a numeric instruction that computes the minimum of two floats.
    pub const F64Min: Self = Instruction::Numeric(Numeric::F64Min);

    /// `f64.max` (opcode 0xA5), a numeric instruction that computes the maximum of two floats.
    pub const F64Max: Self = Instruction::Numeric(Numeric::F64Max);

    /// `f64.copysign` (opcode 0xA6), a numeric instruction that copies the sign of a float to
    /// another.
    pub const F64Copysign: Self = Instruction::Numeric(Numeric::F64Copysign);

    /// `i32.wrap_i64` (opcode 0xA7), a numeric instruction that takes the lower 32 bits of an
    /// integer.
    pub const I32WrapI64: Self = Instruction::Numeric(Numeric::I32WrapI64);

    /// `i32.trunc_f32_s` (opcode 0xA8), a numeric instruction that converts a float to an integer,
    /// or traps.
    pub const I32TruncF32S: Self = Instruction::Numeric(Numeric::I32TruncF32S);

    /// `i32.trunc_f32_u` (opcode 0xA9), a numeric instruction that converts a float to an integer,
    /// or traps.
    pub const I32TruncF32U: Self = Instruction::Numeric(Numeric::I32TruncF32U);

    /// `i32.trunc_f64_s` (opcode 0xAA), a numeric instruction that converts a float to an integer,
    /// or traps.
    pub const I32TruncF64S: Self = Instruction::Numeric(Numeric::I32TruncF64S);

    /// `i32.trunc_f64_u` (opcode 0xAB), a numeric instruction that converts a float to an integer,
    /// or traps.
    pub const I32TruncF64U: Self = Instruction::Numeric(Numeric::I32TruncF64U);

    /// `i64.extend_i32_s` (opcode 0xAC), a numeric instruction that extends an integer to 64 bits.
    pub const I64ExtendI32S: Self = Instruction::Numeric(Numeric::I64ExtendI32S);

    /// `i64.extend_i32_u` (opcode 0xAD), a numeric instruction that extends an integer to 64 bits.
    pub const I64ExtendI32U: Self = Instruction::Numeric(Numeric::I64ExtendI32U);

    /// `i64.trunc_f32_s` (opcode 0xAE), a numeric instruction that converts a float to an integer,
    /// or traps.
    pub const I64TruncF32S: Self = Instruction::Numeric(Numeric::I64TruncF32S);

    /// `i64.trunc_f32_u` (opcode 0xAF), a numeric instruction that converts a float to an integer,
    /// or traps.
    pub const I64TruncF32U: Self = Instruction::Numeric(Numeric::I64TruncF32U);

    /// `i64.trunc_f64_s` (opcode 0xB0), a numeric instruction that converts a float to an integer,
    /// or traps.
    pub const I64TruncF64S: Self = Instruction::Numeric(Numeric::I64TruncF64S);

    /// `i64.trunc_f64_u` (opcode 0xB1), a numeric instruction that converts a float to an integer,
    /// or traps.
    pub const I64TruncF64U: Self = Instruction::Numeric(Numeric::I64TruncF64U);

    /// `f32.convert_i32_s` (opcode 0xB2), a numeric instruction that converts an integer to a
    /// float.
    pub const F32ConvertI32S: Self = Instruction::Numeric(Numeric::F32ConvertI32S);

    /// `f32.convert_i32_u` (opcode 0xB3), a numeric instruction that converts an integer to a
    /// float.
    pub const F32ConvertI32U: Self = Instruction::Numeric(Numeric::F32ConvertI32U);

    /// `f32.convert_i64_s` (opcode 0xB4), a numeric instruction that converts an integer to a
    /// float.
    pub const F32ConvertI64S: Self = Instruction::Numeric(Numeric::F32ConvertI64S);

    /// `f32.convert_i64_u` (opcode 0xB5), a numeric instruction that converts an integer to a
    /// float.
    pub const F32ConvertI64U: Self = Instruction::Numeric(Numeric::F32ConvertI64U);

    /// `f32.demote_f64` (opcode 0xB6), a numeric instruction that rounds a float to 32 bits.
    pub const F32DemoteF64: Self = Instruction::Numeric(Numeric::F32DemoteF64);

    /// `f64.convert_i32_s` (opcode 0xB7), a numeric instruction that converts an integer to a
    /// float.
    pub const F64ConvertI32S: Self = Instruction::Numeric(Numeric::F64ConvertI32S);

    /// `f64.convert_i32_u` (opcode 0xB8), a numeric instruction that converts an integer to a
    /// float.
    pub const F64ConvertI32U: Self = Instruction::Numeric(Numeric::F64ConvertI32U);

    /// `f64.convert_i64_s` (opcode 0xB9), a numeric instruction that converts an integer to a
    /// float.
    pub const F64ConvertI64S: Self = Instruction::Numeric(Numeric::F64ConvertI64S);

    /// `f64.convert_i64_u` (opcode 0xBA), a numeric instruction that converts an integer to a
    /// float.
    pub const F64ConvertI64U: Self = Instruction::Numeric(Numeric::F64ConvertI64U);

    /// `f64.promote_f32` (opcode 0xBB), a numeric instruction that converts a float to 64 bits.
    pub const F64PromoteF32: Self = Instruction::Numeric(Numeric::F64PromoteF32);

    /// `i32.reinterpret_f32` (opcode 0xBC), a numeric instruction that takes the bits of a number
    /// as another type.
    pub const I32ReinterpretF32: Self = Instruction::Numeric(Numeric::I32ReinterpretF32);

    /// `i64.reinterpret_f64` (opcode 0xBD), a numeric instruction that takes the bits of a number
    /// as another type.
    pub const I64ReinterpretF64: Self = Instruction::Numeric(Numeric::I64ReinterpretF64);

    /// `f32.reinterpret_i32` (opcode 0xBE), a numeric instruction that takes the bits of a number
    /// as another type.
    pub const F32ReinterpretI32: Self = Instruction::Numeric(Numeric::F32ReinterpretI32);

    /// `f64.reinterpret_i64` (opcode 0xBF), a numeric instruction that takes the bits of a number
    /// as another type.
    pub const F64ReinterpretI64: Self = Instruction::Numeric(Numeric::F64ReinterpretI64);

    /// `i32.extend8_s` (opcode 0xC0), a numeric instruction that sign-extends the lower 8 bits of
    /// an integer.
    pub const I32Extend8S: Self = Instruction::Numeric(Numeric::I32Extend8S);

    /// `i32.extend16_s` (opcode 0xC1), a numeric instruction that sign-extends the lower 16 bits of
    /// an integer.
    pub const I32Extend16S: Self = Instruction::Numeric(Numeric::I32Extend16S);

    /// `i64.extend8_s` (opcode 0xC2), a numeric instruction that sign-extends the lower 8 bits of
    /// an integer.
    pub const I64Extend8S: Self = Instruction::Numeric(Numeric::I64Extend8S);

    /// `i64.extend16_s` (opcode 0xC3), a numeric instruction that sign-extends the lower 16 bits of
    /// an integer.
    pub const I64Extend16S: Self = Instruction::Numeric(Numeric::I64Extend16S);

    /// `i64.extend32_s` (opcode 0xC4), a numeric instruction that sign-extends the lower 32 bits of
    /// an integer.
    pub const I64Extend32S: Self = Instruction::Numeric(Numeric::I64Extend32S);
}
