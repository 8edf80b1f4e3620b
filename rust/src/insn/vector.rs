// Written by tools/to-rust from crates/wasm_insn/src/vector.rt: change that.
// Written by tools/instructions from tools/instructions.tsv: do not edit.
// Vector instructions without immediates: those after the prefix FD.

use crate::insn::instruction::Instruction;
use crate::insn::op::Op;

/// Vector instructions without immediates: those after the prefix FD.
///
/// It is a case of [`Instruction`](crate::fallible::Instruction), which has a constant for
/// each.
///
/// # Examples
///
/// ```
/// use dolzhytik::fallible::{Encode, Instruction, Vector};
///
/// let instruction: Instruction = Instruction::Vector(Vector::I16x8Abs);
/// let mut bytes = Vec::new();
/// instruction.encode(&mut bytes)?;
/// // The number 128 is LEB128: 80 01.
/// assert_eq!(bytes, [0xFD, 0x80, 0x01]);
/// # Ok::<(), dolzhytik::fallible::Refused>(())
/// ```
#[derive(Clone, Copy, Debug)]
#[non_exhaustive]
pub enum Vector {
    /// `i8x16.swizzle` (opcode 0xFD 14), a vector instruction that selects lanes of a vector by
    /// those of another.
    I8x16Swizzle = 14,
    /// `i8x16.splat` (opcode 0xFD 15), a vector instruction that copies a number to each lane of a
    /// vector.
    I8x16Splat = 15,
    /// `i16x8.splat` (opcode 0xFD 16), a vector instruction that copies a number to each lane of a
    /// vector.
    I16x8Splat = 16,
    /// `i32x4.splat` (opcode 0xFD 17), a vector instruction that copies a number to each lane of a
    /// vector.
    I32x4Splat = 17,
    /// `i64x2.splat` (opcode 0xFD 18), a vector instruction that copies a number to each lane of a
    /// vector.
    I64x2Splat = 18,
    /// `f32x4.splat` (opcode 0xFD 19), a vector instruction that copies a number to each lane of a
    /// vector.
    F32x4Splat = 19,
    /// `f64x2.splat` (opcode 0xFD 20), a vector instruction that copies a number to each lane of a
    /// vector.
    F64x2Splat = 20,
    /// `i8x16.eq` (opcode 0xFD 35), a vector instruction that compares each lane of two vectors.
    I8x16Eq = 35,
    /// `i8x16.ne` (opcode 0xFD 36), a vector instruction that compares each lane of two vectors.
    I8x16Ne = 36,
    /// `i8x16.lt_s` (opcode 0xFD 37), a vector instruction that compares each lane of two vectors.
    I8x16LtS = 37,
    /// `i8x16.lt_u` (opcode 0xFD 38), a vector instruction that compares each lane of two vectors.
    I8x16LtU = 38,
    /// `i8x16.gt_s` (opcode 0xFD 39), a vector instruction that compares each lane of two vectors.
    I8x16GtS = 39,
    /// `i8x16.gt_u` (opcode 0xFD 40), a vector instruction that compares each lane of two vectors.
    I8x16GtU = 40,
    /// `i8x16.le_s` (opcode 0xFD 41), a vector instruction that compares each lane of two vectors.
    I8x16LeS = 41,
    /// `i8x16.le_u` (opcode 0xFD 42), a vector instruction that compares each lane of two vectors.
    I8x16LeU = 42,
    /// `i8x16.ge_s` (opcode 0xFD 43), a vector instruction that compares each lane of two vectors.
    I8x16GeS = 43,
    /// `i8x16.ge_u` (opcode 0xFD 44), a vector instruction that compares each lane of two vectors.
    I8x16GeU = 44,
    /// `i16x8.eq` (opcode 0xFD 45), a vector instruction that compares each lane of two vectors.
    I16x8Eq = 45,
    /// `i16x8.ne` (opcode 0xFD 46), a vector instruction that compares each lane of two vectors.
    I16x8Ne = 46,
    /// `i16x8.lt_s` (opcode 0xFD 47), a vector instruction that compares each lane of two vectors.
    I16x8LtS = 47,
    /// `i16x8.lt_u` (opcode 0xFD 48), a vector instruction that compares each lane of two vectors.
    I16x8LtU = 48,
    /// `i16x8.gt_s` (opcode 0xFD 49), a vector instruction that compares each lane of two vectors.
    I16x8GtS = 49,
    /// `i16x8.gt_u` (opcode 0xFD 50), a vector instruction that compares each lane of two vectors.
    I16x8GtU = 50,
    /// `i16x8.le_s` (opcode 0xFD 51), a vector instruction that compares each lane of two vectors.
    I16x8LeS = 51,
    /// `i16x8.le_u` (opcode 0xFD 52), a vector instruction that compares each lane of two vectors.
    I16x8LeU = 52,
    /// `i16x8.ge_s` (opcode 0xFD 53), a vector instruction that compares each lane of two vectors.
    I16x8GeS = 53,
    /// `i16x8.ge_u` (opcode 0xFD 54), a vector instruction that compares each lane of two vectors.
    I16x8GeU = 54,
    /// `i32x4.eq` (opcode 0xFD 55), a vector instruction that compares each lane of two vectors.
    I32x4Eq = 55,
    /// `i32x4.ne` (opcode 0xFD 56), a vector instruction that compares each lane of two vectors.
    I32x4Ne = 56,
    /// `i32x4.lt_s` (opcode 0xFD 57), a vector instruction that compares each lane of two vectors.
    I32x4LtS = 57,
    /// `i32x4.lt_u` (opcode 0xFD 58), a vector instruction that compares each lane of two vectors.
    I32x4LtU = 58,
    /// `i32x4.gt_s` (opcode 0xFD 59), a vector instruction that compares each lane of two vectors.
    I32x4GtS = 59,
    /// `i32x4.gt_u` (opcode 0xFD 60), a vector instruction that compares each lane of two vectors.
    I32x4GtU = 60,
    /// `i32x4.le_s` (opcode 0xFD 61), a vector instruction that compares each lane of two vectors.
    I32x4LeS = 61,
    /// `i32x4.le_u` (opcode 0xFD 62), a vector instruction that compares each lane of two vectors.
    I32x4LeU = 62,
    /// `i32x4.ge_s` (opcode 0xFD 63), a vector instruction that compares each lane of two vectors.
    I32x4GeS = 63,
    /// `i32x4.ge_u` (opcode 0xFD 64), a vector instruction that compares each lane of two vectors.
    I32x4GeU = 64,
    /// `f32x4.eq` (opcode 0xFD 65), a vector instruction that compares each lane of two vectors.
    F32x4Eq = 65,
    /// `f32x4.ne` (opcode 0xFD 66), a vector instruction that compares each lane of two vectors.
    F32x4Ne = 66,
    /// `f32x4.lt` (opcode 0xFD 67), a vector instruction that compares each lane of two vectors.
    F32x4Lt = 67,
    /// `f32x4.gt` (opcode 0xFD 68), a vector instruction that compares each lane of two vectors.
    F32x4Gt = 68,
    /// `f32x4.le` (opcode 0xFD 69), a vector instruction that compares each lane of two vectors.
    F32x4Le = 69,
    /// `f32x4.ge` (opcode 0xFD 70), a vector instruction that compares each lane of two vectors.
    F32x4Ge = 70,
    /// `f64x2.eq` (opcode 0xFD 71), a vector instruction that compares each lane of two vectors.
    F64x2Eq = 71,
    /// `f64x2.ne` (opcode 0xFD 72), a vector instruction that compares each lane of two vectors.
    F64x2Ne = 72,
    /// `f64x2.lt` (opcode 0xFD 73), a vector instruction that compares each lane of two vectors.
    F64x2Lt = 73,
    /// `f64x2.gt` (opcode 0xFD 74), a vector instruction that compares each lane of two vectors.
    F64x2Gt = 74,
    /// `f64x2.le` (opcode 0xFD 75), a vector instruction that compares each lane of two vectors.
    F64x2Le = 75,
    /// `f64x2.ge` (opcode 0xFD 76), a vector instruction that compares each lane of two vectors.
    F64x2Ge = 76,
    /// `v128.not` (opcode 0xFD 77), a vector instruction that inverts the bits of a vector.
    V128Not = 77,
    /// `v128.and` (opcode 0xFD 78), a vector instruction that computes the bitwise and of two
    /// vectors.
    V128And = 78,
    /// `v128.andnot` (opcode 0xFD 79), a vector instruction that computes the bitwise and of a
    /// vector and the inverse of another.
    V128AndNot = 79,
    /// `v128.or` (opcode 0xFD 80), a vector instruction that computes the bitwise or of two
    /// vectors.
    V128Or = 80,
    /// `v128.xor` (opcode 0xFD 81), a vector instruction that computes the bitwise exclusive or of
    /// two vectors.
    V128Xor = 81,
    /// `v128.bitselect` (opcode 0xFD 82), a vector instruction that selects bits of two vectors by
    /// the bits of a third.
    V128Bitselect = 82,
    /// `v128.any_true` (opcode 0xFD 83), a vector instruction that tests whether a bit of a vector
    /// is set.
    V128AnyTrue = 83,
    /// `f32x4.demote_f64x2_zero` (opcode 0xFD 94), a vector instruction that rounds the floats of a
    /// vector to 32 bits.
    F32x4DemoteF64x2Zero = 94,
    /// `f64x2.promote_low_f32x4` (opcode 0xFD 95), a vector instruction that converts the lower
    /// floats of a vector to 64 bits.
    F64x2PromoteLowF32x4 = 95,
    /// `i8x16.abs` (opcode 0xFD 96), a vector instruction that computes the absolute value of each
    /// lane of a vector.
    I8x16Abs = 96,
    /// `i8x16.neg` (opcode 0xFD 97), a vector instruction that negates each lane of a vector.
    I8x16Neg = 97,
    /// `i8x16.popcnt` (opcode 0xFD 98), a vector instruction that counts the one bits of each lane
    /// of a vector.
    I8x16Popcnt = 98,
    /// `i8x16.all_true` (opcode 0xFD 99), a vector instruction that tests whether no lane of a
    /// vector is zero.
    I8x16AllTrue = 99,
    /// `i8x16.bitmask` (opcode 0xFD 100), a vector instruction that collects the highest bit of
    /// each lane of a vector.
    I8x16Bitmask = 100,
    /// `i8x16.narrow_i16x8_s` (opcode 0xFD 101), a vector instruction that narrows the lanes of two
    /// vectors, and saturates.
    I8x16NarrowI16x8S = 101,
    /// `i8x16.narrow_i16x8_u` (opcode 0xFD 102), a vector instruction that narrows the lanes of two
    /// vectors, and saturates.
    I8x16NarrowI16x8U = 102,
    /// `f32x4.ceil` (opcode 0xFD 103), a vector instruction that rounds each lane of a vector up.
    F32x4Ceil = 103,
    /// `f32x4.floor` (opcode 0xFD 104), a vector instruction that rounds each lane of a vector
    /// down.
    F32x4Floor = 104,
    /// `f32x4.trunc` (opcode 0xFD 105), a vector instruction that rounds each lane of a vector
    /// towards zero.
    F32x4Trunc = 105,
    /// `f32x4.nearest` (opcode 0xFD 106), a vector instruction that rounds each lane of a vector to
    /// the nearest integer.
    F32x4Nearest = 106,
    /// `i8x16.shl` (opcode 0xFD 107), a vector instruction that shifts each lane of a vector to the
    /// left.
    I8x16Shl = 107,
    /// `i8x16.shr_s` (opcode 0xFD 108), a vector instruction that shifts each lane of a vector to
    /// the right.
    I8x16ShrS = 108,
    /// `i8x16.shr_u` (opcode 0xFD 109), a vector instruction that shifts each lane of a vector to
    /// the right.
    I8x16ShrU = 109,
    /// `i8x16.add` (opcode 0xFD 110), a vector instruction that adds each lane of two vectors.
    I8x16Add = 110,
    /// `i8x16.add_sat_s` (opcode 0xFD 111), a vector instruction that adds each lane of two
    /// vectors, and saturates.
    I8x16AddSatS = 111,
    /// `i8x16.add_sat_u` (opcode 0xFD 112), a vector instruction that adds each lane of two
    /// vectors, and saturates.
    I8x16AddSatU = 112,
    /// `i8x16.sub` (opcode 0xFD 113), a vector instruction that subtracts each lane of two vectors.
    I8x16Sub = 113,
    /// `i8x16.sub_sat_s` (opcode 0xFD 114), a vector instruction that subtracts each lane of two
    /// vectors, and saturates.
    I8x16SubSatS = 114,
    /// `i8x16.sub_sat_u` (opcode 0xFD 115), a vector instruction that subtracts each lane of two
    /// vectors, and saturates.
    I8x16SubSatU = 115,
    /// `f64x2.ceil` (opcode 0xFD 116), a vector instruction that rounds each lane of a vector up.
    F64x2Ceil = 116,
    /// `f64x2.floor` (opcode 0xFD 117), a vector instruction that rounds each lane of a vector
    /// down.
    F64x2Floor = 117,
    /// `i8x16.min_s` (opcode 0xFD 118), a vector instruction that computes the minimum of each lane
    /// of two vectors.
    I8x16MinS = 118,
    /// `i8x16.min_u` (opcode 0xFD 119), a vector instruction that computes the minimum of each lane
    /// of two vectors.
    I8x16MinU = 119,
    /// `i8x16.max_s` (opcode 0xFD 120), a vector instruction that computes the maximum of each lane
    /// of two vectors.
    I8x16MaxS = 120,
    /// `i8x16.max_u` (opcode 0xFD 121), a vector instruction that computes the maximum of each lane
    /// of two vectors.
    I8x16MaxU = 121,
    /// `f64x2.trunc` (opcode 0xFD 122), a vector instruction that rounds each lane of a vector
    /// towards zero.
    F64x2Trunc = 122,
    /// `i8x16.avgr_u` (opcode 0xFD 123), a vector instruction that averages each lane of two
    /// vectors, rounded up.
    I8x16AvgrU = 123,
    /// `i16x8.extadd_pairwise_i8x16_s` (opcode 0xFD 124), a vector instruction that adds
    /// neighbouring lanes of a vector to wider ones.
    I16x8ExtAddPairwiseI8x16S = 124,
    /// `i16x8.extadd_pairwise_i8x16_u` (opcode 0xFD 125), a vector instruction that adds
    /// neighbouring lanes of a vector to wider ones.
    I16x8ExtAddPairwiseI8x16U = 125,
    /// `i32x4.extadd_pairwise_i16x8_s` (opcode 0xFD 126), a vector instruction that adds
    /// neighbouring lanes of a vector to wider ones.
    I32x4ExtAddPairwiseI16x8S = 126,
    /// `i32x4.extadd_pairwise_i16x8_u` (opcode 0xFD 127), a vector instruction that adds
    /// neighbouring lanes of a vector to wider ones.
    I32x4ExtAddPairwiseI16x8U = 127,
    /// `i16x8.abs` (opcode 0xFD 128), a vector instruction that computes the absolute value of each
    /// lane of a vector.
    I16x8Abs = 128,
    /// `i16x8.neg` (opcode 0xFD 129), a vector instruction that negates each lane of a vector.
    I16x8Neg = 129,
    /// `i16x8.q15mulr_sat_s` (opcode 0xFD 130), a vector instruction that multiplies each lane of
    /// two vectors as fixed-point numbers, rounded.
    I16x8Q15MulrSatS = 130,
    /// `i16x8.all_true` (opcode 0xFD 131), a vector instruction that tests whether no lane of a
    /// vector is zero.
    I16x8AllTrue = 131,
    /// `i16x8.bitmask` (opcode 0xFD 132), a vector instruction that collects the highest bit of
    /// each lane of a vector.
    I16x8Bitmask = 132,
    /// `i16x8.narrow_i32x4_s` (opcode 0xFD 133), a vector instruction that narrows the lanes of two
    /// vectors, and saturates.
    I16x8NarrowI32x4S = 133,
    /// `i16x8.narrow_i32x4_u` (opcode 0xFD 134), a vector instruction that narrows the lanes of two
    /// vectors, and saturates.
    I16x8NarrowI32x4U = 134,
    /// `i16x8.extend_low_i8x16_s` (opcode 0xFD 135), a vector instruction that extends the lower
    /// lanes of a vector.
    I16x8ExtendLowI8x16S = 135,
    /// `i16x8.extend_high_i8x16_s` (opcode 0xFD 136), a vector instruction that extends the upper
    /// lanes of a vector.
    I16x8ExtendHighI8x16S = 136,
    /// `i16x8.extend_low_i8x16_u` (opcode 0xFD 137), a vector instruction that extends the lower
    /// lanes of a vector.
    I16x8ExtendLowI8x16U = 137,
    /// `i16x8.extend_high_i8x16_u` (opcode 0xFD 138), a vector instruction that extends the upper
    /// lanes of a vector.
    I16x8ExtendHighI8x16U = 138,
    /// `i16x8.shl` (opcode 0xFD 139), a vector instruction that shifts each lane of a vector to the
    /// left.
    I16x8Shl = 139,
    /// `i16x8.shr_s` (opcode 0xFD 140), a vector instruction that shifts each lane of a vector to
    /// the right.
    I16x8ShrS = 140,
    /// `i16x8.shr_u` (opcode 0xFD 141), a vector instruction that shifts each lane of a vector to
    /// the right.
    I16x8ShrU = 141,
    /// `i16x8.add` (opcode 0xFD 142), a vector instruction that adds each lane of two vectors.
    I16x8Add = 142,
    /// `i16x8.add_sat_s` (opcode 0xFD 143), a vector instruction that adds each lane of two
    /// vectors, and saturates.
    I16x8AddSatS = 143,
    /// `i16x8.add_sat_u` (opcode 0xFD 144), a vector instruction that adds each lane of two
    /// vectors, and saturates.
    I16x8AddSatU = 144,
    /// `i16x8.sub` (opcode 0xFD 145), a vector instruction that subtracts each lane of two vectors.
    I16x8Sub = 145,
    /// `i16x8.sub_sat_s` (opcode 0xFD 146), a vector instruction that subtracts each lane of two
    /// vectors, and saturates.
    I16x8SubSatS = 146,
    /// `i16x8.sub_sat_u` (opcode 0xFD 147), a vector instruction that subtracts each lane of two
    /// vectors, and saturates.
    I16x8SubSatU = 147,
    /// `f64x2.nearest` (opcode 0xFD 148), a vector instruction that rounds each lane of a vector to
    /// the nearest integer.
    F64x2Nearest = 148,
    /// `i16x8.mul` (opcode 0xFD 149), a vector instruction that multiplies each lane of two
    /// vectors.
    I16x8Mul = 149,
    /// `i16x8.min_s` (opcode 0xFD 150), a vector instruction that computes the minimum of each lane
    /// of two vectors.
    I16x8MinS = 150,
    /// `i16x8.min_u` (opcode 0xFD 151), a vector instruction that computes the minimum of each lane
    /// of two vectors.
    I16x8MinU = 151,
    /// `i16x8.max_s` (opcode 0xFD 152), a vector instruction that computes the maximum of each lane
    /// of two vectors.
    I16x8MaxS = 152,
    /// `i16x8.max_u` (opcode 0xFD 153), a vector instruction that computes the maximum of each lane
    /// of two vectors.
    I16x8MaxU = 153,
    /// `i16x8.avgr_u` (opcode 0xFD 155), a vector instruction that averages each lane of two
    /// vectors, rounded up.
    I16x8AvgrU = 155,
    /// `i16x8.extmul_low_i8x16_s` (opcode 0xFD 156), a vector instruction that multiplies the lower
    /// lanes of two vectors to wider ones.
    I16x8ExtMulLowI8x16S = 156,
    /// `i16x8.extmul_high_i8x16_s` (opcode 0xFD 157), a vector instruction that multiplies the
    /// upper lanes of two vectors to wider ones.
    I16x8ExtMulHighI8x16S = 157,
    /// `i16x8.extmul_low_i8x16_u` (opcode 0xFD 158), a vector instruction that multiplies the lower
    /// lanes of two vectors to wider ones.
    I16x8ExtMulLowI8x16U = 158,
    /// `i16x8.extmul_high_i8x16_u` (opcode 0xFD 159), a vector instruction that multiplies the
    /// upper lanes of two vectors to wider ones.
    I16x8ExtMulHighI8x16U = 159,
    /// `i32x4.abs` (opcode 0xFD 160), a vector instruction that computes the absolute value of each
    /// lane of a vector.
    I32x4Abs = 160,
    /// `i32x4.neg` (opcode 0xFD 161), a vector instruction that negates each lane of a vector.
    I32x4Neg = 161,
    /// `i32x4.all_true` (opcode 0xFD 163), a vector instruction that tests whether no lane of a
    /// vector is zero.
    I32x4AllTrue = 163,
    /// `i32x4.bitmask` (opcode 0xFD 164), a vector instruction that collects the highest bit of
    /// each lane of a vector.
    I32x4Bitmask = 164,
    /// `i32x4.extend_low_i16x8_s` (opcode 0xFD 167), a vector instruction that extends the lower
    /// lanes of a vector.
    I32x4ExtendLowI16x8S = 167,
    /// `i32x4.extend_high_i16x8_s` (opcode 0xFD 168), a vector instruction that extends the upper
    /// lanes of a vector.
    I32x4ExtendHighI16x8S = 168,
    /// `i32x4.extend_low_i16x8_u` (opcode 0xFD 169), a vector instruction that extends the lower
    /// lanes of a vector.
    I32x4ExtendLowI16x8U = 169,
    /// `i32x4.extend_high_i16x8_u` (opcode 0xFD 170), a vector instruction that extends the upper
    /// lanes of a vector.
    I32x4ExtendHighI16x8U = 170,
    /// `i32x4.shl` (opcode 0xFD 171), a vector instruction that shifts each lane of a vector to the
    /// left.
    I32x4Shl = 171,
    /// `i32x4.shr_s` (opcode 0xFD 172), a vector instruction that shifts each lane of a vector to
    /// the right.
    I32x4ShrS = 172,
    /// `i32x4.shr_u` (opcode 0xFD 173), a vector instruction that shifts each lane of a vector to
    /// the right.
    I32x4ShrU = 173,
    /// `i32x4.add` (opcode 0xFD 174), a vector instruction that adds each lane of two vectors.
    I32x4Add = 174,
    /// `i32x4.sub` (opcode 0xFD 177), a vector instruction that subtracts each lane of two vectors.
    I32x4Sub = 177,
    /// `i32x4.mul` (opcode 0xFD 181), a vector instruction that multiplies each lane of two
    /// vectors.
    I32x4Mul = 181,
    /// `i32x4.min_s` (opcode 0xFD 182), a vector instruction that computes the minimum of each lane
    /// of two vectors.
    I32x4MinS = 182,
    /// `i32x4.min_u` (opcode 0xFD 183), a vector instruction that computes the minimum of each lane
    /// of two vectors.
    I32x4MinU = 183,
    /// `i32x4.max_s` (opcode 0xFD 184), a vector instruction that computes the maximum of each lane
    /// of two vectors.
    I32x4MaxS = 184,
    /// `i32x4.max_u` (opcode 0xFD 185), a vector instruction that computes the maximum of each lane
    /// of two vectors.
    I32x4MaxU = 185,
    /// `i32x4.dot_i16x8_s` (opcode 0xFD 186), a vector instruction that multiplies each lane of two
    /// vectors, and adds neighbouring products.
    I32x4DotI16x8S = 186,
    /// `i32x4.extmul_low_i16x8_s` (opcode 0xFD 188), a vector instruction that multiplies the lower
    /// lanes of two vectors to wider ones.
    I32x4ExtMulLowI16x8S = 188,
    /// `i32x4.extmul_high_i16x8_s` (opcode 0xFD 189), a vector instruction that multiplies the
    /// upper lanes of two vectors to wider ones.
    I32x4ExtMulHighI16x8S = 189,
    /// `i32x4.extmul_low_i16x8_u` (opcode 0xFD 190), a vector instruction that multiplies the lower
    /// lanes of two vectors to wider ones.
    I32x4ExtMulLowI16x8U = 190,
    /// `i32x4.extmul_high_i16x8_u` (opcode 0xFD 191), a vector instruction that multiplies the
    /// upper lanes of two vectors to wider ones.
    I32x4ExtMulHighI16x8U = 191,
    /// `i64x2.abs` (opcode 0xFD 192), a vector instruction that computes the absolute value of each
    /// lane of a vector.
    I64x2Abs = 192,
    /// `i64x2.neg` (opcode 0xFD 193), a vector instruction that negates each lane of a vector.
    I64x2Neg = 193,
    /// `i64x2.all_true` (opcode 0xFD 195), a vector instruction that tests whether no lane of a
    /// vector is zero.
    I64x2AllTrue = 195,
    /// `i64x2.bitmask` (opcode 0xFD 196), a vector instruction that collects the highest bit of
    /// each lane of a vector.
    I64x2Bitmask = 196,
    /// `i64x2.extend_low_i32x4_s` (opcode 0xFD 199), a vector instruction that extends the lower
    /// lanes of a vector.
    I64x2ExtendLowI32x4S = 199,
    /// `i64x2.extend_high_i32x4_s` (opcode 0xFD 200), a vector instruction that extends the upper
    /// lanes of a vector.
    I64x2ExtendHighI32x4S = 200,
    /// `i64x2.extend_low_i32x4_u` (opcode 0xFD 201), a vector instruction that extends the lower
    /// lanes of a vector.
    I64x2ExtendLowI32x4U = 201,
    /// `i64x2.extend_high_i32x4_u` (opcode 0xFD 202), a vector instruction that extends the upper
    /// lanes of a vector.
    I64x2ExtendHighI32x4U = 202,
    /// `i64x2.shl` (opcode 0xFD 203), a vector instruction that shifts each lane of a vector to the
    /// left.
    I64x2Shl = 203,
    /// `i64x2.shr_s` (opcode 0xFD 204), a vector instruction that shifts each lane of a vector to
    /// the right.
    I64x2ShrS = 204,
    /// `i64x2.shr_u` (opcode 0xFD 205), a vector instruction that shifts each lane of a vector to
    /// the right.
    I64x2ShrU = 205,
    /// `i64x2.add` (opcode 0xFD 206), a vector instruction that adds each lane of two vectors.
    I64x2Add = 206,
    /// `i64x2.sub` (opcode 0xFD 209), a vector instruction that subtracts each lane of two vectors.
    I64x2Sub = 209,
    /// `i64x2.mul` (opcode 0xFD 213), a vector instruction that multiplies each lane of two
    /// vectors.
    I64x2Mul = 213,
    /// `i64x2.eq` (opcode 0xFD 214), a vector instruction that compares each lane of two vectors.
    I64x2Eq = 214,
    /// `i64x2.ne` (opcode 0xFD 215), a vector instruction that compares each lane of two vectors.
    I64x2Ne = 215,
    /// `i64x2.lt_s` (opcode 0xFD 216), a vector instruction that compares each lane of two vectors.
    I64x2LtS = 216,
    /// `i64x2.gt_s` (opcode 0xFD 217), a vector instruction that compares each lane of two vectors.
    I64x2GtS = 217,
    /// `i64x2.le_s` (opcode 0xFD 218), a vector instruction that compares each lane of two vectors.
    I64x2LeS = 218,
    /// `i64x2.ge_s` (opcode 0xFD 219), a vector instruction that compares each lane of two vectors.
    I64x2GeS = 219,
    /// `i64x2.extmul_low_i32x4_s` (opcode 0xFD 220), a vector instruction that multiplies the lower
    /// lanes of two vectors to wider ones.
    I64x2ExtMulLowI32x4S = 220,
    /// `i64x2.extmul_high_i32x4_s` (opcode 0xFD 221), a vector instruction that multiplies the
    /// upper lanes of two vectors to wider ones.
    I64x2ExtMulHighI32x4S = 221,
    /// `i64x2.extmul_low_i32x4_u` (opcode 0xFD 222), a vector instruction that multiplies the lower
    /// lanes of two vectors to wider ones.
    I64x2ExtMulLowI32x4U = 222,
    /// `i64x2.extmul_high_i32x4_u` (opcode 0xFD 223), a vector instruction that multiplies the
    /// upper lanes of two vectors to wider ones.
    I64x2ExtMulHighI32x4U = 223,
    /// `f32x4.abs` (opcode 0xFD 224), a vector instruction that computes the absolute value of each
    /// lane of a vector.
    F32x4Abs = 224,
    /// `f32x4.neg` (opcode 0xFD 225), a vector instruction that negates each lane of a vector.
    F32x4Neg = 225,
    /// `f32x4.sqrt` (opcode 0xFD 227), a vector instruction that computes the square root of each
    /// lane of a vector.
    F32x4Sqrt = 227,
    /// `f32x4.add` (opcode 0xFD 228), a vector instruction that adds each lane of two vectors.
    F32x4Add = 228,
    /// `f32x4.sub` (opcode 0xFD 229), a vector instruction that subtracts each lane of two vectors.
    F32x4Sub = 229,
    /// `f32x4.mul` (opcode 0xFD 230), a vector instruction that multiplies each lane of two
    /// vectors.
    F32x4Mul = 230,
    /// `f32x4.div` (opcode 0xFD 231), a vector instruction that divides each lane of two vectors.
    F32x4Div = 231,
    /// `f32x4.min` (opcode 0xFD 232), a vector instruction that computes the minimum of each lane
    /// of two vectors.
    F32x4Min = 232,
    /// `f32x4.max` (opcode 0xFD 233), a vector instruction that computes the maximum of each lane
    /// of two vectors.
    F32x4Max = 233,
    /// `f32x4.pmin` (opcode 0xFD 234), a vector instruction that computes the pseudo-minimum of
    /// each lane of two vectors.
    F32x4PMin = 234,
    /// `f32x4.pmax` (opcode 0xFD 235), a vector instruction that computes the pseudo-maximum of
    /// each lane of two vectors.
    F32x4PMax = 235,
    /// `f64x2.abs` (opcode 0xFD 236), a vector instruction that computes the absolute value of each
    /// lane of a vector.
    F64x2Abs = 236,
    /// `f64x2.neg` (opcode 0xFD 237), a vector instruction that negates each lane of a vector.
    F64x2Neg = 237,
    /// `f64x2.sqrt` (opcode 0xFD 239), a vector instruction that computes the square root of each
    /// lane of a vector.
    F64x2Sqrt = 239,
    /// `f64x2.add` (opcode 0xFD 240), a vector instruction that adds each lane of two vectors.
    F64x2Add = 240,
    /// `f64x2.sub` (opcode 0xFD 241), a vector instruction that subtracts each lane of two vectors.
    F64x2Sub = 241,
    /// `f64x2.mul` (opcode 0xFD 242), a vector instruction that multiplies each lane of two
    /// vectors.
    F64x2Mul = 242,
    /// `f64x2.div` (opcode 0xFD 243), a vector instruction that divides each lane of two vectors.
    F64x2Div = 243,
    /// `f64x2.min` (opcode 0xFD 244), a vector instruction that computes the minimum of each lane
    /// of two vectors.
    F64x2Min = 244,
    /// `f64x2.max` (opcode 0xFD 245), a vector instruction that computes the maximum of each lane
    /// of two vectors.
    F64x2Max = 245,
    /// `f64x2.pmin` (opcode 0xFD 246), a vector instruction that computes the pseudo-minimum of
    /// each lane of two vectors.
    F64x2PMin = 246,
    /// `f64x2.pmax` (opcode 0xFD 247), a vector instruction that computes the pseudo-maximum of
    /// each lane of two vectors.
    F64x2PMax = 247,
    /// `i32x4.trunc_sat_f32x4_s` (opcode 0xFD 248), a vector instruction that converts the floats
    /// of a vector to integers.
    I32x4TruncSatF32x4S = 248,
    /// `i32x4.trunc_sat_f32x4_u` (opcode 0xFD 249), a vector instruction that converts the floats
    /// of a vector to integers.
    I32x4TruncSatF32x4U = 249,
    /// `f32x4.convert_i32x4_s` (opcode 0xFD 250), a vector instruction that converts the integers
    /// of a vector to floats.
    F32x4ConvertI32x4S = 250,
    /// `f32x4.convert_i32x4_u` (opcode 0xFD 251), a vector instruction that converts the integers
    /// of a vector to floats.
    F32x4ConvertI32x4U = 251,
    /// `i32x4.trunc_sat_f64x2_s_zero` (opcode 0xFD 252), a vector instruction that converts the
    /// floats of a vector to integers.
    I32x4TruncSatF64x2SZero = 252,
    /// `i32x4.trunc_sat_f64x2_u_zero` (opcode 0xFD 253), a vector instruction that converts the
    /// floats of a vector to integers.
    I32x4TruncSatF64x2UZero = 253,
    /// `f64x2.convert_low_i32x4_s` (opcode 0xFD 254), a vector instruction that converts the
    /// integers of a vector to floats.
    F64x2ConvertLowI32x4S = 254,
    /// `f64x2.convert_low_i32x4_u` (opcode 0xFD 255), a vector instruction that converts the
    /// integers of a vector to floats.
    F64x2ConvertLowI32x4U = 255,
    /// `i8x16.relaxed_swizzle` (opcode 0xFD 256), a relaxed vector instruction that selects lanes
    /// of a vector by those of another.
    I8x16RelaxedSwizzle = 256,
    /// `i32x4.relaxed_trunc_f32x4_s` (opcode 0xFD 257), a relaxed vector instruction that converts
    /// the floats of a vector to integers.
    I32x4RelaxedTruncF32x4S = 257,
    /// `i32x4.relaxed_trunc_f32x4_u` (opcode 0xFD 258), a relaxed vector instruction that converts
    /// the floats of a vector to integers.
    I32x4RelaxedTruncF32x4U = 258,
    /// `i32x4.relaxed_trunc_f64x2_s_zero` (opcode 0xFD 259), a relaxed vector instruction that
    /// converts the floats of a vector to integers.
    I32x4RelaxedTruncF64x2SZero = 259,
    /// `i32x4.relaxed_trunc_f64x2_u_zero` (opcode 0xFD 260), a relaxed vector instruction that
    /// converts the floats of a vector to integers.
    I32x4RelaxedTruncF64x2UZero = 260,
    /// `f32x4.relaxed_madd` (opcode 0xFD 261), a relaxed vector instruction that multiplies each
    /// lane of two vectors, and adds a third.
    F32x4RelaxedMadd = 261,
    /// `f32x4.relaxed_nmadd` (opcode 0xFD 262), a relaxed vector instruction that multiplies each
    /// lane of two vectors, and subtracts the product from a third.
    F32x4RelaxedNmadd = 262,
    /// `f64x2.relaxed_madd` (opcode 0xFD 263), a relaxed vector instruction that multiplies each
    /// lane of two vectors, and adds a third.
    F64x2RelaxedMadd = 263,
    /// `f64x2.relaxed_nmadd` (opcode 0xFD 264), a relaxed vector instruction that multiplies each
    /// lane of two vectors, and subtracts the product from a third.
    F64x2RelaxedNmadd = 264,
    /// `i8x16.relaxed_laneselect` (opcode 0xFD 265), a relaxed vector instruction that selects
    /// lanes of two vectors by a third.
    I8x16RelaxedLaneselect = 265,
    /// `i16x8.relaxed_laneselect` (opcode 0xFD 266), a relaxed vector instruction that selects
    /// lanes of two vectors by a third.
    I16x8RelaxedLaneselect = 266,
    /// `i32x4.relaxed_laneselect` (opcode 0xFD 267), a relaxed vector instruction that selects
    /// lanes of two vectors by a third.
    I32x4RelaxedLaneselect = 267,
    /// `i64x2.relaxed_laneselect` (opcode 0xFD 268), a relaxed vector instruction that selects
    /// lanes of two vectors by a third.
    I64x2RelaxedLaneselect = 268,
    /// `f32x4.relaxed_min` (opcode 0xFD 269), a relaxed vector instruction that computes the
    /// minimum of each lane of two vectors.
    F32x4RelaxedMin = 269,
    /// `f32x4.relaxed_max` (opcode 0xFD 270), a relaxed vector instruction that computes the
    /// maximum of each lane of two vectors.
    F32x4RelaxedMax = 270,
    /// `f64x2.relaxed_min` (opcode 0xFD 271), a relaxed vector instruction that computes the
    /// minimum of each lane of two vectors.
    F64x2RelaxedMin = 271,
    /// `f64x2.relaxed_max` (opcode 0xFD 272), a relaxed vector instruction that computes the
    /// maximum of each lane of two vectors.
    F64x2RelaxedMax = 272,
    /// `i16x8.relaxed_q15mulr_s` (opcode 0xFD 273), a relaxed vector instruction that multiplies
    /// each lane of two vectors as fixed-point numbers, rounded.
    I16x8RelaxedQ15mulrS = 273,
    /// `i16x8.relaxed_dot_i8x16_i7x16_s` (opcode 0xFD 274), a relaxed vector instruction that
    /// multiplies each lane of two vectors, and adds neighbouring products.
    I16x8RelaxedDotI8x16I7x16S = 274,
    /// `i32x4.relaxed_dot_i8x16_i7x16_add_s` (opcode 0xFD 275), a relaxed vector instruction that
    /// multiplies each lane of two vectors, and adds neighbouring products and a third vector.
    I32x4RelaxedDotI8x16I7x16AddS = 275,
}

impl Vector {
    /// Returns the opcode, as in the opcode table.
    ///
    /// # Proved
    ///
    /// ```text
    /// ensures { result ≡ Op.Prefixed 0xFD (vector_number self) }
    /// ```
    ///
    /// Definitions: [`vector_number`](crate::definitions::insn::vector::vector_number). [How to read clauses](crate::definitions).
    pub fn op(self) -> Op {
        Op::Prefixed(0xFD, self as u32)
    }
}

/// The same instructions as constants of `Instruction`.
impl Instruction<'static> {
    /// `i8x16.swizzle` (opcode 0xFD 14), a vector instruction that selects lanes of a vector by
    /// those of another.
    pub const I8x16Swizzle: Self = Instruction::Vector(Vector::I8x16Swizzle);

    /// `i8x16.splat` (opcode 0xFD 15), a vector instruction that copies a number to each lane of a
    /// vector.
    pub const I8x16Splat: Self = Instruction::Vector(Vector::I8x16Splat);

    /// `i16x8.splat` (opcode 0xFD 16), a vector instruction that copies a number to each lane of a
    /// vector.
    pub const I16x8Splat: Self = Instruction::Vector(Vector::I16x8Splat);

    /// `i32x4.splat` (opcode 0xFD 17), a vector instruction that copies a number to each lane of a
    /// vector.
    pub const I32x4Splat: Self = Instruction::Vector(Vector::I32x4Splat);

    /// `i64x2.splat` (opcode 0xFD 18), a vector instruction that copies a number to each lane of a
    /// vector.
    pub const I64x2Splat: Self = Instruction::Vector(Vector::I64x2Splat);

    /// `f32x4.splat` (opcode 0xFD 19), a vector instruction that copies a number to each lane of a
    /// vector.
    pub const F32x4Splat: Self = Instruction::Vector(Vector::F32x4Splat);

    /// `f64x2.splat` (opcode 0xFD 20), a vector instruction that copies a number to each lane of a
    /// vector.
    pub const F64x2Splat: Self = Instruction::Vector(Vector::F64x2Splat);

    /// `i8x16.eq` (opcode 0xFD 35), a vector instruction that compares each lane of two vectors.
    pub const I8x16Eq: Self = Instruction::Vector(Vector::I8x16Eq);

    /// `i8x16.ne` (opcode 0xFD 36), a vector instruction that compares each lane of two vectors.
    pub const I8x16Ne: Self = Instruction::Vector(Vector::I8x16Ne);

    /// `i8x16.lt_s` (opcode 0xFD 37), a vector instruction that compares each lane of two vectors.
    pub const I8x16LtS: Self = Instruction::Vector(Vector::I8x16LtS);

    /// `i8x16.lt_u` (opcode 0xFD 38), a vector instruction that compares each lane of two vectors.
    pub const I8x16LtU: Self = Instruction::Vector(Vector::I8x16LtU);

    /// `i8x16.gt_s` (opcode 0xFD 39), a vector instruction that compares each lane of two vectors.
    pub const I8x16GtS: Self = Instruction::Vector(Vector::I8x16GtS);

    /// `i8x16.gt_u` (opcode 0xFD 40), a vector instruction that compares each lane of two vectors.
    pub const I8x16GtU: Self = Instruction::Vector(Vector::I8x16GtU);

    /// `i8x16.le_s` (opcode 0xFD 41), a vector instruction that compares each lane of two vectors.
    pub const I8x16LeS: Self = Instruction::Vector(Vector::I8x16LeS);

    /// `i8x16.le_u` (opcode 0xFD 42), a vector instruction that compares each lane of two vectors.
    pub const I8x16LeU: Self = Instruction::Vector(Vector::I8x16LeU);

    /// `i8x16.ge_s` (opcode 0xFD 43), a vector instruction that compares each lane of two vectors.
    pub const I8x16GeS: Self = Instruction::Vector(Vector::I8x16GeS);

    /// `i8x16.ge_u` (opcode 0xFD 44), a vector instruction that compares each lane of two vectors.
    pub const I8x16GeU: Self = Instruction::Vector(Vector::I8x16GeU);

    /// `i16x8.eq` (opcode 0xFD 45), a vector instruction that compares each lane of two vectors.
    pub const I16x8Eq: Self = Instruction::Vector(Vector::I16x8Eq);

    /// `i16x8.ne` (opcode 0xFD 46), a vector instruction that compares each lane of two vectors.
    pub const I16x8Ne: Self = Instruction::Vector(Vector::I16x8Ne);

    /// `i16x8.lt_s` (opcode 0xFD 47), a vector instruction that compares each lane of two vectors.
    pub const I16x8LtS: Self = Instruction::Vector(Vector::I16x8LtS);

    /// `i16x8.lt_u` (opcode 0xFD 48), a vector instruction that compares each lane of two vectors.
    pub const I16x8LtU: Self = Instruction::Vector(Vector::I16x8LtU);

    /// `i16x8.gt_s` (opcode 0xFD 49), a vector instruction that compares each lane of two vectors.
    pub const I16x8GtS: Self = Instruction::Vector(Vector::I16x8GtS);

    /// `i16x8.gt_u` (opcode 0xFD 50), a vector instruction that compares each lane of two vectors.
    pub const I16x8GtU: Self = Instruction::Vector(Vector::I16x8GtU);

    /// `i16x8.le_s` (opcode 0xFD 51), a vector instruction that compares each lane of two vectors.
    pub const I16x8LeS: Self = Instruction::Vector(Vector::I16x8LeS);

    /// `i16x8.le_u` (opcode 0xFD 52), a vector instruction that compares each lane of two vectors.
    pub const I16x8LeU: Self = Instruction::Vector(Vector::I16x8LeU);

    /// `i16x8.ge_s` (opcode 0xFD 53), a vector instruction that compares each lane of two vectors.
    pub const I16x8GeS: Self = Instruction::Vector(Vector::I16x8GeS);

    /// `i16x8.ge_u` (opcode 0xFD 54), a vector instruction that compares each lane of two vectors.
    pub const I16x8GeU: Self = Instruction::Vector(Vector::I16x8GeU);

    /// `i32x4.eq` (opcode 0xFD 55), a vector instruction that compares each lane of two vectors.
    pub const I32x4Eq: Self = Instruction::Vector(Vector::I32x4Eq);

    /// `i32x4.ne` (opcode 0xFD 56), a vector instruction that compares each lane of two vectors.
    pub const I32x4Ne: Self = Instruction::Vector(Vector::I32x4Ne);

    /// `i32x4.lt_s` (opcode 0xFD 57), a vector instruction that compares each lane of two vectors.
    pub const I32x4LtS: Self = Instruction::Vector(Vector::I32x4LtS);

    /// `i32x4.lt_u` (opcode 0xFD 58), a vector instruction that compares each lane of two vectors.
    pub const I32x4LtU: Self = Instruction::Vector(Vector::I32x4LtU);

    /// `i32x4.gt_s` (opcode 0xFD 59), a vector instruction that compares each lane of two vectors.
    pub const I32x4GtS: Self = Instruction::Vector(Vector::I32x4GtS);

    /// `i32x4.gt_u` (opcode 0xFD 60), a vector instruction that compares each lane of two vectors.
    pub const I32x4GtU: Self = Instruction::Vector(Vector::I32x4GtU);

    /// `i32x4.le_s` (opcode 0xFD 61), a vector instruction that compares each lane of two vectors.
    pub const I32x4LeS: Self = Instruction::Vector(Vector::I32x4LeS);

    /// `i32x4.le_u` (opcode 0xFD 62), a vector instruction that compares each lane of two vectors.
    pub const I32x4LeU: Self = Instruction::Vector(Vector::I32x4LeU);

    /// `i32x4.ge_s` (opcode 0xFD 63), a vector instruction that compares each lane of two vectors.
    pub const I32x4GeS: Self = Instruction::Vector(Vector::I32x4GeS);

    /// `i32x4.ge_u` (opcode 0xFD 64), a vector instruction that compares each lane of two vectors.
    pub const I32x4GeU: Self = Instruction::Vector(Vector::I32x4GeU);

    /// `f32x4.eq` (opcode 0xFD 65), a vector instruction that compares each lane of two vectors.
    pub const F32x4Eq: Self = Instruction::Vector(Vector::F32x4Eq);

    /// `f32x4.ne` (opcode 0xFD 66), a vector instruction that compares each lane of two vectors.
    pub const F32x4Ne: Self = Instruction::Vector(Vector::F32x4Ne);

    /// `f32x4.lt` (opcode 0xFD 67), a vector instruction that compares each lane of two vectors.
    pub const F32x4Lt: Self = Instruction::Vector(Vector::F32x4Lt);

    /// `f32x4.gt` (opcode 0xFD 68), a vector instruction that compares each lane of two vectors.
    pub const F32x4Gt: Self = Instruction::Vector(Vector::F32x4Gt);

    /// `f32x4.le` (opcode 0xFD 69), a vector instruction that compares each lane of two vectors.
    pub const F32x4Le: Self = Instruction::Vector(Vector::F32x4Le);

    /// `f32x4.ge` (opcode 0xFD 70), a vector instruction that compares each lane of two vectors.
    pub const F32x4Ge: Self = Instruction::Vector(Vector::F32x4Ge);

    /// `f64x2.eq` (opcode 0xFD 71), a vector instruction that compares each lane of two vectors.
    pub const F64x2Eq: Self = Instruction::Vector(Vector::F64x2Eq);

    /// `f64x2.ne` (opcode 0xFD 72), a vector instruction that compares each lane of two vectors.
    pub const F64x2Ne: Self = Instruction::Vector(Vector::F64x2Ne);

    /// `f64x2.lt` (opcode 0xFD 73), a vector instruction that compares each lane of two vectors.
    pub const F64x2Lt: Self = Instruction::Vector(Vector::F64x2Lt);

    /// `f64x2.gt` (opcode 0xFD 74), a vector instruction that compares each lane of two vectors.
    pub const F64x2Gt: Self = Instruction::Vector(Vector::F64x2Gt);

    /// `f64x2.le` (opcode 0xFD 75), a vector instruction that compares each lane of two vectors.
    pub const F64x2Le: Self = Instruction::Vector(Vector::F64x2Le);

    /// `f64x2.ge` (opcode 0xFD 76), a vector instruction that compares each lane of two vectors.
    pub const F64x2Ge: Self = Instruction::Vector(Vector::F64x2Ge);

    /// `v128.not` (opcode 0xFD 77), a vector instruction that inverts the bits of a vector.
    pub const V128Not: Self = Instruction::Vector(Vector::V128Not);

    /// `v128.and` (opcode 0xFD 78), a vector instruction that computes the bitwise and of two
    /// vectors.
    pub const V128And: Self = Instruction::Vector(Vector::V128And);

    /// `v128.andnot` (opcode 0xFD 79), a vector instruction that computes the bitwise and of a
    /// vector and the inverse of another.
    pub const V128AndNot: Self = Instruction::Vector(Vector::V128AndNot);

    /// `v128.or` (opcode 0xFD 80), a vector instruction that computes the bitwise or of two
    /// vectors.
    pub const V128Or: Self = Instruction::Vector(Vector::V128Or);

    /// `v128.xor` (opcode 0xFD 81), a vector instruction that computes the bitwise exclusive or of
    /// two vectors.
    pub const V128Xor: Self = Instruction::Vector(Vector::V128Xor);

    /// `v128.bitselect` (opcode 0xFD 82), a vector instruction that selects bits of two vectors by
    /// the bits of a third.
    pub const V128Bitselect: Self = Instruction::Vector(Vector::V128Bitselect);

    /// `v128.any_true` (opcode 0xFD 83), a vector instruction that tests whether a bit of a vector
    /// is set.
    pub const V128AnyTrue: Self = Instruction::Vector(Vector::V128AnyTrue);

    /// `f32x4.demote_f64x2_zero` (opcode 0xFD 94), a vector instruction that rounds the floats of a
    /// vector to 32 bits.
    pub const F32x4DemoteF64x2Zero: Self = Instruction::Vector(Vector::F32x4DemoteF64x2Zero);

    /// `f64x2.promote_low_f32x4` (opcode 0xFD 95), a vector instruction that converts the lower
    /// floats of a vector to 64 bits.
    pub const F64x2PromoteLowF32x4: Self = Instruction::Vector(Vector::F64x2PromoteLowF32x4);

    /// `i8x16.abs` (opcode 0xFD 96), a vector instruction that computes the absolute value of each
    /// lane of a vector.
    pub const I8x16Abs: Self = Instruction::Vector(Vector::I8x16Abs);

    /// `i8x16.neg` (opcode 0xFD 97), a vector instruction that negates each lane of a vector.
    pub const I8x16Neg: Self = Instruction::Vector(Vector::I8x16Neg);

    /// `i8x16.popcnt` (opcode 0xFD 98), a vector instruction that counts the one bits of each lane
    /// of a vector.
    pub const I8x16Popcnt: Self = Instruction::Vector(Vector::I8x16Popcnt);

    /// `i8x16.all_true` (opcode 0xFD 99), a vector instruction that tests whether no lane of a
    /// vector is zero.
    pub const I8x16AllTrue: Self = Instruction::Vector(Vector::I8x16AllTrue);

    /// `i8x16.bitmask` (opcode 0xFD 100), a vector instruction that collects the highest bit of
    /// each lane of a vector.
    pub const I8x16Bitmask: Self = Instruction::Vector(Vector::I8x16Bitmask);

    /// `i8x16.narrow_i16x8_s` (opcode 0xFD 101), a vector instruction that narrows the lanes of two
    /// vectors, and saturates.
    pub const I8x16NarrowI16x8S: Self = Instruction::Vector(Vector::I8x16NarrowI16x8S);

    /// `i8x16.narrow_i16x8_u` (opcode 0xFD 102), a vector instruction that narrows the lanes of two
    /// vectors, and saturates.
    pub const I8x16NarrowI16x8U: Self = Instruction::Vector(Vector::I8x16NarrowI16x8U);

    /// `f32x4.ceil` (opcode 0xFD 103), a vector instruction that rounds each lane of a vector up.
    pub const F32x4Ceil: Self = Instruction::Vector(Vector::F32x4Ceil);

    /// `f32x4.floor` (opcode 0xFD 104), a vector instruction that rounds each lane of a vector
    /// down.
    pub const F32x4Floor: Self = Instruction::Vector(Vector::F32x4Floor);

    /// `f32x4.trunc` (opcode 0xFD 105), a vector instruction that rounds each lane of a vector
    /// towards zero.
    pub const F32x4Trunc: Self = Instruction::Vector(Vector::F32x4Trunc);

    /// `f32x4.nearest` (opcode 0xFD 106), a vector instruction that rounds each lane of a vector to
    /// the nearest integer.
    pub const F32x4Nearest: Self = Instruction::Vector(Vector::F32x4Nearest);

    /// `i8x16.shl` (opcode 0xFD 107), a vector instruction that shifts each lane of a vector to the
    /// left.
    pub const I8x16Shl: Self = Instruction::Vector(Vector::I8x16Shl);

    /// `i8x16.shr_s` (opcode 0xFD 108), a vector instruction that shifts each lane of a vector to
    /// the right.
    pub const I8x16ShrS: Self = Instruction::Vector(Vector::I8x16ShrS);

    /// `i8x16.shr_u` (opcode 0xFD 109), a vector instruction that shifts each lane of a vector to
    /// the right.
    pub const I8x16ShrU: Self = Instruction::Vector(Vector::I8x16ShrU);

    /// `i8x16.add` (opcode 0xFD 110), a vector instruction that adds each lane of two vectors.
    pub const I8x16Add: Self = Instruction::Vector(Vector::I8x16Add);

    /// `i8x16.add_sat_s` (opcode 0xFD 111), a vector instruction that adds each lane of two
    /// vectors, and saturates.
    pub const I8x16AddSatS: Self = Instruction::Vector(Vector::I8x16AddSatS);

    /// `i8x16.add_sat_u` (opcode 0xFD 112), a vector instruction that adds each lane of two
    /// vectors, and saturates.
    pub const I8x16AddSatU: Self = Instruction::Vector(Vector::I8x16AddSatU);

    /// `i8x16.sub` (opcode 0xFD 113), a vector instruction that subtracts each lane of two vectors.
    pub const I8x16Sub: Self = Instruction::Vector(Vector::I8x16Sub);

    /// `i8x16.sub_sat_s` (opcode 0xFD 114), a vector instruction that subtracts each lane of two
    /// vectors, and saturates.
    pub const I8x16SubSatS: Self = Instruction::Vector(Vector::I8x16SubSatS);

    /// `i8x16.sub_sat_u` (opcode 0xFD 115), a vector instruction that subtracts each lane of two
    /// vectors, and saturates.
    pub const I8x16SubSatU: Self = Instruction::Vector(Vector::I8x16SubSatU);

    /// `f64x2.ceil` (opcode 0xFD 116), a vector instruction that rounds each lane of a vector up.
    pub const F64x2Ceil: Self = Instruction::Vector(Vector::F64x2Ceil);

    /// `f64x2.floor` (opcode 0xFD 117), a vector instruction that rounds each lane of a vector
    /// down.
    pub const F64x2Floor: Self = Instruction::Vector(Vector::F64x2Floor);

    /// `i8x16.min_s` (opcode 0xFD 118), a vector instruction that computes the minimum of each lane
    /// of two vectors.
    pub const I8x16MinS: Self = Instruction::Vector(Vector::I8x16MinS);

    /// `i8x16.min_u` (opcode 0xFD 119), a vector instruction that computes the minimum of each lane
    /// of two vectors.
    pub const I8x16MinU: Self = Instruction::Vector(Vector::I8x16MinU);

    /// `i8x16.max_s` (opcode 0xFD 120), a vector instruction that computes the maximum of each lane
    /// of two vectors.
    pub const I8x16MaxS: Self = Instruction::Vector(Vector::I8x16MaxS);

    /// `i8x16.max_u` (opcode 0xFD 121), a vector instruction that computes the maximum of each lane
    /// of two vectors.
    pub const I8x16MaxU: Self = Instruction::Vector(Vector::I8x16MaxU);

    /// `f64x2.trunc` (opcode 0xFD 122), a vector instruction that rounds each lane of a vector
    /// towards zero.
    pub const F64x2Trunc: Self = Instruction::Vector(Vector::F64x2Trunc);

    /// `i8x16.avgr_u` (opcode 0xFD 123), a vector instruction that averages each lane of two
    /// vectors, rounded up.
    pub const I8x16AvgrU: Self = Instruction::Vector(Vector::I8x16AvgrU);

    /// `i16x8.extadd_pairwise_i8x16_s` (opcode 0xFD 124), a vector instruction that adds
    /// neighbouring lanes of a vector to wider ones.
    pub const I16x8ExtAddPairwiseI8x16S: Self = Instruction::Vector(
        Vector::I16x8ExtAddPairwiseI8x16S,
    );

    /// `i16x8.extadd_pairwise_i8x16_u` (opcode 0xFD 125), a vector instruction that adds
    /// neighbouring lanes of a vector to wider ones.
    pub const I16x8ExtAddPairwiseI8x16U: Self = Instruction::Vector(
        Vector::I16x8ExtAddPairwiseI8x16U,
    );

    /// `i32x4.extadd_pairwise_i16x8_s` (opcode 0xFD 126), a vector instruction that adds
    /// neighbouring lanes of a vector to wider ones.
    pub const I32x4ExtAddPairwiseI16x8S: Self = Instruction::Vector(
        Vector::I32x4ExtAddPairwiseI16x8S,
    );

    /// `i32x4.extadd_pairwise_i16x8_u` (opcode 0xFD 127), a vector instruction that adds
    /// neighbouring lanes of a vector to wider ones.
    pub const I32x4ExtAddPairwiseI16x8U: Self = Instruction::Vector(
        Vector::I32x4ExtAddPairwiseI16x8U,
    );

    /// `i16x8.abs` (opcode 0xFD 128), a vector instruction that computes the absolute value of each
    /// lane of a vector.
    pub const I16x8Abs: Self = Instruction::Vector(Vector::I16x8Abs);

    /// `i16x8.neg` (opcode 0xFD 129), a vector instruction that negates each lane of a vector.
    pub const I16x8Neg: Self = Instruction::Vector(Vector::I16x8Neg);

    /// `i16x8.q15mulr_sat_s` (opcode 0xFD 130), a vector instruction that multiplies each lane of
    /// two vectors as fixed-point numbers, rounded.
    pub const I16x8Q15MulrSatS: Self = Instruction::Vector(Vector::I16x8Q15MulrSatS);

    /// `i16x8.all_true` (opcode 0xFD 131), a vector instruction that tests whether no lane of a
    /// vector is zero.
    pub const I16x8AllTrue: Self = Instruction::Vector(Vector::I16x8AllTrue);

    /// `i16x8.bitmask` (opcode 0xFD 132), a vector instruction that collects the highest bit of
    /// each lane of a vector.
    pub const I16x8Bitmask: Self = Instruction::Vector(Vector::I16x8Bitmask);

    /// `i16x8.narrow_i32x4_s` (opcode 0xFD 133), a vector instruction that narrows the lanes of two
    /// vectors, and saturates.
    pub const I16x8NarrowI32x4S: Self = Instruction::Vector(Vector::I16x8NarrowI32x4S);

    /// `i16x8.narrow_i32x4_u` (opcode 0xFD 134), a vector instruction that narrows the lanes of two
    /// vectors, and saturates.
    pub const I16x8NarrowI32x4U: Self = Instruction::Vector(Vector::I16x8NarrowI32x4U);

    /// `i16x8.extend_low_i8x16_s` (opcode 0xFD 135), a vector instruction that extends the lower
    /// lanes of a vector.
    pub const I16x8ExtendLowI8x16S: Self = Instruction::Vector(Vector::I16x8ExtendLowI8x16S);

    /// `i16x8.extend_high_i8x16_s` (opcode 0xFD 136), a vector instruction that extends the upper
    /// lanes of a vector.
    pub const I16x8ExtendHighI8x16S: Self = Instruction::Vector(Vector::I16x8ExtendHighI8x16S);

    /// `i16x8.extend_low_i8x16_u` (opcode 0xFD 137), a vector instruction that extends the lower
    /// lanes of a vector.
    pub const I16x8ExtendLowI8x16U: Self = Instruction::Vector(Vector::I16x8ExtendLowI8x16U);

    /// `i16x8.extend_high_i8x16_u` (opcode 0xFD 138), a vector instruction that extends the upper
    /// lanes of a vector.
    pub const I16x8ExtendHighI8x16U: Self = Instruction::Vector(Vector::I16x8ExtendHighI8x16U);

    /// `i16x8.shl` (opcode 0xFD 139), a vector instruction that shifts each lane of a vector to the
    /// left.
    pub const I16x8Shl: Self = Instruction::Vector(Vector::I16x8Shl);

    /// `i16x8.shr_s` (opcode 0xFD 140), a vector instruction that shifts each lane of a vector to
    /// the right.
    pub const I16x8ShrS: Self = Instruction::Vector(Vector::I16x8ShrS);

    /// `i16x8.shr_u` (opcode 0xFD 141), a vector instruction that shifts each lane of a vector to
    /// the right.
    pub const I16x8ShrU: Self = Instruction::Vector(Vector::I16x8ShrU);

    /// `i16x8.add` (opcode 0xFD 142), a vector instruction that adds each lane of two vectors.
    pub const I16x8Add: Self = Instruction::Vector(Vector::I16x8Add);

    /// `i16x8.add_sat_s` (opcode 0xFD 143), a vector instruction that adds each lane of two
    /// vectors, and saturates.
    pub const I16x8AddSatS: Self = Instruction::Vector(Vector::I16x8AddSatS);

    /// `i16x8.add_sat_u` (opcode 0xFD 144), a vector instruction that adds each lane of two
    /// vectors, and saturates.
    pub const I16x8AddSatU: Self = Instruction::Vector(Vector::I16x8AddSatU);

    /// `i16x8.sub` (opcode 0xFD 145), a vector instruction that subtracts each lane of two vectors.
    pub const I16x8Sub: Self = Instruction::Vector(Vector::I16x8Sub);

    /// `i16x8.sub_sat_s` (opcode 0xFD 146), a vector instruction that subtracts each lane of two
    /// vectors, and saturates.
    pub const I16x8SubSatS: Self = Instruction::Vector(Vector::I16x8SubSatS);

    /// `i16x8.sub_sat_u` (opcode 0xFD 147), a vector instruction that subtracts each lane of two
    /// vectors, and saturates.
    pub const I16x8SubSatU: Self = Instruction::Vector(Vector::I16x8SubSatU);

    /// `f64x2.nearest` (opcode 0xFD 148), a vector instruction that rounds each lane of a vector to
    /// the nearest integer.
    pub const F64x2Nearest: Self = Instruction::Vector(Vector::F64x2Nearest);

    /// `i16x8.mul` (opcode 0xFD 149), a vector instruction that multiplies each lane of two
    /// vectors.
    pub const I16x8Mul: Self = Instruction::Vector(Vector::I16x8Mul);

    /// `i16x8.min_s` (opcode 0xFD 150), a vector instruction that computes the minimum of each lane
    /// of two vectors.
    pub const I16x8MinS: Self = Instruction::Vector(Vector::I16x8MinS);

    /// `i16x8.min_u` (opcode 0xFD 151), a vector instruction that computes the minimum of each lane
    /// of two vectors.
    pub const I16x8MinU: Self = Instruction::Vector(Vector::I16x8MinU);

    /// `i16x8.max_s` (opcode 0xFD 152), a vector instruction that computes the maximum of each lane
    /// of two vectors.
    pub const I16x8MaxS: Self = Instruction::Vector(Vector::I16x8MaxS);

    /// `i16x8.max_u` (opcode 0xFD 153), a vector instruction that computes the maximum of each lane
    /// of two vectors.
    pub const I16x8MaxU: Self = Instruction::Vector(Vector::I16x8MaxU);

    /// `i16x8.avgr_u` (opcode 0xFD 155), a vector instruction that averages each lane of two
    /// vectors, rounded up.
    pub const I16x8AvgrU: Self = Instruction::Vector(Vector::I16x8AvgrU);

    /// `i16x8.extmul_low_i8x16_s` (opcode 0xFD 156), a vector instruction that multiplies the lower
    /// lanes of two vectors to wider ones.
    pub const I16x8ExtMulLowI8x16S: Self = Instruction::Vector(Vector::I16x8ExtMulLowI8x16S);

    /// `i16x8.extmul_high_i8x16_s` (opcode 0xFD 157), a vector instruction that multiplies the
    /// upper lanes of two vectors to wider ones.
    pub const I16x8ExtMulHighI8x16S: Self = Instruction::Vector(Vector::I16x8ExtMulHighI8x16S);

    /// `i16x8.extmul_low_i8x16_u` (opcode 0xFD 158), a vector instruction that multiplies the lower
    /// lanes of two vectors to wider ones.
    pub const I16x8ExtMulLowI8x16U: Self = Instruction::Vector(Vector::I16x8ExtMulLowI8x16U);

    /// `i16x8.extmul_high_i8x16_u` (opcode 0xFD 159), a vector instruction that multiplies the
    /// upper lanes of two vectors to wider ones.
    pub const I16x8ExtMulHighI8x16U: Self = Instruction::Vector(Vector::I16x8ExtMulHighI8x16U);

    /// `i32x4.abs` (opcode 0xFD 160), a vector instruction that computes the absolute value of each
    /// lane of a vector.
    pub const I32x4Abs: Self = Instruction::Vector(Vector::I32x4Abs);

    /// `i32x4.neg` (opcode 0xFD 161), a vector instruction that negates each lane of a vector.
    pub const I32x4Neg: Self = Instruction::Vector(Vector::I32x4Neg);

    /// `i32x4.all_true` (opcode 0xFD 163), a vector instruction that tests whether no lane of a
    /// vector is zero.
    pub const I32x4AllTrue: Self = Instruction::Vector(Vector::I32x4AllTrue);

    /// `i32x4.bitmask` (opcode 0xFD 164), a vector instruction that collects the highest bit of
    /// each lane of a vector.
    pub const I32x4Bitmask: Self = Instruction::Vector(Vector::I32x4Bitmask);

    /// `i32x4.extend_low_i16x8_s` (opcode 0xFD 167), a vector instruction that extends the lower
    /// lanes of a vector.
    pub const I32x4ExtendLowI16x8S: Self = Instruction::Vector(Vector::I32x4ExtendLowI16x8S);

    /// `i32x4.extend_high_i16x8_s` (opcode 0xFD 168), a vector instruction that extends the upper
    /// lanes of a vector.
    pub const I32x4ExtendHighI16x8S: Self = Instruction::Vector(Vector::I32x4ExtendHighI16x8S);

    /// `i32x4.extend_low_i16x8_u` (opcode 0xFD 169), a vector instruction that extends the lower
    /// lanes of a vector.
    pub const I32x4ExtendLowI16x8U: Self = Instruction::Vector(Vector::I32x4ExtendLowI16x8U);

    /// `i32x4.extend_high_i16x8_u` (opcode 0xFD 170), a vector instruction that extends the upper
    /// lanes of a vector.
    pub const I32x4ExtendHighI16x8U: Self = Instruction::Vector(Vector::I32x4ExtendHighI16x8U);

    /// `i32x4.shl` (opcode 0xFD 171), a vector instruction that shifts each lane of a vector to the
    /// left.
    pub const I32x4Shl: Self = Instruction::Vector(Vector::I32x4Shl);

    /// `i32x4.shr_s` (opcode 0xFD 172), a vector instruction that shifts each lane of a vector to
    /// the right.
    pub const I32x4ShrS: Self = Instruction::Vector(Vector::I32x4ShrS);

    /// `i32x4.shr_u` (opcode 0xFD 173), a vector instruction that shifts each lane of a vector to
    /// the right.
    pub const I32x4ShrU: Self = Instruction::Vector(Vector::I32x4ShrU);

    /// `i32x4.add` (opcode 0xFD 174), a vector instruction that adds each lane of two vectors.
    pub const I32x4Add: Self = Instruction::Vector(Vector::I32x4Add);

    /// `i32x4.sub` (opcode 0xFD 177), a vector instruction that subtracts each lane of two vectors.
    pub const I32x4Sub: Self = Instruction::Vector(Vector::I32x4Sub);

    /// `i32x4.mul` (opcode 0xFD 181), a vector instruction that multiplies each lane of two
    /// vectors.
    pub const I32x4Mul: Self = Instruction::Vector(Vector::I32x4Mul);

    /// `i32x4.min_s` (opcode 0xFD 182), a vector instruction that computes the minimum of each lane
    /// of two vectors.
    pub const I32x4MinS: Self = Instruction::Vector(Vector::I32x4MinS);

    /// `i32x4.min_u` (opcode 0xFD 183), a vector instruction that computes the minimum of each lane
    /// of two vectors.
    pub const I32x4MinU: Self = Instruction::Vector(Vector::I32x4MinU);

    /// `i32x4.max_s` (opcode 0xFD 184), a vector instruction that computes the maximum of each lane
    /// of two vectors.
    pub const I32x4MaxS: Self = Instruction::Vector(Vector::I32x4MaxS);

    /// `i32x4.max_u` (opcode 0xFD 185), a vector instruction that computes the maximum of each lane
    /// of two vectors.
    pub const I32x4MaxU: Self = Instruction::Vector(Vector::I32x4MaxU);

    /// `i32x4.dot_i16x8_s` (opcode 0xFD 186), a vector instruction that multiplies each lane of two
    /// vectors, and adds neighbouring products.
    pub const I32x4DotI16x8S: Self = Instruction::Vector(Vector::I32x4DotI16x8S);

    /// `i32x4.extmul_low_i16x8_s` (opcode 0xFD 188), a vector instruction that multiplies the lower
    /// lanes of two vectors to wider ones.
    pub const I32x4ExtMulLowI16x8S: Self = Instruction::Vector(Vector::I32x4ExtMulLowI16x8S);

    /// `i32x4.extmul_high_i16x8_s` (opcode 0xFD 189), a vector instruction that multiplies the
    /// upper lanes of two vectors to wider ones.
    pub const I32x4ExtMulHighI16x8S: Self = Instruction::Vector(Vector::I32x4ExtMulHighI16x8S);

    /// `i32x4.extmul_low_i16x8_u` (opcode 0xFD 190), a vector instruction that multiplies the lower
    /// lanes of two vectors to wider ones.
    pub const I32x4ExtMulLowI16x8U: Self = Instruction::Vector(Vector::I32x4ExtMulLowI16x8U);

    /// `i32x4.extmul_high_i16x8_u` (opcode 0xFD 191), a vector instruction that multiplies the
    /// upper lanes of two vectors to wider ones.
    pub const I32x4ExtMulHighI16x8U: Self = Instruction::Vector(Vector::I32x4ExtMulHighI16x8U);

    /// `i64x2.abs` (opcode 0xFD 192), a vector instruction that computes the absolute value of each
    /// lane of a vector.
    pub const I64x2Abs: Self = Instruction::Vector(Vector::I64x2Abs);

    /// `i64x2.neg` (opcode 0xFD 193), a vector instruction that negates each lane of a vector.
    pub const I64x2Neg: Self = Instruction::Vector(Vector::I64x2Neg);

    /// `i64x2.all_true` (opcode 0xFD 195), a vector instruction that tests whether no lane of a
    /// vector is zero.
    pub const I64x2AllTrue: Self = Instruction::Vector(Vector::I64x2AllTrue);

    /// `i64x2.bitmask` (opcode 0xFD 196), a vector instruction that collects the highest bit of
    /// each lane of a vector.
    pub const I64x2Bitmask: Self = Instruction::Vector(Vector::I64x2Bitmask);

    /// `i64x2.extend_low_i32x4_s` (opcode 0xFD 199), a vector instruction that extends the lower
    /// lanes of a vector.
    pub const I64x2ExtendLowI32x4S: Self = Instruction::Vector(Vector::I64x2ExtendLowI32x4S);

    /// `i64x2.extend_high_i32x4_s` (opcode 0xFD 200), a vector instruction that extends the upper
    /// lanes of a vector.
    pub const I64x2ExtendHighI32x4S: Self = Instruction::Vector(Vector::I64x2ExtendHighI32x4S);

    /// `i64x2.extend_low_i32x4_u` (opcode 0xFD 201), a vector instruction that extends the lower
    /// lanes of a vector.
    pub const I64x2ExtendLowI32x4U: Self = Instruction::Vector(Vector::I64x2ExtendLowI32x4U);

    /// `i64x2.extend_high_i32x4_u` (opcode 0xFD 202), a vector instruction that extends the upper
    /// lanes of a vector.
    pub const I64x2ExtendHighI32x4U: Self = Instruction::Vector(Vector::I64x2ExtendHighI32x4U);

    /// `i64x2.shl` (opcode 0xFD 203), a vector instruction that shifts each lane of a vector to the
    /// left.
    pub const I64x2Shl: Self = Instruction::Vector(Vector::I64x2Shl);

    /// `i64x2.shr_s` (opcode 0xFD 204), a vector instruction that shifts each lane of a vector to
    /// the right.
    pub const I64x2ShrS: Self = Instruction::Vector(Vector::I64x2ShrS);

    /// `i64x2.shr_u` (opcode 0xFD 205), a vector instruction that shifts each lane of a vector to
    /// the right.
    pub const I64x2ShrU: Self = Instruction::Vector(Vector::I64x2ShrU);

    /// `i64x2.add` (opcode 0xFD 206), a vector instruction that adds each lane of two vectors.
    pub const I64x2Add: Self = Instruction::Vector(Vector::I64x2Add);

    /// `i64x2.sub` (opcode 0xFD 209), a vector instruction that subtracts each lane of two vectors.
    pub const I64x2Sub: Self = Instruction::Vector(Vector::I64x2Sub);

    /// `i64x2.mul` (opcode 0xFD 213), a vector instruction that multiplies each lane of two
    /// vectors.
    pub const I64x2Mul: Self = Instruction::Vector(Vector::I64x2Mul);

    /// `i64x2.eq` (opcode 0xFD 214), a vector instruction that compares each lane of two vectors.
    pub const I64x2Eq: Self = Instruction::Vector(Vector::I64x2Eq);

    /// `i64x2.ne` (opcode 0xFD 215), a vector instruction that compares each lane of two vectors.
    pub const I64x2Ne: Self = Instruction::Vector(Vector::I64x2Ne);

    /// `i64x2.lt_s` (opcode 0xFD 216), a vector instruction that compares each lane of two vectors.
    pub const I64x2LtS: Self = Instruction::Vector(Vector::I64x2LtS);

    /// `i64x2.gt_s` (opcode 0xFD 217), a vector instruction that compares each lane of two vectors.
    pub const I64x2GtS: Self = Instruction::Vector(Vector::I64x2GtS);

    /// `i64x2.le_s` (opcode 0xFD 218), a vector instruction that compares each lane of two vectors.
    pub const I64x2LeS: Self = Instruction::Vector(Vector::I64x2LeS);

    /// `i64x2.ge_s` (opcode 0xFD 219), a vector instruction that compares each lane of two vectors.
    pub const I64x2GeS: Self = Instruction::Vector(Vector::I64x2GeS);

    /// `i64x2.extmul_low_i32x4_s` (opcode 0xFD 220), a vector instruction that multiplies the lower
    /// lanes of two vectors to wider ones.
    pub const I64x2ExtMulLowI32x4S: Self = Instruction::Vector(Vector::I64x2ExtMulLowI32x4S);

    /// `i64x2.extmul_high_i32x4_s` (opcode 0xFD 221), a vector instruction that multiplies the
    /// upper lanes of two vectors to wider ones.
    pub const I64x2ExtMulHighI32x4S: Self = Instruction::Vector(Vector::I64x2ExtMulHighI32x4S);

    /// `i64x2.extmul_low_i32x4_u` (opcode 0xFD 222), a vector instruction that multiplies the lower
    /// lanes of two vectors to wider ones.
    pub const I64x2ExtMulLowI32x4U: Self = Instruction::Vector(Vector::I64x2ExtMulLowI32x4U);

    /// `i64x2.extmul_high_i32x4_u` (opcode 0xFD 223), a vector instruction that multiplies the
    /// upper lanes of two vectors to wider ones.
    pub const I64x2ExtMulHighI32x4U: Self = Instruction::Vector(Vector::I64x2ExtMulHighI32x4U);

    /// `f32x4.abs` (opcode 0xFD 224), a vector instruction that computes the absolute value of each
    /// lane of a vector.
    pub const F32x4Abs: Self = Instruction::Vector(Vector::F32x4Abs);

    /// `f32x4.neg` (opcode 0xFD 225), a vector instruction that negates each lane of a vector.
    pub const F32x4Neg: Self = Instruction::Vector(Vector::F32x4Neg);

    /// `f32x4.sqrt` (opcode 0xFD 227), a vector instruction that computes the square root of each
    /// lane of a vector.
    pub const F32x4Sqrt: Self = Instruction::Vector(Vector::F32x4Sqrt);

    /// `f32x4.add` (opcode 0xFD 228), a vector instruction that adds each lane of two vectors.
    pub const F32x4Add: Self = Instruction::Vector(Vector::F32x4Add);

    /// `f32x4.sub` (opcode 0xFD 229), a vector instruction that subtracts each lane of two vectors.
    pub const F32x4Sub: Self = Instruction::Vector(Vector::F32x4Sub);

    /// `f32x4.mul` (opcode 0xFD 230), a vector instruction that multiplies each lane of two
    /// vectors.
    pub const F32x4Mul: Self = Instruction::Vector(Vector::F32x4Mul);

    /// `f32x4.div` (opcode 0xFD 231), a vector instruction that divides each lane of two vectors.
    pub const F32x4Div: Self = Instruction::Vector(Vector::F32x4Div);

    /// `f32x4.min` (opcode 0xFD 232), a vector instruction that computes the minimum of each lane
    /// of two vectors.
    pub const F32x4Min: Self = Instruction::Vector(Vector::F32x4Min);

    /// `f32x4.max` (opcode 0xFD 233), a vector instruction that computes the maximum of each lane
    /// of two vectors.
    pub const F32x4Max: Self = Instruction::Vector(Vector::F32x4Max);

    /// `f32x4.pmin` (opcode 0xFD 234), a vector instruction that computes the pseudo-minimum of
    /// each lane of two vectors.
    pub const F32x4PMin: Self = Instruction::Vector(Vector::F32x4PMin);

    /// `f32x4.pmax` (opcode 0xFD 235), a vector instruction that computes the pseudo-maximum of
    /// each lane of two vectors.
    pub const F32x4PMax: Self = Instruction::Vector(Vector::F32x4PMax);

    /// `f64x2.abs` (opcode 0xFD 236), a vector instruction that computes the absolute value of each
    /// lane of a vector.
    pub const F64x2Abs: Self = Instruction::Vector(Vector::F64x2Abs);

    /// `f64x2.neg` (opcode 0xFD 237), a vector instruction that negates each lane of a vector.
    pub const F64x2Neg: Self = Instruction::Vector(Vector::F64x2Neg);

    /// `f64x2.sqrt` (opcode 0xFD 239), a vector instruction that computes the square root of each
    /// lane of a vector.
    pub const F64x2Sqrt: Self = Instruction::Vector(Vector::F64x2Sqrt);

    /// `f64x2.add` (opcode 0xFD 240), a vector instruction that adds each lane of two vectors.
    pub const F64x2Add: Self = Instruction::Vector(Vector::F64x2Add);

    /// `f64x2.sub` (opcode 0xFD 241), a vector instruction that subtracts each lane of two vectors.
    pub const F64x2Sub: Self = Instruction::Vector(Vector::F64x2Sub);

    /// `f64x2.mul` (opcode 0xFD 242), a vector instruction that multiplies each lane of two
    /// vectors.
    pub const F64x2Mul: Self = Instruction::Vector(Vector::F64x2Mul);

    /// `f64x2.div` (opcode 0xFD 243), a vector instruction that divides each lane of two vectors.
    pub const F64x2Div: Self = Instruction::Vector(Vector::F64x2Div);

    /// `f64x2.min` (opcode 0xFD 244), a vector instruction that computes the minimum of each lane
    /// of two vectors.
    pub const F64x2Min: Self = Instruction::Vector(Vector::F64x2Min);

    /// `f64x2.max` (opcode 0xFD 245), a vector instruction that computes the maximum of each lane
    /// of two vectors.
    pub const F64x2Max: Self = Instruction::Vector(Vector::F64x2Max);

    /// `f64x2.pmin` (opcode 0xFD 246), a vector instruction that computes the pseudo-minimum of
    /// each lane of two vectors.
    pub const F64x2PMin: Self = Instruction::Vector(Vector::F64x2PMin);

    /// `f64x2.pmax` (opcode 0xFD 247), a vector instruction that computes the pseudo-maximum of
    /// each lane of two vectors.
    pub const F64x2PMax: Self = Instruction::Vector(Vector::F64x2PMax);

    /// `i32x4.trunc_sat_f32x4_s` (opcode 0xFD 248), a vector instruction that converts the floats
    /// of a vector to integers.
    pub const I32x4TruncSatF32x4S: Self = Instruction::Vector(Vector::I32x4TruncSatF32x4S);

    /// `i32x4.trunc_sat_f32x4_u` (opcode 0xFD 249), a vector instruction that converts the floats
    /// of a vector to integers.
    pub const I32x4TruncSatF32x4U: Self = Instruction::Vector(Vector::I32x4TruncSatF32x4U);

    /// `f32x4.convert_i32x4_s` (opcode 0xFD 250), a vector instruction that converts the integers
    /// of a vector to floats.
    pub const F32x4ConvertI32x4S: Self = Instruction::Vector(Vector::F32x4ConvertI32x4S);

    /// `f32x4.convert_i32x4_u` (opcode 0xFD 251), a vector instruction that converts the integers
    /// of a vector to floats.
    pub const F32x4ConvertI32x4U: Self = Instruction::Vector(Vector::F32x4ConvertI32x4U);

    /// `i32x4.trunc_sat_f64x2_s_zero` (opcode 0xFD 252), a vector instruction that converts the
    /// floats of a vector to integers.
    pub const I32x4TruncSatF64x2SZero: Self = Instruction::Vector(Vector::I32x4TruncSatF64x2SZero);

    /// `i32x4.trunc_sat_f64x2_u_zero` (opcode 0xFD 253), a vector instruction that converts the
    /// floats of a vector to integers.
    pub const I32x4TruncSatF64x2UZero: Self = Instruction::Vector(Vector::I32x4TruncSatF64x2UZero);

    /// `f64x2.convert_low_i32x4_s` (opcode 0xFD 254), a vector instruction that converts the
    /// integers of a vector to floats.
    pub const F64x2ConvertLowI32x4S: Self = Instruction::Vector(Vector::F64x2ConvertLowI32x4S);

    /// `f64x2.convert_low_i32x4_u` (opcode 0xFD 255), a vector instruction that converts the
    /// integers of a vector to floats.
    pub const F64x2ConvertLowI32x4U: Self = Instruction::Vector(Vector::F64x2ConvertLowI32x4U);

    /// `i8x16.relaxed_swizzle` (opcode 0xFD 256), a relaxed vector instruction that selects lanes
    /// of a vector by those of another.
    pub const I8x16RelaxedSwizzle: Self = Instruction::Vector(Vector::I8x16RelaxedSwizzle);

    /// `i32x4.relaxed_trunc_f32x4_s` (opcode 0xFD 257), a relaxed vector instruction that converts
    /// the floats of a vector to integers.
    pub const I32x4RelaxedTruncF32x4S: Self = Instruction::Vector(Vector::I32x4RelaxedTruncF32x4S);

    /// `i32x4.relaxed_trunc_f32x4_u` (opcode 0xFD 258), a relaxed vector instruction that converts
    /// the floats of a vector to integers.
    pub const I32x4RelaxedTruncF32x4U: Self = Instruction::Vector(Vector::I32x4RelaxedTruncF32x4U);

    /// `i32x4.relaxed_trunc_f64x2_s_zero` (opcode 0xFD 259), a relaxed vector instruction that
    /// converts the floats of a vector to integers.
    pub const I32x4RelaxedTruncF64x2SZero: Self = Instruction::Vector(
        Vector::I32x4RelaxedTruncF64x2SZero,
    );

    /// `i32x4.relaxed_trunc_f64x2_u_zero` (opcode 0xFD 260), a relaxed vector instruction that
    /// converts the floats of a vector to integers.
    pub const I32x4RelaxedTruncF64x2UZero: Self = Instruction::Vector(
        Vector::I32x4RelaxedTruncF64x2UZero,
    );

    /// `f32x4.relaxed_madd` (opcode 0xFD 261), a relaxed vector instruction that multiplies each
    /// lane of two vectors, and adds a third.
    pub const F32x4RelaxedMadd: Self = Instruction::Vector(Vector::F32x4RelaxedMadd);

    /// `f32x4.relaxed_nmadd` (opcode 0xFD 262), a relaxed vector instruction that multiplies each
    /// lane of two vectors, and subtracts the product from a third.
    pub const F32x4RelaxedNmadd: Self = Instruction::Vector(Vector::F32x4RelaxedNmadd);

    /// `f64x2.relaxed_madd` (opcode 0xFD 263), a relaxed vector instruction that multiplies each
    /// lane of two vectors, and adds a third.
    pub const F64x2RelaxedMadd: Self = Instruction::Vector(Vector::F64x2RelaxedMadd);

    /// `f64x2.relaxed_nmadd` (opcode 0xFD 264), a relaxed vector instruction that multiplies each
    /// lane of two vectors, and subtracts the product from a third.
    pub const F64x2RelaxedNmadd: Self = Instruction::Vector(Vector::F64x2RelaxedNmadd);

    /// `i8x16.relaxed_laneselect` (opcode 0xFD 265), a relaxed vector instruction that selects
    /// lanes of two vectors by a third.
    pub const I8x16RelaxedLaneselect: Self = Instruction::Vector(Vector::I8x16RelaxedLaneselect);

    /// `i16x8.relaxed_laneselect` (opcode 0xFD 266), a relaxed vector instruction that selects
    /// lanes of two vectors by a third.
    pub const I16x8RelaxedLaneselect: Self = Instruction::Vector(Vector::I16x8RelaxedLaneselect);

    /// `i32x4.relaxed_laneselect` (opcode 0xFD 267), a relaxed vector instruction that selects
    /// lanes of two vectors by a third.
    pub const I32x4RelaxedLaneselect: Self = Instruction::Vector(Vector::I32x4RelaxedLaneselect);

    /// `i64x2.relaxed_laneselect` (opcode 0xFD 268), a relaxed vector instruction that selects
    /// lanes of two vectors by a third.
    pub const I64x2RelaxedLaneselect: Self = Instruction::Vector(Vector::I64x2RelaxedLaneselect);

    /// `f32x4.relaxed_min` (opcode 0xFD 269), a relaxed vector instruction that computes the
    /// minimum of each lane of two vectors.
    pub const F32x4RelaxedMin: Self = Instruction::Vector(Vector::F32x4RelaxedMin);

    /// `f32x4.relaxed_max` (opcode 0xFD 270), a relaxed vector instruction that computes the
    /// maximum of each lane of two vectors.
    pub const F32x4RelaxedMax: Self = Instruction::Vector(Vector::F32x4RelaxedMax);

    /// `f64x2.relaxed_min` (opcode 0xFD 271), a relaxed vector instruction that computes the
    /// minimum of each lane of two vectors.
    pub const F64x2RelaxedMin: Self = Instruction::Vector(Vector::F64x2RelaxedMin);

    /// `f64x2.relaxed_max` (opcode 0xFD 272), a relaxed vector instruction that computes the
    /// maximum of each lane of two vectors.
    pub const F64x2RelaxedMax: Self = Instruction::Vector(Vector::F64x2RelaxedMax);

    /// `i16x8.relaxed_q15mulr_s` (opcode 0xFD 273), a relaxed vector instruction that multiplies
    /// each lane of two vectors as fixed-point numbers, rounded.
    pub const I16x8RelaxedQ15mulrS: Self = Instruction::Vector(Vector::I16x8RelaxedQ15mulrS);

    /// `i16x8.relaxed_dot_i8x16_i7x16_s` (opcode 0xFD 274), a relaxed vector instruction that
    /// multiplies each lane of two vectors, and adds neighbouring products.
    pub const I16x8RelaxedDotI8x16I7x16S: Self = Instruction::Vector(
        Vector::I16x8RelaxedDotI8x16I7x16S,
    );

    /// `i32x4.relaxed_dot_i8x16_i7x16_add_s` (opcode 0xFD 275), a relaxed vector instruction that
    /// multiplies each lane of two vectors, and adds neighbouring products and a third vector.
    pub const I32x4RelaxedDotI8x16I7x16AddS: Self = Instruction::Vector(
        Vector::I32x4RelaxedDotI8x16I7x16AddS,
    );
}
