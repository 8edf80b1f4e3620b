// Written by tools/to-rust from crates/wasm_insn/src/vector_immediate.rt: change that.
// Vector instructions with immediates: those after the prefix FD.

use crate::vec::Sink;
use crate::insn::op::Op;
use crate::base::{Encode, Result};
use crate::immediates::{Lane, MemArg};

/// Returns the bytes of a vector, little-endian.
pub(crate) fn vector_bytes(value: i128) -> [u8; 16] {
    value.to_le_bytes()
}

/// Vector instructions with immediates: those after the prefix FD.
///
/// It is a case of [`Instruction`](crate::fallible::Instruction).
///
/// # Examples
///
/// ```
/// use dolzhytik::fallible::{Encode, Instruction, VectorImmediate};
///
/// let lane = VectorImmediate::I32x4ExtractLane(3);
/// let instruction: Instruction = Instruction::VectorImmediate(lane);
/// let mut bytes = Vec::new();
/// instruction.encode(&mut bytes)?;
/// assert_eq!(bytes, [0xFD, 27, 3]);
/// # Ok::<(), dolzhytik::fallible::Refused>(())
/// ```
#[derive(Clone, Copy, Debug)]
#[non_exhaustive]
pub enum VectorImmediate {
    /// `v128.load` (opcode 0xFD 0), a vector instruction that loads a vector from a memory.
    V128Load(MemArg),
    /// `v128.load8x8_s` (opcode 0xFD 1), a vector instruction that loads numbers from a memory, and
    /// extends each to a lane.
    V128Load8x8S(MemArg),
    /// `v128.load8x8_u` (opcode 0xFD 2), a vector instruction that loads numbers from a memory, and
    /// extends each to a lane.
    V128Load8x8U(MemArg),
    /// `v128.load16x4_s` (opcode 0xFD 3), a vector instruction that loads numbers from a memory,
    /// and extends each to a lane.
    V128Load16x4S(MemArg),
    /// `v128.load16x4_u` (opcode 0xFD 4), a vector instruction that loads numbers from a memory,
    /// and extends each to a lane.
    V128Load16x4U(MemArg),
    /// `v128.load32x2_s` (opcode 0xFD 5), a vector instruction that loads numbers from a memory,
    /// and extends each to a lane.
    V128Load32x2S(MemArg),
    /// `v128.load32x2_u` (opcode 0xFD 6), a vector instruction that loads numbers from a memory,
    /// and extends each to a lane.
    V128Load32x2U(MemArg),
    /// `v128.load8_splat` (opcode 0xFD 7), a vector instruction that loads a number from a memory,
    /// and copies it to each lane.
    V128Load8Splat(MemArg),
    /// `v128.load16_splat` (opcode 0xFD 8), a vector instruction that loads a number from a memory,
    /// and copies it to each lane.
    V128Load16Splat(MemArg),
    /// `v128.load32_splat` (opcode 0xFD 9), a vector instruction that loads a number from a memory,
    /// and copies it to each lane.
    V128Load32Splat(MemArg),
    /// `v128.load64_splat` (opcode 0xFD 10), a vector instruction that loads a number from a
    /// memory, and copies it to each lane.
    V128Load64Splat(MemArg),
    /// `v128.store` (opcode 0xFD 11), a vector instruction that stores a vector to a memory.
    V128Store(MemArg),
    /// `v128.const` (opcode 0xFD 12), a vector instruction that returns a constant.
    V128Const(i128),
    /// `i8x16.shuffle` (opcode 0xFD 13), a vector instruction that selects lanes of two vectors by
    /// the immediates.
    I8x16Shuffle([Lane; 16]),
    /// `i8x16.extract_lane_s` (opcode 0xFD 21), a vector instruction that reads a lane of a vector.
    I8x16ExtractLaneS(Lane),
    /// `i8x16.extract_lane_u` (opcode 0xFD 22), a vector instruction that reads a lane of a vector.
    I8x16ExtractLaneU(Lane),
    /// `i8x16.replace_lane` (opcode 0xFD 23), a vector instruction that replaces a lane of a
    /// vector.
    I8x16ReplaceLane(Lane),
    /// `i16x8.extract_lane_s` (opcode 0xFD 24), a vector instruction that reads a lane of a vector.
    I16x8ExtractLaneS(Lane),
    /// `i16x8.extract_lane_u` (opcode 0xFD 25), a vector instruction that reads a lane of a vector.
    I16x8ExtractLaneU(Lane),
    /// `i16x8.replace_lane` (opcode 0xFD 26), a vector instruction that replaces a lane of a
    /// vector.
    I16x8ReplaceLane(Lane),
    /// `i32x4.extract_lane` (opcode 0xFD 27), a vector instruction that reads a lane of a vector.
    I32x4ExtractLane(Lane),
    /// `i32x4.replace_lane` (opcode 0xFD 28), a vector instruction that replaces a lane of a
    /// vector.
    I32x4ReplaceLane(Lane),
    /// `i64x2.extract_lane` (opcode 0xFD 29), a vector instruction that reads a lane of a vector.
    I64x2ExtractLane(Lane),
    /// `i64x2.replace_lane` (opcode 0xFD 30), a vector instruction that replaces a lane of a
    /// vector.
    I64x2ReplaceLane(Lane),
    /// `f32x4.extract_lane` (opcode 0xFD 31), a vector instruction that reads a lane of a vector.
    F32x4ExtractLane(Lane),
    /// `f32x4.replace_lane` (opcode 0xFD 32), a vector instruction that replaces a lane of a
    /// vector.
    F32x4ReplaceLane(Lane),
    /// `f64x2.extract_lane` (opcode 0xFD 33), a vector instruction that reads a lane of a vector.
    F64x2ExtractLane(Lane),
    /// `f64x2.replace_lane` (opcode 0xFD 34), a vector instruction that replaces a lane of a
    /// vector.
    F64x2ReplaceLane(Lane),
    /// `v128.load8_lane` (opcode 0xFD 84), a vector instruction that loads one lane of a vector
    /// from a memory.
    V128Load8Lane {
        /// The memory, the offset and the alignment.
        memarg: MemArg,
        /// The index of the lane.
        lane: Lane },
    /// `v128.load16_lane` (opcode 0xFD 85), a vector instruction that loads one lane of a vector
    /// from a memory.
    V128Load16Lane {
        /// The memory, the offset and the alignment.
        memarg: MemArg,
        /// The index of the lane.
        lane: Lane },
    /// `v128.load32_lane` (opcode 0xFD 86), a vector instruction that loads one lane of a vector
    /// from a memory.
    V128Load32Lane {
        /// The memory, the offset and the alignment.
        memarg: MemArg,
        /// The index of the lane.
        lane: Lane },
    /// `v128.load64_lane` (opcode 0xFD 87), a vector instruction that loads one lane of a vector
    /// from a memory.
    V128Load64Lane {
        /// The memory, the offset and the alignment.
        memarg: MemArg,
        /// The index of the lane.
        lane: Lane },
    /// `v128.store8_lane` (opcode 0xFD 88), a vector instruction that stores one lane of a vector
    /// to a memory.
    V128Store8Lane {
        /// The memory, the offset and the alignment.
        memarg: MemArg,
        /// The index of the lane.
        lane: Lane },
    /// `v128.store16_lane` (opcode 0xFD 89), a vector instruction that stores one lane of a vector
    /// to a memory.
    V128Store16Lane {
        /// The memory, the offset and the alignment.
        memarg: MemArg,
        /// The index of the lane.
        lane: Lane },
    /// `v128.store32_lane` (opcode 0xFD 90), a vector instruction that stores one lane of a vector
    /// to a memory.
    V128Store32Lane {
        /// The memory, the offset and the alignment.
        memarg: MemArg,
        /// The index of the lane.
        lane: Lane },
    /// `v128.store64_lane` (opcode 0xFD 91), a vector instruction that stores one lane of a vector
    /// to a memory.
    V128Store64Lane {
        /// The memory, the offset and the alignment.
        memarg: MemArg,
        /// The index of the lane.
        lane: Lane },
    /// `v128.load32_zero` (opcode 0xFD 92), a vector instruction that loads a lane from a memory,
    /// and sets the others to zero.
    V128Load32Zero(MemArg),
    /// `v128.load64_zero` (opcode 0xFD 93), a vector instruction that loads a lane from a memory,
    /// and sets the others to zero.
    V128Load64Zero(MemArg),
}

impl VectorImmediate {
    /// Returns the opcode, as in the opcode table.
    ///
    /// # Proved
    ///
    /// ```text
    /// ensures { result ≡ (vector_immediate_row self).op }
    /// ```
    ///
    /// Definitions: [`vector_immediate_row`](crate::definitions::insn::vector_immediate::vector_immediate_row). [How to read clauses](crate::definitions).
    pub fn op(self) -> Op {
        match self {
            VectorImmediate::V128Load(..) => Op::Prefixed(0xFD, 0),
            VectorImmediate::V128Load8x8S(..) => Op::Prefixed(0xFD, 1),
            VectorImmediate::V128Load8x8U(..) => Op::Prefixed(0xFD, 2),
            VectorImmediate::V128Load16x4S(..) => Op::Prefixed(0xFD, 3),
            VectorImmediate::V128Load16x4U(..) => Op::Prefixed(0xFD, 4),
            VectorImmediate::V128Load32x2S(..) => Op::Prefixed(0xFD, 5),
            VectorImmediate::V128Load32x2U(..) => Op::Prefixed(0xFD, 6),
            VectorImmediate::V128Load8Splat(..) => Op::Prefixed(0xFD, 7),
            VectorImmediate::V128Load16Splat(..) => Op::Prefixed(0xFD, 8),
            VectorImmediate::V128Load32Splat(..) => Op::Prefixed(0xFD, 9),
            VectorImmediate::V128Load64Splat(..) => Op::Prefixed(0xFD, 10),
            VectorImmediate::V128Store(..) => Op::Prefixed(0xFD, 11),
            VectorImmediate::V128Const(..) => Op::Prefixed(0xFD, 12),
            VectorImmediate::I8x16Shuffle(..) => Op::Prefixed(0xFD, 13),
            VectorImmediate::I8x16ExtractLaneS(..) => Op::Prefixed(0xFD, 21),
            VectorImmediate::I8x16ExtractLaneU(..) => Op::Prefixed(0xFD, 22),
            VectorImmediate::I8x16ReplaceLane(..) => Op::Prefixed(0xFD, 23),
            VectorImmediate::I16x8ExtractLaneS(..) => Op::Prefixed(0xFD, 24),
            VectorImmediate::I16x8ExtractLaneU(..) => Op::Prefixed(0xFD, 25),
            VectorImmediate::I16x8ReplaceLane(..) => Op::Prefixed(0xFD, 26),
            VectorImmediate::I32x4ExtractLane(..) => Op::Prefixed(0xFD, 27),
            VectorImmediate::I32x4ReplaceLane(..) => Op::Prefixed(0xFD, 28),
            VectorImmediate::I64x2ExtractLane(..) => Op::Prefixed(0xFD, 29),
            VectorImmediate::I64x2ReplaceLane(..) => Op::Prefixed(0xFD, 30),
            VectorImmediate::F32x4ExtractLane(..) => Op::Prefixed(0xFD, 31),
            VectorImmediate::F32x4ReplaceLane(..) => Op::Prefixed(0xFD, 32),
            VectorImmediate::F64x2ExtractLane(..) => Op::Prefixed(0xFD, 33),
            VectorImmediate::F64x2ReplaceLane(..) => Op::Prefixed(0xFD, 34),
            VectorImmediate::V128Load8Lane { .. } => Op::Prefixed(0xFD, 84),
            VectorImmediate::V128Load16Lane { .. } => Op::Prefixed(0xFD, 85),
            VectorImmediate::V128Load32Lane { .. } => Op::Prefixed(0xFD, 86),
            VectorImmediate::V128Load64Lane { .. } => Op::Prefixed(0xFD, 87),
            VectorImmediate::V128Store8Lane { .. } => Op::Prefixed(0xFD, 88),
            VectorImmediate::V128Store16Lane { .. } => Op::Prefixed(0xFD, 89),
            VectorImmediate::V128Store32Lane { .. } => Op::Prefixed(0xFD, 90),
            VectorImmediate::V128Store64Lane { .. } => Op::Prefixed(0xFD, 91),
            VectorImmediate::V128Load32Zero(..) => Op::Prefixed(0xFD, 92),
            VectorImmediate::V128Load64Zero(..) => Op::Prefixed(0xFD, 93),
        }
    }

    /// Appends the immediates.
    pub(crate) fn encode_arguments<A: Sink>(self, sink: &mut A) -> Result<()> {
        match self {
            VectorImmediate::V128Load(a)
            | VectorImmediate::V128Load8x8S(a)
            | VectorImmediate::V128Load8x8U(a)
            | VectorImmediate::V128Load16x4S(a)
            | VectorImmediate::V128Load16x4U(a)
            | VectorImmediate::V128Load32x2S(a)
            | VectorImmediate::V128Load32x2U(a) => a.encode(sink),
            VectorImmediate::V128Load8Splat(a)
            | VectorImmediate::V128Load16Splat(a)
            | VectorImmediate::V128Load32Splat(a)
            | VectorImmediate::V128Load64Splat(a)
            | VectorImmediate::V128Store(a)
            | VectorImmediate::V128Load32Zero(a)
            | VectorImmediate::V128Load64Zero(a) => a.encode(sink),
            VectorImmediate::V128Const(a) => vector_bytes(a).encode(sink),
            VectorImmediate::I8x16Shuffle(a) => a.encode(sink),
            VectorImmediate::I8x16ExtractLaneS(a)
            | VectorImmediate::I8x16ExtractLaneU(a)
            | VectorImmediate::I8x16ReplaceLane(a)
            | VectorImmediate::I16x8ExtractLaneS(a)
            | VectorImmediate::I16x8ExtractLaneU(a)
            | VectorImmediate::I16x8ReplaceLane(a)
            | VectorImmediate::I32x4ExtractLane(a) => a.encode(sink),
            VectorImmediate::I32x4ReplaceLane(a)
            | VectorImmediate::I64x2ExtractLane(a)
            | VectorImmediate::I64x2ReplaceLane(a)
            | VectorImmediate::F32x4ExtractLane(a)
            | VectorImmediate::F32x4ReplaceLane(a)
            | VectorImmediate::F64x2ExtractLane(a)
            | VectorImmediate::F64x2ReplaceLane(a) => a.encode(sink),
            VectorImmediate::V128Load8Lane { memarg: a, lane: b }
            | VectorImmediate::V128Load16Lane { memarg: a, lane: b }
            | VectorImmediate::V128Load32Lane { memarg: a, lane: b }
            | VectorImmediate::V128Load64Lane { memarg: a, lane: b }
            | VectorImmediate::V128Store8Lane { memarg: a, lane: b }
            | VectorImmediate::V128Store16Lane { memarg: a, lane: b }
            | VectorImmediate::V128Store32Lane { memarg: a, lane: b }
            | VectorImmediate::V128Store64Lane { memarg: a, lane: b } => (a, b).encode(sink),
        }
    }
}
