// Written by tools/to-rust from crates/wasm_insn/src/part.rt: change that.
// The types of immediates, and the list of them for each shape.

use crate::insn::op::Shape;

/// The type of one immediate.
///
/// [`Shape::parts`](crate::fallible::Shape::parts) returns them.
///
/// # Examples
///
/// ```
/// use dolzhytik::fallible::{Op, Part};
///
/// // i32.load: 28, a memory argument.
/// let shape = Op::Byte(0x28).shape().unwrap();
/// assert_eq!(shape.parts(), [Part::Memory]);
/// ```
#[derive(Clone, Copy, PartialEq, Eq, Hash, Debug)]
#[non_exhaustive]
pub enum Part {
    /// A number of 32 bits.
    Unsigned,
    /// A signed number of 32 bits.
    Signed32,
    /// A signed number of 64 bits.
    Signed64,
    /// A float of 32 bits, in 4 bytes.
    Float32,
    /// A float of 64 bits, in 8 bytes.
    Float64,
    /// A vector of 128 bits, in 16 bytes.
    Vector,
    /// A memory argument.
    Memory,
    /// A lane, in one byte.
    Lane,
    /// Sixteen lanes.
    Lanes,
    /// A block type.
    Block,
    /// A heap type.
    Heap,
    /// An ordering.
    Ordering,
    /// A vector of labels.
    Labels,
    /// A vector of catch clauses.
    Catches,
    /// A vector of value types.
    Types,
    /// A vector of handle clauses.
    Handles,
    /// The flags of a cast.
    Flag,
}

impl Shape {
    /// Returns the immediates of an opcode of this shape, in order.
    ///
    /// # Proved
    ///
    /// ```text
    /// ensures { result.now ≡ parts_of self }
    /// ```
    ///
    /// Definitions: [`parts_of`](crate::definitions::insn::parts::parts_of). [How to read clauses](crate::definitions).
    pub fn parts(self) -> &'static [Part] {
        match self {
            Shape::Nothing => &[],
            Shape::U => &[Part::Unsigned],
            Shape::Uu => &[Part::Unsigned, Part::Unsigned],
            Shape::M => &[Part::Memory],
            Shape::Ml => &[Part::Memory, Part::Lane],
            Shape::L => &[Part::Lane],
            Shape::B => &[Part::Block],
            Shape::H => &[Part::Heap],
            Shape::O => &[Part::Ordering],
            Shape::Ou => &[Part::Ordering, Part::Unsigned],
            Shape::Ouu => &[Part::Ordering, Part::Unsigned, Part::Unsigned],
            Shape::C32 => &[Part::Signed32],
            Shape::C64 => &[Part::Signed64],
            Shape::F32 => &[Part::Float32],
            Shape::F64 => &[Part::Float64],
            Shape::V => &[Part::Vector],
            Shape::Ls => &[Part::Lanes],
            Shape::Bt => &[Part::Labels, Part::Unsigned],
            Shape::Tt => &[Part::Block, Part::Catches],
            Shape::Ts => &[Part::Types],
            Shape::K => &[Part::Flag, Part::Unsigned, Part::Heap, Part::Heap],
            Shape::Uh => &[Part::Unsigned, Part::Handles],
            Shape::Uuh => &[Part::Unsigned, Part::Unsigned, Part::Handles],
        }
    }
}
