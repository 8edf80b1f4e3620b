// Written by tools/to-rust from crates/wasm_insn/src/op.rt: change that.
// Opcodes, and the shapes of their immediates.

use crate::vec::Sink;
use crate::alloc::Allocator;
use crate::base::{DecodeError, Encode, Grammar, Readable, Result};

/// An opcode: a byte, or a prefix and a number.
///
/// [`Plain`](crate::reader::Plain) and [`Decoded`](crate::reader::Decoded) have one.
///
/// # Examples
///
/// ```
/// use dolzhytik::fallible::{Encode, Op};
///
/// let mut bytes = Vec::new();
/// Op::Byte(0x6A).encode(&mut bytes)?; // i32.add
/// Op::Prefixed(0xFC, 10).encode(&mut bytes)?; // memory.copy
/// assert_eq!(bytes, [0x6A, 0xFC, 10]);
/// # Ok::<(), dolzhytik::fallible::Refused>(())
/// ```
#[derive(Clone, Copy, PartialEq, Eq, Hash, Debug)]
pub enum Op {
    /// An opcode of one byte.
    Byte(u8),
    /// A prefix, FB to FE, and a number, which is encoded as unsigned LEB128.
    Prefixed(u8, u32),
}

/// The list of immediates of an opcode.
///
/// [`Op::shape`](crate::fallible::Op::shape) returns it, and
/// [`parts`](crate::fallible::Shape::parts) lists its immediates.
///
/// # Examples
///
/// ```
/// use dolzhytik::fallible::{Op, Part, Shape};
///
/// // br_table: 0E, labels and the default label.
/// assert_eq!(
///     Op::Byte(0x0E).shape().map(Shape::parts),
///     Some(&[Part::Labels, Part::Unsigned][..])
/// );
/// // No instruction has the opcode FF.
/// assert_eq!(Op::Byte(0xFF).shape(), None);
/// ```
#[derive(Clone, Copy, PartialEq, Eq, Hash, Debug)]
#[non_exhaustive]
pub enum Shape {
    /// No immediates.
    Nothing,
    /// A number.
    U,
    /// Two numbers.
    Uu,
    /// A memory argument.
    M,
    /// A memory argument and a lane.
    Ml,
    /// A lane.
    L,
    /// A block type.
    B,
    /// A heap type.
    H,
    /// An ordering.
    O,
    /// An ordering and a number.
    Ou,
    /// An ordering and two numbers.
    Ouu,
    /// A signed number of 32 bits.
    C32,
    /// A signed number of 64 bits.
    C64,
    /// A float of 32 bits.
    F32,
    /// A float of 64 bits.
    F64,
    /// A vector of 128 bits.
    V,
    /// Sixteen lanes.
    Ls,
    /// Labels, and a default label.
    Bt,
    /// A block type and catch clauses.
    Tt,
    /// Value types.
    Ts,
    /// Flags, a label and two heap types.
    K,
    /// A number and handle clauses.
    Uh,
    /// Two numbers and handle clauses.
    Uuh,
}

/// Encodes the byte, or the prefix and the number.
///
/// # Defined
///
/// ```text
/// encoding = { op_encoding }
/// encodable = { λ _. ⊤ }
/// ```
///
/// Definitions: [`op_encoding`](crate::definitions::insn::opcodes::op_encoding). [How to read clauses](crate::definitions).
impl Encode for Op {
    #[inline(always)]
    fn encode<A: Sink>(&self, sink: &mut A) -> Result<()> {
        match *self {
            Op::Byte(byte) => byte.encode(sink),
            Op::Prefixed(prefix, number) => (prefix, number).encode(sink),
        }
    }
}

/// Decodes the opcode at the front, and returns it with the remaining bytes.
#[inline]
pub(crate) fn read_op<'a, A: Allocator + Copy, G: Grammar>(
    bytes: &'a [u8],
    alloc: A,
) -> Result<(Op, &'a [u8]), DecodeError> {
    let (byte, rest) = <u8 as Readable<'a, A, G>>::read(bytes, alloc)?;
    if byte < 0xFB {
        return Ok((Op::Byte(byte), rest));
    }
    if byte == 0xFF {
        return Ok((Op::Byte(byte), rest));
    }
    let (number, rest) = <u32 as Readable<'a, A, G>>::read(rest, alloc)?;
    Ok((Op::Prefixed(byte, number), rest))
}
