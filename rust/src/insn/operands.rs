// Written by tools/to-rust from crates/wasm_insn/src/operands.rt: change that.
// The operands of a decoded instruction, which borrow its bytes. Short encodings are decoded inline,
// all others out of line.

use crate::vec::Vec;
use crate::insn::arguments::{Arg, list_one, read_any};
use crate::insn::op::{Op, Shape, read_op};
use crate::insn::table::byte_shape;
use crate::insn::walk::walk_any;
use crate::alloc::Allocator;
use crate::base::{DecodeError, Discard, Grammar, ReadFault, Readable, Result, Standard};
use crate::immediates::{BlockType, MemArg, MemArgTarget};

/// The operands (immediates) of a decoded instruction. They borrow the bytes that were decoded, and
/// need no memory.
///
/// [`Decoded`](crate::reader::Decoded) has them. [`Members`](crate::reader::Members) iterates
/// over a list among encoded
/// operands, and [`to_args`](crate::reader::Operands::to_args) decodes all of them.
///
/// # Examples
///
/// ```
/// use dolzhytik::fallible::{Global, Shape};
/// use dolzhytik::reader::{Instructions, Operands};
///
/// // i64.const -1: 42 7F. f32.const 1.0: 43, and four bytes.
/// let bytes = [0x42, 0x7F, 0x43, 0, 0, 0x80, 0x3F];
/// let mut instructions = Instructions::new(&bytes, Global);
/// let first = instructions.next()?.unwrap();
/// assert!(matches!(first.operands, Operands::S64(-1)));
/// let second = instructions.next()?.unwrap();
/// assert!(matches!(second.operands, Operands::Encoded(Shape::F32, [0, 0, 0x80, 0x3F])));
/// # Ok::<(), dolzhytik::reader::DecodeError>(())
/// ```
#[derive(Clone, Copy, Debug)]
#[non_exhaustive]
pub enum Operands<'a> {
    /// No operands.
    Nothing,
    /// A number of 32 bits: an index or a label.
    U32(u32),
    /// A signed constant of 32 bits.
    S32(i32),
    /// A signed constant of 64 bits.
    S64(i64),
    /// A memory argument.
    Mem(MemArg),
    /// A block type.
    Block(BlockType),
    /// The operands of a shape without a case of its own: the shape, and their encoding.
    Encoded(Shape, &'a [u8]),
}

impl<'a> Operands<'a> {
    /// Decodes the operands into a list of exactly their number.
    ///
    /// # Errors
    ///
    /// Every error except `Memory` means that no decoded instruction has these operands: `Encoded`
    /// has bytes that do not encode immediates of the shape, or bytes after them, or a shape with a
    /// case of its own.
    ///
    /// # Proved
    ///
    /// After `Ok`: `found`, the list has the operands, in their order; `only`, the operands are no other list. After an error: `none`, the instruction is a variant of its own, or the bytes do not encode immediates of its shape, unless the cause is `Memory`.
    ///
    /// ```text
    /// ensures found { IfOk result
    ///     (λ args. AreOperands self.entry (map argument_view args.items)) }
    /// ensures only { IfOk result
    ///     (λ args. (xs : List Argument) → AreOperands self.entry xs
    ///         → map argument_view args.items ≡ xs) }
    /// ensures none { IfErr result (λ e. e.cause ≢ Memory → AreNoOperands self.entry) }
    /// ```
    ///
    /// Definitions: [`AreOperands`](crate::definitions::insn::operands::AreOperands), [`argument_view`](crate::definitions::insn::views::argument_view), [`Argument`](crate::definitions::insn::arguments::Argument), [`AreNoOperands`](crate::definitions::insn::operands::AreNoOperands). [How to read clauses](crate::definitions).
    #[doc(alias = "immediates")]
    #[doc(alias = "operands")]
    #[inline(always)]
    pub fn to_args<A: Allocator + Copy>(self, alloc: A) -> Result<Vec<Arg<A>, A>, DecodeError> {
        match self {
            Operands::Nothing => Ok(Vec::new(alloc)),
            Operands::U32(n) => list_one(alloc, Arg::U32(n)),
            Operands::S32(n) => list_one(alloc, Arg::S32(n)),
            Operands::S64(n) => list_one(alloc, Arg::S64(n)),
            Operands::Mem(memory) => list_one(alloc, Arg::Mem(memory)),
            Operands::Block(block) => list_one(alloc, Arg::Block(block)),
            Operands::Encoded(shape, bytes) => decode_encoded(shape, bytes, alloc),
        }
    }
}

/// Returns whether operands of this shape have a case of their own in [`Operands`].
fn has_own_case(shape: Shape) -> bool {
    matches!(
        shape,
        Shape::Nothing | Shape::U | Shape::C32 | Shape::C64 | Shape::M | Shape::B
    )
}

/// Decodes the operands of a shape without a case of its own, which occupy all of the bytes.
#[inline(never)]
fn decode_encoded<A: Allocator + Copy>(
    shape: Shape,
    bytes: &[u8],
    alloc: A,
) -> Result<Vec<Arg<A>, A>, DecodeError> {
    if has_own_case(shape) {
        return Err(ReadFault::UnknownTag.at(bytes));
    }
    let (args, rest) = read_any::<A, Standard>(shape, bytes, alloc)?;
    if rest.is_empty() {
        Ok(args)
    } else {
        Err(ReadFault::SizeMismatch.at(rest))
    }
}

/// Returns the first byte and the others, if the first byte is below 128: it is a number by itself.
#[inline(always)]
fn one_byte(bytes: &[u8]) -> Option<(u8, &[u8])> {
    let [byte, rest @ ..] = bytes else {
        return None;
    };
    if *byte < 0x80 {
        Some((*byte, rest))
    } else {
        None
    }
}

/// Returns the number that one byte encodes in two's complement.
#[inline(always)]
fn signed_byte(byte: u8) -> i16 {
    if byte < 0x40 {
        i16::from(byte)
    } else {
        i16::from(byte) - 0x80
    }
}

/// Decodes the operands of the most frequent shapes if each of them has one byte. `None` says
/// nothing about the bytes.
#[inline(always)]
fn read_short_operands<'a, G: Grammar>(
    shape: Shape,
    bytes: &'a [u8],
) -> Option<(Operands<'a>, &'a [u8])> {
    match shape {
        Shape::Nothing => Some((Operands::Nothing, bytes)),
        Shape::U => {
            let (byte, rest) = one_byte(bytes)?;
            Some((Operands::U32(u32::from(byte)), rest))
        }
        Shape::C32 => {
            let (byte, rest) = one_byte(bytes)?;
            Some((Operands::S32(i32::from(signed_byte(byte))), rest))
        }
        Shape::C64 => {
            let (byte, rest) = one_byte(bytes)?;
            Some((Operands::S64(i64::from(signed_byte(byte))), rest))
        }
        Shape::M => {
            let (align, rest) = one_byte(bytes)?;
            if align >= 0x10 {
                return None;
            }
            let (offset, rest) = one_byte(rest)?;
            let memory = MemArg {
                offset: u64::from(offset),
                align: u32::from(align),
                target: MemArgTarget::Memory(0),
                ordering: None,
            };
            Some((Operands::Mem(memory), rest))
        }
        Shape::B => {
            let (byte, rest) = one_byte(bytes)?;
            if byte != 0x40 {
                return None;
            }
            Some((Operands::Block(BlockType::Empty), rest))
        }
        _ => None,
    }
}

/// Decodes the instruction at the front if it has a one-byte opcode of the most frequent shapes,
/// and each of its operands has one byte. `None` says nothing about the bytes.
#[inline(always)]
pub(crate) fn read_short<'a, G: Grammar>(bytes: &'a [u8]) -> Option<(Op, Operands<'a>, &'a [u8])> {
    let [byte, rest @ ..] = bytes else {
        return None;
    };
    if *byte >= 0xFB {
        return None;
    }
    let shape = byte_shape(*byte)?;
    let (operands, rest) = read_short_operands::<G>(shape, rest)?;
    Some((Op::Byte(*byte), operands, rest))
}

/// Decodes the operands of a shape without a case of its own: they are skipped, and their bytes
/// kept.
#[inline(never)]
fn read_encoded<'a, A: Allocator + Copy, G: Grammar>(
    shape: Shape,
    bytes: &'a [u8],
    alloc: A,
) -> Result<(Operands<'a>, &'a [u8]), DecodeError> {
    let rest = walk_any::<A, G, _>(shape, bytes, alloc, &mut Discard)?;
    let (encoded, rest) = bytes.split_at(bytes.len() - rest.len());
    Ok((Operands::Encoded(shape, encoded), rest))
}

/// Decodes the operands of an opcode of this shape, and returns them with the remaining bytes.
fn read_operands<'a, A: Allocator + Copy, G: Grammar>(
    shape: Shape,
    bytes: &'a [u8],
    alloc: A,
) -> Result<(Operands<'a>, &'a [u8]), DecodeError> {
    match shape {
        Shape::Nothing => Ok((Operands::Nothing, bytes)),
        Shape::U => {
            let (number, rest) = <u32 as Readable<'a, A, G>>::read(bytes, alloc)?;
            Ok((Operands::U32(number), rest))
        }
        Shape::C32 => {
            let (number, rest) = <i32 as Readable<'a, A, G>>::read(bytes, alloc)?;
            Ok((Operands::S32(number), rest))
        }
        Shape::C64 => {
            let (number, rest) = <i64 as Readable<'a, A, G>>::read(bytes, alloc)?;
            Ok((Operands::S64(number), rest))
        }
        Shape::M => {
            let (memory, rest) = <MemArg as Readable<'a, A, G>>::read(bytes, alloc)?;
            Ok((Operands::Mem(memory), rest))
        }
        Shape::B => {
            let (block, rest) = <BlockType as Readable<'a, A, G>>::read(bytes, alloc)?;
            Ok((Operands::Block(block), rest))
        }
        _ => read_encoded::<A, G>(shape, bytes, alloc),
    }
}

/// Decodes any instruction at the front. Out of line, for rare shapes and long numbers.
#[inline(never)]
pub(crate) fn read_long<'a, A: Allocator + Copy, G: Grammar>(
    bytes: &'a [u8],
    alloc: A,
) -> Result<(Op, Operands<'a>, &'a [u8]), DecodeError> {
    let (op, rest) = read_op::<A, G>(bytes, alloc)?;
    let Some(shape) = op.shape() else {
        return Err(ReadFault::UnknownOpcode.at(bytes));
    };
    let (operands, rest) = read_operands::<A, G>(shape, rest, alloc)?;
    Ok((op, operands, rest))
}

/// Decodes the instruction at the front, and returns its opcode, its operands and the remaining
/// bytes. Nothing is allocated.
///
/// # Errors
///
/// An error means that no instruction is at the front.
///
/// # Proved
///
/// - After `Ok`, `found`: An instruction with this opcode and these operands decodes from the front of the bytes.
/// - After an error, `none`: the bytes do not begin with such an encoding, unless the cause is `Memory`.
///
/// ```text
/// ensures found { IfOk result
///     (λ x. DecodesOperation (instruction table)
///         (padded_of G.grammar) bytes.now x.0 x.1 x.2.now) }
/// ensures none { IfErr result
///     (λ e. e.cause ≢ Memory → Rejects (instruction table)
///         (padded_of G.grammar) bytes.now) }
/// ensures no_memory { IfErr result (λ e. e.cause ≢ Memory) }
/// ```
///
/// Definitions: [`DecodesOperation`](crate::definitions::insn::operands::DecodesOperation), [`instruction`](crate::definitions::insn::plain::instruction), [`table`](crate::definitions::insn::table::table), [`padded_of`](crate::definitions::base::numbers::padded_of), [`Rejects`](crate::definitions::base::decoding::Rejects). [How to read clauses](crate::definitions).
#[inline(always)]
pub fn read_instruction<'a, A: Allocator + Copy, G: Grammar>(
    bytes: &'a [u8],
    alloc: A,
) -> Result<(Op, Operands<'a>, &'a [u8]), DecodeError> {
    if let Some(short) = read_short::<G>(bytes) {
        return Ok(short);
    }
    // Taken apart, so that the compiler keeps the results of both ways in registers.
    let (op, operands, rest) = read_long::<A, G>(bytes, alloc)?;
    Ok((op, operands, rest))
}
