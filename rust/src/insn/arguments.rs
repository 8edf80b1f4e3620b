// Written by tools/to-rust from crates/wasm_insn/src/arguments.rt: change that.
// The arguments (immediates) of decoded instructions: decoded, and encoded again.

use crate::vec::{Sink, Vec};
use crate::insn::op::Shape;
use crate::insn::part::Part;
use crate::alloc::{Allocator, Global};
use crate::base::{DecodeError, Encode, Grammar, HeapType, ReadFault, Readable, Result, ValType};
use crate::immediates::{BlockType, Catch, Handle, Ieee32, Ieee64, MemArg, Ordering};

/// An argument of an instruction, decoded from one immediate of its shape.
///
/// [`Plain`](crate::reader::Plain) has them, and
/// [`Operands::to_args`](crate::reader::Operands::to_args) returns them.
/// To match on instructions by name, convert an opcode with its arguments:
/// `Instruction::try_from((op, args))`
/// gives a value of [`Instruction`](crate::Instruction).
///
/// # Examples
///
/// ```
/// use dolzhytik::fallible::Global;
/// use dolzhytik::reader::{Arg, Instructions};
///
/// // br_table: 0E, one label, 5, and the default label, 6.
/// let mut instructions = Instructions::new(&[0x0E, 1, 5, 6], Global);
/// let decoded = instructions.next()?.unwrap();
/// let args = decoded.operands.to_args(Global)?;
/// let [Arg::Labels(labels), Arg::U32(default)] = &args[..] else {
///     panic!("other immediates");
/// };
/// assert_eq!((&labels[..], *default), (&[5][..], 6));
/// # Ok::<(), dolzhytik::reader::DecodeError>(())
/// ```
#[derive(Debug)]
#[non_exhaustive]
pub enum Arg<A: Allocator = Global> {
    /// A number of 32 bits: an index, a label or a length.
    U32(u32),
    /// A signed constant of 32 bits.
    S32(i32),
    /// A signed constant of 64 bits.
    S64(i64),
    /// A float of 32 bits.
    F32(Ieee32),
    /// A float of 64 bits.
    F64(Ieee64),
    /// A vector of 128 bits, as a number in two's complement.
    V128(i128),
    /// A memory argument.
    Mem(MemArg),
    /// The index of a lane.
    Lane(u8),
    /// The lanes of a shuffle.
    Lanes([u8; 16]),
    /// A block type.
    Block(BlockType),
    /// A heap type.
    Heap(HeapType),
    /// An ordering.
    Order(Ordering),
    /// The labels of a branch table, without its default.
    Labels(Vec<u32, A>),
    /// The catch clauses of `try_table`.
    Catches(Vec<Catch, A>),
    /// The types of `select`.
    Types(Vec<ValType, A>),
    /// The handlers of `resume` and its like.
    Handles(Vec<Handle, A>),
    /// The flags of a cast, below 4: bit 0 is set if the first of its two types is nullable, bit 1
    /// if the second is.
    Flag(u8),
}

/// Decodes an unsigned number of 32 bits.
#[inline(always)]
fn read_unsigned<'a, A: Allocator + Copy, G: Grammar>(
    bytes: &'a [u8],
    alloc: A,
) -> Result<(Arg<A>, &'a [u8]), DecodeError> {
    let (value, rest) = <u32 as Readable<'a, A, G>>::read(bytes, alloc)?;
    Ok((Arg::U32(value), rest))
}

/// Decodes a signed number of 32 bits.
#[inline(always)]
fn read_signed32<'a, A: Allocator + Copy, G: Grammar>(
    bytes: &'a [u8],
    alloc: A,
) -> Result<(Arg<A>, &'a [u8]), DecodeError> {
    let (value, rest) = <i32 as Readable<'a, A, G>>::read(bytes, alloc)?;
    Ok((Arg::S32(value), rest))
}

/// Decodes a signed number of 64 bits.
#[inline(always)]
fn read_signed64<'a, A: Allocator + Copy, G: Grammar>(
    bytes: &'a [u8],
    alloc: A,
) -> Result<(Arg<A>, &'a [u8]), DecodeError> {
    let (value, rest) = <i64 as Readable<'a, A, G>>::read(bytes, alloc)?;
    Ok((Arg::S64(value), rest))
}

/// Decodes a float of 32 bits.
#[inline(never)]
fn read_float32<'a, A: Allocator + Copy, G: Grammar>(
    bytes: &'a [u8],
    alloc: A,
) -> Result<(Arg<A>, &'a [u8]), DecodeError> {
    let (value, rest) = <Ieee32 as Readable<'a, A, G>>::read(bytes, alloc)?;
    Ok((Arg::F32(value), rest))
}

/// Decodes a float of 64 bits.
#[inline(never)]
fn read_float64<'a, A: Allocator + Copy, G: Grammar>(
    bytes: &'a [u8],
    alloc: A,
) -> Result<(Arg<A>, &'a [u8]), DecodeError> {
    let (value, rest) = <Ieee64 as Readable<'a, A, G>>::read(bytes, alloc)?;
    Ok((Arg::F64(value), rest))
}

/// Decodes a vector of 128 bits.
#[inline(never)]
fn read_vector<'a, A: Allocator + Copy, G: Grammar>(
    bytes: &'a [u8],
    alloc: A,
) -> Result<(Arg<A>, &'a [u8]), DecodeError> {
    let (value, rest) = <i128 as Readable<'a, A, G>>::read(bytes, alloc)?;
    Ok((Arg::V128(value), rest))
}

/// Decodes a memory argument.
#[inline(always)]
fn read_memory<'a, A: Allocator + Copy, G: Grammar>(
    bytes: &'a [u8],
    alloc: A,
) -> Result<(Arg<A>, &'a [u8]), DecodeError> {
    let (value, rest) = <MemArg as Readable<'a, A, G>>::read(bytes, alloc)?;
    Ok((Arg::Mem(value), rest))
}

/// Decodes a lane.
fn read_lane<'a, A: Allocator + Copy, G: Grammar>(
    bytes: &'a [u8],
    alloc: A,
) -> Result<(Arg<A>, &'a [u8]), DecodeError> {
    let (value, rest) = <u8 as Readable<'a, A, G>>::read(bytes, alloc)?;
    Ok((Arg::Lane(value), rest))
}

/// Decodes sixteen lanes.
#[inline(never)]
fn read_lanes<'a, A: Allocator + Copy, G: Grammar>(
    bytes: &'a [u8],
    alloc: A,
) -> Result<(Arg<A>, &'a [u8]), DecodeError> {
    let (value, rest) = <[u8; 16] as Readable<'a, A, G>>::read(bytes, alloc)?;
    Ok((Arg::Lanes(value), rest))
}

/// Decodes a block type.
#[inline(always)]
fn read_block<'a, A: Allocator + Copy, G: Grammar>(
    bytes: &'a [u8],
    alloc: A,
) -> Result<(Arg<A>, &'a [u8]), DecodeError> {
    let (value, rest) = <BlockType as Readable<'a, A, G>>::read(bytes, alloc)?;
    Ok((Arg::Block(value), rest))
}

/// Decodes a heap type.
#[inline(never)]
fn read_heap<'a, A: Allocator + Copy, G: Grammar>(
    bytes: &'a [u8],
    alloc: A,
) -> Result<(Arg<A>, &'a [u8]), DecodeError> {
    let (value, rest) = <HeapType as Readable<'a, A, G>>::read(bytes, alloc)?;
    Ok((Arg::Heap(value), rest))
}

/// Decodes an ordering.
#[inline(never)]
fn read_ordering<'a, A: Allocator + Copy, G: Grammar>(
    bytes: &'a [u8],
    alloc: A,
) -> Result<(Arg<A>, &'a [u8]), DecodeError> {
    let (value, rest) = <Ordering as Readable<'a, A, G>>::read(bytes, alloc)?;
    Ok((Arg::Order(value), rest))
}

/// Decodes a vector of labels.
#[inline(never)]
fn read_labels<'a, A: Allocator + Copy, G: Grammar>(
    bytes: &'a [u8],
    alloc: A,
) -> Result<(Arg<A>, &'a [u8]), DecodeError> {
    let (value, rest) = <Vec<u32, A> as Readable<'a, A, G>>::read(bytes, alloc)?;
    Ok((Arg::Labels(value), rest))
}

/// Decodes a vector of catch clauses.
#[inline(never)]
fn read_catches<'a, A: Allocator + Copy, G: Grammar>(
    bytes: &'a [u8],
    alloc: A,
) -> Result<(Arg<A>, &'a [u8]), DecodeError> {
    let (value, rest) = <Vec<Catch, A> as Readable<'a, A, G>>::read(bytes, alloc)?;
    Ok((Arg::Catches(value), rest))
}

/// Decodes a vector of value types.
#[inline(never)]
fn read_types<'a, A: Allocator + Copy, G: Grammar>(
    bytes: &'a [u8],
    alloc: A,
) -> Result<(Arg<A>, &'a [u8]), DecodeError> {
    let (value, rest) = <Vec<ValType, A> as Readable<'a, A, G>>::read(bytes, alloc)?;
    Ok((Arg::Types(value), rest))
}

/// Decodes a vector of handle clauses.
#[inline(never)]
fn read_handles<'a, A: Allocator + Copy, G: Grammar>(
    bytes: &'a [u8],
    alloc: A,
) -> Result<(Arg<A>, &'a [u8]), DecodeError> {
    let (value, rest) = <Vec<Handle, A> as Readable<'a, A, G>>::read(bytes, alloc)?;
    Ok((Arg::Handles(value), rest))
}

/// Decodes the flags of a cast.
fn read_flag<'a, A: Allocator + Copy, G: Grammar>(
    bytes: &'a [u8],
    alloc: A,
) -> Result<(Arg<A>, &'a [u8]), DecodeError> {
    let (value, rest) = <u8 as Readable<'a, A, G>>::read(bytes, alloc)?;
    if value < 4 {
        Ok((Arg::Flag(value), rest))
    } else {
        Err(ReadFault::UnknownTag.just_before(rest))
    }
}

/// Decodes one argument. Rare and long arms are not inlined: with all of them inline, the compiler
/// moves the result of each arm through all of them.
pub(crate) fn read_part<'a, A: Allocator + Copy, G: Grammar>(
    wanted: Part,
    bytes: &'a [u8],
    alloc: A,
) -> Result<(Arg<A>, &'a [u8]), DecodeError> {
    match wanted {
        Part::Unsigned => read_unsigned::<A, G>(bytes, alloc),
        Part::Signed32 => read_signed32::<A, G>(bytes, alloc),
        Part::Signed64 => read_signed64::<A, G>(bytes, alloc),
        Part::Float32 => read_float32::<A, G>(bytes, alloc),
        Part::Float64 => read_float64::<A, G>(bytes, alloc),
        Part::Vector => read_vector::<A, G>(bytes, alloc),
        Part::Memory => read_memory::<A, G>(bytes, alloc),
        Part::Lane => read_lane::<A, G>(bytes, alloc),
        Part::Lanes => read_lanes::<A, G>(bytes, alloc),
        Part::Block => read_block::<A, G>(bytes, alloc),
        Part::Heap => read_heap::<A, G>(bytes, alloc),
        Part::Ordering => read_ordering::<A, G>(bytes, alloc),
        Part::Labels => read_labels::<A, G>(bytes, alloc),
        Part::Catches => read_catches::<A, G>(bytes, alloc),
        Part::Types => read_types::<A, G>(bytes, alloc),
        Part::Handles => read_handles::<A, G>(bytes, alloc),
        Part::Flag => read_flag::<A, G>(bytes, alloc),
    }
}

/// Decodes one argument for each of `wanted`, appends it to `args`, and returns the remaining
/// bytes.
fn read_parts<'a, A: Allocator + Copy, G: Grammar>(
    wanted: &[Part],
    bytes: &'a [u8],
    alloc: A,
    args: &mut Vec<Arg<A>, A>,
) -> Result<&'a [u8], DecodeError> {
    let mut rest = bytes;
    for part in wanted {
        let (arg, after) = read_part::<A, G>(*part, rest, alloc)?;
        args.push(arg)?;
        rest = after;
    }
    Ok(rest)
}

/// Decodes the arguments of any shape, into a list of exactly their number. Out of line, for rare
/// shapes.
#[inline(never)]
pub(crate) fn read_any<'a, A: Allocator + Copy, G: Grammar>(
    shape: Shape,
    bytes: &'a [u8],
    alloc: A,
) -> Result<(Vec<Arg<A>, A>, &'a [u8]), DecodeError> {
    let wanted = shape.parts();
    let mut args = Vec::with_capacity(alloc, wanted.len())?;
    let rest = read_parts::<A, G>(wanted, bytes, alloc, &mut args)?;
    Ok((args, rest))
}

/// Returns the list of one argument.
#[inline(always)]
pub(crate) fn list_one<A: Allocator + Copy>(
    alloc: A,
    arg: Arg<A>,
) -> Result<Vec<Arg<A>, A>, DecodeError> {
    let mut args = Vec::with_capacity(alloc, 1)?;
    args.push_reserved(arg);
    Ok(args)
}

/// # Defined
///
/// ```text
/// encoding = { λ a. argument_encoding (argument_view a) }
/// encodable = { λ a. argument_encodable (argument_view a) }
/// ```
///
/// Definitions: [`argument_encoding`](crate::definitions::insn::arguments::argument_encoding), [`argument_view`](crate::definitions::insn::views::argument_view), [`argument_encodable`](crate::definitions::insn::arguments::argument_encodable). [How to read clauses](crate::definitions).
impl<A: Allocator> Encode for Arg<A> {
    fn encode<B: Sink>(&self, sink: &mut B) -> Result<()> {
        match self {
            Arg::U32(n) => n.encode(sink),
            Arg::S32(n) => n.encode(sink),
            Arg::S64(n) => n.encode(sink),
            Arg::F32(float) => float.encode(sink),
            Arg::F64(float) => float.encode(sink),
            Arg::V128(vector) => vector.to_le_bytes().encode(sink),
            Arg::Mem(memory) => memory.encode(sink),
            Arg::Lane(lane) => lane.encode(sink),
            Arg::Lanes(lanes) => lanes.encode(sink),
            Arg::Block(block) => block.encode(sink),
            Arg::Heap(heap) => heap.encode(sink),
            Arg::Order(ordering) => ordering.encode(sink),
            Arg::Labels(labels) => labels.as_slice().encode(sink),
            Arg::Catches(catches) => catches.as_slice().encode(sink),
            Arg::Types(types) => types.as_slice().encode(sink),
            Arg::Handles(handles) => handles.as_slice().encode(sink),
            Arg::Flag(flag) => flag.encode(sink),
        }
    }
}

/// Appends the minimal encodings of the arguments.
pub(crate) fn append_arguments<A: Allocator, B: Sink>(
    args: &[Arg<A>],
    sink: &mut B,
) -> Result<()> {
    for arg in args {
        arg.encode(sink)?;
    }
    Ok(())
}
