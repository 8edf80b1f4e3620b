// Written by tools/to-rust from crates/wasm_remap/src/bodies.rt: change that.
// Bodies that are mapped instruction by instruction. No list of a body is kept.

use crate::vec::{Sink, Vec};
use crate::remap::indexed::{Indexed, Remap, mapped_number};
use crate::remap::spaces::spaces_of;
use crate::remap::streamed::{Stopped, Streamed, append_many};
use crate::alloc::Allocator;
use crate::base::{Encode, EncodeIn, Readable, Shorten, Standard, ValType, Walk, prefix_size_since};
use crate::code::Body;
use crate::immediates::{BlockType, MemArg};
use crate::insn::{Op, Operands, Plain, Shape, read_instruction};
use crate::reader::Section;

/// Returns `true` if the byte is a one-byte opcode whose immediates have no index. A test by ranges,
/// since most instructions are such.
#[inline(always)]
fn begins_without_index(byte: u8) -> bool {
    matches!(
        byte,
        0x00..=0x01 | 0x05 | 0x0B..=0x0F | 0x1A..=0x1B | 0x20..=0x22 | 0x41..=0xC4
    )
}

/// Returns `true` only if the operands have no index, whatever opcode they follow.
#[inline(always)]
fn have_no_index(operands: Operands<'_>) -> bool {
    match operands {
        Operands::Nothing | Operands::S32(_) | Operands::S64(_) => true,
        Operands::Encoded(shape, _) => matches!(
            shape,
            Shape::L | Shape::F32 | Shape::F64 | Shape::V | Shape::Ls
        ),
        Operands::U32(_) | Operands::Mem(_) | Operands::Block(_) => false,
    }
}

/// Appends an opcode and a number, which is mapped if it is an index.
#[inline(always)]
fn append_number<M: Remap, B: Sink>(
    op: Op,
    number: u32,
    indices: &M,
    sink: &mut B,
) -> Result<(), Stopped> {
    let number = mapped_number(indices, spaces_of(op).0, number)?;
    op.encode(sink)?;
    number.encode(sink)?;
    Ok(())
}

/// Appends an opcode and the two numbers of these bytes, each of which is mapped if it is an index.
fn append_numbers<A: Allocator + Copy, M: Remap, B: Sink>(
    op: Op,
    bytes: &[u8],
    alloc: A,
    indices: &M,
    sink: &mut B,
) -> Result<(), Stopped> {
    let (numbers, _rest) = <(u32, u32) as Readable<'_, A, Standard>>::read(bytes, alloc)?;
    let spaces = spaces_of(op);
    let first = mapped_number(indices, spaces.0, numbers.0)?;
    let second = mapped_number(indices, spaces.1, numbers.1)?;
    op.encode(sink)?;
    first.encode(sink)?;
    second.encode(sink)?;
    Ok(())
}

/// Appends an opcode and a memory argument whose index is mapped.
#[inline(always)]
fn append_memory<A: Allocator + Copy, M: Remap, B: Sink>(
    op: Op,
    argument: MemArg,
    alloc: A,
    indices: &M,
    sink: &mut B,
) -> Result<(), Stopped> {
    let mut argument = argument;
    argument.remap(alloc, indices)?;
    op.encode(sink)?;
    argument.encode(sink)?;
    Ok(())
}

/// Appends an opcode and a block type whose indices are mapped.
#[inline(always)]
fn append_block<A: Allocator + Copy, M: Remap, B: Sink>(
    op: Op,
    ty: BlockType,
    alloc: A,
    indices: &M,
    sink: &mut B,
) -> Result<(), Stopped> {
    let mut ty = ty;
    ty.remap(alloc, indices)?;
    op.encode(sink)?;
    <BlockType as EncodeIn<Standard>>::encode_in(&ty, sink)?;
    Ok(())
}

/// Appends any instruction with each index mapped. Its immediates are decoded into a list. They are
/// encoded as builders do, and a walk makes that minimal. Out of line, for rare instructions.
#[inline(never)]
fn append_rare<A: Allocator + Copy, M: Remap, B: Sink>(
    op: Op,
    operands: Operands<'_>,
    alloc: A,
    indices: &M,
    sink: &mut B,
) -> Result<(), Stopped> {
    let args = operands.to_args(alloc)?;
    let mut plain = Plain { op, args };
    plain.remap(alloc, indices)?;
    let mut encoding = Vec::new(alloc);
    plain.write_minimal(&mut encoding)?;
    <Plain<A> as Walk<Standard>>::walk(&encoding, alloc, sink)?;
    Ok(())
}

/// Appends the instruction of this opcode and these operands with each index mapped.
#[inline(always)]
fn append_operation<A: Allocator + Copy, M: Remap, B: Sink>(
    op: Op,
    operands: Operands<'_>,
    alloc: A,
    indices: &M,
    sink: &mut B,
) -> Result<(), Stopped> {
    match operands {
        Operands::U32(number) => append_number(op, number, indices, sink),
        Operands::Mem(argument) => append_memory(op, argument, alloc, indices, sink),
        Operands::Block(ty) => append_block(op, ty, alloc, indices, sink),
        Operands::Encoded(Shape::Uu, bytes) => append_numbers(op, bytes, alloc, indices, sink),
        _ => append_rare(op, operands, alloc, indices, sink),
    }
}

/// Appends the instruction at the front with each index mapped, and returns the remaining bytes. One
/// without an index is walked over, as the minimizer does.
#[inline(always)]
fn append_instruction<'a, A: Allocator + Copy, M: Remap, B: Sink>(
    bytes: &'a [u8],
    alloc: A,
    indices: &M,
    sink: &mut B,
) -> Result<&'a [u8], Stopped> {
    if let [byte, ..] = bytes {
        if begins_without_index(*byte) {
            return Ok(<Plain<A> as Walk<Standard>>::walk(bytes, alloc, sink)?);
        }
    }
    let (op, operands, rest) = read_instruction::<A, Standard>(bytes, alloc)?;
    if have_no_index(operands) {
        return Ok(<Plain<A> as Walk<Standard>>::walk(bytes, alloc, sink)?);
    }
    append_operation(op, operands, alloc, indices, sink)?;
    Ok(rest)
}

/// Appends the instructions that occupy all of the bytes, with each index mapped.
fn append_code<A: Allocator + Copy, M: Remap, B: Sink>(
    bytes: &[u8],
    alloc: A,
    indices: &M,
    sink: &mut B,
) -> Result<(), Stopped> {
    let mut rest = bytes;
    loop {
        if rest.is_empty() {
            return Ok(());
        }
        rest = append_instruction(rest, alloc, indices, sink)?;
    }
}

/// A run of locals: their number, and their type.
///
/// # Defined
///
/// ```text
/// Value = { ℕ × ValType }
/// format = { pair u32 val_type }
/// image = { λ m run. (run.0, remapped_val m run.1) }
/// ```
///
/// Definitions: [`pair`](crate::definitions::base::formats::pair), [`u32`](crate::definitions::base::formats::u32), [`val_type`](crate::definitions::base::types::val_type), [`remapped_val`](crate::definitions::remap::instructions::remapped_val). [How to read clauses](crate::definitions).
impl<A: Allocator + Copy> Streamed<A> for (u32, ValType) {
    fn append_remapped<'a, M: Remap, B: Sink>(
        bytes: &'a [u8],
        alloc: A,
        indices: &M,
        sink: &mut B,
    ) -> Result<&'a [u8], Stopped> {
        let (count, rest) = <u32 as Readable<'a, A, Standard>>::read(bytes, alloc)?;
        let (mut ty, rest) = <ValType as Readable<'a, A, Standard>>::read(rest, alloc)?;
        ty.remap(alloc, indices)?;
        count.encode(sink)?;
        <ValType as EncodeIn<Standard>>::encode_in(&ty, sink)?;
        Ok(rest)
    }
}

/// Appends the content of a body with each index mapped, without a size prefix.
fn append_content<A: Allocator + Copy, M: Remap, B: Sink>(
    bytes: &[u8],
    alloc: A,
    indices: &M,
    sink: &mut B,
) -> Result<(), Stopped> {
    let code = append_many::<(u32, ValType), _, _, _>(bytes, alloc, indices, sink)?;
    append_code(code, alloc, indices, sink)?;
    Ok(())
}

/// A body with its size prefix, as in a code section.
///
/// # Defined
///
/// ```text
/// Value = { BodyModel }
/// format = { size_prefixed body }
/// image = { remapped_body }
/// ```
///
/// Definitions: [`BodyModel`](crate::definitions::code::bodies::Body), [`size_prefixed`](crate::definitions::base::formats::size_prefixed), [`body`](crate::definitions::code::bodies::body), [`remapped_body`](crate::definitions::remap::instructions::remapped_body). [How to read clauses](crate::definitions).
impl<A: Allocator + Copy> Streamed<A> for Body<A> {
    fn append_remapped<'a, M: Remap, B: Sink>(
        bytes: &'a [u8],
        alloc: A,
        indices: &M,
        sink: &mut B,
    ) -> Result<&'a [u8], Stopped> {
        let (content, rest) = <&'a [u8] as Readable<'a, A, Standard>>::read(bytes, alloc)?;
        let start = sink.len();
        append_content(content, alloc, indices, sink)?;
        prefix_size_since(sink, start)?;
        Ok(rest)
    }
}

/// Appends the bodies that occupy all of the bytes, after their number, with each index mapped.
fn append_bodies<A: Allocator + Copy, M: Remap, B: Sink>(
    bytes: &[u8],
    alloc: A,
    indices: &M,
    sink: &mut B,
) -> Result<(), Stopped> {
    let rest = append_many::<Body<A>, _, _, _>(bytes, alloc, indices, sink)?;
    if rest.is_empty() {
        Ok(())
    } else {
        Err(Stopped::Other)
    }
}

/// Appends the minimal encoding of the bodies of a code section with each index mapped. They are
/// decoded instruction by instruction. On an error, the sink is unchanged.
pub(crate) fn remap_bodies<A: Allocator + Copy, M: Remap, B: Sink>(
    section: &Section<'_, A>,
    alloc: A,
    indices: &M,
    sink: &mut B,
) -> Result<(), Stopped> {
    let start = sink.len();
    let appended = append_bodies(section.payload(), alloc, indices, sink);
    if appended.is_err() {
        sink.truncate(start);
    }
    appended
}
