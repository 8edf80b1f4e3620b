// Written by tools/to-rust from crates/wasm_insn/src/walk.rt: change that.
// Walks over instructions and their arguments.

use crate::vec::Vec;
use crate::insn::arguments::read_part;
use crate::insn::op::{Shape, read_op};
use crate::insn::operands::read_instruction;
use crate::insn::part::Part;
use crate::insn::plain::Plain;
use crate::alloc::Allocator;
use crate::base::{DecodeError, Effect, Grammar, Layout, ReadFault, ValType, Walk};
use crate::immediates::{BlockType, Catch, Handle, MemArg};

/// Walks over an argument that has the same encodings in both grammars: it is decoded, and encoded
/// again. Out of line, for rare arguments.
#[inline(never)]
fn walk_rare<'a, A: Allocator + Copy, G: Grammar, E: Effect>(
    wanted: Part,
    bytes: &'a [u8],
    alloc: A,
    effect: &mut E,
) -> Result<&'a [u8], DecodeError> {
    let (arg, rest) = read_part::<A, G>(wanted, bytes, alloc)?;
    effect.put(&arg)?;
    Ok(rest)
}

/// Walks over one argument. Lists are walked over member by member.
fn walk_part<'a, A: Allocator + Copy, G: Grammar, E: Effect>(
    wanted: Part,
    bytes: &'a [u8],
    alloc: A,
    effect: &mut E,
) -> Result<&'a [u8], DecodeError> {
    match wanted {
        Part::Unsigned => <u32 as Walk<G>>::walk(bytes, alloc, effect),
        Part::Block => <BlockType as Walk<G>>::walk(bytes, alloc, effect),
        Part::Labels => <Vec<u32, A> as Walk<G>>::walk(bytes, alloc, effect),
        Part::Catches => <Vec<Catch, A> as Walk<G>>::walk(bytes, alloc, effect),
        Part::Types => <Vec<ValType, A> as Walk<G>>::walk(bytes, alloc, effect),
        Part::Handles => <Vec<Handle, A> as Walk<G>>::walk(bytes, alloc, effect),
        _ => walk_rare::<A, G, _>(wanted, bytes, alloc, effect),
    }
}

/// Walks over one argument for each of `wanted`.
fn walk_parts<'a, A: Allocator + Copy, G: Grammar, E: Effect>(
    wanted: &[Part],
    bytes: &'a [u8],
    alloc: A,
    effect: &mut E,
) -> Result<&'a [u8], DecodeError> {
    let mut rest = bytes;
    for part in wanted {
        rest = walk_part::<A, G, _>(*part, rest, alloc, effect)?;
    }
    Ok(rest)
}

/// Walks over the arguments of any shape. Out of line, for rare shapes.
#[inline(never)]
pub(crate) fn walk_any<'a, A: Allocator + Copy, G: Grammar, E: Effect>(
    shape: Shape,
    bytes: &'a [u8],
    alloc: A,
    effect: &mut E,
) -> Result<&'a [u8], DecodeError> {
    walk_parts::<A, G, _>(shape.parts(), bytes, alloc, effect)
}

/// Walks over the arguments of an opcode of this shape. Common shapes have a case of their own.
#[inline(always)]
fn walk_arguments<'a, A: Allocator + Copy, G: Grammar, E: Effect>(
    shape: Shape,
    bytes: &'a [u8],
    alloc: A,
    effect: &mut E,
) -> Result<&'a [u8], DecodeError> {
    match shape {
        Shape::Nothing => Ok(bytes),
        Shape::U => <u32 as Walk<G>>::walk(bytes, alloc, effect),
        Shape::M => <MemArg as Walk<G>>::walk(bytes, alloc, effect),
        Shape::C32 => <i32 as Walk<G>>::walk(bytes, alloc, effect),
        Shape::C64 => <i64 as Walk<G>>::walk(bytes, alloc, effect),
        Shape::B => <BlockType as Walk<G>>::walk(bytes, alloc, effect),
        _ => walk_any::<A, G, _>(shape, bytes, alloc, effect),
    }
}

/// Walks over an instruction whose encoding the effect takes.
#[inline(always)]
fn walk_written<'a, A: Allocator + Copy, G: Grammar, E: Effect>(
    bytes: &'a [u8],
    alloc: A,
    effect: &mut E,
) -> Result<&'a [u8], DecodeError> {
    let (op, rest) = read_op::<A, G>(bytes, alloc)?;
    let Some(shape) = op.shape() else {
        return Err(ReadFault::UnknownOpcode.at(bytes));
    };
    effect.put(&op)?;
    walk_arguments::<A, G, _>(shape, rest, alloc, effect)
}

/// An idle effect takes the way of the visitor, which is faster.
impl<G: Grammar, C: Allocator> Walk<G> for Plain<C> {
    #[inline(always)]
    fn walk<'a, A: Allocator + Copy, E: Effect>(
        bytes: &'a [u8],
        alloc: A,
        effect: &mut E,
    ) -> Result<&'a [u8], DecodeError> {
        if E::is_idle() {
            <Plain<C> as Layout>::laws();
            let (_op, _operands, rest) = read_instruction::<A, G>(bytes, alloc)?;
            return Ok(rest);
        }
        walk_written::<A, G, _>(bytes, alloc, effect)
    }
}
