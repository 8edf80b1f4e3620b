// Written by tools/to-rust from crates/wasm_reader/src/convert.rt: change that.
// The instruction that an opcode and its immediates are.

use crate::reader::by_opcode::{of_block, of_clauses, of_float32, of_float64, of_handles, of_heap, of_labels, of_lane, of_lanes, of_memory, of_memory_lane, of_nothing, of_number, of_numbers, of_numbers_handles, of_ordering, of_ordering_number, of_ordering_numbers, of_signed32, of_signed64, of_types, of_vector, with_cast};
use crate::alloc::Allocator;
use crate::base::{HeapType, RefType, ValType};
use crate::immediates::{BlockType, Catch, Handle, Ieee32, Ieee64, Lane, MemArg, Ordering};
use crate::insn::{Arg, Instruction, Op, Shape};

/// Returns a number, or `None` if the argument is another.
pub(crate) fn number_of<A: Allocator>(arg: &Arg<A>) -> Option<u32> {
    match arg {
        Arg::U32(found) => Some(*found),
        _ => None,
    }
}

/// Returns a signed number of 32 bits, or `None` if the argument is another.
pub(crate) fn signed32_of<A: Allocator>(arg: &Arg<A>) -> Option<i32> {
    match arg {
        Arg::S32(found) => Some(*found),
        _ => None,
    }
}

/// Returns a signed number of 64 bits, or `None` if the argument is another.
pub(crate) fn signed64_of<A: Allocator>(arg: &Arg<A>) -> Option<i64> {
    match arg {
        Arg::S64(found) => Some(*found),
        _ => None,
    }
}

/// Returns a float of 32 bits, or `None` if the argument is another.
pub(crate) fn float32_of<A: Allocator>(arg: &Arg<A>) -> Option<Ieee32> {
    match arg {
        Arg::F32(found) => Some(*found),
        _ => None,
    }
}

/// Returns a float of 64 bits, or `None` if the argument is another.
pub(crate) fn float64_of<A: Allocator>(arg: &Arg<A>) -> Option<Ieee64> {
    match arg {
        Arg::F64(found) => Some(*found),
        _ => None,
    }
}

/// Returns a vector, or `None` if the argument is another.
pub(crate) fn vector_of<A: Allocator>(arg: &Arg<A>) -> Option<i128> {
    match arg {
        Arg::V128(found) => Some(*found),
        _ => None,
    }
}

/// Returns a memory argument, or `None` if the argument is another.
pub(crate) fn memory_of<A: Allocator>(arg: &Arg<A>) -> Option<MemArg> {
    match arg {
        Arg::Mem(found) => Some(*found),
        _ => None,
    }
}

/// Returns a lane, or `None` if the argument is another.
pub(crate) fn lane_of<A: Allocator>(arg: &Arg<A>) -> Option<Lane> {
    match arg {
        Arg::Lane(found) => Some(*found),
        _ => None,
    }
}

/// Returns sixteen lanes, or `None` if the argument is another.
pub(crate) fn lanes_of<A: Allocator>(arg: &Arg<A>) -> Option<[Lane; 16]> {
    match arg {
        Arg::Lanes(found) => Some(*found),
        _ => None,
    }
}

/// Returns a block type, or `None` if the argument is another.
pub(crate) fn block_of<A: Allocator>(arg: &Arg<A>) -> Option<BlockType> {
    match arg {
        Arg::Block(found) => Some(*found),
        _ => None,
    }
}

/// Returns a heap type, or `None` if the argument is another.
pub(crate) fn heap_of<A: Allocator>(arg: &Arg<A>) -> Option<HeapType> {
    match arg {
        Arg::Heap(found) => Some(*found),
        _ => None,
    }
}

/// Returns an ordering, or `None` if the argument is another.
pub(crate) fn ordering_of<A: Allocator>(arg: &Arg<A>) -> Option<Ordering> {
    match arg {
        Arg::Order(found) => Some(*found),
        _ => None,
    }
}

/// Returns labels, or `None` if the argument is another.
pub(crate) fn labels_of<A: Allocator>(arg: &Arg<A>) -> Option<&[u32]> {
    match arg {
        Arg::Labels(found) => Some(found.as_slice()),
        _ => None,
    }
}

/// Returns catch clauses, or `None` if the argument is another.
pub(crate) fn catches_of<A: Allocator>(arg: &Arg<A>) -> Option<&[Catch]> {
    match arg {
        Arg::Catches(found) => Some(found.as_slice()),
        _ => None,
    }
}

/// Returns value types, or `None` if the argument is another.
pub(crate) fn types_of<A: Allocator>(arg: &Arg<A>) -> Option<&[ValType]> {
    match arg {
        Arg::Types(found) => Some(found.as_slice()),
        _ => None,
    }
}

/// Returns handle clauses, or `None` if the argument is another.
pub(crate) fn handles_of<A: Allocator>(arg: &Arg<A>) -> Option<&[Handle]> {
    match arg {
        Arg::Handles(found) => Some(found.as_slice()),
        _ => None,
    }
}

/// Returns the flags of a cast, or `None` if the argument is another.
pub(crate) fn flag_of<A: Allocator>(arg: &Arg<A>) -> Option<u8> {
    match arg {
        Arg::Flag(found) => Some(*found),
        _ => None,
    }
}

/// Returns whether each of the two types of a cast is nullable, by the flags.
fn nullable(flags: u8) -> Option<(bool, bool)> {
    match flags {
        0 => Some((false, false)),
        1 => Some((true, false)),
        2 => Some((false, true)),
        3 => Some((true, true)),
        _ => None,
    }
}

/// Returns the cast with these arguments.
fn cast<'a, A: Allocator>(op: Op, args: &'a [Arg<A>]) -> Option<Instruction<'a, A>> {
    let [flags, label, from, to] = args else {
        return None;
    };
    let (is_from, is_to) = nullable(flag_of(flags)?)?;
    let label = number_of(label)?;
    let from = RefType {
        nullable: is_from,
        heap_type: heap_of(from)?,
    };
    let to = RefType {
        nullable: is_to,
        heap_type: heap_of(to)?,
    };
    with_cast(op, label, from, to)
}

/// Returns the instruction with this opcode and these arguments, or `None` if there is none. Lists
/// are borrowed.
///
/// To match on instructions by name without lists of arguments, use
/// `Instruction::try_from(decoded)` of
/// [`Instruction`](crate::Instruction).
///
/// # Examples
///
/// ```
/// use dolzhytik::fallible::{Encode, Global, Vec};
/// use dolzhytik::reader::{Instructions, instruction_of};
///
/// // local.get 1; br_table [0 300] 2; i32.add.
/// let bytes = [0x20, 1, 0x0E, 2, 0, 0xAC, 0x02, 2, 0x6A];
/// let mut again = Vec::new(Global);
/// let mut instructions = Instructions::standard(&bytes, Global);
/// while let Some(decoded) = instructions.next()? {
///     let args = decoded.operands.to_args(Global)?;
///     let instruction = instruction_of(decoded.op, &args).unwrap();
///     instruction.encode(&mut again).unwrap();
/// }
/// assert_eq!(*again, bytes);
/// # Ok::<(), dolzhytik::reader::ReadFault>(())
/// ```
///
/// # Proved
///
/// In any case: `some`, the instruction has this opcode and these immediates; `other`, the table has no row for the opcode, or the arguments are not of the types of its shape, or flags of a cast are above 3.
///
/// ```text
/// ensures some { IfSome result
///     (λ i. row_of i ≡ record { op = op; arguments = map argument_view args.now }) }
/// ensures other { IfNone result (IsNoInstruction op (map argument_view args.now)) }
/// ```
///
/// Definitions: [`row_of`](crate::definitions::insn::instructions::row_of), [`argument_view`](crate::definitions::insn::views::argument_view), [`IsNoInstruction`](crate::definitions::reader::conversions::IsNoInstruction). [How to read clauses](crate::definitions).
pub fn instruction_of<'a, A: Allocator>(op: Op, args: &'a [Arg<A>]) -> Option<Instruction<'a, A>> {
    match op.shape()? {
        Shape::Nothing => of_nothing(op, args),
        Shape::U => of_number(op, args),
        Shape::Uu => of_numbers(op, args),
        Shape::M => of_memory(op, args),
        Shape::Ml => of_memory_lane(op, args),
        Shape::L => of_lane(op, args),
        Shape::B => of_block(op, args),
        Shape::H => of_heap(op, args),
        Shape::O => of_ordering(op, args),
        Shape::Ou => of_ordering_number(op, args),
        Shape::Ouu => of_ordering_numbers(op, args),
        Shape::C32 => of_signed32(op, args),
        Shape::C64 => of_signed64(op, args),
        Shape::F32 => of_float32(op, args),
        Shape::F64 => of_float64(op, args),
        Shape::V => of_vector(op, args),
        Shape::Ls => of_lanes(op, args),
        Shape::Bt => of_labels(op, args),
        Shape::Tt => of_clauses(op, args),
        Shape::Ts => of_types(op, args),
        Shape::K => cast(op, args),
        Shape::Uh => of_handles(op, args),
        Shape::Uuh => of_numbers_handles(op, args),
    }
}
