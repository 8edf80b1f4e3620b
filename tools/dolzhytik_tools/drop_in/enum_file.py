"""The file of the enum: its cases, their conversion to proved values, and their encoding."""
from __future__ import annotations

from ..errors import Stop
from .cases import HEAD, Case, item_of
from .standard import alias, field, said


def declaration(case: Case) -> str:
    """Returns the variant of a case."""
    declared = "".join("        /// %s\n        %s: %s,\n" % (field(name), name, ty) for name, ty in case.declared)
    fields = " {\n%s    }" % declared if declared else "(%s)" % ", ".join(case.types) if case.types else ""
    return "".join("    /// %s\n" % line for line in documentation(case)) + alias(case) + "    %s%s,\n" % (case.name, fields)


def documentation(case: Case) -> list[str]:
    """Returns the lines of the doc comment of a case. Fields without names have those of the
    parameters of the call."""
    unnamed = [] if case.fields else ["`%s`" % name for name, _ in case.parts]
    held = ", with the immediate%s %s" % ("s" * (len(unnamed) > 1), " and ".join(unnamed)) if unnamed else ""
    return [
        said(case),
        "[`InstructionSink::%s`](super::InstructionSink::%s) appends it%s." % (case.call, case.call, held),
    ]


def conversion(case: Case) -> str:
    """Returns the arm that converts a case to the proved value."""
    parts = ["CowSlice::Borrowed(%s)" % it if item_of(ty) else "*" + it for it, ty in zip(case.letters(), case.types)]
    return "            Instruction::%s => %s,\n" % (case.of(case.letters()), case.proved(parts, "insn"))


def op_arm(case: Case) -> str:
    """Returns the arm of a case's opcode."""
    return "            Instruction::%s => %s,\n" % (case.pattern(), case.op())


# The arguments of a decoded instruction of each layout, as patterns.
DECODED = {
    "-": [],
    "u": ["U32"], "uu": ["U32", "U32"],
    "m": ["Mem"], "ml": ["Mem", "Lane"], "l": ["Lane"], "ls": ["Lanes"],
    "b": ["Block"], "h": ["Heap"],
    "o": ["Order"], "ou": ["Order", "U32"], "ouu": ["Order", "U32", "U32"],
    "c32": ["S32"], "c64": ["S64"], "f32": ["F32"], "f64": ["F64"], "v": ["V128"],
    "bt": ["Labels", "U32"], "tt": ["Block", "Catches"], "ts": ["Types"],
    "uH": ["U32", "Handles"], "uuH": ["U32", "U32", "Handles"],
}
# The flags of a cast are an argument of their own, and say whether its types are nullable.
CAST = ("Arg::Flag(flags), Arg::U32(a), Arg::Heap(b), Arg::Heap(c)", ["*a", "cast_type(flags & 1 != 0, *b)", "cast_type(flags & 2 != 0, *c)"])


def decoded_arm(case: Case) -> str:
    """Returns the arm that converts a decoded instruction to a case. Of the cases with one opcode
    the one of a single type is first."""
    if case.shape == "k":
        pattern, parts = CAST
    elif case.shape not in DECODED:
        raise Stop("no decoded arguments are known for the layout %s" % case.shape)
    else:
        pattern = ", ".join("Arg::%s(%s)" % it for it in zip(DECODED[case.shape], "abc"))
        parts = ["L::list(%s)" % it if item_of(ty) else "*" + it for it, ty in zip(case.letters(), case.types)]
    guard = ""
    if case.is_one:
        guard, parts = " if a.len() == 1", ["a[0]"]
    return "        (%s, [%s])%s => Instruction::%s,\n" % (case.op(), pattern, guard, case.of(parts))


def written_part(case: Case, it: str, ty: str) -> str:
    """Returns an immediate as an argument of the function that encodes it. A large one is
    borrowed."""
    if case.is_one:
        # A list of one item: its length, and the item.
        return "(1, *a)"
    if case.shape == "v":
        return "a.to_le_bytes()"
    if item_of(ty):
        return "&**" + it
    if ty == "BlockType":
        return "Lent(%s)" % it
    return it if ty == "MemArg" else "*" + it


def written(case: Case) -> str:
    """Returns the call that encodes a case: its opcode and its immediates, or the proved value if
    the fields are not the immediates one by one."""
    if case.shape == "k":
        return "write_proved(self, sink)"
    if case.shape == "b":
        return "write_block(op, *a, sink)"
    parts = [written_part(case, it, ty) for it, ty in zip(case.letters(), case.types)]
    if not parts:
        return "write_op(op, sink)"
    is_list = any(map(item_of, case.types)) and not case.is_one
    return "%s(op, %s, sink)" % ("write_list" if is_list else "write", "(%s)" % ", ".join(parts) if len(parts) > 1 else parts[0])


def encode_arms(cases: list[Case]) -> str:
    """Returns an arm for the cases with immediates of the same types that the same call encodes."""
    arms: dict[tuple[tuple[str, ...], str], list[str]] = {}
    for case in cases:
        arms.setdefault((tuple(case.types), written(case)), []).append("Instruction::" + (case.pattern() if case.shape == "k" else case.of(case.letters())))
    return "".join("            %s => %s,\n" % ("\n            | ".join(patterns), way) for (_, way), patterns in arms.items())


TEMPLATE = """//! The instructions, as cases of one enum.

use super::Encode;
use super::bytes::append;
use super::short::{EMPTY_BLOCK, Short, put_short};
use crate::base::{self, CowSlice, HeapType, Lent, RefType, ValType};
use crate::alloc::{Allocator, Global};
use crate::insn::{self, BlockType, Catch, Handle, Ieee32, Ieee64, Lane, MemArg, Op, Ordering};
use crate::reader::{Arg, Decoded, Plain, ReadFault};
use alloc_crate::borrow::Cow;
use alloc_crate::vec::Vec;

/// An instruction as a value, with its immediates.
///
/// [`Function::instruction`](super::Function::instruction) appends one to a body,
/// [`ConstExpr::extended`](super::ConstExpr::extended) makes a constant expression of some, and
/// `encode` of [`Encode`] appends its bytes to a list. Each case also has a named call of
/// [`InstructionSink`](super::InstructionSink), which takes its immediates as arguments.
///
/// The line of a case has the instruction's name in the text format, its opcode, its class, and
/// what it does. An opcode is one byte, such as 0x6A, or a prefix and a number as unsigned LEB128,
/// such as 0xFC 10. Instructions whose line names no proposal are defined in the core
/// specification, Binary Format, [Instructions].
///
/// The enum is `non_exhaustive`: a `match` outside this package needs a wildcard. To decode
/// instructions, see [`reader::CodeBody::instructions`](crate::reader::CodeBody::instructions);
/// `Instruction::try_from(decoded)` converts a decoded one.
///
/// ```
/// use dolzhytik::{BlockType, Encode, Instruction};
///
/// let mut bytes = Vec::new();
/// for instruction in [
///     Instruction::Block(BlockType::Empty),
///     Instruction::I32Const(-1),
///     Instruction::BrTable(vec![0, 0].into(), 0),
///     Instruction::End,
/// ] {
///     instruction.encode(&mut bytes);
/// }
/// // block: 02 and the empty type 40. i32.const: 41 and -1 as signed LEB128. br_table: 0E, two
/// // labels, and the default label. end: 0B.
/// assert_eq!(bytes, [0x02, 0x40, 0x41, 0x7F, 0x0E, 2, 0, 0, 0, 0x0B]);
/// ```
///
/// [Instructions]: https://webassembly.github.io/spec/core/binary/instructions.html
#[derive(Clone, Debug)]
#[non_exhaustive]
pub enum Instruction<'a> {
%s}

/// Converts an instruction to the one that the proved calls take. Its lists are borrowed.
impl<'a> From<&'a Instruction<'_>> for insn::Instruction<'a> {
    // Inline, so that it is compiled only where it is used.
    #[inline]
    fn from(instruction: &'a Instruction<'_>) -> Self {
        match instruction {
%s        }
    }
}

/// Returns the type of an operand or a result of a cast.
fn cast_type(nullable: bool, heap_type: HeapType) -> RefType {
    RefType { nullable, heap_type }
}

/// How the lists of decoded arguments become those of an instruction.
trait Lists<'a, 'l> {
    fn list<T: Clone, A: Allocator>(items: &'a crate::vec::Vec<T, A>) -> Cow<'l, [T]>;
}

struct Borrowed;

impl<'a> Lists<'a, 'a> for Borrowed {
    fn list<T: Clone, A: Allocator>(items: &'a crate::vec::Vec<T, A>) -> Cow<'a, [T]> {
        Cow::Borrowed(items.as_slice())
    }
}

struct Owned;

impl<'a> Lists<'a, 'static> for Owned {
    fn list<T: Clone, A: Allocator>(items: &'a crate::vec::Vec<T, A>) -> Cow<'static, [T]> {
        Cow::Owned(items.to_vec())
    }
}

/// Returns the instruction of an opcode and its arguments, if there is one.
fn instruction_of<'a, 'l, A: Allocator, L: Lists<'a, 'l>>(
    op: Op,
    args: &'a [Arg<A>],
) -> core::result::Result<Instruction<'l>, ReadFault> {
    Ok(match (number_of(op), args) {
%s        _ => return Err(ReadFault::UnknownOpcode),
    })
}

/// Converts an opcode and its arguments. Lists are borrowed.
///
/// A `select` with one type is [`TypedSelect`](Instruction::TypedSelect).
///
/// # Errors
///
/// Returns [`ReadFault::UnknownOpcode`] if no instruction has this opcode and arguments of these
/// types. Of the flags of a cast only bits 0 and 1 count. An instruction that was decoded has a
/// case, as a test of each case shows.
///
/// ```
/// use dolzhytik::Instruction;
/// use dolzhytik::fallible::{Global, Op};
/// use dolzhytik::reader::{Arg, ReadFault};
///
/// let args: [Arg<Global>; 1] = [Arg::S32(5)];
/// let instruction = Instruction::try_from((Op::Byte(0x41), &args[..]))?;
/// assert!(matches!(instruction, Instruction::I32Const(5)));
/// # Ok::<(), ReadFault>(())
/// ```
impl<'a, A: Allocator> TryFrom<(Op, &'a [Arg<A>])> for Instruction<'a> {
    type Error = ReadFault;

    fn try_from((op, args): (Op, &'a [Arg<A>])) -> core::result::Result<Self, ReadFault> {
        instruction_of::<A, Borrowed>(op, args)
    }
}

/// Converts a decoded instruction. Lists are copied.
///
/// # Errors
///
/// Returns [`ReadFault::Memory`] if an allocation fails. That of a list aborts instead. Every other
/// error means that the bytes of the operands were not decoded as this instruction.
///
/// ```
/// use dolzhytik::Instruction;
/// use dolzhytik::fallible::Global;
/// use dolzhytik::reader::{Instructions, ReadFault};
///
/// // local.get 1; i32.const 5; i32.add.
/// let mut instructions = Instructions::standard(&[0x20, 1, 0x41, 5, 0x6A], Global);
/// let mut constants = vec![];
/// while let Some(decoded) = instructions.next()? {
///     if let Instruction::I32Const(n) = Instruction::try_from(decoded)? {
///         constants.push(n);
///     }
/// }
/// assert_eq!(constants, [5]);
/// # Ok::<(), ReadFault>(())
/// ```
impl TryFrom<Decoded<'_>> for Instruction<'static> {
    type Error = ReadFault;

    // Inline, so that it is compiled only where it is used.
    #[inline]
    fn try_from(decoded: Decoded<'_>) -> core::result::Result<Self, ReadFault> {
        let args = decoded.operands.to_args(Global)?;
        instruction_of::<Global, Owned>(decoded.op, &args)
    }
}

/// Converts a decoded instruction. Lists are borrowed.
///
/// # Errors
///
/// Returns [`ReadFault::UnknownOpcode`] if no instruction has this opcode and arguments of these
/// types. Of the flags of a cast only bits 0 and 1 count.
///
/// ```
/// use dolzhytik::Instruction;
/// use dolzhytik::fallible::{Global, Op};
/// use dolzhytik::reader::{Plain, ReadFault};
///
/// let plain: Plain = Plain { op: Op::Byte(0x6A), args: dolzhytik::fallible::Vec::new(Global) };
/// assert!(matches!(Instruction::try_from(&plain)?, Instruction::I32Add));
/// # Ok::<(), ReadFault>(())
/// ```
impl<'a, A: Allocator> TryFrom<&'a Plain<A>> for Instruction<'a> {
    type Error = ReadFault;

    fn try_from(plain: &'a Plain<A>) -> core::result::Result<Self, ReadFault> {
        Instruction::try_from((plain.op, plain.args.as_slice()))
    }
}

impl Instruction<'_> {
    /// Returns the opcode as one number, which `op_of` takes.
    #[inline(always)]
    fn op(&self) -> u32 {
        match self {
%s        }
    }
}

/// Returns an opcode. The upper byte of the number is the prefix, or 0 for an opcode of one byte.
#[inline]
fn op_of(op: u32) -> Op {
    let [prefix, number @ ..] = op.to_be_bytes();
    if prefix == 0 {
        return Op::Byte(number[2]);
    }
    Op::Prefixed(prefix, op & 0x00FF_FFFF)
}

/// Returns an opcode as one number, or one that no instruction has.
fn number_of(op: Op) -> u32 {
    match op {
        Op::Byte(byte) => u32::from(byte),
        Op::Prefixed(prefix @ 1.., number @ ..0x0100_0000) => u32::from(prefix) << 24 | number,
        Op::Prefixed(..) => u32::MAX,
    }
}

// Each arm of `encode` ends in a jump to one of these functions, and passes its arguments in
// registers. An opcode as one number is an immediate operand of the processor.

/// Appends an opcode.
#[inline(never)]
fn write_op(op: u32, sink: &mut Vec<u8>) {
    match u8::try_from(op) {
        Ok(byte) if sink.len() < sink.capacity() => sink.extend_from_slice(&[byte]),
        _ => append_op(op, sink),
    }
}

/// Appends an opcode, of any number of bytes.
#[inline(never)]
fn append_op(op: u32, sink: &mut Vec<u8>) {
    append(&op_of(op), sink)
}

/// Appends an opcode and its immediates.
#[inline(never)]
fn write<P: Short>(op: u32, parts: P, sink: &mut Vec<u8>) {
    if let Ok(byte) = u8::try_from(op)
        && put_short(sink, [byte], parts)
    {
        return;
    }
    write_long(op, parts, sink)
}

/// Appends an opcode and its immediates, of any number of bytes.
#[inline(never)]
fn write_long<P: Short>(op: u32, parts: P, sink: &mut Vec<u8>) {
    append(&(op_of(op), parts.long()), sink)
}

/// Appends an opcode and the type of a block.
#[inline(never)]
fn write_block(op: u32, block_type: BlockType, sink: &mut Vec<u8>) {
    match block_type {
        BlockType::Empty => write(op, EMPTY_BLOCK, sink),
        BlockType::Result(ty) => write(op, ty, sink),
        BlockType::FunctionType(index) => write(op, i64::from(index), sink),
    }
}

/// Appends an opcode and its immediates, of which one is a list.
#[inline(never)]
fn write_list<T: base::Encode>(op: u32, parts: T, sink: &mut Vec<u8>) {
    append(&(op_of(op), parts), sink)
}

/// Appends the encoding of the proved value, where the fields are not the immediates one by one.
#[inline(never)]
fn write_proved(instruction: &Instruction<'_>, sink: &mut Vec<u8>) {
    let proved: insn::Instruction = match instruction {
%s        _ => unreachable!("its fields are its immediates"),
    };
    append(&proved, sink)
}

/// Encodes the opcode and the immediates.
impl Encode for Instruction<'_> {
    fn encode(&self, sink: &mut Vec<u8>) {
        let op = self.op();
        match self {
%s        }
    }
}
"""


def instruction_file(cases: list[Case]) -> str:
    """Returns the file."""
    return HEAD + TEMPLATE % (
        "".join(map(declaration, cases)),
        "".join(map(conversion, cases)),
        "".join(map(decoded_arm, cases)),
        "".join(map(op_arm, cases)),
        "".join(conversion(case)[4:] for case in cases if case.shape == "k"),
        encode_arms(cases),
    )
