// Written by tools/to-rust from crates/wasm_insn/src/plain.rt: change that.
// An instruction in normal form, an opcode and its arguments: decoded and encoded.

use crate::vec::{Sink, Vec};
use crate::insn::arguments::{Arg, append_arguments};
use crate::insn::op::Op;
use crate::insn::operands::{read_long, read_short};
use crate::alloc::{Allocator, Global};
use crate::base::{DecodeError, Encode, Grammar, Layout, Readable, Result, Shorten};

/// An instruction in normal form: its opcode, and an argument for each immediate of the opcode's
/// shape.
///
/// # Examples
///
/// ```
/// use dolzhytik::fallible::{Global, Op};
/// use dolzhytik::reader::{Arg, Padded, Plain, Readable};
///
/// let (plain, _) = <Plain as Readable<Global, Padded>>::read(&[0x41, 0x7F], Global)?;
/// // i32.const -1.
/// assert_eq!(plain.op, Op::Byte(0x41));
/// assert!(matches!(plain.args[..], [Arg::S32(-1)]));
/// # Ok::<(), dolzhytik::reader::DecodeError>(())
/// ```
#[derive(Debug)]
pub struct Plain<A: Allocator = Global> {
    /// The opcode.
    pub op: Op,
    /// The immediates, in the order of their encoding.
    pub args: Vec<Arg<A>, A>,
}

/// # Defined
///
/// ```text
/// Value = { PlainInstruction }
/// format = { instruction table }
/// view = { plain_view }
/// ```
///
/// Definitions: [`PlainInstruction`](crate::definitions::insn::plain::Plain), [`instruction`](crate::definitions::insn::plain::instruction), [`table`](crate::definitions::insn::table::table), [`plain_view`](crate::definitions::insn::views::plain_view). [How to read clauses](crate::definitions).
impl<A: Allocator> Layout for Plain<A> {
    fn laws() {}
}

impl<'a, A: Allocator + Copy, G: Grammar> Readable<'a, A, G> for Plain<A> {
    // Each of the two ways has its own call of `to_args`, so that the compiler joins the short one to
    // the cases that `read_short` returns.
    #[inline]
    fn read(bytes: &'a [u8], alloc: A) -> Result<(Plain<A>, &'a [u8]), DecodeError> {
        if let Some((op, operands, rest)) = read_short::<G>(bytes) {
            let args = operands.to_args(alloc)?;
            return Ok((Plain { op, args }, rest));
        }
        let (op, args, rest) = read_long_plain::<A, G>(bytes, alloc)?;
        Ok((Plain { op, args }, rest))
    }
}

/// Decodes any instruction at the front. Out of line, for rare shapes and long numbers.
#[inline(never)]
fn read_long_plain<'a, A: Allocator + Copy, G: Grammar>(
    bytes: &'a [u8],
    alloc: A,
) -> Result<(Op, Vec<Arg<A>, A>, &'a [u8]), DecodeError> {
    let (op, operands, rest) = read_long::<A, G>(bytes, alloc)?;
    let args = operands.to_args(alloc)?;
    Ok((op, args, rest))
}

/// Appends the minimal encoding of an instruction. After an error, part of it may follow the old
/// bytes of the sink.
fn append_instruction<A: Allocator, B: Sink>(
    op: Op,
    args: &[Arg<A>],
    sink: &mut B,
) -> Result<()> {
    op.encode(sink)?;
    append_arguments(args, sink)
}

/// # Defined
///
/// ```text
/// grammars = { builders_alone }
/// ```
///
/// Definitions: [`builders_alone`](crate::definitions::base::minimal::Grammars). [How to read clauses](crate::definitions).
impl<A: Allocator> Shorten for Plain<A> {
    fn write_minimal<B: Sink>(&self, sink: &mut B) -> Result<()> {
        append_instruction(self.op, &self.args, sink)
    }
}
