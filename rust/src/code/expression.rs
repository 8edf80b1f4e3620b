// Written by tools/to-rust from crates/wasm_code/src/expression.rt: change that.
// Constant expressions as instructions up to `End`: decoded, skipped and minimized.

use crate::vec::{Sink, Vec};
use crate::code::body::append_code;
use crate::alloc::{Allocator, Global};
use crate::base::{DecodeError, Effect, Grammar, Layout, ReadFault, Readable, Result, Shorten, Walk};
use crate::insn::Plain;

/// The opcode of `End`.
pub(crate) const END: u8 = 0x0B;

/// The instructions of a constant expression, without its final `End`.
///
/// # Examples
///
/// ```
/// use dolzhytik::fallible::Global;
/// use dolzhytik::reader::{Arg, Expression, Padded, Readable};
///
/// // i32.const 7; end; then another byte.
/// let bytes = [0x41, 7, 0x0B, 0xFF];
/// let (Expression(code), rest) =
///     <Expression as Readable<Global, Padded>>::read(&bytes, Global)?;
/// assert!(matches!(code[0].args[..], [Arg::S32(7)]));
/// assert_eq!(rest, [0xFF]);
/// # Ok::<(), dolzhytik::reader::DecodeError>(())
/// ```
///
/// [`ConstExpr::extended`](crate::ConstExpr::extended) makes an expression of values again:
///
/// ```
/// use dolzhytik::fallible::Global;
/// use dolzhytik::reader::{Expression, Padded, Readable};
/// use dolzhytik::{ConstExpr, Encode, Instruction};
///
/// // i32.const 7, with a padded number; end.
/// let (Expression(code), _) =
///     <Expression as Readable<Global, Padded>>::read(&[0x41, 0x87, 0, 0x0B], Global)?;
/// let code = code.iter().map(Instruction::try_from);
/// let code: Vec<Instruction> = code.collect::<Result<_, _>>().unwrap();
/// let mut bytes = vec![];
/// ConstExpr::extended(code).encode(&mut bytes);
/// assert_eq!(bytes, [0x41, 7, 0x0B]);
/// # Ok::<(), dolzhytik::reader::DecodeError>(())
/// ```
#[derive(Debug)]
pub struct Expression<A: Allocator = Global>(pub Vec<Plain<A>, A>);

/// # Defined
///
/// ```text
/// Value = { List PlainInstruction }
/// format = { expression }
/// view = { λ e. map plain_view e.0.items }
/// ```
///
/// Definitions: [`PlainInstruction`](crate::definitions::insn::plain::Plain), [`expression`](crate::definitions::code::expressions::expression), [`plain_view`](crate::definitions::insn::views::plain_view). [How to read clauses](crate::definitions).
impl<A: Allocator> Layout for Expression<A> {
    fn laws() {}
}

impl<'a, A: Allocator + Copy, G: Grammar> Readable<'a, A, G> for Expression<A> {
    fn read(bytes: &'a [u8], alloc: A) -> Result<(Expression<A>, &'a [u8]), DecodeError> {
        let mut items = Vec::new(alloc);
        let mut rest = bytes;
        loop {
            let [first, after @ ..] = rest else {
                return Err(ReadFault::Ended.at(b""));
            };
            if *first == END {
                return Ok((Expression(items), after));
            }
            let (item, after) = <Plain<A> as Readable<'a, A, G>>::read(rest, alloc)?;
            items.push(item)?;
            rest = after;
        }
    }
}

/// # Defined
///
/// ```text
/// grammars = { builders_alone }
/// ```
///
/// Definitions: [`builders_alone`](crate::definitions::base::minimal::Grammars). [How to read clauses](crate::definitions).
impl<A: Allocator> Shorten for Expression<A> {
    fn write_minimal<B: Sink>(&self, sink: &mut B) -> Result<()> {
        append_code(&self.0, sink)?;
        sink.push(END)?;
        Ok(())
    }
}

/// Walks over the instructions one by one, up to the first `End`.
impl<G: Grammar, C: Allocator> Walk<G> for Expression<C> {
    fn walk<'a, A: Allocator + Copy, E: Effect>(
        bytes: &'a [u8],
        alloc: A,
        effect: &mut E,
    ) -> Result<&'a [u8], DecodeError> {
        let mut rest = bytes;
        loop {
            let [first, after @ ..] = rest else {
                return Err(ReadFault::Ended.at(b""));
            };
            if *first == END {
                effect.put(&END)?;
                return Ok(after);
            }
            rest = <Plain<C> as Walk<G>>::walk(rest, alloc, effect)?;
        }
    }
}
