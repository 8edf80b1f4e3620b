// Written by tools/to-rust from crates/wasm_code/src/body.rt: change that.
// Lists of instructions and function bodies: decoded, skipped and minimized.

use crate::vec::{Sink, Vec};
use crate::alloc::{Allocator, Global};
use crate::base::{DecodeError, Effect, Grammar, Layout, Padded, Readable, Result, Shorten, ValType, Walk, prefix_size_since, walk_to_end};
use crate::insn::Plain;

/// The capacity of a new list allows for one instruction per this many bytes. The list grows if
/// they are shorter.
const BYTES_OF_ONE: usize = 2;

/// Decodes instructions that occupy all of the bytes.
///
/// # Errors
///
/// Every error except `Memory` means that the bytes as a whole encode no instructions.
///
/// # Examples
///
/// ```
/// use dolzhytik::fallible::{Global, Op};
/// use dolzhytik::reader::{Padded, read_code};
///
/// // local.get 0, drop, end.
/// let code = read_code::<Global, Padded>(&[0x20, 0, 0x1A, 0x0B], Global)?;
/// assert_eq!((code.len(), code[1].op), (3, Op::Byte(0x1A)));
/// # Ok::<(), dolzhytik::reader::DecodeError>(())
/// ```
///
/// # Proved
///
/// After `Ok`: `found`, the bytes as a whole encode the instructions. After an error: `none`, the bytes as a whole are no such encoding, unless the cause is `Memory`.
///
/// ```text
/// ensures found { IfOk result
///     (λ x. members (instruction table) (padded_of G.grammar) bytes.now
///         (map plain_view x.items)) }
/// ensures none { IfErr result
///     (λ e. e.cause ≢ Memory → RejectsWhole (members (instruction table))
///         (padded_of G.grammar) bytes.now) }
/// ```
///
/// Definitions: [`members`](crate::definitions::base::formats::members), [`instruction`](crate::definitions::insn::plain::instruction), [`table`](crate::definitions::insn::table::table), [`padded_of`](crate::definitions::base::numbers::padded_of), [`plain_view`](crate::definitions::insn::views::plain_view), [`RejectsWhole`](crate::definitions::base::continuing::RejectsWhole). [How to read clauses](crate::definitions).
pub fn read_code<'a, A: Allocator + Copy, G: Grammar>(
    bytes: &'a [u8],
    alloc: A,
) -> Result<Vec<Plain<A>, A>, DecodeError> {
    let capacity = bytes.len() / BYTES_OF_ONE + bytes.len() % BYTES_OF_ONE;
    let mut items = Vec::with_capacity(alloc, capacity)?;
    let mut rest = bytes;
    loop {
        if rest.is_empty() {
            return Ok(items);
        }
        let (item, after) = <Plain<A> as Readable<'a, A, G>>::read(rest, alloc)?;
        items.push(item)?;
        rest = after;
    }
}

/// Appends the minimal encodings of the instructions.
pub(crate) fn append_code<A: Allocator, B: Sink>(
    code: &[Plain<A>],
    sink: &mut B,
) -> Result<()> {
    for instruction in code {
        instruction.write_minimal(sink)?;
    }
    Ok(())
}

/// A function body: the runs of its locals, each a count and a type, and its instructions,
/// including each `End`.
///
/// [`Items::Bodies`](crate::reader::Items::Bodies) has them.
///
/// # Examples
///
/// ```
/// use dolzhytik::fallible::{Global, Op, ValType};
/// use dolzhytik::reader::{Padded, read_body};
///
/// // One run of locals, 2 of i32 (7F); nop (01), end (0B).
/// let body = read_body::<Global, Padded>(&[1, 2, 0x7F, 0x01, 0x0B], Global)?;
/// assert_eq!(body.runs[..], [(2, ValType::I32)]);
/// assert!(body.code.iter().map(|it| it.op).eq([Op::Byte(0x01), Op::Byte(0x0B)]));
/// # Ok::<(), dolzhytik::reader::DecodeError>(())
/// ```
#[derive(Debug)]
pub struct Body<A: Allocator = Global> {
    /// The runs of locals: their number, and their type.
    pub runs: Vec<(u32, ValType), A>,
    /// The instructions, with the final `end`.
    pub code: Vec<Plain<A>, A>,
}

/// Decodes a body that occupies all of the bytes, which are a payload without its size prefix.
///
/// # Errors
///
/// Every error except `Memory` means that the bytes as a whole encode no body.
///
/// # Examples
///
/// ```
/// use dolzhytik::fallible::Global;
/// use dolzhytik::reader::{Padded, read_body};
///
/// // No locals; end.
/// let body = read_body::<Global, Padded>(&[0, 0x0B], Global)?;
/// assert_eq!((body.runs.len(), body.code.len()), (0, 1));
/// # Ok::<(), dolzhytik::reader::DecodeError>(())
/// ```
///
/// # Proved
///
/// After `Ok`: `found`, the bytes as a whole encode the value. After an error: `none`, the bytes as a whole are no such encoding, unless the cause is `Memory`.
///
/// ```text
/// ensures found { IfOk result (λ x. body (padded_of G.grammar) bytes.now (body_view x)) }
/// ensures none { IfErr result
///     (λ e. e.cause ≢ Memory → RejectsWhole body (padded_of G.grammar) bytes.now) }
/// ```
///
/// Definitions: [`body`](crate::definitions::code::bodies::body), [`padded_of`](crate::definitions::base::numbers::padded_of), [`body_view`](crate::definitions::code::body_views::body_view), [`RejectsWhole`](crate::definitions::base::continuing::RejectsWhole). [How to read clauses](crate::definitions).
pub fn read_body<'a, A: Allocator + Copy, G: Grammar>(
    bytes: &'a [u8],
    alloc: A,
) -> Result<Body<A>, DecodeError> {
    let (runs, rest) = <Vec<(u32, ValType), A> as Readable<'a, A, G>>::read(bytes, alloc)?;
    let code = read_code::<A, G>(rest, alloc)?;
    Ok(Body { runs, code })
}

/// A body with its size prefix, as in a code section.
///
/// # Defined
///
/// ```text
/// Value = { BodyModel }
/// format = { size_prefixed body }
/// view = { body_view }
/// ```
///
/// Definitions: [`BodyModel`](crate::definitions::code::bodies::Body), [`size_prefixed`](crate::definitions::base::formats::size_prefixed), [`body`](crate::definitions::code::bodies::body), [`body_view`](crate::definitions::code::body_views::body_view). [How to read clauses](crate::definitions).
impl<A: Allocator> Layout for Body<A> {
    fn laws() {}
}

impl<'a, A: Allocator + Copy, G: Grammar> Readable<'a, A, G> for Body<A> {
    fn read(bytes: &'a [u8], alloc: A) -> Result<(Body<A>, &'a [u8]), DecodeError> {
        let (content, rest) = <&'a [u8] as Readable<'a, A, G>>::read(bytes, alloc)?;
        match read_body::<A, G>(content, alloc) {
            Ok(body) => Ok((body, rest)),
            Err(error) => Err(error.before(rest)),
        }
    }
}

/// # Defined
///
/// ```text
/// grammars = { builders_alone }
/// ```
///
/// Definitions: [`builders_alone`](crate::definitions::base::minimal::Grammars). [How to read clauses](crate::definitions).
impl<A: Allocator> Shorten for Body<A> {
    fn write_minimal<B: Sink>(&self, sink: &mut B) -> Result<()> {
        let start = sink.len();
        self.runs.write_minimal(sink)?;
        append_code(&self.code, sink)?;
        prefix_size_since(sink, start)
    }
}

/// Walks over the content of a body, without its size prefix.
fn walk_content<'a, A: Allocator + Copy, G: Grammar, E: Effect>(
    bytes: &'a [u8],
    alloc: A,
    effect: &mut E,
) -> Result<(), DecodeError> {
    let rest = <Vec<(u32, ValType), A> as Walk<G>>::walk(bytes, alloc, effect)?;
    walk_to_end::<Plain<A>, A, G, _>(rest, alloc, effect)
}

/// Appends the minimal encoding of the content of a body, without its size prefix. After an error,
/// part of it may follow the old bytes of the sink.
fn minimize_content<A: Allocator + Copy, G: Grammar, B: Sink>(
    bytes: &[u8],
    alloc: A,
    sink: &mut B,
) -> Result<(), DecodeError> {
    walk_content::<A, G, _>(bytes, alloc, sink)
}

/// Appends the minimal encoding of a body with its size prefix. After an error, part of it may
/// follow the old bytes of the sink.
fn write_body<A: Allocator + Copy, B: Sink>(
    bytes: &[u8],
    alloc: A,
    sink: &mut B,
) -> Result<(), DecodeError> {
    let start = sink.len();
    minimize_content::<A, Padded, _>(bytes, alloc, sink)?;
    prefix_size_since(sink, start)?;
    Ok(())
}

/// Appends the minimal encoding of a function body with its size prefix, as in a code section. The
/// bytes are those of the body without its size prefix. Instructions are minimized one by one. On
/// an error, the sink is unchanged.
///
/// # Errors
///
/// Every error except `Memory` means that the bytes as a whole encode no body.
///
/// # Examples
///
/// ```
/// use dolzhytik::fallible::Global;
/// use dolzhytik::reader::shorten_body;
///
/// let mut minimal = Vec::new();
/// // No locals; local.get with a padded index, 1 in two bytes; end.
/// shorten_body(&[0, 0x20, 0x81, 0x00, 0x0B], Global, &mut minimal)?;
/// // The size, 4, and the body.
/// assert_eq!(minimal, [4, 0, 0x20, 1, 0x0B]);
/// # Ok::<(), dolzhytik::reader::DecodeError>(())
/// ```
///
/// # Proved
///
/// After `Ok`: `found`, the bytes encode a body, and the sink gains its minimal encoding in the builders' grammar, with the size prefix. After an error: `none`, the bytes as a whole are no such encoding, unless the cause is `Memory`; `err`, the bytes of the sink are unchanged.
///
/// ```text
/// ensures found { OnOk result
///     ((x : BodyModel) × body padded bytes.now x
///         × AppendsMinimal builders_alone
///         (size_prefixed body) x sink.old.items sink.new.items) }
/// ensures none { IfErr result
///     (λ e. e.cause ≢ Memory → RejectsWhole body padded bytes.now) }
/// ensures err { OnErr result (sink.new.items ≡ sink.old.items) }
/// ```
///
/// Definitions: [`BodyModel`](crate::definitions::code::bodies::Body), [`body`](crate::definitions::code::bodies::body), [`padded`](crate::definitions::base::numbers::Mode), [`AppendsMinimal`](crate::definitions::base::minimal::AppendsMinimal), [`builders_alone`](crate::definitions::base::minimal::Grammars), [`size_prefixed`](crate::definitions::base::formats::size_prefixed), [`RejectsWhole`](crate::definitions::base::continuing::RejectsWhole). [How to read clauses](crate::definitions).
pub fn shorten_body<A: Allocator + Copy, B: Sink>(
    bytes: &[u8],
    alloc: A,
    sink: &mut B,
) -> Result<(), DecodeError> {
    let start = sink.len();
    let written = write_body(bytes, alloc, sink);
    if written.is_err() {
        sink.truncate(start);
    }
    written
}

/// Walks over a body with its size prefix, as in a code section.
impl<G: Grammar, C: Allocator> Walk<G> for Body<C> {
    fn walk<'a, A: Allocator + Copy, E: Effect>(
        bytes: &'a [u8],
        alloc: A,
        effect: &mut E,
    ) -> Result<&'a [u8], DecodeError> {
        let (content, rest) = <&'a [u8] as Readable<'a, A, G>>::read(bytes, alloc)?;
        let start = effect.position();
        match walk_content::<A, G, _>(content, alloc, effect) {
            Ok(()) => {}
            Err(error) => return Err(error.before(rest)),
        }
        effect.prefix_size(start)?;
        Ok(rest)
    }
}
