// Written by tools/to-rust from crates/wasm_base/src/walk.rt: change that.
// The trait `Walk`: one traversal of a format, whatever is done with its minimal encoding.

use crate::vec::Sink;
use crate::base::effect::{Discard, Effect, EncodeIn};
use crate::base::encode::Encode;
use crate::base::fault::{DecodeError, ReadFault};
use crate::base::grammar::Grammar;
use crate::base::readable::{Layout, Readable};
use crate::base::shorten::Shorten;
use crate::alloc::Allocator;

/// A value at the front of bytes, as for [`Readable`], that is decoded and not kept. An effect
/// takes its minimal encoding: a vector appends it, and [`Discard`] drops it, so that the value is
/// skipped. [`Shorten`] writes a value that was decoded before.
///
/// # Examples
///
/// ```
/// use dolzhytik::fallible::{Global, RefType};
/// use dolzhytik::reader::{Discard, Standard, Walk};
///
/// // A type index of three bytes, then `anyref` as two bytes; 2A follows.
/// let bytes = [0x85, 0x80, 0x00, 0x63, 0x6E, 0x2A];
/// let mut minimal = Vec::new();
/// let rest = <(u32, RefType) as Walk<Standard>>::walk(&bytes, Global, &mut minimal)?;
/// assert_eq!(minimal, [0x05, 0x6E]);
/// assert_eq!(rest, [0x2A]);
///
/// // The same values are skipped if the effect drops their encoding.
/// let rest = <(u32, RefType) as Walk<Standard>>::walk(&bytes, Global, &mut Discard)?;
/// assert_eq!(rest, [0x2A]);
/// # Ok::<(), dolzhytik::reader::DecodeError>(())
/// ```
pub trait Walk<G: Grammar>: Layout {
    /// Walks over the value at the front, in the grammar `G`, and returns the remaining bytes. After
    /// an error, the effect may have taken part of the encoding.
    ///
    /// # Errors
    ///
    /// Every error except `Memory` means that no such value is at the front.
    ///
    /// # Proved
    ///
    /// After `Ok`: `found`, the bytes begin with an encoding, the effect takes the minimal one, and the returned bytes follow it. After an error: `none`, the bytes do not begin with such an encoding, unless the cause is `Memory`; `no_memory`, the cause is `Memory` only with an effect whose calls may fail. In any case: `front`, the effect keeps what it took before.
    ///
    /// ```text
    /// ensures found { IfOk result
    ///     (λ rest. Walks E.seen G.grammar Self.format bytes.now rest.now effect.old
    ///         effect.new) }
    /// ensures none { IfErr result
    ///     (λ e. e.cause ≢ Memory → Rejects Self.format (padded_of G.grammar) bytes.now) }
    /// ensures no_memory { IfErr result (λ e. e.cause ≡ Memory → E.may_fail) }
    /// ensures front { Keeps E.seen effect.old effect.new }
    /// ```
    ///
    /// Definitions: [`Walks`](crate::definitions::base::walks::Walks), [`Rejects`](crate::definitions::base::decoding::Rejects), [`padded_of`](crate::definitions::base::numbers::padded_of), [`Keeps`](crate::definitions::base::walks::Keeps). [How to read clauses](crate::definitions).
    fn walk<'a, A: Allocator + Copy, E: Effect>(
        bytes: &'a [u8],
        alloc: A,
        effect: &mut E,
    ) -> Result<&'a [u8], DecodeError>;
}

/// A value whose encoding is the minimal one in each grammar.
///
/// # Examples
///
/// ```
/// use dolzhytik::fallible::Global;
/// use dolzhytik::reader::{Canonical, Padded, Walk};
///
/// fn minimal<T: Walk<Padded> + Canonical>(
///     bytes: &[u8],
/// ) -> Result<Vec<u8>, dolzhytik::reader::DecodeError> {
///     let mut minimal = Vec::new();
///     T::walk(bytes, Global, &mut minimal)?;
///     Ok(minimal)
/// }
///
/// assert_eq!(minimal::<i32>(&[0xFF, 0x7F])?, [0x7F]);
/// # Ok::<(), dolzhytik::reader::DecodeError>(())
/// ```
pub trait Canonical: Layout + Encode {
    /// Proves that the encoding is minimal. The function does nothing.
    ///
    /// # Proved
    ///
    /// Whatever bytes a value decodes from, its encoding is the minimal one in the same grammar.
    ///
    /// ```text
    /// ensures { EncodesMinimally Self.format Self.view Self.encoding }
    /// ```
    ///
    /// Definitions: [`EncodesMinimally`](crate::definitions::base::minimal::EncodesMinimally). [How to read clauses](crate::definitions).
    fn canonical();
}

/// A value whose written encoding is minimal in both grammars.
///
/// # Examples
///
/// ```
/// use dolzhytik::fallible::{ComdatSymbol, Global};
/// use dolzhytik::reader::{Standard, Walk};
///
/// let mut minimal = Vec::new();
/// <ComdatSymbol as Walk<Standard>>::walk(&[0x01, 0x85, 0x00], Global, &mut minimal)?;
/// assert_eq!(minimal, [0x01, 0x05]);
/// # Ok::<(), dolzhytik::reader::DecodeError>(())
/// ```
pub trait Shared: Shorten {
    /// Proves that it is minimal in both. The function does nothing.
    ///
    /// # Proved
    ///
    /// ```text
    /// ensures { Self.grammars ≡ both_grammars }
    /// ```
    ///
    /// Definitions: [`both_grammars`](crate::definitions::base::minimal::Grammars). [How to read clauses](crate::definitions).
    fn shared();
}

/// Decodes the value at the front, gives its encoding to the effect, and drops it.
///
/// # Errors
///
/// Every error except `Memory` means that no such value is at the front.
///
/// # Asks
///
/// [What happens otherwise](crate::fallible#what-is-asked).
///
/// ```text
/// requires no_request { T.may_allocate → ⊥ }
/// ```
///
/// [How to read clauses](crate::definitions).
///
/// # Proved
///
/// After `Ok`: `found`, the bytes begin with an encoding, the effect takes the minimal one, and the returned bytes follow it. After an error: `none`, the bytes do not begin with such an encoding, unless the cause is `Memory`; `no_memory`, the cause is `Memory` only with an effect whose calls may fail. In any case: `front`, the effect keeps what it took before.
///
/// ```text
/// ensures found { IfOk result
///     (λ rest. Walks E.seen G.grammar T.format bytes.now rest.now effect.old effect.new) }
/// ensures none { IfErr result
///     (λ e. e.cause ≢ Memory → Rejects T.format (padded_of G.grammar) bytes.now) }
/// ensures no_memory { IfErr result (λ e. e.cause ≡ Memory → E.may_fail) }
/// ensures front { Keeps E.seen effect.old effect.new }
/// ```
///
/// Definitions: [`Walks`](crate::definitions::base::walks::Walks), [`Rejects`](crate::definitions::base::decoding::Rejects), [`padded_of`](crate::definitions::base::numbers::padded_of), [`Keeps`](crate::definitions::base::walks::Keeps). [How to read clauses](crate::definitions).
#[inline]
pub fn walk_value<
    'a,
    T: Readable<'a, A, G> + Canonical,
    A: Allocator + Copy,
    G: Grammar,
    E: Effect,
>(bytes: &'a [u8], alloc: A, effect: &mut E) -> Result<&'a [u8], DecodeError> {
    T::canonical();
    let (value, rest) = T::read(bytes, alloc)?;
    effect.put(&value)?;
    Ok(rest)
}

/// Decodes the value at the front, gives its minimal encoding in the grammar `G` to the effect, and
/// drops it.
///
/// # Errors
///
/// Every error except `Memory` means that no such value is at the front.
///
/// # Asks
///
/// [What happens otherwise](crate::fallible#what-is-asked).
///
/// ```text
/// requires no_request { T.may_allocate → ⊥ }
/// ```
///
/// [How to read clauses](crate::definitions).
///
/// # Proved
///
/// After `Ok`: `found`, the bytes begin with an encoding, the effect takes the minimal one, and the returned bytes follow it. After an error: `none`, the bytes do not begin with such an encoding, unless the cause is `Memory`; `no_memory`, the cause is `Memory` only with an effect whose calls may fail. In any case: `front`, the effect keeps what it took before.
///
/// ```text
/// ensures found { IfOk result
///     (λ rest. Walks E.seen G.grammar T.format bytes.now rest.now effect.old effect.new) }
/// ensures none { IfErr result
///     (λ e. e.cause ≢ Memory → Rejects T.format (padded_of G.grammar) bytes.now) }
/// ensures no_memory { IfErr result (λ e. e.cause ≡ Memory → E.may_fail) }
/// ensures front { Keeps E.seen effect.old effect.new }
/// ```
///
/// Definitions: [`Walks`](crate::definitions::base::walks::Walks), [`Rejects`](crate::definitions::base::decoding::Rejects), [`padded_of`](crate::definitions::base::numbers::padded_of), [`Keeps`](crate::definitions::base::walks::Keeps). [How to read clauses](crate::definitions).
#[inline]
pub fn walk_in<'a, T: Readable<'a, A, G> + EncodeIn<G>, A: Allocator + Copy, G: Grammar, E: Effect>(
    bytes: &'a [u8],
    alloc: A,
    effect: &mut E,
) -> Result<&'a [u8], DecodeError> {
    <T as EncodeIn<G>>::minimal_in();
    let (value, rest) = T::read(bytes, alloc)?;
    effect.put_in::<G, T>(&value)?;
    Ok(rest)
}

/// Decodes the value at the front, gives its minimal encoding, which is the same in both grammars, to
/// the effect, and drops it.
///
/// # Errors
///
/// Every error except `Memory` means that no such value is at the front.
///
/// # Asks
///
/// [What happens otherwise](crate::fallible#what-is-asked).
///
/// ```text
/// requires no_request { T.may_allocate → ⊥ }
/// ```
///
/// [How to read clauses](crate::definitions).
///
/// # Proved
///
/// After `Ok`: `found`, the bytes begin with an encoding, the effect takes the minimal one, and the returned bytes follow it. After an error: `none`, the bytes do not begin with such an encoding, unless the cause is `Memory`; `no_memory`, the cause is `Memory` only with an effect whose calls may fail. In any case: `front`, the effect keeps what it took before.
///
/// ```text
/// ensures found { IfOk result
///     (λ rest. Walks E.seen G.grammar T.format bytes.now rest.now effect.old effect.new) }
/// ensures none { IfErr result
///     (λ e. e.cause ≢ Memory → Rejects T.format (padded_of G.grammar) bytes.now) }
/// ensures no_memory { IfErr result (λ e. e.cause ≡ Memory → E.may_fail) }
/// ensures front { Keeps E.seen effect.old effect.new }
/// ```
///
/// Definitions: [`Walks`](crate::definitions::base::walks::Walks), [`Rejects`](crate::definitions::base::decoding::Rejects), [`padded_of`](crate::definitions::base::numbers::padded_of), [`Keeps`](crate::definitions::base::walks::Keeps). [How to read clauses](crate::definitions).
pub fn walk_shared<'a, T: Readable<'a, A, G> + Shared, A: Allocator + Copy, G: Grammar, E: Effect>(
    bytes: &'a [u8],
    alloc: A,
    effect: &mut E,
) -> Result<&'a [u8], DecodeError> {
    T::shared();
    let (value, rest) = T::read(bytes, alloc)?;
    effect.put_minimal(&value)?;
    Ok(rest)
}

/// Walks over the vector at the front, and returns its number of members and the remaining bytes.
///
/// # Errors
///
/// Every error except `Memory` means that no such vector is at the front.
///
/// # Examples
///
/// ```
/// use dolzhytik::fallible::Global;
/// use dolzhytik::reader::{Padded, walk_many};
///
/// // Two numbers, of which the first has two bytes.
/// let mut minimal = Vec::new();
/// let (count, rest) =
///     walk_many::<u32, _, Padded, _>(&[2, 0x85, 0x00, 7, 9], Global, &mut minimal)?;
/// assert_eq!(count, 2);
/// assert_eq!(minimal, [2, 5, 7]);
/// assert_eq!(rest, [9]);
/// # Ok::<(), dolzhytik::reader::DecodeError>(())
/// ```
///
/// # Proved
///
/// - After `Ok`, `found`: As `Walks`, for a vector of this many members.
/// - After an error, `none`: the bytes do not begin with such an encoding, unless the cause is `Memory`.
/// - After an error, `no_memory`: the cause is `Memory` only with an effect whose calls may fail.
/// - `front`: the effect keeps what it took before.
///
/// ```text
/// ensures found { IfOk result
///     (λ x. WalksMany E.seen G.grammar T.format bytes.now x.0 x.1.now effect.old
///         effect.new) }
/// ensures none { IfErr result
///     (λ e. e.cause ≢ Memory → Rejects (vec T.format) (padded_of G.grammar) bytes.now) }
/// ensures no_memory { IfErr result (λ e. e.cause ≡ Memory → E.may_fail) }
/// ensures front { Keeps E.seen effect.old effect.new }
/// ```
///
/// Definitions: [`WalksMany`](crate::definitions::base::walks::WalksMany), [`Rejects`](crate::definitions::base::decoding::Rejects), [`vec`](crate::definitions::base::formats::vec), [`padded_of`](crate::definitions::base::numbers::padded_of), [`Keeps`](crate::definitions::base::walks::Keeps). [How to read clauses](crate::definitions).
pub fn walk_many<'a, T: Walk<G>, A: Allocator + Copy, G: Grammar, E: Effect>(
    bytes: &'a [u8],
    alloc: A,
    effect: &mut E,
) -> Result<(u32, &'a [u8]), DecodeError> {
    let (count, mut rest) = <u32 as Readable<'a, A, G>>::read(bytes, alloc)?;
    effect.put(&count)?;
    T::laws();
    for _taken in 0..count {
        rest = T::walk(rest, alloc, effect)?;
    }
    Ok((count, rest))
}

/// Walks over a value that occupies all of the bytes.
///
/// # Errors
///
/// Every error except `Memory` means that the bytes as a whole encode no such value.
///
/// # Proved
///
/// After `Ok`: `found`, the bytes as a whole are an encoding, and the effect takes the minimal one. After an error: `none`, the bytes as a whole are no such encoding, unless the cause is `Memory`; `no_memory`, the cause is `Memory` only with an effect whose calls may fail. In any case: `front`, the effect keeps what it took before.
///
/// ```text
/// ensures found { OnOk result
///     (WalksWhole E.seen G.grammar T.format bytes.now effect.old effect.new) }
/// ensures none { IfErr result
///     (λ e. e.cause ≢ Memory → RejectsWhole T.format (padded_of G.grammar) bytes.now) }
/// ensures no_memory { IfErr result (λ e. e.cause ≡ Memory → E.may_fail) }
/// ensures front { Keeps E.seen effect.old effect.new }
/// ```
///
/// Definitions: [`WalksWhole`](crate::definitions::base::walks::WalksWhole), [`RejectsWhole`](crate::definitions::base::continuing::RejectsWhole), [`padded_of`](crate::definitions::base::numbers::padded_of), [`Keeps`](crate::definitions::base::walks::Keeps). [How to read clauses](crate::definitions).
pub fn walk_whole<'a, T: Walk<G>, A: Allocator + Copy, G: Grammar, E: Effect>(
    bytes: &'a [u8],
    alloc: A,
    effect: &mut E,
) -> Result<(), DecodeError> {
    T::laws();
    let rest = T::walk(bytes, alloc, effect)?;
    if rest.is_empty() {
        Ok(())
    } else {
        Err(ReadFault::SizeMismatch.at(rest))
    }
}

/// Walks over values one after another, up to the last byte of the input; no encoding of one is
/// empty.
///
/// # Errors
///
/// Every error except `Memory` means that the bytes as a whole encode no such values.
///
/// # Asks
///
/// No encoding of a value is empty. [What happens otherwise](crate::fallible#what-is-asked).
///
/// ```text
/// requires begun { BeginsWith (λ b. Unit {0}) T.format }
/// ```
///
/// Definitions: [`BeginsWith`](crate::definitions::base::decoding::BeginsWith). [How to read clauses](crate::definitions).
///
/// # Proved
///
/// After `Ok`: `found`, the bytes as a whole are an encoding, and the effect takes the minimal one. After an error: `none`, the bytes as a whole are no such encoding, unless the cause is `Memory`; `no_memory`, the cause is `Memory` only with an effect whose calls may fail. In any case: `front`, the effect keeps what it took before.
///
/// ```text
/// ensures found { OnOk result
///     (WalksWhole E.seen G.grammar (members T.format) bytes.now effect.old effect.new) }
/// ensures none { IfErr result
///     (λ e. e.cause ≢ Memory → RejectsWhole (members T.format)
///         (padded_of G.grammar) bytes.now) }
/// ensures no_memory { IfErr result (λ e. e.cause ≡ Memory → E.may_fail) }
/// ensures front { Keeps E.seen effect.old effect.new }
/// ```
///
/// Definitions: [`WalksWhole`](crate::definitions::base::walks::WalksWhole), [`members`](crate::definitions::base::formats::members), [`RejectsWhole`](crate::definitions::base::continuing::RejectsWhole), [`padded_of`](crate::definitions::base::numbers::padded_of), [`Keeps`](crate::definitions::base::walks::Keeps). [How to read clauses](crate::definitions).
pub fn walk_to_end<'a, T: Walk<G>, A: Allocator + Copy, G: Grammar, E: Effect>(
    bytes: &'a [u8],
    alloc: A,
    effect: &mut E,
) -> Result<(), DecodeError> {
    let mut rest = bytes;
    T::laws();
    loop {
        if rest.is_empty() {
            return Ok(());
        }
        rest = T::walk(rest, alloc, effect)?;
    }
}

/// Skips the value at the front, and returns the remaining bytes.
///
/// # Errors
///
/// Any error means that no such value is at the front.
///
/// # Examples
///
/// ```
/// use dolzhytik::fallible::Global;
/// use dolzhytik::reader::{Expression, Padded, skip_value};
///
/// // i32.const 7, end; then another byte.
/// let rest = skip_value::<Expression, Global, Padded>(&[0x41, 7, 0x0B, 0xFF], Global)?;
/// assert_eq!(rest, [0xFF]);
/// # Ok::<(), dolzhytik::reader::DecodeError>(())
/// ```
///
/// # Proved
///
/// After `Ok`: `found`, the bytes begin with such an encoding, and the returned bytes follow it. After an error: `none`, the bytes do not begin with such an encoding, unless the cause is `Memory`.
///
/// ```text
/// ensures found { IfOk result
///     (λ rest. (x : T.Value) × Decodes T.format
///         (padded_of G.grammar) bytes.now x rest.now) }
/// ensures none { IfErr result
///     (λ e. e.cause ≢ Memory → Rejects T.format (padded_of G.grammar) bytes.now) }
/// ensures no_memory { IfErr result (λ e. e.cause ≢ Memory) }
/// ```
///
/// Definitions: [`Decodes`](crate::definitions::base::decoding::Decodes), [`padded_of`](crate::definitions::base::numbers::padded_of), [`Rejects`](crate::definitions::base::decoding::Rejects). [How to read clauses](crate::definitions).
pub fn skip_value<'a, T: Walk<G>, A: Allocator + Copy, G: Grammar>(
    bytes: &'a [u8],
    alloc: A,
) -> Result<&'a [u8], DecodeError> {
    T::walk(bytes, alloc, &mut Discard)
}

/// Skips the vector at the front, and returns its number of members and the remaining bytes.
///
/// # Errors
///
/// Any error means that no such vector is at the front.
///
/// # Examples
///
/// ```
/// use dolzhytik::fallible::Global;
/// use dolzhytik::reader::{Padded, skip_many};
///
/// // Two numbers, then another byte.
/// let (count, rest) =
///     skip_many::<u32, Global, Padded>(&[2, 5, 6, 0xFF], Global)?;
/// assert_eq!((count, rest), (2, &[0xFF][..]));
/// # Ok::<(), dolzhytik::reader::DecodeError>(())
/// ```
///
/// # Proved
///
/// After `Ok`: `found`, a vector of this number of members is at the front, and the returned bytes follow it. After an error: `none`, the bytes do not begin with such an encoding, unless the cause is `Memory`.
///
/// ```text
/// ensures found { IfOk result
///     (λ x. (xs : List T.Value)
///         × Decodes (vec T.format) (padded_of G.grammar) bytes.now xs x.1.now
///         × (x.0 ≡ length xs)) }
/// ensures none { IfErr result
///     (λ e. e.cause ≢ Memory → Rejects (vec T.format) (padded_of G.grammar) bytes.now) }
/// ensures no_memory { IfErr result (λ e. e.cause ≢ Memory) }
/// ```
///
/// Definitions: [`Decodes`](crate::definitions::base::decoding::Decodes), [`vec`](crate::definitions::base::formats::vec), [`padded_of`](crate::definitions::base::numbers::padded_of), [`Rejects`](crate::definitions::base::decoding::Rejects). [How to read clauses](crate::definitions).
pub fn skip_many<'a, T: Walk<G>, A: Allocator + Copy, G: Grammar>(
    bytes: &'a [u8],
    alloc: A,
) -> Result<(u32, &'a [u8]), DecodeError> {
    walk_many::<T, A, G, _>(bytes, alloc, &mut Discard)
}

/// Checks that a value occupies all of the bytes. The value is not kept.
///
/// # Errors
///
/// Any error means that the bytes as a whole encode no such value.
///
/// # Examples
///
/// ```
/// use dolzhytik::fallible::Global;
/// use dolzhytik::reader::{Padded, ReadFault, check_whole};
///
/// // One number, and nothing behind it.
/// check_whole::<u32, Global, Padded>(&[5], Global)?;
/// let error = check_whole::<u32, Global, Padded>(&[5, 0xFF], Global)
///     .expect_err("a byte is left");
/// assert_eq!(error.cause(), ReadFault::SizeMismatch);
/// # Ok::<(), dolzhytik::reader::DecodeError>(())
/// ```
///
/// # Proved
///
/// After `Ok`: `found`, the bytes as a whole are such an encoding. After an error: `none`, the bytes as a whole are no such encoding, unless the cause is `Memory`.
///
/// ```text
/// ensures found { OnOk result
///     ((x : T.Value) × T.format (padded_of G.grammar) bytes.now x) }
/// ensures none { IfErr result
///     (λ e. e.cause ≢ Memory → RejectsWhole T.format (padded_of G.grammar) bytes.now) }
/// ensures no_memory { IfErr result (λ e. e.cause ≢ Memory) }
/// ```
///
/// Definitions: [`padded_of`](crate::definitions::base::numbers::padded_of), [`RejectsWhole`](crate::definitions::base::continuing::RejectsWhole). [How to read clauses](crate::definitions).
pub fn check_whole<'a, T: Walk<G>, A: Allocator + Copy, G: Grammar>(
    bytes: &'a [u8],
    alloc: A,
) -> Result<(), DecodeError> {
    walk_whole::<T, A, G, _>(bytes, alloc, &mut Discard)
}

/// Checks that values occupy all of the bytes, one after another; no encoding of one is empty. The
/// values are not kept.
///
/// # Errors
///
/// Any error means that the bytes as a whole encode no such values.
///
/// # Examples
///
/// ```
/// use dolzhytik::fallible::Global;
/// use dolzhytik::reader::{Padded, check_to_end};
///
/// // Two names.
/// check_to_end::<&str, Global, Padded>(b"\x01a\x02bc", Global)?;
/// # Ok::<(), dolzhytik::reader::DecodeError>(())
/// ```
///
/// # Asks
///
/// No encoding of a value is empty. [What happens otherwise](crate::fallible#what-is-asked).
///
/// ```text
/// requires begun { BeginsWith (λ b. Unit {0}) T.format }
/// ```
///
/// Definitions: [`BeginsWith`](crate::definitions::base::decoding::BeginsWith). [How to read clauses](crate::definitions).
///
/// # Proved
///
/// After `Ok`: `found`, the bytes as a whole are such an encoding. After an error: `none`, the bytes as a whole are no such encoding, unless the cause is `Memory`.
///
/// ```text
/// ensures found { OnOk result
///     ((xs : List T.Value) × members T.format (padded_of G.grammar) bytes.now xs) }
/// ensures none { IfErr result
///     (λ e. e.cause ≢ Memory → RejectsWhole (members T.format)
///         (padded_of G.grammar) bytes.now) }
/// ensures no_memory { IfErr result (λ e. e.cause ≢ Memory) }
/// ```
///
/// Definitions: [`members`](crate::definitions::base::formats::members), [`padded_of`](crate::definitions::base::numbers::padded_of), [`RejectsWhole`](crate::definitions::base::continuing::RejectsWhole). [How to read clauses](crate::definitions).
pub fn check_to_end<'a, T: Walk<G>, A: Allocator + Copy, G: Grammar>(
    bytes: &'a [u8],
    alloc: A,
) -> Result<(), DecodeError> {
    walk_to_end::<T, A, G, _>(bytes, alloc, &mut Discard)
}

/// Appends the minimal encoding of the vector at the front, and keeps no member.
///
/// # Errors
///
/// Every error except `Memory` means that no such vector is at the front. After an error, part of
/// the encoding may follow the old bytes of the sink.
///
/// # Examples
///
/// ```
/// use dolzhytik::fallible::Global;
/// use dolzhytik::reader::{Padded, minimize_many};
///
/// // Two numbers, of which the first has two bytes.
/// let mut minimal = Vec::new();
/// let rest = minimize_many::<u32, _, Padded, _>(&[2, 0x85, 0x00, 7, 9], Global, &mut minimal)?;
/// assert_eq!(minimal, [2, 5, 7]);
/// assert_eq!(rest, [9]);
/// # Ok::<(), dolzhytik::reader::DecodeError>(())
/// ```
///
/// # Proved
///
/// - After `Ok`, `found`: A value decodes from the front of the bytes in this grammar, and `rest` follows it. The call appends the minimal encoding of the value in this grammar.
/// - After an error, `none`: the bytes do not begin with such an encoding, unless the cause is `Memory`.
/// - `front`: The new bytes begin with the old ones.
///
/// ```text
/// ensures found { IfOk result
///     (λ rest. Minimizes G.grammar
///         (vec T.format) bytes.now rest.now sink.old.items sink.new.items) }
/// ensures none { IfErr result
///     (λ e. e.cause ≢ Memory → Rejects (vec T.format) (padded_of G.grammar) bytes.now) }
/// ensures front { IsFrontOf sink.old.items sink.new.items }
/// ```
///
/// Definitions: [`Minimizes`](crate::definitions::base::minimal::Minimizes), [`vec`](crate::definitions::base::formats::vec), [`Rejects`](crate::definitions::base::decoding::Rejects), [`padded_of`](crate::definitions::base::numbers::padded_of), [`IsFrontOf`](crate::definitions::base::minimal::IsFrontOf). [How to read clauses](crate::definitions).
pub fn minimize_many<'a, T: Walk<G>, A: Allocator + Copy, G: Grammar, B: Sink>(
    bytes: &'a [u8],
    alloc: A,
    sink: &mut B,
) -> Result<&'a [u8], DecodeError> {
    let (_count, rest) = walk_many::<T, A, G, _>(bytes, alloc, sink)?;
    Ok(rest)
}

/// Appends the minimal encoding of a value that occupies all of the bytes.
///
/// # Errors
///
/// Every error except `Memory` means that the bytes as a whole encode no such value. After an
/// error, part of the encoding may follow the old bytes of the sink.
///
/// # Examples
///
/// ```
/// use dolzhytik::fallible::Global;
/// use dolzhytik::reader::{Padded, ReadFault, minimize_whole};
///
/// let mut minimal = Vec::new();
/// minimize_whole::<u32, _, Padded, _>(&[0x85, 0x00], Global, &mut minimal)?;
/// assert_eq!(minimal, [5]);
/// let error = minimize_whole::<u32, _, Padded, _>(&[5, 0], Global, &mut minimal).err();
/// assert_eq!(error.map(|e| e.cause()), Some(ReadFault::SizeMismatch));
/// # Ok::<(), dolzhytik::reader::DecodeError>(())
/// ```
///
/// # Proved
///
/// - After `Ok`, `found`: The bytes as a whole decode to a value in this grammar, and the call appends the minimal encoding of the value in this grammar.
/// - After an error, `none`: the bytes as a whole are no such encoding, unless the cause is `Memory`.
/// - `front`: The new bytes begin with the old ones.
///
/// ```text
/// ensures found { OnOk result
///     (MinimizesWhole G.grammar T.format bytes.now sink.old.items sink.new.items) }
/// ensures none { IfErr result
///     (λ e. e.cause ≢ Memory → RejectsWhole T.format (padded_of G.grammar) bytes.now) }
/// ensures front { IsFrontOf sink.old.items sink.new.items }
/// ```
///
/// Definitions: [`MinimizesWhole`](crate::definitions::base::minimal::MinimizesWhole), [`RejectsWhole`](crate::definitions::base::continuing::RejectsWhole), [`padded_of`](crate::definitions::base::numbers::padded_of), [`IsFrontOf`](crate::definitions::base::minimal::IsFrontOf). [How to read clauses](crate::definitions).
pub fn minimize_whole<'a, T: Walk<G>, A: Allocator + Copy, G: Grammar, B: Sink>(
    bytes: &'a [u8],
    alloc: A,
    sink: &mut B,
) -> Result<(), DecodeError> {
    walk_whole::<T, A, G, _>(bytes, alloc, sink)
}

/// Appends the minimal encodings of values one after another, up to the last byte of the input; no
/// encoding of one is empty.
///
/// # Errors
///
/// Every error except `Memory` means that the bytes as a whole encode no such values. After an
/// error, part of the encoding may follow the old bytes of the sink.
///
/// # Examples
///
/// ```
/// use dolzhytik::fallible::Global;
/// use dolzhytik::reader::{Padded, minimize_to_end};
///
/// let mut minimal = Vec::new();
/// minimize_to_end::<u32, _, Padded, _>(&[0x85, 0x00, 7], Global, &mut minimal)?;
/// assert_eq!(minimal, [5, 7]);
/// # Ok::<(), dolzhytik::reader::DecodeError>(())
/// ```
///
/// # Asks
///
/// No encoding of a value is empty. [What happens otherwise](crate::fallible#what-is-asked).
///
/// ```text
/// requires begun { BeginsWith (λ b. Unit {0}) T.format }
/// ```
///
/// Definitions: [`BeginsWith`](crate::definitions::base::decoding::BeginsWith). [How to read clauses](crate::definitions).
///
/// # Proved
///
/// - After `Ok`, `found`: The bytes as a whole decode to a value in this grammar, and the call appends the minimal encoding of the value in this grammar.
/// - After an error, `none`: the bytes as a whole are no such encoding, unless the cause is `Memory`.
/// - `front`: The new bytes begin with the old ones.
///
/// ```text
/// ensures found { OnOk result
///     (MinimizesWhole G.grammar
///         (members T.format) bytes.now sink.old.items sink.new.items) }
/// ensures none { IfErr result
///     (λ e. e.cause ≢ Memory → RejectsWhole (members T.format)
///         (padded_of G.grammar) bytes.now) }
/// ensures front { IsFrontOf sink.old.items sink.new.items }
/// ```
///
/// Definitions: [`MinimizesWhole`](crate::definitions::base::minimal::MinimizesWhole), [`members`](crate::definitions::base::formats::members), [`RejectsWhole`](crate::definitions::base::continuing::RejectsWhole), [`padded_of`](crate::definitions::base::numbers::padded_of), [`IsFrontOf`](crate::definitions::base::minimal::IsFrontOf). [How to read clauses](crate::definitions).
pub fn minimize_to_end<'a, T: Walk<G>, A: Allocator + Copy, G: Grammar, B: Sink>(
    bytes: &'a [u8],
    alloc: A,
    sink: &mut B,
) -> Result<(), DecodeError> {
    walk_to_end::<T, A, G, _>(bytes, alloc, sink)
}
