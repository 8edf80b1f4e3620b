// Written by tools/to-rust from crates/wasm_base/src/names.rt: change that.
// Names, and size-prefixed bytes. Decoded ones are slices of the input.

use crate::vec::Sink;
use crate::base::effect::Effect;
use crate::base::encode::Encode;
use crate::base::fault::{DecodeError, ReadFault};
use crate::base::frames::{SizedBytes, encode_size_prefixed};
use crate::base::grammar::Grammar;
use crate::base::readable::{Layout, Readable};
use crate::base::refused::Result;
use crate::base::shorten::Shorten;
use crate::base::walk::Walk;
use crate::alloc::Allocator;

/// Encodes a name: the size prefix and the UTF-8 bytes.
///
/// # Defined
///
/// ```text
/// encoding = { λ name. size_prefixed_encoding name.now }
/// encodable = { λ name. HasEncodableSize name.now }
/// overlong = { λ name. longest < length name.now }
/// ```
///
/// Definitions: [`size_prefixed_encoding`](crate::definitions::base::encodings::size_prefixed_encoding), [`HasEncodableSize`](crate::definitions::base::encodings::HasEncodableSize), [`longest`](crate::definitions::base::encodings::longest). [How to read clauses](crate::definitions).
impl Encode for &str {
    #[inline(always)]
    fn encode<A: Sink>(&self, sink: &mut A) -> Result<()> {
        encode_size_prefixed(sink, self.as_bytes())
    }
}

/// The payload of size-prefixed bytes.
///
/// # Defined
///
/// ```text
/// Value = { List ℕ }
/// format = { size_prefixed any_bytes }
/// view = { λ b. b.now }
/// ```
///
/// Definitions: [`size_prefixed`](crate::definitions::base::formats::size_prefixed), [`any_bytes`](crate::definitions::base::formats::any_bytes). [How to read clauses](crate::definitions).
impl<'a> Layout for &'a [u8] {
    /// # Proved
    ///
    /// A format whose encodings determine their own end is unambiguous in every mode, with encodings as `HasEncodings` states.
    ///
    /// ```text
    /// ensures { Unambiguous (size_prefixed any_bytes) }
    /// ```
    ///
    /// Definitions: [`Unambiguous`](crate::definitions::base::decoding::Unambiguous), [`size_prefixed`](crate::definitions::base::formats::size_prefixed), [`any_bytes`](crate::definitions::base::formats::any_bytes). [How to read clauses](crate::definitions).
    fn laws() {}
}

/// # Defined
///
/// ```text
/// may_allocate = { ⊥ }
/// ```
///
/// [How to read clauses](crate::definitions).
impl<'a, A: Allocator + Copy, G: Grammar> Readable<'a, A, G> for &'a [u8] {
    fn read(bytes: &'a [u8], alloc: A) -> Result<(&'a [u8], &'a [u8]), DecodeError> {
        let (size, rest) = <u32 as Readable<'a, A, G>>::read(bytes, alloc)?;
        if rest.len() < size as usize {
            return Err(ReadFault::Ended.at(b""));
        }
        Ok(rest.split_at(size as usize))
    }
}

/// A name: a length, and that many bytes of UTF-8.
///
/// # Defined
///
/// ```text
/// Value = { List ℕ }
/// format = { name }
/// view = { λ s. s.now }
/// ```
///
/// Definitions: [`name`](crate::definitions::base::formats::name). [How to read clauses](crate::definitions).
impl<'a> Layout for &'a str {
    /// # Proved
    ///
    /// A format whose encodings determine their own end is unambiguous in every mode, with encodings as `HasEncodings` states.
    ///
    /// ```text
    /// ensures { Unambiguous name }
    /// ```
    ///
    /// Definitions: [`Unambiguous`](crate::definitions::base::decoding::Unambiguous), [`name`](crate::definitions::base::formats::name). [How to read clauses](crate::definitions).
    fn laws() {}
}

/// # Defined
///
/// ```text
/// may_allocate = { ⊥ }
/// ```
///
/// [How to read clauses](crate::definitions).
impl<'a, A: Allocator + Copy, G: Grammar> Readable<'a, A, G> for &'a str {
    fn read(bytes: &'a [u8], alloc: A) -> Result<(&'a str, &'a [u8]), DecodeError> {
        let (encoding, rest) = <&'a [u8] as Readable<'a, A, G>>::read(bytes, alloc)?;
        match str::from_utf8(encoding) {
            Ok(name) => Ok((name, rest)),
            Err(_) => Err(ReadFault::NotUtf8.at(encoding).before(rest)),
        }
    }
}

/// # Defined
///
/// ```text
/// grammars = { both_grammars }
/// ```
///
/// Definitions: [`both_grammars`](crate::definitions::base::minimal::Grammars). [How to read clauses](crate::definitions).
impl Shorten for &[u8] {
    fn write_minimal<B: Sink>(&self, sink: &mut B) -> Result<()> {
        encode_size_prefixed(sink, self)
    }
}

/// # Defined
///
/// ```text
/// grammars = { both_grammars }
/// ```
///
/// Definitions: [`both_grammars`](crate::definitions::base::minimal::Grammars). [How to read clauses](crate::definitions).
impl Shorten for &str {
    fn write_minimal<B: Sink>(&self, sink: &mut B) -> Result<()> {
        self.encode(sink)
    }
}

impl<'s, G: Grammar> Walk<G> for &'s str {
    /// # Proved
    ///
    /// After `Ok`: `found`, the bytes begin with an encoding, the effect takes the minimal one, and the returned bytes follow it. After an error: `none`, the bytes do not begin with such an encoding, unless the cause is `Memory`; `no_memory`, the cause is `Memory` only with an effect whose calls may fail. In any case: `front`, the effect keeps what it took before.
    ///
    /// ```text
    /// ensures found { IfOk result
    ///     (λ rest. Walks E.seen G.grammar name bytes.now rest.now effect.old effect.new) }
    /// ensures none { IfErr result
    ///     (λ e. e.cause ≢ Memory → Rejects name (padded_of G.grammar) bytes.now) }
    /// ensures no_memory { IfErr result (λ e. e.cause ≡ Memory → E.may_fail) }
    /// ensures front { Keeps E.seen effect.old effect.new }
    /// ```
    ///
    /// Definitions: [`Walks`](crate::definitions::base::walks::Walks), [`name`](crate::definitions::base::formats::name), [`Rejects`](crate::definitions::base::decoding::Rejects), [`padded_of`](crate::definitions::base::numbers::padded_of), [`Keeps`](crate::definitions::base::walks::Keeps). [How to read clauses](crate::definitions).
    #[inline]
    fn walk<'a, A: Allocator + Copy, E: Effect>(
        bytes: &'a [u8],
        alloc: A,
        effect: &mut E,
    ) -> Result<&'a [u8], DecodeError> {
        let (name, rest) = <&'a str as Readable<'a, A, G>>::read(bytes, alloc)?;
        effect.put(&name)?;
        Ok(rest)
    }
}

impl<'s, G: Grammar> Walk<G> for &'s [u8] {
    /// # Proved
    ///
    /// After `Ok`: `found`, the bytes begin with an encoding, the effect takes the minimal one, and the returned bytes follow it. After an error: `none`, the bytes do not begin with such an encoding, unless the cause is `Memory`; `no_memory`, the cause is `Memory` only with an effect whose calls may fail. In any case: `front`, the effect keeps what it took before.
    ///
    /// ```text
    /// ensures found { IfOk result
    ///     (λ rest. Walks E.seen G.grammar
    ///         (size_prefixed any_bytes) bytes.now rest.now effect.old effect.new) }
    /// ensures none { IfErr result
    ///     (λ e. e.cause ≢ Memory → Rejects (size_prefixed any_bytes)
    ///         (padded_of G.grammar) bytes.now) }
    /// ensures no_memory { IfErr result (λ e. e.cause ≡ Memory → E.may_fail) }
    /// ensures front { Keeps E.seen effect.old effect.new }
    /// ```
    ///
    /// Definitions: [`Walks`](crate::definitions::base::walks::Walks), [`size_prefixed`](crate::definitions::base::formats::size_prefixed), [`any_bytes`](crate::definitions::base::formats::any_bytes), [`Rejects`](crate::definitions::base::decoding::Rejects), [`padded_of`](crate::definitions::base::numbers::padded_of), [`Keeps`](crate::definitions::base::walks::Keeps). [How to read clauses](crate::definitions).
    #[inline]
    fn walk<'a, A: Allocator + Copy, E: Effect>(
        bytes: &'a [u8],
        alloc: A,
        effect: &mut E,
    ) -> Result<&'a [u8], DecodeError> {
        let (content, rest) = <&'a [u8] as Readable<'a, A, G>>::read(bytes, alloc)?;
        effect.put(&SizedBytes(content))?;
        Ok(rest)
    }
}
