// Written by tools/to-rust from crates/wasm_base/src/frames.rt: change that.
// Size-prefixed values: a size, and exactly that many bytes.

use crate::vec::Sink;
use crate::base::effect::Effect;
use crate::base::encode::Encode;
use crate::base::fault::DecodeError;
use crate::base::grammar::Grammar;
use crate::base::leb128::encoding_size;
use crate::base::readable::{Layout, Readable};
use crate::base::refused::{Refused, Result};
use crate::base::shorten::Shorten;
use crate::base::walk::{Walk, walk_whole};
use crate::base::whole::read_before;
use crate::alloc::Allocator;

/// Appends a size prefix, and reserves spare capacity for the payload that the caller appends next.
///
/// # Errors
///
/// Returns [`Refused::TooLong`] if the size exceeds 4294967295, and [`Refused::Memory`] if an
/// allocation fails. The bytes of the sink are unchanged in both cases.
///
/// # Examples
///
/// ```
/// use dolzhytik::fallible::begin_size_prefixed;
///
/// let mut bytes = Vec::new();
/// begin_size_prefixed(&mut bytes, 3)?;
/// bytes.extend_from_slice(b"abc");
/// assert_eq!(bytes, *b"\x03abc");
/// # Ok::<(), dolzhytik::fallible::Refused>(())
/// ```
///
/// # Proved
///
/// After `Ok`: `ok`, the sink gains the size; `reserved`, the sink has spare capacity for the payload; `was_encodable`, the size is at most 4294967295. After an error: `err`, the bytes of the sink are unchanged. In any case: `too_long`, a size of at most 4294967295 never gives `TooLong`; `too_many`, more than 4294967295 give `TooLong`; `spare`, the call succeeds if the size fits 32 bits and the bytes fit the spare capacity; `capacity`, the capacity does not shrink.
///
/// ```text
/// ensures ok { OnOk result (sink.new.items ≡ sink.old.items ++ unsigned_encoding size) }
/// ensures reserved { OnOk result (vec_len sink.new + size ≤ vec_capacity sink.new) }
/// ensures err { OnErr result (sink.new.items ≡ sink.old.items) }
/// ensures was_encodable { OnOk result (size ≤ longest) }
/// ensures too_long { size ≤ longest → result ≢ Err Refused.TooLong }
/// ensures too_many { longest < size → result ≡ Err Refused.TooLong }
/// ensures spare { size ≤ longest
///     → vec_len sink.old + (length (unsigned_encoding size) + size)
///         ≤ vec_capacity sink.old
///     → IsOk result }
/// ensures capacity { vec_capacity sink.old ≤ vec_capacity sink.new }
/// ```
///
/// Definitions: [`unsigned_encoding`](crate::definitions::base::numbers::unsigned_encoding), [`longest`](crate::definitions::base::encodings::longest). [How to read clauses](crate::definitions).
#[inline(always)]
pub fn begin_size_prefixed<A: Sink>(sink: &mut A, size: usize) -> Result<()> {
    let Ok(short) = u32::try_from(size) else {
        return Err(Refused::TooLong);
    };
    sink.reserve(size.saturating_add(encoding_size(short)))?;
    short.encode(sink)
}

/// A size below this has one byte.
const SHORT: usize = 0x80;

/// Appends the bytes with their size prefix.
///
/// # Errors
///
/// Returns [`Refused::TooLong`] if there are more than 4294967295 bytes, and [`Refused::Memory`] if
/// an allocation fails. The bytes of the sink are unchanged in both cases.
///
/// # Examples
///
/// ```
/// use dolzhytik::fallible::encode_size_prefixed;
///
/// let mut bytes = Vec::new();
/// encode_size_prefixed(&mut bytes, b"abc")?;
/// assert_eq!(bytes, *b"\x03abc");
/// # Ok::<(), dolzhytik::fallible::Refused>(())
/// ```
///
/// # Proved
///
/// - `appends`: The call appends the encoding, or returns an error and leaves the bytes as they were. If the value fits, the call never returns `TooLong`, and it succeeds within the spare capacity.
/// - `too_many`: more than 4294967295 give `TooLong`.
///
/// ```text
/// ensures appends { Appends (size_prefixed_encoding bytes.now)
///     (HasEncodableSize bytes.now) sink.old sink.new result }
/// ensures too_many { longest < length bytes.now → result ≡ Err Refused.TooLong }
/// ```
///
/// Definitions: [`Appends`](crate::definitions::base::calls::Appends), [`size_prefixed_encoding`](crate::definitions::base::encodings::size_prefixed_encoding), [`HasEncodableSize`](crate::definitions::base::encodings::HasEncodableSize), [`longest`](crate::definitions::base::encodings::longest). [How to read clauses](crate::definitions).
#[inline(always)]
pub fn encode_size_prefixed<A: Sink>(sink: &mut A, bytes: &[u8]) -> Result<()> {
    let size = bytes.len();
    if size >= SHORT {
        return encode_long_payload(sink, bytes);
    }
    sink.reserve(size + 1)?;
    sink.push_reserved(size as u8);
    sink.extend_from_slice(bytes).unwrap();
    Ok(())
}

/// Appends the bytes with their size prefix, which may have several bytes.
#[inline(never)]
fn encode_long_payload<A: Sink>(sink: &mut A, bytes: &[u8]) -> Result<()> {
    begin_size_prefixed(sink, bytes.len())?;
    sink.extend_from_slice(bytes).unwrap();
    Ok(())
}

/// Appends a size prefix, then `count`, then the bytes. This is a counted section if the bytes are
/// the encodings of `count` entries; the call does not check that.
///
/// # Errors
///
/// Returns [`Refused::TooLong`] if the size exceeds 4294967295, and [`Refused::Memory`] if an
/// allocation fails. The bytes of the sink are unchanged in both cases.
///
/// # Examples
///
/// ```
/// use dolzhytik::fallible::encode_section;
///
/// let mut bytes = Vec::new();
/// encode_section(&mut bytes, 2, &[7, 8])?;
/// // The size of the payload, 3, and two entries.
/// assert_eq!(bytes, [3, 2, 7, 8]);
/// # Ok::<(), dolzhytik::fallible::Refused>(())
/// ```
///
/// # Proved
///
/// - `appends`: The call appends the encoding, or returns an error and leaves the bytes as they were. If the value fits, the call never returns `TooLong`, and it succeeds within the spare capacity.
/// - `too_many`: more than 4294967295 give `TooLong`.
///
/// ```text
/// ensures appends { Appends
///     (size_prefixed_encoding (unsigned_encoding count ++ bytes.now))
///     (HasEncodableSize (unsigned_encoding count ++ bytes.now)) sink.old sink.new result }
/// ensures too_many { longest < length (unsigned_encoding count ++ bytes.now)
///     → result ≡ Err Refused.TooLong }
/// ```
///
/// Definitions: [`Appends`](crate::definitions::base::calls::Appends), [`size_prefixed_encoding`](crate::definitions::base::encodings::size_prefixed_encoding), [`unsigned_encoding`](crate::definitions::base::numbers::unsigned_encoding), [`HasEncodableSize`](crate::definitions::base::encodings::HasEncodableSize), [`longest`](crate::definitions::base::encodings::longest). [How to read clauses](crate::definitions).
pub fn encode_section<A: Sink>(sink: &mut A, count: u32, bytes: &[u8]) -> Result<()> {
    begin_size_prefixed(sink, bytes.len().saturating_add(encoding_size(count)))?;
    count.encode(sink).unwrap();
    sink.extend_from_slice(bytes).unwrap();
    Ok(())
}

/// Bytes that are encoded with their size prefix.
#[derive(Clone, Copy, Debug)]
pub struct SizedBytes<'a>(pub &'a [u8]);

/// # Defined
///
/// ```text
/// encoding = { λ b. size_prefixed_encoding b.0.now }
/// encodable = { λ b. HasEncodableSize b.0.now }
/// overlong = { λ b. longest < length b.0.now }
/// ```
///
/// Definitions: [`size_prefixed_encoding`](crate::definitions::base::encodings::size_prefixed_encoding), [`HasEncodableSize`](crate::definitions::base::encodings::HasEncodableSize), [`longest`](crate::definitions::base::encodings::longest). [How to read clauses](crate::definitions).
impl Encode for SizedBytes<'_> {
    #[inline(always)]
    fn encode<A: Sink>(&self, sink: &mut A) -> Result<()> {
        encode_size_prefixed(sink, self.0)
    }
}

/// Bytes that are encoded as they are, without their size.
#[derive(Clone, Copy, Debug)]
pub struct RawBytes<'a>(pub &'a [u8]);

/// # Defined
///
/// ```text
/// encoding = { λ b. b.0.now }
/// encodable = { λ _. ⊤ }
/// ```
///
/// [How to read clauses](crate::definitions).
impl Encode for RawBytes<'_> {
    #[inline]
    fn encode<A: Sink>(&self, sink: &mut A) -> Result<()> {
        sink.extend_from_slice(self.0)?;
        Ok(())
    }
}

/// A size-prefixed value that occupies its payload to the last byte. Its own format determines its
/// end too.
///
/// # Examples
///
/// ```
/// use dolzhytik::fallible::Global;
/// use dolzhytik::reader::{Padded, ReadFault, Readable, SizePrefixed};
///
/// type Number = SizePrefixed<u32>;
/// let (SizePrefixed(number), _) =
///     <Number as Readable<Global, Padded>>::read(&[1, 7], Global)?;
/// assert_eq!(number, 7);
/// // The size is 2, and the number has one byte.
/// let error = <Number as Readable<Global, Padded>>::read(&[2, 7, 0], Global).err();
/// assert_eq!(error.map(|error| error.cause()), Some(ReadFault::SizeMismatch));
/// # Ok::<(), dolzhytik::reader::DecodeError>(())
/// ```
#[derive(Debug)]
pub struct SizePrefixed<T>(pub T);

/// # Defined
///
/// ```text
/// Value = { T.Value }
/// format = { size_prefixed T.format }
/// view = { λ f. T.view f.0 }
/// ```
///
/// Definitions: [`size_prefixed`](crate::definitions::base::formats::size_prefixed). [How to read clauses](crate::definitions).
impl<T: Layout> Layout for SizePrefixed<T> {
    fn laws() {
        T::laws();
    }
}

/// # Defined
///
/// ```text
/// may_allocate = { T.may_allocate }
/// ```
///
/// [How to read clauses](crate::definitions).
impl<'a, A: Allocator + Copy, G: Grammar, T: Readable<'a, A, G>> Readable<'a, A, G>
    for SizePrefixed<T> {
    fn read(bytes: &'a [u8], alloc: A) -> Result<(SizePrefixed<T>, &'a [u8]), DecodeError> {
        let (content, rest) = <&'a [u8] as Readable<'a, A, G>>::read(bytes, alloc)?;
        let value = read_before::<T, A, G>(content, rest, alloc)?;
        Ok((SizePrefixed(value), rest))
    }
}

/// Inserts the size of the bytes from `start` on before them, so that they become a size prefix and
/// its payload.
///
/// # Errors
///
/// Returns [`Refused::TooLong`] only if there are more than 4294967295 such bytes, and
/// [`Refused::Memory`] if an allocation fails. The bytes of the sink are unchanged in both cases.
///
/// # Asks
///
/// `start` is at most the number of bytes in the sink. [What happens otherwise](crate::fallible#what-is-asked).
///
/// ```text
/// requires { start ≤ vec_len sink.old }
/// ```
///
/// [How to read clauses](crate::definitions).
///
/// # Proved
///
/// - After `Ok`, `sized`: the bytes from `start` on gain their size before them.
/// - After `Ok`, `was_encodable`: The size of the bytes is at most 2^32 - 1.
/// - After an error, `err`: the bytes of the sink are unchanged.
/// - `too_long`: at most 4294967295 bytes from `start` on never give `TooLong`.
///
/// ```text
/// ensures sized { OnOk result
///     (sink.new.items ≡ take start sink.old.items
///         ++ size_prefixed_encoding (drop start sink.old.items)) }
/// ensures was_encodable { OnOk result (HasEncodableSize (drop start sink.old.items)) }
/// ensures err { OnErr result (sink.new.items ≡ sink.old.items) }
/// ensures too_long { HasEncodableSize (drop start sink.old.items) → result ≢ Err TooLong }
/// ```
///
/// Definitions: [`size_prefixed_encoding`](crate::definitions::base::encodings::size_prefixed_encoding), [`HasEncodableSize`](crate::definitions::base::encodings::HasEncodableSize). [How to read clauses](crate::definitions).
pub fn prefix_size_since<B: Sink>(sink: &mut B, start: usize) -> Result<()> {
    let size = sink.len() - start;
    size.encode(sink)?;
    sink[start..].rotate_left(size);
    Ok(())
}

/// Appends the minimal encoding of the value with its size prefix.
fn append_payload<T: Shorten, B: Sink>(value: &T, sink: &mut B) -> Result<()> {
    T::laws();
    let start = sink.len();
    value.write_minimal(sink)?;
    prefix_size_since(sink, start)
}

/// # Defined
///
/// ```text
/// grammars = { T.grammars }
/// ```
///
/// [How to read clauses](crate::definitions).
impl<T: Shorten> Shorten for SizePrefixed<T> {
    fn write_minimal<B: Sink>(&self, sink: &mut B) -> Result<()> {
        let SizePrefixed(value) = self;
        append_payload(value, sink)
    }
}

/// Walks over the payload, and then inserts its size.
impl<G: Grammar, T: Walk<G>> Walk<G> for SizePrefixed<T> {
    fn walk<'a, A: Allocator + Copy, E: Effect>(
        bytes: &'a [u8],
        alloc: A,
        effect: &mut E,
    ) -> Result<&'a [u8], DecodeError> {
        let (content, rest) = <&'a [u8] as Readable<'a, A, G>>::read(bytes, alloc)?;
        T::laws();
        let start = effect.position();
        match walk_whole::<T, A, G, _>(content, alloc, effect) {
            Ok(()) => {}
            Err(error) => return Err(error.before(rest)),
        }
        effect.prefix_size(start)?;
        Ok(rest)
    }
}
