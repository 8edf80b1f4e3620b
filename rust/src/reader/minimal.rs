// Written by tools/to-rust from crates/wasm_reader/src/minimal.rt: change that.
// Minimizes sections.

use crate::vec::{Sink, Vec};
use crate::reader::kinds::{Items, SectionKind, encode_items};
use crate::reader::walk::walk_content;
use crate::alloc::Allocator;
use crate::base::{DecodeError, Grammar, Padded, ReadFault, Readable, Refused, Result as Written, prefix_size_since};

/// Minimizes the payload of a section of this kind. No list of items is kept.
pub(crate) fn minimize_content<A: Allocator + Copy, G: Grammar, B: Sink>(
    kind: SectionKind,
    bytes: &[u8],
    alloc: A,
    sink: &mut B,
) -> Result<(), DecodeError> {
    walk_content::<A, G, _>(kind, bytes, alloc, sink)
}

/// Minimizes the section at the front, without its id, and returns the remaining bytes.
fn minimize_section<'a, A: Allocator + Copy, G: Grammar, B: Sink>(
    kind: SectionKind,
    bytes: &'a [u8],
    alloc: A,
    sink: &mut B,
) -> Result<&'a [u8], DecodeError> {
    let (payload, rest) = <&'a [u8] as Readable<'a, A, G>>::read(bytes, alloc)?;
    let start = sink.len();
    minimize_content::<A, G, _>(kind, payload, alloc, sink)?;
    prefix_size_since(sink, start)?;
    Ok(rest)
}

/// Appends the minimal encoding of the section at the front, and returns the section's length in
/// the input, in bytes. Both are without the section's id. On an error, the bytes of the sink are
/// unchanged. Items are decoded one by one, and not kept.
///
/// In a code section that becomes shorter, instructions move. Offsets into it that are kept
/// elsewhere are then wrong: relocations, debugging information, branch hints and source maps.
///
/// # Errors
///
/// Every error except `Memory` means that the bytes do not begin with such a section.
///
/// # Examples
///
/// ```
/// use dolzhytik::fallible::{Global, Vec};
/// use dolzhytik::reader::{SectionKind, shorten};
///
/// // Size 6, one function, of type 5: both in more bytes than needed.
/// let padded = [0x86, 0x00, 0x01, 0x85, 0x80, 0x80, 0x80, 0x00];
/// let mut minimal = Vec::new(Global);
/// let taken = shorten(SectionKind::Functions, &padded, &mut minimal)?;
/// assert_eq!((&minimal[..], taken), (&[2, 1, 5][..], 8));
/// # Ok::<(), dolzhytik::reader::ReadFault>(())
/// ```
///
/// # Proved
///
/// - After `Ok`, `ok`: As many bytes as the result says are a section of this kind, from the first one on. The buffer gains its minimal encoding, which is at most as long.
/// - After an error, `err`: the bytes of the sink are unchanged.
/// - After an error, `none`: the bytes do not begin with such an encoding, unless the cause is `Memory`.
///
/// ```text
/// ensures ok { IfOk result
///     (λ n. Shortens kind bytes.now n sink.old.items sink.new.items) }
/// ensures err { OnErr result (sink.new.items ≡ sink.old.items) }
/// ensures none { IfErr result
///     (λ e. e ≢ Memory → Rejects (section kind) padded bytes.now) }
/// ```
///
/// Definitions: [`Shortens`](crate::definitions::reader::sections::Shortens), [`Rejects`](crate::definitions::base::decoding::Rejects), [`section`](crate::definitions::reader::sections::section), [`padded`](crate::definitions::base::numbers::Mode). [How to read clauses](crate::definitions).
pub fn shorten<A: Allocator + Copy>(
    kind: SectionKind,
    bytes: &[u8],
    sink: &mut Vec<u8, A>,
) -> Result<usize, ReadFault> {
    shorten_in::<A, Padded, _>(*sink.allocator(), kind, bytes, sink)
}

/// Does what [`shorten`] does, in a grammar and with another allocator for decoded items.
pub(crate) fn shorten_in<A: Allocator + Copy, G: Grammar, B: Sink>(
    alloc: A,
    kind: SectionKind,
    bytes: &[u8],
    sink: &mut B,
) -> Result<usize, ReadFault> {
    let start = sink.len();
    match minimize_section::<A, G, _>(kind, bytes, alloc, sink) {
        Ok(rest) => Ok(bytes.len() - rest.len()),
        Err(error) => {
            sink.truncate(start);
            Err(error.cause())
        }
    }
}

/// Appends the minimal encoding, in the grammar `G`, of a section's payload with these items. On an
/// error, the sink is unchanged.
///
/// In the standard's grammar no encoding of the items is shorter. [`encode_items`] writes types,
/// instructions and flags as builders do, and all else alike.
///
/// The call promises this for items to which some bytes decode in `G` or in the builders' grammar.
/// Code that only the standard's grammar has is an exception at 2^31 bytes: builders may need twice
/// as many, and encode no body of 2^32.
///
/// # Errors
///
/// Returns `TooLong` only for items of which the call promises nothing. Returns `Memory` if an
/// allocation fails.
///
/// # Examples
///
/// ```
/// use dolzhytik::fallible::Global;
/// use dolzhytik::reader::{Padded, Sections, Standard, encode_items_in};
///
/// // A table section with one table of `anyref`, in one byte: 6E.
/// let module = b"\0asm\x01\0\0\0\x04\x04\x01\x6E\0\x07";
/// let section = Sections::new(Global, module)?.next().unwrap()?;
/// let items = section.items()?;
///
/// let mut payload = vec![];
/// encode_items_in::<Standard, _, _, _>(Global, &items, &mut payload).unwrap();
/// assert_eq!(payload, [0x01, 0x6E, 0x00, 0x07]);
///
/// payload.clear();
/// encode_items_in::<Padded, _, _, _>(Global, &items, &mut payload).unwrap();
/// assert_eq!(payload, [0x01, 0x63, 0x6E, 0x00, 0x07]);
/// # Ok::<(), dolzhytik::reader::ReadError>(())
/// ```
///
/// # Proved
///
/// After `Ok`: `ok`, the sink gains the minimal encoding of the items in the grammar, if bytes decode to them. After an error: `err`, the bytes of the sink are unchanged. In any case: `too_long`, items to which bytes decode never give `TooLong`.
///
/// ```text
/// ensures ok { OnOk result
///     (AppendsContentIn G.grammar (contents_of items.now) sink.old.items sink.new.items) }
/// ensures err { OnErr result (sink.new.items ≡ sink.old.items) }
/// ensures too_long { HasContentIn G.grammar (contents_of items.now)
///     → result ≢ Err TooLong }
/// ```
///
/// Definitions: [`AppendsContentIn`](crate::definitions::reader::sections::AppendsContentIn), [`contents_of`](crate::definitions::reader::kinds::contents_of), [`HasContentIn`](crate::definitions::reader::sections::HasContentIn). [How to read clauses](crate::definitions).
pub fn encode_items_in<G: Grammar, A: Allocator, B: Sink, C: Allocator + Copy>(
    alloc: C,
    items: &Items<'_, A>,
    sink: &mut B,
) -> Written<()> {
    let mut written = Vec::new(alloc);
    encode_items(items, &mut written)?;
    let start = sink.len();
    match minimize_content::<C, G, _>(items.kind(), &written, alloc, sink) {
        Ok(()) => Ok(()),
        Err(error) => {
            sink.truncate(start);
            Err(refusal_of(error.cause()))
        }
    }
}

/// Returns why items are not encoded whose encoding by builders does not decode.
fn refusal_of(cause: ReadFault) -> Refused {
    if cause == ReadFault::Memory {
        Refused::Memory
    } else {
        Refused::TooLong
    }
}
