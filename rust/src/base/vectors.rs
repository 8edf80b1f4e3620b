// Written by tools/to-rust from crates/wasm_base/src/vectors.rt: change that.
// Vectors: a count, and that many members.

use crate::vec::{Sink, Vec};
use crate::base::effect::Effect;
use crate::base::encode::Encode;
use crate::base::fault::DecodeError;
use crate::base::grammar::Grammar;
use crate::base::once::{EncodeOnce, vec_of};
use crate::base::readable::{Layout, Readable};
use crate::base::refused::Result;
use crate::base::shorten::Shorten;
use crate::base::walk::{Walk, walk_many};
use crate::alloc::Allocator;

/// Encodes the members as a vector.
///
/// # Defined
///
/// ```text
/// encoding = { λ s. vec_encoding T.encoding s.now }
/// encodable = { λ s. IsEncodableVec T.encodable s.now }
/// overlong = { λ s. longest < length s.now }
/// ```
///
/// Definitions: [`vec_encoding`](crate::definitions::base::encodings::vec_encoding), [`IsEncodableVec`](crate::definitions::base::encodings::IsEncodableVec), [`longest`](crate::definitions::base::encodings::longest). [How to read clauses](crate::definitions).
impl<T: Encode> Encode for &[T] {
    fn encode<A: Sink>(&self, sink: &mut A) -> Result<()> {
        let start = sink.len();
        self.len().encode(sink)?;
        for item in self.iter() {
            if let Err(refused) = item.encode(sink) {
                sink.truncate(start);
                return Err(refused);
            }
        }
        Ok(())
    }
}

/// Appends the elements as a vector: the length that their iterator reports, and then each element.
///
/// # Errors
///
/// Returns [`Refused`](crate::base::Refused), and leaves the bytes of the sink unchanged, if an element
/// does not fit or an allocation fails. If the reported length exceeds 4294967295, the call returns
/// `TooLong`, and requests no element, as tests show.
///
/// # Examples
///
/// ```
/// use dolzhytik::fallible::encode_vec;
///
/// let mut bytes = vec![0x11];
/// encode_vec([5_u32, 128], &mut bytes)?;
/// // Two numbers: 5, and 128 = 1 * 128 + 0.
/// assert_eq!(bytes, [0x11, 2, 5, 0x80, 0x01]);
/// # Ok::<(), dolzhytik::fallible::Refused>(())
/// ```
///
/// # Asks
///
/// The iterator ends, and yields as many items as it reports. [What happens otherwise](crate::fallible#what-is-asked).
///
/// ```text
/// requires { HasKnownLength V.into_iter_gives V.IntoIter.can_next V.IntoIter.next_gives
///     V.IntoIter.remaining elements }
/// ```
///
/// Definitions: [`HasKnownLength`](crate::definitions::base::iterators::HasKnownLength). [How to read clauses](crate::definitions).
///
/// # Proved
///
/// The call appends the vector of the items that the iterator yields, or returns an error and leaves the bytes as they were. It returns `TooLong` if the iterator reports more than 2^32 - 1 items.
///
/// ```text
/// ensures { AppendsVec V.into_iter_gives V.IntoIter.next_gives V.IntoIter.remaining
///     T.encodable T.encoding elements sink.old sink.new result }
/// ```
///
/// Definitions: [`AppendsVec`](crate::definitions::base::iterators::AppendsVec). [How to read clauses](crate::definitions).
pub fn encode_vec<T: Encode, V: IntoIterator<Item = T>, A: Sink>(
    elements: V,
    sink: &mut A,
) -> Result<()>
where
    V::IntoIter: ExactSizeIterator,
{
    vec_of(elements)?.encode_once(sink)
}

/// A count, and that many members. Memory grows with the members that decode, and is not allocated
/// by the count.
///
/// # Defined
///
/// ```text
/// Value = { List T.Value }
/// format = { vec T.format }
/// view = { λ v. map T.view v.items }
/// ```
///
/// Definitions: [`vec`](crate::definitions::base::formats::vec). [How to read clauses](crate::definitions).
impl<A: Allocator, T: Layout> Layout for Vec<T, A> {
    fn laws() {
        T::laws();
    }
}

impl<'a, A: Allocator + Copy, G: Grammar, T: Readable<'a, A, G>> Readable<'a, A, G> for Vec<T, A> {
    fn read(bytes: &'a [u8], alloc: A) -> Result<(Vec<T, A>, &'a [u8]), DecodeError> {
        let (count, mut rest) = <u32 as Readable<'a, A, G>>::read(bytes, alloc)?;
        let mut items = Vec::new(alloc);
        T::laws();
        for _taken in 0..count {
            let (item, after) = T::read(rest, alloc)?;
            items.push(item)?;
            rest = after;
        }
        Ok((items, rest))
    }
}

/// Writes the bytes that [`append_all`] appends. After an error, part of them may follow the old
/// bytes.
fn write_all<T: Shorten, B: Sink>(items: &[T], sink: &mut B) -> Result<()> {
    for item in items {
        item.write_minimal(sink)?;
    }
    Ok(())
}

/// Appends the minimal encodings of the values, one after another.
///
/// The number of items is not among them.
///
/// # Errors
///
/// Returns [`Refused`](crate::base::Refused), and leaves the bytes of the sink unchanged, if an
/// allocation fails. Values that were decoded in one of the `grammars` never cause `TooLong`.
///
/// # Examples
///
/// ```
/// use dolzhytik::reader::append_all;
///
/// let mut bytes = Vec::new();
/// append_all(&[5_u32, 300], &mut bytes)?;
/// assert_eq!(bytes, [5, 0xAC, 0x02]);
/// # Ok::<(), dolzhytik::fallible::Refused>(())
/// ```
///
/// # Proved
///
/// After `Ok`: `ok`, the sink gains the encoding that is minimal in the `grammars` of the type. After an error: `err`, the bytes of the sink are unchanged. In any case: `too_long`, a value that has an encoding never gives `TooLong`.
///
/// ```text
/// ensures ok { OnOk result
///     (AppendsMinimal T.grammars (members T.format)
///         (map T.view items.now) sink.old.items sink.new.items) }
/// ensures err { OnErr result (sink.new.items ≡ sink.old.items) }
/// ensures too_long { HasEncoding T.grammars (members T.format) (map T.view items.now)
///     → result ≢ Err TooLong }
/// ```
///
/// Definitions: [`AppendsMinimal`](crate::definitions::base::minimal::AppendsMinimal), [`members`](crate::definitions::base::formats::members), [`HasEncoding`](crate::definitions::base::minimal::HasEncoding). [How to read clauses](crate::definitions).
pub fn append_all<T: Shorten, B: Sink>(items: &[T], sink: &mut B) -> Result<()> {
    let start = sink.len();
    let written = write_all(items, sink);
    if written.is_err() {
        sink.truncate(start);
    }
    written
}

/// Writes the number of values, and the values.
///
/// # Defined
///
/// ```text
/// grammars = { T.grammars }
/// ```
///
/// [How to read clauses](crate::definitions).
impl<T: Shorten, A: Allocator> Shorten for Vec<T, A> {
    fn write_minimal<B: Sink>(&self, sink: &mut B) -> Result<()> {
        self.len().encode(sink)?;
        write_all(self, sink)
    }
}

/// Walks over the members one by one, and keeps none.
impl<G: Grammar, T: Walk<G>, C: Allocator> Walk<G> for Vec<T, C> {
    fn walk<'a, A: Allocator + Copy, E: Effect>(
        bytes: &'a [u8],
        alloc: A,
        effect: &mut E,
    ) -> Result<&'a [u8], DecodeError> {
        let (_count, rest) = walk_many::<T, A, G, _>(bytes, alloc, effect)?;
        Ok(rest)
    }
}
