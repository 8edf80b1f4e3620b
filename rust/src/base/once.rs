// Written by tools/to-rust from crates/wasm_base/src/once.rt: change that.
// Values that are consumed by their encoding, such as the items of an iterator.

use crate::vec::Sink;
use crate::base::encode::Encode;
use crate::base::refused::{Refused, Result};

/// A value that is consumed when it is encoded, since an iterator in it yields its items only once.
///
/// [`vec_of`](crate::fallible::vec_of) and [`bytes_of`](crate::fallible::bytes_of) return such
/// values.
///
/// # Errors
///
/// `encode_once` returns [`Refused`], and leaves the sink unchanged, if an allocation fails or the
/// encoding does not fit.
///
/// # Examples
///
/// ```
/// use dolzhytik::fallible::{EncodeOnce, vec_of};
///
/// let mut bytes = Vec::new();
/// vec_of([1_u32, 300].into_iter())?.encode_once(&mut bytes)?;
/// // Two numbers: 1, and 300 = 2 * 128 + 44.
/// assert_eq!(bytes, [2, 1, 0xAC, 0x02]);
/// # Ok::<(), dolzhytik::fallible::Refused>(())
/// ```
///
/// # Defined
///
/// ```text
/// // `lawful`: the contract of its iterators.
/// lawful: { Self → Type 0 }
/// // `gives`: the encodings that it may have.
/// gives: { Self → List ℕ → Type 0 }
/// // `encodable`: whatever its iterators yield, every count and length in the encoding is
/// // representable.
/// encodable: { Self → Type 0 }
/// ```
///
/// [How to read clauses](crate::definitions).
pub trait EncodeOnce {
    /// Appends an encoding of the value. On an error, the bytes of the sink are unchanged.
    ///
    /// # Errors
    ///
    /// Returns [`TooLong`](crate::fallible::Refused::TooLong) if a count or length would pass
    /// 4294967295, and [`Memory`](crate::fallible::Refused::Memory) if an allocation fails. The
    /// bytes of the sink are then unchanged.
    ///
    /// # Asks
    ///
    /// Each iterator in the value ends, and yields as many items as it reports: the impl says so by `lawful`. [What happens otherwise](crate::fallible#what-is-asked).
    ///
    /// ```text
    /// requires { lawful self }
    /// ```
    ///
    /// [How to read clauses](crate::definitions).
    ///
    /// # Proved
    ///
    /// The call appends one of the encodings that the value may have, or returns an error and leaves the bytes as they were.
    ///
    /// ```text
    /// ensures { AppendsOnce (gives self) (encodable self) sink.old sink.new result }
    /// ```
    ///
    /// Definitions: [`AppendsOnce`](crate::definitions::base::once::AppendsOnce). [How to read clauses](crate::definitions).
    fn encode_once<A: Sink>(self, sink: &mut A) -> Result<()>;
}

/// The vector of an iterator's items, counted before the first item was requested: see [`vec_of`].
///
/// # Examples
///
/// ```
/// use dolzhytik::fallible::{EncodeOnce, VecOf, vec_of};
///
/// let squares: VecOf<_> = vec_of([1_u32, 2, 3].map(|n| n * n))?;
/// let mut bytes = Vec::new();
/// squares.encode_once(&mut bytes)?;
/// assert_eq!(bytes, [3, 1, 4, 9]);
/// # Ok::<(), dolzhytik::fallible::Refused>(())
/// ```
#[derive(Debug)]
pub struct VecOf<I> {
    items: I,
    count: u32,
}

/// The vector of an iterator's bytes, counted before the first byte was requested: see
/// [`bytes_of`].
///
/// # Examples
///
/// ```
/// use dolzhytik::fallible::{BytesOf, EncodeOnce, bytes_of};
///
/// let data: BytesOf<_> = bytes_of(*b"hi")?;
/// let mut bytes = Vec::new();
/// data.encode_once(&mut bytes)?;
/// assert_eq!(bytes, [2, b'h', b'i']);
/// # Ok::<(), dolzhytik::fallible::Refused>(())
/// ```
#[derive(Debug)]
pub struct BytesOf<I> {
    items: I,
    count: u32,
}

/// Returns the number of items that the iterator reports, or `TooLong` if a count cannot represent
/// it.
fn count_of<I: ExactSizeIterator>(items: &I) -> Result<u32> {
    let Ok(count) = u32::try_from(items.len()) else {
        return Err(Refused::TooLong);
    };
    Ok(count)
}

/// Returns the vector of the elements, to be encoded once. It requests no element, as tests show.
///
/// # Errors
///
/// Returns `TooLong` if the iterator reports more than 4294967295 elements. It never returns
/// `Memory`.
///
/// # Examples
///
/// ```
/// use dolzhytik::fallible::{EncodeOnce, ValType, vec_of};
///
/// let mut bytes = Vec::new();
/// vec_of([ValType::I32, ValType::F64])?.encode_once(&mut bytes)?;
/// // Two types: i32 is 7F, f64 is 7C.
/// assert_eq!(bytes, [2, 0x7F, 0x7C]);
/// # Ok::<(), dolzhytik::fallible::Refused>(())
/// ```
///
/// # Proved
///
/// After `Ok`: `ok`, the result has the iterator, which ends and yields as many items as `count`, at most 4294967295. After an error: `refused`, the error is `TooLong`. In any case: `too_long`, at most 4294967295 items never give `TooLong`; `too_many`, more than 4294967295 items give `TooLong`.
///
/// ```text
/// ensures ok { IfOk result
///     (λ v. V.into_iter_gives elements v.items × IsFinite (V.IntoIter.remaining v.items)
///         × (size (V.IntoIter.remaining v.items) ≡ v.count) × (v.count ≤ longest)) }
/// ensures too_long { ((it : V.IntoIter) → V.into_iter_gives elements it
///         → size (V.IntoIter.remaining it) ≤ longest) → result ≢ Err TooLong }
/// ensures too_many { ((it : V.IntoIter) → V.into_iter_gives elements it
///         → longest < size (V.IntoIter.remaining it)) → result ≡ Err TooLong }
/// ensures refused { IfErr result (λ refused. refused ≡ TooLong) }
/// ```
///
/// Definitions: [`longest`](crate::definitions::base::encodings::longest). [How to read clauses](crate::definitions).
pub fn vec_of<V: IntoIterator>(elements: V) -> Result<VecOf<V::IntoIter>>
where
    V::IntoIter: ExactSizeIterator,
{
    let items = elements.into_iter();
    let count = count_of(&items)?;
    Ok(VecOf { items, count })
}

/// Returns the vector of the bytes, to be encoded once. An iterator that lends its bytes as a slice
/// is copied as a whole. The call requests no byte, as tests show.
///
/// # Errors
///
/// Returns `TooLong` if the iterator reports more than 4294967295 bytes. It never returns `Memory`.
///
/// # Examples
///
/// ```
/// use dolzhytik::fallible::{EncodeOnce, bytes_of};
///
/// let mut bytes = Vec::new();
/// bytes_of("hi".bytes())?.encode_once(&mut bytes)?;
/// assert_eq!(bytes, [2, b'h', b'i']);
/// # Ok::<(), dolzhytik::fallible::Refused>(())
/// ```
///
/// # Proved
///
/// After `Ok`: `ok`, the result has the iterator, which ends and yields as many items as `count`, at most 4294967295. After an error: `refused`, the error is `TooLong`. In any case: `too_long`, at most 4294967295 items never give `TooLong`; `too_many`, more than 4294967295 items give `TooLong`.
///
/// ```text
/// ensures ok { IfOk result
///     (λ v. V.into_iter_gives bytes v.items × IsFinite (V.IntoIter.remaining v.items)
///         × (size (V.IntoIter.remaining v.items) ≡ v.count) × (v.count ≤ longest)) }
/// ensures too_long { ((it : V.IntoIter) → V.into_iter_gives bytes it
///         → size (V.IntoIter.remaining it) ≤ longest) → result ≢ Err TooLong }
/// ensures too_many { ((it : V.IntoIter) → V.into_iter_gives bytes it
///         → longest < size (V.IntoIter.remaining it)) → result ≡ Err TooLong }
/// ensures refused { IfErr result (λ refused. refused ≡ TooLong) }
/// ```
///
/// Definitions: [`longest`](crate::definitions::base::encodings::longest). [How to read clauses](crate::definitions).
pub fn bytes_of<V: IntoIterator>(bytes: V) -> Result<BytesOf<V::IntoIter>>
where
    V::IntoIter: ExactSizeIterator,
{
    let items = bytes.into_iter();
    let count = count_of(&items)?;
    Ok(BytesOf { items, count })
}

/// # Defined
///
/// ```text
/// lawful = { λ v. ReportsCount I.can_next I.next_gives I.remaining v.items v.count }
/// gives = { λ v. GivesVec I.next_gives T.encodable T.encoding v.items }
/// encodable = { λ v. YieldsEncodable I.next_gives T.encodable v.items }
/// ```
///
/// Definitions: [`ReportsCount`](crate::definitions::base::once::ReportsCount), [`GivesVec`](crate::definitions::base::once::GivesVec), [`YieldsEncodable`](crate::definitions::base::once::YieldsEncodable). [How to read clauses](crate::definitions).
impl<T: Encode, I: Iterator<Item = T>> EncodeOnce for VecOf<I> {
    #[inline(always)]
    fn encode_once<A: Sink>(self, sink: &mut A) -> Result<()> {
        let VecOf { items, count } = self;
        let start = sink.len();
        count.encode(sink)?;
        for item in items {
            if let Err(refused) = item.encode(sink) {
                sink.truncate(start);
                return Err(refused);
            }
        }
        Ok(())
    }
}

/// The largest number of bytes of an encoded count.
const COUNT_BYTES: usize = 5;

/// The number of bytes of a short run that are copied at a time.
const BLOCK: usize = 16;

/// The most bytes of a run that is copied in blocks.
const SHORT: usize = 256;

/// Returns the next `BLOCK` bytes of an iterator that has that many. Only their number is tested,
/// so that the compiler copies them as a whole.
fn next_block<I: Iterator<Item = u8>>(items: &mut I) -> [u8; BLOCK] {
    let mut block = [0; BLOCK];
    for i in 0..BLOCK {
        block[i] = items.next().unwrap();
    }
    block
}

/// Appends a short run except its last few bytes, one block at a time, and nothing of a long run.
/// The sink has spare capacity for the whole run.
fn append_blocks<I: Iterator<Item = u8>, A: Sink>(
    sink: &mut A,
    items: &mut I,
    count: usize,
) {
    let mut left = if count <= SHORT { count } else { 0 };
    while left >= BLOCK {
        let block = next_block(items);
        sink.extend_from_slice(&block).unwrap();
        left -= BLOCK;
    }
}

/// # Defined
///
/// ```text
/// lawful = { λ v. ReportsCount I.can_next I.next_gives I.remaining v.items v.count }
/// gives = { λ v. GivesBytes I.next_gives v.items }
/// encodable = { λ _. Unit {0} }
/// ```
///
/// Definitions: [`ReportsCount`](crate::definitions::base::once::ReportsCount), [`GivesBytes`](crate::definitions::base::once::GivesBytes). [How to read clauses](crate::definitions).
impl<I: Iterator<Item = u8>> EncodeOnce for BytesOf<I> {
    #[inline(always)]
    fn encode_once<A: Sink>(self, sink: &mut A) -> Result<()> {
        let BytesOf { mut items, count } = self;
        let start = sink.len();
        let len = count as usize;
        sink.reserve(len.saturating_add(COUNT_BYTES))?;
        count.encode(sink)?;
        let Ok(()) = sink.extend(items) else {
            sink.truncate(start);
            return Err(Refused::Memory);
        };
        Ok(())
    }
}

/// A value, and then one that is encoded once.
///
/// # Defined
///
/// ```text
/// lawful = { λ p. T.lawful p.1 }
/// gives = { λ p. GivesPair (S.encoding p.0) (S.encodable p.0) (T.gives p.1) }
/// encodable = { λ p. S.encodable p.0 × T.encodable p.1 }
/// ```
///
/// Definitions: [`GivesPair`](crate::definitions::base::once::GivesPair). [How to read clauses](crate::definitions).
impl<S: Encode, T: EncodeOnce> EncodeOnce for (S, T) {
    #[inline(always)]
    fn encode_once<A: Sink>(self, sink: &mut A) -> Result<()> {
        let (front, back) = self;
        let start = sink.len();
        front.encode(sink)?;
        if let Err(refused) = back.encode_once(sink) {
            sink.truncate(start);
            return Err(refused);
        }
        Ok(())
    }
}

/// A value, and then two that are encoded once.
///
/// # Defined
///
/// ```text
/// lawful = { λ p. T.lawful p.1 × U.lawful p.2 }
/// gives = { λ p. GivesTriple (S.encoding p.0) (S.encodable p.0) (T.gives p.1)
///     (U.gives p.2) }
/// encodable = { λ p. S.encodable p.0 × T.encodable p.1 × U.encodable p.2 }
/// ```
///
/// Definitions: [`GivesTriple`](crate::definitions::base::once::GivesTriple). [How to read clauses](crate::definitions).
impl<S: Encode, T: EncodeOnce, U: EncodeOnce> EncodeOnce for (S, T, U) {
    #[inline(always)]
    fn encode_once<A: Sink>(self, sink: &mut A) -> Result<()> {
        let (front, middle, back) = self;
        let start = sink.len();
        front.encode(sink)?;
        if let Err(refused) = middle.encode_once(sink) {
            sink.truncate(start);
            return Err(refused);
        }
        if let Err(refused) = back.encode_once(sink) {
            sink.truncate(start);
            return Err(refused);
        }
        Ok(())
    }
}
