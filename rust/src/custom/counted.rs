// Written by tools/to-rust from crates/wasm_custom/src/counted.rt: change that.
// Readers and minimizers of custom sections of counted items.

use crate::vec::{Sink, Vec};
use crate::custom::entries::CustomKind;
use crate::custom::named::after_name;
use crate::alloc::Allocator;
use crate::base::{DecodeError, Encode, Grammar, ReadFault, Readable, Result};

/// A kind whose items can be encoded from a decoded `T`.
///
/// # Defined
///
/// ```text
/// Said: { Type 0 }
/// format: { Mode → List ℕ → Said → Type 0 }
/// view: { T → Said }
/// ```
///
/// Definitions: [`Mode`](crate::definitions::base::numbers::Mode). [How to read clauses](crate::definitions).
pub(crate) trait ItemsAs<T>: CustomKind {
    // The view of a decoded value: the item, without its location in memory.

    // The format: which bytes encode which item.

    /// Proves that the format is unambiguous: at most one item decodes from the front of any bytes.
    /// The function does nothing.
    ///
    /// # Proved
    ///
    /// A format whose encodings determine their own end is unambiguous in every mode, with encodings as `HasEncodings` states.
    ///
    /// ```text
    /// ensures { Unambiguous format }
    /// ```
    ///
    /// Definitions: [`Unambiguous`](crate::definitions::base::decoding::Unambiguous). [How to read clauses](crate::definitions).
    fn unique();

    /// Appends the minimal encoding of the item, if any bytes decode to it. After an error, part of
    /// the encoding may follow the old bytes.
    ///
    /// # Errors
    ///
    /// Returns [`TooLong`](crate::fallible::Refused::TooLong) if a count or length would pass
    /// 4294967295, and [`Memory`](crate::fallible::Refused::Memory) if an allocation fails.
    ///
    /// # Proved
    ///
    /// - After `Ok`, `ok`: the sink gains the encoding that is minimal in both grammars.
    /// - `front`: The new bytes begin with the old ones.
    /// - `too_long`: a value that has an encoding never gives `TooLong`.
    ///
    /// ```text
    /// ensures ok { OnOk result
    ///     (AppendsMinimal both_grammars format (view item.now) sink.old.items sink.new.items)
    ///     }
    /// ensures front { IsFrontOf sink.old.items sink.new.items }
    /// ensures too_long { HasEncoding both_grammars format (view item.now)
    ///     → result ≢ Err TooLong }
    /// ```
    ///
    /// Definitions: [`AppendsMinimal`](crate::definitions::base::minimal::AppendsMinimal), [`both_grammars`](crate::definitions::base::minimal::Grammars), [`IsFrontOf`](crate::definitions::base::minimal::IsFrontOf), [`HasEncoding`](crate::definitions::base::minimal::HasEncoding). [How to read clauses](crate::definitions).
    fn append_item<B: Sink>(item: &T, sink: &mut B) -> Result<()>;
}

/// A kind whose items decode to a `T`.
pub(crate) trait DecodesItems<'a, T, A: Allocator + Copy, G: Grammar>: ItemsAs<T> {
    /// Decodes the item at the front, in the grammar `G`, and returns it with the remaining bytes.
    ///
    /// # Proved
    ///
    /// After `Ok`: `found`, the bytes begin with an encoding of the value, and the returned bytes follow it. After an error: `none`, the bytes do not begin with such an encoding, unless the cause is `Memory`.
    ///
    /// ```text
    /// ensures found { IfOk result
    ///     (λ x. Decodes Self.format (padded_of G.grammar) bytes.now (Self.view x.0) x.1.now) }
    /// ensures none { IfErr result
    ///     (λ e. e.cause ≢ Memory → Rejects Self.format (padded_of G.grammar) bytes.now) }
    /// ```
    ///
    /// Definitions: [`Decodes`](crate::definitions::base::decoding::Decodes), [`padded_of`](crate::definitions::base::numbers::padded_of), [`Rejects`](crate::definitions::base::decoding::Rejects). [How to read clauses](crate::definitions).
    fn read_item(bytes: &'a [u8], alloc: A) -> Result<(T, &'a [u8]), DecodeError>;
}

/// Decodes a count and that many items, and returns them with the remaining bytes. Memory grows
/// with the items that decode, and is not allocated by the count.
fn read_items<'a, K: DecodesItems<'a, T, A, G>, T, A: Allocator + Copy, G: Grammar>(
    bytes: &'a [u8],
    alloc: A,
) -> Result<(Vec<T, A>, &'a [u8]), DecodeError> {
    let (count, mut rest) = <u32 as Readable<'a, A, G>>::read(bytes, alloc)?;
    let mut items = Vec::new(alloc);
    K::unique();
    for _taken in 0..count {
        let (item, after) = K::read_item(rest, alloc)?;
        items.push(item)?;
        rest = after;
    }
    Ok((items, rest))
}

/// Decodes the payload of a section of this kind, including its name.
pub(crate) fn read_counted<
    'a,
    K: DecodesItems<'a, T, A, G>,
    T,
    A: Allocator + Copy,
    G: Grammar,
>(bytes: &'a [u8], alloc: A) -> Result<Vec<T, A>, DecodeError> {
    K::unique();
    let rest = after_name::<A, G>(K::name(), bytes, alloc)?;
    let (items, left) = read_items::<'a, K, T, A, G>(rest, alloc)?;
    if left.is_empty() {
        Ok(items)
    } else {
        Err(ReadFault::SizeMismatch.at(left))
    }
}

/// Appends a count and the items.
fn append_items<K: ItemsAs<T>, T, B: Sink>(items: &[T], sink: &mut B) -> Result<()> {
    items.len().encode(sink)?;
    for item in items {
        K::append_item(item, sink)?;
    }
    Ok(())
}

/// Writes the bytes that [`append_counted`] appends. After an error, part of them may follow the
/// old bytes.
fn write_counted<K: ItemsAs<T>, T, B: Sink>(items: &[T], sink: &mut B) -> Result<()> {
    K::name().encode(sink)?;
    append_items::<K, T, _>(items, sink)
}

/// Appends the minimal encoding of the payload of a section of this kind with these items. On an
/// error, the sink is unchanged.
pub(crate) fn append_counted<K: ItemsAs<T>, T, B: Sink>(
    items: &[T],
    sink: &mut B,
) -> Result<()> {
    let start = sink.len();
    let written = write_counted::<K, T, _>(items, sink);
    if written.is_err() {
        sink.truncate(start);
    }
    written
}
