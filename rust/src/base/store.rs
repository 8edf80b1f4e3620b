// Written by tools/to-rust from crates/wasm_base/src/store.rt: change that.
// The stores of a builder's entries: with the end of each, or with their number alone.

use crate::vec::{Sink, Vec};
use crate::base::encode::Encode;
use crate::base::frames::encode_section;
use crate::base::kind::Kind;
use crate::base::once::EncodeOnce;
use crate::base::pieces::Pieces;
use crate::base::refused::{Refused, Result};
use crate::alloc::{Allocator, Global};
use core::marker::PhantomData;

/// A store of the encoded entries of a builder. Its encoding is a counted section without its id.
///
/// A builder takes it as a type argument: [`Pieces`](crate::fallible::Pieces), or
/// [`Entries`](crate::fallible::Entries).
///
/// # Errors
///
/// An adding call that returns an error leaves the store unchanged. The error is
/// [`Refused::TooLong`] only if there are 4294967295 entries already or the item does not fit, and
/// [`Refused::Memory`] only if an allocation fails.
///
/// # Examples
///
/// ```
/// use dolzhytik::fallible::{Entries, Global, NewStore, Pieces, Refused, Store};
///
/// fn twice<S: Store>(entries: &mut S, entry: &[u8]) -> Result<u32, Refused> {
///     entries.add_bytes(entry)?;
///     entries.add_bytes(entry)?;
///     Ok(entries.count())
/// }
///
/// assert_eq!(twice(&mut Pieces::new_in(Global), b"ab")?, 2);
/// assert_eq!(twice(&mut Entries::new_in(Global), b"ab")?, 2);
/// # Ok::<(), dolzhytik::fallible::Refused>(())
/// ```
///
/// # Defined
///
/// ```text
/// // How the store holds entries.
/// model: { StoreModel Self }
/// // The encoding is that of the number of entries and their bytes.
/// encodes: { (store : Self) → Self.encoding store ≡ joined_encoding (model.joins store) }
/// // A section that fits has a number of entries and a size that fit.
/// fits: { (store : Self) → Self.encodable store → IsEncodableJoined (model.joins store) }
/// ```
///
/// Definitions: [`StoreModel`](crate::definitions::base::stores::StoreModel), [`joined_encoding`](crate::definitions::base::stores::joined_encoding), [`IsEncodableJoined`](crate::definitions::base::stores::IsEncodableJoined). [How to read clauses](crate::definitions).
pub trait Store: Encode {
    /// The type of the store's allocator.
    type Alloc: Allocator;

    /// Returns the number of entries.
    ///
    /// # Proved
    ///
    /// ```text
    /// ensures { result ≡ (model.joins self.now).number }
    /// ```
    ///
    /// [How to read clauses](crate::definitions).
    fn count(&self) -> u32;

    /// Returns the bytes of the entries, one entry after another.
    ///
    /// # Proved
    ///
    /// ```text
    /// ensures { result.now ≡ (model.joins self.now).content }
    /// ```
    ///
    /// [How to read clauses](crate::definitions).
    fn content(&self) -> &[u8];

    /// Adds an entry of these bytes.
    ///
    /// # Errors
    ///
    /// Returns [`TooLong`](crate::fallible::Refused::TooLong) if the builder has 4294967295
    /// entries, and [`Memory`](crate::fallible::Refused::Memory) if an allocation fails. The
    /// builder is then unchanged.
    ///
    /// # Proved
    ///
    /// The builder gains one entry with this encoding, or the call returns an error and changes nothing. A full builder, with 2^32 - 1 entries, returns `TooLong`.
    ///
    /// ```text
    /// ensures { AddsTo model entry.now ⊤ self.old self.new result }
    /// ```
    ///
    /// Definitions: [`AddsTo`](crate::definitions::base::calls::AddsTo). [How to read clauses](crate::definitions).
    fn add_bytes(&mut self, entry: &[u8]) -> Result<()>;

    /// Adds the encoding of the item as an entry.
    ///
    /// # Errors
    ///
    /// Returns [`TooLong`](crate::fallible::Refused::TooLong) if the builder has 4294967295
    /// entries, or if a count or length would pass 4294967295, and
    /// [`Memory`](crate::fallible::Refused::Memory) if an allocation fails. The builder is then
    /// unchanged.
    ///
    /// # Proved
    ///
    /// The builder gains one entry with this encoding, or the call returns an error and changes nothing. A full builder, with 2^32 - 1 entries, returns `TooLong`.
    ///
    /// ```text
    /// ensures { AddsTo model (T.encoding item.now)
    ///     (T.encodable item.now) self.old self.new result }
    /// ```
    ///
    /// Definitions: [`AddsTo`](crate::definitions::base::calls::AddsTo). [How to read clauses](crate::definitions).
    fn add_item<T: Encode>(&mut self, item: &T) -> Result<()>;

    /// Adds an encoding of the item as an entry, and consumes the item.
    ///
    /// # Errors
    ///
    /// Returns [`TooLong`](crate::fallible::Refused::TooLong) if the builder has 4294967295
    /// entries, or if a count or length would pass 4294967295, and
    /// [`Memory`](crate::fallible::Refused::Memory) if an allocation fails. The builder is then
    /// unchanged.
    ///
    /// # Asks
    ///
    /// Each iterator in the value ends, and yields as many items as it reports: the impl says so by `lawful`. [What happens otherwise](crate::fallible#what-is-asked).
    ///
    /// ```text
    /// requires { T.lawful item }
    /// ```
    ///
    /// [How to read clauses](crate::definitions).
    ///
    /// # Proved
    ///
    /// The builder gains one entry with one of these encodings, or the call returns an error and changes nothing. A full builder, with 2^32 - 1 entries, returns `TooLong`.
    ///
    /// ```text
    /// ensures { AddsOnceTo model (T.gives item) (T.encodable item) self.old self.new result }
    /// ```
    ///
    /// Definitions: [`AddsOnceTo`](crate::definitions::base::once::AddsOnceTo). [How to read clauses](crate::definitions).
    fn add_item_once<T: EncodeOnce>(&mut self, item: T) -> Result<()>;

    /// Proves that entries with a property can be cut into pieces that have it. The function does
    /// nothing.
    ///
    /// # Proved
    ///
    /// ```text
    /// ensures { (items : P.Items) → model.holds (λ pieces. P.says pieces items) self.now
    ///     → Cut (λ pieces. P.says pieces items) (model.joins self.now) }
    /// ```
    ///
    /// Definitions: [`Cut`](crate::definitions::base::stores::Cut). [How to read clauses](crate::definitions).
    fn cut<P: Property>(&self);

    /// Proves that entries with a property have another one after a call that adds an entry, if
    /// pieces do. The function does nothing.
    ///
    /// # Proved
    ///
    /// ```text
    /// ensures { (encoding : List ℕ) (old new : Self) (before after : P.Items)
    ///     → Extends (model.joins old).number encoding (λ pieces. P.says pieces before)
    ///     (λ pieces. P.says pieces after) → model.gains encoding old new
    ///     → model.holds (λ pieces. P.says pieces before) old
    ///     → model.holds (λ pieces. P.says pieces after) new }
    /// ```
    ///
    /// Definitions: [`Extends`](crate::definitions::base::stores::Extends). [How to read clauses](crate::definitions).
    fn grows<P: Property>();
}

/// A store that begins without entries, with memory of an allocator.
///
/// # Examples
///
/// ```
/// use dolzhytik::fallible::{Global, NewStore, Pieces, Store};
///
/// let mut entries = Pieces::new_in(Global);
/// entries.add_bytes(b"ab")?;
/// let copy = entries.copy()?;
/// entries.add_bytes(b"c")?;
/// assert_eq!((copy.content(), entries.content()), (&b"ab"[..], &b"abc"[..]));
/// # Ok::<(), dolzhytik::fallible::Refused>(())
/// ```
///
/// # Defined
///
/// ```text
/// // The store without entries.
/// none: { Self }
/// ```
///
/// [How to read clauses](crate::definitions).
pub trait NewStore: Store + Sized {

    /// Returns a store without entries. It allocates nothing.
    ///
    /// # Proved
    ///
    /// ```text
    /// ensures { result ≡ none }
    /// ```
    ///
    /// [How to read clauses](crate::definitions).
    fn new_in(alloc: Self::Alloc) -> Self;

    /// Proves that the store without entries has each property of no pieces. The function does
    /// nothing.
    ///
    /// # Proved
    ///
    /// ```text
    /// ensures { (items : P.Items) → P.says [] items
    ///     → Self.model.holds (λ pieces. P.says pieces items) none }
    /// ```
    ///
    /// [How to read clauses](crate::definitions).
    fn begins<P: Property>();

    /// Returns a copy of the entries in newly allocated memory.
    ///
    /// # Errors
    ///
    /// Returns [`Refused::Memory`] if an allocation fails, and never [`Refused::TooLong`].
    ///
    /// # Proved
    ///
    /// After `Ok`: `same`, the result equals the value. In any case: `memory`, no error is `TooLong`.
    ///
    /// ```text
    /// ensures same { IfOk result (λ store. store ≡ self.now) }
    /// ensures memory { result ≢ Err Refused.TooLong }
    /// ```
    ///
    /// [How to read clauses](crate::definitions).
    fn copy(&self) -> Result<Self>;
}

/// What pieces of bytes say of items.
///
/// Only contracts name it.
///
/// # Examples
///
/// ```
/// use dolzhytik::fallible::{Entries, Global, NewStore, Property, Store};
///
/// struct Any;
///
/// impl Property for Any {}
///
/// // A law of stores, which the prover has checked. The call does nothing.
/// Entries::new_in(Global).cut::<Any>();
/// ```
///
/// # Defined
///
/// ```text
/// Items: { Type 0 }
/// says: { List (List ℕ) → Items → Type 0 }
/// ```
///
/// [How to read clauses](crate::definitions).
pub trait Property {}

/// The pieces contain items of the kind `K`.
#[derive(Clone, Copy, Debug)]
pub struct ItemsOf<K>(PhantomData<K>);

/// # Defined
///
/// ```text
/// Items = { List K.Item }
/// says = { ContainsItems K.kind }
/// ```
///
/// Definitions: [`ContainsItems`](crate::definitions::base::entries::ContainsItems). [How to read clauses](crate::definitions).
impl<K: Kind> Property for ItemsOf<K> {}

/// The pieces contain items of the kind `K`, possibly padded.
#[derive(Clone, Copy, Debug)]
pub struct PaddedOf<K>(PhantomData<K>);

/// # Defined
///
/// ```text
/// Items = { List K.Item }
/// says = { ContainsPadded K.kind.format }
/// ```
///
/// Definitions: [`ContainsPadded`](crate::definitions::base::entries::ContainsPadded). [How to read clauses](crate::definitions).
impl<K: Kind> Property for PaddedOf<K> {}

/// # Defined
///
/// ```text
/// model = { pieces_model }
/// encodes = { pieces_encode }
/// fits = { pieces_fit }
/// ```
///
/// Definitions: [`pieces_model`](crate::definitions::base::stores::pieces_model), [`pieces_encode`](crate::definitions::base::stores::pieces_encode), [`pieces_fit`](crate::definitions::base::stores::pieces_fit). [How to read clauses](crate::definitions).
impl<A: Allocator> Store for Pieces<A> {
    type Alloc = A;

    #[inline]
    fn count(&self) -> u32 {
        self.len()
    }

    #[inline]
    fn content(&self) -> &[u8] {
        self.bytes()
    }

    #[inline]
    fn add_bytes(&mut self, entry: &[u8]) -> Result<()> {
        self.add(entry)
    }

    #[inline]
    fn add_item<T: Encode>(&mut self, item: &T) -> Result<()> {
        self.add_encoded(item)
    }

    #[inline]
    fn add_item_once<T: EncodeOnce>(&mut self, item: T) -> Result<()> {
        self.add_once(item)
    }

    fn cut<P: Property>(&self) {}

    fn grows<P: Property>() {}
}

/// # Defined
///
/// ```text
/// none = { [] }
/// ```
///
/// [How to read clauses](crate::definitions).
impl<A: Allocator + Copy> NewStore for Pieces<A> {
    fn begins<P: Property>() {}

    fn new_in(alloc: A) -> Self {
        Pieces::new(alloc)
    }

    fn copy(&self) -> Result<Self> {
        self.clone()
    }
}

/// The encoded entries of a builder, one after another, and their number. Each entry takes 8 bytes
/// less than in [`Pieces`], and no call returns an entry.
///
/// The builders of [`fallible::joined`](crate::fallible::joined) consist of it.
///
/// # Examples
///
/// ```
/// use dolzhytik::fallible::{Encode, Entries, Global, NewStore, Store};
///
/// let mut entries = Entries::new_in(Global);
/// entries.add_bytes(b"ab")?;
/// entries.add_item(&300_u32)?;
/// assert_eq!((entries.count(), entries.content()), (2, &[b'a', b'b', 0xAC, 0x02][..]));
///
/// let mut bytes = Vec::new();
/// entries.encode(&mut bytes)?;
/// // The size of the payload, 5; two entries.
/// assert_eq!(bytes, [5, 2, b'a', b'b', 0xAC, 0x02]);
/// # Ok::<(), dolzhytik::fallible::Refused>(())
/// ```
#[derive(Debug)]
pub struct Entries<A: Allocator = Global> {
    pub(crate) bytes: Vec<u8, A>, pub(crate) count: u32,
}

impl<A: Allocator> Entries<A> {
    /// Returns `true` if there are as many entries as a count of 32 bits represents.
    #[inline]
    fn is_full(&self) -> bool {
        self.count == u32::MAX
    }
}

/// Encodes a counted section without its id: the size prefix, the number of entries, and the
/// entries.
///
/// # Defined
///
/// ```text
/// encoding = { joined_encoding }
/// encodable = { IsEncodableJoined }
/// overlong = { IsOverlongJoined }
/// ```
///
/// Definitions: [`joined_encoding`](crate::definitions::base::stores::joined_encoding), [`IsEncodableJoined`](crate::definitions::base::stores::IsEncodableJoined), [`IsOverlongJoined`](crate::definitions::base::stores::IsOverlongJoined). [How to read clauses](crate::definitions).
impl<A: Allocator> Encode for Entries<A> {
    fn encode<B: Sink>(&self, sink: &mut B) -> Result<()> {
        encode_section(sink, self.count, &self.bytes)
    }
}

/// # Defined
///
/// ```text
/// model = { joined_model }
/// encodes = { λ _. refl }
/// fits = { λ _ fits. fits }
/// ```
///
/// Definitions: [`joined_model`](crate::definitions::base::stores::joined_model). [How to read clauses](crate::definitions).
impl<A: Allocator> Store for Entries<A> {
    type Alloc = A;

    #[inline]
    fn count(&self) -> u32 {
        self.count
    }

    #[inline]
    fn content(&self) -> &[u8] {
        &self.bytes
    }

    #[inline(always)]
    fn add_bytes(&mut self, entry: &[u8]) -> Result<()> {
        if self.is_full() {
            return Err(Refused::TooLong);
        }
        self.bytes.extend_from_slice(entry)?;
        self.count += 1;
        Ok(())
    }

    #[inline(always)]
    fn add_item<T: Encode>(&mut self, item: &T) -> Result<()> {
        if self.is_full() {
            return Err(Refused::TooLong);
        }
        item.encode(&mut self.bytes)?;
        self.count += 1;
        Ok(())
    }

    #[inline(always)]
    fn add_item_once<T: EncodeOnce>(&mut self, item: T) -> Result<()> {
        if self.is_full() {
            return Err(Refused::TooLong);
        }
        item.encode_once(&mut self.bytes)?;
        self.count += 1;
        Ok(())
    }

    fn cut<P: Property>(&self) {}

    fn grows<P: Property>() {}
}

/// # Defined
///
/// ```text
/// none = { record { number = 0; content = [] } }
/// ```
///
/// [How to read clauses](crate::definitions).
impl<A: Allocator + Copy> NewStore for Entries<A> {
    fn begins<P: Property>() {}

    fn new_in(alloc: A) -> Self {
        Entries {
            bytes: Vec::new(alloc),
            count: 0,
        }
    }

    fn copy(&self) -> Result<Self> {
        let alloc = *self.bytes.allocator();
        Ok(Entries {
            bytes: Vec::from_slice(alloc, &self.bytes)?,
            count: self.count,
        })
    }
}
