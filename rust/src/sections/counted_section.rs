// Written by tools/to-rust from crates/wasm_sections/src/counted_section.rt: change that.
// The builder of all sections of counted items.

use crate::vec::Sink;
use crate::alloc::Allocator;
use core::marker::PhantomData;
use crate::base::{Counted, Encode, EncodeOnce, ItemsOf, Kind, NewStore, PaddedOf, Pieces, Result, Section, Store};

/// A kind of items that a section counts.
///
/// [`CountedSection`](crate::fallible::CountedSection) takes it as a type argument.
///
/// # Examples
///
/// ```
/// use dolzhytik::fallible::{ExportItems, FunctionItems, ItemKind};
///
/// fn id_of<K: ItemKind>() -> u8 {
///     K::id()
/// }
///
/// assert_eq!([id_of::<FunctionItems>(), id_of::<ExportItems>()], [3, 7]);
/// ```
///
/// # Defined
///
/// ```text
/// // The id of the section of these items.
/// section_id: { ℕ }
/// ```
///
/// [How to read clauses](crate::definitions).
pub trait ItemKind: Kind {
    /// Returns the id of the section of these items.
    ///
    /// # Proved
    ///
    /// ```text
    /// ensures { result ≡ section_id }
    /// ```
    ///
    /// [How to read clauses](crate::definitions).
    fn id() -> u8;
}

/// A record that can be added to a section of items of the kind `K`.
///
/// [`Counted`](crate::fallible::Counted) takes such a record, and so does
/// [`add_all`](crate::fallible::add_all).
///
/// # Examples
///
/// ```
/// use dolzhytik::fallible::{Global, TagKind, TagSection, TagType, add_all};
///
/// let tag = |func_type_idx| TagType { kind: TagKind::Exception, func_type_idx };
/// let mut tags = TagSection::new(Global);
/// add_all(&mut tags, &[tag(5), tag(6)])?;
/// assert_eq!(tags.len(), 2);
/// # Ok::<(), (usize, dolzhytik::fallible::Refused)>(())
/// ```
pub trait RecordOf<K>: Encode {}

/// A section of counted items of the kind `K`, whose entries a store of the type `S` keeps.
///
/// It is the builder of core sections, such as
/// [`ExportSection`](crate::fallible::ExportSection). The calls that add items are those of the
/// kind `K`. The store `S` is [`Pieces`](crate::fallible::Pieces), or
/// [`Entries`](crate::fallible::Entries) in [`joined`](crate::fallible::joined).
///
/// # Errors
///
/// An adding call that returns an error leaves the section unchanged. The error is `TooLong` only
/// if the section is full or the item does not fit, and `Memory` only if an allocation fails.
///
/// # Examples
///
/// ```
/// use dolzhytik::fallible::{CountedSection, ExportKind, ExportSection, Global, Store};
///
/// /// Returns whether a section of any kind has entries.
/// fn has_entries<K, S: Store>(section: &CountedSection<K, S>) -> bool {
///     !section.is_empty()
/// }
///
/// let mut exports = ExportSection::new(Global);
/// exports.export("f", ExportKind::Func, 0)?;
/// assert!(has_entries(&exports));
/// // The entry: a name of one byte, the kind 0, the index 0.
/// assert_eq!(exports.piece(0), Some(&[1, b'f', 0, 0][..]));
/// # Ok::<(), dolzhytik::fallible::Refused>(())
/// ```
#[derive(Debug)]
pub struct CountedSection<K, S: Store = Pieces> {
    pub(crate) entries: S, pub(crate) kind: PhantomData<K>,
}

impl<K, S: Store> CountedSection<K, S> {
    /// Returns the number of entries.
    ///
    /// # Proved
    ///
    /// ```text
    /// ensures { result ≡ (S.model.joins self.now).number }
    /// ```
    ///
    /// [How to read clauses](crate::definitions).
    pub fn len(&self) -> u32 {
        self.entries.count()
    }

    /// Returns `true` if there are no entries.
    ///
    /// # Proved
    ///
    /// ```text
    /// ensures { IsTrue result ↔ ((S.model.joins self.now).number ≡ 0) }
    /// ```
    ///
    /// [How to read clauses](crate::definitions).
    pub fn is_empty(&self) -> bool {
        self.entries.count() == 0
    }

    /// Adds the encoding of the record as an entry.
    #[inline(always)]
    pub(crate) fn add_record<T: Encode>(&mut self, given: &T) -> Result<()> {
        self.entries.add_item(given)
    }

    /// Adds an encoding of the item as an entry, and consumes the item.
    #[inline(always)]
    pub(crate) fn add_once<T: EncodeOnce>(&mut self, item: T) -> Result<()> {
        self.entries.add_item_once(item)
    }

    /// Adds an entry that is already encoded.
    #[inline(always)]
    pub(crate) fn add_piece(&mut self, piece: &[u8]) -> Result<()> {
        self.entries.add_bytes(piece)
    }
}

impl<K, A: Allocator> CountedSection<K, Pieces<A>> {
    /// Returns the bytes of the entry at `index`, or `None` if there is no such entry.
    ///
    /// # Proved
    ///
    /// The result is the entry at `index`, if there is one.
    ///
    /// ```text
    /// ensures { option_copied result ≡ slice_get self.now index }
    /// ```
    ///
    /// [How to read clauses](crate::definitions).
    pub fn piece(&self, index: u32) -> Option<&[u8]> {
        let pieces: &Pieces<A> = &self.entries;
        pieces.get(index)
    }
}

impl<K, S: NewStore> CountedSection<K, S> {
    /// Returns a section without entries, and allocates nothing.
    ///
    /// # Proved
    ///
    /// ```text
    /// ensures { result ≡ S.none }
    /// ```
    ///
    /// [How to read clauses](crate::definitions).
    pub fn new(alloc: S::Alloc) -> Self {
        CountedSection {
            entries: S::new_in(alloc),
            kind: PhantomData,
        }
    }

    /// Returns a section of the same entries, in memory of its own.
    ///
    /// # Errors
    ///
    /// Returns [`Memory`](crate::fallible::Refused::Memory) if an allocation fails.
    ///
    /// # Proved
    ///
    /// After `Ok`: `same`, the result equals the value. In any case: `memory`, no error is `TooLong`.
    ///
    /// ```text
    /// ensures same { IfOk result (λ section. section ≡ self.now) }
    /// ensures memory { result ≢ Err TooLong }
    /// ```
    ///
    /// [How to read clauses](crate::definitions).
    pub fn clone(&self) -> Result<Self> {
        Ok(CountedSection {
            entries: self.entries.copy()?,
            kind: PhantomData,
        })
    }
}

/// Encodes the size prefix, the number of entries, and the entries.
///
/// # Defined
///
/// ```text
/// encoding = { S.encoding }
/// encodable = { S.encodable }
/// overlong = { S.overlong }
/// decoding = { λ section. DecodesBackBoth (counted_format K.kind.format)
///     (λ items. S.model.holds (λ pieces. ContainsItems K.kind pieces items) section)
///     (λ items. S.model.holds (λ pieces. ContainsPadded K.kind.format pieces items)
///         section) (S.encoding section) }
/// ```
///
/// Definitions: [`DecodesBackBoth`](crate::definitions::base::calls::DecodesBackBoth), [`counted_format`](crate::definitions::base::entries::counted_format), [`ContainsItems`](crate::definitions::base::entries::ContainsItems), [`ContainsPadded`](crate::definitions::base::entries::ContainsPadded). [How to read clauses](crate::definitions).
impl<K: ItemKind, S: Store> Encode for CountedSection<K, S> {
    fn encode<B: Sink>(&self, sink: &mut B) -> Result<()> {
        K::laws();
        self.entries.cut::<ItemsOf<K>>();
        self.entries.cut::<PaddedOf<K>>();
        self.entries.encode(sink)
    }
}

/// # Defined
///
/// ```text
/// id_of = { λ _. K.section_id }
/// Items = { List K.Item }
/// format = { counted_format K.kind.format }
/// says = { λ section items. S.model.holds
///     (λ pieces. ContainsItems K.kind pieces items) section }
/// payload = { λ section bytes. bytes ≡ joined_payload (S.model.joins section) }
/// sized = { λ section bytes encodable e. joined_sized (S.model.joins section)
///     (S.encoding section) bytes (S.encodes section) (S.fits section encodable) e }
/// decodes_back = { λ section promised. promised.plain }
/// ```
///
/// Definitions: [`counted_format`](crate::definitions::base::entries::counted_format), [`ContainsItems`](crate::definitions::base::entries::ContainsItems), [`joined_payload`](crate::definitions::base::stores::joined_payload), [`joined_sized`](crate::definitions::base::stores::joined_sized). [How to read clauses](crate::definitions).
impl<K: ItemKind, S: Store> Section for CountedSection<K, S> {
    fn id(&self) -> u8 {
        K::id()
    }
}

/// # Defined
///
/// ```text
/// pieces = { λ section. section }
/// item_encoding = { T.encoding }
/// item_encodable = { T.encodable }
/// counted = { λ section. refl }
/// ```
///
/// [How to read clauses](crate::definitions).
impl<K: ItemKind, T: RecordOf<K>, A: Allocator> Counted<T> for CountedSection<K, Pieces<A>> {
    fn add(&mut self, item: &T) -> Result<()> {
        self.add_record(item)
    }
}
