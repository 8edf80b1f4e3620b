// Written by tools/to-rust from crates/wasm_custom/src/entries.rt: change that.
// The builder of all custom sections of entries.

use crate::vec::{Sink, Vec};
use crate::custom::custom_section::{CustomSection, begin_custom};
use crate::alloc::Allocator;
use core::marker::PhantomData;
use crate::base::{CowSlice, CowStr, Encode, EncodeOnce, ItemsOf, Kind, NewStore, PaddedOf, Pieces, Result, Section, SectionId, Store, encoding_size};

/// A kind of custom section: its items, its name, the bytes before its entries, and whether the
/// entries are counted.
///
/// [`CustomEntries`](crate::fallible::CustomEntries) takes it as a type argument.
///
/// # Examples
///
/// ```
/// use dolzhytik::fallible::{CustomKind, NameItems, ProducerItems};
///
/// fn name_of<K: CustomKind>() -> &'static str {
///     K::name()
/// }
///
/// assert_eq!(
///     [name_of::<NameItems>(), name_of::<ProducerItems>()],
///     ["name", "producers"]
/// );
/// ```
///
/// # Defined
///
/// ```text
/// // The name of the section.
/// name: { List ℕ }
/// // The bytes before the entries, and their format.
/// front: { List ℕ }
/// front_format: { Mode → List ℕ → Unit {0} → Type 0 }
/// // Whether the number of entries precedes them.
/// counted: { Bool }
/// ```
///
/// Definitions: [`Mode`](crate::definitions::base::numbers::Mode). [How to read clauses](crate::definitions).
pub trait CustomKind: Kind {
    /// Returns the name of the section.
    ///
    /// # Proved
    ///
    /// ```text
    /// ensures { result.now ≡ name }
    /// ```
    ///
    /// [How to read clauses](crate::definitions).
    fn name() -> &'static str;

    /// Returns the bytes before the entries.
    ///
    /// # Proved
    ///
    /// ```text
    /// ensures { result.now ≡ front }
    /// ```
    ///
    /// [How to read clauses](crate::definitions).
    fn front() -> &'static [u8];

    /// Returns `true` if the number of entries precedes them.
    ///
    /// # Proved
    ///
    /// ```text
    /// ensures { result ≡ counted }
    /// ```
    ///
    /// [How to read clauses](crate::definitions).
    fn counted() -> bool;

    /// Proves three laws: the name is UTF-8, the bytes before the entries encode a value of an
    /// unambiguous format, and uncounted items are never empty. The function does nothing.
    ///
    /// # Proved
    ///
    /// The laws of a kind of custom section, in addition to those of its items. Its name is UTF-8, and its front is encoded in an unambiguous format. If items are not counted, none of them is empty.
    ///
    /// ```text
    /// ensures { CustomLayoutLaws Self.kind.format name front front_format counted }
    /// ```
    ///
    /// Definitions: [`CustomLayoutLaws`](crate::definitions::custom::entries::CustomLayoutLaws). [How to read clauses](crate::definitions).
    fn layout_laws();
}

/// A custom section of entries of the kind `K`, which a store of the type `S` keeps.
///
/// It is the builder of custom sections, such as [`NameSection`](crate::fallible::NameSection).
/// The calls that add entries are those of the kind `K`. The store `S` is
/// [`Pieces`](crate::fallible::Pieces), or [`Entries`](crate::fallible::Entries) in
/// [`joined`](crate::fallible::joined).
///
/// # Errors
///
/// An adding call that returns an error leaves the section unchanged. The error is `TooLong` only
/// if the section is full or the item does not fit, and `Memory` only if an allocation fails.
///
/// # Examples
///
/// ```
/// use dolzhytik::fallible::{CoreDumpModulesSection, CustomEntries, Global, Store};
///
/// /// Returns whether a section of any kind has entries.
/// fn has_entries<K, S: Store>(section: &CustomEntries<K, S>) -> bool {
///     !section.is_empty()
/// }
///
/// let mut modules = CoreDumpModulesSection::new(Global);
/// modules.module("a.wasm")?;
/// assert!(has_entries(&modules));
/// # Ok::<(), dolzhytik::fallible::Refused>(())
/// ```
#[derive(Debug)]
pub struct CustomEntries<K, S: Store = Pieces> {
    pub(crate) entries: S, pub(crate) kind: PhantomData<K>,
}

impl<K, S: Store> CustomEntries<K, S> {
    /// Returns the number of entries.
    ///
    /// # Proved
    ///
    /// ```text
    /// ensures { result ≡ (S.model.joins self.now).number }
    /// ```
    ///
    /// [How to read clauses](crate::definitions).
    pub fn len(&self) -> u32 {
        self.entries.count()
    }

    /// Returns `true` if there are no entries.
    ///
    /// # Proved
    ///
    /// ```text
    /// ensures { IsTrue result ↔ ((S.model.joins self.now).number ≡ 0) }
    /// ```
    ///
    /// [How to read clauses](crate::definitions).
    pub fn is_empty(&self) -> bool {
        self.entries.count() == 0
    }

    /// Adds the encoding of the record as an entry.
    pub(crate) fn add_record<T: Encode>(&mut self, given: &T) -> Result<()> {
        self.entries.add_item(given)
    }

    /// Adds an encoding of the item as an entry, and consumes the item.
    pub(crate) fn add_once<T: EncodeOnce>(&mut self, item: T) -> Result<()> {
        self.entries.add_item_once(item)
    }

    /// Returns the bytes of the entries, one entry after another.
    pub(crate) fn content(&self) -> &[u8] {
        self.entries.content()
    }
}

impl<K, S: NewStore> CustomEntries<K, S> {
    /// Returns a section without entries, and allocates nothing.
    ///
    /// # Proved
    ///
    /// ```text
    /// ensures { result ≡ S.none }
    /// ```
    ///
    /// [How to read clauses](crate::definitions).
    pub fn new(alloc: S::Alloc) -> Self {
        CustomEntries {
            entries: S::new_in(alloc),
            kind: PhantomData,
        }
    }

    /// Returns a section of the same entries, in memory of its own.
    ///
    /// # Errors
    ///
    /// Returns [`Memory`](crate::fallible::Refused::Memory) if an allocation fails.
    ///
    /// # Proved
    ///
    /// After `Ok`: `same`, the result equals the value. In any case: `memory`, no error is `TooLong`.
    ///
    /// ```text
    /// ensures same { IfOk result (λ section. section ≡ self.now) }
    /// ensures memory { result ≢ Err TooLong }
    /// ```
    ///
    /// [How to read clauses](crate::definitions).
    pub fn clone(&self) -> Result<Self> {
        Ok(CustomEntries {
            entries: self.entries.copy()?,
            kind: PhantomData,
        })
    }
}

impl<K: CustomKind, S: Store> CustomEntries<K, S> {
    /// Returns the section as a custom section, which owns a copy of the data.
    pub(crate) fn owned<B: Allocator>(&self, alloc: B) -> Result<CustomSection<'_, B>> {
        let data = data_of(alloc, K::front(), K::counted(), &self.entries)?;
        Ok(CustomSection {
            name: CowStr::Borrowed(K::name()),
            bytes: CowSlice::Owned(data),
        })
    }
}

/// A count that is encoded only if entries are counted.
#[derive(Clone, Copy)]
struct Count {
    counted: bool,
    number: u32,
}

impl Count {
    /// Returns the length of its encoding, in bytes.
    fn size(self) -> usize {
        if self.counted {
            encoding_size(self.number)
        } else {
            0
        }
    }
}

/// Encodes the number if entries are counted, and no bytes otherwise.
///
/// # Defined
///
/// ```text
/// encoding = { λ c. count_encoding c.counted c.number }
/// encodable = { λ _. ⊤ }
/// ```
///
/// Definitions: [`count_encoding`](crate::definitions::custom::entries::count_encoding). [How to read clauses](crate::definitions).
impl Encode for Count {
    fn encode<A: Sink>(&self, sink: &mut A) -> Result<()> {
        if self.counted {
            self.number.encode(sink)
        } else {
            Ok(())
        }
    }
}

/// Returns the length of the data in bytes if a size prefix can represent it, and a number above
/// 4294967295 otherwise.
fn data_size<S: Store>(front: &[u8], count: Count, entries: &S) -> usize {
    front
        .len()
        .saturating_add(count.size())
        .saturating_add(entries.content().len())
}

/// Appends a custom section without its id: the size prefix, the name, the bytes `front`, the
/// number of entries if they are counted, and the entries.
pub(crate) fn encode_entries<A: Sink, S: Store>(
    sink: &mut A,
    name: &str,
    front: &[u8],
    counted: bool,
    entries: &S,
) -> Result<()> {
    let count = Count {
        counted,
        number: entries.count(),
    };
    let size = data_size(front, count, entries);
    begin_custom(sink, name, size)?;
    sink.extend_from_slice(front).unwrap();
    count.encode(sink).unwrap();
    sink.extend_from_slice(entries.content()).unwrap();
    Ok(())
}

/// Returns a copy of the data of a section.
pub(crate) fn data_of<A: Allocator, S: Store>(
    alloc: A,
    front: &[u8],
    counted: bool,
    entries: &S,
) -> Result<Vec<u8, A>> {
    let count = Count {
        counted,
        number: entries.count(),
    };
    let mut sink = Vec::from_slice(alloc, front)?;
    count.encode(&mut sink)?;
    sink.extend_from_slice(entries.content())?;
    Ok(sink)
}

/// Encodes the size prefix, the name and the data.
///
/// # Defined
///
/// ```text
/// encoding = { λ section. named_encoding K.name
///     (joined_data K.front K.counted (S.model.joins section)) }
/// encodable = { λ section. IsEncodableNamed K.name
///     (joined_data K.front K.counted (S.model.joins section)) }
/// overlong = { λ section. longest
///     < length (size_prefixed_encoding K.name)
///     + length (joined_data K.front K.counted (S.model.joins section)) }
/// decoding = { λ section. DecodesBackBoth
///     (named_section K.name (entries K.front_format K.counted K.kind.format))
///     (λ items. S.model.holds (λ pieces. ContainsItems K.kind pieces items) section)
///     (λ items. S.model.holds (λ pieces. ContainsPadded K.kind.format pieces items)
///         section) (named_encoding K.name
///         (joined_data K.front K.counted (S.model.joins section))) }
/// ```
///
/// Definitions: [`named_encoding`](crate::definitions::custom::customs::named_encoding), [`joined_data`](crate::definitions::custom::entries::joined_data), [`IsEncodableNamed`](crate::definitions::custom::customs::IsEncodableNamed), [`longest`](crate::definitions::base::encodings::longest), [`size_prefixed_encoding`](crate::definitions::base::encodings::size_prefixed_encoding), [`DecodesBackBoth`](crate::definitions::base::calls::DecodesBackBoth), [`named_section`](crate::definitions::custom::customs::named_section), [`entries`](crate::definitions::custom::entries::entries), [`ContainsItems`](crate::definitions::base::entries::ContainsItems), [`ContainsPadded`](crate::definitions::base::entries::ContainsPadded). [How to read clauses](crate::definitions).
impl<K: CustomKind, S: Store> Encode for CustomEntries<K, S> {
    fn encode<B: Sink>(&self, sink: &mut B) -> Result<()> {
        K::laws();
        K::layout_laws();
        self.entries.cut::<ItemsOf<K>>();
        self.entries.cut::<PaddedOf<K>>();
        encode_entries(sink, K::name(), K::front(), K::counted(), &self.entries)
    }
}

/// # Defined
///
/// ```text
/// id_of = { λ _. number_of ids.Custom }
/// Items = { List K.Item }
/// format = { named_section K.name (entries K.front_format K.counted K.kind.format) }
/// says = { λ section items. S.model.holds
///     (λ pieces. ContainsItems K.kind pieces items) section }
/// payload = { λ section. NamedPayload K.name
///     (joined_data K.front K.counted (S.model.joins section)) }
/// sized = { λ section bytes encodable pays. named_sized K.name
///     (joined_data K.front K.counted (S.model.joins section)) bytes encodable pays }
/// decodes_back = { λ section promised. promised.plain }
/// ```
///
/// Definitions: [`number_of`](crate::definitions::base::section_id::number_of), [`named_section`](crate::definitions::custom::customs::named_section), [`entries`](crate::definitions::custom::entries::entries), [`ContainsItems`](crate::definitions::base::entries::ContainsItems), [`NamedPayload`](crate::definitions::custom::customs::NamedPayload), [`joined_data`](crate::definitions::custom::entries::joined_data), [`named_sized`](crate::definitions::custom::customs::named_sized). [How to read clauses](crate::definitions).
impl<K: CustomKind, S: Store> Section for CustomEntries<K, S> {
    fn id(&self) -> u8 {
        SectionId::Custom.into()
    }
}
