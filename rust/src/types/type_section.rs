// Written by tools/to-rust from crates/wasm_types/src/type_section.rt: change that.
// The type section: its builder, its reader and its minimizer.

use crate::vec::{Sink, Vec};
use crate::types::items::TypeEntry;
use crate::types::types::{ARRAY, ContType, FUNC, FieldType, FuncType, STRUCT, StorageType, SubType};
use crate::alloc::{Allocator, Global};
use crate::base::{Counted, DecodeError, Encode, Grammar, ItemsOf, Kind, NewStore, PaddedOf, Pieces, Result, Section, SectionId, Store, ValType, read_whole, vec_of};

/// The type section: the types that a module defines.
///
/// ```
/// # fn example() -> Result<(), Box<dyn std::error::Error>> {
/// # use dolzhytik::{fallible::*, reader::*};
/// use dolzhytik::fallible::{Global, Module, TypeSection, ValType};
///
/// let mut module = Module::new(Global)?;
/// let mut types = TypeSection::new(Global);
/// types.ty().function([ValType::I32, ValType::I32], [ValType::I32])?;
/// module.section(&types)?;
/// # Ok(())
/// # }
/// # example().unwrap();
/// ```
///
/// # Model
///
/// Contracts model it as the bytes of each entry.
pub type TypeSection<A = Global> = TypeSectionIn<Pieces<A>>;

/// A type section, whose entries a store of the type `S` keeps.
///
/// [`TypeSection`](crate::fallible::TypeSection) is the one that also keeps where its entries
/// end.
///
/// # Errors
///
/// An adding call that returns an error leaves the section unchanged. The error is `TooLong` only
/// if the section is full or a list is too long, and `Memory` only if an allocation fails.
///
/// # Examples
///
/// ```
/// use dolzhytik::fallible::{Encode, Entries, Global, TypeSectionIn, ValType};
///
/// let mut types = TypeSectionIn::<Entries>::new(Global);
/// types.ty().function([ValType::I32], [])?;
/// let mut bytes = Vec::new();
/// types.encode(&mut bytes)?;
/// // Size 5, one type: a function (60) of one parameter, i32 (7F), and no results.
/// assert_eq!(bytes, [5, 1, 0x60, 1, 0x7F, 0]);
/// # Ok::<(), dolzhytik::fallible::Refused>(())
/// ```
#[derive(Debug)]
pub struct TypeSectionIn<S: Store = Pieces> {
    pub(crate) entries: S,
}

/// The kind of a type section's items: subtypes and recursion groups.
///
/// It is the kind of [`TypeSection`](crate::fallible::TypeSection). Only contracts name it.
///
/// # Examples
///
/// ```
/// use dolzhytik::fallible::{Kind, TypeItems};
///
/// // A law of the format, which the prover has checked. The call does nothing.
/// TypeItems::laws();
/// ```
#[derive(Clone, Copy, Debug)]
pub struct TypeItems;

/// # Defined
///
/// ```text
/// Record = { Item }
/// Item = { Item }
/// kind = { type_items }
/// ```
///
/// Definitions: [`Item`](crate::definitions::types::rec_types::TypeItem), [`type_items`](crate::definitions::types::rec_types::type_items). [How to read clauses](crate::definitions).
impl Kind for TypeItems {
    fn laws() {}
}

impl<S: Store> TypeSectionIn<S> {
    /// Returns the number of entries.
    ///
    /// # Proved
    ///
    /// ```text
    /// ensures { result ≡ (S.model.joins self.now).number }
    /// ```
    ///
    /// [How to read clauses](crate::definitions).
    pub fn len(&self) -> u32 {
        self.entries.count()
    }

    /// Returns `true` if there are no entries.
    ///
    /// # Proved
    ///
    /// ```text
    /// ensures { IsTrue result ↔ ((S.model.joins self.now).number ≡ 0) }
    /// ```
    ///
    /// [How to read clauses](crate::definitions).
    pub fn is_empty(&self) -> bool {
        self.entries.count() == 0
    }

    /// Adds an entry that is already encoded. The call does not check that it is a type or a
    /// recursion group.
    ///
    /// # Errors
    ///
    /// Returns [`TooLong`](crate::fallible::Refused::TooLong) if the builder has 4294967295
    /// entries, and [`Memory`](crate::fallible::Refused::Memory) if an allocation fails. The
    /// builder is then unchanged.
    ///
    /// # Proved
    ///
    /// The builder gains one entry with this encoding, or the call returns an error and changes nothing. A full builder, with 2^32 - 1 entries, returns `TooLong`.
    ///
    /// ```text
    /// ensures { AddsTo S.model entry.now ⊤ self.old self.new result }
    /// ```
    ///
    /// Definitions: [`AddsTo`](crate::definitions::base::calls::AddsTo). [How to read clauses](crate::definitions).
    pub fn raw(&mut self, entry: &[u8]) -> Result<()> {
        self.entries.add_bytes(entry)
    }

    /// Returns an encoder that adds one type. If none of its methods is called, nothing is added.
    ///
    /// # Proved
    ///
    /// ```text
    /// ensures same_reference { result.section.ghost_name ≡ self.entry.ghost_name }
    /// ensures same { result.section.now ≡ self.old }
    /// ```
    ///
    /// [How to read clauses](crate::definitions).
    pub fn ty(&mut self) -> CoreTypeEncoderIn<'_, S> {
        CoreTypeEncoderIn { section: self }
    }
}

impl<A: Allocator> TypeSection<A> {
    /// Returns the bytes of the entry at `index`, or `None` if there is no such entry.
    ///
    /// # Proved
    ///
    /// The result is the entry at `index`, if there is one.
    ///
    /// ```text
    /// ensures { option_copied result ≡ slice_get self.now index }
    /// ```
    ///
    /// [How to read clauses](crate::definitions).
    pub fn piece(&self, index: u32) -> Option<&[u8]> {
        self.entries.get(index)
    }
}

impl<S: NewStore> TypeSectionIn<S> {
    /// Returns a section without entries, and allocates nothing.
    ///
    /// # Proved
    ///
    /// ```text
    /// ensures { result ≡ S.none }
    /// ```
    ///
    /// [How to read clauses](crate::definitions).
    pub fn new(alloc: S::Alloc) -> Self {
        TypeSectionIn {
            entries: S::new_in(alloc),
        }
    }

    /// Returns a copy of the section in newly allocated memory.
    ///
    /// # Errors
    ///
    /// Returns [`Memory`](crate::fallible::Refused::Memory) if an allocation fails.
    ///
    /// # Proved
    ///
    /// After `Ok`: `same`, the result equals the value. In any case: `memory`, no error is `TooLong`.
    ///
    /// ```text
    /// ensures same { IfOk result (λ section. section ≡ self.now) }
    /// ensures memory { result ≢ Err TooLong }
    /// ```
    ///
    /// [How to read clauses](crate::definitions).
    pub fn clone(&self) -> Result<Self> {
        Ok(TypeSectionIn {
            entries: self.entries.copy()?,
        })
    }
}

/// Encodes the size prefix, the number of entries, and the entries.
///
/// # Defined
///
/// ```text
/// encoding = { S.encoding }
/// encodable = { S.encodable }
/// overlong = { S.overlong }
/// decoding = { λ section. DecodesBackBoth (counted_format type_item)
///     (λ items. S.model.holds (λ pieces. ContainsTypes pieces items) section)
///     (λ items. S.model.holds (λ pieces. ContainsPadded type_item pieces items) section)
///     (S.encoding section) }
/// ```
///
/// Definitions: [`DecodesBackBoth`](crate::definitions::base::calls::DecodesBackBoth), [`counted_format`](crate::definitions::base::entries::counted_format), [`type_item`](crate::definitions::types::rec_types::type_item), [`ContainsTypes`](crate::definitions::types::rec_types::ContainsTypes), [`ContainsPadded`](crate::definitions::base::entries::ContainsPadded). [How to read clauses](crate::definitions).
impl<S: Store> Encode for TypeSectionIn<S> {
    fn encode<B: Sink>(&self, sink: &mut B) -> Result<()> {
        TypeItems::laws();
        self.entries.cut::<ItemsOf<TypeItems>>();
        self.entries.cut::<PaddedOf<TypeItems>>();
        self.entries.encode(sink)
    }
}

/// # Defined
///
/// ```text
/// id_of = { λ _. number_of ids.Types }
/// Items = { List Item }
/// format = { counted_format type_item }
/// says = { λ section items. S.model.holds (λ pieces. ContainsTypes pieces items) section }
/// payload = { λ section bytes. bytes ≡ joined_payload (S.model.joins section) }
/// sized = { λ section bytes encodable e. joined_sized (S.model.joins section)
///     (S.encoding section) bytes (S.encodes section) (S.fits section encodable) e }
/// decodes_back = { λ section promised. promised.plain }
/// ```
///
/// Definitions: [`number_of`](crate::definitions::base::section_id::number_of), [`Item`](crate::definitions::types::rec_types::TypeItem), [`counted_format`](crate::definitions::base::entries::counted_format), [`type_item`](crate::definitions::types::rec_types::type_item), [`ContainsTypes`](crate::definitions::types::rec_types::ContainsTypes), [`joined_payload`](crate::definitions::base::stores::joined_payload), [`joined_sized`](crate::definitions::base::stores::joined_sized). [How to read clauses](crate::definitions).
impl<S: Store> Section for TypeSectionIn<S> {
    fn id(&self) -> u8 {
        SectionId::Types.into()
    }
}

/// Adds decoded entries, each as it was: a type, or a recursion group.
///
/// # Defined
///
/// ```text
/// pieces = { λ section. section }
/// item_encoding = { entry_encoding }
/// item_encodable = { IsEncodableEntry }
/// counted = { λ section. refl }
/// ```
///
/// Definitions: [`entry_encoding`](crate::definitions::types::items::entry_encoding), [`IsEncodableEntry`](crate::definitions::types::items::IsEncodableEntry). [How to read clauses](crate::definitions).
impl<A: Allocator, B: Allocator> Counted<TypeEntry<B>> for TypeSection<A> {
    fn add(&mut self, item: &TypeEntry<B>) -> Result<()> {
        self.entries.add_encoded(item)
    }
}

/// Adds one type to a section that it borrows. A call that returns an error leaves the section
/// unchanged.
///
/// [`TypeSection::ty`](crate::fallible::TypeSection::ty) returns it.
///
/// # Examples
///
/// ```
/// use dolzhytik::fallible::{CoreTypeEncoderIn, Global, Refused, Store, TypeSection, ValType};
///
/// fn procedure<S: Store>(ty: CoreTypeEncoderIn<'_, S>) -> Result<(), Refused> {
///     ty.function([], [])
/// }
///
/// let mut types = TypeSection::new(Global);
/// procedure(types.ty())?;
/// // A function (60) without parameters and results.
/// assert_eq!(types.piece(0), Some(&[0x60, 0, 0][..]));
/// # Ok::<(), dolzhytik::fallible::Refused>(())
/// ```
#[derive(Debug)]
pub struct CoreTypeEncoderIn<'a, S: Store = Pieces> {
    pub(crate) section: &'a mut TypeSectionIn<S>,
}

/// Adds one type to a [`TypeSection`] that it borrows.
///
/// [`TypeSection::ty`](crate::fallible::TypeSection::ty) returns it. Each of its calls adds one
/// entry.
///
/// # Examples
///
/// ```
/// use dolzhytik::fallible::{Global, TypeSection, ValType};
///
/// let mut types = TypeSection::new(Global);
/// types.ty().function([ValType::I32], [])?;
/// // A function: 60. One parameter, i32 (7F), and no results.
/// assert_eq!(types.piece(0), Some(&[0x60, 1, 0x7F, 0][..]));
/// # Ok::<(), dolzhytik::fallible::Refused>(())
/// ```
pub type CoreTypeEncoder<'a, A = Global> = CoreTypeEncoderIn<'a, Pieces<A>>;

impl<'a, S: Store> CoreTypeEncoderIn<'a, S> {
    /// Adds a function type.
    ///
    /// # Errors
    ///
    /// Returns [`TooLong`](crate::fallible::Refused::TooLong) if the builder has 4294967295
    /// entries, or if a count or length would pass 4294967295, and
    /// [`Memory`](crate::fallible::Refused::Memory) if an allocation fails. The builder is then
    /// unchanged.
    ///
    /// # Proved
    ///
    /// The builder gains one entry with this encoding, or the call returns an error and changes nothing. A full builder, with 2^32 - 1 entries, returns `TooLong`.
    ///
    /// ```text
    /// ensures { AddsTo S.model (func_encoding ty.now.params.items ty.now.results.items)
    ///     (IsEncodableVec (λ _. ⊤) ty.now.params.items
    ///         × IsEncodableVec (λ _. ⊤) ty.now.results.items) self.entry.section.now
    ///     self.exit.0.now result }
    /// ```
    ///
    /// Definitions: [`AddsTo`](crate::definitions::base::calls::AddsTo), [`func_encoding`](crate::definitions::types::rec_types::func_encoding), [`IsEncodableVec`](crate::definitions::base::encodings::IsEncodableVec). [How to read clauses](crate::definitions).
    pub fn func_type<B: Allocator>(self, ty: &FuncType<B>) -> Result<()> {
        let section = self.section;
        section.entries.add_item(ty)
    }

    /// Adds an array type.
    ///
    /// # Errors
    ///
    /// Returns [`TooLong`](crate::fallible::Refused::TooLong) if the builder has 4294967295
    /// entries, and [`Memory`](crate::fallible::Refused::Memory) if an allocation fails. The
    /// builder is then unchanged.
    ///
    /// # Examples
    ///
    /// ```
    /// use dolzhytik::fallible::{Global, StorageType, TypeSection};
    ///
    /// let mut types = TypeSection::new(Global);
    /// types.ty().array(&StorageType::I8, true)?;
    /// // An array: 5E. i8 (78), mutable (01).
    /// assert_eq!(types.piece(0), Some(&[0x5E, 0x78, 0x01][..]));
    /// # Ok::<(), dolzhytik::fallible::Refused>(())
    /// ```
    ///
    /// # Proved
    ///
    /// The builder gains one entry with this encoding, or the call returns an error and changes nothing. A full builder, with 2^32 - 1 entries, returns `TooLong`.
    ///
    /// ```text
    /// ensures { AddsTo S.model
    ///     (0x5E ∷ field_encoding (record { element_type = ty.now; mutable = mutable })) ⊤
    ///     self.entry.section.now self.exit.0.now result }
    /// ```
    ///
    /// Definitions: [`AddsTo`](crate::definitions::base::calls::AddsTo), [`field_encoding`](crate::definitions::types::rec_types::field_encoding). [How to read clauses](crate::definitions).
    pub fn array(self, ty: &StorageType, mutable: bool) -> Result<()> {
        let element = FieldType {
            element_type: *ty,
            mutable,
        };
        let section = self.section;
        section.entries.add_item(&(ARRAY, element))
    }

    /// Adds a continuation type.
    ///
    /// # Errors
    ///
    /// Returns [`TooLong`](crate::fallible::Refused::TooLong) if the builder has 4294967295
    /// entries, and [`Memory`](crate::fallible::Refused::Memory) if an allocation fails. The
    /// builder is then unchanged.
    ///
    /// # Examples
    ///
    /// ```
    /// use dolzhytik::fallible::{ContType, Global, TypeSection};
    ///
    /// let mut types = TypeSection::new(Global);
    /// types.ty().cont(&ContType(64))?;
    /// // A continuation: 5D. The index is signed LEB128: 64 is C0 00.
    /// assert_eq!(types.piece(0), Some(&[0x5D, 0xC0, 0x00][..]));
    /// # Ok::<(), dolzhytik::fallible::Refused>(())
    /// ```
    ///
    /// # Proved
    ///
    /// The builder gains one entry with this encoding, or the call returns an error and changes nothing. A full builder, with 2^32 - 1 entries, returns `TooLong`.
    ///
    /// ```text
    /// ensures { AddsTo S.model
    ///     (cont_encoding ty.now.0) ⊤ self.entry.section.now self.exit.0.now result }
    /// ```
    ///
    /// Definitions: [`AddsTo`](crate::definitions::base::calls::AddsTo), [`cont_encoding`](crate::definitions::types::rec_types::cont_encoding). [How to read clauses](crate::definitions).
    pub fn cont(self, ty: &ContType) -> Result<()> {
        let section = self.section;
        section.entries.add_item(ty)
    }

    /// Adds a subtype.
    ///
    /// # Errors
    ///
    /// Returns [`TooLong`](crate::fallible::Refused::TooLong) if the builder has 4294967295
    /// entries, or if a count or length would pass 4294967295, and
    /// [`Memory`](crate::fallible::Refused::Memory) if an allocation fails. The builder is then
    /// unchanged.
    ///
    /// # Proved
    ///
    /// The builder gains one entry with this encoding, or the call returns an error and changes nothing. A full builder, with 2^32 - 1 entries, returns `TooLong`.
    ///
    /// ```text
    /// ensures { AddsTo S.model (sub_encoding (sub_in ty.now))
    ///     (IsEncodableShape (shape_in ty.now.composite_type.inner)) self.entry.section.now
    ///     self.exit.0.now result }
    /// ```
    ///
    /// Definitions: [`AddsTo`](crate::definitions::base::calls::AddsTo), [`sub_encoding`](crate::definitions::types::rec_types::sub_encoding), [`sub_in`](crate::definitions::types::given::sub_in), [`IsEncodableShape`](crate::definitions::types::given::IsEncodableShape), [`shape_in`](crate::definitions::types::given::shape_in). [How to read clauses](crate::definitions).
    pub fn subtype<B: Allocator>(self, ty: &SubType<B>) -> Result<()> {
        let section = self.section;
        section.entries.add_item(ty)
    }

    /// Adds a function type of these parameters and results. If an iterator reports more than
    /// 4294967295 items, the call returns `TooLong` and requests none, as tests show.
    ///
    /// # Errors
    ///
    /// Returns [`TooLong`](crate::fallible::Refused::TooLong) if the builder has 4294967295
    /// entries, or if a count or length would pass 4294967295, and
    /// [`Memory`](crate::fallible::Refused::Memory) if an allocation fails. The builder is then
    /// unchanged.
    ///
    /// # Asks
    ///
    /// The iterator ends, and yields as many items as it reports. [What happens otherwise](crate::fallible#what-is-asked).
    ///
    /// ```text
    /// requires params { HasKnownLength P.into_iter_gives P.IntoIter.can_next
    ///     P.IntoIter.next_gives P.IntoIter.remaining params }
    /// requires results { HasKnownLength Q.into_iter_gives Q.IntoIter.can_next
    ///     Q.IntoIter.next_gives Q.IntoIter.remaining results }
    /// ```
    ///
    /// Definitions: [`HasKnownLength`](crate::definitions::base::iterators::HasKnownLength). [How to read clauses](crate::definitions).
    ///
    /// # Proved
    ///
    /// The section gains one entry of the items that both iterators yield, or the call returns an error and changes nothing. If either reports more than 2^32 - 1 items, the error is `TooLong`.
    ///
    /// ```text
    /// ensures { AddsTwoListed S.model P.into_iter_gives P.IntoIter.next_gives
    ///     P.IntoIter.remaining Q.into_iter_gives Q.IntoIter.next_gives Q.IntoIter.remaining
    ///     params results func_encoding self.entry.section.now self.exit.0.now result }
    /// ```
    ///
    /// Definitions: [`AddsTwoListed`](crate::definitions::types::calls::AddsTwoListed), [`func_encoding`](crate::definitions::types::rec_types::func_encoding). [How to read clauses](crate::definitions).
    pub fn function<P: IntoIterator<Item = ValType>, Q: IntoIterator<Item = ValType>>(
        self,
        params: P,
        results: Q,
    ) -> Result<()>
    where
        P::IntoIter: ExactSizeIterator,
        Q::IntoIter: ExactSizeIterator,
    {
        let section = self.section;
        let params = vec_of(params);
        let results = vec_of(results);
        section.entries.add_item_once((FUNC, params?, results?))
    }

    /// Adds a structure type of these fields. If the iterator reports more than 4294967295 fields,
    /// the call returns `TooLong` and requests none, as tests show.
    ///
    /// # Errors
    ///
    /// Returns [`TooLong`](crate::fallible::Refused::TooLong) if the builder has 4294967295
    /// entries, or if a count or length would pass 4294967295, and
    /// [`Memory`](crate::fallible::Refused::Memory) if an allocation fails. The builder is then
    /// unchanged.
    ///
    /// # Examples
    ///
    /// ```
    /// use dolzhytik::fallible::{FieldType, Global, StorageType, TypeSection};
    ///
    /// let mut types = TypeSection::new(Global);
    /// types.ty().struct_([FieldType { element_type: StorageType::I16, mutable: false }])?;
    /// // A structure: 5F. One field, i16 (77), immutable (00).
    /// assert_eq!(types.piece(0), Some(&[0x5F, 1, 0x77, 0x00][..]));
    /// # Ok::<(), dolzhytik::fallible::Refused>(())
    /// ```
    ///
    /// # Asks
    ///
    /// The iterator ends, and yields as many items as it reports. [What happens otherwise](crate::fallible#what-is-asked).
    ///
    /// ```text
    /// requires { HasKnownLength F.into_iter_gives F.IntoIter.can_next F.IntoIter.next_gives
    ///     F.IntoIter.remaining fields }
    /// ```
    ///
    /// Definitions: [`HasKnownLength`](crate::definitions::base::iterators::HasKnownLength). [How to read clauses](crate::definitions).
    ///
    /// # Proved
    ///
    /// The section gains one entry of the items that the iterator yields, or the call returns an error and changes nothing. If the iterator reports more than 2^32 - 1 items, the error is `TooLong`.
    ///
    /// ```text
    /// ensures { AddsListed S.model F.into_iter_gives F.IntoIter.next_gives
    ///     F.IntoIter.remaining (λ _. ⊤) fields struct_encoding self.entry.section.now
    ///     self.exit.0.now result }
    /// ```
    ///
    /// Definitions: [`AddsListed`](crate::definitions::types::calls::AddsListed), [`struct_encoding`](crate::definitions::types::rec_types::struct_encoding). [How to read clauses](crate::definitions).
    pub fn struct_<F: IntoIterator<Item = FieldType>>(self, fields: F) -> Result<()>
    where
        F::IntoIter: ExactSizeIterator,
    {
        let section = self.section;
        let fields = vec_of(fields)?;
        section.entries.add_item_once((STRUCT, fields))
    }

    /// Adds a recursion group: subtypes that may refer to one another. If the iterator reports more
    /// than 4294967295 subtypes, the call returns `TooLong` and requests none, as tests show.
    ///
    /// # Errors
    ///
    /// Returns [`TooLong`](crate::fallible::Refused::TooLong) if the builder has 4294967295
    /// entries, or if a count or length would pass 4294967295, and
    /// [`Memory`](crate::fallible::Refused::Memory) if an allocation fails. The builder is then
    /// unchanged.
    ///
    /// # Examples
    ///
    /// ```
    /// use dolzhytik::fallible::{Global, SubType, TypeSection};
    ///
    /// let mut types = TypeSection::new(Global);
    /// types.ty().rec::<[SubType; 0], Global>([])?;
    /// // A group of no types: 4E and the count.
    /// assert_eq!(types.piece(0), Some(&[0x4E, 0][..]));
    /// # Ok::<(), dolzhytik::fallible::Refused>(())
    /// ```
    ///
    /// # Asks
    ///
    /// The iterator ends, and yields as many items as it reports. [What happens otherwise](crate::fallible#what-is-asked).
    ///
    /// ```text
    /// requires { HasKnownLength T.into_iter_gives T.IntoIter.can_next T.IntoIter.next_gives
    ///     T.IntoIter.remaining types }
    /// ```
    ///
    /// Definitions: [`HasKnownLength`](crate::definitions::base::iterators::HasKnownLength). [How to read clauses](crate::definitions).
    ///
    /// # Proved
    ///
    /// The section gains one entry of the items that the iterator yields, or the call returns an error and changes nothing. If the iterator reports more than 2^32 - 1 items, the error is `TooLong`.
    ///
    /// ```text
    /// ensures { AddsListed S.model T.into_iter_gives T.IntoIter.next_gives
    ///     T.IntoIter.remaining (λ s. IsEncodableShape (shape_in s.composite_type.inner)) types
    ///     group_encoding self.entry.section.now self.exit.0.now result }
    /// ```
    ///
    /// Definitions: [`AddsListed`](crate::definitions::types::calls::AddsListed), [`IsEncodableShape`](crate::definitions::types::given::IsEncodableShape), [`shape_in`](crate::definitions::types::given::shape_in), [`group_encoding`](crate::definitions::types::given::group_encoding). [How to read clauses](crate::definitions).
    #[doc(alias = "recursion group")]
    #[doc(alias = "rectype")]
    pub fn rec<T: IntoIterator<Item = SubType<B>>, B: Allocator>(self, types: T) -> Result<()>
    where
        T::IntoIter: ExactSizeIterator,
    {
        let section = self.section;
        let types = vec_of(types)?;
        section.entries.add_item_once((REC, types))
    }
}

/// The byte before a recursion group.
pub(crate) const REC: u8 = 0x4E;

/// Decodes the payload of a type section, in the grammar `G`: a count and that many entries, which
/// occupy all of the bytes.
///
/// # Errors
///
/// Every error except `Memory` means that the bytes are not such a payload.
///
/// # Examples
///
/// ```
/// use dolzhytik::fallible::{Global, read_types};
/// use dolzhytik::reader::{Padded, TypeEntry};
///
/// // One function without parameters and results.
/// let types = read_types::<Global, Padded>(&[1, 0x60, 0, 0], Global)?;
/// assert!(matches!(types[..], [TypeEntry::Single(_)]));
/// # Ok::<(), dolzhytik::reader::DecodeError>(())
/// ```
///
/// # Proved
///
/// After `Ok`: `found`, the bytes as a whole encode the value. After an error: `none`, the bytes as a whole are no such encoding, unless the cause is `Memory`.
///
/// ```text
/// ensures found { IfOk result
///     (λ x. vec type_item (padded_of G.grammar) bytes.now (map entry_view x.items)) }
/// ensures none { IfErr result
///     (λ e. e.cause ≢ Memory → RejectsWhole (vec type_item)
///         (padded_of G.grammar) bytes.now) }
/// ```
///
/// Definitions: [`vec`](crate::definitions::base::formats::vec), [`type_item`](crate::definitions::types::rec_types::type_item), [`padded_of`](crate::definitions::base::numbers::padded_of), [`entry_view`](crate::definitions::types::items::entry_view), [`RejectsWhole`](crate::definitions::base::continuing::RejectsWhole). [How to read clauses](crate::definitions).
pub fn read_types<'a, A: Allocator + Copy, G: Grammar>(
    bytes: &'a [u8],
    alloc: A,
) -> Result<Vec<TypeEntry<A>, A>, DecodeError> {
    read_whole::<'a, Vec<TypeEntry<A>, A>, A, G>(bytes, alloc)
}

/// Appends the minimal encoding of a type section's payload: the number of types, and the types.
///
/// # Errors
///
/// Returns [`Refused`](crate::base::Refused), and leaves the bytes of the sink unchanged, if an
/// allocation fails. Decoded types never cause `TooLong`.
///
/// # Examples
///
/// ```
/// use dolzhytik::fallible::{Global, append_types, read_types};
/// use dolzhytik::reader::Padded;
///
/// // The count, 1, in two bytes; a function without parameters and results.
/// let types = read_types::<Global, Padded>(&[0x81, 0x00, 0x60, 0, 0], Global)?;
/// let mut bytes = vec![];
/// append_types(&types, &mut bytes)?;
/// assert_eq!(bytes, [1, 0x60, 0, 0]);
/// # Ok::<(), dolzhytik::reader::DecodeError>(())
/// ```
///
/// # Proved
///
/// After `Ok`: `ok`, the sink gains the encoding that is minimal in the builders' grammar. After an error: `err`, the bytes of the sink are unchanged. In any case: `too_long`, a value that has an encoding never gives `TooLong`.
///
/// ```text
/// ensures ok { OnOk result
///     (AppendsMinimal builders_alone (vec type_item)
///         (map entry_view types.now) sink.old.items sink.new.items) }
/// ensures err { OnErr result (sink.new.items ≡ sink.old.items) }
/// ensures too_long { HasEncoding builders_alone (vec type_item) (map entry_view types.now)
///     → result ≢ Err TooLong }
/// ```
///
/// Definitions: [`AppendsMinimal`](crate::definitions::base::minimal::AppendsMinimal), [`builders_alone`](crate::definitions::base::minimal::Grammars), [`vec`](crate::definitions::base::formats::vec), [`type_item`](crate::definitions::types::rec_types::type_item), [`entry_view`](crate::definitions::types::items::entry_view), [`HasEncoding`](crate::definitions::base::minimal::HasEncoding). [How to read clauses](crate::definitions).
pub fn append_types<A: Allocator, B: Sink>(
    types: &[TypeEntry<A>],
    sink: &mut B,
) -> Result<()> {
    types.encode(sink)
}
