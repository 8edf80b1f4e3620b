// Written by tools/to-rust from crates/wasm_sections/src/import.rt: change that.
// The import section: its builder and its reader.

use crate::vec::{Sink, Vec};
use crate::sections::counted_section::{CountedSection, ItemKind, RecordOf};
use crate::sections::global::GlobalType;
use crate::sections::memory::MemoryType;
use crate::sections::table::TableType;
use crate::sections::tag::TagType;
use crate::alloc::{Allocator, Global};
use crate::base::{CORE_FUNCTION_EXACT_SORT, CORE_FUNCTION_SORT, CORE_GLOBAL_SORT, CORE_MEMORY_SORT, CORE_TABLE_SORT, CORE_TAG_SORT, CowSlice, DecodeError, Encode, Grammar, Kind, Layout, Pieces, ReadFault, Readable, Result, SectionId, Store, read_whole};

/// The import section: the items that a module imports.
///
/// ```
/// # fn example() -> Result<(), Box<dyn std::error::Error>> {
/// # use dolzhytik::{fallible::*, reader::*};
/// use dolzhytik::fallible::{EntityType, Global, ImportSection, Module};
///
/// let mut module = Module::new(Global)?;
/// let mut imports = ImportSection::new(Global);
/// imports.import("env", "f", EntityType::Function(0))?;
/// module.section(&imports)?;
/// # Ok(())
/// # }
/// # example().unwrap();
/// ```
pub type ImportSection<A = Global> = CountedSection<ImportItems, Pieces<A>>;

/// The kind of an import section's items: imports and groups of imports, each of which is one
/// entry.
///
/// # Examples
///
/// ```
/// use dolzhytik::fallible::{Global, ImportItems, ImportSection, ItemKind};
///
/// let section = ImportSection::new(Global);
/// assert_eq!((section.len(), ImportItems::id()), (0, 2));
/// ```
#[derive(Clone, Copy, Debug)]
pub struct ImportItems;

/// [`ImportSection::import`](crate::ImportSection::import) takes it. The types of tables,
/// memories, globals and tags convert to it. Core specification, Types, External Types.
///
/// # Examples
///
/// ```
/// use dolzhytik::fallible::{Encode, EntityType, GlobalType, ValType};
///
/// let mut bytes = Vec::new();
/// EntityType::Function(5).encode(&mut bytes)?;
/// let ty = GlobalType { val_type: ValType::I64, mutable: true, shared: false };
/// EntityType::Global(ty).encode(&mut bytes)?;
/// // A function: 00, its type. A global: 03, i64 (7E), mutable (01).
/// assert_eq!(bytes, [0x00, 5, 0x03, 0x7E, 0x01]);
/// # Ok::<(), dolzhytik::fallible::Refused>(())
/// ```
#[derive(Clone, Copy, PartialEq, Eq, Debug)]
pub enum EntityType {
    /// A function of the type of this index.
    Function(u32),
    /// A table.
    Table(TableType),
    /// A memory.
    Memory(MemoryType),
    /// A global.
    Global(GlobalType),
    /// A tag.
    Tag(TagType),
    /// A function of exactly the type of this index.
    FunctionExact(u32),
}

/// # Defined
///
/// ```text
/// from_gives = { λ ty entity. entity ≡ entities.Table ty }
/// ```
///
/// [How to read clauses](crate::definitions).
impl From<TableType> for EntityType {
    fn from(ty: TableType) -> EntityType {
        EntityType::Table(ty)
    }
}

/// # Defined
///
/// ```text
/// from_gives = { λ ty entity. entity ≡ entities.Memory ty }
/// ```
///
/// [How to read clauses](crate::definitions).
impl From<MemoryType> for EntityType {
    fn from(ty: MemoryType) -> EntityType {
        EntityType::Memory(ty)
    }
}

/// # Defined
///
/// ```text
/// from_gives = { λ ty entity. entity ≡ entities.Global ty }
/// ```
///
/// [How to read clauses](crate::definitions).
impl From<GlobalType> for EntityType {
    fn from(ty: GlobalType) -> EntityType {
        EntityType::Global(ty)
    }
}

/// # Defined
///
/// ```text
/// from_gives = { λ ty entity. entity ≡ entities.Tag ty }
/// ```
///
/// [How to read clauses](crate::definitions).
impl From<TagType> for EntityType {
    fn from(ty: TagType) -> EntityType {
        EntityType::Tag(ty)
    }
}

/// Encodes a byte for the kind, and the type.
///
/// # Defined
///
/// ```text
/// encoding = { entity_encoding }
/// encodable = { λ _. ⊤ }
/// ```
///
/// Definitions: [`entity_encoding`](crate::definitions::sections::imports::entity_encoding). [How to read clauses](crate::definitions).
impl Encode for EntityType {
    #[inline]
    fn encode<A: Sink>(&self, sink: &mut A) -> Result<()> {
        match *self {
            EntityType::Function(index) => (CORE_FUNCTION_SORT, index).encode(sink),
            EntityType::Table(ty) => (CORE_TABLE_SORT, ty).encode(sink),
            EntityType::Memory(ty) => (CORE_MEMORY_SORT, ty).encode(sink),
            EntityType::Global(ty) => (CORE_GLOBAL_SORT, ty).encode(sink),
            EntityType::Tag(ty) => (CORE_TAG_SORT, ty).encode(sink),
            EntityType::FunctionExact(index) => (CORE_FUNCTION_EXACT_SORT, index).encode(sink),
        }
    }
}

/// # Examples
///
/// ```
/// use dolzhytik::fallible::{EntityType, Global, Import, ImportSection, add_all};
///
/// let import = Import { module: "m", name: "f", ty: EntityType::Function(5) };
/// let mut imports = ImportSection::new(Global);
/// add_all(&mut imports, &[import])?;
/// // "m", "f", a function (00) of type 5.
/// assert_eq!(imports.piece(0), Some(&b"\x01m\x01f\0\x05"[..]));
/// # Ok::<(), (usize, dolzhytik::fallible::Refused)>(())
/// ```
#[derive(Clone, Copy, Debug)]
pub struct Import<'a> {
    /// The name of the module.
    pub module: &'a str,
    /// The name of the item.
    pub name: &'a str,
    /// The type of the item.
    pub ty: EntityType,
}

/// It is an item of [`Imports::Compact1`](crate::fallible::Imports::Compact1).
///
/// # Examples
///
/// ```
/// use dolzhytik::fallible::{
///     CowSlice, EntityType, Global, ImportCompact, ImportSection, Imports,
/// };
///
/// let items = [ImportCompact { name: "f", ty: EntityType::Function(5) }];
/// let mut imports = ImportSection::new(Global);
/// imports.imports(Imports::Compact1 {
///     module: "m",
///     items: CowSlice::Borrowed(&items),
/// })?;
/// // "m", an empty name and 7F, one item: "f", a function (00) of type 5.
/// assert_eq!(imports.piece(0), Some(&b"\x01m\0\x7F\x01\x01f\0\x05"[..]));
/// # Ok::<(), dolzhytik::fallible::Refused>(())
/// ```
#[derive(Clone, Copy, Debug)]
pub struct ImportCompact<'a> {
    /// The name of the item.
    pub name: &'a str,
    /// The type of the item.
    pub ty: EntityType,
}

/// An import, or a group of imports from one module. A section accepts lists that are borrowed, or
/// owned in memory of the section's type of allocator.
///
/// [`ImportSection`](crate::fallible::ImportSection) takes it in `imports`, and
/// [`Items::Imports`](crate::reader::Items::Imports) has them.
///
/// # Examples
///
/// ```
/// use dolzhytik::fallible::{
///     CowSlice, EntityType, Global, ImportSection, Imports,
/// };
///
/// let mut imports = ImportSection::new(Global);
/// imports.imports(Imports::Compact2 {
///     module: "m",
///     ty: EntityType::Function(0),
///     names: CowSlice::Borrowed(&["a", "b"]),
/// })?;
/// // "m", an empty name and 7E, a function (00) of type 0, two names.
/// assert_eq!(imports.piece(0), Some(&b"\x01m\0\x7E\0\0\x02\x01a\x01b"[..]));
/// # Ok::<(), dolzhytik::fallible::Refused>(())
/// ```
#[derive(Debug)]
pub enum Imports<'a, A: Allocator = Global> {
    /// One import.
    Single(Import<'a>),
    /// A group whose items have types of their own.
    Compact1 {
        /// The name of the module.
        module: &'a str,
        /// The items.
        items: CowSlice<'a, ImportCompact<'a>, A>,
    },
    /// A group of items of one type.
    Compact2 {
        /// The name of the module.
        module: &'a str,
        /// The type of each item.
        ty: EntityType,
        /// The names of the items.
        names: CowSlice<'a, &'a str, A>,
    },
}

impl<A: Allocator + Copy> Imports<'_, A> {
    /// Returns the same imports. An owned list is copied into memory of its own.
    ///
    /// # Errors
    ///
    /// Returns [`Memory`](crate::fallible::Refused::Memory) if an allocation fails.
    ///
    /// # Proved
    ///
    /// After `Ok`: `same`, the result has the same content. In any case: `memory`, no error is `TooLong`.
    ///
    /// ```text
    /// ensures same { IfOk result (λ imports. imports_item imports ≡ imports_item self.now) }
    /// ensures memory { result ≢ Err TooLong }
    /// ```
    ///
    /// Definitions: [`imports_item`](crate::definitions::sections::imports::imports_item). [How to read clauses](crate::definitions).
    pub fn clone(&self) -> Result<Self> {
        match self {
            Imports::Single(import) => Ok(Imports::Single(*import)),
            Imports::Compact1 { module, items } => Ok(Imports::Compact1 {
                module,
                items: items.clone()?,
            }),
            Imports::Compact2 { module, ty, names } => Ok(Imports::Compact2 {
                module,
                ty: *ty,
                names: names.clone()?,
            }),
        }
    }
}

/// Encodes the two names, and the type.
///
/// # Defined
///
/// ```text
/// encoding = { λ import. import_encoding (import_item import) }
/// encodable = { λ import. IsEncodableImport (import_item import) }
/// ```
///
/// Definitions: [`import_encoding`](crate::definitions::sections::imports::import_encoding), [`import_item`](crate::definitions::sections::imports::import_item), [`IsEncodableImport`](crate::definitions::sections::imports::IsEncodableImport). [How to read clauses](crate::definitions).
impl Encode for Import<'_> {
    #[inline]
    fn encode<A: Sink>(&self, sink: &mut A) -> Result<()> {
        (self.module, self.name, self.ty).encode(sink)
    }
}

/// Encodes the name, and the type.
///
/// # Defined
///
/// ```text
/// encoding = { λ import. named_encoding (compact_item import) }
/// encodable = { λ import. HasEncodableSize import.name.now }
/// ```
///
/// Definitions: [`named_encoding`](crate::definitions::sections::imports::named_encoding), [`compact_item`](crate::definitions::sections::imports::compact_item), [`HasEncodableSize`](crate::definitions::base::encodings::HasEncodableSize). [How to read clauses](crate::definitions).
impl Encode for ImportCompact<'_> {
    #[inline]
    fn encode<A: Sink>(&self, sink: &mut A) -> Result<()> {
        (self.name, self.ty).encode(sink)
    }
}

/// Encodes a single import, or a group: the module name, the byte 00, a kind byte that no entity
/// has, and the items. A reader can therefore tell a group from an import of an empty name.
///
/// # Defined
///
/// ```text
/// encoding = { λ imports. import_encoding (imports_item imports) }
/// encodable = { λ imports. IsEncodableImport (imports_item imports) }
/// ```
///
/// Definitions: [`import_encoding`](crate::definitions::sections::imports::import_encoding), [`imports_item`](crate::definitions::sections::imports::imports_item), [`IsEncodableImport`](crate::definitions::sections::imports::IsEncodableImport). [How to read clauses](crate::definitions).
impl<A: Allocator> Encode for Imports<'_, A> {
    #[inline]
    fn encode<B: Sink>(&self, sink: &mut B) -> Result<()> {
        match self {
            Imports::Single(import) => import.encode(sink),
            Imports::Compact1 { module, items } => {
                (*module, [0x00u8, 0x7F], items.as_slice()).encode(sink)
            }
            Imports::Compact2 { module, ty, names } => {
                (*module, [0x00u8, 0x7E], (*ty, names.as_slice())).encode(sink)
            }
        }
    }
}

/// # Defined
///
/// ```text
/// Record = { ImportItem }
/// Item = { ImportItem }
/// kind = { import_items }
/// ```
///
/// Definitions: [`ImportItem`](crate::definitions::sections::imports::ImportItem), [`import_items`](crate::definitions::sections::imports::import_items). [How to read clauses](crate::definitions).
impl Kind for ImportItems {
    fn laws() {}
}

/// # Defined
///
/// ```text
/// section_id = { number_of ids.Import }
/// ```
///
/// Definitions: [`number_of`](crate::definitions::base::section_id::number_of). [How to read clauses](crate::definitions).
impl ItemKind for ImportItems {
    fn id() -> u8 {
        SectionId::Import.into()
    }
}

impl RecordOf<ImportItems> for Import<'_> {}

impl<S: Store> CountedSection<ImportItems, S> {
    /// Adds an import.
    ///
    /// # Errors
    ///
    /// Returns [`TooLong`](crate::fallible::Refused::TooLong) if the builder has 4294967295
    /// entries, or if a count or length would pass 4294967295, and
    /// [`Memory`](crate::fallible::Refused::Memory) if an allocation fails. The builder is then
    /// unchanged.
    ///
    /// # Examples
    ///
    /// ```
    /// use dolzhytik::fallible::{EntityType, Global, ImportSection};
    ///
    /// let mut imports = ImportSection::new(Global);
    /// imports.import("m", "f", EntityType::Function(5))?;
    /// // "m", "f", a function (00) of type 5.
    /// assert_eq!(imports.piece(0), Some(&b"\x01m\x01f\0\x05"[..]));
    /// # Ok::<(), dolzhytik::fallible::Refused>(())
    /// ```
    ///
    /// # Proved
    ///
    /// The builder gains one entry with this encoding, or the call returns an error and changes nothing. A full builder, with 2^32 - 1 entries, returns `TooLong`.
    ///
    /// ```text
    /// ensures { AddsTo S.model
    ///     (size_prefixed_encoding «module».now
    ///         ++ (size_prefixed_encoding name.now ++ entity_encoding ty))
    ///     (HasEncodableSize «module».now × HasEncodableSize name.now) self.old self.new result
    ///     }
    /// ```
    ///
    /// Definitions: [`AddsTo`](crate::definitions::base::calls::AddsTo), [`size_prefixed_encoding`](crate::definitions::base::encodings::size_prefixed_encoding), [`entity_encoding`](crate::definitions::sections::imports::entity_encoding), [`HasEncodableSize`](crate::definitions::base::encodings::HasEncodableSize). [How to read clauses](crate::definitions).
    pub fn import(&mut self, module: &str, name: &str, ty: EntityType) -> Result<()> {
        self.add_record(&Import { module, name, ty })
    }

    /// Adds an import or a group of imports, as one entry.
    ///
    /// # Errors
    ///
    /// Returns [`TooLong`](crate::fallible::Refused::TooLong) if the builder has 4294967295
    /// entries, or if a count or length would pass 4294967295, and
    /// [`Memory`](crate::fallible::Refused::Memory) if an allocation fails. The builder is then
    /// unchanged.
    ///
    /// # Proved
    ///
    /// The builder gains one entry with this encoding, or the call returns an error and changes nothing. A full builder, with 2^32 - 1 entries, returns `TooLong`.
    ///
    /// ```text
    /// ensures { AddsTo S.model (import_encoding (imports_item imports.entry))
    ///     (IsEncodableImport (imports_item imports.entry)) self.old self.new result }
    /// ```
    ///
    /// Definitions: [`AddsTo`](crate::definitions::base::calls::AddsTo), [`import_encoding`](crate::definitions::sections::imports::import_encoding), [`imports_item`](crate::definitions::sections::imports::imports_item), [`IsEncodableImport`](crate::definitions::sections::imports::IsEncodableImport). [How to read clauses](crate::definitions).
    pub fn imports(&mut self, imports: Imports<'_, S::Alloc>) -> Result<()> {
        self.add_record(&imports)
    }
}

/// # Defined
///
/// ```text
/// Value = { EntityModel }
/// format = { entity }
/// view = { λ entity. entity }
/// ```
///
/// Definitions: [`entity`](crate::definitions::sections::imports::entity). [How to read clauses](crate::definitions).
impl Layout for EntityType {
    fn laws() {}
}

/// # Defined
///
/// ```text
/// may_allocate = { ⊥ }
/// ```
///
/// [How to read clauses](crate::definitions).
impl<'a, A: Allocator + Copy, G: Grammar> Readable<'a, A, G> for EntityType {
    fn read(bytes: &'a [u8], alloc: A) -> Result<(EntityType, &'a [u8]), DecodeError> {
        let (kind, rest) = <u8 as Readable<'a, A, G>>::read(bytes, alloc)?;
        match kind {
            0x00 => {
                let (index, rest) = <u32 as Readable<'a, A, G>>::read(rest, alloc)?;
                Ok((EntityType::Function(index), rest))
            }
            0x01 => {
                let (ty, rest) = <TableType as Readable<'a, A, G>>::read(rest, alloc)?;
                Ok((EntityType::Table(ty), rest))
            }
            0x02 => {
                let (ty, rest) = <MemoryType as Readable<'a, A, G>>::read(rest, alloc)?;
                Ok((EntityType::Memory(ty), rest))
            }
            0x03 => {
                let (ty, rest) = <GlobalType as Readable<'a, A, G>>::read(rest, alloc)?;
                Ok((EntityType::Global(ty), rest))
            }
            0x04 => {
                let (ty, rest) = <TagType as Readable<'a, A, G>>::read(rest, alloc)?;
                Ok((EntityType::Tag(ty), rest))
            }
            0x20 => {
                let (index, rest) = <u32 as Readable<'a, A, G>>::read(rest, alloc)?;
                Ok((EntityType::FunctionExact(index), rest))
            }
            _ => Err(ReadFault::UnknownTag.just_before(rest)),
        }
    }
}

/// # Defined
///
/// ```text
/// Value = { List ℕ × EntityModel }
/// format = { pair name entity }
/// view = { compact_item }
/// ```
///
/// Definitions: [`pair`](crate::definitions::base::formats::pair), [`name`](crate::definitions::base::formats::name), [`entity`](crate::definitions::sections::imports::entity), [`compact_item`](crate::definitions::sections::imports::compact_item). [How to read clauses](crate::definitions).
impl<'a> Layout for ImportCompact<'a> {
    /// # Proved
    ///
    /// A format whose encodings determine their own end is unambiguous in every mode, with encodings as `HasEncodings` states.
    ///
    /// ```text
    /// ensures { Unambiguous (pair name entity) }
    /// ```
    ///
    /// Definitions: [`Unambiguous`](crate::definitions::base::decoding::Unambiguous), [`pair`](crate::definitions::base::formats::pair), [`name`](crate::definitions::base::formats::name), [`entity`](crate::definitions::sections::imports::entity). [How to read clauses](crate::definitions).
    fn laws() {
        <(&'a str, EntityType) as Layout>::laws();
    }
}

/// # Defined
///
/// ```text
/// may_allocate = { ⊥ }
/// ```
///
/// [How to read clauses](crate::definitions).
impl<'a, A: Allocator + Copy, G: Grammar> Readable<'a, A, G> for ImportCompact<'a> {
    fn read(bytes: &'a [u8], alloc: A) -> Result<(ImportCompact<'a>, &'a [u8]), DecodeError> {
        let ((name, ty), rest) = <(&'a str, EntityType) as Readable<'a, A, G>>::read(bytes, alloc)?;
        Ok((ImportCompact { name, ty }, rest))
    }
}

/// Returns the kind byte of a group and the remaining bytes, if the bytes begin with 00 and a byte
/// of 7E or above. Such a byte is the kind of no entity, so no single import begins so after its
/// module name.
pub(crate) fn group_kind<G: Grammar>(bytes: &[u8]) -> Option<(u8, &[u8])> {
    match bytes {
        [0x00, kind @ 0x7E..=0xFF, rest @ ..] => Some((*kind, rest)),
        _ => None,
    }
}

/// # Defined
///
/// ```text
/// Value = { ImportItem }
/// format = { import_format }
/// view = { imports_item }
/// ```
///
/// Definitions: [`ImportItem`](crate::definitions::sections::imports::ImportItem), [`import_format`](crate::definitions::sections::imports::import_format), [`imports_item`](crate::definitions::sections::imports::imports_item). [How to read clauses](crate::definitions).
impl<'a, A: Allocator> Layout for Imports<'a, A> {
    /// # Proved
    ///
    /// A format whose encodings determine their own end is unambiguous in every mode, with encodings as `HasEncodings` states.
    ///
    /// ```text
    /// ensures { Unambiguous import_format }
    /// ```
    ///
    /// Definitions: [`Unambiguous`](crate::definitions::base::decoding::Unambiguous), [`import_format`](crate::definitions::sections::imports::import_format). [How to read clauses](crate::definitions).
    fn laws() {}
}

impl<'a, A: Allocator + Copy, G: Grammar> Readable<'a, A, G> for Imports<'a, A> {
    fn read(bytes: &'a [u8], alloc: A) -> Result<(Imports<'a, A>, &'a [u8]), DecodeError> {
        let (module, rest) = <&'a str as Readable<'a, A, G>>::read(bytes, alloc)?;
        let Some((kind, rest)) = group_kind::<G>(rest) else {
            let (name, rest) = <&'a str as Readable<'a, A, G>>::read(rest, alloc)?;
            let (ty, rest) = <EntityType as Readable<'a, A, G>>::read(rest, alloc)?;
            return Ok((Imports::Single(Import { module, name, ty }), rest));
        };
        match kind {
            0x7F => {
                let (items, rest) = <Vec<ImportCompact<'a>, A> as Readable<'a, A, G>>::read(
                    rest, alloc,
                )?;
                let items = CowSlice::Owned(items);
                Ok((Imports::Compact1 { module, items }, rest))
            }
            0x7E => {
                let (ty, rest) = <EntityType as Readable<'a, A, G>>::read(rest, alloc)?;
                let (names, rest) = <Vec<&'a str, A> as Readable<'a, A, G>>::read(rest, alloc)?;
                let names = CowSlice::Owned(names);
                Ok((Imports::Compact2 { module, ty, names }, rest))
            }
            _ => Err(ReadFault::UnknownTag.just_before(rest)),
        }
    }
}

/// Decodes the payload of an import section: a count and that many imports and groups, which occupy
/// all of the bytes. Memory grows with the imports that decode, and is not allocated by the count.
///
/// # Errors
///
/// Every error except `Memory` means that the bytes are not such a payload.
///
/// # Examples
///
/// ```
/// use dolzhytik::fallible::{Global, Import, Imports, read_imports};
/// use dolzhytik::reader::Padded;
///
/// // One import: "m", "f", a function (00) of type 5.
/// let imports = read_imports::<Global, Padded>(b"\x01\x01m\x01f\0\x05", Global)?;
/// assert!(matches!(
///     imports[..],
///     [Imports::Single(Import { module: "m", name: "f", .. })]
/// ));
/// # Ok::<(), dolzhytik::reader::DecodeError>(())
/// ```
///
/// # Proved
///
/// After `Ok`: `found`, the bytes as a whole encode the value. After an error: `none`, the bytes as a whole are no such encoding, unless the cause is `Memory`.
///
/// ```text
/// ensures found { IfOk result
///     (λ x. vec import_format (padded_of G.grammar) bytes.now (map imports_item x.items))
///     }
/// ensures none { IfErr result
///     (λ e. e.cause ≢ Memory → RejectsWhole (vec import_format)
///         (padded_of G.grammar) bytes.now) }
/// ```
///
/// Definitions: [`vec`](crate::definitions::base::formats::vec), [`import_format`](crate::definitions::sections::imports::import_format), [`padded_of`](crate::definitions::base::numbers::padded_of), [`imports_item`](crate::definitions::sections::imports::imports_item), [`RejectsWhole`](crate::definitions::base::continuing::RejectsWhole). [How to read clauses](crate::definitions).
pub fn read_imports<'a, A: Allocator + Copy + 'a, G: Grammar>(
    bytes: &'a [u8],
    alloc: A,
) -> Result<Vec<Imports<'a, A>, A>, DecodeError> {
    read_whole::<'a, Vec<Imports<'a, A>, A>, A, G>(bytes, alloc)
}

/// Writes the bytes that [`append_imports`] appends. After an error, part of them may follow the
/// old bytes.
fn write_imports<A: Allocator, B: Sink>(
    imports: &[Imports<'_, A>],
    sink: &mut B,
) -> Result<()> {
    imports.len().encode(sink)?;
    for import in imports {
        import.encode(sink)?;
    }
    Ok(())
}

/// Appends the minimal encoding of imports and groups of imports, after their count. On an error,
/// the sink is unchanged.
///
/// # Errors
///
/// Returns [`TooLong`](crate::fallible::Refused::TooLong) if a count or length would pass
/// 4294967295, and [`Memory`](crate::fallible::Refused::Memory) if an allocation fails. The
/// bytes of the sink are then unchanged.
///
/// # Examples
///
/// ```
/// use dolzhytik::fallible::{EntityType, Global, Import, Imports, append_imports};
///
/// let import = Import { module: "m", name: "f", ty: EntityType::Function(5) };
/// let mut bytes = Vec::new();
/// append_imports::<Global, _>(&[Imports::Single(import)], &mut bytes)?;
/// assert_eq!(bytes, *b"\x01\x01m\x01f\0\x05");
/// # Ok::<(), dolzhytik::fallible::Refused>(())
/// ```
///
/// # Proved
///
/// After `Ok`: `ok`, the sink gains the encoding that is minimal in the builders' grammar. After an error: `err`, the bytes of the sink are unchanged. In any case: `too_long`, a value that has an encoding never gives `TooLong`.
///
/// ```text
/// ensures ok { OnOk result
///     (AppendsMinimal builders_alone (vec import_format)
///         (map imports_item imports.now) sink.old.items sink.new.items) }
/// ensures err { OnErr result (sink.new.items ≡ sink.old.items) }
/// ensures too_long { HasEncoding builders_alone (vec import_format)
///     (map imports_item imports.now) → result ≢ Err TooLong }
/// ```
///
/// Definitions: [`AppendsMinimal`](crate::definitions::base::minimal::AppendsMinimal), [`builders_alone`](crate::definitions::base::minimal::Grammars), [`vec`](crate::definitions::base::formats::vec), [`import_format`](crate::definitions::sections::imports::import_format), [`imports_item`](crate::definitions::sections::imports::imports_item), [`HasEncoding`](crate::definitions::base::minimal::HasEncoding). [How to read clauses](crate::definitions).
pub fn append_imports<A: Allocator, B: Sink>(
    imports: &[Imports<'_, A>],
    sink: &mut B,
) -> Result<()> {
    let start = sink.len();
    let written = write_imports(imports, sink);
    if written.is_err() {
        sink.truncate(start);
    }
    written
}
