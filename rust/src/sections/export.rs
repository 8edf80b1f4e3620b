// Written by tools/to-rust from crates/wasm_sections/src/export.rt: change that.
// The export section: its builder and its reader.

use crate::vec::Sink;
use crate::sections::counted_section::{CountedSection, ItemKind, RecordOf};
use crate::alloc::{Allocator, Global};
use crate::base::{DecodeError, Encode, Grammar, Kind, Layout, Pieces, ReadFault, Readable, Result, SectionId, Store};

/// The export section: the items that a module exports.
///
/// ```
/// # fn example() -> Result<(), Box<dyn std::error::Error>> {
/// # use dolzhytik::{fallible::*, reader::*};
/// use dolzhytik::fallible::{ExportKind, ExportSection, Global, Module};
///
/// let mut module = Module::new(Global)?;
/// let mut exports = ExportSection::new(Global);
/// exports.export("foo", ExportKind::Func, 0)?;
/// module.section(&exports)?;
/// # Ok(())
/// # }
/// # example().unwrap();
/// ```
pub type ExportSection<A = Global> = CountedSection<ExportItems, Pieces<A>>;

/// The kind of an export section's items: exports.
///
/// # Examples
///
/// ```
/// use dolzhytik::fallible::{ExportItems, ExportSection, Global, ItemKind};
///
/// let section = ExportSection::new(Global);
/// assert_eq!((section.len(), ExportItems::id()), (0, 7));
/// ```
#[derive(Clone, Copy, Debug)]
pub struct ExportItems;

/// [`ExportSection::export`](crate::ExportSection::export) takes it. Core specification,
/// Modules, Export Section.
///
/// # Examples
///
/// ```
/// use dolzhytik::fallible::{Encode, ExportKind};
///
/// let mut bytes = Vec::new();
/// ExportKind::Memory.encode(&mut bytes)?;
/// assert_eq!(bytes, [0x02]);
/// # Ok::<(), dolzhytik::fallible::Refused>(())
/// ```
#[derive(Clone, Copy, PartialEq, Eq, Hash, Debug)]
pub enum ExportKind {
    /// A function: 00.
    Func = 0x00,
    /// A table: 01.
    Table = 0x01,
    /// A memory: 02.
    Memory = 0x02,
    /// A global: 03.
    Global = 0x03,
    /// A tag: 04.
    Tag = 0x04,
}

/// An export: a name, and the item that is exported under it.
///
/// [`Items::Exports`](crate::reader::Items::Exports) has them.
/// [`add_all`](crate::fallible::add_all) adds some.
///
/// # Examples
///
/// ```
/// use dolzhytik::fallible::{Export, ExportKind, ExportSection, Global, add_all};
///
/// let mut exports = ExportSection::new(Global);
/// add_all(&mut exports, &[Export { name: "f", kind: ExportKind::Func, index: 5 }])?;
/// assert_eq!(exports.piece(0), Some(&[1, b'f', 0, 5][..]));
/// # Ok::<(), (usize, dolzhytik::fallible::Refused)>(())
/// ```
#[derive(Clone, Copy, Debug)]
pub struct Export<'a> {
    /// The name.
    pub name: &'a str,
    /// The kind of the item.
    pub kind: ExportKind,
    /// The index of the item.
    pub index: u32,
}

/// Encodes the kind as one byte.
///
/// # Defined
///
/// ```text
/// encoding = { λ kind. kind_code kind ∷ [] }
/// encodable = { λ _. ⊤ }
/// ```
///
/// Definitions: [`kind_code`](crate::definitions::sections::exports::kind_code). [How to read clauses](crate::definitions).
impl Encode for ExportKind {
    #[inline]
    fn encode<A: Sink>(&self, sink: &mut A) -> Result<()> {
        (*self as u8).encode(sink)
    }
}

/// Encodes the name, the kind and the index.
///
/// # Defined
///
/// ```text
/// encoding = { export_encoding }
/// encodable = { IsEncodableExport }
/// ```
///
/// Definitions: [`export_encoding`](crate::definitions::sections::exports::export_encoding), [`IsEncodableExport`](crate::definitions::sections::exports::IsEncodableExport). [How to read clauses](crate::definitions).
impl Encode for Export<'_> {
    #[inline]
    fn encode<A: Sink>(&self, sink: &mut A) -> Result<()> {
        (self.name, self.kind, self.index).encode(sink)
    }
}

/// # Defined
///
/// ```text
/// Record = { Given }
/// Item = { ExportItem }
/// kind = { export_items }
/// ```
///
/// Definitions: [`ExportItem`](crate::definitions::sections::exports::ExportItem), [`export_items`](crate::definitions::sections::exports::export_items). [How to read clauses](crate::definitions).
impl Kind for ExportItems {
    fn laws() {}
}

/// # Defined
///
/// ```text
/// section_id = { number_of ids.Export }
/// ```
///
/// Definitions: [`number_of`](crate::definitions::base::section_id::number_of). [How to read clauses](crate::definitions).
impl ItemKind for ExportItems {
    fn id() -> u8 {
        SectionId::Export.into()
    }
}

impl RecordOf<ExportItems> for Export<'_> {}

impl<S: Store> CountedSection<ExportItems, S> {
    /// Adds an export.
    ///
    /// # Errors
    ///
    /// Returns [`TooLong`](crate::fallible::Refused::TooLong) if the builder has 4294967295
    /// entries, or if a count or length would pass 4294967295, and
    /// [`Memory`](crate::fallible::Refused::Memory) if an allocation fails. The builder is then
    /// unchanged.
    ///
    /// # Proved
    ///
    /// The builder gains one entry with this encoding, or the call returns an error and changes nothing. A full builder, with 2^32 - 1 entries, returns `TooLong`.
    ///
    /// ```text
    /// ensures { AddsTo S.model
    ///     (size_prefixed_encoding name.now
    ///         ++ (kind_code kind ∷ [] ++ unsigned_encoding index))
    ///     (HasEncodableSize name.now) self.old self.new result }
    /// ```
    ///
    /// Definitions: [`AddsTo`](crate::definitions::base::calls::AddsTo), [`size_prefixed_encoding`](crate::definitions::base::encodings::size_prefixed_encoding), [`kind_code`](crate::definitions::sections::exports::kind_code), [`unsigned_encoding`](crate::definitions::base::numbers::unsigned_encoding), [`HasEncodableSize`](crate::definitions::base::encodings::HasEncodableSize). [How to read clauses](crate::definitions).
    pub fn export(&mut self, name: &str, kind: ExportKind, index: u32) -> Result<()> {
        self.add_record(&Export { name, kind, index })
    }
}

/// # Defined
///
/// ```text
/// Value = { Kind }
/// format = { coded kind_code }
/// view = { λ kind. kind }
/// ```
///
/// Definitions: [`coded`](crate::definitions::base::formats::coded), [`kind_code`](crate::definitions::sections::exports::kind_code). [How to read clauses](crate::definitions).
impl Layout for ExportKind {
    fn laws() {}
}

/// # Defined
///
/// ```text
/// may_allocate = { ⊥ }
/// ```
///
/// [How to read clauses](crate::definitions).
impl<'a, A: Allocator + Copy, G: Grammar> Readable<'a, A, G> for ExportKind {
    fn read(bytes: &'a [u8], alloc: A) -> Result<(ExportKind, &'a [u8]), DecodeError> {
        let (code, rest) = <u8 as Readable<'a, A, G>>::read(bytes, alloc)?;
        match code {
            0x00 => Ok((ExportKind::Func, rest)),
            0x01 => Ok((ExportKind::Table, rest)),
            0x02 => Ok((ExportKind::Memory, rest)),
            0x03 => Ok((ExportKind::Global, rest)),
            0x04 => Ok((ExportKind::Tag, rest)),
            _ => Err(ReadFault::UnknownTag.just_before(rest)),
        }
    }
}

/// # Defined
///
/// ```text
/// Value = { ExportItem }
/// format = { export }
/// view = { item_of }
/// ```
///
/// Definitions: [`ExportItem`](crate::definitions::sections::exports::ExportItem), [`export`](crate::definitions::sections::exports::export), [`item_of`](crate::definitions::sections::exports::item_of). [How to read clauses](crate::definitions).
impl<'a> Layout for Export<'a> {
    /// # Proved
    ///
    /// A format whose encodings determine their own end is unambiguous in every mode, with encodings as `HasEncodings` states.
    ///
    /// ```text
    /// ensures { Unambiguous export }
    /// ```
    ///
    /// Definitions: [`Unambiguous`](crate::definitions::base::decoding::Unambiguous), [`export`](crate::definitions::sections::exports::export). [How to read clauses](crate::definitions).
    fn laws() {}
}

/// # Defined
///
/// ```text
/// may_allocate = { ⊥ }
/// ```
///
/// [How to read clauses](crate::definitions).
impl<'a, A: Allocator + Copy, G: Grammar> Readable<'a, A, G> for Export<'a> {
    fn read(bytes: &'a [u8], alloc: A) -> Result<(Export<'a>, &'a [u8]), DecodeError> {
        let ((name, (kind, index)), rest) = <(&'a str, (ExportKind, u32)) as Readable<
            'a,
            A,
            G,
        >>::read(bytes, alloc)?;
        Ok((Export { name, kind, index }, rest))
    }
}
