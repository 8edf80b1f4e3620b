// Written by tools/to-rust from crates/wasm_custom/src/dylink_symbols.rt: change that.
// The contents of the subsections of a dynamic library's section: their builders, their readers and
// their minimizers.

use crate::vec::Sink;
use crate::custom::lists::{CountedList, ListKind};
use crate::custom::subsections::Content;
use crate::alloc::{Allocator, Global};
use crate::base::{DecodeError, Encode, Grammar, Layout, Pieces, Readable, Result, Shorten, Store, encoding_size};

/// The memory and the table that a dynamic library needs at load time.
///
/// [`DylinkSection::memory`](crate::fallible::DylinkSection::memory) takes it, and
/// [`DylinkItem::Memory`](crate::reader::DylinkItem::Memory) has it.
///
/// # Examples
///
/// ```
/// use dolzhytik::fallible::{DylinkMemory, Encode};
///
/// let mut bytes = vec![];
/// let memory = DylinkMemory {
///     memory_size: 16,
///     memory_alignment: 2,
///     table_size: 1,
///     table_alignment: 0,
/// };
/// memory.encode(&mut bytes)?;
/// assert_eq!(bytes, [16, 2, 1, 0]);
/// # Ok::<(), dolzhytik::fallible::Refused>(())
/// ```
#[derive(Clone, Copy, PartialEq, Eq, Debug)]
pub struct DylinkMemory {
    /// The size of the memory, in bytes.
    pub memory_size: u32,
    /// The exponent of the memory's alignment: 2 to this power is the alignment in bytes.
    pub memory_alignment: u32,
    /// The number of elements of the table.
    pub table_size: u32,
    /// The exponent of the table's alignment: 2 to this power is the alignment in elements.
    pub table_alignment: u32,
}

/// Encodes the sizes and the exponents of the alignments: of the memory, then of the table.
///
/// # Defined
///
/// ```text
/// encoding = { needs_encoding }
/// encodable = { λ _. ⊤ }
/// ```
///
/// Definitions: [`needs_encoding`](crate::definitions::custom::dylink::needs_encoding). [How to read clauses](crate::definitions).
impl Encode for DylinkMemory {
    fn encode<A: Sink>(&self, sink: &mut A) -> Result<()> {
        let memory = (self.memory_size, self.memory_alignment);
        let table = (self.table_size, self.table_alignment);
        (memory, table).encode(sink)
    }
}

impl Content for DylinkMemory {
    fn size(&self) -> usize {
        encoding_size(self.memory_size)
            .saturating_add(encoding_size(self.memory_alignment))
            .saturating_add(encoding_size(self.table_size))
            .saturating_add(encoding_size(self.table_alignment))
    }
}

/// # Defined
///
/// ```text
/// Value = { MemoryModel }
/// format = { needs }
/// view = { λ memory. memory }
/// ```
///
/// Definitions: [`needs`](crate::definitions::custom::dylink::needs). [How to read clauses](crate::definitions).
impl Layout for DylinkMemory {
    fn laws() {}
}

/// # Defined
///
/// ```text
/// may_allocate = { ⊥ }
/// ```
///
/// [How to read clauses](crate::definitions).
impl<'a, A: Allocator + Copy, G: Grammar> Readable<'a, A, G> for DylinkMemory {
    fn read(bytes: &'a [u8], alloc: A) -> Result<(DylinkMemory, &'a [u8]), DecodeError> {
        let (((memory_size, memory_alignment), (table_size, table_alignment)), rest) = <(
            (u32, u32),
            (u32, u32),
        ) as Readable<'a, A, G>>::read(bytes, alloc)?;
        let memory = DylinkMemory {
            memory_size,
            memory_alignment,
            table_size,
            table_alignment,
        };
        Ok((memory, rest))
    }
}

/// # Defined
///
/// ```text
/// grammars = { both_grammars }
/// ```
///
/// Definitions: [`both_grammars`](crate::definitions::base::minimal::Grammars). [How to read clauses](crate::definitions).
impl Shorten for DylinkMemory {
    fn write_minimal<B: Sink>(&self, sink: &mut B) -> Result<()> {
        self.memory_size.write_minimal(sink)?;
        self.memory_alignment.write_minimal(sink)?;
        self.table_size.write_minimal(sink)?;
        self.table_alignment.write_minimal(sink)
    }
}

/// The libraries that a dynamic library needs, in the order in which they are added. They are
/// encoded as subsection 2.
///
/// [`DylinkSection::needed`](crate::fallible::DylinkSection::needed) takes it.
///
/// # Examples
///
/// ```
/// use dolzhytik::fallible::{DylinkNeeded, Encode, Global};
///
/// let mut libraries = DylinkNeeded::new(Global);
/// libraries.library("a.so")?;
/// let mut bytes = vec![];
/// libraries.encode(&mut bytes)?;
/// // Subsection 2, size 6: one name, of four bytes.
/// assert_eq!(bytes, *b"\x02\x06\x01\x04a.so");
/// # Ok::<(), dolzhytik::fallible::Refused>(())
/// ```
pub type DylinkNeeded<A = Global> = CountedList<NeededMembers, Pieces<A>>;

/// The kind of the members of a list of libraries: their names.
///
/// # Examples
///
/// ```
/// use dolzhytik::fallible::{DylinkNeeded, Global, ListKind, NeededMembers};
///
/// let list = DylinkNeeded::new(Global);
/// assert_eq!((list.len(), NeededMembers::subsection()), (0, Some(2)));
/// ```
#[derive(Clone, Copy, Debug)]
pub struct NeededMembers;

/// # Defined
///
/// ```text
/// Member = { List ℕ }
/// member_encoding = { size_prefixed_encoding }
/// is_member = { IsEncodableName }
/// subsection = { Some 2 }
/// ```
///
/// Definitions: [`size_prefixed_encoding`](crate::definitions::base::encodings::size_prefixed_encoding), [`IsEncodableName`](crate::definitions::base::laws::IsEncodableName). [How to read clauses](crate::definitions).
impl ListKind for NeededMembers {
    fn subsection() -> Option<u8> {
        Some(2)
    }
}

impl<S: Store> CountedList<NeededMembers, S> {
    /// Adds a library.
    ///
    /// # Errors
    ///
    /// Returns [`TooLong`](crate::fallible::Refused::TooLong) if the builder has 4294967295
    /// entries, or if a count or length would pass 4294967295, and
    /// [`Memory`](crate::fallible::Refused::Memory) if an allocation fails. The builder is then
    /// unchanged.
    ///
    /// # Proved
    ///
    /// The builder gains one entry with this encoding, or the call returns an error and changes nothing. A full builder, with 2^32 - 1 entries, returns `TooLong`.
    ///
    /// ```text
    /// ensures { AddsTo S.model (size_prefixed_encoding name.now)
    ///     (HasEncodableSize name.now) self.old self.new result }
    /// ```
    ///
    /// Definitions: [`AddsTo`](crate::definitions::base::calls::AddsTo), [`size_prefixed_encoding`](crate::definitions::base::encodings::size_prefixed_encoding), [`HasEncodableSize`](crate::definitions::base::encodings::HasEncodableSize). [How to read clauses](crate::definitions).
    pub fn library(&mut self, name: &str) -> Result<()> {
        self.add_record(&name)
    }
}

/// The folders in which the loader searches for libraries, in the order in which they are added.
/// They are encoded as subsection 5.
///
/// [`DylinkSection::runtime_path`](crate::fallible::DylinkSection::runtime_path) takes it.
///
/// # Examples
///
/// ```
/// use dolzhytik::fallible::{DylinkPath, Encode, Global};
///
/// let mut folders = DylinkPath::new(Global);
/// folders.folder("/l")?;
/// let mut bytes = vec![];
/// folders.encode(&mut bytes)?;
/// // Subsection 5, size 4: one path, of two bytes.
/// assert_eq!(bytes, *b"\x05\x04\x01\x02/l");
/// # Ok::<(), dolzhytik::fallible::Refused>(())
/// ```
pub type DylinkPath<A = Global> = CountedList<PathMembers, Pieces<A>>;

/// The kind of the members of a list of folders: their paths.
///
/// # Examples
///
/// ```
/// use dolzhytik::fallible::{DylinkPath, Global, ListKind, PathMembers};
///
/// let list = DylinkPath::new(Global);
/// assert_eq!((list.len(), PathMembers::subsection()), (0, Some(5)));
/// ```
#[derive(Clone, Copy, Debug)]
pub struct PathMembers;

/// # Defined
///
/// ```text
/// Member = { List ℕ }
/// member_encoding = { size_prefixed_encoding }
/// is_member = { IsEncodableName }
/// subsection = { Some 5 }
/// ```
///
/// Definitions: [`size_prefixed_encoding`](crate::definitions::base::encodings::size_prefixed_encoding), [`IsEncodableName`](crate::definitions::base::laws::IsEncodableName). [How to read clauses](crate::definitions).
impl ListKind for PathMembers {
    fn subsection() -> Option<u8> {
        Some(5)
    }
}

impl<S: Store> CountedList<PathMembers, S> {
    /// Adds a folder.
    ///
    /// # Errors
    ///
    /// Returns [`TooLong`](crate::fallible::Refused::TooLong) if the builder has 4294967295
    /// entries, or if a count or length would pass 4294967295, and
    /// [`Memory`](crate::fallible::Refused::Memory) if an allocation fails. The builder is then
    /// unchanged.
    ///
    /// # Proved
    ///
    /// The builder gains one entry with this encoding, or the call returns an error and changes nothing. A full builder, with 2^32 - 1 entries, returns `TooLong`.
    ///
    /// ```text
    /// ensures { AddsTo S.model (size_prefixed_encoding path.now)
    ///     (HasEncodableSize path.now) self.old self.new result }
    /// ```
    ///
    /// Definitions: [`AddsTo`](crate::definitions::base::calls::AddsTo), [`size_prefixed_encoding`](crate::definitions::base::encodings::size_prefixed_encoding), [`HasEncodableSize`](crate::definitions::base::encodings::HasEncodableSize). [How to read clauses](crate::definitions).
    pub fn folder(&mut self, path: &str) -> Result<()> {
        self.add_record(&path)
    }
}

/// Flags of exported symbols, in the order in which they are added. They are encoded as subsection
/// 3.
///
/// [`DylinkSection::exports`](crate::fallible::DylinkSection::exports) takes it.
///
/// # Examples
///
/// ```
/// use dolzhytik::fallible::{DylinkExports, Encode, Global, SymbolTable};
///
/// let mut exports = DylinkExports::new(Global);
/// exports.export("f", SymbolTable::WASM_SYM_BINDING_WEAK)?;
/// let mut bytes = vec![];
/// exports.encode(&mut bytes)?;
/// // Subsection 3, size 4: one export, "f", the flag 1.
/// assert_eq!(bytes, *b"\x03\x04\x01\x01f\x01");
/// # Ok::<(), dolzhytik::fallible::Refused>(())
/// ```
pub type DylinkExports<A = Global> = CountedList<ExportFlagMembers, Pieces<A>>;

/// The kind of the members of a list of flags of exported symbols.
///
/// # Examples
///
/// ```
/// use dolzhytik::fallible::{DylinkExports, ExportFlagMembers, Global, ListKind};
///
/// let list = DylinkExports::new(Global);
/// assert_eq!((list.len(), ExportFlagMembers::subsection()), (0, Some(3)));
/// ```
#[derive(Clone, Copy, Debug)]
pub struct ExportFlagMembers;

/// # Defined
///
/// ```text
/// Member = { ExportModel }
/// member_encoding = { export_flags_encoding }
/// is_member = { IsDylinkExport }
/// subsection = { Some 3 }
/// ```
///
/// Definitions: [`ExportModel`](crate::definitions::custom::dylink::DylinkExport), [`export_flags_encoding`](crate::definitions::custom::dylink::export_flags_encoding), [`IsDylinkExport`](crate::definitions::custom::dylink::IsDylinkExport). [How to read clauses](crate::definitions).
impl ListKind for ExportFlagMembers {
    fn subsection() -> Option<u8> {
        Some(3)
    }
}

impl<S: Store> CountedList<ExportFlagMembers, S> {
    /// Adds the flags of an exported symbol. They are those of a symbol table, such as
    /// `WASM_SYM_BINDING_WEAK`.
    ///
    /// # Errors
    ///
    /// Returns [`TooLong`](crate::fallible::Refused::TooLong) if the builder has 4294967295
    /// entries, or if a count or length would pass 4294967295, and
    /// [`Memory`](crate::fallible::Refused::Memory) if an allocation fails. The builder is then
    /// unchanged.
    ///
    /// # Proved
    ///
    /// The builder gains one entry with this encoding, or the call returns an error and changes nothing. A full builder, with 2^32 - 1 entries, returns `TooLong`.
    ///
    /// ```text
    /// ensures { AddsTo S.model (size_prefixed_encoding name.now ++ unsigned_encoding flags)
    ///     (HasEncodableSize name.now × ⊤) self.old self.new result }
    /// ```
    ///
    /// Definitions: [`AddsTo`](crate::definitions::base::calls::AddsTo), [`size_prefixed_encoding`](crate::definitions::base::encodings::size_prefixed_encoding), [`unsigned_encoding`](crate::definitions::base::numbers::unsigned_encoding), [`HasEncodableSize`](crate::definitions::base::encodings::HasEncodableSize). [How to read clauses](crate::definitions).
    pub fn export(&mut self, name: &str, flags: u32) -> Result<()> {
        self.add_record(&(name, flags))
    }
}

/// The flags of an exported symbol.
///
/// It is an item of [`DylinkItem::ExportFlags`](crate::reader::DylinkItem::ExportFlags).
///
/// # Examples
///
/// ```
/// use dolzhytik::fallible::{DylinkExport, Global};
/// use dolzhytik::reader::{Readable, Standard};
///
/// // "f", the flag 1.
/// let (export, _) =
///     <DylinkExport as Readable<Global, Standard>>::read(b"\x01f\x01", Global)?;
/// assert_eq!((export.name, export.flags), ("f", 1));
/// # Ok::<(), dolzhytik::reader::DecodeError>(())
/// ```
#[derive(Clone, Copy, Debug)]
pub struct DylinkExport<'a> {
    /// The name of the symbol.
    pub name: &'a str,
    /// Flags as those of a symbol table.
    pub flags: u32,
}

/// # Defined
///
/// ```text
/// Value = { ExportModel }
/// format = { export_flags }
/// view = { export_flags_view }
/// ```
///
/// Definitions: [`ExportModel`](crate::definitions::custom::dylink::DylinkExport), [`export_flags`](crate::definitions::custom::dylink::export_flags), [`export_flags_view`](crate::definitions::custom::dylink::export_flags_view). [How to read clauses](crate::definitions).
impl<'a> Layout for DylinkExport<'a> {
    /// # Proved
    ///
    /// A format whose encodings determine their own end is unambiguous in every mode, with encodings as `HasEncodings` states.
    ///
    /// ```text
    /// ensures { Unambiguous export_flags }
    /// ```
    ///
    /// Definitions: [`Unambiguous`](crate::definitions::base::decoding::Unambiguous), [`export_flags`](crate::definitions::custom::dylink::export_flags). [How to read clauses](crate::definitions).
    fn laws() {}
}

/// # Defined
///
/// ```text
/// may_allocate = { ⊥ }
/// ```
///
/// [How to read clauses](crate::definitions).
impl<'a, A: Allocator + Copy, G: Grammar> Readable<'a, A, G> for DylinkExport<'a> {
    fn read(bytes: &'a [u8], alloc: A) -> Result<(DylinkExport<'a>, &'a [u8]), DecodeError> {
        let ((name, flags), rest) = <(&'a str, u32) as Readable<'a, A, G>>::read(bytes, alloc)?;
        Ok((DylinkExport { name, flags }, rest))
    }
}

/// # Defined
///
/// ```text
/// grammars = { both_grammars }
/// ```
///
/// Definitions: [`both_grammars`](crate::definitions::base::minimal::Grammars). [How to read clauses](crate::definitions).
impl<'a> Shorten for DylinkExport<'a> {
    fn write_minimal<B: Sink>(&self, sink: &mut B) -> Result<()> {
        self.name.write_minimal(sink)?;
        self.flags.write_minimal(sink)
    }
}

/// Flags of imported symbols, in the order in which they are added. They are encoded as subsection
/// 4.
///
/// [`DylinkSection::imports`](crate::fallible::DylinkSection::imports) takes it.
///
/// # Examples
///
/// ```
/// use dolzhytik::fallible::{DylinkImports, Encode, Global, SymbolTable};
///
/// let mut imports = DylinkImports::new(Global);
/// imports.import("env", "g", SymbolTable::WASM_SYM_BINDING_WEAK)?;
/// let mut bytes = vec![];
/// imports.encode(&mut bytes)?;
/// // Subsection 4, size 8: one import, "env" and "g", the flag 1.
/// assert_eq!(bytes, *b"\x04\x08\x01\x03env\x01g\x01");
/// # Ok::<(), dolzhytik::fallible::Refused>(())
/// ```
pub type DylinkImports<A = Global> = CountedList<ImportFlagMembers, Pieces<A>>;

/// The kind of the members of a list of flags of imported symbols.
///
/// # Examples
///
/// ```
/// use dolzhytik::fallible::{DylinkImports, Global, ImportFlagMembers, ListKind};
///
/// let list = DylinkImports::new(Global);
/// assert_eq!((list.len(), ImportFlagMembers::subsection()), (0, Some(4)));
/// ```
#[derive(Clone, Copy, Debug)]
pub struct ImportFlagMembers;

/// # Defined
///
/// ```text
/// Member = { ImportModel }
/// member_encoding = { import_flags_encoding }
/// is_member = { IsDylinkImport }
/// subsection = { Some 4 }
/// ```
///
/// Definitions: [`ImportModel`](crate::definitions::custom::dylink::DylinkImport), [`import_flags_encoding`](crate::definitions::custom::dylink::import_flags_encoding), [`IsDylinkImport`](crate::definitions::custom::dylink::IsDylinkImport). [How to read clauses](crate::definitions).
impl ListKind for ImportFlagMembers {
    fn subsection() -> Option<u8> {
        Some(4)
    }
}

impl<S: Store> CountedList<ImportFlagMembers, S> {
    /// Adds the flags of an imported symbol. They are those of a symbol table, such as
    /// `WASM_SYM_BINDING_WEAK`.
    ///
    /// # Errors
    ///
    /// Returns [`TooLong`](crate::fallible::Refused::TooLong) if the builder has 4294967295
    /// entries, or if a count or length would pass 4294967295, and
    /// [`Memory`](crate::fallible::Refused::Memory) if an allocation fails. The builder is then
    /// unchanged.
    ///
    /// # Proved
    ///
    /// The builder gains one entry with this encoding, or the call returns an error and changes nothing. A full builder, with 2^32 - 1 entries, returns `TooLong`.
    ///
    /// ```text
    /// ensures { AddsTo S.model
    ///     (size_prefixed_encoding module_name.now
    ///         ++ (size_prefixed_encoding name.now ++ unsigned_encoding flags))
    ///     (HasEncodableSize module_name.now × HasEncodableSize name.now × ⊤) self.old self.new
    ///     result }
    /// ```
    ///
    /// Definitions: [`AddsTo`](crate::definitions::base::calls::AddsTo), [`size_prefixed_encoding`](crate::definitions::base::encodings::size_prefixed_encoding), [`unsigned_encoding`](crate::definitions::base::numbers::unsigned_encoding), [`HasEncodableSize`](crate::definitions::base::encodings::HasEncodableSize). [How to read clauses](crate::definitions).
    pub fn import(&mut self, module_name: &str, name: &str, flags: u32) -> Result<()> {
        self.add_record(&(module_name, (name, flags)))
    }
}

/// The flags of an imported symbol.
///
/// It is an item of [`DylinkItem::ImportFlags`](crate::reader::DylinkItem::ImportFlags).
///
/// # Examples
///
/// ```
/// use dolzhytik::fallible::{DylinkImport, Global};
/// use dolzhytik::reader::{Readable, Standard};
///
/// // "env", "g", the flag 1.
/// let (import, _) =
///     <DylinkImport as Readable<Global, Standard>>::read(b"\x03env\x01g\x01", Global)?;
/// assert_eq!((import.module_name, import.name, import.flags), ("env", "g", 1));
/// # Ok::<(), dolzhytik::reader::DecodeError>(())
/// ```
#[derive(Clone, Copy, Debug)]
pub struct DylinkImport<'a> {
    /// The name of the module that the symbol is imported from.
    pub module_name: &'a str,
    /// The name of the symbol.
    pub name: &'a str,
    /// Flags as those of a symbol table.
    pub flags: u32,
}

/// # Defined
///
/// ```text
/// Value = { ImportModel }
/// format = { import_flags }
/// view = { import_flags_view }
/// ```
///
/// Definitions: [`ImportModel`](crate::definitions::custom::dylink::DylinkImport), [`import_flags`](crate::definitions::custom::dylink::import_flags), [`import_flags_view`](crate::definitions::custom::dylink::import_flags_view). [How to read clauses](crate::definitions).
impl<'a> Layout for DylinkImport<'a> {
    /// # Proved
    ///
    /// A format whose encodings determine their own end is unambiguous in every mode, with encodings as `HasEncodings` states.
    ///
    /// ```text
    /// ensures { Unambiguous import_flags }
    /// ```
    ///
    /// Definitions: [`Unambiguous`](crate::definitions::base::decoding::Unambiguous), [`import_flags`](crate::definitions::custom::dylink::import_flags). [How to read clauses](crate::definitions).
    fn laws() {}
}

/// # Defined
///
/// ```text
/// may_allocate = { ⊥ }
/// ```
///
/// [How to read clauses](crate::definitions).
impl<'a, A: Allocator + Copy, G: Grammar> Readable<'a, A, G> for DylinkImport<'a> {
    fn read(bytes: &'a [u8], alloc: A) -> Result<(DylinkImport<'a>, &'a [u8]), DecodeError> {
        let ((module_name, (name, flags)), rest) = <(&'a str, (&'a str, u32)) as Readable<
            'a,
            A,
            G,
        >>::read(bytes, alloc)?;
        let import = DylinkImport {
            module_name,
            name,
            flags,
        };
        Ok((import, rest))
    }
}

/// # Defined
///
/// ```text
/// grammars = { both_grammars }
/// ```
///
/// Definitions: [`both_grammars`](crate::definitions::base::minimal::Grammars). [How to read clauses](crate::definitions).
impl<'a> Shorten for DylinkImport<'a> {
    fn write_minimal<B: Sink>(&self, sink: &mut B) -> Result<()> {
        self.module_name.write_minimal(sink)?;
        self.name.write_minimal(sink)?;
        self.flags.write_minimal(sink)
    }
}
