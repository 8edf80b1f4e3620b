// Written by tools/to-rust from crates/wasm_custom/src/symbols.rt: change that.
// The symbol table of a linking section: its builder, its reader and its minimizer.

use crate::vec::Sink;
use crate::custom::lists::{CountedList, ListKind};
use crate::custom::standard::require_standard;
use crate::alloc::{Allocator, Global};
use crate::base::laws::plain_name;
use crate::base::{DecodeError, Encode, Grammar, Layout, Optional, Pieces, ReadFault, Readable, Result, Shorten, Store, read_optional};

/// A symbol table: the symbols of a module, in the order in which they are added. It is encoded as
/// subsection 8 of a linking section. `ObjectSymbols` has further kinds of symbols.
///
/// ```
/// # fn example() -> Result<(), Box<dyn std::error::Error>> {
/// # use dolzhytik::{fallible::*, reader::*};
/// use dolzhytik::fallible::{Global, SymbolTable};
///
/// let mut symbols = SymbolTable::new(Global);
/// symbols.function(SymbolTable::WASM_SYM_EXPORTED, 0, Some("f"))?;
/// # Ok(())
/// # }
/// # example().unwrap();
/// ```
pub type SymbolTable<A = Global> = CountedList<SymbolMembers, Pieces<A>>;

/// The kind of a symbol table's members.
///
/// # Examples
///
/// ```
/// use dolzhytik::fallible::{Global, ListKind, SymbolMembers, SymbolTable};
///
/// let list = SymbolTable::new(Global);
/// assert_eq!((list.len(), SymbolMembers::subsection()), (0, Some(8)));
/// ```
#[derive(Clone, Copy, Debug)]
pub struct SymbolMembers;

/// # Defined
///
/// ```text
/// Member = { SymbolModel }
/// member_encoding = { symbol_encoding }
/// is_member = { IsGivenSymbol }
/// subsection = { Some 8 }
/// ```
///
/// Definitions: [`SymbolModel`](crate::definitions::custom::symbols::Symbol), [`symbol_encoding`](crate::definitions::custom::symbols::symbol_encoding), [`IsGivenSymbol`](crate::definitions::custom::symbols::IsGivenSymbol). [How to read clauses](crate::definitions).
impl ListKind for SymbolMembers {
    fn subsection() -> Option<u8> {
        Some(8)
    }
}

/// The bytes of a data symbol, which [`SymbolTable::data`](crate::SymbolTable::data) takes.
///
/// The tool conventions define it in
/// [Linking](https://github.com/WebAssembly/tool-conventions/blob/main/Linking.md).
///
/// # Examples
///
/// ```
/// use dolzhytik::{DataSymbolDefinition, Encode, SymbolTable};
///
/// let mut symbols = SymbolTable::new();
/// symbols.data(0, "d", Some(DataSymbolDefinition { index: 2, offset: 16, size: 8 }));
/// let mut bytes = Vec::new();
/// symbols.encode(&mut bytes);
/// // Subsection 8, size 8, one symbol: data (1), no flags, "d", segment 2, offset 16, size 8.
/// assert_eq!(bytes, [8, 8, 1, 1, 0, 1, b'd', 2, 16, 8]);
/// ```
#[derive(Clone, Debug)]
pub struct DataSymbolDefinition {
    /// The index of the data segment.
    pub index: u32,
    /// The offset of the bytes in the segment.
    pub offset: u32,
    /// The number of bytes.
    pub size: u32,
}

/// Encodes the index, the offset and the size.
///
/// # Defined
///
/// ```text
/// encoding = { definition_encoding }
/// encodable = { λ _. ⊤ }
/// ```
///
/// Definitions: [`definition_encoding`](crate::definitions::custom::symbols::definition_encoding). [How to read clauses](crate::definitions).
impl Encode for DataSymbolDefinition {
    fn encode<A: Sink>(&self, sink: &mut A) -> Result<()> {
        (self.index, self.offset, self.size).encode(sink)
    }
}

/// The kind of a symbol with an index.
///
/// # Examples
///
/// ```
/// use dolzhytik::fallible::{Encode, SymbolKind};
///
/// let mut bytes = vec![];
/// SymbolKind::Table.encode(&mut bytes)?;
/// assert_eq!(bytes, [0x05]);
/// # Ok::<(), dolzhytik::fallible::Refused>(())
/// ```
#[derive(Clone, Copy, Debug)]
#[non_exhaustive]
pub enum SymbolKind {
    /// A function: 00.
    Function = 0x00,
    /// A global: 02.
    Global = 0x02,
    /// A tag: 04.
    Tag = 0x04,
    /// A table: 05.
    Table = 0x05,
}

/// Encodes the kind as one byte.
///
/// # Defined
///
/// ```text
/// encoding = { λ kind. kind_code kind ∷ [] }
/// encodable = { λ _. ⊤ }
/// ```
///
/// Definitions: [`kind_code`](crate::definitions::custom::symbols::kind_code). [How to read clauses](crate::definitions).
impl Encode for SymbolKind {
    fn encode<A: Sink>(&self, sink: &mut A) -> Result<()> {
        (*self as u8).encode(sink)
    }
}

/// Proves that a name, if there is one, is UTF-8. The function does nothing.
#[inline]
pub(crate) fn given_name(name: Option<&str>) {
    if let Some(name) = name {
        plain_name(name);
    }
}

/// Proves that the numbers of a definition, if there is one, are in range. The function does
/// nothing.
#[inline]
pub(crate) fn given_definition(definition: Option<DataSymbolDefinition>) {
    if let Some(given) = definition {
        let _ = (given.index, given.offset, given.size);
    }
}

/// Flags of symbols.
impl SymbolTable {
    /// A definition elsewhere replaces this one.
    pub const WASM_SYM_BINDING_WEAK: u32 = 0x1;
    /// The symbol is visible in this module only.
    pub const WASM_SYM_BINDING_LOCAL: u32 = 0x2;
    /// The symbol is not exported from the linked module.
    pub const WASM_SYM_VISIBILITY_HIDDEN: u32 = 0x4;
    /// The symbol is not defined in this module.
    pub const WASM_SYM_UNDEFINED: u32 = 0x10;
    /// The symbol is exported from the linked module.
    pub const WASM_SYM_EXPORTED: u32 = 0x20;
    /// The symbol has an explicit name, even if it is imported.
    pub const WASM_SYM_EXPLICIT_NAME: u32 = 0x40;
    /// The symbol stays in the linked module, even if nothing uses it.
    pub const WASM_SYM_NO_STRIP: u32 = 0x80;
}

// The flags of symbols. Tool conventions, Linking, Linking Metadata Section.
const _: () = assert!(<SymbolTable>::WASM_SYM_BINDING_WEAK == 0x1);

const _: () = assert!(<SymbolTable>::WASM_SYM_BINDING_LOCAL == 0x2);

const _: () = assert!(<SymbolTable>::WASM_SYM_VISIBILITY_HIDDEN == 0x4);

const _: () = assert!(<SymbolTable>::WASM_SYM_UNDEFINED == 0x10);

const _: () = assert!(<SymbolTable>::WASM_SYM_EXPORTED == 0x20);

const _: () = assert!(<SymbolTable>::WASM_SYM_EXPLICIT_NAME == 0x40);

const _: () = assert!(<SymbolTable>::WASM_SYM_NO_STRIP == 0x80);

impl<S: Store> CountedList<SymbolMembers, S> {
    /// Adds a symbol with an index, of a kind that the builders' grammar has.
    fn indexed(
        &mut self,
        kind: SymbolKind,
        flags: u32,
        index: u32,
        name: Option<&str>,
    ) -> Result<()> {
        given_name(name);
        self.add_record(&((kind, flags), index, Optional(name)))
    }

    /// Adds a function. A function has a name if it is defined here, or if `flags` say that its
    /// name is explicit. The call does not check that `name` agrees.
    ///
    /// # Errors
    ///
    /// Returns [`TooLong`](crate::fallible::Refused::TooLong) if the builder has 4294967295
    /// entries, or if a count or length would pass 4294967295, and
    /// [`Memory`](crate::fallible::Refused::Memory) if an allocation fails. The builder is then
    /// unchanged.
    ///
    /// # Examples
    ///
    /// ```
    /// use dolzhytik::fallible::{Encode, Global, SymbolTable};
    ///
    /// let mut symbols = SymbolTable::new(Global);
    /// symbols.function(0, 5, Some("f"))?;
    /// let mut bytes = Vec::new();
    /// symbols.encode(&mut bytes)?;
    /// // Subsection 8, size 6, one symbol: a function (0), no flags, the index 5, "f".
    /// assert_eq!(bytes, [8, 6, 1, 0, 0, 5, 1, b'f']);
    /// # Ok::<(), dolzhytik::fallible::Refused>(())
    /// ```
    ///
    /// # Proved
    ///
    /// The builder gains one entry with this encoding, or the call returns an error and changes nothing. A full builder, with 2^32 - 1 entries, returns `TooLong`.
    ///
    /// ```text
    /// ensures { AddsTo S.model
    ///     (indexed_encoding kinds.Function flags index
    ///         (optional_encoding (λ n. size_prefixed_encoding n.now) name.entry))
    ///     (IfSome name.entry (λ n. HasEncodableSize n.now)) self.old self.new result }
    /// ```
    ///
    /// Definitions: [`AddsTo`](crate::definitions::base::calls::AddsTo), [`indexed_encoding`](crate::definitions::custom::symbols::indexed_encoding), [`optional_encoding`](crate::definitions::base::encodings::optional_encoding), [`size_prefixed_encoding`](crate::definitions::base::encodings::size_prefixed_encoding), [`HasEncodableSize`](crate::definitions::base::encodings::HasEncodableSize). [How to read clauses](crate::definitions).
    pub fn function(&mut self, flags: u32, index: u32, name: Option<&str>) -> Result<()> {
        self.indexed(SymbolKind::Function, flags, index, name)
    }

    /// Adds a global. It has a name in the same cases as in `function`.
    ///
    /// # Errors
    ///
    /// Returns [`TooLong`](crate::fallible::Refused::TooLong) if the builder has 4294967295
    /// entries, or if a count or length would pass 4294967295, and
    /// [`Memory`](crate::fallible::Refused::Memory) if an allocation fails. The builder is then
    /// unchanged.
    ///
    /// # Proved
    ///
    /// The builder gains one entry with this encoding, or the call returns an error and changes nothing. A full builder, with 2^32 - 1 entries, returns `TooLong`.
    ///
    /// ```text
    /// ensures { AddsTo S.model
    ///     (indexed_encoding kinds.Global flags index
    ///         (optional_encoding (λ n. size_prefixed_encoding n.now) name.entry))
    ///     (IfSome name.entry (λ n. HasEncodableSize n.now)) self.old self.new result }
    /// ```
    ///
    /// Definitions: [`AddsTo`](crate::definitions::base::calls::AddsTo), [`indexed_encoding`](crate::definitions::custom::symbols::indexed_encoding), [`optional_encoding`](crate::definitions::base::encodings::optional_encoding), [`size_prefixed_encoding`](crate::definitions::base::encodings::size_prefixed_encoding), [`HasEncodableSize`](crate::definitions::base::encodings::HasEncodableSize). [How to read clauses](crate::definitions).
    pub fn global(&mut self, flags: u32, index: u32, name: Option<&str>) -> Result<()> {
        self.indexed(SymbolKind::Global, flags, index, name)
    }

    /// Adds a table. It has a name in the same cases as in `function`.
    ///
    /// # Errors
    ///
    /// Returns [`TooLong`](crate::fallible::Refused::TooLong) if the builder has 4294967295
    /// entries, or if a count or length would pass 4294967295, and
    /// [`Memory`](crate::fallible::Refused::Memory) if an allocation fails. The builder is then
    /// unchanged.
    ///
    /// # Proved
    ///
    /// The builder gains one entry with this encoding, or the call returns an error and changes nothing. A full builder, with 2^32 - 1 entries, returns `TooLong`.
    ///
    /// ```text
    /// ensures { AddsTo S.model
    ///     (indexed_encoding kinds.Table flags index
    ///         (optional_encoding (λ n. size_prefixed_encoding n.now) name.entry))
    ///     (IfSome name.entry (λ n. HasEncodableSize n.now)) self.old self.new result }
    /// ```
    ///
    /// Definitions: [`AddsTo`](crate::definitions::base::calls::AddsTo), [`indexed_encoding`](crate::definitions::custom::symbols::indexed_encoding), [`optional_encoding`](crate::definitions::base::encodings::optional_encoding), [`size_prefixed_encoding`](crate::definitions::base::encodings::size_prefixed_encoding), [`HasEncodableSize`](crate::definitions::base::encodings::HasEncodableSize). [How to read clauses](crate::definitions).
    pub fn table(&mut self, flags: u32, index: u32, name: Option<&str>) -> Result<()> {
        self.indexed(SymbolKind::Table, flags, index, name)
    }

    /// Adds data. Data have a definition unless `flags` say that they are undefined. The call does
    /// not check that `definition` agrees.
    ///
    /// # Errors
    ///
    /// Returns [`TooLong`](crate::fallible::Refused::TooLong) if the builder has 4294967295
    /// entries, or if a count or length would pass 4294967295, and
    /// [`Memory`](crate::fallible::Refused::Memory) if an allocation fails. The builder is then
    /// unchanged.
    ///
    /// # Proved
    ///
    /// The builder gains one entry with this encoding, or the call returns an error and changes nothing. A full builder, with 2^32 - 1 entries, returns `TooLong`.
    ///
    /// ```text
    /// ensures { AddsTo S.model
    ///     (of_data_encoding flags name.now (optional_encoding definition_encoding definition))
    ///     (HasEncodableSize name.now) self.old self.new result }
    /// ```
    ///
    /// Definitions: [`AddsTo`](crate::definitions::base::calls::AddsTo), [`of_data_encoding`](crate::definitions::custom::symbols::of_data_encoding), [`optional_encoding`](crate::definitions::base::encodings::optional_encoding), [`definition_encoding`](crate::definitions::custom::symbols::definition_encoding), [`HasEncodableSize`](crate::definitions::base::encodings::HasEncodableSize). [How to read clauses](crate::definitions).
    pub fn data(
        &mut self,
        flags: u32,
        name: &str,
        definition: Option<DataSymbolDefinition>,
    ) -> Result<()> {
        given_definition(definition.clone());
        self.add_record(&((0x01u8, flags), name, Optional(definition)))
    }
}

/// A decoded symbol. If its flags say that it has no explicit name, its name is that of the import.
///
/// [`LinkItem::Symbols`](crate::reader::LinkItem::Symbols) has them.
///
/// # Examples
///
/// ```
/// use dolzhytik::fallible::Global;
/// use dolzhytik::reader::{Padded, Readable, Symbol};
///
/// // A data symbol (1), undefined (10), "d".
/// let (symbol, _) =
///     <Symbol as Readable<Global, Padded>>::read(&[1, 0x10, 1, b'd'], Global)?;
/// assert!(matches!(symbol, Symbol::DataSymbol { name: "d", definition: None, .. }));
/// # Ok::<(), dolzhytik::reader::DecodeError>(())
/// ```
#[derive(Clone, Debug)]
#[non_exhaustive]
pub enum Symbol<'a> {
    /// A function.
    Function {
        /// The flags.
        flags: u32,
        /// The index of the function.
        index: u32,
        /// The name, unless it is that of the import.
        name: Option<&'a str>,
    },
    /// A global.
    Global {
        /// The flags.
        flags: u32,
        /// The index of the global.
        index: u32,
        /// The name, unless it is that of the import.
        name: Option<&'a str>,
    },
    /// A table.
    Table {
        /// The flags.
        flags: u32,
        /// The index of the table.
        index: u32,
        /// The name, unless it is that of the import.
        name: Option<&'a str>,
    },
    /// Bytes of a data segment.
    DataSymbol {
        /// The flags.
        flags: u32,
        /// The name.
        name: &'a str,
        /// `None` if the flags say that the data are not defined in this module.
        definition: Option<DataSymbolDefinition>,
    },
    /// A section, which only the standard's grammar has as a symbol.
    Section {
        /// The flags.
        flags: u32,
        /// The index of the section in the module.
        section: u32,
    },
    /// A tag, which only the standard's grammar has as a symbol.
    Tag {
        /// The flags.
        flags: u32,
        /// The index of the tag.
        index: u32,
        /// The name, unless it is that of the import.
        name: Option<&'a str>,
    },
}

/// Returns `true` if the flags say that the encoding of a symbol with an index has a name.
fn has_name(flags: u32) -> bool {
    let undefined = flags / SymbolTable::WASM_SYM_UNDEFINED % 2 == 1;
    let explicit = flags / SymbolTable::WASM_SYM_EXPLICIT_NAME % 2 == 1;
    !(undefined && !explicit)
}

/// Returns `true` if the flags say that the encoding of a data symbol has a definition.
fn has_definition(flags: u32) -> bool {
    let undefined = flags / SymbolTable::WASM_SYM_UNDEFINED % 2 == 1;
    !undefined
}

/// Decodes a symbol with an index, after the byte of its kind.
fn read_indexed<'a, A: Allocator + Copy, G: Grammar>(
    kind: SymbolKind,
    bytes: &'a [u8],
    alloc: A,
) -> Result<(Symbol<'a>, &'a [u8]), DecodeError> {
    let (flags, rest) = <u32 as Readable<'a, A, G>>::read(bytes, alloc)?;
    let (index, rest) = <u32 as Readable<'a, A, G>>::read(rest, alloc)?;
    let (name, rest) = read_optional::<'a, &'a str, A, G>(has_name(flags), rest, alloc)?;
    let symbol = match kind {
        SymbolKind::Function => Symbol::Function { flags, index, name },
        SymbolKind::Global => Symbol::Global { flags, index, name },
        SymbolKind::Tag => Symbol::Tag { flags, index, name },
        SymbolKind::Table => Symbol::Table { flags, index, name },
    };
    Ok((symbol, rest))
}

/// # Defined
///
/// ```text
/// Value = { DefinitionModel }
/// format = { definition_format }
/// view = { λ definition. definition }
/// ```
///
/// Definitions: [`definition_format`](crate::definitions::custom::symbols::definition). [How to read clauses](crate::definitions).
impl Layout for DataSymbolDefinition {
    fn laws() {}
}

/// # Defined
///
/// ```text
/// may_allocate = { ⊥ }
/// ```
///
/// [How to read clauses](crate::definitions).
impl<'a, A: Allocator + Copy, G: Grammar> Readable<'a, A, G> for DataSymbolDefinition {
    fn read(bytes: &'a [u8], alloc: A) -> Result<(DataSymbolDefinition, &'a [u8]), DecodeError> {
        let ((index, (offset, size)), rest) = <(u32, (u32, u32)) as Readable<'a, A, G>>::read(
            bytes, alloc,
        )?;
        let definition = DataSymbolDefinition {
            index,
            offset,
            size,
        };
        Ok((definition, rest))
    }
}

/// Decodes a definition if the flag is set, and returns `None` otherwise.
fn read_definition<'a, A: Allocator + Copy, G: Grammar>(
    given: bool,
    bytes: &'a [u8],
    alloc: A,
) -> Result<(Option<DataSymbolDefinition>, &'a [u8]), DecodeError> {
    if given {
        let (definition, rest) = <DataSymbolDefinition as Readable<'a, A, G>>::read(bytes, alloc)?;
        Ok((Some(definition), rest))
    } else {
        Ok((None, bytes))
    }
}

/// Decodes a data symbol, after the byte of its kind.
fn read_data<'a, A: Allocator + Copy, G: Grammar>(
    bytes: &'a [u8],
    alloc: A,
) -> Result<(Symbol<'a>, &'a [u8]), DecodeError> {
    let (flags, rest) = <u32 as Readable<'a, A, G>>::read(bytes, alloc)?;
    let (name, rest) = <&'a str as Readable<'a, A, G>>::read(rest, alloc)?;
    let (definition, rest) = read_definition::<A, G>(has_definition(flags), rest, alloc)?;
    Ok((
        Symbol::DataSymbol {
            flags,
            name,
            definition,
        },
        rest,
    ))
}

/// Decodes a section symbol, after the byte of its kind.
fn read_section<'a, A: Allocator + Copy, G: Grammar>(
    bytes: &'a [u8],
    alloc: A,
) -> Result<(Symbol<'a>, &'a [u8]), DecodeError> {
    let (flags, rest) = <u32 as Readable<'a, A, G>>::read(bytes, alloc)?;
    let (section, rest) = <u32 as Readable<'a, A, G>>::read(rest, alloc)?;
    Ok((Symbol::Section { flags, section }, rest))
}

/// # Defined
///
/// ```text
/// Value = { SymbolModel }
/// format = { symbol }
/// view = { symbol_view }
/// ```
///
/// Definitions: [`SymbolModel`](crate::definitions::custom::symbols::Symbol), [`symbol`](crate::definitions::custom::symbols::symbol), [`symbol_view`](crate::definitions::custom::symbols::symbol_view). [How to read clauses](crate::definitions).
impl<'a> Layout for Symbol<'a> {
    /// # Proved
    ///
    /// A format whose encodings determine their own end is unambiguous in every mode, with encodings as `HasEncodings` states.
    ///
    /// ```text
    /// ensures { Unambiguous symbol }
    /// ```
    ///
    /// Definitions: [`Unambiguous`](crate::definitions::base::decoding::Unambiguous), [`symbol`](crate::definitions::custom::symbols::symbol). [How to read clauses](crate::definitions).
    fn laws() {}
}

/// # Defined
///
/// ```text
/// may_allocate = { ⊥ }
/// ```
///
/// [How to read clauses](crate::definitions).
impl<'a, A: Allocator + Copy, G: Grammar> Readable<'a, A, G> for Symbol<'a> {
    fn read(bytes: &'a [u8], alloc: A) -> Result<(Symbol<'a>, &'a [u8]), DecodeError> {
        let (kind, rest) = <u8 as Readable<'a, A, G>>::read(bytes, alloc)?;
        match kind {
            0x00 => {
                let (symbol, rest) = read_indexed::<A, G>(SymbolKind::Function, rest, alloc)?;
                Ok((symbol, rest))
            }
            0x01 => {
                let (symbol, rest) = read_data::<A, G>(rest, alloc)?;
                Ok((symbol, rest))
            }
            0x02 => {
                let (symbol, rest) = read_indexed::<A, G>(SymbolKind::Global, rest, alloc)?;
                Ok((symbol, rest))
            }
            0x03 => {
                require_standard::<G>(rest)?;
                let (symbol, rest) = read_section::<A, G>(rest, alloc)?;
                Ok((symbol, rest))
            }
            0x04 => {
                require_standard::<G>(rest)?;
                let (symbol, rest) = read_indexed::<A, G>(SymbolKind::Tag, rest, alloc)?;
                Ok((symbol, rest))
            }
            0x05 => {
                let (symbol, rest) = read_indexed::<A, G>(SymbolKind::Table, rest, alloc)?;
                Ok((symbol, rest))
            }
            _ => Err(ReadFault::UnknownTag.just_before(rest)),
        }
    }
}

/// Appends the name if the flags say that the encoding has one.
fn append_name<B: Sink>(flags: u32, name: Option<&str>, sink: &mut B) -> Result<()> {
    match name {
        Some(name) => name.write_minimal(sink),
        None => Ok(()),
    }
}

/// Appends a symbol with an index, whose kind is a byte.
fn append_indexed<B: Sink>(
    kind: SymbolKind,
    flags: u32,
    index: u32,
    name: Option<&str>,
    sink: &mut B,
) -> Result<()> {
    kind.encode(sink)?;
    flags.write_minimal(sink)?;
    index.write_minimal(sink)?;
    append_name(flags, name, sink)
}

/// Appends the definition if the flags say that the encoding has one.
fn append_definition<B: Sink>(
    flags: u32,
    definition: Option<DataSymbolDefinition>,
    sink: &mut B,
) -> Result<()> {
    match definition {
        Some(definition) => definition.encode(sink),
        None => Ok(()),
    }
}

/// Appends a data symbol, whose kind is 01.
fn append_data<B: Sink>(
    flags: u32,
    name: &str,
    definition: Option<DataSymbolDefinition>,
    sink: &mut B,
) -> Result<()> {
    0x01u8.encode(sink)?;
    flags.write_minimal(sink)?;
    name.write_minimal(sink)?;
    append_definition(flags, definition, sink)
}

/// Appends a section symbol, whose kind is 03.
fn append_section<B: Sink>(flags: u32, section: u32, sink: &mut B) -> Result<()> {
    0x03u8.encode(sink)?;
    flags.write_minimal(sink)?;
    section.write_minimal(sink)
}

/// # Defined
///
/// ```text
/// grammars = { both_grammars }
/// ```
///
/// Definitions: [`both_grammars`](crate::definitions::base::minimal::Grammars). [How to read clauses](crate::definitions).
impl<'a> Shorten for Symbol<'a> {
    fn write_minimal<B: Sink>(&self, sink: &mut B) -> Result<()> {
        match self.clone() {
            Symbol::Function { flags, index, name } => {
                append_indexed(SymbolKind::Function, flags, index, name, sink)
            }
            Symbol::Global { flags, index, name } => {
                append_indexed(SymbolKind::Global, flags, index, name, sink)
            }
            Symbol::Table { flags, index, name } => {
                append_indexed(SymbolKind::Table, flags, index, name, sink)
            }
            Symbol::DataSymbol {
                flags,
                name,
                definition,
            } => append_data(flags, name, definition, sink),
            Symbol::Section { flags, section } => append_section(flags, section, sink),
            Symbol::Tag { flags, index, name } => {
                append_indexed(SymbolKind::Tag, flags, index, name, sink)
            }
        }
    }
}
