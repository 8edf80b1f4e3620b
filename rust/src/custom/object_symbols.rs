// Written by tools/to-rust from crates/wasm_custom/src/object_symbols.rt: change that.
// The symbol table of an object file, which has symbols of all kinds: its builder.

use crate::custom::lists::{CountedList, ListKind};
use crate::custom::symbols::{DataSymbolDefinition, SymbolKind, given_definition, given_name};
use crate::alloc::Global;
use crate::base::{Optional, Pieces, Result, Store};

/// The symbol table of an object file: symbols of all kinds of the tool conventions, in the order
/// in which they are added. It is encoded as subsection 8 of a linking section. `SymbolTable` names
/// the flags.
///
/// ```
/// # fn example() -> Result<(), Box<dyn std::error::Error>> {
/// # use dolzhytik::{fallible::*, reader::*};
/// use dolzhytik::fallible::{Global, ObjectSymbols, SymbolTable};
///
/// let mut symbols = ObjectSymbols::new(Global);
/// symbols.function(SymbolTable::WASM_SYM_EXPORTED, 0, Some("f"))?;
/// symbols.section(SymbolTable::WASM_SYM_BINDING_LOCAL, 8)?;
/// # Ok(())
/// # }
/// # example().unwrap();
/// ```
pub type ObjectSymbols<A = Global> = CountedList<ObjectSymbolMembers, Pieces<A>>;

/// The kind of the members of an object file's symbol table.
///
/// # Examples
///
/// ```
/// use dolzhytik::fallible::{Global, ListKind, ObjectSymbolMembers, ObjectSymbols};
///
/// let list = ObjectSymbols::new(Global);
/// assert_eq!((list.len(), ObjectSymbolMembers::subsection()), (0, Some(8)));
/// ```
#[derive(Clone, Copy, Debug)]
pub struct ObjectSymbolMembers;

/// # Defined
///
/// ```text
/// Member = { SymbolModel }
/// member_encoding = { symbol_encoding }
/// is_member = { IsFullSymbol }
/// subsection = { Some 8 }
/// ```
///
/// Definitions: [`SymbolModel`](crate::definitions::custom::symbols::Symbol), [`symbol_encoding`](crate::definitions::custom::symbols::symbol_encoding), [`IsFullSymbol`](crate::definitions::custom::symbols::IsFullSymbol). [How to read clauses](crate::definitions).
impl ListKind for ObjectSymbolMembers {
    fn subsection() -> Option<u8> {
        Some(8)
    }
}

impl<S: Store> CountedList<ObjectSymbolMembers, S> {
    /// Adds a symbol with an index.
    fn indexed(
        &mut self,
        kind: SymbolKind,
        flags: u32,
        index: u32,
        name: Option<&str>,
    ) -> Result<()> {
        given_name(name);
        self.add_record(&((kind, flags), index, Optional(name)))
    }

    /// Adds a function. A function has a name if it is defined here, or if `flags` say that its
    /// name is explicit. The call does not check that `name` agrees.
    ///
    /// # Errors
    ///
    /// Returns [`TooLong`](crate::fallible::Refused::TooLong) if the builder has 4294967295
    /// entries, or if a count or length would pass 4294967295, and
    /// [`Memory`](crate::fallible::Refused::Memory) if an allocation fails. The builder is then
    /// unchanged.
    ///
    /// # Proved
    ///
    /// The builder gains one entry with this encoding, or the call returns an error and changes nothing. A full builder, with 2^32 - 1 entries, returns `TooLong`.
    ///
    /// ```text
    /// ensures { AddsTo S.model
    ///     (indexed_encoding kinds.Function flags index
    ///         (optional_encoding (λ n. size_prefixed_encoding n.now) name.entry))
    ///     (IfSome name.entry (λ n. HasEncodableSize n.now)) self.old self.new result }
    /// ```
    ///
    /// Definitions: [`AddsTo`](crate::definitions::base::calls::AddsTo), [`indexed_encoding`](crate::definitions::custom::symbols::indexed_encoding), [`optional_encoding`](crate::definitions::base::encodings::optional_encoding), [`size_prefixed_encoding`](crate::definitions::base::encodings::size_prefixed_encoding), [`HasEncodableSize`](crate::definitions::base::encodings::HasEncodableSize). [How to read clauses](crate::definitions).
    pub fn function(&mut self, flags: u32, index: u32, name: Option<&str>) -> Result<()> {
        self.indexed(SymbolKind::Function, flags, index, name)
    }

    /// Adds a global. It has a name in the same cases as in `function`.
    ///
    /// # Errors
    ///
    /// Returns [`TooLong`](crate::fallible::Refused::TooLong) if the builder has 4294967295
    /// entries, or if a count or length would pass 4294967295, and
    /// [`Memory`](crate::fallible::Refused::Memory) if an allocation fails. The builder is then
    /// unchanged.
    ///
    /// # Proved
    ///
    /// The builder gains one entry with this encoding, or the call returns an error and changes nothing. A full builder, with 2^32 - 1 entries, returns `TooLong`.
    ///
    /// ```text
    /// ensures { AddsTo S.model
    ///     (indexed_encoding kinds.Global flags index
    ///         (optional_encoding (λ n. size_prefixed_encoding n.now) name.entry))
    ///     (IfSome name.entry (λ n. HasEncodableSize n.now)) self.old self.new result }
    /// ```
    ///
    /// Definitions: [`AddsTo`](crate::definitions::base::calls::AddsTo), [`indexed_encoding`](crate::definitions::custom::symbols::indexed_encoding), [`optional_encoding`](crate::definitions::base::encodings::optional_encoding), [`size_prefixed_encoding`](crate::definitions::base::encodings::size_prefixed_encoding), [`HasEncodableSize`](crate::definitions::base::encodings::HasEncodableSize). [How to read clauses](crate::definitions).
    pub fn global(&mut self, flags: u32, index: u32, name: Option<&str>) -> Result<()> {
        self.indexed(SymbolKind::Global, flags, index, name)
    }

    /// Adds a tag. It has a name in the same cases as in `function`.
    ///
    /// # Errors
    ///
    /// Returns [`TooLong`](crate::fallible::Refused::TooLong) if the builder has 4294967295
    /// entries, or if a count or length would pass 4294967295, and
    /// [`Memory`](crate::fallible::Refused::Memory) if an allocation fails. The builder is then
    /// unchanged.
    ///
    /// # Proved
    ///
    /// The builder gains one entry with this encoding, or the call returns an error and changes nothing. A full builder, with 2^32 - 1 entries, returns `TooLong`.
    ///
    /// ```text
    /// ensures { AddsTo S.model
    ///     (indexed_encoding kinds.Tag flags index
    ///         (optional_encoding (λ n. size_prefixed_encoding n.now) name.entry))
    ///     (IfSome name.entry (λ n. HasEncodableSize n.now)) self.old self.new result }
    /// ```
    ///
    /// Definitions: [`AddsTo`](crate::definitions::base::calls::AddsTo), [`indexed_encoding`](crate::definitions::custom::symbols::indexed_encoding), [`optional_encoding`](crate::definitions::base::encodings::optional_encoding), [`size_prefixed_encoding`](crate::definitions::base::encodings::size_prefixed_encoding), [`HasEncodableSize`](crate::definitions::base::encodings::HasEncodableSize). [How to read clauses](crate::definitions).
    pub fn tag(&mut self, flags: u32, index: u32, name: Option<&str>) -> Result<()> {
        self.indexed(SymbolKind::Tag, flags, index, name)
    }

    /// Adds a table. It has a name in the same cases as in `function`.
    ///
    /// # Errors
    ///
    /// Returns [`TooLong`](crate::fallible::Refused::TooLong) if the builder has 4294967295
    /// entries, or if a count or length would pass 4294967295, and
    /// [`Memory`](crate::fallible::Refused::Memory) if an allocation fails. The builder is then
    /// unchanged.
    ///
    /// # Proved
    ///
    /// The builder gains one entry with this encoding, or the call returns an error and changes nothing. A full builder, with 2^32 - 1 entries, returns `TooLong`.
    ///
    /// ```text
    /// ensures { AddsTo S.model
    ///     (indexed_encoding kinds.Table flags index
    ///         (optional_encoding (λ n. size_prefixed_encoding n.now) name.entry))
    ///     (IfSome name.entry (λ n. HasEncodableSize n.now)) self.old self.new result }
    /// ```
    ///
    /// Definitions: [`AddsTo`](crate::definitions::base::calls::AddsTo), [`indexed_encoding`](crate::definitions::custom::symbols::indexed_encoding), [`optional_encoding`](crate::definitions::base::encodings::optional_encoding), [`size_prefixed_encoding`](crate::definitions::base::encodings::size_prefixed_encoding), [`HasEncodableSize`](crate::definitions::base::encodings::HasEncodableSize). [How to read clauses](crate::definitions).
    pub fn table(&mut self, flags: u32, index: u32, name: Option<&str>) -> Result<()> {
        self.indexed(SymbolKind::Table, flags, index, name)
    }

    /// Adds data. Data have a definition unless `flags` say that they are undefined. The call does
    /// not check that `definition` agrees.
    ///
    /// # Errors
    ///
    /// Returns [`TooLong`](crate::fallible::Refused::TooLong) if the builder has 4294967295
    /// entries, or if a count or length would pass 4294967295, and
    /// [`Memory`](crate::fallible::Refused::Memory) if an allocation fails. The builder is then
    /// unchanged.
    ///
    /// # Proved
    ///
    /// The builder gains one entry with this encoding, or the call returns an error and changes nothing. A full builder, with 2^32 - 1 entries, returns `TooLong`.
    ///
    /// ```text
    /// ensures { AddsTo S.model
    ///     (of_data_encoding flags name.now (optional_encoding definition_encoding definition))
    ///     (HasEncodableSize name.now) self.old self.new result }
    /// ```
    ///
    /// Definitions: [`AddsTo`](crate::definitions::base::calls::AddsTo), [`of_data_encoding`](crate::definitions::custom::symbols::of_data_encoding), [`optional_encoding`](crate::definitions::base::encodings::optional_encoding), [`definition_encoding`](crate::definitions::custom::symbols::definition_encoding), [`HasEncodableSize`](crate::definitions::base::encodings::HasEncodableSize). [How to read clauses](crate::definitions).
    pub fn data(
        &mut self,
        flags: u32,
        name: &str,
        definition: Option<DataSymbolDefinition>,
    ) -> Result<()> {
        given_definition(definition.clone());
        self.add_record(&((0x01u8, flags), name, Optional(definition)))
    }

    /// Adds the section of this index in the module.
    ///
    /// # Errors
    ///
    /// Returns [`TooLong`](crate::fallible::Refused::TooLong) if the builder has 4294967295
    /// entries, and [`Memory`](crate::fallible::Refused::Memory) if an allocation fails. The
    /// builder is then unchanged.
    ///
    /// # Proved
    ///
    /// The builder gains one entry with this encoding, or the call returns an error and changes nothing. A full builder, with 2^32 - 1 entries, returns `TooLong`.
    ///
    /// ```text
    /// ensures { AddsTo S.model
    ///     (of_section_encoding flags section) ⊤ self.old self.new result }
    /// ```
    ///
    /// Definitions: [`AddsTo`](crate::definitions::base::calls::AddsTo), [`of_section_encoding`](crate::definitions::custom::symbols::of_section_encoding). [How to read clauses](crate::definitions).
    pub fn section(&mut self, flags: u32, section: u32) -> Result<()> {
        self.add_record(&(0x03u8, flags, section))
    }
}
