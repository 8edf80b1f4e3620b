// Written by tools/to-rust from crates/wasm_custom/src/object_linking.rt: change that.
// The linking section of an object file, which has subsections of all kinds: its builder.

use crate::custom::comdats::ComdatMembers;
use crate::custom::entries::{CustomEntries, CustomKind};
use crate::custom::init_functions::InitMembers;
use crate::custom::lists::CountedList;
use crate::custom::object_symbols::ObjectSymbolMembers;
use crate::custom::segments::SegmentMembers;
use crate::custom::subsections::Subsection;
use crate::alloc::Global;
use crate::base::{Kind, Pieces, Result, Store};

/// The linking section of an object file, in version 2 of the format: symbols of all kinds,
/// segments, init functions, COMDAT groups and the target. Each call adds a subsection, and `new`
/// allocates nothing.
///
/// The bytes decode in the format of the tool conventions, which is that of linking sections in the
/// grammar `Standard`. Those of a `LinkingSection` decode in the builders' grammar too.
///
/// ```
/// # fn example() -> Result<(), Box<dyn std::error::Error>> {
/// # use dolzhytik::{fallible::*, reader::*};
/// use dolzhytik::fallible::{
///     Global, Module, ObjectLinking, ObjectSymbols, SegmentInfos, SymbolTable,
/// };
///
/// let mut module = Module::new(Global)?;
/// let mut symbols = ObjectSymbols::new(Global);
/// symbols.section(SymbolTable::WASM_SYM_BINDING_LOCAL, 8)?;
/// let mut segments = SegmentInfos::new(Global);
/// segments.segment(".rodata.greeting", 0, 0)?;
/// let mut linking = ObjectLinking::new(Global);
/// linking.symbol_table(&symbols)?;
/// linking.segments(&segments)?;
/// module.section(&linking)?;
/// # Ok(())
/// # }
/// # example().unwrap();
/// ```
pub type ObjectLinking<A = Global> = CustomEntries<ObjectLinkingItems, Pieces<A>>;

/// The kind of the items of an object file's linking section: subsections.
///
/// # Examples
///
/// ```
/// use dolzhytik::fallible::{CustomKind, Global, ObjectLinking, ObjectLinkingItems};
///
/// let section = ObjectLinking::new(Global);
/// assert_eq!((section.len(), ObjectLinkingItems::name()), (0, "linking"));
/// ```
#[derive(Clone, Copy, Debug)]
pub struct ObjectLinkingItems;

/// # Defined
///
/// ```text
/// Record = { LinkModel }
/// Item = { LinkModel }
/// kind = { object_items }
/// ```
///
/// Definitions: [`LinkModel`](crate::definitions::custom::linking::LinkItem), [`object_items`](crate::definitions::custom::linking::object_items). [How to read clauses](crate::definitions).
impl Kind for ObjectLinkingItems {
    fn laws() {}
}

/// # Defined
///
/// ```text
/// name = { linking_name }
/// front = { version ∷ [] }
/// front_format = { just version u32_format }
/// counted = { false }
/// ```
///
/// Definitions: [`linking_name`](crate::definitions::custom::linking::linking_name), [`version`](crate::definitions::custom::linking::version), [`just`](crate::definitions::base::formats::just), [`u32_format`](crate::definitions::base::formats::u32). [How to read clauses](crate::definitions).
impl CustomKind for ObjectLinkingItems {
    fn name() -> &'static str {
        "linking"
    }

    fn front() -> &'static [u8] {
        &[2]
    }

    fn counted() -> bool {
        false
    }

    fn layout_laws() {}
}

impl<S: Store> CustomEntries<ObjectLinkingItems, S> {
    /// Adds the segments.
    ///
    /// # Errors
    ///
    /// Returns [`TooLong`](crate::fallible::Refused::TooLong) if the builder has 4294967295
    /// entries, or if a count or length would pass 4294967295, and
    /// [`Memory`](crate::fallible::Refused::Memory) if an allocation fails. The builder is then
    /// unchanged.
    ///
    /// # Proved
    ///
    /// The builder gains one entry with this encoding, or the call returns an error and changes nothing. A full builder, with 2^32 - 1 entries, returns `TooLong`.
    ///
    /// ```text
    /// ensures { AddsTo S.model
    ///     (subsection_encoding 5 (list_encoding (T.model.joins segments.now)))
    ///     (HasEncodableSize (list_encoding (T.model.joins segments.now)) × ⊤) self.old
    ///     self.new result }
    /// ```
    ///
    /// Definitions: [`AddsTo`](crate::definitions::base::calls::AddsTo), [`subsection_encoding`](crate::definitions::custom::customs::subsection_encoding), [`list_encoding`](crate::definitions::custom::lists::list_encoding), [`HasEncodableSize`](crate::definitions::base::encodings::HasEncodableSize). [How to read clauses](crate::definitions).
    pub fn segments<T: Store>(&mut self, segments: &CountedList<SegmentMembers, T>) -> Result<()> {
        self.add_record(segments)
    }

    /// Adds the init functions.
    ///
    /// # Errors
    ///
    /// Returns [`TooLong`](crate::fallible::Refused::TooLong) if the builder has 4294967295
    /// entries, or if a count or length would pass 4294967295, and
    /// [`Memory`](crate::fallible::Refused::Memory) if an allocation fails. The builder is then
    /// unchanged.
    ///
    /// # Proved
    ///
    /// The builder gains one entry with this encoding, or the call returns an error and changes nothing. A full builder, with 2^32 - 1 entries, returns `TooLong`.
    ///
    /// ```text
    /// ensures { AddsTo S.model
    ///     (subsection_encoding 6 (list_encoding (T.model.joins functions.now)))
    ///     (HasEncodableSize (list_encoding (T.model.joins functions.now)) × ⊤) self.old
    ///     self.new result }
    /// ```
    ///
    /// Definitions: [`AddsTo`](crate::definitions::base::calls::AddsTo), [`subsection_encoding`](crate::definitions::custom::customs::subsection_encoding), [`list_encoding`](crate::definitions::custom::lists::list_encoding), [`HasEncodableSize`](crate::definitions::base::encodings::HasEncodableSize). [How to read clauses](crate::definitions).
    pub fn init_functions<T: Store>(
        &mut self,
        functions: &CountedList<InitMembers, T>,
    ) -> Result<()> {
        self.add_record(functions)
    }

    /// Adds the COMDAT groups.
    ///
    /// # Errors
    ///
    /// Returns [`TooLong`](crate::fallible::Refused::TooLong) if the builder has 4294967295
    /// entries, or if a count or length would pass 4294967295, and
    /// [`Memory`](crate::fallible::Refused::Memory) if an allocation fails. The builder is then
    /// unchanged.
    ///
    /// # Proved
    ///
    /// The builder gains one entry with this encoding, or the call returns an error and changes nothing. A full builder, with 2^32 - 1 entries, returns `TooLong`.
    ///
    /// ```text
    /// ensures { AddsTo S.model
    ///     (subsection_encoding 7 (list_encoding (T.model.joins comdats.now)))
    ///     (HasEncodableSize (list_encoding (T.model.joins comdats.now)) × ⊤) self.old self.new
    ///     result }
    /// ```
    ///
    /// Definitions: [`AddsTo`](crate::definitions::base::calls::AddsTo), [`subsection_encoding`](crate::definitions::custom::customs::subsection_encoding), [`list_encoding`](crate::definitions::custom::lists::list_encoding), [`HasEncodableSize`](crate::definitions::base::encodings::HasEncodableSize). [How to read clauses](crate::definitions).
    pub fn comdats<T: Store>(&mut self, comdats: &CountedList<ComdatMembers, T>) -> Result<()> {
        self.add_record(comdats)
    }

    /// Adds the symbols.
    ///
    /// # Errors
    ///
    /// Returns [`TooLong`](crate::fallible::Refused::TooLong) if the builder has 4294967295
    /// entries, or if a count or length would pass 4294967295, and
    /// [`Memory`](crate::fallible::Refused::Memory) if an allocation fails. The builder is then
    /// unchanged.
    ///
    /// # Proved
    ///
    /// The builder gains one entry with this encoding, or the call returns an error and changes nothing. A full builder, with 2^32 - 1 entries, returns `TooLong`.
    ///
    /// ```text
    /// ensures { AddsTo S.model
    ///     (subsection_encoding 8 (list_encoding (T.model.joins symbols.now)))
    ///     (HasEncodableSize (list_encoding (T.model.joins symbols.now)) × ⊤) self.old self.new
    ///     result }
    /// ```
    ///
    /// Definitions: [`AddsTo`](crate::definitions::base::calls::AddsTo), [`subsection_encoding`](crate::definitions::custom::customs::subsection_encoding), [`list_encoding`](crate::definitions::custom::lists::list_encoding), [`HasEncodableSize`](crate::definitions::base::encodings::HasEncodableSize). [How to read clauses](crate::definitions).
    pub fn symbol_table<T: Store>(
        &mut self,
        symbols: &CountedList<ObjectSymbolMembers, T>,
    ) -> Result<()> {
        self.add_record(symbols)
    }

    /// Adds the architecture of the target, which is not in the tool conventions.
    ///
    /// # Errors
    ///
    /// Returns [`TooLong`](crate::fallible::Refused::TooLong) if the builder has 4294967295
    /// entries, or if a count or length would pass 4294967295, and
    /// [`Memory`](crate::fallible::Refused::Memory) if an allocation fails. The builder is then
    /// unchanged.
    ///
    /// # Proved
    ///
    /// The builder gains one entry with this encoding, or the call returns an error and changes nothing. A full builder, with 2^32 - 1 entries, returns `TooLong`.
    ///
    /// ```text
    /// ensures { AddsTo S.model (subsection_encoding 9 (size_prefixed_encoding name.now))
    ///     (HasEncodableSize (size_prefixed_encoding name.now) × HasEncodableSize name.now)
    ///     self.old self.new result }
    /// ```
    ///
    /// Definitions: [`AddsTo`](crate::definitions::base::calls::AddsTo), [`subsection_encoding`](crate::definitions::custom::customs::subsection_encoding), [`size_prefixed_encoding`](crate::definitions::base::encodings::size_prefixed_encoding), [`HasEncodableSize`](crate::definitions::base::encodings::HasEncodableSize). [How to read clauses](crate::definitions).
    pub fn target_arch(&mut self, name: &str) -> Result<()> {
        self.add_record(&Subsection {
            id: 9,
            content: &name,
        })
    }
}
