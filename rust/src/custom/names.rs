// Written by tools/to-rust from crates/wasm_custom/src/names.rt: change that.
// The name section: its builder, its reader and its minimizer.

use crate::vec::{Sink, Vec};
use crate::custom::custom_section::CustomSection;
use crate::custom::entries::{CustomEntries, CustomKind};
use crate::custom::lists::{CountedList, Entries, ListKind};
use crate::custom::named::after_name;
use crate::custom::subsections::{RawContent, Subsection};
use crate::alloc::{Allocator, Global};
use crate::base::{CowSlice, CowStr, DecodeError, Encode, Grammar, Kind, Layout, Lent, Pieces, Readable, Result, Shorten, Store, append_all, prefix_size_since, read_before, read_to_end};

/// A name map: indices and their names. The calls check neither their order nor whether an index is
/// repeated.
///
/// [`NameSection`](crate::fallible::NameSection) takes it.
///
/// # Examples
///
/// ```
/// use dolzhytik::fallible::{Global, NameMap, NameSection};
///
/// let mut functions = NameMap::new(Global);
/// functions.append(0, "main")?;
/// let mut names = NameSection::new(Global);
/// names.functions(&functions)?;
/// assert_eq!(names.len(), 1);
/// # Ok::<(), dolzhytik::fallible::Refused>(())
/// ```
pub type NameMap<A = Global> = CountedList<NameMembers, Pieces<A>>;

/// The kind of a name map's members: an index, and its name.
///
/// # Examples
///
/// ```
/// use dolzhytik::fallible::{Global, ListKind, NameMap, NameMembers};
///
/// let list = NameMap::new(Global);
/// assert_eq!((list.len(), NameMembers::subsection()), (0, None));
/// ```
#[derive(Clone, Copy, Debug)]
pub struct NameMembers;

/// # Defined
///
/// ```text
/// Member = { Naming }
/// member_encoding = { naming_encoding }
/// is_member = { IsNaming }
/// subsection = { None }
/// ```
///
/// Definitions: [`Naming`](crate::definitions::custom::names::Naming), [`naming_encoding`](crate::definitions::custom::names::naming_encoding), [`IsNaming`](crate::definitions::custom::names::IsNaming). [How to read clauses](crate::definitions).
impl ListKind for NameMembers {
    fn subsection() -> Option<u8> {
        None
    }
}

impl<S: Store> CountedList<NameMembers, S> {
    /// Adds the name of this index.
    ///
    /// # Errors
    ///
    /// Returns [`TooLong`](crate::fallible::Refused::TooLong) if the builder has 4294967295
    /// entries, or if a count or length would pass 4294967295, and
    /// [`Memory`](crate::fallible::Refused::Memory) if an allocation fails. The builder is then
    /// unchanged.
    ///
    /// # Proved
    ///
    /// The builder gains one entry with this encoding, or the call returns an error and changes nothing. A full builder, with 2^32 - 1 entries, returns `TooLong`.
    ///
    /// ```text
    /// ensures { AddsTo S.model (unsigned_encoding index ++ size_prefixed_encoding name.now)
    ///     (HasEncodableSize name.now) self.old self.new result }
    /// ```
    ///
    /// Definitions: [`AddsTo`](crate::definitions::base::calls::AddsTo), [`unsigned_encoding`](crate::definitions::base::numbers::unsigned_encoding), [`size_prefixed_encoding`](crate::definitions::base::encodings::size_prefixed_encoding), [`HasEncodableSize`](crate::definitions::base::encodings::HasEncodableSize). [How to read clauses](crate::definitions).
    pub fn append(&mut self, index: u32, name: &str) -> Result<()> {
        self.add_record(&IndexedName { index, name })
    }
}

/// A member of a name map: an index, and its name.
#[derive(Clone, Copy)]
struct IndexedName<'a> {
    index: u32,
    name: &'a str,
}

/// Encodes the index, and then the name. An index and a size of one byte each are written after one
/// test of the spare capacity.
///
/// # Defined
///
/// ```text
/// encoding = { λ n. unsigned_encoding n.index ++ size_prefixed_encoding n.name.now }
/// encodable = { λ n. HasEncodableSize n.name.now }
/// ```
///
/// Definitions: [`unsigned_encoding`](crate::definitions::base::numbers::unsigned_encoding), [`size_prefixed_encoding`](crate::definitions::base::encodings::size_prefixed_encoding), [`HasEncodableSize`](crate::definitions::base::encodings::HasEncodableSize). [How to read clauses](crate::definitions).
impl Encode for IndexedName<'_> {
    fn encode<A: Sink>(&self, sink: &mut A) -> Result<()> {
        let bytes = self.name.as_bytes();
        let size = bytes.len();
        if self.index >= 0x80 || size >= 0x80 {
            return (self.index, self.name).encode(sink);
        }
        sink.reserve(size + 2)?;
        sink.push_both_reserved([self.index as u8, size as u8]);
        sink.extend_from_slice(bytes).unwrap();
        Ok(())
    }
}

/// An indirect name map: indices, each with a name map for the items in it, such as the locals of
/// functions. The calls check neither their order nor whether an index is repeated.
///
/// [`NameSection`](crate::fallible::NameSection) takes it.
///
/// # Examples
///
/// ```
/// use dolzhytik::fallible::{Encode, Global, IndirectNameMap, NameMap};
///
/// let mut parameters = NameMap::new(Global);
/// parameters.append(0, "x")?;
/// let mut locals = IndirectNameMap::new(Global);
/// locals.append(5, &parameters)?;
/// let mut bytes = vec![];
/// locals.encode(&mut bytes)?;
/// // One function, 5, of one name: the index 0, "x".
/// assert_eq!(bytes, [1, 5, 1, 0, 1, b'x']);
/// # Ok::<(), dolzhytik::fallible::Refused>(())
/// ```
pub type IndirectNameMap<A = Global> = CountedList<IndirectMembers, Pieces<A>>;

/// The kind of an indirect name map's members: an index, and the names of the items in it.
///
/// # Examples
///
/// ```
/// use dolzhytik::fallible::{Global, IndirectMembers, IndirectNameMap, ListKind};
///
/// let list = IndirectNameMap::new(Global);
/// assert_eq!((list.len(), IndirectMembers::subsection()), (0, None));
/// ```
#[derive(Clone, Copy, Debug)]
pub struct IndirectMembers;

/// # Defined
///
/// ```text
/// Member = { Inside }
/// member_encoding = { inside_encoding }
/// is_member = { IsInside }
/// subsection = { None }
/// ```
///
/// Definitions: [`Inside`](crate::definitions::custom::names::Inside), [`inside_encoding`](crate::definitions::custom::names::inside_encoding), [`IsInside`](crate::definitions::custom::names::IsInside). [How to read clauses](crate::definitions).
impl ListKind for IndirectMembers {
    fn subsection() -> Option<u8> {
        None
    }
}

impl<S: Store> CountedList<IndirectMembers, S> {
    /// Adds the names of the items in this index.
    ///
    /// # Errors
    ///
    /// Returns [`TooLong`](crate::fallible::Refused::TooLong) if the builder has 4294967295
    /// entries, and [`Memory`](crate::fallible::Refused::Memory) if an allocation fails. The
    /// builder is then unchanged.
    ///
    /// # Proved
    ///
    /// The builder gains one entry with this encoding, or the call returns an error and changes nothing. A full builder, with 2^32 - 1 entries, returns `TooLong`.
    ///
    /// ```text
    /// ensures { AddsTo S.model
    ///     (unsigned_encoding index ++ list_encoding (T.model.joins names.now)) ⊤ self.old
    ///     self.new result }
    /// ```
    ///
    /// Definitions: [`AddsTo`](crate::definitions::base::calls::AddsTo), [`unsigned_encoding`](crate::definitions::base::numbers::unsigned_encoding), [`list_encoding`](crate::definitions::custom::lists::list_encoding). [How to read clauses](crate::definitions).
    pub fn append<T: Store>(
        &mut self,
        index: u32,
        names: &CountedList<NameMembers, T>,
    ) -> Result<()> {
        names.members_law();
        self.add_record(&(index, Lent(names)))
    }
}

/// The name section: the names of a module and of its items. Each call adds a subsection, in the
/// order of the calls.
///
/// ```
/// # fn example() -> Result<(), Box<dyn std::error::Error>> {
/// # use dolzhytik::{fallible::*, reader::*};
/// use dolzhytik::fallible::{Global, Module, NameMap, NameSection};
///
/// let mut module = Module::new(Global)?;
/// let mut functions = NameMap::new(Global);
/// functions.append(0, "f")?;
/// let mut names = NameSection::new(Global);
/// names.module("m")?;
/// names.functions(&functions)?;
/// module.section(&names)?;
/// # Ok(())
/// # }
/// # example().unwrap();
/// ```
pub type NameSection<A = Global> = CustomEntries<NameItems, Pieces<A>>;

/// The kind of a name section's items: subsections.
///
/// # Examples
///
/// ```
/// use dolzhytik::fallible::{CustomKind, Global, NameItems, NameSection};
///
/// let section = NameSection::new(Global);
/// assert_eq!((section.len(), NameItems::name()), (0, "name"));
/// ```
#[derive(Clone, Copy, Debug)]
pub struct NameItems;

/// # Defined
///
/// ```text
/// Record = { NameModel }
/// Item = { NameModel }
/// kind = { name_items }
/// ```
///
/// Definitions: [`NameModel`](crate::definitions::custom::names::NameItem), [`name_items`](crate::definitions::custom::names::name_items). [How to read clauses](crate::definitions).
impl Kind for NameItems {
    fn laws() {}
}

/// # Defined
///
/// ```text
/// name = { name_name }
/// front = { [] }
/// front_format = { fixed [] (tt {0}) }
/// counted = { false }
/// ```
///
/// Definitions: [`name_name`](crate::definitions::custom::names::name_name), [`fixed`](crate::definitions::base::formats::fixed). [How to read clauses](crate::definitions).
impl CustomKind for NameItems {
    fn name() -> &'static str {
        "name"
    }

    fn front() -> &'static [u8] {
        &[]
    }

    fn counted() -> bool {
        false
    }

    fn layout_laws() {}
}

impl<S: Store> CustomEntries<NameItems, S> {
    /// Adds a subsection with a name map.
    fn map<T: Store>(&mut self, id: u8, names: &CountedList<NameMembers, T>) -> Result<()> {
        let content = &Entries(names);
        self.add_record(&Subsection { id, content })
    }

    /// Adds a subsection with an indirect name map.
    fn indirect_map<T: Store>(
        &mut self,
        id: u8,
        names: &CountedList<IndirectMembers, T>,
    ) -> Result<()> {
        let content = &Entries(names);
        self.add_record(&Subsection { id, content })
    }

    /// Adds the name of the module.
    ///
    /// # Errors
    ///
    /// Returns [`TooLong`](crate::fallible::Refused::TooLong) if the builder has 4294967295
    /// entries, or if a count or length would pass 4294967295, and
    /// [`Memory`](crate::fallible::Refused::Memory) if an allocation fails. The builder is then
    /// unchanged.
    ///
    /// # Examples
    ///
    /// ```
    /// use dolzhytik::fallible::{Global, NameSection};
    ///
    /// let mut names = NameSection::new(Global);
    /// names.module("m")?;
    /// // Subsection 0, size 2, a name of one byte.
    /// assert_eq!(names.as_custom().bytes.as_slice(), [0, 2, 1, b'm']);
    /// # Ok::<(), dolzhytik::fallible::Refused>(())
    /// ```
    ///
    /// # Proved
    ///
    /// The builder gains one entry with this encoding, or the call returns an error and changes nothing. A full builder, with 2^32 - 1 entries, returns `TooLong`.
    ///
    /// ```text
    /// ensures { AddsTo S.model (subsection_encoding 0 (size_prefixed_encoding name.now))
    ///     (HasEncodableSize (size_prefixed_encoding name.now) × HasEncodableSize name.now)
    ///     self.old self.new result }
    /// ```
    ///
    /// Definitions: [`AddsTo`](crate::definitions::base::calls::AddsTo), [`subsection_encoding`](crate::definitions::custom::customs::subsection_encoding), [`size_prefixed_encoding`](crate::definitions::base::encodings::size_prefixed_encoding), [`HasEncodableSize`](crate::definitions::base::encodings::HasEncodableSize). [How to read clauses](crate::definitions).
    pub fn module(&mut self, name: &str) -> Result<()> {
        self.add_record(&Subsection {
            id: 0,
            content: &name,
        })
    }

    /// Adds the names of functions.
    ///
    /// # Errors
    ///
    /// Returns [`TooLong`](crate::fallible::Refused::TooLong) if the builder has 4294967295
    /// entries, or if a count or length would pass 4294967295, and
    /// [`Memory`](crate::fallible::Refused::Memory) if an allocation fails. The builder is then
    /// unchanged.
    ///
    /// # Proved
    ///
    /// The builder gains one entry with this encoding, or the call returns an error and changes nothing. A full builder, with 2^32 - 1 entries, returns `TooLong`.
    ///
    /// ```text
    /// ensures { AddsTo S.model
    ///     (subsection_encoding 1 (list_encoding (T.model.joins names.now)))
    ///     (HasEncodableSize (list_encoding (T.model.joins names.now)) × ⊤) self.old self.new
    ///     result }
    /// ```
    ///
    /// Definitions: [`AddsTo`](crate::definitions::base::calls::AddsTo), [`subsection_encoding`](crate::definitions::custom::customs::subsection_encoding), [`list_encoding`](crate::definitions::custom::lists::list_encoding), [`HasEncodableSize`](crate::definitions::base::encodings::HasEncodableSize). [How to read clauses](crate::definitions).
    pub fn functions<T: Store>(&mut self, names: &CountedList<NameMembers, T>) -> Result<()> {
        self.map(1, names)
    }

    /// Adds the names of types.
    ///
    /// # Errors
    ///
    /// Returns [`TooLong`](crate::fallible::Refused::TooLong) if the builder has 4294967295
    /// entries, or if a count or length would pass 4294967295, and
    /// [`Memory`](crate::fallible::Refused::Memory) if an allocation fails. The builder is then
    /// unchanged.
    ///
    /// # Proved
    ///
    /// The builder gains one entry with this encoding, or the call returns an error and changes nothing. A full builder, with 2^32 - 1 entries, returns `TooLong`.
    ///
    /// ```text
    /// ensures { AddsTo S.model
    ///     (subsection_encoding 4 (list_encoding (T.model.joins names.now)))
    ///     (HasEncodableSize (list_encoding (T.model.joins names.now)) × ⊤) self.old self.new
    ///     result }
    /// ```
    ///
    /// Definitions: [`AddsTo`](crate::definitions::base::calls::AddsTo), [`subsection_encoding`](crate::definitions::custom::customs::subsection_encoding), [`list_encoding`](crate::definitions::custom::lists::list_encoding), [`HasEncodableSize`](crate::definitions::base::encodings::HasEncodableSize). [How to read clauses](crate::definitions).
    pub fn types<T: Store>(&mut self, names: &CountedList<NameMembers, T>) -> Result<()> {
        self.map(4, names)
    }

    /// Adds the names of tables.
    ///
    /// # Errors
    ///
    /// Returns [`TooLong`](crate::fallible::Refused::TooLong) if the builder has 4294967295
    /// entries, or if a count or length would pass 4294967295, and
    /// [`Memory`](crate::fallible::Refused::Memory) if an allocation fails. The builder is then
    /// unchanged.
    ///
    /// # Proved
    ///
    /// The builder gains one entry with this encoding, or the call returns an error and changes nothing. A full builder, with 2^32 - 1 entries, returns `TooLong`.
    ///
    /// ```text
    /// ensures { AddsTo S.model
    ///     (subsection_encoding 5 (list_encoding (T.model.joins names.now)))
    ///     (HasEncodableSize (list_encoding (T.model.joins names.now)) × ⊤) self.old self.new
    ///     result }
    /// ```
    ///
    /// Definitions: [`AddsTo`](crate::definitions::base::calls::AddsTo), [`subsection_encoding`](crate::definitions::custom::customs::subsection_encoding), [`list_encoding`](crate::definitions::custom::lists::list_encoding), [`HasEncodableSize`](crate::definitions::base::encodings::HasEncodableSize). [How to read clauses](crate::definitions).
    pub fn tables<T: Store>(&mut self, names: &CountedList<NameMembers, T>) -> Result<()> {
        self.map(5, names)
    }

    /// Adds the names of memories.
    ///
    /// # Errors
    ///
    /// Returns [`TooLong`](crate::fallible::Refused::TooLong) if the builder has 4294967295
    /// entries, or if a count or length would pass 4294967295, and
    /// [`Memory`](crate::fallible::Refused::Memory) if an allocation fails. The builder is then
    /// unchanged.
    ///
    /// # Proved
    ///
    /// The builder gains one entry with this encoding, or the call returns an error and changes nothing. A full builder, with 2^32 - 1 entries, returns `TooLong`.
    ///
    /// ```text
    /// ensures { AddsTo S.model
    ///     (subsection_encoding 6 (list_encoding (T.model.joins names.now)))
    ///     (HasEncodableSize (list_encoding (T.model.joins names.now)) × ⊤) self.old self.new
    ///     result }
    /// ```
    ///
    /// Definitions: [`AddsTo`](crate::definitions::base::calls::AddsTo), [`subsection_encoding`](crate::definitions::custom::customs::subsection_encoding), [`list_encoding`](crate::definitions::custom::lists::list_encoding), [`HasEncodableSize`](crate::definitions::base::encodings::HasEncodableSize). [How to read clauses](crate::definitions).
    pub fn memories<T: Store>(&mut self, names: &CountedList<NameMembers, T>) -> Result<()> {
        self.map(6, names)
    }

    /// Adds the names of globals.
    ///
    /// # Errors
    ///
    /// Returns [`TooLong`](crate::fallible::Refused::TooLong) if the builder has 4294967295
    /// entries, or if a count or length would pass 4294967295, and
    /// [`Memory`](crate::fallible::Refused::Memory) if an allocation fails. The builder is then
    /// unchanged.
    ///
    /// # Proved
    ///
    /// The builder gains one entry with this encoding, or the call returns an error and changes nothing. A full builder, with 2^32 - 1 entries, returns `TooLong`.
    ///
    /// ```text
    /// ensures { AddsTo S.model
    ///     (subsection_encoding 7 (list_encoding (T.model.joins names.now)))
    ///     (HasEncodableSize (list_encoding (T.model.joins names.now)) × ⊤) self.old self.new
    ///     result }
    /// ```
    ///
    /// Definitions: [`AddsTo`](crate::definitions::base::calls::AddsTo), [`subsection_encoding`](crate::definitions::custom::customs::subsection_encoding), [`list_encoding`](crate::definitions::custom::lists::list_encoding), [`HasEncodableSize`](crate::definitions::base::encodings::HasEncodableSize). [How to read clauses](crate::definitions).
    pub fn globals<T: Store>(&mut self, names: &CountedList<NameMembers, T>) -> Result<()> {
        self.map(7, names)
    }

    /// Adds the names of element segments.
    ///
    /// # Errors
    ///
    /// Returns [`TooLong`](crate::fallible::Refused::TooLong) if the builder has 4294967295
    /// entries, or if a count or length would pass 4294967295, and
    /// [`Memory`](crate::fallible::Refused::Memory) if an allocation fails. The builder is then
    /// unchanged.
    ///
    /// # Proved
    ///
    /// The builder gains one entry with this encoding, or the call returns an error and changes nothing. A full builder, with 2^32 - 1 entries, returns `TooLong`.
    ///
    /// ```text
    /// ensures { AddsTo S.model
    ///     (subsection_encoding 8 (list_encoding (T.model.joins names.now)))
    ///     (HasEncodableSize (list_encoding (T.model.joins names.now)) × ⊤) self.old self.new
    ///     result }
    /// ```
    ///
    /// Definitions: [`AddsTo`](crate::definitions::base::calls::AddsTo), [`subsection_encoding`](crate::definitions::custom::customs::subsection_encoding), [`list_encoding`](crate::definitions::custom::lists::list_encoding), [`HasEncodableSize`](crate::definitions::base::encodings::HasEncodableSize). [How to read clauses](crate::definitions).
    pub fn elements<T: Store>(&mut self, names: &CountedList<NameMembers, T>) -> Result<()> {
        self.map(8, names)
    }

    /// Adds the names of data segments.
    ///
    /// # Errors
    ///
    /// Returns [`TooLong`](crate::fallible::Refused::TooLong) if the builder has 4294967295
    /// entries, or if a count or length would pass 4294967295, and
    /// [`Memory`](crate::fallible::Refused::Memory) if an allocation fails. The builder is then
    /// unchanged.
    ///
    /// # Proved
    ///
    /// The builder gains one entry with this encoding, or the call returns an error and changes nothing. A full builder, with 2^32 - 1 entries, returns `TooLong`.
    ///
    /// ```text
    /// ensures { AddsTo S.model
    ///     (subsection_encoding 9 (list_encoding (T.model.joins names.now)))
    ///     (HasEncodableSize (list_encoding (T.model.joins names.now)) × ⊤) self.old self.new
    ///     result }
    /// ```
    ///
    /// Definitions: [`AddsTo`](crate::definitions::base::calls::AddsTo), [`subsection_encoding`](crate::definitions::custom::customs::subsection_encoding), [`list_encoding`](crate::definitions::custom::lists::list_encoding), [`HasEncodableSize`](crate::definitions::base::encodings::HasEncodableSize). [How to read clauses](crate::definitions).
    pub fn data<T: Store>(&mut self, names: &CountedList<NameMembers, T>) -> Result<()> {
        self.map(9, names)
    }

    /// Adds the names of tags, as `tags` does.
    ///
    /// # Errors
    ///
    /// Returns [`TooLong`](crate::fallible::Refused::TooLong) if the builder has 4294967295
    /// entries, or if a count or length would pass 4294967295, and
    /// [`Memory`](crate::fallible::Refused::Memory) if an allocation fails. The builder is then
    /// unchanged.
    ///
    /// # Proved
    ///
    /// The builder gains one entry with this encoding, or the call returns an error and changes nothing. A full builder, with 2^32 - 1 entries, returns `TooLong`.
    ///
    /// ```text
    /// ensures { AddsTo S.model
    ///     (subsection_encoding 11 (list_encoding (T.model.joins names.now)))
    ///     (HasEncodableSize (list_encoding (T.model.joins names.now)) × ⊤) self.old self.new
    ///     result }
    /// ```
    ///
    /// Definitions: [`AddsTo`](crate::definitions::base::calls::AddsTo), [`subsection_encoding`](crate::definitions::custom::customs::subsection_encoding), [`list_encoding`](crate::definitions::custom::lists::list_encoding), [`HasEncodableSize`](crate::definitions::base::encodings::HasEncodableSize). [How to read clauses](crate::definitions).
    pub fn tag<T: Store>(&mut self, names: &CountedList<NameMembers, T>) -> Result<()> {
        self.tags(names)
    }

    /// Adds the names of tags.
    ///
    /// # Errors
    ///
    /// Returns [`TooLong`](crate::fallible::Refused::TooLong) if the builder has 4294967295
    /// entries, or if a count or length would pass 4294967295, and
    /// [`Memory`](crate::fallible::Refused::Memory) if an allocation fails. The builder is then
    /// unchanged.
    ///
    /// # Proved
    ///
    /// The builder gains one entry with this encoding, or the call returns an error and changes nothing. A full builder, with 2^32 - 1 entries, returns `TooLong`.
    ///
    /// ```text
    /// ensures { AddsTo S.model
    ///     (subsection_encoding 11 (list_encoding (T.model.joins names.now)))
    ///     (HasEncodableSize (list_encoding (T.model.joins names.now)) × ⊤) self.old self.new
    ///     result }
    /// ```
    ///
    /// Definitions: [`AddsTo`](crate::definitions::base::calls::AddsTo), [`subsection_encoding`](crate::definitions::custom::customs::subsection_encoding), [`list_encoding`](crate::definitions::custom::lists::list_encoding), [`HasEncodableSize`](crate::definitions::base::encodings::HasEncodableSize). [How to read clauses](crate::definitions).
    pub fn tags<T: Store>(&mut self, names: &CountedList<NameMembers, T>) -> Result<()> {
        self.map(11, names)
    }

    /// Adds the names of the locals of functions, including parameters.
    ///
    /// # Errors
    ///
    /// Returns [`TooLong`](crate::fallible::Refused::TooLong) if the builder has 4294967295
    /// entries, or if a count or length would pass 4294967295, and
    /// [`Memory`](crate::fallible::Refused::Memory) if an allocation fails. The builder is then
    /// unchanged.
    ///
    /// # Proved
    ///
    /// The builder gains one entry with this encoding, or the call returns an error and changes nothing. A full builder, with 2^32 - 1 entries, returns `TooLong`.
    ///
    /// ```text
    /// ensures { AddsTo S.model
    ///     (subsection_encoding 2 (list_encoding (T.model.joins names.now)))
    ///     (HasEncodableSize (list_encoding (T.model.joins names.now)) × ⊤) self.old self.new
    ///     result }
    /// ```
    ///
    /// Definitions: [`AddsTo`](crate::definitions::base::calls::AddsTo), [`subsection_encoding`](crate::definitions::custom::customs::subsection_encoding), [`list_encoding`](crate::definitions::custom::lists::list_encoding), [`HasEncodableSize`](crate::definitions::base::encodings::HasEncodableSize). [How to read clauses](crate::definitions).
    pub fn locals<T: Store>(&mut self, names: &CountedList<IndirectMembers, T>) -> Result<()> {
        self.indirect_map(2, names)
    }

    /// Adds the names of the labels of functions.
    ///
    /// # Errors
    ///
    /// Returns [`TooLong`](crate::fallible::Refused::TooLong) if the builder has 4294967295
    /// entries, or if a count or length would pass 4294967295, and
    /// [`Memory`](crate::fallible::Refused::Memory) if an allocation fails. The builder is then
    /// unchanged.
    ///
    /// # Proved
    ///
    /// The builder gains one entry with this encoding, or the call returns an error and changes nothing. A full builder, with 2^32 - 1 entries, returns `TooLong`.
    ///
    /// ```text
    /// ensures { AddsTo S.model
    ///     (subsection_encoding 3 (list_encoding (T.model.joins names.now)))
    ///     (HasEncodableSize (list_encoding (T.model.joins names.now)) × ⊤) self.old self.new
    ///     result }
    /// ```
    ///
    /// Definitions: [`AddsTo`](crate::definitions::base::calls::AddsTo), [`subsection_encoding`](crate::definitions::custom::customs::subsection_encoding), [`list_encoding`](crate::definitions::custom::lists::list_encoding), [`HasEncodableSize`](crate::definitions::base::encodings::HasEncodableSize). [How to read clauses](crate::definitions).
    pub fn labels<T: Store>(&mut self, names: &CountedList<IndirectMembers, T>) -> Result<()> {
        self.indirect_map(3, names)
    }

    /// Adds the names of the fields of types.
    ///
    /// # Errors
    ///
    /// Returns [`TooLong`](crate::fallible::Refused::TooLong) if the builder has 4294967295
    /// entries, or if a count or length would pass 4294967295, and
    /// [`Memory`](crate::fallible::Refused::Memory) if an allocation fails. The builder is then
    /// unchanged.
    ///
    /// # Proved
    ///
    /// The builder gains one entry with this encoding, or the call returns an error and changes nothing. A full builder, with 2^32 - 1 entries, returns `TooLong`.
    ///
    /// ```text
    /// ensures { AddsTo S.model
    ///     (subsection_encoding 10 (list_encoding (T.model.joins names.now)))
    ///     (HasEncodableSize (list_encoding (T.model.joins names.now)) × ⊤) self.old self.new
    ///     result }
    /// ```
    ///
    /// Definitions: [`AddsTo`](crate::definitions::base::calls::AddsTo), [`subsection_encoding`](crate::definitions::custom::customs::subsection_encoding), [`list_encoding`](crate::definitions::custom::lists::list_encoding), [`HasEncodableSize`](crate::definitions::base::encodings::HasEncodableSize). [How to read clauses](crate::definitions).
    pub fn fields<T: Store>(&mut self, names: &CountedList<IndirectMembers, T>) -> Result<()> {
        self.indirect_map(10, names)
    }

    /// Adds the names of the parameters of function types.
    ///
    /// # Errors
    ///
    /// Returns [`TooLong`](crate::fallible::Refused::TooLong) if the builder has 4294967295
    /// entries, or if a count or length would pass 4294967295, and
    /// [`Memory`](crate::fallible::Refused::Memory) if an allocation fails. The builder is then
    /// unchanged.
    ///
    /// # Proved
    ///
    /// The builder gains one entry with this encoding, or the call returns an error and changes nothing. A full builder, with 2^32 - 1 entries, returns `TooLong`.
    ///
    /// ```text
    /// ensures { AddsTo S.model
    ///     (subsection_encoding 12 (list_encoding (T.model.joins names.now)))
    ///     (HasEncodableSize (list_encoding (T.model.joins names.now)) × ⊤) self.old self.new
    ///     result }
    /// ```
    ///
    /// Definitions: [`AddsTo`](crate::definitions::base::calls::AddsTo), [`subsection_encoding`](crate::definitions::custom::customs::subsection_encoding), [`list_encoding`](crate::definitions::custom::lists::list_encoding), [`HasEncodableSize`](crate::definitions::base::encodings::HasEncodableSize). [How to read clauses](crate::definitions).
    pub fn parameters<T: Store>(&mut self, names: &CountedList<IndirectMembers, T>) -> Result<()> {
        self.indirect_map(12, names)
    }

    /// Adds the names of the parameters of tags.
    ///
    /// # Errors
    ///
    /// Returns [`TooLong`](crate::fallible::Refused::TooLong) if the builder has 4294967295
    /// entries, or if a count or length would pass 4294967295, and
    /// [`Memory`](crate::fallible::Refused::Memory) if an allocation fails. The builder is then
    /// unchanged.
    ///
    /// # Proved
    ///
    /// The builder gains one entry with this encoding, or the call returns an error and changes nothing. A full builder, with 2^32 - 1 entries, returns `TooLong`.
    ///
    /// ```text
    /// ensures { AddsTo S.model
    ///     (subsection_encoding 13 (list_encoding (T.model.joins names.now)))
    ///     (HasEncodableSize (list_encoding (T.model.joins names.now)) × ⊤) self.old self.new
    ///     result }
    /// ```
    ///
    /// Definitions: [`AddsTo`](crate::definitions::base::calls::AddsTo), [`subsection_encoding`](crate::definitions::custom::customs::subsection_encoding), [`list_encoding`](crate::definitions::custom::lists::list_encoding), [`HasEncodableSize`](crate::definitions::base::encodings::HasEncodableSize). [How to read clauses](crate::definitions).
    pub fn tag_parameters<T: Store>(
        &mut self,
        names: &CountedList<IndirectMembers, T>,
    ) -> Result<()> {
        self.indirect_map(13, names)
    }

    /// Adds a subsection of this id, whose content is already encoded. The call does not check the
    /// content.
    ///
    /// # Errors
    ///
    /// Returns [`TooLong`](crate::fallible::Refused::TooLong) if the builder has 4294967295
    /// entries, or if a count or length would pass 4294967295, and
    /// [`Memory`](crate::fallible::Refused::Memory) if an allocation fails. The builder is then
    /// unchanged.
    ///
    /// # Examples
    ///
    /// ```
    /// use dolzhytik::fallible::{Global, NameSection};
    ///
    /// let mut names = NameSection::new(Global);
    /// names.raw(99, &[1, 2])?;
    /// // The id, the size, the content.
    /// assert_eq!(names.as_custom().bytes.as_slice(), [99, 2, 1, 2]);
    /// # Ok::<(), dolzhytik::fallible::Refused>(())
    /// ```
    ///
    /// # Proved
    ///
    /// The builder gains one entry with this encoding, or the call returns an error and changes nothing. A full builder, with 2^32 - 1 entries, returns `TooLong`.
    ///
    /// ```text
    /// ensures { AddsTo S.model (subsection_encoding id content.now)
    ///     (HasEncodableSize content.now × ⊤) self.old self.new result }
    /// ```
    ///
    /// Definitions: [`AddsTo`](crate::definitions::base::calls::AddsTo), [`subsection_encoding`](crate::definitions::custom::customs::subsection_encoding), [`HasEncodableSize`](crate::definitions::base::encodings::HasEncodableSize). [How to read clauses](crate::definitions).
    pub fn raw(&mut self, id: u8, content: &[u8]) -> Result<()> {
        self.add_record(&Subsection {
            id,
            content: &RawContent(content),
        })
    }

    /// Returns the section as a custom section that borrows the entries, and allocates nothing.
    ///
    /// # Proved
    ///
    /// ```text
    /// ensures name { utf8_of result.name ≡ name_name }
    /// ensures bytes { items_of result.bytes ≡ (S.model.joins self.now).content }
    /// ```
    ///
    /// Definitions: [`utf8_of`](crate::definitions::base::cow::utf8_of), [`name_name`](crate::definitions::custom::names::name_name), [`items_of`](crate::definitions::base::cow::items_of). [How to read clauses](crate::definitions).
    pub fn as_custom(&self) -> CustomSection<'_> {
        CustomSection {
            name: CowStr::Borrowed("name"),
            bytes: CowSlice::Borrowed(self.content()),
        }
    }
}

/// A decoded subsection of a name section.
///
/// [`Items::Names`](crate::reader::Items::Names) has them.
///
/// # Examples
///
/// ```
/// use dolzhytik::fallible::{Global, read_names};
/// use dolzhytik::reader::{NameItem, Padded};
///
/// // "name"; the subsection 1, functions: size 4, one name: the index 5, "f".
/// let payload = b"\x04name\x01\x04\x01\x05\x01f";
/// let items = read_names::<Global, Padded>(payload, Global)?;
/// let NameItem::Map { id: 1, names } = &items[0] else {
///     panic!("another subsection")
/// };
/// assert_eq!(names[..], [(5, "f")]);
/// # Ok::<(), dolzhytik::reader::DecodeError>(())
/// ```
#[derive(Debug)]
#[non_exhaustive]
pub enum NameItem<'a, A: Allocator = Global> {
    /// The name of the module.
    Module(&'a str),
    /// A name map: indices of the kind that the id selects, such as functions, and their names.
    Map {
        /// The id of the subsection: 1 functions, 4 types, 5 tables, 6 memories, 7 globals, 8 element
        /// segments, 9 data segments, 11 tags.
        id: u8,
        /// The indices and the names.
        names: Vec<(u32, &'a str), A>,
    },
    /// An indirect name map: indices of the outer kind, such as functions for locals, each with the
    /// indices and names in it.
    Indirect {
        /// The id of the subsection: 2 locals of functions, 3 labels of functions, 10 fields of types,
        /// 12 parameters of function types, 13 parameters of tags.
        id: u8,
        /// The indices, and the names of each.
        maps: Vec<(u32, Vec<(u32, &'a str), A>), A>,
    },
    /// A subsection of another id.
    Other {
        /// The id of the subsection.
        id: u8,
        /// The content, without its size prefix.
        bytes: &'a [u8],
    },
}

/// The content of a subsection.
#[derive(Clone, Copy, Debug)]
pub(crate) enum NameKind {
    Module,
    Map,
    Indirect,
    Other,
}

/// Returns the content of a subsection of this id.
pub(crate) fn name_kind_of(id: u8) -> NameKind {
    match id {
        0 => NameKind::Module,
        1 | 4..=9 | 11 => NameKind::Map,
        2 | 3 | 10 | 12 | 13 => NameKind::Indirect,
        _ => NameKind::Other,
    }
}

/// Decodes the content of a subsection of this kind and id. `rest` are the bytes after the content.
fn fill_subsection<'a, A: Allocator + Copy + 'a, G: Grammar>(
    kind: NameKind,
    id: u8,
    bytes: &'a [u8],
    rest: &[u8],
    alloc: A,
) -> Result<NameItem<'a, A>, DecodeError> {
    match kind {
        NameKind::Module => {
            let name = read_before::<&'a str, A, G>(bytes, rest, alloc)?;
            Ok(NameItem::Module(name))
        }
        NameKind::Map => {
            let names = read_before::<Vec<(u32, &'a str), A>, A, G>(bytes, rest, alloc)?;
            Ok(NameItem::Map { id, names })
        }
        NameKind::Indirect => {
            let maps = read_before::<Vec<(u32, Vec<(u32, &'a str), A>), A>, A, G>(
                bytes, rest, alloc,
            )?;
            Ok(NameItem::Indirect { id, maps })
        }
        NameKind::Other => Ok(NameItem::Other { id, bytes }),
    }
}

/// # Defined
///
/// ```text
/// Value = { NameModel }
/// format = { subsection }
/// view = { name_item_view }
/// ```
///
/// Definitions: [`NameModel`](crate::definitions::custom::names::NameItem), [`subsection`](crate::definitions::custom::names::subsection), [`name_item_view`](crate::definitions::custom::names::name_item_view). [How to read clauses](crate::definitions).
impl<'a, A: Allocator> Layout for NameItem<'a, A> {
    /// # Proved
    ///
    /// A format whose encodings determine their own end is unambiguous in every mode, with encodings as `HasEncodings` states.
    ///
    /// ```text
    /// ensures { Unambiguous subsection }
    /// ```
    ///
    /// Definitions: [`Unambiguous`](crate::definitions::base::decoding::Unambiguous), [`subsection`](crate::definitions::custom::names::subsection). [How to read clauses](crate::definitions).
    fn laws() {}
}

impl<'a, A: Allocator + Copy + 'a, G: Grammar> Readable<'a, A, G> for NameItem<'a, A> {
    fn read(bytes: &'a [u8], alloc: A) -> Result<(NameItem<'a, A>, &'a [u8]), DecodeError> {
        let (id, rest) = <u8 as Readable<'a, A, G>>::read(bytes, alloc)?;
        let (content, rest) = <&'a [u8] as Readable<'a, A, G>>::read(rest, alloc)?;
        let item = fill_subsection::<A, G>(name_kind_of(id), id, content, rest, alloc)?;
        Ok((item, rest))
    }
}

/// Decodes the payload of a name section, in the grammar `G`: its subsections.
///
/// # Errors
///
/// Every error except `Memory` means that the bytes are not such a payload.
///
/// # Examples
///
/// ```
/// use dolzhytik::fallible::{Global, read_names};
/// use dolzhytik::reader::{NameItem, Padded};
///
/// // "name"; the subsection 0: size 2, the name of the module.
/// let items = read_names::<Global, Padded>(b"\x04name\0\x02\x01m", Global)?;
/// assert!(matches!(items[..], [NameItem::Module("m")]));
/// # Ok::<(), dolzhytik::reader::DecodeError>(())
/// ```
///
/// # Proved
///
/// After `Ok`: `found`, the bytes as a whole encode the value. After an error: `none`, the bytes as a whole are no such encoding, unless the cause is `Memory`.
///
/// ```text
/// ensures found { IfOk result
///     (λ x. name_payload (padded_of G.grammar) bytes.now (map name_item_view x.items)) }
/// ensures none { IfErr result
///     (λ e. e.cause ≢ Memory → RejectsWhole name_payload (padded_of G.grammar) bytes.now)
///     }
/// ```
///
/// Definitions: [`name_payload`](crate::definitions::custom::names::name_payload), [`padded_of`](crate::definitions::base::numbers::padded_of), [`name_item_view`](crate::definitions::custom::names::name_item_view), [`RejectsWhole`](crate::definitions::base::continuing::RejectsWhole). [How to read clauses](crate::definitions).
pub fn read_names<'a, A: Allocator + Copy + 'a, G: Grammar>(
    bytes: &'a [u8],
    alloc: A,
) -> Result<Vec<NameItem<'a, A>, A>, DecodeError> {
    let rest = after_name::<A, G>("name", bytes, alloc)?;
    let items = read_to_end::<'a, NameItem<'a, A>, A, G>(rest, alloc)?;
    Ok(items)
}

impl<'a, A: Allocator> NameItem<'a, A> {
    /// Returns the id of the subsection.
    fn id(&self) -> u8 {
        match self {
            NameItem::Module(_) => 0,
            NameItem::Map { id, .. } => *id,
            NameItem::Indirect { id, .. } => *id,
            NameItem::Other { id, .. } => *id,
        }
    }

    /// Appends the content of the subsection, without its size prefix.
    fn append_content<B: Sink>(&self, sink: &mut B) -> Result<()> {
        match self {
            NameItem::Module(name) => name.write_minimal(sink),
            NameItem::Map { names, .. } => names.write_minimal(sink),
            NameItem::Indirect { maps, .. } => maps.write_minimal(sink),
            NameItem::Other { bytes, .. } => {
                sink.extend_from_slice(bytes)?;
                Ok(())
            }
        }
    }
}

/// # Defined
///
/// ```text
/// grammars = { both_grammars }
/// ```
///
/// Definitions: [`both_grammars`](crate::definitions::base::minimal::Grammars). [How to read clauses](crate::definitions).
impl<'a, A: Allocator> Shorten for NameItem<'a, A> {
    fn write_minimal<B: Sink>(&self, sink: &mut B) -> Result<()> {
        self.id().encode(sink)?;
        let start = sink.len();
        self.append_content(sink)?;
        prefix_size_since(sink, start)
    }
}

/// Writes the bytes that [`append_names`] appends. After an error, part of them may follow the old
/// bytes.
fn write_names<A: Allocator, B: Sink>(
    items: &[NameItem<'_, A>],
    sink: &mut B,
) -> Result<()> {
    "name".encode(sink)?;
    append_all(items, sink)
}

/// Appends the minimal encoding of the payload of a name section of these subsections. On an error,
/// the sink is unchanged.
///
/// # Errors
///
/// Returns [`TooLong`](crate::fallible::Refused::TooLong) if a count or length would pass
/// 4294967295, and [`Memory`](crate::fallible::Refused::Memory) if an allocation fails. The
/// bytes of the sink are then unchanged.
///
/// # Examples
///
/// ```
/// use dolzhytik::fallible::{Global, append_names};
/// use dolzhytik::reader::NameItem;
///
/// let mut payload = vec![];
/// append_names::<Global, _>(&[NameItem::Module("m")], &mut payload)?;
/// assert_eq!(payload, *b"\x04name\0\x02\x01m");
/// # Ok::<(), dolzhytik::fallible::Refused>(())
/// ```
///
/// # Proved
///
/// After `Ok`: `ok`, the sink gains the encoding that is minimal in both grammars. After an error: `err`, the bytes of the sink are unchanged. In any case: `too_long`, a value that has an encoding never gives `TooLong`.
///
/// ```text
/// ensures ok { OnOk result
///     (AppendsMinimal both_grammars name_payload
///         (map name_item_view items.now) sink.old.items sink.new.items) }
/// ensures err { OnErr result (sink.new.items ≡ sink.old.items) }
/// ensures too_long { HasEncoding both_grammars name_payload (map name_item_view items.now)
///     → result ≢ Err TooLong }
/// ```
///
/// Definitions: [`AppendsMinimal`](crate::definitions::base::minimal::AppendsMinimal), [`both_grammars`](crate::definitions::base::minimal::Grammars), [`name_payload`](crate::definitions::custom::names::name_payload), [`name_item_view`](crate::definitions::custom::names::name_item_view), [`HasEncoding`](crate::definitions::base::minimal::HasEncoding). [How to read clauses](crate::definitions).
pub fn append_names<A: Allocator, B: Sink>(
    items: &[NameItem<'_, A>],
    sink: &mut B,
) -> Result<()> {
    let start = sink.len();
    let written = write_names(items, sink);
    if written.is_err() {
        sink.truncate(start);
    }
    written
}
