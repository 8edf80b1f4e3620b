// Written by tools/to-rust from crates/wasm_custom/src/comdats.rt: change that.
// The COMDAT groups of a linking section: their builders, their reader and their minimizer.

use crate::vec::{Sink, Vec};
use crate::custom::lists::{CountedList, ListKind};
use crate::alloc::{Allocator, Global};
use crate::base::{DecodeError, Encode, Grammar, Layout, Lent, Pieces, Readable, Result, Shorten, Store};

/// The members of a COMDAT group, in the order in which they are added.
///
/// [`Comdats`](crate::fallible::Comdats) takes it.
///
/// # Examples
///
/// ```
/// use dolzhytik::fallible::{ComdatSymbols, Encode, Global};
///
/// let mut members = ComdatSymbols::new(Global);
/// members.symbol(1, 7)?;
/// let mut bytes = vec![];
/// members.encode(&mut bytes)?;
/// // One member: a function (1) of the index 7.
/// assert_eq!(bytes, [1, 1, 7]);
/// # Ok::<(), dolzhytik::fallible::Refused>(())
/// ```
pub type ComdatSymbols<A = Global> = CountedList<ComdatSymbolMembers, Pieces<A>>;

/// The kind of the members of a list of a group's members.
///
/// # Examples
///
/// ```
/// use dolzhytik::fallible::{ComdatSymbolMembers, ComdatSymbols, Global, ListKind};
///
/// let list = ComdatSymbols::new(Global);
/// assert_eq!((list.len(), ComdatSymbolMembers::subsection()), (0, None));
/// ```
#[derive(Clone, Copy, Debug)]
pub struct ComdatSymbolMembers;

/// # Defined
///
/// ```text
/// Member = { ComdatSymbolModel }
/// member_encoding = { comdat_symbol_encoding }
/// is_member = { IsComdatSymbol }
/// subsection = { None }
/// ```
///
/// Definitions: [`comdat_symbol_encoding`](crate::definitions::custom::comdats::comdat_symbol_encoding), [`IsComdatSymbol`](crate::definitions::custom::comdats::IsComdatSymbol). [How to read clauses](crate::definitions).
impl ListKind for ComdatSymbolMembers {
    fn subsection() -> Option<u8> {
        None
    }
}

impl<S: Store> CountedList<ComdatSymbolMembers, S> {
    /// Adds a member of this kind, with its index among those of the kind. The kind is 0 for a data
    /// segment, 1 for a function, 2 for a global, 3 for a tag, 4 for a table, and 5 for a section.
    ///
    /// # Errors
    ///
    /// Returns [`TooLong`](crate::fallible::Refused::TooLong) if the builder has 4294967295
    /// entries, and [`Memory`](crate::fallible::Refused::Memory) if an allocation fails. The
    /// builder is then unchanged.
    ///
    /// # Proved
    ///
    /// The builder gains one entry with this encoding, or the call returns an error and changes nothing. A full builder, with 2^32 - 1 entries, returns `TooLong`.
    ///
    /// ```text
    /// ensures { AddsTo S.model (kind ∷ unsigned_encoding index) ⊤ self.old self.new result }
    /// ```
    ///
    /// Definitions: [`AddsTo`](crate::definitions::base::calls::AddsTo), [`unsigned_encoding`](crate::definitions::base::numbers::unsigned_encoding). [How to read clauses](crate::definitions).
    pub fn symbol(&mut self, kind: u8, index: u32) -> Result<()> {
        self.add_record(&(kind, index))
    }
}

/// The COMDAT groups of a module, in the order in which they are added. They are encoded as
/// subsection 7 of a linking section.
///
/// ```
/// # fn example() -> Result<(), Box<dyn std::error::Error>> {
/// # use dolzhytik::{fallible::*, reader::*};
/// use dolzhytik::fallible::{ComdatSymbols, Comdats, Global};
///
/// let mut members = ComdatSymbols::new(Global);
/// members.symbol(1, 0)?;
/// let mut comdats = Comdats::new(Global);
/// comdats.comdat("_Z1fIiET_S0_", 0, &members)?;
/// # Ok(())
/// # }
/// # example().unwrap();
/// ```
pub type Comdats<A = Global> = CountedList<ComdatMembers, Pieces<A>>;

/// The kind of the members of a list of groups.
///
/// # Examples
///
/// ```
/// use dolzhytik::fallible::{ComdatMembers, Comdats, Global, ListKind};
///
/// let list = Comdats::new(Global);
/// assert_eq!((list.len(), ComdatMembers::subsection()), (0, Some(7)));
/// ```
#[derive(Clone, Copy, Debug)]
pub struct ComdatMembers;

/// # Defined
///
/// ```text
/// Member = { ComdatModel }
/// member_encoding = { comdat_encoding }
/// is_member = { IsComdat }
/// subsection = { Some 7 }
/// ```
///
/// Definitions: [`ComdatModel`](crate::definitions::custom::comdats::Comdat), [`comdat_encoding`](crate::definitions::custom::comdats::comdat_encoding), [`IsComdat`](crate::definitions::custom::comdats::IsComdat). [How to read clauses](crate::definitions).
impl ListKind for ComdatMembers {
    fn subsection() -> Option<u8> {
        Some(7)
    }
}

impl<S: Store> CountedList<ComdatMembers, S> {
    /// Adds a group. In the tool conventions, `flags` are 0.
    ///
    /// # Errors
    ///
    /// Returns [`TooLong`](crate::fallible::Refused::TooLong) if the builder has 4294967295
    /// entries, or if a count or length would pass 4294967295, and
    /// [`Memory`](crate::fallible::Refused::Memory) if an allocation fails. The builder is then
    /// unchanged.
    ///
    /// # Proved
    ///
    /// The builder gains one entry with this encoding, or the call returns an error and changes nothing. A full builder, with 2^32 - 1 entries, returns `TooLong`.
    ///
    /// ```text
    /// ensures { AddsTo S.model
    ///     (size_prefixed_encoding name.now
    ///         ++ (unsigned_encoding flags ++ list_encoding (T.model.joins symbols.now)))
    ///     (HasEncodableSize name.now) self.old self.new result }
    /// ```
    ///
    /// Definitions: [`AddsTo`](crate::definitions::base::calls::AddsTo), [`size_prefixed_encoding`](crate::definitions::base::encodings::size_prefixed_encoding), [`unsigned_encoding`](crate::definitions::base::numbers::unsigned_encoding), [`list_encoding`](crate::definitions::custom::lists::list_encoding), [`HasEncodableSize`](crate::definitions::base::encodings::HasEncodableSize). [How to read clauses](crate::definitions).
    pub fn comdat<T: Store>(
        &mut self,
        name: &str,
        flags: u32,
        symbols: &CountedList<ComdatSymbolMembers, T>,
    ) -> Result<()> {
        symbols.members_law();
        self.add_record(&(name, flags, Lent(symbols)))
    }
}

/// A member of a COMDAT group.
///
/// It is a member of [`Comdat`](crate::fallible::Comdat).
///
/// # Examples
///
/// ```
/// use dolzhytik::fallible::{ComdatSymbol, Global};
/// use dolzhytik::reader::{Readable, Standard};
///
/// // A function (1) of the index 7.
/// let (member, _) =
///     <ComdatSymbol as Readable<Global, Standard>>::read(&[1, 7], Global)?;
/// assert_eq!((member.kind, member.index), (1, 7));
/// # Ok::<(), dolzhytik::reader::DecodeError>(())
/// ```
#[derive(Clone, Copy, Debug)]
pub struct ComdatSymbol {
    /// The kind of the member: 0 is a data segment, 1 a function, 2 a global, 3 a tag, 4 a table,
    /// 5 a section.
    pub kind: u8,
    /// The index of the member among those of its kind.
    pub index: u32,
}

/// # Defined
///
/// ```text
/// Value = { ComdatSymbolModel }
/// format = { comdat_symbol }
/// view = { λ symbol. symbol }
/// ```
///
/// Definitions: [`comdat_symbol`](crate::definitions::custom::comdats::comdat_symbol). [How to read clauses](crate::definitions).
impl Layout for ComdatSymbol {
    fn laws() {}
}

/// # Defined
///
/// ```text
/// may_allocate = { ⊥ }
/// ```
///
/// [How to read clauses](crate::definitions).
impl<'a, A: Allocator + Copy, G: Grammar> Readable<'a, A, G> for ComdatSymbol {
    fn read(bytes: &'a [u8], alloc: A) -> Result<(ComdatSymbol, &'a [u8]), DecodeError> {
        let ((kind, index), rest) = <(u8, u32) as Readable<'a, A, G>>::read(bytes, alloc)?;
        Ok((ComdatSymbol { kind, index }, rest))
    }
}

/// # Defined
///
/// ```text
/// grammars = { both_grammars }
/// ```
///
/// Definitions: [`both_grammars`](crate::definitions::base::minimal::Grammars). [How to read clauses](crate::definitions).
impl Shorten for ComdatSymbol {
    fn write_minimal<B: Sink>(&self, sink: &mut B) -> Result<()> {
        self.kind.encode(sink)?;
        self.index.write_minimal(sink)
    }
}

/// A decoded COMDAT group: a linker keeps the members of one group of this name, and discards those
/// of the others.
///
/// It is an item of [`LinkItem::Comdats`](crate::reader::LinkItem::Comdats).
///
/// # Examples
///
/// ```
/// use dolzhytik::fallible::{Comdat, Global};
/// use dolzhytik::reader::{Readable, Standard};
///
/// // "f", no flags, one member: a function (1) of the index 7.
/// let bytes = [1, b'f', 0, 1, 1, 7];
/// let (group, _) = <Comdat as Readable<Global, Standard>>::read(&bytes, Global)?;
/// assert_eq!(
///     (group.name, group.symbols[0].kind, group.symbols[0].index),
///     ("f", 1, 7)
/// );
/// # Ok::<(), dolzhytik::reader::DecodeError>(())
/// ```
#[derive(Debug)]
pub struct Comdat<'a, A: Allocator = Global> {
    /// The name of the group.
    pub name: &'a str,
    /// 0 in the tool conventions.
    pub flags: u32,
    /// The members.
    pub symbols: Vec<ComdatSymbol, A>,
}

/// # Defined
///
/// ```text
/// Value = { ComdatModel }
/// format = { comdat }
/// view = { comdat_view }
/// ```
///
/// Definitions: [`ComdatModel`](crate::definitions::custom::comdats::Comdat), [`comdat`](crate::definitions::custom::comdats::comdat), [`comdat_view`](crate::definitions::custom::comdats::comdat_view). [How to read clauses](crate::definitions).
impl<'a, A: Allocator> Layout for Comdat<'a, A> {
    /// # Proved
    ///
    /// A format whose encodings determine their own end is unambiguous in every mode, with encodings as `HasEncodings` states.
    ///
    /// ```text
    /// ensures { Unambiguous comdat }
    /// ```
    ///
    /// Definitions: [`Unambiguous`](crate::definitions::base::decoding::Unambiguous), [`comdat`](crate::definitions::custom::comdats::comdat). [How to read clauses](crate::definitions).
    fn laws() {}
}

impl<'a, A: Allocator + Copy + 'a, G: Grammar> Readable<'a, A, G> for Comdat<'a, A> {
    fn read(bytes: &'a [u8], alloc: A) -> Result<(Comdat<'a, A>, &'a [u8]), DecodeError> {
        let ((name, (flags, symbols)), rest) = <(&'a str, (u32, Vec<ComdatSymbol, A>)) as Readable<
            'a,
            A,
            G,
        >>::read(bytes, alloc)?;
        let comdat = Comdat {
            name,
            flags,
            symbols,
        };
        Ok((comdat, rest))
    }
}

/// # Defined
///
/// ```text
/// grammars = { both_grammars }
/// ```
///
/// Definitions: [`both_grammars`](crate::definitions::base::minimal::Grammars). [How to read clauses](crate::definitions).
impl<'a, A: Allocator> Shorten for Comdat<'a, A> {
    fn write_minimal<B: Sink>(&self, sink: &mut B) -> Result<()> {
        self.name.write_minimal(sink)?;
        self.flags.write_minimal(sink)?;
        self.symbols.write_minimal(sink)
    }
}
