// Written by tools/to-rust from crates/wasm_custom/src/lists.rt: change that.
// Counted lists, each of which is one argument of a call that adds to a section or to another list.

use crate::vec::Sink;
use crate::custom::subsections::{Content, Subsection};
use core::marker::PhantomData;
use crate::base::{Encode, NewStore, Pieces, Property, Result, Store, encoding_size};

/// A kind of members of a list, and their encoding.
///
/// [`CountedList`](crate::fallible::CountedList) takes it as a type argument.
///
/// # Examples
///
/// ```
/// use dolzhytik::fallible::{ListKind, NameMembers, SymbolMembers};
///
/// // A symbol table is the subsection 8 of a linking section.
/// assert_eq!(
///     (SymbolMembers::subsection(), NameMembers::subsection()),
///     (Some(8), None)
/// );
/// ```
///
/// # Defined
///
/// ```text
/// // The argument of an adding call.
/// Member: { Type 0 }
/// // `member_encoding`: the encoding of a member.
/// member_encoding: { Member → List ℕ }
/// // A property of each member that is added.
/// is_member: { Member → Type 0 }
/// // The id of the subsection that a list is encoded as, or `None` if the encoding is the
/// // vector alone.
/// subsection: { Option ℕ }
/// ```
///
/// [How to read clauses](crate::definitions).
pub trait ListKind {
    /// Returns the id of the subsection, or `None`.
    ///
    /// # Proved
    ///
    /// ```text
    /// ensures { result ≡ subsection }
    /// ```
    ///
    /// [How to read clauses](crate::definitions).
    fn subsection() -> Option<u8>;
}

/// The pieces are the encodings of a list of members of the kind `K`.
#[derive(Clone, Copy, Debug)]
pub struct MembersOf<K>(PhantomData<K>);

/// # Defined
///
/// ```text
/// Items = { Unit {0} }
/// says = { λ pieces _. ContainsList K.member_encoding K.is_member pieces }
/// ```
///
/// Definitions: [`ContainsList`](crate::definitions::custom::lists::ContainsList). [How to read clauses](crate::definitions).
impl<K: ListKind> Property for MembersOf<K> {}

/// A list of counted members of the kind `K`, whose entries a store of the type `S` keeps.
///
/// It is a list in a custom section, such as [`NameMap`](crate::fallible::NameMap). The calls
/// that add members are those of the kind `K`.
///
/// # Errors
///
/// An adding call that returns an error leaves the list unchanged. The error is `TooLong` only if
/// the list is full or the member does not fit, and `Memory` only if an allocation fails.
///
/// # Examples
///
/// ```
/// use dolzhytik::fallible::{Encode, Global, NameMap};
///
/// let mut names = NameMap::new(Global);
/// names.append(5, "f")?;
/// let mut bytes = vec![];
/// names.encode(&mut bytes)?;
/// // One name: the index 5, "f".
/// assert_eq!(bytes, *b"\x01\x05\x01f");
/// # Ok::<(), dolzhytik::fallible::Refused>(())
/// ```
#[derive(Debug)]
pub struct CountedList<K: ListKind, S: Store = Pieces> {
    pub(crate) entries: S, pub(crate) kind: PhantomData<K>,
}

/// Invariant: the entries are the encodings of a list of members.

impl<K: ListKind, S: Store> CountedList<K, S> {
    /// Returns the number of entries.
    ///
    /// # Proved
    ///
    /// ```text
    /// ensures { result ≡ (S.model.joins self.now).number }
    /// ```
    ///
    /// [How to read clauses](crate::definitions).
    pub fn len(&self) -> u32 {
        self.entries.count()
    }

    /// Returns `true` if there are no entries.
    ///
    /// # Proved
    ///
    /// ```text
    /// ensures { IsTrue result ↔ ((S.model.joins self.now).number ≡ 0) }
    /// ```
    ///
    /// [How to read clauses](crate::definitions).
    pub fn is_empty(&self) -> bool {
        self.entries.count() == 0
    }

    /// Adds the encoding of the record as an entry.
    pub(crate) fn add_record<T: Encode>(&mut self, given: &T) -> Result<()> {
        S::grows::<MembersOf<K>>();
        self.entries.add_item(given)?;
        Ok(())
    }

    /// Proves that the entries are the encodings of a list of members. The function does nothing.
    ///
    /// # Proved
    ///
    /// `cut`: Some pieces, as many as there are entries, join to the content and have the property.
    ///
    /// ```text
    /// ensures entries { S.model.holds
    ///     (λ pieces. ContainsList K.member_encoding K.is_member pieces) self.now }
    /// ensures cut { Cut (λ pieces. ContainsList K.member_encoding K.is_member pieces)
    ///     (S.model.joins self.now) }
    /// ```
    ///
    /// Definitions: [`ContainsList`](crate::definitions::custom::lists::ContainsList), [`Cut`](crate::definitions::base::stores::Cut). [How to read clauses](crate::definitions).
    pub fn members_law(&self) {
        self.entries.cut::<MembersOf<K>>();
    }
}

impl<K: ListKind, S: NewStore> CountedList<K, S> {
    /// Returns a list without entries, and allocates nothing.
    ///
    /// # Proved
    ///
    /// ```text
    /// ensures { result ≡ S.none }
    /// ```
    ///
    /// [How to read clauses](crate::definitions).
    pub fn new(alloc: S::Alloc) -> Self {
        S::begins::<MembersOf<K>>();
        CountedList {
            entries: S::new_in(alloc),
            kind: PhantomData,
        }
    }

    /// Returns a list of the same entries, in memory of its own.
    ///
    /// # Errors
    ///
    /// Returns [`Memory`](crate::fallible::Refused::Memory) if an allocation fails.
    ///
    /// # Proved
    ///
    /// After `Ok`: `same`, the result equals the value. In any case: `memory`, no error is `TooLong`.
    ///
    /// ```text
    /// ensures same { IfOk result (λ l. l ≡ self.now) }
    /// ensures memory { result ≢ Err TooLong }
    /// ```
    ///
    /// [How to read clauses](crate::definitions).
    pub fn clone(&self) -> Result<Self> {
        Ok(CountedList {
            entries: self.entries.copy()?,
            kind: PhantomData,
        })
    }
}

/// The vector of a list's entries, as a component of an encoding.
#[derive(Clone, Copy)]
pub(crate) struct Entries<'a, K: ListKind, S: Store>(pub &'a CountedList<K, S>);

/// # Defined
///
/// ```text
/// encoding = { λ entries. list_encoding (S.model.joins entries.0.now) }
/// encodable = { λ _. ⊤ }
/// ```
///
/// Definitions: [`list_encoding`](crate::definitions::custom::lists::list_encoding). [How to read clauses](crate::definitions).
impl<K: ListKind, S: Store> Encode for Entries<'_, K, S> {
    fn encode<B: Sink>(&self, sink: &mut B) -> Result<()> {
        let list = self.0;
        let entries = &list.entries;
        let count = entries.count();
        let content = entries.content();
        sink.reserve(encoding_size(count).saturating_add(content.len()))?;
        count.encode(sink).unwrap();
        sink.extend_from_slice(content).unwrap();
        Ok(())
    }
}

impl<K: ListKind, S: Store> Content for Entries<'_, K, S> {
    fn size(&self) -> usize {
        let list = self.0;
        let entries = &list.entries;
        encoding_size(entries.count()).saturating_add(entries.content().len())
    }
}

/// Encodes the vector of the entries: alone, or as the content of the kind's subsection.
///
/// # Defined
///
/// ```text
/// encoding = { λ list. listed_encoding K.subsection (S.model.joins list) }
/// encodable = { λ list. IsEncodableList K.subsection (S.model.joins list) }
/// ```
///
/// Definitions: [`listed_encoding`](crate::definitions::custom::lists::listed_encoding), [`IsEncodableList`](crate::definitions::custom::lists::IsEncodableList). [How to read clauses](crate::definitions).
impl<K: ListKind, S: Store> Encode for CountedList<K, S> {
    fn encode<B: Sink>(&self, sink: &mut B) -> Result<()> {
        let entries = Entries(self);
        match K::subsection() {
            None => entries.encode(sink),
            Some(id) => Subsection {
                id,
                content: &entries,
            }
            .encode(sink),
        }
    }
}
