// Written by tools/to-rust from crates/wasm_sections/src/tag.rt: change that.
// The tag section: its builder and its reader.

use crate::vec::Sink;
use crate::sections::counted_section::{CountedSection, ItemKind, RecordOf};
use crate::alloc::{Allocator, Global};
use crate::base::{DecodeError, Encode, Grammar, Kind, Layout, Pieces, ReadFault, Readable, Result, SectionId, Store};

/// The tag section: the tags that a module defines.
///
/// ```
/// # fn example() -> Result<(), Box<dyn std::error::Error>> {
/// # use dolzhytik::{fallible::*, reader::*};
/// use dolzhytik::fallible::{Global, Module, TagKind, TagSection, TagType};
///
/// let mut module = Module::new(Global)?;
/// let mut tags = TagSection::new(Global);
/// tags.tag(TagType { kind: TagKind::Exception, func_type_idx: 0 })?;
/// module.section(&tags)?;
/// # Ok(())
/// # }
/// # example().unwrap();
/// ```
pub type TagSection<A = Global> = CountedSection<TagItems, Pieces<A>>;

/// The kind of a tag section's items: tag types.
///
/// # Examples
///
/// ```
/// use dolzhytik::fallible::{Global, ItemKind, TagItems, TagSection};
///
/// let section = TagSection::new(Global);
/// assert_eq!((section.len(), TagItems::id()), (0, 13));
/// ```
#[derive(Clone, Copy, Debug)]
pub struct TagItems;

/// It is a field of [`TagType`](crate::fallible::TagType).
///
/// # Examples
///
/// ```
/// use dolzhytik::fallible::{Global, TagKind, TagSection, TagType};
///
/// let mut tags = TagSection::new(Global);
/// tags.tag(TagType { kind: TagKind::Exception, func_type_idx: 5 })?;
/// // An exception (00) of type 5.
/// assert_eq!(tags.piece(0), Some(&[0x00, 5][..]));
/// # Ok::<(), dolzhytik::fallible::Refused>(())
/// ```
#[derive(Clone, Copy, PartialEq, Eq, Debug)]
#[repr(u8)]
pub enum TagKind {
    /// An exception: 00.
    Exception,
}

/// [`TagSection`](crate::fallible::TagSection) takes it in `tag`, and
/// [`Items::Tags`](crate::reader::Items::Tags) has them.
///
/// # Examples
///
/// ```
/// use dolzhytik::fallible::{Encode, TagKind, TagType};
///
/// let mut bytes = Vec::new();
/// TagType { kind: TagKind::Exception, func_type_idx: 5 }.encode(&mut bytes)?;
/// // An exception (00) of type 5.
/// assert_eq!(bytes, [0x00, 5]);
/// # Ok::<(), dolzhytik::fallible::Refused>(())
/// ```
#[derive(Clone, Copy, PartialEq, Eq, Debug)]
pub struct TagType {
    /// The kind of the tag.
    pub kind: TagKind,
    /// The index of a function type, whose parameters the tag carries.
    pub func_type_idx: u32,
}

impl TagKind {
    /// Returns the byte that encodes the kind.
    #[inline]
    fn byte(self) -> u8 {
        match self {
            TagKind::Exception => 0x00,
        }
    }
}

/// Encodes the kind, and the index.
///
/// # Defined
///
/// ```text
/// encoding = { tag_encoding }
/// encodable = { λ _. ⊤ }
/// ```
///
/// Definitions: [`tag_encoding`](crate::definitions::sections::tags::tag_encoding). [How to read clauses](crate::definitions).
impl Encode for TagType {
    #[inline]
    fn encode<A: Sink>(&self, sink: &mut A) -> Result<()> {
        (self.kind.byte(), self.func_type_idx).encode(sink)
    }
}

/// # Defined
///
/// ```text
/// Record = { Tag }
/// Item = { Tag }
/// kind = { tag_items }
/// ```
///
/// Definitions: [`tag_items`](crate::definitions::sections::tags::tag_items). [How to read clauses](crate::definitions).
impl Kind for TagItems {
    fn laws() {}
}

/// # Defined
///
/// ```text
/// section_id = { number_of ids.Tag }
/// ```
///
/// Definitions: [`number_of`](crate::definitions::base::section_id::number_of). [How to read clauses](crate::definitions).
impl ItemKind for TagItems {
    fn id() -> u8 {
        SectionId::Tag.into()
    }
}

impl RecordOf<TagItems> for TagType {}

impl<S: Store> CountedSection<TagItems, S> {
    /// Adds a tag of this type.
    ///
    /// # Errors
    ///
    /// Returns [`TooLong`](crate::fallible::Refused::TooLong) if the builder has 4294967295
    /// entries, and [`Memory`](crate::fallible::Refused::Memory) if an allocation fails. The
    /// builder is then unchanged.
    ///
    /// # Proved
    ///
    /// The builder gains one entry with this encoding, or the call returns an error and changes nothing. A full builder, with 2^32 - 1 entries, returns `TooLong`.
    ///
    /// ```text
    /// ensures { AddsTo S.model (tag_encoding tag_type) ⊤ self.old self.new result }
    /// ```
    ///
    /// Definitions: [`AddsTo`](crate::definitions::base::calls::AddsTo), [`tag_encoding`](crate::definitions::sections::tags::tag_encoding). [How to read clauses](crate::definitions).
    pub fn tag(&mut self, tag_type: TagType) -> Result<()> {
        self.add_record(&tag_type)
    }
}

/// # Defined
///
/// ```text
/// Value = { Kind }
/// format = { coded tag_code }
/// view = { λ kind. kind }
/// ```
///
/// Definitions: [`coded`](crate::definitions::base::formats::coded), [`tag_code`](crate::definitions::sections::tags::tag_code). [How to read clauses](crate::definitions).
impl Layout for TagKind {
    fn laws() {}
}

/// # Defined
///
/// ```text
/// may_allocate = { ⊥ }
/// ```
///
/// [How to read clauses](crate::definitions).
impl<'a, A: Allocator + Copy, G: Grammar> Readable<'a, A, G> for TagKind {
    fn read(bytes: &'a [u8], alloc: A) -> Result<(TagKind, &'a [u8]), DecodeError> {
        let (code, rest) = <u8 as Readable<'a, A, G>>::read(bytes, alloc)?;
        if code == 0x00 {
            Ok((TagKind::Exception, rest))
        } else {
            Err(ReadFault::UnknownTag.just_before(rest))
        }
    }
}

/// # Defined
///
/// ```text
/// Value = { Tag }
/// format = { tag_type }
/// view = { λ tag. tag }
/// ```
///
/// Definitions: [`tag_type`](crate::definitions::sections::tags::tag_type). [How to read clauses](crate::definitions).
impl Layout for TagType {
    fn laws() {}
}

/// # Defined
///
/// ```text
/// may_allocate = { ⊥ }
/// ```
///
/// [How to read clauses](crate::definitions).
impl<'a, A: Allocator + Copy, G: Grammar> Readable<'a, A, G> for TagType {
    fn read(bytes: &'a [u8], alloc: A) -> Result<(TagType, &'a [u8]), DecodeError> {
        let ((kind, func_type_idx), rest) = <(TagKind, u32) as Readable<'a, A, G>>::read(
            bytes, alloc,
        )?;
        let tag = TagType {
            kind,
            func_type_idx,
        };
        Ok((tag, rest))
    }
}
