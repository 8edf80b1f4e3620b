// Written by tools/to-rust from crates/wasm_types/src/items.rt: change that.
// Entries of a type section, subtypes and recursion groups: decoded, and encoded again.

use crate::vec::{Sink, Vec};
use crate::types::shapes::{read_composite, read_composite_after};
use crate::types::types::CompositeType;
use crate::alloc::{Allocator, Global};
use crate::base::{DecodeError, Encode, Grammar, Layout, Lent, ReadFault, Readable, Result};

/// A decoded subtype: its supertypes, and whether it is final, so that it can have no subtypes.
///
/// It is a case of [`TypeEntry`](crate::reader::TypeEntry).
///
/// # Examples
///
/// ```
/// use dolzhytik::fallible::Global;
/// use dolzhytik::reader::{Padded, Readable, SubItem};
///
/// // Not final: 50. One supertype, 5. A function without parameters and results.
/// let bytes = [0x50, 1, 5, 0x60, 0, 0];
/// let (ty, _) = <SubItem as Readable<Global, Padded>>::read(&bytes, Global)?;
/// assert_eq!((ty.is_final, &ty.supertypes[..]), (false, &[5][..]));
/// # Ok::<(), dolzhytik::reader::DecodeError>(())
/// ```
#[derive(Debug)]
pub struct SubItem<A: Allocator = Global> {
    /// Whether the type has no subtypes.
    pub is_final: bool,
    /// The indices of its supertypes.
    pub supertypes: Vec<u32, A>,
    /// The type itself.
    pub composite_type: CompositeType<A>,
}

/// A decoded entry of a type section.
///
/// [`Items::Types`](crate::reader::Items::Types) has them.
///
/// # Examples
///
/// ```
/// use dolzhytik::fallible::Global;
/// use dolzhytik::reader::{Padded, Readable, TypeEntry};
///
/// // A group (4E) of two functions without parameters and results.
/// let bytes = [0x4E, 2, 0x60, 0, 0, 0x60, 0, 0];
/// let (entry, _) = <TypeEntry as Readable<Global, Padded>>::read(&bytes, Global)?;
/// let TypeEntry::Group(types) = entry else { panic!("one type") };
/// assert_eq!(types.len(), 2);
/// # Ok::<(), dolzhytik::reader::DecodeError>(())
/// ```
#[derive(Debug)]
pub enum TypeEntry<A: Allocator = Global> {
    /// One type.
    Single(SubItem<A>),
    /// A recursion group: types that may refer to one another.
    Group(Vec<SubItem<A>, A>),
}

/// Decodes supertypes, and a composite type.
fn read_supertypes_and<'a, A: Allocator + Copy, G: Grammar>(
    bytes: &'a [u8],
    alloc: A,
) -> Result<(Vec<u32, A>, CompositeType<A>, &'a [u8]), DecodeError> {
    let (supertypes, rest) = <Vec<u32, A> as Readable<'a, A, G>>::read(bytes, alloc)?;
    let (composite_type, rest) = read_composite::<A, G>(rest, alloc)?;
    Ok((supertypes, composite_type, rest))
}

/// Decodes the supertypes of a final type, and its composite type. Only the standard's grammar has
/// an empty vector of supertypes here.
fn read_final_and<'a, A: Allocator + Copy, G: Grammar>(
    bytes: &'a [u8],
    alloc: A,
) -> Result<(Vec<u32, A>, CompositeType<A>, &'a [u8]), DecodeError> {
    let (supertypes, rest) = <Vec<u32, A> as Readable<'a, A, G>>::read(bytes, alloc)?;
    if supertypes.is_empty() && !G::is_standard() {
        return Err(ReadFault::UnknownTag.just_before(rest));
    }
    let (composite_type, rest) = read_composite::<A, G>(rest, alloc)?;
    Ok((supertypes, composite_type, rest))
}

/// Decodes a subtype after its first byte, `tag`.
fn read_sub_after<'a, A: Allocator + Copy, G: Grammar>(
    tag: u8,
    bytes: &'a [u8],
    alloc: A,
) -> Result<(SubItem<A>, &'a [u8]), DecodeError> {
    match tag {
        0x50 => {
            let (supertypes, composite_type, rest) = read_supertypes_and::<A, G>(bytes, alloc)?;
            let sub = SubItem {
                is_final: false,
                supertypes,
                composite_type,
            };
            Ok((sub, rest))
        }
        0x4F => {
            let (supertypes, composite_type, rest) = read_final_and::<A, G>(bytes, alloc)?;
            let sub = SubItem {
                is_final: true,
                supertypes,
                composite_type,
            };
            Ok((sub, rest))
        }
        _ => {
            let (composite_type, rest) = read_composite_after::<A, G>(tag, bytes, alloc)?;
            let sub = SubItem {
                is_final: true,
                supertypes: Vec::new(alloc),
                composite_type,
            };
            Ok((sub, rest))
        }
    }
}

/// # Defined
///
/// ```text
/// Value = { Sub }
/// format = { sub_type }
/// view = { sub_view }
/// ```
///
/// Definitions: [`Sub`](crate::definitions::types::rec_types::Sub), [`sub_type`](crate::definitions::types::rec_types::sub_type), [`sub_view`](crate::definitions::types::items::sub_view). [How to read clauses](crate::definitions).
impl<A: Allocator> Layout for SubItem<A> {
    fn laws() {}
}

impl<'a, A: Allocator + Copy, G: Grammar> Readable<'a, A, G> for SubItem<A> {
    fn read(bytes: &'a [u8], alloc: A) -> Result<(SubItem<A>, &'a [u8]), DecodeError> {
        let (tag, rest) = <u8 as Readable<'a, A, G>>::read(bytes, alloc)?;
        read_sub_after::<A, G>(tag, rest, alloc)
    }
}

/// # Defined
///
/// ```text
/// Value = { Entry }
/// format = { type_item }
/// view = { entry_view }
/// ```
///
/// Definitions: [`Entry`](crate::definitions::types::rec_types::TypeItem), [`type_item`](crate::definitions::types::rec_types::type_item), [`entry_view`](crate::definitions::types::items::entry_view). [How to read clauses](crate::definitions).
impl<A: Allocator> Layout for TypeEntry<A> {
    fn laws() {}
}

impl<'a, A: Allocator + Copy, G: Grammar> Readable<'a, A, G> for TypeEntry<A> {
    fn read(bytes: &'a [u8], alloc: A) -> Result<(TypeEntry<A>, &'a [u8]), DecodeError> {
        let (tag, rest) = <u8 as Readable<'a, A, G>>::read(bytes, alloc)?;
        if tag == 0x4E {
            let (types, rest) = <Vec<SubItem<A>, A> as Readable<'a, A, G>>::read(rest, alloc)?;
            Ok((TypeEntry::Group(types), rest))
        } else {
            let (sub, rest) = read_sub_after::<A, G>(tag, rest, alloc)?;
            Ok((TypeEntry::Single(sub), rest))
        }
    }
}

/// Encodes the subtype's prefix, if it needs one, and the composite type.
///
/// # Defined
///
/// ```text
/// encoding = { λ s. sub_encoding (sub_view s) }
/// encodable = { IsEncodableSubItem }
/// ```
///
/// Definitions: [`sub_encoding`](crate::definitions::types::rec_types::sub_encoding), [`sub_view`](crate::definitions::types::items::sub_view), [`IsEncodableSubItem`](crate::definitions::types::items::IsEncodableSubItem). [How to read clauses](crate::definitions).
impl<A: Allocator> Encode for SubItem<A> {
    fn encode<B: Sink>(&self, sink: &mut B) -> Result<()> {
        if !self.is_final {
            return (
                0x50u8,
                self.supertypes.as_slice(),
                Lent(&self.composite_type),
            )
                .encode(sink);
        }
        if self.supertypes.is_empty() {
            return self.composite_type.encode(sink);
        }
        (
            0x4Fu8,
            self.supertypes.as_slice(),
            Lent(&self.composite_type),
        )
            .encode(sink)
    }
}

/// Encodes a subtype, or a byte and the vector of subtypes.
///
/// # Defined
///
/// ```text
/// encoding = { entry_encoding }
/// encodable = { IsEncodableEntry }
/// ```
///
/// Definitions: [`entry_encoding`](crate::definitions::types::items::entry_encoding), [`IsEncodableEntry`](crate::definitions::types::items::IsEncodableEntry). [How to read clauses](crate::definitions).
impl<A: Allocator> Encode for TypeEntry<A> {
    fn encode<B: Sink>(&self, sink: &mut B) -> Result<()> {
        match self {
            TypeEntry::Single(sub) => sub.encode(sink),
            TypeEntry::Group(subs) => (0x4Eu8, subs.as_slice()).encode(sink),
        }
    }
}
