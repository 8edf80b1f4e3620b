// Written by tools/to-rust from crates/wasm_types/src/walk.rt: change that.
// Types that are walked over: an effect takes their minimal encoding.

use crate::vec::{Sink, Vec};
use crate::types::fields::Mutable;
use crate::types::items::{SubItem, TypeEntry};
use crate::types::types::{FieldType, StorageType, mutability};
use crate::alloc::Allocator;
use crate::base::{DecodeError, Effect, Encode, EncodeIn, Grammar, ReadFault, Readable, ValType, Walk, read_index, walk_in};

impl<G: Grammar> Walk<G> for Mutable {
    fn walk<'a, A: Allocator + Copy, E: Effect>(
        bytes: &'a [u8],
        alloc: A,
        effect: &mut E,
    ) -> Result<&'a [u8], DecodeError> {
        let (Mutable(mutable), rest) = <Mutable as Readable<'a, A, G>>::read(bytes, alloc)?;
        effect.put(&mutability(mutable))?;
        Ok(rest)
    }
}

/// In the standard's grammar, a nullable reference to an abstract type has one byte.
///
/// # Defined
///
/// ```text
/// encoding_in = { storage_encoding_in G.grammar }
/// ```
///
/// Definitions: [`storage_encoding_in`](crate::definitions::types::rec_types::storage_encoding_in). [How to read clauses](crate::definitions).
impl<G: Grammar> EncodeIn<G> for StorageType {
    fn encode_in<A: Sink>(&self, sink: &mut A) -> crate::base::Result<()> {
        match self {
            StorageType::Val(ty) => <ValType as EncodeIn<G>>::encode_in(ty, sink),
            _ => self.encode(sink),
        }
    }

    fn minimal_in() {}
}

impl<G: Grammar> Walk<G> for StorageType {
    fn walk<'a, A: Allocator + Copy, E: Effect>(
        bytes: &'a [u8],
        alloc: A,
        effect: &mut E,
    ) -> Result<&'a [u8], DecodeError> {
        walk_in::<StorageType, A, G, _>(bytes, alloc, effect)
    }
}

impl<G: Grammar> Walk<G> for FieldType {
    fn walk<'a, A: Allocator + Copy, E: Effect>(
        bytes: &'a [u8],
        alloc: A,
        effect: &mut E,
    ) -> Result<&'a [u8], DecodeError> {
        <(StorageType, Mutable) as Walk<G>>::walk(bytes, alloc, effect)
    }
}

/// Walks over the index of a continuation's function type.
fn walk_index<'a, G: Grammar, E: Effect>(
    bytes: &'a [u8],
    effect: &mut E,
) -> Result<&'a [u8], DecodeError> {
    let (index, rest) = read_index::<G>(bytes)?;
    effect.put(&i64::from(index))?;
    Ok(rest)
}

/// Walks over an inner type after its first byte, `tag`, which was put.
fn walk_shape_after<'a, A: Allocator + Copy, G: Grammar, E: Effect>(
    tag: u8,
    bytes: &'a [u8],
    alloc: A,
    effect: &mut E,
) -> Result<&'a [u8], DecodeError> {
    match tag {
        0x60 => <(Vec<ValType, A>, Vec<ValType, A>) as Walk<G>>::walk(bytes, alloc, effect),
        0x5E => <FieldType as Walk<G>>::walk(bytes, alloc, effect),
        0x5F => <Vec<FieldType, A> as Walk<G>>::walk(bytes, alloc, effect),
        0x5D => walk_index::<G, _>(bytes, effect),
        _ => Err(ReadFault::UnknownTag.just_before(bytes)),
    }
}

/// Walks over an optional descriptor and an inner type after the first byte, `tag`, which was put.
fn walk_descriptor_after<'a, A: Allocator + Copy, G: Grammar, E: Effect>(
    tag: u8,
    bytes: &'a [u8],
    alloc: A,
    effect: &mut E,
) -> Result<&'a [u8], DecodeError> {
    if tag == 0x4D {
        let ((index, tag), rest) = <(u32, u8) as Readable<'a, A, G>>::read(bytes, alloc)?;
        effect.put(&(index, tag))?;
        walk_shape_after::<A, G, _>(tag, rest, alloc, effect)
    } else {
        walk_shape_after::<A, G, _>(tag, bytes, alloc, effect)
    }
}

/// Walks over an optional described type, an optional descriptor and an inner type after the first
/// byte, `tag`, which was put.
fn walk_describes_after<'a, A: Allocator + Copy, G: Grammar, E: Effect>(
    tag: u8,
    bytes: &'a [u8],
    alloc: A,
    effect: &mut E,
) -> Result<&'a [u8], DecodeError> {
    if tag == 0x4C {
        let ((index, tag), rest) = <(u32, u8) as Readable<'a, A, G>>::read(bytes, alloc)?;
        effect.put(&(index, tag))?;
        walk_descriptor_after::<A, G, _>(tag, rest, alloc, effect)
    } else {
        walk_descriptor_after::<A, G, _>(tag, bytes, alloc, effect)
    }
}

/// Walks over a composite type after its first byte, `tag`, which was put.
fn walk_composite_after<'a, A: Allocator + Copy, G: Grammar, E: Effect>(
    tag: u8,
    bytes: &'a [u8],
    alloc: A,
    effect: &mut E,
) -> Result<&'a [u8], DecodeError> {
    if tag == 0x65 {
        let (tag, rest) = <u8 as Readable<'a, A, G>>::read(bytes, alloc)?;
        effect.put(&tag)?;
        walk_describes_after::<A, G, _>(tag, rest, alloc, effect)
    } else {
        walk_describes_after::<A, G, _>(tag, bytes, alloc, effect)
    }
}

/// Walks over a composite type.
fn walk_composite<'a, A: Allocator + Copy, G: Grammar, E: Effect>(
    bytes: &'a [u8],
    alloc: A,
    effect: &mut E,
) -> Result<&'a [u8], DecodeError> {
    let (tag, rest) = <u8 as Readable<'a, A, G>>::read(bytes, alloc)?;
    effect.put(&tag)?;
    walk_composite_after::<A, G, _>(tag, rest, alloc, effect)
}

/// Walks over supertypes and a composite type.
fn walk_supertypes_and<'a, A: Allocator + Copy, G: Grammar, E: Effect>(
    bytes: &'a [u8],
    alloc: A,
    effect: &mut E,
) -> Result<&'a [u8], DecodeError> {
    let rest = <Vec<u32, A> as Walk<G>>::walk(bytes, alloc, effect)?;
    walk_composite::<A, G, _>(rest, alloc, effect)
}

/// Walks over a final subtype whose first byte, 0x4F, precedes the bytes, and was not put. Without
/// supertypes, which only the standard's grammar admits here, the composite type alone is put.
fn walk_final<'a, A: Allocator + Copy, G: Grammar, E: Effect>(
    bytes: &'a [u8],
    alloc: A,
    effect: &mut E,
) -> Result<&'a [u8], DecodeError> {
    let (count, after) = <u32 as Readable<'a, A, G>>::read(bytes, alloc)?;
    if count > 0 {
        effect.put(&0x4Fu8)?;
        return walk_supertypes_and::<A, G, _>(bytes, alloc, effect);
    }
    if !G::is_standard() {
        return Err(ReadFault::UnknownTag.just_before(after));
    }
    walk_composite::<A, G, _>(after, alloc, effect)
}

impl<G: Grammar, C: Allocator> Walk<G> for SubItem<C> {
    fn walk<'a, A: Allocator + Copy, E: Effect>(
        bytes: &'a [u8],
        alloc: A,
        effect: &mut E,
    ) -> Result<&'a [u8], DecodeError> {
        let (tag, rest) = <u8 as Readable<'a, A, G>>::read(bytes, alloc)?;
        if tag == 0x4F {
            return walk_final::<A, G, _>(rest, alloc, effect);
        }
        effect.put(&tag)?;
        if tag == 0x50 {
            walk_supertypes_and::<A, G, _>(rest, alloc, effect)
        } else {
            walk_composite_after::<A, G, _>(tag, rest, alloc, effect)
        }
    }
}

impl<G: Grammar, C: Allocator> Walk<G> for TypeEntry<C> {
    fn walk<'a, A: Allocator + Copy, E: Effect>(
        bytes: &'a [u8],
        alloc: A,
        effect: &mut E,
    ) -> Result<&'a [u8], DecodeError> {
        let (tag, rest) = <u8 as Readable<'a, A, G>>::read(bytes, alloc)?;
        if tag == 0x4E {
            effect.put(&tag)?;
            <Vec<SubItem<C>, C> as Walk<G>>::walk(rest, alloc, effect)
        } else {
            <SubItem<C> as Walk<G>>::walk(bytes, alloc, effect)
        }
    }
}
