// Written by tools/to-rust from crates/wasm_types/src/shapes.rt: change that.
// Decoding of composite types.

use crate::vec::Vec;
use crate::types::types::{ArrayType, CompositeInnerType, CompositeType, ContType, FieldType, FuncType, StructType};
use crate::alloc::Allocator;
use crate::base::{DecodeError, Grammar, ReadFault, Readable, ValType, read_index};

/// Decodes an inner type after its first byte, `tag`.
fn read_shape_after<'a, A: Allocator + Copy, G: Grammar>(
    tag: u8,
    bytes: &'a [u8],
    alloc: A,
) -> Result<(CompositeInnerType<A>, &'a [u8]), DecodeError> {
    match tag {
        0x60 => {
            let ((params, results), rest) = <(Vec<ValType, A>, Vec<ValType, A>) as Readable<
                'a,
                A,
                G,
            >>::read(bytes, alloc)?;
            Ok((
                CompositeInnerType::Func(FuncType::of(params, results)),
                rest,
            ))
        }
        0x5E => {
            let (field, rest) = <FieldType as Readable<'a, A, G>>::read(bytes, alloc)?;
            Ok((CompositeInnerType::Array(ArrayType(field)), rest))
        }
        0x5F => {
            let (fields, rest) = <Vec<FieldType, A> as Readable<'a, A, G>>::read(bytes, alloc)?;
            Ok((CompositeInnerType::Struct(StructType { fields }), rest))
        }
        0x5D => {
            let (index, rest) = read_index::<G>(bytes)?;
            Ok((CompositeInnerType::Cont(ContType(index)), rest))
        }
        _ => Err(ReadFault::UnknownTag.just_before(bytes)),
    }
}

/// Decodes an optional descriptor and an inner type after the first byte, `tag`.
fn read_descriptor_after<'a, A: Allocator + Copy, G: Grammar>(
    tag: u8,
    bytes: &'a [u8],
    alloc: A,
) -> Result<((Option<u32>, CompositeInnerType<A>), &'a [u8]), DecodeError> {
    if tag == 0x4D {
        let ((index, tag), rest) = <(u32, u8) as Readable<'a, A, G>>::read(bytes, alloc)?;
        let (inner, rest) = read_shape_after::<A, G>(tag, rest, alloc)?;
        Ok(((Some(index), inner), rest))
    } else {
        let (inner, rest) = read_shape_after::<A, G>(tag, bytes, alloc)?;
        Ok(((None, inner), rest))
    }
}

/// Decodes an optional described type, an optional descriptor and an inner type after the first
/// byte, `tag`.
fn read_describes_after<'a, A: Allocator + Copy, G: Grammar>(
    tag: u8,
    bytes: &'a [u8],
    alloc: A,
) -> Result<
    (
        (Option<u32>, (Option<u32>, CompositeInnerType<A>)),
        &'a [u8],
    ),
    DecodeError,
> {
    if tag == 0x4C {
        let ((index, tag), rest) = <(u32, u8) as Readable<'a, A, G>>::read(bytes, alloc)?;
        let (inner, rest) = read_descriptor_after::<A, G>(tag, rest, alloc)?;
        Ok(((Some(index), inner), rest))
    } else {
        let (inner, rest) = read_descriptor_after::<A, G>(tag, bytes, alloc)?;
        Ok(((None, inner), rest))
    }
}

/// Decodes a composite type after its first byte, `tag`.
pub(crate) fn read_composite_after<'a, A: Allocator + Copy, G: Grammar>(
    tag: u8,
    bytes: &'a [u8],
    alloc: A,
) -> Result<(CompositeType<A>, &'a [u8]), DecodeError> {
    if tag == 0x65 {
        let (tag, rest) = <u8 as Readable<'a, A, G>>::read(bytes, alloc)?;
        let ((describes, (descriptor, inner)), rest) = read_describes_after::<A, G>(
            tag, rest, alloc,
        )?;
        let composite = CompositeType {
            inner,
            shared: true,
            descriptor,
            describes,
        };
        Ok((composite, rest))
    } else {
        let ((describes, (descriptor, inner)), rest) = read_describes_after::<A, G>(
            tag, bytes, alloc,
        )?;
        let composite = CompositeType {
            inner,
            shared: false,
            descriptor,
            describes,
        };
        Ok((composite, rest))
    }
}

/// Decodes a composite type.
pub(crate) fn read_composite<'a, A: Allocator + Copy, G: Grammar>(
    bytes: &'a [u8],
    alloc: A,
) -> Result<(CompositeType<A>, &'a [u8]), DecodeError> {
    let (tag, rest) = <u8 as Readable<'a, A, G>>::read(bytes, alloc)?;
    read_composite_after::<A, G>(tag, rest, alloc)
}
