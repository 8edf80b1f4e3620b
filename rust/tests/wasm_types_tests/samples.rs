// Written by tools/to-rust from tests/wasm_types_tests/src/samples.rtt: change that.
// Types that the tests add.

use dolzhytik::fallible::Vec;
use dolzhytik::fallible::Allocator;
use dolzhytik::fallible::{Result, ValType};
use dolzhytik::fallible::{ArrayType, CompositeInnerType, CompositeType, ContType, FieldType, FuncType, StorageType, StructType, SubType};

/// A mutable byte.
pub(crate) const BYTE: FieldType = FieldType {
    element_type: StorageType::I8,
    mutable: true,
};

/// An immutable float.
pub(crate) const FLOAT: FieldType = FieldType {
    element_type: StorageType::Val(ValType::F64),
    mutable: false,
};

/// Returns this composite type: not shared, and without indices.
pub(crate) fn plain<A: Allocator>(inner: CompositeInnerType<A>) -> CompositeType<A> {
    CompositeType {
        inner,
        shared: false,
        descriptor: None,
        describes: None,
    }
}

/// Returns an array of bytes.
pub(crate) fn bytes<A: Allocator>() -> CompositeType<A> {
    plain(CompositeInnerType::Array(ArrayType(BYTE)))
}

/// Returns the continuation of the function type 63.
pub(crate) fn continuation<A: Allocator>() -> CompositeType<A> {
    plain(CompositeInnerType::Cont(ContType(63)))
}

/// Returns a structure of a byte and a float.
pub(crate) fn structure<A: Allocator + Copy>(alloc: A) -> Result<StructType<A>> {
    Ok(StructType {
        fields: Vec::from_slice(alloc, &[BYTE, FLOAT])?,
    })
}

/// Returns a function of two numbers that returns one.
pub(crate) fn function<A: Allocator + Copy>(alloc: A) -> Result<FuncType<A>> {
    FuncType::new(alloc, [ValType::I32, ValType::I64], [ValType::F32])
}

/// Returns a subtype that is final or not, with a supertype or none.
pub(crate) fn sub<A: Allocator>(
    is_final: bool,
    supertype_idx: Option<u32>,
    composite_type: CompositeType<A>,
) -> SubType<A> {
    SubType {
        is_final,
        supertype_idx,
        composite_type,
    }
}

/// Returns a shared structure that describes the type 2 and is described by the type 300, with
/// subtypes and the supertype 1.
pub(crate) fn described<A: Allocator + Copy>(alloc: A) -> Result<SubType<A>> {
    let composite = CompositeType {
        inner: CompositeInnerType::Struct(structure(alloc)?),
        shared: true,
        descriptor: Some(300),
        describes: Some(2),
    };
    Ok(sub(false, Some(1), composite))
}

/// Returns a final function type.
pub(crate) fn final_function<A: Allocator + Copy>(alloc: A) -> Result<SubType<A>> {
    Ok(sub(
        true,
        None,
        plain(CompositeInnerType::Func(function(alloc)?)),
    ))
}
