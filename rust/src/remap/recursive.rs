// Written by tools/to-rust from crates/wasm_remap/src/recursive.rt: change that.
// Entries of a type section whose indices are mapped.

use crate::vec::Vec;
use crate::remap::indexed::{Indexed, Remap, RemapError, mapped, remap_each, remap_numbers};
use crate::remap::spaces::IndexSpace;
use crate::alloc::Allocator;
use crate::types::{CompositeInnerType, CompositeType, FieldType, FuncType, StorageType, SubItem, TypeEntry};

/// # Defined
///
/// ```text
/// Value = { StorageType }
/// view = { λ ty. ty }
/// remapped = { remapped_storage }
/// ```
///
/// Definitions: [`remapped_storage`](crate::definitions::remap::types::remapped_storage). [How to read clauses](crate::definitions).
impl<A: Allocator + Copy> Indexed<A> for StorageType {
    fn remap<M: Remap>(&mut self, alloc: A, indices: &M) -> Result<(), RemapError<M::Error>> {
        match self {
            StorageType::I8 | StorageType::I16 => Ok(()),
            StorageType::Val(ty) => ty.remap(alloc, indices),
        }
    }
}

/// # Defined
///
/// ```text
/// Value = { FieldType }
/// view = { λ ty. ty }
/// remapped = { remapped_field }
/// ```
///
/// Definitions: [`remapped_field`](crate::definitions::remap::types::remapped_field). [How to read clauses](crate::definitions).
impl<A: Allocator + Copy> Indexed<A> for FieldType {
    fn remap<M: Remap>(&mut self, alloc: A, indices: &M) -> Result<(), RemapError<M::Error>> {
        self.element_type.remap(alloc, indices)
    }
}

/// The types are copied, since those of a function type are not changed in place.
///
/// # Defined
///
/// ```text
/// Value = { Shape }
/// view = { func_in }
/// remapped = { remapped_shape }
/// ```
///
/// Definitions: [`Shape`](crate::definitions::types::rec_types::Shape), [`func_in`](crate::definitions::types::given::func_in), [`remapped_shape`](crate::definitions::remap::types::remapped_shape). [How to read clauses](crate::definitions).
impl<A: Allocator + Copy> Indexed<A> for FuncType<A> {
    fn remap<M: Remap>(&mut self, alloc: A, indices: &M) -> Result<(), RemapError<M::Error>> {
        let mut params = Vec::from_slice(alloc, self.params())?;
        let mut results = Vec::from_slice(alloc, self.results())?;
        remap_each(&mut params, alloc, indices)?;
        remap_each(&mut results, alloc, indices)?;
        *self = FuncType::of(params, results);
        Ok(())
    }
}

/// # Defined
///
/// ```text
/// Value = { Shape }
/// view = { shape_in }
/// remapped = { remapped_shape }
/// ```
///
/// Definitions: [`Shape`](crate::definitions::types::rec_types::Shape), [`shape_in`](crate::definitions::types::given::shape_in), [`remapped_shape`](crate::definitions::remap::types::remapped_shape). [How to read clauses](crate::definitions).
impl<A: Allocator + Copy> Indexed<A> for CompositeInnerType<A> {
    fn remap<M: Remap>(&mut self, alloc: A, indices: &M) -> Result<(), RemapError<M::Error>> {
        match self {
            CompositeInnerType::Func(ty) => ty.remap(alloc, indices),
            CompositeInnerType::Array(ty) => ty.0.remap(alloc, indices),
            CompositeInnerType::Struct(ty) => remap_each(&mut ty.fields, alloc, indices),
            CompositeInnerType::Cont(ty) => {
                ty.0 = mapped(indices, IndexSpace::Types, ty.0)?;
                Ok(())
            }
        }
    }
}

/// Returns the new index of the type that a type describes, or that describes it.
fn mapped_type<M: Remap>(
    indices: &M,
    index: Option<u32>,
) -> Result<Option<u32>, RemapError<M::Error>> {
    match index {
        Some(index) => Ok(Some(mapped(indices, IndexSpace::Types, index)?)),
        None => Ok(None),
    }
}

/// # Defined
///
/// ```text
/// Value = { Composite }
/// view = { composite_in }
/// remapped = { remapped_composite }
/// ```
///
/// Definitions: [`Composite`](crate::definitions::types::rec_types::Composite), [`composite_in`](crate::definitions::types::given::composite_in), [`remapped_composite`](crate::definitions::remap::types::remapped_composite). [How to read clauses](crate::definitions).
impl<A: Allocator + Copy> Indexed<A> for CompositeType<A> {
    fn remap<M: Remap>(&mut self, alloc: A, indices: &M) -> Result<(), RemapError<M::Error>> {
        self.describes = mapped_type(indices, self.describes)?;
        self.descriptor = mapped_type(indices, self.descriptor)?;
        self.inner.remap(alloc, indices)
    }
}

/// # Defined
///
/// ```text
/// Value = { Sub }
/// view = { sub_view }
/// remapped = { remapped_sub }
/// ```
///
/// Definitions: [`Sub`](crate::definitions::types::rec_types::Sub), [`sub_view`](crate::definitions::types::items::sub_view), [`remapped_sub`](crate::definitions::remap::types::remapped_sub). [How to read clauses](crate::definitions).
impl<A: Allocator + Copy> Indexed<A> for SubItem<A> {
    fn remap<M: Remap>(&mut self, alloc: A, indices: &M) -> Result<(), RemapError<M::Error>> {
        remap_numbers(&mut self.supertypes, IndexSpace::Types, indices)?;
        self.composite_type.remap(alloc, indices)
    }
}

/// # Defined
///
/// ```text
/// Value = { TypeItem }
/// view = { entry_view }
/// remapped = { remapped_type }
/// ```
///
/// Definitions: [`TypeItem`](crate::definitions::types::rec_types::TypeItem), [`entry_view`](crate::definitions::types::items::entry_view), [`remapped_type`](crate::definitions::remap::types::remapped_type). [How to read clauses](crate::definitions).
impl<A: Allocator + Copy> Indexed<A> for TypeEntry<A> {
    fn remap<M: Remap>(&mut self, alloc: A, indices: &M) -> Result<(), RemapError<M::Error>> {
        match self {
            TypeEntry::Single(ty) => ty.remap(alloc, indices),
            TypeEntry::Group(types) => remap_each(types, alloc, indices),
        }
    }
}
