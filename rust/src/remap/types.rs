// Written by tools/to-rust from crates/wasm_remap/src/types.rt: change that.
// Types whose indices are mapped.

use crate::remap::indexed::{Indexed, Remap, RemapError, mapped};
use crate::remap::spaces::IndexSpace;
use crate::alloc::Allocator;
use crate::base::{HeapType, RefType, ValType};

/// # Defined
///
/// ```text
/// Value = { HeapType }
/// view = { λ ty. ty }
/// remapped = { remapped_heap }
/// ```
///
/// Definitions: [`remapped_heap`](crate::definitions::remap::instructions::remapped_heap). [How to read clauses](crate::definitions).
impl<A: Allocator + Copy> Indexed<A> for HeapType {
    fn remap<M: Remap>(&mut self, _alloc: A, indices: &M) -> Result<(), RemapError<M::Error>> {
        match self {
            HeapType::Abstract { .. } => {}
            HeapType::Concrete(index) => *index = mapped(indices, IndexSpace::Types, *index)?,
            HeapType::Exact(index) => *index = mapped(indices, IndexSpace::Types, *index)?,
        }
        Ok(())
    }
}

/// # Defined
///
/// ```text
/// Value = { RefType }
/// view = { λ ty. ty }
/// remapped = { remapped_ref }
/// ```
///
/// Definitions: [`remapped_ref`](crate::definitions::remap::instructions::remapped_ref). [How to read clauses](crate::definitions).
impl<A: Allocator + Copy> Indexed<A> for RefType {
    fn remap<M: Remap>(&mut self, alloc: A, indices: &M) -> Result<(), RemapError<M::Error>> {
        self.heap_type.remap(alloc, indices)
    }
}

/// # Defined
///
/// ```text
/// Value = { ValType }
/// view = { λ ty. ty }
/// remapped = { remapped_val }
/// ```
///
/// Definitions: [`remapped_val`](crate::definitions::remap::instructions::remapped_val). [How to read clauses](crate::definitions).
impl<A: Allocator + Copy> Indexed<A> for ValType {
    fn remap<M: Remap>(&mut self, alloc: A, indices: &M) -> Result<(), RemapError<M::Error>> {
        match self {
            ValType::Ref(ty) => ty.remap(alloc, indices),
            ValType::I32 | ValType::I64 | ValType::F32 | ValType::F64 | ValType::V128 => Ok(()),
        }
    }
}

/// A run of locals: their number, and their type.
///
/// # Defined
///
/// ```text
/// Value = { ℕ × ValType }
/// view = { λ run. run }
/// remapped = { λ m run. (run.0, remapped_val m run.1) }
/// ```
///
/// Definitions: [`remapped_val`](crate::definitions::remap::instructions::remapped_val). [How to read clauses](crate::definitions).
impl<A: Allocator + Copy> Indexed<A> for (u32, ValType) {
    fn remap<M: Remap>(&mut self, alloc: A, indices: &M) -> Result<(), RemapError<M::Error>> {
        self.1.remap(alloc, indices)
    }
}
