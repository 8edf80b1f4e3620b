// Written by tools/to-rust from crates/wasm_remap/src/indexed.rt: change that.
// Maps of indices, and items whose indices are mapped in place.

use crate::remap::spaces::IndexSpace;
use crate::alloc::{AllocError, Allocator};
use crate::base::{ReadFault, Refused};
use crate::reader::ReadError;

/// A map of the indices of a module: for each index space, the new index of each old one.
///
/// # Defined
///
/// ```text
/// mapped: { Self → IndexSpace → ℕ → ℕ }
/// rejects: { Self → IndexSpace → ℕ → Self.Error → Type 0 }
/// ```
///
/// [How to read clauses](crate::definitions).
pub trait Remap {
    /// The reason for which the map rejects an index.
    type Error;

    // The new index of each old one.

    // The map rejects this index of this space, with this error.

    /// Returns the new index of an old one.
    ///
    /// # Errors
    ///
    /// Returns an error if the map rejects the index: an entity that was removed, say.
    ///
    /// # Proved
    ///
    /// ```text
    /// ensures ok { IfOk result (λ n. n ≡ mapped self.now space index) }
    /// ensures accepted { IfOk result
    ///     (λ _. (e : Self.Error) → rejects self.now space index e → ⊥) }
    /// ensures err { IfErr result (λ e. rejects self.now space index e) }
    /// ```
    ///
    /// [How to read clauses](crate::definitions).
    fn index(&self, space: IndexSpace, index: u32) -> Result<u32, Self::Error>;
}

/// Why a module is not edited.
#[derive(Clone, Copy, PartialEq, Eq, Debug)]
#[non_exhaustive]
pub enum RemapError<E> {
    /// The section does not decode.
    Read(ReadError),
    /// An encoding is too long, or there is no memory.
    Refused(Refused),
    /// The map rejects an index.
    Index(E),
    /// The section at this offset holds offsets, which would become wrong.
    Offsets(usize),
}

/// # Defined
///
/// ```text
/// from_gives = { λ _ error. error ≡ errors.Refused Memory }
/// ```
///
/// [How to read clauses](crate::definitions).
impl<E> From<AllocError> for RemapError<E> {
    fn from(_: AllocError) -> RemapError<E> {
        RemapError::Refused(Refused::Memory)
    }
}

/// # Defined
///
/// ```text
/// from_gives = { λ refused error. error ≡ errors.Refused refused }
/// ```
///
/// [How to read clauses](crate::definitions).
impl<E> From<Refused> for RemapError<E> {
    fn from(refused: Refused) -> RemapError<E> {
        RemapError::Refused(refused)
    }
}

/// # Defined
///
/// ```text
/// from_gives = { λ fault error. error ≡ error_of fault }
/// ```
///
/// Definitions: [`error_of`](crate::definitions::remap::errors::error_of). [How to read clauses](crate::definitions).
impl<E> From<ReadError> for RemapError<E> {
    fn from(fault: ReadError) -> RemapError<E> {
        if fault.cause == ReadFault::Memory {
            RemapError::Refused(Refused::Memory)
        } else {
            RemapError::Read(fault)
        }
    }
}

/// Returns the new index of an old one.
pub(crate) fn mapped<M: Remap>(
    indices: &M,
    space: IndexSpace,
    index: u32,
) -> Result<u32, RemapError<M::Error>> {
    match indices.index(space, index) {
        Ok(index) => Ok(index),
        Err(error) => Err(RemapError::Index(error)),
    }
}

/// Returns the new number of an old one, which is an index if it has an index space.
pub(crate) fn mapped_number<M: Remap>(
    indices: &M,
    space: Option<IndexSpace>,
    number: u32,
) -> Result<u32, RemapError<M::Error>> {
    match space {
        Some(space) => mapped(indices, space, number),
        None => Ok(number),
    }
}

/// A decoded value whose indices are mapped in place. Lists that it needs are in memory of the
/// allocator.
///
/// # Defined
///
/// ```text
/// Value: { Type 0 }
/// view: { Self → Value }
/// remapped: { Mapping → Value → Value }
/// ```
///
/// Definitions: [`Mapping`](crate::definitions::remap::mapping::Mapping). [How to read clauses](crate::definitions).
pub(crate) trait Indexed<A: Allocator + Copy> {
    // The values without locations in memory.

    // The value of an item.

    // The value with each index mapped.

    /// Maps each index. After an error, some of them are mapped.
    ///
    /// # Proved
    ///
    /// After an error, `err`: The map rejected an index with this error, or there was no memory.
    ///
    /// ```text
    /// ensures ok { OnOk result
    ///     ((m : Mapping) → Follows (M.mapped indices.now) (M.rejects indices.now) m
    ///         → view self.new ≡ remapped m (view self.old)) }
    /// ensures err { IfErr result (λ e. ComesFrom (M.rejects indices.now) e) }
    /// ```
    ///
    /// Definitions: [`Mapping`](crate::definitions::remap::mapping::Mapping), [`Follows`](crate::definitions::remap::mapping::Follows), [`ComesFrom`](crate::definitions::remap::mapping::ComesFrom). [How to read clauses](crate::definitions).
    fn remap<M: Remap>(&mut self, alloc: A, indices: &M) -> Result<(), RemapError<M::Error>>;
}

/// Maps the indices of each item.
pub(crate) fn remap_each<T: Indexed<A>, A: Allocator + Copy, M: Remap>(
    items: &mut [T],
    alloc: A,
    indices: &M,
) -> Result<(), RemapError<M::Error>> {
    for item in items.iter_mut() {
        item.remap(alloc, indices)?;
    }
    Ok(())
}

/// Maps indices of one space.
pub(crate) fn remap_numbers<M: Remap>(
    items: &mut [u32],
    space: IndexSpace,
    indices: &M,
) -> Result<(), RemapError<M::Error>> {
    for item in items.iter_mut() {
        *item = mapped(indices, space, *item)?;
    }
    Ok(())
}

/// Maps the number of each pair, which is an index if it has an index space.
pub(crate) fn remap_firsts<T, M: Remap>(
    items: &mut [(u32, T)],
    space: Option<IndexSpace>,
    indices: &M,
) -> Result<(), RemapError<M::Error>> {
    for item in items.iter_mut() {
        item.0 = mapped_number(indices, space, item.0)?;
    }
    Ok(())
}
