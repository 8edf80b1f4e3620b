// Written by tools/to-rust from crates/wasm_remap/src/shift.rt: change that.
// A map that moves the indices of one space.

use crate::remap::indexed::Remap;
use crate::remap::spaces::IndexSpace;

/// A map that adds a number to the indices of one space, from one index on, as for entities that
/// are inserted there.
#[derive(Clone, Copy, PartialEq, Eq, Debug)]
pub struct Shift {
    /// The index space.
    pub space: IndexSpace,
    /// The first index that moves.
    pub from: u32,
    /// The number that is added.
    pub by: u32,
}

/// The new index of this one would pass 4294967295.
#[derive(Clone, Copy, PartialEq, Eq, Debug)]
pub struct IndexTooLarge {
    /// The index space.
    pub space: IndexSpace,
    /// The old index.
    pub index: u32,
}

/// # Defined
///
/// ```text
/// mapped = { shifted }
/// rejects = { IsTooLarge }
/// ```
///
/// Definitions: [`shifted`](crate::definitions::remap::shifted::shifted), [`IsTooLarge`](crate::definitions::remap::shifted::IsTooLarge). [How to read clauses](crate::definitions).
impl Remap for Shift {
    type Error = IndexTooLarge;

    fn index(&self, space: IndexSpace, index: u32) -> Result<u32, IndexTooLarge> {
        if space != self.space || index < self.from {
            return Ok(index);
        }
        match index.checked_add(self.by) {
            Some(index) => Ok(index),
            None => Err(IndexTooLarge { space, index }),
        }
    }
}
