// Written by tools/to-rust from crates/wasm_c/src/indices.rt: change that.
// Modules whose indices are mapped, for C.

use crate::calls::NO_ANSWER;
use crate::calls::listing::number_of;
use crate::calls::recipes::copied;
use crate::calls::whole::{OFFSETS, offsets_of};
use dolzhytik::fallible::Global;
use dolzhytik::reader::ReadFault;
use dolzhytik::fallible::Refused;
use dolzhytik::reader::ReadError;
use dolzhytik::reader::remap::{IndexSpace, Remap, RemapError, insert_import, remap_module};
use dolzhytik::fallible::{EntityType, Import};

/// The number of the cause of an index that has no new one.
const NO_INDEX: u32 = 11;

/// The number of the cause of a section that would be too long.
const OVERLONG: u32 = 12;

/// The number of the cause of a name that is not UTF-8.
const NOT_UTF8: u32 = 6;

/// The number of the cause of an index space that does not exist.
const NO_KIND: u32 = 9;

/// The new index in a list of an old index that has none.
const NONE: u32 = 4294967295;

/// The indices of one space, and the new index of each. Those of other spaces stay.
#[derive(Clone, Copy)]
struct Listed<'a> {
    space: IndexSpace,
    indices: &'a [u32],
}

/// The list has no new index.
#[derive(Clone, Copy)]
struct NoIndex;

/// # Defined
///
/// ```text
/// mapped = { λ m space n. listed m.space m.indices.now space n }
/// rejects = { λ m space n _. IsRejected m.space m.indices.now space n }
/// ```
impl Remap for Listed<'_> {
    type Error = NoIndex;

    fn index(&self, space: IndexSpace, index: u32) -> Result<u32, NoIndex> {
        if space != self.space {
            return Ok(index);
        }
        match self.indices.get(index as usize) {
            Some(&new) if new != NONE => Ok(new),
            _ => Err(NoIndex),
        }
    }
}

/// Returns the index space of this number.
///
/// # Proved
///
/// ```text
/// ensures { result ≡ space_numbered space }
/// ```
fn space_numbered(space: u32) -> Option<IndexSpace> {
    match space {
        0 => Some(IndexSpace::Functions),
        1 => Some(IndexSpace::Types),
        2 => Some(IndexSpace::Tables),
        3 => Some(IndexSpace::Memories),
        4 => Some(IndexSpace::Globals),
        5 => Some(IndexSpace::Tags),
        6 => Some(IndexSpace::Elements),
        7 => Some(IndexSpace::Data),
        _ => None,
    }
}

/// Returns the offset of an error, or 0, and the number of its cause.
///
/// # Proved
///
/// ```text
/// ensures offset { result.0 ≡ place_number error }
/// ensures cause { result.1 ≡ cause_number error }
/// ```
fn cause_of<E: Copy>(error: RemapError<E>) -> (u64, u32) {
    match error {
        RemapError::Read(ReadError { cause, offset }) => (offset as u64, number_of(cause)),
        RemapError::Refused(Refused::Memory) => (0, number_of(ReadFault::Memory)),
        RemapError::Index(_) => (0, NO_INDEX),
        RemapError::Offsets(offset) => (offset as u64, OFFSETS),
        _ => (0, OVERLONG),
    }
}

/// Writes a module in which each index of one space is replaced by that in a list. Returns its
/// length in bytes.
///
/// An index that is not in the list, or whose new index there is 4294967295, is an error. On an
/// error, `offset` is its offset in the module, or 0, and `cause` is its number. On success both are
/// 0.
///
/// # Proved
///
/// ```text
/// ensures { Remapped bytes.now space indices.now drop_offsets out.old out.new offset.new cause.new result }
/// ```
pub fn dz_remap_module(
    alloc: Global,
    bytes: &[u8],
    space: u32,
    indices: &[u32],
    drop_offsets: u32,
    out: &mut [u8],
    offset: &mut u64,
    cause: &mut u32,
) -> u64 {
    let Some(space) = space_numbered(space) else {
        (*offset, *cause) = (0, NO_KIND);
        return NO_ANSWER;
    };
    let map = Listed { space, indices };
    match remap_module(bytes, alloc, &map, offsets_of(drop_offsets)) {
        Ok(module) => {
            (*offset, *cause) = (0, 0);
            copied(&module, out)
        }
        Err(error) => {
            (*offset, *cause) = cause_of(error);
            NO_ANSWER
        }
    }
}

/// Writes a module with an imported function of the type of this index before all others, whose
/// indices are one higher. Returns its length in bytes.
///
/// Errors are as for [`dz_remap_module`].
///
/// # Proved
///
/// ```text
/// ensures { Inserted bytes.now module_name.now name.now type_index drop_offsets out.old out.new offset.new cause.new result }
/// ```
pub fn dz_insert_import(
    alloc: Global,
    bytes: &[u8],
    module_name: &[u8],
    name: &[u8],
    type_index: u32,
    drop_offsets: u32,
    out: &mut [u8],
    offset: &mut u64,
    cause: &mut u32,
) -> u64 {
    let (Ok(module_name), Ok(name)) = (str::from_utf8(module_name), str::from_utf8(name)) else {
        (*offset, *cause) = (0, NOT_UTF8);
        return NO_ANSWER;
    };
    let import = Import {
        module: module_name,
        name,
        ty: EntityType::Function(type_index),
    };
    match insert_import(bytes, alloc, &import, offsets_of(drop_offsets)) {
        Ok(module) => {
            (*offset, *cause) = (0, 0);
            copied(&module, out)
        }
        Err(error) => {
            (*offset, *cause) = cause_of(error);
            NO_ANSWER
        }
    }
}
