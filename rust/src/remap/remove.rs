// Written by tools/to-rust from crates/wasm_remap/src/remove.rt: change that.
// Functions that are removed from a module.

use crate::vec::Vec;
use crate::remap::customs::space_of_subsection;
use crate::remap::imports::imported;
use crate::remap::indexed::{Remap, RemapError};
use crate::remap::items::append_mapped;
use crate::remap::modules::{Change, change_module};
use crate::remap::places::{found, sections_of};
use crate::remap::spaces::IndexSpace;
use crate::alloc::Allocator;
use crate::base::{Refused, SectionId};
use crate::custom::NameItem;
use crate::reader::{Items, Offsets, Section};

/// Why functions are not removed.
#[derive(Clone, Copy, PartialEq, Eq, Debug)]
#[non_exhaustive]
pub enum RemoveError {
    /// What stays refers to this function, which is to be removed.
    InUse(u32),
    /// The module refers to this function, which is past the end of the list.
    Unlisted(u32),
    /// This function is imported.
    Imported(u32),
}

/// Returns `true` if the function is to be removed. Functions past the end of the list stay.
fn is_removed(removed: &[bool], index: usize) -> bool {
    match removed.get(index) {
        Some(flag) => *flag,
        None => false,
    }
}

/// Returns the new index of each function, and `None` for those that are removed.
fn numbered<A: Allocator>(removed: &[bool], alloc: A) -> Result<Vec<Option<u32>, A>, Refused> {
    let mut table = Vec::new(alloc);
    let mut next = 0u32;
    for flag in removed.iter() {
        if *flag {
            table.push(None)?;
        } else {
            table.push(Some(next))?;
            next = match next.checked_add(1) {
                Some(next) => next,
                None => return Err(Refused::TooLong),
            };
        }
    }
    Ok(table)
}

/// Removes the items whose flag is set. Items past the flags stay.
fn remove_flagged<T, A: Allocator>(items: &mut Vec<T, A>, flags: &[bool]) {
    let mut kept = 0;
    for index in 0..items.len() {
        if !is_removed(flags, index) {
            items.swap(kept, index);
            kept += 1;
        }
    }
    items.truncate(kept);
}

/// Removes the pairs of removed functions, if the first numbers are functions.
fn remove_pairs<T, A: Allocator>(
    pairs: &mut Vec<(u32, T), A>,
    space: Option<IndexSpace>,
    removed: &[bool],
) {
    if let Some(IndexSpace::Functions) = space {
        pairs.retain(|pair| !is_removed(removed, pair.0 as usize));
    }
}

/// Removes the names of removed functions, of their locals and of their labels.
fn remove_names<A: Allocator + Copy>(item: &mut NameItem<'_, A>, removed: &[bool]) {
    let space = space_of_subsection(item);
    match item {
        NameItem::Module(_) | NameItem::Other { .. } => {}
        NameItem::Map { names, .. } => remove_pairs(names, space, removed),
        NameItem::Indirect { maps, .. } => remove_pairs(maps, space, removed),
    }
}

/// Removes the names of removed functions from each subsection.
fn remove_all_names<A: Allocator + Copy>(items: &mut [NameItem<'_, A>], removed: &[bool]) {
    for item in items.iter_mut() {
        remove_names(item, removed);
    }
}

/// Functions that are removed, and the new indices of the others.
#[derive(Clone, Copy)]
struct Removal<'r> {
    /// Whether a function is removed, by its index.
    removed: &'r [bool],
    /// The same of the functions that the module defines.
    defined: &'r [bool],
    /// The new index of each function that stays.
    indices: &'r [Option<u32>],
}

/// # Defined
///
/// ```text
/// mapped = { λ r. by_table r.indices.now }
/// rejects = { λ r space n e. IsUse r.indices.now space n e }
/// ```
///
/// Definitions: [`by_table`](crate::definitions::remap::removed::by_table), [`IsUse`](crate::definitions::remap::removed::IsUse). [How to read clauses](crate::definitions).
impl Remap for Removal<'_> {
    type Error = RemoveError;

    fn index(&self, space: IndexSpace, index: u32) -> Result<u32, RemoveError> {
        if space != IndexSpace::Functions {
            return Ok(index);
        }
        match self.indices.get(index as usize) {
            Some(Some(new)) => Ok(*new),
            Some(None) => Err(RemoveError::InUse(index)),
            None => Err(RemoveError::Unlisted(index)),
        }
    }
}

/// Removes the functions from the items of a section.
fn trim<A: Allocator + Copy>(items: &mut Items<'_, A>, removed: &[bool], defined: &[bool]) {
    match items {
        Items::Functions(types) => remove_flagged(types, defined),
        Items::Bodies(bodies) => remove_flagged(bodies, defined),
        Items::Names(names) => remove_all_names(names, removed),
        Items::Segments(_)
        | Items::DataCount(_)
        | Items::Elements(_)
        | Items::Exports(_)
        | Items::Globals(_)
        | Items::Imports(_)
        | Items::Memories(_)
        | Items::Start(_)
        | Items::Tables(_)
        | Items::Tags(_)
        | Items::Linking(_)
        | Items::Producers(_)
        | Items::Hints(_)
        | Items::Core(_)
        | Items::CoreModules(_)
        | Items::CoreInstances(_)
        | Items::CoreStack { .. }
        | Items::Custom { .. }
        | Items::Raw(_)
        | Items::Types(_)
        | Items::TargetFeatures(_)
        | Items::SourceMappingUrl(_)
        | Items::ExternalDebugInfo(_)
        | Items::BuildId(_)
        | Items::Dylink(_)
        | Items::Relocations { .. }
        | Items::InstructionFrequencies(_)
        | Items::CompilationOrders(_)
        | Items::CallTargets(_) => {}
    }
}

/// # Defined
///
/// ```text
/// changes = { λ r s payload. (m : Mapping)
///     → Follows (by_table r.indices.now) (IsUse r.indices.now) m
///     → IsTrimmed r.removed.now r.defined.now m s payload }
/// explains = { λ r. ExplainsContent
///     (λ x. remapped (by_table r.indices.now) (trimmed r.removed.now r.defined.now x))
///     (IsUse r.indices.now) }
/// no_offsets = { λ it s offset h. h }
/// ```
///
/// Definitions: [`Mapping`](crate::definitions::remap::mapping::Mapping), [`Follows`](crate::definitions::remap::mapping::Follows), [`by_table`](crate::definitions::remap::removed::by_table), [`IsUse`](crate::definitions::remap::removed::IsUse), [`IsTrimmed`](crate::definitions::remap::removed::IsTrimmed), [`ExplainsContent`](crate::definitions::remap::errors::ExplainsContent), [`remapped`](crate::definitions::remap::sections::remapped), [`trimmed`](crate::definitions::remap::removed::trimmed). [How to read clauses](crate::definitions).
impl Change for Removal<'_> {
    type Error = RemoveError;

    fn payload<A: Allocator + Copy>(
        &self,
        section: &Section<'_, A>,
        alloc: A,
    ) -> Result<Vec<u8, A>, RemapError<RemoveError>> {
        let mut items = section.items()?;
        trim(&mut items, self.removed, self.defined);
        let mut payload = Vec::new(alloc);
        append_mapped(&mut items, alloc, self, &mut payload)?;
        Ok(payload)
    }
}

/// Returns the number of functions that the sections import.
fn imported_functions<A: Allocator + Copy>(
    sections: &[Section<'_, A>],
) -> Result<u32, RemapError<RemoveError>> {
    let section = match found(sections, u8::from(SectionId::Import)) {
        None => return Ok(0),
        Some((_, section, _)) => section,
    };
    let Items::Imports(entries) = section.items()? else {
        // Its items are imports.
        return Err(RemapError::Refused(Refused::Memory));
    };
    match imported(&entries, IndexSpace::Functions) {
        Some(count) => Ok(count),
        None => Err(RemapError::Refused(Refused::TooLong)),
    }
}

/// Returns an error if an imported function is to be removed.
fn check_imported(removed: &[bool], imported: u32) -> Result<(), RemoveError> {
    for index in 0..imported {
        if is_removed(removed, index as usize) {
            return Err(RemoveError::Imported(index));
        }
    }
    Ok(())
}

/// Returns a module without some of its functions. `removed` has `true` at the index of each
/// function to remove. Functions past its end stay, if nothing refers to them.
///
/// The entry of the function section, the body and the names of a removed function are left out, those
/// of its locals and labels too. In all other places each index is mapped, as by
/// [`remap_module`](crate::remap::remap_module). If one is that of a removed function, it is an error. The
/// result has the same sections, each in its minimal encoding. Indices in custom sections of other
/// names are not mapped.
///
/// Custom sections that hold offsets would become wrong, as in
/// [`remap_module`](crate::remap::remap_module).
///
/// ```text
/// let removed = [false, false, true];
/// let smaller = remove_functions(&module, alloc, &removed, Offsets::LeaveOut)?;
/// ```
///
/// # Errors
///
/// Returns `Index` with [`RemoveError::InUse`] if an export, an instruction or another place refers to
/// a removed function, with `Unlisted` if it refers to a function past the end of `removed`, and with
/// `Imported` if an imported function is to be removed. Other errors are those of
/// [`remap_module`](crate::remap::remap_module).
///
/// # Proved
///
/// - After `Ok`, `ok`: The new module has the sections of the old one without the removed functions, for each mapping that numbers those that stay: so no index that is mapped is that of a removed function. No removed function is imported.
/// - After an error, `why`: Why functions are not removed from a module.
///
/// ```text
/// ensures ok { IfOk result
///     (λ new. RemovesFunctions removed.now offsets bytes.now new.items) }
/// ensures why { IfErr result (λ e. ExplainsRemoval removed.now offsets bytes.now e) }
/// ```
///
/// Definitions: [`RemovesFunctions`](crate::definitions::remap::removed::RemovesFunctions), [`ExplainsRemoval`](crate::definitions::remap::removed::ExplainsRemoval). [How to read clauses](crate::definitions).
pub fn remove_functions<A: Allocator + Copy>(
    bytes: &[u8],
    alloc: A,
    removed: &[bool],
    offsets: Offsets,
) -> Result<Vec<u8, A>, RemapError<RemoveError>> {
    let sections = sections_of::<A, RemoveError>(bytes, alloc)?;
    let imported = imported_functions(&sections)?;
    match check_imported(removed, imported) {
        Ok(()) => {}
        Err(error) => return Err(RemapError::Index(error)),
    }
    let indices = numbered(removed, alloc)?;
    let (_, defined) = removed.split_at((imported as usize).min(removed.len()));
    let removal = Removal {
        removed,
        defined,
        indices: &indices,
    };
    change_module(bytes, alloc, &removal, offsets)
}
