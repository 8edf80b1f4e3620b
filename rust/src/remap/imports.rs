// Written by tools/to-rust from crates/wasm_remap/src/imports.rt: change that.
// Imports that are inserted into a module.

use crate::vec::Vec;
use crate::remap::indexed::RemapError;
use crate::remap::insert::{Position, insert_section};
use crate::remap::modules::remap_module;
use crate::remap::shift::{IndexTooLarge, Shift};
use crate::remap::spaces::IndexSpace;
use crate::alloc::Allocator;
use crate::reader::Offsets;
use crate::sections::{EntityType, Import, ImportSection, Imports};

/// Returns the index space of an imported entity.
fn space_of(ty: EntityType) -> IndexSpace {
    match ty {
        EntityType::Function(_) | EntityType::FunctionExact(_) => IndexSpace::Functions,
        EntityType::Table(_) => IndexSpace::Tables,
        EntityType::Memory(_) => IndexSpace::Memories,
        EntityType::Global(_) => IndexSpace::Globals,
        EntityType::Tag(_) => IndexSpace::Tags,
    }
}

/// Returns `true` if the entity has an index in the space.
fn is_in(space: IndexSpace, ty: EntityType) -> bool {
    space_of(ty) == space
}

/// Returns how many entities of the space an entry of an import section imports.
fn imported_from<A: Allocator>(imports: &Imports<'_, A>, space: IndexSpace) -> usize {
    match imports {
        Imports::Single(import) => usize::from(is_in(space, import.ty)),
        Imports::Compact1 { items, .. } => {
            let mut count = 0;
            for item in items.as_slice() {
                if is_in(space, item.ty) {
                    count += 1;
                }
            }
            count
        }
        Imports::Compact2 { ty, names, .. } => {
            if is_in(space, *ty) {
                names.as_slice().len()
            } else {
                0
            }
        }
    }
}

/// Returns how many entities of the space the entries of an import section import, or `None` above
/// 4294967295.
///
/// # Proved
///
/// ```text
/// ensures sum { IfSome result (λ n. n ≡ imported space (map imports_item entries.now)) }
/// ensures above { result ≡ None → imported space (map imports_item entries.now) < 2 ^ 32
///     → ⊥ }
/// ```
///
/// Definitions: [`imported`](crate::definitions::remap::imported::imported), [`imports_item`](crate::definitions::sections::imports::imports_item). [How to read clauses](crate::definitions).
pub fn imported<A: Allocator>(entries: &[Imports<'_, A>], space: IndexSpace) -> Option<u32> {
    let mut count: u32 = 0;
    for entry in entries {
        let Ok(more) = u32::try_from(imported_from(entry, space)) else {
            return None;
        };
        count = count.checked_add(more)?;
    }
    Some(count)
}

/// Inserts an import before all others, and returns the new module.
///
/// The imported function, table, memory, global or tag has index 0. The indices of all others of
/// its space are one higher, in each place that `remap_module` maps. For a function, `ty` is the
/// index of a type that the module already has: `insert_section` inserts one.
///
/// All sections are encoded anew, in their minimal form. Custom sections that hold offsets are an
/// error or are left out, as [`Offsets`] says.
///
/// ```text
/// let import = Import {
///     module: "coverage",
///     name: "hit",
///     ty: EntityType::Function(0),
/// };
/// let module = insert_import(bytes, alloc, &import, Offsets::LeaveOut)?;
/// ```
///
/// # Errors
///
/// Returns `Index` if an index would be more than 4294967295, `Offsets` for a section that holds
/// offsets, `Read` if the bytes are no module or a section does not decode, and `Refused` if a
/// section is too long or an allocation fails.
///
/// # Proved
///
/// - After `Ok`, `ok`: The indices of the entity's space are one higher, and the first member of the imports is this one. Its payload as a section alone decodes to it, if its names are UTF-8 and its numbers are in range.
/// - After an error, `why`: Why an import is not inserted: the indices of the module are not moved, the import is not encodable, or its section is not inserted into the module whose indices are moved.
///
/// ```text
/// ensures ok { IfOk result
///     (λ edited. InsertsImport import.now offsets bytes.now edited.items) }
/// ensures why { IfErr result (λ e. ExplainsImport import.now offsets bytes.now e) }
/// ```
///
/// Definitions: [`InsertsImport`](crate::definitions::remap::imported::InsertsImport), [`ExplainsImport`](crate::definitions::remap::errors::ExplainsImport). [How to read clauses](crate::definitions).
pub fn insert_import<A: Allocator + Copy>(
    bytes: &[u8],
    alloc: A,
    import: &Import<'_>,
    offsets: Offsets,
) -> Result<Vec<u8, A>, RemapError<IndexTooLarge>> {
    let room = Shift {
        space: space_of(import.ty),
        from: 0,
        by: 1,
    };
    let shifted = remap_module(bytes, alloc, &room, offsets)?;
    let mut imports = ImportSection::new(alloc);
    imports.import(import.module, import.name, import.ty)?;
    insert_section(&shifted, alloc, &imports, Position::First)
}
