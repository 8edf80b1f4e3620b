// Written by tools/to-rust from crates/wasm_remap/src/items.rt: change that.
// The items of sections whose indices are mapped.

use crate::vec::Sink;
use crate::remap::bodies::remap_bodies;
use crate::remap::indexed::{Remap, RemapError, mapped, remap_each, remap_numbers};
use crate::remap::spaces::IndexSpace;
use crate::remap::streamed::Stopped;
use crate::alloc::Allocator;
use crate::base::{Refused, Standard};
use crate::reader::{Items, Section, SectionKind, encode_items, encode_items_in};

/// Maps each index of the items of a section. After an error, some of them are mapped.
fn remap_content<A: Allocator + Copy, M: Remap>(
    items: &mut Items<'_, A>,
    alloc: A,
    indices: &M,
) -> Result<(), RemapError<M::Error>> {
    match items {
        Items::Bodies(items) => remap_each(items, alloc, indices),
        Items::Segments(items) => remap_each(items, alloc, indices),
        Items::Elements(items) => remap_each(items, alloc, indices),
        Items::Exports(items) => remap_each(items, alloc, indices),
        Items::Functions(items) => remap_numbers(items, IndexSpace::Types, indices),
        Items::Globals(items) => remap_each(items, alloc, indices),
        Items::Imports(items) => remap_each(items, alloc, indices),
        Items::Start(index) => {
            *index = mapped(indices, IndexSpace::Functions, *index)?;
            Ok(())
        }
        Items::Tables(items) => remap_each(items, alloc, indices),
        Items::Tags(items) => remap_each(items, alloc, indices),
        Items::Names(items) => remap_each(items, alloc, indices),
        Items::Linking(items) => remap_each(items, alloc, indices),
        Items::Hints(items) => remap_each(items, alloc, indices),
        Items::InstructionFrequencies(items) => remap_each(items, alloc, indices),
        Items::CompilationOrders(items) => remap_each(items, alloc, indices),
        Items::CallTargets(items) => remap_each(items, alloc, indices),
        Items::CoreInstances(items) => remap_each(items, alloc, indices),
        Items::Types(items) => remap_each(items, alloc, indices),
        Items::Relocations { relocations, .. } => remap_each(relocations, alloc, indices),
        Items::DataCount(_)
        | Items::Memories(_)
        | Items::Producers(_)
        | Items::Core(_)
        | Items::CoreModules(_)
        | Items::CoreStack { .. }
        | Items::Custom { .. }
        | Items::Raw(_)
        | Items::TargetFeatures(_)
        | Items::SourceMappingUrl(_)
        | Items::ExternalDebugInfo(_)
        | Items::BuildId(_)
        | Items::Dylink(_) => Ok(()),
    }
}

/// Maps each index of the items of a section. After an error, some of them are mapped.
///
/// The items depend on the new indices of accepted ones alone: no index that the map rejects is among
/// those of the old items.
///
/// # Errors
///
/// Returns the error of the map if it rejects an index, and `Memory` if an allocation fails.
///
/// # Proved
///
/// After an error, `err`: The map rejected an index with this error, or there was no memory.
///
/// ```text
/// ensures ok { OnOk result
///     (contents_of items.new ≡ remapped (M.mapped indices.now) (contents_of items.old)) }
/// ensures every { OnOk result
///     ((m : Mapping) → Follows (M.mapped indices.now) (M.rejects indices.now) m
///         → contents_of items.new ≡ remapped m (contents_of items.old)) }
/// ensures err { IfErr result (λ e. ComesFrom (M.rejects indices.now) e) }
/// ```
///
/// Definitions: [`contents_of`](crate::definitions::reader::kinds::contents_of), [`remapped`](crate::definitions::remap::sections::remapped), [`Mapping`](crate::definitions::remap::mapping::Mapping), [`Follows`](crate::definitions::remap::mapping::Follows), [`ComesFrom`](crate::definitions::remap::mapping::ComesFrom). [How to read clauses](crate::definitions).
pub fn remap_items<A: Allocator + Copy, M: Remap>(
    items: &mut Items<'_, A>,
    alloc: A,
    indices: &M,
) -> Result<(), RemapError<M::Error>> {
    remap_content(items, alloc, indices)
}

/// Returns `true` if the encoding that builders write of items of this kind is minimal in the
/// standard's grammar too.
fn is_minimal_when_built(kind: SectionKind) -> bool {
    !matches!(
        kind,
        SectionKind::Bodies
            | SectionKind::Segments
            | SectionKind::Elements
            | SectionKind::Globals
            | SectionKind::Imports
            | SectionKind::Tables
            | SectionKind::Types
    )
}

/// Appends the minimal encoding of the items in the standard's grammar. On an error, the sink is
/// unchanged.
fn append_items<A: Allocator + Copy, B: Sink>(
    items: &Items<'_, A>,
    alloc: A,
    sink: &mut B,
) -> Result<(), Refused> {
    if is_minimal_when_built(items.kind()) {
        encode_items(items, sink)?;
    } else {
        encode_items_in::<Standard, _, _, _>(alloc, items, sink)?;
    }
    Ok(())
}

/// Maps each index of the items, and appends their minimal encoding in the standard's grammar. On an
/// error, the sink is unchanged.
pub(crate) fn append_mapped<A: Allocator + Copy, M: Remap, B: Sink>(
    items: &mut Items<'_, A>,
    alloc: A,
    indices: &M,
    sink: &mut B,
) -> Result<(), RemapError<M::Error>> {
    remap_content(items, alloc, indices)?;
    append_items(items, alloc, sink)?;
    Ok(())
}

/// Decodes the items of a section, maps each index, and appends the minimal encoding of the items.
/// On an error, the sink is unchanged.
fn remap_decoded<A: Allocator + Copy, M: Remap, B: Sink>(
    section: &Section<'_, A>,
    alloc: A,
    indices: &M,
    sink: &mut B,
) -> Result<(), RemapError<M::Error>> {
    let mut items = section.items()?;
    append_mapped(&mut items, alloc, indices, sink)
}

/// Decodes the items of a section, maps each index, and appends the minimal encoding of the items
/// as a payload. On an error, the sink is unchanged.
///
/// Bodies are decoded, mapped and appended instruction by instruction, and not kept. If that fails,
/// they are decoded to a list, which gives the error.
///
/// ```text
/// let mut payload = Vec::new(alloc);
/// remap_section(&section, alloc, &indices, &mut payload)?;
/// module.section(&RawSection { id: section.id(), bytes: &payload })?;
/// ```
///
/// # Errors
///
/// Returns `Read` if the section does not decode, `Index` with the error of the map if it rejects an
/// index, and `Refused` if the encoding is too long or an allocation fails.
///
/// # Proved
///
/// - After `Ok`, `ok`: The section decodes to items, and the buffer gains the minimal encoding of these items with each index mapped, if they have one. They have if the new indices are below 2^32, and the section has fewer than 2^26 bytes, so that no size prefix is too long.
/// - After an error, `err`: the bytes of the sink are unchanged.
/// - After an error, `why`: Why the indices of a section are not mapped.
///
/// ```text
/// ensures ok { OnOk result
///     (RemapsSection (M.mapped indices.now) section.now.section sink.old.items
///         sink.new.items) }
/// ensures every { OnOk result
///     ((m : Mapping) → Follows (M.mapped indices.now) (M.rejects indices.now) m
///         → RemapsSection m section.now.section sink.old.items sink.new.items) }
/// ensures err { OnErr result (sink.new.items ≡ sink.old.items) }
/// ensures why { IfErr result
///     (λ e. ExplainsSection (M.mapped indices.now)
///         (M.rejects indices.now) section.now.section e) }
/// ```
///
/// Definitions: [`RemapsSection`](crate::definitions::remap::sections::RemapsSection), [`Mapping`](crate::definitions::remap::mapping::Mapping), [`Follows`](crate::definitions::remap::mapping::Follows), [`ExplainsSection`](crate::definitions::remap::errors::ExplainsSection). [How to read clauses](crate::definitions).
pub fn remap_section<A: Allocator + Copy, M: Remap, B: Sink>(
    section: &Section<'_, A>,
    alloc: A,
    indices: &M,
    sink: &mut B,
) -> Result<(), RemapError<M::Error>> {
    if let Some(SectionKind::Bodies) = section.kind() {
        match remap_bodies(section, alloc, indices, sink) {
            Ok(()) => return Ok(()),
            Err(Stopped::Memory) => return Err(Refused::Memory.into()),
            Err(Stopped::Other) => {}
        }
    }
    remap_decoded(section, alloc, indices, sink)
}
