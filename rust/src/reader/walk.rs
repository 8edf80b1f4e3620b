// Written by tools/to-rust from crates/wasm_reader/src/walk.rt: change that.
// Walks over the payloads of sections.

use crate::vec::Vec;
use crate::reader::kinds::SectionKind;
use crate::alloc::Allocator;
use crate::base::{DecodeError, Discard, Effect, Grammar, RawBytes, ReadFault, Walk, skip_many, walk_whole};
use crate::code::Body;
use crate::custom::{walk_build_id, walk_call_targets, walk_debug_file, walk_dylink, walk_features, walk_frequencies, walk_hints, walk_instances, walk_links, walk_modules, walk_names, walk_orders, walk_process, walk_producers, walk_relocations, walk_source_map, walk_stack};
use crate::sections::{ElementItem, Export, GlobalItem, Imports, MemoryType, Segment, TableItem, TagType};
use crate::types::TypeEntry;

/// Walks over the name of a custom section, and then over its data, which are any bytes.
fn walk_custom<A: Allocator + Copy, G: Grammar, E: Effect>(
    bytes: &[u8],
    alloc: A,
    effect: &mut E,
) -> Result<(), DecodeError> {
    let data = <&str as Walk<G>>::walk(bytes, alloc, effect)?;
    effect.put(&RawBytes(data))?;
    Ok(())
}

/// Gives the effect a payload that is any bytes.
fn walk_raw<G: Grammar, E: Effect>(bytes: &[u8], effect: &mut E) -> Result<(), DecodeError> {
    effect.put(&RawBytes(bytes))?;
    Ok(())
}

/// Walks over the payload of a section of this kind. No list of items is kept.
pub(crate) fn walk_content<A: Allocator + Copy, G: Grammar, E: Effect>(
    kind: SectionKind,
    bytes: &[u8],
    alloc: A,
    effect: &mut E,
) -> Result<(), DecodeError> {
    match kind {
        SectionKind::Bodies => walk_whole::<Vec<Body<A>, A>, A, G, _>(bytes, alloc, effect),
        SectionKind::Segments => walk_whole::<Vec<Segment<'_, A>, A>, A, G, _>(
            bytes, alloc, effect,
        ),
        SectionKind::DataCount => walk_whole::<u32, A, G, _>(bytes, alloc, effect),
        SectionKind::Elements => walk_whole::<Vec<ElementItem<A>, A>, A, G, _>(
            bytes, alloc, effect,
        ),
        SectionKind::Exports => walk_whole::<Vec<Export<'_>, A>, A, G, _>(bytes, alloc, effect),
        SectionKind::Functions => walk_whole::<Vec<u32, A>, A, G, _>(bytes, alloc, effect),
        SectionKind::Globals => walk_whole::<Vec<GlobalItem<A>, A>, A, G, _>(bytes, alloc, effect),
        SectionKind::Imports => walk_whole::<Vec<Imports<'_, A>, A>, A, G, _>(bytes, alloc, effect),
        SectionKind::Memories => walk_whole::<Vec<MemoryType, A>, A, G, _>(bytes, alloc, effect),
        SectionKind::Start => walk_whole::<u32, A, G, _>(bytes, alloc, effect),
        SectionKind::Tables => walk_whole::<Vec<TableItem<A>, A>, A, G, _>(bytes, alloc, effect),
        SectionKind::Tags => walk_whole::<Vec<TagType, A>, A, G, _>(bytes, alloc, effect),
        SectionKind::Names => walk_names::<A, G, _>(bytes, alloc, effect),
        SectionKind::Linking => walk_links::<A, G, _>(bytes, alloc, effect),
        SectionKind::Producers => walk_producers::<A, G, _>(bytes, alloc, effect),
        SectionKind::Hints => walk_hints::<A, G, _>(bytes, alloc, effect),
        SectionKind::Core => walk_process::<A, G, _>(bytes, alloc, effect),
        SectionKind::CoreModules => walk_modules::<A, G, _>(bytes, alloc, effect),
        SectionKind::CoreInstances => walk_instances::<A, G, _>(bytes, alloc, effect),
        SectionKind::CoreStack => walk_stack::<A, G, _>(bytes, alloc, effect),
        SectionKind::Custom => walk_custom::<A, G, _>(bytes, alloc, effect),
        SectionKind::Raw => walk_raw::<G, _>(bytes, effect),
        SectionKind::Types => walk_whole::<Vec<TypeEntry<A>, A>, A, G, _>(bytes, alloc, effect),
        SectionKind::TargetFeatures => walk_features::<A, G, _>(bytes, alloc, effect),
        SectionKind::SourceMappingUrl => walk_source_map::<A, G, _>(bytes, alloc, effect),
        SectionKind::ExternalDebugInfo => walk_debug_file::<A, G, _>(bytes, alloc, effect),
        SectionKind::BuildId => walk_build_id::<A, G, _>(bytes, alloc, effect),
        SectionKind::Dylink => walk_dylink::<A, G, _>(bytes, alloc, effect),
        SectionKind::Relocations => walk_relocations::<A, G, _>(bytes, alloc, effect),
        SectionKind::InstructionFrequencies => walk_frequencies::<A, G, _>(bytes, alloc, effect),
        SectionKind::CompilationOrders => walk_orders::<A, G, _>(bytes, alloc, effect),
        SectionKind::CallTargets => walk_call_targets::<A, G, _>(bytes, alloc, effect),
    }
}

/// Skips the members of a vector that occupies all of the bytes, and returns their number.
fn count_members<'a, P: Walk<G>, A: Allocator + Copy, G: Grammar>(
    bytes: &'a [u8],
    alloc: A,
) -> Result<Option<u32>, DecodeError> {
    let (count, rest) = skip_many::<P, A, G>(bytes, alloc)?;
    P::laws();
    if rest.is_empty() {
        Ok(Some(count))
    } else {
        Err(ReadFault::SizeMismatch.at(rest))
    }
}

/// Returns the number of items in the payload of a section of this kind, or `None` if they are not
/// counted. No list of items is kept.
pub(crate) fn count_content<'a, A: Allocator + Copy, G: Grammar>(
    kind: SectionKind,
    bytes: &'a [u8],
    alloc: A,
) -> Result<Option<u32>, DecodeError> {
    match kind {
        SectionKind::Bodies => count_members::<Body<A>, A, G>(bytes, alloc),
        SectionKind::Segments => count_members::<Segment<'a, A>, A, G>(bytes, alloc),
        SectionKind::Elements => count_members::<ElementItem<A>, A, G>(bytes, alloc),
        SectionKind::Exports => count_members::<Export<'a>, A, G>(bytes, alloc),
        SectionKind::Functions => count_members::<u32, A, G>(bytes, alloc),
        SectionKind::Globals => count_members::<GlobalItem<A>, A, G>(bytes, alloc),
        SectionKind::Imports => count_members::<Imports<'a, A>, A, G>(bytes, alloc),
        SectionKind::Memories => count_members::<MemoryType, A, G>(bytes, alloc),
        SectionKind::Tables => count_members::<TableItem<A>, A, G>(bytes, alloc),
        SectionKind::Tags => count_members::<TagType, A, G>(bytes, alloc),
        SectionKind::Types => count_members::<TypeEntry<A>, A, G>(bytes, alloc),
        SectionKind::DataCount | SectionKind::Start => {
            walk_content::<A, G, _>(kind, bytes, alloc, &mut Discard)?;
            Ok(Some(1))
        }
        _ => {
            walk_content::<A, G, _>(kind, bytes, alloc, &mut Discard)?;
            Ok(None)
        }
    }
}
