// Written by tools/to-rust from crates/read_back/src/objects.rt: change that.
//! The linking section of an object file, written and read back.

use dolzhytik::fallible::Vec;
use dolzhytik::fallible::Allocator;
use dolzhytik::fallible::{Encode, Result};
use dolzhytik::reader::{ReadFault, Readable, Standard};
use dolzhytik::fallible::{ComdatSymbols, Comdats, InitFunctions, ObjectLinking, ObjectSymbols, SegmentInfos, read_links};
use dolzhytik::reader::LinkItem;
use dolzhytik::fallible::laws::custom as laws;

/// Returns a list of one segment.
///
/// # Proved
///
/// ```text
/// ensures { IfOk result (λ list. AreSegments list (read_only name.now ∷ [])) }
/// ```
fn segments<A: Allocator + Copy>(alloc: A, name: &str) -> Result<SegmentInfos<A>> {
    let mut list = SegmentInfos::new(alloc);
    list.segment(name, 2, 0)?;
    Ok(list)
}

/// Returns a list of one init function.
///
/// # Proved
///
/// ```text
/// ensures { IfOk result (λ list. AreInits list (start priority ∷ [])) }
/// ```
fn functions<A: Allocator + Copy>(alloc: A, priority: u32) -> Result<InitFunctions<A>> {
    let mut list = InitFunctions::new(alloc);
    list.function(priority, 3)?;
    Ok(list)
}

/// Returns the members of a COMDAT group: one data segment.
///
/// # Proved
///
/// ```text
/// ensures { IfOk result (λ list. AreComdatSymbols list (member ∷ [])) }
/// ```
fn members<A: Allocator + Copy>(alloc: A) -> Result<ComdatSymbols<A>> {
    let mut list = ComdatSymbols::new(alloc);
    list.symbol(0, 4)?;
    Ok(list)
}

/// Returns a list of one COMDAT group.
///
/// # Proved
///
/// ```text
/// ensures { IfOk result (λ list. AreComdats list (group ∷ [])) }
/// ```
fn comdats<A: Allocator + Copy>(alloc: A) -> Result<Comdats<A>> {
    let mut list = Comdats::new(alloc);
    list.comdat("g", 0, &members(alloc)?)?;
    Ok(list)
}

/// Returns the symbols: a section and a tag.
///
/// # Proved
///
/// ```text
/// ensures { IfOk result (λ table. AreObjectSymbols table (section_symbol ∷ tag_symbol ∷ [])) }
/// ```
fn symbols<A: Allocator + Copy>(alloc: A) -> Result<ObjectSymbols<A>> {
    let mut table = ObjectSymbols::new(alloc);
    table.section(0, 8)?;
    table.tag(0, 1, Some("t"))?;
    Ok(table)
}

/// Appends the linking section of an object file: a subsection of each kind.
///
/// # Proved
///
/// ```text
/// ensures { OnOk result (GainsDecoding (size_prefixed object_payload) (objects name.now priority) sink.old.items sink.new.items) }
/// ```
fn write_objects<A: Allocator + Copy>(
    sink: &mut Vec<u8, A>,
    name: &str,
    priority: u32,
) -> Result<()> {
    let alloc = *sink.allocator();
    let mut section = ObjectLinking::new(alloc);
    section.segments(&segments(alloc, name)?)?;
    section.init_functions(&functions(alloc, priority)?)?;
    section.comdats(&comdats(alloc)?)?;
    section.symbol_table(&symbols(alloc)?)?;
    section.target_arch("wasm32")?;
    section.encode(sink)
}

/// Decodes that section in the standard's grammar, which alone has all of these subsections.
///
/// # Asks
///
/// ```text
/// requires { encoding.old.items ≡ [] }
/// ```
///
/// # Proved
///
/// ```text
/// ensures read { IfOk result (λ items. map link_view items.items ≡ objects name.now priority) }
/// ensures memory { IfErr result (λ e. e ≢ Memory → ⊥) }
/// ```
pub fn read_objects<'a, A: Allocator + Copy + 'a>(
    encoding: &'a mut Vec<u8, A>,
    name: &str,
    priority: u32,
) -> Result<Vec<LinkItem<'a, A>, A>, ReadFault> {
    let alloc = *encoding.allocator();
    write_objects(encoding, name, priority)?;
    laws::object_linking();
    let (payload, _rest) = <&'a [u8] as Readable<'a, A, Standard>>::read(encoding, alloc)?;
    let items = read_links::<'a, A, Standard>(payload, alloc)?;
    Ok(items)
}
