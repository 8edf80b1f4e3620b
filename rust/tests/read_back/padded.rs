// Written by tools/to-rust from crates/read_back/src/padded.rt: change that.
//! Sections with some padded LEB128: expressions and entries that are already encoded.

use dolzhytik::fallible::Vec;
use crate::read_back::read_and_shorten;
use crate::read_back::stored::of_nothing;
use dolzhytik::fallible::Allocator;
use dolzhytik::fallible::{CowSlice, Encode, Module, RefType, Result};
use dolzhytik::reader::ReadFault;
use dolzhytik::fallible::{CodeSection, ConstExpr};
use dolzhytik::fallible::NameSection;
use dolzhytik::reader::{Items, SectionKind};
use dolzhytik::fallible::{DataSection, ElementSection, Elements, TableSection, TableType};

/// Returns the offset 0, whose number has two bytes.
///
/// # Proved
///
/// ```text
/// ensures { IfOk result (λ offset. StoresPadded offset zero_offset) }
/// ```
fn padded_offset<A: Allocator>(alloc: A) -> Result<ConstExpr<A>> {
    let offset = ConstExpr::raw(alloc, [0x41, 0x80, 0x00])?;
    Ok(offset)
}

/// Returns a table of references to the function 0, whose index has two bytes.
///
/// # Proved
///
/// ```text
/// ensures { IfOk result (λ section. ContainsPadded table_item section (first_everywhere ∷ [])) }
/// ```
fn tables<A: Allocator + Copy>(alloc: A) -> Result<TableSection<A>> {
    let functions = TableType {
        element_type: RefType::FUNCREF,
        table64: false,
        minimum: 1,
        maximum: None,
        shared: false,
    };
    let first = ConstExpr::raw(alloc, [0xD2, 0x80, 0x00])?;
    let mut section = TableSection::new(alloc);
    section.table_with_init(functions, &first)?;
    Ok(section)
}

/// Returns a segment of the function 1, at the front of the table.
///
/// # Proved
///
/// ```text
/// ensures { IfOk result (λ section. ContainsPadded element section (at_front ∷ [])) }
/// ```
fn elements<A: Allocator + Copy>(alloc: A) -> Result<ElementSection<A>> {
    let offset = padded_offset(alloc)?;
    let mut section = ElementSection::new(alloc);
    section.active(None, &offset, Elements::Functions(CowSlice::Borrowed(&[1])))?;
    Ok(section)
}

/// Returns a segment of these bytes, at the front of a memory.
///
/// # Proved
///
/// ```text
/// ensures { IfOk result (λ section. ContainsPadded data_item section (bytes_at_front memory bytes.now ∷ [])) }
/// ```
fn segments<A: Allocator + Copy>(alloc: A, memory: u32, bytes: &[u8]) -> Result<DataSection<A>> {
    let offset = padded_offset(alloc)?;
    let mut section = DataSection::new(alloc);
    section.active(memory, &offset, bytes.iter().copied())?;
    Ok(section)
}

/// Returns the name of a local, whose index has two bytes.
///
/// # Proved
///
/// ```text
/// ensures { IfOk result (λ section. ContainsPadded subsection section local_name) }
/// ```
fn names<A: Allocator + Copy>(alloc: A) -> Result<NameSection<A>> {
    let mut section = NameSection::new(alloc);
    section.raw(2, &[0x01, 0x00, 0x01, 0x80, 0x00, 0x01, 0x61])?;
    Ok(section)
}

/// Returns a module of these sections.
///
/// # Proved
///
/// ```text
/// ensures { IfOk result (λ made. DecodesSections (padded_sections memory bytes.now) made.items) }
/// ```
pub fn padded_entries<A: Allocator + Copy>(
    alloc: A,
    memory: u32,
    bytes: &[u8],
) -> Result<Vec<u8, A>> {
    let mut built = Module::new(alloc)?;
    built.section(&tables(alloc)?)?;
    built.section(&elements(alloc)?)?;
    built.section(&segments(alloc, memory, bytes)?)?;
    built.section(&names(alloc)?)?;
    Ok(built.finish())
}

/// Appends a data section of these bytes.
///
/// # Proved
///
/// ```text
/// ensures { OnOk result (GainsDecodingPadded (counted_format data_item) (bytes_at_front memory bytes.now ∷ []) sink.old.items sink.new.items) }
/// ```
fn write_padded_segment<A: Allocator + Copy>(
    sink: &mut Vec<u8, A>,
    memory: u32,
    bytes: &[u8],
) -> Result<()> {
    let section = segments(*sink.allocator(), memory, bytes)?;
    section.encode(sink)
}

/// Decodes that data section, and appends its minimal encoding.
///
/// # Asks
///
/// ```text
/// requires { encoding.old.items ≡ [] }
/// ```
///
/// # Proved
///
/// ```text
/// ensures read { IfOk result (λ items. contents_of items ≡ held.Segments (bytes_at_front memory bytes.now ∷ [])) }
/// ensures memory { IfErr result (λ e. e ≢ Memory → ⊥) }
/// ```
pub fn read_padded_segment<'a, A: Allocator + Copy>(
    encoding: &'a mut Vec<u8, A>,
    memory: u32,
    bytes: &[u8],
    sink: &mut Vec<u8, A>,
) -> Result<Items<'a, A>, ReadFault> {
    write_padded_segment(encoding, memory, bytes)?;
    let items = read_and_shorten(SectionKind::Segments, encoding, sink)?;
    Ok(items)
}

/// Appends a code section of a body in which an index has two bytes, and of a function.
///
/// # Proved
///
/// ```text
/// ensures { OnOk result (GainsDecodingPadded code_section (gets_twice ∷ empty_body ∷ []) sink.old.items sink.new.items) }
/// ```
pub fn write_padded_bodies<A: Allocator + Copy>(sink: &mut Vec<u8, A>) -> Result<()> {
    let alloc = *sink.allocator();
    let mut section = CodeSection::new(alloc);
    section.raw(&[0x00, 0x20, 0x80, 0x00, 0x20, 0x00, 0x0B])?;
    section.function(&of_nothing(alloc)?)?;
    section.encode(sink)
}
