// Written by tools/to-rust from crates/read_back/src/stored.rt: change that.
//! Sections of stored items, written and read back: globals, elements, data and code, and sections
//! of one number.

use dolzhytik::fallible::{Sink, Vec};
use crate::read_back::first_values::encode_copied;
use crate::read_back::read_and_shorten;
use dolzhytik::fallible::Allocator;
use dolzhytik::fallible::{CowSlice, Encode, Result, ValType};
use dolzhytik::reader::ReadFault;
use dolzhytik::fallible::{CodeSection, ConstExpr, Function};
use dolzhytik::reader::{Items, SectionKind};
use dolzhytik::fallible::{DataCountSection, DataSection, ElementMode, ElementSection, ElementSegment, Elements, StartSection};

/// Decodes a global section of one global, which has the value of another, and appends its minimal
/// encoding.
///
/// # Asks
///
/// ```text
/// requires { encoding.old.items ≡ [] }
/// ```
///
/// # Proved
///
/// ```text
/// ensures read { IfOk result (λ items. contents_of items ≡ Globals (copied index ∷ [])) }
/// ensures same { OnOk result (GainsDecoding (counted_format global_item) (copied index ∷ []) sink.old.items sink.new.items) }
/// ensures memory { IfErr result (λ e. e ≢ Memory → ⊥) }
/// ```
pub fn read_globals<'a, A: Allocator + Copy + 'a>(
    encoding: &'a mut Vec<u8, A>,
    index: u32,
    sink: &mut Vec<u8, A>,
) -> Result<Items<'a, A>, ReadFault> {
    encode_copied(encoding, index)?;
    let items = read_and_shorten(SectionKind::Globals, encoding, sink)?;
    Ok(items)
}

/// Appends an element section: a function at an offset of a table, and two for a later call.
///
/// # Proved
///
/// ```text
/// ensures { OnOk result (GainsDecoding (counted_format element) (function_at_8 index ∷ later_functions ∷ []) sink.old.items sink.new.items) }
/// ```
fn write_elements<A: Allocator + Copy>(sink: &mut Vec<u8, A>, index: u32) -> Result<()> {
    let alloc = *sink.allocator();
    let offset = ConstExpr::i32_const(alloc, 8)?;
    let functions = [index];
    let mut section = ElementSection::new(alloc);
    section.active(
        None,
        &offset,
        Elements::Functions(CowSlice::Borrowed(&functions)),
    )?;
    let later: ElementSegment<'_> = ElementSegment {
        mode: ElementMode::Passive,
        elements: Elements::Functions(CowSlice::Borrowed(&[1, 2])),
    };
    section.segment(later)?;
    section.encode(sink)
}

/// Decodes that element section, and appends its minimal encoding.
///
/// # Asks
///
/// ```text
/// requires { encoding.old.items ≡ [] }
/// ```
///
/// # Proved
///
/// ```text
/// ensures read { IfOk result (λ items. contents_of items ≡ held.Elements (function_at_8 index ∷ later_functions ∷ [])) }
/// ensures same { OnOk result (GainsDecoding (counted_format element) (function_at_8 index ∷ later_functions ∷ []) sink.old.items sink.new.items) }
/// ensures memory { IfErr result (λ e. e ≢ Memory → ⊥) }
/// ```
pub fn read_elements<'a, A: Allocator + Copy + 'a>(
    encoding: &'a mut Vec<u8, A>,
    index: u32,
    sink: &mut Vec<u8, A>,
) -> Result<Items<'a, A>, ReadFault> {
    write_elements(encoding, index)?;
    let items = read_and_shorten(SectionKind::Elements, encoding, sink)?;
    Ok(items)
}

/// Appends a data section: bytes at an offset of a memory, and a segment that is already encoded.
///
/// # Proved
///
/// ```text
/// ensures { OnOk result (GainsDecoding (counted_format data_item) (bytes_at_8 ∷ byte_later ∷ []) sink.old.items sink.new.items) }
/// ```
fn write_segments<A: Allocator + Copy>(sink: &mut Vec<u8, A>) -> Result<()> {
    let alloc = *sink.allocator();
    let offset = ConstExpr::i32_const(alloc, 8)?;
    let mut section = DataSection::new(alloc);
    section.active(0, &offset, [5u8, 6])?;
    section.raw(&[0x01, 0x01, 0x07])?;
    section.encode(sink)
}

/// Decodes that data section, and appends its minimal encoding.
///
/// # Asks
///
/// ```text
/// requires { encoding.old.items ≡ [] }
/// ```
///
/// # Proved
///
/// ```text
/// ensures read { IfOk result (λ items. contents_of items ≡ Segments (bytes_at_8 ∷ byte_later ∷ [])) }
/// ensures same { OnOk result (GainsDecoding (counted_format data_item) (bytes_at_8 ∷ byte_later ∷ []) sink.old.items sink.new.items) }
/// ensures memory { IfErr result (λ e. e ≢ Memory → ⊥) }
/// ```
pub fn read_segments<'a, A: Allocator + Copy + 'a>(
    encoding: &'a mut Vec<u8, A>,
    sink: &mut Vec<u8, A>,
) -> Result<Items<'a, A>, ReadFault> {
    write_segments(encoding)?;
    let items = read_and_shorten(SectionKind::Segments, encoding, sink)?;
    Ok(items)
}

/// Returns a function of two locals, added one by one, which returns the local of the index.
///
/// # Proved
///
/// ```text
/// ensures { IfOk result (λ function. IsWellFormedBody function (of_two_locals index)) }
/// ```
pub(crate) fn of_locals<A: Allocator + Copy>(alloc: A, index: u32) -> Result<Function<A>> {
    let mut function = Function::new_with_locals_types(alloc, [ValType::I32, ValType::I32])?;
    let mut sink = function.instructions();
    sink.local_get(index)?;
    sink.end()?;
    Ok(function)
}

/// Returns a function whose body is `End` alone.
///
/// # Proved
///
/// ```text
/// ensures { IfOk result (λ function. IsWellFormedBody function empty_body) }
/// ```
pub(crate) fn of_nothing<A: Allocator>(alloc: A) -> Result<Function<A>> {
    let mut function = Function::new(alloc, [])?;
    let mut sink = function.instructions();
    sink.end()?;
    Ok(function)
}

/// Appends a code section of these two functions.
///
/// # Proved
///
/// ```text
/// ensures { OnOk result (GainsDecoding code_section (of_two_locals index ∷ empty_body ∷ []) sink.old.items sink.new.items) }
/// ```
fn write_bodies<A: Allocator + Copy>(sink: &mut Vec<u8, A>, index: u32) -> Result<()> {
    let alloc = *sink.allocator();
    let mut section = CodeSection::new(alloc);
    section.function(&of_locals(alloc, index)?)?;
    section.function(&of_nothing(alloc)?)?;
    section.encode(sink)
}

/// Decodes that code section, and appends its minimal encoding.
///
/// # Asks
///
/// ```text
/// requires { encoding.old.items ≡ [] }
/// ```
///
/// # Proved
///
/// ```text
/// ensures read { IfOk result (λ items. contents_of items ≡ Bodies (of_two_locals index ∷ empty_body ∷ [])) }
/// ensures same { OnOk result (GainsDecoding code_section (of_two_locals index ∷ empty_body ∷ []) sink.old.items sink.new.items) }
/// ensures memory { IfErr result (λ e. e ≢ Memory → ⊥) }
/// ```
pub fn read_bodies<'a, A: Allocator + Copy + 'a>(
    encoding: &'a mut Vec<u8, A>,
    index: u32,
    sink: &mut Vec<u8, A>,
) -> Result<Items<'a, A>, ReadFault> {
    write_bodies(encoding, index)?;
    let items = read_and_shorten(SectionKind::Bodies, encoding, sink)?;
    Ok(items)
}

/// Appends a start section.
///
/// # Proved
///
/// ```text
/// ensures { OnOk result (GainsDecoding (size_prefixed u32_format) index sink.old.items sink.new.items) }
/// ```
fn write_start<A: Sink>(sink: &mut A, index: u32) -> Result<()> {
    StartSection {
        function_index: index,
    }
    .encode(sink)
}

/// Decodes that start section, and appends its minimal encoding.
///
/// # Asks
///
/// ```text
/// requires { encoding.old.items ≡ [] }
/// ```
///
/// # Proved
///
/// ```text
/// ensures read { IfOk result (λ items. contents_of items ≡ Start index) }
/// ensures same { OnOk result (GainsDecoding (size_prefixed u32_format) index sink.old.items sink.new.items) }
/// ensures memory { IfErr result (λ e. e ≢ Memory → ⊥) }
/// ```
pub fn read_start<'a, A: Allocator + Copy + 'a>(
    encoding: &'a mut Vec<u8, A>,
    index: u32,
    sink: &mut Vec<u8, A>,
) -> Result<Items<'a, A>, ReadFault> {
    write_start(encoding, index)?;
    let items = read_and_shorten(SectionKind::Start, encoding, sink)?;
    Ok(items)
}

/// Appends a data count section.
///
/// # Proved
///
/// ```text
/// ensures { OnOk result (GainsDecoding (size_prefixed u32_format) count sink.old.items sink.new.items) }
/// ```
fn write_data_count<A: Sink>(sink: &mut A, count: u32) -> Result<()> {
    DataCountSection { count }.encode(sink)
}

/// Decodes that data count section, and appends its minimal encoding.
///
/// # Asks
///
/// ```text
/// requires { encoding.old.items ≡ [] }
/// ```
///
/// # Proved
///
/// ```text
/// ensures read { IfOk result (λ items. contents_of items ≡ DataCount count) }
/// ensures same { OnOk result (GainsDecoding (size_prefixed u32_format) count sink.old.items sink.new.items) }
/// ensures memory { IfErr result (λ e. e ≢ Memory → ⊥) }
/// ```
pub fn read_data_count<'a, A: Allocator + Copy + 'a>(
    encoding: &'a mut Vec<u8, A>,
    count: u32,
    sink: &mut Vec<u8, A>,
) -> Result<Items<'a, A>, ReadFault> {
    write_data_count(encoding, count)?;
    let items = read_and_shorten(SectionKind::DataCount, encoding, sink)?;
    Ok(items)
}
