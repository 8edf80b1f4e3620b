// Written by tools/to-rust from crates/examples/src/filled.rt: change that.
// A module whose table and memory are filled.

use dolzhytik::fallible::Vec;
use crate::examples::whole::{imports, memories};
use dolzhytik::fallible::Allocator;
use dolzhytik::fallible::{CowSlice, Module, RawSection, RefType, Result};
use dolzhytik::fallible::ConstExpr;
use dolzhytik::fallible::{DataCountSection, DataSection, ElementSection, Elements, TableSection, TableType};

/// Returns a module that copies an imported function to a table, and bytes to a memory.
///
/// # Proved
///
/// ```text
/// ensures { IfOk result (λ made. DecodesSections (filled_sections bytes.now) made.items) }
/// ```
pub fn filled_module<A: Allocator + Copy>(alloc: A, bytes: &[u8]) -> Result<Vec<u8, A>> {
    let mut module = Module::new(alloc)?;
    add_empty(&mut module, alloc)?;
    module.section(&elements(alloc)?)?;
    module.section(&DataCountSection { count: 2 })?;
    module.section(&segments(alloc, bytes)?)?;
    Ok(module.finish())
}

/// Adds the imported function, the table and the memory.
///
/// # Proved
///
/// ```text
/// ensures { DecodesSections [] built.old → OnOk result (DecodesSections empty_sections built.new) }
/// ```
fn add_empty<A: Allocator + Copy>(built: &mut Module<A>, alloc: A) -> Result<()> {
    built.section(&RawSection {
        id: 1,
        bytes: &[0x01, 0x60, 0x00, 0x00],
    })?;
    built.section(&imports(alloc)?)?;
    built.section(&tables(alloc)?)?;
    built.section(&memories(alloc)?)?;
    Ok(())
}

/// Returns a table of three functions.
///
/// # Proved
///
/// ```text
/// ensures { IfOk result (λ section. ContainsTables section (three_places ∷ [])) }
/// ```
fn tables<A: Allocator + Copy>(alloc: A) -> Result<TableSection<A>> {
    let mut section = TableSection::new(alloc);
    section.table(TableType {
        element_type: RefType::FUNCREF,
        table64: false,
        minimum: 3,
        maximum: None,
        shared: false,
    })?;
    Ok(section)
}

/// Returns a segment of the function 0, at the front of the table.
///
/// # Proved
///
/// ```text
/// ensures { IfOk result (λ section. ContainsElements section (ready_at_0 ∷ [])) }
/// ```
fn elements<A: Allocator + Copy>(alloc: A) -> Result<ElementSection<A>> {
    let mut section = ElementSection::new(alloc);
    let offset = ConstExpr::i32_const(alloc, 0)?;
    let functions = Elements::Functions(CowSlice::Borrowed(&[0]));
    section.active(None, &offset, functions)?;
    Ok(section)
}

/// Returns a segment of the bytes at the offset 8, and another for a later call.
///
/// # Proved
///
/// ```text
/// ensures { IfOk result (λ section. ContainsSegments section (bytes_at_8 bytes.now ∷ bytes_later ∷ [])) }
/// ```
fn segments<A: Allocator + Copy>(alloc: A, bytes: &[u8]) -> Result<DataSection<A>> {
    let mut section = DataSection::new(alloc);
    let offset = ConstExpr::i32_const(alloc, 8)?;
    section.active(0, &offset, bytes.iter().copied())?;
    section.passive([1u8, 2, 3])?;
    Ok(section)
}
