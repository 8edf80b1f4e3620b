// Written by tools/to-rust from crates/read_back/src/dylink.rt: change that.
//! The section of a dynamic library, written and read back.

use dolzhytik::fallible::Vec;
use crate::read_back::read_and_shorten;
use dolzhytik::fallible::Allocator;
use dolzhytik::fallible::{Encode, Result};
use dolzhytik::reader::ReadFault;
use dolzhytik::fallible::{DylinkExports, DylinkImports, DylinkMemory, DylinkNeeded, DylinkPath, DylinkSection};
use dolzhytik::reader::{Items, SectionKind};

/// Returns a list of one library.
///
/// # Proved
///
/// ```text
/// ensures { IfOk result (λ list. AreNames list (name.now ∷ [])) }
/// ```
fn needed<A: Allocator + Copy>(alloc: A, name: &str) -> Result<DylinkNeeded<A>> {
    let mut list = DylinkNeeded::new(alloc);
    list.library(name)?;
    Ok(list)
}

/// Returns a list of one folder.
///
/// # Proved
///
/// ```text
/// ensures { IfOk result (λ list. AreNames list (codes "/l" ∷ [])) }
/// ```
fn folders<A: Allocator + Copy>(alloc: A) -> Result<DylinkPath<A>> {
    let mut list = DylinkPath::new(alloc);
    list.folder("/l")?;
    Ok(list)
}

/// Returns the flags of one exported symbol.
///
/// # Proved
///
/// ```text
/// ensures { IfOk result (λ list. AreDylinkExports list (flagged_export flags ∷ [])) }
/// ```
fn exports<A: Allocator + Copy>(alloc: A, flags: u32) -> Result<DylinkExports<A>> {
    let mut list = DylinkExports::new(alloc);
    list.export("f", flags)?;
    Ok(list)
}

/// Returns the flags of one imported symbol.
///
/// # Proved
///
/// ```text
/// ensures { IfOk result (λ list. AreDylinkImports list (weak_import ∷ [])) }
/// ```
fn imports<A: Allocator + Copy>(alloc: A) -> Result<DylinkImports<A>> {
    let mut list = DylinkImports::new(alloc);
    list.import("env", "g", 1)?;
    Ok(list)
}

/// Appends the section of a dynamic library: a subsection of each id.
///
/// # Proved
///
/// ```text
/// ensures { OnOk result (GainsDecoding (size_prefixed dylink_payload) (library name.now flags) sink.old.items sink.new.items) }
/// ```
fn write_dylink<A: Allocator + Copy>(sink: &mut Vec<u8, A>, name: &str, flags: u32) -> Result<()> {
    let alloc = *sink.allocator();
    let mut section = DylinkSection::new(alloc);
    section.memory(DylinkMemory {
        memory_size: 16,
        memory_alignment: 2,
        table_size: 0,
        table_alignment: 0,
    })?;
    section.needed(&needed(alloc, name)?)?;
    section.exports(&exports(alloc, flags)?)?;
    section.imports(&imports(alloc)?)?;
    section.runtime_path(&folders(alloc)?)?;
    section.encode(sink)
}

/// Decodes the section of that library, and appends its minimal encoding.
///
/// # Asks
///
/// ```text
/// requires { encoding.old.items ≡ [] }
/// ```
///
/// # Proved
///
/// ```text
/// ensures read { IfOk result (λ items. contents_of items ≡ Dylink (library name.now flags)) }
/// ensures same { OnOk result (GainsDecoding (size_prefixed dylink_payload) (library name.now flags) sink.old.items sink.new.items) }
/// ensures memory { IfErr result (λ e. e ≢ Memory → ⊥) }
/// ```
pub fn read_dylink<'a, A: Allocator + Copy + 'a>(
    encoding: &'a mut Vec<u8, A>,
    name: &str,
    flags: u32,
    sink: &mut Vec<u8, A>,
) -> Result<Items<'a, A>, ReadFault> {
    write_dylink(encoding, name, flags)?;
    let items = read_and_shorten(SectionKind::Dylink, encoding, sink)?;
    Ok(items)
}
