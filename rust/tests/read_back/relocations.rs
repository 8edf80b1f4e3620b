// Written by tools/to-rust from crates/read_back/src/relocations.rt: change that.
//! A relocation section, written and read back.

use dolzhytik::fallible::Vec;
use crate::read_back::read_and_shorten;
use dolzhytik::fallible::Allocator;
use dolzhytik::fallible::{Encode, Result};
use dolzhytik::reader::ReadFault;
use dolzhytik::fallible::{Addend32Relocation, Addend64Relocation, PlainRelocation, Relocation, RelocationSection};
use dolzhytik::reader::{Items, SectionKind};

/// Appends the relocation section of a code section: relocations without an addend, and with
/// addends of 32 and of 64 bits.
///
/// # Proved
///
/// ```text
/// ensures { OnOk result (GainsDecoding (size_prefixed relocations_payload) (call_and_addresses index) sink.old.items sink.new.items) }
/// ```
fn write_relocations<A: Allocator + Copy>(sink: &mut Vec<u8, A>, index: u32) -> Result<()> {
    let mut section = RelocationSection::new(*sink.allocator(), "CODE", 3)?;
    section.relocation(Relocation::Plain {
        kind: PlainRelocation::FunctionIndexLeb,
        offset: 4,
        index,
    })?;
    section.relocation(Relocation::Addend32 {
        kind: Addend32Relocation::MemoryAddrLeb,
        offset: 300,
        index,
        addend: -4,
    })?;
    section.relocation(Relocation::Addend64 {
        kind: Addend64Relocation::MemoryAddrI64,
        offset: 310,
        index: 1,
        addend: -8,
    })?;
    section.encode(sink)
}

/// Decodes that relocation section, and appends its minimal encoding.
///
/// # Asks
///
/// ```text
/// requires { encoding.old.items ≡ [] }
/// ```
///
/// # Proved
///
/// ```text
/// ensures read { IfOk result (λ items. contents_of items ≡ Relocations (call_and_addresses index)) }
/// ensures same { OnOk result (GainsDecoding (size_prefixed relocations_payload) (call_and_addresses index) sink.old.items sink.new.items) }
/// ensures memory { IfErr result (λ e. e ≢ Memory → ⊥) }
/// ```
pub fn read_relocations<'a, A: Allocator + Copy + 'a>(
    encoding: &'a mut Vec<u8, A>,
    index: u32,
    sink: &mut Vec<u8, A>,
) -> Result<Items<'a, A>, ReadFault> {
    write_relocations(encoding, index)?;
    let items = read_and_shorten(SectionKind::Relocations, encoding, sink)?;
    Ok(items)
}
