// Written by tools/to-rust from crates/examples/src/stripped.rt: change that.
// A module without its custom sections.

use dolzhytik::fallible::Vec;
use dolzhytik::fallible::Allocator;
use dolzhytik::fallible::{Module, RawSection};
use dolzhytik::reader::ReadFault;
use dolzhytik::reader::{ReadError, Section, Sections};

/// Returns the module without its custom sections, as strippers do. Other sections keep their
/// payloads, and their order.
///
/// # Errors
///
/// Every error except `Memory` means that the bytes are no module: the header, then sections of any
/// payload.
///
/// # Proved
///
/// ```text
/// ensures found { IfOk result (λ kept. IsStripped bytes.now kept.items) }
/// ensures none { IfErr result (λ e. e.cause ≢ Memory → RejectsWhole wasm_module padded bytes.now) }
/// ```
pub fn without_custom<A: Allocator + Copy>(bytes: &[u8], alloc: A) -> Result<Vec<u8, A>, ReadError> {
    let mut sections = Sections::new(alloc, bytes)?;
    let mut kept = match Module::new(alloc) {
        Ok(module) => module,
        Err(_) => return Err(refused_at(0)),
    };
    loop {
        let section = match sections.next() {
            None => return Ok(kept.finish()),
            Some(section) => section?,
        };
        if section.id() == 0 {
            continue;
        }
        match copy(&section, &mut kept) {
            Ok(()) => {}
            Err(error) => return Err(error),
        }
    }
}

/// Returns the error of a failed allocation at the section of this offset.
///
/// # Proved
///
/// ```text
/// ensures { result.cause ≡ Memory }
/// ```
pub(crate) fn refused_at(offset: usize) -> ReadError {
    ReadError {
        cause: ReadFault::Memory,
        offset,
    }
}

/// Appends a section to the module, with the same payload.
///
/// # Proved
///
/// ```text
/// ensures ok { OnOk result (DecodesOneMore (λ payload. payload ≡ section.now.section.payload) section.now.section.id module.old module.new) }
/// ensures memory { IfErr result (λ e. e.cause ≡ Memory) }
/// ```
fn copy<A: Allocator + Copy>(
    section: &Section<'_, A>,
    module: &mut Module<A>,
) -> Result<(), ReadError> {
    let copied = RawSection {
        id: section.id(),
        bytes: section.payload(),
    };
    match module.section(&copied) {
        Ok(()) => Ok(()),
        Err(_) => Err(refused_at(section.offset())),
    }
}
