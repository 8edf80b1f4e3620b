// Written by tools/to-rust from crates/wasm_bench/src/exports.rt: change that.
// The workload of the export section.

use crate::calls::answers::{Fault, answer, number};
use crate::calls::kinds::export_kind_of;
use crate::calls::names::Names;
use dolzhytik::fallible::Global;
use dolzhytik::fallible::ExportSection;

/// Returns a section of exports, from the length of the name, the kind and the index of each.
///
/// # Proved
///
/// ```text
/// ensures { IfOk result (λ section. length section ≡ length kinds.now) }
/// ```
fn build(
    alloc: Global,
    names: &[u8],
    lens: &[u32],
    kinds: &[u8],
    indices: &[u32],
) -> Result<ExportSection, Fault> {
    if kinds.len() != lens.len() || indices.len() != lens.len() {
        return Err(Fault::WrongInput);
    }
    let mut rest = Names::new(names)?;
    let mut section = ExportSection::new(alloc);
    for i in 0..lens.len() {
        let name = rest.next(lens[i])?;
        section.export(name, export_kind_of(kinds[i])?, indices[i])?;
    }
    if rest.is_empty() {
        Ok(section)
    } else {
        Err(Fault::WrongInput)
    }
}

/// # Proved
///
/// ```text
/// ensures ok { IfOk result (λ n. CountedAnswer 7 (length kinds.now) phase out.old out.new n) }
/// ensures err { OnErr result (out.new ≡ out.old) }
/// ```
fn export_section(
    alloc: Global,
    names: &[u8],
    lens: &[u32],
    kinds: &[u8],
    indices: &[u32],
    phase: u32,
    out: &mut [u8],
) -> Result<u64, Fault> {
    let section = build(alloc, names, lens, kinds, indices)?;
    answer(alloc, &section, phase, out)
}

/// Builds a section of exports. The names lie one after another, and have these lengths.
///
/// # Proved
///
/// ```text
/// ensures { Outcome out.old out.new result (CountedAnswer 7 (length kinds.now) phase out.old out.new result) }
/// ```
pub fn wb_exports(
    alloc: Global,
    names: &[u8],
    lens: &[u32],
    kinds: &[u8],
    indices: &[u32],
    phase: u32,
    out: &mut [u8],
) -> u64 {
    number(export_section(alloc, names, lens, kinds, indices, phase, out))
}
