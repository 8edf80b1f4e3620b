// Written by tools/to-rust from crates/wasm_bench/src/name_section.rt: change that.
// The workload of the name section.

use crate::calls::answers::{Fault, answer, number};
use crate::calls::names::Names;
use dolzhytik::fallible::Global;
use dolzhytik::fallible::{NameMap, NameSection};

/// Returns the names of functions, from the length and the index of each.
///
/// # Proved
///
/// ```text
/// ensures { IfOk result (λ map. length map ≡ length indices.now) }
/// ```
fn build(alloc: Global, names: &[u8], lens: &[u32], indices: &[u32]) -> Result<NameMap, Fault> {
    if indices.len() != lens.len() {
        return Err(Fault::WrongInput);
    }
    let mut rest = Names::new(names)?;
    let mut map = NameMap::new(alloc);
    for i in 0..lens.len() {
        map.append(indices[i], rest.next(lens[i])?)?;
    }
    if rest.is_empty() {
        Ok(map)
    } else {
        Err(Fault::WrongInput)
    }
}

/// # Proved
///
/// ```text
/// ensures ok { IfOk result (λ n. NamesAnswer (length indices.now) phase out.old out.new n) }
/// ensures err { OnErr result (out.new ≡ out.old) }
/// ```
fn name_section(
    alloc: Global,
    names: &[u8],
    lens: &[u32],
    indices: &[u32],
    phase: u32,
    out: &mut [u8],
) -> Result<u64, Fault> {
    let map = build(alloc, names, lens, indices)?;
    let mut section = NameSection::new(alloc);
    section.functions(&map)?;
    answer(alloc, &section, phase, out)
}

/// Builds a name section of the names of functions. The names lie one after another, and have these
/// lengths.
///
/// # Proved
///
/// ```text
/// ensures { Outcome out.old out.new result (NamesAnswer (length indices.now) phase out.old out.new result) }
/// ```
pub fn wb_names(
    alloc: Global,
    names: &[u8],
    lens: &[u32],
    indices: &[u32],
    phase: u32,
    out: &mut [u8],
) -> u64 {
    number(name_section(alloc, names, lens, indices, phase, out))
}
