// Written by tools/to-rust from crates/wasm_bench/src/functions.rt: change that.
// The workload of the function section.

use crate::calls::answers::{Fault, answer, number};
use dolzhytik::fallible::Global;
use dolzhytik::fallible::Result;
use dolzhytik::fallible::FunctionSection;

/// Returns a section of functions of these types.
///
/// # Proved
///
/// ```text
/// ensures { IfOk result (λ section. section ≡ map unsigned_encoding types.now) }
/// ```
fn build(alloc: Global, types: &[u32]) -> Result<FunctionSection> {
    let mut section = FunctionSection::new(alloc);
    for &type_index in types {
        section.function(type_index)?;
    }
    Ok(section)
}

/// # Proved
///
/// ```text
/// ensures ok { IfOk result (λ n. FunctionsAnswer types.now phase out.old out.new n) }
/// ensures err { OnErr result (out.new ≡ out.old) }
/// ```
fn function_section(alloc: Global, types: &[u32], phase: u32, out: &mut [u8]) -> Result<u64, Fault> {
    let section = build(alloc, types)?;
    answer(alloc, &section, phase, out)
}

/// Builds a section of functions of the types of these indices.
///
/// # Proved
///
/// ```text
/// ensures { Outcome out.old out.new result (FunctionsAnswer types.now phase out.old out.new result) }
/// ```
pub fn wb_functions(alloc: Global, types: &[u32], phase: u32, out: &mut [u8]) -> u64 {
    number(function_section(alloc, types, phase, out))
}
