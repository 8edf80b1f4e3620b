// Written by tools/to-rust from crates/wasm_bench/src/bodies.rt: change that.
// Bodies that have no instructions yet.

use dolzhytik::fallible::Global;
use dolzhytik::fallible::{Result, ValType};
use dolzhytik::fallible::Function;

/// Returns a function with these runs of locals.
pub(crate) fn with_locals(alloc: Global, runs: &[(u32, ValType)]) -> Result<Function> {
    Function::new(alloc, runs.iter().copied())
}
