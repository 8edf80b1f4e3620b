// Written by tools/to-rust from tests/wasm_sections_tests/src/functions.rtt: change that.
// Functions with which several tests begin.

use dolzhytik::fallible::Allocator;
use dolzhytik::fallible::Result;
use dolzhytik::fallible::Function;

/// Returns a function without locals, and without instructions yet.
pub(crate) fn without_locals<A: Allocator>(alloc: A) -> Result<Function<A>> {
    Function::new(alloc, [])
}
