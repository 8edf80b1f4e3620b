// Written by tools/to-rust from crates/examples/src/bodies.rt: change that.
// Functions that several examples add.

use dolzhytik::fallible::Allocator;
use dolzhytik::fallible::{Result, ValType};
use dolzhytik::fallible::Function;

/// Returns a function of one local, which does nothing.
///
/// # Proved
///
/// ```text
/// ensures { IfOk result (λ function. IsWellFormedBody function first_body) }
/// ```
pub(crate) fn first_function<A: Allocator>(alloc: A) -> Result<Function<A>> {
    let mut function = Function::new(alloc, [(1, ValType::I32)])?;
    let mut sink = function.instructions();
    sink.end()?;
    Ok(function)
}

/// Returns a function that returns the local of this index.
///
/// # Proved
///
/// ```text
/// ensures { IfOk result (λ function. IsWellFormedBody function (local_body index)) }
/// ```
pub(crate) fn local_function<A: Allocator>(alloc: A, index: u32) -> Result<Function<A>> {
    let mut function = Function::new(alloc, [])?;
    let mut sink = function.instructions();
    sink.local_get(index)?;
    sink.end()?;
    Ok(function)
}
