// Written by tools/to-rust from crates/examples/src/recursion.rt: change that.
// Functions built with the instruction sink.

use dolzhytik::fallible::Allocator;
use dolzhytik::fallible::Result;
use dolzhytik::fallible::Function;
use dolzhytik::fallible::BlockType;

/// Returns the factorial of its one parameter: 1 for 0, and otherwise the parameter times the
/// factorial of the number below. `itself` is the index of the function in its module.
///
/// # Proved
///
/// ```text
/// ensures { IfOk result (λ function. IsWellFormedBody function (factorial_body itself)) }
/// ```
pub fn factorial<A: Allocator>(alloc: A, itself: u32) -> Result<Function<A>> {
    let mut function = Function::new(alloc, [])?;
    let mut sink = function.instructions();
    sink.block(BlockType::Empty)?;
    sink.local_get(0)?;
    sink.i32_eqz()?;
    sink.br_if(0)?;
    sink.local_get(0)?;
    sink.local_get(0)?;
    sink.i32_const(1)?;
    sink.i32_sub()?;
    sink.call(itself)?;
    sink.i32_mul()?;
    sink.return_()?;
    sink.end()?;
    sink.i32_const(1)?;
    sink.end()?;
    Ok(function)
}

/// Returns a function that branches out of the inner block if its one parameter is 0, and otherwise
/// out of both.
///
/// # Proved
///
/// ```text
/// ensures { IfOk result (λ function. IsWellFormedBody function choice_body) }
/// ```
pub fn choice<A: Allocator>(alloc: A) -> Result<Function<A>> {
    let mut function = Function::new(alloc, [])?;
    let mut sink = function.instructions();
    sink.block(BlockType::Empty)?;
    sink.block(BlockType::Empty)?;
    sink.local_get(0)?;
    sink.br_table([0], 1)?;
    sink.end()?;
    sink.end()?;
    sink.end()?;
    Ok(function)
}
