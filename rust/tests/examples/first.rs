// Written by tools/to-rust from crates/examples/src/first.rt: change that.
// A module of one function.

use dolzhytik::fallible::Vec;
use dolzhytik::fallible::Allocator;
use dolzhytik::fallible::{Module, Result, ValType};
use dolzhytik::fallible::{CodeSection, Function};
use dolzhytik::fallible::Instruction;

/// Returns a module of a code section of one function, which has one local and does nothing.
///
/// # Proved
///
/// ```text
/// ensures { IfOk result (λ bytes. DecodesSections (code_decoding (first_body ∷ []) ∷ []) bytes.items) }
/// ```
pub fn first_module<A: Allocator + Copy>(alloc: A) -> Result<Vec<u8, A>> {
    let mut code = CodeSection::new(alloc);
    let mut function = Function::new(alloc, [(1, ValType::I32)])?;
    function.instruction(&Instruction::End)?;
    code.function(&function)?;
    let mut module = Module::new(alloc)?;
    module.section(&code)?;
    let bytes = module.finish();
    Ok(bytes)
}
