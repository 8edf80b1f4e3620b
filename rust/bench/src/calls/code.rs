// Written by tools/to-rust from crates/wasm_bench/src/code.rt: change that.
// The workload of functions and their code.

use crate::calls::answers::{Fault, answer, number};
use crate::calls::bodies::with_locals;
use crate::calls::calls::call;
use crate::calls::values::value;
use crate::calls::words::Words;
use dolzhytik::fallible::Global;
use dolzhytik::fallible::ValType;
use dolzhytik::fallible::{CodeSection, Function};

/// Reads the instructions of a function, and makes the call of each.
fn add_by_calls(function: &mut Function, words: &mut Words<'_>, count: u32) -> Result<(), Fault> {
    let mut sink = function.instructions();
    for _ in 0..count {
        call(&mut sink, words)?;
    }
    Ok(())
}

/// Reads the instructions of a function, and adds each as a value.
fn add_by_values(function: &mut Function, words: &mut Words<'_>, count: u32) -> Result<(), Fault> {
    for _ in 0..count {
        let instruction = value(words)?;
        function.instruction(&instruction)?;
    }
    Ok(())
}

/// Reads a function: the number of its instructions, and the instructions.
fn read_function(alloc: Global, words: &mut Words<'_>, mode: u32) -> Result<Function, Fault> {
    let count = words.next()?;
    let mut function = with_locals(alloc, &[(2, ValType::I32), (1, ValType::F64)])?;
    if mode == 0 {
        add_by_calls(&mut function, words, count)?;
    } else {
        add_by_values(&mut function, words, count)?;
    }
    Ok(function)
}

/// Reads the number of functions, and the functions: in mode 0 by calls, in mode 1 as values.
///
/// # Proved
///
/// ```text
/// ensures counted { IfOk result (λ code. length code ≡ get_or words.now 0 0) }
/// ensures known { IfOk result (λ _. mode ≤ 1) }
/// ```
fn read_code(alloc: Global, words: &[u32], mode: u32) -> Result<CodeSection, Fault> {
    if mode > 1 {
        return Err(Fault::WrongInput);
    }
    let mut rest = Words::new(words);
    let mut code = CodeSection::new(alloc);
    let count = rest.next()?;
    for _ in 0..count {
        let function = read_function(alloc, &mut rest, mode)?;
        code.function(&function)?;
    }
    if rest.is_empty() {
        Ok(code)
    } else {
        Err(Fault::WrongInput)
    }
}

/// Reads functions, and returns their code section.
///
/// # Proved
///
/// ```text
/// ensures ok { IfOk result (λ n. (mode ≤ 1) × CountedAnswer 10 (get_or words.now 0 0) phase out.old out.new n) }
/// ensures err { OnErr result (out.new ≡ out.old) }
/// ```
fn code_section(
    alloc: Global,
    words: &[u32],
    mode: u32,
    phase: u32,
    out: &mut [u8],
) -> Result<u64, Fault> {
    let code = read_code(alloc, words, mode)?;
    answer(alloc, &code, phase, out)
}

/// Builds a code section of the functions in the words.
///
/// # Proved
///
/// ```text
/// ensures { Outcome out.old out.new result ((mode ≤ 1) × CountedAnswer 10 (get_or words.now 0 0) phase out.old out.new result) }
/// ```
pub fn wb_code(
    alloc: Global,
    words: &[u32],
    mode: u32,
    phase: u32,
    out: &mut [u8],
) -> u64 {
    number(code_section(alloc, words, mode, phase, out))
}
