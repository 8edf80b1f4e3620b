// Written by tools/to-rust from crates/wasm_bench/src/line.rt: change that.
// The workload of a long line of calls.

use crate::calls::answers::{Fault, answer, number};
use crate::calls::bodies::with_locals;
use dolzhytik::fallible::Global;
use dolzhytik::fallible::Result;
use dolzhytik::fallible::{CodeSection, Function};
use dolzhytik::fallible::{InstructionSink, MemArg, MemArgTarget};

/// Makes eight calls, with four operands.
///
/// # Proved
///
/// ```text
/// ensures same_reference { sink.new.sink.ghost_name ≡ sink.old.sink.ghost_name }
/// ```
fn eight_calls(
    sink: &mut InstructionSink<'_, Function>,
    index: u32,
    constant: u32,
    callee: u32,
    offset: u32,
) -> Result<()> {
    let argument = MemArg {
        offset: u64::from(offset),
        align: 2,
        target: MemArgTarget::Memory(0),
        ordering: None,
    };
    sink.local_get(index)?;
    sink.i32_const(constant.cast_signed())?;
    sink.i32_add()?;
    sink.call(callee)?;
    sink.local_set(index)?;
    sink.i32_load(argument)?;
    sink.br_if(1)?;
    sink.end()
}

/// Returns a function of eight calls for each four operands.
fn long_line(alloc: Global, operands: &[u32]) -> Result<Function, Fault> {
    let (rows, others) = operands.as_chunks::<4>();
    if !others.is_empty() {
        return Err(Fault::WrongInput);
    }
    let mut function = with_locals(alloc, &[])?;
    let mut sink = function.instructions();
    for &[index, constant, callee, offset] in rows {
        eight_calls(&mut sink, index, constant, callee, offset)?;
    }
    Ok(function)
}

/// # Proved
///
/// ```text
/// ensures ok { IfOk result (λ n. CountedAnswer 10 1 phase out.old out.new n) }
/// ensures err { OnErr result (out.new ≡ out.old) }
/// ```
fn line_section(alloc: Global, operands: &[u32], phase: u32, out: &mut [u8]) -> Result<u64, Fault> {
    let function = long_line(alloc, operands)?;
    let mut code = CodeSection::new(alloc);
    code.function(&function)?;
    answer(alloc, &code, phase, out)
}

/// Builds a code section of one function: eight calls for each four operands. The input is the
/// operands, which need no decoding.
///
/// # Proved
///
/// ```text
/// ensures { Outcome out.old out.new result (CountedAnswer 10 1 phase out.old out.new result) }
/// ```
pub fn wb_line(alloc: Global, operands: &[u32], phase: u32, out: &mut [u8]) -> u64 {
    number(line_section(alloc, operands, phase, out))
}
