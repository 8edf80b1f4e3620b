// Written by tools/to-rust from crates/wasm_bench/src/values.rt: change that.
// Instructions as values, by the words of a workload.

use crate::calls::answers::Fault;
use crate::calls::calls::mem_arg;
use crate::calls::codes;
use crate::calls::words::Words;
use dolzhytik::fallible::{CowSlice, ValType};
use dolzhytik::fallible::{BlockType, Ieee32, Ieee64, Instruction, Numeric, VectorImmediate};

/// Returns a branch by a table: the words are the number of labels, the labels, and the default
/// label.
fn table<'a>(words: &mut Words<'a>) -> Result<Instruction<'a>, Fault> {
    let count = words.next()?;
    let labels = words.take(count)?;
    let default = words.next()?;
    Ok(Instruction::BrTable(CowSlice::Borrowed(labels), default))
}

/// Returns a call through a table: the words are the index of the table, and the index of the type.
fn indirect<'a>(words: &mut Words<'a>) -> Result<Instruction<'a>, Fault> {
    let table_index = words.next()?;
    let type_index = words.next()?;
    Ok(Instruction::CallIndirect {
        type_index,
        table_index,
    })
}

/// Returns a control instruction. No other codes exist.
#[inline]
fn control<'a>(code: u32, words: &mut Words<'a>) -> Result<Instruction<'a>, Fault> {
    match code {
        codes::CALL => Ok(Instruction::Call(words.next()?)),
        codes::CALL_INDIRECT => indirect(words),
        codes::BR_IF => Ok(Instruction::BrIf(words.next()?)),
        codes::BR_TABLE => table(words),
        codes::BLOCK => Ok(Instruction::Block(BlockType::Empty)),
        codes::BLOCK_RESULT => Ok(Instruction::Block(BlockType::Result(ValType::I32))),
        codes::IF => Ok(Instruction::If(BlockType::FunctionType(words.next()?))),
        codes::END => Ok(Instruction::End),
        codes::RETURN => Ok(Instruction::Return),
        _ => Err(Fault::WrongInput),
    }
}

/// Returns an access of memory, or an instruction without operands. Passes other codes on.
#[inline]
fn plain<'a>(code: u32, words: &mut Words<'a>) -> Result<Instruction<'a>, Fault> {
    match code {
        codes::I32_LOAD => Ok(Instruction::I32Load(mem_arg(words)?)),
        codes::I32_STORE => Ok(Instruction::I32Store(mem_arg(words)?)),
        codes::I32_ADD => Ok(Instruction::Numeric(Numeric::I32Add)),
        codes::I32_SUB => Ok(Instruction::Numeric(Numeric::I32Sub)),
        codes::I64_ADD => Ok(Instruction::Numeric(Numeric::I64Add)),
        codes::I32_EQZ => Ok(Instruction::Numeric(Numeric::I32Eqz)),
        codes::DROP => Ok(Instruction::Drop),
        codes::SELECT => Ok(Instruction::Select),
        _ => control(code, words),
    }
}

/// Returns a vector of these low bits.
fn vector<'a>(low: u32) -> Instruction<'a> {
    Instruction::VectorImmediate(VectorImmediate::V128Const(i128::from(low)))
}

/// Returns a constant. Passes other codes on.
#[inline]
fn constant<'a>(code: u32, words: &mut Words<'a>) -> Result<Instruction<'a>, Fault> {
    match code {
        codes::I32_CONST => Ok(Instruction::I32Const(words.next()?.cast_signed())),
        codes::I64_CONST => Ok(Instruction::I64Const(words.padded()?.cast_signed())),
        codes::F32_CONST => Ok(Instruction::F32Const(Ieee32::new(words.next()?))),
        codes::F64_CONST => Ok(Instruction::F64Const(Ieee64::new(words.padded()?))),
        codes::V128_CONST => Ok(vector(words.next()?)),
        codes::REF_FUNC => Ok(Instruction::RefFunc(words.next()?)),
        _ => plain(code, words),
    }
}

/// Returns an access of a local or a global. Passes other codes on.
#[inline]
fn variable<'a>(code: u32, words: &mut Words<'a>) -> Result<Instruction<'a>, Fault> {
    match code {
        codes::LOCAL_GET => Ok(Instruction::LocalGet(words.next()?)),
        codes::LOCAL_SET => Ok(Instruction::LocalSet(words.next()?)),
        codes::LOCAL_TEE => Ok(Instruction::LocalTee(words.next()?)),
        codes::GLOBAL_GET => Ok(Instruction::GlobalGet(words.next()?)),
        codes::GLOBAL_SET => Ok(Instruction::GlobalSet(words.next()?)),
        _ => constant(code, words),
    }
}

/// Reads an instruction. Each of the functions above handles some codes and passes the others on,
/// so that the compiler makes one jump of them.
pub(crate) fn value<'a>(words: &mut Words<'a>) -> Result<Instruction<'a>, Fault> {
    let code = words.next()?;
    variable(code, words)
}
