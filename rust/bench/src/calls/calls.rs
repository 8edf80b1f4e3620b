// Written by tools/to-rust from crates/wasm_bench/src/calls.rt: change that.
// Calls of the instruction sink, by the words of a workload.

use crate::calls::answers::Fault;
use crate::calls::codes;
use crate::calls::words::Words;
use dolzhytik::fallible::ValType;
use dolzhytik::fallible::Function;
use dolzhytik::fallible::{BlockType, Ieee32, Ieee64, InstructionSink, MemArg, MemArgTarget};

/// The sink of a function.
type Sink<'a> = InstructionSink<'a, Function>;

/// Reads a memory argument: the offset, the alignment and the index of the memory.
pub(crate) fn mem_arg(words: &mut Words<'_>) -> Result<MemArg, Fault> {
    let offset = words.next()?;
    let align = words.next()?;
    let memory = words.next()?;
    Ok(MemArg {
        offset: u64::from(offset),
        align,
        target: MemArgTarget::Memory(memory),
        ordering: None,
    })
}

/// Adds a branch by a table: the words are the number of labels, the labels, and the default label.
///
/// # Proved
///
/// ```text
/// ensures { sink.new.sink.ghost_name ≡ sink.old.sink.ghost_name }
/// ```
fn table_call(sink: &mut Sink<'_>, words: &mut Words<'_>) -> Result<(), Fault> {
    let count = words.next()?;
    let labels = words.take(count)?;
    let default = words.next()?;
    sink.br_table(labels.iter().copied(), default)?;
    Ok(())
}

/// Adds a call through a table: the words are the index of the table, and the index of the type.
///
/// # Proved
///
/// ```text
/// ensures { sink.new.sink.ghost_name ≡ sink.old.sink.ghost_name }
/// ```
fn indirect_call(sink: &mut Sink<'_>, words: &mut Words<'_>) -> Result<(), Fault> {
    let table_index = words.next()?;
    let type_index = words.next()?;
    sink.call_indirect(table_index, type_index)?;
    Ok(())
}

/// Adds a control instruction. No other codes exist.
///
/// # Proved
///
/// ```text
/// ensures { sink.new.sink.ghost_name ≡ sink.old.sink.ghost_name }
/// ```
#[inline]
fn control_call(sink: &mut Sink<'_>, code: u32, words: &mut Words<'_>) -> Result<(), Fault> {
    match code {
        codes::CALL => Ok(sink.call(words.next()?)?),
        codes::CALL_INDIRECT => indirect_call(sink, words),
        codes::BR_IF => Ok(sink.br_if(words.next()?)?),
        codes::BR_TABLE => table_call(sink, words),
        codes::BLOCK => Ok(sink.block(BlockType::Empty)?),
        codes::BLOCK_RESULT => Ok(sink.block(BlockType::Result(ValType::I32))?),
        codes::IF => Ok(sink.if_(BlockType::FunctionType(words.next()?))?),
        codes::END => Ok(sink.end()?),
        codes::RETURN => Ok(sink.return_()?),
        _ => Err(Fault::WrongInput),
    }
}

/// Adds an access of memory, or an instruction without operands. Passes other codes on.
///
/// # Proved
///
/// ```text
/// ensures { sink.new.sink.ghost_name ≡ sink.old.sink.ghost_name }
/// ```
#[inline]
fn plain_call(sink: &mut Sink<'_>, code: u32, words: &mut Words<'_>) -> Result<(), Fault> {
    match code {
        codes::I32_LOAD => Ok(sink.i32_load(mem_arg(words)?)?),
        codes::I32_STORE => Ok(sink.i32_store(mem_arg(words)?)?),
        codes::I32_ADD => Ok(sink.i32_add()?),
        codes::I32_SUB => Ok(sink.i32_sub()?),
        codes::I64_ADD => Ok(sink.i64_add()?),
        codes::I32_EQZ => Ok(sink.i32_eqz()?),
        codes::DROP => Ok(sink.drop_()?),
        codes::SELECT => Ok(sink.select()?),
        _ => control_call(sink, code, words),
    }
}

/// Adds a constant. Passes other codes on.
///
/// # Proved
///
/// ```text
/// ensures { sink.new.sink.ghost_name ≡ sink.old.sink.ghost_name }
/// ```
#[inline]
fn constant_call(sink: &mut Sink<'_>, code: u32, words: &mut Words<'_>) -> Result<(), Fault> {
    match code {
        codes::I32_CONST => Ok(sink.i32_const(words.next()?.cast_signed())?),
        codes::I64_CONST => Ok(sink.i64_const(words.padded()?.cast_signed())?),
        codes::F32_CONST => Ok(sink.f32_const(Ieee32::new(words.next()?))?),
        codes::F64_CONST => Ok(sink.f64_const(Ieee64::new(words.padded()?))?),
        codes::V128_CONST => Ok(sink.v128_const(i128::from(words.next()?))?),
        codes::REF_FUNC => Ok(sink.ref_func(words.next()?)?),
        _ => plain_call(sink, code, words),
    }
}

/// Adds an access of a local or a global. Passes other codes on.
///
/// # Proved
///
/// ```text
/// ensures { sink.new.sink.ghost_name ≡ sink.old.sink.ghost_name }
/// ```
#[inline]
fn variable_call(sink: &mut Sink<'_>, code: u32, words: &mut Words<'_>) -> Result<(), Fault> {
    match code {
        codes::LOCAL_GET => Ok(sink.local_get(words.next()?)?),
        codes::LOCAL_SET => Ok(sink.local_set(words.next()?)?),
        codes::LOCAL_TEE => Ok(sink.local_tee(words.next()?)?),
        codes::GLOBAL_GET => Ok(sink.global_get(words.next()?)?),
        codes::GLOBAL_SET => Ok(sink.global_set(words.next()?)?),
        _ => constant_call(sink, code, words),
    }
}

/// Reads an instruction, and makes the call of its name. Each of the functions above handles some
/// codes and passes the others on, so that the compiler makes one jump of them.
///
/// # Proved
///
/// ```text
/// ensures { sink.new.sink.ghost_name ≡ sink.old.sink.ghost_name }
/// ```
pub(crate) fn call(sink: &mut Sink<'_>, words: &mut Words<'_>) -> Result<(), Fault> {
    let code = words.next()?;
    variable_call(sink, code, words)
}
