// Written by tools/to-rust from crates/wasm_bench/src/types.rt: change that.
// The workload of the type section.

use crate::calls::answers::{Fault, answer, number};
use dolzhytik::fallible::Global;
use dolzhytik::fallible::ValType;
use dolzhytik::fallible::TypeSection;

/// Returns the number type of this code.
fn val_type(code: u8) -> Result<ValType, Fault> {
    match code {
        0 => Ok(ValType::I32),
        1 => Ok(ValType::I64),
        2 => Ok(ValType::F32),
        3 => Ok(ValType::F64),
        _ => Err(Fault::WrongInput),
    }
}

/// Returns the types of a word: a byte for each of three parameters and for the result.
fn types_of(word: u32) -> Result<([ValType; 3], ValType), Fault> {
    let [first, second, third, result] = word.to_le_bytes();
    let params = [val_type(first)?, val_type(second)?, val_type(third)?];
    Ok((params, val_type(result)?))
}

/// Returns a section of a function type for each word.
///
/// # Proved
///
/// ```text
/// ensures { IfOk result (λ section. length section ≡ length words.now) }
/// ```
fn build(alloc: Global, words: &[u32]) -> Result<TypeSection, Fault> {
    let mut section = TypeSection::new(alloc);
    for i in 0..words.len() {
        let (params, result) = types_of(words[i])?;
        section.ty().function(params, [result])?;
    }
    Ok(section)
}

/// # Proved
///
/// ```text
/// ensures ok { IfOk result (λ n. CountedAnswer 1 (length words.now) phase out.old out.new n) }
/// ensures err { OnErr result (out.new ≡ out.old) }
/// ```
fn type_section(alloc: Global, words: &[u32], phase: u32, out: &mut [u8]) -> Result<u64, Fault> {
    let section = build(alloc, words)?;
    answer(alloc, &section, phase, out)
}

/// Builds a section of function types, each of three parameters and a result, whose types a word
/// encodes.
///
/// # Proved
///
/// ```text
/// ensures { Outcome out.old out.new result (CountedAnswer 1 (length words.now) phase out.old out.new result) }
/// ```
pub fn wb_types(alloc: Global, words: &[u32], phase: u32, out: &mut [u8]) -> u64 {
    number(type_section(alloc, words, phase, out))
}
