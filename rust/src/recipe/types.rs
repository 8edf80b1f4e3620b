// Written by tools/to-rust from crates/wasm_tool/src/types.rt: change that.
// The types that words of a recipe denote.

use crate::recipe::fault::RecipeCause;
use crate::recipe::numbers::{index, number};
use crate::recipe::words::Words;
use crate::base::{RefType, Result, ValType};
use crate::sections::{EntityType, GlobalType, MemoryType, TableType};

/// The limits of a memory or a table.
#[derive(Clone, Copy)]
pub(crate) struct Limits {
    minimum: u64,
    maximum: Option<u64>,
}

impl Limits {
    /// Returns the type of a memory with these limits, of 32-bit addresses.
    pub(crate) fn memory(self) -> MemoryType {
        MemoryType {
            minimum: self.minimum,
            maximum: self.maximum,
            memory64: false,
            shared: false,
            page_size_log2: None,
        }
    }

    /// Returns the type of a table of function references with these limits.
    pub(crate) fn table(self) -> TableType {
        TableType {
            element_type: RefType::FUNCREF,
            table64: false,
            minimum: self.minimum,
            maximum: self.maximum,
            shared: false,
        }
    }
}

/// Parses an optional word of decimal digits as a number of 64 bits.
fn optional_number(word: Option<&str>) -> Result<Option<u64>, RecipeCause> {
    match word {
        Some(word) => Ok(Some(number(word)?)),
        None => Ok(None),
    }
}

/// Parses a minimum and, in version 2, an optional maximum.
pub(crate) fn limits_in(mut words: Words<'_>) -> Result<Limits, RecipeCause> {
    let minimum = words.needed()?;
    let maximum = words.optional();
    words.end()?;
    Ok(Limits {
        minimum: number(minimum)?,
        maximum: optional_number(maximum)?,
    })
}

/// Returns the value type that a word names.
pub(crate) fn val_type(word: &str) -> Option<ValType> {
    match word {
        "i32" => Some(ValType::I32),
        "i64" => Some(ValType::I64),
        "f32" => Some(ValType::F32),
        "f64" => Some(ValType::F64),
        "v128" => Some(ValType::V128),
        "funcref" => Some(ValType::Ref(RefType::FUNCREF)),
        "externref" => Some(ValType::Ref(RefType::EXTERNREF)),
        _ => None,
    }
}

/// Parses the type index of an imported function.
fn imported_function(mut words: Words<'_>) -> Result<EntityType, RecipeCause> {
    let word = words.needed()?;
    words.end()?;
    Ok(EntityType::Function(index(word)?))
}

/// Returns the type of an imported global. No word may remain.
fn global_of_type(
    mutable: bool,
    word: &str,
    mut words: Words<'_>,
) -> Result<EntityType, RecipeCause> {
    words.end()?;
    Ok(EntityType::Global(GlobalType {
        val_type: val_type(word).ok_or(RecipeCause::UnknownType)?,
        mutable,
        shared: false,
    }))
}

/// Parses the type of an imported global, after `mut` if it is mutable.
fn imported_global(mut words: Words<'_>) -> Result<EntityType, RecipeCause> {
    let word = words.needed()?;
    if word == "mut" {
        let ty = words.needed()?;
        return global_of_type(true, ty, words);
    }
    global_of_type(false, word, words)
}

/// Parses the type of an import of this kind.
pub(crate) fn entity(kind: &str, words: Words<'_>) -> Result<EntityType, RecipeCause> {
    match kind {
        "func" => imported_function(words),
        "table" => Ok(EntityType::Table(limits_in(words)?.table())),
        "memory" => Ok(EntityType::Memory(limits_in(words)?.memory())),
        "global" => imported_global(words),
        _ => Err(RecipeCause::UnknownCommand),
    }
}
