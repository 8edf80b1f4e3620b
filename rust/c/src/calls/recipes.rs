// Written by tools/to-rust from crates/wasm_c/src/recipes.rt: change that.
// Recipes, for C.

use dolzhytik::fallible::Vec;
use crate::calls::NO_ANSWER;
use dolzhytik::fallible::Global;
use dolzhytik::fallible::recipe::{RecipeCause, RecipeFault, assemble, assemble_versioned};

/// The number of the cause of a recipe that is not UTF-8.
const NOT_TEXT: u32 = 7;

/// Returns the number of a cause.
///
/// # Proved
///
/// ```text
/// ensures { result ≡ cause_number cause }
/// ```
pub(crate) fn number_of(cause: RecipeCause) -> u32 {
    match cause {
        RecipeCause::UnknownCommand => 1,
        RecipeCause::BadNumber => 2,
        RecipeCause::BadHex => 3,
        RecipeCause::MissingWord => 4,
        RecipeCause::Memory => 5,
        RecipeCause::TooLong => 6,
        RecipeCause::SurplusWord => 8,
        RecipeCause::UnknownType => 9,
        RecipeCause::UnusedLocals => 10,
        _ => unreachable!("the library has no other case"),
    }
}

/// Copies the bytes to the front of `out`, if `out` holds all of them, and returns their number.
///
/// # Proved
///
/// ```text
/// ensures { Gives bytes.now out.old out.new result }
/// ```
pub(crate) fn copied(bytes: &[u8], out: &mut [u8]) -> u64 {
    let count = bytes.len();
    if count <= out.len() {
        let (room, _) = out.split_at_mut(count);
        room.copy_from_slice(bytes);
    }
    count as u64
}

/// Returns the length of the module, which it copies, or sets the line and the cause of the error.
///
/// # Proved
///
/// ```text
/// ensures { MatchResult assembled (λ bytes. Gives bytes.items out.old out.new result × (line.new ≡ line.old) × (cause.new ≡ cause.old)) (λ fault. (result ≡ NO_ANSWER) × (out.new ≡ out.old) × (line.new ≡ fault.line) × (cause.new ≡ cause_number fault.cause)) }
/// ```
fn answer_of(
    assembled: Result<Vec<u8>, RecipeFault>,
    out: &mut [u8],
    line: &mut u64,
    cause: &mut u32,
) -> u64 {
    match assembled {
        Ok(bytes) => copied(&bytes, out),
        Err(fault) => {
            *line = fault.line as u64;
            *cause = number_of(fault.cause);
            NO_ANSWER
        }
    }
}

/// Assembles a recipe of version 1. Returns the length of the module in bytes.
///
/// On an error, `line` is the first line with an error, counted from 1, or 0, and `cause` is the
/// number of the error. On success both are 0.
///
/// # Proved
///
/// ```text
/// ensures { Outcome (first_script recipe.now) recipe.now out.old out.new line.new cause.new result }
/// ```
pub fn dz_assemble(
    alloc: Global,
    recipe: &[u8],
    out: &mut [u8],
    line: &mut u64,
    cause: &mut u32,
) -> u64 {
    *line = 0;
    *cause = 0;
    let Ok(text) = str::from_utf8(recipe) else {
        *cause = NOT_TEXT;
        return NO_ANSWER;
    };
    answer_of(assemble(alloc, text), out, line, cause)
}

/// Assembles a recipe of version 1 or 2, as [`dz_assemble`] does one of version 1.
///
/// # Proved
///
/// ```text
/// ensures { Outcome (versioned_script recipe.now) recipe.now out.old out.new line.new cause.new result }
/// ```
pub fn dz_assemble_versioned(
    alloc: Global,
    recipe: &[u8],
    out: &mut [u8],
    line: &mut u64,
    cause: &mut u32,
) -> u64 {
    *line = 0;
    *cause = 0;
    let Ok(text) = str::from_utf8(recipe) else {
        *cause = NOT_TEXT;
        return NO_ANSWER;
    };
    answer_of(assemble_versioned(alloc, text), out, line, cause)
}
