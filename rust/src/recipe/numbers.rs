// Written by tools/to-rust from crates/wasm_tool/src/numbers.rt: change that.
// The numbers and bytes that words of a recipe denote.

use crate::vec::Vec;
use crate::recipe::fault::RecipeCause;
use crate::recipe::words::Words;
use crate::hex::FromHexError;
use crate::alloc::Allocator;
use crate::base::Result;

/// Decodes a word of hexadecimal digits.
pub(crate) fn hex_bytes<A: Allocator>(alloc: A, word: &str) -> Result<Vec<u8, A>, RecipeCause> {
    crate::hex::decode(alloc, word).map_err(|e| match e {
        FromHexError::OutOfMemory => RecipeCause::Memory,
        _ => RecipeCause::BadHex,
    })
}

/// Returns the word unless it begins with a plus sign, which `parse` accepts and a number of a
/// recipe does not have.
fn numeral(word: &str) -> Result<&str, RecipeCause> {
    if word.starts_with('+') {
        return Err(RecipeCause::BadNumber);
    }
    Ok(word)
}

/// Parses a word of decimal digits as a number of 64 bits.
pub(crate) fn number(word: &str) -> Result<u64, RecipeCause> {
    let Ok(n) = numeral(word)?.parse() else {
        return Err(RecipeCause::BadNumber);
    };
    Ok(n)
}

/// Parses a word of decimal digits as a number of 32 bits.
pub(crate) fn index(word: &str) -> Result<u32, RecipeCause> {
    let Ok(n) = u32::try_from(number(word)?) else {
        return Err(RecipeCause::BadNumber);
    };
    Ok(n)
}

/// Parses a word of decimal digits, negative after `-`, as a signed number of 32 bits.
pub(crate) fn signed(word: &str) -> Result<i32, RecipeCause> {
    let Ok(value) = numeral(word)?.parse() else {
        return Err(RecipeCause::BadNumber);
    };
    Ok(value)
}

/// Parses a word of decimal digits as a number of 32 bits, and adds it to the others.
fn push_index<A: Allocator>(numbers: &mut Vec<u32, A>, word: &str) -> Result<(), RecipeCause> {
    let number = index(word)?;
    numbers.push(number).map_err(|_| RecipeCause::Memory)
}

/// Parses words of decimal digits as numbers of 32 bits.
pub(crate) fn indices<A: Allocator>(
    alloc: A,
    first: &str,
    words: Words<'_>,
) -> Result<Vec<u32, A>, RecipeCause> {
    let mut numbers = Vec::new(alloc);
    push_index(&mut numbers, first)?;
    for word in words {
        push_index(&mut numbers, word)?;
    }
    Ok(numbers)
}
