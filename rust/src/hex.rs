//! Hexadecimal text, as in recipes.
use crate::alloc::{AllocError, Allocator};
use crate::string::String;
use crate::vec::Vec;
use core::fmt;

/// The error of text that does not decode.
///
/// ```
/// use dolzhytik::fallible::{Global, hex};
///
/// let error = hex::decode(Global, "0g").unwrap_err();
/// assert_eq!(error, hex::FromHexError::NoHex);
/// assert_eq!(error.to_string(), "not an even number of hexadecimal digits");
/// ```
#[derive(Clone, Copy, PartialEq, Eq, Debug)]
pub enum FromHexError {
    /// The text is not an even number of hexadecimal digits.
    NoHex,
    /// An allocation failed.
    OutOfMemory,
}

impl fmt::Display for FromHexError {
    fn fmt(&self, f: &mut fmt::Formatter<'_>) -> fmt::Result {
        f.write_str(match self {
            FromHexError::NoHex => "not an even number of hexadecimal digits",
            FromHexError::OutOfMemory => "out of memory",
        })
    }
}

impl core::error::Error for FromHexError {}

impl From<AllocError> for FromHexError {
    fn from(_: AllocError) -> Self {
        FromHexError::OutOfMemory
    }
}

/// Returns the value of a digit in lower or upper case.
fn digit(byte: u8) -> Result<u8, FromHexError> {
    match (byte as char).to_digit(16) {
        Some(value) => Ok(value as u8),
        None => Err(FromHexError::NoHex),
    }
}

/// Decodes hexadecimal digits in lower or upper case.
///
/// ```
/// use dolzhytik::fallible::{Global, hex};
///
/// assert_eq!(hex::decode(Global, "00fF")?[..], [0x00, 0xFF]);
/// assert_eq!(hex::decode(Global, "0"), Err(hex::FromHexError::NoHex));
/// # Ok::<(), hex::FromHexError>(())
/// ```
///
/// # Errors
///
/// Returns [`FromHexError::NoHex`] if the text is not an even number of digits, and
/// [`FromHexError::OutOfMemory`] if the allocation fails.
pub fn decode<T: AsRef<[u8]>, A: Allocator>(alloc: A, text: T) -> Result<Vec<u8, A>, FromHexError> {
    let (pairs, []) = text.as_ref().as_chunks::<2>() else {
        return Err(FromHexError::NoHex);
    };
    let mut bytes = Vec::with_capacity(alloc, pairs.len())?;
    for &[high, low] in pairs {
        bytes.push_reserved(16 * digit(high)? + digit(low)?);
    }
    Ok(bytes)
}

/// Encodes bytes as hexadecimal digits in lower case.
///
/// ```
/// use dolzhytik::fallible::{Global, hex};
///
/// assert_eq!(hex::encode(Global, [0x00, 0xFF])?.as_str(), "00ff");
/// # Ok::<(), dolzhytik::fallible::AllocError>(())
/// ```
///
/// # Errors
///
/// Returns [`AllocError`] if the allocation fails.
pub fn encode<T: AsRef<[u8]>, A: Allocator>(alloc: A, bytes: T) -> Result<String<A>, AllocError> {
    let bytes = bytes.as_ref();
    let mut text = String::new(alloc);
    text.reserve_exact(bytes.len().saturating_mul(2))?;
    for byte in bytes {
        for value in [byte / 16, byte % 16] {
            text.push(char::from_digit(u32::from(value), 16).unwrap_or_default())?;
        }
    }
    Ok(text)
}
