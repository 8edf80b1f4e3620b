// Written by tools/to-rust from crates/wasm_reader/src/read_error.rt: change that.
// The error of the iterators over a module.

use crate::base::{DecodeError, ReadFault};

/// The cause of a failed decoding, and its offset in the module.
///
/// # Examples
///
/// ```
/// use dolzhytik::fallible::Global;
/// use dolzhytik::reader::Sections;
///
/// // A section of the size 9, of which one byte is there.
/// let module = b"\0asm\x01\0\0\0\x03\x09\x01";
/// let error = Sections::new(Global, module).unwrap().next().unwrap().unwrap_err();
/// assert_eq!(error.to_string(), "unexpected end of input at offset 0xb");
/// ```
#[derive(Clone, Copy, PartialEq, Eq, Debug)]
pub struct ReadError {
    /// The cause.
    pub cause: ReadFault,
    /// The offset of the first byte that cannot be part of an encoding, from the start of the
    /// module, in bytes; the end of a payload that ends too soon; the first byte of a name for
    /// `NotUtf8`, and of an opcode for `UnknownOpcode`. It is unspecified for `Memory`. Contracts
    /// promise that it is not before the section, payload or body that does not decode, and not
    /// past the end of the module, payload or body. Tests check which byte it is.
    pub offset: usize,
}

impl ReadError {
    /// Returns the error of a decoder. Its input had this size, and ended at the offset `end`.
    pub(crate) fn located(error: DecodeError, size: usize, end: usize) -> ReadError {
        let left = size.min(error.left() as usize);
        ReadError {
            cause: error.cause(),
            offset: end - left,
        }
    }
}

impl ::core::fmt::Display for ReadError {
    fn fmt(&self, f: &mut ::core::fmt::Formatter<'_>) -> ::core::fmt::Result {
        let Self { cause, offset } = self;
        write!(f, "{cause} at offset {offset:#x}")
    }
}

impl ::core::error::Error for ReadError {}
