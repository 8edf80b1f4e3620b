// Written by tools/to-rust from crates/wasm_base/src/fault.rt: change that.
// The errors of calls that decode.

use crate::base::refused::Refused;
use crate::alloc::{AllocError, AllocFailed};
use core::fmt;

/// The cause of a failed decoding. Every cause except `Memory` means that the bytes encode no such
/// value. Tests show which of the other causes a call returns; no contract says that.
///
/// # Examples
///
/// ```
/// use dolzhytik::fallible::Global;
/// use dolzhytik::reader::{ReadFault, Sections};
///
/// let error = Sections::new(Global, b"\0asm").unwrap_err();
/// assert_eq!(error.cause, ReadFault::Ended);
/// assert_eq!(error.to_string(), "unexpected end of input at offset 0x4");
/// ```
#[derive(Clone, Copy, PartialEq, Eq, Debug)]
#[non_exhaustive]
pub enum ReadFault {
    /// The bytes end before the value does.
    Ended,
    /// A number is padded. The decoders here accept padded numbers; the cause is for callers' own
    /// decoders that do not.
    NotShortest,
    /// A number is out of the range of its type, or has more bytes than the type's limit.
    TooLarge,
    /// A byte, a number or a name that selects a case is unknown to the grammar.
    UnknownTag,
    /// No instruction has the opcode.
    UnknownOpcode,
    /// The bytes of a name are not UTF-8.
    NotUtf8,
    /// Payload bytes remain after the value that a size prefix delimits.
    SizeMismatch,
    /// An allocation failed.
    Memory,
}

/// The cause of a failed decoding, and the number of bytes left at the failure.
///
/// Both are in one number of 64 bits, so that a result with a slice has two words, and the slice's
/// address is moved as a whole.
///
/// [`cause`](crate::reader::DecodeError::cause) says why decoding failed.
/// [`left`](crate::reader::DecodeError::left) is the number of input bytes from the error on.
///
/// # Examples
///
/// ```
/// use dolzhytik::fallible::Global;
/// use dolzhytik::reader::{Padded, ReadFault, Readable};
///
/// let input = [0x02, b'a', 0xFF];
/// let error = <&str as Readable<Global, Padded>>::read(&input, Global).unwrap_err();
/// assert_eq!(error.cause(), ReadFault::NotUtf8);
/// // The error is at the first byte of the name: two bytes are left.
/// assert_eq!(error.left(), 2);
/// ```
#[derive(Clone, Copy, PartialEq, Eq)]
pub struct DecodeError {
    /// The number of bytes left times 256, plus the number of the cause.
    word: u64,
}

/// Returns the length of the bytes, or 4294967295 if it is greater.
fn length(bytes: &[u8]) -> u32 {
    u32::try_from(bytes.len()).unwrap_or(u32::MAX)
}

impl ReadFault {
    /// Returns the error with this cause at the first of the remaining bytes. At most 4294967295
    /// bytes are counted.
    ///
    /// # Proved
    ///
    /// In any case: `cause`, the result has this cause; `left`, the remaining bytes are left.
    ///
    /// ```text
    /// ensures cause { result.cause ≡ self }
    /// ensures left { result.left ≡ min (length rest.now) longest }
    /// ```
    ///
    /// Definitions: [`longest`](crate::definitions::base::encodings::longest). [How to read clauses](crate::definitions).
    #[cold]
    #[inline(never)]
    pub fn at(self, rest: &[u8]) -> DecodeError {
        DecodeError::new(self, length(rest))
    }

    /// Returns the error with this cause at the byte just before the remaining bytes. At most
    /// 4294967295 bytes are counted.
    ///
    /// # Proved
    ///
    /// In any case: `cause`, the result has this cause; `left`, the remaining bytes and the byte before them are left.
    ///
    /// ```text
    /// ensures cause { result.cause ≡ self }
    /// ensures left { result.left ≡ min (length rest.now + 1) longest }
    /// ```
    ///
    /// Definitions: [`longest`](crate::definitions::base::encodings::longest). [How to read clauses](crate::definitions).
    #[cold]
    #[inline(never)]
    pub fn just_before(self, rest: &[u8]) -> DecodeError {
        DecodeError::new(self, length(rest).saturating_add(1))
    }
}

impl DecodeError {
    /// Returns the error with this cause and this number of bytes left.
    fn new(cause: ReadFault, left: u32) -> DecodeError {
        DecodeError {
            word: u64::from(left) * 256 + cause as u64,
        }
    }

    /// Returns the cause.
    ///
    /// # Proved
    ///
    /// ```text
    /// ensures { result ≡ self.cause }
    /// ```
    ///
    /// [How to read clauses](crate::definitions).
    pub fn cause(self) -> ReadFault {
        match self.word % 256 {
            0 => ReadFault::Ended,
            1 => ReadFault::NotShortest,
            2 => ReadFault::TooLarge,
            3 => ReadFault::UnknownTag,
            4 => ReadFault::UnknownOpcode,
            5 => ReadFault::NotUtf8,
            6 => ReadFault::SizeMismatch,
            _ => ReadFault::Memory,
        }
    }

    /// Returns the number of bytes left. The count begins at the first byte that cannot be part of
    /// an encoding, with these exceptions: the first byte of a name that is not UTF-8 or lacks the
    /// prefix `reloc.`, the first byte of an unknown opcode, the last size byte of a section name
    /// of another length, and the end of a payload that ends too soon.
    ///
    /// The number saturates at 4294967295, and means nothing for `Memory`. Contracts say what
    /// [`at`](ReadFault::at), [`just_before`](ReadFault::just_before) and
    /// [`before`](DecodeError::before) count. Tests show which byte each decoder reports.
    ///
    /// # Proved
    ///
    /// ```text
    /// ensures { result ≡ self.left }
    /// ```
    ///
    /// [How to read clauses](crate::definitions).
    pub fn left(self) -> u32 {
        (self.word / 256) as u32
    }

    /// Returns the error of a decoder whose input is followed by these bytes, which it counts as
    /// left too. At most 4294967295 bytes are counted.
    ///
    /// # Proved
    ///
    /// In any case: `cause`, the result has the same cause; `left`, the bytes that follow are left too.
    ///
    /// ```text
    /// ensures cause { result.cause ≡ self.cause }
    /// ensures left { result.left ≡ min (self.left + length rest.now) longest }
    /// ```
    ///
    /// Definitions: [`longest`](crate::definitions::base::encodings::longest). [How to read clauses](crate::definitions).
    pub fn before(self, rest: &[u8]) -> DecodeError {
        DecodeError::new(self.cause(), self.left().saturating_add(length(rest)))
    }
}

impl fmt::Debug for DecodeError {
    fn fmt(&self, f: &mut fmt::Formatter<'_>) -> fmt::Result {
        let (cause, left) = (self.cause(), self.left());
        write!(f, "DecodeError {{ cause: {cause:?}, left: {left} }}")
    }
}

/// Returns the error of a failed allocation, with no bytes left.
fn no_memory() -> DecodeError {
    DecodeError::new(ReadFault::Memory, 0)
}

/// # Defined
///
/// ```text
/// from_gives = { λ _ error. error.cause ≡ Memory }
/// ```
///
/// [How to read clauses](crate::definitions).
impl From<AllocError> for DecodeError {
    fn from(_error: AllocError) -> DecodeError {
        no_memory()
    }
}

/// # Defined
///
/// ```text
/// from_gives = { λ _ error. error.cause ≡ Memory }
/// ```
///
/// [How to read clauses](crate::definitions).
impl<T> From<AllocFailed<T>> for DecodeError {
    fn from(_failed: AllocFailed<T>) -> DecodeError {
        no_memory()
    }
}

/// An error of a call that appends becomes `Memory`. Such a call never returns `TooLong` for a
/// value that has an encoding, as each decoded value has (`too_long` of
/// [`Shorten`](crate::base::Shorten)). A body that is passed without its size may be too long for a size
/// prefix: that error becomes `Memory` too.
///
/// # Defined
///
/// ```text
/// from_gives = { λ _ error. error.cause ≡ Memory }
/// ```
///
/// [How to read clauses](crate::definitions).
impl From<Refused> for DecodeError {
    fn from(_refused: Refused) -> DecodeError {
        no_memory()
    }
}

/// # Defined
///
/// ```text
/// from_gives = { λ _ fault. fault ≡ Memory }
/// ```
///
/// [How to read clauses](crate::definitions).
impl From<AllocError> for ReadFault {
    fn from(_error: AllocError) -> ReadFault {
        ReadFault::Memory
    }
}

/// # Defined
///
/// ```text
/// from_gives = { λ _ fault. fault ≡ Memory }
/// ```
///
/// [How to read clauses](crate::definitions).
impl<T> From<AllocFailed<T>> for ReadFault {
    fn from(_failed: AllocFailed<T>) -> ReadFault {
        ReadFault::Memory
    }
}

/// # Defined
///
/// ```text
/// from_gives = { λ _ fault. fault ≡ Memory }
/// ```
///
/// [How to read clauses](crate::definitions).
impl From<Refused> for ReadFault {
    fn from(_refused: Refused) -> ReadFault {
        ReadFault::Memory
    }
}

/// Keeps the cause alone.
///
/// # Defined
///
/// ```text
/// from_gives = { λ error fault. fault ≡ error.cause }
/// ```
///
/// [How to read clauses](crate::definitions).
impl From<DecodeError> for ReadFault {
    fn from(error: DecodeError) -> ReadFault {
        error.cause()
    }
}

impl ::core::fmt::Display for ReadFault {
    fn fmt(&self, f: &mut ::core::fmt::Formatter<'_>) -> ::core::fmt::Result {
        match self {
            Self::Ended => f.write_str("unexpected end of input"),
            Self::NotShortest => f.write_str("padded integer"),
            Self::TooLarge => f.write_str("integer too large"),
            Self::UnknownTag => f.write_str("unexpected byte or value"),
            Self::UnknownOpcode => f.write_str("unknown opcode"),
            Self::NotUtf8 => f.write_str("invalid UTF-8"),
            Self::SizeMismatch => f.write_str("bytes remain after the value"),
            Self::Memory => f.write_str("out of memory"),
        }
    }
}

impl ::core::error::Error for ReadFault {}
