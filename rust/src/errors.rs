//! `Display` and `Error` of errors that lack them in the proved source.
use crate::base::reading::{DecodeError, ReadFault};
use crate::remap::{IndexTooLarge, RemapError, RemoveError};
use core::error::Error;
use core::fmt;

/// Writes the cause, and how far from the end of the input it is. `Memory` is at no byte.
impl fmt::Display for DecodeError {
    fn fmt(&self, f: &mut fmt::Formatter<'_>) -> fmt::Result {
        // `self.cause()` is the call of `Error`.
        let error = *self;
        let (cause, left) = (error.cause(), error.left());
        match (cause, left) {
            (ReadFault::Memory, _) => write!(f, "{cause}"),
            (_, 0) => write!(f, "{cause}, at the end of the input"),
            (_, 1) => write!(f, "{cause}, 1 byte before the end of the input"),
            _ => write!(f, "{cause}, {left} bytes before the end of the input"),
        }
    }
}

impl Error for DecodeError {}

impl<E: fmt::Display> fmt::Display for RemapError<E> {
    fn fmt(&self, f: &mut fmt::Formatter<'_>) -> fmt::Result {
        match self {
            Self::Read(error) => error.fmt(f),
            Self::Refused(error) => error.fmt(f),
            Self::Index(error) => error.fmt(f),
            Self::Offsets(offset) => {
                write!(
                    f,
                    "section at offset {offset:#x}: its offsets would become wrong"
                )
            }
        }
    }
}

impl<E: Error> Error for RemapError<E> {
    fn source(&self) -> Option<&(dyn Error + 'static)> {
        match self {
            Self::Index(error) => error.source(),
            _ => None,
        }
    }
}

impl fmt::Display for IndexTooLarge {
    fn fmt(&self, f: &mut fmt::Formatter<'_>) -> fmt::Result {
        let Self { space, index } = self;
        write!(
            f,
            "index {index} of {space:?} would become more than 4294967295"
        )
    }
}

impl Error for IndexTooLarge {}

impl fmt::Display for RemoveError {
    fn fmt(&self, f: &mut fmt::Formatter<'_>) -> fmt::Result {
        match self {
            Self::InUse(index) => write!(f, "function {index} is in use"),
            Self::Unlisted(index) => write!(f, "function {index} is past the end of the list"),
            Self::Imported(index) => write!(f, "function {index} is imported"),
        }
    }
}

impl Error for RemoveError {}
