//! Decodes values one after another, in the standard's grammar.
use dolzhytik::fallible::Global;
use dolzhytik::reader::{DecodeError, ReadError, ReadFault, Readable, Standard};

/// The bytes of a module that are not decoded yet, and where they end.
#[derive(Clone, Copy, Debug)]
pub struct Cursor<'a> {
    rest: &'a [u8],
    /// The offset of the end of the bytes.
    end: usize,
}

impl<'a> Cursor<'a> {
    /// Returns a cursor at the first of the bytes, which are at this offset.
    pub fn new(bytes: &'a [u8], offset: usize) -> Self {
        Cursor {
            rest: bytes,
            end: offset + bytes.len(),
        }
    }

    /// The offset of the next value.
    pub fn offset(&self) -> usize {
        self.end - self.rest.len()
    }

    /// The bytes that are not decoded yet.
    pub fn rest(&self) -> &'a [u8] {
        self.rest
    }

    /// Decodes the next value. After an error the cursor stays.
    pub fn read<T: Readable<'a, Global, Standard>>(&mut self) -> Result<T, ReadError> {
        let (value, rest) = T::read(self.rest, Global).map_err(|error| self.located(error))?;
        self.rest = rest;
        Ok(value)
    }

    /// The error of a decoder of the bytes that are not decoded yet, with its offset in the file.
    pub fn located(&self, error: DecodeError) -> ReadError {
        ReadError {
            cause: error.cause(),
            offset: self.end - self.rest.len().min(error.left() as usize),
        }
    }

    /// Decodes a vector, and passes each member with the offset of its first byte.
    pub fn each<T: Readable<'a, Global, Standard>, E: From<ReadError>>(
        &mut self,
        mut pass: impl FnMut(usize, T) -> Result<(), E>,
    ) -> Result<(), E> {
        let count: u32 = self.read()?;
        for _ in 0..count {
            let offset = self.offset();
            pass(offset, self.read()?)?;
        }
        Ok(())
    }

    /// Checks that no bytes remain.
    pub fn finish(&self) -> Result<(), ReadError> {
        let (cause, offset) = (ReadFault::SizeMismatch, self.offset());
        if self.rest.is_empty() {
            Ok(())
        } else {
            Err(ReadError { cause, offset })
        }
    }
}
