//! Blocks of bytes that JavaScript reads: words of 32 bits, little-endian, and text.
#![forbid(unsafe_code)]

use core::fmt;
use dolzhytik::fallible::{AllocError, Global, Vec};

/// Stands for a number that is not there. No module has this many bytes, since it and the block
/// are in one memory of 32 bits.
const NONE: u32 = u32::MAX;

/// The size of a word.
const WORD: usize = 4;

/// A block under way. Its first word is its size.
pub struct Block {
    pub bytes: Vec<u8>,
}

impl Block {
    /// A block with this word behind its size.
    pub fn new(status: u32) -> Result<Self, AllocError> {
        let mut block = Block {
            bytes: Vec::new(Global),
        };
        block.word(0)?;
        block.word(status)?;
        Ok(block)
    }

    pub fn word(&mut self, word: u32) -> Result<(), AllocError> {
        self.bytes.extend_from_slice(&word.to_le_bytes())
    }

    pub fn size(&mut self, size: usize) -> Result<(), AllocError> {
        self.word(u32::try_from(size).map_err(|_| AllocError)?)
    }

    pub fn optional(&mut self, word: Option<u32>) -> Result<(), AllocError> {
        self.word(word.unwrap_or(NONE))
    }

    /// Appends the size of a text, and the text.
    pub fn text(&mut self, text: impl fmt::Display) -> Result<(), AllocError> {
        let place = self.bytes.len();
        self.word(0)?;
        fmt::Write::write_fmt(self, format_args!("{text}")).map_err(|_| AllocError)?;
        self.set_word(place, self.bytes.len() - place - WORD)
    }

    /// Appends the size of a text, and the text, or `NONE`.
    pub fn optional_text(&mut self, text: Option<&str>) -> Result<(), AllocError> {
        match text {
            Some(text) => self.text(text),
            None => self.word(NONE),
        }
    }

    pub fn set_word(&mut self, place: usize, word: usize) -> Result<(), AllocError> {
        let word = u32::try_from(word).map_err(|_| AllocError)?;
        self.bytes[place..place + WORD].copy_from_slice(&word.to_le_bytes());
        Ok(())
    }

    /// The bytes of the block.
    pub fn finish(mut self) -> Result<Vec<u8>, AllocError> {
        self.set_word(0, self.bytes.len())?;
        Ok(self.bytes)
    }
}

impl fmt::Write for Block {
    fn write_str(&mut self, text: &str) -> fmt::Result {
        self.bytes
            .extend_from_slice(text.as_bytes())
            .map_err(|_| fmt::Error)
    }
}
