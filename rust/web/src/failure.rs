//! Why a call fails, and the block of that.
#![forbid(unsafe_code)]

use crate::block::Block;
use crate::found::Found;
use crate::kind_name::kind_name;
use core::fmt;
use dolzhytik::fallible::recipe::{RecipeCause, RecipeFault};
use dolzhytik::fallible::{AllocError, Vec};
use dolzhytik::reader::{ReadError, ReadFault, Section};

/// The status of a block that says why a call fails.
const FAILED: u32 = 1;

/// Why a call fails, as the program `dolzhytik` says it.
pub enum Cause<'a> {
    Memory,
    /// The bytes do not begin with the header.
    NoHeader(Found),
    /// The module ends in a section, or a section's size is no number.
    NoSection(ReadError),
    /// The payload of the section with this id, and name if it has one, does not decode.
    NoItems(u8, Option<&'a str>, ReadError),
    /// The section with this name has offsets that would be lost.
    Offsets(&'a str),
    NotText,
    Recipe(RecipeCause),
}

impl<'a> Cause<'a> {
    /// Why the payload of a section does not decode.
    pub fn items(section: &Section<'a>, error: ReadError) -> Self {
        match error.cause {
            ReadFault::Memory => Cause::Memory,
            _ => Cause::NoItems(section.id(), section.name(), error),
        }
    }
}

impl fmt::Display for Cause<'_> {
    fn fmt(&self, f: &mut fmt::Formatter<'_>) -> fmt::Result {
        match self {
            Cause::Memory => AllocError.fmt(f),
            Cause::NoHeader(found) => found.fmt(f),
            Cause::NoSection(error) => error.cause.fmt(f),
            Cause::NoItems(_, _, error) => error.cause.fmt(f),
            Cause::Offsets(_) => f.write_str(
                "holds offsets that would become wrong; dropOffsets drops such sections",
            ),
            Cause::NotText => f.write_str("not UTF-8"),
            Cause::Recipe(cause) => cause.fmt(f),
        }
    }
}

/// Where a call fails.
pub enum Place {
    /// At a section with this number, counted from 1, or at the header for 0, and its offset.
    Section {
        number: usize,
        start: usize,
    },
    /// At a line, counted from 1, or behind the last line for 0.
    Line(usize),
    Nowhere,
}

/// Where and why a call fails.
pub struct Failure<'a> {
    pub place: Place,
    pub cause: Cause<'a>,
}

impl fmt::Display for Failure<'_> {
    fn fmt(&self, f: &mut fmt::Formatter<'_>) -> fmt::Result {
        let Failure { place, cause } = self;
        match place {
            Place::Section { number: 0, .. } | Place::Nowhere => cause.fmt(f),
            Place::Section { number, .. } => match cause {
                Cause::Offsets(name) => write!(f, "section {number}, {name:?}, {cause}"),
                Cause::NoSection(ReadError { offset, .. }) => {
                    write!(f, "section {number} at offset {offset:#x}: {cause}")
                }
                Cause::NoItems(id, name, ReadError { offset, .. }) => {
                    write!(f, "section {number} ({}", kind_name(*id))?;
                    if let Some(name) = name {
                        write!(f, " {name:?}")?;
                    }
                    write!(f, ") at offset {offset:#x}: {cause}")
                }
                _ => write!(f, "section {number}: {cause}"),
            },
            Place::Line(0) => write!(f, "behind the last line: {cause}"),
            Place::Line(line) => write!(f, "line {line}: {cause}"),
        }
    }
}

impl Failure<'_> {
    /// The block of this: an offset, a line, the cause and the message.
    pub fn block(&self) -> Result<Vec<u8>, AllocError> {
        let (offset, line) = match self.place {
            Place::Section { start, .. } => (Some(start as u32), None),
            Place::Line(line) => (None, Some(line as u32)),
            Place::Nowhere => (None, None),
        };
        let mut block = Block::new(FAILED)?;
        block.optional(offset)?;
        block.optional(line)?;
        block.text(&self.cause)?;
        block.text(self)?;
        block.finish()
    }
}

impl From<AllocError> for Failure<'_> {
    fn from(_: AllocError) -> Self {
        Failure {
            place: Place::Nowhere,
            cause: Cause::Memory,
        }
    }
}

impl From<RecipeFault> for Failure<'_> {
    fn from(fault: RecipeFault) -> Self {
        Failure {
            place: Place::Line(fault.line),
            cause: Cause::Recipe(fault.cause),
        }
    }
}
