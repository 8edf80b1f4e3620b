//! The sections of a module, with their numbers.
use crate::color::Bright;
use crate::cursor::Cursor;
use crate::failure::{BadSection, Failure, NamedSection};
use crate::files::Input;
use crate::found::Found;
use crate::kind_name::kind_name;
use dolzhytik::fallible::Global;
use dolzhytik::reader::{self, ReadError, Sections};
use std::fmt;
use std::ops::Deref;

/// The length of the header of a module.
pub const HEADER: usize = 8;

/// A section of a module, as the reader has it, and its number.
#[derive(Clone, Copy, Debug)]
pub struct Section<'a> {
    /// Its number, from 1.
    pub number: usize,
    section: reader::Section<'a>,
}

impl<'a> Deref for Section<'a> {
    type Target = reader::Section<'a>;

    fn deref(&self) -> &reader::Section<'a> {
        &self.section
    }
}

/// Returns the sections of the module that was read from the input.
pub fn sections_of<'a>(input: &Input, module: &'a [u8]) -> Result<Vec<Section<'a>>, Failure> {
    let sections = Sections::new(Global, module).map_err(|_| Failure::NoHeader {
        input: input.clone(),
        found: Found::at_front(module),
    })?;
    let numbered = |(number, section)| match section {
        Ok(section) => Ok(Section { number, section }),
        Err(error) => Err(Failure::Section(BadSection {
            input: input.clone(),
            number,
            section: None,
            error,
        })),
    };
    (1..).zip(sections).map(numbered).collect()
}

impl<'a> Section<'a> {
    /// What sections of its id are called, as the standard has it.
    pub fn kind_name(&self) -> &'static str {
        kind_name(self.id())
    }

    /// Returns a cursor at the front of the payload.
    pub fn cursor(&self) -> Cursor<'a> {
        Cursor::new(self.payload(), self.range().start)
    }

    /// Returns a cursor after the name of a custom section, or else at the front of the payload.
    pub fn content(&self) -> Cursor<'a> {
        let mut cursor = self.cursor();
        if self.id() == 0 {
            // The bytes of a section without a name are all its content.
            let _ = cursor.read::<&str>();
        }
        cursor
    }

    /// The failure of a decoder of the payload.
    pub fn failure(&self, input: &Input, error: ReadError) -> Failure {
        Failure::Section(BadSection {
            input: input.clone(),
            number: self.number,
            section: Some(self.title().to_string()),
            error,
        })
    }

    /// What it prints as without a color, for an error.
    pub fn title(&self) -> Title<'_, 'a> {
        Title(self)
    }

    /// Returns the number and the name of a custom section, for an error.
    pub fn named(&self, input: &Input) -> NamedSection {
        NamedSection {
            input: input.clone(),
            number: self.number,
            name: self.name().unwrap_or_default().into(),
        }
    }
}

/// `code`, or `custom "name"`.
impl fmt::Display for Section<'_> {
    fn fmt(&self, f: &mut fmt::Formatter<'_>) -> fmt::Result {
        Bright(self.title()).fmt(f)
    }
}

/// A section, which prints without a color.
pub struct Title<'s, 'a>(&'s Section<'a>);

impl fmt::Display for Title<'_, '_> {
    fn fmt(&self, f: &mut fmt::Formatter<'_>) -> fmt::Result {
        f.write_str(self.0.kind_name())?;
        match self.0.name() {
            None => Ok(()),
            Some(name) => write!(f, " {name:?}"),
        }
    }
}
