//! The names of entries, and where they are from.
use crate::color::Bright;
use crate::json::{Value, object};
use std::fmt::{self, Display, Formatter, Write};

/// Where names are from, the one with precedence last.
#[derive(Clone, Copy, PartialEq, Eq, PartialOrd, Ord, Debug)]
pub enum Source {
    Imports,
    Exports,
    /// Symbols, and segments of data.
    Linking,
    NameSection,
}

impl Source {
    /// All sources, that with precedence first.
    pub const ALL: [Source; 4] = [
        Source::NameSection,
        Source::Linking,
        Source::Exports,
        Source::Imports,
    ];

    pub fn word(self) -> &'static str {
        match self {
            Source::Imports => "imports",
            Source::Exports => "exports",
            Source::Linking => "linking section",
            Source::NameSection => "name section",
        }
    }
}

/// The name of an entry. It prints in `<` and `>`, with escapes for characters that do not show.
#[derive(Clone, Copy, PartialEq, Eq, Hash, Debug)]
pub enum Name<'a> {
    Own(&'a str),
    /// That of an import.
    Imported {
        module: &'a str,
        name: &'a str,
    },
}

impl Name<'_> {
    /// Whether a text is the name, without `<` and `>`.
    pub fn is(&self, text: &str) -> bool {
        match self {
            Name::Own(name) => *name == text,
            Name::Imported { module, name } => {
                let after = text.strip_prefix(module);
                after.and_then(|it| it.strip_prefix('.')) == Some(name)
            }
        }
    }
}

/// Writes a text with escapes for characters that do not show.
pub fn escaped(f: &mut Formatter<'_>, text: &str) -> fmt::Result {
    let is_plain = |byte: u8| matches!(byte, b' '..=b'~') && byte != b'\\';
    if text.bytes().all(is_plain) {
        return f.write_str(text);
    }
    text.chars().try_for_each(|c| match c {
        '"' | '\'' => f.write_char(c),
        c => write!(f, "{}", c.escape_debug()),
    })
}

impl Display for Name<'_> {
    fn fmt(&self, f: &mut Formatter<'_>) -> fmt::Result {
        Bright(InBrackets(*self)).fmt(f)
    }
}

/// A name without a color.
struct InBrackets<'a>(Name<'a>);

impl Display for InBrackets<'_> {
    fn fmt(&self, f: &mut Formatter<'_>) -> fmt::Result {
        f.write_char('<')?;
        match self.0 {
            Name::Own(name) => escaped(f, name)?,
            Name::Imported { module, name } => {
                escaped(f, module)?;
                f.write_char('.')?;
                escaped(f, name)?;
            }
        }
        f.write_char('>')
    }
}

impl<'a> From<Name<'a>> for Value<'a> {
    fn from(name: Name<'a>) -> Self {
        match name {
            Name::Own(name) => name.into(),
            Name::Imported { module, name } => format!("{module}.{name}").into(),
        }
    }
}

/// An index, with what it is the index of. It prints as `3 <name>`, without the kind.
#[derive(Clone, Copy, Debug)]
pub struct Entry<'a> {
    pub kind: &'static str,
    pub index: u32,
    pub name: Option<Name<'a>>,
}

impl Display for Entry<'_> {
    fn fmt(&self, f: &mut Formatter<'_>) -> fmt::Result {
        write!(f, "{}", self.index)?;
        self.name.map_or(Ok(()), |name| write!(f, " {name}"))
    }
}

impl<'a> From<Entry<'a>> for Value<'a> {
    fn from(entry: Entry<'a>) -> Self {
        object! { "kind": entry.kind, "index": entry.index, "name": entry.name }
    }
}
