//! What minimizing saves, section by section.
use crate::sections::{HEADER, Section};
use std::fmt::{self, Display};

/// The sizes of a section with its id and size prefix, in bytes.
pub struct Saving<'a> {
    pub section: Section<'a>,
    /// None if the section is dropped.
    pub after: Option<usize>,
}

/// The sizes of all sections before and after.
pub struct Savings<'a>(pub Vec<Saving<'a>>);

impl Savings<'_> {
    /// How many sections are dropped.
    pub fn dropped(&self) -> usize {
        self.0.iter().filter(|it| it.after.is_none()).count()
    }

    /// The bytes of the module before and after, with its header.
    pub fn total(&self) -> (usize, usize) {
        let sizes = self.0.iter();
        let sizes = sizes.map(|it| (it.section.bytes().len(), it.after.unwrap_or(0)));
        sizes.fold((HEADER, HEADER), |sum, size| {
            (sum.0 + size.0, sum.1 + size.1)
        })
    }
}

/// A line of the table: the sizes, and what they are of.
fn line(f: &mut fmt::Formatter<'_>, before: usize, after: usize, of: impl Display) -> fmt::Result {
    let saved = before - after;
    writeln!(f, "{before:>10} {after:>10} {saved:>10}  {of}")
}

/// A table with a line for each section.
impl Display for Savings<'_> {
    fn fmt(&self, f: &mut fmt::Formatter<'_>) -> fmt::Result {
        f.write_str("    before      after      saved  name\n")?;
        line(f, HEADER, HEADER, "header")?;
        for Saving { section, after } in &self.0 {
            let before = section.bytes().len();
            match after {
                Some(after) => line(f, before, *after, section)?,
                None => line(f, before, 0, format_args!("{section}, dropped"))?,
            }
        }
        let (before, after) = self.total();
        line(f, before, after, "all")
    }
}
