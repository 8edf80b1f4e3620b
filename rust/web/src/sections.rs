//! The sections of a module by their numbers.
#![forbid(unsafe_code)]

use dolzhytik::fallible::Global;
use dolzhytik::reader::Sections;

/// The sections of a module from the one with this number, counted from 1, or `None` for the number
/// 0 and where the module does not begin with the header. The sections before it have all of their
/// bytes.
pub fn sections_from(module: &[u8], number: usize) -> Option<Sections<'_>> {
    let (before, mut sections) = (number.checked_sub(1)?, Sections::new(Global, module).ok()?);
    sections.by_ref().take(before).for_each(drop);
    Some(sections)
}
