// Written by tools/to-rust from crates/wasm_reader/src/modules.rt: change that.
// Lists the sections of a module.

use crate::vec::Vec;
use crate::reader::kinds::kind_of_id;
use crate::reader::sections::{Section, Sections};
use crate::reader::walk::count_content;
use crate::alloc::Allocator;
use crate::base::{Padded, ReadFault};

/// The magic and the version of a module.
pub(crate) const HEADER: [u8; 8] = [0x00, 0x61, 0x73, 0x6D, 0x01, 0x00, 0x00, 0x00];

/// A section in the listing of a module.
///
/// [`list_module`](crate::reader::list_module) returns them.
///
/// # Examples
///
/// ```
/// use dolzhytik::fallible::Global;
/// use dolzhytik::reader::{Listed, list_module};
///
/// // A custom section: id 0, size 2, the name "a".
/// let lines = list_module(Global, b"\0asm\x01\0\0\0\0\x02\x01a")?;
/// let [Listed { id: 0, size: 2, items: None }] = lines[..] else {
///     panic!("other sections")
/// };
/// # Ok::<(), (usize, dolzhytik::reader::ReadFault)>(())
/// ```
#[derive(Clone, Copy, PartialEq, Eq, Debug)]
pub struct Listed {
    /// The id of the section.
    pub id: u8,
    /// The length of its payload, in bytes.
    pub size: u32,
    /// The number of its items: 1 for a start and a data count section, `None` for type sections,
    /// custom sections, and those of ids above 13.
    pub items: Option<u32>,
}

/// Decodes the header, and returns the remaining bytes.
pub(crate) fn read_header(bytes: &[u8]) -> Result<&[u8], ReadFault> {
    match bytes.split_first_chunk::<8>() {
        None => Err(ReadFault::Ended),
        Some((front, rest)) => {
            if *front == HEADER {
                Ok(rest)
            } else {
                Err(ReadFault::UnknownTag)
            }
        }
    }
}

/// Returns the line of a section.
fn line_of<A: Allocator + Copy>(section: &Section<'_, A>) -> Result<Listed, ReadFault> {
    let id = section.id();
    let items = count_content::<A, Padded>(kind_of_id(id), section.payload(), section.allocator())?;
    let size = section.payload().len() as u32;
    Ok(Listed { id, size, items })
}

/// Lists the sections of a module. Each section is decoded as the kind of its id. Type sections and
/// those of ids above 13 count as raw bytes.
///
/// An error is the pair `(number, cause)`, and `number` counts sections from 1.
///
/// # Errors
///
/// Returns the error and a section number, counted from 1. For every error except `Memory`, this is
/// the section at which the bytes stop being a module. It is 0 if they do not begin with the
/// header. For `Memory` it is the section that was being decoded, which no contract states.
///
/// # Examples
///
/// ```
/// use dolzhytik::fallible::Global;
/// use dolzhytik::reader::list_module;
///
/// // A function section: id 3, size 3, two functions.
/// let lines = list_module(Global, b"\0asm\x01\0\0\0\x03\x03\x02\x05\x06")?;
/// assert_eq!((lines[0].id, lines[0].size, lines[0].items), (3, 3, Some(2)));
/// # Ok::<(), (usize, dolzhytik::reader::ReadFault)>(())
/// ```
///
/// # Proved
///
/// - After `Ok`, `found`: The bytes are a module whose sections have these lines.
/// - After an error, `none`: the bytes stop being a module at this section, unless the cause is `Memory`.
/// - After an error, `header`: An error at section number 0 has the cause of bytes that do not begin with the header, unless an allocation failed.
///
/// ```text
/// ensures found { IfOk result (λ lines. HasLines bytes.now lines.items) }
/// ensures none { IfErr result (λ e. e.1 ≢ Memory → StopsAt bytes.now e.0) }
/// ensures header { IfErr result (λ e. ExplainsHeader bytes.now e.0 e.1) }
/// ```
///
/// Definitions: [`HasLines`](crate::definitions::reader::modules::HasLines), [`StopsAt`](crate::definitions::reader::modules::StopsAt), [`header`](crate::definitions::base::formats::header), [`ExplainsHeader`](crate::definitions::reader::outlines::ExplainsHeader). [How to read clauses](crate::definitions).
pub fn list_module<'a, A: Allocator + Copy>(
    alloc: A,
    bytes: &'a [u8],
) -> Result<Vec<Listed, A>, (usize, ReadFault)> {
    let mut sections = match Sections::new(alloc, bytes) {
        Ok(sections) => sections,
        Err(error) => return Err((0, error.cause)),
    };
    let mut lines = Vec::new(alloc);
    loop {
        let number = lines.len() + 1;
        let section = match sections.next() {
            None => return Ok(lines),
            Some(Ok(section)) => section,
            Some(Err(error)) => return Err((number, error.cause)),
        };
        let line = match line_of(&section) {
            Ok(line) => line,
            Err(fault) => return Err((number, fault)),
        };
        match lines.push(line) {
            Ok(()) => {}
            Err(_) => return Err((number, ReadFault::Memory)),
        }
    }
}
