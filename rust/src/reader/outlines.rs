// Written by tools/to-rust from crates/wasm_reader/src/outlines.rt: change that.
// Outlines a module: lists its sections, whether their payloads decode or not.

use crate::vec::Vec;
use crate::reader::sections::{Section, Sections};
use crate::reader::walk::count_content;
use crate::alloc::Allocator;
use crate::base::{ReadFault, Standard};

/// A section in the outline of a module.
///
/// [`outline`](crate::reader::outline) returns them.
///
/// # Examples
///
/// ```
/// use dolzhytik::fallible::Global;
/// use dolzhytik::reader::{Outlined, outline};
///
/// fn total(lines: &[Outlined<'_>]) -> u32 {
///     lines.iter().map(|line| line.size).sum()
/// }
///
/// let lines = outline(Global, b"\0asm\x01\0\0\0\x03\x02\x01\x05")?;
/// assert_eq!(total(&lines), 2);
/// # Ok::<(), (usize, dolzhytik::reader::ReadFault)>(())
/// ```
#[derive(Clone, Copy, PartialEq, Eq, Debug)]
pub struct Outlined<'a> {
    /// The id of the section.
    pub id: u8,
    /// The offset of the payload in the module, in bytes.
    pub offset: usize,
    /// The length of the payload, in bytes.
    pub size: u32,
    /// The number of items, if the payload decodes as a section of its id, by the standard's
    /// grammar, and its items are counted. These are the items that `list_module` counts, and the
    /// entries of a type section. A recursion group is one entry, however many types it defines.
    pub items: Option<u32>,
    /// The name of a custom section, if its payload begins with one.
    pub name: Option<&'a str>,
}

/// Returns the number of items of a section, if its payload decodes as its kind and the items are
/// counted. Those of custom sections are not, so their payloads are not decoded.
fn count<A: Allocator + Copy>(section: &Section<'_, A>) -> Result<Option<u32>, ReadFault> {
    if section.id() == 0 {
        return Ok(None);
    }
    let kind = section.standing().kind();
    match count_content::<A, Standard>(kind, section.payload(), section.allocator()) {
        Ok(count) => Ok(count),
        Err(error) if error.cause() == ReadFault::Memory => Err(ReadFault::Memory),
        Err(_) => Ok(None),
    }
}

/// Returns the line of a section.
fn line_of<'a, A: Allocator + Copy>(section: &Section<'a, A>) -> Result<Outlined<'a>, ReadFault> {
    let items = count(section)?;
    Ok(Outlined {
        id: section.id(),
        offset: section.range().start,
        size: section.payload().len() as u32,
        items,
        name: section.name(),
    })
}

/// Lists the sections of a module, whatever their payloads are. A section whose payload does not
/// decode as its kind has no number of items.
///
/// A type section decodes as types. No custom section is decoded, so none has a number of items.
///
/// An error is the pair `(number, cause)`, and `number` counts sections from 1.
///
/// # Errors
///
/// Returns the error and a section number, counted from 1. For every error except `Memory`, this is
/// the first section that is not an id and a size-prefixed payload. It is 0 if the bytes do not
/// begin with the header: the cause is then `Ended` if they are fewer than 8, and `UnknownTag`
/// otherwise.
///
/// # Examples
///
/// ```
/// use dolzhytik::fallible::Global;
/// use dolzhytik::reader::outline;
///
/// // A custom section: id 0, size 2, the name "a". A section of the id 14: size 1.
/// let lines = outline(Global, b"\0asm\x01\0\0\0\0\x02\x01a\x0E\x01\xFF")?;
/// assert_eq!((lines[0].name, lines[0].offset), (Some("a"), 10));
/// assert_eq!((lines[1].id, lines[1].size, lines[1].items), (14, 1, None));
/// # Ok::<(), (usize, dolzhytik::reader::ReadFault)>(())
/// ```
///
/// # Proved
///
/// - After `Ok`, `found`: The bytes are a module of sections that the lines describe.
/// - After an error, `none`: the section of this number is the first that is malformed, whatever its payload (0: there is no header), unless the cause is `Memory`.
/// - After an error, `no_module`: the bytes are no module, unless the cause is `Memory`.
/// - After an error, `header`: An error at section number 0 has the cause of bytes that do not begin with the header, unless an allocation failed.
///
/// ```text
/// ensures found { IfOk result (λ lines. HasOutline bytes.now lines.items) }
/// ensures none { IfErr result (λ e. e.1 ≢ Memory → EndsAt bytes.now e.0) }
/// ensures no_module { IfErr result
///     (λ e. e.1 ≢ Memory → RejectsWhole wasm_module padded bytes.now) }
/// ensures header { IfErr result (λ e. ExplainsHeader bytes.now e.0 e.1) }
/// ```
///
/// Definitions: [`HasOutline`](crate::definitions::reader::outlines::HasOutline), [`EndsAt`](crate::definitions::reader::outlines::EndsAt), [`RejectsWhole`](crate::definitions::base::continuing::RejectsWhole), [`wasm_module`](crate::definitions::base::formats::wasm_module), [`padded`](crate::definitions::base::numbers::Mode), [`ExplainsHeader`](crate::definitions::reader::outlines::ExplainsHeader). [How to read clauses](crate::definitions).
pub fn outline<'a, A: Allocator + Copy>(
    alloc: A,
    bytes: &'a [u8],
) -> Result<Vec<Outlined<'a>, A>, (usize, ReadFault)> {
    let mut sections = match Sections::new(alloc, bytes) {
        Ok(sections) => sections,
        Err(error) => return Err((0, error.cause)),
    };
    let mut lines = Vec::new(alloc);
    loop {
        let number = lines.len() + 1;
        let section = match sections.next() {
            None => return Ok(lines),
            Some(Ok(section)) => section,
            Some(Err(error)) => return Err((number, error.cause)),
        };
        let line = match line_of(&section) {
            Ok(line) => line,
            Err(fault) => return Err((number, fault)),
        };
        match lines.push(line) {
            Ok(()) => {}
            Err(_) => return Err((number, ReadFault::Memory)),
        }
    }
}
