// Written by tools/to-rust from crates/read_back/src/sections.rt: change that.
//! Callers that iterate over the sections of a module and the bodies of its code, and prove their
//! results.

use dolzhytik::fallible::Vec;
use dolzhytik::fallible::Allocator;
use dolzhytik::reader::{ReadFault, Standard};
use dolzhytik::reader::{CodeBody, Items, ReadError, Section, SectionKind, Sections, encode_items, encode_items_in, read_section};

/// Returns the payload of the first section of a module: the bytes of its range.
///
/// # Proved
///
/// ```text
/// ensures { IfOk result (λ payload. IfSome payload (λ p. BeginsWithPayload module.now p.now)) }
/// ```
pub fn first_payload<A: Allocator + Copy>(
    alloc: A,
    module: &[u8],
) -> Result<Option<&[u8]>, ReadError> {
    let mut sections = Sections::new(alloc, module)?;
    match sections.next() {
        None => Ok(None),
        Some(section) => {
            let section: Section<'_, A> = section?;
            Ok(Some(&module[section.range()]))
        }
    }
}

/// Skips the next section, and returns its length in bytes; 0 at the end.
///
/// # Proved
///
/// ```text
/// ensures { IfOk result (λ n. n + length (ahead sections.new) ≡ length (ahead sections.old)) }
/// ```
pub fn skip_section<A: Allocator + Copy>(sections: &mut Sections<'_, A>) -> Result<usize, ReadError> {
    match sections.next() {
        None => Ok(0),
        Some(section) => {
            let start = section?.offset();
            Ok(sections.offset() - start)
        }
    }
}

/// Returns the length of a section in bytes, with its id and its size prefix.
///
/// # Proved
///
/// ```text
/// ensures { result ≡ length (bytes_of section.now.section) }
/// ```
pub fn length_of<A: Allocator + Copy>(section: &Section<'_, A>) -> usize {
    section.bytes().len()
}

/// Returns the kind and the name of a section.
///
/// # Proved
///
/// ```text
/// ensures kind { result.0 ≡ known_kind_of section.now.section }
/// ensures name { option_map (λ n. n.now) result.1 ≡ section.now.section.name }
/// ```
pub fn kind_and_name<'a, A: Allocator + Copy>(
    section: &Section<'a, A>,
) -> (Option<SectionKind>, Option<&'a str>) {
    (section.kind(), section.name())
}

/// Returns the name of a custom section and the data after it, or `None` if the section has no
/// name.
///
/// # Proved
///
/// ```text
/// ensures { IfSome result (λ x. Decodes name_format padded section.now.section.payload x.0.now x.1.now) }
/// ```
pub fn named_data<'a, A: Allocator + Copy>(section: &Section<'a, A>) -> Option<(&'a str, &'a [u8])> {
    match section.name() {
        Some(name) => Some((name, section.data())),
        None => None,
    }
}

/// Decodes the items of a section, and counts them.
///
/// # Proved
///
/// ```text
/// ensures { IfOk result (λ x. x.1 ≡ number_in (contents_of x.0)) }
/// ```
pub fn items_and_count<'a, A: Allocator + Copy + 'a>(
    section: &Section<'a, A>,
) -> Result<(Items<'a, A>, Option<u32>), ReadError> {
    let items = section.items()?;
    let count = section.count()?;
    Ok((items, count))
}

/// Decodes the items of a section, and encodes them again.
///
/// # Proved
///
/// ```text
/// ensures { IfOk result (λ payload. IsEncodedAgain section.now.section payload.items) }
/// ```
pub fn encode_again<A: Allocator + Copy>(
    section: &Section<'_, A>,
    alloc: A,
) -> Result<Vec<u8, A>, ReadError> {
    let items = section.items()?;
    let mut payload = Vec::new(alloc);
    match encode_items(&items, &mut payload) {
        Ok(()) => Ok(payload),
        Err(_) => Err(ReadError {
            cause: ReadFault::Memory,
            offset: section.offset(),
        }),
    }
}

/// Decodes the items of a section, and returns the shortest payload with these items.
///
/// # Proved
///
/// ```text
/// ensures { IfOk result (λ payload. IsShortestPayload section.now.section payload.items) }
/// ```
pub fn shortest_payload<A: Allocator + Copy>(
    section: &Section<'_, A>,
    alloc: A,
) -> Result<Vec<u8, A>, ReadError> {
    let items = section.items()?;
    let mut payload = Vec::new(alloc);
    match encode_items_in::<Standard, _, _, _>(alloc, &items, &mut payload) {
        Ok(()) => Ok(payload),
        Err(_) => Err(ReadError {
            cause: ReadFault::Memory,
            offset: section.offset(),
        }),
    }
}

/// Decodes the section at the front, and returns the kind of its items.
///
/// # Proved
///
/// ```text
/// ensures { IfOk result (λ found. found ≡ kind) }
/// ```
pub fn kind_of_items<A: Allocator + Copy>(
    alloc: A,
    kind: SectionKind,
    bytes: &[u8],
) -> Result<SectionKind, ReadFault> {
    let (items, _taken): (Items<'_, A>, usize) = read_section(alloc, kind, bytes)?;
    Ok(items.kind())
}

/// Returns the first body of a code section, or `None` if it has none.
///
/// # Proved
///
/// ```text
/// ensures { IfOk result (λ body. IfSome body (IsFirstBody section.now.section)) }
/// ```
pub fn first_body<'a, A: Allocator + Copy>(
    section: &Section<'a, A>,
) -> Result<Option<CodeBody<'a, A>>, ReadError> {
    let mut bodies = section.bodies()?;
    if bodies.left() == 0 {
        return Ok(None);
    }
    match bodies.next() {
        None => Ok(None),
        Some(body) => Ok(Some(body?)),
    }
}

/// Returns a body's offset in the module, and its length in bytes.
///
/// # Proved
///
/// ```text
/// ensures offset { result.0 ≡ body.now.offset }
/// ensures length { result.1 ≡ length body.now.bytes }
/// ```
pub fn place_of<A: Allocator + Copy>(body: &CodeBody<'_, A>) -> (usize, usize) {
    (body.offset(), body.bytes().len())
}

/// Returns the number of instructions in a body.
///
/// # Proved
///
/// ```text
/// ensures found { IfOk result (λ n. (x : Body) × body_format standard body.now.bytes x × (length x.code ≡ n)) }
/// ensures none { IfErr result (λ e. e.cause ≢ Memory → RejectsWhole body_format standard body.now.bytes) }
/// ```
pub fn count_in_body<A: Allocator + Copy>(body: &CodeBody<'_, A>) -> Result<usize, ReadError> {
    let (_runs, mut instructions) = body.instructions()?;
    let mut count = 0;
    loop {
        match instructions.next() {
            Ok(None) => return Ok(count),
            Ok(Some(_)) => count += 1,
            Err(error) => return Err(body.locate(error)),
        }
    }
}
