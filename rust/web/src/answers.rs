//! What each call of JavaScript returns: a block, or why it fails.
#![forbid(unsafe_code)]

use crate::block::Block;
use crate::failure::{Cause, Failure, Place};
use crate::found::Found;
use crate::sections::sections_from;
use dolzhytik::fallible::recipe::assemble_versioned;
use dolzhytik::fallible::{AllocError, Encode, Global, Vec};
use dolzhytik::reader::{self, ModuleFault, Offsets, Outlined, ReadFault, shorten_module};

/// The status of a block that has what was asked for.
pub const DONE: u32 = 0;

/// The size of the header of a module.
const HEADER: usize = 8;

/// A block, or why there is none.
pub type Answer<'a> = Result<Vec<u8>, Failure<'a>>;

/// A failure at the section with this number, or at the header for 0.
pub fn at<'a>(module: &[u8], number: usize, cause: Cause<'a>) -> Failure<'a> {
    let sections = sections_from(module, number);
    let start = sections.map_or(0, |sections| sections.offset());
    let place = Place::Section { number, start };
    Failure { place, cause }
}

/// The failure at the section with this number, or at the header for 0. Where the section has no id
/// or size, the reader of sections has the offset. Otherwise memory is missing.
pub fn no_module<'a>(module: &[u8], number: usize) -> Failure<'a> {
    let sections = sections_from(module, number);
    let cause = match sections.map(|mut sections| sections.next()) {
        None => Cause::NoHeader(Found::at_front(module)),
        Some(Some(Err(error))) => Cause::NoSection(error),
        Some(_) => Cause::Memory,
    };
    at(module, number, cause)
}

/// The outline of a module.
fn outlined(module: &[u8]) -> Result<Vec<Outlined<'_>>, Failure<'_>> {
    reader::outline(Global, module).map_err(|(number, _)| no_module(module, number))
}

/// Appends a section: its id, offset, size, number of items and name.
fn append_section(block: &mut Block, section: &Outlined<'_>) -> Result<(), Failure<'static>> {
    block.word(u32::from(section.id))?;
    block.size(section.offset)?;
    block.word(section.size)?;
    block.optional(section.items)?;
    block.optional_text(section.name)?;
    Ok(())
}

/// The sections of a module, decoded or not.
pub fn outline(module: &[u8]) -> Answer<'_> {
    let sections = outlined(module)?;
    let mut block = Block::new(DONE)?;
    block.size(sections.len())?;
    for section in &sections {
        append_section(&mut block, section)?;
    }
    Ok(block.finish()?)
}

/// The sections of a module, each of which decodes, custom sections of known names too.
pub fn list(module: &[u8]) -> Answer<'_> {
    let sections = outline(module)?;
    for (number, section) in (1..).zip(sections_from(module, 1).into_iter().flatten().flatten()) {
        section
            .count()
            .map_err(|error| at(module, number, Cause::items(&section, error)))?;
    }
    Ok(sections)
}

/// Why a module has no minimal encoding.
fn why_not(module: &[u8], fault: ModuleFault) -> Failure<'_> {
    match fault {
        ModuleFault::Section { number, .. } => no_module(module, number),
        ModuleFault::Offsets { number } => match outlined(module) {
            Ok(sections) => {
                let name = sections[number - 1].name.unwrap_or_default();
                at(module, number, Cause::Offsets(name))
            }
            Err(failure) => failure,
        },
        // The library has no other fault.
        _ => at(module, 0, Cause::Memory),
    }
}

/// The minimal encoding of a module of one section, whatever offsets it holds. A section that does
/// not decode is kept.
fn minimize_section(module: &[u8]) -> Answer<'_> {
    let mut sections = sections_from(module, 1).ok_or_else(|| no_module(module, 0))?;
    let Some(Ok(section)) = sections.next() else {
        return Err(no_module(module, 1));
    };
    let (mut block, mut payload) = (Block::new(DONE)?, Vec::new(Global));
    match section.minimize(&mut payload) {
        Ok(()) => {
            let (front, _) = module.split_at(HEADER);
            block.bytes.extend_from_slice(front)?;
            block.bytes.extend_from_slice(&[section.id()])?;
            let size = u32::try_from(payload.len()).map_err(|_| AllocError)?;
            size.encode(&mut block.bytes).map_err(|_| AllocError)?;
            block.bytes.extend_from_slice(&payload)?;
        }
        Err(error) if matches!(error.cause, ReadFault::Memory) => return Err(AllocError.into()),
        Err(_) => block.bytes.extend_from_slice(module)?,
    }
    Ok(block.finish()?)
}

/// The minimal encoding of a module. `choice` is 0 to fail if offsets would become wrong, 1 to
/// leave them out, or 2 for a module of one section that has offsets.
pub fn minimize(module: &[u8], choice: u32) -> Answer<'_> {
    let offsets = match choice {
        0 => Offsets::Refuse,
        1 => Offsets::LeaveOut,
        _ => return minimize_section(module),
    };
    let mut block = Block::new(DONE)?;
    shorten_module(Global, module, offsets, &mut block.bytes)
        .map_err(|fault| why_not(module, fault))?;
    Ok(block.finish()?)
}

/// The text of a recipe.
fn text_of(recipe: &[u8]) -> Result<&str, Failure<'_>> {
    str::from_utf8(recipe).map_err(|error| {
        let before = &recipe[..error.valid_up_to()];
        let line = 1 + before.iter().filter(|byte| **byte == b'\n').count();
        Failure {
            place: Place::Line(line),
            cause: Cause::NotText,
        }
    })
}

/// The module of a recipe of either version.
pub fn module_of(recipe: &[u8]) -> Answer<'_> {
    let module = assemble_versioned(Global, text_of(recipe)?)?;
    let mut block = Block::new(DONE)?;
    block.bytes.extend_from_slice(&module)?;
    Ok(block.finish()?)
}
