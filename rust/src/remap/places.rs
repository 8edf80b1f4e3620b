// Written by tools/to-rust from crates/wasm_remap/src/places.rt: change that.
// The places of sections in a module.

use crate::vec::Vec;
use crate::remap::indexed::RemapError;
use crate::alloc::Allocator;
use crate::base::{Module, RawSection, Refused};
use crate::reader::{Section, Sections};

/// Returns the place of a section's id in the standard's order, counted from 1, and 0 for custom
/// sections and ids that the standard lacks.
pub(crate) fn rank(id: u8) -> u32 {
    match id {
        1 => 1,
        2 => 2,
        3 => 3,
        4 => 4,
        5 => 5,
        13 => 6,
        6 => 7,
        7 => 8,
        8 => 9,
        9 => 10,
        12 => 11,
        10 => 12,
        11 => 13,
        _ => 0,
    }
}

/// Returns the sections of a module.
pub(crate) fn sections_of<'a, A: Allocator + Copy, E>(
    bytes: &'a [u8],
    alloc: A,
) -> Result<Vec<Section<'a, A>, A>, RemapError<E>> {
    let mut list = Vec::new(alloc);
    let mut sections = Sections::new(alloc, bytes)?;
    loop {
        let section = match sections.next() {
            None => return Ok(list),
            Some(section) => section?,
        };
        if list.push(section).is_err() {
            return Err(Refused::Memory.into());
        }
    }
}

/// Returns the sections before the first one of this id, that section, and those after it.
pub(crate) fn found<'s, 'a, A: Allocator + Copy>(
    sections: &'s [Section<'a, A>],
    id: u8,
) -> Option<
    (
        &'s [Section<'a, A>],
        &'s Section<'a, A>,
        &'s [Section<'a, A>],
    ),
> {
    let mut at = 0;
    while at < sections.len() {
        let section = &sections[at];
        if section.id() == id {
            return Some((&sections[..at], section, &sections[at + 1..]));
        }
        at += 1;
    }
    None
}

/// Returns the place of a new section of this id: behind the last section that comes before it in
/// the standard's order. If there is none, it is in front of the first section that is not custom.
pub(crate) fn place_of<A: Allocator + Copy>(sections: &[Section<'_, A>], id: u8) -> usize {
    let new = rank(id);
    let (mut place, mut read, mut is_leading) = (0, 0, true);
    while read < sections.len() {
        let old = rank(sections[read].id());
        read += 1;
        if old == 0 {
            if is_leading {
                place = read;
            }
        } else {
            is_leading = false;
            if old < new {
                place = read;
            }
        }
    }
    place
}

/// Appends copies of sections to a module.
pub(crate) fn append_copies<A: Allocator + Copy>(
    sections: &[Section<'_, A>],
    module: &mut Module<A>,
) -> Result<(), Refused> {
    for section in sections.iter() {
        let copied = RawSection {
            id: section.id(),
            bytes: section.payload(),
        };
        module.section(&copied)?;
    }
    Ok(())
}
