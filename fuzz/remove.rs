//! Compares `remove_functions` with a plain edit of bytes, whose result the plain remapper maps.

use crate::grammar::{Grammar, Space};
use crate::maker::Random;
use crate::plain::{Plain, put_unsigned};
use crate::remap::{Answer, Map, Rule, remapped_module};
use crate::whole::{HEADER, sections};
use dolzhytik::fallible::Global;
use dolzhytik::reader::remap::{IndexSpace, RemapError, RemoveError, imported, remove_functions};
use dolzhytik::reader::{Items, Offsets, Sections};

/// Whether the function is to be removed.
fn is_removed(removed: &[bool], index: usize) -> bool {
    removed.get(index).copied().unwrap_or(false)
}

/// Skips a name map, or an indirect one.
fn skip_names(bytes: &mut Plain, is_indirect: bool) -> Option<()> {
    for _ in 0..bytes.unsigned(32)? {
        bytes.unsigned(32)?;
        skip_name(bytes, is_indirect)?;
    }
    Some(())
}

/// Skips what follows an index: a name, or a name map.
fn skip_name(bytes: &mut Plain, is_indirect: bool) -> Option<()> {
    if is_indirect {
        return skip_names(bytes, false);
    }
    let size = bytes.unsigned(32)?;
    bytes.take(size as usize)?;
    Some(())
}

/// A vector without the members whose first number the test rejects. A member's bytes end where
/// `skip` does.
fn filtered(
    payload: &[u8],
    mut skip: impl FnMut(&mut Plain) -> Option<()>,
    mut keeps: impl FnMut(usize, &[u8]) -> bool,
) -> Option<Vec<u8>> {
    let mut bytes = Plain::new(payload, Grammar::Standard);
    let mut count = 0;
    let mut members: Vec<u8> = vec![];
    for number in 0..bytes.unsigned(32)? {
        let start = bytes.rest;
        skip(&mut bytes)?;
        let member = &start[..start.len() - bytes.rest.len()];
        if keeps(number as usize, member) {
            count += 1;
            members.extend(member);
        }
    }
    let mut new = Vec::new();
    put_unsigned(&mut new, count);
    new.extend(members);
    Some(new)
}

/// The subsections of a name section without the names of removed functions.
fn named(payload: &[u8], removed: &[bool]) -> Option<Vec<u8>> {
    let mut bytes = Plain::new(payload, Grammar::Standard);
    let size = bytes.unsigned(32)?;
    if bytes.take(size as usize)? != b"name" {
        return Some(payload.to_vec());
    }
    let mut new = b"\x04name".to_vec();
    while let Some(id) = bytes.byte() {
        let size = bytes.unsigned(32)?;
        let mut content = bytes.take(size as usize)?.to_vec();
        if (1..=3).contains(&id) {
            let skip = |bytes: &mut Plain| {
                bytes.unsigned(32)?;
                skip_name(bytes, id != 1)
            };
            content = filtered(&content, skip, |_, member| {
                let index = Plain::new(member, Grammar::Standard).unsigned(32);
                !is_removed(removed, index.unwrap_or(0) as usize)
            })?;
        }
        new.push(id);
        put_unsigned(&mut new, content.len() as u64);
        new.extend(content);
    }
    Some(new)
}

/// The module without the removed functions, whose other indices are as they were.
fn trimmed(bytes: &[u8], removed: &[bool], imported: usize) -> Option<Vec<u8>> {
    let mut module = HEADER.to_vec();
    let stays = |number: usize, _: &[u8]| !is_removed(removed, imported + number);
    for section in sections(bytes).ok()? {
        let payload = match section.id {
            0 => named(section.payload, removed)?,
            3 => filtered(section.payload, |it| it.unsigned(32).map(drop), stays)?,
            10 => filtered(section.payload, |it| skip_name(it, false), stays)?,
            _ => section.payload.to_vec(),
        };
        module.push(section.id);
        put_unsigned(&mut module, payload.len() as u64);
        module.extend(payload);
    }
    Some(module)
}

/// The new index of each function that stays.
fn numbered(removed: &[bool]) -> Vec<Option<u32>> {
    let mut next = 0;
    let number = |is_removed: &bool| {
        next += u32::from(!is_removed);
        (!is_removed).then_some(next.wrapping_sub(1))
    };
    removed.iter().map(number).collect()
}

/// The number of functions that the first import section imports.
fn imported_functions(bytes: &[u8]) -> Option<u32> {
    for section in Sections::new(Global, bytes).ok()? {
        let section = section.ok()?;
        if section.id() == 2 {
            return match section.items().ok()? {
                Items::Imports(entries) => imported(&entries, IndexSpace::Functions),
                _ => None,
            };
        }
    }
    Some(0)
}

/// Whether the library's result is the plain one. The first number is the function that the error
/// names.
fn compare(bytes: &[u8], removed: &[bool], imported: u32) -> (Option<u32>, bool) {
    let given = remove_functions(bytes, Global, removed, Offsets::LeaveOut);
    if let Some(first) = (0..imported).find(|it| is_removed(removed, *it as usize)) {
        let expected = RemapError::Index(RemoveError::Imported(first));
        return (Some(first), given.err() == Some(expected));
    }
    let Some(trimmed) = trimmed(bytes, removed, imported as usize) else {
        return (None, false);
    };
    let mut map = Map::same();
    map.rules[0] = Rule::Only(numbered(removed));
    match (given, remapped_module(&trimmed, &map, true)) {
        (Ok(given), Answer::Remapped(expected)) => (None, given[..] == expected[..]),
        (Err(RemapError::Index(RemoveError::InUse(used))), Answer::Rejected(rejected)) => {
            let is_known = is_removed(removed, used as usize);
            (
                Some(used),
                is_known && rejected.contains(&(Space::Functions, used)),
            )
        }
        (Err(RemapError::Index(RemoveError::Unlisted(used))), Answer::Rejected(rejected)) => {
            let is_past = used as usize >= removed.len();
            (
                None,
                is_past && rejected.contains(&(Space::Functions, used)),
            )
        }
        _ => (None, false),
    }
}

/// Whether the library removes random functions as the plain edit does, and then, one after another,
/// fewer of them. A module that does not decode is an error.
pub fn are_removed(bytes: &[u8], random: &mut Random) -> bool {
    let mut removed: Vec<bool> = (0..random.below(12)).map(|_| random.below(3) > 0).collect();
    let decodes = matches!(
        remapped_module(bytes, &Map::same(), true),
        Answer::Remapped(_)
    );
    let Some(imported) = imported_functions(bytes).filter(|_| decodes) else {
        return remove_functions(bytes, Global, &removed, Offsets::LeaveOut).is_err();
    };
    loop {
        match compare(bytes, &removed, imported) {
            (_, false) => {
                println!("removed: {removed:?}");
                return false;
            }
            (Some(used), true) => removed[used as usize] = false,
            (None, true) => return true,
        }
    }
}
