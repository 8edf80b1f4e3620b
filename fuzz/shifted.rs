//! Maps the indices of modules that other tools wrote, and adds an imported function to them. See
//! README.md.

use crate::grammar::Grammar;
use crate::plain::{Plain, put_unsigned};
use crate::remap::{Counts, Map, Rule, SPACES, agree, is_shortened};
use crate::whole::{HEADER, Section, sections};
use dolzhytik::fallible::Global;
use dolzhytik::reader::remap::remap_module;
use dolzhytik::reader::{Items, Offsets, Sections, TypeEntry};
use std::fs::{read, write};

/// The maps that each module is given: the identity, a shift of each space, and one of all spaces.
fn maps() -> Vec<Map> {
    let one = |place: usize| {
        let mut map = Map::same();
        map.rules[place] = Rule::Shift(1);
        map
    };
    let all = Map::new([(); SPACES.len()].map(|()| Rule::Shift(1)));
    let singles = (0..SPACES.len()).map(one);
    [Map::same(), all].into_iter().chain(singles).collect()
}

fn remapped(bytes: &[u8], map: &Map) -> Option<Vec<u8>> {
    let module = remap_module(bytes, Global, map, Offsets::LeaveOut).ok()?;
    Some(module.to_vec())
}

/// A map that adds a number to the indices of functions.
fn of_functions(by: u32) -> Map {
    let mut map = Map::same();
    map.rules[0] = Rule::Shift(by);
    map
}

/// The number of types of a module.
fn count_types(bytes: &[u8]) -> Option<u32> {
    let mut count = 0;
    for section in Sections::new(Global, bytes).ok()? {
        if let Items::Types(entries) = section.ok()?.items().ok()? {
            for entry in entries.iter() {
                count += match entry {
                    TypeEntry::Single(_) => 1,
                    TypeEntry::Group(types) => types.len() as u32,
                };
            }
        }
    }
    Some(count)
}

/// Appends a section of the items of an old one, and another item in front of them or behind.
fn put_section(module: &mut Vec<u8>, id: u8, old: Option<&Section<'_>>, item: &[u8], first: bool) {
    let old = old.map_or(&[0][..], |section| section.payload);
    let mut along = Plain::new(old, Grammar::Standard);
    let count = along.unsigned(32).expect("a number of items");
    let mut payload = vec![];
    put_unsigned(&mut payload, count + 1);
    payload.extend(
        if first {
            [item, along.rest]
        } else {
            [along.rest, item]
        }
        .concat(),
    );
    module.push(id);
    put_unsigned(module, payload.len() as u64);
    module.extend(payload);
}

/// The module with function 0 imported, whose other functions have indices from 1 on already.
fn with_import(module: &[u8]) -> Option<Vec<u8>> {
    let all = sections(module).ok()?;
    let of_id = |id| all.iter().find(|section| section.id == id);
    let mut import = b"\x04fuzz\x05added\x00".to_vec();
    put_unsigned(&mut import, u64::from(count_types(module)?));
    let mut new = HEADER.to_vec();
    let first = all.iter().position(|section| section.id != 0);
    for place in 0..=all.len() {
        if place == first.unwrap_or(all.len()) {
            put_section(&mut new, 1, of_id(1), b"\x60\0\0", false);
            put_section(&mut new, 2, of_id(2), &import, true);
        }
        match all.get(place) {
            Some(section) if ![1, 2].contains(&section.id) => {
                new.push(section.id);
                new.extend(section.framed);
            }
            _ => {}
        }
    }
    Some(new)
}

/// Whether the library's results for a module are the expected ones. Writes the minimal module, and
/// the one with an import, to files.
fn is_same(bytes: &[u8], folder: &str, number: usize, counts: &mut Counts) -> Result<(), String> {
    for map in maps() {
        for offsets in [Offsets::Refuse, Offsets::LeaveOut] {
            if !agree(bytes, &map, offsets, counts) {
                return Err(format!("DIFFERS by {:?}", map.rules));
            }
        }
    }
    if !is_shortened(bytes) {
        return Err("DIFFERS from the minimal module".to_owned());
    }
    let same = remapped(bytes, &Map::same()).ok_or("does not decode")?;
    let shifted = remapped(bytes, &of_functions(1)).ok_or("NOT SHIFTED")?;
    let back = remapped(&shifted, &of_functions(u32::MAX)).ok_or("NOT SHIFTED BACK")?;
    if back != same {
        return Err("NOT RESTORED".to_owned());
    }
    let added = with_import(&shifted).ok_or("NO IMPORT ADDED")?;
    for (name, bytes) in [("before", same), ("after", added)] {
        let path = format!("{folder}/{number}-{name}.wasm");
        write(path, bytes).map_err(|error| error.to_string())?;
    }
    Ok(())
}

/// Maps the indices of these files. Writes files `N-before.wasm` and `N-after.wasm` to the folder,
/// without sections that hold offsets, and with an imported function after. Returns whether all are
/// as they should be.
pub fn run(folder: &str, paths: &[String]) -> bool {
    let mut counts = Counts::default();
    let (mut failed, mut unread) = (0, 0);
    for (number, path) in paths.iter().enumerate() {
        let result = read(path)
            .map_err(|error| error.to_string())
            .and_then(|bytes| is_same(&bytes, folder, number, &mut counts));
        if let Err(error) = result {
            if error == "does not decode" {
                unread += 1;
            } else {
                failed += 1;
            }
            println!("{path}: {error}");
        }
    }
    println!("{counts}");
    println!(
        "{} files, {unread} of them do not decode: {failed} failed",
        paths.len()
    );
    failed == 0
}
