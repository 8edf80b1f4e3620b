//! Removes custom sections.
use crate::failure::{Failure, NamedSection};
use crate::files::Input;
use crate::references::{highest_index, is_of_relocations, moves_code, target};
use crate::sections::{HEADER, Section, sections_of};
use std::fmt;

/// An empty custom section, by the name that LLVM's strip gives it. It is in the place of a removed
/// section, so that the indices of the sections after it stay right.
const EMPTY: &[u8] = b"\x00\x11\x10.objcopy.removed";

/// Which custom sections to remove, and which of these to keep in spite of that.
#[derive(PartialEq, Eq, Debug)]
pub struct Choice {
    /// All, also those that a linker needs.
    pub all: bool,
    /// DWARF, with its relocations.
    pub debug: bool,
    pub named: Vec<String>,
    /// Kept with their relocations.
    pub kept: Vec<String>,
}

impl Choice {
    /// Whether nothing says which sections to remove: all, but those that a linker needs.
    fn is_default(&self) -> bool {
        !self.all && !self.debug && self.named.is_empty()
    }

    fn keeps(&self, name: &str) -> bool {
        let relocated = name.strip_prefix("reloc.");
        let mut kept = self.kept.iter();
        kept.any(|kept| kept == name || Some(&kept[..]) == relocated)
    }

    fn removes(&self, section: &Section<'_>) -> bool {
        let is_all = self.all || self.is_default();
        let is_removed = |name: &str| {
            is_all
                || self.debug && is_debug(name)
                || self.named.iter().any(|removed| removed == name)
        };
        section.id() == 0
            && match section.name() {
                Some(name) => is_removed(name) && !self.keeps(name),
                // The name does not decode.
                None => is_all,
            }
    }

    /// The names that no custom section has.
    fn unmatched(&self, sections: &[Section<'_>]) -> Vec<&str> {
        let is_there = |name: &str| sections.iter().any(|it| it.name() == Some(name));
        let names = self.named.iter().chain(&self.kept).map(String::as_str);
        names.filter(|name| !is_there(name)).collect()
    }
}

fn is_debug(name: &str) -> bool {
    name.starts_with(".debug_") || name.starts_with("reloc..debug_")
}

/// Why sections cannot be removed.
#[derive(Debug)]
pub enum Obstacle {
    /// A linker needs sections of these names.
    Linker { input: Input, names: Vec<String> },
    /// Relocations are to stay, and the section that they are of is not.
    Target(NamedSection),
    /// Relocations are to stay, and the symbols that they name are not.
    Symbols(NamedSection),
    /// A source map is to stay, and the code would move.
    SourceMap(NamedSection),
}

impl fmt::Display for Obstacle {
    fn fmt(&self, f: &mut fmt::Formatter<'_>) -> fmt::Result {
        match self {
            Obstacle::Linker { input, names } => write!(
                f,
                "{input}: strip would remove {}, and no linker takes the file without them; \
                 --debug removes only DWARF, and NAME.. only the sections of these names",
                names.join(", ")
            ),
            Obstacle::Target(section) => write!(
                f,
                "{section} has the relocations of a section that would be removed; \
                 keep that section too"
            ),
            Obstacle::Symbols(section) => write!(
                f,
                "{section} has relocations that need the symbols of \"linking\", \
                 which would be removed; keep that section too"
            ),
            Obstacle::SourceMap(section) => write!(
                f,
                "{section} names a source map, which would be wrong, since the code would move; \
                 remove it too, by its name"
            ),
        }
    }
}

/// A module without some sections.
pub struct Stripped<'a, 'c> {
    /// The header, and the sections that stay.
    pub parts: Vec<&'a [u8]>,
    /// How many sections are removed.
    pub removed: usize,
    /// How many of these have an empty section in their place.
    pub replaced: usize,
    /// The names that no custom section has.
    pub unmatched: Vec<&'c str>,
}

/// Returns the module without the sections of the choice, unless sections that stay would no longer
/// fit.
pub fn strip<'a, 'c>(
    input: &Input,
    module: &'a [u8],
    choice: &'c Choice,
) -> Result<Stripped<'a, 'c>, Failure> {
    let sections = sections_of(input, module)?;
    let removed = removed(&sections, choice);
    match obstacle(input, &sections, &removed, choice) {
        Some(obstacle) => Err(Failure::Strip(obstacle)),
        None => Ok(without(module, &sections, &removed, choice)),
    }
}

/// Returns which sections are removed: those of the choice, and the relocations of these.
fn removed(sections: &[Section<'_>], choice: &Choice) -> Vec<bool> {
    let chosen: Vec<bool> = sections.iter().map(|it| choice.removes(it)).collect();
    let is_removed = |(section, is_chosen): (&Section<'_>, &bool)| {
        *is_chosen
            || !choice.keeps(section.name().unwrap_or_default()) && loses_target(section, &chosen)
    };
    sections.iter().zip(&chosen).map(is_removed).collect()
}

/// Whether these are relocations of a section that is removed.
fn loses_target(section: &Section<'_>, removed: &[bool]) -> bool {
    target(section).is_some_and(|index| removed.get(index) == Some(&true))
}

/// Returns why these sections cannot be removed, if so.
fn obstacle(
    input: &Input,
    sections: &[Section<'_>],
    removed: &[bool],
    choice: &Choice,
) -> Option<Obstacle> {
    let lost = lost(sections, removed);
    if choice.is_default() && !lost.is_empty() {
        let names = lost.iter().map(|name| format!("{name:?}")).collect();
        let input = input.clone();
        return Some(Obstacle::Linker { input, names });
    }
    let first = removed.iter().position(|removed| *removed)?;
    let without_symbols = lost.contains(&"linking");
    staying(sections, removed).find_map(|section| {
        let named = || section.named(input);
        if section.name() == Some("sourceMappingURL") {
            return moves_code(sections, first).then(|| Obstacle::SourceMap(named()));
        }
        if loses_target(section, removed) {
            return Some(Obstacle::Target(named()));
        }
        let lacks_symbols = without_symbols && is_of_relocations(section);
        lacks_symbols.then(|| Obstacle::Symbols(named()))
    })
}

/// The sections that are not removed.
fn staying<'s, 'a>(
    sections: &'s [Section<'a>],
    removed: &[bool],
) -> impl Iterator<Item = &'s Section<'a>> {
    let stay = sections
        .iter()
        .zip(removed)
        .filter(|(_, removed)| !**removed);
    stay.map(|(section, _)| section)
}

/// The names of the removed sections that a linker needs: the symbols, and the relocations of
/// sections that stay.
fn lost<'a>(sections: &[Section<'a>], removed: &[bool]) -> Vec<&'a str> {
    let is_needed = |section: &Section<'_>| {
        section.name() == Some("linking")
            || is_of_relocations(section) && !loses_target(section, removed)
    };
    let gone = sections
        .iter()
        .zip(removed)
        .filter(|(_, removed)| **removed);
    gone.filter(|(section, _)| is_needed(section))
        .filter_map(|(section, _)| section.name())
        .collect()
}

/// Returns the module without these sections. An empty section is in the place of each that is not
/// after the last one whose index a section holds.
fn without<'a, 'c>(
    module: &'a [u8],
    sections: &[Section<'a>],
    removed: &[bool],
    choice: &'c Choice,
) -> Stripped<'a, 'c> {
    let highest = staying(sections, removed).filter_map(highest_index).max();
    let (mut parts, mut replaced) = (vec![&module[..HEADER]], 0);
    for (index, (section, is_removed)) in sections.iter().zip(removed).enumerate() {
        if !is_removed {
            parts.push(section.bytes());
        } else if highest.is_some_and(|highest| index <= highest) {
            parts.push(EMPTY);
            replaced += 1;
        }
    }
    Stripped {
        parts,
        removed: removed.iter().filter(|removed| **removed).count(),
        replaced,
        unmatched: choice.unmatched(sections),
    }
}
