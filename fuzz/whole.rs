//! A plain reader of modules: their sections, their outline, and the module with minimal sections.

use crate::grammar::{Follow, Grammar};
use crate::plain::{Plain, shortened};

pub const HEADER: &[u8] = b"\0asm\x01\0\0\0";

/// A section, with its bytes.
#[derive(PartialEq)]
pub struct Section<'a> {
    pub id: u8,
    /// The offset of the payload in the module.
    pub offset: usize,
    /// The size and what it counts.
    pub framed: &'a [u8],
    pub payload: &'a [u8],
    pub name: Option<&'a str>,
}

fn name(payload: &[u8]) -> Option<&str> {
    let mut along = Plain::new(payload, Grammar::Builders);
    let length = along.unsigned(32)?;
    std::str::from_utf8(along.take(length as usize)?).ok()
}

/// The section at an offset.
pub fn section(bytes: &[u8], at: usize) -> Option<Section<'_>> {
    let mut along = Plain::new(&bytes[at..], Grammar::Builders);
    let id = along.byte()?;
    let size = along.unsigned(32)? as usize;
    let offset = bytes.len() - along.rest.len();
    let payload = along.take(size)?;
    let name = if id == 0 { name(payload) } else { None };
    Some(Section {
        id,
        offset,
        framed: &bytes[at + 1..offset + size],
        payload,
        name,
    })
}

/// All sections, or the number of the first that is none.
pub fn sections(bytes: &[u8]) -> Result<Vec<Section<'_>>, usize> {
    if !bytes.starts_with(HEADER) {
        return Err(0);
    }
    let mut sections = Vec::new();
    let mut at = HEADER.len();
    while at < bytes.len() {
        let next = section(bytes, at).ok_or(sections.len() + 1)?;
        at = next.offset + next.payload.len();
        sections.push(next);
    }
    Ok(sections)
}

impl Section<'_> {
    /// The kind that it is decoded as.
    pub fn kind(&self) -> &'static str {
        match (self.id, self.name) {
            // begin: written by tools/kinds
            (0, Some("name")) => "Names",
            (0, Some("linking")) => "Linking",
            (0, Some("producers")) => "Producers",
            (0, Some("metadata.code.branch_hint")) => "Hints",
            (0, Some("core")) => "Core",
            (0, Some("coremodules")) => "CoreModules",
            (0, Some("coreinstances")) => "CoreInstances",
            (0, Some("corestack")) => "CoreStack",
            (0, Some("target_features")) => "TargetFeatures",
            (0, Some("sourceMappingURL")) => "SourceMappingUrl",
            (0, Some("external_debug_info")) => "ExternalDebugInfo",
            (0, Some("build_id")) => "BuildId",
            (0, Some("dylink.0")) => "Dylink",
            (0, Some("metadata.code.instr_freq")) => "InstructionFrequencies",
            (0, Some("metadata.code.compilation_order")) => "CompilationOrders",
            (0, Some("metadata.code.call_targets")) => "CallTargets",
            (0, Some(name)) if name.starts_with("reloc.") => "Relocations",
            (0, _) => "Custom",
            (1, _) => "Types",
            (2, _) => "Imports",
            (3, _) => "Functions",
            (4, _) => "Tables",
            (5, _) => "Memories",
            (6, _) => "Globals",
            (7, _) => "Exports",
            (8, _) => "Start",
            (9, _) => "Elements",
            (10, _) => "Bodies",
            (11, _) => "Segments",
            (12, _) => "DataCount",
            (13, _) => "Tags",
            // end: written by tools/kinds
            _ => "Raw",
        }
    }

    /// The minimal encoding of the size prefix and the payload in the grammar `written`, if the
    /// section decodes as its kind in `grammar`.
    pub fn shortest(&self, grammar: Grammar, written: Grammar) -> Option<Vec<u8>> {
        let (encoding, taken) = shortened(self.framed, self.kind(), grammar, written)?;
        (taken == self.framed.len()).then_some(encoding)
    }

    /// The number of items in an outline.
    pub fn items(&self) -> Option<u32> {
        self.shortest(Grammar::Standard, Grammar::Standard)?;
        match self.id {
            0 | 14.. => None,
            8 | 12 => Some(1),
            _ => Plain::new(self.payload, Grammar::Standard)
                .unsigned(32)
                .map(|count| count as u32),
        }
    }

    /// The kind of offsets in it, by its name, as tools define them.
    pub fn holder(&self) -> Option<Holder> {
        let name = self.name?;
        match name {
            "linking" => Some(Holder::Symbols),
            "external_debug_info" | "build_id" | ".gdb_index" => Some(Holder::Debug),
            "sourceMappingURL" => Some(Holder::SourceMap),
            _ if name.starts_with("reloc.") => Some(Holder::Relocations),
            _ if name.starts_with(".debug_") || name.starts_with(".apple_") => Some(Holder::Debug),
            _ if name.starts_with("metadata.code.") => Some(Holder::Metadata),
            _ => None,
        }
    }
}

// ---- the targets of offsets

/// A custom section that holds offsets.
#[derive(Clone, Copy, PartialEq, Eq, Debug)]
pub enum Holder {
    /// `linking`: symbols of functions by index, and of data by segment and offset in the segment.
    Symbols,
    /// `reloc.*`: a section by index, and offsets from the front of its payload.
    Relocations,
    /// DWARF and its indexes, in the module or in a file that the module names or shares a `build_id` with: offsets
    /// from the front of the code section's payload.
    Debug,
    /// `metadata.code.*`: offsets in function bodies.
    Metadata,
    /// `sourceMappingURL`: the map's columns are offsets of code from the first byte of the module.
    SourceMap,
}

pub const HOLDERS: [Holder; 5] = [
    Holder::Symbols,
    Holder::Relocations,
    Holder::Debug,
    Holder::Metadata,
    Holder::SourceMap,
];

/// Types of relocations that have an addend (Linking.md), and those of them whose addend is an
/// offset in a function or in a custom section.
const WITH_ADDEND: [u8; 14] = [3, 4, 5, 8, 9, 11, 14, 15, 16, 17, 21, 22, 23, 25];
const IN_FUNCTION: [u8; 2] = [8, 22];
const IN_CUSTOM: u8 = 9;

/// The ids of sections that a relocation section points into: the section that it names, and those
/// of its addends.
struct Relocations {
    section: usize,
    in_functions: bool,
    in_custom: bool,
}

fn relocations(section: &Section<'_>) -> Option<Relocations> {
    let mut along = Plain::new(section.payload, Grammar::Builders);
    let length = along.unsigned(32)?;
    along.take(length as usize)?;
    let mut found = Relocations {
        section: along.unsigned(32)? as usize,
        in_functions: false,
        in_custom: false,
    };
    for _ in 0..along.unsigned(32)? {
        let kind = along.byte()?;
        along.unsigned(32)?;
        along.unsigned(32)?;
        if WITH_ADDEND.contains(&kind) {
            along.signed(64)?;
        }
        found.in_functions |= IN_FUNCTION.contains(&kind);
        found.in_custom |= kind == IN_CUSTOM;
    }
    Some(found)
}

/// Whether each byte of the payload has the same offset in it, before and after.
fn has_same_payload(before: &Section<'_>, after: &Section<'_>) -> bool {
    before.payload.len() == after.payload.len()
        && before
            .payload
            .iter()
            .enumerate()
            .all(|(offset, byte)| after.payload[offset] == *byte)
}

/// Whether the bytes that the offsets in a section point to are at other offsets, if the sections
/// `before` are written as those `after`.
fn is_broken(holder: &Section<'_>, before: &[Section<'_>], after: &[Section<'_>]) -> bool {
    let pairs = || before.iter().zip(after);
    let moves = |ids: &[u8]| pairs().any(|(b, a)| ids.contains(&b.id) && !has_same_payload(b, a));
    match holder.holder() {
        None | Some(Holder::Symbols) => false,
        Some(Holder::Debug | Holder::Metadata) => moves(&[10]),
        // The offset in the module of each byte of the code.
        Some(Holder::SourceMap) => {
            pairs().any(|(b, a)| b.id == 10 && (b.offset != a.offset || !has_same_payload(b, a)))
        }
        Some(Holder::Relocations) => relocations(holder).is_some_and(|found| {
            let at = pairs().nth(found.section);
            at.is_some_and(|(b, a)| [0, 10, 11].contains(&b.id) && !has_same_payload(b, a))
                || (found.in_functions && moves(&[10]))
                || (found.in_custom && moves(&[0]))
        }),
    }
}

/// The number of the first section whose offsets point to other bytes, between a module and the
/// same module with its sections encoded differently.
pub fn first_broken(before: &[u8], after: &[u8]) -> Option<usize> {
    let (before, after) = (sections(before).ok()?, sections(after).ok()?);
    before
        .iter()
        .position(|section| is_broken(section, &before, &after))
        .map(|place| place + 1)
}

// ---- modules

/// The result of minimizing a module.
#[derive(PartialEq, Eq, Debug)]
pub enum Answer {
    Shortened {
        encoding: Vec<u8>,
        kept: usize,
    },
    /// The section of this number is malformed.
    NoSection(usize),
    /// The section of this number holds offsets that would be lost.
    Offsets(usize),
}

/// A section, and the output for it.
struct Rewritten<'a, 'b> {
    section: &'b Section<'a>,
    encoding: Vec<u8>,
    is_kept: bool,
}

/// Each section in its minimal encoding.
fn rewritten<'a, 'b>(sections: impl Iterator<Item = &'b Section<'a>>) -> Vec<Rewritten<'a, 'b>>
where
    'a: 'b,
{
    let one = |section: &'b Section<'a>| {
        let shortest = section.shortest(Grammar::Standard, Grammar::Standard);
        Rewritten {
            section,
            is_kept: shortest.is_none(),
            encoding: shortest.unwrap_or_else(|| section.framed.to_vec()),
        }
    };
    sections.map(one).collect()
}

fn joined(written: &[Rewritten<'_, '_>]) -> Vec<u8> {
    let mut module = HEADER.to_vec();
    for w in written {
        module.push(w.section.id);
        module.extend(&w.encoding);
    }
    module
}

/// Whether a module with such a holder is rejected, by docs/FORMAT.md.
fn is_refused(holder: Holder, written: &[Rewritten<'_, '_>]) -> bool {
    let differs = |ids: &[u8]| {
        written
            .iter()
            .any(|w| ids.contains(&w.section.id) && w.encoding != w.section.framed)
    };
    let moves = || {
        let last = written
            .iter()
            .rposition(|w| w.section.id == 10)
            .unwrap_or(0);
        written[..last]
            .iter()
            .any(|w| w.encoding.len() != w.section.framed.len())
    };
    match holder {
        Holder::Relocations => differs(&[0, 10, 11]),
        Holder::SourceMap => differs(&[10, 11]) || moves(),
        Holder::Symbols | Holder::Debug | Holder::Metadata => differs(&[10, 11]),
    }
}

/// The module with minimal sections, even if offsets in it become wrong.
pub fn shortest_module(bytes: &[u8]) -> Option<Vec<u8>> {
    Some(joined(&rewritten(sections(bytes).ok()?.iter())))
}

/// The result of minimizing the module, with sections that hold offsets or without them.
pub fn shortened_module(bytes: &[u8], leaves_out: bool) -> Answer {
    let sections = match sections(bytes) {
        Ok(sections) => sections,
        Err(number) => return Answer::NoSection(number),
    };
    let written = rewritten(
        sections
            .iter()
            .filter(|section| !(leaves_out && section.holder().is_some())),
    );
    let lost = written.iter().position(|w| {
        w.section
            .holder()
            .is_some_and(|holder| is_refused(holder, &written))
    });
    match lost {
        Some(place) if !leaves_out => Answer::Offsets(place + 1),
        _ => Answer::Shortened {
            encoding: joined(&written),
            kept: written.iter().filter(|w| w.is_kept).count(),
        },
    }
}

/// The reason for which a module is rejected although no offset would point to other bytes.
#[derive(Clone, Copy, PartialEq, Eq, Debug)]
pub enum Care {
    /// `linking`, whose offsets count in segments, not in sections.
    Symbols,
    /// Only size prefixes of the sections that must stay were padded: their payloads are unchanged.
    SizeAlone,
    /// The code is unchanged, and the holder points into code alone.
    DataAlone,
    /// Relocations of a section that is unchanged, or of none.
    OtherTarget,
}

pub const CARES: [Care; 4] = [
    Care::Symbols,
    Care::SizeAlone,
    Care::DataAlone,
    Care::OtherTarget,
];

/// The reason for which the section of this number is reported, although no offset in the module
/// would point to other bytes.
pub fn why_refused(before: &[u8], number: usize) -> Option<Care> {
    let all = sections(before).ok()?;
    let written = rewritten(all.iter());
    let holder = all.get(number - 1)?.holder()?;
    let payload_moves = |ids: &[u8]| {
        let encoding = joined(&written);
        let after = sections(&encoding).unwrap_or_default();
        all.iter()
            .zip(&after)
            .any(|(b, a)| ids.contains(&b.id) && !has_same_payload(b, a))
    };
    Some(match holder {
        Holder::Symbols => Care::Symbols,
        Holder::Relocations if payload_moves(&[0, 10, 11]) => Care::OtherTarget,
        Holder::Debug | Holder::Metadata | Holder::SourceMap if payload_moves(&[11]) => {
            Care::DataAlone
        }
        _ => Care::SizeAlone,
    })
}
