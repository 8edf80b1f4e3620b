//! Compares `insert_import`, `insert_section`, `insert_code` and `instrument_code` with plain edits.

use crate::grammar::{Grammar, Space};
use crate::plain::{Plain, put_unsigned};
use crate::remap::{Answer, Map, Rule, remapped_module};
use crate::whole::{HEADER, sections};
use dolzhytik::fallible::{
    self, EntityType, Global, Import, InstructionSink, Op, RawSection, Refused,
};
use dolzhytik::reader::remap::{
    IndexSpace, IndexTooLarge, Instrument, Position, Prologue, RemapError, Visited, insert_code,
    insert_import, insert_section, instrument_code,
};
use dolzhytik::reader::{Body, Items, Offsets, Plain as Decoded, Section, Sections};

/// The ids of sections, in the order of the standard.
const ORDER: [u8; 13] = [1, 2, 3, 4, 5, 13, 6, 7, 8, 9, 12, 10, 11];

fn rank(id: u8) -> Option<usize> {
    ORDER.iter().position(|it| *it == id)
}

/// The payload of a section that had the old one, or `None` if a count does not decode or their sum
/// has more than 32 bits.
fn joined(id: u8, new: &[u8], old: &[u8], position: Position) -> Option<Vec<u8>> {
    if position == Position::Instead || [8, 12].contains(&id) {
        return Some(new.to_vec());
    }
    let [mut new, mut old] = [new, old].map(|bytes| Plain::new(bytes, Grammar::Standard));
    let count = new.unsigned(32)? + old.unsigned(32)?;
    if count > u64::from(u32::MAX) {
        return None;
    }
    let mut payload = Vec::new();
    put_unsigned(&mut payload, count);
    match position {
        Position::First => payload.extend([new.rest, old.rest].concat()),
        _ => payload.extend([old.rest, new.rest].concat()),
    }
    Some(payload)
}

/// The module with a section inserted, or `None` if it is an error.
fn inserted(bytes: &[u8], id: u8, new: &[u8], position: Position) -> Option<Vec<u8>> {
    let mut sections: Vec<_> = sections(bytes)
        .ok()?
        .iter()
        .map(|it| (it.id, it.payload.to_vec()))
        .collect();
    match (rank(id), sections.iter().position(|it| it.0 == id)) {
        (None, _) => sections.push((id, new.to_vec())),
        (Some(_), Some(place)) => {
            sections[place].1 = joined(id, new, &sections[place].1, position)?
        }
        (Some(rank_of_new), None) => {
            let behind = sections
                .iter()
                .rposition(|it| rank(it.0).is_some_and(|it| it < rank_of_new));
            let first = sections.iter().position(|it| rank(it.0).is_some());
            let place = match behind {
                Some(place) => place + 1,
                None => first.unwrap_or(sections.len()),
            };
            sections.insert(place, (id, new.to_vec()));
        }
    }
    let mut module = HEADER.to_vec();
    for (id, payload) in sections {
        module.push(id);
        put_unsigned(&mut module, payload.len() as u64);
        module.extend(payload);
    }
    Some(module)
}

/// Whether `insert_section` gives this module.
fn is_inserted(bytes: &[u8], id: u8, new: &[u8], position: Position) -> bool {
    let section = RawSection { id, bytes: new };
    let given = insert_section(bytes, Global, &section, position);
    match (given, inserted(bytes, id, new, position)) {
        (Ok(given), Some(expected)) => given[..] == expected[..],
        (Err(_), None) => true,
        _ => false,
    }
}

/// Whether `insert_import` gives the mapped module with an import of a global.
fn is_imported(bytes: &[u8]) -> bool {
    let import = Import {
        module: "m",
        name: "",
        ty: EntityType::Function(3),
    };
    let given = insert_import(bytes, Global, &import, Offsets::LeaveOut);
    let mut map = Map::same();
    map.rules[Space::Functions as usize] = Rule::Shift(1);
    match (given, remapped_module(bytes, &map, true)) {
        (Ok(given), Answer::Remapped(module)) => {
            let payload = [1, 1, b'm', 0, 0, 3];
            inserted(&module, 2, &payload, Position::First).as_deref() == Some(&given[..])
        }
        // The plain map gives 0 for the last index.
        (Err(error), Answer::Remapped(_)) => {
            let (space, index) = (IndexSpace::Functions, u32::MAX);
            error == RemapError::Index(IndexTooLarge { space, index })
        }
        (Err(_), _) => true,
        _ => false,
    }
}

/// Each body begins with `nop`.
struct Nop;

impl Prologue for Nop {
    fn append<S: fallible::Sink>(&self, _: u32, code: &mut S) -> Result<(), Refused> {
        InstructionSink::new(code).nop()
    }
}

/// What a body decodes to.
fn said(body: &Body, first: usize) -> String {
    format!("{:?} {:?}", &body.runs[..], &body.code[first..])
}

/// Whether `insert_code` adds one instruction to each body of the first code section.
fn is_begun(bytes: &[u8]) -> bool {
    let Ok(edited) = insert_code(bytes, Global, &Nop) else {
        return true;
    };
    let [old, new] = [bytes, &edited].map(|it| {
        let sections = Sections::new(Global, it).expect("a module");
        Iterator::collect::<Vec<_>>(sections.map(|it| it.expect("a section")))
    });
    let first = old.iter().position(|it| it.id() == 10);
    let is_same = |(place, (old, new)): (usize, (&Section<'_>, &Section<'_>))| {
        if Some(place) != first {
            return (old.id(), old.payload()) == (new.id(), new.payload());
        }
        match (old.items(), new.items()) {
            (Ok(Items::Bodies(old)), Ok(Items::Bodies(new))) => {
                let said_of = |list: &[Body], first| -> Vec<_> {
                    list.iter().map(|it| said(it, first)).collect()
                };
                new.iter()
                    .all(|it| format!("{:?}", it.code[0]).contains("Byte(1)"))
                    && said_of(&old, 0) == said_of(&new, 1)
            }
            (old, _) => old.is_err(),
        }
    };
    old.len() == new.len() && old.iter().zip(&new).enumerate().all(is_same)
}

/// `nop` before every second instruction, and twice after each one of every second body.
struct Around;

impl Instrument for Around {
    fn append_before<S: fallible::Sink>(
        &self,
        it: &Visited<'_>,
        code: &mut S,
    ) -> Result<(), Refused> {
        if it.number % 2 == 0 {
            InstructionSink::new(code).nop()?;
        }
        Ok(())
    }

    fn append_after<S: fallible::Sink>(
        &self,
        it: &Visited<'_>,
        code: &mut S,
    ) -> Result<(), Refused> {
        if it.body % 2 == 0 {
            InstructionSink::new(code).nop()?;
            InstructionSink::new(code).nop()?;
        }
        Ok(())
    }
}

/// What the bodies decode to with the instructions of [`Around`].
fn woven(bodies: &[Body]) -> Vec<String> {
    let nop = || "Byte(1)".to_string();
    let said = |it: &Decoded| match it.op {
        Op::Byte(1) => nop(),
        _ => format!("{it:?}"),
    };
    let mut lines = vec![];
    for (number, body) in bodies.iter().enumerate() {
        lines.push(format!("{:?}", &body.runs[..]));
        for (at, it) in body.code.iter().enumerate() {
            lines.extend((at % 2 == 0).then(nop));
            lines.push(said(it));
            if at + 1 < body.code.len() && number % 2 == 0 {
                lines.extend([nop(), nop()]);
            }
        }
    }
    lines
}

/// What the bodies decode to.
fn lines(bodies: &[Body]) -> Vec<String> {
    let mut lines = vec![];
    for body in bodies {
        lines.push(format!("{:?}", &body.runs[..]));
        lines.extend(body.code.iter().map(|it| match it.op {
            Op::Byte(1) => "Byte(1)".to_string(),
            _ => format!("{it:?}"),
        }));
    }
    lines
}

/// The bodies of the first code section, or `None` if the module or they do not decode.
fn first_bodies(bytes: &[u8]) -> Option<Vec<Body>> {
    let mut found = None;
    for section in Sections::new(Global, bytes).ok()? {
        let section = section.ok()?;
        if section.id() == 10 && found.is_none() {
            found = Some(section);
        }
    }
    match found?.items().ok()? {
        Items::Bodies(bodies) => Some(Iterator::collect(bodies.into_iter())),
        _ => None,
    }
}

/// Whether `instrument_code` adds the instructions of [`Around`] to code that decodes, and refuses
/// other code.
fn is_woven(bytes: &[u8]) -> bool {
    let edited = instrument_code(bytes, Global, &Around).ok();
    match (first_bodies(bytes), edited) {
        (Some(old), Some(edited)) => {
            first_bodies(&edited).is_some_and(|new| lines(&new) == woven(&old))
        }
        (Some(_), None) => false,
        // A module without code stays, and otherwise there is an error.
        (None, edited) => edited.is_none_or(|edited| edited[..] == *bytes),
    }
}

/// Whether the library's edits of a module are the plain ones.
pub fn are_edits(bytes: &[u8], id: u8, new: &[u8], position: Position) -> bool {
    is_inserted(bytes, id, new, position)
        && is_imported(bytes)
        && is_begun(bytes)
        && is_woven(bytes)
}
