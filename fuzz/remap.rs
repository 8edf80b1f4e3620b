//! Compares `remap_module`, `remap_section`, `remap_items` and `spaces_of` with a plain remapper,
//! `Reencode` with `remap_module`, and the calls that insert or remove with plain edits of bytes, on
//! random modules and random maps. See README.md.

use crate::grammar::{self, Grammar, KINDS, Space, spaces, table};
use crate::insert::are_edits;
use crate::maker::{Maker, Random, input};
use crate::modules::{add_section, framed, id_of, unframed};
use crate::plain::remapped;
use crate::remove::are_removed;
use crate::whole::{HEADER, Section, section};
use dolzhytik::fallible::{self, Global, Op};
use dolzhytik::reader::remap::{
    IndexSpace, Position, Remap, RemapError, remap_items, remap_module, remap_section, spaces_of,
};
use dolzhytik::reader::{
    self, ModuleFault, Offsets, ReadError, ReadFault, Reencode, Sections, Standard,
    encode_items_in, shorten_module,
};
use std::cell::Cell;
use std::collections::HashSet;
use std::fmt;
use std::ops::RangeInclusive;
use std::time::Instant;

// ---- maps

/// All index spaces, in the order of their numbers.
pub const SPACES: [Space; 8] = [
    Space::Functions,
    Space::Types,
    Space::Tables,
    Space::Memories,
    Space::Globals,
    Space::Tags,
    Space::Elements,
    Space::Data,
];

/// A map of the indices of one space.
#[derive(Clone, Debug)]
pub enum Rule {
    Same,
    /// Adds a number, modulo 2^32.
    Shift(u32),
    /// Changes some bits: a permutation.
    Flip(u32),
    /// Has a new index for each of the first ones. The others stay.
    Table(Vec<u32>),
    /// Swaps 0 and another index.
    Swap(u32),
    /// Has a new index for some of the first ones, and rejects all others.
    Only(Vec<Option<u32>>),
    /// Rejects one index.
    But(u32),
    /// Rejects all indices from this one on.
    Below(u32),
}

impl Rule {
    fn any(random: &mut Random, rejects: bool) -> Rule {
        let near = random.below(4) as u32;
        match random.below(if rejects { 14 } else { 10 }) {
            0..3 => Rule::Shift(near.wrapping_sub(1)),
            3 => Rule::Shift(random.below(300) as u32),
            4 => Rule::Shift(random.next() as u32),
            5 => Rule::Flip(random.next() as u32 >> random.below(32)),
            6 => Rule::Table(permutation(random)),
            7 => Rule::Table((0..140).map(|_| random.below(200) as u32).collect()),
            8 => Rule::Swap(1 + random.below(200) as u32),
            9 => Rule::Same,
            10 | 11 => Rule::But(random.below(16) as u32),
            12 => Rule::Below(random.below(140) as u32),
            _ => Rule::Below(random.next() as u32 >> random.below(32)),
        }
    }

    fn new_of(&self, index: u32) -> Option<u32> {
        Some(match self {
            Rule::Same => index,
            Rule::Shift(by) => index.wrapping_add(*by),
            Rule::Flip(bits) => index ^ bits,
            Rule::Table(list) => list.get(index as usize).copied().unwrap_or(index),
            Rule::Swap(other) => match index {
                0 => *other,
                _ if index == *other => 0,
                _ => index,
            },
            Rule::Only(list) => return list.get(index as usize).copied().flatten(),
            Rule::But(one) => return (index != *one).then_some(index),
            Rule::Below(limit) => return (index < *limit).then_some(index),
        })
    }
}

/// A permutation of the first indices.
fn permutation(random: &mut Random) -> Vec<u32> {
    let mut list: Vec<u32> = (0..1 + random.below(140) as u32).collect();
    for place in 1..list.len() {
        list.swap(place, random.below(place + 1));
    }
    list
}

/// A map of all index spaces.
#[derive(Debug)]
pub struct Map {
    pub rules: [Rule; SPACES.len()],
    /// How often the library asked for an index of each space.
    asked: [Cell<u64>; SPACES.len()],
}

impl Map {
    pub fn new(rules: [Rule; SPACES.len()]) -> Map {
        Map {
            rules,
            asked: Default::default(),
        }
    }

    pub fn same() -> Map {
        Map::new([(); SPACES.len()].map(|()| Rule::Same))
    }

    /// The identity, a map of a single space, or one of all spaces, which may reject indices.
    fn any(random: &mut Random) -> Map {
        let mut map = Map::same();
        match random.below(8) {
            0 => {}
            1 | 2 => {
                let place = random.below(SPACES.len());
                map.rules[place] = Rule::any(random, true);
            }
            3 => map.rules = [(); SPACES.len()].map(|()| Rule::any(random, true)),
            _ => map.rules = [(); SPACES.len()].map(|()| Rule::any(random, false)),
        }
        map
    }

    fn new_of(&self, space: Space, index: u32) -> Option<u32> {
        self.rules[space as usize].new_of(index)
    }
}

/// The space of the library's.
fn space_of(space: IndexSpace) -> Space {
    match space {
        IndexSpace::Functions => Space::Functions,
        IndexSpace::Types => Space::Types,
        IndexSpace::Tables => Space::Tables,
        IndexSpace::Memories => Space::Memories,
        IndexSpace::Globals => Space::Globals,
        IndexSpace::Tags => Space::Tags,
        IndexSpace::Elements => Space::Elements,
        IndexSpace::Data => Space::Data,
        _ => panic!("no such space: {space:?}"),
    }
}

impl Remap for Map {
    /// The rejected index.
    type Error = (Space, u32);

    fn index(&self, space: IndexSpace, index: u32) -> Result<u32, (Space, u32)> {
        let space = space_of(space);
        let asked = &self.asked[space as usize];
        asked.set(asked.get() + 1);
        self.new_of(space, index).ok_or((space, index))
    }
}

/// A map as methods of `Reencode`.
struct Methods<'a>(&'a Map);

/// Implements the method of each index space.
macro_rules! methods {
    ($($method:ident $space:ident)*) => {
        $(
            fn $method(&mut self, index: u32) -> Result<u32, Self::Error> {
                self.0.new_of(Space::$space, index).ok_or((Space::$space, index))
            }
        )*
    };
}

impl Reencode for Methods<'_> {
    type Error = (Space, u32);

    methods! {
        function_index Functions
        type_index Types
        table_index Tables
        memory_index Memories
        global_index Globals
        tag_index Tags
        element_index Elements
        data_index Data
    }
}

// ---- the plain remapper

/// The result for a module or a section.
#[derive(Debug)]
pub enum Answer {
    Remapped(Vec<u8>),
    /// The bytes do not decode. The error is at one of these offsets.
    Unread(RangeInclusive<usize>),
    /// The map rejects these indices.
    Rejected(Vec<(Space, u32)>),
    /// The section at this offset holds offsets.
    Offsets(usize),
}

/// The result for the size prefix and the payload of a section.
fn remapped_section(section: &Section<'_>, map: &Map) -> Answer {
    let indices = |space, index| map.new_of(space, index);
    let (decoded, rejected) = remapped(section.framed, section.kind(), &indices);
    match decoded {
        Some((encoding, taken)) if taken == section.framed.len() => {
            if rejected.is_empty() {
                Answer::Remapped(encoding)
            } else {
                Answer::Rejected(rejected)
            }
        }
        _ => Answer::Unread(section.offset..=section.offset + section.payload.len()),
    }
}

/// The result for a module.
pub fn remapped_module(bytes: &[u8], map: &Map, leaves_out: bool) -> Answer {
    if !bytes.starts_with(HEADER) {
        return Answer::Unread(0..=bytes.len());
    }
    let mut module = HEADER.to_vec();
    let mut at = HEADER.len();
    while at < bytes.len() {
        let Some(section) = section(bytes, at) else {
            return Answer::Unread(at..=bytes.len());
        };
        if section.holder().is_none() {
            match remapped_section(&section, map) {
                Answer::Remapped(encoding) => {
                    module.push(section.id);
                    module.extend(encoding);
                }
                other => return other,
            }
        } else if !leaves_out {
            return Answer::Offsets(at);
        }
        at = section.offset + section.payload.len();
    }
    Answer::Remapped(module)
}

// ---- the library

/// Whether an error of the library is the one that is expected.
fn is_same_error(given: &RemapError<(Space, u32)>, expected: &Answer, counts: &mut Counts) -> bool {
    match (given, expected) {
        (RemapError::Read(error), Answer::Unread(offsets)) => {
            let ReadError { cause, offset } = *error;
            counts.unread += 1;
            offsets.contains(&offset)
                && ![ReadFault::Memory, ReadFault::NotShortest].contains(&cause)
        }
        (RemapError::Index(index), Answer::Rejected(rejected)) => {
            counts.rejected += 1;
            counts.later += u64::from(rejected.first() != Some(index));
            rejected.contains(index)
        }
        (RemapError::Offsets(offset), Answer::Offsets(expected)) => {
            counts.offsets += 1;
            offset == expected
        }
        _ => false,
    }
}

/// Whether `Reencode` gives this result of `remap_module` too.
fn is_reencoded(
    bytes: &[u8],
    map: &Map,
    offsets: Offsets,
    given: &Result<fallible::Vec<u8>, RemapError<(Space, u32)>>,
) -> bool {
    match (Methods(map).reencode_module(bytes, offsets), given) {
        (Ok(reencoded), Ok(given)) => reencoded[..] == given[..],
        (Err(error), Err(given)) => error == (*given).into(),
        _ => false,
    }
}

/// Whether the library's result for a module is the expected one.
pub fn agree(bytes: &[u8], map: &Map, offsets: Offsets, counts: &mut Counts) -> bool {
    let expected = remapped_module(bytes, map, offsets == Offsets::LeaveOut);
    let given = remap_module(bytes, Global, map, offsets);
    for (sum, asked) in counts.asked.iter_mut().zip(&map.asked) {
        *sum += asked.take();
    }
    if !is_reencoded(bytes, map, offsets, &given) {
        return false;
    }
    match (given, &expected) {
        (Ok(given), Answer::Remapped(expected)) => {
            counts.remapped += 1;
            given[..] == expected[..]
        }
        (Err(error), expected) => is_same_error(&error, expected, counts),
        _ => false,
    }
}

/// The bytes in the sink before.
const BEFORE: [u8; 3] = [0x0A, 0x80, 0xA5];

/// Whether the library's result for a section is the expected one: that of `remap_section`, and of
/// `remap_items` of its decoded items.
fn is_same_section(given: &reader::Section<'_>, map: &Map, counts: &mut Counts) -> bool {
    let expected = remapped_section(
        &section(&module_of(given), HEADER.len()).expect("a section"),
        map,
    );
    let Ok(mut sink) = fallible::Vec::from_slice(Global, &BEFORE) else {
        return false;
    };
    let result = remap_section(given, Global, map, &mut sink);
    let Some(payload) = sink.strip_prefix(&BEFORE) else {
        return false;
    };
    match (result, &expected) {
        (Ok(()), Answer::Remapped(encoding)) => {
            counts.sections += 1;
            let mut items = given.items().expect("items that were mapped");
            let mut encoded = fallible::Vec::new(Global);
            encoding
                .strip_suffix(payload)
                .is_some_and(|size| (1..=5).contains(&size.len()))
                && remap_items(&mut items, Global, map).is_ok()
                && encode_items_in::<Standard, _, _, _>(Global, &items, &mut encoded).is_ok()
                && encoded[..] == *payload
        }
        (Err(RemapError::Read(error)), Answer::Unread(..)) => {
            payload.is_empty() && given.items().err() == Some(error)
        }
        (Err(RemapError::Index(index)), Answer::Rejected(rejected)) => {
            payload.is_empty() && rejected.contains(&index)
        }
        _ => false,
    }
}

/// A module of one section.
fn module_of(section: &reader::Section<'_>) -> Vec<u8> {
    let mut module = HEADER.to_vec();
    module.push(section.id());
    crate::plain::put_unsigned(&mut module, section.payload().len() as u64);
    module.extend(section.payload());
    module
}

/// Whether the library's results for the sections of a module are the expected ones.
fn are_same_sections(bytes: &[u8], map: &Map, counts: &mut Counts) -> bool {
    Sections::new(Global, bytes)
        .into_iter()
        .flatten()
        .map_while(Result::ok)
        .all(|section| is_same_section(&section, map, counts))
}

/// Whether the identity gives the minimal module, unless a section does not decode.
pub fn is_shortened(bytes: &[u8]) -> bool {
    let mut sink = fallible::Vec::new(Global);
    let shortened = shorten_module(Global, bytes, Offsets::LeaveOut, &mut sink);
    match (
        shortened,
        remap_module(bytes, Global, &Map::same(), Offsets::LeaveOut),
    ) {
        (Ok(kept), Ok(remapped)) => kept == 0 && remapped[..] == sink[..],
        (Ok(kept), Err(RemapError::Read(_))) => kept > 0,
        (Err(ModuleFault::Section { .. }), Err(RemapError::Read(_))) => true,
        _ => false,
    }
}

/// Whether the library knows the same spaces for all opcodes, and none for others.
fn are_same_spaces() -> bool {
    let number = |space: Option<IndexSpace>| space.map(space_of);
    let known = |op| {
        let (first, second) = spaces_of(op);
        [number(first), number(second)]
    };
    let mut is_same = true;
    let mut compare = |op, expected| {
        if known(op) != expected {
            println!("spaces of {op:?}: {:?}, not {expected:?}", known(op));
            is_same = false;
        }
    };
    let mut ops = HashSet::new();
    for row in table() {
        let op = match row.prefix {
            Some(prefix) => Op::Prefixed(prefix, row.number),
            None => Op::Byte(row.number as u8),
        };
        ops.insert(op);
        compare(op, spaces(row));
    }
    let prefixed =
        (0..=255).flat_map(|byte| (0..300).map(move |number| Op::Prefixed(byte, number)));
    for op in (0..=255).map(Op::Byte).chain(prefixed) {
        if !ops.contains(&op) {
            compare(op, [None, None]);
        }
    }
    is_same
}

// ---- random modules

/// A section of the kind in the grammar. One in 32 is long, so that its sizes have two bytes.
fn made(random: &mut Random, kind: &str, grammar: Grammar) -> Vec<u8> {
    let is_long = random.one_in(32);
    let left = 1 + random.below(if is_long { 300 } else { 12 });
    let mut maker = Maker::new(random, left, grammar);
    if is_long {
        maker.most = 60;
    }
    let _ = grammar::section(&mut maker, kind);
    maker.encoding
}

/// Appends a section. Most are unchanged encodings of their kind.
fn add(random: &mut Random, module: &mut Vec<u8>) {
    if random.one_in(16) {
        return add_section(random, module);
    }
    let kind = match random.below(8) {
        0..3 => "Bodies",
        3 => random.one_of(&["Types", "Elements", "Segments", "Names", "Linking"]),
        _ => random.one_of(&KINDS),
    };
    let grammar = random.one_of(&[Grammar::Builders, Grammar::Standard]);
    let encoding = if random.one_in(16) {
        input(random, kind, grammar)
    } else {
        made(random, kind, grammar)
    };
    module.push(id_of(random, kind));
    module.extend(framed(random, unframed(&encoding)));
}

fn module(random: &mut Random) -> Vec<u8> {
    let mut module = HEADER.to_vec();
    for _ in 0..random.below(6) {
        add(random, &mut module);
    }
    if random.one_in(64) {
        let place = random.below(module.len());
        match random.below(3) {
            0 => module.truncate(place),
            1 => module[place] ^= 1 << random.below(8),
            _ => module.push(random.next() as u8),
        }
    }
    module
}

/// Whether the edits of a module by a random section are the plain ones.
fn is_edited(random: &mut Random, module: &[u8]) -> bool {
    let kind = random.one_of(&KINDS);
    let encoding = made(random, kind, Grammar::Standard);
    let id = id_of(random, kind);
    let position = random.one_of(&[Position::First, Position::Last, Position::Instead]);
    are_edits(module, id, unframed(&encoding), position)
}

/// How many results there were of each form.
#[derive(Default)]
pub struct Counts {
    remapped: u64,
    unread: u64,
    rejected: u64,
    /// Rejections of another index than the first one by the order of bytes.
    later: u64,
    offsets: u64,
    /// Single sections that were mapped.
    sections: u64,
    asked: [u64; SPACES.len()],
}

impl fmt::Display for Counts {
    fn fmt(&self, f: &mut fmt::Formatter<'_>) -> fmt::Result {
        let Counts {
            remapped,
            unread,
            rejected,
            later,
            offsets,
            sections,
            asked,
        } = self;
        writeln!(
            f,
            "calls for a module: {remapped} mapped; {unread} do not decode, {rejected} have an index that is rejected ({later} reported a later one), {offsets} hold offsets"
        )?;
        writeln!(f, "{sections} single sections mapped")?;
        let spaces: Vec<_> = SPACES.iter().zip(asked).collect();
        write!(f, "indices of modules, by space: {spaces:?}")
    }
}

fn show(bytes: &[u8]) -> String {
    bytes.iter().map(|byte| format!("{byte:02x}")).collect()
}

/// Compares this many modules of the seed. Returns whether all results are the same.
pub fn run(seed: u64, count: u64) -> bool {
    let begun = Instant::now();
    let mut random = Random::new(seed);
    let (mut counts, mut differences, mut bytes) = (Counts::default(), 0, 0);
    differences += u64::from(!are_same_spaces());
    for _ in 0..count {
        let module = module(&mut random);
        let map = Map::any(&mut random);
        bytes += module.len();
        let is_same = agree(&module, &map, Offsets::Refuse, &mut counts)
            & agree(&module, &map, Offsets::LeaveOut, &mut counts)
            & are_same_sections(&module, &map, &mut counts)
            & is_shortened(&module)
            & is_edited(&mut random, &module)
            & are_removed(&module, &mut random);
        if !is_same {
            differences += 1;
            println!("module {} {:?}", show(&module), map.rules);
        }
    }
    println!("{counts}");
    println!(
        "seed {seed}: {count} modules of {bytes} bytes, {differences} differences, {} s",
        begun.elapsed().as_secs()
    );
    differences == 0
}
