//! Compares `shorten_module`, `outline`, `Sections`, `encode_items` and `encode_items_in` with a
//! plain reader, on random modules of random and changed sections. See README.md.

use crate::grammar::{Grammar, KINDS};
use crate::maker::{Maker, Random, input};
use crate::plain::Plain;
use crate::whole::{
    Answer, CARES, HOLDERS, Section, first_broken, sections, shortened_module, shortest_module,
    why_refused,
};
use dolzhytik::fallible::{self, Global};
use dolzhytik::reader::{
    self, Items, ModuleFault, Offsets, Outlined, ReadError, ReadFault, SectionKind, Sections,
    Standard, encode_items, encode_items_in, outline, shorten_module,
};
use std::time::Instant;

// ---- modules

/// Names of custom sections that hold offsets.
const HOLDING: [&str; 9] = [
    "sourceMappingURL",
    "external_debug_info",
    "build_id",
    ".debug_info",
    ".debug_",
    ".gdb_index",
    ".apple_names",
    "metadata.code.a",
    "metadata.code.",
];

/// The names after `reloc.`.
const TARGETS: [&str; 5] = ["CODE", "DATA", ".debug_info", "name", ""];

/// Names of custom sections that hold no offsets, though some are similar to names of those that
/// do.
const OTHERS: [&str; 12] = [
    "sourceMappingURLs",
    "reloc",
    ".debug",
    ".apple",
    ".gdb_indexes",
    "metadata.code",
    "linkin",
    "external_debug_inf",
    "build_ids",
    "dylink.0",
    "debug_info",
    "",
];

/// The id of the sections of a kind.
pub fn id_of(random: &mut Random, kind: &str) -> u8 {
    match kind {
        "Types" => 1,
        "Imports" => 2,
        "Functions" => 3,
        "Tables" => 4,
        "Memories" => 5,
        "Globals" => 6,
        "Exports" => 7,
        "Start" => 8,
        "Elements" => 9,
        "Bodies" => 10,
        "Segments" => 11,
        "DataCount" => 12,
        "Tags" => 13,
        "Raw" => 14 + random.below(242) as u8,
        _ => 0,
    }
}

/// The bytes after a size prefix, up to that size or the end. Without a size prefix, all bytes.
pub fn unframed(bytes: &[u8]) -> &[u8] {
    let mut along = Plain::new(bytes, Grammar::Builders);
    match along.unsigned(32) {
        Some(size) => &along.rest[..along.rest.len().min(size as usize)],
        None => bytes,
    }
}

/// Relocations: the index of a section, and entries of a type, an offset, an index, and for most
/// types an addend.
fn relocations(random: &mut Random) -> Vec<u8> {
    let (section, count) = (random.below(6) as u64, random.below(3));
    let mut maker = Maker::new(random, 0, Grammar::Builders);
    maker.unsigned(section, 32);
    maker.unsigned(count as u64, 32);
    for _ in 0..count {
        let kind = [0, 3, 7, 8, 9, 22][maker.random.below(6)];
        maker.encoding.push(kind);
        for _ in 0..if [0, 7].contains(&kind) { 2 } else { 3 } {
            let number = maker.random.below(60) as u64;
            maker.unsigned(number, 32);
        }
    }
    maker.encoding
}

/// A custom section: its name, whose length is padded at times, and relocations or any bytes.
fn custom(random: &mut Random) -> Vec<u8> {
    let (name, data) = match random.below(8) {
        0..3 => (
            format!("reloc.{}", random.one_of(&TARGETS)),
            relocations(random),
        ),
        3..6 => (
            random.one_of(&HOLDING).to_owned(),
            (0..random.below(4)).map(|place| 0x80 >> place).collect(),
        ),
        _ => (
            random.one_of(&OTHERS).to_owned(),
            (0..random.below(4)).map(|place| 0x80 >> place).collect(),
        ),
    };
    let mut maker = Maker::new(random, 0, Grammar::Builders);
    maker.unsigned(name.len() as u64, 32);
    let mut encoding = maker.encoding;
    encoding.extend(name.bytes());
    encoding.extend(data);
    encoding
}

/// Prefixes a payload with its size, which is sometimes padded.
pub fn framed(random: &mut Random, payload: &[u8]) -> Vec<u8> {
    let mut maker = Maker::new(random, 0, Grammar::Builders);
    maker.unsigned(payload.len() as u64, 32);
    maker.encoding.extend(payload);
    maker.encoding
}

/// Appends a section of a kind, sometimes changed or with another id, and mostly with a correct
/// size.
pub fn add_section(random: &mut Random, module: &mut Vec<u8>) {
    if random.one_in(4) {
        let payload = custom(random);
        module.push(0);
        module.extend(framed(random, &payload));
        return;
    }
    let kind = if random.one_in(4) {
        ["Bodies", "Segments"][random.below(2)]
    } else {
        random.one_of(&KINDS)
    };
    let id = if random.one_in(24) {
        random.below(15) as u8
    } else {
        id_of(random, kind)
    };
    let grammar = random.one_of(&[Grammar::Builders, Grammar::Standard]);
    let encoding = input(random, kind, grammar);
    module.push(id);
    if random.one_in(64) {
        module.extend(encoding);
    } else {
        module.extend(framed(random, unframed(&encoding)));
    }
}

/// A module, or sometimes bytes that are no module.
fn module(random: &mut Random) -> Vec<u8> {
    let mut module = b"\0asm\x01\0\0\0".to_vec();
    for _ in 0..random.below(6) {
        add_section(random, &mut module);
    }
    if random.one_in(64) {
        let place = random.below(module.len());
        match random.below(3) {
            0 => module.truncate(place),
            1 => module[place] ^= 1 << random.below(8),
            _ => module.push(random.next() as u8),
        }
    }
    module
}

// ---- results of the library

/// The bytes in the sink before.
const BEFORE: [u8; 3] = [0x0A, 0x80, 0xA5];

/// The result of the library, or `None` if the sink or the cause contradicts it.
fn by_library(bytes: &[u8], offsets: Offsets) -> Option<Answer> {
    let mut sink = dolzhytik::fallible::Vec::from_slice(Global, &BEFORE).ok()?;
    let answer = shorten_module(Global, bytes, offsets, &mut sink);
    let encoding = sink.strip_prefix(&BEFORE)?;
    match answer {
        Ok(kept) => Some(Answer::Shortened {
            encoding: encoding.to_vec(),
            kept,
        }),
        Err(_) if !encoding.is_empty() => None,
        Err(ModuleFault::Section {
            fault: ReadFault::Memory | ReadFault::NotShortest,
            ..
        }) => None,
        Err(ModuleFault::Section { number, .. }) => Some(Answer::NoSection(number)),
        Err(ModuleFault::Offsets { number }) => Some(Answer::Offsets(number)),
        Err(_) => None,
    }
}

/// Whether the output is a module with the ids of the kept sections in the same order, is no
/// longer, and is minimized to itself.
fn is_settled(bytes: &[u8], encoding: &[u8], kept: usize, offsets: Offsets) -> bool {
    let (Ok(before), Ok(after)) = (sections(bytes), sections(encoding)) else {
        return false;
    };
    let is_in = |section: &&Section<'_>| offsets == Offsets::Refuse || section.holder().is_none();
    let ids = before.iter().filter(is_in).map(|section| section.id);
    let again = by_library(encoding, offsets);
    ids.eq(after.iter().map(|section| section.id))
        && encoding.len() <= bytes.len()
        && again
            == Some(Answer::Shortened {
                encoding: encoding.to_vec(),
                kept,
            })
}

/// Whether the outline is that of the plain reader.
fn is_outlined(bytes: &[u8]) -> bool {
    match (outline(Global, bytes), sections(bytes)) {
        (Err((number, fault)), Err(expected)) => {
            number == expected && ![ReadFault::Memory, ReadFault::NotShortest].contains(&fault)
        }
        (Ok(lines), Ok(expected)) => {
            lines
                .iter()
                .copied()
                .eq(expected.iter().map(|section| Outlined {
                    id: section.id,
                    offset: section.offset,
                    size: section.payload.len() as u32,
                    items: section.items(),
                    name: section.name,
                }))
        }
        _ => false,
    }
}

/// Whether the encoding is a size prefix and then the payload.
fn has_payload(encoding: &[u8], payload: &[u8]) -> bool {
    encoding
        .strip_suffix(payload)
        .is_some_and(|size| (1..=5).contains(&size.len()))
}

/// Whether items decode exactly if the plain reader decodes them. Their number and their encodings
/// in both grammars must be the same, and an error must be at an offset in the payload.
fn has_items(given: &reader::Section<'_>, expected: &Section<'_>) -> bool {
    match (given.items(), given.count()) {
        (Ok(items), Ok(count)) => {
            let [mut payload, mut shortest] = [(); 2].map(|()| fallible::Vec::new(Global));
            count == expected.items()
                && encode_items(&items, &mut payload).is_ok()
                && expected
                    .shortest(Grammar::Builders, Grammar::Builders)
                    .is_none_or(|encoding| has_payload(&encoding, &payload))
                && encode_items_in::<Standard, _, _, _>(Global, &items, &mut shortest).is_ok()
                && expected
                    .shortest(Grammar::Standard, Grammar::Standard)
                    .is_some_and(|encoding| has_payload(&encoding, &shortest))
        }
        (Err(error), Err(same)) => {
            let range = given.range();
            error == same
                && (range.start..=range.end).contains(&error.offset)
                && ![ReadFault::Memory, ReadFault::NotShortest].contains(&error.cause)
                && expected
                    .shortest(Grammar::Standard, Grammar::Standard)
                    .is_none()
        }
        _ => false,
    }
}

/// Whether all bodies of a code section and their instructions decode exactly if its items do.
fn has_bodies(given: &reader::Section<'_>) -> bool {
    let walk = || -> Result<usize, ReadError> {
        let mut count = 0;
        for body in given.bodies()? {
            let body = body?;
            let (_, mut instructions) = body.instructions()?;
            while instructions
                .next()
                .map_err(|error| body.locate(error))?
                .is_some()
            {}
            count += 1;
        }
        Ok(count)
    };
    match (walk(), given.items()) {
        (Ok(count), Ok(Items::Bodies(bodies))) => count == bodies.len(),
        (Err(error), Err(other)) => error.cause == other.cause && error.offset == other.offset,
        _ => false,
    }
}

/// Whether the section of the iterator is that of the plain reader.
fn is_same_section(given: &reader::Section<'_>, expected: &Section<'_>) -> bool {
    let range = expected.offset..expected.offset + expected.payload.len();
    given.id() == expected.id
        && given.name() == expected.name
        && given.offset() + 1 + expected.framed.len() == range.end
        && given.range() == range
        && given.payload() == expected.payload
        && match given.kind() {
            Some(kind) => format!("{kind:?}") == expected.kind(),
            None => expected.id > 13,
        }
        && has_items(given, expected)
        && (given.kind() != Some(SectionKind::Bodies) || has_bodies(given))
}

/// Whether the iterator returns the sections of the plain reader. If a section is malformed, it
/// must return those before it, and then an error there.
fn is_iterated(bytes: &[u8]) -> bool {
    let given: Result<Vec<_>, _> = match Sections::new(Global, bytes) {
        Ok(sections) => sections.collect(),
        Err(error) => return sections(bytes) == Err(0) && error.offset <= bytes.len(),
    };
    match (given, sections(bytes)) {
        (Ok(given), Ok(expected)) => {
            given.len() == expected.len()
                && given
                    .iter()
                    .zip(&expected)
                    .all(|(given, expected)| is_same_section(given, expected))
        }
        (Err(error), Err(number)) => {
            let mut before = Sections::new(Global, bytes).into_iter().flatten();
            let whole = before.by_ref().take_while(Result::is_ok).count();
            whole + 1 == number && error.offset <= bytes.len() && before.next().is_none()
        }
        _ => false,
    }
}

/// How many results there were of each form.
#[derive(Default)]
struct Counts {
    shortened: u64,
    shorter: u64,
    with_kept: u64,
    no_section: u64,
    offsets: u64,
    left_out: u64,
    /// Modules whose offsets point to other bytes in the output.
    broken: u64,
    /// Modules that become shorter and keep their offsets, by the first section that holds some.
    saved: [u64; HOLDERS.len()],
    /// Modules that are rejected although no offset would point to other bytes, by the reason.
    careful: [u64; CARES.len()],
}

impl Counts {
    /// Counts the results for offsets.
    fn count_offsets(&mut self, bytes: &[u8], answer: &Answer) {
        match answer {
            Answer::Shortened { encoding, .. } if encoding.len() < bytes.len() => {
                let first = sections(bytes)
                    .ok()
                    .and_then(|all| all.iter().find_map(Section::holder));
                if let Some(place) = HOLDERS.iter().position(|holder| Some(*holder) == first) {
                    self.saved[place] += 1;
                }
            }
            Answer::Offsets(number)
                if shortest_module(bytes)
                    .is_some_and(|encoding| first_broken(bytes, &encoding).is_none()) =>
            {
                let why = why_refused(bytes, *number);
                if let Some(place) = CARES.iter().position(|care| Some(*care) == why) {
                    self.careful[place] += 1;
                }
            }
            _ => {}
        }
    }

    /// Counts the result if lost offsets are an error.
    fn count(&mut self, bytes: &[u8], answer: &Answer) {
        match answer {
            Answer::Shortened { encoding, kept } => {
                self.shortened += 1;
                self.shorter += u64::from(encoding.len() < bytes.len());
                self.with_kept += u64::from(*kept > 0);
            }
            Answer::NoSection(_) => self.no_section += 1,
            Answer::Offsets(_) => self.offsets += 1,
        }
    }
}

/// Whether the offsets that the library reports as kept point to the same bytes, and the reported
/// section is no later than the first whose offsets would not.
fn keeps_offsets(bytes: &[u8], answer: &Answer) -> bool {
    match answer {
        Answer::Shortened { encoding, .. } => first_broken(bytes, encoding).is_none(),
        Answer::Offsets(number) => {
            let broken = shortest_module(bytes).and_then(|encoding| first_broken(bytes, &encoding));
            broken.is_none_or(|first| *number <= first)
        }
        Answer::NoSection(_) => true,
    }
}

/// Whether the library and the plain reader return the same.
fn agree(bytes: &[u8], offsets: Offsets, counts: &mut Counts) -> bool {
    let expected = shortened_module(bytes, offsets == Offsets::LeaveOut);
    let given = by_library(bytes, offsets);
    if offsets == Offsets::Refuse {
        counts.count(bytes, &expected);
        if let Some(answer) = &given {
            counts.count_offsets(bytes, answer);
            if !keeps_offsets(bytes, answer) {
                println!("broken {answer:?} {}", show(bytes));
                counts.broken += 1;
                return false;
            }
        }
    } else if sections(bytes)
        .is_ok_and(|sections| sections.iter().any(|section| section.holder().is_some()))
    {
        counts.left_out += 1;
    }
    match given {
        Some(Answer::Shortened { encoding, kept }) => {
            is_settled(bytes, &encoding, kept, offsets)
                && expected == Answer::Shortened { encoding, kept }
        }
        Some(answer) => answer == expected,
        None => false,
    }
}

fn show(bytes: &[u8]) -> String {
    bytes.iter().map(|byte| format!("{byte:02x}")).collect()
}

/// Compares this many modules of the seed. Returns whether all results are the same.
pub fn run(seed: u64, count: u64) -> bool {
    let begun = Instant::now();
    let mut random = Random::new(seed);
    let (mut counts, mut differences, mut bytes) = (Counts::default(), 0, 0);
    for _ in 0..count {
        let module = module(&mut random);
        bytes += module.len();
        let is_same = agree(&module, Offsets::Refuse, &mut counts)
            & agree(&module, Offsets::LeaveOut, &mut counts)
            & is_outlined(&module)
            & is_iterated(&module);
        if !is_same {
            differences += 1;
            println!("module {}", show(&module));
        }
    }
    let Counts {
        shortened,
        shorter,
        with_kept,
        no_section,
        offsets,
        left_out,
        broken,
        saved,
        careful,
    } = counts;
    println!(
        "{shortened} modules shortened, {shorter} of them by bytes, {with_kept} with a section that was kept; {offsets} refused for offsets, {no_section} for a section that is none"
    );
    println!("{left_out} modules with a section to leave out");
    println!("{broken} modules whose offsets lead elsewhere");
    println!(
        "modules with offsets that are kept, shortened by bytes: {:?}",
        HOLDERS.iter().zip(saved).collect::<Vec<_>>()
    );
    println!(
        "modules refused though no offset would lead elsewhere: {:?}",
        CARES.iter().zip(careful).collect::<Vec<_>>()
    );
    println!(
        "seed {seed}: {count} modules of {bytes} bytes, {differences} differences, {} s",
        begun.elapsed().as_secs()
    );
    differences == 0
}
