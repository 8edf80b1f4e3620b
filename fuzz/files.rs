//! Decodes each section of modules that other tools wrote, in both grammars, and damaged copies.
//! See README.md.

use crate::items::by_library;
use crate::maker::Random;
use crate::whole::{Section, sections};
use dolzhytik::reader::{Padded, Standard};
use std::collections::BTreeMap;
use std::fs::read;

/// How many sections of a kind there were, and how many decoded in each grammar.
#[derive(Default)]
struct Counts {
    all: u64,
    padded: u64,
    standard: u64,
}

/// Counts the sections of a module, and prints those that do not decode in the standard's grammar.
fn count(
    path: &str,
    bytes: &[u8],
    counts: &mut BTreeMap<&'static str, Counts>,
) -> Result<(), String> {
    let sections = sections(bytes).map_err(|number| format!("section {number} is none"))?;
    for section in sections {
        let kind = section.kind();
        let counts = counts.entry(kind).or_default();
        counts.all += 1;
        counts.padded += u64::from(by_library::<Padded>(section.framed, kind).is_ok());
        match by_library::<Standard>(section.framed, kind) {
            Ok(_) => counts.standard += 1,
            Err(error) => {
                let offset = section.offset + section.payload.len() - error.left() as usize;
                println!("{path}: {kind}: {:?} at offset {offset:#x}", error.cause());
            }
        }
    }
    Ok(())
}

/// Decodes the sections of these files. Returns whether all files are modules whose sections decode
/// in the standard's grammar.
pub fn run(paths: &[String]) -> bool {
    let mut counts = BTreeMap::new();
    let mut failed = 0;
    for path in paths {
        let counted = read(path)
            .map_err(|error| error.to_string())
            .and_then(|bytes| count(path, &bytes, &mut counts));
        if let Err(error) = counted {
            failed += 1;
            println!("{path}: {error}");
        }
    }
    for (kind, counts) in &counts {
        println!(
            "{kind}: {} sections, of which {} decode in the builders' grammar, and {} in the standard's",
            counts.all, counts.padded, counts.standard
        );
    }
    println!("{} files, {failed} of them no modules", paths.len());
    failed == 0 && counts.values().all(|it| it.standard == it.all)
}

/// How many damaged copies there are of each section.
const COPIES: usize = 50;

/// The results for damaged sections.
#[derive(Default)]
struct Damages {
    all: u64,
    rejected: u64,
    /// Rejected at an offset before the first damaged byte, by cause.
    before: BTreeMap<String, u64>,
    /// Rejected at an offset outside of the section.
    outside: u64,
}

/// Changes one to three bytes of a payload. Returns the least offset of a changed byte.
fn damage(random: &mut Random, payload: &mut [u8]) -> usize {
    let places = (0..1 + random.below(3)).map(|_| {
        let place = random.below(payload.len());
        payload[place] ^= 1 + random.below(255) as u8;
        place
    });
    places.min().unwrap_or(0)
}

impl Damages {
    /// Damages a section that decodes, and decodes it.
    fn add(&mut self, random: &mut Random, section: &Section<'_>) {
        let mut framed = section.framed.to_vec();
        let begun = framed.len() - section.payload.len();
        let first = damage(random, &mut framed[begun..]);
        self.all += 1;
        let Err(error) = by_library::<Standard>(&framed, section.kind()) else {
            return;
        };
        self.rejected += 1;
        match section.payload.len().checked_sub(error.left() as usize) {
            None => self.outside += 1,
            Some(offset) if offset < first => {
                *self
                    .before
                    .entry(format!("{:?}", error.cause()))
                    .or_default() += 1;
            }
            Some(_) => {}
        }
    }
}

/// Decodes damaged copies of the sections of these files. Returns whether each error is at an
/// offset in the section.
pub fn damaged(paths: &[String]) -> bool {
    let mut random = Random::new(1);
    let mut damages = Damages::default();
    for path in paths {
        let bytes = read(path).unwrap_or_default();
        for section in sections(&bytes).unwrap_or_default() {
            if section.payload.is_empty() {
                continue;
            }
            for _ in 0..COPIES {
                damages.add(&mut random, &section);
            }
        }
    }
    let Damages {
        all,
        rejected,
        before,
        outside,
    } = damages;
    println!(
        "{all} damaged sections, {rejected} of them rejected, {outside} outside of the section"
    );
    println!("rejected at an offset before the damage: {before:?}");
    outside == 0
}
