//! Compares the decoders of items, in both grammars, with a plain reader, on random and changed
//! sections of every kind. See README.md.

use crate::grammar::{Grammar, KINDS};
use crate::items::by_library;
use crate::maker::{Random, input};
use crate::plain::shortened;
use dolzhytik::reader::{self, Padded, ReadFault, Standard};
use std::time::Instant;

/// Whether the library decodes exactly the sections that the plain reader decodes, to the values of
/// their minimal encodings; and whether there was a section.
fn agree<G: reader::Grammar>(bytes: &[u8], kind: &str, grammar: Grammar) -> (bool, bool) {
    match (
        shortened(bytes, kind, grammar, Grammar::Builders),
        by_library::<G>(bytes, kind),
    ) {
        (Some((encoding, taken)), Ok((text, by))) => {
            let again = by_library::<G>(&encoding, kind).ok();
            let is_same = again == Some((text, encoding.len())) && taken == by;
            (is_same, true)
        }
        (None, Err(error)) => (
            error.left() as usize <= bytes.len()
                && ![ReadFault::Memory, ReadFault::NotShortest].contains(&error.cause()),
            false,
        ),
        _ => (false, false),
    }
}

/// Whether a section of the builders' grammar has the same items in the standard's.
fn is_included(bytes: &[u8], kind: &str) -> bool {
    by_library::<Padded>(bytes, kind)
        .is_ok_and(|decoded| by_library::<Standard>(bytes, kind).is_ok_and(|it| it == decoded))
}

fn show(bytes: &[u8]) -> String {
    bytes.iter().map(|byte| format!("{byte:02x}")).collect()
}

/// Compares this many sections of the seed. Returns whether all items are the same.
pub fn run(seed: u64, count: u64) -> bool {
    let begun = Instant::now();
    let mut random = Random::new(seed);
    let mut sections = [[0u64; 2]; KINDS.len()];
    let (mut differences, mut bytes) = (0, 0);
    for number in 0..count {
        let place = (number % KINDS.len() as u64) as usize;
        let kind = KINDS[place];
        let grammar = random.one_of(&[Grammar::Builders, Grammar::Standard]);
        let input = input(&mut random, kind, grammar);
        let (is_padded_same, is_padded) = agree::<Padded>(&input, kind, Grammar::Builders);
        let (is_standard_same, is_standard) = agree::<Standard>(&input, kind, Grammar::Standard);
        sections[place][0] += u64::from(is_padded);
        sections[place][1] += u64::from(is_standard);
        bytes += input.len();
        if !is_padded_same || !is_standard_same || is_padded && !is_included(&input, kind) {
            differences += 1;
            println!("{kind} {}", show(&input));
        }
    }
    for (kind, [padded, standard]) in KINDS.iter().zip(sections) {
        println!(
            "{kind}: {padded} sections of {} in the builders' grammar, {standard} in the standard's",
            count / KINDS.len() as u64
        );
    }
    println!(
        "seed {seed}: {count} inputs of {bytes} bytes, {differences} differences, {} s",
        begun.elapsed().as_secs()
    );
    differences == 0
}
