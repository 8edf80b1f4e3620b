//! Minimizes a module section by section, where some sections stay, are dropped or follow others.
use crate::failure::Failure;
use crate::files::Input;
use crate::references::{check_removal, has_unknown_subsection, section_indices};
use crate::sections::{Section, sections_of};
use crate::shorten::choice::{BUILD_ID, Choice, Target, is_of_hints};
use crate::shorten::hints;
use crate::shorten::refusal;
use crate::shorten::rewrite::{Rewrite, Written};
use dolzhytik::reader::Offsets;

/// Returns what is written for each section of the module.
pub fn rewrite<'a>(
    input: &Input,
    module: &'a [u8],
    choice: Choice,
) -> Result<Vec<Rewrite<'a>>, Failure> {
    let sections = sections_of(input, module)?;
    let dropped: Vec<bool> = sections.iter().map(|it| choice.drops(it)).collect();
    check_removal(input, &sections, &dropped)?;
    let kept = if choice.keeps_code {
        kept(input, &sections)?
    } else {
        vec![false; sections.len()]
    };
    let rewrite = |((section, is_dropped), is_kept)| match (is_dropped, is_kept) {
        (true, _) => Ok(Rewrite::of(section, Written::Dropped)),
        (false, true) => Ok(Rewrite::of(section, Written::Kept)),
        (false, false) => Rewrite::minimal(input, section),
    };
    let plans = sections.into_iter().zip(dropped).zip(kept);
    let mut rewrites: Vec<_> = plans.map(rewrite).collect::<Result<_, _>>()?;
    // Offsets are right if what they point into stays, and gone if their sections are dropped.
    if !choice.keeps_code && choice.offsets == Offsets::Refuse {
        hints::adjust(input, &mut rewrites)?;
        check_offsets(input, &rewrites, choice)?;
    }
    Ok(rewrites)
}

/// Returns which sections stay byte for byte, so that offsets stay right: code and data, those that
/// relocations or symbols name, with a source map all before the code, and with an unknown
/// subsection all.
fn kept(input: &Input, sections: &[Section<'_>]) -> Result<Vec<bool>, Failure> {
    if sections.iter().any(has_unknown_subsection) {
        return Ok(vec![true; sections.len()]);
    }
    let is_map = |it: &Section<'_>| it.name() == Some("sourceMappingURL");
    let is_code_or_data = |it: &Section<'_>| matches!(it.id(), 10 | 11);
    let mut kept: Vec<bool> = sections.iter().map(is_code_or_data).collect();
    if sections.iter().any(is_map) {
        let before_code = sections.iter().rposition(|it| it.id() == 10).unwrap_or(0);
        kept[..before_code].fill(true);
    }
    for section in sections {
        let indices = section_indices(section).map_err(|error| section.failure(input, error))?;
        keep(&mut kept, &indices);
    }
    Ok(kept)
}

/// Keeps the sections of these indices. One that the module lacks does not change.
fn keep(kept: &mut [bool], indices: &[u32]) {
    for index in indices {
        if let Some(is_kept) = kept.get_mut(*index as usize) {
            *is_kept = true;
        }
    }
}

/// Which sections that offsets point into change, as [`Offsets::Refuse`] says.
#[derive(Default)]
struct Changes {
    code_or_data: bool,
    custom: bool,
    /// Whether code has another offset in the module.
    place_of_code: bool,
}

impl Changes {
    fn of(rewrites: &[Rewrite<'_>]) -> Self {
        let mut changes = Changes::default();
        let (mut before, mut after) = (0, 0);
        for rewrite in rewrites {
            match rewrite.section.id() {
                0 => changes.custom |= rewrite.is_changed(),
                10 | 11 => changes.code_or_data |= rewrite.is_changed(),
                _ => {}
            }
            changes.place_of_code |= rewrite.section.id() == 10 && before != after;
            before += rewrite.section.bytes().len();
            after += rewrite.size();
        }
        changes
    }

    /// Whether offsets into the target become wrong.
    fn lose(&self, target: Target) -> bool {
        self.code_or_data
            || match target {
                Target::CodeAndData => false,
                Target::Relocated => self.custom,
                Target::Module => self.place_of_code,
            }
    }
}

/// Returns the target of the section's offsets. An unknown subsection may hold offsets into code and
/// data.
fn target_of(section: &Section<'_>) -> Option<Target> {
    let is_unknown = has_unknown_subsection(section);
    Target::of(section).or(is_unknown.then_some(Target::CodeAndData))
}

/// Fails if offsets in a section that is written become wrong. Hints are adjusted before.
fn check_offsets(input: &Input, rewrites: &[Rewrite<'_>], choice: Choice) -> Result<(), Failure> {
    let changes = Changes::of(rewrites);
    let is_lost = |rewrite: &&Rewrite<'_>| {
        let is_right = match rewrite.section.name() {
            name if is_of_hints(name) => true,
            Some(BUILD_ID) => choice.build_id.is_some(),
            _ => false,
        };
        !is_right && target_of(&rewrite.section).is_some_and(|target| changes.lose(target))
    };
    let lost = rewrites.iter().filter(is_lost).map(|it| &it.section);
    refusal(input, lost).map_or(Ok(()), Err)
}
