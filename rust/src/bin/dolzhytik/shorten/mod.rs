//! Writes modules in their minimal encoding, or prints what that would save.
mod by_section;
mod choice;
mod hints;
mod rewrite;
mod savings;

use crate::failure::{BadSection, Failure};
use crate::files::{Input, Output};
use crate::json;
use crate::progress::Progress;
use crate::sections::{HEADER, Section, sections_of};
use crate::words::Format;
use choice::{BUILD_ID, Target, is_of_hints};
pub use choice::{BuildId, Choice};
use dolzhytik::fallible::{self, Global};
use dolzhytik::reader::{ModuleFault, Offsets, ReadError, ReadFault, Sections, shorten_module};
use rewrite::Rewrite;
pub use savings::{Saving, Savings};
use std::io::{self, Write};

/// A module in its minimal encoding.
enum Shortened<'a> {
    /// By the library's call for modules.
    Whole {
        module: fallible::Vec<u8>,
        /// How many sections are as they were, since they do not decode.
        kept: usize,
    },
    /// Section by section, with the header.
    BySection(&'a [u8], Vec<Rewrite<'a>>),
}

impl<'a> Shortened<'a> {
    /// The bytes, in parts.
    fn parts(&self) -> Vec<&[u8]> {
        match self {
            Shortened::Whole { module, .. } => vec![module],
            Shortened::BySection(header, rewrites) => {
                let sections = rewrites.iter().flat_map(Rewrite::parts);
                [*header].into_iter().chain(sections).collect()
            }
        }
    }

    fn size(&self) -> usize {
        match self {
            Shortened::Whole { module, .. } => module.len(),
            Shortened::BySection(header, rewrites) => {
                header.len() + rewrites.iter().map(Rewrite::size).sum::<usize>()
            }
        }
    }

    fn kept(&self) -> usize {
        match self {
            Shortened::Whole { kept, .. } => *kept,
            Shortened::BySection(_, rewrites) => rewrites.iter().filter(|it| it.is_kept()).count(),
        }
    }

    fn savings(&self, input: &Input, bytes: &'a [u8]) -> Result<Savings<'a>, Failure> {
        match self {
            Shortened::Whole { module, .. } => savings_of(input, bytes, module),
            Shortened::BySection(_, rewrites) => {
                Ok(Savings(rewrites.iter().map(Rewrite::saving).collect()))
            }
        }
    }
}

/// Compares the sections of both modules. A section that is dropped has no other of its name after
/// it, since all sections of a name are dropped or none.
fn savings_of<'a>(input: &Input, before: &'a [u8], after: &[u8]) -> Result<Savings<'a>, Failure> {
    let after = sections_of(input, after)?;
    let mut after = after.iter().peekable();
    let saving = |section: Section<'a>| {
        let same = after.next_if(|it| (it.id(), it.name()) == (section.id(), section.name()));
        Saving {
            section,
            after: same.map(|it| it.bytes().len()),
        }
    };
    let before = sections_of(input, before)?;
    Ok(Savings(before.into_iter().map(saving).collect()))
}

/// Whether the module has hints, or a section of a dynamic library, which may have unknown
/// subsections. A section that has no id or size ends the search: whoever writes the module reports
/// it.
fn is_by_section(module: &[u8]) -> bool {
    let sections = Sections::new(Global, module).into_iter().flatten();
    let mut names = sections.map_while(Result::ok).map(|section| section.name());
    names.any(|name| name == Some("dylink.0") || is_of_hints(name))
}

/// Minimizes a module: by the library's call, which is proved, unless code stays, `build_id` has a
/// choice of its own, there are hints to adjust, or the module is a dynamic library.
fn shortened<'a>(input: &Input, bytes: &'a [u8], choice: Choice) -> Result<Shortened<'a>, Failure> {
    let is_plain = !choice.keeps_code && choice.build_id.is_none();
    if is_plain && (choice.offsets == Offsets::LeaveOut || !is_by_section(bytes)) {
        return whole(bytes, choice.offsets).map_err(|fault| why_not(input, bytes, fault));
    }
    let rewrites = by_section::rewrite(input, bytes, choice)?;
    Ok(Shortened::BySection(&bytes[..HEADER], rewrites))
}

fn whole<'a>(bytes: &[u8], offsets: Offsets) -> Result<Shortened<'a>, ModuleFault> {
    let mut module = fallible::Vec::new(Global);
    let kept = shorten_module(Global, bytes, offsets, &mut module)?;
    Ok(Shortened::Whole { module, kept })
}

/// Why the module is not shortened. A section that has no id or size fails here again, with its
/// offset.
fn why_not(input: &Input, bytes: &[u8], fault: ModuleFault) -> Failure {
    match (sections_of(input, bytes), fault) {
        (Err(failure), _) => failure,
        (Ok(sections), ModuleFault::Offsets { number }) => {
            // Where those of `build_id` are lost, code changes, and those of all others are too.
            let lost = sections[number - 1..]
                .iter()
                .filter(|it| Target::of(it).is_some());
            refusal(input, lost)
                .unwrap_or_else(|| Failure::Offsets(sections[number - 1].named(input)))
        }
        // The cause is Memory, which has no offset.
        (Ok(_), ModuleFault::Section { number, fault }) => no_memory(input, number, fault),
        (Ok(_), _) => no_memory(input, 0, ReadFault::Memory),
    }
}

/// The failure without an offset, at a section or at the header.
fn no_memory(input: &Input, number: usize, cause: ReadFault) -> Failure {
    Failure::Section(BadSection {
        input: input.clone(),
        number,
        section: None,
        error: ReadError { cause, offset: 0 },
    })
}

/// The failure for sections whose offsets become wrong. It names `build_id` only if there is no
/// other, since an option is for it alone.
fn refusal<'s>(input: &Input, lost: impl Iterator<Item = &'s Section<'s>>) -> Option<Failure> {
    let mut build_id = None;
    for section in lost {
        if section.name() != Some(BUILD_ID) {
            return Some(Failure::Offsets(section.named(input)));
        }
        build_id = build_id.or(Some(section));
    }
    build_id.map(|section| Failure::BuildId(section.named(input)))
}

/// Prints on standard error why sections do not decode, and the sizes. It is no error if that
/// fails: the module is written.
fn report(input: &Input, bytes: &[u8], choice: Choice, shortened: &Shortened<'_>, counts: &str) {
    let (before, after) = (bytes.len(), shortened.size());
    if shortened.kept() > 0 {
        report_undecoded(input, bytes, choice);
    }
    let _ = writeln!(
        io::stderr(),
        "dolzhytik: {input}: {before} bytes before, {after} after; {counts}"
    );
}

/// Names each section that is copied, since it does not decode, with the cause.
fn report_undecoded(input: &Input, bytes: &[u8], choice: Choice) {
    let sections = sections_of(input, bytes).unwrap_or_default();
    for section in sections.iter().filter(|it| !choice.drops(it)) {
        if let Err(error) = section.count() {
            let failure = section.failure(input, error);
            let _ = writeln!(io::stderr(), "dolzhytik: {failure}; copied undecoded");
        }
    }
}

/// The end of a report: how many sections are dropped, if a choice drops any, and how many are
/// copied. Where the code stays, these also decode.
fn counts(choice: Choice, dropped: Option<usize>, copied: usize) -> String {
    let sections = |count: usize| match count {
        1 => "1 section".to_owned(),
        count => format!("{count} sections"),
    };
    let why = if choice.keeps_code { "" } else { " undecoded" };
    match dropped {
        Some(dropped) => format!("{} dropped, {copied} copied{why}", sections(dropped)),
        None => format!("{} copied{why}", sections(copied)),
    }
}

/// Writes the module in its minimal encoding, and prints its sizes on standard error.
pub fn shorten(input: &Input, output: &Output, choice: Choice) -> Result<(), Failure> {
    output.accept_module()?;
    let bytes = input.read()?;
    let progress = Progress::of(bytes.len());
    progress.begin("shortening");
    let shortened = shortened(input, &bytes, choice)?;
    let savings = choice.drops_any().then(|| shortened.savings(input, &bytes));
    let dropped = savings.transpose()?.map(|it| it.dropped());
    progress.begin("writing");
    output.write_parts(&shortened.parts())?;
    drop(progress);
    let counts = counts(choice, dropped, shortened.kept());
    report(input, &bytes, choice, &shortened, &counts);
    Ok(())
}

/// Prints what each section would save, and writes no module. It fails where [`shorten`] fails; if
/// offsets are the reason, it prints what would be saved without the sections that hold them.
pub fn dry_run(input: &Input, choice: Choice, format: Format) -> Result<(), Failure> {
    let bytes = input.read()?;
    let progress = Progress::of(bytes.len());
    progress.begin("shortening");
    let (refused, shortened) = match shortened(input, &bytes, choice) {
        Err(failure @ (Failure::Offsets(_) | Failure::BuildId(_))) => {
            let offsets = Offsets::LeaveOut;
            let without = Choice { offsets, ..choice };
            (Some(failure), shortened(input, &bytes, without)?)
        }
        done => (None, done?),
    };
    let savings = shortened.savings(input, &bytes)?;
    drop(progress);
    let printed = match format {
        Format::Json => json::savings(&savings),
        Format::Table => savings.to_string(),
    };
    Output::Standard.write(printed.as_bytes())?;
    match refused {
        Some(failure) => Err(failure),
        None => {
            let dropped = choice.drops_any().then(|| savings.dropped());
            let counts = counts(choice, dropped, shortened.kept()) + " (dry run)";
            report(input, &bytes, choice, &shortened, &counts);
            Ok(())
        }
    }
}
