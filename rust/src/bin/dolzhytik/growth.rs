//! Compares the sizes of two builds of a module.
use crate::context::Context;
use crate::failure::{Failure, Grown};
use crate::files::Input;
use crate::matching::{Change, Growth, Matching, Part, Segment};
use crate::sections::{HEADER, Section, sections_of};
use crate::sizes::{CODE, DATA, Function, functions_of, segments_of};
use crate::words::Format;
use std::fmt::{self, Display};
use std::num::ParseIntError;
use std::str::FromStr;

/// The most by which a module may grow.
#[derive(Clone, Copy, PartialEq, Eq, Debug)]
pub enum Limit {
    Bytes(usize),
    /// Percent of its old size.
    Percent(usize),
}

impl Limit {
    /// How many bytes a module of this size may grow.
    pub fn allowed(self, before: usize) -> usize {
        match self {
            Limit::Bytes(bytes) => bytes,
            Limit::Percent(percent) => percent.saturating_mul(before) / 100,
        }
    }
}

/// `100`, or `5%`.
impl FromStr for Limit {
    type Err = ParseIntError;

    fn from_str(word: &str) -> Result<Self, ParseIntError> {
        match word.strip_suffix('%') {
            Some(percent) => percent.parse().map(Limit::Percent),
            None => word.parse().map(Limit::Bytes),
        }
    }
}

impl Display for Limit {
    fn fmt(&self, f: &mut fmt::Formatter<'_>) -> fmt::Result {
        match self {
            Limit::Bytes(bytes) => write!(f, "{bytes}"),
            Limit::Percent(percent) => write!(f, "{percent}%"),
        }
    }
}

/// What is printed of a comparison, and when it fails.
#[derive(Clone, Copy, PartialEq, Eq, Debug)]
pub struct Choice {
    /// How many functions to list, and how many data segments.
    pub most: usize,
    pub format: Format,
    /// The most by which the new build may be larger.
    pub limit: Option<Limit>,
}

/// A build of a module.
pub struct Build<'a> {
    input: &'a Input,
    size: usize,
    sections: Vec<Section<'a>>,
    context: Context<'a>,
}

impl<'a> Build<'a> {
    pub fn of(input: &'a Input, module: &'a [u8]) -> Result<Self, Failure> {
        let sections = sections_of(input, module)?;
        Ok(Build {
            input,
            size: module.len(),
            context: Context::of(&sections),
            sections,
        })
    }

    /// The size of the sections of an id.
    fn size_of(&self, id: u8) -> usize {
        let sections = self.sections.iter().filter(|it| it.id() == id);
        sections.map(Part::size).sum()
    }

    fn functions(&self) -> Result<Vec<Function<'a>>, Failure> {
        functions_of(self.input, &self.sections, &self.context)
    }

    fn segments(&self) -> Result<Vec<Segment<'a>>, Failure> {
        segments_of(self.input, &self.sections, &self.context)
    }
}

/// The sizes of the headers.
pub const HEADERS: Growth = Growth::of(HEADER, HEADER);

/// How the parts of a section changed. Their sizes add up to that of the section.
pub struct Parts<T> {
    /// Those that changed, the largest change first.
    pub listed: Vec<Change<T>>,
    /// How many others there are, and their sizes.
    pub others: (usize, Growth),
    /// The bytes of the section that are in no part: its id, size and count.
    pub rest: Growth,
}

impl<T: Part> Parts<T> {
    /// Returns the parts of a section of these sizes, and lists this number of changes.
    fn of(section: Growth, mut changes: Vec<Change<T>>, most: usize) -> Self {
        let rest = section.without(changes.iter().map(Change::growth).sum());
        let changed = changes.iter().take(most);
        let listed = changed.take_while(|it| it.growth().change() != 0).count();
        let others = changes.split_off(listed);
        Parts {
            listed: changes,
            others: (others.len(), others.iter().map(Change::growth).sum()),
            rest,
        }
    }
}

/// What grew and shrank between two builds.
pub struct Comparison<'a> {
    pub total: Growth,
    /// The sections, the largest change first.
    pub sections: Vec<Change<Section<'a>>>,
    /// The functions, if they are asked for and decode in both builds.
    pub functions: Option<Parts<Function<'a>>>,
    /// The data segments, if they are asked for and decode in both builds.
    pub data: Option<Parts<Segment<'a>>>,
    /// Why functions or data segments do not decode.
    pub failures: Vec<Failure>,
}

impl<'a> Comparison<'a> {
    /// Compares two builds, and lists at most this number of functions and of data segments.
    pub fn of([old, new]: [Build<'a>; 2], most: usize) -> Self {
        let mut failures = Vec::new();
        let (code, data) = match most {
            0 => (None, None),
            _ => (
                both([old.functions(), new.functions()], &mut failures),
                both([old.segments(), new.segments()], &mut failures),
            ),
        };
        let sizes_of = |id| Growth::of(old.size_of(id), new.size_of(id));
        Comparison {
            total: Growth::of(old.size, new.size),
            functions: code.map(|it| Parts::of(sizes_of(CODE), match_functions(it), most)),
            data: data.map(|it| Parts::of(sizes_of(DATA), match_segments(it), most)),
            sections: match_sections([old.sections, new.sections]),
            failures,
        }
    }

    /// The failure of a module that grew by more than the limit.
    pub fn grown(&self, old: &Input, new: &Input, limit: Limit) -> Option<Failure> {
        let [before, after] = self.total.sizes();
        let allowed = limit.allowed(before);
        let is_allowed = after.saturating_sub(before) <= allowed;
        (!is_allowed).then(|| {
            Failure::Grown(Grown {
                old: old.clone(),
                new: new.clone(),
                before,
                after,
                limit,
            })
        })
    }
}

/// Returns the parts of both builds, or adds why there are none.
fn both<T>(parts: [Result<T, Failure>; 2], failures: &mut Vec<Failure>) -> Option<[T; 2]> {
    match parts.map(|it| it.map_err(|failure| failures.push(failure)).ok()) {
        [Some(old), Some(new)] => Some([old, new]),
        _ => None,
    }
}

/// Matches sections by id and name, equal ones first.
fn match_sections<'a>(sections: [Vec<Section<'a>>; 2]) -> Vec<Change<Section<'a>>> {
    Matching::of(sections)
        .by(|it| Some((it.id(), it.name(), it.payload())))
        .by(|it| Some((it.id(), it.name())))
        .changes()
}

/// Matches functions by name, equal ones first, and then by body.
fn match_functions<'a>(functions: [Vec<Function<'a>>; 2]) -> Vec<Change<Function<'a>>> {
    Matching::of(functions)
        .by(|it| Some((it.name?, it.body)))
        .by(|it| it.name)
        .by(|it| Some(it.body))
        .changes()
}

/// Matches data segments by name, or by index if they have none.
fn match_segments<'a>(segments: [Vec<Segment<'a>>; 2]) -> Vec<Change<Segment<'a>>> {
    Matching::of(segments)
        .by(|it| it.entry.name)
        .by(|it| it.entry.name.is_none().then_some(it.entry.index))
        .changes()
}

/// A table with a line for each section, and for each function and data segment that changed.
impl Display for Comparison<'_> {
    fn fmt(&self, f: &mut fmt::Formatter<'_>) -> fmt::Result {
        f.write_str("    before      after     change       %  name\n")?;
        lines(f, &self.sections)?;
        line(f, HEADERS, "header")?;
        line(f, self.total, "all")?;
        if let Some(functions) = &self.functions {
            lines_of_parts(f, functions, "functions", "code")?;
        }
        if let Some(data) = &self.data {
            lines_of_parts(f, data, "data segments", "data")?;
        }
        Ok(())
    }
}

/// Writes a line: the sizes, the change in bytes and in percent, and what it is of.
fn line(f: &mut fmt::Formatter<'_>, growth: Growth, of: impl Display) -> fmt::Result {
    let none = || String::from("-");
    let size = |size: Option<usize>| size.map_or_else(none, |size| size.to_string());
    let (before, after) = (size(growth.before), size(growth.after));
    let (change, percent) = match (growth.change(), growth.percent()) {
        (0, _) => ("0".into(), "0.0".into()),
        (change, None) => (format!("{change:+}"), none()),
        (change, Some(percent)) => (format!("{change:+}"), format!("{percent:+.1}")),
    };
    writeln!(
        f,
        "{before:>10} {after:>10} {change:>10} {percent:>7}  {of}"
    )
}

fn lines<T: Part>(f: &mut fmt::Formatter<'_>, changes: &[Change<T>]) -> fmt::Result {
    let mut changes = changes.iter();
    changes.try_for_each(|change| line(f, change.growth(), change.part()))
}

/// Writes the parts of a section, which are called as the words say. There is no line for what
/// neither build has.
fn lines_of_parts<T: Part>(
    f: &mut fmt::Formatter<'_>,
    parts: &Parts<T>,
    words: &str,
    section: &str,
) -> fmt::Result {
    lines(f, &parts.listed)?;
    let (count, others) = parts.others;
    if count > 0 {
        line(f, others, format_args!("other {words} ({count})"))?;
    }
    if parts.rest.sizes() != [0, 0] {
        line(f, parts.rest, format_args!("rest of {section}"))?;
    }
    Ok(())
}
