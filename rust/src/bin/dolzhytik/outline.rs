//! Lists the sections of a module.
use crate::color::Dim;
use crate::failure::{Failure, report};
use crate::files::{Input, Output};
use crate::json;
use crate::progress::Progress;
use crate::sections::{Section, sections_of};
use crate::words::Format;
use dolzhytik::reader::{ReadError, ReadFault, SectionKind};

const HEAD: &str = "section  id     offset       size      items  decodes  name\n";

/// How an outline is printed, and what is an error.
#[derive(Clone, Copy, PartialEq, Eq, Debug)]
pub struct Choice {
    pub format: Format,
    /// Whether to print why a section does not decode.
    pub why: bool,
    /// Whether a section of a known kind that does not decode is an error.
    pub strict: bool,
}

/// A section, and whether it decodes.
pub struct Row<'a> {
    pub section: Section<'a>,
    /// The number of items, if they are counted, or why the section does not decode.
    count: Result<Option<u32>, ReadError>,
}

impl<'a> Row<'a> {
    /// The row of a section. That of a data count section has the number of data segments.
    fn of(section: Section<'a>) -> Self {
        let count = match (section.count(), section.kind()) {
            (Ok(_), Some(SectionKind::DataCount)) => section.cursor().read().map(Some),
            (count, _) => count,
        };
        Row { section, count }
    }

    /// The number of items, if the section decodes and they are counted.
    pub fn items(&self) -> Option<u32> {
        self.count.ok().flatten()
    }

    /// Why the section does not decode.
    pub fn error(&self) -> Option<ReadError> {
        self.count.err()
    }

    /// Whether the section decodes as its kind, or `None` for ids past 13 and for custom sections
    /// whose names select no kind.
    pub fn decodes(&self) -> Option<bool> {
        match (self.section.kind(), &self.count) {
            (_, Err(_)) => Some(false),
            (None | Some(SectionKind::Custom), Ok(_)) => None,
            (Some(_), Ok(_)) => Some(true),
        }
    }

    /// The line of a table.
    fn line(&self, why: bool) -> String {
        let section = &self.section;
        let items = self.items().map_or("-".into(), |items| items.to_string());
        let decodes = match self.decodes() {
            Some(true) => "yes",
            Some(false) => "no",
            None => "-",
        };
        let why = self.error().filter(|_| why);
        let why = why.map_or(String::new(), |error| format!(": {error}"));
        format!(
            "{:>7} {:>3} {} {:>10} {items:>10}  {decodes:>7}  {section}{why}\n",
            section.number,
            section.id(),
            Dim(format_args!("{:>#10x}", section.range().start)),
            section.payload().len(),
        )
    }
}

/// Prints the outline of each file, and reports the sections that do not decode: those of ids 1 to
/// 13, and if the choice is strict, custom sections too.
pub fn show(inputs: &[Input], choice: Choice) -> Result<(), Failure> {
    match (inputs, choice.format) {
        ([input], _) => {
            let outline = Outline::of(input, choice)?;
            print(&outline.text)?;
            outline.report(input, choice)
        }
        (_, Format::Table) => show_tables(inputs, choice),
        (_, Format::Json) => show_list(inputs, choice),
    }
}

fn print(text: &str) -> Result<(), Failure> {
    Output::Standard.write(text.as_bytes())
}

/// Prints a table of each file below its name. An error is reported, and the next file follows.
fn show_tables(inputs: &[Input], choice: Choice) -> Result<(), Failure> {
    let (mut failed, mut above) = (0, "");
    for input in inputs {
        let shown = Outline::of(input, choice).and_then(|outline| {
            print(&format!("{above}{input}:\n{}", outline.text))?;
            above = "\n";
            outline.report(input, choice)
        });
        failed += reported(shown)?;
    }
    all_done(failed, inputs.len())
}

/// Prints a list of the files. One that is no module has no sections.
fn show_list(inputs: &[Input], choice: Choice) -> Result<(), Failure> {
    let (mut failed, mut files) = (0, Vec::new());
    for input in inputs {
        let outline = Outline::of(input, choice);
        let sections = outline.as_ref().ok().map(|it| it.text.trim_end());
        files.push(json::file(&input.to_string(), sections));
        failed += reported(outline.and_then(|it| it.report(input, choice)))?;
    }
    print(&format!("[\n{}\n]\n", files.join(",\n")))?;
    all_done(failed, inputs.len())
}

/// Reports a failure, and returns how many there are. Without standard output no file can follow.
fn reported(shown: Result<(), Failure>) -> Result<usize, Failure> {
    match shown {
        Ok(()) => Ok(0),
        Err(failure @ Failure::Unwritten { .. }) => Err(failure),
        Err(failure) => {
            report(&failure);
            Ok(1)
        }
    }
}

fn all_done(failed: usize, files: usize) -> Result<(), Failure> {
    match failed {
        0 => Ok(()),
        failed => Err(Failure::Files { failed, files }),
    }
}

/// What is printed of a file.
struct Outline {
    /// A table, or a list of JSON.
    text: String,
    /// The failures of sections.
    failures: Vec<Failure>,
}

impl Outline {
    fn of(input: &Input, choice: Choice) -> Result<Self, Failure> {
        let bytes = input.read()?;
        let progress = Progress::of(bytes.len());
        progress.begin("reading");
        let rows = rows_of(input, &bytes)?;
        drop(progress);
        let is_reported = |row: &&Row<'_>| row.section.id() != 0 || choice.strict;
        let failure = |row: &Row<'_>| Some(row.section.failure(input, row.error()?));
        Ok(Outline {
            text: match choice.format {
                Format::Json => json::outline(&rows, choice.why),
                Format::Table => rows
                    .iter()
                    .fold(String::from(HEAD), |text, row| text + &row.line(choice.why)),
            },
            failures: rows
                .iter()
                .filter(is_reported)
                .filter_map(failure)
                .collect(),
        })
    }

    /// Reports the sections, which are an error if the choice is strict.
    fn report(&self, input: &Input, choice: Choice) -> Result<(), Failure> {
        self.failures.iter().for_each(report);
        match self.failures.len() {
            count if count > 0 && choice.strict => Err(Failure::Undecoded {
                input: input.clone(),
                count,
            }),
            _ => Ok(()),
        }
    }
}

/// Decodes each section.
fn rows_of<'a>(input: &Input, module: &'a [u8]) -> Result<Vec<Row<'a>>, Failure> {
    let row = |section: Section<'a>| match Row::of(section) {
        Row {
            count: Err(error), ..
        } if error.cause == ReadFault::Memory => Err(section.failure(input, error)),
        row => Ok(row),
    };
    sections_of(input, module)?.into_iter().map(row).collect()
}
