//! Lists the content of a module: the items of its sections, and the instructions of its functions.
mod code;
mod custom;
mod definitions;
mod items;
mod listing;
mod operands;
mod relocations;
mod symbols;
mod text;
mod values;

use crate::context::{Context, Space};
use crate::failure::{self, Failure, NoFunction, NoSection};
use crate::files::{Input, Output};
use crate::misuse::nearest;
use crate::sections::{Section, sections_of};
use crate::words::Format;
use code::list_code;
use custom::list_items;
use dolzhytik::reader::{ReadError, ReadFault};
use items::Items;
use listing::Listing;
pub use operands::Role;
use relocations::{Patches, Relocations};
use std::fmt;
use std::io::{self, BufWriter, Write};

/// Why a listing ends before the section does.
#[derive(Debug)]
pub enum Stop {
    /// The section does not decode.
    Undecoded(ReadError),
    Unwritten(io::Error),
}

impl From<ReadError> for Stop {
    fn from(error: ReadError) -> Self {
        Stop::Undecoded(error)
    }
}

impl From<io::Error> for Stop {
    fn from(error: io::Error) -> Self {
        Stop::Unwritten(error)
    }
}

impl Stop {
    fn failure(self, input: &Input, section: &Section<'_>) -> Failure {
        match self {
            Stop::Undecoded(error) => section.failure(input, error),
            Stop::Unwritten(error) => unwritten(error),
        }
    }
}

fn unwritten(error: io::Error) -> Failure {
    Failure::Unwritten {
        output: Output::Standard,
        error,
    }
}

/// Selects sections.
#[derive(Clone, PartialEq, Eq, Debug)]
pub enum Selector {
    /// The number of a section, from 1.
    Number(usize),
    /// The name of a kind, or of a custom section.
    Name(String),
    Id(u8),
}

impl Selector {
    /// A number of decimal digits, or else a name.
    pub fn of(word: String) -> Self {
        let digits = word.bytes().all(|byte| byte.is_ascii_digit());
        match word.parse() {
            Ok(number) if digits => Selector::Number(number),
            _ => Selector::Name(word),
        }
    }

    fn selects(&self, section: &Section<'_>) -> bool {
        match self {
            Selector::Number(number) => section.number == *number,
            Selector::Name(name) => name == section.kind_name() || section.name() == Some(name),
            Selector::Id(id) => section.id() == *id,
        }
    }

    /// The name of a section that was probably meant.
    fn meant(&self, sections: &[Section<'_>]) -> Option<String> {
        let Selector::Name(name) = self else {
            return None;
        };
        let names = sections.iter().filter_map(|it| it.name());
        let kind = nearest(name, sections.iter().map(Section::kind_name));
        kind.or_else(|| nearest(name, names)).map(String::from)
    }
}

/// `9`, `"name"`, or `of id 9`.
impl fmt::Display for Selector {
    fn fmt(&self, f: &mut fmt::Formatter<'_>) -> fmt::Result {
        match self {
            Selector::Number(number) => write!(f, "{number}"),
            Selector::Name(name) => write!(f, "{name:?}"),
            Selector::Id(id) => write!(f, "of id {id}"),
        }
    }
}

/// Selects functions.
#[derive(Clone, PartialEq, Eq, Debug)]
pub enum Function {
    Index(u32),
    /// The name that the listing has. Several functions may have it.
    Name(String),
}

impl Function {
    /// An index of decimal digits, or else a name.
    pub fn of(word: String) -> Self {
        let digits = word.bytes().all(|byte| byte.is_ascii_digit());
        match word.parse() {
            Ok(index) if digits => Function::Index(index),
            _ => Function::Name(word),
        }
    }

    /// The indices of the functions.
    pub fn indices(&self, context: &Context<'_>) -> Vec<u32> {
        match self {
            Function::Index(index) => vec![*index],
            Function::Name(name) => context.named(Space::Function, name),
        }
    }

    /// The failure of a module that has this number of functions, and not this one.
    pub fn missing(&self, input: &Input, context: &Context<'_>, count: usize) -> Failure {
        let meant = match self {
            Function::Index(_) => None,
            Function::Name(word) => nearest(word, context.own_names(Space::Function, count)),
        };
        Failure::NoFunction(NoFunction {
            input: input.clone(),
            function: self.clone(),
            count,
            meant: meant.map(String::from),
        })
    }
}

/// `3`, or `"name"`.
impl fmt::Display for Function {
    fn fmt(&self, f: &mut fmt::Formatter<'_>) -> fmt::Result {
        match self {
            Function::Index(index) => write!(f, "{index}"),
            Function::Name(name) => write!(f, "{name:?}"),
        }
    }
}

/// What a listing has.
#[derive(Clone, PartialEq, Eq, Debug)]
pub struct Choice {
    /// Which sections to list, or none for all.
    pub sections: Vec<Selector>,
    /// Which functions of the code section to list, and nothing else.
    pub function: Option<Function>,
    /// Whether each relocation is listed below what it patches.
    pub relocations: bool,
    pub format: Format,
}

impl Choice {
    fn selects(&self, section: &Section<'_>) -> bool {
        if self.function.is_some() {
            return section.id() == 10;
        }
        self.sections.is_empty() || self.sections.iter().any(|it| it.selects(section))
    }
}

/// Prints the selected sections.
pub fn dump(input: &Input, module: &[u8], choice: &Choice) -> Result<(), Failure> {
    let sections = sections_of(input, module)?;
    let lacks = |selector: &&Selector| !sections.iter().any(|section| selector.selects(section));
    if let Some(selector) = choice.sections.iter().find(lacks) {
        return Err(Failure::NoSection(NoSection {
            input: input.clone(),
            selector: selector.clone(),
            count: sections.len(),
            meant: selector.meant(&sections),
        }));
    }
    let context = Context::of(&sections);
    let functions = functions_of(input, &sections, choice, &context)?;
    let out = BufWriter::with_capacity(1 << 16, io::stdout().lock());
    let listing = Listing::begin(out, choice.format, &context.sources()).map_err(unwritten)?;
    let mut dump = Dump {
        input,
        choice,
        context: &context,
        relocations: relocations_of(input, &sections, choice, &context),
        functions,
        listing,
    };
    let listed = sections.iter().try_for_each(|it| dump.list(it));
    // What is listed before an error is printed, and is valid JSON.
    dump.listing.finish().map_err(unwritten).and(listed)
}

/// The relocations, if they are listed below what they patch. A section of them that does not
/// decode is reported, here or where it is listed.
fn relocations_of<'c>(
    input: &Input,
    sections: &[Section<'_>],
    choice: &Choice,
    context: &'c Context<'c>,
) -> Relocations<'c> {
    if !choice.relocations {
        return Relocations::default();
    }
    Relocations::of(sections, context, |section, error| {
        if !choice.selects(section) {
            failure::report(&section.failure(input, error));
        }
    })
}

/// The indices of the selected functions, of which one must have a body.
fn functions_of(
    input: &Input,
    sections: &[Section<'_>],
    choice: &Choice,
    context: &Context<'_>,
) -> Result<Option<Vec<u32>>, Failure> {
    let Some(function) = &choice.function else {
        return Ok(None);
    };
    let imported = context.imported(Space::Function);
    let mut end = u64::from(imported);
    for section in sections.iter().filter(|it| it.id() == 10) {
        let count: Result<u32, _> = section.cursor().read();
        end += u64::from(count.map_err(|error| section.failure(input, error))?);
    }
    let indices = function.indices(context);
    let is_import = |index: &u32| *index < imported;
    let has_body = |index: &u32| !is_import(index) && u64::from(*index) < end;
    if indices.iter().any(has_body) {
        return Ok(Some(indices));
    }
    if indices.iter().any(is_import) {
        return Err(Failure::NoBody {
            input: input.clone(),
            function: function.clone(),
        });
    }
    Err(function.missing(input, context, end as usize))
}

/// Lists the sections of a module.
struct Dump<'c, W: Write> {
    input: &'c Input,
    choice: &'c Choice,
    context: &'c Context<'c>,
    relocations: Relocations<'c>,
    /// The indices of the functions that are listed, or none for all.
    functions: Option<Vec<u32>>,
    listing: Listing<W>,
}

impl<'c, W: Write> Dump<'c, W> {
    /// Lists a section, if it is selected.
    fn list(&mut self, section: &Section<'c>) -> Result<(), Failure> {
        let listed = if self.choice.selects(section) {
            self.list_section(section)
        } else if section.id() == 2 {
            // Imports that do not decode would leave indices unknown.
            section.count().map(drop).map_err(Stop::from)
        } else {
            Ok(())
        };
        listed.map_err(|stop| stop.failure(self.input, section))
    }

    fn list_section(&mut self, section: &Section<'c>) -> Result<(), Stop> {
        let (context, listing) = (self.context, &mut self.listing);
        let patches = &mut self.relocations.patches(section);
        listing.section(section)?;
        match section.id() {
            0 => list_custom(self.input, section, context, patches, listing)?,
            10 => {
                let functions = self.functions.as_deref();
                let is_listed = |index| functions.is_none_or(|them| them.contains(&index));
                list_code(section, context, is_listed, patches, listing)?;
            }
            1..=13 => {
                let mut items = Items {
                    context,
                    listing,
                    patches,
                };
                items.list(section)?;
            }
            _ => listing.bytes(section.range().start, section.payload(), patches)?,
        }
        match &self.functions {
            // The others are of functions that are not listed.
            Some(_) => Ok(()),
            None => Ok(self.listing.others(patches)?),
        }
    }
}

/// Lists a custom section by the kind that its name selects, or else as bytes. One that does not
/// decode as its kind is reported, and listed as bytes.
fn list_custom<'c>(
    input: &Input,
    section: &Section<'c>,
    context: &'c Context<'c>,
    patches: &mut Patches<'_>,
    listing: &mut Listing<impl Write>,
) -> Result<(), Stop> {
    let is_listed = match section.items() {
        Ok(items) => list_items(&items, context, listing)?,
        Err(error) if error.cause == ReadFault::Memory => return Err(error.into()),
        Err(error) => {
            // A section without a name has no kind.
            if section.name().is_some() {
                listing.flush()?;
                failure::report(&section.failure(input, error));
            }
            false
        }
    };
    if !is_listed {
        let content = section.content();
        listing.bytes(content.offset(), content.rest(), patches)?;
    }
    Ok(())
}
