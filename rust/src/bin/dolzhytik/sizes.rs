//! The sizes of sections, function bodies and data segments.
use crate::context::{Context, Space};
use crate::cursor::Cursor;
use crate::failure::Failure;
use crate::files::Input;
use crate::groups::Groups;
use crate::matching::{Part, Segment};
use crate::name::Name;
use crate::sections::{HEADER, Section, sections_of};
use dolzhytik::reader::{self, ReadError};
use std::cmp::Reverse;
use std::fmt::{self, Display};

/// The ids of sections that have functions and data segments.
pub const CODE: u8 = 10;
pub const DATA: u8 = 11;

/// The sizes of a module.
pub struct Sizes<'a> {
    /// The size of the module in bytes.
    pub module: usize,
    /// The sections, the largest first.
    pub sections: Vec<Section<'a>>,
    /// Functions, the largest first. There are none if a section does not decode that has their
    /// bodies or counts their indices.
    pub functions: Vec<Function<'a>>,
    /// The groups of all functions, if these are asked for and decode.
    pub groups: Option<Groups<'a>>,
    /// Data segments, the largest first. There are none if a data section does not decode.
    pub data: Vec<Segment<'a>>,
    /// The errors of these sections.
    pub failures: Vec<Failure>,
}

impl<'a> Sizes<'a> {
    /// Returns the sizes of the sections, and of this number of functions, of data segments and of
    /// groups.
    pub fn of(input: &Input, module: &'a [u8], most: usize) -> Result<Self, Failure> {
        let sections = sections_of(input, module)?;
        let mut sizes = Sizes {
            module: module.len(),
            sections: Vec::new(),
            functions: Vec::new(),
            groups: None,
            data: Vec::new(),
            failures: Vec::new(),
        };
        if most > 0 {
            sizes.add_parts(input, &sections, most);
        }
        sizes.sections = largest(sections, usize::MAX);
        Ok(sizes)
    }

    /// Adds functions, groups and data segments, or why these do not decode.
    fn add_parts(&mut self, input: &Input, sections: &[Section<'a>], most: usize) {
        let context = Context::of(sections);
        match functions_of(input, sections, &context) {
            Ok(functions) => {
                self.groups = Some(Groups::of(&functions, most));
                self.functions = largest(functions, most);
            }
            Err(failure) => self.failures.push(failure),
        }
        match segments_of(input, sections, &context) {
            Ok(segments) => self.data = largest(segments, most),
            Err(failure) => self.failures.push(failure),
        }
    }

    fn line(&self, f: &mut fmt::Formatter<'_>, size: usize, of: impl Display) -> fmt::Result {
        line(f, Some(size), self.module, of)
    }
}

/// Writes a line: a size in bytes, its part of the module in percent, and what it is of.
pub fn line(
    f: &mut fmt::Formatter<'_>,
    size: Option<usize>,
    module: usize,
    of: impl Display,
) -> fmt::Result {
    let Some(size) = size else {
        return writeln!(f, "{:>10} {:>5}  {of}", "-", "-");
    };
    let percent = 100.0 * size as f64 / module as f64;
    writeln!(f, "{size:>10} {percent:>5.1}  {of}")
}

/// A table with a line for each section, function and data segment.
impl Display for Sizes<'_> {
    fn fmt(&self, f: &mut fmt::Formatter<'_>) -> fmt::Result {
        f.write_str("     bytes     %  name\n")?;
        for section in &self.sections {
            self.line(f, section.bytes().len(), section)?;
        }
        self.line(f, HEADER, "header")?;
        self.line(f, self.module, "all")?;
        for function in &self.functions {
            self.line(f, function.size, function)?;
        }
        for segment in &self.data {
            self.line(f, segment.size, segment)?;
        }
        // The group of all functions would say no more than the line of the code section.
        match self.groups.as_ref().filter(|it| it.has_prefixes) {
            Some(groups) => self.lines_of_groups(f, groups),
            None => Ok(()),
        }
    }
}

impl Sizes<'_> {
    /// Writes the lines of groups, which add up to the last one.
    fn lines_of_groups(&self, f: &mut fmt::Formatter<'_>, groups: &Groups<'_>) -> fmt::Result {
        for group in &groups.listed {
            self.line(f, group.total.bytes, group)?;
        }
        let (count, others) = groups.others;
        if count > 0 {
            let functions = others.functions;
            let of = format_args!("other functions ({functions})");
            self.line(f, others.bytes, of)?;
        }
        let of = format_args!("all functions ({})", groups.all.functions);
        self.line(f, groups.all.bytes, of)
    }
}

/// A function whose body is in the module.
#[derive(Clone, Copy)]
pub struct Function<'a> {
    /// The size of its body in bytes, with its size prefix.
    pub size: usize,
    /// The body, without its size prefix.
    pub body: &'a [u8],
    /// The offset of the body in the file, without its size prefix.
    pub offset: usize,
    pub index: u32,
    pub name: Option<Name<'a>>,
}

/// `function 3 <name>`.
impl Display for Function<'_> {
    fn fmt(&self, f: &mut fmt::Formatter<'_>) -> fmt::Result {
        write!(f, "function {}", self.index)?;
        self.name.map_or(Ok(()), |name| write!(f, " {name}"))
    }
}

/// Returns this number of parts, or all if there are fewer, the largest first.
fn largest<T: Part>(mut parts: Vec<T>, most: usize) -> Vec<T> {
    parts.sort_by_key(|part| Reverse(part.size()));
    parts.truncate(most);
    parts
}

/// Returns the functions that have a body, in the order of their indices.
pub fn functions_of<'a>(
    input: &Input,
    sections: &[Section<'a>],
    context: &Context<'a>,
) -> Result<Vec<Function<'a>>, Failure> {
    let mut bodies = Vec::new();
    for section in sections {
        let decoded = match section.id() {
            // Imports that do not decode would leave indices unknown.
            2 => section.count().map(drop),
            CODE => add_bodies(section.cursor(), &mut bodies),
            _ => Ok(()),
        };
        decoded.map_err(|error| section.failure(input, error))?;
    }
    let function = |(
        index,
        Body {
            size,
            offset,
            bytes,
        },
    )| Function {
        size,
        body: bytes,
        offset,
        index,
        name: context.name(Space::Function, index),
    };
    let indices = context.imported(Space::Function)..;
    Ok(indices.zip(bodies).map(function).collect())
}

/// The body of a function.
struct Body<'a> {
    /// Its size with its size prefix.
    size: usize,
    offset: usize,
    bytes: &'a [u8],
}

fn add_bodies<'a>(mut cursor: Cursor<'a>, bodies: &mut Vec<Body<'a>>) -> Result<(), ReadError> {
    let count: u32 = cursor.read()?;
    for _ in 0..count {
        let begun = cursor.offset();
        let bytes: &[u8] = cursor.read()?;
        bodies.push(Body {
            size: cursor.offset() - begun,
            offset: cursor.offset() - bytes.len(),
            bytes,
        });
    }
    Ok(())
}

/// Returns the data segments, in the order of their indices.
pub fn segments_of<'a>(
    input: &Input,
    sections: &[Section<'a>],
    context: &Context<'a>,
) -> Result<Vec<Segment<'a>>, Failure> {
    let mut sizes = Vec::new();
    for section in sections.iter().filter(|it| it.id() == DATA) {
        add_segments(section.cursor(), &mut sizes)
            .map_err(|error| section.failure(input, error))?;
    }
    let segment = |(index, size)| Segment {
        size,
        entry: context.entry(Space::Data, index),
    };
    Ok((0..).zip(sizes).map(segment).collect())
}

/// Adds the size of each data segment.
fn add_segments(mut cursor: Cursor<'_>, sizes: &mut Vec<usize>) -> Result<(), ReadError> {
    let count: u32 = cursor.read()?;
    for _ in 0..count {
        let begun = cursor.offset();
        cursor.read::<reader::Segment<'_>>()?;
        sizes.push(cursor.offset() - begun);
    }
    Ok(())
}
