//! The references between functions, and the functions that are reachable through them.
use crate::color::{Bright, Dim};
use crate::context::{Context, Space};
use crate::cursor::Cursor;
use crate::failure::{BadSection, Failure};
use crate::files::Input;
use crate::name::Entry;
use crate::names::name_of;
use crate::sections::Section;
use crate::sizes::{Function, functions_of};
use dolzhytik::fallible::{Export, ExportKind, Global, GlobalItem, Op, ValType};
use dolzhytik::reader::{
    Arg, ElementItem, ElementItemMode, ElementList, Expression, Instructions, Operands, ReadError,
    Readable, Standard, TableItem,
};
use std::collections::VecDeque;
use std::fmt::{self, Display};

/// The sections with references from outside of bodies, in the order in which these are followed:
/// exports, start, elements, globals, tables.
const ROOTS: [u8; 5] = [7, 8, 9, 6, 4];

/// The id of the code section.
const CODE: u8 = 10;

const CALL: Op = Op::Byte(0x10);
const RETURN_CALL: Op = Op::Byte(0x12);
const REF_FUNC: Op = Op::Byte(0xD2);

/// What refers to a function.
#[derive(Clone, Copy, Debug)]
pub enum Reference<'a> {
    Export(&'a str),
    Start,
    /// An element segment, or the initial value of a global or a table.
    Entry(Entry<'a>),
    Code(Site),
}

/// An instruction that refers to a function.
#[derive(Clone, Copy, Debug)]
pub struct Site {
    /// The function that has the instruction.
    pub function: u32,
    pub instruction: &'static str,
    /// The offset of the instruction in the file.
    pub offset: usize,
}

/// `export "run"`, `element 0`, `call at offset 0x4a`.
impl Display for Reference<'_> {
    fn fmt(&self, f: &mut fmt::Formatter<'_>) -> fmt::Result {
        match self {
            Reference::Export(name) => write!(f, "export {}", Bright(format_args!("{name:?}"))),
            Reference::Start => f.write_str("start"),
            Reference::Entry(entry) => write!(f, "{} {entry}", entry.kind),
            Reference::Code(site) => {
                let offset = site.offset;
                let offset = Dim(format_args!("{offset:#x}"));
                write!(f, "{} at offset {offset}", site.instruction)
            }
        }
    }
}

/// A module whose references are followed. It keeps no instructions.
pub struct Graph<'a> {
    input: &'a Input,
    sections: Vec<Section<'a>>,
    context: Context<'a>,
    /// How many functions are imported, which have no bodies.
    imported: u32,
    functions: Vec<Function<'a>>,
    /// The references from outside of bodies, with the functions to which they are.
    roots: Vec<(u32, Reference<'a>)>,
}

impl<'a> Graph<'a> {
    pub fn of(input: &'a Input, sections: Vec<Section<'a>>) -> Result<Self, Failure> {
        let context = Context::of(&sections);
        let functions = functions_of(input, &sections, &context)?;
        let mut roots = Vec::new();
        let in_order = ROOTS
            .iter()
            .flat_map(|id| sections.iter().filter(move |it| it.id() == *id));
        for section in in_order {
            add_roots(section, &context, &mut roots)
                .map_err(|error| section.failure(input, error))?;
        }
        Ok(Graph {
            input,
            imported: context.imported(Space::Function),
            sections,
            context,
            functions,
            roots,
        })
    }

    pub fn context(&self) -> &Context<'a> {
        &self.context
    }

    /// The functions that have a body.
    pub fn functions(&self) -> &[Function<'a>] {
        &self.functions
    }

    /// How many functions there are, with those that are imported.
    pub fn count(&self) -> usize {
        self.imported as usize + self.functions.len()
    }

    /// The function of an index, if it has a body.
    pub fn function(&self, index: u32) -> Option<&Function<'a>> {
        let number = index.checked_sub(self.imported)?;
        self.functions.get(number as usize)
    }

    /// Returns the functions that are reachable, if the barred function refers to none. Each body on
    /// the way is decoded once, and nothing of it is kept.
    pub fn reach(&self, barred: Option<u32>) -> Result<Reached<'a>, Failure> {
        let mut reached = Reached {
            by: vec![None; self.count()],
            queue: VecDeque::new(),
        };
        self.roots
            .iter()
            .for_each(|(function, by)| reached.add(*function, *by));
        while let Some(index) = reached.queue.pop_front() {
            if let Some(function) = self.function(index).filter(|_| Some(index) != barred) {
                each_reference(function, |target, by| reached.add(target, by))
                    .map_err(|error| self.failure(function, error))?;
            }
        }
        Ok(reached)
    }

    /// The failure of a decoder of a body.
    fn failure(&self, function: &Function<'a>, error: ReadError) -> Failure {
        // An empty body may be at the end of its section.
        let has_body = |it: &&Section<'a>| it.id() == CODE && it.range().end >= function.offset;
        let section = self.sections.iter().find(has_body);
        Failure::Section(BadSection {
            input: self.input.clone(),
            number: section.map_or(0, |it| it.number),
            section: section.map(|it| it.title().to_string()),
            error,
        })
    }
}

/// The functions that are reachable.
pub struct Reached<'a> {
    /// The first reference to each function, on a shortest path to it.
    by: Vec<Option<Reference<'a>>>,
    /// The functions whose references are not followed yet.
    queue: VecDeque<u32>,
}

impl<'a> Reached<'a> {
    /// Adds a reference. One of an index that no function has is none.
    fn add(&mut self, function: u32, by: Reference<'a>) {
        if let Some(first @ None) = self.by.get_mut(function as usize) {
            *first = Some(by);
            self.queue.push_back(function);
        }
    }

    /// The first reference to a function.
    pub fn by(&self, function: u32) -> Option<Reference<'a>> {
        self.by.get(function as usize).copied().flatten()
    }

    /// A shortest path to a function: each function on it with the reference to it. The last one is
    /// the function itself.
    pub fn path(&self, function: u32) -> Option<Vec<(u32, Reference<'a>)>> {
        let mut path = vec![(function, self.by(function)?)];
        while let Some((_, Reference::Code(site))) = path.last() {
            path.push((site.function, self.by(site.function)?));
        }
        path.reverse();
        Some(path)
    }
}

/// Adds the references of a section that is not the code section.
fn add_roots<'a>(
    section: &Section<'a>,
    context: &Context<'a>,
    roots: &mut Vec<(u32, Reference<'a>)>,
) -> Result<(), ReadError> {
    let mut cursor = section.cursor();
    match section.id() {
        7 => cursor.each(|_, export: Export<'a>| {
            if export.kind == ExportKind::Func {
                roots.push((export.index, Reference::Export(export.name)));
            }
            Ok::<_, ReadError>(())
        })?,
        8 => roots.push((cursor.read()?, Reference::Start)),
        9 => each_entry(&mut cursor, context, Space::Element, |it, by| {
            add_elements(&it, by, roots);
        })?,
        6 => each_entry(&mut cursor, context, Space::Global, |it: GlobalItem, by| {
            add_expression(&it.init, by, roots);
        })?,
        _ => each_entry(&mut cursor, context, Space::Table, |it: TableItem, by| {
            it.init
                .iter()
                .for_each(|init| add_expression(init, by, roots));
        })?,
    }
    cursor.finish()
}

/// Passes each entry of a section, with the reference that it is.
fn each_entry<'a, T: Readable<'a, Global, Standard>>(
    cursor: &mut Cursor<'a>,
    context: &Context<'a>,
    space: Space,
    mut pass: impl FnMut(T, Reference<'a>),
) -> Result<(), ReadError> {
    let mut indices = context.imported(space)..;
    cursor.each(|_, item| {
        let index = indices.next().unwrap_or(u32::MAX);
        pass(item, Reference::Entry(context.entry(space, index)));
        Ok(())
    })
}

/// Adds the functions of an element segment. A declarative one is copied to no table.
fn add_elements<'a>(
    segment: &ElementItem,
    by: Reference<'a>,
    roots: &mut Vec<(u32, Reference<'a>)>,
) {
    if matches!(segment.mode, ElementItemMode::Declared) {
        return;
    }
    match &segment.elements {
        ElementList::Functions(functions) => roots.extend(functions.iter().map(|it| (*it, by))),
        ElementList::Expressions(_, expressions) => expressions
            .iter()
            .for_each(|it| add_expression(it, by, roots)),
        _ => {}
    }
}

/// Adds the functions of `ref.func` in a constant expression.
fn add_expression<'a>(
    expression: &Expression,
    by: Reference<'a>,
    roots: &mut Vec<(u32, Reference<'a>)>,
) {
    for plain in expression.0.iter().filter(|it| it.op == REF_FUNC) {
        if let [Arg::U32(function)] = plain.args.as_slice() {
            roots.push((*function, by));
        }
    }
}

/// Passes each reference in a body, with the function to which it is.
fn each_reference<'a>(
    function: &Function<'a>,
    mut pass: impl FnMut(u32, Reference<'a>),
) -> Result<(), ReadError> {
    let mut cursor = Cursor::new(function.body, function.offset);
    cursor.each(|_, _: (u32, ValType)| Ok::<_, ReadError>(()))?;
    let mut instructions = Instructions::<Global, Standard>::standard(cursor.rest(), Global);
    while let Some(decoded) = instructions.next().map_err(|it| cursor.located(it))? {
        let Operands::U32(target) = decoded.operands else {
            continue;
        };
        if matches!(decoded.op, CALL | RETURN_CALL | REF_FUNC) {
            let site = Site {
                function: function.index,
                instruction: name_of(decoded.op).unwrap_or_default(),
                offset: cursor.offset() + decoded.offset,
            };
            pass(target, Reference::Code(site));
        }
    }
    Ok(())
}
