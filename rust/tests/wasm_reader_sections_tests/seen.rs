// Written by tools/to-rust from tests/wasm_reader_sections_tests/src/seen.rtt: change that.
// Items as plain data: an assertion over values that own memory takes far longer to prove.

use dolzhytik::fallible::Global;
use dolzhytik::reader::{Body, Expression};
use dolzhytik::reader::Arg;
use dolzhytik::fallible::Op;
use dolzhytik::reader::{ElementItem, ElementItemMode, ElementList, Items, SectionKind, Segment, read_section};
use dolzhytik::fallible::{EntityType, ExportKind, GlobalType, Imports, MemoryType, TableType, TagType};

/// A section without items, or of one.
#[derive(Clone, Copy, PartialEq, Debug)]
pub(crate) enum Seen<'a> {
    Nothing,
    /// The numbers of its runs and of its instructions, and the first instruction.
    Body(usize, usize, Option<Op>),
    Active(u32, Option<i32>, &'a [u8]),
    Passive(&'a [u8]),
    Number(u32),
    /// The table, the offset, whether it is of expressions, and the number of its elements.
    Element(Option<u32>, Option<i32>, bool, usize),
    Export(&'a str, ExportKind, u32),
    Global(GlobalType, Option<i32>),
    Import(&'a str, &'a str, EntityType),
    Group(&'a str, usize),
    Alike(&'a str, EntityType, usize),
    Memory(MemoryType),
    Table(TableType, bool),
    Tag(TagType),
    Custom(&'a str, &'a [u8]),
    Raw(&'a [u8]),
    Others,
}

/// Returns the number of an expression of one `I32Const`.
fn constant(expression: &Expression) -> Option<i32> {
    match expression.0.as_slice() {
        [plain] if plain.op == Op::Byte(0x41) => match plain.args.as_slice() {
            [Arg::S32(number)] => Some(*number),
            _ => None,
        },
        _ => None,
    }
}

fn body_seen<'a>(body: &Body) -> Seen<'a> {
    let first = match body.code.as_slice() {
        [] => None,
        [plain, ..] => Some(plain.op),
    };
    Seen::Body(body.runs.len(), body.code.len(), first)
}

fn segment_seen<'a>(segment: &Segment<'a>) -> Seen<'a> {
    match segment {
        Segment::Active {
            memory,
            offset,
            bytes,
        } => Seen::Active(*memory, constant(offset), bytes),
        Segment::Passive { bytes } => Seen::Passive(bytes),
        _ => unreachable!("the library has no other case"),
    }
}

fn element_seen<'a>(element: &ElementItem) -> Seen<'a> {
    let (of_expressions, count) = match &element.elements {
        ElementList::Functions(functions) => (false, functions.len()),
        ElementList::Expressions(_, expressions) => (true, expressions.len()),
        _ => unreachable!("the library has no other case"),
    };
    match &element.mode {
        ElementItemMode::Active { table, offset } => {
            Seen::Element(*table, constant(offset), of_expressions, count)
        }
        _ => Seen::Others,
    }
}

fn import_seen<'a>(imports: &Imports<'a>) -> Seen<'a> {
    match imports {
        Imports::Single(import) => Seen::Import(import.module, import.name, import.ty),
        Imports::Compact1 { module, items } => Seen::Group(module, items.as_slice().len()),
        Imports::Compact2 { module, ty, names } => {
            Seen::Alike(module, *ty, names.as_slice().len())
        }
    }
}

fn items_seen<'a>(items: &Items<'a>) -> Seen<'a> {
    match items {
        Items::Bodies(bodies) => match bodies.as_slice() {
            [] => Seen::Nothing,
            [body, ..] => body_seen(body),
        },
        Items::Segments(segments) => match segments.as_slice() {
            [] => Seen::Nothing,
            [segment, ..] => segment_seen(segment),
        },
        Items::DataCount(number) | Items::Start(number) => Seen::Number(*number),
        Items::Elements(elements) => match elements.as_slice() {
            [] => Seen::Nothing,
            [element, ..] => element_seen(element),
        },
        Items::Imports(imports) => match imports.as_slice() {
            [] => Seen::Nothing,
            [import, ..] => import_seen(import),
        },
        Items::Custom { name, bytes } => Seen::Custom(name, bytes),
        Items::Raw(bytes) => Seen::Raw(bytes),
        _ => plain_items_seen(items),
    }
}

/// Returns the items of a section of records without lists, globals or tables.
fn plain_items_seen<'a>(items: &Items<'a>) -> Seen<'a> {
    match items {
        Items::Exports(exports) => match exports.as_slice() {
            [] => Seen::Nothing,
            [export, ..] => Seen::Export(export.name, export.kind, export.index),
        },
        Items::Functions(types) => match types.as_slice() {
            [] => Seen::Nothing,
            [index, ..] => Seen::Number(*index),
        },
        Items::Globals(globals) => match globals.as_slice() {
            [] => Seen::Nothing,
            [global, ..] => Seen::Global(global.global_type, constant(&global.init)),
        },
        Items::Memories(memories) => match memories.as_slice() {
            [] => Seen::Nothing,
            [ty, ..] => Seen::Memory(*ty),
        },
        Items::Tables(tables) => match tables.as_slice() {
            [] => Seen::Nothing,
            [table, ..] => Seen::Table(table.table_type, table.init.is_some()),
        },
        Items::Tags(tags) => match tags.as_slice() {
            [] => Seen::Nothing,
            [ty, ..] => Seen::Tag(*ty),
        },
        _ => Seen::Others,
    }
}

/// Decodes a section: returns its items, and its length in bytes.
pub(crate) fn read<'a>(
    alloc: Global,
    kind: SectionKind,
    bytes: &'a [u8],
) -> Option<(Seen<'a>, usize)> {
    match read_section(alloc, kind, bytes) {
        Ok((items, taken)) => Some((items_seen(&items), taken)),
        Err(_) => None,
    }
}
