// Written by tools/to-rust from tests/wasm_reader_sections_tests/src/custom_seen.rtt: change that.
// Items of custom sections as plain data.

use dolzhytik::fallible::Global;
use dolzhytik::fallible::{CompilationOrder, CoreDumpValue, DataSymbolDefinition, FeaturePrefix, Relocation};
use dolzhytik::reader::{CoreFrame, DylinkItem, LinkItem, NameItem, Symbol};
use dolzhytik::reader::{Items, SectionKind, read_section};

/// A value of a core dump.
#[derive(Clone, Copy, PartialEq, Debug)]
pub(crate) enum Value {
    Missing,
    I32(i32),
    I64(i64),
    F32(u32),
    F64(u64),
}

/// A section without items, or with those of the rows: all of their fields.
#[derive(Clone, Copy, PartialEq, Debug)]
pub(crate) enum Told<'a> {
    Nothing,
    Module(&'a str),
    /// A subsection's id, an index and its name.
    Named(u8, u32, &'a str),
    /// Two indices and their names.
    NamedTwice((u32, &'a str), (u32, &'a str)),
    /// A subsection's id, an index, and an index in it and its name.
    Inside(u8, u32, u32, &'a str),
    Other(u8, &'a [u8]),
    Arch(&'a str),
    /// The number of symbols of a subsection that has not exactly one.
    Symbols(usize),
    /// Flags, index and name.
    Function(u32, u32, Option<&'a str>),
    Global(u32, u32, Option<&'a str>),
    Table(u32, u32, Option<&'a str>),
    Data(u32, &'a str, Option<(u32, u32, u32)>),
    /// A field of two values.
    Field(&'a str, (&'a str, &'a str), (&'a str, &'a str)),
    /// Function, offset and value.
    Hint(u32, u32, u32),
    Frequency(u32, u32, u8),
    /// Function, offset, order and hotness.
    Order(u32, u32, u32, Option<u32>),
    /// Function, offset, function index and share.
    Target(u32, u32, u32, u32),
    Process(&'a str),
    Modules(&'a str, &'a str),
    /// Module, memory and global.
    Instance(u32, u32, u32),
    /// The thread, the location of its frame, and a local and a value of the stack.
    Frame(&'a str, (u32, u32, u32), Value, Value),
    /// The prefixes and names of three features.
    Features((FeaturePrefix, &'a str), (FeaturePrefix, &'a str), (FeaturePrefix, &'a str)),
    Url(&'a str),
    Path(&'a str),
    Build(&'a [u8]),
    /// Sizes and alignments of memory and table.
    Memory(u32, u32, u32, u32),
    Needed(&'a str),
    /// Name and flags.
    Export(&'a str, u32),
    /// Module, name and flags.
    Import(&'a str, &'a str, u32),
    Folder(&'a str),
    /// The name, the index of a section, and two relocations.
    Relocated(&'a str, u32, Relocation, Relocation),
    Others,
}

fn value_told(value: CoreDumpValue) -> Value {
    match value {
        CoreDumpValue::Missing => Value::Missing,
        CoreDumpValue::I32(number) => Value::I32(number),
        CoreDumpValue::I64(number) => Value::I64(number),
        CoreDumpValue::F32(float) => Value::F32(float.bits()),
        CoreDumpValue::F64(float) => Value::F64(float.bits()),
    }
}

fn name_told<'a>(item: &NameItem<'a>) -> Told<'a> {
    match item {
        NameItem::Module(name) => Told::Module(name),
        NameItem::Map { id, names } => match names.as_slice() {
            [(index, name)] => Told::Named(*id, *index, name),
            [(index, name), (next, other)] => Told::NamedTwice((*index, name), (*next, other)),
            _ => Told::Others,
        },
        NameItem::Indirect { id, maps } => match maps.as_slice() {
            [(index, names)] => match names.as_slice() {
                [(inside, name)] => Told::Inside(*id, *index, *inside, name),
                _ => Told::Others,
            },
            _ => Told::Others,
        },
        NameItem::Other { id, bytes } => Told::Other(*id, bytes),
        _ => unreachable!("the library has no other case"),
    }
}

fn definition_told(definition: Option<DataSymbolDefinition>) -> Option<(u32, u32, u32)> {
    match definition {
        Some(given) => Some((given.index, given.offset, given.size)),
        None => None,
    }
}

fn symbol_told<'a>(symbol: Symbol<'a>) -> Told<'a> {
    match symbol {
        Symbol::Function { flags, index, name } => Told::Function(flags, index, name),
        Symbol::Global { flags, index, name } => Told::Global(flags, index, name),
        Symbol::Table { flags, index, name } => Told::Table(flags, index, name),
        Symbol::DataSymbol {
            flags,
            name,
            definition,
        } => Told::Data(flags, name, definition_told(definition)),
        _ => Told::Others,
    }
}

fn link_told<'a>(item: &LinkItem<'a>) -> Told<'a> {
    match item {
        LinkItem::Arch(name) => Told::Arch(name),
        LinkItem::Symbols(symbols) => match symbols.as_slice() {
            [symbol] => symbol_told(symbol.clone()),
            symbols => Told::Symbols(symbols.len()),
        },
        _ => Told::Others,
    }
}

fn library_told<'a>(item: &DylinkItem<'a>) -> Told<'a> {
    match item {
        DylinkItem::Memory(memory) => Told::Memory(
            memory.memory_size,
            memory.memory_alignment,
            memory.table_size,
            memory.table_alignment,
        ),
        DylinkItem::Needed(names) => match names.as_slice() {
            [name] => Told::Needed(name),
            _ => Told::Others,
        },
        DylinkItem::ExportFlags(exports) => match exports.as_slice() {
            [export] => Told::Export(export.name, export.flags),
            _ => Told::Others,
        },
        DylinkItem::ImportFlags(imports) => match imports.as_slice() {
            [import] => Told::Import(import.module_name, import.name, import.flags),
            _ => Told::Others,
        },
        DylinkItem::RuntimePath(paths) => match paths.as_slice() {
            [path] => Told::Folder(path),
            _ => Told::Others,
        },
        DylinkItem::Other { .. } => Told::Others,
        _ => unreachable!("the library has no other case"),
    }
}

fn frame_told<'a>(thread: &'a str, frame: &CoreFrame) -> Told<'a> {
    match (frame.locals.as_slice(), frame.stack.as_slice()) {
        ([local], [top]) => Told::Frame(
            thread,
            (frame.instanceidx, frame.funcidx, frame.codeoffset),
            value_told(local.clone()),
            value_told(top.clone()),
        ),
        _ => Told::Others,
    }
}

/// Returns the items of a section of names, links, producers, target features, debug files or
/// relocations.
fn items_told<'a>(items: &Items<'a>) -> Told<'a> {
    match items {
        Items::Names(names) => match names.as_slice() {
            [] => Told::Nothing,
            [name] => name_told(name),
            _ => Told::Others,
        },
        Items::Linking(links) => match links.as_slice() {
            [] => Told::Nothing,
            [link] => link_told(link),
            _ => Told::Others,
        },
        Items::Producers(fields) => match fields.as_slice() {
            [] => Told::Nothing,
            [(name, values)] => match values.as_slice() {
                [first, second] => Told::Field(name, *first, *second),
                _ => Told::Others,
            },
            _ => Told::Others,
        },
        Items::TargetFeatures(features) => match features.as_slice() {
            [] => Told::Nothing,
            [first, second, third] => Told::Features(*first, *second, *third),
            _ => Told::Others,
        },
        Items::SourceMappingUrl(url) => Told::Url(url),
        Items::ExternalDebugInfo(path) => Told::Path(path),
        Items::BuildId(bytes) => Told::Build(bytes),
        Items::Dylink(items) => match items.as_slice() {
            [] => Told::Nothing,
            [item] => library_told(item),
            _ => Told::Others,
        },
        Items::Relocations {
            name,
            section,
            relocations,
        } => match relocations.as_slice() {
            [] => Told::Nothing,
            [first, second] => Told::Relocated(name, *section, *first, *second),
            _ => Told::Others,
        },
        _ => dump_told(items),
    }
}

/// Returns the items of a section of hints or of a core dump.
fn dump_told<'a>(items: &Items<'a>) -> Told<'a> {
    match items {
        Items::Hints(functions) => match functions.as_slice() {
            [] => Told::Nothing,
            [(function, hints)] => match hints.as_slice() {
                [hint] => Told::Hint(*function, hint.branch_func_offset, hint.branch_hint_value),
                _ => Told::Others,
            },
            _ => Told::Others,
        },
        Items::InstructionFrequencies(functions) => match functions.as_slice() {
            [(function, hints)] => match hints.as_slice() {
                [hint] => Told::Frequency(*function, hint.offset, hint.value.0),
                _ => Told::Others,
            },
            _ => Told::Others,
        },
        Items::CompilationOrders(functions) => match functions.as_slice() {
            [(function, hints)] => match hints.as_slice() {
                [hint] => {
                    let CompilationOrder { order, hotness } = hint.value;
                    Told::Order(*function, hint.offset, order, hotness)
                }
                _ => Told::Others,
            },
            _ => Told::Others,
        },
        Items::CallTargets(functions) => match functions.as_slice() {
            [(function, hints)] => match hints.as_slice() {
                [hint] => match hint.value.as_slice() {
                    [target] => {
                        let index = target.function_index;
                        Told::Target(*function, hint.offset, index, target.percent)
                    }
                    _ => Told::Others,
                },
                _ => Told::Others,
            },
            _ => Told::Others,
        },
        Items::Core(name) => Told::Process(name),
        Items::CoreModules(names) => match names.as_slice() {
            [] => Told::Nothing,
            [first, second] => Told::Modules(first, second),
            _ => Told::Others,
        },
        Items::CoreInstances(instances) => match instances.as_slice() {
            [] => Told::Nothing,
            [(ty, memories, globals)] => match (memories.as_slice(), globals.as_slice()) {
                ([memory], [global]) => Told::Instance(*ty, *memory, *global),
                _ => Told::Others,
            },
            _ => Told::Others,
        },
        Items::CoreStack { thread, frames } => match frames.as_slice() {
            [] => Told::Process(thread),
            [frame] => frame_told(thread, frame),
            _ => Told::Others,
        },
        _ => Told::Others,
    }
}

/// Decodes a section: returns its items, and its length in bytes.
pub(crate) fn read<'a>(
    alloc: Global,
    kind: SectionKind,
    bytes: &'a [u8],
) -> Option<(Told<'a>, usize)> {
    match read_section(alloc, kind, bytes) {
        Ok((items, taken)) => Some((items_told(&items), taken)),
        Err(_) => None,
    }
}
