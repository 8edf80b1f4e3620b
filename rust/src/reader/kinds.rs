// Written by tools/to-rust from crates/wasm_reader/src/kinds.rt: change that.
// Kinds of sections: the reader of each, and the encoder of its items.

use crate::vec::{Sink, Vec};
use crate::alloc::{Allocator, Global};
use crate::base::{DecodeError, Encode, Grammar, Readable, Result, Shorten, read_whole};
use crate::code::Body;
use crate::custom::{BranchHint, CallTarget, CodeHint, CompilationOrder, CoreFrame, DylinkItem, FeaturePrefix, InstructionFrequency, LinkItem, NameItem, Relocation, append_build_id, append_call_targets, append_debug_file, append_dylink, append_features, append_frequencies, append_hints, append_instances, append_links, append_modules, append_names, append_orders, append_process, append_producers, append_relocations, append_source_map, append_stack, read_build_id, read_call_targets, read_debug_file, read_dylink, read_features, read_frequencies, read_hints, read_instances, read_links, read_modules, read_names, read_orders, read_process, read_producers, read_relocations, read_source_map, read_stack};
use crate::sections::{ElementItem, Export, GlobalItem, Imports, MemoryType, Segment, TableItem, TagType, append_imports, read_imports, read_segments};
use crate::types::{TypeEntry, append_types, read_types};

/// A kind of section, which selects the reader of its payload.
///
/// [`Section::kind`](crate::reader::Section::kind) returns it.
/// [`read_section`](crate::reader::read_section) and [`shorten`](crate::reader::shorten) take
/// it.
///
/// # Examples
///
/// ```
/// use dolzhytik::fallible::Global;
/// use dolzhytik::reader::{Items, SectionKind, read_section};
///
/// // A start section without its id: size 1, the function 5.
/// let (items, taken) = read_section(Global, SectionKind::Start, &[1, 5])?;
/// assert!(matches!((items, taken), (Items::Start(5), 2)));
/// # Ok::<(), dolzhytik::reader::ReadFault>(())
/// ```
#[derive(Clone, Copy, PartialEq, Eq, Debug)]
#[non_exhaustive]
pub enum SectionKind {
    /// The code section: function bodies.
    Bodies,
    /// The data section.
    Segments,
    /// The data count section.
    DataCount,
    /// The element section.
    Elements,
    /// The export section.
    Exports,
    /// The function section.
    Functions,
    /// The global section.
    Globals,
    /// The import section.
    Imports,
    /// The memory section.
    Memories,
    /// The start section.
    Start,
    /// The table section.
    Tables,
    /// The tag section.
    Tags,
    /// The name section: names of the module and of its items.
    Names,
    /// The linking section: symbols, and the architecture of the target.
    Linking,
    /// The producers section: the tools that produced the module.
    Producers,
    /// The branch hint section.
    Hints,
    /// The process section of a core dump.
    Core,
    /// The modules section of a core dump.
    CoreModules,
    /// The instances section of a core dump.
    CoreInstances,
    /// The stack section of a core dump: the stack of a thread.
    CoreStack,
    /// A custom section of any name.
    Custom,
    /// A section of any bytes.
    Raw,
    /// The type section.
    Types,
    /// The target features section.
    TargetFeatures,
    /// The section of a source map.
    SourceMappingUrl,
    /// The section of a file of debug information.
    ExternalDebugInfo,
    /// The section of a build's identity.
    BuildId,
    /// The section of a dynamic library: its requirements at load time.
    Dylink,
    /// A relocation section, whose name begins with `reloc.`.
    Relocations,
    /// The section of instruction frequencies.
    InstructionFrequencies,
    /// The section of compilation orders.
    CompilationOrders,
    /// The section of call targets.
    CallTargets,
}

impl SectionKind {
    /// Returns the kind of this number, in the order of the enum's declaration. C callers use these
    /// numbers.
    ///
    /// # Proved
    ///
    /// ```text
    /// ensures { result ≡ kind_numbered number }
    /// ```
    ///
    /// Definitions: [`kind_numbered`](crate::definitions::reader::kinds::kind_numbered). [How to read clauses](crate::definitions).
    pub fn numbered(number: u32) -> Option<SectionKind> {
        match number {
            0 => Some(SectionKind::Bodies),
            1 => Some(SectionKind::Segments),
            2 => Some(SectionKind::DataCount),
            3 => Some(SectionKind::Elements),
            4 => Some(SectionKind::Exports),
            5 => Some(SectionKind::Functions),
            6 => Some(SectionKind::Globals),
            7 => Some(SectionKind::Imports),
            8 => Some(SectionKind::Memories),
            9 => Some(SectionKind::Start),
            10 => Some(SectionKind::Tables),
            11 => Some(SectionKind::Tags),
            12 => Some(SectionKind::Names),
            13 => Some(SectionKind::Linking),
            14 => Some(SectionKind::Producers),
            15 => Some(SectionKind::Hints),
            16 => Some(SectionKind::Core),
            17 => Some(SectionKind::CoreModules),
            18 => Some(SectionKind::CoreInstances),
            19 => Some(SectionKind::CoreStack),
            20 => Some(SectionKind::Custom),
            21 => Some(SectionKind::Raw),
            22 => Some(SectionKind::Types),
            23 => Some(SectionKind::TargetFeatures),
            24 => Some(SectionKind::SourceMappingUrl),
            25 => Some(SectionKind::ExternalDebugInfo),
            26 => Some(SectionKind::BuildId),
            27 => Some(SectionKind::Dylink),
            28 => Some(SectionKind::Relocations),
            29 => Some(SectionKind::InstructionFrequencies),
            30 => Some(SectionKind::CompilationOrders),
            31 => Some(SectionKind::CallTargets),
            _ => None,
        }
    }
}

/// The decoded items of a section. Names, data and raw bytes are slices of the input; lists are in
/// memory of the allocator. They can be changed in place, and [`encode_items`] encodes them.
///
/// [`Section::items`](crate::reader::Section::items) and
/// [`read_section`](crate::reader::read_section) return it.
///
/// # Examples
///
/// ```
/// use dolzhytik::fallible::{ExportKind, Global};
/// use dolzhytik::reader::{Items, SectionKind, encode_items, read_section};
///
/// // An export section without its id: size 5, one export, "f", the function (00) 7.
/// let (items, _) =
///     read_section(Global, SectionKind::Exports, b"\x05\x01\x01f\x00\x07")?;
/// let Items::Exports(exports) = &items else { panic!("another kind") };
/// assert_eq!(
///     (exports[0].name, exports[0].kind, exports[0].index),
///     ("f", ExportKind::Func, 7)
/// );
///
/// let mut payload = vec![];
/// encode_items(&items, &mut payload)?;
/// assert_eq!(payload, *b"\x01\x01f\x00\x07");
/// # Ok::<(), dolzhytik::reader::ReadFault>(())
/// ```
#[derive(Debug)]
#[non_exhaustive]
pub enum Items<'a, A: Allocator = Global> {
    /// The bodies of a code section.
    Bodies(Vec<Body<A>, A>),
    /// The segments of a data section.
    Segments(Vec<Segment<'a, A>, A>),
    /// The number of a data count section.
    DataCount(u32),
    /// The segments of an element section.
    Elements(Vec<ElementItem<A>, A>),
    /// The exports.
    Exports(Vec<Export<'a>, A>),
    /// The indices of the functions' types.
    Functions(Vec<u32, A>),
    /// The globals.
    Globals(Vec<GlobalItem<A>, A>),
    /// Imports and groups of imports, whose lists are owned.
    Imports(Vec<Imports<'a, A>, A>),
    /// The memories.
    Memories(Vec<MemoryType, A>),
    /// The index of a function.
    Start(u32),
    /// The tables.
    Tables(Vec<TableItem<A>, A>),
    /// The tags.
    Tags(Vec<TagType, A>),
    /// The subsections of a name section.
    Names(Vec<NameItem<'a, A>, A>),
    /// The subsections of a linking section.
    Linking(Vec<LinkItem<'a, A>, A>),
    /// The name of each field, and its values, which are a name and a version.
    Producers(Vec<(&'a str, Vec<(&'a str, &'a str), A>), A>),
    /// The index of each function with hints, and its hints.
    Hints(Vec<(u32, Vec<BranchHint, A>), A>),
    /// The name of the process.
    Core(&'a str),
    /// The names of the modules.
    CoreModules(Vec<&'a str, A>),
    /// For each instance the index of its module, its memories and its globals.
    CoreInstances(Vec<(u32, Vec<u32, A>, Vec<u32, A>), A>),
    /// The name of the thread, and the frames of its stack.
    CoreStack {
        /// The name of the thread.
        thread: &'a str,
        /// The frames.
        frames: Vec<CoreFrame<A>, A>,
    },
    /// A custom section as its name and data, such as one whose name no kind has.
    Custom {
        /// The name.
        name: &'a str,
        /// The data.
        bytes: &'a [u8],
    },
    /// A payload as bytes, such as that of a section whose id is above 13.
    Raw(&'a [u8]),
    /// Types and recursion groups.
    Types(Vec<TypeEntry<A>, A>),
    /// The prefix of each feature, and its name.
    TargetFeatures(Vec<(FeaturePrefix, &'a str), A>),
    /// The URL of the source map.
    SourceMappingUrl(&'a str),
    /// The path of the file of debug information.
    ExternalDebugInfo(&'a str),
    /// The bytes that identify the build.
    BuildId(&'a [u8]),
    /// The subsections of a dynamic library's section.
    Dylink(Vec<DylinkItem<'a, A>, A>),
    /// A relocation section.
    Relocations {
        /// The whole name of the custom section, such as `reloc.CODE`.
        name: &'a str,
        /// The index of the section that is relocated.
        section: u32,
        /// The relocations.
        relocations: Vec<Relocation, A>,
    },
    /// For each function its index, and the frequencies of its instructions.
    InstructionFrequencies(Vec<(u32, Vec<CodeHint<InstructionFrequency>, A>), A>),
    /// For each function its index, and its compilation orders.
    CompilationOrders(Vec<(u32, Vec<CodeHint<CompilationOrder>, A>), A>),
    /// For each function its index, and the targets of its calls.
    CallTargets(Vec<(u32, Vec<CodeHint<Vec<CallTarget, A>>, A>), A>),
}

impl<'a, A: Allocator> Items<'a, A> {
    /// Returns the kind of section that has these items.
    ///
    /// # Proved
    ///
    /// ```text
    /// ensures { result ≡ kind_in (contents_of self.now) }
    /// ```
    ///
    /// Definitions: [`kind_in`](crate::definitions::reader::kinds::kind_in), [`contents_of`](crate::definitions::reader::kinds::contents_of). [How to read clauses](crate::definitions).
    pub fn kind(&self) -> SectionKind {
        match self {
            Items::Bodies(_) => SectionKind::Bodies,
            Items::Segments(_) => SectionKind::Segments,
            Items::DataCount(_) => SectionKind::DataCount,
            Items::Elements(_) => SectionKind::Elements,
            Items::Exports(_) => SectionKind::Exports,
            Items::Functions(_) => SectionKind::Functions,
            Items::Globals(_) => SectionKind::Globals,
            Items::Imports(_) => SectionKind::Imports,
            Items::Memories(_) => SectionKind::Memories,
            Items::Start(_) => SectionKind::Start,
            Items::Tables(_) => SectionKind::Tables,
            Items::Tags(_) => SectionKind::Tags,
            Items::Names(_) => SectionKind::Names,
            Items::Linking(_) => SectionKind::Linking,
            Items::Producers(_) => SectionKind::Producers,
            Items::Hints(_) => SectionKind::Hints,
            Items::Core(_) => SectionKind::Core,
            Items::CoreModules(_) => SectionKind::CoreModules,
            Items::CoreInstances(_) => SectionKind::CoreInstances,
            Items::CoreStack { .. } => SectionKind::CoreStack,
            Items::Custom { .. } => SectionKind::Custom,
            Items::Raw(_) => SectionKind::Raw,
            Items::Types(_) => SectionKind::Types,
            Items::TargetFeatures(_) => SectionKind::TargetFeatures,
            Items::SourceMappingUrl(_) => SectionKind::SourceMappingUrl,
            Items::ExternalDebugInfo(_) => SectionKind::ExternalDebugInfo,
            Items::BuildId(_) => SectionKind::BuildId,
            Items::Dylink(_) => SectionKind::Dylink,
            Items::Relocations { .. } => SectionKind::Relocations,
            Items::InstructionFrequencies(_) => SectionKind::InstructionFrequencies,
            Items::CompilationOrders(_) => SectionKind::CompilationOrders,
            Items::CallTargets(_) => SectionKind::CallTargets,
        }
    }
}

/// Returns the kind of a section of this id.
pub(crate) fn kind_of_id(id: u8) -> SectionKind {
    match id {
        0 => SectionKind::Custom,
        2 => SectionKind::Imports,
        3 => SectionKind::Functions,
        4 => SectionKind::Tables,
        5 => SectionKind::Memories,
        6 => SectionKind::Globals,
        7 => SectionKind::Exports,
        8 => SectionKind::Start,
        9 => SectionKind::Elements,
        10 => SectionKind::Bodies,
        11 => SectionKind::Segments,
        12 => SectionKind::DataCount,
        13 => SectionKind::Tags,
        _ => SectionKind::Raw,
    }
}

/// Returns the kind of a custom section of one of these names, and `Custom` for all others.
fn kind_of_whole_name(name: &str) -> SectionKind {
    match name {
        "name" => SectionKind::Names,
        "linking" => SectionKind::Linking,
        "producers" => SectionKind::Producers,
        "target_features" => SectionKind::TargetFeatures,
        "metadata.code.branch_hint" => SectionKind::Hints,
        "core" => SectionKind::Core,
        "coremodules" => SectionKind::CoreModules,
        "coreinstances" => SectionKind::CoreInstances,
        "corestack" => SectionKind::CoreStack,
        "sourceMappingURL" => SectionKind::SourceMappingUrl,
        "external_debug_info" => SectionKind::ExternalDebugInfo,
        "build_id" => SectionKind::BuildId,
        "dylink.0" => SectionKind::Dylink,
        "metadata.code.instr_freq" => SectionKind::InstructionFrequencies,
        "metadata.code.compilation_order" => SectionKind::CompilationOrders,
        "metadata.code.call_targets" => SectionKind::CallTargets,
        _ => SectionKind::Custom,
    }
}

/// Returns the kind of a custom section of this name.
pub(crate) fn kind_of_name(name: &str) -> SectionKind {
    if name.as_bytes().starts_with(b"reloc.") {
        SectionKind::Relocations
    } else {
        kind_of_whole_name(name)
    }
}

/// Decodes the payload of a section of this kind.
pub(crate) fn read_content<'a, A: Allocator + Copy + 'a, G: Grammar>(
    kind: SectionKind,
    bytes: &'a [u8],
    alloc: A,
) -> Result<Items<'a, A>, DecodeError> {
    match kind {
        SectionKind::Bodies => Ok(Items::Bodies(read_whole::<'a, Vec<Body<A>, A>, A, G>(
            bytes, alloc,
        )?)),
        SectionKind::Segments => Ok(Items::Segments(read_segments::<A, G>(bytes, alloc)?)),
        SectionKind::DataCount => Ok(Items::DataCount(read_whole::<'a, u32, A, G>(bytes, alloc)?)),
        SectionKind::Elements => Ok(Items::Elements(read_whole::<'a, Vec<ElementItem<A>, A>, A, G>(
            bytes, alloc,
        )?)),
        SectionKind::Exports => Ok(Items::Exports(read_whole::<'a, Vec<Export<'a>, A>, A, G>(
            bytes, alloc,
        )?)),
        SectionKind::Functions => Ok(Items::Functions(read_whole::<'a, Vec<u32, A>, A, G>(
            bytes, alloc,
        )?)),
        SectionKind::Globals => Ok(Items::Globals(read_whole::<'a, Vec<GlobalItem<A>, A>, A, G>(
            bytes, alloc,
        )?)),
        SectionKind::Imports => Ok(Items::Imports(read_imports::<A, G>(bytes, alloc)?)),
        SectionKind::Memories => Ok(Items::Memories(read_whole::<'a, Vec<MemoryType, A>, A, G>(
            bytes, alloc,
        )?)),
        SectionKind::Start => Ok(Items::Start(read_whole::<'a, u32, A, G>(bytes, alloc)?)),
        SectionKind::Tables => Ok(Items::Tables(read_whole::<'a, Vec<TableItem<A>, A>, A, G>(
            bytes, alloc,
        )?)),
        SectionKind::Tags => Ok(Items::Tags(read_whole::<'a, Vec<TagType, A>, A, G>(
            bytes, alloc,
        )?)),
        SectionKind::Names => Ok(Items::Names(read_names::<A, G>(bytes, alloc)?)),
        SectionKind::Linking => Ok(Items::Linking(read_links::<A, G>(bytes, alloc)?)),
        SectionKind::Producers => Ok(Items::Producers(read_producers::<A, G>(bytes, alloc)?)),
        SectionKind::Hints => Ok(Items::Hints(read_hints::<A, G>(bytes, alloc)?)),
        SectionKind::Core => Ok(Items::Core(read_process::<A, G>(bytes, alloc)?)),
        SectionKind::CoreModules => Ok(Items::CoreModules(read_modules::<A, G>(bytes, alloc)?)),
        SectionKind::CoreInstances => Ok(Items::CoreInstances(read_instances::<A, G>(
            bytes, alloc,
        )?)),
        SectionKind::CoreStack => {
            let (thread, frames) = read_stack::<A, G>(bytes, alloc)?;
            Ok(Items::CoreStack { thread, frames })
        }
        SectionKind::Custom => {
            let (name, bytes) = <&'a str as Readable<'a, A, G>>::read(bytes, alloc)?;
            Ok(Items::Custom { name, bytes })
        }
        SectionKind::Raw => Ok(Items::Raw(bytes)),
        SectionKind::Types => Ok(Items::Types(read_types::<A, G>(bytes, alloc)?)),
        SectionKind::TargetFeatures => Ok(Items::TargetFeatures(read_features::<A, G>(
            bytes, alloc,
        )?)),
        SectionKind::SourceMappingUrl => Ok(Items::SourceMappingUrl(read_source_map::<A, G>(
            bytes, alloc,
        )?)),
        SectionKind::ExternalDebugInfo => Ok(Items::ExternalDebugInfo(read_debug_file::<A, G>(
            bytes, alloc,
        )?)),
        SectionKind::BuildId => Ok(Items::BuildId(read_build_id::<A, G>(bytes, alloc)?)),
        SectionKind::Dylink => Ok(Items::Dylink(read_dylink::<A, G>(bytes, alloc)?)),
        SectionKind::Relocations => {
            let (name, section, relocations) = read_relocations::<A, G>(bytes, alloc)?;
            Ok(Items::Relocations {
                name,
                section,
                relocations,
            })
        }
        SectionKind::InstructionFrequencies => Ok(Items::InstructionFrequencies(read_frequencies::<
            A,
            G,
        >(bytes, alloc)?)),
        SectionKind::CompilationOrders => Ok(Items::CompilationOrders(read_orders::<A, G>(
            bytes, alloc,
        )?)),
        SectionKind::CallTargets => Ok(Items::CallTargets(read_call_targets::<A, G>(
            bytes, alloc,
        )?)),
    }
}

/// Appends the minimal encoding of a custom section's payload: its name, and its data. On an error,
/// the sink is unchanged.
fn append_custom<B: Sink>(name: &str, bytes: &[u8], sink: &mut B) -> Result<()> {
    let start = sink.len();
    name.append_minimal(sink)?;
    match sink.extend_from_slice(bytes) {
        Ok(()) => Ok(()),
        Err(error) => {
            sink.truncate(start);
            Err(error.into())
        }
    }
}

/// Appends the minimal encoding of a section's payload with these items. On an error, the sink is
/// unchanged.
///
/// Types, code, imports, tables, globals, elements and data are written as builders write them. The
/// standard's grammar has a shorter encoding of some of them, such as a nullable reference type.
///
/// [`read_section`](crate::reader::read_section) and [`Section::items`](crate::reader::Section::items) return such
/// items. [`RawSection`](crate::base::RawSection) adds the id and the size prefix that make a section
/// of the payload.
///
/// The call promises nothing for items that no bytes encode: an instruction whose immediates are
/// not those of its opcode, say.
///
/// The encoding is minimal in the grammar of the builders. It can be longer than the bytes that
/// [`Section::items`](crate::reader::Section::items) decoded: `anyref` in one byte, 6E, becomes
/// 63 6E. [`encode_items_in`](crate::reader::encode_items_in) keeps the one byte.
///
/// # Errors
///
/// Returns `TooLong` only if no bytes decode to the items: in the builders' grammar for those
/// kinds, in either for the others. Returns `Memory` if an allocation fails.
///
/// # Examples
///
/// ```
/// use dolzhytik::fallible::Global;
/// use dolzhytik::reader::{Items, encode_items};
///
/// let mut payload = vec![];
/// encode_items(&Items::<Global>::Start(300), &mut payload)?;
/// // 300 = 2 * 128 + 44.
/// assert_eq!(payload, [0xAC, 0x02]);
/// # Ok::<(), dolzhytik::fallible::Refused>(())
/// ```
///
/// # Proved
///
/// After `Ok`: `ok`, the sink gains the encoding that is minimal in the grammars of the kind. After an error: `err`, the bytes of the sink are unchanged. In any case: `too_long`, a value that has an encoding never gives `TooLong`.
///
/// ```text
/// ensures ok { OnOk result
///     (AppendsMinimal (grammars_of (kind_in (contents_of items.now)))
///         (content (kind_in (contents_of items.now)))
///         (contents_of items.now) sink.old.items sink.new.items) }
/// ensures err { OnErr result (sink.new.items ≡ sink.old.items) }
/// ensures too_long { HasEncoding (grammars_of (kind_in (contents_of items.now)))
///     (content (kind_in (contents_of items.now))) (contents_of items.now)
///     → result ≢ Err TooLong }
/// ```
///
/// Definitions: [`AppendsMinimal`](crate::definitions::base::minimal::AppendsMinimal), [`grammars_of`](crate::definitions::reader::kinds::grammars_of), [`kind_in`](crate::definitions::reader::kinds::kind_in), [`contents_of`](crate::definitions::reader::kinds::contents_of), [`content`](crate::definitions::reader::kinds::content), [`HasEncoding`](crate::definitions::base::minimal::HasEncoding). [How to read clauses](crate::definitions).
pub fn encode_items<A: Allocator, B: Sink>(
    items: &Items<'_, A>,
    sink: &mut B,
) -> Result<()> {
    match items {
        Items::Bodies(items) => items.append_minimal(sink),
        Items::Segments(items) => items.append_minimal(sink),
        Items::DataCount(count) => count.append_minimal(sink),
        Items::Elements(items) => items.append_minimal(sink),
        Items::Exports(items) => items.as_slice().encode(sink),
        Items::Functions(items) => items.append_minimal(sink),
        Items::Globals(items) => items.append_minimal(sink),
        Items::Imports(items) => append_imports(items, sink),
        Items::Memories(items) => items.as_slice().encode(sink),
        Items::Start(index) => index.append_minimal(sink),
        Items::Tables(items) => items.append_minimal(sink),
        Items::Tags(items) => items.as_slice().encode(sink),
        Items::Names(items) => append_names(items, sink),
        Items::Linking(items) => append_links(items, sink),
        Items::Producers(items) => append_producers(items, sink),
        Items::Hints(items) => append_hints(items, sink),
        Items::Core(name) => append_process(name, sink),
        Items::CoreModules(items) => append_modules(items, sink),
        Items::CoreInstances(items) => append_instances(items, sink),
        Items::CoreStack { thread, frames } => append_stack(thread, frames, sink),
        Items::Custom { name, bytes } => append_custom(name, bytes, sink),
        Items::Raw(bytes) => {
            sink.extend_from_slice(bytes)?;
            Ok(())
        }
        Items::Types(items) => append_types(items, sink),
        Items::TargetFeatures(items) => append_features(items, sink),
        Items::SourceMappingUrl(url) => append_source_map(url, sink),
        Items::ExternalDebugInfo(path) => append_debug_file(path, sink),
        Items::BuildId(bytes) => append_build_id(bytes, sink),
        Items::Dylink(items) => append_dylink(items, sink),
        Items::Relocations {
            name,
            section,
            relocations,
        } => append_relocations(name, *section, relocations, sink),
        Items::InstructionFrequencies(items) => append_frequencies(items, sink),
        Items::CompilationOrders(items) => append_orders(items, sink),
        Items::CallTargets(items) => append_call_targets(items, sink),
    }
}
