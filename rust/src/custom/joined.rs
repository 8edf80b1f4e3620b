// Written by tools/to-rust from crates/wasm_custom/src/joined.rt: change that.
//! The custom sections of entries, and the lists in them, over [`Entries`]: each keeps the bytes of
//! its entries and their number. It does not keep where an entry ends.

use crate::vec::Vec;
use crate::custom::call_targets::CallTarget;
use crate::custom::code_metadata::HintsOf;
use crate::custom::comdats::{ComdatMembers, ComdatSymbolMembers};
use crate::custom::compilation_orders::CompilationOrder;
use crate::custom::core_dumps::{InstanceItems, ModuleItems};
use crate::custom::core_stack::CoreDumpStackIn;
use crate::custom::dylink::DylinkItems;
use crate::custom::dylink_symbols::{ExportFlagMembers, ImportFlagMembers, NeededMembers, PathMembers};
use crate::custom::entries::CustomEntries;
use crate::custom::hints::HintItems;
use crate::custom::init_functions::InitMembers;
use crate::custom::instruction_frequencies::InstructionFrequency;
use crate::custom::linking::LinkingItems;
use crate::custom::lists::CountedList;
use crate::custom::names::{IndirectMembers, NameItems, NameMembers};
use crate::custom::object_linking::ObjectLinkingItems;
use crate::custom::object_symbols::ObjectSymbolMembers;
use crate::custom::producers::{ProducerItems, ValueMembers};
use crate::custom::segments::SegmentMembers;
use crate::custom::symbols::SymbolMembers;
use crate::custom::target_features::FeatureItems;
use crate::alloc::Global;
use crate::base::Entries;

/// Branch hints.
pub type BranchHints<A = Global> = CustomEntries<HintItems, Entries<A>>;

/// Call targets.
///
/// # Examples
///
/// ```
/// use dolzhytik::fallible::{CallTarget, CallTargets, CodeHint, Encode, Global, Vec};
///
/// let target = CallTarget { function_index: 9, percent: 90 };
/// let value = Vec::from_slice(Global, &[target])?;
/// let mut targets = CallTargets::new(Global);
/// targets.function_hints(7, [CodeHint { offset: 3, value }])?;
/// let mut bytes = vec![];
/// targets.encode(&mut bytes)?;
/// // Size 34, the name; one function, 7, with one hint: offset 3, two bytes, function 9, 90 percent.
/// assert_eq!(bytes, *b"\x22\x1ametadata.code.call_targets\x01\x07\x01\x03\x02\x09\x5a");
/// # Ok::<(), dolzhytik::fallible::Refused>(())
/// ```
pub type CallTargets<A = Global> = CustomEntries<HintsOf<Vec<CallTarget, A>>, Entries<A>>;

/// The members of a COMDAT group.
///
/// [`Comdats`](crate::fallible::Comdats) takes it.
///
/// # Examples
///
/// ```
/// use dolzhytik::fallible::{ComdatSymbols, Encode, Global};
///
/// let mut members = ComdatSymbols::new(Global);
/// members.symbol(1, 7)?;
/// let mut bytes = vec![];
/// members.encode(&mut bytes)?;
/// // One member: a function (1) of the index 7.
/// assert_eq!(bytes, [1, 1, 7]);
/// # Ok::<(), dolzhytik::fallible::Refused>(())
/// ```
pub type ComdatSymbols<A = Global> = CountedList<ComdatSymbolMembers, Entries<A>>;

/// The COMDAT groups of a module.
pub type Comdats<A = Global> = CountedList<ComdatMembers, Entries<A>>;

/// Compilation orders.
///
/// # Examples
///
/// ```
/// use dolzhytik::fallible::{CodeHint, CompilationOrder, CompilationOrders, Encode, Global};
///
/// let value = CompilationOrder { order: 1, hotness: Some(5) };
/// let mut orders = CompilationOrders::new(Global);
/// orders.function_hints(7, [CodeHint { offset: 0, value }])?;
/// let mut bytes = vec![];
/// orders.encode(&mut bytes)?;
/// // Size 39, the name; one function, 7, with one hint: offset 0, two bytes, order 1, hotness 5.
/// assert_eq!(bytes, *b"\x27\x1fmetadata.code.compilation_order\x01\x07\x01\0\x02\x01\x05");
/// # Ok::<(), dolzhytik::fallible::Refused>(())
/// ```
pub type CompilationOrders<A = Global> = CustomEntries<HintsOf<CompilationOrder>, Entries<A>>;

/// The instances of a core dump.
pub type CoreDumpInstancesSection<A = Global> = CustomEntries<InstanceItems, Entries<A>>;

/// The modules of a core dump.
pub type CoreDumpModulesSection<A = Global> = CustomEntries<ModuleItems, Entries<A>>;

/// Flags of exported symbols.
///
/// [`DylinkSection::exports`](crate::fallible::DylinkSection::exports) takes it.
///
/// # Examples
///
/// ```
/// use dolzhytik::fallible::{DylinkExports, Encode, Global, SymbolTable};
///
/// let mut exports = DylinkExports::new(Global);
/// exports.export("f", SymbolTable::WASM_SYM_BINDING_WEAK)?;
/// let mut bytes = vec![];
/// exports.encode(&mut bytes)?;
/// // Subsection 3, size 4: one export, "f", the flag 1.
/// assert_eq!(bytes, *b"\x03\x04\x01\x01f\x01");
/// # Ok::<(), dolzhytik::fallible::Refused>(())
/// ```
pub type DylinkExports<A = Global> = CountedList<ExportFlagMembers, Entries<A>>;

/// Flags of imported symbols.
///
/// [`DylinkSection::imports`](crate::fallible::DylinkSection::imports) takes it.
///
/// # Examples
///
/// ```
/// use dolzhytik::fallible::{DylinkImports, Encode, Global, SymbolTable};
///
/// let mut imports = DylinkImports::new(Global);
/// imports.import("env", "g", SymbolTable::WASM_SYM_BINDING_WEAK)?;
/// let mut bytes = vec![];
/// imports.encode(&mut bytes)?;
/// // Subsection 4, size 8: one import, "env" and "g", the flag 1.
/// assert_eq!(bytes, *b"\x04\x08\x01\x03env\x01g\x01");
/// # Ok::<(), dolzhytik::fallible::Refused>(())
/// ```
pub type DylinkImports<A = Global> = CountedList<ImportFlagMembers, Entries<A>>;

/// The libraries that a dynamic library needs.
///
/// [`DylinkSection::needed`](crate::fallible::DylinkSection::needed) takes it.
///
/// # Examples
///
/// ```
/// use dolzhytik::fallible::{DylinkNeeded, Encode, Global};
///
/// let mut libraries = DylinkNeeded::new(Global);
/// libraries.library("a.so")?;
/// let mut bytes = vec![];
/// libraries.encode(&mut bytes)?;
/// // Subsection 2, size 6: one name, of four bytes.
/// assert_eq!(bytes, *b"\x02\x06\x01\x04a.so");
/// # Ok::<(), dolzhytik::fallible::Refused>(())
/// ```
pub type DylinkNeeded<A = Global> = CountedList<NeededMembers, Entries<A>>;

/// The folders in which the loader searches for libraries.
///
/// [`DylinkSection::runtime_path`](crate::fallible::DylinkSection::runtime_path) takes it.
///
/// # Examples
///
/// ```
/// use dolzhytik::fallible::{DylinkPath, Encode, Global};
///
/// let mut folders = DylinkPath::new(Global);
/// folders.folder("/l")?;
/// let mut bytes = vec![];
/// folders.encode(&mut bytes)?;
/// // Subsection 5, size 4: one path, of two bytes.
/// assert_eq!(bytes, *b"\x05\x04\x01\x02/l");
/// # Ok::<(), dolzhytik::fallible::Refused>(())
/// ```
pub type DylinkPath<A = Global> = CountedList<PathMembers, Entries<A>>;

/// The stack of a thread in a core dump.
pub type CoreDumpStackSection<A = Global> = CoreDumpStackIn<Entries<A>>;

/// The section of a dynamic library.
///
/// The tool conventions define it in [Dynamic
/// linking](https://github.com/WebAssembly/tool-conventions/blob/main/DynamicLinking.md).
/// [`Items::Dylink`](crate::reader::Items::Dylink) has the subsections of a decoded section.
pub type DylinkSection<A = Global> = CustomEntries<DylinkItems, Entries<A>>;

/// An indirect name map.
///
/// [`NameSection`](crate::fallible::NameSection) takes it.
///
/// # Examples
///
/// ```
/// use dolzhytik::fallible::{Encode, Global, IndirectNameMap, NameMap};
///
/// let mut parameters = NameMap::new(Global);
/// parameters.append(0, "x")?;
/// let mut locals = IndirectNameMap::new(Global);
/// locals.append(5, &parameters)?;
/// let mut bytes = vec![];
/// locals.encode(&mut bytes)?;
/// // One function, 5, of one name: the index 0, "x".
/// assert_eq!(bytes, [1, 5, 1, 0, 1, b'x']);
/// # Ok::<(), dolzhytik::fallible::Refused>(())
/// ```
pub type IndirectNameMap<A = Global> = CountedList<IndirectMembers, Entries<A>>;

/// The init functions of an object file.
pub type InitFunctions<A = Global> = CountedList<InitMembers, Entries<A>>;

/// Instruction frequencies.
///
/// # Examples
///
/// ```
/// use dolzhytik::fallible::{CodeHint, Encode, Global, InstructionFrequencies, InstructionFrequency};
///
/// let hint = CodeHint { offset: 3, value: InstructionFrequency(32) };
/// let mut frequencies = InstructionFrequencies::new(Global);
/// frequencies.function_hints(7, [hint])?;
/// let mut bytes = vec![];
/// frequencies.encode(&mut bytes)?;
/// // Size 31, the name; one function, 7, with one hint: offset 3, one byte, frequency 32.
/// assert_eq!(bytes, *b"\x1f\x18metadata.code.instr_freq\x01\x07\x01\x03\x01\x20");
/// # Ok::<(), dolzhytik::fallible::Refused>(())
/// ```
pub type InstructionFrequencies<A = Global> = CustomEntries<
    HintsOf<InstructionFrequency>,
    Entries<A>,
>;

/// The linking section.
pub type LinkingSection<A = Global> = CustomEntries<LinkingItems, Entries<A>>;

/// A name map.
///
/// [`NameSection`](crate::fallible::NameSection) takes it.
///
/// # Examples
///
/// ```
/// use dolzhytik::fallible::{Global, NameMap, NameSection};
///
/// let mut functions = NameMap::new(Global);
/// functions.append(0, "main")?;
/// let mut names = NameSection::new(Global);
/// names.functions(&functions)?;
/// assert_eq!(names.len(), 1);
/// # Ok::<(), dolzhytik::fallible::Refused>(())
/// ```
pub type NameMap<A = Global> = CountedList<NameMembers, Entries<A>>;

/// The name section.
pub type NameSection<A = Global> = CustomEntries<NameItems, Entries<A>>;

/// The linking section of an object file.
pub type ObjectLinking<A = Global> = CustomEntries<ObjectLinkingItems, Entries<A>>;

/// The symbol table of an object file.
pub type ObjectSymbols<A = Global> = CountedList<ObjectSymbolMembers, Entries<A>>;

/// The values of a producers field.
///
/// [`ProducersSection`](crate::fallible::ProducersSection) takes it.
///
/// # Examples
///
/// ```
/// use dolzhytik::fallible::{Encode, Global, ProducersField};
///
/// let mut languages = ProducersField::new(Global);
/// languages.value("C", "99")?;
/// let mut bytes = vec![];
/// languages.encode(&mut bytes)?;
/// // One value: "C", "99".
/// assert_eq!(bytes, *b"\x01\x01C\x0299");
/// # Ok::<(), dolzhytik::fallible::Refused>(())
/// ```
pub type ProducersField<A = Global> = CountedList<ValueMembers, Entries<A>>;

/// The producers section.
pub type ProducersSection<A = Global> = CustomEntries<ProducerItems, Entries<A>>;

/// The segments of an object file.
pub type SegmentInfos<A = Global> = CountedList<SegmentMembers, Entries<A>>;

/// A symbol table.
pub type SymbolTable<A = Global> = CountedList<SymbolMembers, Entries<A>>;

/// The target features section.
///
/// The tool conventions define it in
/// [Linking](https://github.com/WebAssembly/tool-conventions/blob/main/Linking.md#target-features-section).
/// [`Items::TargetFeatures`](crate::reader::Items::TargetFeatures) has the features of a
/// decoded section. A module of the root takes the encoding as a
/// [`RawCustomSection`](crate::RawCustomSection).
pub type TargetFeaturesSection<A = Global> = CustomEntries<FeatureItems, Entries<A>>;
