// Written by tools/to-rust from crates/wasm_custom/src/lib.rt: change that.
//! The custom sections of a WebAssembly module: names, linking, relocations, producers, target
//! features, dynamic linking, branch hints, compilation hints, core dumps, and references to debug
//! information.
//!
//! The crate builds these sections, decodes them, and writes decoded ones in their minimal
//! encoding. A call that decodes receives the payload of a section: its name and its items, up to
//! the last byte. `Ok` holds the items that the bytes encode in the grammar of the call. Every
//! error except [`ReadFault::Memory`] means that the bytes encode no such items.
//!
//! The name section is that of the WebAssembly core specification, "Custom Sections", with further
//! subsections. Branch hints and compilation hints are those of their proposals, and all others
//! those of the tool conventions.
//!
//! [`ReadFault::Memory`]: crate::base::ReadFault::Memory

mod call_targets;
mod checks;
mod code_metadata;
mod comdats;
mod compilation_orders;
mod core_dumps;
mod core_stack;
mod core_values;
mod core_walks;
mod counted;
mod custom_section;
mod debug_files;
mod dylink;
mod dylink_symbols;
mod dylink_walks;
mod entries;
mod hints;
mod init_functions;
mod instruction_frequencies;
mod item_walks;
pub mod joined;
pub mod laws;
mod link_walks;
pub(crate) mod linking;
mod lists;
mod marked;
mod minimize;
mod name_walks;
mod named;
mod names;
mod object_linking;
mod object_symbols;
mod producers;
mod raw_custom;
mod relocations;
mod segments;
mod single;
mod standard;
mod subsections;
mod symbols;
mod target_features;

pub use call_targets::CallTarget;
pub use call_targets::CallTargets;
pub use call_targets::append_call_targets;
pub use call_targets::read_call_targets;
pub(crate) use call_targets::walk_call_targets;
pub use checks::check_call_targets;
pub use checks::check_dylink;
pub use checks::check_features;
pub use checks::check_frequencies;
pub use checks::check_hints;
pub use checks::check_instances;
pub use checks::check_links;
pub use checks::check_modules;
pub use checks::check_names;
pub use checks::check_orders;
pub use checks::check_producers;
pub use checks::check_relocations;
pub use checks::check_stack;
pub use code_metadata::CodeHint;
pub use code_metadata::HintsOf;
pub use comdats::Comdat;
pub use comdats::ComdatMembers;
pub use comdats::ComdatSymbol;
pub use comdats::ComdatSymbolMembers;
pub use comdats::ComdatSymbols;
pub use comdats::Comdats;
pub use compilation_orders::CompilationOrder;
pub use compilation_orders::CompilationOrders;
pub use compilation_orders::append_orders;
pub use compilation_orders::read_orders;
pub(crate) use compilation_orders::walk_orders;
pub use core_dumps::CoreDumpInstancesSection;
pub use core_dumps::CoreDumpModulesSection;
pub use core_dumps::CoreDumpSection;
pub use core_dumps::InstanceItems;
pub use core_dumps::ModuleItems;
pub use core_dumps::append_instances;
pub use core_dumps::append_modules;
pub use core_dumps::append_process;
pub use core_dumps::read_instances;
pub use core_dumps::read_modules;
pub use core_dumps::read_process;
pub use core_stack::CoreDumpStackIn;
pub use core_stack::CoreDumpStackSection;
pub(crate) use core_stack::CoreFrame;
pub(crate) use core_stack::FrameItems;
pub use core_stack::append_stack;
pub use core_stack::read_stack;
pub use core_values::CoreDumpValue;
pub(crate) use core_walks::walk_instances;
pub(crate) use core_walks::walk_modules;
pub(crate) use core_walks::walk_process;
pub(crate) use core_walks::walk_stack;
pub use custom_section::CustomSection;
#[doc(alias = "build_id")]
pub use debug_files::BuildId;
#[doc(alias = "dwarf")]
#[doc(alias = "external_debug_info")]
pub use debug_files::ExternalDebugInfo;
#[doc(alias = "source map")]
#[doc(alias = "sourceMappingURL")]
pub use debug_files::SourceMappingUrl;
pub use debug_files::append_build_id;
pub use debug_files::append_debug_file;
pub use debug_files::append_source_map;
pub use debug_files::read_build_id;
pub use debug_files::read_debug_file;
pub use debug_files::read_source_map;
pub(crate) use debug_files::walk_build_id;
pub(crate) use debug_files::walk_debug_file;
pub(crate) use debug_files::walk_source_map;
pub(crate) use dylink::DylinkItem;
pub use dylink::DylinkItems;
#[doc(alias = "dylink.0")]
#[doc(alias = "dynamic linking")]
#[doc(alias = "shared library")]
pub use dylink::DylinkSection;
pub use dylink::append_dylink;
#[doc(alias = "dylink.0")]
pub use dylink::read_dylink;
pub use dylink_symbols::DylinkExport;
pub use dylink_symbols::DylinkExports;
pub use dylink_symbols::DylinkImport;
pub use dylink_symbols::DylinkImports;
pub use dylink_symbols::DylinkMemory;
pub use dylink_symbols::DylinkNeeded;
#[doc(alias = "rpath")]
pub use dylink_symbols::DylinkPath;
pub use dylink_symbols::ExportFlagMembers;
pub use dylink_symbols::ImportFlagMembers;
pub use dylink_symbols::NeededMembers;
pub use dylink_symbols::PathMembers;
pub(crate) use dylink_walks::walk_dylink;
pub use entries::CustomEntries;
pub use entries::CustomKind;
pub use hints::BranchHint;
pub use hints::BranchHints;
pub use hints::HintItems;
pub use hints::append_hints;
pub use hints::read_hints;
pub use init_functions::InitFunction;
pub use init_functions::InitFunctions;
pub use init_functions::InitMembers;
pub use instruction_frequencies::InstructionFrequencies;
pub use instruction_frequencies::InstructionFrequency;
pub use instruction_frequencies::append_frequencies;
pub use instruction_frequencies::read_frequencies;
pub(crate) use instruction_frequencies::walk_frequencies;
pub(crate) use item_walks::walk_features;
pub(crate) use item_walks::walk_hints;
pub(crate) use item_walks::walk_producers;
pub(crate) use item_walks::walk_relocations;
pub(crate) use link_walks::walk_links;
pub(crate) use linking::LinkItem;
pub use linking::LinkingItems;
pub use linking::LinkingSection;
pub use linking::append_links;
pub use linking::read_links;
pub use lists::CountedList;
pub use lists::ListKind;
pub(crate) use lists::MembersOf;
pub use minimize::minimize_call_targets;
pub use minimize::minimize_dylink;
pub use minimize::minimize_features;
pub use minimize::minimize_frequencies;
pub use minimize::minimize_hints;
pub use minimize::minimize_instances;
pub use minimize::minimize_links;
pub use minimize::minimize_modules;
pub use minimize::minimize_names;
pub use minimize::minimize_orders;
pub use minimize::minimize_producers;
pub use minimize::minimize_relocations;
pub use minimize::minimize_stack;
pub(crate) use name_walks::walk_names;
pub use names::IndirectMembers;
pub use names::IndirectNameMap;
pub(crate) use names::NameItem;
pub use names::NameItems;
pub use names::NameMap;
pub use names::NameMembers;
pub use names::NameSection;
pub use names::append_names;
pub use names::read_names;
pub use object_linking::ObjectLinking;
pub use object_linking::ObjectLinkingItems;
pub use object_symbols::ObjectSymbolMembers;
pub use object_symbols::ObjectSymbols;
pub use producers::ProducerItems;
pub use producers::ProducersField;
pub use producers::ProducersSection;
pub use producers::ValueMembers;
pub use producers::append_producers;
pub use producers::read_producers;
pub use raw_custom::RawCustomSection;
#[doc(alias = "R_WASM_MEMORY_ADDR_LEB")]
#[doc(alias = "R_WASM_MEMORY_ADDR_SLEB")]
#[doc(alias = "R_WASM_MEMORY_ADDR_I32")]
#[doc(alias = "R_WASM_SECTION_OFFSET_I32")]
pub use relocations::Addend32Relocation;
#[doc(alias = "R_WASM_MEMORY_ADDR_LEB64")]
#[doc(alias = "R_WASM_MEMORY_ADDR_SLEB64")]
#[doc(alias = "R_WASM_MEMORY_ADDR_I64")]
pub use relocations::Addend64Relocation;
#[doc(alias = "R_WASM_FUNCTION_INDEX_LEB")]
#[doc(alias = "R_WASM_TABLE_INDEX_SLEB")]
#[doc(alias = "R_WASM_TYPE_INDEX_LEB")]
#[doc(alias = "R_WASM_GLOBAL_INDEX_LEB")]
pub use relocations::PlainRelocation;
pub use relocations::Relocation;
pub use relocations::RelocationKind;
#[doc(alias = "reloc")]
#[doc(alias = "reloc.CODE")]
#[doc(alias = "reloc.DATA")]
#[doc(alias = "object file")]
pub use relocations::RelocationSection;
pub use relocations::append_relocations;
#[doc(alias = "reloc")]
pub use relocations::read_relocations;
pub use segments::SegmentInfo;
pub use segments::SegmentInfos;
pub use segments::SegmentMembers;
pub use symbols::DataSymbolDefinition;
pub(crate) use symbols::Symbol;
pub use symbols::SymbolKind;
pub use symbols::SymbolMembers;
pub use symbols::SymbolTable;
pub use target_features::FeatureItems;
pub use target_features::FeaturePrefix;
#[doc(alias = "target_features")]
#[doc(alias = "simd128")]
#[doc(alias = "bulk-memory")]
pub use target_features::TargetFeaturesSection;
pub use target_features::append_features;
#[doc(alias = "target_features")]
pub use target_features::read_features;

/// The names that decode, which `reader` exports.
pub(crate) mod reading {
    pub use super::core_stack::CoreFrame;
    pub use super::dylink::DylinkItem;
    pub use super::linking::LinkItem;
    pub use super::names::NameItem;
    pub use super::symbols::Symbol;
}
