// Written by tools/drop-in from tools/root-exports.tsv: change that.
//! The names of the root. Words for search are here: rustdoc drops those of definitions.

#[doc(alias = "gc")]
#[doc(alias = "any")]
#[doc(alias = "exnref")]
pub use crate::base::AbstractHeapType;
pub use crate::base::CORE_FUNCTION_EXACT_SORT;
pub use crate::base::CORE_FUNCTION_SORT;
pub use crate::base::CORE_GLOBAL_SORT;
pub use crate::base::CORE_MEMORY_SORT;
pub use crate::base::CORE_TABLE_SORT;
pub use crate::base::CORE_TAG_SORT;
pub use crate::base::HeapType;
#[doc(alias = "reference types")]
pub use crate::base::RefType;
pub use crate::base::ValType;
#[doc(alias = "leb128")]
pub use crate::base::encoding_size;
pub use crate::custom::BranchHint;
#[doc(alias = "coredump")]
pub use crate::custom::CoreDumpValue;
pub use crate::custom::DataSymbolDefinition;
pub use crate::custom::RawCustomSection;
pub use crate::immediates::BlockType;
#[doc(alias = "exception handling")]
pub use crate::immediates::Catch;
#[doc(alias = "continuation")]
#[doc(alias = "stack switching")]
pub use crate::immediates::Handle;
pub use crate::immediates::Ieee32;
pub use crate::immediates::Ieee64;
#[doc(alias = "simd")]
pub use crate::immediates::Lane;
#[doc(alias = "memarg")]
#[doc(alias = "memory64")]
#[doc(alias = "multi-memory")]
pub use crate::immediates::MemArg;
#[doc(alias = "atomic")]
pub use crate::immediates::MemArgOrdering;
pub use crate::immediates::MemArgTarget;
#[doc(alias = "atomic")]
pub use crate::immediates::Ordering;
#[doc(alias = "bulk memory")]
pub use crate::sections::DataCountSection;
#[doc(alias = "externtype")]
#[doc(alias = "extern type")]
pub use crate::sections::EntityType;
pub use crate::sections::ExportKind;
pub use crate::sections::GlobalType;
pub use crate::sections::Import;
pub use crate::sections::ImportCompact;
#[doc(alias = "memory64")]
#[doc(alias = "custom page sizes")]
#[doc(alias = "limits")]
pub use crate::sections::MemoryType;
pub use crate::sections::StartSection;
#[doc(alias = "table64")]
#[doc(alias = "limits")]
pub use crate::sections::TableType;
#[doc(alias = "exception handling")]
pub use crate::sections::TagKind;
pub use crate::sections::TagType;
#[doc(alias = "gc")]
pub use crate::types::ArrayType;
#[doc(alias = "stack switching")]
pub use crate::types::ContType;
#[doc(alias = "gc")]
pub use crate::types::FieldType;
#[doc(alias = "gc")]
#[doc(alias = "packed")]
pub use crate::types::StorageType;
#[doc(alias = "bodies")]
#[doc(alias = "code section")]
pub use super::code::CodeSection;
#[doc(alias = "body")]
#[doc(alias = "func")]
#[doc(alias = "locals")]
pub use super::code::Function;
#[doc(alias = "assembler")]
#[doc(alias = "emit")]
pub use super::code::InstructionSink;
#[doc(alias = "init")]
#[doc(alias = "initializer")]
#[doc(alias = "constant expression")]
#[doc(alias = "extended const")]
pub use super::const_expr::ConstExpr;
#[doc(alias = "likely")]
pub use super::custom::BranchHints;
#[doc(alias = "coredump")]
pub use super::custom::CoreDumpInstancesSection;
#[doc(alias = "coredump")]
pub use super::custom::CoreDumpModulesSection;
pub use super::custom::IndirectNameMap;
#[doc(alias = "object file")]
#[doc(alias = "linker")]
#[doc(alias = "linking section")]
pub use super::custom::LinkingSection;
pub use super::custom::NameMap;
#[doc(alias = "debug names")]
#[doc(alias = "name section")]
pub use super::custom::NameSection;
pub use super::custom::ProducersField;
#[doc(alias = "producers section")]
pub use super::custom::ProducersSection;
#[doc(alias = "symtab")]
pub use super::custom::SymbolTable;
#[doc(alias = "coredump")]
pub use super::custom::CoreDumpSection;
#[doc(alias = "coredump")]
#[doc(alias = "backtrace")]
pub use super::custom::CoreDumpStackSection;
#[doc(alias = "leb128")]
#[doc(alias = "varint")]
#[doc(alias = "uleb128")]
#[doc(alias = "sleb128")]
#[doc(alias = "serialize")]
pub use super::encode::Encode;
pub use super::encode::Section;
pub use super::encode::encode_section;
pub use super::encode::encode_vec;
#[doc(alias = "opcode")]
#[doc(alias = "operator")]
#[doc(alias = "mnemonic")]
#[doc(alias = "wat")]
#[doc(alias = "simd")]
#[doc(alias = "threads")]
#[doc(alias = "tail call")]
#[doc(alias = "bulk memory")]
pub use super::instruction::Instruction;
#[doc(alias = "wasm")]
#[doc(alias = "encoder")]
pub use super::module::Module;
pub use super::own_types::CompositeInnerType;
pub use super::own_types::CompositeType;
#[doc(alias = "metadata")]
#[doc(alias = "dwarf")]
#[doc(alias = "custom section")]
pub use super::own_types::CustomSection;
pub use super::own_types::DataSegment;
pub use super::own_types::DataSegmentMode;
pub use super::own_types::ElementMode;
pub use super::own_types::ElementSegment;
pub use super::own_types::Elements;
#[doc(alias = "compact imports")]
pub use super::own_types::Imports;
pub use super::own_types::RawSection;
pub use super::own_types::SectionId;
#[doc(alias = "gc")]
pub use super::own_types::StructType;
#[doc(alias = "gc")]
#[doc(alias = "supertype")]
pub use super::own_types::SubType;
#[doc(alias = "data section")]
pub use super::sections::DataSection;
#[doc(alias = "elem")]
#[doc(alias = "element section")]
pub use super::sections::ElementSection;
#[doc(alias = "export")]
#[doc(alias = "export section")]
pub use super::sections::ExportSection;
#[doc(alias = "function section")]
pub use super::sections::FunctionSection;
#[doc(alias = "global section")]
pub use super::sections::GlobalSection;
#[doc(alias = "import")]
#[doc(alias = "import section")]
pub use super::sections::ImportSection;
#[doc(alias = "memory64")]
#[doc(alias = "linear memory")]
#[doc(alias = "memory section")]
pub use super::sections::MemorySection;
#[doc(alias = "table64")]
#[doc(alias = "table section")]
pub use super::sections::TableSection;
#[doc(alias = "exception handling")]
#[doc(alias = "event")]
#[doc(alias = "tag section")]
pub use super::sections::TagSection;
#[doc(alias = "gc")]
#[doc(alias = "rectype")]
#[doc(alias = "type section")]
pub use super::types::TypeSection;
#[doc(alias = "signature")]
#[doc(alias = "functype")]
pub use super::types::FuncType;
pub use super::types::CoreTypeEncoder;
