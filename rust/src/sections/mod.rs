// Written by tools/to-rust from crates/wasm_sections/src/lib.rt: change that.
//! The core sections of a WebAssembly module except types and code, by the core specification,
//! "Binary Format", "Modules".
//!
//! Each section has a builder. The crate also decodes their items (`Readable` of `wasm_base`), walks
//! over them (`Walk`), and writes decoded ones in their minimal encoding (`Shorten`).

pub(crate) mod counted_section;
pub(crate) mod data;
pub(crate) mod element;
pub(crate) mod element_items;
pub(crate) mod export;
pub(crate) mod flags;
pub(crate) mod function;
pub(crate) mod global;
pub(crate) mod import;
pub mod joined;
pub mod laws;
pub(crate) mod memory;
pub(crate) mod start;
pub(crate) mod table;
pub(crate) mod tag;
pub(crate) mod walk;

pub use counted_section::{CountedSection, ItemKind, RecordOf};
pub use data::{DataItems, DataSection, DataSegment, DataSegmentMode, read_segments};
pub(crate) use data::Segment;
pub use element::{ElementItems, ElementMode, ElementSection, ElementSegment, Elements};
pub(crate) use element_items::{ElementItem, ElementItemMode, ElementList};
pub use export::{Export, ExportItems, ExportKind, ExportSection};
pub use function::{FunctionItems, FunctionSection};
pub use global::{GlobalItems, GlobalSection, GlobalType};
pub(crate) use global::GlobalItem;
pub use import::{
    EntityType, Import, ImportCompact, ImportItems, ImportSection, Imports, append_imports,
    read_imports,
};
pub use memory::{MemoryItems, MemorySection, MemoryType};
pub use start::{DataCountSection, StartSection};
pub use table::{TableItems, TableSection, TableType};
pub(crate) use table::TableItem;
pub use tag::{TagItems, TagKind, TagSection, TagType};

/// The names that decode, which `reader` exports.
pub(crate) mod reading {
    pub use super::data::Segment;
    pub use super::element_items::{ElementItem, ElementItemMode, ElementList};
    pub use super::global::GlobalItem;
    pub use super::table::TableItem;
}
