// Written by tools/to-rust from crates/wasm_sections/src/joined.rt: change that.
//! The sections of counted items over [`Entries`]: a section keeps the bytes of its entries and
//! their number. It does not keep where an entry ends, and no call returns an entry.

use crate::sections::counted_section::CountedSection;
use crate::sections::data::DataItems;
use crate::sections::element::ElementItems;
use crate::sections::export::ExportItems;
use crate::sections::function::FunctionItems;
use crate::sections::global::GlobalItems;
use crate::sections::import::ImportItems;
use crate::sections::memory::MemoryItems;
use crate::sections::table::TableItems;
use crate::sections::tag::TagItems;
use crate::alloc::Global;
use crate::base::Entries;

/// The function section.
pub type FunctionSection<A = Global> = CountedSection<FunctionItems, Entries<A>>;

/// The table section.
pub type TableSection<A = Global> = CountedSection<TableItems, Entries<A>>;

/// The memory section.
pub type MemorySection<A = Global> = CountedSection<MemoryItems, Entries<A>>;

/// The tag section.
pub type TagSection<A = Global> = CountedSection<TagItems, Entries<A>>;

/// The global section.
pub type GlobalSection<A = Global> = CountedSection<GlobalItems, Entries<A>>;

/// The export section.
pub type ExportSection<A = Global> = CountedSection<ExportItems, Entries<A>>;

/// The import section.
pub type ImportSection<A = Global> = CountedSection<ImportItems, Entries<A>>;

/// The element section.
pub type ElementSection<A = Global> = CountedSection<ElementItems, Entries<A>>;

/// The data section.
pub type DataSection<A = Global> = CountedSection<DataItems, Entries<A>>;
