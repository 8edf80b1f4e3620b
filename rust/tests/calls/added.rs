// Written by tools/to-rust from crates/calls/src/added.rt: change that.
//! Calls that add an entry to a custom section: the contract states the entry's bytes.

use dolzhytik::fallible::Allocator;
use dolzhytik::fallible::Result;
use dolzhytik::fallible::{NameMap, NameSection, SymbolTable};

/// Adds names of types, in the subsection 4.
///
/// # Proved
///
/// ```text
/// ensures { OnOk result (section.new ≡ section.old ++ subsection_encoding 4 (list_encoding (pieces_model.joins names.now)) ∷ []) }
/// ```
pub fn name_types<A: Allocator, B: Allocator>(
    section: &mut NameSection<A>,
    names: &NameMap<B>,
) -> Result<()> {
    section.types(names)
}

/// Adds names of tables, in the subsection 5.
///
/// # Proved
///
/// ```text
/// ensures { OnOk result (section.new ≡ section.old ++ subsection_encoding 5 (list_encoding (pieces_model.joins names.now)) ∷ []) }
/// ```
pub fn name_tables<A: Allocator, B: Allocator>(
    section: &mut NameSection<A>,
    names: &NameMap<B>,
) -> Result<()> {
    section.tables(names)
}

/// Adds names of memories, in the subsection 6.
///
/// # Proved
///
/// ```text
/// ensures { OnOk result (section.new ≡ section.old ++ subsection_encoding 6 (list_encoding (pieces_model.joins names.now)) ∷ []) }
/// ```
pub fn name_memories<A: Allocator, B: Allocator>(
    section: &mut NameSection<A>,
    names: &NameMap<B>,
) -> Result<()> {
    section.memories(names)
}

/// Adds names of globals, in the subsection 7.
///
/// # Proved
///
/// ```text
/// ensures { OnOk result (section.new ≡ section.old ++ subsection_encoding 7 (list_encoding (pieces_model.joins names.now)) ∷ []) }
/// ```
pub fn name_globals<A: Allocator, B: Allocator>(
    section: &mut NameSection<A>,
    names: &NameMap<B>,
) -> Result<()> {
    section.globals(names)
}

/// Adds names of element segments, in the subsection 8.
///
/// # Proved
///
/// ```text
/// ensures { OnOk result (section.new ≡ section.old ++ subsection_encoding 8 (list_encoding (pieces_model.joins names.now)) ∷ []) }
/// ```
pub fn name_elements<A: Allocator, B: Allocator>(
    section: &mut NameSection<A>,
    names: &NameMap<B>,
) -> Result<()> {
    section.elements(names)
}

/// Adds names of tags, in the subsection 11.
///
/// # Proved
///
/// ```text
/// ensures { OnOk result (section.new ≡ section.old ++ subsection_encoding 11 (list_encoding (pieces_model.joins names.now)) ∷ []) }
/// ```
pub fn name_tags<A: Allocator, B: Allocator>(
    section: &mut NameSection<A>,
    names: &NameMap<B>,
) -> Result<()> {
    section.tag(names)
}

/// Adds a global that another module defines: its flags say that it is not defined here, and it has
/// no name.
///
/// # Proved
///
/// ```text
/// ensures { OnOk result (table.new ≡ table.old ++ indexed_encoding kinds.Global 0x10 index [] ∷ []) }
/// ```
pub fn import_global<A: Allocator>(table: &mut SymbolTable<A>, index: u32) -> Result<()> {
    table.global(0x10, index, None)
}

/// Adds a table that another module defines.
///
/// # Proved
///
/// ```text
/// ensures { OnOk result (table.new ≡ table.old ++ indexed_encoding kinds.Table 0x10 index [] ∷ []) }
/// ```
pub fn import_table<A: Allocator>(table: &mut SymbolTable<A>, index: u32) -> Result<()> {
    table.table(0x10, index, None)
}
