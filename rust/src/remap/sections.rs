// Written by tools/to-rust from crates/wasm_remap/src/sections.rt: change that.
// Items of the standard's sections whose indices are mapped.

use crate::vec::Vec;
use crate::remap::indexed::{Indexed, Remap, RemapError, mapped, remap_each, remap_numbers};
use crate::remap::spaces::IndexSpace;
use crate::alloc::Allocator;
use crate::base::CowSlice;
use crate::sections::{ElementItem, ElementItemMode, ElementList, EntityType, Export, ExportKind, GlobalItem, GlobalType, ImportCompact, Imports, Segment, TableItem, TableType, TagType};

/// # Defined
///
/// ```text
/// Value = { TableType }
/// view = { λ ty. ty }
/// remapped = { remapped_table_type }
/// ```
///
/// Definitions: [`remapped_table_type`](crate::definitions::remap::items::remapped_table_type). [How to read clauses](crate::definitions).
impl<A: Allocator + Copy> Indexed<A> for TableType {
    fn remap<M: Remap>(&mut self, alloc: A, indices: &M) -> Result<(), RemapError<M::Error>> {
        self.element_type.remap(alloc, indices)
    }
}

/// # Defined
///
/// ```text
/// Value = { GlobalType }
/// view = { λ ty. ty }
/// remapped = { remapped_global_type }
/// ```
///
/// Definitions: [`remapped_global_type`](crate::definitions::remap::items::remapped_global_type). [How to read clauses](crate::definitions).
impl<A: Allocator + Copy> Indexed<A> for GlobalType {
    fn remap<M: Remap>(&mut self, alloc: A, indices: &M) -> Result<(), RemapError<M::Error>> {
        self.val_type.remap(alloc, indices)
    }
}

/// # Defined
///
/// ```text
/// Value = { TagType }
/// view = { λ ty. ty }
/// remapped = { remapped_tag }
/// ```
///
/// Definitions: [`remapped_tag`](crate::definitions::remap::items::remapped_tag). [How to read clauses](crate::definitions).
impl<A: Allocator + Copy> Indexed<A> for TagType {
    fn remap<M: Remap>(&mut self, _alloc: A, indices: &M) -> Result<(), RemapError<M::Error>> {
        self.func_type_idx = mapped(indices, IndexSpace::Types, self.func_type_idx)?;
        Ok(())
    }
}

/// # Defined
///
/// ```text
/// Value = { EntityType }
/// view = { λ ty. ty }
/// remapped = { remapped_entity }
/// ```
///
/// Definitions: [`remapped_entity`](crate::definitions::remap::items::remapped_entity). [How to read clauses](crate::definitions).
impl<A: Allocator + Copy> Indexed<A> for EntityType {
    fn remap<M: Remap>(&mut self, alloc: A, indices: &M) -> Result<(), RemapError<M::Error>> {
        match self {
            EntityType::Function(index) => {
                *index = mapped(indices, IndexSpace::Types, *index)?;
                Ok(())
            }
            EntityType::FunctionExact(index) => {
                *index = mapped(indices, IndexSpace::Types, *index)?;
                Ok(())
            }
            EntityType::Table(ty) => ty.remap(alloc, indices),
            EntityType::Memory(_) => Ok(()),
            EntityType::Global(ty) => ty.remap(alloc, indices),
            EntityType::Tag(ty) => ty.remap(alloc, indices),
        }
    }
}

/// # Defined
///
/// ```text
/// Value = { List ℕ × EntityType }
/// view = { compact_item }
/// remapped = { λ m item. (item.0, remapped_entity m item.1) }
/// ```
///
/// Definitions: [`compact_item`](crate::definitions::sections::imports::compact_item), [`remapped_entity`](crate::definitions::remap::items::remapped_entity). [How to read clauses](crate::definitions).
impl<A: Allocator + Copy> Indexed<A> for ImportCompact<'_> {
    fn remap<M: Remap>(&mut self, alloc: A, indices: &M) -> Result<(), RemapError<M::Error>> {
        self.ty.remap(alloc, indices)
    }
}

/// Decoded groups own their lists. A list that is borrowed is copied first.
///
/// # Defined
///
/// ```text
/// Value = { ImportItem }
/// view = { imports_item }
/// remapped = { remapped_import }
/// ```
///
/// Definitions: [`ImportItem`](crate::definitions::sections::imports::ImportItem), [`imports_item`](crate::definitions::sections::imports::imports_item), [`remapped_import`](crate::definitions::remap::items::remapped_import). [How to read clauses](crate::definitions).
impl<'a, A: Allocator + Copy> Indexed<A> for Imports<'a, A> {
    fn remap<M: Remap>(&mut self, alloc: A, indices: &M) -> Result<(), RemapError<M::Error>> {
        match self {
            Imports::Single(import) => import.ty.remap(alloc, indices),
            Imports::Compact1 { items, .. } => {
                let mut owned = Vec::from_slice(alloc, items.as_slice())?;
                remap_each(&mut owned, alloc, indices)?;
                *items = CowSlice::Owned(owned);
                Ok(())
            }
            Imports::Compact2 { ty, .. } => ty.remap(alloc, indices),
        }
    }
}

/// Returns the index space of an export.
fn space_of(kind: ExportKind) -> IndexSpace {
    match kind {
        ExportKind::Func => IndexSpace::Functions,
        ExportKind::Table => IndexSpace::Tables,
        ExportKind::Memory => IndexSpace::Memories,
        ExportKind::Global => IndexSpace::Globals,
        ExportKind::Tag => IndexSpace::Tags,
    }
}

/// # Defined
///
/// ```text
/// Value = { ExportItem }
/// view = { item_of }
/// remapped = { remapped_export }
/// ```
///
/// Definitions: [`ExportItem`](crate::definitions::sections::exports::ExportItem), [`item_of`](crate::definitions::sections::exports::item_of), [`remapped_export`](crate::definitions::remap::items::remapped_export). [How to read clauses](crate::definitions).
impl<A: Allocator + Copy> Indexed<A> for Export<'_> {
    fn remap<M: Remap>(&mut self, _alloc: A, indices: &M) -> Result<(), RemapError<M::Error>> {
        self.index = mapped(indices, space_of(self.kind), self.index)?;
        Ok(())
    }
}

/// # Defined
///
/// ```text
/// Value = { TableModel }
/// view = { table_view }
/// remapped = { remapped_table }
/// ```
///
/// Definitions: [`TableModel`](crate::definitions::sections::tables::TableItem), [`table_view`](crate::definitions::sections::tables::table_view), [`remapped_table`](crate::definitions::remap::items::remapped_table). [How to read clauses](crate::definitions).
impl<A: Allocator + Copy> Indexed<A> for TableItem<A> {
    fn remap<M: Remap>(&mut self, alloc: A, indices: &M) -> Result<(), RemapError<M::Error>> {
        self.table_type.remap(alloc, indices)?;
        match &mut self.init {
            Some(init) => init.remap(alloc, indices),
            None => Ok(()),
        }
    }
}

/// # Defined
///
/// ```text
/// Value = { GlobalModel }
/// view = { global_view }
/// remapped = { remapped_global }
/// ```
///
/// Definitions: [`GlobalModel`](crate::definitions::sections::globals::GlobalItem), [`global_view`](crate::definitions::sections::globals::global_view), [`remapped_global`](crate::definitions::remap::items::remapped_global). [How to read clauses](crate::definitions).
impl<A: Allocator + Copy> Indexed<A> for GlobalItem<A> {
    fn remap<M: Remap>(&mut self, alloc: A, indices: &M) -> Result<(), RemapError<M::Error>> {
        self.global_type.remap(alloc, indices)?;
        self.init.remap(alloc, indices)
    }
}

/// Returns the new table of an active element segment. If none is given, it is table 0.
fn mapped_table<M: Remap>(
    indices: &M,
    table: Option<u32>,
) -> Result<Option<u32>, RemapError<M::Error>> {
    match table {
        Some(index) => Ok(Some(mapped(indices, IndexSpace::Tables, index)?)),
        None => {
            let index = mapped(indices, IndexSpace::Tables, 0)?;
            if index == 0 {
                Ok(None)
            } else {
                Ok(Some(index))
            }
        }
    }
}

/// # Defined
///
/// ```text
/// Value = { SegmentMode (List Plain) }
/// view = { segment_mode_view }
/// remapped = { remapped_mode }
/// ```
///
/// Definitions: [`SegmentMode`](crate::definitions::sections::elements::SegmentMode), [`Plain`](crate::definitions::insn::plain::Plain), [`segment_mode_view`](crate::definitions::sections::elements::segment_mode_view), [`remapped_mode`](crate::definitions::remap::items::remapped_mode). [How to read clauses](crate::definitions).
impl<A: Allocator + Copy> Indexed<A> for ElementItemMode<A> {
    fn remap<M: Remap>(&mut self, alloc: A, indices: &M) -> Result<(), RemapError<M::Error>> {
        match self {
            ElementItemMode::Passive | ElementItemMode::Declared => Ok(()),
            ElementItemMode::Active { table, offset } => {
                *table = mapped_table(indices, *table)?;
                offset.remap(alloc, indices)
            }
        }
    }
}

/// # Defined
///
/// ```text
/// Value = { ElementsModel (List Plain) }
/// view = { list_view }
/// remapped = { remapped_elements }
/// ```
///
/// Definitions: [`ElementsModel`](crate::definitions::sections::elements::ElementList), [`Plain`](crate::definitions::insn::plain::Plain), [`list_view`](crate::definitions::sections::elements::list_view), [`remapped_elements`](crate::definitions::remap::items::remapped_elements). [How to read clauses](crate::definitions).
impl<A: Allocator + Copy> Indexed<A> for ElementList<A> {
    fn remap<M: Remap>(&mut self, alloc: A, indices: &M) -> Result<(), RemapError<M::Error>> {
        match self {
            ElementList::Functions(functions) => {
                remap_numbers(functions, IndexSpace::Functions, indices)
            }
            ElementList::Expressions(ty, expressions) => {
                ty.remap(alloc, indices)?;
                remap_each(expressions, alloc, indices)
            }
        }
    }
}

/// # Defined
///
/// ```text
/// Value = { ElementModel (List Plain) }
/// view = { element_view }
/// remapped = { remapped_element }
/// ```
///
/// Definitions: [`ElementModel`](crate::definitions::sections::elements::ElementItem), [`Plain`](crate::definitions::insn::plain::Plain), [`element_view`](crate::definitions::sections::elements::element_view), [`remapped_element`](crate::definitions::remap::items::remapped_element). [How to read clauses](crate::definitions).
impl<A: Allocator + Copy> Indexed<A> for ElementItem<A> {
    fn remap<M: Remap>(&mut self, alloc: A, indices: &M) -> Result<(), RemapError<M::Error>> {
        self.mode.remap(alloc, indices)?;
        self.elements.remap(alloc, indices)
    }
}

/// # Defined
///
/// ```text
/// Value = { DataItem }
/// view = { segment_view }
/// remapped = { remapped_data }
/// ```
///
/// Definitions: [`DataItem`](crate::definitions::sections::data_segments::DataItem), [`segment_view`](crate::definitions::sections::data_segments::segment_view), [`remapped_data`](crate::definitions::remap::items::remapped_data). [How to read clauses](crate::definitions).
impl<A: Allocator + Copy> Indexed<A> for Segment<'_, A> {
    fn remap<M: Remap>(&mut self, alloc: A, indices: &M) -> Result<(), RemapError<M::Error>> {
        match self {
            Segment::Active { memory, offset, .. } => {
                *memory = mapped(indices, IndexSpace::Memories, *memory)?;
                offset.remap(alloc, indices)
            }
            Segment::Passive { .. } => Ok(()),
        }
    }
}
