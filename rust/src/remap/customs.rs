// Written by tools/to-rust from crates/wasm_remap/src/customs.rt: change that.
// Items of custom sections whose indices are mapped.

use crate::vec::Vec;
use crate::remap::indexed::{Indexed, Remap, RemapError, mapped, mapped_number, remap_each, remap_firsts, remap_numbers};
use crate::remap::spaces::IndexSpace;
use crate::alloc::Allocator;
use crate::custom::{BranchHint, CallTarget, CodeHint, Comdat, ComdatSymbol, CompilationOrder, InstructionFrequency, LinkItem, NameItem, PlainRelocation, Relocation, Symbol};

/// Returns the index space of a name map, or of the outer indices of an indirect one, by its id.
fn space_of_names(id: u8) -> Option<IndexSpace> {
    match id {
        1..=3 => Some(IndexSpace::Functions),
        4 | 10 | 12 => Some(IndexSpace::Types),
        5 => Some(IndexSpace::Tables),
        6 => Some(IndexSpace::Memories),
        7 => Some(IndexSpace::Globals),
        8 => Some(IndexSpace::Elements),
        9 => Some(IndexSpace::Data),
        11 | 13 => Some(IndexSpace::Tags),
        _ => None,
    }
}

/// Returns the index space of the indices of a subsection, or of the outer ones.
pub(crate) fn space_of_subsection<A: Allocator>(item: &NameItem<'_, A>) -> Option<IndexSpace> {
    match item {
        NameItem::Module(_) => None,
        NameItem::Map { id, .. } | NameItem::Indirect { id, .. } | NameItem::Other { id, .. } => {
            space_of_names(*id)
        }
    }
}

/// Maps the indices of a name map.
fn remap_names<M: Remap>(
    names: &mut [(u32, &str)],
    space: Option<IndexSpace>,
    indices: &M,
) -> Result<(), RemapError<M::Error>> {
    remap_firsts(names, space, indices)
}

/// Maps the outer indices of an indirect name map.
fn remap_maps<A: Allocator, M: Remap>(
    maps: &mut [(u32, Vec<(u32, &str), A>)],
    space: Option<IndexSpace>,
    indices: &M,
) -> Result<(), RemapError<M::Error>> {
    remap_firsts(maps, space, indices)
}

/// # Defined
///
/// ```text
/// Value = { NameModel }
/// view = { name_item_view }
/// remapped = { remapped_name }
/// ```
///
/// Definitions: [`NameModel`](crate::definitions::custom::names::NameItem), [`name_item_view`](crate::definitions::custom::names::name_item_view), [`remapped_name`](crate::definitions::remap::customs::remapped_name). [How to read clauses](crate::definitions).
impl<A: Allocator + Copy> Indexed<A> for NameItem<'_, A> {
    fn remap<M: Remap>(&mut self, _alloc: A, indices: &M) -> Result<(), RemapError<M::Error>> {
        let space = space_of_subsection(self);
        match self {
            NameItem::Module(_) | NameItem::Other { .. } => Ok(()),
            NameItem::Map { names, .. } => remap_names(names, space, indices),
            NameItem::Indirect { maps, .. } => remap_maps(maps, space, indices),
        }
    }
}

/// # Defined
///
/// ```text
/// Value = { Hints }
/// view = { hints_view }
/// remapped = { remapped_hints }
/// ```
///
/// Definitions: [`Hints`](crate::definitions::custom::hints::Hints), [`hints_view`](crate::definitions::custom::hints::hints_view), [`remapped_hints`](crate::definitions::remap::customs::remapped_hints). [How to read clauses](crate::definitions).
impl<A: Allocator + Copy> Indexed<A> for (u32, Vec<BranchHint, A>) {
    fn remap<M: Remap>(&mut self, _alloc: A, indices: &M) -> Result<(), RemapError<M::Error>> {
        self.0 = mapped(indices, IndexSpace::Functions, self.0)?;
        Ok(())
    }
}

/// # Defined
///
/// ```text
/// Value = { Frequencies }
/// view = { frequencies_view }
/// remapped = { remapped_hints_in }
/// ```
///
/// Definitions: [`Frequencies`](crate::definitions::custom::code_metadata::Frequencies), [`frequencies_view`](crate::definitions::custom::code_metadata::frequencies_view), [`remapped_hints_in`](crate::definitions::remap::customs::remapped_hints_in). [How to read clauses](crate::definitions).
impl<A: Allocator + Copy> Indexed<A> for (u32, Vec<CodeHint<InstructionFrequency>, A>) {
    fn remap<M: Remap>(&mut self, _alloc: A, indices: &M) -> Result<(), RemapError<M::Error>> {
        self.0 = mapped(indices, IndexSpace::Functions, self.0)?;
        Ok(())
    }
}

/// # Defined
///
/// ```text
/// Value = { Orders }
/// view = { orders_view }
/// remapped = { remapped_hints_in }
/// ```
///
/// Definitions: [`Orders`](crate::definitions::custom::code_metadata::Orders), [`orders_view`](crate::definitions::custom::code_metadata::orders_view), [`remapped_hints_in`](crate::definitions::remap::customs::remapped_hints_in). [How to read clauses](crate::definitions).
impl<A: Allocator + Copy> Indexed<A> for (u32, Vec<CodeHint<CompilationOrder>, A>) {
    fn remap<M: Remap>(&mut self, _alloc: A, indices: &M) -> Result<(), RemapError<M::Error>> {
        self.0 = mapped(indices, IndexSpace::Functions, self.0)?;
        Ok(())
    }
}

/// # Defined
///
/// ```text
/// Value = { TargetItem }
/// view = { target_view }
/// remapped = { remapped_target }
/// ```
///
/// Definitions: [`TargetItem`](crate::definitions::custom::code_metadata::TargetItem), [`target_view`](crate::definitions::custom::code_metadata::target_view), [`remapped_target`](crate::definitions::remap::customs::remapped_target). [How to read clauses](crate::definitions).
impl<A: Allocator + Copy> Indexed<A> for CallTarget {
    fn remap<M: Remap>(&mut self, _alloc: A, indices: &M) -> Result<(), RemapError<M::Error>> {
        self.function_index = mapped(indices, IndexSpace::Functions, self.function_index)?;
        Ok(())
    }
}

/// # Defined
///
/// ```text
/// Value = { ℕ × List TargetItem }
/// view = { hint_as targets_view }
/// remapped = { remapped_target_hint }
/// ```
///
/// Definitions: [`TargetItem`](crate::definitions::custom::code_metadata::TargetItem), [`hint_as`](crate::definitions::custom::code_metadata::hint_as), [`targets_view`](crate::definitions::custom::code_metadata::targets_view), [`remapped_target_hint`](crate::definitions::remap::customs::remapped_target_hint). [How to read clauses](crate::definitions).
impl<A: Allocator + Copy> Indexed<A> for CodeHint<Vec<CallTarget, A>> {
    fn remap<M: Remap>(&mut self, alloc: A, indices: &M) -> Result<(), RemapError<M::Error>> {
        remap_each(&mut self.value, alloc, indices)
    }
}

/// # Defined
///
/// ```text
/// Value = { HintedTargets }
/// view = { call_targets_view }
/// remapped = { remapped_targets }
/// ```
///
/// Definitions: [`HintedTargets`](crate::definitions::custom::code_metadata::HintedTargets), [`call_targets_view`](crate::definitions::custom::code_metadata::call_targets_view), [`remapped_targets`](crate::definitions::remap::customs::remapped_targets). [How to read clauses](crate::definitions).
impl<A: Allocator + Copy> Indexed<A> for (u32, Vec<CodeHint<Vec<CallTarget, A>>, A>) {
    fn remap<M: Remap>(&mut self, alloc: A, indices: &M) -> Result<(), RemapError<M::Error>> {
        self.0 = mapped(indices, IndexSpace::Functions, self.0)?;
        remap_each(&mut self.1, alloc, indices)
    }
}

/// An instance of a core dump: the index of its module, its memories and its globals.
///
/// # Defined
///
/// ```text
/// Value = { Instance }
/// view = { instance_view }
/// remapped = { remapped_instance }
/// ```
///
/// Definitions: [`Instance`](crate::definitions::custom::core_dumps::Instance), [`instance_view`](crate::definitions::custom::core_dumps::instance_view), [`remapped_instance`](crate::definitions::remap::customs::remapped_instance). [How to read clauses](crate::definitions).
impl<A: Allocator + Copy> Indexed<A> for (u32, Vec<u32, A>, Vec<u32, A>) {
    fn remap<M: Remap>(&mut self, _alloc: A, indices: &M) -> Result<(), RemapError<M::Error>> {
        remap_numbers(&mut self.1, IndexSpace::Memories, indices)?;
        remap_numbers(&mut self.2, IndexSpace::Globals, indices)
    }
}

/// # Defined
///
/// ```text
/// Value = { SymbolModel }
/// view = { symbol_view }
/// remapped = { remapped_symbol }
/// ```
///
/// Definitions: [`SymbolModel`](crate::definitions::custom::symbols::Symbol), [`symbol_view`](crate::definitions::custom::symbols::symbol_view), [`remapped_symbol`](crate::definitions::remap::customs::remapped_symbol). [How to read clauses](crate::definitions).
impl<A: Allocator + Copy> Indexed<A> for Symbol<'_> {
    fn remap<M: Remap>(&mut self, _alloc: A, indices: &M) -> Result<(), RemapError<M::Error>> {
        match self {
            Symbol::Function { index, .. } => {
                *index = mapped(indices, IndexSpace::Functions, *index)?;
            }
            Symbol::Global { index, .. } => {
                *index = mapped(indices, IndexSpace::Globals, *index)?;
            }
            Symbol::Table { index, .. } => {
                *index = mapped(indices, IndexSpace::Tables, *index)?;
            }
            Symbol::Tag { index, .. } => {
                *index = mapped(indices, IndexSpace::Tags, *index)?;
            }
            Symbol::DataSymbol { definition, .. } => {
                if let Some(definition) = definition {
                    definition.index = mapped(indices, IndexSpace::Data, definition.index)?;
                }
            }
            Symbol::Section { .. } => {}
        }
        Ok(())
    }
}

/// Returns the index space of the members of a COMDAT group of this kind.
fn space_of_members(kind: u8) -> Option<IndexSpace> {
    match kind {
        0 => Some(IndexSpace::Data),
        1 => Some(IndexSpace::Functions),
        2 => Some(IndexSpace::Globals),
        3 => Some(IndexSpace::Tags),
        4 => Some(IndexSpace::Tables),
        _ => None,
    }
}

/// # Defined
///
/// ```text
/// Value = { ComdatSymbol }
/// view = { λ s. s }
/// remapped = { remapped_member }
/// ```
///
/// Definitions: [`remapped_member`](crate::definitions::remap::customs::remapped_member). [How to read clauses](crate::definitions).
impl<A: Allocator + Copy> Indexed<A> for ComdatSymbol {
    fn remap<M: Remap>(&mut self, _alloc: A, indices: &M) -> Result<(), RemapError<M::Error>> {
        self.index = mapped_number(indices, space_of_members(self.kind), self.index)?;
        Ok(())
    }
}

/// # Defined
///
/// ```text
/// Value = { ComdatModel }
/// view = { comdat_view }
/// remapped = { remapped_comdat }
/// ```
///
/// Definitions: [`ComdatModel`](crate::definitions::custom::comdats::Comdat), [`comdat_view`](crate::definitions::custom::comdats::comdat_view), [`remapped_comdat`](crate::definitions::remap::customs::remapped_comdat). [How to read clauses](crate::definitions).
impl<A: Allocator + Copy> Indexed<A> for Comdat<'_, A> {
    fn remap<M: Remap>(&mut self, alloc: A, indices: &M) -> Result<(), RemapError<M::Error>> {
        remap_each(&mut self.symbols, alloc, indices)
    }
}

/// # Defined
///
/// ```text
/// Value = { LinkModel }
/// view = { link_view }
/// remapped = { remapped_link }
/// ```
///
/// Definitions: [`LinkModel`](crate::definitions::custom::linking::LinkItem), [`link_view`](crate::definitions::custom::linking::link_view), [`remapped_link`](crate::definitions::remap::customs::remapped_link). [How to read clauses](crate::definitions).
impl<A: Allocator + Copy> Indexed<A> for LinkItem<'_, A> {
    fn remap<M: Remap>(&mut self, alloc: A, indices: &M) -> Result<(), RemapError<M::Error>> {
        match self {
            LinkItem::Comdats(groups) => remap_each(groups, alloc, indices),
            LinkItem::Symbols(symbols) => remap_each(symbols, alloc, indices),
            LinkItem::Segments(_)
            | LinkItem::InitFunctions(_)
            | LinkItem::Arch(_)
            | LinkItem::Other { .. } => Ok(()),
        }
    }
}

/// Returns the index space of the index of a relocation. All but one have the index of a symbol.
fn space_of_relocation(kind: PlainRelocation) -> Option<IndexSpace> {
    match kind {
        PlainRelocation::TypeIndexLeb => Some(IndexSpace::Types),
        _ => None,
    }
}

/// # Defined
///
/// ```text
/// Value = { Relocation }
/// view = { λ r. r }
/// remapped = { remapped_relocation }
/// ```
///
/// Definitions: [`remapped_relocation`](crate::definitions::remap::customs::remapped_relocation). [How to read clauses](crate::definitions).
impl<A: Allocator + Copy> Indexed<A> for Relocation {
    fn remap<M: Remap>(&mut self, _alloc: A, indices: &M) -> Result<(), RemapError<M::Error>> {
        match self {
            Relocation::Plain { kind, index, .. } => {
                *index = mapped_number(indices, space_of_relocation(*kind), *index)?;
                Ok(())
            }
            Relocation::Addend32 { .. } | Relocation::Addend64 { .. } => Ok(()),
        }
    }
}
