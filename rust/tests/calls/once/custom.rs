// Written by tools/to-rust from crates/calls/src/once/custom.rt: change that.
//! Entries of custom sections.

use dolzhytik::fallible::Vec;
use dolzhytik::fallible::{Allocator, Global};
use dolzhytik::fallible::Result;
use dolzhytik::fallible::{BranchHint, BranchHints, CallTarget, CallTargets, CodeHint, CompilationOrder, CompilationOrders, CoreDumpInstancesSection, CoreDumpStackSection, CoreDumpValue, DataSymbolDefinition, IndirectNameMap, InstructionFrequencies, InstructionFrequency, LinkingSection, NameMap, NameSection, ProducersField, ProducersSection, SymbolTable};

pub fn names<A: Allocator + Copy>(alloc: A) -> Result<()> {
    let mut map = NameMap::new(alloc);
    map.append(0, "a")?;
    map.members_law();
    let mut section = NameSection::new(alloc);
    section.tags(&map)?;
    section.data(&map)?;
    Ok(())
}

pub fn names_inside<A: Allocator + Copy>(alloc: A) -> Result<()> {
    let inside = IndirectNameMap::new(alloc);
    let mut section = NameSection::new(alloc);
    section.labels(&inside)?;
    section.fields(&inside)?;
    section.parameters(&inside)?;
    section.tag_parameters(&inside)?;
    Ok(())
}

pub fn linking<A: Allocator + Copy>(alloc: A) -> Result<()> {
    let mut symbols = SymbolTable::new(alloc);
    let definition = DataSymbolDefinition {
        index: 0,
        offset: 0,
        size: 1,
    };
    symbols.data(0, "a", Some(definition))?;
    let mut section = LinkingSection::new(alloc);
    section.symbol_table(&symbols)?;
    section.target_arch("wasm32")?;
    Ok(())
}

pub fn producers<A: Allocator + Copy>(alloc: A) -> Result<()> {
    let mut field = ProducersField::new(alloc);
    field.value("a", "1")?;
    let mut section = ProducersSection::new(alloc);
    section.field("language", &field)?;
    Ok(())
}

pub fn hints<A: Allocator + Copy>(alloc: A) -> Result<()> {
    let hint = BranchHint {
        branch_func_offset: 3,
        branch_hint_value: 1,
    };
    let mut section = BranchHints::new(alloc);
    section.function_hints(0, [hint])?;
    Ok(())
}

pub fn frequencies<A: Allocator + Copy>(alloc: A) -> Result<()> {
    let hint = CodeHint {
        offset: 3,
        value: InstructionFrequency(32),
    };
    let mut section = InstructionFrequencies::new(alloc);
    section.function_hints(0, [hint])?;
    Ok(())
}

pub fn orders<A: Allocator + Copy>(alloc: A) -> Result<()> {
    let value = CompilationOrder {
        order: 1,
        hotness: Some(2),
    };
    let mut section = CompilationOrders::new(alloc);
    section.function_hints(0, [CodeHint { offset: 0, value }])?;
    Ok(())
}

pub fn call_targets(alloc: Global) -> Result<()> {
    let target = CallTarget {
        function_index: 7,
        percent: 90,
    };
    let value = Vec::from_slice(alloc, &[target])?;
    let mut section = CallTargets::new(alloc);
    section.function_hints(0, [CodeHint { offset: 5, value }])?;
    Ok(())
}

pub fn core_dumps<A: Allocator + Copy>(alloc: A) -> Result<()> {
    let mut instances = CoreDumpInstancesSection::new(alloc);
    instances.instance(0, [1], [2])?;
    let mut stack = CoreDumpStackSection::new(alloc, "main")?;
    let missing = CoreDumpValue::Missing;
    stack.frame(0, 42, 51, [missing.clone()], [missing])?;
    Ok(())
}
