// Written by tools/to-rust from crates/read_back/src/dumps.rt: change that.
//! Core dumps, written and read back: the process, its modules, its instances, and the stack of a
//! thread.

use dolzhytik::fallible::Vec;
use crate::read_back::read_and_shorten;
use dolzhytik::fallible::Allocator;
use dolzhytik::fallible::{Encode, Module, Result};
use dolzhytik::reader::ReadFault;
use dolzhytik::fallible::{CoreDumpInstancesSection, CoreDumpModulesSection, CoreDumpSection, CoreDumpStackSection, CoreDumpValue};
use dolzhytik::reader::{Items, SectionKind};

/// Appends the section of a process.
///
/// # Proved
///
/// ```text
/// ensures { OnOk result (GainsDecoding (size_prefixed core_payload) name.now sink.old.items sink.new.items) }
/// ```
fn write_process<A: Allocator + Copy>(sink: &mut Vec<u8, A>, name: &str) -> Result<()> {
    let section = CoreDumpSection::new(*sink.allocator(), name)?;
    section.encode(sink)
}

/// Decodes the section of that process, and appends its minimal encoding.
///
/// # Asks
///
/// ```text
/// requires { encoding.old.items ≡ [] }
/// ```
///
/// # Proved
///
/// ```text
/// ensures read { IfOk result (λ items. contents_of items ≡ Core name.now) }
/// ensures same { OnOk result (GainsDecoding (size_prefixed core_payload) name.now sink.old.items sink.new.items) }
/// ensures memory { IfErr result (λ e. e ≢ Memory → ⊥) }
/// ```
pub fn read_process<'a, A: Allocator + Copy + 'a>(
    encoding: &'a mut Vec<u8, A>,
    name: &str,
    sink: &mut Vec<u8, A>,
) -> Result<Items<'a, A>, ReadFault> {
    write_process(encoding, name)?;
    let items = read_and_shorten(SectionKind::Core, encoding, sink)?;
    Ok(items)
}

/// Returns two modules: `main`, and one of this name.
///
/// # Proved
///
/// ```text
/// ensures { IfOk result (λ section. ContainsModules section (codes "main" ∷ name.now ∷ [])) }
/// ```
fn modules<A: Allocator + Copy>(alloc: A, name: &str) -> Result<CoreDumpModulesSection<A>> {
    let mut section = CoreDumpModulesSection::new(alloc);
    section.module("main")?;
    section.module(name)?;
    Ok(section)
}

/// Appends the section of these modules.
///
/// # Proved
///
/// ```text
/// ensures { OnOk result (GainsDecoding (size_prefixed modules_payload) (codes "main" ∷ name.now ∷ []) sink.old.items sink.new.items) }
/// ```
fn write_modules<A: Allocator + Copy>(sink: &mut Vec<u8, A>, name: &str) -> Result<()> {
    let section = modules(*sink.allocator(), name)?;
    section.encode(sink)
}

/// Decodes the section of those modules, and appends its minimal encoding.
///
/// # Asks
///
/// ```text
/// requires { encoding.old.items ≡ [] }
/// ```
///
/// # Proved
///
/// ```text
/// ensures read { IfOk result (λ items. contents_of items ≡ CoreModules (codes "main" ∷ name.now ∷ [])) }
/// ensures same { OnOk result (GainsDecoding (size_prefixed modules_payload) (codes "main" ∷ name.now ∷ []) sink.old.items sink.new.items) }
/// ensures memory { IfErr result (λ e. e ≢ Memory → ⊥) }
/// ```
pub fn read_modules<'a, A: Allocator + Copy + 'a>(
    encoding: &'a mut Vec<u8, A>,
    name: &str,
    sink: &mut Vec<u8, A>,
) -> Result<Items<'a, A>, ReadFault> {
    write_modules(encoding, name)?;
    let items = read_and_shorten(SectionKind::CoreModules, encoding, sink)?;
    Ok(items)
}

/// Returns two instances: of arrays, and of a vector and a slice.
///
/// # Proved
///
/// ```text
/// ensures { IfOk result (λ section. ContainsInstances section (first_instance ∷ other_instance index (7 ∷ []) ∷ [])) }
/// ```
fn instances<A: Allocator + Copy>(alloc: A, index: u32) -> Result<CoreDumpInstancesSection<A>> {
    let memories = Vec::from_slice(alloc, &[1u32])?;
    let globals = [7u32];
    let mut section = CoreDumpInstancesSection::new(alloc);
    section.instance(0, [0u32], [0u32, 1])?;
    section.instance(index, memories, globals.iter().copied())?;
    Ok(section)
}

/// Appends the section of these instances.
///
/// # Proved
///
/// ```text
/// ensures { OnOk result (GainsDecoding (size_prefixed instances_payload) (first_instance ∷ other_instance index (7 ∷ []) ∷ []) sink.old.items sink.new.items) }
/// ```
fn write_instances<A: Allocator + Copy>(sink: &mut Vec<u8, A>, index: u32) -> Result<()> {
    let section = instances(*sink.allocator(), index)?;
    section.encode(sink)
}

/// Decodes the section of those instances, and appends its minimal encoding.
///
/// # Asks
///
/// ```text
/// requires { encoding.old.items ≡ [] }
/// ```
///
/// # Proved
///
/// ```text
/// ensures read { IfOk result (λ items. contents_of items ≡ CoreInstances (first_instance ∷ other_instance index (7 ∷ []) ∷ [])) }
/// ensures same { OnOk result (GainsDecoding (size_prefixed instances_payload) (first_instance ∷ other_instance index (7 ∷ []) ∷ []) sink.old.items sink.new.items) }
/// ensures memory { IfErr result (λ e. e ≢ Memory → ⊥) }
/// ```
pub fn read_instances<'a, A: Allocator + Copy + 'a>(
    encoding: &'a mut Vec<u8, A>,
    index: u32,
    sink: &mut Vec<u8, A>,
) -> Result<Items<'a, A>, ReadFault> {
    write_instances(encoding, index)?;
    let items = read_and_shorten(SectionKind::CoreInstances, encoding, sink)?;
    Ok(items)
}

/// Returns the stack of a thread: two frames, of arrays, and of a slice.
///
/// # Proved
///
/// ```text
/// ensures { IfOk result (λ section. SaysStack section.0 section.1 (name.now, first_frame ∷ other_frame offset ∷ [])) }
/// ```
fn stack<A: Allocator + Copy>(alloc: A, name: &str, offset: u32) -> Result<CoreDumpStackSection<A>> {
    let locals = [CoreDumpValue::I32(5)];
    let mut section = CoreDumpStackSection::new(alloc, name)?;
    section.frame(0, 1, 2, [CoreDumpValue::Missing], [CoreDumpValue::I32(5)])?;
    section.frame(0, 0, offset, locals.iter().cloned(), [])?;
    Ok(section)
}

/// Appends the section of this stack.
///
/// # Proved
///
/// ```text
/// ensures { OnOk result (GainsDecoding (size_prefixed stack_payload) (name.now, first_frame ∷ other_frame offset ∷ []) sink.old.items sink.new.items) }
/// ```
fn write_stack<A: Allocator + Copy>(sink: &mut Vec<u8, A>, name: &str, offset: u32) -> Result<()> {
    let section = stack(*sink.allocator(), name, offset)?;
    section.encode(sink)
}

/// Decodes the section of that stack, and appends its minimal encoding.
///
/// # Asks
///
/// ```text
/// requires { encoding.old.items ≡ [] }
/// ```
///
/// # Proved
///
/// ```text
/// ensures read { IfOk result (λ items. contents_of items ≡ CoreStack (name.now, first_frame ∷ other_frame offset ∷ [])) }
/// ensures same { OnOk result (GainsDecoding (size_prefixed stack_payload) (name.now, first_frame ∷ other_frame offset ∷ []) sink.old.items sink.new.items) }
/// ensures memory { IfErr result (λ e. e ≢ Memory → ⊥) }
/// ```
pub fn read_stack<'a, A: Allocator + Copy + 'a>(
    encoding: &'a mut Vec<u8, A>,
    name: &str,
    offset: u32,
    sink: &mut Vec<u8, A>,
) -> Result<Items<'a, A>, ReadFault> {
    write_stack(encoding, name, offset)?;
    let items = read_and_shorten(SectionKind::CoreStack, encoding, sink)?;
    Ok(items)
}

/// Returns a core dump: a module of these four sections.
///
/// # Proved
///
/// ```text
/// ensures { IfOk result (λ bytes. DecodesSections (dump_sections name.now index) bytes.items) }
/// ```
pub fn core_dump<A: Allocator + Copy>(alloc: A, name: &str, index: u32) -> Result<Vec<u8, A>> {
    let mut dump = Module::new(alloc)?;
    dump.section(&CoreDumpSection::new(alloc, name)?)?;
    dump.section(&modules(alloc, name)?)?;
    dump.section(&instances(alloc, index)?)?;
    dump.section(&stack(alloc, name, index)?)?;
    Ok(dump.finish())
}
