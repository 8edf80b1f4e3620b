// Written by tools/to-rust from crates/calls/src/copies.rt: change that.
//! Copies of builders and values: each has the same content as the original.

use dolzhytik::fallible::Allocator;
use dolzhytik::fallible::{Module, Result, add_all};
use dolzhytik::fallible::{CodeSection, Function};
use dolzhytik::fallible::{CoreDumpSection, CoreDumpStackSection, CustomSection, NameMap, NameSection, RelocationSection};
use dolzhytik::fallible::Instruction;
use dolzhytik::fallible::{CompositeInnerType, CompositeType, FuncType, StructType, SubType, TypeSection};
use dolzhytik::reader::TypeEntry;

/// Returns a module of the same sections.
///
/// # Proved
///
/// ```text
/// ensures { IfOk result (λ copy. copy ≡ module.now) }
/// ```
pub fn copied_module<A: Allocator + Clone>(module: &Module<A>) -> Result<Module<A>> {
    module.clone()
}

/// Returns a code section of the same bodies.
///
/// # Proved
///
/// ```text
/// ensures { IfOk result (λ copy. copy ≡ code.now) }
/// ```
pub fn copied_code<A: Allocator + Copy>(code: &CodeSection<A>) -> Result<CodeSection<A>> {
    code.clone()
}

/// Returns a function of the same raw body.
///
/// # Proved
///
/// ```text
/// ensures { IfOk result (λ copy. copy ≡ function.now) }
/// ```
pub fn copied_function<A: Allocator + Copy>(function: &Function<A>) -> Result<Function<A>> {
    function.clone()
}

/// Returns an instruction of the same opcode and immediates.
///
/// # Proved
///
/// ```text
/// ensures { IfOk result (λ copy. row_of copy ≡ row_of instruction.now) }
/// ```
pub fn copied_instruction<'a, A: Allocator + Copy>(
    instruction: &Instruction<'a, A>,
) -> Result<Instruction<'a, A>> {
    instruction.clone()
}

/// Returns a type section of the same entries.
///
/// # Proved
///
/// ```text
/// ensures { IfOk result (λ copy. copy ≡ types.now) }
/// ```
pub fn copied_types<A: Allocator + Copy>(types: &TypeSection<A>) -> Result<TypeSection<A>> {
    types.clone()
}

/// Returns two function types of the same parameters and results.
///
/// # Proved
///
/// ```text
/// ensures { IfOk result (λ copies. (func_in copies.0 ≡ func_in first.now) × (func_in copies.1 ≡ func_in second.now)) }
/// ```
pub fn copied_function_types<A: Allocator + Copy>(
    first: &FuncType<A>,
    second: &FuncType<A>,
) -> Result<(FuncType<A>, FuncType<A>)> {
    let copy = first.clone()?;
    Ok((copy, second.clone()?))
}

/// Returns a structure of the same fields.
///
/// # Proved
///
/// ```text
/// ensures { IfOk result (λ copy. copy.fields.items ≡ structure.now.fields.items) }
/// ```
pub fn copied_structure<A: Allocator + Copy>(structure: &StructType<A>) -> Result<StructType<A>> {
    structure.clone()
}

/// Returns the same function, array, structure or continuation.
///
/// # Proved
///
/// ```text
/// ensures { IfOk result (λ copy. shape_in copy ≡ shape_in shape.now) }
/// ```
pub fn copied_shape<A: Allocator + Copy>(
    shape: &CompositeInnerType<A>,
) -> Result<CompositeInnerType<A>> {
    shape.clone()
}

/// Returns the same composite type.
///
/// # Proved
///
/// ```text
/// ensures { IfOk result (λ copy. composite_in copy ≡ composite_in composite.now) }
/// ```
pub fn copied_composite<A: Allocator + Copy>(
    composite: &CompositeType<A>,
) -> Result<CompositeType<A>> {
    composite.clone()
}

/// Returns the same subtype.
///
/// # Proved
///
/// ```text
/// ensures { IfOk result (λ copy. sub_in copy ≡ sub_in subtype.now) }
/// ```
pub fn copied_subtype<A: Allocator + Copy>(subtype: &SubType<A>) -> Result<SubType<A>> {
    subtype.clone()
}

/// Returns a custom section of the same name and data.
///
/// # Proved
///
/// ```text
/// ensures { IfOk result (λ copy. (utf8_of copy.name ≡ utf8_of custom.now.name) × (items_of copy.bytes ≡ items_of custom.now.bytes)) }
/// ```
pub fn copied_custom<'a, A: Allocator + Copy>(
    custom: &CustomSection<'a, A>,
) -> Result<CustomSection<'a, A>> {
    custom.clone()
}

/// Returns a name section of the same subsections.
///
/// # Proved
///
/// ```text
/// ensures { IfOk result (λ copy. copy ≡ names.now) }
/// ```
pub fn copied_names<A: Allocator + Copy>(names: &NameSection<A>) -> Result<NameSection<A>> {
    names.clone()
}

/// Returns a map of the same indices and names.
///
/// # Proved
///
/// ```text
/// ensures { IfOk result (λ copy. copy ≡ map.now) }
/// ```
pub fn copied_map<A: Allocator + Copy>(map: &NameMap<A>) -> Result<NameMap<A>> {
    map.clone()
}

/// Returns the same two processes.
///
/// # Proved
///
/// ```text
/// ensures { IfOk result (λ copies. (copies.0 ≡ one.now) × (copies.1 ≡ other.now)) }
/// ```
pub fn copied_processes<A: Allocator + Copy>(
    one: &CoreDumpSection<A>,
    other: &CoreDumpSection<A>,
) -> Result<(CoreDumpSection<A>, CoreDumpSection<A>)> {
    let copy = one.clone()?;
    Ok((copy, other.clone()?))
}

/// Returns a stack of the same thread and frames.
///
/// # Proved
///
/// ```text
/// ensures { IfOk result (λ copy. copy ≡ stack.now) }
/// ```
pub fn copied_stack<A: Allocator + Copy>(
    stack: &CoreDumpStackSection<A>,
) -> Result<CoreDumpStackSection<A>> {
    stack.clone()
}

/// Returns a relocation section of the same name, section index and relocations.
///
/// # Proved
///
/// ```text
/// ensures { IfOk result (λ copy. copy ≡ relocations.now) }
/// ```
pub fn copied_relocations<A: Allocator + Copy>(
    relocations: &RelocationSection<A>,
) -> Result<RelocationSection<A>> {
    relocations.clone()
}

/// Returns a type section of decoded entries: the encoding of each, in order.
///
/// # Proved
///
/// ```text
/// ensures { IfOk result (λ section. section ≡ map entry_encoding types.now) }
/// ```
pub fn types_again<A: Allocator + Copy>(alloc: A, types: &[TypeEntry<A>]) -> Result<TypeSection<A>> {
    let mut section = TypeSection::new(alloc);
    match add_all(&mut section, types) {
        Ok(()) => Ok(section),
        Err((_, refused)) => Err(refused),
    }
}
